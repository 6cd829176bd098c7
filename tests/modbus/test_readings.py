"""Values, quality and age of readings, and messages that nobody should send."""
from __future__ import annotations

import json
import unittest
import unittest.mock

from enogate_modbus import readings as readings_module
from enogate_modbus.readings import GOOD, NO_NUMBER, NO_READING, STALE
from modbus_testcase import NOON, NOT_A_NUMBER, TABLE, ReadingsTest

UNKNOWN_AGE = 65535
HOUR = 3600.0
# What is not a number in the form that a bridge publishes.
NO_NUMBERS = ("unknown", "out_of_range", "nan", "NaN", "inf", "-inf", "1e5", "0x10", " 1", "1 ", "1\n", "+1", ".5",
              "1.", "--1", "1,5", "1_0", "\uff11", "\u0661", "1" * 21, "0." + "1" * 100, "on1", "None", "x" * 9999)
# Topics below that of the gateway whose messages are no readings with registers.
OTHER_TOPICS = ("lines", "orders", "counters", "health", "learn", "learn/set", "01800ABC/dbm", "01800ABC/press",
                "01800ABC/R1", "01800ABC/EB", "01800ABC/PB", "01800ABC/OV", "01800ABC/OV/0/set", "01800ABC/OV/100",
                "01800ABC/OV/00", "01800ABC/OV/-1", "01800ABC/OV/", "01800ABC/TMP/0", "01800ABC/TMP/", "01800ABC/",
                "01800ABC", "01800abc/TMP", "1800ABC/TMP", "001800ABC/TMP", "/TMP", "TMP", "", "01800ABC/tmp",
                "01800ABC//TMP", "01800ABC/TMP\n", "01800ABC/TMP/0/0", "0180\u0660ABC/TMP", "01800ABC/OV/\u0661")


class Values(ReadingsTest):
    def assert_value(self, topic: str, text: str, high: int, low: int = 0) -> None:
        self.receive_now(topic, text)
        self.assertEqual(self.readings.registers_of(topic), (high, low, GOOD, 0), text)

    def test_numbers_are_floats_with_the_high_word_first(self):
        for text, high, low in (("20.5", 0x41A4, 0), ("0", 0, 0), ("1", 0x3F80, 0), ("-1.5", 0xBFC0, 0),
                                ("20.0784", 0x41A0, 0xA090), ("16777216", 0x4B80, 0), ("0.1", 0x3DCC, 0xCCCD),
                                ("9223372036854775807", 0x5F00, 0), ("0." + "1" * 99, 0x3DE3, 0x8E39)):
            self.assert_value("01800ABC/TMP", text, high, low)

    def test_words_are_numbers_of_the_table(self):
        for topic, word, high in (("CO", "closed", 0), ("CO", "open", 0x3F80), ("PIRS", "on", 0x3F80),
                                  ("PIRS", "off", 0), ("OCC", "pressed", 0x3F80), ("OCC", "released", 0),
                                  ("EL/0", "ok", 0), ("EL/1", "warning", 0x3F80), ("EL/0", "failure", 0x4000),
                                  ("EL/0", "not_supported", 0x4040), ("PFD/0", "1", 0x3F80)):
            self.assert_value(f"01800ABC/{topic}", word, high)

    def test_what_is_not_a_number_has_no_value(self):
        for topic in ("TMP", "CO", "OV/0", "EL/0", "POS/0"):
            for text in NO_NUMBERS:
                self.receive_now(f"01800ABC/{topic}", text)
                self.assertEqual(self.readings.registers_of(f"01800ABC/{topic}"), (*NOT_A_NUMBER, NO_NUMBER, 0), text)

    def test_a_word_of_another_reading_is_not_a_number(self):
        for topic, text in (("TMP", "on"), ("CO", "on"), ("PIRS", "open"), ("EL/0", "closed")):
            self.receive_now(f"01800ABC/{topic}", text)
            self.assertEqual(self.readings.registers_of(f"01800ABC/{topic}"), (*NOT_A_NUMBER, NO_NUMBER, 0), text)

    def test_bytes_that_are_no_text(self):
        self.receive("01800ABC/TMP", b"\xff\xfe2\x00")
        self.assertEqual(self.readings.registers_of("01800ABC/TMP"), (*NOT_A_NUMBER, NO_NUMBER, UNKNOWN_AGE))

    def test_readings_of_a_name_have_the_same_words_and_unit(self):
        """So registers need no profile."""
        for name in {row.topic for row in TABLE.rows if row.topic}:
            rows = [row for row in TABLE.rows if row.topic == name and row.entity not in ("", "event")]
            self.assertLessEqual(len({(bool(row.by), row.more.get("unit"), *map(row.more.get, ("on", "off", "options")))
                                      for row in rows}), 1, name)


class Quality(ReadingsTest):
    def assert_quality(self, topic: str, quality: int) -> None:
        self.assertEqual(self.readings.registers_of(topic)[2], quality)

    def test_a_reading_that_was_never_seen_or_is_removed(self):
        for text in ("", "20", ""):
            self.receive("01800ABC/TMP", text)
            self.receive("01800ABC/last_seen", "2026-12-01T12:00:00+00:00")
            registers = self.readings.registers_of("01800ABC/TMP")
            self.assertEqual(registers, (0x41A0, 0, GOOD, 0) if text
                             else (*NOT_A_NUMBER, NO_READING, UNKNOWN_AGE))

    def test_everything_between_device_and_broker_must_be_online(self):
        self.receive_now("01800ABC/OV/0", "100")
        self.assert_quality("01800ABC/OV/0", GOOD)
        for name in ("status", "gateway", "module"):
            for text, quality in (("offline", STALE), ("online", GOOD)):
                self.receive(name, text)
                self.assert_quality("01800ABC/OV/0", quality)
        for text in ("", "Online", "x", "online "):
            self.receive("status", text)
            self.assert_quality("01800ABC/OV/0", STALE)
        self.assertEqual(self.readings.registers_of("01800ABC/OV/0")[:2], (0x42C8, 0))

    def test_gateway_and_module_may_be_unknown_but_not_the_bridge(self):
        self.readings.start_session()
        self.receive_now("01800ABC/OV/0", "100")
        self.assert_quality("01800ABC/OV/0", STALE)
        self.receive("status", "online")
        self.assert_quality("01800ABC/OV/0", GOOD)

    def test_a_lost_connection_makes_all_readings_stale_until_they_are_received_again(self):
        self.receive_now("01800ABC/OV/0", "100")
        self.readings.start_session()
        self.assertFalse(self.readings.is_online())
        self.receive_states("online")
        self.assertTrue(self.readings.is_online())
        self.assert_quality("01800ABC/OV/0", STALE)
        self.receive_now("01800ABC/OV/0", "100")
        self.assert_quality("01800ABC/OV/0", GOOD)

    def assert_lifetime(self, topic: str, seconds: float) -> None:
        for later, quality in ((seconds, GOOD), (seconds + 1, STALE)):
            self.time_of_day.now = NOON
            self.receive_now(topic, "0")
            self.time_of_day.now += later
            self.assert_quality(topic, quality)

    def test_cyclic_readings_expire(self):
        """After three times the longest interval of all profiles that have them."""
        for topic, hours in (("HUM", 1), ("CONC", 1), ("TMP", 1.5), ("CO", 1.5), ("ILL", 1.5), ("SVC", 1.5)):
            self.assert_lifetime(f"01800ABC/{topic}", hours * HOUR)

    def test_the_setting_of_the_bridge(self):
        self.new_readings(expire_after=100)
        self.assert_lifetime("01800ABC/HUM", 100)
        self.new_readings(expire_after=None)
        self.receive_now("01800ABC/HUM", "0")
        self.time_of_day.now += 1e9
        self.assert_quality("01800ABC/HUM", GOOD)

    def test_other_readings_do_not_expire(self):
        for topic in ("OV/0", "POS/0", "MR_kWh/0", "EL/0"):
            self.time_of_day.now = NOON
            self.receive_now(f"01800ABC/{topic}", "1")
            self.time_of_day.now += 1e9
            self.assert_quality(f"01800ABC/{topic}", GOOD)

    def test_a_cyclic_reading_of_unknown_age_is_stale(self):
        self.receive("01800ABC/HUM", "50")
        self.receive("01800ABC/OV/0", "50")
        self.assert_quality("01800ABC/HUM", STALE)
        self.assert_quality("01800ABC/OV/0", GOOD)


class Age(ReadingsTest):
    def assert_age(self, minutes: int) -> None:
        self.assertEqual(self.readings.registers_of("01800ABC/TMP")[3], minutes)

    def test_minutes_since_the_last_telegram(self):
        self.receive_now("01800ABC/TMP", "20")
        for seconds, minutes in ((0, 0), (59.9, 0), (60, 1), (119, 1), (120, 2), (65534 * 60, 65534),
                                 (65535 * 60, 65535), (65536 * 60, 65535), (1e12, 65535)):
            self.time_of_day.now = NOON + seconds
            self.assert_age(minutes)

    def test_a_message_is_no_telegram(self):
        """The bridge publishes the last readings again after a restart, and a broker sends retained ones."""
        self.receive_now("01800ABC/TMP", "20")
        self.time_of_day.now += 600
        self.receive("01800ABC/TMP", "20")
        self.assert_age(10)
        self.receive("01800ABC/last_seen", "2026-12-01T13:10:00+01:00")
        self.assert_age(0)

    def test_a_clock_that_differs(self):
        self.receive_now("01800ABC/TMP", "20")
        for seconds, minutes in ((60, 0), (60.1, UNKNOWN_AGE), (1e9, UNKNOWN_AGE)):
            self.time_of_day.now = NOON - seconds
            self.assert_age(minutes)

    def test_a_time_that_is_none(self):
        for text in ("", "x", "2026-12-01", "2026-12-01T12:00:00", "2026-13-01T12:00:00+00:00", "1796126400",
                     "9999-12-31T23:59:59-23:59", "x" * 9999):
            self.receive_now("01800ABC/TMP", "20")
            self.receive("01800ABC/last_seen", text)
            self.assert_age(UNKNOWN_AGE)
        self.receive("01800ABC/last_seen", "0001-01-01T00:00:00+23:59")
        self.assert_age(UNKNOWN_AGE)

    def test_the_age_is_that_of_the_device(self):
        self.receive_now("01800ABD/TMP", "20")
        self.receive("01800ABC/TMP", "20")
        self.assert_age(UNKNOWN_AGE)


class HostileMessages(ReadingsTest):
    def test_topics_without_registers(self):
        for topic in OTHER_TOPICS:
            self.assertEqual(self.receive(topic, "20"), "", topic)
        self.assertEqual(self.readings.numbers, {})

    def test_topics_with_registers(self):
        for topic in ("01800ABC/TMP", "FFFFFFFF/OV/0", "00000000/OV/29", "01800ABC/MR_l_s/15"):
            self.assertEqual(self.receive(topic, "20"), topic)
            self.assertEqual(self.receive(topic, ""), "")

    def test_other_gateways(self):
        for topic in ("enogate/hall2/01800ABC/TMP", "enogate/x/01800ABC/TMP", "x/enogate/hall/01800ABC/TMP",
                      "enogate/hallx/status"):
            message = readings_module.ReceivedMessage(topic, b"offline", False)
            self.assertEqual(self.readings.handle_message(message), "")
        self.assertEqual((self.readings.numbers, self.readings.is_online()), ({}, True))

    def test_labels(self):
        about = {"serial_number": "01800ABC", "name": "Front door", "model": "Contact (D5-00-01)"}
        self.receive_label(json.dumps({"device": about}), "01800ABC_dbm")
        self.assertEqual(self.readings.labels, {})
        self.receive_label(json.dumps({"device": about}))
        self.assertEqual(self.readings.labels, {"01800ABC": ("Front door", "Contact (D5-00-01)")})
        for changes in ({"name": "x" * 33}, {"name": ""}, {"name": 5}, {"name": None}, {"name": "a\nb"},
                        {"name": "ä"}, {"model": "x" * 81}, {"model": "\x1b[0m"}, {"model": []}):
            self.receive_label(json.dumps({"device": {**about, **changes}}))
        for payload in (b"", b"x", b"[]", b"{}", b"5", b'{"device":5}', b'{"device":[]}', b"\xff", b"null",
                        b"[" * 60000, b'{"device":{"serial_number":"01800ABC"}}'):
            self.receive_label(payload)
        self.assertEqual(self.readings.labels, {"01800ABC": ("Front door", "Contact (D5-00-01)")})

    def test_a_label_is_no_formula(self):
        about = {"serial_number": "01800ABC", "name": '=HYPERLINK("http://x")', "model": "@x"}
        self.receive_label(json.dumps({"device": about}))
        self.assertEqual(self.readings.labels["01800ABC"], ("'=HYPERLINK(\"http://x\")", "'@x"))

    def test_another_client_cannot_fill_the_memory(self):
        with unittest.mock.patch.object(readings_module, "MAX_READINGS", 3):
            for number in range(5):
                device = f"0180000{number}"
                self.receive(f"{device}/TMP", "20")
                self.receive(f"{device}/last_seen", "2026-12-01T12:00:00+00:00")
                self.receive_label(json.dumps({"device": {"serial_number": device, "name": "x", "model": "y"}}))
            self.receive("01800000/TMP", "21")
        self.assertEqual((len(self.readings.numbers), len(self.readings.last_seen), len(self.readings.labels)),
                         (3, 3, 3))
        self.assertEqual(self.readings.registers_of("01800000/TMP")[:3], (0x41A8, 0, GOOD))


class Filters(ReadingsTest):
    def test_what_is_subscribed_to(self):
        states = ["enogate/hall/gateway", "enogate/hall/module", "enogate/hall/status"]
        devices = ["enogate/hall/+/+", "enogate/hall/+/+/+"]
        self.assertEqual(self.readings.filters,
                         ["homeassistant/sensor/enogate_hall/+/config", *devices, *states])
        self.topics = readings_module.Topics("hall", "")
        self.assertEqual(self.new_readings().filters, [*devices, *states])
