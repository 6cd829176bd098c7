"""The message about the state of the gateway and its devices."""
import json
import pathlib
import unittest

from enogate_mqtt.health import HEALTH_EVERY, MAX_NAMED_DEVICES
from enogate_mqtt.state import time_in
from enogate_tools import VERSION
from fakes import BridgeFixture, LogTest, learned, listing, reading, status

TOPIC = "enogate/hall/health"
BASE, OTHER_BASE = "FFA1B280", "FF800000"
NOBODY = {"count": 0, "ids": []}


def response(data, code=0):
    return {"code": code, "data": data, "type": "response"}


class HealthMessages(LogTest):
    maxDiff = None

    def setUp(self):
        super().setUp()
        self.fixture = BridgeFixture(self)

    def start(self, *devices):
        """A bridge that is connected, and has got the list of these devices."""
        self.fixture.start()
        self.fixture.broker.accept_connection()
        self.fixture.run_turns()
        self.fixture.write_lines(*listing(*((name, eep, "") for name, eep in devices)))
        self.fixture.run_turns()

    def write_answers(self, *lines):
        """Gateway and radio module answer, after these lines."""
        self.fixture.write_lines(*lines, status(), response(BASE))
        self.fixture.run_turns(2)

    def pass_time(self, seconds):
        """The time passes. Gateway and radio module answer all the time."""
        for _ in range(int(seconds // 5)):
            self.fixture.write_lines(status(), response(BASE))
            self.fixture.wall.now += 5
            self.fixture.run_turns(1, 5)

    def messages(self):
        """The messages that were published on this connection."""
        return [json.loads(text) for _, text in self.fixture.published(TOPIC)]

    def last(self):
        return self.messages()[-1]

    def test_the_first_message(self):
        """It is published when it is known whether gateway and stick answer."""
        self.start(("01800ABC", "A5-02-05"))
        self.fixture.write_lines(status())
        self.fixture.run_turns()
        self.assertEqual(self.messages(), [])
        self.write_answers(reading("01800ABC"))
        self.assertEqual(self.messages(), [{
            "base": BASE, "gateway": True, "stick": True, "version": VERSION, "free_megabytes": 3,
            "last_telegram": "2027-01-15T08:00:00+00:00", "last_telegram_seconds": 1_800_000_000,
            "silent": NOBODY, "weak": NOBODY, "low_battery": NOBODY}])
        self.assertEqual([is_retained for topic, _, is_retained in self.fixture.broker.connection.published
                          if topic == TOPIC], [True])

    def test_a_gateway_that_does_not_answer(self):
        self.start()
        self.fixture.run_turns(4, 5)
        self.assertEqual(self.messages(), [{
            "base": None, "gateway": False, "stick": False, "version": VERSION, "last_telegram": None,
            "last_telegram_seconds": None, "free_megabytes": 3,
            "silent": NOBODY, "weak": NOBODY, "low_battery": NOBODY}])

    def test_a_stick_at_a_gateway_that_does_not_answer(self):
        """The stick does not count, even if a telegram comes."""
        self.start(("01800ABC", "A5-02-05"))
        for _ in range(20):
            self.fixture.write_lines(reading("01800ABC"))
            self.fixture.run_turns(1, 5)
        self.assertEqual((self.last()["gateway"], self.last()["stick"]), (False, False))

    def test_a_stick_that_does_not_answer(self):
        self.start()
        for _ in range(4):
            self.fixture.write_lines(status())
            self.fixture.run_turns(1, 5)
        self.assertEqual([(message["gateway"], message["stick"], message["base"]) for message in self.messages()],
                         [(True, False, None)])

    def test_once_a_minute(self):
        """And only if it has changed, however often it could change."""
        self.start(("01800ABC", "A5-02-05"))
        self.write_answers(reading("01800ABC", dbm=-90))
        for dbm in range(-80, -60):
            self.pass_time(5)
            self.write_answers(reading("01800ABC", dbm=dbm))
        self.assertEqual([message["weak"]["count"] for message in self.messages()], [1, 0])
        self.pass_time(60)
        count = len(self.messages())
        self.pass_time(600)
        self.assertEqual(len(self.messages()), count)
        self.write_answers(reading("01800ABC"))
        self.pass_time(60)
        self.assertEqual(len(self.messages()), count + 1)
        self.assertEqual(HEALTH_EVERY, 60)

    def test_silent_devices(self):
        self.start(("01800AB1", "A5-02-05"), ("01800AB2", "A5-02-05"), ("01800AB3", "F6-02-01"))
        self.write_answers(reading("01800AB1"), reading("01800AB3", "F6-02-01", [{"name": "R1", "word": "AI"}]))
        self.pass_time(3600)
        self.assertEqual(self.last()["silent"], NOBODY)
        self.pass_time(65)
        self.assertEqual(self.last()["silent"], {"count": 1, "ids": ["01800AB1"]})
        self.assertEqual(self.last()["last_telegram_seconds"], 1_800_000_000)

    def test_the_setting_of_home_assistant_changes_nothing(self):
        self.start(("01800AB1", "A5-02-05"))
        self.fixture.bridge.devices.expire_after = 10
        self.write_answers(reading("01800AB1"))
        self.pass_time(120)
        self.assertEqual(self.last()["silent"], NOBODY)

    def test_low_batteries(self):
        self.start(("01800AB1", "A5-06-01"), ("01800AB2", "A5-06-01"), ("01800AB3", "A5-06-01"))
        volts = [{"den": 10, "name": "SVC", "num": 24, "unit": "V"}]
        self.write_answers(reading("01800AB1", "A5-06-01", volts),
                           reading("01800AB2", "A5-06-01", [{**volts[0], "num": 25}]),
                           reading("01800AB3", "A5-06-01", [{"name": "SVC", "out_of_range": 255}]))
        self.assertEqual(self.last()["low_battery"], {"count": 1, "ids": ["01800AB1"]})

    def test_many_devices(self):
        names = [f"018000{number:02X}" for number in range(MAX_NAMED_DEVICES + 9)]
        self.start(*((name, "A5-02-05") for name in names))
        self.write_answers(*(reading(name, dbm=-99) for name in reversed(names)))
        self.assertEqual(self.last()["weak"], {"count": len(names), "ids": names[:MAX_NAMED_DEVICES]})
        self.assertEqual(MAX_NAMED_DEVICES, 50)

    def test_a_device_that_is_removed(self):
        self.start(("01800ABC", "A5-02-05"))
        self.write_answers(reading("01800ABC", dbm=-99))
        self.fixture.write_lines(learned("01800ABC", result="deleted"))
        self.pass_time(65)
        self.assertEqual((self.last()["weak"], self.last()["last_telegram"]), (NOBODY, None))

    def test_the_base_id(self):
        """It is that of the last answer. An answer from before the start may be that of another stick."""
        self.fixture.write_lines(response(OTHER_BASE))
        self.start()
        self.fixture.write_lines(status(), response(BASE, 1), response("0102"), response('FFA1B2"}'),
                                 response("FF800001"))
        self.fixture.run_turns(2)
        self.assertEqual(self.last()["base"], None)
        self.pass_time(65)
        self.assertEqual(self.last()["base"], BASE)

    def test_free_space(self):
        """It is that of the file system with less."""
        self.start()
        self.write_answers()
        for sizes, megabytes in (((9 * 2 ** 20, 5 * 2 ** 20), 5), ((2 ** 20 - 1, 2 ** 40), 0), ((None, 7 * 2 ** 20), 7),
                                 ((7 * 2 ** 20, None), 7), ((None, None), None)):
            self.fixture.free_bytes.update(zip(self.fixture.free_bytes, sizes))
            self.pass_time(65)
            self.assertEqual(self.last()["free_megabytes"], megabytes)

    def test_a_new_connection(self):
        """The message is published again only if the broker has another one, or none."""
        self.start()
        self.write_answers()
        self.fixture.broker.accept_connection()
        self.fixture.run_turns()
        self.assertEqual(self.messages(), [])
        self.fixture.broker.memory[TOPIC] = "{}"
        self.fixture.broker.accept_connection()
        self.fixture.run_turns()
        self.assertEqual(self.messages(), [])
        self.pass_time(65)
        self.assertEqual(len(self.messages()), 1)
        del self.fixture.broker.memory[TOPIC]
        self.fixture.broker.accept_connection()
        self.fixture.run_turns()
        self.assertEqual(len(self.messages()), 1)

    def test_somebody_else_publishes_there(self):
        self.start()
        self.write_answers()
        for text in (b"{}", b""):
            self.fixture.send(TOPIC, text)
            self.fixture.run_turns()
        self.assertEqual(len(self.messages()), 3)
        self.assertEqual(self.messages()[0], self.last())

    def test_hostile_texts(self):
        """No text of a line or of the broker gets into the message, unless its form is checked."""
        hostile_text = 'x","evil":"\\"}\n'
        self.start(("01800ABC", "A5-02-05"))
        self.write_answers({**listing(("01800ABC", "A5-02-05", hostile_text))[0]}, reading("01800ABC", readings=[
            {"name": "SVC", "word": "evil\""}]), {**status(), "mode": hostile_text}, response(hostile_text),
            f'{{"type":"{hostile_text}"}}')
        self.assertNotIn("evil", self.fixture.published(TOPIC)[-1][1])
        self.assertEqual(len(self.last()), 10)

    def test_times_that_the_broker_retains(self):
        """Without a state file they are adopted, whatever they are."""
        for text, seconds in (("evil", None), ("9999-12-31T23:59:59+00:00", None), ("0001-01-01T00:00:00", None),
                              ("2027-01-15T08:00:00", None), ("2027-01-15T07:59:59+00:00", 1_799_999_999)):
            with self.subTest(text):
                self.fixture = BridgeFixture(self)
                self.fixture.broker.memory["enogate/hall/01800ABC/last_seen"] = text
                self.start(("01800ABC", "A5-02-05"))
                self.fixture.run_turns(10)
                self.write_answers()
                known_devices = self.fixture.bridge.devices.known_devices
                self.assertEqual(known_devices["01800ABC"].last_readings, {"last_seen": text})
                self.assertEqual(self.last()["last_telegram_seconds"], seconds)

    def test_times_without_a_zone(self):
        self.assertIsNone(time_in({"last_seen": "2027-01-15T08:00:00"}))
        self.assertEqual(time_in({"last_seen": "2027-01-15T09:00:00+01:00"}).timestamp(), 1_800_000_000)

    def test_the_guide(self):
        """Its example has the members of a message."""
        self.start()
        self.write_answers()
        page = (pathlib.Path(__file__).parents[2] / "docs/guide/health.md").read_text("utf-8")
        example = json.loads(next(line for line in page.splitlines() if line.startswith('{"base"')))
        self.assertEqual(example.keys(), self.last().keys())
        self.assertEqual(example["last_telegram_seconds"],
                         time_in({"last_seen": example["last_telegram"]}).timestamp())
        self.assertIn(f"the IDs of the first {MAX_NAMED_DEVICES} of them", page)


if __name__ == "__main__":
    unittest.main()
