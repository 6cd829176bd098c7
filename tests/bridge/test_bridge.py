"""The bridge, with files of a gateway and a broker that is a stand-in."""
import json
import sqlite3
import unittest
from unittest import mock

from enogate_mqtt import bridge
from enogate_mqtt.connection import ConnectionLost
from enogate_mqtt.store import Store
from fakes import OK, LogTest, BridgeFixture, learned, listing, reading, status

TOPIC_ROOT = "enogate/hall/"
RESPONSE = {"code": 0, "data": "FF800000", "name": "OK", "type": "response"}
DEVICES = (("01800ABC", "A5-02-05", "Attic"), ("01800ABD", "D2-01-12", ""))


class WholeBridge(LogTest):
    def setUp(self):
        super().setUp()
        self.fixture = BridgeFixture(self)

    def start(self, *lines):
        """A bridge that is connected, after a first run that read these lines."""
        self.fixture.write_lines(*lines)
        self.fixture.start()
        self.fixture.broker.accept_connection()
        self.fixture.run_turns()

    def restart_bridge(self):
        """The bridge is stopped and started again."""
        self.fixture.stop()
        self.fixture.broker.lose()
        self.fixture.start()

    def lines(self):
        return [text for topic, text in self.fixture.published(TOPIC_ROOT + "lines")]

    def test_the_first_run(self):
        self.start(*listing(*DEVICES), reading("01800ABC"))
        published = self.fixture.published()
        self.assertEqual([text for text in published if text[0] == TOPIC_ROOT + "status"],
                         [(TOPIC_ROOT + "status", "online")])
        self.assertLess(published.index((TOPIC_ROOT + "01800ABC/TMP", "20")),
                        published.index((TOPIC_ROOT + "status", "online")))
        self.assertIn((TOPIC_ROOT + "01800ABC/TMP", "20"), published)
        self.assertIn("homeassistant/sensor/enogate_hall/01800ABC_TMP/config", dict(published))
        self.assertIn("homeassistant/binary_sensor/enogate_hall/status/config", dict(published))
        self.assertEqual(self.lines(), [])
        self.assertEqual(self.fixture.orders(), ["list", "status"])

    def test_lines_are_published(self):
        self.start()
        self.fixture.write_lines(OK, learned("01800ABC"), reading("01800ABC"))
        self.fixture.run_turns()
        self.assertEqual(self.lines(), [json.dumps(line) for line in (OK, learned("01800ABC"), reading("01800ABC"))])
        self.assertIn((TOPIC_ROOT + "01800ABC/last_seen", "2027-01-15T08:00:00+00:00"), self.fixture.published())

    def last_seen(self):
        """What is published as the time of a telegram that comes now."""
        count_before = len(self.fixture.published(TOPIC_ROOT + "01800ABC/last_seen"))
        self.fixture.write_lines(reading("01800ABC"))
        self.fixture.run_turns(2, 0.01)
        self.assertEqual(self.fixture.broker.memory[TOPIC_ROOT + "01800ABC/TMP"], "20")
        return [text for _, text in self.fixture.published(TOPIC_ROOT + "01800ABC/last_seen")[count_before:]]

    def test_a_clock_that_is_not_set_yet(self):
        """Soon after a start, no time is published that is earlier than one of an earlier run."""
        self.start(*listing(*DEVICES))
        self.assertEqual(self.last_seen(), ["2027-01-15T08:00:00+00:00"])
        self.restart_bridge()
        self.fixture.broker.accept_connection()
        self.fixture.run_turns(20, 0.01)
        for seconds, published_times in ((-1, []), (-20_000_000, []), (0, ["2027-01-15T08:00:00+00:00"]), (-1, []),
                                         (86400, ["2027-01-16T08:00:00+00:00"])):
            with self.subTest(seconds):
                self.fixture.wall.now = 1_800_000_000.0 + seconds
                self.assertEqual(self.last_seen(), published_times)

    def test_a_clock_that_was_in_advance(self):
        """An earlier time is published some minutes after the start."""
        self.start(*listing(*DEVICES))
        self.last_seen()
        start_time = self.fixture.clock.now
        self.restart_bridge()
        self.fixture.broker.accept_connection()
        self.fixture.run_turns(20, 0.01)
        self.fixture.wall.now -= 86400
        self.fixture.clock.now = start_time + bridge.CLOCK_SET_WITHIN - 1
        self.assertEqual(self.last_seen(), [])
        self.fixture.clock.now = start_time + bridge.CLOCK_SET_WITHIN
        self.assertEqual(self.last_seen(), ["2027-01-14T08:00:00+00:00"])
        self.assertEqual(bridge.CLOCK_SET_WITHIN, 600)

    def test_a_list_ends_the_question(self):
        self.start()
        self.fixture.write_lines(*listing(*DEVICES))
        self.fixture.run_turns(6, 100)
        self.assertEqual(self.fixture.orders().count("list"), 1)

    def test_a_list_of_earlier_is_no_answer(self):
        self.start(*listing(*DEVICES))
        self.fixture.run_turns(2, 6)
        self.assertEqual(self.fixture.orders().count("list"), 2)

    def test_presses_of_earlier_are_not_published(self):
        rocker = [{"name": "R1", "word": "BI"}, {"name": "EB", "word": "pressed"}]
        press = reading("01800AC1", "F6-02-01", rocker)
        self.start(learned("01800AC1", "F6-02-01"))
        self.fixture.write_lines(press)
        self.fixture.run_turns()
        topic = TOPIC_ROOT + "01800AC1/press"
        self.assertEqual(self.fixture.published(topic), [(topic, '{"event_type":"BI"}')])
        self.fixture.broker.lose()
        self.fixture.run_turns()
        self.fixture.write_lines(press)
        self.fixture.run_turns()
        self.fixture.write_lines(press)
        self.fixture.broker.accept_connection()
        self.fixture.run_turns()
        self.assertEqual(self.fixture.published(TOPIC_ROOT + "01800AC1/press"), [])
        self.assertEqual(len(self.lines()), 2)
        self.restart_bridge()
        self.fixture.write_lines(press)
        self.fixture.broker.accept_connection()
        self.fixture.run_turns()
        self.assertEqual(self.fixture.published(TOPIC_ROOT + "01800AC1/press"), [])

    def test_lines_that_were_not_acknowledged_are_published_again(self):
        self.start()
        self.fixture.broker.connection.acknowledges_messages = False
        self.fixture.write_lines(OK)
        self.fixture.run_turns()
        self.assertEqual(len(self.lines()), 1)
        self.fixture.broker.lose()
        self.fixture.run_turns()
        self.fixture.broker.accept_connection()
        self.fixture.run_turns()
        self.assertEqual(len(self.lines()), 1)
        self.fixture.broker.accept_connection()
        self.fixture.run_turns()
        self.assertEqual(self.lines(), [])

    def test_a_restart_publishes_only_differences(self):
        self.start(*listing(*DEVICES), reading("01800ABC"))
        self.fixture.write_lines(status())
        self.fixture.run_turns(20)
        self.restart_bridge()
        self.fixture.write_lines(OK)
        self.fixture.broker.accept_connection()
        self.fixture.run_turns(20)
        self.assertEqual(sorted(topic for topic, _ in self.fixture.published()),
                         [TOPIC_ROOT + "lines", TOPIC_ROOT + "status"])

    def test_what_the_broker_lost_is_published_again(self):
        self.start(*listing(*DEVICES), reading("01800ABC"))
        self.fixture.run_turns(20)
        del self.fixture.broker.memory[TOPIC_ROOT + "01800ABC/TMP"]
        self.fixture.broker.memory[TOPIC_ROOT + "01800ABC/dbm"] = "-99"
        self.restart_bridge()
        self.fixture.broker.accept_connection()
        self.fixture.run_turns(20)
        self.assertEqual(self.fixture.published(TOPIC_ROOT + "01800ABC"),
                         [(TOPIC_ROOT + "01800ABC/TMP", "20"), (TOPIC_ROOT + "01800ABC/dbm", "-45")])

    def test_strays_below_a_device_are_removed(self):
        self.start(*listing(*DEVICES), reading("01800ABC"))
        self.fixture.run_turns(20)
        self.fixture.broker.memory |= {TOPIC_ROOT + "01800ABC/CO": "open", TOPIC_ROOT + "01800ABC/OV/0": "1",
                                       TOPIC_ROOT + "note/x": "y"}
        self.restart_bridge()
        self.fixture.broker.accept_connection()
        self.fixture.run_turns(20)
        self.assertEqual(self.fixture.published(TOPIC_ROOT + "01800ABC"), [
            (TOPIC_ROOT + "01800ABC/CO", ""), (TOPIC_ROOT + "01800ABC/OV/0", "")])
        self.assertIn(TOPIC_ROOT + "note/x", self.fixture.broker.memory)

    def test_another_profile_while_the_broker_is_away(self):
        self.start(*listing(*DEVICES), reading("01800ABC"))
        self.fixture.run_turns(20)
        self.fixture.broker.lose()
        self.fixture.write_lines(learned("01800ABC", "D5-00-01"))
        self.fixture.run_turns()
        self.fixture.broker.accept_connection()
        self.fixture.run_turns(20)
        self.assertEqual({topic for topic in self.fixture.broker.memory if "01800ABC" in topic and "TMP" in topic},
                         set())
        self.assertIn("homeassistant/binary_sensor/enogate_hall/01800ABC_CO/config", self.fixture.broker.memory)

    def test_a_device_that_is_taught_again_while_the_bridge_is_away_has_no_old_states(self):
        self.start(*listing(*DEVICES), reading("01800ABC"))
        self.fixture.run_turns(20)
        self.restart_bridge()
        self.fixture.write_lines(learned("01800ABC", result="deleted"), learned("01800ABC"))
        self.fixture.broker.accept_connection()
        self.fixture.run_turns(20)
        self.assertNotIn(TOPIC_ROOT + "01800ABC/TMP", self.fixture.broker.memory)

    def test_deletions_survive_a_restart_without_the_broker(self):
        self.start(*listing(*DEVICES), reading("01800ABC"))
        self.fixture.run_turns(20)
        self.restart_bridge()
        self.fixture.write_lines(learned("01800ABC", result="deleted"), *listing(*DEVICES[1:]))
        self.fixture.run_turns(40)
        self.restart_bridge()
        self.fixture.broker.accept_connection()
        self.fixture.run_turns(20)
        self.assertEqual({topic for topic in self.fixture.broker.memory if "01800ABC" in topic}, set())
        self.fixture.run_turns(30)
        self.assertEqual(self.fixture.bridge.devices.removed_topics, set())
        self.assertEqual(self.fixture.bridge.store.removed_topics, set())

    def test_a_deletion_that_is_not_acknowledged_is_repeated(self):
        self.start(*listing(*DEVICES), reading("01800ABC"))
        self.fixture.run_turns(20)
        self.fixture.broker.connection.acknowledges_messages = False
        self.fixture.write_lines(learned("01800ABC", result="deleted"))
        self.fixture.run_turns()
        self.assertIn(TOPIC_ROOT + "01800ABC/TMP", self.fixture.bridge.devices.removed_topics)
        self.fixture.broker.lose()
        self.fixture.run_turns()
        self.fixture.broker.accept_connection()
        self.fixture.run_turns()
        self.assertIn((TOPIC_ROOT + "01800ABC/TMP", ""), self.fixture.published())
        self.assertEqual(self.fixture.bridge.devices.removed_topics, set())

    def test_a_lost_state_file(self):
        """Readings are taken from the broker; what belongs to nobody is removed, once the list is there."""
        self.start(*listing(*DEVICES), reading("01800ABC"))
        self.fixture.run_turns(20)
        self.fixture.stop()
        self.fixture.broker.lose()
        self.fixture.state.unlink()
        self.fixture.lines.write_text("")
        stray = {TOPIC_ROOT + "01800AFF/TMP": "3", "homeassistant/sensor/enogate_hall/01800AFF_TMP/config": "{}"}
        self.fixture.broker.memory |= stray | {TOPIC_ROOT + "note/x": "y"}
        self.fixture.start()
        self.fixture.broker.accept_connection()
        self.fixture.run_turns(20)
        self.assertLess(stray.keys(), self.fixture.broker.memory.keys())
        self.fixture.write_lines(*listing(*DEVICES))
        self.fixture.run_turns(30)
        self.assertEqual(self.fixture.bridge.devices.known_devices["01800ABC"].last_readings,
                         {"TMP": "20", "dbm": "-45"})
        self.assertEqual([self.fixture.broker.memory[TOPIC_ROOT + "01800ABC/" + subtopic]
                          for subtopic in ("TMP", "dbm")],
                         ["20", "-45"])
        self.assertFalse(stray.keys() & self.fixture.broker.memory.keys())
        self.assertIn(TOPIC_ROOT + "note/x", self.fixture.broker.memory)

    def test_a_new_device_is_compared(self):
        self.start()
        self.fixture.broker.memory[TOPIC_ROOT + "01800ABC/CO"] = "open"
        self.fixture.write_lines(learned("01800ABC"))
        self.fixture.run_turns(20)
        self.assertNotIn(TOPIC_ROOT + "01800ABC/CO", self.fixture.broker.memory)

    def test_the_reader(self):
        """It gets what is retained, publishes nothing, and is closed when all is compared."""
        self.start(*listing(*DEVICES), reading("01800ABC"))
        self.fixture.run_turns(20)
        reader, = self.fixture.broker.readers
        self.assertEqual((reader.published, reader.is_closed, self.fixture.bridge.reader), ([], True, None))
        self.assertEqual(self.fixture.broker.connection.requests, [])
        self.fixture.write_lines(learned("01800AFF"))
        self.fixture.run_turns(20)
        self.assertEqual(len(self.fixture.broker.readers), 2)

    def test_a_reader_that_is_lost(self):
        self.start(*listing(*DEVICES))
        self.fixture.broker.accept_connection()
        self.fixture.run_turns(1)
        self.fixture.broker.readers[-1].is_lost = True
        self.fixture.run_turns(1)
        self.assertEqual(self.fixture.broker.given_loss_reasons,
                         ["it is lost (on the connection that reads what is retained)"])
        self.assertEqual((self.fixture.bridge.connection, self.fixture.bridge.reader), (None, None))
        self.assertTrue(self.fixture.broker.readers[-1].is_closed)

    def test_a_reader_that_is_not_open_yet(self):
        self.start()
        self.fixture.broker.accept_connection()
        self.fixture.broker.open_reader, original = lambda: closed_reader, self.fixture.broker.open_reader
        closed_reader = original()
        closed_reader.is_open = False
        self.fixture.run_turns(5)
        self.assertEqual((closed_reader.requests, self.fixture.published(TOPIC_ROOT + "status")), ([], []))
        closed_reader.is_open = True
        self.fixture.run_turns(5)
        self.assertEqual(self.fixture.published(TOPIC_ROOT + "status"), [(TOPIC_ROOT + "status", "online")])

    def test_without_discovery(self):
        self.fixture.topics = type(self.fixture.topics)("hall", "")
        self.start(*listing(*DEVICES), reading("01800ABC"))
        self.fixture.run_turns(20)
        self.assertEqual(self.fixture.published("homeassistant"), [])
        self.assertIn((TOPIC_ROOT + "01800ABC/TMP", "20"), self.fixture.published())

    def test_orders(self):
        self.start()
        self.fixture.send(TOPIC_ROOT + "orders", b"add 01800ABC D5-00-01\nlist")
        self.fixture.send(TOPIC_ROOT + "01800ABD/OV/0/set", b"ON")
        self.fixture.run_turns()
        self.assertEqual(self.fixture.orders()[2:], ["add 01800ABC D5-00-01", "list", "switch 01800ABD 0 on"])

    def test_the_longest_message(self):
        """16,384 bytes are passed on at once, also if the last line has no end."""
        for payload in (b"teach 5\n" * 2047 + b"teach 55", b"teach 5\n" * 2048):
            self.setUp()
            self.start()
            self.fixture.send(TOPIC_ROOT + "orders", payload)
            self.fixture.run_turns()
            self.assertEqual((len(payload), len(self.fixture.orders()), self.logged_lines), (16384, 2 + 2048, []))

    def test_lists_and_states_of_others_wait_for_the_answer_of_the_first(self):
        self.start()
        self.fixture.write_lines(*listing(*DEVICES), status())
        self.fixture.run_turns(2, 1)
        order_count = len(self.fixture.orders())
        for order, answer in (("list", listing(*DEVICES)), ("status", [status()])):
            for _ in range(2):
                self.fixture.send(TOPIC_ROOT + "orders", f"{order}\n".encode() * 400)
                self.fixture.run_turns(2)
                self.fixture.send(TOPIC_ROOT + "orders", f"{order}\nteach 5\n".encode())
                self.fixture.run_turns(2)
                self.assertEqual(self.fixture.orders()[order_count:], [order, "teach 5"])
                self.fixture.write_lines(*answer)
                # the bridge asks for the status after a list
                self.fixture.run_turns(2)
                self.fixture.write_lines(status())
                self.fixture.run_turns(2)
                order_count = len(self.fixture.orders())
        self.assert_logged("message on 'enogate/hall/orders': 399 orders not passed on: ", 4)
        self.assert_logged("message on 'enogate/hall/orders': 1 orders not passed on: an earlier list or status is not "
                           "answered yet", 4)

    def test_a_list_counts_the_devices(self):
        devices = [(f"{0x01800000 + number:08X}", "A5-02-05", "") for number in range(1000)]
        self.start()
        self.fixture.write_lines(*listing(*devices))
        self.fixture.run_turns(3)
        for number in range(8):
            self.fixture.send(TOPIC_ROOT + "orders", b"list")
            self.fixture.run_turns(2, 0.01)
            self.fixture.write_lines(*listing(*devices))
            self.fixture.run_turns(2, 0.01)
        self.assertEqual(self.fixture.orders().count("list"), 1 + 3)
        self.assert_logged("message on 'enogate/hall/orders' lost: "
                           f"{self.fixture.desk}: too many orders in a short time", 5)

    def test_messages_that_are_ignored(self):
        self.start()
        self.fixture.send(TOPIC_ROOT + "orders", b"x" * 20000)
        self.fixture.send(TOPIC_ROOT + "01800ABD/OV/0/set", b"on")
        self.fixture.send(TOPIC_ROOT + "orders", b"list", retained=True)
        self.fixture.send(TOPIC_ROOT + "01800ABD/OV/0", b"100")
        self.fixture.run_turns()
        self.assertEqual(self.fixture.orders(), ["list", "status"])
        self.assert_logged("message on 'enogate/hall/orders' ignored: 20000 bytes, the maximum is 16384")
        self.assert_logged("message on 'enogate/hall/01800ABD/OV/0/set' ignored: b'on' is not ON, OFF or 0 to 100")
        self.assert_logged("message on 'enogate/hall/orders' ignored: it is retained")
        self.assertEqual(len(self.logged_lines), 3)

    def test_a_message_without_a_desk_is_logged_as_lost(self):
        self.start()
        self.fixture.desk.unlink()
        self.fixture.send(TOPIC_ROOT + "orders", b"list")
        self.fixture.run_turns()
        self.assert_logged(f"message on 'enogate/hall/orders' lost: {self.fixture.desk}: No such file or directory")

    def test_an_order_for_a_gateway_that_does_not_answer(self):
        self.start()
        self.fixture.run_turns(2, 20)
        self.fixture.send(TOPIC_ROOT + "orders", b"list")
        self.fixture.run_turns()
        self.assert_logged("message on 'enogate/hall/orders': the gateway does not answer, orders may be lost")

    def test_a_topic_of_control_characters_forges_no_line(self):
        self.start()
        self.fixture.send(TOPIC_ROOT + "01800ABD/x\nenogate-mqtt: x/0/set", b"ON")
        self.fixture.run_turns()
        self.assertTrue(all("\n" not in line for line in self.logged_lines))

    def test_the_gateway(self):
        self.start()
        self.assertEqual(self.fixture.published(TOPIC_ROOT + "gateway"), [])
        self.fixture.write_lines(status(readings=5))
        self.fixture.run_turns()
        self.assertEqual(self.fixture.published(TOPIC_ROOT + "gateway"), [(TOPIC_ROOT + "gateway", "online")])
        self.assertEqual(self.fixture.published(TOPIC_ROOT + "learn"), [(TOPIC_ROOT + "learn", "OFF")])
        counters = dict(self.fixture.published(TOPIC_ROOT + "counters"))[TOPIC_ROOT + "counters"]
        self.assertEqual(json.loads(counters), {"ignored": 0, "readings": 5, "refused": 0, "responses": 0, "teach": 0})
        self.assertEqual(self.fixture.orders()[-1], "base")
        self.fixture.write_lines({"code": 0, "data": "FF800000", "name": "OK", "type": "response"})
        self.fixture.run_turns()
        self.assertEqual(self.fixture.published(TOPIC_ROOT + "module"), [(TOPIC_ROOT + "module", "online")])
        self.fixture.run_turns(2, 61)
        self.fixture.run_turns(2, 20)
        self.assertEqual(self.fixture.published(TOPIC_ROOT + "gateway")[-1], (TOPIC_ROOT + "gateway", "offline"))
        self.assertEqual(self.fixture.published(TOPIC_ROOT + "module")[-1], (TOPIC_ROOT + "module", "offline"))
        self.fixture.write_lines(status("on"))
        self.fixture.run_turns()
        self.assertEqual(self.fixture.published(TOPIC_ROOT + "gateway")[-1], (TOPIC_ROOT + "gateway", "online"))
        self.assertEqual(self.fixture.published(TOPIC_ROOT + "learn")[-1], (TOPIC_ROOT + "learn", "ON"))

    def test_the_same_is_reported_once(self):
        self.start()
        for _ in range(3):
            self.fixture.write_lines(status())
            self.fixture.run_turns()
        for name in ("counters", "learn", "gateway"):
            self.assertEqual(len(self.fixture.published(TOPIC_ROOT + name)), 1, name)
        self.fixture.broker.accept_connection()
        self.fixture.run_turns()
        self.assertEqual([self.fixture.published(TOPIC_ROOT + name) for name in ("counters", "learn", "gateway")],
                         [[], [], []])
        self.fixture.broker.memory.clear()
        self.fixture.broker.accept_connection()
        self.fixture.run_turns()
        self.assertEqual(len(self.fixture.published(TOPIC_ROOT + "counters")), 1)

    def published_counters(self, readings, seconds=1.0):
        """The numbers of readings in the counters that are published within some seconds after a status line."""
        count_before = len(self.fixture.published(TOPIC_ROOT + "counters"))
        self.fixture.write_lines(status(readings=readings))
        self.fixture.run_turns(10, seconds / 10)
        return [json.loads(text)["readings"]
                for _, text in self.fixture.published(TOPIC_ROOT + "counters")[count_before:]]

    def test_counters_are_published_once_a_minute(self):
        """However often they change, and the newest ones in the end."""
        self.start()
        self.assertEqual(self.published_counters(1), [1])
        self.assertEqual([self.published_counters(readings, 5.8) for readings in range(2, 12)], [[]] * 10)
        self.assertEqual(self.published_counters(12, 2), [12])
        self.assertEqual(self.published_counters(13, 59), [])
        self.assertEqual(self.published_counters(13, 2), [13])
        self.assertEqual(self.published_counters(13, 300), [])
        self.assertEqual(self.published_counters(14, 2), [14])

    def test_the_learn_window_does_not_wait_for_the_counters(self):
        """The learn window is shown at once, whenever the counters were published."""
        self.start()
        self.published_counters(1)
        self.fixture.write_lines(status("on", readings=2))
        self.fixture.run_turns()
        self.assertEqual(self.fixture.published(TOPIC_ROOT + "learn")[-1], (TOPIC_ROOT + "learn", "ON"))
        self.assertEqual(len(self.fixture.published(TOPIC_ROOT + "counters")), 1)

    def test_counters_on_a_new_connection(self):
        """What the broker does not retain is published at once."""
        self.start()
        self.published_counters(1)
        self.fixture.broker.memory.clear()
        self.fixture.broker.accept_connection()
        self.assertEqual(self.published_counters(2), [2])

    def test_the_learn_window(self):
        self.start()
        self.fixture.write_lines(status())
        self.fixture.run_turns()
        self.fixture.send(TOPIC_ROOT + "learn/set", b"ON")
        self.fixture.run_turns()
        self.assertEqual(self.fixture.orders()[-2:], ["learn on", "status"])
        self.fixture.run_turns(3, 60)
        self.assertIn("learn off", self.fixture.orders())

    def test_the_learn_window_is_closed_at_the_end(self):
        self.start()
        self.fixture.send(TOPIC_ROOT + "learn/set", b"ON")
        self.fixture.run_turns(1)
        self.fixture.stop()
        self.assertEqual(self.fixture.orders()[-1], "learn off")

    def start_with_orders(self, orders=b"status\nlearn on answer\n"):
        """A bridge that has just given these orders."""
        self.start()
        self.fixture.send(TOPIC_ROOT + "orders", orders)
        self.fixture.run_turns(1)
        self.assertEqual(self.fixture.orders()[2:4], orders.decode().split("\n")[:2])

    def second_of_closing(self, seconds=0):
        """The orders that a bridge gives in the turns after a kill, until the learn window is closed, or for four
        minutes, and the second in which it gives the last one. This is some seconds after the last turn."""
        self.fixture.kill()
        self.fixture.wall.now += seconds
        self.fixture.start()
        order_count = len(self.fixture.orders())
        for second in range(240):
            self.fixture.run_turns(1, 1)
            if "learn off" in self.fixture.orders()[order_count:]:
                return second
        return None

    def test_the_learn_window_of_a_bridge_that_was_killed(self):
        for seconds, expected_second in ((0, 120), (50, 70), (119, 1), (120, 0), (1000, 0)):
            with self.subTest(seconds):
                self.setUp()
                self.start_with_orders()
                self.assertEqual(self.second_of_closing(seconds), expected_second)
                self.fixture.run_turns(30)
                self.assertIsNone(self.second_of_closing())

    def test_the_learn_window_of_a_bridge_that_was_killed_twice(self):
        self.start_with_orders()
        self.fixture.kill()
        self.fixture.wall.now += 20
        self.fixture.start()
        self.fixture.run_turns(3)
        self.assertEqual(self.second_of_closing(30), 70)

    def test_the_learn_window_is_saved_before_the_order_is_given(self):
        self.start()
        saved_ends = []
        with mock.patch.object(self.fixture.bridge.desk, "give", lambda *_: saved_ends.append(
                Store(str(self.fixture.state), "homeassistant").learn_until) or 0):
            self.fixture.send(TOPIC_ROOT + "learn/set", b"ON")
            self.fixture.run_turns(1)
        self.assertEqual(saved_ends, [self.fixture.wall() + 120])

    def test_a_learn_window_that_is_closed_is_not_closed_again(self):
        for orders in (b"learn on\nlearn off\n", b"learn as F6-02-01\nlearn off\n"):
            self.setUp()
            self.start_with_orders(orders)
            self.fixture.run_turns(30)
            self.assertIsNone(self.second_of_closing())

    def test_a_learn_window_that_could_not_be_opened(self):
        self.start()
        self.fixture.desk.unlink()
        self.fixture.send(TOPIC_ROOT + "orders", b"learn on")
        self.fixture.run_turns(30)
        self.assertIsNone(self.fixture.bridge.requests.window)
        self.fixture.desk.touch()
        self.assertIsNone(self.second_of_closing())

    def test_a_learn_window_that_could_not_be_extended(self):
        self.start_with_orders()
        self.fixture.desk.unlink()
        self.fixture.send(TOPIC_ROOT + "orders", b"learn on")
        self.fixture.wall.now += 50
        self.fixture.run_turns(1)
        self.fixture.desk.touch()
        self.assertEqual(self.fixture.bridge.requests.window.time_of_day, self.fixture.wall() + 70)

    def test_a_learn_window_without_a_state_file_that_can_be_written(self):
        self.start()
        with mock.patch.object(self.fixture.bridge.store, "save_device", side_effect=sqlite3.OperationalError("full")):
            self.fixture.write_lines(reading("01800ABC"))
            self.fixture.run_turns(1)
            self.fixture.send(TOPIC_ROOT + "orders", b"learn on")
            self.fixture.run_turns(2, 121)
        self.assertEqual([order for order in self.fixture.orders() if "learn" in order], ["learn on", "learn off"])

    def test_a_stop_closes_the_learn_window_once(self):
        self.start_with_orders()
        self.fixture.stop()
        self.assertEqual(self.fixture.orders()[-1], "learn off")
        self.assertIsNone(self.second_of_closing())

    def test_another_bridge_of_before_is_found_dead(self):
        self.start()
        for payload, count in ((b"online", 1), (b"offline", 2), (b"online", 2)):
            self.fixture.send(TOPIC_ROOT + "status", payload)
            self.fixture.run_turns()
            self.assertEqual(self.fixture.published(TOPIC_ROOT + "status"), [(TOPIC_ROOT + "status", "online")] * count)

    def show_all(self):
        """A bridge that has published everything, and what the broker retains then."""
        self.start(*listing(*DEVICES), reading("01800ABC"))
        self.fixture.write_lines(status(), RESPONSE)
        self.fixture.run_turns(20)
        self.assertLess({TOPIC_ROOT + name for name in ("status", "gateway", "module", "counters", "learn")},
                        self.fixture.broker.memory.keys())
        return dict(self.fixture.broker.memory)

    def run_answered_turns(self, turn_count):
        """Turns in which the gateway answers."""
        for turn_number in range(turn_count):
            if turn_number % 30 == 0:
                self.fixture.write_lines(status(), RESPONSE)
            self.fixture.run_turns(1)

    def test_what_somebody_removes_comes_back(self):
        for start in ("", TOPIC_ROOT, "homeassistant/", "homeassistant/sensor", "homeassistant/switch"):
            with self.subTest(start):
                self.setUp()
                memory_before = self.show_all()
                self.fixture.remove_retained(start)
                self.assertLess(self.fixture.broker.memory.keys(), memory_before.keys())
                self.fixture.run_turns(2)
                self.assertEqual([self.fixture.broker.memory.get(TOPIC_ROOT + name) for name in ("status", "learn")],
                                 ["online", "OFF"])
                self.run_answered_turns(80)
                self.assertEqual(self.fixture.broker.memory, memory_before)
                self.run_answered_turns(300)
                self.assertEqual(len(self.fixture.broker.readers), 2)

    def test_a_removal_that_takes_some_time(self):
        memory_before = self.show_all()
        for start in (TOPIC_ROOT + "status", "homeassistant/sensor", TOPIC_ROOT, "homeassistant"):
            self.fixture.remove_retained(start)
            self.run_answered_turns(40)
        self.assertEqual(len(self.fixture.broker.readers), 1)
        self.run_answered_turns(40)
        self.assertEqual(self.fixture.broker.memory, memory_before)

    def test_a_single_message_that_is_removed_comes_back_within_a_day(self):
        self.show_all()
        self.fixture.remove_retained(TOPIC_ROOT + "01800ABC/TMP")
        self.fixture.run_turns(20, 3600)
        self.assertEqual(len(self.fixture.broker.readers), 1)
        self.fixture.run_turns(10, 3600)
        self.assertEqual(len(self.fixture.broker.readers), 2)
        self.assertEqual(self.fixture.broker.memory[TOPIC_ROOT + "01800ABC/TMP"], "20")

    def test_what_others_publish_on_topics_of_the_bridge(self):
        memory_before = self.show_all()
        for name in ("status", "gateway", "module", "counters", "learn"):
            for payload in (b"offline", b"", b"\xff\xff", b"something"):
                self.fixture.broker.memory[TOPIC_ROOT + name] = "other"
                self.fixture.send(TOPIC_ROOT + name, payload)
                self.fixture.run_turns(2)
                self.assertEqual(self.fixture.broker.memory[TOPIC_ROOT + name], memory_before[TOPIC_ROOT + name],
                                 (name, payload))
        count = len(self.fixture.published())
        self.fixture.run_turns(20)
        self.assertEqual(len(self.fixture.published()), count)

    def test_it_is_connected_when_its_message_has_come_back(self):
        self.start()
        self.assertEqual(self.fixture.broker.messages, ["connected"])
        self.fixture.send(TOPIC_ROOT + "status", b"online")
        self.fixture.run_turns(200)
        self.fixture.broker.accept_connection()
        self.fixture.run_turns()
        self.assertEqual(self.fixture.broker.messages, ["connected"] * 2)

    def test_an_early_message_of_another_client(self):
        """It does not show that the messages of the bridge come back."""
        self.fixture.start()
        self.fixture.broker.accept_connection(passes_on=False)
        self.fixture.send(TOPIC_ROOT + "status", b"online")
        self.fixture.run_turns(1)
        self.assertFalse(self.fixture.bridge.is_online)
        self.fixture.run_turns()
        self.assertTrue(self.fixture.bridge.is_online)
        self.assertEqual(self.fixture.broker.messages, [])

    def test_a_broker_that_refuses_what_is_published(self):
        refused_message = f"refused {TOPIC_ROOT}status"
        self.fixture.start()
        for count in (1, 2):
            self.fixture.broker.accept_connection(passes_on=False)
            self.fixture.run_turns(5, 0)
            self.assertTrue(self.fixture.bridge.is_online)
            self.fixture.run_turns(15, 1)
            self.assertEqual(self.fixture.broker.messages, [refused_message] * (count - 1))
            self.fixture.run_turns(1, 1)
            self.assertEqual(self.fixture.broker.messages, [refused_message] * count)
            self.fixture.run_turns(100, 1)
            self.assertEqual(self.fixture.broker.messages, [refused_message] * count)
        self.fixture.send(TOPIC_ROOT + "status", b"online")
        self.fixture.run_turns(20, 1)
        self.assertEqual(self.fixture.broker.messages, [refused_message, refused_message, "connected"])

    def test_orders_that_are_lost_by_a_restart_of_the_gateway(self):
        """They are named, and not given again."""
        self.start()
        for _ in range(2):
            self.fixture.write_lines(*listing(*DEVICES), status(), RESPONSE)
            self.fixture.run_turns(2)
        self.fixture.write_lines(status())
        self.fixture.run_turns(2)
        self.fixture.send(TOPIC_ROOT + "orders", b"teach 5\nteach \x1b\xff\n")
        for channel in range(9):
            self.fixture.send(TOPIC_ROOT + f"01800ABD/OV/{channel}/set", b"OFF")
        self.fixture.run_turns(1)
        self.fixture.write_lines(OK)
        self.fixture.run_turns(1)
        self.fixture.desk.write_text("")
        self.fixture.run_turns()
        self.assertEqual(self.logged_lines, [
            "WARNING: not answered before the gateway was started again, so probably lost: 'teach \\x1b\ufffd', "
            "'switch 01800ABD 0 off', 'switch 01800ABD 1 off', 'switch 01800ABD 2 off', 'switch 01800ABD 3 off' "
            "and 5 more"])
        self.assertEqual(self.fixture.orders(), ["status", "base"])
        self.fixture.run_turns(20)
        self.assert_logged("not answered before")

    def congest_broker(self):
        """More readings than may be under way, at a broker that does not acknowledge them, and a press after them."""
        self.start(*listing(*DEVICES), learned("01800AC1", "F6-02-01"))
        self.fixture.run_turns(20)
        connection = self.fixture.broker.connection
        connection.acknowledges_messages = False
        connection.published.clear()
        for line_number in range(300):
            temperature = [{"den": 1, "name": "TMP", "num": line_number, "unit": "C"}]
            self.fixture.write_lines(*(reading(name, readings=temperature) for name in ("01800ABC", "01800ABE")))
        rocker = [{"name": "R1", "word": "BI"}, {"name": "EB", "word": "pressed"}]
        self.fixture.write_lines(reading("01800AC1", "F6-02-01", rocker))
        self.fixture.run_turns(5)
        return connection

    def test_a_broker_that_is_slower_than_the_lines(self):
        """Of each state only the newest waits, and a press is before the states, and these before the lines."""
        connection = self.congest_broker()
        self.assertEqual((len(connection.unacknowledged_numbers), len(connection.published)), (500, 500))
        self.assertLess(len(self.fixture.bridge.backlog), 20)
        connection.acknowledges_messages = True
        self.fixture.run_turns(1)
        later = [(topic.removeprefix(TOPIC_ROOT), text) for topic, text in self.fixture.published()[500:]]
        self.assertEqual(later[0], ("01800AC1/press", '{"event_type":"BI"}'))
        subtopics = [subtopic for subtopic, _ in later]
        self.assertEqual(sorted(text for subtopic, text in later if subtopic.endswith("ABC/TMP")), ["299"])
        self.assertLess(max(number for number, subtopic in enumerate(subtopics) if subtopic != "lines"),
                        subtopics.index("lines"))
        self.fixture.run_turns(10)
        self.assertEqual(len(self.lines()), 601)
        self.assertEqual([self.fixture.broker.memory[TOPIC_ROOT + name] for name in ("01800ABC/TMP", "01800ABE/TMP")],
                         ["299", "299"])
        self.assertEqual(self.fixture.bridge.outbox.entries.__len__(), 0)

    def test_a_loss_while_messages_wait(self):
        """A press that has not been published is not published later. States are."""
        self.congest_broker()
        self.fixture.broker.accept_connection()
        self.fixture.run_turns(20)
        self.assertEqual(self.fixture.published(TOPIC_ROOT + "01800AC1/press"), [])
        self.assertEqual(self.fixture.broker.memory[TOPIC_ROOT + "01800ABC/TMP"], "299")
        self.assertEqual(len(self.lines()), 601)

    def test_the_end_while_messages_wait(self):
        connection = self.congest_broker()
        self.fixture.stop()
        self.assertEqual(connection.published[-1][:2], (TOPIC_ROOT + "status", "offline"))
        self.assertEqual(len(connection.published), 501)

    def test_a_deletion_that_waits(self):
        connection = self.congest_broker()
        self.fixture.write_lines(learned("01800ABC", result="deleted"))
        self.fixture.run_turns(2)
        self.assertIn(TOPIC_ROOT + "01800ABC/TMP", self.fixture.bridge.devices.removed_topics)
        self.assertIn(TOPIC_ROOT + "01800ABC/TMP", self.fixture.broker.memory)
        connection.acknowledges_messages = True
        self.fixture.run_turns(10)
        self.assertNotIn(TOPIC_ROOT + "01800ABC/TMP", self.fixture.bridge.devices.removed_topics)
        self.assertNotIn(TOPIC_ROOT + "01800ABC/TMP", self.fixture.broker.memory)

    def test_a_message_that_waits_is_not_refused(self):
        self.start(*listing(*DEVICES))
        with mock.patch("enogate_mqtt.bridge.MAX_UNDER_WAY", 1):
            self.fixture.broker.memory.clear()
            connection = self.fixture.broker.accept_connection()
            connection.acknowledges_messages = False
            self.fixture.run_turns(50, 1)
            self.assertTrue(self.fixture.bridge.is_online)
            self.assertNotIn(("enogate/hall/status", "online"), self.fixture.published())
            self.assertEqual(self.fixture.broker.messages, ["connected"])
            connection.acknowledges_messages = True
            self.fixture.run_turns(200)
        self.assertEqual(self.fixture.broker.messages, ["connected"] * 2)

    def test_the_end(self):
        self.start()
        self.fixture.write_lines(OK)
        self.fixture.run_turns()
        self.fixture.stop()
        connection = self.fixture.broker.connection
        self.assertEqual((self.fixture.published()[-1], connection.is_ended),
                         ((TOPIC_ROOT + "status", "offline"), True))
        self.assertEqual([path.name for path in self.fixture.folder.glob("hall.db*")], ["hall.db"])
        self.fixture.broker.lose()
        self.fixture.start()
        self.fixture.broker.accept_connection()
        self.fixture.run_turns()
        self.assertEqual(self.lines(), [])

    def test_lines_that_are_not_there(self):
        """The journal has one line if they are missing at the start; they are read when they come."""
        for is_missing in (False, True):
            self.setUp()
            if is_missing:
                self.fixture.lines.unlink()
            started_bridge = self.fixture.start()
            with mock.patch.object(started_bridge, "turn") as turn_mock:
                turn_mock.side_effect = lambda: setattr(started_bridge, "is_stopped", turn_mock.call_count == 3)
                started_bridge.run()
            self.assertEqual(self.logged_lines, [
                f"WARNING: cannot open {self.fixture.lines}: No such file or directory; retrying"] * is_missing)
        self.fixture.write_lines(OK)
        self.assertEqual([line for line, _ in started_bridge.follower.read()], [json.dumps(OK).encode()])

    def test_a_run_that_is_stopped_at_once(self):
        self.fixture.write_lines(OK)
        self.fixture.start()
        self.fixture.stop()
        self.assertEqual(self.logged_lines, [])

    def test_a_telegram_without_anything_to_publish_before_the_connection(self):
        self.fixture.start()
        self.fixture.write_lines({**reading("01800AB1"), "readings": [], "dbm": None})
        self.fixture.broker.accept_connection()
        self.fixture.run_turns()
        self.assertTrue(self.fixture.bridge.is_online)

    def test_bad_lines(self):
        self.start()
        self.fixture.write_lines("{", OK, {"count": "x", "type": "list"})
        self.fixture.run_turns()
        self.assertEqual(len(self.lines()), 2)
        self.assert_logged("invalid line ignored: b'{'")
        self.assert_logged("line with unexpected members, not decoded")

    def test_a_bad_line_within_a_list(self):
        lines = listing(*DEVICES)
        self.start(*lines)
        self.fixture.write_lines(lines[0], "{torn", lines[1], lines[2])
        self.fixture.run_turns()
        self.assertEqual(len(self.fixture.bridge.devices.known_devices), 2)
        self.assertEqual(self.fixture.bridge.devices.list_count, 0)

    def test_a_thousand_bad_lines_are_ten_lines_in_the_journal(self):
        self.start()
        self.fixture.write_lines(*["{"] * 1000)
        self.fixture.run_turns()
        self.assertEqual(len(self.logged_lines), 10)

    def test_the_state_is_saved_every_two_seconds(self):
        self.start()
        saves = []
        original = self.fixture.bridge.store.save
        self.fixture.bridge.store.save = lambda *arguments: saves.append(self.fixture.clock()) or original(*arguments)
        for _ in range(60):
            self.fixture.write_lines(OK)
            self.fixture.run_turns(1)
        self.assertEqual(bridge.SAVE_EVERY, 2)
        self.assertEqual({round(later - sooner, 1) for sooner, later in zip(saves, saves[1:])}, {2.0})
        self.fixture.run_turns(30)
        count = len(saves)
        self.fixture.run_turns(100)
        self.assertEqual(len(saves), count)

    def test_what_could_not_be_saved_is_saved_later(self):
        self.start()
        original = self.fixture.bridge.store.save
        self.fixture.bridge.store.save = lambda *_arguments: False
        self.fixture.write_lines(reading("01800ABC"))
        self.fixture.run_turns(40)
        self.assertEqual(self.fixture.bridge.devices.changed_devices, {"01800ABC"})
        self.fixture.bridge.store.save = original
        self.fixture.run_turns(40)
        self.assertEqual(self.fixture.bridge.devices.changed_devices, set())

    def test_many_devices(self):
        devices = [(f"{0x01800000 + number:08X}", "A5-02-05", "") for number in range(40)]
        self.start(*listing(*devices), *(reading(name) for name, _, _ in devices))
        self.fixture.run_turns(60)
        self.assertTrue(self.fixture.bridge.reconciler.is_done)
        max_filters = max(len(filters) for reader in self.fixture.broker.readers for filters in reader.requests)
        self.assertLess(max_filters, 30)
        self.restart_bridge()
        self.fixture.broker.accept_connection()
        self.fixture.run_turns(60)
        self.assertEqual([topic for topic, _ in self.fixture.published()], [TOPIC_ROOT + "status"])

    def test_lines_of_the_last_turn_are_not_published_twice(self):
        self.start()
        self.fixture.broker.connection.acknowledges_messages = False
        self.fixture.write_lines(OK)
        self.fixture.run_turns(2)
        self.fixture.broker.connection.acknowledges_messages = True
        self.fixture.stop()
        self.fixture.broker.lose()
        self.fixture.start()
        self.fixture.broker.accept_connection()
        self.fixture.run_turns()
        self.assertEqual(self.lines(), [])

    def test_nothing_is_published_on_a_lost_connection(self):
        self.start()
        old_connection = self.fixture.broker.connection
        self.fixture.broker.lose()
        self.fixture.run_turns(1)
        published_count = len(old_connection.published)
        self.fixture.write_lines(reading("01800ABC"), status())
        self.fixture.run_turns()
        self.assertEqual(len(old_connection.published), published_count)

    def test_an_unknown_device_asks_for_the_list_once(self):
        self.start(*listing(*DEVICES))
        self.fixture.write_lines(*listing(*DEVICES))
        self.fixture.run_turns()
        self.fixture.write_lines(reading("01800AFF"))
        self.fixture.run_turns(20, 10)
        # with the one at the start; the pauses of 5, 10, 20, 40 and 80 s end at turns of 10 s
        self.assertEqual(self.fixture.orders().count("list"), 1 + 6)
        self.fixture.write_lines(*listing(*DEVICES))
        self.fixture.run_turns(20, 100)
        self.assertEqual(self.fixture.orders().count("list"), 1 + 6)

    def test_the_broker_is_asked_for_everything_once(self):
        self.start()
        counts = []
        for _ in range(3):
            self.fixture.write_lines(*listing(*DEVICES))
            self.fixture.run_turns(20)
            requested_filters = [filters for reader in self.fixture.broker.readers for filters in reader.requests]
            counts.append(sum(TOPIC_ROOT + "+/+" in filters for filters in requested_filters))
            self.fixture.broker.accept_connection()
        self.assertEqual(counts, [1, 1, 1])

    def test_a_reading_during_the_comparison(self):
        self.start(*listing(*DEVICES), reading("01800ABC"))
        self.fixture.run_turns(20)
        self.restart_bridge()
        self.fixture.broker.accept_connection()
        self.fixture.run_turns(1)
        self.fixture.write_lines(reading("01800ABC", readings=[{"den": 1, "name": "TMP", "num": 21, "unit": "C"}]))
        self.fixture.run_turns(20)
        self.assertEqual(self.fixture.published(TOPIC_ROOT + "01800ABC/TMP"), [(TOPIC_ROOT + "01800ABC/TMP", "21")])

    def test_late_lines_have_no_time(self):
        self.start(*listing(*DEVICES))
        self.fixture.stop()
        self.fixture.broker.lose()
        self.fixture.write_lines(reading("01800ABC"), status())
        self.fixture.start()
        self.fixture.broker.accept_connection()
        self.fixture.run_turns(20)
        self.assertIn(TOPIC_ROOT + "01800ABC/TMP", self.fixture.broker.memory)
        self.assertNotIn(TOPIC_ROOT + "01800ABC/last_seen", self.fixture.broker.memory)
        self.assertIsNone(self.fixture.bridge.requests.gateway_probe.is_online)

    def times_of_lines(self):
        """The user properties of the lines that were published on this connection, by their type."""
        return [(json.loads(line)["type"], properties)
                for line, properties in self.fixture.broker.connection.properties]

    def test_times_of_lines(self):
        """Each line has the time when it was read. Those that were read before the connection are late."""
        self.start()
        self.fixture.write_lines(OK)
        self.fixture.run_turns()
        self.assertEqual(self.times_of_lines(), [("ok", {"time": "1800000000"})])
        self.assertEqual(self.lines(), [json.dumps(OK)])
        self.fixture.broker.lose()
        self.fixture.wall.now += 5
        self.fixture.write_lines(status())
        self.fixture.run_turns()
        self.fixture.wall.now += 5
        self.fixture.write_lines(reading("01800ABC"))
        self.fixture.broker.accept_connection()
        self.fixture.run_turns(1)
        self.fixture.write_lines(OK)
        self.fixture.run_turns()
        self.assertEqual(self.times_of_lines(), [
            ("status", {"time": "1800000005", "late": "1"}), ("reading", {"time": "1800000010", "late": "1"}),
            ("ok", {"time": "1800000010"})])

    def test_lines_of_before_the_start_are_late(self):
        self.start()
        self.fixture.stop()
        self.fixture.broker.lose()
        self.fixture.write_lines(OK)
        self.fixture.wall.now += 100
        self.fixture.start()
        self.fixture.broker.accept_connection()
        self.fixture.run_turns()
        self.assertEqual(self.times_of_lines(), [("ok", {"time": "1800000100", "late": "1"})])

    def test_lines_that_are_published_again_are_late(self):
        self.start()
        self.fixture.broker.connection.acknowledges_messages = False
        self.fixture.write_lines(OK)
        self.fixture.run_turns()
        self.fixture.broker.accept_connection()
        self.fixture.run_turns()
        self.assertEqual(self.times_of_lines(), [("ok", {"time": "1800000000", "late": "1"})])

    def test_lines_that_wait_are_late(self):
        """After ten seconds."""
        connection = self.congest_broker()
        self.fixture.run_turns(1, 11)
        connection.acknowledges_messages = True
        self.fixture.run_turns(1)
        self.fixture.write_lines(OK)
        self.fixture.run_turns()
        *earlier_properties, last_properties = [properties for _, properties in self.times_of_lines()][-100:]
        self.assertEqual({tuple(properties) for properties in earlier_properties}, {("time", "late")})
        self.assertEqual(last_properties, {"time": "1800000000"})

    def test_lines_while_the_clock_is_wrong_have_no_time(self):
        self.start()
        self.last_seen()
        self.fixture.run_turns(2, 3)
        self.fixture.stop()
        self.fixture.wall.now -= 1000
        self.fixture.start()
        self.fixture.broker.accept_connection()
        self.fixture.run_turns(1)
        self.fixture.write_lines(OK)
        self.fixture.run_turns()
        self.assertIn(TOPIC_ROOT + "lines", [topic for topic, _ in self.fixture.published()])
        self.assertEqual(self.times_of_lines(), [])

    def test_an_order_before_the_gateway_has_answered(self):
        self.start()
        self.fixture.send(TOPIC_ROOT + "orders", b"list")
        self.fixture.run_turns(1)
        self.assertEqual(self.logged_lines, [])

    def test_a_module_of_a_gateway_that_never_answered(self):
        self.start()
        self.fixture.run_turns(2, 20)
        self.assertEqual(self.fixture.published(TOPIC_ROOT + "module"), [(TOPIC_ROOT + "module", "offline")])

    def test_each_change_is_saved(self):
        self.start(*listing(*DEVICES), reading("01800ABC"))
        self.fixture.run_turns(30)
        self.fixture.bridge.devices.removed_topics.add("x/y")
        self.fixture.broker.lose()
        self.fixture.run_turns(30)
        self.assertEqual(self.fixture.bridge.store.removed_topics, {"x/y"})
        self.fixture.bridge.devices.changed_devices.add("01800ABC")
        self.fixture.run_turns(30)
        self.assertEqual(self.fixture.bridge.devices.changed_devices, set())

    def test_that_the_broker_was_asked_for_everything_is_saved(self):
        """The readings of a gateway may be adopted until then, even if the bridge is started again in between."""
        self.start(*listing(*DEVICES))
        self.fixture.run_turns(30)
        original_read = self.fixture.broker.open_reader

        def open_slow_reader():
            reader = original_read()
            reader.answers_requests = False
            return reader
        self.fixture.broker.open_reader = open_slow_reader
        self.fixture.write_lines(*listing(*DEVICES))
        self.fixture.run_turns(30)
        self.assertEqual((self.fixture.bridge.devices.may_adopt, self.fixture.bridge.store.may_adopt), (True, True))
        self.fixture.run_turns(400)
        self.assertEqual((self.fixture.bridge.devices.may_adopt, self.fixture.bridge.store.may_adopt), (False, False))

    def test_a_loss_while_the_broker_is_asked_for_everything(self):
        """It is asked again on the next connection."""
        stray = {TOPIC_ROOT + "01800AFF/TMP": "3"}
        self.start()
        self.fixture.broker.memory |= stray
        self.fixture.write_lines(*listing(*DEVICES))
        self.fixture.run_turns(1)
        self.fixture.broker.lose()
        self.fixture.run_turns()
        self.assertTrue(self.fixture.bridge.devices.may_adopt)
        self.fixture.broker.accept_connection()
        self.fixture.run_turns(60)
        self.assertFalse(self.fixture.bridge.devices.may_adopt)
        self.assertFalse(stray.keys() & self.fixture.broker.memory.keys())

    def test_an_answer_in_the_turn_of_the_connection(self):
        self.fixture.start()
        self.fixture.run_turns(2)
        self.fixture.write_lines(status())
        self.fixture.broker.accept_connection()
        self.fixture.run_turns(1)
        self.assertTrue(self.fixture.bridge.requests.gateway_probe.is_online)

    def test_several_lines_are_published_again_in_their_sequence(self):
        self.start()
        self.fixture.broker.connection.acknowledges_messages = False
        self.fixture.write_lines(*({"n": number, "type": "new"} for number in range(3)))
        self.fixture.run_turns()
        lines_before = self.lines()
        self.fixture.broker.accept_connection()
        self.fixture.run_turns()
        self.assertEqual((len(lines_before), self.lines()), (3, lines_before))

    def test_a_loss_during_the_comparison(self):
        self.start(*listing(*DEVICES))
        self.fixture.broker.accept_connection()
        self.fixture.run_turns(1)
        count = len(self.fixture.broker.readers)
        self.fixture.broker.lose()
        self.fixture.run_turns(20)
        self.assertEqual(len(self.fixture.broker.readers), count)
        self.assertEqual((self.fixture.bridge.reconciler, self.fixture.bridge.reader), (None, None))

    def test_a_request_that_cannot_be_sent(self):
        self.start(*listing(*DEVICES))
        self.fixture.broker.accept_connection()
        self.fixture.broker.open_reader, original = lambda: failing_reader, self.fixture.broker.open_reader
        failing_reader = original()

        def failing_request(_filters):
            raise ConnectionLost("not connected")
        failing_reader.request_retained = failing_request
        self.fixture.run_turns(3)
        self.assertEqual(self.fixture.broker.given_loss_reasons, ["not connected"])

    def test_an_order_in_the_turn_of_a_loss(self):
        self.start()
        self.fixture.send(TOPIC_ROOT + "orders", b"learn off")
        self.fixture.broker.lose()
        self.fixture.run_turns(1)
        self.assertIn("learn off", self.fixture.orders())

    def test_the_place_is_that_of_acknowledged_lines(self):
        self.start()
        self.fixture.broker.connection.acknowledges_messages = False
        self.fixture.write_lines(OK)
        self.fixture.run_turns(40)
        self.fixture.broker.connection.acknowledges_messages = True
        self.fixture.run_turns(40)
        self.restart_bridge()
        self.fixture.broker.accept_connection()
        self.fixture.run_turns()
        self.assertEqual(self.lines(), [])

    def test_a_reading_that_is_published_is_not_to_be_deleted(self):
        self.start(*listing(*DEVICES))
        self.fixture.run_turns(20)
        self.fixture.write_lines(reading("01800ABC"))
        self.fixture.run_turns()
        self.assertEqual(self.fixture.bridge.devices.removed_topics, set())

    def test_a_deleted_device_is_not_in_the_state(self):
        self.start(*listing(*DEVICES))
        self.fixture.run_turns(30)
        self.fixture.write_lines(learned("01800ABC", result="deleted"), *listing(*DEVICES[1:]))
        self.fixture.run_turns(30)
        self.restart_bridge()
        self.assertNotIn("01800ABC", self.fixture.bridge.devices.known_devices)

    def test_a_second_start_after_a_lost_state(self):
        """The broker's readings are taken, although the first start did not reach the broker."""
        self.start(*listing(*DEVICES), reading("01800ABC"))
        self.fixture.run_turns(20)
        self.fixture.stop()
        self.fixture.broker.lose()
        self.fixture.state.unlink()
        self.fixture.lines.write_text("")
        self.fixture.start()
        self.fixture.write_lines(*listing(*DEVICES))
        self.fixture.run_turns(30)
        self.restart_bridge()
        self.fixture.broker.accept_connection()
        self.fixture.write_lines(*listing(*DEVICES))
        self.fixture.run_turns(30)
        self.assertEqual(self.fixture.broker.memory[TOPIC_ROOT + "01800ABC/TMP"], "20")
        self.assertIn("homeassistant/binary_sensor/enogate_hall/status/config", self.fixture.broker.memory)
        self.fixture.run_turns(30)
        self.restart_bridge()
        self.assertFalse(self.fixture.bridge.devices.may_adopt)

    def test_strays_among_many_devices(self):
        devices = [(f"{0x01800000 + number:08X}", "A5-02-05", "") for number in range(10)]
        stray = "homeassistant/sensor/enogate_hall/01800AFF_TMP/config"
        self.fixture.broker.memory |= {stray: "{}", TOPIC_ROOT + "01800AFF/TMP": "1", TOPIC_ROOT + "x01800AFF/y": "1"}
        with mock.patch("enogate_mqtt.reconcile.MAX_UNKNOWN", 5):
            self.start(*listing(*devices), *(reading(name) for name, _, _ in devices))
            self.fixture.write_lines(*listing(*devices))
            self.fixture.run_turns(80)
        self.assertFalse({stray, TOPIC_ROOT + "01800AFF/TMP"} & self.fixture.broker.memory.keys())
        self.assertIn(TOPIC_ROOT + "x01800AFF/y", self.fixture.broker.memory)
        self.assertIn("homeassistant/binary_sensor/enogate_hall/status/config", self.fixture.broker.memory)

    def test_a_will_during_the_comparison(self):
        self.start()
        self.fixture.broker.accept_connection()
        self.fixture.send(TOPIC_ROOT + "status", b"offline")
        self.fixture.send(TOPIC_ROOT + "status", b"something")
        self.fixture.run_turns(1)
        self.assertEqual(self.fixture.published(TOPIC_ROOT + "status"), [])

    def test_a_list_that_is_never_complete(self):
        self.start()
        for _ in range(120):
            self.fixture.write_lines(*listing(*DEVICES)[1:])
            self.fixture.run_turns(1, 5)
        self.assertLess(self.fixture.orders().count("list"), 12)

    def test_a_connection_that_is_lost(self):
        self.start()
        self.fixture.broker.connection.is_lost = True
        with self.assertRaises(ConnectionLost):
            self.fixture.run_turns(1)


if __name__ == "__main__":
    unittest.main()
