"""A device that replaces another one keeps its entities in Home Assistant."""
import contextlib
import json
import sqlite3
import unittest
from unittest import mock

from fakes import OK, BridgeFixture, LogTest, learned, listing, reading, status

from enogate_lines.follow import Position
from enogate_mqtt.devices import Device
from enogate_mqtt.store import Store

OLD_ID, NEW_ID, THIRD_ID = "01800ABC", "01800AC1", "01800AC2"
EEP, LABEL = "A5-02-05", "Attic"
LABEL_WAIT_SECONDS = 60
POSITION = Position(1, 0, b"")
# The orders of `enogatectl hall replace 01800ABC 01800AC1`, and the line that answers each.
STEPS = [(f"add {NEW_ID} {EEP}", learned(NEW_ID)), (f"label {NEW_ID} {LABEL}", OK),
         (f"remove {OLD_ID}", learned(OLD_ID, result="deleted"))]
ENTITY_ENDS = ("TMP", "dbm", "last_seen")
ADDED_CHANGES = [f"+enogate_hall_{NEW_ID}_{end}" for end in ENTITY_ENDS]
REMOVED_CHANGES = [f"-enogate_hall_{OLD_ID}_{end}" for end in ENTITY_ENDS]


class Client:
    """What a client of Home Assistant's discovery has seen: the entities by their unique IDs, those that were removed
    or came, and the topic of the state of each. It begins with what the broker retains."""

    def __init__(self, fixture: BridgeFixture):
        self.fixture, self.published_count = fixture, len(fixture.broker.connection.published)
        self.topics: dict[str, str] = {}
        self.states: dict[str, str] = {}
        self.devices: dict[str, str] = {}
        self.changes: list[str] = []
        self.handle_messages(fixture.broker.memory.items())
        self.changes = []

    def handle_messages(self, messages) -> None:
        for topic, text in messages:
            if not topic.startswith("homeassistant/sensor/"):
                continue
            if not text and topic in self.topics:
                self.changes.append(f"-{self.topics[topic]}")
                self.states.pop(self.topics.pop(topic))
            elif text:
                config = json.loads(text)
                if topic not in self.topics:
                    self.changes.append(f"+{config['unique_id']}")
                self.topics[topic] = config["unique_id"]
                self.states[config["unique_id"]] = config["state_topic"]
                self.devices[config["unique_id"]] = config["device"]["name"]

    def new_changes(self) -> list[str]:
        """The entities that have come and those that were removed."""
        published = self.fixture.broker.connection.published
        self.handle_messages((topic, text) for topic, text, _ in published[self.published_count:])
        self.published_count = len(published)
        return self.changes


class Replacement(LogTest):
    def setUp(self) -> None:
        super().setUp()
        self.fixture = BridgeFixture(self)
        self.devices = {OLD_ID: (OLD_ID, EEP, LABEL)}
        self.start_bridge()
        self.fixture.write_lines(*listing(*self.devices.values()), status(), reading(OLD_ID))
        self.fixture.run_turns()
        self.client = Client(self.fixture)

    def start_bridge(self, label_wait: int = LABEL_WAIT_SECONDS) -> None:
        self.fixture.start(label_wait=label_wait)
        self.fixture.broker.accept_connection()
        self.fixture.run_turns()

    def restart_bridge(self) -> None:
        """The bridge is killed. The client sees all that it publishes."""
        self.fixture.kill()
        self.start_bridge()
        self.client.published_count = 0

    def carry_out_order(self, order: str, line: dict | str) -> None:
        """Somebody gives an order, which the gateway carries out."""
        with self.fixture.desk.open("a") as desk:
            desk.write(order + "\n")
        verb, device, *order_arguments = order.split(" ")
        if verb == "remove":
            del self.devices[device]
        else:
            eep, label = self.devices.get(device, ("", EEP, ""))[1:]
            self.devices[device] = (device,
                                    *((order_arguments[0], label) if verb == "add" else (eep, order_arguments[0])))
        self.fixture.write_lines(line)

    def answer_lists(self, count: int = 20) -> None:
        """Turns in which the gateway answers each `list` of the bridge, one a second."""
        for _ in range(count):
            list_count = self.fixture.orders().count("list")
            self.fixture.run_turns(1, 1)
            if self.fixture.orders().count("list") > list_count:
                self.fixture.write_lines(*listing(*self.devices.values()))

    def assert_replaced(self, states: str = NEW_ID) -> None:
        """The client has the entities that it had, and no other ones; they show the new device."""
        self.assertEqual(self.client.new_changes(), [])
        self.assertEqual(self.client.states[f"enogate_hall_{OLD_ID}_TMP"], f"enogate/hall/{states}/TMP")
        self.assertEqual(self.client.devices[f"enogate_hall_{OLD_ID}_TMP"], LABEL)

    def test_the_orders_at_once(self):
        """The list comes after all of them."""
        for order, line in STEPS:
            self.carry_out_order(order, line)
        self.answer_lists()
        self.assert_replaced()
        self.fixture.write_lines(reading(NEW_ID))
        self.fixture.run_turns()
        self.assertEqual(self.fixture.broker.memory[f"enogate/hall/{NEW_ID}/TMP"], "20")
        self.assertFalse([topic for topic in self.fixture.broker.memory if topic.startswith(f"enogate/hall/{OLD_ID}/")])

    def test_each_order_by_itself(self):
        """The list comes before the old device is deleted, too."""
        for order, line in STEPS:
            self.carry_out_order(order, line)
            self.answer_lists()
        self.assert_replaced()

    def test_a_stop_after_each_order(self):
        """A second call goes on an hour later. Without a label, the new device is shown meanwhile; then it is not."""
        for count in (1, 2):
            with self.subTest(count):
                self.setUp()
                for order, line in STEPS[:count]:
                    self.carry_out_order(order, line)
                self.answer_lists()
                self.assertEqual(self.client.new_changes(), [])
                for _ in range(60):
                    self.fixture.run_turns(1, 60)
                    self.answer_lists(1)
                self.assertEqual(sorted(self.client.new_changes()), ADDED_CHANGES)
                for order, line in STEPS[count:]:
                    self.carry_out_order(order, line)
                self.answer_lists()
                self.assertEqual(sorted(self.client.new_changes()),
                                 ADDED_CHANGES + [f"-{change[1:]}" for change in ADDED_CHANGES])
                self.client.changes = []
                self.assert_replaced()

    def test_a_bridge_that_is_killed_after_each_order(self):
        for count in range(4):
            for is_saved in (False, True):
                with self.subTest(count=count, is_saved=is_saved):
                    self.setUp()
                    for order, line in STEPS[:count]:
                        self.carry_out_order(order, line)
                    self.fixture.run_turns(30 if is_saved else 1)
                    self.restart_bridge()
                    for order, line in STEPS[count:]:
                        self.carry_out_order(order, line)
                    self.answer_lists(100)
                    self.assert_replaced()

    def test_a_bridge_that_was_stopped(self):
        """It reads the lines of the orders later."""
        self.fixture.stop()
        self.fixture.broker.lose()
        for order, line in STEPS:
            self.carry_out_order(order, line)
        self.start_bridge()
        self.client.published_count = 0
        self.answer_lists()
        self.assert_replaced()
        # it is known after another restart, too
        self.restart_bridge()
        self.answer_lists()
        self.assert_replaced()

    def test_a_broker_that_is_away(self):
        self.fixture.broker.lose()
        for order, line in STEPS:
            self.carry_out_order(order, line)
        self.answer_lists()
        self.fixture.broker.accept_connection()
        self.client.published_count = 0
        self.answer_lists()
        self.assert_replaced()

    def test_without_a_wait(self):
        """The new device is shown until the old one is deleted."""
        self.fixture.stop()
        self.fixture.broker.lose()
        self.start_bridge(0)
        self.client = Client(self.fixture)
        for order, line in STEPS:
            self.carry_out_order(order, line)
            self.answer_lists()
        self.assertEqual(sorted(self.client.new_changes()),
                         ADDED_CHANGES + [f"-{change[1:]}" for change in ADDED_CHANGES])
        self.client.changes = []
        self.assert_replaced()

    def test_twice(self):
        """The replaced device may come back, and the device in its place may be replaced."""
        for order, line in STEPS:
            self.carry_out_order(order, line)
        self.answer_lists()
        self.carry_out_order(f"add {OLD_ID} {EEP}", learned(OLD_ID))
        self.carry_out_order(f"label {OLD_ID} Cellar", OK)
        self.answer_lists()
        came = [f"+enogate_hall_{OLD_ID}_2_{end}" for end in ("dbm", "last_seen", "TMP")]
        self.assertEqual(sorted(self.client.new_changes()), sorted(came))
        self.client.changes = []
        self.carry_out_order(f"add {THIRD_ID} {EEP}", learned(THIRD_ID))
        self.carry_out_order(f"label {THIRD_ID} {LABEL}", OK)
        self.carry_out_order(f"remove {NEW_ID}", learned(NEW_ID, result="deleted"))
        self.answer_lists()
        self.assert_replaced(THIRD_ID)
        self.restart_bridge()
        self.answer_lists()
        self.assert_replaced(THIRD_ID)
        self.assertEqual(self.client.states[f"enogate_hall_{OLD_ID}_2_TMP"], f"enogate/hall/{OLD_ID}/TMP")

    def test_another_profile(self):
        """A device that was shown before replaces only one of its own profile. One that was learned just now replaces
        any: the readings that both have keep their entities."""
        other_eep = "A5-04-01"
        self.carry_out_order(f"add {NEW_ID} {other_eep}", learned(NEW_ID, other_eep))
        self.carry_out_order(f"label {NEW_ID} {LABEL}", OK)
        self.answer_lists()
        self.carry_out_order(f"remove {OLD_ID}", learned(OLD_ID, result="deleted"))
        self.answer_lists()
        self.assertEqual(self.client.new_changes(), [f"+enogate_hall_{OLD_ID}_HUM"])
        self.client.changes = []
        self.assert_replaced()
        self.carry_out_order(f"add {THIRD_ID} {EEP}", learned(THIRD_ID))
        self.answer_lists()
        self.fixture.run_turns(2, LABEL_WAIT_SECONDS)
        self.carry_out_order(f"label {THIRD_ID} {LABEL}", OK)
        self.answer_lists()
        self.carry_out_order(f"remove {NEW_ID}", learned(NEW_ID, result="deleted"))
        self.answer_lists()
        removed_changes = [f"-enogate_hall_{OLD_ID}_{end}" for end in ("HUM", "TMP", "dbm", "last_seen")]
        came = [f"+enogate_hall_{THIRD_ID}_{end}" for end in ENTITY_ENDS]
        self.assertEqual(sorted(self.client.new_changes()), came + removed_changes)

    def test_a_profile_with_fewer_readings(self):
        """The entity of a reading that the new device does not have goes."""
        other_eep = "A5-04-01"
        self.carry_out_order(f"add {NEW_ID} {other_eep}", learned(NEW_ID, other_eep))
        self.carry_out_order(f"label {NEW_ID} {LABEL}", OK)
        self.carry_out_order(f"remove {OLD_ID}", learned(OLD_ID, result="deleted"))
        self.answer_lists()
        self.assertEqual(self.client.new_changes(), [f"+enogate_hall_{OLD_ID}_HUM"])
        self.client.changes = []
        self.carry_out_order(f"add {THIRD_ID} {EEP}", learned(THIRD_ID))
        self.carry_out_order(f"label {THIRD_ID} {LABEL}", OK)
        self.carry_out_order(f"remove {NEW_ID}", learned(NEW_ID, result="deleted"))
        self.answer_lists()
        self.assertEqual(self.client.new_changes(), [f"-enogate_hall_{OLD_ID}_HUM"])
        self.client.changes = []
        self.assert_replaced(THIRD_ID)

    def test_a_broker_that_is_asked_meanwhile(self):
        """It answers later what it retains about the old device."""
        self.fixture.broker.lose()
        open_reader = self.fixture.broker.open_reader

        def open_slow_reader():
            reader = open_reader()
            reader.answers_requests = False
            return reader
        self.fixture.broker.open_reader = open_slow_reader
        self.fixture.broker.accept_connection()
        self.client.published_count = 0
        self.fixture.run_turns()
        for order, line in STEPS:
            self.carry_out_order(order, line)
        self.fixture.write_lines(*listing(*self.devices.values()))
        self.fixture.run_turns()
        self.fixture.bridge.reader.answers_requests = True
        self.answer_lists(100)
        self.assert_replaced()

    def test_no_other_device_with_the_label(self):
        """Also if there are two: it is not known which one it is."""
        for labels in ([], ["Cellar"], [""], [LABEL, LABEL]):
            with self.subTest(labels):
                self.setUp()
                for name, label in zip((NEW_ID, THIRD_ID), labels):
                    self.carry_out_order(f"add {name} {EEP}", learned(name))
                    self.carry_out_order(f"label {name} {label}", OK)
                self.answer_lists()
                self.fixture.run_turns(2, LABEL_WAIT_SECONDS)
                self.client.new_changes()
                self.client.changes = []
                self.carry_out_order(f"remove {OLD_ID}", learned(OLD_ID, result="deleted"))
                self.answer_lists()
                self.assertEqual(sorted(self.client.new_changes()), REMOVED_CHANGES)

    def test_a_device_without_a_label(self):
        """No other one replaces it. Its entities go at once."""
        self.carry_out_order(f"label {OLD_ID} ", OK)
        self.fixture.write_lines(*listing((OLD_ID, EEP, "")))
        self.fixture.run_turns()
        self.carry_out_order(f"add {NEW_ID} {EEP}", learned(NEW_ID))
        self.carry_out_order(f"remove {OLD_ID}", learned(OLD_ID, result="deleted"))
        self.fixture.run_turns(2)
        self.assertEqual(sorted(self.client.new_changes()), REMOVED_CHANGES)

    def test_the_readings_go_at_once(self):
        """The entities go after the next list, which is asked for."""
        self.fixture.run_turns(10, 2)
        self.carry_out_order(f"remove {OLD_ID}", learned(OLD_ID, result="deleted"))
        list_count = self.fixture.orders().count("list")
        self.fixture.run_turns(2)
        self.assertEqual((self.client.new_changes(), self.fixture.orders().count("list")), ([], list_count + 1))
        self.assertFalse([topic for topic in self.fixture.broker.memory if topic.startswith(f"enogate/hall/{OLD_ID}/")])
        self.fixture.run_turns(30)
        self.fixture.write_lines(*listing())
        self.fixture.run_turns(30)
        self.assertEqual(sorted(self.client.new_changes()), REMOVED_CHANGES)
        self.restart_bridge()
        self.assertEqual(self.fixture.bridge.devices.known_devices, {})

    def test_an_old_device_that_is_learned_again_remains(self):
        self.carry_out_order(f"add {NEW_ID} {EEP}", learned(NEW_ID))
        self.carry_out_order(f"remove {OLD_ID}", learned(OLD_ID, result="deleted"))
        self.fixture.run_turns(2)
        self.carry_out_order(f"add {OLD_ID} {EEP}", learned(OLD_ID))
        self.carry_out_order(f"label {OLD_ID} {LABEL}", OK)
        self.answer_lists()
        self.fixture.run_turns(2, LABEL_WAIT_SECONDS)
        self.assertNotIn(f"-enogate_hall_{OLD_ID}_TMP", self.client.new_changes())

    def test_equal_labels(self):
        """Two devices may have the same label. The second one is shown after the wait."""
        self.carry_out_order(f"add {NEW_ID} {EEP}", learned(NEW_ID))
        self.carry_out_order(f"label {NEW_ID} {LABEL}", OK)
        self.answer_lists()
        self.assertEqual(self.client.new_changes(), [])
        self.fixture.run_turns(2, LABEL_WAIT_SECONDS)
        self.assertEqual(sorted(self.client.new_changes()), ADDED_CHANGES)
        self.assertEqual(self.client.devices[f"enogate_hall_{NEW_ID}_TMP"], LABEL)
        # a list shows them both again, at once
        self.fixture.write_lines(*listing(*self.devices.values()))
        self.fixture.run_turns()
        self.assertEqual(len(self.client.new_changes()), 3)


class StoredIdentities(LogTest):
    """The identity of a device in the state file."""

    def setUp(self) -> None:
        super().setUp()
        self.path = str(BridgeFixture(self).state)
        self.known_devices = {NEW_ID: Device(NEW_ID, EEP, LABEL, identity=OLD_ID),
                              OLD_ID: Device(OLD_ID, EEP, "", identity=f"{OLD_ID}_2"),
                              THIRD_ID: Device(THIRD_ID, EEP, "")}
        store = Store(self.path, "homeassistant")
        self.assertTrue(store.save(POSITION, set(self.known_devices), self.known_devices, set()))
        store.close()

    def identities(self) -> dict[str, str]:
        store = Store(self.path, "homeassistant")
        self.addCleanup(store.close)
        return {device.name: device.identity for device in store.devices}

    def test_it_is_found_again(self):
        self.assertEqual(self.identities(), {NEW_ID: OLD_ID, OLD_ID: f"{OLD_ID}_2", THIRD_ID: THIRD_ID})

    def test_a_device_that_is_deleted(self):
        store = Store(self.path, "homeassistant")
        store.save(POSITION, {NEW_ID}, {}, set())
        store.save(POSITION, {NEW_ID}, {NEW_ID: Device(NEW_ID, EEP, LABEL)}, set())
        store.close()
        self.assertEqual(self.identities(), {NEW_ID: NEW_ID, OLD_ID: f"{OLD_ID}_2", THIRD_ID: THIRD_ID})

    def test_a_file_that_could_not_be_written(self):
        """It gets the whole state later."""
        with mock.patch.object(sqlite3, "connect", side_effect=sqlite3.OperationalError("disk full")):
            store = Store(self.path, "homeassistant")
        self.assertTrue(store.save(POSITION, set(), {NEW_ID: Device(NEW_ID, EEP, LABEL)}, set()))
        store.close()
        self.assertEqual(self.identities(), {NEW_ID: NEW_ID})

    def test_an_identity_of_another_form(self):
        """The file is replaced: the identity becomes part of a topic."""
        for text in ("01800ABC/x", "#", "", "01800abc", "01800ABC_", None, 7):
            with self.subTest(text):
                self.setUp()
                with contextlib.closing(sqlite3.connect(self.path)) as connection, connection:
                    connection.execute("UPDATE identity SET identity = ? WHERE id = ?", (text, NEW_ID))
                self.assertEqual(self.identities(), {})
                self.assert_logged("replacing the file")


if __name__ == "__main__":
    unittest.main()
