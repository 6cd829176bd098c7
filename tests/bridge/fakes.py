"""Replacements of the clock, the broker and the files of a gateway, for the unit tests of the bridge."""
from __future__ import annotations

import faulthandler
import json
import logging
import pathlib
import tempfile
import unittest
from collections import OrderedDict
from collections.abc import ItemsView, KeysView, ValuesView
from unittest import mock

from enogate_lines.entities import Table
from enogate_lines.follow import Follower
from enogate_mqtt.bridge import Bridge
from enogate_mqtt.connection import ConnectionLost, ReceivedMessage
from enogate_mqtt.desk import Desk
from enogate_mqtt.devices import Devices
from enogate_mqtt.queries import Queries
from enogate_mqtt.requests import Requests
from enogate_mqtt.store import Store
from enogate_mqtt.topics import Topics
from enogate_tools import space

OK = {"type": "ok"}
# How long a test may take, in seconds; the slowest one takes some ten on a busy machine.
LONGEST_TEST = 120
# Some topics of the gateway: whoever removes all of its retained messages removes these.
WATCHED = [*(f"enogate/hall/{name}" for name in ("status", "gateway", "module", "counters", "learn", "health")),
           *(f"homeassistant/{place}/config" for place in (
               "binary_sensor/enogate_hall/status", "sensor/enogate_hall/readings", "switch/enogate_hall/learn"))]


class Clock:
    """A clock that does not move until it is set."""

    def __init__(self, now: float = 1000.0):
        self.now = now
        self.sleeps: list[float] = []

    def __call__(self) -> float:
        return self.now

    def sleep(self, seconds: float) -> None:
        self.sleeps.append(seconds)
        self.now += seconds


class FakeConnection:
    """A broker's memory, and one connection to it. It answers each request in the next turn."""

    def __init__(self, memory: dict[str, str]):
        self.memory = memory
        self.received_messages: list[ReceivedMessage] = []
        self.unacknowledged_numbers: set[int] = set()
        self.unanswered_numbers: set[int] = set()
        self.published: list[tuple[str, str, bool]] = []
        # the user properties of the messages that have some
        self.properties: list[tuple[str, dict[str, str]]] = []
        self.requests: list[list[str]] = []
        self.acknowledges_messages = self.answers_requests = self.passes_messages_on = True
        self.number = 0
        self.is_open, self.is_lost, self.is_ended, self.is_closed = True, False, False, False

    def next_number(self) -> int:
        self.number += 1
        return self.number

    def publish(self, message):
        self.published.append((message.topic, message.payload, message.retained))
        if message.properties:
            self.properties.append((message.payload, dict(message.properties)))
        if message.retained:
            self.memory[message.topic] = message.payload
            if not message.payload:
                del self.memory[message.topic]
        if message.topic in WATCHED and self.passes_messages_on:
            self.received_messages.append(ReceivedMessage(message.topic, message.payload.encode(), False))
        self.unacknowledged_numbers.add(self.next_number())
        return self.number

    def request_retained(self, filters):
        self.requests.append(filters)
        for topic, text in list(self.memory.items()):
            if any(is_match(topic_filter, topic) for topic_filter in filters):
                self.received_messages.append(ReceivedMessage(topic, text.encode(), True))
        self.unanswered_numbers.add(self.next_number())
        return self.number

    def cancel_request(self, _filters):
        self.unanswered_numbers.add(self.next_number())
        return self.number

    def close(self):
        self.is_closed = True

    def turn(self, _seconds):
        if self.is_lost:
            raise ConnectionLost("it is lost")
        if self.acknowledges_messages:
            self.unacknowledged_numbers.clear()
        if self.answers_requests:
            self.unanswered_numbers.clear()

    def end(self, _seconds):
        self.is_ended = True
        self.turn(0)


def is_match(topic_filter: str, topic: str) -> bool:
    """Whether a filter of MQTT matches a topic."""
    levels, words = topic_filter.split("/"), topic.split("/")
    return len(levels) == len(words) and all(level in ("+", word) for level, word in zip(levels, words))


class FakeBroker:
    """A broker to which a connection is there, or not."""

    def __init__(self) -> None:
        self.memory: dict[str, str] = {}
        self.connection: FakeConnection | None = None
        self.readers: list[FakeConnection] = []
        self.given_loss_reasons: list[str] = []
        # what the bridge has reported about the connection
        self.messages: list[str] = []
        self.due = 0.0
        self.is_new = False

    def open_reader(self) -> FakeConnection:
        self.readers.append(FakeConnection(self.memory))
        return self.readers[-1]

    def report_connected(self) -> None:
        self.messages.append("connected")

    def report_refused(self, topic: str) -> None:
        self.messages.append(f"refused {topic}")

    def accept_connection(self, passes_on: bool = True) -> FakeConnection:
        self.connection, self.is_new = FakeConnection(self.memory), True
        self.connection.passes_messages_on = passes_on
        return self.connection

    def lose(self, reason: str = "") -> None:
        self.given_loss_reasons.append(reason)
        self.connection = None

    def turn(self):
        if self.connection:
            self.connection.turn(0)
        is_new, self.is_new = self.is_new, False
        return is_new


class BridgeFixture:
    """The files of a gateway in a temporary folder, and a bridge to a fake broker."""

    # whether the index is checked after each turn, which visits all devices
    checks_index = True

    def __init__(self, test_case: unittest.TestCase):
        folder = tempfile.TemporaryDirectory()
        test_case.addCleanup(folder.cleanup)
        self.folder = pathlib.Path(folder.name)
        self.lines, self.desk = self.folder / "hall.lines", self.folder / "desk"
        self.state, self.boot = self.folder / "hall.db", "a boot"
        self.clock, self.wall, self.broker = Clock(), Clock(1_800_000_000.0), FakeBroker()
        self.topics = Topics("hall", "homeassistant")
        # the last wait of the bridge: for which connections, how long, and whether a change of a file ends it
        self.wait_calls: tuple[list, float, bool] = [], 0.0, True
        # of the file systems of the database, and of the lines
        self.free_bytes = {"/var/lib/enogate": 4 * 2 ** 20, str(self.folder): 4 * 2 ** 20 - 1}
        test_case.enterContext(mock.patch.object(space, "free_bytes", self.free_bytes.get))
        self.lines.touch()
        self.desk.touch()

    def start(self, learn_for: int = 120, label_wait: int = 0, asks_actuators: bool = False) -> Bridge:
        """A bridge, after it has read the lines that are there."""
        store = Store(str(self.state), self.topics.discovery, self.boot)
        devices = Devices(self.topics, Table(), None, store.devices, store.removed_topics, may_adopt=store.may_adopt,
                          label_wait=label_wait, clock=self.clock)
        desk = Desk(str(self.desk), self.clock)
        queries = Queries(devices, desk) if asks_actuators else None
        requests = Requests(desk, self.clock, self.wall, learn_for, store.learn_until, queries)
        follower = Follower(str(self.lines), store.position, logging.warning, store.is_same_boot)
        self.bridge = Bridge(self.topics, self.broker, devices, follower, desk, requests, store, self.clock,
                             self.wall, self.wait)
        self.bridge.read_earlier_lines()
        check_index(self.bridge.devices)
        return self.bridge

    def wait(self, *connections) -> None:
        self.wait_calls = connections

    def kill(self) -> None:
        """The bridge is killed. The clock of the next one may begin anywhere."""
        self.broker.lose()
        self.clock.now += 12345.0

    def stop(self) -> None:
        """The end of the bridge, as a signal ends it."""
        self.bridge.is_stopped = True
        self.bridge.run()

    def run_turns(self, count: int = 6, seconds: float = 0.1) -> None:
        for _ in range(count):
            self.bridge.turn()
            if self.checks_index:
                check_index(self.bridge.devices)
            self.clock.now += seconds

    def write_lines(self, *lines) -> None:
        """The gateway writes these lines."""
        with self.lines.open("a") as file:
            for line in lines:
                file.write((line if isinstance(line, str) else json.dumps(line)) + "\n")

    def orders(self) -> list[str]:
        """The orders at the desk."""
        return self.desk.read_text().split("\n")[:-1] if self.desk.exists() else []

    def send(self, topic: str, payload: bytes, retained: bool = False) -> None:
        """Somebody publishes a message."""
        self.broker.connection.received_messages.append(ReceivedMessage(topic, payload, retained))

    def remove_retained(self, start: str = "") -> None:
        """Somebody removes the retained messages on the topics that begin so."""
        for topic in [topic for topic in self.broker.memory if topic.startswith(start)]:
            del self.broker.memory[topic]
            if topic in WATCHED:
                self.send(topic, b"")

    def published(self, start: str = "") -> list[tuple[str, str]]:
        """The topics and messages that were published on this connection."""
        return [(topic, text) for topic, text, _ in self.broker.connection.published if topic.startswith(start)]


def check_index(devices: Devices) -> None:
    """The index has the identities and labels that the known devices have."""
    names_by_label: dict[str, set[str]] = {}
    for device in devices.known_devices.values():
        if device.label:
            names_by_label.setdefault(device.label, set()).add(device.name)
    identities = {device.identity for device in devices.known_devices.values()}
    assert (devices.identities, devices.names_by_label) == (identities, names_by_label)


def reading(device: str, eep: str = "A5-02-05", readings=None, dbm: int | None = -45) -> dict:
    readings = readings or [{"den": 1, "name": "TMP", "num": 20, "unit": "C"}]
    return {"dbm": dbm, "eep": eep, "id": device, "readings": readings, "type": "reading"}


def learned(device: str, eep: str = "A5-02-05", result: str = "accepted", maker=None) -> dict:
    return {"eep": eep, "id": device, "maker": maker, "result": result, "type": "teach"}


def listing(*devices: tuple[str, str, str]) -> list[dict]:
    """The answer to `list`: the ID, the profile and the label of each device."""
    lines = [{"eep": eep, "id": name, "label": label, "maker": None, "type": "device"} for name, eep, label in devices]
    return [*lines, {"count": len(devices), "type": "list"}]


def status(mode: str = "closed", **counters: int) -> dict:
    all_counters = {"ignored": 0, "readings": 0, "refused": 0, "responses": 0, "teach": 0, **counters}
    return {**all_counters, "mode": mode, "type": "status"}


class VisitedDict(OrderedDict):
    """A dict that counts the items that loops over all such dicts and copies of them visit."""

    visit_count = 0

    def __iter__(self):
        for key in super().__iter__():
            VisitedDict.visit_count += 1
            yield key

    def keys(self):
        return KeysView(self)

    def values(self):
        return ValuesView(self)

    def items(self):
        return ItemsView(self)


def count_visits(*objects: object) -> None:
    """Counts visits of all dicts that are attributes of these objects."""
    for one in objects:
        vars(one).update({name: VisitedDict(value) for name, value in vars(one).items()
                          if type(value) in (dict, OrderedDict)})


class TimeLimitedTest(unittest.TestCase):
    """A test that may not hang: after some time it ends the run, which fails, and prints what each thread was doing."""

    def run(self, result: unittest.TestResult | None = None) -> unittest.TestResult | None:
        faulthandler.dump_traceback_later(LONGEST_TEST, exit=True)
        try:
            return super().run(result)
        finally:
            faulthandler.cancel_dump_traceback_later()


class LogTest(TimeLimitedTest):
    """A test that sees what is logged."""

    def setUp(self) -> None:
        self.logged_lines: list[str] = []
        handler = logging.Handler()
        handler.emit = lambda record: self.logged_lines.append(f"{record.levelname}: {record.getMessage()}")
        logging.basicConfig(handlers=[handler], level=logging.INFO, force=True)

    def assert_logged(self, text: str, count: int = 1) -> None:
        lines = [line for line in self.logged_lines if text in line]
        self.assertEqual(len(lines), count, self.logged_lines)
