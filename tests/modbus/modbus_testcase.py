"""What the unit tests of the Modbus server have in common: a clock, and a gateway whose messages a test makes up."""
from __future__ import annotations

import pathlib
import tempfile
from collections.abc import Sequence

from enogate_lines.entities import AUTO, Table
from enogate_modbus.readings import Readings
from enogate_modbus.register_map import WRITE_EVERY, RegisterMap
from enogate_mqtt.connection import ReceivedMessage
from enogate_mqtt.log import RateLimitedLog
from enogate_mqtt.topics import Topics
from fakes import Clock, LogTest

# 2026-12-01 12:00 UTC, in seconds since 1970.
NOON = 1_796_126_400.0
TABLE = Table()
NOT_A_NUMBER = (0x7FC0, 0)
STATE_TOPICS = ("status", "gateway", "module")


class ReadingsTest(LogTest):
    """The gateway `hall`, which is online, and no readings yet."""

    maxDiff = None

    def setUp(self) -> None:
        super().setUp()
        self.clock, self.time_of_day = Clock(), Clock(NOON)
        self.topics = Topics("hall", "homeassistant")
        self.readings = self.new_readings()

    def new_readings(self, expire_after: int | None = AUTO) -> Readings:
        """What is received from now on."""
        self.readings = Readings(self.topics, TABLE, expire_after, self.time_of_day)
        self.readings.start_session()
        self.receive_states("online")
        return self.readings

    def receive(self, subtopic: str, text: str | bytes) -> str:
        """A message on a topic below that of the gateway."""
        payload = text if isinstance(text, bytes) else text.encode()
        return self.readings.handle_message(ReceivedMessage(f"enogate/hall/{subtopic}", payload, True))

    def receive_states(self, text: str) -> None:
        for name in STATE_TOPICS:
            self.receive(name, text)

    def receive_now(self, topic: str, text: str) -> None:
        """A reading of a telegram that has just arrived."""
        self.receive(f"{topic[:8]}/last_seen", "2026-12-01T12:00:00+00:00")
        self.receive(topic, text)

    def receive_label(self, payload: str | bytes, topic: str = "01800ABC_last_seen") -> str:
        """A discovery message."""
        payload = payload if isinstance(payload, bytes) else payload.encode()
        topic = f"homeassistant/sensor/enogate_hall/{topic}/config"
        return self.readings.handle_message(ReceivedMessage(topic, payload, True))


class MapTest(ReadingsTest):
    """A register map in a new folder."""

    def setUp(self) -> None:
        super().setUp()
        folder = tempfile.TemporaryDirectory()
        self.addCleanup(folder.cleanup)
        self.path = pathlib.Path(folder.name, "hall.csv")

    def open_map(self) -> RegisterMap:
        """The map, after a start of the program."""
        self.map = RegisterMap(str(self.path), self.readings, RateLimitedLog(self.clock), self.clock)
        return self.map

    def add(self, topics: Sequence[str]) -> None:
        """Adds readings, and lets the time pass until the file is written."""
        for topic in topics:
            self.map.add(topic)
        self.pass_time()

    def pass_time(self) -> None:
        self.clock.now += WRITE_EVERY
        self.map.turn()
