"""The readings of a gateway as its bridge publishes them: their values as numbers, their quality, and their age."""
from __future__ import annotations

import json
import math
import re
import struct
from collections.abc import Callable

from enogate_ctl.sheet import without_formula
from enogate_lines.contents import TEXT_PATTERN
from enogate_lines.entities import EntityRow, Table
from enogate_mqtt.connection import ReceivedMessage
from enogate_mqtt.orders import DEVICE_PATTERN
from enogate_mqtt.state import LAST_SEEN_SUBTOPIC, time_in
from enogate_mqtt.topics import Topics

# The quality of a reading, as its register has it, and the age in minutes that is unknown or too long.
NO_READING, GOOD, STALE, NO_NUMBER, MAX_AGE = 0, 1, 2, 3, 65535
REGISTERS_PER_READING, MAX_READINGS = 4, 65536 // 4
# A telegram that is at most so many seconds in the future has the time of a clock that differs a little.
CLOCK_DIFFERENCE = 60.0


class Readings:
    """What the broker has sent. Only one thread handles its messages and the requests of clients, each as a whole: no
    request sees a part of a change. `expire_after` is the setting of the bridge."""

    def __init__(self, topics: Topics, table: Table, expire_after: int | None, time_of_day: Callable[[], float]):
        self.topics, self.table, self.expire_after, self.time_of_day = topics, table, expire_after, time_of_day
        # by topic: a reading as a number, or None if it is not one, and the session in which it was received
        self.numbers: dict[str, tuple[float | None, int]] = {}
        # by device: the time of the last telegram, and the label with the model
        self.last_seen: dict[str, float] = {}
        self.labels: dict[str, tuple[str, str]] = {}
        # the states of bridge, gateway and radio module in this session, by topic
        self.states_by_topic: dict[str, str] = {}
        self.session = 0
        # labels come before readings, so a new map has them
        self.filters = [*([topics.config("sensor", "+")] if topics.discovery else []), *topics.device_filters("+"),
                        topics.gateway, topics.module, topics.status]

    def start_session(self) -> None:
        """A connection was opened or lost. Readings that are not received again are stale: they may be removed."""
        self.session += 1
        self.states_by_topic = {}

    def is_online(self) -> bool:
        """Whether broker, bridge, gateway and radio module are there, as far as it is known."""
        is_connected = self.states_by_topic.get(self.topics.status) == "online"
        return is_connected and "offline" not in self.states_by_topic.values()

    def rows_of(self, topic: str) -> list[EntityRow]:
        """The rows of the table for a reading. Without one it has no registers, as a press, which is over at once."""
        device, _, subtopic = topic.partition("/")
        return self.table.rows_of_subtopic(subtopic) if re.fullmatch(DEVICE_PATTERN, device) else []

    def handle_message(self, message: ReceivedMessage) -> str:
        """Handles a message. Returns the topic, below that of the gateway, if it is a reading that has registers."""
        text, start = message.payload.decode("utf-8", "replace"), f"{self.topics.root}/"
        if message.topic in (self.topics.gateway, self.topics.module, self.topics.status):
            self.states_by_topic[message.topic] = text
        elif message.topic.startswith(start):
            return self.handle_reading(message.topic.removeprefix(start), text)
        elif message.topic.endswith(f"_{LAST_SEEN_SUBTOPIC}/config"):
            self.handle_label(text)
        return ""

    def handle_reading(self, topic: str, text: str) -> str:
        """Handles a reading, or the time of a device's last telegram. Without a text it was removed."""
        device, _, subtopic = topic.partition("/")
        if subtopic == LAST_SEEN_SUBTOPIC:
            time = time_in({subtopic: text})
            put_bounded(self.last_seen, device, time.timestamp() if time else None)
        elif rows := self.rows_of(topic):
            put_bounded(self.numbers, topic, (rows[0].number_of(text), self.session) if text else None)
        return topic if topic in self.numbers else ""

    def handle_label(self, text: str) -> None:
        """Handles a discovery message that each device has. Another client may have sent it."""
        try:
            about = json.loads(text)["device"]
            device, label, model = about["serial_number"], about["name"], about["model"]
            if re.fullmatch(TEXT_PATTERN, label) and re.fullmatch("[ -~]{1,80}", model):
                put_bounded(self.labels, str(device), (without_formula(label), without_formula(model)))
        except (ValueError, TypeError, KeyError, RecursionError):
            pass

    def registers_of(self, topic: str) -> tuple[int, ...]:
        """The registers of a reading: its value as a float, high word first, its quality, and its age in minutes."""
        value, quality = self.state_of(topic)
        minutes = min(self.age_of(topic) / 60, MAX_AGE) if topic in self.numbers else MAX_AGE
        return *struct.unpack(">HH", struct.pack(">f", value)), quality, int(minutes)

    def state_of(self, topic: str) -> tuple[float, int]:
        """The value of a reading, and its quality. If its lifetime differs between profiles, the longest counts."""
        number, session = self.numbers.get(topic, (None, 0))
        if number is None:
            return math.nan, NO_NUMBER if topic in self.numbers else NO_READING
        lifetime = max(row.expires_after(self.expire_after) or math.inf for row in self.rows_of(topic))
        is_fresh = lifetime == math.inf or self.age_of(topic) <= lifetime
        return number, GOOD if self.is_online() and session == self.session and is_fresh else STALE

    def age_of(self, topic: str) -> float:
        """The seconds since the last telegram of the device; infinity if it is not known or in the future. The arrival
        of a message is no sign of a telegram: the bridge publishes old readings again."""
        age = self.time_of_day() - self.last_seen.get(topic.partition("/")[0], math.inf)
        return max(age, 0.0) if age >= -CLOCK_DIFFERENCE else math.inf


def put_bounded(values: dict, key: str, value: object) -> None:
    """Puts a value in place of the earlier one, or removes that if it is None. A dictionary has a limited size."""
    values.pop(key, None)
    if value is not None and len(values) < MAX_READINGS:
        values[key] = value
