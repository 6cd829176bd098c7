"""The table `entities` (enogate_tools.share): which entity of Home Assistant shows a reading."""
from __future__ import annotations

import fnmatch
import re
import shlex
from collections.abc import Iterable
from dataclasses import dataclass, field

from enogate_tools import share

from .contents import Reading, Telegram

# The words that configure an entity.
ROW_KEYS = {"class", "state", "unit", "digits", "on", "off", "options", "types", "diagnostic", "hidden", "cyclic",
            "say", "normal", "detail"}
# the highest channel that accepts orders, by the kind of entity, and the number that means all channels in a query
GREATEST_CHANNEL, ALL_CHANNELS = {"switch": 29, "light": 29, "cover": 0}, 30
# A setting in place of a number of seconds: a cyclic reading expires after so many of its own intervals, because two
# telegrams in a row may be lost.
AUTO, MISSED_INTERVALS = 0, 3
# a number of an entity, as it is written in a topic
CHANNEL_NUMBER = re.compile("0|[1-9][0-9]?")
# a number, as it is published (decimals)
NUMBER_PATTERN = r"-?[0-9]{1,20}(\.[0-9]{1,99})?"


class WrongTable(ValueError):
    """A line of the table does not have the documented form."""


@dataclass(frozen=True)
class EntityRow:
    """A line of the table."""
    profiles: str
    reading: str
    unit: str
    topic: str
    # the reading with the number of an entity, how many numbers the profile has, and whether their entities exist
    # before the first reading
    by: str
    count: int
    from_the_start: bool
    entity: str
    name: str
    more: dict[str, str] = field(compare=False)

    def subtopic(self, number: int | None) -> str:
        """The topic of the entity with this number, below the topic of the device."""
        return self.topic if number is None else f"{self.topic}/{number}"

    def title(self, number: int | None) -> str | None:
        """The name of the entity with this number; None if it has the name of the device."""
        if number is None or (self.count == 1 and number == 0):
            return self.name or None
        return f"{self.name} {number}".strip()

    def expires_after(self, seconds: int | None) -> int | None:
        """After how many seconds without a telegram this reading expires; None if it does not. `seconds` is the setting
        for all cyclic readings: a number, AUTO, or None if they do not expire."""
        if seconds is None or "cyclic" not in self.more:
            return None
        return MISSED_INTERVALS * int(self.more["cyclic"]) if seconds == AUTO else seconds

    @property
    def name_for_people(self) -> str:
        """The name of the reading for people."""
        return self.more.get("say") or self.name or self.reading

    def is_detail(self, text: str) -> bool:
        """Whether people need not see the reading with this value, if the device has others."""
        return not self.entity or bool({"hidden", "detail"} & self.more.keys()) or text in self.words("normal")

    @property
    def digits(self) -> int | None:
        """How many digits after the point are shown; None if the entity shows no number."""
        return int(self.more["digits"]) if "digits" in self.more else None

    def words(self, key: str) -> list[str]:
        return self.more[key].split("|") if key in self.more else []

    def number_of(self, text: str) -> float | None:
        """A reading of this row as a number; None if it is not one. A word is 0 if it means off, and 1 if it means on;
        options are counted from 0."""
        if re.fullmatch(NUMBER_PATTERN, text):
            return float(text)
        words = self.words("options") or [*self.words("off"), *self.words("on")]
        return float(words.index(text)) if text in words else None

    def entity_numbers(self, subtopics: Iterable[str]) -> list[int | None]:
        """The numbers of its entities, for a device with readings on these subtopics."""
        if not self.by:
            return [None]
        start = set(range(self.count)) if self.from_the_start else set()
        start_of_all = self.topic + "/"
        ends = (subtopic.removeprefix(start_of_all) for subtopic in subtopics if subtopic.startswith(start_of_all))
        all_numbers = sorted(start | {int(end) for end in ends if CHANNEL_NUMBER.fullmatch(end)})
        return [number for number in all_numbers if number <= GREATEST_CHANNEL.get(self.entity, number)]


def parsed_entity_row(line: str) -> EntityRow:
    """The row of a line."""
    try:
        words = ["" if word == "-" else word for word in shlex.split(line)]
        profiles, reading, unit, topic, by, entity, name = words[:7]
        more = dict(word.partition("=")[::2] for word in words[7:])
        sign = "?" if "?" in by else ":"
        by, _, count = by.partition(sign)
        row = EntityRow(profiles, reading, unit, topic, by, int(count or 0), sign == ":", entity, name, more)
    except ValueError as error:
        raise WrongTable(line) from error
    if not (more.keys() <= ROW_KEYS and re.fullmatch("[0-9]", more.get("digits", "0"))
            and re.fullmatch("[1-9][0-9]{0,6}", more.get("cyclic", "1"))):
        raise WrongTable(line)
    return row


class Table:
    """The rows of the table."""

    def __init__(self, path: str = "entities"):
        self.rows = [parsed_entity_row(line) for line in share.table_lines(path)]
        self.rows_by_profile: dict[str, dict[tuple[str, str], EntityRow]] = {}

    def rows_of_profile(self, eep: str) -> dict[tuple[str, str], EntityRow]:
        """The rows of a profile, by reading and unit: the first matching row of each."""
        if eep not in self.rows_by_profile:
            rows = self.rows_by_profile[eep] = {}
            for row in self.rows:
                if fnmatch.fnmatchcase(eep, row.profiles):
                    rows.setdefault((row.reading, row.unit), row)
        return self.rows_by_profile[eep]

    def channel_of_all(self, eep: str) -> int | None:
        """The channel with which an actuator of this profile is asked for the states of all its channels; None if the
        devices are no actuators."""
        counts = [row.count for row in self.rows_of_profile(eep).values() if row.entity in GREATEST_CHANNEL]
        return None if not counts else 0 if counts[0] == 1 else ALL_CHANNELS

    def row_of_reading(self, eep: str, reading: Reading) -> EntityRow | None:
        """The row of a reading. A word instead of a value has no unit: it uses the row of the value."""
        rows = self.rows_of_profile(eep)
        if (reading.name, reading.unit) in rows or reading.unit:
            return rows.get((reading.name, reading.unit))
        named_rows = [row for row in rows.values() if row.reading == reading.name]
        return named_rows[0] if len(named_rows) == 1 else None

    def may_report(self, eep: str, subtopic: str) -> bool:
        """Whether `readings_by_subtopic` has this subtopic for some telegram of the profile."""
        rows = self.rows_of_profile(eep).values()
        shown_rows = [row for row in rows if row.entity not in ("", "event")]
        name, separator, number = subtopic.partition("/")
        if separator:
            return name in {row.topic for row in shown_rows if row.by} and bool(CHANNEL_NUMBER.fullmatch(number))
        return name in {"dbm", *(row.reading for row in rows), *(row.topic for row in shown_rows if not row.by)}

    def rows_of_subtopic(self, subtopic: str) -> list[EntityRow]:
        """The rows of all profiles with an entity on this subtopic of a device. They have the same unit and the same
        words. Events are left out: they are no states."""
        name, separator, number = subtopic.partition("/")
        rows = [row for row in self.rows if row.topic == name and row.entity not in ("", "event")]
        is_possible = not separator or CHANNEL_NUMBER.fullmatch(number)
        return [row for row in rows if is_possible and bool(row.by) == bool(separator)]

    def readings_by_subtopic(self, telegram: Telegram) -> dict[str, str]:
        """The readings of a telegram, by their subtopics."""
        texts_by_subtopic = {}
        numbers_by_name = {reading.name: reading.number for reading in telegram.readings}
        for reading in telegram.readings:
            texts_by_subtopic[reading.name] = reading.text
            row = self.row_of_reading(telegram.eep, reading)
            if row and row.topic and row.entity != "event" and (not row.by or numbers_by_name.get(row.by) is not None):
                texts_by_subtopic[row.subtopic(numbers_by_name.get(row.by))] = reading.text
        if telegram.dbm is not None:
            texts_by_subtopic["dbm"] = str(telegram.dbm)
        return texts_by_subtopic

    def events_of(self, telegram: Telegram) -> list[tuple[str, str]]:
        """The events of a telegram, each with the subtopic of its entity and its type. A release is a single event."""
        events = []
        for reading in telegram.readings:
            row = self.row_of_reading(telegram.eep, reading)
            if row and row.entity == "event" and reading.text in row.words("types"):
                events.append((row.topic, reading.text))
        return [event for event in events if event[1] == "released"] or events
