"""The register map: a CSV file with a row for each reading. Rows are only added, so a reading keeps its registers."""
from __future__ import annotations

import csv
import io
from collections.abc import Callable

from enogate_mqtt.log import RateLimitedLog
from enogate_mqtt.orders import is_command
from enogate_mqtt.settings import WrongSetting, error_text
from enogate_tools import files

from .readings import MAX_READINGS, REGISTERS_PER_READING, Readings

# The first register, the address of coil and holding register, and the topic. The other columns are only for people.
COLUMNS = ["register", "output", "topic", "unit", "label", "model"]
# The file has at most so many characters, and is written at most every so many seconds.
MAX_LENGTH, WRITE_EVERY = 4 << 20, 5.0


def first_columns(number: int, topic: str) -> list[str]:
    """The first columns of the row with this number."""
    return [str(number * REGISTERS_PER_READING), str(number) if is_command(topic, "0") else "", topic]


class RegisterMap:
    """The rows that are in the file: their topics, and its text. The other known topics get rows in the next write."""

    def __init__(self, path: str, readings: Readings, log: RateLimitedLog, clock: Callable[[], float]):
        self.path, self.readings, self.log, self.clock = path, readings, log, clock
        self.topics, self.text = self.read()
        self.known_topics = set(self.topics)
        self.next_write_at = clock() + WRITE_EVERY

    def read(self) -> tuple[list[str], str]:
        """The topics and the text of the file; none if it does not exist. WrongSetting if it is damaged: a client would
        take one reading for another. The labels in it are valid until others are known."""
        try:
            with open(files.open_regular(self.path), encoding="utf-8", newline="") as file:
                text = file.read(MAX_LENGTH + 1)
            head, *rows = csv.reader(io.StringIO(text, newline=""), strict=True)
        except FileNotFoundError:
            return [], ""
        except (OSError, ValueError, csv.Error) as error:
            raise WrongSetting(f"cannot read the register map {self.path}: {error_text(error)}") from error
        if head != COLUMNS or not text.endswith("\n") or len(text) > MAX_LENGTH or len(rows) > MAX_READINGS:
            raise WrongSetting(f"damaged register map {self.path}: its first line, its end or its length is wrong")
        topics: dict[str, None] = {}
        for number, row in enumerate(rows):
            if len(row) != len(COLUMNS) or row[:3] != first_columns(number, row[2]) or row[2] in topics \
                    or not self.readings.rows_of(row[2]):
                raise WrongSetting(f"damaged register map {self.path}: row {number + 1} was not written like this")
            topics[row[2]] = None
            self.readings.labels[row[2].partition("/")[0]] = (row[4], row[5])
        return list(topics), text

    def add(self, topic: str) -> None:
        """Gives registers to a reading that has none."""
        if len(self.known_topics) < MAX_READINGS:
            self.known_topics.add(topic)
        elif topic not in self.known_topics:
            self.log.warning("full", f"all registers are in use: {topic} gets none")

    def turn(self) -> None:
        """Writes the file if it is due and has changed. New rows are served only after they have reached the disk."""
        if self.clock() < self.next_write_at:
            return
        self.next_write_at = self.clock() + WRITE_EVERY
        topics = self.topics + sorted(self.known_topics.difference(self.topics))
        text = self.text_of(topics)
        try:
            if topics and text != self.text:
                files.replace_path(self.path, 0o644, text.encode())
        except OSError as error:
            self.log.warning("map", f"cannot write {self.path}: {error_text(error)}: new readings get no registers")
            return
        self.topics, self.text = topics, text

    def text_of(self, topics: list[str]) -> str:
        """The file with the rows of these topics."""
        rows = ([*first_columns(number, topic), self.readings.rows_of(topic)[0].more.get("unit", ""),
                 *self.readings.labels.get(topic.partition("/")[0], ("", ""))] for number, topic in enumerate(topics))
        file = io.StringIO(newline="")
        csv.writer(file, lineterminator="\n").writerows([COLUMNS, *rows])
        return file.getvalue()
