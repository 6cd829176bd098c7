"""Messages for the journal."""
from __future__ import annotations

import logging
import sys
from collections.abc import Callable, Mapping
from typing import TextIO

# The journal's priorities, as systemd reads them at the beginning of a line.
PRIORITIES = {logging.ERROR: "<3>", logging.WARNING: "<4>", logging.INFO: "<6>"}
# At most so many messages of one kind are logged in so many seconds.
MAX_MESSAGES, PERIOD = 10, 60.0


class Formatter(logging.Formatter):
    """One line per message, with the name of the program."""

    def __init__(self, with_priority: bool, program: str):
        super().__init__(f"{program}: %(message)s")
        self.with_priority = with_priority

    def format(self, record: logging.LogRecord) -> str:
        line = super().format(record).replace("\n", " ")
        return PRIORITIES.get(record.levelno, "") + line if self.with_priority else line


def set_up_logging(environment: Mapping[str, str], stream: TextIO = sys.stderr, program: str = "enogate-mqtt"
                   ) -> None:
    """Logs to standard error, with priorities if it is the journal."""
    handler = logging.StreamHandler(stream)
    handler.setFormatter(Formatter("JOURNAL_STREAM" in environment, program))
    logging.basicConfig(handlers=[handler], level=logging.INFO, force=True)


class RateLimitedLog:
    """Logs messages of which very many may come: a few of each kind at once, and the next one after a while, with the
    number of those in between."""

    def __init__(self, clock: Callable[[], float]):
        self.clock = clock
        # by kind: when its period began, how many messages it had, and how many of them were left out
        self.period_start: dict[str, float] = {}
        self.message_count: dict[str, int] = {}
        self.left_out_counts: dict[str, int] = {}

    def warning(self, kind: str, message: str) -> None:
        """Logs a message of this kind, or counts it."""
        now = self.clock()
        if kind not in self.period_start or now >= self.period_start[kind] + PERIOD:
            self.period_start[kind], self.message_count[kind] = now, 0
        self.message_count[kind] += 1
        if self.message_count[kind] > MAX_MESSAGES:
            self.left_out_counts[kind] = self.left_out_counts.get(kind, 0) + 1
            return
        count = self.left_out_counts.pop(kind, 0)
        logging.warning("%s%s", message, f" ({count} similar messages before)" if count else "")
