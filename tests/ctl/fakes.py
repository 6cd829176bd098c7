"""What the unit tests of enogatectl have in place of the clock, and the files of a gateway in a temporary folder."""
from __future__ import annotations

import faulthandler
import json
import pathlib
import signal
import tempfile
import unittest
from typing import Any, Callable

from enogate_tools.gateways import Paths

OK = {"type": "ok"}
# How long a test may take, in seconds; the slowest one takes some ten on a busy machine.
LONGEST_TEST = 120


class Clock:
    """A clock that moves on only in pauses. After so many pauses something happens."""

    def __init__(self) -> None:
        self.now = 0.0
        self.slept: list[float] = []
        self.acts: dict[int, Callable[[], None]] = {}

    def __call__(self) -> float:
        return self.now

    def sleep(self, seconds: float) -> None:
        self.now += seconds
        self.slept.append(seconds)
        self.acts.pop(len(self.slept), lambda: None)()


class TimeLimitedTest(unittest.TestCase):
    """A test that may not hang: after some time it ends the run, which fails, and prints what each thread was doing."""

    def run(self, result: unittest.TestResult | None = None) -> unittest.TestResult | None:
        faulthandler.dump_traceback_later(LONGEST_TEST, exit=True)
        try:
            return super().run(result)
        finally:
            faulthandler.cancel_dump_traceback_later()


class GatewayFilesTest(TimeLimitedTest):
    """The desk and the lines of a gateway, which are empty."""

    maxDiff = None

    def setUp(self) -> None:
        self.folder = pathlib.Path(self.enterContext(tempfile.TemporaryDirectory()))
        self.desk, self.lines, self.state = (self.folder / name for name in ("desk", "hall.lines", "bridge.db"))
        self.desk.touch()
        self.lines.touch()
        self.paths = Paths(str(self.desk), str(self.lines), str(self.state))
        self.clock = Clock()

    def write(self, *lines: dict | str) -> None:
        """The gateway writes these lines."""
        with self.lines.open("a") as file:
            for line in lines:
                file.write((line if isinstance(line, str) else json.dumps(line, separators=(",", ":"))) + "\n")


def call_within(seconds: int, see: Callable[[], Any]) -> Any:
    """What `see` returns, unless it takes longer than this."""
    def fail(*_words: object) -> None:
        raise AssertionError("it waits")
    before = signal.signal(signal.SIGALRM, fail)
    signal.alarm(seconds)
    try:
        return see()
    finally:
        signal.alarm(0)
        signal.signal(signal.SIGALRM, before)


def status(mode: str = "closed", **counters: int) -> dict:
    """A status line."""
    every = {"ignored": 0, "readings": 0, "refused": 0, "responses": 0, "teach": 0, **counters}
    return {**every, "mode": mode, "type": "status"}


def error(name: str) -> dict:
    """An error line."""
    return {"error": name, "type": "error"}


def teach(device: str, eep: str | None = "D5-00-01", maker: int | None = None, result: str = "accepted") -> dict:
    """A teach line."""
    return {"eep": eep, "id": device, "maker": maker, "result": result, "type": "teach"}


def device(name: str, label: str = "", eep: str = "D5-00-01") -> dict:
    """A device line."""
    return {"eep": eep, "id": name, "label": label, "maker": None, "type": "device"}


def end_of_list(count: int) -> dict:
    """The end of a list."""
    return {"count": count, "type": "list"}


def reading(name: str, eep: str = "D5-00-01", readings: list | None = None, dbm: int | None = -45) -> dict:
    """A reading line."""
    readings = readings or [{"name": "CO", "word": "closed"}]
    return {"dbm": dbm, "eep": eep, "id": name, "readings": readings, "type": "reading"}


def packet(why: str) -> dict:
    """A packet line."""
    return {"dbm": -45, "dest": None, "eep": None, "id": "01800ABC", "maker": None, "payload": "09", "rorg": "D5",
            "status": "00", "type": "packet", "why": why}
