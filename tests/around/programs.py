"""Programs that a test runs in the background, and how it waits for what they do."""
from __future__ import annotations

import os
import pathlib
import signal
import subprocess
import time
from typing import Callable, Self, Sequence, TypeVar

# How long a test waits for an event, and how long a program runs if the test is killed, in seconds.
WITHIN = 30.0
MAX_LIFE = 1800
PAUSE = 0.02
Observation = TypeVar("Observation")


def wait_for(observe: Callable[[], Observation], is_expected: Callable[[Observation], object]) -> Observation:
    """The first observation that is expected, or the last one after WITHIN seconds."""
    deadline = time.monotonic() + WITHIN
    while not is_expected(observation := observe()) and time.monotonic() < deadline:
        time.sleep(PAUSE)
    return observation


def lines_of(path: pathlib.Path) -> list[str]:
    """The complete lines of a file that grows; none if there is no file."""
    return path.read_bytes().decode(errors="backslashreplace").split("\n")[:-1] if path.exists() else []


class Program:
    """A program that can be started again. Its process group gets the signals, as in a unit of systemd. Its standard
    error is the file `journal`, which is emptied at each start."""

    def __init__(self, journal: pathlib.Path):
        self.journal_path = journal
        self.process: subprocess.Popen[bytes] | None = None

    def __enter__(self) -> Self:
        return self

    def __exit__(self, *_: object) -> None:
        self.end(signal.SIGKILL)

    def run(self, words: Sequence[str | pathlib.Path], out: str | pathlib.Path = os.devnull, **variables: str) -> None:
        """Starts it with these words and environment variables. Its standard output is appended to the file `out`."""
        words = ["timeout", str(MAX_LIFE), *words]
        with open(out, "ab") as output, open(self.journal_path, "wb") as journal:
            self.process = subprocess.Popen(words, stdin=subprocess.DEVNULL, stdout=output, stderr=journal,
                                            env={**os.environ, **variables}, process_group=0)

    def is_running(self) -> bool:
        return self.process is not None and self.process.poll() is None

    def send(self, signal_number: signal.Signals) -> None:
        """Sends a signal to each of its processes."""
        assert self.process is not None
        os.killpg(self.process.pid, signal_number)

    def end(self, signal_number: signal.Signals = signal.SIGTERM) -> None:
        """Ends it with a signal, if it runs."""
        if self.process is not None and self.is_running():
            self.send(signal_number)
            self.process.wait(WITHIN)

    def journal(self) -> list[str]:
        return lines_of(self.journal_path)
