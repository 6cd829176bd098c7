"""The base class of the tests at terminals, and the programs that such a test starts in the background."""
from __future__ import annotations

import contextlib
import difflib
import os
import pathlib
import signal
import subprocess
import tempfile
import time
from typing import Callable, Iterable

from pty_stick import Stick
from runs import PROGRAM
from testcase import LiveTest, decoded_text

# In seconds: how long a test waits for an event, which only a failure takes, and how long between two looks.
WITHIN = 60.0
PAUSE = 0.02
# Turns of a silent line take a tenth of a second each, so only a gateway whose reads return at once ends within a test.
AN_HOUR = 36000


class BackgroundProgram:
    """A program in the background, which is killed at the end of the test. The file `output` gets what it prints."""

    def __init__(self, *words: str | pathlib.Path, output: pathlib.Path):
        self.output = output
        with output.open("wb") as file:
            self.process = subprocess.Popen(words, stdin=subprocess.DEVNULL, stdout=file, stderr=file)

    def __enter__(self) -> BackgroundProgram:
        return self

    def __exit__(self, *_: object) -> None:
        self.process.kill()
        self.process.wait()

    def has_ended(self) -> bool:
        return self.process.poll() is not None

    def state(self) -> str:
        """The letter that Linux shows for the state of its process: S if it waits, T if it is stopped. Empty after its
        end."""
        if self.has_ended():
            return ""
        return pathlib.Path(f"/proc/{self.process.pid}/stat").read_text().rpartition(") ")[2][0]

    def printed(self) -> str:
        return decoded_text(self.output.read_bytes())

    def status_and_output(self) -> str:
        """Whether it still runs, or its status, and what it has printed."""
        status = "still runs" if not self.has_ended() else f"has ended with status {self.process.returncode}"
        return f"{status}, and has printed {self.printed()!r}"


class TerminalTest(LiveTest):
    """The serial line is a stick. Orders are given in `orders`, which is the desk, and lines are read in `lines`, which
    is the file of answers."""

    gateway: BackgroundProgram

    def setUp(self) -> None:
        super().setUp()
        self.orders, self.lines = self.desk, self.answers
        self.outputs = pathlib.Path(self.enterContext(tempfile.TemporaryDirectory()))
        self.programs: dict[str, BackgroundProgram] = {}
        self.plug_in()

    def plug_in(self, read_wait_tenths: int = 1) -> None:
        """A new stick is the serial line. A read of it waits for this many tenths of a second."""
        self.stick = self.enterContext(Stick(read_wait_tenths))
        self.line = self.stick.path
        self.expected_sent = b""

    def start_program(self, name: str, *words: str | pathlib.Path, output: pathlib.Path | None = None
                      ) -> BackgroundProgram:
        """Starts a program in the background, in place of an earlier one of this name."""
        program = self.enterContext(BackgroundProgram(*words, output=output or self.outputs / name))
        self.programs[name] = program
        return program

    def start_gateway(self, *options: str | pathlib.Path, turn_count: int = AN_HOUR) -> None:
        """Starts a gateway."""
        self.expected_lines = ""
        self.gateway = self.start_program("the gateway", PROGRAM, *self.live_command(*options, turn_count=turn_count))

    def start(self, *options: str | pathlib.Path, turn_count: int = AN_HOUR) -> None:
        """Starts a gateway, and waits until there is a file of answers, which it opens last."""
        self.start_gateway(*options, turn_count=turn_count)
        self.assert_made(self.answers)

    def order(self, text: str, *lines: str, expected_bytes: bytes = b"") -> None:
        """Writes this text to the desk. It is answered with these lines, and these bytes are sent to the stick."""
        desk = os.open(self.orders, os.O_WRONLY | os.O_APPEND | os.O_NOCTTY)
        os.write(desk, text.encode())
        os.close(desk)
        self.assert_new_output(*lines, expected_bytes=expected_bytes)

    def bring(self, packet_bytes: bytes, *lines: str, expected_bytes: bytes = b"") -> None:
        """The stick receives these bytes. They are answered with these lines and these bytes."""
        self.stick.bring(packet_bytes)
        self.assert_new_output(*lines, expected_bytes=expected_bytes)

    def assert_new_output(self, *lines: str, expected_bytes: bytes = b"") -> None:
        """After what was expected before, exactly these lines are written, and these bytes are sent."""
        self.expected_lines += "".join(lines)
        self.expected_sent += expected_bytes
        self.assert_comes("the lines", self.written_lines, self.expected_lines)
        self.assert_comes("the bytes sent to the stick", lambda: self.stick.sent.hex(), self.expected_sent.hex())

    def written_lines(self) -> str:
        """The lines that the gateway has written."""
        return decoded_text(self.lines.read_bytes()) if self.lines.exists() else ""

    def assert_comes(self, subject: str, observe: Callable[[], str], expected: str) -> None:
        """`see` returns this text before the time is over or a program has ended."""
        deadline = time.monotonic() + WITHIN
        is_last = False
        while (observation := observe()) != expected and not is_last:
            self.stick.collect(PAUSE)
            is_last = time.monotonic() > deadline or any(program.has_ended() for program in self.programs.values())
        self.assert_seen(subject, observation, expected)

    def assert_made(self, *paths: pathlib.Path) -> None:
        """These files are there before the time is over."""
        def names(file_paths: Iterable[pathlib.Path]) -> str:
            return "".join(f"{path.name}\n" for path in file_paths)

        self.assert_comes("the files", lambda: names(path for path in paths if path.exists()), names(paths))

    def assert_seen(self, subject: str, observation: str, expected: str) -> None:
        """These are the same. If not, the message has the lines that are different, and how each program is."""
        if observation != expected:
            line_lists = expected.splitlines(), observation.splitlines()
            lines = difflib.unified_diff(*line_lists, "wanted", "seen", n=1, lineterm="")
            endings = (f"{name} {program.status_and_output()}" for name, program in self.programs.items())
            self.fail("\n".join([f"{subject}, wanted and seen:", *lines, *endings]))

    def assert_end(self, status: int, expected_output: str = "") -> None:
        """The gateway ends with this status, and has printed this text only."""
        with contextlib.suppress(subprocess.TimeoutExpired):
            self.gateway.process.wait(WITHIN)
        expected_end = f"has ended with status {status}, and has printed {expected_output!r}"
        self.assert_seen("the end of the gateway", self.gateway.status_and_output(), expected_end)

    def assert_no_other_output(self) -> None:
        """The gateway, which has ended, has written no other line, and sent no other byte, than what was expected."""
        self.stick.collect_all(WITHIN)
        self.assert_new_output()

    def end(self) -> None:
        """A signal ends the gateway, and it has done nothing else than what was expected."""
        self.gateway.process.terminate()
        self.assert_end(-signal.SIGTERM)
        self.assert_no_other_output()
