"""The base class of the tests of enogatectl at a gateway."""
from __future__ import annotations

import json
import os
import pathlib
import signal
import subprocess
import tempfile
import unittest
from dataclasses import dataclass
from typing import Any

from programs import WITHIN, wait_for
from services import CTL as COMMAND
from services import Gateway, Stick

OK, REFUSED, USAGE, SILENT = 0, 1, 2, 3


@dataclass(frozen=True)
class Run:
    """What a command printed, and its exit status."""
    status: int
    out: str
    err: str


class CtlTest(unittest.TestCase):
    """The tests of a class share a gateway, which runs. Each uses devices of its own."""

    maxDiff = None
    explain = ""

    @classmethod
    def setUpClass(cls) -> None:
        cls.work = pathlib.Path(cls.enterClassContext(tempfile.TemporaryDirectory()))
        cls.stick = cls.enterClassContext(Stick(cls.work))
        cls.gateway = cls.enterClassContext(Gateway(cls.work))
        cls.stick.start()
        cls.start_gateway()

    @classmethod
    def start_gateway(cls) -> None:
        """Starts the gateway, and waits until it answers. An order on the desk of an earlier start gets no answer."""
        cls.gateway.start(cls.stick, cls.explain)
        run = wait_for(lambda: cls.ctl("--timeout", "20", "status"), lambda run: run.status == OK)
        assert run.status == OK, (run, cls.gateway.journal())

    def shortDescription(self) -> None:
        """Only the names of tests are printed, without their docstrings."""

    @classmethod
    def words(cls, *words: str) -> list[str | pathlib.Path]:
        """The words of a command for the gateway."""
        return cls.gateway.ctl_words(*words)

    @classmethod
    def ctl(cls, *words: str, text: str = "") -> Run:
        """Runs a command with this standard input."""
        process = subprocess.run(cls.words(*words), input=text, capture_output=True, text=True, timeout=60)
        return Run(process.returncode, process.stdout, process.stderr)

    def begin(self, *words: str) -> subprocess.Popen[str]:
        """Starts a command."""
        process = subprocess.Popen(self.words(*words), stdout=subprocess.PIPE, stderr=subprocess.PIPE, text=True)
        self.addCleanup(process.communicate)
        self.addCleanup(process.kill)
        return process

    def end(self, process: subprocess.Popen[str]) -> Run:
        """Waits for the end of a command."""
        out, err = process.communicate(timeout=60)
        return Run(process.returncode, out, err)

    def assert_run(self, run: Run, status: int, out: str = "", err: str = "") -> None:
        """A command ended with this status, and printed exactly these texts."""
        self.assertEqual(run, Run(status, out, f"enogatectl: {err}\n" if err else ""))

    def assert_ends(self, run: Run, status: int, err: str) -> None:
        """A command ended with this status, and only printed an error that has this text."""
        self.assertEqual((run.status, run.out), (status, ""), run)
        self.assertIn(err, run.err)

    def assert_soon(self, observe, expected: object) -> None:
        """`see` returns this within WITHIN seconds."""
        self.assertEqual(wait_for(observe, lambda observation: observation == expected), expected)

    def status(self) -> dict[str, Any]:
        """The members of the answer to `status`."""
        run = self.ctl("--json", "status")
        self.assertEqual((run.status, run.err), (OK, ""))
        return json.loads(run.out)

    def mode(self) -> str:
        """The mode of the learn window."""
        return self.status()["mode"]

    def process(self) -> int:
        """The process of the gateway itself."""
        words = ["pgrep", "-g", str(self.gateway.process.pid), "-x", "enogate"]
        process_numbers = wait_for(lambda: subprocess.run(words, capture_output=True, text=True).stdout.split(), bool)
        return int(process_numbers[0])

    def stop_gateway(self) -> None:
        """The gateway stops until `go_on`. At the end of the test it answers all orders."""
        self.hanging = self.process()
        self.addCleanup(self.ctl, "status")
        self.addCleanup(self.continue_gateway)
        os.kill(self.hanging, signal.SIGSTOP)

    def continue_gateway(self) -> None:
        """The gateway continues."""
        try:
            os.kill(self.hanging, signal.SIGCONT)
        except ProcessLookupError:
            pass

    def wait_for_order(self, size: int) -> None:
        """Waits until something was appended to the desk, which had this size."""
        self.assertGreater(wait_for(self.desk_size, lambda now: now > size), size)

    def desk_size(self) -> int:
        """The size of the desk."""
        return self.gateway.desk.stat().st_size

    def read_all(self, count: int, kind: str = "reading") -> None:
        """Waits until the gateway has printed so many lines of this type."""
        self.assert_soon(lambda: sum(f'"type":"{kind}"' in line for line in self.gateway.lines()) >= count, True)


__all__ = ["COMMAND", "CtlTest", "OK", "REFUSED", "Run", "SILENT", "USAGE", "WITHIN"]
