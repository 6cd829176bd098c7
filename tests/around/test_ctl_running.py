"""Orders with enogatectl to the gateway of a unit that is stopped, waits for its stick, or runs. systemctl is a script:
no systemd runs the unit."""
from __future__ import annotations

import os
import pathlib
import shutil
import signal
import subprocess
import tempfile
import unittest

from bridge_testcase import PYTHON
from ctl_testcase import OK, REFUSED, SILENT, Run
from programs import Program, wait_for
from services import BASE, CONTRIB, PROGRAM, Gateway, Stick

# The command, with the files of the gateways below a directory.
COMMAND = """import functools, sys
root = sys.argv.pop(1)
sys.path.insert(0, root + "/tools")
from enogate_ctl import command_line, main, running
from enogate_tools import gateways
command_line.paths_of = functools.partial(command_line.paths_of, root=root)
running.System = functools.partial(running.System, root, user=lambda: None)
gateways.gateway_names = lambda _root="", names=gateways.gateway_names: names(root)
sys.exit(main.main())"""
STOPPED = "enogate@hall is stopped: sudo systemctl start enogate@hall"
# A member of the group `enogate`, and this group.
MEMBER, GROUP = 61001, 61000


class UnitOfGateway(unittest.TestCase):
    """The unit `hall`, and a script in place of systemctl, which prints what is in a file."""

    maxDiff = None

    def setUp(self) -> None:
        self.work = pathlib.Path(self.enterContext(tempfile.TemporaryDirectory())).resolve()
        self.work.chmod(0o755)
        self.stick = self.enterContext(Stick(self.work))
        self.gateway = self.enterContext(Gateway(self.work))
        (self.work / "var").symlink_to(self.work)
        (self.work / "etc/default").mkdir(parents=True)
        (self.work / "etc/default/enogate-hall").touch()
        for name in ("enogate_ctl", "enogate_lines", "enogate_mqtt", "enogate_tools", "share"):
            shutil.copytree(CONTRIB / name, self.work / "tools" / name, ignore=shutil.ignore_patterns("__pycache__"))
        systemctl = self.work / "bin/systemctl"
        systemctl.write_text(f'#!/bin/sh\n[ "$*" = "is-active enogate@hall" ] && cat {self.work}/state\n')
        systemctl.chmod(0o755)
        self.has_state("inactive")

    def shortDescription(self) -> None:
        """Only the names of tests are printed, without their docstrings."""

    def has_state(self, state: str) -> None:
        """The state of the unit."""
        (self.work / "state").write_text(f"{state}\n")

    def ctl(self, *words: str, name: str = "hall", user: int | None = None) -> Run:
        """Runs a command."""
        program = [PYTHON, "-B", "-c", COMMAND, self.work, name, *words]
        rights = {} if user is None else {"user": user, "group": user, "extra_groups": [GROUP]}
        path = f"{self.work / 'bin'}:{os.environ['PATH']}"
        process = subprocess.run(program, capture_output=True, text=True, timeout=60, env={"PATH": path}, cwd="/",
                                 stdin=subprocess.DEVNULL, **rights)
        return Run(process.returncode, process.stdout, process.stderr)

    def assert_at_once(self, reason: str) -> None:
        """Each order ends with this sentence, for each user, and nothing is written to the desk. An order that waits
        for an answer would be written."""
        desk_before = self.gateway.desk.read_bytes() if self.gateway.desk.exists() else None
        for user in (None, MEMBER) if os.getuid() == 0 else (None,):
            for words in ("status", "switch 01800ABC 0 on", "learn on --for 9", "devices --export"):
                self.assertEqual(self.ctl(*words.split(" "), user=user), Run(SILENT, "", f"enogatectl: {reason}\n"))
        self.assertEqual(self.gateway.desk.read_bytes() if self.gateway.desk.exists() else None, desk_before)

    def assert_answers(self) -> None:
        """The gateway answers orders soon."""
        run = wait_for(lambda: self.ctl("--timeout", "20", "learn", "off"), lambda run: run.status == OK)
        self.assertEqual(run, Run(OK, "ok\n", ""), self.gateway.journal())

    def test_a_unit_that_was_never_started_and_one_that_was_stopped(self):
        self.assert_at_once(STOPPED)
        self.stick.start()
        self.gateway.start(self.stick)
        self.assert_answers()
        self.gateway.end()
        self.assert_at_once(STOPPED)
        self.has_state("failed")
        self.assert_at_once("enogate@hall has failed: find out why with sudo journalctl -n 20 -u enogate@hall")

    def test_a_unit_that_waits_for_its_stick(self):
        """When the stick is plugged in, the gateway answers."""
        self.has_state("active")
        self.gateway.start(self.stick)
        reason = f"no stick at {self.stick.path}: plug it in, or correct SERIAL"
        self.assertEqual(wait_for(self.gateway.journal, bool), [f"{reason}; waiting"])
        self.assert_at_once(f"enogate@hall waits: {reason} in /etc/default/enogate-hall")
        self.stick.start()
        self.assert_answers()
        self.stick.end(signal.SIGKILL)
        self.assertTrue(wait_for(lambda: not self.gateway.is_running(), bool))
        self.has_state("inactive")
        self.assert_at_once(STOPPED)

    def test_an_order_during_a_start_is_kept(self):
        """The module does not answer for a while."""
        self.has_state("active")
        self.stick.start()
        self.stick.send(signal.SIGSTOP)
        self.addCleanup(self.stick.send, signal.SIGCONT)
        self.gateway.start(self.stick)
        process = subprocess.Popen(["sh", "-c", "sleep 1; kill -CONT $0", str(self.stick.process.pid)])
        self.assertEqual(self.ctl("--timeout", "20", "learn", "off"), Run(OK, "ok\n", ""))
        process.wait()

    def test_a_gateway_by_hand_at_the_desk_of_the_unit(self):
        """With its whole path, or in its directory. systemctl says that the unit is stopped."""
        self.stick.start()
        program = self.enterContext(Program(self.work / "by-hand.journal"))
        for desk in (str(self.gateway.desk), "desk"):
            self.gateway.desk.write_text("")
            live = (f"live --base {BASE} --serial {self.stick.path} --desk {desk} --out {self.gateway.lines_path} "
                    "--turns 4000")
            program.run(["sh", "-c", f"cd {self.gateway.desk.parent} && exec {self.work}/bin/enogate {live}"])
            self.assert_answers()
            program.end()
        self.assertTrue(PROGRAM.exists())

    def test_the_name_of_no_gateway(self):
        (self.work / "etc/default/enogate-attic").touch()
        reason = ("enogatectl: there is no gateway Hall: did you mean hall? If not, make it: sudo systemctl enable "
                  "--now "
                  "enogate@Hall\n")
        for words, status in (("status", SILENT), ("devices", REFUSED), ("lines", REFUSED), ("learn off", SILENT)):
            self.assertEqual(self.ctl(*words.split(" "), name="Hall"), Run(status, "", reason))


if __name__ == "__main__":
    unittest.main()
