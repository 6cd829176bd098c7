"""The learn window for a time, the base ID of a stick, and the files of the gateways."""
from __future__ import annotations

import json
import pathlib
import signal
import subprocess
import sys
import tempfile
import time
import unittest

from ctl_testcase import COMMAND, OK, REFUSED, SILENT, USAGE, CtlTest
from pty_stick import Stick as SilentStick
from services import BASE, Stick

OPENED = "the learn window is open for {} s; Ctrl-C closes it\n"
CLOSED = "the learn window is closed\n"


class LearnWindowCommand(CtlTest):
    """`learn .. --for`."""

    def open(self, *words: str):
        """Starts a command, and waits until the window is open."""
        process = self.begin("learn", *words)
        self.opened_line = process.stdout.readline()
        return process

    def test_it_closes_after_the_time(self):
        start_time = time.monotonic()
        self.assert_run(self.ctl("learn", "as", "F6-02-01", "--for", "0.5"), OK, OPENED.format("0.5") + CLOSED)
        self.assertGreater(time.monotonic() - start_time, 0.5)
        self.assertEqual(self.mode(), "closed")

    def test_each_signal_closes_it(self):
        for signal_number in (signal.SIGINT, signal.SIGTERM, signal.SIGHUP):
            with self.subTest(signal_number.name):
                process = self.open("on", "--for", "60")
                self.assertEqual((self.opened_line, self.mode()), (OPENED.format(60), "on"))
                process.send_signal(signal_number)
                self.assert_run(self.end(process), OK, CLOSED)
                self.assertEqual(self.mode(), "closed")

    def test_two_signals_at_once(self):
        """systemd sends SIGHUP directly after SIGTERM."""
        process = self.open("on", "--for", "60")
        process.send_signal(signal.SIGTERM)
        process.send_signal(signal.SIGHUP)
        self.assert_run(self.end(process), OK, CLOSED)
        self.assertEqual(self.mode(), "closed")

    def test_it_closes_if_nobody_reads(self):
        process = self.open("on", "--for", "60")
        process.stdout.close()
        process.stderr.close()
        process.send_signal(signal.SIGTERM)
        self.assertEqual(process.wait(60), OK)
        self.assertEqual(self.mode(), "closed")

    def test_what_is_taught_is_printed(self):
        process = self.open("on", "--for", "60")
        self.stick.bring("01800300", "D5 00")
        self.assertEqual(process.stdout.readline(), "01800300 learned, D5-00-01 (Contact)\n")
        self.assertEqual(self.ctl("remove", "01800300").status, OK)
        self.assertEqual(process.stdout.readline(), "01800300 deleted\n")
        process.send_signal(signal.SIGINT)
        self.assert_run(self.end(process), OK, CLOSED)

    def test_a_window_for_one_device(self):
        """It ends when the gateway has closed it. The order `add` does not close it."""
        process = self.open("as", "F6-02-01", "--for", "60")
        self.assertEqual(self.ctl("add", "01800302", "F6-02-01").status, OK)
        self.assertEqual(process.stdout.readline(), "01800302 learned, F6-02-01 (Rocker switch, 2 rockers)\n")
        self.assertEqual(self.mode(), "as F6-02-01")
        self.stick.bring("01800303", "F6 50 30")
        self.assert_run(self.end(process), OK, "01800303 learned, F6-02-01 (Rocker switch, 2 rockers)\n" + CLOSED)

    def test_json(self):
        process = self.begin("--json", "learn", "on", "--for", "60")
        self.assert_soon(self.mode, "on")
        self.stick.bring("01800301", "D5 00")
        self.assertEqual(process.stdout.readline(),
                         '{"eep":"D5-00-01","id":"01800301","maker":null,"result":"accepted","type":"teach"}\n')
        process.send_signal(signal.SIGINT)
        self.assert_run(self.end(process), OK)

    def test_a_window_that_another_program_opened_is_left_open_if_the_order_is_refused(self):
        self.assert_run(self.ctl("learn", "on"), OK, "ok\n")
        run = self.ctl("learn", "as", "A5-99-99", "--for", "60")
        self.assert_ends(run, REFUSED, "unsupported_profile: ")
        self.assertEqual(self.mode(), "on")
        self.assert_run(self.ctl("learn", "off"), OK, "ok\n")


class BaseCommand(unittest.TestCase):
    """`enogatectl base PORT`."""

    def base(self, *words: str | pathlib.Path) -> tuple[int, str, str]:
        words = (sys.executable, "-B", COMMAND, "base", *words)
        process = subprocess.run(words, capture_output=True, text=True, timeout=60)
        return process.returncode, process.stdout, process.stderr

    def test_the_module_answers(self):
        work = pathlib.Path(self.enterContext(tempfile.TemporaryDirectory()))
        stick = self.enterContext(Stick(work))
        stick.start()
        self.assertEqual(self.base(stick.path), (OK, f"{BASE}\n", ""))
        lock = ["flock", "-n", "-E", "99", "-x", stick.path, sys.executable, "-B", COMMAND, "base", stick.path]
        process = subprocess.run(lock, capture_output=True, text=True, timeout=60)
        self.assertEqual((process.returncode, process.stdout, process.stderr), (
            REFUSED, "", f"enogatectl: another program has locked {stick.path}: stop it, or correct SERIAL\n"))

    def test_no_module(self):
        with SilentStick() as stick:
            status, out, err = self.base(stick.path)
        self.assertEqual((status, out), (SILENT, ""))
        self.assertIn(f"no radio module answers at {stick.path}", err)

    def test_no_port(self):
        for path, text in (("/none/x", "no stick at /none/x: plug it in"),
                           ("/dev/null", "/dev/null is not a serial port")):
            status, out, err = self.base(path)
            self.assertEqual((status, out), (REFUSED, ""))
            self.assertIn(text, err)
        self.assertEqual(self.base("/dev/null", "--json")[0], USAGE)

    def test_a_gateway_may_have_this_name(self):
        self.assertEqual(self.base("--desk", "/none/desk", "--lines", "/none/lines", "base"), (
            SILENT, "", "enogatectl: there is no desk /none/desk: correct the name of the gateway, or start it; its "
            "unit makes the desk\n"))


class PathsCommand(unittest.TestCase):
    """`enogatectl paths`, with the directories of this computer."""

    def test_each_gateway_has_its_files(self):
        words = (sys.executable, "-B", COMMAND, "paths")
        process = subprocess.run(words, capture_output=True, text=True, timeout=60)
        self.assertEqual((process.returncode, process.stderr), (OK, ""))
        self.assertEqual(json.loads(process.stdout), {
            name: {"desk": f"/run/enogate/{name}/desk", "lines": f"/var/log/enogate/{name}.lines",
                   "settings": f"/etc/default/enogate-{name}"} for name in json.loads(process.stdout)})
