"""Orders with enogatectl to gateways that hang, restart, do not run, or cannot write their database."""
from __future__ import annotations

import contextlib
import fcntl
import os
import pathlib
import resource
import signal
import subprocess
import tempfile
import time
import unittest

from bridge_testcase import MAY_SKIP
from ctl_testcase import OK, REFUSED, SILENT, CtlTest
from enogate_ctl.desk_file import DeskFile, NoAnswer
from enogate_mqtt.desk import Desk

LATE_TEXT = ("the gateway did not answer within 1 s, and may still carry out the order: check the gateway with "
             "enogate-check")
WAITING_TEXT = ("another order is still waiting for its answer: check the gateway with enogate-check; a restart of the "
                "gateway ends the wait")
RESTARTED_TEXT = ("the gateway was restarted, or its desk was truncated: find out with `list` or `status` whether the "
                  "order was carried out, and give it again if not")


class HangingGateway(CtlTest):
    """A gateway that hangs for a while."""

    def test_in_time(self):
        self.stop_gateway()
        start_time = time.monotonic()
        self.assert_run(self.ctl("--timeout", "1", "learn", "off"), SILENT, "", LATE_TEXT)
        self.assertLess(time.monotonic() - start_time, 5)

    def test_a_late_answer_is_not_that_of_the_next_order(self):
        """The first order is answered with `ok`, and the second one is refused."""
        for first_words in (("learn", "off"), ("add", "01900111", "F6-02-01")):
            with self.subTest(first_words):
                self.stop_gateway()
                self.assert_run(self.ctl("--timeout", "1", *first_words), SILENT, "", LATE_TEXT)
                self.assert_run(self.ctl("--timeout", "0.2", "list"), SILENT, "", WAITING_TEXT)
                second_process = self.begin("label", "01900112", "x")
                time.sleep(0.3)
                self.continue_gateway()
                self.assert_ends(self.end(second_process), REFUSED, "unknown_device: ")

    def test_orders_of_another_program_that_are_not_answered_yet(self):
        """Between their fences they look like the order. The first one is answered with `ok`."""
        self.assertEqual(self.ctl("add", "01900114", "D2-01-12").status, OK)
        for fences in (2, 3):
            with self.subTest(fences):
                self.stop_gateway()
                self.gateway.order(*["status"] * fences, "switch 01900114 0 on", "status")
                size = self.desk_size()
                process = self.begin("label", "01900112", "x")
                self.wait_for_order(size)
                self.continue_gateway()
                self.assert_ends(self.end(process), REFUSED, "unknown_device: ")

    def test_an_interrupted_order_keeps_the_lock(self):
        for signal_number in (signal.SIGINT, signal.SIGTERM, signal.SIGHUP):
            with self.subTest(signal_number.name):
                self.stop_gateway()
                size = self.desk_size()
                process = self.begin("learn", "on")
                self.wait_for_order(size)
                process.send_signal(signal_number)
                # its pipes are closed, although the process that keeps the lock still runs
                self.assert_run(self.end(process), 128 + signal_number)
                self.assert_run(self.ctl("--timeout", "0.3", "label", "01900112", "x"), SILENT, "", WAITING_TEXT)
                self.continue_gateway()
                self.assert_ends(self.ctl("label", "01900112", "x"), REFUSED, "unknown_device: ")

    def test_a_lock_that_another_program_holds(self):
        with self.gateway.desk.open("ab") as desk:
            fcntl.flock(desk, fcntl.LOCK_EX)
            self.assert_run(self.ctl("--timeout", "0.3", "list"), SILENT, "", WAITING_TEXT)
            process = self.begin("learn", "off")
            time.sleep(0.3)
        self.assert_run(self.end(process), OK, "ok\n")

    def test_rotation_between_an_order_and_its_answer(self):
        self.stop_gateway()
        size = self.desk_size()
        process = self.begin("add", "01900113", "F6-02-01")
        self.wait_for_order(size)
        self.gateway.rotate()
        self.continue_gateway()
        self.assert_run(self.end(process), OK, "accepted\n")

    def test_a_module_that_does_not_report_its_base_id(self):
        """The desk is not locked after that, and the late report is no answer to another order."""
        self.stick.send(signal.SIGSTOP)
        self.addCleanup(self.stick.send, signal.SIGCONT)
        self.assert_run(self.ctl("--timeout", "1", "base"), SILENT, "",
                        "the gateway has asked the radio module, which did not report its base ID within 1 s: check "
                        "with enogate-check that the stick is at SERIAL")
        self.assert_run(self.ctl("--timeout", "1", "learn", "off"), OK, "ok\n")
        process = self.begin("base")
        self.stick.send(signal.SIGCONT)
        self.assert_run(self.end(process), OK, "FF800000\n")
        self.assert_ends(self.ctl("label", "01900112", "x"), REFUSED, "unknown_device: ")

    def test_an_incomplete_line_on_the_desk_and_one_in_the_lines(self):
        self.gateway.append('{"type":"o')
        with self.gateway.desk.open("a") as desk:
            desk.write("learn on")
        self.assertEqual(self.mode(), "closed")
        self.assert_run(self.ctl("learn", "off"), OK, "ok\n")


class FullDesk(unittest.TestCase):
    """The desk is on a full file system. No gateway reads it."""

    def setUp(self):
        self.folder = pathlib.Path(self.enterContext(tempfile.TemporaryDirectory()))
        self.desk = self.folder / "desk"
        mount = ["mount", "-t", "tmpfs", "-o", "size=8k", "full", self.folder]
        if subprocess.run(mount, capture_output=True).returncode:
            if MAY_SKIP:
                self.skipTest("no file system may be mounted")
            self.fail("no file system may be mounted")
        self.addCleanup(subprocess.run, ["umount", self.folder], check=True)

    def bridge(self, order):
        """The bridge gives an order. Returns whether it could."""
        try:
            Desk(str(self.desk), time.monotonic).append(order)
        except OSError:
            return False
        return True

    def command(self, order):
        """enogatectl gives an order. Returns whether it could."""
        with contextlib.closing(DeskFile(str(self.desk))) as file:
            try:
                file.append(order)
            except NoAnswer:
                return False
        return True

    def test_no_part_of_an_order_becomes_an_order(self):
        """17 bytes are left."""
        for first_writer in (self.bridge, self.command):
            for second_writer in (self.bridge, self.command):
                with self.subTest(first=first_writer, second=second_writer):
                    self.desk.write_bytes(b"")
                    subprocess.run(["mount", "-o", "remount,size=8k", self.folder], check=True)
                    self.desk.write_bytes(b"x" * 8174 + b"\n")
                    self.assertFalse(first_writer(b"dim 01800ABC 0 100\n"))
                    self.assertTrue(self.desk.read_bytes().endswith(b"\ndim 01800ABC 0 10"))
                    self.assertFalse(second_writer(b"list\n"))
                    subprocess.run(["mount", "-o", "remount,size=16k", self.folder], check=True)
                    self.assertTrue(second_writer(b"list\n"))
                    self.assertEqual(self.desk.read_bytes()[8175:], b"dim 01800ABC 0 10\x15\nlist\n")


class GatewayRestarts(CtlTest):
    """A gateway that restarts, or does not run."""

    def test_a_restart_before_the_answer(self):
        self.gateway.end(signal.SIGKILL)
        size = self.desk_size()
        process = self.begin("list")
        self.wait_for_order(size)
        self.start_gateway()
        self.assert_run(self.end(process), SILENT, "", RESTARTED_TEXT)
        self.assert_run(self.ctl("list"), OK, "no device is learned\n")

    def test_it_does_not_run(self):
        self.gateway.end(signal.SIGKILL)
        self.addCleanup(self.start_gateway)
        self.assert_run(self.ctl("--timeout", "1", "list"), SILENT, "", LATE_TEXT)
        desk = self.gateway.desk
        desk.unlink()
        self.assert_run(self.ctl("list"), SILENT, "",
                        f"there is no desk {desk}: correct the name of the gateway, or start it; its unit makes the "
                        "desk")
        os.mkfifo(desk)
        self.assert_run(self.ctl("list"), SILENT, "",
                        f"the desk {desk} is not a file: this command cannot use terminals and pipes")
        desk.unlink()

    def test_the_desk_is_replaced(self):
        """As an editor does it. A restart helps."""
        self.addCleanup(self.start_gateway)
        self.addCleanup(self.gateway.end, signal.SIGKILL)
        desk = self.gateway.desk
        os.kill(self.process(), signal.SIGSTOP)
        size = self.desk_size()
        process = self.begin("list")
        self.wait_for_order(size)
        text = desk.read_bytes()
        desk.rename(desk.with_name("old"))
        desk.write_bytes(text)
        self.assert_run(self.end(process), SILENT, "",
                        f"the desk {desk} was replaced or deleted: restart the gateway, and give the order again")


class UnwritableDatabase(CtlTest):
    """A database that cannot be written."""

    def test_store_of_packets_is_not_the_answer_to_an_order(self):
        self.assertEqual(self.ctl("add", "01900001", "F6-02-01").status, OK)
        resource.prlimit(self.process(), resource.RLIMIT_FSIZE, (1, 1))
        for words, status in (("add 01A00000 F6-02-01", REFUSED), ("label 01900001 x", REFUSED), ("status", OK),
                              ("list", OK), ("switch 01900001 0 on", REFUSED), ("learn on", OK)):
            run = self.ctl(*words.split(" "))
            self.assertEqual((run.status, "store: " in run.err), (status, words[:3] in ("add", "lab")), run)
        for _ in range(4):
            # each telegram is answered with `store`
            self.stick.bring("01800300", *["D5 00"] * 3)
            self.assert_run(self.ctl("learn", "on"), OK, "ok\n")
            self.assert_ends(self.ctl("remove", "01900001"), REFUSED, "store: ")
        self.assertGreaterEqual(self.status()["refused"], 12)


class UnwritableExplainedDatabase(UnwritableDatabase):
    """The same with packet lines."""

    explain = "--explain"
