"""Orders with enogatectl to actuators that obey, and to some that do not, at a terminal and without one."""
from __future__ import annotations

import contextlib
import fcntl
import os
import select
import signal
import struct
import subprocess
import termios
import threading
import time
import tty

from ctl_testcase import OK, REFUSED, CtlTest, Run
from oracle.esp3 import gateway_telegram_packet
from programs import wait_for
from services import BASE

UNREPORTED_STATUS = 4
LAMP, UNPAIRED, BLIND = "01800B01", "01800B02", "01800B03"
# How long the blind moves, in seconds.
BLIND_SECONDS = 4.0


class ActuatorReports(CtlTest):
    """An actuator with two channels and a blind obey; a second actuator has not learned the gateway."""

    @classmethod
    def setUpClass(cls) -> None:
        super().setUpClass()
        for order in (f"add {LAMP} D2-01-12", f"add {UNPAIRED} D2-01-12", f"add {BLIND} D2-05-00",
                      f"label {LAMP} Lamp"):
            assert cls.ctl(*order.split(" ")).status == OK
        cls.is_over = threading.Event()
        cls.thread = threading.Thread(target=cls.obey)
        cls.thread.start()
        cls.addClassCleanup(cls.thread.join)
        cls.addClassCleanup(cls.is_over.set)

    @classmethod
    def obey(cls) -> None:
        """The devices carry out each packet that is sent to them, and report their states. After each order, another
        device sends, too."""
        def packet(device: str, payload: str) -> str:
            return gateway_telegram_packet(0xD2, bytes.fromhex(payload), int(BASE, 16), int(device, 16)).hex()

        replies_by_packet = {packet(LAMP,
                                    f"01{channel:02X}{value:02X}"): [(0.2, LAMP,
                                                                      f"04{0x60 | channel:02X}{0x80 | value:02X}")]
                             for channel in (0, 1) for value in (0, 40, 100)}
        replies_by_packet[packet(LAMP, "011E64")] = [(0.1, LAMP, "0461E4"), (0.2, LAMP, "0460E4")]
        replies_by_packet[packet(LAMP, "0301")] = [(0.1, LAMP, "0760000004D2"), (0.2, LAMP, "0460E4"),
                                                   (0.3, LAMP, "0461A8")]
        replies_by_packet[packet(LAMP, "0681")] = [(0.1, LAMP, "0461E4"), (0.2, LAMP, "0761000004D2")]
        replies_by_packet[packet(BLIND, "467F0001")] = [(0.3, LAMP, "0460E4"), (BLIND_SECONDS, BLIND, "467F0004")]
        replies_by_packet[packet(BLIND, "02")] = [(0.1, BLIND, "217F0004")]
        handled_size = 0
        while not cls.is_over.is_set():
            sent_digits = cls.stick.sent()
            for packet_digits, replies in replies_by_packet.items():
                if (packet_place := sent_digits.find(packet_digits, handled_size)) >= 0:
                    handled_size = packet_place + len(packet_digits)
                    for pause, device, payload in replies:
                        threading.Timer(pause, cls.stick.bring, [device, f"D2 {payload}"]).start()
            time.sleep(0.02)

    def at_terminal(self, *words: str, columns: int = 80) -> Run:
        """Runs a command whose standard output is a terminal."""
        master, slave = os.openpty()
        tty.setraw(slave)
        fcntl.ioctl(slave, termios.TIOCSWINSZ, struct.pack("HHHH", 24, columns, 0, 0))
        with subprocess.Popen(self.words(*words), stdout=slave, stderr=subprocess.PIPE, text=True) as process:
            err = process.stderr.read()
            status = process.wait(60)
        os.close(slave)
        out = b""
        try:
            while chunk := os.read(master, 4096):
                out += chunk
        except OSError:
            # Everything was read.
            pass
        os.close(master)
        return Run(status, out.decode(), err)

    def test_an_actuator_that_obeys(self):
        for order, text in ((f"switch {LAMP} 0 on", "channel 0: Output 100 %"),
                            (f"switch {LAMP} 1 off", "channel 1: Output 0 %"),
                            (f"dim {LAMP} 1 40", "channel 1: Output 40 %"),
                            (f"switch {LAMP} 30 on", "channel 1: Output 100 %"),
                            (f"query {LAMP} 1", "channel 1: Output 40 %"),
                            (f"meter {LAMP} 1 power", "channel 1: Power 1234 W"),
                            (f"stop {BLIND}", "Position 33 %, Angle unknown")):
            with self.subTest(order):
                self.assert_run(self.at_terminal(*order.split(" ")), OK, f"{text}\n")
                # Nothing of this order must be left.
                time.sleep(0.4)
        self.assert_run(self.ctl("--wait", "5", *f"dim {LAMP} 0 40".split(" ")), OK, "channel 0: Output 40 %\n")

    def test_an_actuator_that_has_not_learned_the_gateway(self):
        warning = f"sent, but {UNPAIRED} reported nothing within {{}} s: has it learned this gateway?"
        start_time = time.monotonic()
        self.assert_run(self.at_terminal("switch", UNPAIRED, "0", "on"), UNREPORTED_STATUS, "", warning.format(3))
        self.assertGreater(time.monotonic() - start_time, 3)
        self.assert_run(self.ctl("--wait", "0.5", "query", UNPAIRED, "0"), UNREPORTED_STATUS, "", warning.format("0.5"))
        self.assert_run(self.at_terminal("--no-wait", "switch", UNPAIRED, "0", "on"), OK, "ok\n")

    def test_a_blind_reports_at_the_end_of_its_way(self):
        run = self.at_terminal("blind", BLIND, "70")
        note_text = f"enogatectl: sent; waiting up to 120 s until {BLIND} reports (Ctrl-C ends the wait)\n"
        self.assertEqual(run, Run(OK, "Position 70 %, Angle unknown\n", note_text))

    def test_a_table_has_the_width_of_the_terminal(self):
        """All columns are there: the narrowest table has 54 characters."""
        self.assertEqual(self.ctl("--wait", "10", "query", LAMP, "1").status, OK)
        full_table = self.ctl("list").out
        self.assertIn(f"Lamp   {LAMP}  D2-01-12  Electronic switch, 2 channels", full_table)
        for command in ("list", "devices"):
            self.assertEqual(self.at_terminal(command, columns=200).out, full_table)
            cut_table = self.at_terminal(command, columns=60).out
            self.assertEqual(max(map(len, cut_table.splitlines())), 60)
            self.assertIn(f"Lamp   {LAMP}  D2-01-12  Electron", cut_table)
            self.assertNotIn("Electronic switch, 2 channels", cut_table)

    def test_without_a_terminal_nothing_is_waited_for(self):
        for order in (f"switch {LAMP} 0 on", f"blind {BLIND} 70", f"query {UNPAIRED} 0", f"stop {BLIND}"):
            self.assert_run(self.ctl(*order.split(" ")), OK, "ok\n")
        time.sleep(BLIND_SECONDS + 0.5)

    def test_an_order_that_is_refused(self):
        run = self.at_terminal("switch", BLIND, "0", "on")
        self.assert_ends(run, REFUSED, "wrong_profile: ")

    def test_other_orders_are_given_while_one_waits(self):
        """The desk is not locked then."""
        process = self.begin("--wait", "3", "switch", UNPAIRED, "0", "on")
        time.sleep(1)
        self.assert_run(self.ctl("--timeout", "1", "learn", "off"), OK, "ok\n")
        self.assertEqual(self.end(process).status, UNREPORTED_STATUS)


class WatchCommand(CtlTest):
    """`watch`."""

    def line(self, process: subprocess.Popen[str]) -> str:
        """The next line without its time, which is that of this computer."""
        start_time = time.time()
        line = process.stdout.readline()
        self.assertIn(line[:8], [time.strftime("%H:%M:%S", time.localtime(start_time + seconds_later))
                                 for seconds_later in range(-2, 30)])
        return line[8:]

    def test_readings_as_they_come(self):
        """Also after a rotation. A device that is not learned is not shown."""
        for order in ("add 01800B11 D5-00-01", "add 01800B12 A5-02-05", "label 01800B11 Front door", "list"):
            self.assertEqual(self.ctl(*order.split(" ")).status, OK)
        process = self.begin("watch")

        def is_following() -> bool:
            """A telegram is printed, once the command has opened the lines."""
            self.stick.bring("01800B11", "D5 08")
            return bool(select.select([process.stdout], [], [], 0.3)[0])
        self.assertTrue(wait_for(is_following, bool))
        self.stick.bring("01800B11", "D5 09")
        while (line := self.line(process)) == "  Front door  Contact open\n":
            pass
        self.assertEqual(line, "  Front door  Contact closed\n")
        self.gateway.rotate()
        self.stick.bring("01800B13", "D5 09")
        self.stick.bring("01800B12", "A5 00007F08")
        self.assertEqual(self.line(process), "  01800B12  Temperature 20.08 °C\n")
        process.send_signal(signal.SIGINT)
        self.assert_run(self.end(process), OK)

    def test_it_gives_no_order(self):
        """And runs while the gateway does not."""
        desk_size = self.desk_size()
        process = self.begin("watch")

        def opened() -> list[str]:
            """What the command has open."""
            folder = f"/proc/{process.pid}/fd"
            with contextlib.suppress(OSError):
                return [os.readlink(f"{folder}/{name}") for name in os.listdir(folder)]
            return []
        wait_for(opened, lambda open_paths: str(self.gateway.lines_path) in open_paths)
        process.send_signal(signal.SIGTERM)
        self.assert_run(self.end(process), 128 + signal.SIGTERM)
        self.assertEqual(self.desk_size(), desk_size)
