"""What a device reports after an order, and how long the command waits for it."""
import contextlib
import io
import json
import os
import unittest
from unittest import mock

from enogate_ctl import main as program
from enogate_ctl.client import LONG_PAUSE, PAUSE, Client, Lines, NoAnswer
from enogate_ctl.command_line import REPORT_TIMEOUT, BLIND_REPORT_TIMEOUT, REPORT_TIMEOUTS, parsed
from enogate_ctl.report import is_report, missing_channel, report_in
from enogate_lines.contents import Listed
from enogate_tools import share
from fakes import OK, GatewayFilesTest, TimeLimitedTest, error, packet, reading, status

DEVICE, BLIND = "01800ABC", "01800ABD"
ANSWER = status(), status(), OK, status()


def state(channel=0, output=100, device=DEVICE, eep="D2-01-12"):
    """The state of a channel of an actuator."""
    return reading(device, eep, [{"name": "PF", "raw": 0}, {"name": "IO", "raw": channel}, {"name": "LC", "raw": 1},
                                 {"den": 1, "name": "OV", "num": output, "unit": "%"}])


def measurement(channel=0, device=DEVICE):
    """A measurement of an actuator."""
    return reading(device, "D2-01-12", [{"name": "IO", "raw": channel},
                                        {"den": 1, "name": "MV", "num": 60, "unit": "W"}])


def position(percent=50, device=BLIND):
    """The position of a blind, whose channel is 0."""
    return reading(device, "D2-05-00", [{"den": 1, "name": "POS", "num": percent, "unit": "%"},
                                        {"name": "LOCK", "raw": 0}, {"name": "CHN", "raw": 0}])


def line_of(members):
    return json.dumps(members, separators=(",", ":")).encode()


class ReportRules(TimeLimitedTest):
    """Which lines report what an order did."""

    def test_the_channel(self):
        for order in ("switch {} {} on", "switch {} {} off", "dim {} {} 40", "query {} {}"):
            for channel, found, wanted in ((0, 0, True), (1, 1, True), (29, 29, True), (0, 1, False), (1, 0, False),
                                           (29, 30, False), (30, 0, True), (30, 1, True), (30, 29, True)):
                with self.subTest(order, channel=channel, found=found):
                    report = report_in(line_of(state(found)), order.format(DEVICE, channel))
                    self.assertEqual(bool(report), wanted)
                    self.assertEqual(bool(report_in(line_of(measurement(found)), f"meter {DEVICE} {channel} power")),
                                     wanted)

    def test_the_value_that_was_asked_for(self):
        for order, wanted in (("query 01800ABC 0", (True, False)), ("meter 01800ABC 0 power", (False, True)),
                              ("meter 01800ABC 0 energy", (False, True)), ("switch 01800ABC 0 on", (True, True)),
                              ("dim 01800ABC 0 5", (True, True))):
            found = tuple(bool(report_in(line_of(line), order)) for line in (state(), measurement()))
            self.assertEqual(found, wanted, order)

    def test_a_blind(self):
        """Its orders have no channel; the number of `blind` is a position."""
        for order in ("blind 01800ABD 7", "stop 01800ABD", "query 01800ABD 0", "query 01800ABD 30"):
            self.assertTrue(report_in(line_of(position()), order), order)

    def test_other_lines(self):
        order = "switch 01800abc 0 on"
        for line in (state(device="01800ABE"), position(), OK, packet("read"), status(), error("store")):
            self.assertIsNone(report_in(line_of(line), order), line)
        self.assertIsNone(report_in(b"{", order))
        self.assertTrue(report_in(line_of(state(eep="D2-01-00")), order))
        self.assertIsNone(report_in(line_of(state(1, eep="D2-01-00")), order))
        self.assertFalse(is_report(report_in(line_of(state()), order).telegram, "switch 01800AB 0 on"))

    def test_a_channel_that_the_device_does_not_have(self):
        """People count from 1."""
        devices = [Listed(device, eep, "", None) for device, eep in
                   (("01800ABC", "D2-01-0F"), ("01800ABE", "D2-01-12"), ("01800ABF", "D2-01-09"), (BLIND, "D2-05-00"))]
        one, two = "it has only the channel 0", "it has only the channels 0, 1"
        for order, why in (("switch 01800ABC 1 on", one), ("query 01800abe 2", two), ("dim 01800ABF 1 50", one),
                           ("meter 01800ABE 29 power", two), ("switch 01800ABC 0 on", ""), ("dim 01800ABE 1 5", ""),
                           ("switch 01800ABE 30 on", ""), ("switch 01800AFF 1 on", ""), (f"blind {BLIND} 50", ""),
                           (f"stop {BLIND}", ""), (f"query {BLIND} 1", "")):
            self.assertEqual(missing_channel(order, devices), why, order)

    def test_a_telegram_without_a_channel(self):
        """Its device was learned with another profile meanwhile."""
        self.assertTrue(report_in(line_of(reading(DEVICE)), "switch 01800ABC 7 on"))
        bare = reading(DEVICE, "D2-01-12", [{"den": 1, "name": "OV", "num": 3, "unit": "%"}])
        self.assertIsNone(report_in(line_of(bare), "switch 01800ABC 0 on"))
        self.assertTrue(report_in(line_of(bare), "switch 01800ABC 30 on"))


class FakeTerminal(io.StringIO):
    def isatty(self):
        return True


class ReportWaits(GatewayFilesTest):
    """The program, with a fake clock. Its gateway answers the order after the first pause."""

    def run_order(self, *words, out=None):
        """The status, the output and the errors of an order."""
        out, err = out or io.StringIO(), io.StringIO()

        def made(paths, timeout):
            return Client(paths, timeout, self.clock, self.clock.sleep, lambda: 1)
        with contextlib.redirect_stdout(out), contextlib.redirect_stderr(err), \
                mock.patch.object(program, "Client", made), mock.patch.object(program.StopSignals, "install"):
            status = program.main(["--desk", str(self.desk), "--lines", str(self.lines), "hall", *words])
        return status, out.getvalue(), err.getvalue()

    def at(self, pause, *lines):
        """The gateway writes these lines after so many pauses."""
        self.clock.acts[pause] = lambda: self.write(*lines)

    def order(self, text="switch 01800ABC 0 on", *options, out=None):
        return self.run_order(*options, *text.split(" "), out=out or FakeTerminal())

    def silence(self, device, seconds):
        return 4, "", (f"enogatectl: sent, but {device} reported nothing within {seconds} s: has it learned this "
                       "gateway?\n")

    def test_the_next_reading_is_printed(self):
        self.at(1, *ANSWER)
        self.at(3, state(1, 0), state(0, 40))
        self.assertEqual(self.order(), (0, "channel 0: Output 40 %\n", ""))
        self.assertEqual(self.clock.slept, [PAUSE, LONG_PAUSE, LONG_PAUSE])
        self.assertEqual(self.desk.read_bytes(), b"status\nstatus\nswitch 01800ABC 0 on\nstatus\r\n")

    def test_each_order(self):
        for order, line, text in (
            ("switch 01800abc 1 off", state(1, 0), "channel 1: Output 0 %"),
            ("dim 01800ABC 30 40", state(1, 40), "channel 1: Output 40 %"),
            ("query 01800ABC 0", state(), "channel 0: Output 100 %"),
            ("meter 01800ABC 0 power", measurement(), "channel 0: Power 60 W"),
            ("stop 01800ABD", position(33), "Position 33 %"), ("query 01800ABD 0", position(), "Position 50 %"),
        ):
            with self.subTest(order):
                self.clock.slept.clear()
                self.at(1, *ANSWER, line)
                self.assertEqual(self.order(order), (0, f"{text}\n", ""))

    def test_a_reading_before_the_order_was_sent_does_not_count(self):
        """Also one that comes between the fences of the order."""
        self.write(state(0, 1))
        self.at(1, state(0, 2), status(), status(), state(0, 3), OK, state(0, 4), status(), state(0, 5))
        self.assertEqual(self.order(), (0, "channel 0: Output 5 %\n", ""))

    def test_a_device_that_reports_nothing(self):
        self.at(1, *ANSWER, state(1), state(device="01800ABE"))
        self.assertEqual(self.order(), self.silence(DEVICE, 3))
        self.assertAlmostEqual(self.clock.now, PAUSE + REPORT_TIMEOUT, delta=LONG_PAUSE + 0.001)

    def test_the_channels_are_those_of_the_recorded_profile(self):
        self.write({"eep": "D2-01-0F", "id": DEVICE, "label": "", "maker": None, "type": "device"},
                   {"count": 1, "type": "list"})
        self.at(1, *ANSWER)
        self.assertEqual(self.order("switch 01800ABC 1 on"), (4, "", (
            "enogatectl: sent, but 01800ABC reported nothing within 3 s: it has only the channel 0\n")))

    def test_the_last_moment(self):
        pauses = round(0.5 / LONG_PAUSE) + 1
        self.at(1, *ANSWER)
        self.at(pauses, state())
        self.assertEqual(self.order("switch 01800ABC 0 on", "--wait", "0.5")[:2], (0, "channel 0: Output 100 %\n"))
        self.clock.slept.clear()
        self.at(1, *ANSWER)
        self.at(pauses + 2, state())
        self.assertEqual(self.order("switch 01800ABC 0 on", "--wait", "0.5"), self.silence(DEVICE, "0.5"))

    def test_a_blind_has_more_time(self):
        self.at(1, *ANSWER)
        self.at(round(100 / LONG_PAUSE), position(70))
        note = f"enogatectl: sent; waiting up to 120 s until {BLIND} reports (Ctrl-C ends the wait)\n"
        self.assertEqual(self.order("blind 01800ABD 70"), (0, "Position 70 %\n", note))
        self.clock.slept.clear()
        self.at(1, *ANSWER)
        status, out, err = self.order("blind 01800ABD 70")
        self.assertEqual((status, out, err), (4, "", note + self.silence(BLIND, 120)[2]))

    def test_a_blind_that_stands_still(self):
        """It need not report that it was stopped. With --wait it has to."""
        self.at(1, *ANSWER)
        self.assertEqual(self.order("stop 01800ABD"), (0, "ok\n", ""))
        self.clock.slept.clear()
        self.at(1, *ANSWER)
        self.assertEqual(self.order("stop 01800ABD", "--json"), (0, '{"type":"ok"}\n', ""))
        self.clock.slept.clear()
        self.at(1, *ANSWER)
        self.assertEqual(self.order("stop 01800ABD", "--wait", "1"), self.silence(BLIND, 1))

    def test_without_a_terminal(self):
        """It is as if the device reported nothing."""
        for order in ("switch 01800ABC 0 on", "blind 01800ABD 5", "stop 01800ABD", "query 01800ABC 0"):
            self.clock.slept.clear()
            self.at(1, *ANSWER, state(), position())
            self.assertEqual(self.order(order, out=io.StringIO()), (0, "ok\n", ""))
            self.assertEqual(self.clock.slept, [PAUSE])

    def test_options(self):
        self.at(1, *ANSWER, state())
        self.assertEqual(self.order("switch 01800ABC 0 on", "--no-wait"), (0, "ok\n", ""))
        for seconds in ("1", "5"):
            self.clock.slept.clear()
            self.at(1, *ANSWER, state())
            self.assertEqual(self.order("switch 01800ABC 0 on", "--wait", seconds, out=io.StringIO()),
                             (0, "channel 0: Output 100 %\n", ""))

    def test_other_orders_do_not_wait(self):
        self.at(1, *ANSWER, state())
        self.assertEqual(self.order("central 5 on"), (0, "ok\n", ""))
        self.assertEqual(self.clock.slept, [PAUSE])

    def test_json(self):
        """The line of the answer comes first."""
        self.at(1, *ANSWER, state())
        self.assertEqual(self.order("switch 01800ABC 0 on", "--json"), (
            0, '{"type":"ok"}\n' + line_of(state()).decode() + "\n", ""))
        self.clock.slept.clear()
        self.at(1, *ANSWER)
        status, out, err = self.order("switch 01800ABC 0 on", "--json")
        self.assertEqual((status, out, err), (4, '{"type":"ok"}\n', self.silence(DEVICE, 3)[2]))

    def test_an_order_that_is_refused(self):
        """Nothing was sent, so nothing is waited for."""
        self.at(1, status(), status(), error("wrong_profile"), status(), position())
        result, out, err = self.order("blind 01800ABD 5")
        self.assertEqual((result, out, err[:27]), (1, "", "enogatectl: wrong_profile: "))
        self.assertEqual(self.clock.slept, [PAUSE])


class LinesAfterAnAnswer(GatewayFilesTest):
    def test_the_lines_that_were_not_taken(self):
        with contextlib.closing(Lines(str(self.lines))) as lines:
            self.write("a", "b", "c")
            self.assertEqual(lines.first_result(lambda line: line == b"b" and "found"), "found")
            self.write("d")
            self.assertIsNone(lines.first_result(lambda line: line == b"x" and "found"))
            self.assertEqual(lines.read(), [])
            self.write("e", "f")
            self.assertTrue(lines.first_result(lambda line: line == b"e"))
            self.assertEqual(lines.read(), [b"f"])
            self.write("g", "h")
            seen = []
            lines.first_result(lambda line: seen.append(line) or line == b"g")
            lines.first_result(lambda line: seen.append(line))
            self.assertEqual(seen, [b"g", b"h"])

    def test_without_an_answer_they_are_closed(self):
        before = len(os.listdir("/proc/self/fd"))
        client = Client(self.paths, 1.0, self.clock, self.clock.sleep, lambda: 1)
        self.assertRaises(NoAnswer, client.ask_and_follow, ["learn on"])
        self.assertEqual(len(os.listdir("/proc/self/fd")), before)

    def test_they_are_closed(self):
        client = Client(self.paths, 1.0, self.clock, self.clock.sleep, lambda: 1)
        self.clock.acts[1] = lambda: self.write(*ANSWER, "x")
        (answer,), lines = client.ask_and_follow(["learn on"])
        with contextlib.closing(lines):
            self.assertEqual((answer.lines[0].kind, lines.read()), ("ok", [b"x"]))


class Options(TimeLimitedTest):
    def test_times(self):
        self.assertEqual(REPORT_TIMEOUTS, {"switch": 3, "dim": 3, "query": 3, "meter": 3, "stop": 3, "blind": 120})
        self.assertLessEqual(REPORT_TIMEOUTS.keys(), share.order_forms().keys())
        self.assertLess(REPORT_TIMEOUT, BLIND_REPORT_TIMEOUT)

    def test_command_lines(self):
        for words, wanted in (("hall switch 01800ABC 0 on", None), ("hall --no-wait switch 01800ABC 0 on", 0.0),
                              ("hall switch 01800ABC 0 on --wait 2.5", 2.5), ("hall list --no-wait", 0.0)):
            self.assertEqual(parsed(words.split(" ")).wait, wanted)

    def test_bad_usage(self):
        for words, text in (
            ("hall switch 01800ABC 0 on --wait 1 --no-wait", "--wait and --no-wait cannot be used together"),
            ("hall list --wait 1", "--wait needs an order after which a device reports something: switch, dim, query, "
             "meter, stop, blind"), ("hall central 1 on --wait 1", "--wait needs an order"),
            ("hall switch 01800ABC 0 on --wait 0", "'0' is not a number of seconds greater than 0"),
            ("hall devices --wait 1", "--wait cannot be used"),
            ("hall lines --no-wait", "--no-wait cannot be used with lines"), ("paths --no-wait", "--no-wait cannot be"),
            ("base /dev/x --wait 1", "--wait cannot be used with base"),
        ):
            with self.subTest(words), contextlib.redirect_stderr(io.StringIO()) as err:
                with self.assertRaises(SystemExit) as end:
                    parsed(words.split(" "))
                self.assertEqual(end.exception.code, 2)
                self.assertIn(text, err.getvalue())


if __name__ == "__main__":
    unittest.main()
