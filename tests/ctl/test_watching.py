"""The readings as they come."""
import contextlib
import io
import os
import signal
import unittest
from datetime import datetime, timedelta
from unittest import mock

from enogate_ctl import following, main as program, serve, watching
from enogate_ctl.client import UnreadableLines
from enogate_ctl.command_line import FollowLines, parsed
from enogate_ctl.stops import Stopped
from enogate_tools.gateways import Paths, paths_of
from fakes import OK, GatewayFilesTest, TimeLimitedTest, device, end_of_list, packet, reading, status, teach

TEMPERATURE = [{"den": 51, "name": "TMP", "num": 1024, "unit": "C"}]


class PrintedReadings(GatewayFilesTest):
    def watched(self, *acts):
        """What is printed. Before each wait but the last, the next of these happens, and takes ten minutes."""
        printed, left, time = [], list(acts), [datetime(2026, 11, 30, 23, 45)]

        def wait(_is_woken):
            if not left:
                return False
            left.pop(0)()
            time[0] += timedelta(minutes=10)
            return True
        watching.print_readings(self.paths, lambda: time[0], printed.append, wait)
        return printed

    def test_what_is_printed(self):
        self.write(device("01800ABC", "Front door"), device("01800ABD"), end_of_list(2), reading("01800ABC"))
        self.assertEqual(self.watched(
            lambda: self.write(status(), reading("01800ABC"), OK, packet("read"),
                               reading("01800ABD", "A5-02-05", TEMPERATURE)),
            lambda: self.write(reading("01800ABE"), "{", '{"dbm":1,"type":"reading"}'), lambda: None), [
            "23:55:00  Front door  Contact closed", "23:55:00  01800ABD  Temperature 20.08 °C",
            "00:05:00  01800ABE  Contact closed"])

    def test_labels_that_change(self):
        self.write(device("01800ABC", "Door"), end_of_list(1))
        self.assertEqual(self.watched(lambda: self.write(
            reading("01800ABC"), device("01800ABC", "New"), device("01800ABD", "Lamp"), end_of_list(2),
            reading("01800ABC"), reading("01800ABD"), device("01800ABC"), end_of_list(1), reading("01800ABC"),
            teach("01800ABD", result="deleted"), teach("01800ABD"), reading("01800ABD"),
            teach("01800ABE", result="deleted")), lambda: None), [
                f"23:55:00  {name}  Contact closed" for name in ("Door", "New", "Lamp", "01800ABC", "01800ABD")])

    def test_a_rotation(self):
        def rotate():
            self.lines.rename(self.folder / "hall.lines.1")
            self.write(reading("01800ABD"))
        self.assertEqual(self.watched(lambda: self.write(reading("01800ABC")), rotate, lambda: None, lambda: None),
                         ["23:55:00  01800ABC  Contact closed", "00:15:00  01800ABD  Contact closed"])

    def test_no_list_and_no_lines(self):
        self.assertEqual(self.watched(lambda: self.write(reading("01800ABC")), lambda: None)[0][10:18], "01800ABC")
        self.lines.unlink()
        self.assertEqual(self.watched(lambda: self.write(reading("01800ABC")), lambda: None)[0][10:18], "01800ABC")
        self.lines.unlink()
        self.desk.unlink()
        self.assertRaises(UnreadableLines, self.watched)

    def test_the_file_is_closed(self):
        before = os.listdir("/proc/self/fd")
        for act in (lambda: None, lambda: self.stop(15)):
            with contextlib.suppress(Stopped):
                self.watched(act)
            self.assertEqual(os.listdir("/proc/self/fd"), before)

    def stop(self, number):
        raise Stopped(number)


class WatchCommand(TimeLimitedTest):
    def run_with(self, why, *words):
        """The status, the output and the errors of the program, which ends for this reason."""
        out, err = io.StringIO(), io.StringIO()

        def printed(paths, now, report, wait):
            self.paths, self.now = paths, now()
            report("a\x1b[2J °C")
            raise why
        with mock.patch.object(watching, "print_readings", printed), mock.patch.object(following, "OutputReader"), \
                mock.patch.object(program.StopSignals, "install"), contextlib.redirect_stdout(out), \
                contextlib.redirect_stderr(err):
            result = program.main([*words, "watch"])
        return result, out.getvalue(), err.getvalue()

    def test_how_it_ends(self):
        words = ("--desk", "d", "--lines", "l", "hall")
        for why, wanted, text in ((Stopped(signal.SIGINT), 0, ""), (Stopped(signal.SIGTERM), 143, ""),
                                  (Stopped(signal.SIGHUP), 129, ""), (UnreadableLines("why"), 1, "enogatectl: why\n"),
                                  (BrokenPipeError(), 0, "")):
            with mock.patch.object(program, "drop_output"):
                self.assertEqual(self.run_with(why, *words), (wanted, "a?[2J °C\n", text))
        self.assertEqual(self.paths, Paths("d", "l", paths_of("hall").bridge))
        self.assertLess(abs((self.now - datetime.now()).total_seconds()), 60)

    def test_the_name_of_no_gateway(self):
        with mock.patch.object(program, "why_unknown", return_value="there is no gateway"):
            self.assertEqual(self.run_with(UnreadableLines(""), "hall"), (1, "", "enogatectl: there is no gateway\n"))

    def test_command_lines(self):
        self.assertEqual(parsed(["hall", "watch"]), FollowLines(paths_of("hall"), True))
        for words, text in (("hall watch x", "'watch x' is not an order"),
                            ("watch", "the name of the gateway comes first"),
                            ("hall watch --json", "--json cannot be used with watch"),
                            ("hall watch --wait 5", "--wait cannot be used with watch"),
                            ("hall wacth", "did you mean `watch`?")):
            with contextlib.redirect_stderr(io.StringIO()) as err, self.assertRaises(SystemExit) as end:
                parsed(words.split(" "))
            self.assertEqual(end.exception.code, 2)
            self.assertIn(text, err.getvalue())

    def test_it_cannot_be_requested(self):
        with contextlib.redirect_stderr(io.StringIO()) as err:
            self.assertEqual(serve.run(["hall", "watch"]), 2)
        self.assertIn("cannot be requested", err.getvalue())


if __name__ == "__main__":
    unittest.main()
