"""The order `base`, and the base ID that the module reports after its answer."""
import contextlib
import io
import unittest
from unittest import mock

from enogate_ctl import main as program
from enogate_ctl.base import ask_base
from enogate_ctl.client import PAUSE, Client, NoAnswer
from enogate_tools import esp3, port as ports
from fakes import OK, GatewayFilesTest, TimeLimitedTest, status, teach

ANSWER = (status(), status(), OK, status())
NO_REPORT = ("the gateway has asked the radio module, which did not report its base ID within {} s: check with "
             "enogate-check that the stick is at SERIAL")


def response(data, code=0):
    """A response line."""
    return {"code": code, "data": data, "name": "OK" if code == 0 else None, "type": "response"}


REPORT = response("FFA1B280")


class BaseAnswers(GatewayFilesTest):
    """The gateway answers the order, and the module reports its base ID, after so many pauses."""

    def ask(self, timeout=10.0):
        self.desk.write_text("")
        client = Client(self.paths, timeout, self.clock, self.clock.sleep, lambda: 1)
        return [line.members for line in ask_base(client).lines]

    def test_the_report_follows_the_answer(self):
        self.clock.acts[2] = lambda: self.write(*ANSWER)
        self.clock.acts[5] = lambda: self.write(REPORT)
        self.assertEqual(self.ask(), [OK, REPORT])
        self.assertEqual((self.clock.slept, self.desk.read_text()), ([PAUSE] * 5, "status\nstatus\nbase\nstatus\n"))

    def test_a_report_between_the_lines_of_the_answer(self):
        """The orders were read in two parts. The module reports in between."""
        for place in (3, 4):
            self.clock.acts[len(self.clock.slept) + 1] = lambda at=place: self.write(*ANSWER[:at], REPORT, *ANSWER[at:])
            self.assertEqual(self.ask(), [OK, REPORT])

    def test_other_lines_are_not_the_report(self):
        """Responses to other packets, base IDs of another form, and a report from before the order."""
        others = [response(data) for data in ("", "FFA1B28000", "FFA1B2", "FFA1B281", "01800ABC", "FFFFFFFF")]
        self.write(response("FF800080"))
        self.clock.acts[1] = lambda: self.write(*ANSWER, *others, response("FF800080", code=1), teach("FFA1B280"), "{")
        self.clock.acts[2] = lambda: self.write(REPORT, response("FF800080"))
        self.assertEqual(self.ask(), [OK, REPORT])
        self.assertEqual(len(self.clock.slept), 2)

    def test_no_report(self):
        self.clock.acts[3] = lambda: self.write(*ANSWER, response("", code=2))
        with self.assertRaises(NoAnswer) as found:
            self.ask(0.05)
        self.assertEqual(str(found.exception), NO_REPORT.format("0.05"))
        self.assertEqual(len(self.clock.slept), 5)

    def test_a_report_at_the_last_moment(self):
        self.clock.acts[5] = lambda: self.write(*ANSWER, REPORT)
        self.assertEqual(self.ask(0.05), [OK, REPORT])

    def test_the_time_is_that_of_the_order(self):
        """An order without an answer gets no more time for the report, which alone is not enough."""
        self.clock.acts[1] = lambda: self.write(REPORT)
        with self.assertRaisesRegex(NoAnswer, "did not answer within 0.05 s"):
            self.ask(0.05)
        self.assertEqual(len(self.clock.slept), 5)

    def test_lines_that_cannot_be_read(self):
        with mock.patch("os.open", side_effect=PermissionError(13, "Permission denied")):
            with self.assertRaisesRegex(NoAnswer, f"the lines {self.lines} cannot be read: Permission denied"):
                self.ask()

    def test_files_are_closed(self):
        with mock.patch("enogate_ctl.client.Lines.close") as close:
            self.clock.acts[1] = lambda: self.write(*ANSWER, REPORT)
            self.ask()
        self.assertEqual(close.call_count, 2)


class BaseCommand(GatewayFilesTest):
    """What the command prints."""

    def run_command(self, *options, report=REPORT):
        """The exit status, standard output and standard error."""
        def sleep(_seconds):
            self.write(*ANSWER, report)
        out, err = io.StringIO(), io.StringIO()
        files = ["--desk", str(self.desk), "--lines", str(self.lines), "--timeout", "0.2"]
        with contextlib.redirect_stdout(out), contextlib.redirect_stderr(err), \
                mock.patch.object(program, "StopSignals"), mock.patch.object(Client.__init__, "__defaults__",
                                                                             (self.clock, self.tick(sleep), lambda: 1)):
            return program.main([*files, *options, "hall", "base"]), out.getvalue(), err.getvalue()

    def tick(self, act):
        """A pause in which something happens for the first time."""
        self.clock.acts[1] = lambda: act(0)
        return self.clock.sleep

    def test_for_people_it_is_the_base_id(self):
        self.assertEqual(self.run_command(), (0, "FFA1B280\n", ""))

    def test_json_is_both_lines(self):
        self.assertEqual(self.run_command("--json"), (
            0, '{"type":"ok"}\n{"code":0,"data":"FFA1B280","name":"OK","type":"response"}\n', ""))

    def test_a_silent_module(self):
        self.assertEqual(self.run_command(report=response("")), (3, "", f"enogatectl: {NO_REPORT.format('0.2')}\n"))


class BaseIdForms(TimeLimitedTest):
    def test_it_is_that_of_the_module_itself(self):
        """What a module must report at its port, and in the lines of a gateway, has the same form."""
        for base, is_one in (("FF800000", True), ("FFFFFF80", True), ("FF800001", False), ("FF7FFF80", False)):
            header = bytes([0, 5, 0, 2])
            data = bytes.fromhex("00" + base)
            packet = b"\x55" + header + bytes([esp3.crc8(header)]) + data + bytes([esp3.crc8(data)])
            self.assertEqual((ports.base_in(packet) is not None, ports.is_base(base)), (is_one, is_one), base)


if __name__ == "__main__":
    unittest.main()
