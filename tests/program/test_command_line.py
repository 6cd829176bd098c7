"""The command line of the built program: what it prints for words that it knows and for words that it does not, and how
it ends if its input or its output fails."""
import os
import unittest

from runs import ACCEPTED_LINE, OK_LINE, READING_LINE, ROOT
from testcase import ProgramTest

CONTACT_SCRIPT = ROOT / "examples/contact.txt"
EXISTING_FOLDER = ROOT / "docs"
EXPLANATION_LINE = (
    '{"dbm":-45,"dest":null,"eep":"D5-00-01","id":"01800ABC","maker":null,"payload":"09",'
    '"rorg":"D5","status":"00","type":"packet","why":"read"}\n'
)
READINGS_OUTPUT = (
    '{"eep":"A5-02-05","id":"01800ABC","maker":null,"result":"accepted","type":"teach"}\n'
    '{"eep":"F6-02-01","id":"01800ABD","maker":null,"result":"accepted","type":"teach"}\n'
    '{"dbm":-45,"eep":"A5-02-05","id":"01800ABC","readings":[{"den":51,"name":"TMP","num":1024,"unit":"C"}],'
    '"type":"reading"}\n'
    '{"dbm":-45,"eep":"F6-02-01","id":"01800ABD","readings":[{"name":"R1","word":"BI"},'
    '{"name":"EB","word":"pressed"}],"type":"reading"}\n'
    '{"code":0,"data":"FF800000","name":"OK","type":"response"}\n'
    '{"ignored":0,"mode":"closed","readings":2,"refused":0,"responses":1,"teach":0,"type":"status"}\n'
)
RANGE_ERROR_LINE = '{"error":"range","type":"error"}\n'
HELP_TEXT = """\
A gateway for EnOcean radio devices

Usage: enogate <COMMAND>

Commands:
  replay  Run a recorded script from standard input to standard output
  live    Run a gateway on a serial port
  help    Print this message or the help of the given subcommand(s)

Options:
  -h, --help     Print help
  -V, --version  Print version
"""
REPLAY_HELP_TEXT = """\
Run a recorded script from standard input to standard output

Usage: enogate replay [OPTIONS] --base <ID>

Options:
      --base <ID>  Base ID of the radio module, 8 hexadecimal digits
      --db <PATH>  SQLite file of learned devices; without this option they are kept in memory only
      --explain    Report what was done with each packet, and why
  -h, --help       Print help
"""
LIVE_HELP_TEXT = """\
Run a gateway on a serial port

Usage: enogate live [OPTIONS] --base <ID> --serial <PATH> --desk <PATH> --out <PATH> --turns <N>

Options:
      --base <ID>      Base ID of the radio module, 8 hexadecimal digits
      --serial <PATH>  Serial port of the radio module
      --desk <PATH>    File with orders, one per line
      --out <PATH>     Output file, created or truncated
      --turns <N>      Number of read cycles before exiting, 1 to 4294967295
      --db <PATH>      SQLite file of learned devices; without this option they are kept in memory only
      --explain        Report what was done with each packet, and why
  -h, --help           Print help
"""


class ReplayRunsTest(ProgramTest):
    """Scripts, and base IDs."""

    def test_the_first_example(self):
        self.assert_run(self.run_replay(script=CONTACT_SCRIPT), ACCEPTED_LINE + READING_LINE)

    def test_the_first_example_with_explanations(self):
        self.assert_run(
            self.run_replay("--explain", script=CONTACT_SCRIPT), ACCEPTED_LINE + EXPLANATION_LINE + READING_LINE
        )

    def test_the_example_of_readings(self):
        self.assert_run(self.run_replay(script=ROOT / "examples/readings.txt"), READINGS_OUTPUT)

    def test_a_base_in_lower_case(self):
        self.assert_run(self.run_replay(base="ff800000", script=CONTACT_SCRIPT), ACCEPTED_LINE + READING_LINE)

    def test_an_empty_script(self):
        self.assert_run(self.run_replay(base="FFFFFF80"))

    def test_orders_at_the_greatest_base_id(self):
        """The last sender of this base ID would be the broadcast ID."""
        script = "teach 127\ncentral 127 on\nlevel 127 0 0\nteach 126\ncentral 126 on\n"
        first_line = "S 55000a0701eba5e047ff80fffffffe0003ffffffffff0061\n"
        second_line = "S 55000a0701eba501000009fffffffe0003ffffffffff00cc\n"
        self.assert_run(
            self.run_replay(base="FFFFFF80", script=script),
            3 * RANGE_ERROR_LINE + first_line + OK_LINE + second_line + OK_LINE
        )

    def test_bad_bases(self):
        for base in ("FF800001", "FF7FFF80", "FFFFFFFF", "FF80000", "FF8000000", "0xFF8000", ""):
            with self.subTest(base=base):
                self.assert_fault(self.run_replay(base=base), "bad base", 2)

    def test_an_argument_that_is_no_text(self):
        self.assert_fault(self.run_replay(base=b"\377"), "an argument is not text", 2)


class UnusableStreamsTest(ProgramTest):
    """Input that cannot be read, and output that cannot be written."""

    def test_a_closed_input(self):
        self.assert_fault(self.run_replay(preexec_fn=lambda: os.close(0)), "read")

    def test_an_input_that_cannot_be_read(self):
        folder = os.open(EXISTING_FOLDER, os.O_RDONLY)
        self.addCleanup(os.close, folder)
        self.assert_fault(self.run_replay(stdin=folder), "read")

    def test_an_output_that_is_full(self):
        with open("/dev/full", "wb") as full:
            self.assert_fault(self.run_replay(script=CONTACT_SCRIPT, stdout=full), "write")

    def test_a_closed_output(self):
        self.assert_fault(self.run_replay(script=CONTACT_SCRIPT, preexec_fn=lambda: os.close(1)), "write")

    def test_a_bad_base_that_cannot_be_printed(self):
        with open("/dev/full", "wb") as full:
            self.assert_run(self.run_replay(base="FF800001", stderr=full), status=2)

    def test_a_fault_that_cannot_be_printed(self):
        folder = os.open(EXISTING_FOLDER, os.O_RDONLY)
        self.addCleanup(os.close, folder)
        with open("/dev/full", "wb") as full:
            self.assert_run(self.run_replay(stdin=folder, stderr=full), status=1)

    def test_the_reads_of_a_script_of_1000_bytes(self):
        """A read takes at most 256 bytes: four reads take the script, and the fifth finds its end."""
        run = self.run_replay(script=1000 * "0", env=self.count_calls_environment())
        self.assert_run(run, '{"error":"too_long","type":"error"}\n')
        self.assertEqual(self.counted_calls("read"), {"read file": 5})


class HelpAndVersionTest(ProgramTest):
    """Help, the version, and messages on usage."""

    def test_help(self):
        for program_words, page in (([], HELP_TEXT), (["replay"], REPLAY_HELP_TEXT), (["live"], LIVE_HELP_TEXT)):
            with self.subTest(program_words=program_words):
                self.assert_run(self.run_program(*program_words, "--help"), page)

    def test_the_version(self):
        for option in ("--version", "-V"):
            with self.subTest(option=option):
                self.assert_run(self.run_program(option), "enogate 0.3.0\n")

    def test_replay_has_no_version(self):
        self.assert_usage(self.run_replay("--version"), "unexpected argument '--version'")

    def test_no_command(self):
        self.assert_usage(self.run_program(), "requires a subcommand")

    def test_an_unknown_command(self):
        self.assert_usage(self.run_program("listen"), "unrecognized subcommand")

    def test_no_base(self):
        self.assert_usage(self.run_program("replay"), "--base <ID>")

    def test_a_base_with_no_value(self):
        self.assert_usage(self.run_program("replay", "--base"), "a value is required for '--base <ID>'")

    def test_two_bases(self):
        self.assert_usage(self.run_replay("--base", "FF800000"), "cannot be used multiple times")

    def test_a_flag_twice(self):
        run = self.run_replay("--explain", "--explain")
        self.assert_usage(run, "'--explain' cannot be used multiple times")

    def test_a_flag_with_a_value(self):
        self.assert_usage(self.run_replay("--explain=yes"), "unexpected value 'yes' for '--explain'")

    def test_a_word_too_many(self):
        self.assert_usage(self.run_replay("more"), "unexpected argument")


if __name__ == "__main__":
    unittest.main()
