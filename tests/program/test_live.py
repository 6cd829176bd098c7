"""The built program as `live`, over plain files: what it reads and writes, and in which order it opens its files.
tests/around/terminals shows what it does at a terminal."""
import os
import resource
import shutil
import subprocess
import unittest

from runs import ACCEPTED_LINE, OK_LINE, PROGRAM, READING_LINE, ROOT
from testcase import LiveTest

EXISTING_FOLDER = ROOT / "docs"
CONTACT_PACKET = bytes.fromhex("55000707017AD50901800ABC0001FFFFFFFF2D001F")
READ_BASE_PACKET = bytes.fromhex("5500010005700838")
EXPLANATION_LINE = (
    '{"dbm":-45,"dest":null,"eep":"D5-00-01","id":"01800ABC","maker":null,"payload":"09",'
    '"rorg":"D5","status":"00","type":"packet","why":"read"}\n'
)
LABEL_ANSWERS = (
    '{"type":"ok"}\n'
    '{"eep":"D5-00-01","id":"01800ABC","label":"Door \\"A\\"","maker":null,"type":"device"}\n'
    '{"count":1,"type":"list"}\n'
)
EARLIER_OUTPUT_LINE = "an earlier line\n"


def limit_processor_time():
    """Limits a process to a minute of a processor, which only a run that hangs takes."""
    resource.setrlimit(resource.RLIMIT_CPU, (60, 60))


class LiveInputAndOutputTest(LiveTest):
    """The bytes that `live` reads and writes."""

    def write_packet_for_second_turn(self):
        """A telegram comes in the second turn, and the last line of the desk has no end."""
        self.line.write_bytes(bytes(256) + CONTACT_PACKET)
        self.desk.write_text("add 01800ABC D5-00-01\nlist")

    def test_a_turn_reads_256_bytes_and_answers_whole_lines(self):
        self.write_packet_for_second_turn()
        self.assert_run(self.run_live(turn_count=2))
        self.assert_file_content(self.answers, ACCEPTED_LINE + READING_LINE)

    def test_explanations_come_before_what_a_packet_reports_and_orders_have_none(self):
        self.write_packet_for_second_turn()
        self.assert_run(self.run_live("--explain", turn_count=2))
        self.assert_file_content(self.answers, ACCEPTED_LINE + EXPLANATION_LINE + READING_LINE)

    def test_one_turn_in_place_of_earlier_answers(self):
        self.write_packet_for_second_turn()
        self.answers.write_text(EARLIER_OUTPUT_LINE + ACCEPTED_LINE + READING_LINE)
        self.assert_run(self.run_live())
        self.assert_file_content(self.answers, ACCEPTED_LINE)

    def test_a_label_and_nothing_for_the_serial_line(self):
        self.desk.write_bytes(b'add 01800ABC D5-00-01\nlabel 01800ABC Door "A"\r\nlist\n')
        self.assert_run(self.run_live())
        self.assert_file_content(self.answers, ACCEPTED_LINE + LABEL_ANSWERS)
        self.assertEqual(self.line.read_bytes(), b"")

    def test_an_order_for_the_module(self):
        self.desk.write_text("base\n")
        self.assert_run(self.run_live(turn_count=3))
        self.assertEqual(self.line.read_bytes().hex(), READ_BASE_PACKET.hex())
        self.assert_file_content(self.answers, OK_LINE)

    def test_a_desk_that_is_a_pipe(self):
        """A program that opens this pipe waits until another program opens its other end."""
        pipe = self.work / "pipe"
        os.mkfifo(pipe)
        writer = subprocess.Popen(["sh", "-c", 'echo base >"$0"', pipe])
        self.addCleanup(writer.wait)
        self.addCleanup(writer.kill)
        self.assert_run(self.run_live(desk=pipe))
        self.assert_file_content(self.answers, OK_LINE)

    def test_a_plain_file_as_the_serial_line_is_opened_once_and_not_to_append(self):
        """256 of its 300 bytes are read, and the packet that is sent is written after these."""
        self.line.write_bytes(bytes(300))
        self.desk.write_text("base\n")
        self.assert_run(self.run_live())
        self.assertEqual(self.line.read_bytes().hex(), (bytes(256) + READ_BASE_PACKET + bytes(36)).hex())

    def test_864000_turns_each_read_the_line_and_the_desk_once(self):
        """These are a day, and more than 16 bits count."""
        silent = self.write_file("silent")
        files = {"line": silent, "desk": silent, "answers": "/dev/null"}
        self.assert_run(self.run_live(turn_count=864000, **files, env=self.count_calls_environment(),
                          preexec_fn=limit_processor_time))
        self.assertEqual(self.counted_calls("read"), {"read file": 1728000})


class OpenedPathsTest(LiveTest):
    """How the three files are opened."""

    def test_each_file_is_opened_once_in_this_order_with_no_more_access(self):
        self.line.write_bytes(bytes(300))
        self.desk.write_text("base\n")
        opens = self.work / "opens"
        self.assert_run(self.run_live(env=self.preload_environment("record_opens.c", RECORD_OPENS=opens)))
        self.assert_file_content(
            opens, f"{self.line} read-write\n{self.desk} read\n{self.answers} write create truncate\n"
        )

    def test_a_user_may_only_read_the_desk_and_only_write_the_answers(self):
        rights = self.work / "rights"
        rights.mkdir()
        program, line, desk, answers = (rights / name for name in ("enogate", "line", "desk", "answers"))
        shutil.copy(PROGRAM, program)
        line.touch()
        desk.write_text("list\n")
        answers.touch()
        desk.chmod(0o400)
        answers.chmod(0o200)
        other_rights = {}
        if os.geteuid() == 0:
            self.work.chmod(0o711)
            for path in (rights, program, line, desk, answers):
                os.chown(path, 65534, 65534)
            other_rights = {"user": 65534, "group": 65534, "extra_groups": []}
        run = self.run_live(program=program, line=line, desk=desk, answers=answers, **other_rights)
        self.assert_run(run)
        answers.chmod(0o600)
        self.assert_file_content(answers, '{"count":0,"type":"list"}\n')


class WrongPathsTest(LiveTest):
    """The serial line is opened before the desk, and the file of answers last."""

    def setUp(self):
        super().setUp()
        self.missing_path = self.work / "none"
        self.path_without_folder, self.new_path = self.work / "no/folder", self.work / "new"
        self.database = self.work / "live.db"
        self.line.write_bytes(bytes(300))
        self.desk.write_text("base\n")

    def test_serial_lines_that_do_not_open(self):
        for path in (self.missing_path, self.path_without_folder, EXISTING_FOLDER, ""):
            with self.subTest(path=path):
                self.answers.write_text(EARLIER_OUTPUT_LINE)
                self.assert_fault(self.run_live(line=path), "cannot open")
                self.assert_file_content(self.answers, EARLIER_OUTPUT_LINE)

    def test_desks_that_do_not_open(self):
        for path in (self.missing_path, self.path_without_folder, ""):
            with self.subTest(path=path):
                self.answers.write_text(EARLIER_OUTPUT_LINE)
                self.assert_fault(self.run_live(desk=path), "cannot open")
                self.assert_file_content(self.answers, EARLIER_OUTPUT_LINE)

    def test_a_file_of_answers_is_not_made_if_there_is_no_desk(self):
        self.assert_fault(self.run_live(desk=self.missing_path, answers=self.new_path), "cannot open")
        self.assertFalse(self.new_path.exists())

    def test_files_of_answers_that_do_not_open(self):
        for path in (self.path_without_folder, EXISTING_FOLDER, ""):
            with self.subTest(path=path):
                self.assert_fault(self.run_live(answers=path), "cannot open")

    def test_a_registry_is_made_before_the_paths_are_opened(self):
        run = self.run_live("--db", self.database, line=self.missing_path, answers=self.new_path)
        self.assert_fault(run, "cannot open")
        self.assertIn(b"enogate_device_v2", self.database.read_bytes())
        self.assertFalse(self.new_path.exists())
        self.assert_run(self.run_live("--db", self.database))

    def test_the_serial_line_is_opened_before_a_desk_that_nobody_writes(self):
        pipe = self.work / "pipe"
        os.mkfifo(pipe)
        self.assert_fault(self.run_live(line=self.missing_path, desk=pipe, answers=self.new_path), "cannot open")
        self.assertFalse(self.new_path.exists())

    def test_a_registry_that_does_not_open_is_reported_before_the_paths(self):
        database = self.work / "no/folder.db"
        run = self.run_live("--db", database, line=self.missing_path, desk=self.missing_path, answers=self.new_path)
        self.assert_fault(run, "store")
        self.assertFalse(self.new_path.exists())

    def test_a_bad_base_is_reported_before_all_that_is_opened(self):
        words = ["--base", "FF800001", "--serial", self.missing_path, "--desk", self.desk, "--out", self.new_path,
                 "--turns", "1"]
        self.assert_fault(self.run_program("live", *words, "--db", self.work / "no/folder.db"), "bad base", 2)
        self.assertFalse(self.new_path.exists())

    def test_a_desk_that_cannot_be_read(self):
        self.assert_fault(self.run_live(desk=EXISTING_FOLDER), "read")

    def test_answers_that_cannot_be_written(self):
        self.assert_fault(self.run_live(answers="/dev/full"), "write")

    def test_a_serial_line_that_cannot_be_written(self):
        """The radio bytes are written before the answer, so an order that is not sent has no answer."""
        self.answers.write_text(EARLIER_OUTPUT_LINE)
        self.assert_fault(self.run_live(line="/dev/full"), "write")
        self.assert_file_content(self.answers, "")


class LiveCommandLineTest(LiveTest):
    """Messages on usage."""

    def test_turns_that_are_refused(self):
        for turns_text, text in (
            ("0", "0 is not in 1..=4294967295"),
            ("4294967296", "4294967296 is not in 1..=4294967295"),
            ("1x", "invalid value '1x' for '--turns <N>'"),
        ):
            with self.subTest(turns=turns_text):
                self.assert_usage(self.run_live(turn_count=turns_text), text)
                self.assertFalse(self.answers.exists())

    def test_turns_twice(self):
        self.assert_usage(self.run_live("--turns", "2"), "cannot be used multiple times")
        self.assertFalse(self.answers.exists())

    def test_each_option_is_needed(self):
        options = {"--base": "FF800000", "--serial": self.line, "--desk": self.desk, "--out": self.answers}
        options["--turns"] = "1"
        for name, text in (
            ("--base", "  --base <ID>"),
            ("--serial", "  --serial <PATH>"),
            ("--desk", "  --desk <PATH>"),
            ("--out", "  --out <PATH>"),
            ("--turns", "  --turns <N>"),
        ):
            with self.subTest(without=name):
                words = [word for option, option_value in options.items() if option != name
                         for word in (option, option_value)]
                self.assert_usage(self.run_program("live", *words), text)

    def test_a_serial_line_for_a_replay(self):
        self.assert_usage(self.run_replay("--serial", self.line), "unexpected argument '--serial' found")


if __name__ == "__main__":
    unittest.main()
