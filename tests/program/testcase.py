"""The base classes of the unit tests of the built program."""
import os
import pathlib
import subprocess
import tempfile
import unittest

from runs import PROGRAM, preload_environment

# In seconds. Only a run that hangs is stopped: on a busy machine the longest, with 2,022 syncs, took 8 seconds.
RUN_TIMEOUT = 120
EMPTY_INPUT = pathlib.Path(os.devnull)


def decoded_text(content):
    """Bytes as a text that has each of them, also if they are no UTF-8."""
    return (content or b"").decode(errors="surrogateescape")


class ProgramTest(unittest.TestCase):
    """Each test has a new folder, `work`, and runs the program in it."""

    maxDiff = None

    @classmethod
    def setUpClass(cls):
        cls.libraries = pathlib.Path(cls.enterClassContext(tempfile.TemporaryDirectory()))

    def shortDescription(self):
        """Only the names of failed tests are printed, without their docstrings."""

    def setUp(self):
        self.work = pathlib.Path(self.enterContext(tempfile.TemporaryDirectory()))

    def write_file(self, name, content=""):
        """Writes a file to the folder, and returns its path."""
        path = self.work / name
        path.write_bytes(content if isinstance(content, bytes) else content.encode())
        return path

    def preload_environment(self, source, **variables):
        """The environment of a run that preloads the library of this source in tests/preload."""
        return preload_environment(self.libraries, source, **variables)

    def count_calls_environment(self, **variables):
        """The environment of a run whose calls are counted by a library. The library reads these variables."""
        return self.preload_environment("count_calls.c", COUNT_CALLS=self.work / "calls", **variables)

    def counted_calls(self, kind=""):
        """How many calls that run has made, by those of the names in the library that begin like this."""
        names_and_counts = (line.rsplit(" ", 1) for line in (self.work / "calls").read_text().splitlines())
        return {name: int(count) for name, count in names_and_counts if name.startswith(kind)}

    def run_program(self, *words, script=EMPTY_INPUT, program=PROGRAM, **settings):
        """Runs the program, or a copy of it. Its standard input is the file `script`, or a new file with this text. The
        settings are those of `subprocess.run`."""
        script = script if isinstance(script, pathlib.Path) else self.write_file("script", script)
        with script.open("rb") as stdin:
            defaults = {"stdin": stdin, "stdout": subprocess.PIPE, "stderr": subprocess.PIPE, "timeout": RUN_TIMEOUT}
            return subprocess.run([program, *words], **{**defaults, **settings})

    def run_replay(self, *options, base="FF800000", script=EMPTY_INPUT, **settings):
        return self.run_program("replay", "--base", base, *options, script=script, **settings)

    def assert_text_equal(self, text, expected_text):
        """The texts are equal. If they are not, the message shows a few lines, from the one before the first
        difference."""
        if text != expected_text:
            lines, expected_lines = text.splitlines(keepends=True), expected_text.splitlines(keepends=True)
            start = max(len(os.path.commonprefix([lines, expected_lines])) - 1, 0)
            shown_text, expected_shown_text = ("".join(some_lines[start : start + 10])
                                               for some_lines in (lines, expected_lines))
            self.assertEqual(shown_text, expected_shown_text, f"from line {start + 1}")

    def assert_run(self, run, output="", error="", status=0):
        """The run printed exactly these texts to standard output and standard error, and ended with this status."""
        with self.subTest(of="standard output"):
            self.assert_text_equal(decoded_text(run.stdout), output)
        with self.subTest(of="standard error"):
            self.assert_text_equal(decoded_text(run.stderr), error)
        with self.subTest(of="status"):
            self.assertEqual(run.returncode, status)

    def assert_fault(self, run, fault, status=1):
        """The run ended with this status, and printed only the line of this fault, to standard error."""
        self.assert_run(run, error=f"enogate: {fault}\n", status=status)

    def assert_usage(self, run, text):
        """The run ended with status 2, and printed a message with this text, to standard error only."""
        self.assertIn(text, decoded_text(run.stderr))
        self.assertEqual((decoded_text(run.stdout), run.returncode), ("", 2))

    def assert_file_content(self, path, text):
        """The file has exactly this text."""
        self.assert_text_equal(decoded_text(path.read_bytes()), text)


class LiveTest(ProgramTest):
    """Each test has a serial line and a desk, which are empty files. The file of answers is new."""

    def setUp(self):
        super().setUp()
        self.line, self.desk, self.answers = self.write_file("line"), self.write_file("desk"), self.work / "answers"

    def live_command(self, *options, turn_count=1, line=None, desk=None, answers=None):
        """The command line of `live` with these options. The defaults are the files of the test."""
        line, desk = self.line if line is None else line, self.desk if desk is None else desk
        answers = self.answers if answers is None else answers
        words = ["live", "--base", "FF800000", "--serial", line, "--desk", desk, "--out", answers]
        return [*words, "--turns", str(turn_count), *options]

    def run_live(self, *options, turn_count=1, line=None, desk=None, answers=None, **settings):
        """Runs `live` to its end."""
        words = self.live_command(*options, turn_count=turn_count, line=line, desk=desk, answers=answers)
        return self.run_program(*words, **settings)
