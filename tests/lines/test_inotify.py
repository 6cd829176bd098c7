"""Changes of files that are noticed, without a clock: each wait says at once whether it would go on."""
import ctypes
import errno
import os
import pathlib
import select
import tempfile
import types
import unittest
from unittest import mock

from enogate_lines.inotify import LONGEST_WAIT, POLL_PAUSE, WatchedFiles


class WatchedFileWaits(unittest.TestCase):
    """The lines and the desk of a gateway, in two directories."""

    def setUp(self):
        folder = self.enterContext(tempfile.TemporaryDirectory())
        self.log, self.run_folder = pathlib.Path(folder, "log"), pathlib.Path(folder, "run")
        self.lines, self.desk = self.log / "hall.lines", self.run_folder / "desk"
        for file in (self.lines, self.desk):
            file.parent.mkdir()
            file.touch()

    def start(self):
        """A program that has waited before."""
        self.files = WatchedFiles([str(self.lines), str(self.desk)], self.fail)
        self.addCleanup(os.close, self.files.file)
        self.assertTrue(self.waits())
        self.assertFalse(self.waits())

    def is_noticed(self):
        return bool(select.select([self.files.file], [], [], 0)[0])

    def waits(self):
        """Whether a wait would end at once."""
        self.seconds = self.files.longest_wait()
        if is_noticed := self.is_noticed():
            self.files.drop_events()
        return self.seconds == 0 or is_noticed

    def assert_notices(self, change):
        """A change ends a wait that has begun before, and not more than two after that."""
        change()
        self.assertTrue(self.is_noticed())
        count = 0
        while self.waits():
            count += 1
        self.assertLessEqual(count, 3)

    def test_an_idle_wait(self):
        self.start()
        self.assertEqual(self.seconds, LONGEST_WAIT)

    def test_lines_end_a_wait(self):
        self.start()
        self.assert_notices(lambda: append(self.lines, b"line\n"))

    def test_a_burst_ends_one_wait(self):
        self.start()
        self.assert_notices(lambda: [append(self.lines, b"%d\n" % number) for number in range(1000)])

    def test_an_order_ends_a_wait(self):
        self.start()
        self.assert_notices(lambda: append(self.desk, b"status\n"))

    def test_a_start_of_the_gateway_ends_a_wait(self):
        append(self.desk, b"status\n")
        self.start()
        self.assert_notices(lambda: os.truncate(self.desk, 0))

    def test_lines_of_another_gateway_end_none(self):
        other_path = self.log / "roof.lines"
        other_path.touch()
        self.start()
        append(other_path, b"line\n")
        self.assertFalse(self.waits())

    def test_a_rotation(self):
        self.start()
        self.assert_notices(lambda: self.lines.rename(self.log / "hall.lines-20261127"))
        # the old file may still be written to
        self.assert_notices(lambda: append(self.log / "hall.lines-20261127", b"line\n"))
        self.assert_notices(self.lines.touch)
        self.assert_notices(lambda: append(self.lines, b"line\n"))

    def test_a_line_before_a_new_file_is_watched(self):
        """Nothing that is written between the look at the lines and the wait is missed."""
        self.start()
        self.lines.unlink()
        while self.waits():
            pass
        self.lines.touch()
        self.files.drop_events()
        append(self.lines, b"line\n")
        self.assertTrue(self.waits())

    def test_a_file_that_is_replaced(self):
        self.start()
        new_path = self.run_folder / "new"
        self.assert_notices(new_path.touch)
        self.assert_notices(lambda: new_path.replace(self.desk))
        self.assert_notices(lambda: append(self.desk, b"status\n"))

    def test_lines_that_may_be_read_now(self):
        self.start()
        self.assert_notices(lambda: self.lines.chmod(0o600))

    def test_a_directory_that_does_not_exist_yet(self):
        self.lines.unlink()
        self.log.rmdir()
        self.start()
        self.assertEqual(self.seconds, POLL_PAUSE)
        self.log.mkdir()
        self.assertTrue(self.waits())
        self.assertFalse(self.waits())
        self.assertEqual(self.seconds, LONGEST_WAIT)
        self.assert_notices(self.lines.touch)

    def test_a_directory_that_is_replaced(self):
        self.start()
        self.assert_notices(lambda: self.log.rename(self.log.with_name("old")))
        self.assertEqual(self.seconds, POLL_PAUSE)
        self.log.mkdir()
        self.lines.touch()
        while self.waits():
            pass
        self.assertEqual(self.seconds, LONGEST_WAIT)
        self.assert_notices(lambda: append(self.lines, b"line\n"))


class WithoutInotify(unittest.TestCase):
    """Where inotify does not work, the files are looked at ten times a second."""

    def setUp(self):
        self.logged_lines = []

    def longest(self, error_number, **functions):
        """The longest wait, the second time, with these functions of the C library, which fail with this number."""
        library = types.SimpleNamespace(**functions)
        with mock.patch.object(ctypes, "CDLL", lambda *_, **__: library), \
             mock.patch.object(ctypes, "get_errno", lambda: error_number):
            files = WatchedFiles(["/log/hall.lines", "/run/desk"], self.logged_lines.append)
            files.longest_wait()
            return files.longest_wait()

    def test_no_function(self):
        self.assertEqual(self.longest(0), 0.1)
        self.assertIn("no inotify (", self.logged_lines[0])

    def test_too_many_instances(self):
        self.assertEqual(self.longest(errno.EMFILE, inotify_init1=lambda _: -1), 0.1)
        self.assertEqual(self.logged_lines, [
            "no inotify (Too many open files): the lines are looked at every 0.1 seconds"])

    def test_a_file_that_may_not_be_watched(self):
        for error_number, longest_wait in ((errno.EACCES, 0.1), (errno.ENOSPC, 0.1), (errno.ENOENT, 1.0)):
            with self.subTest(error_number):
                self.assertEqual(longest_wait, self.longest(
                    error_number, inotify_init1=lambda _: 3,
                    inotify_add_watch=lambda _, path, __: -1 if b"." in path else 1))
        self.assertEqual(self.logged_lines, [])


def append(path, text):
    with path.open("ab") as file:
        file.write(text)
