"""The command `lines`: it prints the earlier lines, an empty line, and then each new one."""
import contextlib
import errno
import io
import os
import select
import unittest
from unittest import mock

from enogate_ctl import client, following
from enogate_ctl.client import UnreadableLines
from enogate_ctl.stops import Stopped
from fakes import GatewayFilesTest


class PrintedLines(GatewayFilesTest):
    def printed(self, *acts):
        """What is printed while each of these is done in a pause; then nobody reads it any more."""
        out, left, self.woken = io.BytesIO(), list(acts), []

        def wait(is_woken):
            self.woken.append(is_woken)
            if left:
                left.pop(0)()
            return bool(left)
        following.print_lines(self.paths, out, wait)
        return out.getvalue().decode().split("\n")

    def test_earlier_and_new_lines(self):
        self.write("a", "b")
        self.assertEqual(self.printed(lambda: self.write("c"), lambda: self.write("d", "e"), lambda: None),
                         ["a", "b", "", "c", "d", "e", ""])

    def test_only_the_end_of_a_long_file(self):
        self.write("x" * following.MAX_EARLIER_BYTES, "a" * 40)
        self.assertEqual(self.printed(), ["a" * 40, "", ""])
        self.lines.write_text("")
        self.write("x", "a" * (following.MAX_EARLIER_BYTES - 1))
        self.assertEqual([len(line) for line in self.printed()], [following.MAX_EARLIER_BYTES - 1, 0, 0])

    def test_a_line_that_is_begun_before_and_ends_later(self):
        with self.lines.open("a") as file:
            file.write("a\nb")
        self.assertEqual(self.printed(lambda: self.write("c"), lambda: None), ["a", "", "bc", ""])

    def test_an_empty_line_or_nul_bytes_are_no_end_of_the_earlier_lines(self):
        self.write("a", "", "\0\0b", "\0\0")
        self.assertEqual(self.printed(), ["a", "b", "\0\0", "", ""])

    def test_a_rotation(self):
        def rotate():
            self.lines.rename(self.folder / "hall.lines.1")
            self.write("b")
        self.write("a")
        self.assertEqual(self.printed(rotate, lambda: None, lambda: None), ["a", "", "b", ""])
        self.assertEqual(self.woken, [True, False, True])

    def test_a_line_that_is_still_written_to_a_rotated_file(self):
        def rotate():
            self.lines.rename(self.folder / "hall.lines.1")
            self.write("c")

        def write():
            with (self.folder / "hall.lines.1").open("a") as file:
                file.write("b\n")
        self.write("a")
        self.assertEqual(self.printed(rotate, write, lambda: None, lambda: None), ["a", "", "b", "c", ""])

    def test_what_is_wrong_with_the_file_is_not_printed(self):
        self.write("a", "b")
        with contextlib.redirect_stdout(io.StringIO()) as out, contextlib.redirect_stderr(out):
            self.assertEqual(self.printed(lambda: self.lines.write_text("c\n"), lambda: self.write("d"), lambda: None),
                             ["a", "b", "", "d", ""])
        self.assertEqual(out.getvalue(), "")

    def test_a_file_that_does_not_exist_yet(self):
        self.lines.unlink()
        self.assertEqual(self.printed(lambda: self.write("a"), lambda: None), ["", "a", ""])

    def test_no_gateway_of_this_name(self):
        self.lines.unlink()
        self.desk.unlink()
        why = f"^there are no lines {self.lines}: correct the name of the gateway, or start it$"
        with self.assertRaisesRegex(UnreadableLines, why):
            self.printed()

    def test_lines_that_this_user_may_not_see(self):
        """They are not missing: the name of the gateway may be right."""
        forbidden = PermissionError(errno.EACCES, os.strerror(errno.EACCES))
        with mock.patch.object(following.os, "stat", side_effect=forbidden), \
                mock.patch.object(client, "open_file", side_effect=forbidden), \
                self.assertRaisesRegex(UnreadableLines, "cannot be read: Permission denied; become root, or a member"):
            self.printed()

    def test_a_link_or_a_pipe(self):
        for make, why in ((lambda: self.lines.symlink_to(self.desk), "it is a symbolic link"),
                          (lambda: os.mkfifo(self.lines), "it is not a regular file")):
            self.lines.unlink()
            make()
            with self.assertRaisesRegex(UnreadableLines, f"^the lines {self.lines} cannot be read: {why}$"):
                self.printed()

    def test_a_signal_closes_the_file(self):
        def stop():
            raise Stopped(15)
        before = os.listdir("/proc/self/fd")
        with contextlib.suppress(Stopped):
            self.printed(stop)
        self.assertEqual(os.listdir("/proc/self/fd"), before)


class OutputReader(GatewayFilesTest):
    def setUp(self):
        super().setUp()
        self.reads, writes = os.pipe()
        self.addCleanup(lambda: os.close(self.reads))
        self.out = self.enterContext(os.fdopen(writes, "wb"))
        self.reader = following.OutputReader(str(self.lines), self.out)
        self.waits = []
        poll = mock.Mock(register=lambda *_: None, poll=lambda wait: self.waits.append(wait) or [])
        self.poll = mock.patch.object(following.select, "poll", return_value=poll)

    def test_whether_somebody_reads(self):
        self.assertTrue(self.reader.wait(True))
        reads, self.reads = self.reads, os.open(os.devnull, os.O_RDONLY)
        os.close(reads)
        self.assertFalse(self.reader.wait(True))

    def test_a_line_ends_the_wait(self):
        """Otherwise it takes a second, in which nothing is looked at."""
        for change in (lambda: self.write("a"), lambda: self.write("b"),
                       lambda: self.lines.rename(self.folder / "hall.lines.1"), lambda: self.write("c")):
            while self.reader.files.longest_wait() == 0 or select.select([self.reader.files.file], [], [], 0)[0]:
                self.assertTrue(self.reader.wait(True))
            with self.poll:
                self.reader.wait(True)
            self.assertEqual(self.waits.pop(), 1000)
            change()
            self.assertTrue(select.select([self.reader.files.file], [], [], 0)[0])

    def test_a_line_does_not_end_a_pause(self):
        self.assertTrue(self.reader.wait(True))
        with mock.patch.object(following.select, "poll", return_value=mock.Mock(poll=lambda _: [])) as poll:
            self.assertTrue(self.reader.wait(False))
        poll.return_value.register.assert_called_once_with(self.out.fileno(), 0)
        with self.poll:
            self.reader.wait(False)
        self.assertEqual(self.waits, [100])

    def test_without_inotify(self):
        library = mock.Mock(inotify_init1=lambda _: -1)
        with mock.patch("enogate_lines.inotify.ctypes.CDLL", return_value=library), \
                contextlib.redirect_stderr(io.StringIO()) as err:
            reader = following.OutputReader(str(self.lines), self.out)
        with self.poll:
            self.assertTrue(reader.wait(True))
        self.assertEqual((self.waits, err.getvalue()), ([100], ""))


if __name__ == "__main__":
    unittest.main()
