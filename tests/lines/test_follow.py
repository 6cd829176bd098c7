"""Following the lines across rotation."""
import faulthandler
import os
import pathlib
import tempfile
import unittest
from unittest import mock

from enogate_lines.follow import MAX_READ, NO_POSITION, Follower, Position, position_at_end, rotated_files

# How long these tests may take, in seconds. One that waits for a pipe ends the run, which fails.
MAX_TEST_SECONDS = 120


def setUpModule():
    faulthandler.dump_traceback_later(MAX_TEST_SECONDS, exit=True)
    unittest.addModuleCleanup(faulthandler.cancel_dump_traceback_later)


class CountedCalls:
    """The module os, which notes the names of its functions that are called."""

    def __init__(self, call_names):
        self.call_names = call_names

    def __getattr__(self, name):
        function = getattr(os, name)
        if not callable(function):
            return function

        def call(*arguments, **keywords):
            self.call_names.append(name)
            return function(*arguments, **keywords)
        return call


class FollowedFiles(unittest.TestCase):
    def setUp(self):
        self.path = pathlib.Path(self.enterContext(tempfile.TemporaryDirectory()), "hall.lines")
        self.path.touch()
        self.logged_lines = []

    def assert_logged(self, text):
        self.assertEqual([text in line for line in self.logged_lines].count(True), 1, self.logged_lines)

    def write(self, text, path=None):
        with (path or self.path).open("a") as file:
            file.write(text)

    def follower(self, position=None):
        return Follower(str(self.path), position, self.logged_lines.append)

    def read(self, follower, turn_count=8):
        return [line.decode() for _ in range(turn_count) for line, _ in follower.read()]

    def rotate(self, name_end=".1", lines_ahead=0.0):
        """The file gets another name; its time may be ahead."""
        rotated_path = self.path.with_name(self.path.name + name_end)
        self.path.rename(rotated_path)
        if lines_ahead:
            new_path = rotated_path.stat().st_mtime + lines_ahead
            os.utime(rotated_path, (new_path, new_path))
        return rotated_path

    def test_lines_as_they_end(self):
        follower = self.follower()
        self.write("a\nb")
        self.assertEqual(self.read(follower), ["a"])
        self.write("c\n\nd\n")
        self.assertEqual(self.read(follower), ["bc", "", "d"])

    def test_positions(self):
        follower = self.follower()
        self.write("one\ntwo\nthr")
        (_, first_position), (_, second_position) = follower.read()
        inode = self.path.stat().st_ino
        self.assertEqual((first_position, second_position, follower.position),
                         (Position(inode, 0, b""), Position(inode, 4, b"one\n"), Position(inode, 8, b"one\ntwo\n")))
        second_follower = self.follower(second_position)
        self.write("ee\n")
        self.assertEqual(self.read(second_follower), ["two", "three"])

    def test_a_position_has_64_bytes(self):
        self.write("x" * 100 + "\n")
        follower = self.follower()
        self.read(follower)
        self.assertEqual(follower.position.last, b"x" * 63 + b"\n")

    def test_no_file(self):
        self.path.unlink()
        follower = self.follower()
        self.assertEqual(follower.read(), [])
        self.assertTrue(follower.is_at_end)
        self.assertEqual(follower.fault, "No such file or directory")
        self.write("a\n")
        self.assertEqual(self.read(follower), ["a"])

    def test_the_end_is_told(self):
        follower = self.follower()
        self.write("a\n")
        follower.read()
        self.assertFalse(follower.is_at_end)
        follower.read()
        self.assertTrue(follower.is_at_end)

    def test_rotation(self):
        for name_end in (".1", "-20261127", "-20261127-12"):
            for ahead in (0, 3600, -3600):
                with self.subTest((name_end, ahead)):
                    self.setUp()
                    follower = self.follower()
                    self.write("a\n")
                    self.assertEqual(self.read(follower), ["a"])
                    rotated_path = self.rotate(name_end, ahead)
                    self.write("b\n", rotated_path)
                    self.write("c\n")
                    self.assertEqual(self.read(follower), ["b", "c"])

    def test_a_line_on_its_way_is_waited_for(self):
        follower = self.follower()
        self.write("a\n")
        self.read(follower)
        rotated_path = self.rotate()
        self.write("c\n")
        self.assertEqual(follower.read(), [])
        self.write("b\n", rotated_path)
        self.assertEqual(self.read(follower), ["b", "c"])

    def test_two_rotations_at_once(self):
        for ends in ((".2", ".1"), ("-20261126", "-20261127"), (".10", ".9"), ("-20261127-11", "-20261127-12")):
            with self.subTest(ends):
                self.setUp()
                follower = self.follower()
                self.write("a\n")
                self.read(follower)
                for name_end, text in zip(ends, ("b\n", "c\n")):
                    self.write(text)
                    self.rotate(name_end, 0)
                self.write("d\n")
                self.assertEqual(self.read(follower, 12), ["b", "c", "d"])

    def test_rotation_while_it_is_stopped(self):
        follower = self.follower()
        self.write("a\nb\n")
        (_, _), (_, position) = follower.read()
        self.rotate(lines_ahead=3600)
        self.write("c\n")
        self.assertEqual(self.read(self.follower(position)), ["b", "c"])
        self.assertEqual(self.logged_lines, [])

    def test_an_old_file_that_is_compressed(self):
        """Two rotations: the open file is compressed and removed, and the next one has another name."""
        self.write("old\n")
        self.rotate()
        self.write("a\n")
        follower = self.follower()
        self.assertEqual(self.read(follower), ["a"])
        self.path.with_name(self.path.name + ".1").rename(self.path.with_name(self.path.name + ".2"))
        compressed_path = self.rotate()
        self.write("b\n")
        compressed_path.unlink()
        self.assertEqual(self.read(follower), ["b"])

    def test_a_file_that_is_compressed_after_a_restart(self):
        """The files that were written before it are not read again, and the next one is read."""
        self.write("old\n")
        self.rotate(".2")
        self.write("a\nb\n")
        position = self.follower().read()[1][1]
        compressed_path = self.rotate()
        self.write("c\n")
        follower = self.follower(position)
        compressed_path.unlink()
        self.assertEqual(self.read(follower), ["b", "c"])

    def test_other_files_are_no_lines(self):
        follower = self.follower()
        self.write("a\n")
        self.read(follower)
        for name_end in (".1.gz", ".bak", "-old", "~", ".1~"):
            self.write("x\n", self.path.with_name(self.path.name + name_end))
        self.assertEqual(self.read(follower), [])

    def test_a_file_that_is_gone(self):
        self.write("a\n")
        follower = self.follower()
        follower.read()
        position = follower.position
        self.path.unlink()
        self.write("b\n")
        self.assertEqual(self.read(self.follower(Position(position.inode + 1, 2, b"a\n"))), ["b"])
        self.assert_logged("previous file not found, reading from the beginning")

    def test_another_file_with_the_same_inode(self):
        self.write("x\nb\n")
        self.assertEqual(self.read(self.follower(Position(self.path.stat().st_ino, 2, b"a\n"))), ["x", "b"])
        self.assert_logged("previous file not found")

    def test_a_file_that_has_lost_its_end_in_a_power_failure(self):
        """Its inode is the same. What is left was read before; an incomplete line and NUL bytes may be truncated."""
        for left_bytes in (b"", b"one\n", b"one\ntw", b"one\n\0\0", b"\0\0\0\0two\n\0\0", b"one\ntwo\n" + bytes(50)):
            with self.subTest(left_bytes):
                self.setUp()
                self.write("one\ntwo\nthree\n")
                follower = self.follower()
                self.read(follower)
                self.path.write_bytes(left_bytes)
                second_follower = Follower(str(self.path), follower.position, self.logged_lines.append,
                                           is_same_boot=False)
                self.assertTrue(second_follower.is_found)
                self.assertEqual(second_follower.position.offset, left_bytes.rfind(b"\n") + 1)
                self.assertEqual(self.read(second_follower), [])
                os.truncate(self.path, len(left_bytes.rstrip(b"\0")))
                self.write("\nfour\n")
                self.assertEqual(self.read(second_follower)[-1], "four")
                self.assert_logged(f"{self.path}: lines were lost, continuing at the end")
                self.assertEqual(len(self.logged_lines), 1)

    def test_a_rotated_file_that_has_lost_its_end_in_a_power_failure(self):
        self.write("one\ntwo\n")
        follower = self.follower()
        self.read(follower)
        os.truncate(self.rotate(), 4)
        self.write("three\n")
        second_follower = Follower(str(self.path), follower.position, self.logged_lines.append, is_same_boot=False)
        self.assertEqual(self.read(second_follower), ["three"])

    def test_a_position_that_is_found_after_a_power_failure(self):
        self.write("one\ntwo\n")
        position = self.follower().read()[1][1]
        second_follower = Follower(str(self.path), position, self.logged_lines.append, is_same_boot=False)
        self.assertEqual((second_follower.is_found, self.read(second_follower), self.logged_lines), (True, ["two"], []))

    def test_whether_the_position_is_found(self):
        self.write("one\ntwo\n")
        position = self.follower().read()[1][1]
        self.assertTrue(self.follower(position).is_found)
        self.assertFalse(self.follower().is_found)
        self.path.write_text("one")
        self.assertFalse(self.follower(position).is_found)
        self.path.unlink()
        follower_of_gone = Follower(str(self.path), position, self.logged_lines.append, is_same_boot=False)
        self.assertEqual((follower_of_gone.is_found, follower_of_gone.position), (False, NO_POSITION))

    def test_a_file_that_is_truncated(self):
        """What is left of it is not read again."""
        for left_bytes in ("", "a\n", "a\nb"):
            self.setUp()
            follower = self.follower()
            self.write("a\nb\nhalf")
            self.read(follower)
            os.truncate(self.path, len(left_bytes))
            self.assertEqual(self.read(follower), [])
            self.write("\nc\n")
            self.assertEqual(self.read(follower)[-1], "c")
            self.assert_logged("file truncated, continuing at its end")

    def test_an_incomplete_line_that_is_truncated(self):
        """Such as NUL bytes, which the start of the gateway removes."""
        for left_bytes in (0, 2):
            self.setUp()
            follower = self.follower()
            self.write("a\nb\nha" + "\0" * 100)
            self.assertEqual(self.read(follower), ["a", "b"])
            os.truncate(self.path, 4 + left_bytes)
            self.assertEqual(self.read(follower), [])
            self.write("\nc\n")
            self.assertEqual(self.read(follower), ["ha"[:left_bytes], "c"])
            self.assertEqual(self.logged_lines, [])

    def test_a_long_line_at_the_end_of_a_file_that_was_truncated(self):
        follower = self.follower()
        self.write("a\n" + "x" * (3 * MAX_READ) + "\n")
        self.read(follower)
        size = 2 + 2 * MAX_READ
        os.truncate(self.path, size)
        self.assertEqual((self.read(follower), follower.position.offset), ([], size))
        self.write("x\nb\n")
        self.assertEqual(self.read(follower), ["x", "b"])

    def test_nul_bytes(self):
        """A line that follows them is read. If there is none, they are an invalid line."""
        self.write("a\n" + "\0" * 5000 + "b\nc\0\0d\n\0\0\ne\n")
        self.assertEqual(self.read(self.follower()), ["a", "b", "d", "\0\0", "e"])

    def test_a_link_a_pipe_or_a_folder_in_place_of_the_file(self):
        other_path = self.path.with_name("other")
        other_path.write_text("x\n")
        for make, reason in ((lambda path: path.symlink_to(other_path), "it is a symbolic link"),
                             (os.mkfifo, "it is not a regular file"), (os.mkdir, "it is not a regular file")):
            with self.subTest(reason):
                self.path.unlink()
                make(self.path)
                follower = self.follower()
                self.assertEqual((self.read(follower), follower.fault), ([], reason))
                self.assertIsNone(position_at_end(str(self.path)))
                self.path.rmdir() if self.path.is_dir() else self.path.unlink()
                self.assertEqual(self.read(follower), [])
                self.write("a\n")
                self.assertEqual(self.read(follower), ["a"])

    def test_lines_that_could_not_be_read(self):
        """They may be old when they can be read."""
        self.write("old\n")
        follower = self.follower()
        with mock.patch("os.open", side_effect=PermissionError(13, "Permission denied")):
            self.assertEqual((self.read(follower), follower.fault), ([], "Permission denied"))
            self.write("old\nha")
        self.assertEqual(self.read(follower), [])
        self.write("lf\nnew\n")
        self.assertEqual(self.read(follower), ["half", "new"])
        self.assertEqual(self.logged_lines, [f"{self.path}: can be read now, continuing at its end"])

    def test_a_link_a_pipe_or_a_folder_in_place_of_a_rotated_file(self):
        other_path = self.path.with_name("other")
        other_path.write_text("x\n")
        self.write("a\nb\n")
        position = self.follower().read()[1][1]
        for name_end, make in ((".4", lambda path: path.symlink_to(other_path)), (".3", os.mkfifo), (".1", os.mkdir)):
            make(self.path.with_name(self.path.name + name_end))
        follower = self.follower(position)
        self.assertEqual(self.read(follower), ["b"])
        self.rotate(".2")
        self.write("c\n")
        self.assertEqual(self.read(follower), ["c"])

    def test_a_turn_without_lines_does_not_list_the_folder(self):
        """It asks the system for the size of the file, for new bytes, and whether the file still has its name."""
        self.write("a\n")
        follower = self.follower()
        self.read(follower)
        call_names = []
        with mock.patch("enogate_lines.follow.os", CountedCalls(call_names)):
            for _ in range(3):
                follower.read()
        self.assertEqual(len(call_names) / 3, 4, call_names)
        self.assertLess(set(call_names), {"fstat", "pread", "lstat"} | {"path"})

    def test_a_line_without_its_end(self):
        follower = self.follower()
        self.write("half")
        self.read(follower)
        self.rotate()
        self.write("b\n")
        self.assertEqual(self.read(follower), ["b"])
        self.assert_logged("incomplete line ignored: b'half'")

    def test_a_line_of_two_megabytes(self):
        follower = self.follower()
        self.write("x" * (2 * MAX_READ + 10))
        lines = [line for _ in range(6) for line, _ in follower.read()]
        self.assertTrue(lines and all(len(line) <= 2 * MAX_READ for line in lines))
        self.assertLessEqual(len(follower.partial_line), MAX_READ)
        self.write("\nb\n")
        self.assertEqual(self.read(follower)[-1], "b")

    def test_a_next_file_that_cannot_be_opened(self):
        follower = self.follower()
        self.write("a\n")
        self.read(follower)
        self.rotate()
        self.write("b\n")
        with mock.patch("os.open", side_effect=PermissionError(13, "Permission denied")):
            for _ in range(5):
                self.assertEqual(self.read(follower, 2), [])
                self.assertTrue(follower.is_at_end)
        self.assert_logged(f"cannot open {self.path}: Permission denied; retrying")
        self.assertEqual(self.read(follower), ["b"])

    def test_lines_after_the_end_was_seen(self):
        follower = self.follower()
        self.write("a\n")
        self.read(follower)
        rotated_path = self.rotate()
        self.write("d\n")
        lines = []
        for text in ("b\n", "c\n"):
            lines += self.read(follower, 1)
            self.write(text, rotated_path)
            lines += self.read(follower, 1)
        self.assertEqual(lines + self.read(follower), ["b", "c", "d"])

    def test_an_old_position_and_a_broken_link(self):
        self.write("a\nb\n")
        follower = self.follower()
        position = follower.read()[1][1]
        self.rotate()
        (self.path.parent / "hall.lines.2").symlink_to("nowhere")
        self.write("c\n")
        self.assertEqual(self.read(self.follower(position)), ["b", "c"])

    def test_a_folder_with_a_pattern_in_its_name(self):
        folder = self.path.parent / "a[b]"
        folder.mkdir()
        self.path = folder / "hall.lines"
        follower = self.follower()
        self.write("a\n")
        self.read(follower)
        position = follower.position
        self.write("b\n", self.rotate())
        self.write("c\n")
        self.assertEqual(self.read(follower), ["b", "c"])
        self.assertEqual(self.read(self.follower(position)), ["b", "c"])
        self.assertEqual(self.logged_lines, [])

    def test_files_are_closed(self):
        descriptor_count = len(os.listdir("/proc/self/fd"))
        follower = self.follower()
        for number in range(5):
            self.write(f"{number}\n")
            self.read(follower)
            self.rotate(f".{9 - number}")
        self.write("x\n")
        self.read(follower)
        follower.close()
        follower.close()
        self.assertEqual(len(os.listdir("/proc/self/fd")), descriptor_count)

    def test_the_end_of_a_file(self):
        for text in ("", "a\n", "x" * 100 + "\nhalf"):
            self.path.write_text(text)
            position = position_at_end(str(self.path))
            self.assertEqual(position, Position(self.path.stat().st_ino, len(text), text[-64:].encode()))
            self.write("b\n")
            self.assertEqual(self.read(self.follower(position)), ["b"])
        self.path.unlink()
        self.assertIsNone(position_at_end(str(self.path)))

    def test_the_end_of_a_file_that_grows_meanwhile(self):
        """What was written after the end was noted is new, and what was there before it is not read again."""
        original_pread = os.pread

        def grows(*arguments):
            self.write("new\n")
            return original_pread(*arguments)
        for old_text in ("", "a\n", "x" * 100 + "\n"):
            self.path.write_text(old_text)
            with mock.patch("enogate_lines.follow.os.pread", grows):
                position = position_at_end(str(self.path))
            self.assertEqual((position.offset, position.last), (len(old_text), old_text[-64:].encode()))
            self.assertEqual(self.read(self.follower(position)), ["new"])
        self.assertEqual(self.logged_lines, [])

    def test_the_names_of_rotated_files(self):
        for name_end in (".2", ".10", "-20261127", "-20261126", ".1.gz", ".bak"):
            self.write("x\n", self.path.with_name(self.path.name + name_end))
        ends = [path.removeprefix(str(self.path)) for path in rotated_files(str(self.path))]
        self.assertEqual(ends, ["-20261126", "-20261127", ".10", ".2", ""])


if __name__ == "__main__":
    unittest.main()
