"""The command line of the program, and what it reports."""
import contextlib
import errno
import io
import os
import unittest
from unittest import mock

from enogate_building import main
from enogate_building.main import parse_arguments, stick_at
from enogate_building.radio import Place


def printed(function, *arguments):
    """What is printed on both outputs, and the exit status."""
    with contextlib.redirect_stderr(io.StringIO()) as text, contextlib.redirect_stdout(text):
        try:
            status = function(*arguments)
        except SystemExit as end:
            status = end.code
    return text.getvalue(), status


class CommandLineTest(unittest.TestCase):
    def test_sticks(self):
        for text, name, place in (("hall:2,3,0", "hall", Place(2, 3, 0)),
                                  ("a-1:-20,1234,-1", "a-1", Place(-20, 1234, -1))):
            self.assertEqual(stick_at(text), (name, place))
            self.assertEqual(parse_arguments(["--stick", text, "house"]).stick, [(name, place)])

    def test_what_is_no_stick(self):
        for text in ("hall", "hall:", "hall:2,3", "hall:2,3,0,1", "hall:2,3,EG", ":2,3,0", "../a:1,1,1", "mqtt:1,1,1",
                     "", "hall:2.5,3,0", "hall:\u0662,3,0", "hall:1,1,100", "a:b:1,1,1"):
            output, status = printed(parse_arguments, ["--stick", text, "house"])
            self.assertEqual(status, 2)
            self.assertTrue(output.endswith(
                f"argument --stick: {text!r} is not NAME:X,Y,FLOOR, such as ground:7,6,0\n"), output)


class FaultsTest(unittest.TestCase):
    """What the program reports at faults of the system. No socket is connected."""

    def run_main(self, *arguments):
        with mock.patch("sys.argv", ["virtual-building", *arguments]):
            return printed(main.main)

    def test_a_command_without_a_building(self):
        for fault in (errno.ENOENT, errno.EACCES, errno.ECONNREFUSED):
            with mock.patch("socket.socket") as socket_class:
                socket_class.return_value.__enter__.return_value.connect_ex.return_value = fault
                text = f"/run/house/control: {os.strerror(fault)}: no building of this user runs there"
                self.assertEqual(self.run_main("/run/house", "noise"), (f"virtual-building: {text}\n", 1))

    def test_errors_of_files_and_sockets(self):
        """Each names its file."""
        self.assertEqual(self.run_main("--sheet", "/none/sheet.csv", "house"),
                         ("virtual-building: [Errno 2] No such file or directory: '/none/sheet.csv'\n", 1))
        with mock.patch.object(main, "run", side_effect=PermissionError(errno.EACCES, "Permission denied")):
            self.assertEqual(self.run_main("/run/house"),
                             ("virtual-building: [Errno 13] Permission denied: /run/house\n", 1))


if __name__ == "__main__":
    unittest.main()
