"""Backups of a running gateway."""
from __future__ import annotations

import datetime
import os
import pathlib
import stat
import tarfile
import tempfile
import unittest
from unittest import mock

from enogate_ctl import backup
from enogate_ctl.backup import write_backup
from enogate_lines.contents import Listed
from enogate_tools import gateways
from fakes import TimeLimitedTest

DEVICES = [Listed("01800ABC", "D5-00-01", "=Door", 70)]
CSV = b"id,eep,label\n01800ABC,D5-00-01,'=Door\n"
DAY = datetime.datetime(2026, 12, 1, 0, 30)
TODAY = "hall-2026-12-01.tar.gz"


class GatewayBackups(TimeLimitedTest):
    def setUp(self):
        self.root = pathlib.Path(self.enterContext(tempfile.TemporaryDirectory()))
        self.folder, self.settings = self.root / "backups", self.root / "default"
        self.folder.mkdir()
        self.settings.mkdir()
        self.enterContext(mock.patch.object(gateways, "SETTINGS_FOLDER", str(self.settings)))

    def write(self, now=DAY):
        return write_backup(str(self.folder), "hall", DEVICES, now.timestamp())

    def put(self, *names):
        for name in names:
            (self.folder / name).write_text("kept")

    def names(self):
        return sorted(os.listdir(self.folder))

    def contents(self, name=TODAY):
        """The contents of the files in an archive, by their names without the directory of the test."""
        with tarfile.open(self.folder / name) as archive:
            self.assertEqual({(one.mode, one.mtime) for one in archive}, {(0o644, DAY.timestamp())})
            return {one.name.removeprefix(f"{str(self.settings)[1:]}/"): archive.extractfile(one).read()
                    for one in archive}

    def test_devices_and_settings(self):
        """Those of the gateway, its bridge and its Modbus server, and of no other one."""
        for end in ("", "-hall", "-mqtt", "-mqtt-hall", ".modbus", ".modbus-hall", "-attic", "-mqtt-attic",
                    ".modbus-attic", "-hall.dpkg-old"):
            (self.settings / f"enogate{end}").write_text(f"# {end}\n")
        self.assertEqual(self.write(), (str(self.folder / TODAY), False))
        self.assertEqual(self.contents(), {
            "devices.csv": CSV, "enogate": b"# \n", "enogate-hall": b"# -hall\n", "enogate-mqtt": b"# -mqtt\n",
            "enogate-mqtt-hall": b"# -mqtt-hall\n", "enogate.modbus": b"# .modbus\n",
            "enogate.modbus-hall": b"# .modbus-hall\n"})
        self.assertEqual(self.names(), [TODAY])

    def test_the_names_of_settings(self):
        """An archive that is extracted at the root puts them where they were."""
        with mock.patch.object(gateways, "SETTINGS_FOLDER", "/etc/default"), \
                mock.patch("builtins.open", mock.mock_open(read_data=b"BASE=\n")) as opened:
            self.write()
        with tarfile.open(self.folder / TODAY) as archive:
            self.assertEqual(archive.getnames(), ["devices.csv", *(f"etc/default/enogate{end}" for end in (
                "", "-hall", "-mqtt", "-mqtt-hall", ".modbus", ".modbus-hall"))])
        self.assertEqual({call.args[1] for call in opened.call_args_list}, {"rb"})

    def test_settings_that_may_not_be_read(self):
        """There is no backup without them."""
        (self.settings / "enogate-hall").mkdir()
        with self.assertRaises(IsADirectoryError) as raised:
            self.write()
        self.assertEqual((raised.exception.filename, self.names()), (f"{self.settings}/enogate-hall", []))

    def test_no_settings(self):
        self.write()
        self.assertEqual(self.contents(), {"devices.csv": CSV})

    def test_the_mode(self):
        for mask in (0o077, 0):
            before = os.umask(mask)
            self.addCleanup(os.umask, before)
            self.write()
            self.assertEqual(stat.S_IMODE((self.folder / TODAY).stat().st_mode), 0o640)

    def test_the_backup_of_the_same_day_is_replaced(self):
        self.put(TODAY)
        before = (self.folder / TODAY).stat().st_ino
        self.assertEqual(self.write(), (str(self.folder / TODAY), True))
        self.assertEqual((self.contents(), self.names()), ({"devices.csv": CSV}, [TODAY]))
        self.assertNotEqual((self.folder / TODAY).stat().st_ino, before)

    def test_old_backups_are_deleted(self):
        """Those of the last 30 days that have one are kept, also if the gateway did not run each day, with what is left
        of those that were interrupted."""
        left = ".0123456789abcdef"
        old = ["hall-2026-09-01.tar.gz", "hall-2025-12-01.tar.gz", f"hall-2026-09-01.tar.gz{left}"]
        days = [f"hall-2026-{day}.tar.gz" for day in ("09-02", *(f"11-{number:02}" for number in range(3, 31)))]
        kept = [*days, f"{days[0]}{left}", f"{TODAY}{left}", "hall-2025-12-01.db", "hall-2025-12-01.tar.gz.bak",
                "xhall-2025-12-01.tar.gz", "attic-2025-12-01.tar.gz", "hall-2025-99-01.tar.gz",
                "hall-2025-12-99.tar.gz", "hall-2025-1-1.tar.gz", f"hall-2025-12-01.tar.gz{left}0",
                "hall-2-2025-12-01.tar.gz", "hall-2025-12-01xtar.gz"]
        self.put(*old, *kept)
        (self.folder / "hall-2025-12-02.tar.gz").mkdir()
        (self.folder / "hall-2025-12-03.tar.gz").symlink_to(self.folder / kept[0])
        self.assertEqual(self.write(), (str(self.folder / TODAY), False))
        self.assertEqual(self.names(), sorted([*kept, TODAY, "hall-2025-12-02.tar.gz", "hall-2025-12-03.tar.gz"]))

    def test_a_wrong_clock(self):
        """One that was set back or forward names a day that counts as one, and deletes no other backup."""
        days = [f"hall-2026-11-{number:02}.tar.gz" for number in range(1, 31)]
        self.put(*days)
        for _ in range(2):
            self.write(datetime.datetime(1970, 2, 1))
            self.assertEqual(self.names(), ["hall-1970-02-01.tar.gz", *days])
        self.write(datetime.datetime(2037, 2, 1))
        self.assertEqual(self.names(), [*days[1:], "hall-2037-02-01.tar.gz"])
        self.write()
        self.assertEqual(self.names(), [*days[2:], TODAY, "hall-2037-02-01.tar.gz"])

    def test_files_of_other_users(self):
        """They are neither replaced nor deleted, and their dates delete no backup."""
        self.put("hall-2025-12-01.tar.gz", "hall-9999-12-31.tar.gz", "hall-2026-11-30.tar.gz")
        with mock.patch.object(backup.os, "geteuid", return_value=os.geteuid() + 1):
            self.write()
        self.assertEqual(self.names(), [
            "hall-2025-12-01.tar.gz", "hall-2026-11-30.tar.gz", TODAY, "hall-9999-12-31.tar.gz"])
        self.put(TODAY)
        with mock.patch.object(backup.os, "geteuid", return_value=os.geteuid() + 1):
            self.assert_not_own()
        self.assertEqual((self.folder / TODAY).read_text(), "kept")

    def test_a_link_in_place_of_the_backup(self):
        other = self.root / "other"
        other.write_text("kept")
        (self.folder / TODAY).symlink_to(other)
        self.assert_not_own()
        self.assertEqual((other.read_text(), os.readlink(self.folder / TODAY)), ("kept", str(other)))

    def assert_not_own(self):
        with self.assertRaises(OSError) as raised:
            self.write()
        self.assertEqual((raised.exception.filename, raised.exception.strerror),
                         (TODAY, "it is not a file of this user"))

    def test_a_link_in_place_of_the_temporary_file(self):
        other = self.root / "other"
        other.write_text("kept")
        with mock.patch.object(backup.os, "urandom", return_value=bytes(8)):
            (self.folder / f"{TODAY}.{16 * '0'}").symlink_to(other)
            self.assertRaises(FileExistsError, self.write)
        self.assertEqual(other.read_text(), "kept")

    def test_a_failure_leaves_the_earlier_backup(self):
        """And no temporary file, whichever call fails; nor does it delete an old one."""
        self.put(TODAY, "hall-2025-12-01.tar.gz")
        for call in ("fchmod", "fsync", "rename"):
            with mock.patch.object(backup.os, call, side_effect=OSError(28, "No space left on device")):
                self.assertRaises(OSError, self.write)
            self.assertEqual((self.names(), (self.folder / TODAY).read_text()),
                             (["hall-2025-12-01.tar.gz", TODAY], "kept"), call)

    def test_everything_is_synced(self):
        """The file with all of its bytes before it gets its name, and the directory after that."""
        calls = []

        def sync(file, real=os.fsync):
            calls.append(("sync", stat.S_ISDIR(os.fstat(file).st_mode), os.fstat(file).st_size))
            real(file)

        def rename(*words, real=os.rename, **more):
            calls.append(("rename", words[1]))
            real(*words, **more)

        with mock.patch.object(backup.os, "fsync", sync), mock.patch.object(backup.os, "rename", rename):
            self.write()
        size = (self.folder / TODAY).stat().st_size
        self.assertEqual(calls[:2], [("sync", False, size), ("rename", TODAY)])
        self.assertEqual([call[:2] for call in calls[2:]], [("sync", True)])

    def test_a_directory_that_is_replaced_meanwhile(self):
        """All files are those of the directory that was opened."""
        other = self.root / "other"
        other.mkdir()
        (other / "hall-2025-12-01.tar.gz").touch()
        days = [f"hall-2026-11-{number:02}.tar.gz" for number in range(1, 31)]
        self.put("hall-2025-12-01.tar.gz", *days)

        def scan(directory, real=os.scandir):
            self.folder.rename(self.root / "moved")
            self.folder.symlink_to(other)
            return real(directory)

        with mock.patch.object(backup.os, "scandir", scan):
            self.write()
        self.assertEqual((os.listdir(other), sorted(os.listdir(self.root / "moved"))),
                         (["hall-2025-12-01.tar.gz"], [*days[1:], TODAY]))

    def test_no_descriptor_is_left_open(self):
        before = len(os.listdir("/proc/self/fd"))
        self.write()
        with mock.patch.object(backup.os, "rename", side_effect=OSError(28, "")):
            self.assertRaises(OSError, self.write)
        self.assertEqual(len(os.listdir("/proc/self/fd")), before)


if __name__ == "__main__":
    unittest.main()
