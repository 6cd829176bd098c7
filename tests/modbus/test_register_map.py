"""The register map: its rows stay as they are, also after a power failure, and a damaged map is refused."""
from __future__ import annotations

import os
import unittest.mock

from enogate_modbus import register_map as register_map_module
from enogate_mqtt.settings import WrongSetting
from modbus_testcase import MapTest

HEAD = "register,output,topic,unit,label,model\n"
CLIMATE = "0,,01800ABC/TMP,°C,,\n"
LAMP = "4,1,01800ABD/OV/0,,,\n"
# The calls of the system with which a file is replaced, in their order.
CALLS = ("open", "fsync", "rename", "fsync of directory")


class PowerFailure(BaseException):
    """The computer stops at this call."""


class Rows(MapTest):
    def test_the_first_rows_are_sorted(self):
        self.open_map()
        self.add(["01800ABD/OV/0", "01800ABC/TMP"])
        self.assertEqual(self.path.read_text(), HEAD + CLIMATE + LAMP)
        self.assertEqual(self.map.topics, ["01800ABC/TMP", "01800ABD/OV/0"])

    def test_rows_are_only_added(self):
        self.open_map()
        self.add(["01800ABC/TMP", "01800ABD/OV/0"])
        self.add(["01800AAA/POS/0", "01800ABC/TMP"])
        text = HEAD + CLIMATE + LAMP + "8,2,01800AAA/POS/0,,,\n"
        self.assertEqual(self.path.read_text(), text)
        self.open_map()
        self.add(["01800ABD/OV/0", "01800AAA/ANG/0"])
        self.assertEqual(self.path.read_text(), text + "12,,01800AAA/ANG/0,%,,\n")

    def test_units(self):
        self.open_map()
        self.add(["01800ABC/MR_l_s/0", "01800ABC/SVC", "01800ABC/EL/0"])
        self.assertEqual(self.path.read_text(), HEAD + "0,,01800ABC/EL/0,,,\n4,,01800ABC/MR_l_s/0,L/s,,\n"
                         "8,,01800ABC/SVC,V,,\n")

    def test_nothing_is_served_before_it_is_due(self):
        self.open_map()
        self.map.add("01800ABC/TMP")
        self.clock.now += register_map_module.WRITE_EVERY - 0.1
        self.map.turn()
        self.assertEqual((self.map.topics, self.path.exists()), ([], False))
        self.clock.now += 0.1
        self.map.turn()
        self.assertEqual((self.map.topics, self.path.exists()), (["01800ABC/TMP"], True))
        self.clock.now += 0.1
        self.map.add("01800ABC/HUM")
        self.map.turn()
        self.assertEqual(self.map.topics, ["01800ABC/TMP"])

    def test_an_empty_map_is_no_file(self):
        self.open_map()
        self.pass_time()
        self.assertFalse(self.path.exists())

    def test_the_file_is_written_only_if_it_changes(self):
        self.open_map()
        self.add(["01800ABC/TMP"])
        before = self.path.stat().st_ino
        self.add(["01800ABC/TMP"])
        self.assertEqual(self.path.stat().st_ino, before)

    def test_every_user_may_read_it(self):
        self.addCleanup(os.umask, os.umask(0o077))
        self.open_map()
        self.add(["01800ABC/TMP"])
        self.assertEqual(self.path.stat().st_mode & 0o777, 0o644)

    def test_labels(self):
        """They follow those of the gateway. Without one, the last one stays."""
        self.open_map()
        self.readings.labels["01800ABC"] = ("'=1, \"a\"", "Sensor (A5-02-05)")
        self.add(["01800ABC/TMP", "01800ABD/OV/0"])
        row = "0,,01800ABC/TMP,°C,\"'=1, \"\"a\"\"\",Sensor (A5-02-05)\n"
        self.assertEqual(self.path.read_text(), HEAD + row + LAMP)
        self.new_readings()
        self.open_map()
        self.add(["01800ABC/HUM"])
        added = row.replace("0,,", "8,,").replace("TMP,°C", "HUM,%")
        self.assertEqual(self.path.read_text(), HEAD + row + LAMP + added)
        self.readings.labels["01800ABD"] = ("Lamp", "Switch")
        self.pass_time()
        self.assertEqual(self.path.read_text(), HEAD + row + "4,1,01800ABD/OV/0,,Lamp,Switch\n" + added)

    def test_a_full_map(self):
        with unittest.mock.patch.object(register_map_module, "MAX_READINGS", 2):
            self.open_map()
            self.add(["01800ABC/TMP", "01800ABD/OV/0"])
            self.add(["01800AAA/TMP", "01800ABC/TMP"])
            self.assertEqual(self.path.read_text(), HEAD + CLIMATE + LAMP)
            self.assertEqual(self.logged_lines, ["WARNING: all registers are in use: 01800AAA/TMP gets none"])
            self.open_map()
        self.assertEqual(register_map_module.MAX_READINGS, 16384)


class DamagedFiles(MapTest):
    def assert_refused(self, content: str | bytes, reason: str) -> None:
        self.path.write_bytes(content if isinstance(content, bytes) else content.encode())
        with self.assertRaisesRegex(WrongSetting, f"^{reason}") as refusal:
            self.open_map()
        self.assertNotIn("\n", str(refusal.exception))
        self.assertIn(str(self.path), str(refusal.exception))

    def test_rows(self):
        second = "4,,01800ABC/HUM,%,,\n"
        for rows, number in (
            (CLIMATE * 2, 2), (CLIMATE + "4,,01800ABC/TMP,°C,,\n", 2), (second + CLIMATE, 1), (second, 1),
            (CLIMATE + "8,,01800ABC/HUM,%,,\n", 2), (CLIMATE + "0,,01800ABC/HUM,%,,\n", 2),
            ("00,,01800ABC/TMP,°C,,\n", 1), ("0,0,01800ABC/TMP,°C,,\n", 1), (CLIMATE + "4,,01800ABD/OV/0,,,\n", 2),
            (CLIMATE + "4,0,01800ABD/OV/0,,,\n", 2), (CLIMATE + "4,2,01800ABD/OV/0,,,\n", 2), ("\n", 1),
            ("0,,01800ABC/XXX,°C,,\n", 1), ("0,,1800ABC/TMP,°C,,\n", 1), ("0,,01800ABC/TMP,°C,\n", 1),
            ("0,,01800ABC/TMP,°C,,,\n", 1), ("0,,\n", 1), ("0,,01800ABC/press,,,\n", 1),
            ("-4,,01800ABC/TMP,°C,,\n", 1), (" 0,,01800ABC/TMP,°C,,\n", 1), ("0,,01800ABC/TMP ,°C,,\n", 1),
            (CLIMATE + HEAD, 2),
        ):
            with self.subTest(rows):
                self.assert_refused(HEAD + rows, f"damaged register map .*: row {number} was not written like this$")

    def test_head_and_end(self):
        for content in (HEAD.replace("topic", "reading") + CLIMATE, CLIMATE, "\ufeff" + HEAD + CLIMATE,
                        HEAD + CLIMATE[:-1], HEAD[:-1], (HEAD + CLIMATE)[:-3], ";".join(HEAD.split(","))):
            self.assert_refused(content, "damaged register map .*: its first line, its end or its length is wrong$")

    def test_a_file_that_cannot_be_read(self):
        for content in ("", b"\xff\xfe", HEAD + '"', HEAD + '"a"b,\n', HEAD.encode() + b"\0\n" + b"x" * 10):
            self.assert_refused(content, "(cannot read the|damaged) register map ")

    def test_too_many_rows(self):
        rows = "".join(f"{4 * number},,{number:08X}/TMP,°C,,\n" for number in range(16385))
        self.assert_refused(HEAD + rows, "damaged register map")
        self.path.write_text(HEAD + rows.rsplit("\n", 2)[0] + "\n")
        self.assertEqual(len(self.open_map().topics), 16384)

    def test_too_long(self):
        with unittest.mock.patch.object(register_map_module, "MAX_LENGTH", len(HEAD + CLIMATE)):
            self.path.write_text(HEAD + CLIMATE)
            self.open_map()
            self.assert_refused(HEAD + CLIMATE.replace("°C", "°C1"), "damaged register map")
            self.assert_refused(HEAD + CLIMATE + LAMP, "damaged register map")

    def test_no_file_of_its_own(self):
        """No link is followed, and a pipe is not waited for."""
        self.path.with_name("other").write_text(HEAD + CLIMATE)
        for make in (lambda: self.path.symlink_to("other"), lambda: os.mkfifo(self.path), self.path.mkdir):
            make()
            with self.assertRaisesRegex(WrongSetting, "cannot read the register map"):
                self.open_map()
            self.path.rmdir() if self.path.is_dir() else self.path.unlink()

    def test_line_ends_of_another_system(self):
        self.path.write_bytes((HEAD + CLIMATE).replace("\n", "\r\n").encode())
        self.assertEqual(self.open_map().topics, ["01800ABC/TMP"])


class Failures(MapTest):
    """One of the calls fails with which a file is replaced, or the computer stops there."""

    def setUp(self) -> None:
        super().setUp()
        self.open_map()
        self.add(["01800ABC/TMP"])
        self.calls: list[str] = []

    def add_with_failure(self, failing_call: str, failure: BaseException) -> None:
        """Adds a reading. This call fails."""
        real_calls = {name: getattr(os, name) for name in ("open", "fsync", "rename")}

        def patched(name):
            def call(*arguments, **keywords):
                is_file_call = name != "open" or ".csv." in str(arguments[0])
                called = "fsync of directory" if name == "fsync" and "rename" in self.calls else name
                if is_file_call:
                    self.calls.append(called)
                    if called == failing_call:
                        raise failure
                return real_calls[name](*arguments, **keywords)
            return unittest.mock.patch.object(os, name, call)

        self.calls.clear()
        with patched("open"), patched("fsync"), patched("rename"):
            self.add(["01800ABD/OV/0"])

    def test_the_order_of_the_calls(self):
        self.add_with_failure("", OSError())
        self.assertEqual(tuple(self.calls), CALLS)
        self.assertEqual(self.map.topics, ["01800ABC/TMP", "01800ABD/OV/0"])

    def test_a_call_fails(self):
        for failing_call in CALLS:
            self.add_with_failure(failing_call, OSError(28, "No space left on device"))
            self.assertEqual(self.map.topics, ["01800ABC/TMP"], failing_call)
        self.assert_logged(f"WARNING: cannot write {self.path}: No space left on device: new readings get no", 4)
        self.pass_time()
        self.assertEqual(self.path.read_text(), HEAD + CLIMATE + LAMP)
        self.assertEqual(self.map.topics, ["01800ABC/TMP", "01800ABD/OV/0"])

    def test_a_power_failure(self):
        """The next start finds the earlier rows or, after the file was renamed, also those that were not served yet."""
        for failing_call in CALLS:
            self.path.write_text(HEAD + CLIMATE)
            self.open_map()
            with self.assertRaises(PowerFailure):
                self.add_with_failure(failing_call, PowerFailure())
            self.assertEqual(self.map.topics, ["01800ABC/TMP"])
            is_renamed = failing_call == "fsync of directory"
            self.assertEqual(self.path.read_text(), HEAD + CLIMATE + (LAMP if is_renamed else ""), failing_call)
            self.open_map()
            self.add(["01800ABE/TMP"])
            self.assertEqual(self.map.topics.index("01800ABC/TMP"), 0)

    def test_a_part_of_a_temporary_file_is_not_read(self):
        self.path.with_name("hall.csv.0123456789abcdef").write_text(HEAD[:9])
        self.assertEqual(self.open_map().topics, ["01800ABC/TMP"])
