"""The state file."""
import pathlib
import sqlite3
import unittest
from unittest import mock

from enogate_lines.follow import Position
from enogate_mqtt.devices import Device
from enogate_mqtt.store import Store
from fakes import LogTest, BridgeFixture

POSITION = Position(7, 42, b"x\n")


class StateFile(LogTest):
    def setUp(self):
        super().setUp()
        self.path = BridgeFixture(self).state
        self.device = Device("01800ABC", "D5-00-01", "Door", 70, {"CO": "open", "dbm": "-45"})

    def open(self, discovery="homeassistant"):
        return Store(str(self.path), discovery)

    def test_a_new_file(self):
        store = self.open()
        self.assertEqual((store.position, store.devices, store.removed_topics, store.old_discovery),
                         (None, [], set(), "homeassistant"))

    def test_what_was_saved_is_read(self):
        other_device = Device("01800ABD", "A5-02-05")
        known_devices = {"01800ABC": self.device, "01800ABD": other_device}
        self.assertTrue(self.open().save(POSITION, list(known_devices), known_devices, {"a/b"}))
        store = self.open("other")
        self.assertEqual((store.position, store.removed_topics, store.old_discovery),
                         (POSITION, {"a/b"}, "homeassistant"))
        self.assertEqual(sorted(store.devices, key=lambda device: device.name), [self.device, other_device])

    def test_changes(self):
        store = self.open()
        store.save(POSITION, ["01800ABC"], {"01800ABC": self.device}, {"a", "b"})
        store.save(Position(8, 1, b"y"), [], {}, {"b"})
        second_store = self.open()
        self.assertEqual((second_store.position, second_store.devices, second_store.removed_topics),
                         (Position(8, 1, b"y"), [self.device], {"b"}))
        second_store.save(POSITION, ["01800ABC"], {}, set())
        self.assertEqual((self.open().devices, self.open().removed_topics), ([], set()))

    def test_it_survives_a_power_failure(self):
        store = self.open()
        pragmas = [store.connection.execute(f"PRAGMA {name}").fetchone()[0] for name in ("journal_mode", "synchronous")]
        self.assertEqual(pragmas, ["wal", 1])

    def test_all_is_of_one_moment(self):
        store = self.open()
        store.save(POSITION, ["01800ABC"], {"01800ABC": self.device}, {"a"})
        with mock.patch.object(store, "save_device", side_effect=sqlite3.OperationalError("disk full")):
            self.assertFalse(store.save(Position(9, 9, b""), ["01800ABC"], {}, set()))
        second_store = self.open()
        self.assertEqual((second_store.position, second_store.devices, second_store.removed_topics),
                         (POSITION, [self.device], {"a"}))

    def test_a_failure_is_logged_once_and_what_failed_is_saved_later(self):
        store = self.open()
        with mock.patch.object(store, "save_device", side_effect=sqlite3.OperationalError("disk full")):
            for _ in range(3):
                self.assertFalse(store.save(POSITION, ["01800ABC"], {"01800ABC": self.device}, {"a"}))
        self.assert_logged("ERROR: cannot save the state: disk full")
        self.assertEqual(store.removed_topics, set())
        self.assertTrue(store.save(POSITION, ["01800ABC"], {"01800ABC": self.device}, {"a"}))
        self.assertEqual((self.open().devices, self.open().removed_topics), ([self.device], {"a"}))
        with mock.patch.object(store, "save_device", side_effect=sqlite3.OperationalError("disk full")):
            store.save(POSITION, ["01800ABC"], {}, set())
        self.assert_logged("cannot save the state", 2)

    def test_adoption(self):
        """Until the broker was asked for everything, its readings may be taken."""
        self.assertTrue(self.open().may_adopt)
        self.open().save(POSITION, [], {}, set(), True)
        self.assertTrue(self.open().may_adopt)
        self.open().save(POSITION, [], {}, set(), False)
        self.assertFalse(self.open().may_adopt)

    def test_a_learn_window(self):
        self.assertIsNone(self.open().learn_until)
        self.open().save(POSITION, [], {}, set(), False, 1_800_000_000.125)
        store = self.open()
        self.assertEqual((store.learn_until, store.position), (1_800_000_000.125, POSITION))
        self.assertTrue(store.save(POSITION, [], {}, set()))
        self.assertEqual((store.learn_until, self.open().learn_until), (None, None))
        with mock.patch.object(store, "save_device", side_effect=sqlite3.OperationalError("disk full")):
            store.save(POSITION, ["01800ABC"], {}, set(), False, 1.0)
        self.assertEqual((store.learn_until, self.open().learn_until), (None, None))

    def test_a_file_without_the_table_for_the_learn_window(self):
        """A file of this version may lack it: it was added without another version."""
        self.open().save(POSITION, ["01800ABC"], {"01800ABC": self.device}, {"a"})
        self.sql("DROP TABLE learn")
        store = self.open()
        self.assertEqual((store.position, store.devices, store.removed_topics, store.learn_until),
                         (POSITION, [self.device], {"a"}, None))
        self.assertTrue(store.save(POSITION, [], {}, set(), False, 1.0))
        self.assertEqual((self.open().learn_until, self.logged_lines), (1.0, []))

    def test_a_learn_window_of_another_form(self):
        for sql_value in ("NULL", "'soon'", "x'00'"):
            with self.subTest(sql_value):
                self.setUp()
                self.open()
                self.sql(f"INSERT INTO learn VALUES ({sql_value})")
                self.assert_replaced("learn window of an unknown form")

    def test_a_place_of_another_form(self):
        for values in ("NULL, 0, x''", "7, NULL, x''", "7, 0, NULL", "7, -1, x'00'", "7, 'x', x''", "7, 0, 'x'",
                       f"7, {2 ** 63 - 1}, x'00'"):
            with self.subTest(values):
                self.setUp()
                self.open()
                self.sql(f"INSERT INTO place VALUES ({values}, '', 0)")
                self.assert_replaced("place of an unknown form")

    def test_the_boot(self):
        """A position is of the same boot if its ID is the same, also if there is none."""
        for saved_boot, boot_now, is_same in (("a", "a", True), ("a", "b", False), ("a", "", False), ("", "", True),
                                              ("", "a", False)):
            with self.subTest(saved=saved_boot, now=boot_now):
                self.setUp()
                self.assertTrue(Store(str(self.path), "", saved_boot).save(POSITION, [], {}, set()))
                store = Store(str(self.path), "", boot_now)
                self.assertEqual((store.is_same_boot, store.position), (is_same, POSITION))
                store.save(POSITION, [], {}, set())
                self.assertTrue(Store(str(self.path), "", boot_now).is_same_boot)
                self.sql("DELETE FROM boot")
                self.assertEqual(Store(str(self.path), "", boot_now).is_same_boot, boot_now == "")

    def test_an_inode_that_is_too_large(self):
        self.assertFalse(self.open().save(Position(2 ** 64, 0, b""), [], {}, set()))
        self.assert_logged("cannot save the state")

    def test_topics_that_change_later(self):
        store, removed_topics = self.open(), {"a"}
        store.save(POSITION, [], {}, removed_topics)
        removed_topics.add("b")
        store.save(POSITION, [], {}, removed_topics)
        self.assertEqual(self.open().removed_topics, {"a", "b"})

    def assert_replaced(self, reason):
        store = self.open()
        self.assert_logged(f"WARNING: {self.path}: {reason}")
        self.assertEqual((store.position, store.devices), (None, []))
        store.save(POSITION, [], {}, set())
        self.assertEqual(self.open().position, POSITION)

    def test_a_file_that_is_no_database(self):
        self.path.write_text("something else" * 100)
        self.assert_replaced("file is not a database; replacing the file; its state is lost")

    def test_a_damaged_file(self):
        self.open().save(POSITION, ["01800ABC"], {"01800ABC": self.device}, set())
        connection = sqlite3.connect(self.path)
        connection.execute("PRAGMA wal_checkpoint(TRUNCATE)")
        connection.close()
        with self.path.open("r+b") as file:
            file.seek(100)
            file.write(b"\xff" * 8000)
        self.assert_replaced("")

    def test_a_damaged_file_with_a_log(self):
        """What a power failure may leave: a log of pages that belong to the damaged file."""
        store = self.open()
        store.save(POSITION, ["01800ABC"], {"01800ABC": self.device}, set())
        store.connection.execute("PRAGMA wal_checkpoint(TRUNCATE)")
        store.save(Position(8, 1, b"y"), [], {}, {"a"})
        bytes_by_end = {end: pathlib.Path(f"{self.path}{end}").read_bytes() for end in ("", "-wal")}
        store.connection.close()
        self.path.write_bytes(b"\xff" * 100 + bytes_by_end[""][100:])
        pathlib.Path(f"{self.path}-wal").write_bytes(bytes_by_end["-wal"])
        self.assertGreater(len(bytes_by_end["-wal"]), 1000)
        self.assert_replaced("file is not a database")

    def sql(self, text):
        connection = sqlite3.connect(self.path)
        connection.executescript(text)
        connection.close()

    def test_a_file_of_another_version(self):
        for version in (0, 1, 3):
            with self.subTest(version):
                self.setUp()
                self.sql(f"CREATE TABLE device (x); PRAGMA user_version = {version}")
                self.assert_replaced(f"version {version} of the state, expected 2")

    def test_tables_of_another_form(self):
        self.sql("CREATE TABLE device (x); PRAGMA user_version = 2")
        self.assert_replaced("no such column")

    def test_readings_of_another_form(self):
        long = f'{{"{"x" * 70_000}": ""}}'
        for readings in ("no JSON", "[]", '{"CO": 3}', "3", '{"CO": "\\ud800"}', '{"C/O": ""}', long):
            with self.subTest(readings[:40]):
                self.setUp()
                self.open()
                self.sql(f"INSERT INTO device VALUES ('01800ABC', 'D5-00-01', '', NULL, '{readings}')")
                self.assert_replaced("")

    def test_readings_of_each_form_are_kept(self):
        readings = {"CO": "open", "MR_l_s/0": "0.5", "OV/18446744073709551615": "1", "last_seen": "ä \U0001f600"}
        self.open().save(POSITION, ["01800ABC"], {"01800ABC": Device("01800ABC", "D5-00-01", last_readings=readings)},
                         set())
        self.assertEqual(self.open().devices[0].last_readings, readings)
        self.assertEqual(self.logged_lines, [])

    def test_a_file_that_cannot_be_opened_is_left(self):
        """The bridge runs without it, and says so once. When it can be opened, it gets the whole state."""
        self.path.mkdir()
        store = self.open()
        self.assertEqual((store.position, store.devices, store.removed_topics, store.may_adopt, store.learn_until),
                         (None, [], set(), True, None))
        for _ in range(3):
            self.assertFalse(store.save(POSITION, [], {"01800ABC": self.device}, {"a"}))
        self.assertEqual(self.logged_lines, [
            f"ERROR: {self.path}: unable to open database file; continuing without saving the state"])
        self.path.rmdir()
        self.assertTrue(store.save(POSITION, [], {"01800ABC": self.device}, {"a"}, False, 1.0))
        self.assertEqual(self.logged_lines[1:], [f"INFO: {self.path}: the state is saved again"])
        second_store = self.open()
        self.assertEqual((second_store.position, second_store.devices, second_store.removed_topics,
                          second_store.may_adopt, second_store.learn_until),
                         (POSITION, [self.device], {"a"}, False, 1.0))
        store.save(POSITION, ["01800ABC"], {}, set())
        self.assertEqual(self.open().devices, [])

    def full(self):
        """A file system that takes nothing more."""
        class FullDatabase(sqlite3.Connection):
            def executescript(self, _text):
                raise sqlite3.OperationalError("database or disk is full")
        original_connect = sqlite3.connect
        return mock.patch("sqlite3.connect", lambda *words, **named: original_connect(*words, factory=FullDatabase,
                                                                                      **named))

    def test_a_file_that_cannot_be_written_is_read(self):
        other_device = Device("01800ABD", "A5-02-05")
        known_devices = {"01800ABC": self.device, "01800ABD": other_device}
        self.open().save(POSITION, known_devices, known_devices, {"a"}, False, 1.0)
        with self.full():
            store = self.open()
            self.assertEqual((store.position, store.devices, store.removed_topics, store.may_adopt, store.learn_until),
                             (POSITION, [self.device, other_device], {"a"}, False, 1.0))
            self.assertFalse(store.save(POSITION, [], {}, set()))
        self.assertEqual(self.logged_lines, [
            f"ERROR: {self.path}: database or disk is full; continuing without saving the state"])
        self.assertTrue(store.save(Position(8, 1, b"y"), [], {"01800ABC": self.device}, set()))
        self.assertEqual((self.open().position, self.open().devices), (Position(8, 1, b"y"), [self.device]))

    def test_a_file_of_another_version_that_cannot_be_written(self):
        self.sql("CREATE TABLE device (x); PRAGMA user_version = 3")
        self.sql("CREATE TABLE place (x)")
        with self.full():
            store = self.open()
        self.assertEqual((store.position, store.devices), (None, []))

    def test_a_file_in_use_is_left(self):
        self.open().save(POSITION, [], {}, set())
        other_connection = sqlite3.connect(self.path, isolation_level=None)
        other_connection.execute("BEGIN EXCLUSIVE")
        with mock.patch("enogate_mqtt.store.LOCK_WAIT", 0):
            store = self.open()
            self.assertFalse(store.save(POSITION, [], {}, {"b"}))
        self.assert_logged("database is locked; continuing without saving the state")
        other_connection.close()
        self.assertEqual(self.open().position, POSITION)
        self.assertTrue(store.save(POSITION, [], {}, {"b"}))
        self.assertEqual(self.open().removed_topics, {"b"})


if __name__ == "__main__":
    unittest.main()
