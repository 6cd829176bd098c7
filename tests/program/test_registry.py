"""The registry of the built program in a file: over several starts, after a kill, while another start uses it, and in
databases that another program made."""
import subprocess
import threading
import unittest

from runs import ACCEPTED_LINE, ADD_ORDER, PROGRAM, READING_LINE, ROOT
from tables import CREATE_DEVICE_TABLE_1, CREATE_VERSION_TABLE, CREATE_DEVICE_TABLE_2
from testcase import RUN_TIMEOUT, EMPTY_INPUT, ProgramTest

CONTACT_SCRIPT = ROOT / "examples/contact.txt"
READING_PACKET_LINE = "S 55000707017AD50901800ABC0001FFFFFFFF2D001F\n"
LIST_OUTPUT = '{"eep":"D5-00-01","id":"01800ABC","label":"","maker":null,"type":"device"}\n{"count":1,"type":"list"}\n'
# SQL after which rows can be inserted that break the checks of a table, and such rows.
WITHOUT_CHECKS_SQL = f"PRAGMA ignore_check_constraints = ON; {CREATE_VERSION_TABLE};"
INVALID_DEVICE_ROWS = ("4294967295, 1, -1", "-1, 1, -1", "5, -5, -1", "5, 16777216, -1", "5, 1, 2048", "5, 1, -2")


def run_sqlite3(database, *texts):
    """The output of the stock sqlite3 for these texts."""
    program_words = ["sqlite3", "-bail", database, *texts]
    return subprocess.run(program_words, stdin=subprocess.DEVNULL, stdout=subprocess.PIPE, check=True).stdout.decode()


def run_backup(database, copy):
    """Runs contrib/enogate-backup, and returns its status and what it prints to standard error."""
    run = subprocess.run([ROOT / "contrib/enogate-backup", database, copy], capture_output=True)
    return run.returncode, run.stderr.decode()


class RegistryTest(ProgramTest):
    def setUp(self):
        super().setUp()
        self.database = self.work / "registry.db"

    def replay_with_registry(self, database, script=EMPTY_INPUT, **settings):
        """Replays this script with the registry in this file."""
        return self.run_replay("--db", database, script=script, **settings)


class RestartTest(RegistryTest):
    """The next start knows the devices that one start learned."""

    def test_a_second_start_knows_the_devices_of_the_first(self):
        self.assert_run(self.replay_with_registry(self.database, CONTACT_SCRIPT), ACCEPTED_LINE + READING_LINE)
        self.assert_run(
            self.replay_with_registry(self.database, "list\n" + READING_PACKET_LINE), LIST_OUTPUT + READING_LINE
        )

    def test_a_closed_registry_has_at_most_two_files(self):
        self.assert_run(self.replay_with_registry(self.database, CONTACT_SCRIPT), ACCEPTED_LINE + READING_LINE)
        self.assertLessEqual(len(list(self.work.glob("registry.db*"))), 2)

    def test_a_registry_in_memory_opens_no_file(self):
        opens = self.work / "opens"
        env = self.preload_environment("record_opens.c", RECORD_OPENS=opens)
        self.assert_run(self.run_replay(script=CONTACT_SCRIPT, env=env), ACCEPTED_LINE + READING_LINE)
        self.assertFalse(opens.exists())

    def test_a_registry_in_a_file_opens_that_file(self):
        opens = self.work / "opens"
        self.assert_run(self.replay_with_registry(self.database, CONTACT_SCRIPT), ACCEPTED_LINE + READING_LINE)
        env = self.preload_environment("record_opens.c", RECORD_OPENS=opens)
        self.assert_run(self.replay_with_registry(self.database, CONTACT_SCRIPT, env=env), ACCEPTED_LINE + READING_LINE)
        self.assertIn(f"{self.database} read-write", opens.read_text())


class KilledRunTest(RegistryTest):
    """A run learned a device, and goes on until the test kills it."""

    def setUp(self):
        super().setUp()
        self.copy = self.work / "copy.db"
        program_words = [PROGRAM, "replay", "--base", "FF800000", "--db", self.database]
        pipes = {"stdin": subprocess.PIPE, "stdout": subprocess.PIPE, "stderr": subprocess.DEVNULL}
        self.running = self.enterContext(subprocess.Popen(program_words, **pipes))
        self.addCleanup(self.running.kill)
        guard = threading.Timer(RUN_TIMEOUT, self.running.kill)
        self.addCleanup(guard.cancel)
        guard.start()
        self.running.stdin.write(ADD_ORDER.encode())
        self.running.stdin.flush()
        self.assertEqual(self.running.stdout.readline().decode(), ACCEPTED_LINE)

    def kill_program(self):
        self.running.kill()
        self.running.wait()

    def test_a_registry_that_another_start_uses(self):
        self.assert_fault(self.replay_with_registry(self.database), "store")

    def test_a_registry_in_use_is_not_copied(self):
        self.assertNotEqual(run_backup(self.database, self.copy)[0], 0)
        self.assertFalse(self.copy.exists())

    def test_a_start_after_a_kill_knows_what_was_answered(self):
        self.kill_program()
        self.assert_run(self.replay_with_registry(self.database, "list\n"), LIST_OUTPUT)

    def test_a_copy_after_a_kill_has_what_was_answered(self):
        self.kill_program()
        self.assertEqual(run_backup(self.database, self.copy), (0, ""))
        self.assert_run(self.replay_with_registry(self.copy, "list\n"), LIST_OUTPUT)
        self.assert_run(self.replay_with_registry(self.database, "list\n"), LIST_OUTPUT)


class DatabasePathsTest(RegistryTest):
    def test_paths_that_are_no_registry(self):
        for path in (self.work / "no/folder.db", ":memory:", ""):
            with self.subTest(path=path):
                self.assert_fault(self.replay_with_registry(path), "store")

    def test_a_file_that_is_no_database(self):
        text = self.write_file("text.db", (ROOT / "docs/guide/orders.md").read_bytes()[:5000])
        self.assert_fault(self.replay_with_registry(text), "store")


class ForeignDatabasesTest(RegistryTest):
    """Databases that another program made."""

    def assert_refused(self, fault, statements):
        """The database that these statements make is refused, and its file keeps each byte."""
        self.database.unlink(missing_ok=True)
        run_sqlite3(self.database, statements)
        bytes_before = self.database.read_bytes()
        self.assert_fault(self.replay_with_registry(self.database), fault)
        self.assertEqual(self.database.read_bytes(), bytes_before)

    def test_missing_tables_and_a_later_version(self):
        """Each is refused before the paths of `live` are opened, and left as it is."""
        missing_path, new_path = self.work / "none", self.work / "new"
        paths = ["--base", "FF800000", "--serial", missing_path, "--desk", missing_path, "--out", new_path, "--turns",
                 "1"]
        for name, statements in (
            ("one", f"{CREATE_VERSION_TABLE}; INSERT INTO enogate_meta VALUES (1, 2);"),
            ("nine", f"{CREATE_VERSION_TABLE}; {CREATE_DEVICE_TABLE_2}; INSERT INTO enogate_meta VALUES (1, 9);"),
        ):
            with self.subTest(database=name):
                database = self.work / f"{name}.db"
                run_sqlite3(database, statements)
                dump_before = run_sqlite3(database, ".dump")
                self.assert_fault(self.replay_with_registry(database), "not a registry")
                self.assert_fault(self.run_program("live", *paths, "--db", database), "not a registry")
                self.assertEqual(run_sqlite3(database, ".dump"), dump_before)

    def test_rows_of_version_2_that_break_the_checks(self):
        """SQLite itself opens no file with such rows."""
        statements = f"{CREATE_DEVICE_TABLE_2}; INSERT INTO enogate_meta VALUES (1, 2); INSERT INTO enogate_device_v2"
        for row in INVALID_DEVICE_ROWS:
            with self.subTest(row=row):
                self.assert_refused("store", f"{WITHOUT_CHECKS_SQL} {statements} VALUES ({row}, '');")

    def test_rows_of_version_1_that_break_the_checks(self):
        statements = f"{CREATE_DEVICE_TABLE_1}; INSERT INTO enogate_meta VALUES (1, 1); INSERT INTO enogate_device"
        for row in INVALID_DEVICE_ROWS:
            with self.subTest(row=row):
                self.assert_refused("store", f"{WITHOUT_CHECKS_SQL} {statements} VALUES ({row});")

    def test_wrong_version_rows(self):
        for rows in ("(2, 2)", "(1, 2), (2, 2)"):
            with self.subTest(rows=rows):
                self.assert_refused(
                    "store", f"{WITHOUT_CHECKS_SQL} {CREATE_DEVICE_TABLE_2}; INSERT INTO enogate_meta VALUES {rows};"
                )

    def test_a_trigger_on_a_table_of_a_registry(self):
        trigger = "CREATE TRIGGER by_device AFTER INSERT ON enogate_device_v2 BEGIN DELETE FROM enogate_meta; END;"
        self.assert_refused(
            "not a registry",
            f"{CREATE_VERSION_TABLE}; {CREATE_DEVICE_TABLE_2}; INSERT INTO enogate_meta VALUES (1, 2); {trigger}",
        )

    def test_the_stock_sqlite3_reads_a_closed_registry(self):
        """It finds exactly the two tables. One device was learned, and got a label. The second one was removed by
        another start."""
        first_script = 'add 01800ABC D5-00-01\nadd 00000001 D5-00-01\nlabel 00000001 Door "A"\n'
        self.replay_with_registry(self.database, first_script)
        self.replay_with_registry(self.database, "remove 01800ABC\n")
        query_output = run_sqlite3(
            self.database,
            "SELECT type, name, sql FROM sqlite_schema ORDER BY rowid",
            "SELECT k, version FROM enogate_meta",
            "SELECT id, eep, maker, label FROM enogate_device_v2 ORDER BY id",
            "PRAGMA integrity_check",
        )
        tables = f"table|enogate_meta|{CREATE_VERSION_TABLE}\ntable|enogate_device_v2|{CREATE_DEVICE_TABLE_2}\n"
        self.assertEqual(query_output, tables + '1|2\n1|13959169|-1|Door "A"\nok\n')


if __name__ == "__main__":
    unittest.main()
