"""What people see: words, tables, and what was received last."""
import contextlib
import json
import os
import pathlib
import sqlite3
import unittest
from datetime import datetime, timedelta, timezone
from unittest import mock

from enogate_ctl import recent, words
from enogate_ctl.answers import Answer, parse_line
from enogate_ctl.device_table import device_table
from enogate_ctl.readings import readings_text
from enogate_ctl.shown import shown
from enogate_ctl.tables import table
from enogate_lines.entities import Table
from enogate_lines.follow import Position, position_at_end
from enogate_mqtt.devices import Device
from enogate_mqtt.store import Store
from fakes import OK, GatewayFilesTest, TimeLimitedTest, call_within
from fakes import device, end_of_list, packet, reading, status, teach

GUIDE = pathlib.Path(__file__).parents[2] / "docs" / "guide"
NOW = datetime(2026, 11, 28, 12, 0, 0, tzinfo=timezone.utc)
TEMPERATURE = [{"den": 51, "name": "TMP", "num": 1024, "unit": "C"}]


def lines_of(*members):
    return [parse_line(json.dumps(one).encode()) for one in members]


class TextsForPeople(TimeLimitedTest):
    def test_advice(self):
        self.assertTrue(words.advice("full").startswith("full: 1,000 devices are learned"))
        self.assertEqual(words.advice("new"), "new")

    def test_readings(self):
        for eep, members, text in (
            ("D5-00-01", [{"name": "CO", "word": "closed"}], "Contact closed"),
            ("A5-02-05", TEMPERATURE, "Temperature 20.08 °C"),
            ("A5-02-05", [{"den": 2, "name": "TMP", "num": -1, "unit": "C"}], "Temperature -0.5 °C"),
            ("A5-02-05", [{"den": 1, "name": "TMP", "num": 100, "unit": "C"}], "Temperature 100 °C"),
            ("A5-12-01", [{"den": 10, "name": "MR", "num": 123456785, "unit": "kWh"}, {"name": "TI", "raw": 3}],
             "Energy 12345678.5 kWh"),
            ("F6-02-01", [{"name": "R1", "word": "BI"}, {"name": "EB", "word": "pressed"}],
             "Rocker BI, Button pressed"),
            ("F6-02-02", [{"name": "R1", "word": "BI"}, {"name": "EB", "word": "pressed"},
                          {"name": "R2", "word": "A0"}],
             "Rocker BI, Button pressed, Second rocker A0"),
            ("F6-02-01", [{"name": "buttons", "word": "none"}, {"name": "EB", "word": "released"}], "Button released"),
            ("A5-07-01", [{"den": 1, "name": "SVC", "num": 3, "unit": "V"}, {"name": "PIRS", "word": "on"}],
             "Supply voltage 3 V, Motion on"),
            ("D2-01-0F", [{"name": "PF", "raw": 0}, {"name": "EL", "word": "ok"}, {"name": "IO", "raw": 0},
                          {"den": 1, "name": "OV", "num": 100, "unit": "%"}], "Output 100 %"),
            ("D2-01-12", [{"name": "PF", "raw": 0}, {"name": "IO", "raw": 1},
                          {"den": 1, "name": "OV", "num": 30, "unit": "%"}], "channel 1: Output 30 %"),
            ("D2-01-12", [{"den": 1, "name": "OV", "num": 30, "unit": "%"}], "Output 30 %"),
            ("D2-01-02", [{"name": "IO", "raw": 0}, {"den": 1, "name": "OV", "num": 30, "unit": "%"}], "Output 30 %"),
            ("A5-04-01", [{"name": "HUM", "out_of_range": 251}], "Humidity out_of_range"),
            ("A5-12-01", [{"name": "TI", "raw": 3}], "Tariff 3"),
            ("D2-01-0F", [{"name": "LC", "raw": 1}], "Local control 1"),
            ("D2-01-0F", [{"name": "PFD", "raw": 1}, {"name": "OC", "raw": 0}, {"name": "EL", "word": "failure"},
                          {"name": "OV", "word": "not_applicable"}],
             "Power failure 1, Error level failure, Output not_applicable"),
            ("D2-05-00", [{"den": 1, "name": "POS", "num": 50, "unit": "%"}, {"name": "LOCK", "raw": 0}],
             "Position 50 %"),
            ("A5-10-03", [{"name": "NEW", "raw": 1}], "NEW 1"),
        ):
            with self.subTest(text):
                telegram, = lines_of(reading("01800ABC", eep, members))
                self.assertEqual(readings_text(telegram.content, Table()), text)

    def test_ages(self):
        for seconds, text in ((-5, "0 s ago"), (0.9, "0 s ago"), (59.9, "59 s ago"), (60, "1 min ago"),
                              (3599, "59 min ago"), (3600, "1 h ago"), (86399, "23 h ago"), (86400, "1 d ago"),
                              (900000, "10 d ago")):
            self.assertEqual(words.age(seconds), text)

    def test_results_of_teaching(self):
        for line, text in (
            (teach("01800ABC"), "01800ABC learned, D5-00-01 (Contact)"),
            (teach("01800ABC", result="deleted"), "01800ABC deleted"),
            (teach("01800ABC", "A5-99-01"), "01800ABC learned, A5-99-01"),
            (teach("01800ABC", None, None, "no_profile"),
             "01800ABC not learned: it does not send its profile; use `learn as EEP`"),
            (teach("01800ABC", result="full"), "01800ABC not learned: 1,000 devices are learned"),
            (teach("01800ABC", result="new"), "01800ABC new"), (OK, None), (packet("accepted"), None),
            ({"type": "teach", "result": 3}, None), ({"type": "other", "result": "accepted"}, None),
        ):
            self.assertEqual(words.teach_result_text(*lines_of(line)), text)

    def test_control_characters(self):
        self.assertEqual(words.printable("a\x1b[2J\n\x7f°C"), "a?[2J??°C")


class TextTables(TimeLimitedTest):
    def test_columns(self):
        rows = [("A", "LONG", "EMPTY", "C"), ("aaa", "x", "", ""), ("", "", "", "c")]
        self.assertEqual(table(rows), "A    LONG  C\naaa  x\n           c")
        self.assertEqual(table([("A", "B")]), "A  B")

    def test_the_widest_columns_are_cut(self):
        rows = [("LABEL", "ID", "NAME"), ("Living room, left", "01800ABC", "Electronic switch, 2 channels"),
                ("Door", "01800ABD", "Contact")]
        whole = table(rows)
        self.assertEqual(max(map(len, whole.splitlines())), 58)
        for most in (0, 58, 59, 500):
            self.assertEqual(table(rows, most), whole)
        self.assertEqual(table(rows, 57).splitlines()[1], "Living room, left  01800ABC  Electronic switch, 2 chann..")
        self.assertEqual(table(rows, 40), """\
LABEL           ID        NAME
Living room,..  01800ABC  Electronic s..
Door            01800ABD  Contact""")

    def test_no_column_is_narrower_than_an_id(self):
        rows = [("A", "ID", "PROFILE"), ("x" * 9, "01800ABC", "D5-00-01")]
        for most in (28, 27, 5, 1):
            self.assertEqual(table(rows, most).splitlines()[1], "xxxxxx..  01800ABC  D5-00-01")
        self.assertEqual(table(rows, 29).splitlines()[1], "xxxxxxxxx  01800ABC  D5-00-01")
        self.assertEqual(table([("A", "B"), ("abc", "d")], 1), "A    B\nabc  d")


class AnswerTexts(GatewayFilesTest):
    def shown(self, *lines):
        return device_table(Answer(lines_of(*lines)).devices, self.paths, NOW)

    def test_short_answers(self):
        deleted = teach("01800ABC", result="deleted")
        for line, text in ((OK, "ok"), (teach("01800ABC"), "accepted"), (deleted, "deleted")):
            self.assertEqual(shown(Answer(lines_of(line))), text)
        answer = Answer(lines_of(status("as F6-02-01", readings=12)))
        self.assertEqual(shown(answer), "learn window  as F6-02-01\nignored       0\n"
                         "readings      12\nrefused       0\nresponses     0\nteach         0")
        self.assertEqual(self.shown(end_of_list(0)), "no device is learned")

    def test_a_list(self):
        self.write(reading("01800ABC"), reading("01800ABD", "A5-02-05", TEMPERATURE, None), reading("01800ABE"))
        save_bridge_state(self, "01800ABC", NOW - timedelta(minutes=5))
        # no label that a gateway writes has control characters
        self.enterContext(mock.patch("enogate_lines.contents.OPTIONAL_TEXT_PATTERN", ".*"))
        self.assertEqual(self.shown(device("01800ABC", "Do\x1bor"), device("01800ABD", eep="A5-02-05"),
                                    device("01800ABE", eep="F6-02-01"), end_of_list(3)), """\
LABEL  ID        PROFILE   NAME                      LAST READINGS         SIGNAL   LAST SEEN
Do?or  01800ABC  D5-00-01  Contact                   Contact closed        -45 dBm  5 min ago
       01800ABD  A5-02-05  Temperature sensor        Temperature 20.08 °C
       01800ABE  F6-02-01  Rocker switch, 2 rockers                        -45 dBm""")

    def test_each_channel(self):
        """Of the present profile, in the sequence of their numbers. The signal is that of the last telegram."""
        def state(channel, output, eep="D2-01-12", dbm=-50):
            return reading("01800ABC", eep, [{"name": "IO", "raw": channel},
                                             {"den": 1, "name": "OV", "num": output, "unit": "%"}], dbm)

        def shown(eep="D2-01-12"):
            return self.shown(device("01800ABC", eep=eep), end_of_list(1)).splitlines()[1].split("channels")[-1].strip()
        self.write(state(1, 5), state(1, 100), state(0, 0, dbm=-60))
        self.assertEqual(shown(), "channel 0: Output 0 %, channel 1: Output 100 %  -60 dBm")
        self.write(state(1, 7, dbm=None))
        self.assertEqual(shown(), "channel 0: Output 0 %, channel 1: Output 7 %")
        # A telegram of another profile came later.
        self.write(state(0, 3, "D2-01-10"))
        self.assertEqual((shown(), shown("D2-01-10")), ("-50 dBm", "channel 0: Output 3 %  -50 dBm"))

    def test_the_width(self):
        listed = Answer(lines_of(device("01800ABC", "x" * 32), end_of_list(1))).devices
        self.assertEqual(device_table(listed, self.paths, NOW, 40).splitlines()[1],
                         "xxxxxxxxx..  01800ABC  D5-00-01  Contact")
        self.assertIn("x" * 32, device_table(listed, self.paths, NOW))

    def test_columns_without_a_source_are_left_out(self):
        self.assertEqual(self.shown(device("01800ABC"), end_of_list(1)),
                         "ID        PROFILE   NAME\n01800ABC  D5-00-01  Contact")


def save_bridge_state(test, name, time, position=None):
    """Saves the state of a running bridge that has received this device at this time, and has read the lines to their
    end. Returns its store, which is open."""
    store = Store(str(test.state), "")
    test.addCleanup(store.connection.close)
    reported = {"CO": "closed", "last_seen": time.isoformat(timespec="seconds")}
    devices = {device: Device(device, "D5-00-01", "", None, readings)
               for device, readings in ((name, reported), ("01800AFF", {}))}
    store.save(position or position_at_end(str(test.lines)), list(devices), devices, set())
    return store


class RecentTelegrams(GatewayFilesTest):
    def test_the_last_telegram(self):
        self.write(reading("01800ABC", dbm=-50), reading("01800ABD"), reading("01800ABC", dbm=-60), "{", OK,
                   '{"x":1,"type":"reading"}', '{"dbm":-99,"half')
        found = recent.last_reports(str(self.lines))
        self.assertEqual({name: telegram.dbm for name, [(telegram, _)] in found.items()},
                         {"01800ABC": -60, "01800ABD": -45})

    def append_readings(self, path, *names):
        """Lines as the gateway writes them."""
        path.write_text("".join(json.dumps(reading(name, dbm=-10 - number), separators=(",", ":")) + "\n"
                                for number, name in enumerate(names)))
        return path.stat().st_size // len(names)

    def test_only_the_end_is_read(self):
        size = self.append_readings(self.lines, "01800AB1", "01800AB2", "01800AB3")
        for most, names in ((3 * size, {"01800AB1", "01800AB2", "01800AB3"}), (3 * size - 5, {"01800AB2", "01800AB3"}),
                            (size + 5, {"01800AB3"}), (5, set())):
            self.assertEqual(recent.last_reports(str(self.lines), most).keys(), names, most)
        self.assertEqual(recent.MAX_READ_BYTES, 1 << 20)

    def test_rotated_files(self):
        size = self.append_readings(self.folder / "hall.lines.2", "01800AB1")
        self.append_readings(self.folder / "hall.lines.1", "01800AB2", "01800AB1")
        self.append_readings(self.lines, "01800AB3")
        path = str(self.lines)
        self.assertEqual(list(recent.last_reports(path)), ["01800AB3", "01800AB1", "01800AB2"])
        self.assertEqual(recent.last_reports(path)["01800AB1"][0][0].dbm, -11)
        self.assertEqual(list(recent.last_reports(path, 2 * size + 5)), ["01800AB3", "01800AB1"])
        self.assertEqual(list(recent.last_reports(path, size)), ["01800AB3"])
        self.lines.unlink()
        self.assertEqual(list(recent.last_reports(path)), ["01800AB1", "01800AB2"])

    def test_rotated_files_that_are_none(self):
        """A pipe would hold up the command for good, and a link of either kind may lead to a file that only root may
        read."""
        self.append_readings(self.folder / "other", "01800AB9")
        (self.folder / "hall.lines.3").hardlink_to(self.folder / "other")
        (self.folder / "hall.lines.2").symlink_to(self.folder / "other")
        os.mkfifo(self.folder / "hall.lines.1")
        self.append_readings(self.lines, "01800AB1")
        self.assertEqual(call_within(10, lambda: list(recent.last_reports(str(self.lines)))), ["01800AB1"])

    def test_a_state_that_is_no_file(self):
        self.append_readings(self.lines, "01800ABC")
        for name in ("bridge.db", "bridge.db-wal"):
            save_bridge_state(self, "01800ABC", NOW)
            self.assertEqual(self.times(), {"01800ABC": NOW})
            for make in (os.mkfifo, lambda path: path.symlink_to(self.folder / "moved")):
                path = self.folder / name
                path.rename(self.folder / "moved")
                make(path)
                # SQLite would wait for good, whatever signal comes
                with mock.patch("sqlite3.connect", side_effect=AssertionError("it is opened")):
                    self.assertEqual(self.times(), {}, path)
                path.unlink()
                (self.folder / "moved").rename(path)

    def times(self, most=recent.MAX_READ_BYTES):
        return recent.last_seen_times(str(self.state), str(self.lines), most)

    def test_times(self):
        self.assertEqual(self.times(), {})
        store = save_bridge_state(self, "01800ABC", NOW)
        self.assertEqual(self.times(), {"01800ABC": NOW})
        store.connection.close()
        self.assertEqual(self.times(), {})

    def test_a_place_that_is_lost(self):
        self.append_readings(self.lines, "01800ABC")
        save_bridge_state(self, "01800ABC", NOW, Position(1, 5, b"lost"))
        self.assertEqual(self.times(), {})

    def test_what_the_bridge_has_not_read_yet(self):
        self.append_readings(self.lines, "01800ABC")
        save_bridge_state(self, "01800ABC", NOW)
        with self.lines.open("a") as file:
            file.write('{"type":"ok"}\n' + json.dumps(reading("01800ABD"), separators=(",", ":")) + "\n")
        self.assertEqual(self.times(), {"01800ABC": NOW})
        self.assertEqual(self.times(20), {})
        with self.lines.open("a") as file:
            file.write(json.dumps(reading("01800ABC"), separators=(",", ":")) + "\n")
        self.assertEqual(self.times(), {})

    def test_only_so_much_is_read_after_the_place(self):
        self.append_readings(self.lines, *["01800ABC"] * 50)
        start = Position(self.lines.stat().st_ino, 0, b"")
        with mock.patch("enogate_lines.follow.MAX_READ", 500), \
                mock.patch.object(recent.Follower, "read", autospec=True, side_effect=recent.Follower.read) as read:
            self.assertIsNone(recent.devices_after(start, str(self.lines), 900))
            self.assertLess(read.call_count, 5)
            self.assertEqual(recent.devices_after(start, str(self.lines), 9000), {"01800ABC"})

    def test_a_state_that_is_damaged_or_none(self):
        save_bridge_state(self, "01800ABC", NOW)
        with contextlib.closing(sqlite3.connect(self.state)) as connection, connection:
            connection.execute("UPDATE device SET told = '3'")
        self.assertEqual(self.times(), {})
        self.state.write_bytes(b"x" * 5000)
        self.assertEqual(self.times(), {})

    def test_files_are_closed(self):
        self.append_readings(self.lines, "01800ABC")
        before = len(os.listdir("/proc/self/fd"))
        start = Position(self.lines.stat().st_ino, 0, b"")
        self.assertEqual(recent.devices_after(start, str(self.lines), 999), {"01800ABC"})
        recent.last_reports(str(self.lines))
        self.assertEqual(len(os.listdir("/proc/self/fd")), before)


if __name__ == "__main__":
    unittest.main()
