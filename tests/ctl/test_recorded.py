"""The learned devices as the lines record them."""
import contextlib
import io
import json
import random
import sqlite3
import unittest
from datetime import datetime, timezone
from unittest import mock

from enogate_ctl import main as program, recent, recorded
from enogate_ctl.client import UnreadableLines
from enogate_lines.follow import position_at_end
from enogate_mqtt.devices import Device
from enogate_mqtt.state import last_seen
from enogate_mqtt.store import Store
from fakes import OK, GatewayFilesTest, TimeLimitedTest, device, end_of_list, packet, reading, status, teach

SEEN = datetime(2026, 11, 28, 12, 0, 0, tzinfo=timezone.utc)


class RecordedDevices(GatewayFilesTest):
    def found(self):
        """The label and the profile of each device."""
        return {one.device: (one.label, one.eep) for one in recorded.recorded_devices(self.paths)}

    def test_the_last_list(self):
        self.write(device("01800AB1", "Old"), end_of_list(1), reading("01800AB9"), device("01800ABC", "Door"),
                   device("01800ABD"), end_of_list(2), status(), OK, packet("read"), "{", "half")
        self.assertEqual(self.found(), {"01800ABC": ("Door", "D5-00-01"), "01800ABD": ("", "D5-00-01")})

    def test_what_was_taught_after_it(self):
        self.write(teach("01800AB0"), device("01800ABC", "Door"), device("01800ABD", "Lamp"), end_of_list(2),
                   teach("01800ABC", "F6-02-01"), teach("01800ABD", result="deleted"), teach("01800AB1"),
                   teach("01800AB2"), teach("01800AB2", result="deleted"), teach("01800AB3", result="full"),
                   teach("01800AB4", result="deleted"), teach("01800AB4"))
        self.assertEqual(self.found(), {"01800AB1": ("", "D5-00-01"), "01800AB4": ("", "D5-00-01"),
                                        "01800ABC": ("Door", "F6-02-01")})
        self.assertEqual(list(self.found()), ["01800AB1", "01800AB4", "01800ABC"])

    def test_a_device_that_was_deleted_and_learned_again_has_no_label(self):
        self.write(device("01800ABC", "Door"), end_of_list(1))
        self.write(teach("01800ABC", result="deleted"), teach("01800ABC"))
        self.assertEqual(self.found(), {"01800ABC": ("", "D5-00-01")})

    def test_an_incomplete_list_does_not_count(self):
        """A full disk has lost a line. What was taught since the list before it counts."""
        self.write(device("01800ABC", "Door"), end_of_list(1), teach("01800ABD"), device("01800ABC", "New"),
                   end_of_list(2))
        self.assertEqual(self.found(), {"01800ABC": ("Door", "D5-00-01"), "01800ABD": ("", "D5-00-01")})

    def test_no_device(self):
        self.write(device("01800ABC"), end_of_list(1), end_of_list(0))
        self.assertEqual(self.found(), {})

    def test_no_list(self):
        self.write(teach("01800ABC"), device("01800ABC"), status())
        for act in (lambda: None, self.lines.unlink):
            act()
            with self.assertRaises(UnreadableLines) as why:
                recorded.recorded_devices(self.paths)
            self.assertEqual(str(why.exception),
                             f"no list of the devices is in the lines {self.lines}: give the order `list` once")

    def test_lines_that_cannot_be_read(self):
        with mock.patch("os.open", side_effect=PermissionError(13, "Permission denied")):
            with self.assertRaisesRegex(UnreadableLines, "cannot be read: Permission denied; become root, or a member "
                                        "of the group enogate"):
                recorded.recorded_devices(self.paths)

    def test_a_list_that_was_rotated(self):
        self.write(device("01800ABC", "Door"))
        self.lines.rename(self.folder / "hall.lines.1")
        self.write(end_of_list(1), teach("01800ABD"))
        self.assertEqual(set(self.found()), {"01800ABC", "01800ABD"})

    def test_a_list_far_back(self):
        """It is found behind many lines, but not further back than a limit."""
        self.write(device("01800ABC", "Door"), end_of_list(1), *[reading("01800ABC")] * 20000)
        self.assertGreater(self.lines.stat().st_size, 2 * recent.BLOCK)
        self.assertEqual(set(self.found()), {"01800ABC"})
        with mock.patch.object(recorded, "MAX_SEARCHED_BYTES", 1000):
            self.assertRaises(UnreadableLines, recorded.recorded_devices, self.paths)

    def run_command(self, *options):
        """The exit status and what is printed."""
        out = io.StringIO()
        with mock.patch("sys.stdout", out), mock.patch.object(program, "StopSignals"), \
                mock.patch("enogate_ctl.command_line.paths_of", return_value=self.paths):
            return program.main([*options, "hall", "devices"]), out.getvalue()

    def bridge(self, *names):
        """A bridge that runs, and has heard these devices."""
        store = Store(str(self.state), "")
        self.addCleanup(store.connection.close)
        state = {"last_seen": SEEN.isoformat(timespec="seconds")}
        devices = {name: Device(name, "D5-00-01", "", None, state) for name in names}
        store.save(position_at_end(str(self.lines)), names, devices, set())

    def test_json(self):
        self.write(device("01800ABC", 'A "b"'), device("01800ABD"), end_of_list(2))
        self.bridge("01800ABD")
        status, out = self.run_command("--json")
        members = {"dbm": None, "eep": "D5-00-01", "maker": None, "readings": [], "type": "device"}
        self.assertEqual((status, [json.loads(line) for line in out.splitlines()]), (0, [
            {**members, "id": "01800ABC", "label": 'A "b"', "seen": None},
            {**members, "id": "01800ABD", "label": "", "seen": 1795867200}, end_of_list(2)]))

    def test_text(self):
        self.write(device("01800ABC", "Door"), device("01800ABD", "Lamp"), end_of_list(2))
        status, out = self.run_command()
        self.assertEqual((status, [line.split()[:2] for line in out.splitlines()[1:]]),
                         (0, [["Door", "01800ABC"], ["Lamp", "01800ABD"]]))

    def test_a_state_that_is_missing_or_locked(self):
        """The first one is not created, and the other one is waited for."""
        self.assertIsNone(last_seen(str(self.state)))
        self.assertFalse(self.state.exists())
        with mock.patch.object(sqlite3, "connect", side_effect=sqlite3.OperationalError("locked")) as connect:
            self.assertIsNone(last_seen(str(self.state)))
        self.assertEqual(connect.call_args.kwargs, {"uri": True, "timeout": 1.0})

    def test_a_damaged_state_of_the_bridge(self):
        self.write(device("01800ABC"), end_of_list(1))
        self.bridge("01800ABC")
        with contextlib.closing(sqlite3.connect(self.state)) as connection, connection:
            connection.execute("UPDATE place SET offset = -1, last = x'00'")
        self.assertEqual(recent.last_seen_times(str(self.state), str(self.lines)), {})

    def test_the_last_readings_are_in_json(self):
        """Also those before a rotation, but not those of another profile."""
        closed, opened = ([{"name": "CO", "word": word}] for word in ("closed", "open"))
        self.write(reading("01800ABC", readings=opened, dbm=-50), reading("01800ABD", readings=closed, dbm=None),
                   reading("01800ABE", "F6-02-01"))
        self.lines.rename(self.folder / "hall.lines.1")
        self.write(reading("01800ABC", readings=closed, dbm=-60), device("01800ABC"), device("01800ABD"),
                   device("01800ABE"), device("01800ABF"), end_of_list(4))
        shown = [json.loads(line) for line in self.run_command("--json")[1].splitlines()[:-1]]
        self.assertEqual([(members["dbm"], members["readings"]) for members in shown],
                         [(-60, closed), (None, closed), (None, []), (None, [])])

    def test_json_has_the_last_telegram_of_all_channels(self):
        states = [[{"name": "IO", "raw": channel}] for channel in (0, 1, 0)]
        self.write(*(reading("01800ABC", "D2-01-12", state) for state in states), device("01800ABC", eep="D2-01-12"),
                   end_of_list(1))
        self.assertEqual(json.loads(self.run_command("--json")[1].splitlines()[0])["readings"], states[2])

    def test_lines_with_nul_bytes(self):
        """A power failure may leave them. A line after them counts."""
        opened = [{"name": "CO", "word": "open"}]
        learned, last = (json.dumps(line, separators=(",", ":"))
                         for line in (device("01800ABC", "Door"), reading("01800ABC", readings=opened)))
        self.write("\0\0\n" + "\0" * 5000 + learned, end_of_list(1), "x\0\0", "\0" + last, "\0\0")
        self.assertEqual(self.found(), {"01800ABC": ("Door", "D5-00-01")})
        self.assertEqual(json.loads(self.run_command("--json")[1].splitlines()[0])["readings"], opened)

    def test_for_people(self):
        self.write(device("01800ABC", "Door"), end_of_list(1))
        self.assertEqual(self.run_command(), (0, "LABEL  ID        PROFILE   NAME\n"
                                              "Door   01800ABC  D5-00-01  Contact\n"))

    def test_nothing_is_written(self):
        self.write(device("01800ABC", "Door"), end_of_list(1))
        before = self.lines.read_bytes()
        self.run_command()
        self.assertEqual((self.desk.read_bytes(), self.lines.read_bytes()), (b"", before))


class LinesBackwards(TimeLimitedTest):
    """The lines of a file from its end."""

    def test_they_are_those_of_the_text(self):
        chance = random.Random(1)
        for _ in range(3000):
            text = bytes(chance.choice(b"ab\n\n") for _ in range(chance.randrange(30)))
            start = chance.randrange(len(text) + 1)
            wanted = text[start:].split(b"\n")[-2::-1]
            for size in (1, 2, 7, 100):
                with mock.patch.object(recent, "BLOCK", size):
                    found = list(recent.lines_backwards(io.BytesIO(text), len(text), start))
                self.assertEqual(found, wanted, (text, start, size))


if __name__ == "__main__":
    unittest.main()
