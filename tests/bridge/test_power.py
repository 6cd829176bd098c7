"""What the bridge publishes after a power failure: it has lost the end of the lines, of the state, or of both."""
import json
import os
import random
import re
import shutil
import unittest
from unittest import mock

from enogate_lines.follow import Follower, ignore_message
from enogate_mqtt.store import Store
from fakes import OK, LogTest, BridgeFixture, listing, reading

TOPIC_ROOT = "enogate/hall/"
HISTORIES = 30
PRESS = reading("01800AC1", "F6-02-01", [{"name": "R1", "word": "BI"}, {"name": "EB", "word": "pressed"}])
RELEASE = reading("01800AC1", "F6-02-01", [{"name": "R1", "word": "none"}, {"name": "EB", "word": "released"}])


def contact_reading(word):
    return reading("01800ABC", "D5-00-01", [{"name": "CO", "word": word}])


class PowerFailures(LogTest):
    """The bridge has published a press, and then two readings of a contact."""

    def setUp(self):
        super().setUp()
        self.fixture = BridgeFixture(self)
        self.fixture.write_lines(*listing(("01800ABC", "D5-00-01", "Door"), ("01800AC1", "F6-02-01", "Switch")))
        self.connect()
        self.fixture.write_lines(PRESS, contact_reading("closed"))
        self.fixture.run_turns(30)
        self.bytes_before_last = self.fixture.lines.stat().st_size
        self.fixture.write_lines(contact_reading("open"))
        self.fixture.run_turns(30)
        self.assertEqual(len(self.lines()), 3)

    def connect(self):
        self.fixture.start()
        self.fixture.broker.accept_connection()
        self.fixture.run_turns(30)

    def lose_power(self):
        """Ends the bridge. The next one is started at another boot."""
        self.fixture.kill()
        self.fixture.boot = "another boot"

    def set_back_position(self, offset, boot="a boot"):
        """The state file gets an older position."""
        follower = Follower(str(self.fixture.lines), None, ignore_message)
        positions = [position for _, position in follower.read()]
        store = Store(str(self.fixture.state), self.fixture.topics.discovery, boot)
        known_devices = {device.name: device for device in store.devices}
        older = next(position for position in positions if position.offset == offset)
        self.assertTrue(store.save(older, [], known_devices, set()))
        store.close()

    def lines(self):
        return [text for _, text in self.fixture.published(TOPIC_ROOT + "lines")]

    def assert_nothing_old(self):
        """Nothing that was written before the failure is published, and what comes after it is."""
        self.connect()
        self.assertEqual((self.lines(), self.fixture.published(TOPIC_ROOT + "01800AC1/press")), ([], []))
        self.fixture.write_lines(PRESS, OK)
        self.fixture.run_turns(30)
        self.assertEqual(self.lines(), [json.dumps(PRESS), json.dumps(OK)])
        topic = TOPIC_ROOT + "01800AC1/press"
        self.assertEqual(self.fixture.published(topic), [(topic, '{"event_type":"BI"}')])

    def state(self):
        return self.fixture.broker.memory[TOPIC_ROOT + "01800ABC/CO"]

    def test_the_lines_have_lost_more_than_the_state(self):
        for size in (0, 1, 100, self.bytes_before_last - 1, self.bytes_before_last, self.bytes_before_last + 10):
            with self.subTest(size):
                self.setUp()
                self.lose_power()
                os.truncate(self.fixture.lines, size)
                self.fixture.write_lines("")
                self.assert_nothing_old()
                self.assertEqual(self.state(), "open")

    def test_the_last_lines_are_nul_bytes(self):
        for ends_with_lf in (False, True):
            with self.subTest(ends_with_lf):
                self.setUp()
                self.lose_power()
                with self.fixture.lines.open("r+b") as file:
                    size = file.seek(0, os.SEEK_END)
                    file.seek(self.bytes_before_last - 20)
                    file.write(bytes(size + 1000 - file.tell()))
                if ends_with_lf:
                    self.fixture.write_lines("")
                self.assert_nothing_old()
                self.assertEqual(self.state(), "open")

    def test_the_state_has_lost_more_than_the_lines(self):
        self.lose_power()
        self.set_back_position(0)
        self.assert_nothing_old()
        self.assertEqual((self.state(), self.logged_lines), ("open", []))

    def test_the_gateway_is_started_after_the_bridge(self):
        """It truncates the NUL bytes at the end of the lines while the bridge runs."""
        size = self.fixture.lines.stat().st_size
        self.lose_power()
        os.truncate(self.fixture.lines, size + 1000)
        self.connect()
        os.truncate(self.fixture.lines, size)
        self.fixture.write_lines(*[OK] * 100)
        self.fixture.run_turns(30)
        self.assertEqual(self.lines(), [json.dumps(OK)] * 100)
        self.assertEqual(self.logged_lines, [])

    def test_the_lines_are_gone(self):
        self.lose_power()
        self.fixture.lines.unlink()
        self.assert_nothing_old()

    def test_the_lines_are_another_file(self):
        """Also without a power failure."""
        for boot in ("a boot", "another boot"):
            with self.subTest(boot):
                self.setUp()
                self.lose_power()
                self.fixture.boot = boot
                text = self.fixture.lines.read_text()
                self.fixture.lines.rename(self.fixture.lines.with_name("old"))
                self.fixture.lines.write_text(text)
                self.fixture.write_lines(contact_reading("closed"))
                self.assert_nothing_old()
                self.assertEqual(self.state(), "closed")
                self.assert_logged("previous file not found, reading from the beginning")

    def test_the_lines_were_emptied_while_the_bridge_was_stopped(self):
        """What was written since then sets the states."""
        self.fixture.kill()
        self.fixture.lines.write_text("")
        self.fixture.write_lines(contact_reading("closed"))
        self.assert_nothing_old()
        self.assertEqual(self.state(), "closed")

    def test_a_bridge_that_is_stopped_while_it_reads_earlier_lines(self):
        """The next one takes none of them for new."""
        self.fixture.write_lines(*[PRESS] * 100)
        self.lose_power()
        original = Follower.read

        def stop(follower):
            self.fixture.bridge.is_stopped = True
            return original(follower)
        with mock.patch("enogate_lines.follow.MAX_READ", 1000), mock.patch.object(Follower, "read", stop):
            self.fixture.start()
        self.fixture.stop()
        self.assert_nothing_old()

    def test_a_restart_at_the_same_boot(self):
        """The lines that were not acknowledged, or not saved as acknowledged, are published again."""
        self.fixture.kill()
        self.fixture.write_lines(RELEASE)
        self.set_back_position(self.bytes_before_last)
        self.connect()
        self.assertEqual(self.lines(), [json.dumps(contact_reading("open")), json.dumps(RELEASE)])

    def test_a_restart_after_the_first_one_at_a_boot(self):
        """It is the same boot, even if nothing was written meanwhile. Lines of that time are published."""
        self.lose_power()
        self.connect()
        self.fixture.kill()
        self.fixture.write_lines(PRESS)
        self.connect()
        self.assertEqual((self.lines(), self.fixture.published(TOPIC_ROOT + "01800AC1/press")),
                         ([json.dumps(PRESS)], []))

    def test_a_state_without_a_boot(self):
        """The state file of a version that stored no boot ID."""
        self.fixture.kill()
        self.fixture.write_lines(PRESS)
        self.fixture.bridge.store.connection.executescript("DROP TABLE boot")
        self.assert_nothing_old()


class RandomHistories(LogTest):
    """Random histories of a bridge and of a gateway. Each line is a press of another switch, whose ID is its number."""

    def begin(self, seed):
        self.fixture, self.rng = BridgeFixture(self), random.Random(seed)
        self.written_count = self.first_of_boot = self.first_of_run = 0
        self.connections = []
        self.start()

    def start(self):
        self.first_of_run = self.written_count
        self.fixture.lines.touch()
        self.fixture.start()
        self.connections.append((self.first_of_boot, self.first_of_run, self.fixture.broker.accept_connection()))
        self.fixture.run_turns(3)

    def write(self):
        for _ in range(self.rng.randrange(1, 20)):
            self.fixture.write_lines({**PRESS, "id": f"{self.written_count:08X}"})
            self.written_count += 1
        self.fixture.run_turns(self.rng.randrange(3), self.rng.choice((0.1, 3)))

    def rotate(self):
        """The file of the position that is saved is not rotated twice: it would be compressed."""
        rotated_path = self.fixture.bridge.saved_state
        if rotated_path and self.fixture.lines.exists() and rotated_path.inode == self.fixture.lines.stat().st_ino:
            self.fixture.lines.rename(f"{self.fixture.lines}.1")
            self.fixture.run_turns(self.rng.randrange(6))

    def stop(self):
        self.fixture.stop()
        self.start()

    def kill(self):
        self.fixture.kill()
        self.start()

    def lose_power(self):
        """The state is older, or the lines have lost their end, or have NUL bytes there."""
        self.fixture.kill()
        self.fixture.bridge.store.close()
        older = self.fixture.folder / "older.db"
        if older.exists() and self.rng.random() < 0.5:
            shutil.copy(older, self.fixture.state)
        shutil.copy(self.fixture.state, older)
        if self.fixture.lines.exists() and self.rng.random() < 0.8:
            size = self.fixture.lines.stat().st_size
            bytes_left = self.rng.randrange(size + 1)
            os.truncate(self.fixture.lines, bytes_left)
            if self.rng.random() < 0.5:
                os.truncate(self.fixture.lines, self.rng.randrange(bytes_left, size + 5000))
            if self.rng.random() < 0.5 or not self.fixture.lines.read_bytes().endswith(b"\0"):
                # the start of the gateway ends the last line
                self.fixture.write_lines("")
        self.first_of_boot, self.fixture.boot = self.written_count, f"boot {self.written_count}"
        self.start()

    def numbers(self, connection, topic):
        """The numbers of the presses that were published on this connection, on `lines` or as events."""
        texts = [f"{message[0]} {message[1]}" for message in connection.published if message[0].endswith(topic)]
        return [int(re.search('/([0-9A-F]{8})/press|"id": "([0-9A-F]{8})"', text)[1 if topic == "/press" else 2], 16)
                for text in texts]

    def check(self):
        """Each press is an event once at most, in the run in which it was written, and on `lines` at least once, but
        never after the boot in which it was written. Without a failure that is in the sequence of the presses."""
        for first_of_boot, first_of_run, connection in self.connections:
            events = self.numbers(connection, "/press")
            lines = self.numbers(connection, "/lines")
            self.assertEqual(events, sorted(set(events)))
            self.assertEqual(lines, sorted(set(lines)))
            self.assertTrue(all(number >= first_of_run for number in events), (first_of_run, events))
            self.assertTrue(all(number >= first_of_boot for number in lines), (first_of_boot, lines))
        published_numbers = {number for *_, connection in self.connections
                             for number in self.numbers(connection, "/lines")}
        self.assertEqual(published_numbers & set(range(self.first_of_boot, self.written_count)),
                         set(range(self.first_of_boot, self.written_count)))

    def test_random_histories(self):
        actions = (self.write, self.write, self.write, self.rotate, self.stop, self.kill, self.lose_power)
        for seed in range(HISTORIES):
            with self.subTest(seed):
                self.begin(seed)
                for action in self.rng.choices(actions, k=12):
                    action()
                self.fixture.run_turns(20)
                self.check()


if __name__ == "__main__":
    unittest.main()
