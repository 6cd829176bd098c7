"""What is known about devices, and what is published about them."""
import json
import unittest
from unittest import mock

from enogate_lines.contents import content_of
from enogate_lines.entities import Table
from enogate_mqtt.devices import Device, Devices
from enogate_mqtt.topics import Topics
from fakes import learned, listing, reading

TABLE = Table()
NOW = 1_800_000_000.0
ROCKER = [{"name": "R1", "word": "BI"}, {"name": "EB", "word": "pressed"}]
RELEASED = [{"name": "buttons", "word": "none"}, {"name": "EB", "word": "released"}]


class DeviceMessages(unittest.TestCase):
    def setUp(self):
        self.devices = self.make_devices()

    def make_devices(self, discovery="homeassistant", **options):
        return Devices(Topics("hall", discovery), TABLE, **options)

    def published_for(self, *lines, now=None):
        """What is published for these lines, without the discovery messages."""
        messages = [message for line in lines
                    for message in self.devices.handle_line(content_of(json.dumps(line).encode()), now)]
        self.configs = [message for message in messages if message.topic.startswith("homeassistant/")]
        return [(message.topic.removeprefix("enogate/hall/"), message.payload, message.retained)
                for message in messages if message not in self.configs]

    def shown_configs(self):
        """The entities for which a discovery message was published, and those that were removed."""
        return ({message.topic.split("/")[3] for message in self.configs if message.payload},
                {message.topic.split("/")[3] for message in self.configs if not message.payload})

    def test_a_reading(self):
        self.assertEqual(self.published_for(reading("01800ABC")),
                         [("01800ABC/TMP", "20", True), ("01800ABC/dbm", "-45", True)])

    def test_the_time_of_a_reading(self):
        self.assertEqual(self.published_for(reading("01800ABC"), now=NOW)[-1],
                         ("01800ABC/last_seen", "2027-01-15T08:00:00+00:00", True))
        self.published_for(reading("01800ABC"))
        self.assertEqual(self.devices.known_devices["01800ABC"].last_readings["last_seen"], "2027-01-15T08:00:00+00:00")

    def test_a_device_is_shown_when_it_is_learned(self):
        self.published_for(reading("01800ABC"))
        self.assertEqual(self.configs, [])
        self.assertTrue(self.devices.needs_list)
        self.published_for(learned("01800ABC"))
        self.assertIn("01800ABC_TMP", self.shown_configs()[0])
        self.published_for(learned("01800ABC"))
        self.assertEqual(self.configs, [])

    def test_a_label_renames_it(self):
        self.published_for(learned("01800ABC"))
        self.published_for(*listing(("01800ABC", "A5-02-05", "Attic")))
        self.assertTrue(self.configs and all("Attic" in message.payload for message in self.configs))
        self.published_for(learned("01800ABC"))
        self.assertEqual((self.configs, self.devices.known_devices["01800ABC"].label), ([], "Attic"))
        self.published_for(*listing(("01800ABC", "A5-02-05", "")))
        self.assertEqual(self.devices.known_devices["01800ABC"].label, "")

    def test_the_maker(self):
        self.published_for(learned("01800ABC", maker=70))
        self.assertEqual(self.devices.known_devices["01800ABC"].maker, 70)
        self.published_for(learned("01800ABC"))
        self.assertIsNone(self.devices.known_devices["01800ABC"].maker)

    def test_a_deleted_device(self):
        self.published_for(learned("01800ABC"), reading("01800ABC"))
        self.assertEqual(sorted(self.published_for(learned("01800ABC", result="deleted"))),
                         [("01800ABC/TMP", "", True), ("01800ABC/dbm", "", True)])
        self.assertIn("01800ABC_TMP", self.shown_configs()[1])
        self.assertEqual((self.devices.known_devices, self.devices.shown_configs), ({}, {}))
        self.assertTrue({"enogate/hall/01800ABC/TMP", "enogate/hall/01800ABC/dbm"} < self.devices.removed_topics)
        self.assertEqual(self.published_for(learned("01800ABC", result="deleted")), [])

    def test_other_results_change_nothing(self):
        self.assertEqual(self.published_for(learned("01800ABC", result="full"), {"type": "ok"}), [])
        self.assertEqual(self.devices.known_devices, {})

    def test_another_profile(self):
        self.published_for(learned("01800ABC"), reading("01800ABC"))
        published = self.published_for(learned("01800ABC", "D5-00-01"))
        self.assertEqual(sorted(published), [("01800ABC/TMP", "", True), ("01800ABC/dbm", "", True)])
        added_topics, removed_topics = self.shown_configs()
        self.assertIn("01800ABC_CO", added_topics)
        self.assertIn("01800ABC_TMP", removed_topics)
        self.assertEqual(self.devices.known_devices["01800ABC"].last_readings, {})

    def test_a_reading_of_another_profile(self):
        self.published_for(*listing(("01800ABC", "D5-00-01", "")))
        self.assertFalse(self.devices.needs_list)
        self.published_for(reading("01800ABC"))
        self.assertTrue(self.devices.needs_list)
        self.assertEqual(self.devices.known_devices["01800ABC"].eep, "A5-02-05")

    def test_a_topic_that_is_told_again_is_not_removed(self):
        self.published_for(learned("01800ABC"), reading("01800ABC"), learned("01800ABC", result="deleted"),
                           learned("01800ABC"), reading("01800ABC"))
        self.assertEqual({topic for topic in self.devices.removed_topics if "01800ABC" in topic}, set())

    def test_lists(self):
        self.published_for(learned("01800ABC"), learned("01800ABD"), learned("01800ABE"))
        self.published_for(*listing(("01800ABC", "A5-02-05", ""), ("01800ABE", "A5-02-05", "")))
        self.assertEqual((sorted(self.devices.known_devices), self.devices.list_count, self.devices.needs_list),
                         (["01800ABC", "01800ABE"], 1, False))

    def test_a_list_that_is_not_complete(self):
        lines = listing(("01800ABC", "A5-02-05", ""), ("01800ABD", "A5-02-05", ""))
        for incomplete_lines in (lines[1:], [lines[0], {"type": "ok"}, *lines[1:]],
                                 [lines[0], lines[1], {"count": 3, "type": "list"}],
                                 [lines[0], lines[1], {"count": 1, "type": "list"}]):
            with self.subTest(incomplete_lines):
                self.devices = self.make_devices()
                self.published_for(learned("01800AAA"), *incomplete_lines)
                self.assertEqual((self.devices.list_count, self.devices.needs_list), (0, True))
                self.assertIn("01800AAA", self.devices.known_devices)

    def test_a_bad_line_within_a_list(self):
        lines = listing(("01800ABC", "A5-02-05", ""), ("01800ABD", "A5-02-05", ""))
        self.published_for(learned("01800AAA"), lines[0], lines[1])
        self.devices.drop_listing()
        self.published_for(lines[2])
        self.assertIn("01800AAA", self.devices.known_devices)
        self.assertEqual(self.devices.list_count, 0)

    def test_a_switch(self):
        self.published_for(learned("01800AC1", "F6-02-01"))
        published = self.published_for(reading("01800AC1", "F6-02-01", ROCKER))
        self.assertEqual(published,
                         [("01800AC1/R1", "BI", True), ("01800AC1/EB", "pressed", True), ("01800AC1/dbm", "-45", True),
                          ("01800AC1/press", '{"event_type":"BI"}', False)])

    def test_a_switch_that_is_released_is_not_retained_as_pressed(self):
        self.published_for(learned("01800AC1", "F6-02-01"), reading("01800AC1", "F6-02-01", ROCKER, -50), now=NOW)
        published = self.published_for(reading("01800AC1", "F6-02-01", RELEASED, None))
        self.assertEqual(published[0], ("01800AC1/R1", "", True))
        self.assertEqual(published[-1], ("01800AC1/press", '{"event_type":"released"}', False))
        self.assertEqual(sorted(self.devices.known_devices["01800AC1"].last_readings),
                         ["EB", "buttons", "dbm", "last_seen"])

    def test_a_press_that_is_no_event(self):
        self.published_for(learned("01800AC1", "F6-03-01"), reading("01800AC1", "F6-03-01", ROCKER))
        readings = [{"name": "buttons", "raw": 3}, {"name": "EB", "word": "pressed"}]
        self.published_for(reading("01800AC1", "F6-03-01", readings))
        self.assertEqual(sorted(self.devices.known_devices["01800AC1"].last_readings), ["EB", "buttons", "dbm"])

    def test_other_devices_keep_what_they_do_not_repeat(self):
        self.published_for(reading("01800ABC"), reading("01800ABC", readings=[{"name": "X", "word": "y"}]))
        self.assertIn("TMP", self.devices.known_devices["01800ABC"].last_readings)

    def test_a_list_that_repeats_what_is_known(self):
        """It makes no discovery messages: those of 1,000 devices take a second, and a press behind the list waits."""
        lines = listing(("01800ABC", "A5-02-05", "Attic"), ("01800ABD", "D2-01-12", ""))
        self.published_for(*lines)
        with mock.patch("enogate_mqtt.discovery.device_configs") as device_configs:
            self.published_for(*lines, learned("01800ABC"))
            self.assertEqual((device_configs.call_count, self.configs, self.devices.list_count), (0, [], 2))
        for changed_device in (("01800ABC", "A5-02-05", "Cellar"), ("01800ABC", "A5-04-01", "Cellar")):
            self.published_for(*listing(changed_device, ("01800ABD", "D2-01-12", "")))
            self.assertTrue(self.configs)
            self.assertTrue(all("Cellar" in message.payload for message in self.configs if message.payload))

    def test_what_is_retained(self):
        self.published_for(learned("01800ABC"), reading("01800ABC"))
        retained = self.devices.retained_messages("01800ABC")
        self.assertEqual(retained["enogate/hall/01800ABC/TMP"], "20")
        self.assertIn("homeassistant/sensor/enogate_hall/01800ABC_TMP/config", retained)

    def test_without_discovery(self):
        self.devices = self.make_devices("")
        self.published_for(learned("01800ABC"), reading("01800ABC"))
        self.assertEqual(set(self.devices.retained_messages("01800ABC")),
                         {"enogate/hall/01800ABC/TMP", "enogate/hall/01800ABC/dbm"})

    def test_the_expiry(self):
        self.devices = self.make_devices(expire_after=3600)
        self.published_for(learned("01800ABC"))
        self.assertIn('"expire_after":3600', self.devices.shown_configs["01800ABC"][
            "homeassistant/sensor/enogate_hall/01800ABC_TMP/config"])

    def test_what_was_known_is_shown_without_lines(self):
        device = Device("01800ABC", "A5-02-05", "Attic", 70, {"TMP": "20"})
        self.devices = self.make_devices(known_devices=[device], removed_topics={"x"})
        self.assertIn("homeassistant/sensor/enogate_hall/01800ABC_TMP/config",
                      self.devices.retained_messages("01800ABC"))
        self.assertEqual(self.devices.removed_topics, {"x"})

    def test_adoption_without_a_state_file(self):
        self.devices = self.make_devices(may_adopt=True)
        self.published_for(*listing(("01800ABC", "A5-02-05", "")))
        self.assertTrue(self.devices.adopt_reading("enogate/hall/01800ABC/TMP", "20"))
        self.assertTrue(self.devices.adopt_reading("enogate/hall/01800ABC/last_seen", "2026"))
        for subtopic in ("TMP", "nonsense", "OV/0", "TMP/0/1", "TMP/x"):
            self.assertFalse(self.devices.adopt_reading(f"enogate/hall/01800ABC/{subtopic}", "30"))
        self.assertEqual(self.devices.known_devices["01800ABC"].last_readings, {"TMP": "20", "last_seen": "2026"})
        self.assertFalse(self.devices.adopt_reading("enogate/hall/01800ABD/TMP", "20"))

    def test_adoption_after_another_start(self):
        """A device that has sent something keeps to that; of one that has not, the broker may know more."""
        known_devices = [Device("01800ABC", "A5-04-01", "", None, {"TMP": "20"}), Device("01800ABD", "A5-04-01", "")]
        self.devices = self.make_devices(may_adopt=True, known_devices=known_devices)
        self.assertFalse(self.devices.adopt_reading("enogate/hall/01800ABC/HUM", "50"))
        self.assertTrue(self.devices.adopt_reading("enogate/hall/01800ABD/HUM", "50"))

    def test_states_of_an_earlier_life_are_not_adopted(self):
        """A device that lines taught, deleted or gave another profile has no older states."""
        for lines in ([learned("01800ABC")],
                      listing(("01800ABC", "A5-02-05", ""))[:1] + [learned("01800ABC", result="deleted"),
                      learned("01800ABC")],
                      listing(("01800ABC", "A5-02-05", ""))[:1] + [learned("01800ABC", "A5-04-01")],
                      listing(("01800ABC", "A5-02-05", "")) + [learned("01800ABC")],
                      [learned("01800ABC")] + listing(("01800ABC", "A5-02-05", "")),
                      listing(("01800ABC", "A5-02-05", "")) + [reading("01800ABC", "A5-04-01", [
                          {"den": 1, "name": "HUM", "num": 20, "unit": "%"}])]):
            with self.subTest(lines):
                self.devices = self.make_devices(may_adopt=True)
                self.published_for(*lines)
                self.assertFalse(self.devices.adopt_reading("enogate/hall/01800ABC/TMP", "20"))

    def test_with_a_state_file_nothing_is_adopted(self):
        self.published_for(*listing(("01800ABC", "A5-02-05", "")))
        self.assertFalse(self.devices.adopt_reading("enogate/hall/01800ABC/TMP", "20"))
        self.devices = self.make_devices(known_devices=[Device("01800ABC", "A5-02-05", "")])
        self.assertFalse(self.devices.adopt_reading("enogate/hall/01800ABC/TMP", "20"))

    def test_changes_are_noted(self):
        for _ in range(2):
            self.published_for(reading("01800ABC"))
            self.assertEqual(self.devices.changed_devices, {"01800ABC"})
            self.devices.changed_devices = set()
        self.published_for(learned("01800ABC", result="deleted"))
        self.assertEqual(self.devices.changed_devices, {"01800ABC"})


if __name__ == "__main__":
    unittest.main()
