"""A newly learned device waits for its label before Home Assistant is shown it."""
import json
import unittest

from fakes import OK, LogTest, BridgeFixture, learned, listing, reading, status

TOPIC_ROOT = "enogate/hall/"
FIRST_DEVICE, OTHER_DEVICE = "01800ABC", "01800ABD"
TEMPERATURE_CONFIG = f"homeassistant/sensor/enogate_hall/{FIRST_DEVICE}_TMP/config"
WAIT = 60


class LabelWait(LogTest):
    def setUp(self):
        super().setUp()
        self.fixture = BridgeFixture(self)

    def start(self, *lines, label_wait=WAIT):
        """A bridge that is connected, at a gateway without devices."""
        self.fixture.start(label_wait=label_wait)
        self.fixture.broker.accept_connection()
        self.fixture.run_turns()
        self.fixture.write_lines(*listing(), status(), *lines)
        self.fixture.run_turns()

    def restart_bridge(self):
        """The bridge is stopped and started again."""
        self.fixture.stop()
        self.fixture.broker.lose()
        self.fixture.start(label_wait=WAIT)

    def names(self, device=FIRST_DEVICE):
        """The names under which the temperature of a device was shown on this connection; None if it was removed."""
        topic = TEMPERATURE_CONFIG.replace(FIRST_DEVICE, device)
        return [json.loads(text)["device"]["name"] if text else None for _, text in self.fixture.published(topic)]

    def shown_configs(self):
        """The devices of all discovery messages that the broker retains."""
        texts = (text for topic, text in self.fixture.broker.memory.items() if topic.startswith("homeassistant/"))
        return {json.loads(text)["device"]["name"] for text in texts} - {"enogate hall"}

    def test_a_label_in_time(self):
        """The first message has the label, and there is no other one."""
        self.start(learned(FIRST_DEVICE))
        self.fixture.run_turns(10, 2)
        self.assertEqual((self.names(), self.shown_configs()), ([], set()))
        self.fixture.write_lines(*listing((FIRST_DEVICE, "A5-02-05", "Attic")))
        self.fixture.run_turns(1)
        self.assertEqual(self.names(), ["Attic"])
        self.fixture.run_turns(100, 2)
        self.assertEqual((self.names(), self.shown_configs()), (["Attic"], {"Attic"}))

    def test_the_list_is_asked_for_after_a_label(self):
        """As `enogatectl devices --import` gives both orders."""
        self.start()
        self.fixture.run_turns(10, 2)
        list_count = self.fixture.orders().count("list")
        with self.fixture.desk.open("a") as desk:
            desk.write(f"add {FIRST_DEVICE} A5-02-05\nlabel {FIRST_DEVICE} Attic\n")
        self.fixture.write_lines(learned(FIRST_DEVICE), OK)
        self.fixture.run_turns(2)
        self.assertEqual(self.fixture.orders().count("list"), list_count + 1)
        self.fixture.write_lines(*listing((FIRST_DEVICE, "A5-02-05", "Attic")))
        self.fixture.run_turns(100)
        self.assertEqual(self.names(), ["Attic"])

    def test_no_label(self):
        self.start(learned(FIRST_DEVICE))
        self.fixture.run_turns(WAIT - 1, 1)
        self.assertEqual(self.names(), [])
        self.fixture.run_turns(2, 1)
        self.assertEqual(self.names(), [f"A5-02-05 {FIRST_DEVICE}"])
        self.fixture.run_turns(100, 2)
        self.assertEqual(self.names(), [f"A5-02-05 {FIRST_DEVICE}"])
        self.fixture.write_lines(*listing((FIRST_DEVICE, "A5-02-05", "Attic")))
        self.fixture.run_turns()
        self.assertEqual(self.names(), [f"A5-02-05 {FIRST_DEVICE}", "Attic"])

    def test_a_list_without_the_label_changes_nothing(self):
        """Nor does another teach-in telegram: the wait began with the first one."""
        self.start(learned(FIRST_DEVICE))
        for _ in range(5):
            self.fixture.run_turns(1, 10)
            self.fixture.write_lines(*listing((FIRST_DEVICE, "A5-02-05", "")), learned(FIRST_DEVICE))
            self.fixture.run_turns(1)
            self.assertEqual(self.names(), [])
        self.fixture.run_turns(1, 10)
        self.fixture.run_turns(1)
        self.assertEqual(self.names(), [f"A5-02-05 {FIRST_DEVICE}"])

    def test_readings_do_not_wait(self):
        self.start(learned(FIRST_DEVICE), reading(FIRST_DEVICE))
        self.fixture.run_turns(10, 2)
        list_count = self.fixture.orders().count("list")
        self.fixture.write_lines(reading(FIRST_DEVICE))
        self.fixture.run_turns(10, 1)
        self.assertIn((TOPIC_ROOT + f"{FIRST_DEVICE}/TMP", "20"), self.fixture.published())
        self.assertEqual((self.names(), self.fixture.orders().count("list")), ([], list_count))

    def test_a_device_that_was_shown(self):
        """It keeps its name, whether it has a label or not, and a new profile is shown at once."""
        for label in ("", "Attic"):
            with self.subTest(label):
                self.setUp()
                self.start(*listing((FIRST_DEVICE, "A5-02-05", label)))
                self.fixture.write_lines(learned(FIRST_DEVICE))
                self.fixture.run_turns()
                self.assertEqual(self.names(), [label or f"A5-02-05 {FIRST_DEVICE}"])
                self.fixture.write_lines(learned(FIRST_DEVICE, "D5-00-01"))
                self.fixture.run_turns()
                self.assertEqual(self.shown_configs(), {label or f"D5-00-01 {FIRST_DEVICE}"})

    def test_a_device_that_is_deleted_meanwhile(self):
        self.start(learned(FIRST_DEVICE), learned(FIRST_DEVICE, result="deleted"))
        self.fixture.run_turns(100, 2)
        self.assertEqual((self.names(), self.shown_configs()), ([], set()))
        self.fixture.write_lines(learned(FIRST_DEVICE))
        self.fixture.run_turns(WAIT, 1)
        self.assertEqual(self.names(), [])
        self.fixture.run_turns(1)
        self.assertEqual(self.names(), [f"A5-02-05 {FIRST_DEVICE}"])

    def test_a_restart_of_the_bridge(self):
        """It neither loses the device nor shows it twice, whether it gets a label meanwhile or not."""
        for label in ("", "Attic"):
            with self.subTest(label):
                self.setUp()
                self.start(learned(FIRST_DEVICE))
                self.restart_bridge()
                self.fixture.broker.accept_connection()
                self.fixture.run_turns(20, 0.1)
                self.assertEqual(self.names(), [])
                self.fixture.write_lines(*listing((FIRST_DEVICE, "A5-02-05", label)))
                self.fixture.run_turns(50, 2)
                self.assertEqual(self.names(), [label or f"A5-02-05 {FIRST_DEVICE}"])

    def test_a_device_that_is_learned_while_the_bridge_is_stopped(self):
        """The list says which label it has got."""
        self.start()
        self.restart_bridge()
        self.fixture.write_lines(learned(FIRST_DEVICE), learned(OTHER_DEVICE), OK)
        self.fixture.broker.accept_connection()
        self.fixture.run_turns()
        self.assertEqual((self.names(), self.names(OTHER_DEVICE)), ([], []))
        self.assertIn("list", self.fixture.orders())
        self.fixture.write_lines(*listing((FIRST_DEVICE, "A5-02-05", "Attic"), (OTHER_DEVICE, "A5-02-05", "")))
        self.fixture.run_turns(50, 2)
        self.assertEqual((self.names(), self.names(OTHER_DEVICE)), (["Attic"], [f"A5-02-05 {OTHER_DEVICE}"]))

    def test_the_first_run(self):
        """Earlier lines do not have the labels: the list does."""
        self.fixture.write_lines(learned(FIRST_DEVICE), learned(OTHER_DEVICE))
        self.fixture.start(label_wait=WAIT)
        self.fixture.broker.accept_connection()
        self.fixture.run_turns()
        self.assertEqual(self.shown_configs(), set())
        self.fixture.write_lines(*listing((FIRST_DEVICE, "A5-02-05", "Attic"), (OTHER_DEVICE, "A5-02-05", "")))
        self.fixture.run_turns()
        self.assertEqual((self.names(), self.names(OTHER_DEVICE)), (["Attic"], [f"A5-02-05 {OTHER_DEVICE}"]))

    def test_a_broker_that_is_away_meanwhile(self):
        for seconds in (20, 100):
            with self.subTest(seconds):
                self.setUp()
                self.start(learned(FIRST_DEVICE))
                self.fixture.broker.lose()
                self.fixture.run_turns(10, seconds / 10)
                self.fixture.broker.accept_connection()
                self.fixture.run_turns(20)
                self.assertEqual(self.names(), [f"A5-02-05 {FIRST_DEVICE}"] if seconds > WAIT else [])
                self.fixture.run_turns(100, 2)
                self.assertEqual(self.names(), [f"A5-02-05 {FIRST_DEVICE}"])

    def test_without_a_wait(self):
        self.start(learned(FIRST_DEVICE), label_wait=0)
        self.assertEqual(self.names(), [f"A5-02-05 {FIRST_DEVICE}"])


if __name__ == "__main__":
    unittest.main()
