"""What the guide, the manual page and the file of settings say about the bridge."""
import pathlib
import re
import unittest

from enogate_lines.entities import AUTO, Table
from enogate_mqtt import connection, desk, log, orders, outbox, queries, requests, settings
from enogate_mqtt.orders import orders_of
from enogate_mqtt.topics import Topics

ROOT = pathlib.Path(__file__).parents[2]
TOPICS = Topics("hall", "homeassistant")
DEFAULT = (ROOT / "contrib/enogate-mqtt.default").read_text(encoding="utf-8")
GUIDE = " ".join((ROOT / "docs/guide/mqtt.md").read_text(encoding="utf-8").split())


class DocumentedTopicsAndSettings(unittest.TestCase):
    def assert_said(self, *texts):
        for text in texts:
            with self.subTest(text):
                self.assertIn(text, GUIDE)

    def test_numbers(self):
        self.assert_said(
            f"more than {orders.MAX_MESSAGE:,} bytes",
            f"passes on {desk.MAX_BURST:,} bytes at once, and then {desk.BYTES_PER_SECOND:,} bytes per second",
            f"at most the last {outbox.MAX_LINES:,}",
            f"It keeps the last {outbox.MAX_LINES:,} lines",
            f"at most {outbox.MAX_UNDER_WAY} messages are under way",
            f"messages of more than {connection.MAX_PACKET:,} bytes",
            f"{log.MAX_MESSAGES and 'ten'} messages of a kind in a minute",
            f"within {requests.ANSWER_WITHIN:.0f} seconds",
            f"no line for {requests.SILENT_FOR:.0f} seconds after any order",
            f"({requests.START_WITHIN:.0f} seconds while it starts)",
            f"{requests.PROBE_AFTER:.0f} seconds after the last",
            "one actuator per second", "every minute", "within 15 seconds", "pauses that grow to a minute")
        self.assertEqual(queries.QUERY_EVERY, 1)
        self.assertEqual((log.MAX_MESSAGES, log.PERIOD, requests.STATUS_EVERY, connection.MAX_PAUSE), (10, 60, 60, 60))
        self.assertLess(requests.PROBE_AFTER + requests.SILENT_FOR, 15)

    def test_numbers_of_settings(self):
        self.assert_said(f"after {settings.LEARN_FOR} seconds (`MQTT_LEARN_SECONDS`)",
                         f"after {settings.LABEL_WAIT} seconds without one (`MQTT_LABEL_SECONDS`)")
        for name, default_seconds in ("LEARN", settings.LEARN_FOR), ("LABEL", settings.LABEL_WAIT):
            self.assertIn(f"If it is empty, {default_seconds}.\nMQTT_{name}_SECONDS=\n", DEFAULT)
        seconds = {row.expires_after(AUTO) for row in Table().rows} - {None}
        self.assertEqual(seconds, {3600, 5400})
        self.assert_said("90 minutes", "60 minutes")
        self.assertRegex(DEFAULT, r"auto: 90 minutes .*, and 60 minutes")

    def test_blinds(self):
        self.assertEqual((orders_of(TOPICS, "enogate/hall/01800ABD/POS/0/set", b"OPEN"),
                          orders_of(TOPICS, "enogate/hall/01800ABD/POS/0/set", b"CLOSE")),
                         (b"blind 01800ABD 0\n", b"blind 01800ABD 100\n"))
        self.assert_said("`OPEN` (0 %), `CLOSE` (100 %)")

    def test_topics(self):
        """Each topic of the gateway is in the table."""
        topics = [TOPICS.lines, TOPICS.orders, TOPICS.status, *TOPICS.report_topics, TOPICS.learn_command]
        self.assert_said(*(f"| `{topic.removeprefix('enogate/hall/')}`" for topic in topics))

    def test_settings(self):
        """Each variable that the bridge reads is in the file of settings, and in the manual page."""
        settings_read = re.findall(r"MQTT_[A-Z_]+",
                                   (ROOT / "contrib/enogate_mqtt/settings.py").read_text(encoding="utf-8"))
        page = (ROOT / "contrib/enogate-mqtt.1").read_text(encoding="utf-8")
        self.assertEqual(set(settings_read), set(re.findall(r"^(MQTT_[A-Z_]+)=", DEFAULT, re.MULTILINE)))
        self.assertEqual(set(settings_read), set(re.findall(r"MQTT_[A-Z_]+", page)))


if __name__ == "__main__":
    unittest.main()
