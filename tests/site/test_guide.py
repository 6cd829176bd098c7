"""The guide, the settings file and the manual page agree with the program and its unit."""
from __future__ import annotations

import pathlib
import re
import unittest

from enogate_mqtt.topics import Topics
from enogate_site import members, merge
from enogate_site.topics import KINDS, SiteTopics
from manuals import manual, paths_in_manual, paths_of_unit, settings_files_in

ROOT = pathlib.Path(__file__).resolve().parents[2]
GUIDE = (ROOT / "docs/guide/site.md").read_text()
SETTINGS = (ROOT / "contrib/enogate-site.default").read_text()
MANUAL = manual("enogate-site")
SETTING_NAMES = {"SITE_GATEWAYS", "SITE_LEARN", "MQTT_HOST", "MQTT_PORT", "MQTT_USER", "MQTT_PASSWORD_FILE", "MQTT_TLS",
                 "MQTT_CA_FILE", "MQTT_CERT_FILE", "MQTT_KEY_FILE", "MQTT_DISCOVERY", "MQTT_EXPIRE_AFTER",
                 "MQTT_LABEL_SECONDS"}


class Guide(unittest.TestCase):
    def test_times_and_numbers(self):
        text = " ".join(GUIDE.split())
        for sentence in (f"if it arrives within {merge.WINDOW:g} seconds",
                         f"A report up to {merge.MAX_DELAY:.0f} seconds late",
                         f"the last {merge.REMEMBERED} telegrams"):
            self.assertIn(sentence, text)
        self.assertEqual(merge.MAX_TIME_DIFFERENCE, 1)
        self.assertIn("read both lines within one second", text)
        self.assertEqual(members.LIST_EVERY, 5)
        self.assertIn("answered by the site, at most every five seconds", text)

    def test_the_topics(self):
        """The table has the topics that a gateway does not have, and those that have other contents."""
        section = GUIDE.split("\n## Topics\n")[1].split("\n## ")[0]
        listed_topics = {topic for cell in re.findall(r"^\| (`[^|]*)\|", section, re.MULTILINE)
                         for topic in re.findall("`([^`]+)`", cell)}
        site, bridge = SiteTopics("campus", "", ("hall",)), Topics("campus", "")
        own_topics = {topic.removeprefix(f"{site.root}/") for topic in {*site.report_topics, site.lines}}
        self.assertEqual(listed_topics - {"01800ABD/coverage"}, own_topics)
        self.assertEqual({*site.report_topics} - {*bridge.report_topics},
                         {"enogate/campus/gateways", "enogate/campus/warning"})

    def test_the_access_rights(self):
        """The rights to read the gateways cover all that the site reads."""
        for name in "hall", "attic":
            self.assertIn(f"topic read enogate/{name}/#\ntopic write enogate/{name}/orders\n", GUIDE)
        topics = SiteTopics("campus", "", ("hall", "attic")).gateway_topics
        self.assertEqual(set(topics), {f"enogate/{name}/{kind}" for name in ("hall", "attic") for kind in KINDS})


class SettingsFile(unittest.TestCase):
    def test_settings_and_manual_page(self):
        self.assertEqual(set(re.findall("^([A-Z_]+)=", SETTINGS, re.MULTILINE)), SETTING_NAMES)
        environment = MANUAL.split(".SH ENVIRONMENT")[1].split(".SH FILES")[0]
        self.assertEqual(set(re.findall("(?:SITE|MQTT)_[A-Z_]+", environment)), SETTING_NAMES)

    def test_the_files_of_the_unit(self):
        """The manual page has all that the unit uses. The program itself knows none of them."""
        self.assertEqual(paths_in_manual("enogate-site"), [
            "/etc/default/enogate.site", "/etc/default/enogate.site-NAME", "/etc/credstore/enogate-site-NAME",
            "/var/lib/enogate-site/NAME.db"])
        self.assertEqual(paths_of_unit("enogate-site"), paths_in_manual("enogate-site"))
        for text in MANUAL, SETTINGS:
            self.assertEqual(settings_files_in(text), set(paths_in_manual("enogate-site")[:2]))


if __name__ == "__main__":
    unittest.main()
