"""The state file of a site, and its settings."""
import contextlib
import pathlib
import sqlite3
import subprocess
import sys
import unittest
from unittest import mock

from enogate_mqtt.settings import WrongSetting
from enogate_site.main import SiteSettings, read_settings
from enogate_site.store import SiteStore
from enogate_tools import VERSION
from fakes import LogTest, learned
from site_testcase import CONTACT, CONTACT_EEP, LAMP, LAMP_EEP, ROCKER, ROCKER_EEP, SiteTest, unknown_sender

PROGRAM = pathlib.Path(__file__).parents[2] / "contrib/enogate-site"


class StateFile(SiteTest):
    devices = {"north": {ROCKER: (ROCKER_EEP, "Door"), LAMP: (LAMP_EEP, "Lamp")},
               "south": {ROCKER: (ROCKER_EEP, "Door")}}

    def members(self):
        """What the site knows about its gateways."""
        return [(name, gateway.held, gateway.wanted, gateway.unwanted)
                for name, gateway in self.fixture.site.members.gateways.items()]

    def test_what_is_known_survives(self):
        self.fixture.report("south", "gateway", "offline")
        self.fixture.write("south", unknown_sender(LAMP))
        self.fixture.order(f"remove {ROCKER}")
        self.fixture.settle()
        before, devices = self.members(), self.fixture.site.members.devices
        self.assertEqual(before[1][3], {ROCKER})
        for is_killed in (False, True):
            self.fixture.restart(is_killed)
            self.assertEqual((self.members(), self.fixture.site.members.devices), (before, devices))

    def test_each_change_is_saved_and_nothing_else(self):
        self.fixture.settle()
        self.fixture.write("north", learned(CONTACT, CONTACT_EEP))
        self.fixture.settle()
        self.fixture.report("south", "gateway", "offline")
        self.fixture.write("south", unknown_sender(CONTACT))
        self.fixture.run_turns(4, 1.0)
        with mock.patch.object(self.fixture.site.store, "save", side_effect=AssertionError):
            self.fixture.settle()
        self.fixture.restart(is_killed=True)
        self.assertIn(CONTACT, self.fixture.site.members.gateways["south"].wanted)

    def test_makers(self):
        self.fixture.write("north", learned(LAMP, LAMP_EEP, maker=70))
        self.fixture.settle()
        self.fixture.restart()
        self.assertEqual(self.fixture.site.members.devices[LAMP].maker, 70)

    def test_a_gateway_that_is_no_longer_named(self):
        self.fixture.restart()
        self.fixture.settings = self.fixture.settings._replace(gateways=("north",))
        self.fixture.start()
        self.assertEqual([name for name, *_ in self.members()], ["north"])

    def test_a_file_of_another_form_is_replaced(self):
        for change in ("id = 'x'", "eep = 'learn on'", "label = 'ä'", f"label = '{'x' * 33}'", "label = NULL"):
            text = f"UPDATE member SET {change}"
            self.fixture.settle()
            self.fixture.site.store.close()
            self.fixture.broker.lose()
            with contextlib.closing(sqlite3.connect(self.fixture.state)) as connection, connection:
                connection.execute(text)
            self.fixture.start()
            self.assertEqual(self.fixture.site.members.devices, {}, text)
            self.fixture.connect()
            self.fixture.settle()
            self.assertEqual(len(self.fixture.site.members.devices), 2)
        self.assert_logged("replacing the file; its state is lost", 5)

    def test_the_state_of_a_bridge(self):
        """A site may be started with the file of a bridge: it has no members."""
        self.fixture.site.store.close()
        with contextlib.closing(sqlite3.connect(self.fixture.state)) as connection, connection:
            connection.execute("DROP TABLE member")
        self.assertEqual(SiteStore(str(self.fixture.state), "homeassistant").member_rows, [])

    def test_a_full_disk(self):
        """The state is saved when that is possible again."""
        with mock.patch.object(self.fixture.site.store, "save_device", side_effect=sqlite3.OperationalError("full")):
            self.fixture.write("north", learned(CONTACT, CONTACT_EEP))
            self.north.devices[CONTACT] = CONTACT_EEP, ""
            self.fixture.settle()
        self.fixture.settle()
        self.fixture.restart(is_killed=True)
        self.assertIn(CONTACT, self.fixture.site.members.devices)


class Settings(LogTest):
    def read(self, arguments=("campus", "--state", "x"), **environment):
        return read_settings(arguments, environment)

    def test_valid_ones(self):
        self.assertEqual(self.read(SITE_GATEWAYS="hall attic"), SiteSettings("campus", "x", ("hall", "attic"), "hall"))
        self.assertEqual(self.read(SITE_GATEWAYS=" hall\n attic ", SITE_LEARN="attic").learner, "attic")

    def test_invalid_ones(self):
        gateways = "the names of the gateways, each once, without that of the site"
        for environment, text in (({}, gateways), ({"SITE_GATEWAYS": " "}, gateways),
                                  ({"SITE_GATEWAYS": "hall hall"}, gateways),
                                  ({"SITE_GATEWAYS": "hall campus"}, gateways),
                                  ({"SITE_GATEWAYS": "hall/#"}, "'hall/#' is not the name of a gateway"),
                                  ({"SITE_GATEWAYS": "hall +"}, "'\\+' is not the name of a gateway"),
                                  ({"SITE_GATEWAYS": "hall", "SITE_LEARN": "attic"}, "expected one of SITE_GATEWAYS")):
            with self.subTest(environment):
                self.assertRaisesRegex(WrongSetting, text, self.read, **environment)
        self.assertRaisesRegex(WrongSetting, "is not the name", self.read, ("a/b", "--state", "x"),
                               SITE_GATEWAYS="hall")
        self.assertRaisesRegex(WrongSetting, "--state", self.read, ("campus",), SITE_GATEWAYS="hall")

    def test_the_program_ends_with_a_line(self):
        for words, status, text in (((), 2, "enogate-site: the following arguments are required: NAME, --state\n"),
                                    (("campus", "--state", "x"), 2, "enogate-site: invalid SITE_GATEWAYS: "),
                                    (("--version",), 0, f"enogate-site {VERSION}\n")):
            process = subprocess.run([sys.executable, "-B", PROGRAM, *words], capture_output=True, text=True,
                                     env={"SITE_GATEWAYS": ""})
            self.assertEqual((process.returncode, (process.stdout + process.stderr)[:len(text)]), (status, text))


if __name__ == "__main__":
    unittest.main()
