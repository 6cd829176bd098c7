"""The names of the gateways of a machine, and their files."""
import os
import pathlib
import re
import tempfile
import unittest
from unittest import mock

from enogate_tools.gateways import InvalidName, Paths, all_paths, gateway_names, is_name, paths_of, startable_names
from enogate_tools.gateways import why_not_among
from fakes import TimeLimitedTest

CONTRIB = pathlib.Path(__file__).parents[2] / "contrib"


class GatewayNamePatterns(TimeLimitedTest):
    def test_files(self):
        self.assertEqual(paths_of("an-attic_2"), Paths("/run/enogate/an-attic_2/desk",
                         "/var/log/enogate/an-attic_2.lines", "/var/lib/enogate-mqtt/an-attic_2.db", "an-attic_2"))
        self.assertEqual(paths_of("hall").unit, "enogate@hall")
        self.assertEqual(paths_of("hall", "/x").desk, "/x/run/enogate/hall/desk")

    def test_they_are_those_of_the_units(self):
        words = {"%t": "/run", "%L": "/var/log", "%S": "/var/lib", "%i": "hall"}
        text = "".join((CONTRIB / f"{unit}@.service").read_text() for unit in ("enogate", "enogate-mqtt"))
        text = re.sub("%[tLSi]", lambda found: words[found[0]], text)
        for path in paths_of("hall")[:3]:
            self.assertIn(f" {path}", text)

    def test_names(self):
        for name in ("hall", "an-attic_2", "_", "7", "h-", "enogate", "paths"):
            self.assertTrue(is_name(name), name)
            paths_of(name)
        for name in ("", "a/b", "../x", "mqtt", "mqtt-hall", "mqttx", "hall\n", "h ll", "ö", "hall.", "-", "-hall"):
            self.assertFalse(is_name(name), name)
            self.assertRaisesRegex(InvalidName,
                                   "^'.*' is not the name of a gateway: use letters, digits, - and _, and do "
                                   "not begin it with - or mqtt$", paths_of, name)


class GatewayFolders(TimeLimitedTest):
    """The gateways of a machine whose files are below a directory."""

    maxDiff = None

    def setUp(self):
        self.root = pathlib.Path(self.enterContext(tempfile.TemporaryDirectory()))
        self.settings, self.running = self.root / "etc/default", self.root / "run/enogate"
        self.units, self.databases = self.root / "etc/systemd/system", self.root / "var/lib/enogate"

    def make(self):
        """Makes the directories. Each has another gateway, and all have `hall`."""
        wants = self.units / "multi-user.target.wants", self.units / "graphical.target.wants"
        for folder in (self.settings, self.running, self.databases, *wants):
            folder.mkdir(parents=True)
        for name in ("attic", "hall"):
            (self.settings / f"enogate-{name}").touch()
        for folder, name in ((wants[0], "barn"), (wants[0], "hall"), (wants[1], "cabin"), (wants[1], "hall")):
            (folder / f"enogate@{name}.service").symlink_to("/nowhere")
        for name in ("den", "hall"):
            self.make_desk(name)
        for name in ("east_2", "hall"):
            (self.databases / f"{name}.db").touch()

    def make_desk(self, name):
        (self.running / name).mkdir(parents=True)
        (self.running / name / "desk").touch()

    def names(self):
        return gateway_names(str(self.root))

    def test_those_that_may_be_started(self):
        """Not those that have nothing but a desk."""
        self.make()
        self.assertEqual(startable_names(str(self.root)), {"attic", "barn", "cabin", "east_2", "hall"})

    def test_a_unit_that_was_not_started(self):
        """Its directory remains, without a desk."""
        self.make()
        before = self.names()
        (self.running / "hal").mkdir()
        self.assertEqual(self.names(), before)
        self.make_desk("hall2")
        self.assertEqual(self.names(), sorted([*before, "hall2"]))

    def test_a_name_that_is_not_known(self):
        for name, known, why in (
            ("hall", ["attic", "hall"], ""),
            ("hal", ["attic", "hall"], "there is no gateway hal: did you mean hall? If not, make it: sudo systemctl "
             "enable --now enogate@hal"),
            ("HALL", ["Hall", "attic"], "there is no gateway HALL: did you mean Hall? If not, make it: sudo systemctl "
             "enable --now enogate@HALL"),
            ("roof", ["attic", "hall"], "there is no gateway roof: the gateways of this machine are attic, hall; to "
             "make it, enable it: sudo systemctl enable --now enogate@roof"),
            ("hal", [], "there is no gateway hal: this machine has none; to make it, enable it: sudo systemctl enable "
             "--now enogate@hal"),
            ("mqtt-hall", ["hall"], str(InvalidName("mqtt-hall"))),
        ):
            self.assertEqual(why_not_among(name, known), why)

    def test_each_that_left_a_trace_is_there_once(self):
        self.make()
        self.assertEqual(self.names(), ["attic", "barn", "cabin", "den", "east_2", "hall"])

    def test_nothing(self):
        self.assertEqual((self.names(), all_paths(str(self.root))), ([], {}))
        self.settings.mkdir(parents=True)
        self.running.mkdir(parents=True)
        self.assertEqual((self.names(), all_paths(str(self.root))), ([], {}))

    def test_the_files_of_all(self):
        self.settings.mkdir(parents=True)
        (self.settings / "enogate-attic").touch()
        self.make_desk("hall")
        self.assertEqual(all_paths(str(self.root)), {
            name: {"desk": f"{self.root}/run/enogate/{name}/desk", "lines": f"{self.root}/var/log/enogate/{name}.lines",
                   "settings": f"{self.root}/etc/default/enogate-{name}"} for name in ("attic", "hall")})

    def test_other_files(self):
        self.make()
        before = self.names()
        for name in ("enogate", "enogate-", "enogate-mqtt", "enogate-mqtt-hall", "enogate-x.dpkg-old", "cron",
                     "enogate-a b", "enogate-x~", "enogate--x", "xenogate-x"):
            (self.settings / name).touch()
        (self.settings / "enogate-folder").mkdir()
        (self.settings / "enogate-lost").symlink_to("nowhere")
        for name in ("enogate-mqtt@x.service", "enogate@.service", "enogate@-x.service", "enogate@mqtt.service",
                     "enogate@a\\x2db.service", "enogate@x.timer"):
            (self.units / "multi-user.target.wants" / name).touch()
        (self.units / "enogate@x.service").touch()
        (self.units / "enogate@x.service.d").mkdir()
        for name in ("mqtt-hall", "a.b", "-x"):
            (self.running / name).mkdir()
        (self.running / "file").touch()
        for name in ("x.db-wal", "x.db.old", "xdb", ".db", "-x.db", "mqtt.db", "x.base"):
            (self.databases / name).touch()
        self.assertEqual(self.names(), before)
        (self.settings / "enogate-linked").symlink_to("cron")
        self.assertEqual(self.names(), sorted([*before, "linked"]))

    def test_a_directory_that_may_not_be_read_hides_no_other_gateway(self):
        self.make()
        hidden = {self.settings: ["attic"], self.units: ["barn", "cabin"], self.running: ["den"],
                  self.databases: ["east_2"]}
        every, listdir = self.names(), os.listdir
        for folder, of_folder in hidden.items():
            def fails(path, folder=str(folder)):
                if path == folder:
                    raise PermissionError(13, "Permission denied", path)
                return listdir(path)
            with self.subTest(folder), mock.patch.object(os, "listdir", fails):
                self.assertEqual(self.names(), [name for name in every if name not in of_folder])

    def test_the_directories_are_those_of_the_unit(self):
        unit = (CONTRIB / "enogate@.service").read_text()
        for line in ("EnvironmentFile=-/etc/default/enogate-%i", "RuntimeDirectory=enogate/%i",
                     "StateDirectory=enogate", "WantedBy=multi-user.target"):
            self.assertIn(f"\n{line}\n", unit)
        self.assertIn("--db %S/enogate/%i.db", unit)
        with mock.patch.object(os, "listdir", return_value=[]) as listed:
            gateway_names()
        self.assertEqual([call.args for call in listed.call_args_list],
                         [("/run/enogate",), ("/etc/default",), ("/var/lib/enogate",), ("/etc/systemd/system",)])


if __name__ == "__main__":
    unittest.main()
