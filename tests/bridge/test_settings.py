"""The command line and the environment variables."""
import contextlib
import io
import json
import os
import ssl
import subprocess
import time
import unittest
from unittest import mock

from enogate_lines import inotify
from enogate_lines.entities import AUTO
from enogate_mqtt import main, settings
from enogate_mqtt.devices import Device
from enogate_mqtt.settings import Arguments, Login, PublishingSettings, WrongSetting
from enogate_mqtt.settings import read_arguments, read_login, read_publishing_settings
from enogate_tools import VERSION
from fakes import LogTest, BridgeFixture, learned, reading

PATHS = ["--lines", "l", "--desk", "d", "--state", "s"]


class CommandLine(unittest.TestCase):
    def test_words(self):
        self.assertEqual(read_arguments([*PATHS, "hall"]), Arguments("hall", "l", "d", "s", "", False))
        self.assertEqual(read_arguments([*PATHS, "--boot", "b", "hall"]).boot, "b")
        self.assertEqual(read_arguments(["--print", "Hall_2-b"]), Arguments("Hall_2-b", None, None, None, "", True))

    def test_wrong_words(self):
        for words, reason in (([], "required"),
                              (["hall"], "--lines, --desk and --state are required, except with --print"),
                              (PATHS[:4] + ["hall"], "required"), (["--print", "a/b"], "^'a/b' is not the name"),
                              (["--print", ""], "not the name"), (["--print", "hall", "x"], "unrecognized"),
                              (["--print", "häll"], "not the name"), (["--print", "mqtt-x"], "not the name")):
            with self.subTest(words), self.assertRaisesRegex(WrongSetting, reason):
                read_arguments(words)

    def test_version(self):
        out = io.StringIO()
        with self.assertRaises(SystemExit) as exit_error, contextlib.redirect_stdout(out):
            read_arguments(["--version"])
        self.assertEqual((exit_error.exception.code, out.getvalue()), (0, f"enogate-mqtt {VERSION}\n"))


class EnvironmentSettings(unittest.TestCase):
    def test_defaults(self):
        self.assertEqual(read_login({}), Login("localhost", 1883, None, None, None))
        self.assertEqual(read_publishing_settings({}), PublishingSettings("homeassistant", 120, AUTO, 60, True))

    def test_values(self):
        fixture = BridgeFixture(self)
        password = fixture.folder / "password"
        password.write_text("secret with a space \r\nmore\n")
        login = read_login({"MQTT_HOST": "h", "MQTT_PORT": "65535", "MQTT_USER": "u",
                            "MQTT_PASSWORD_FILE": str(password)})
        self.assertEqual(login, Login("h", 65535, "u", "secret with a space ", None))
        settings = read_publishing_settings({
            "MQTT_DISCOVERY": "a/b", "MQTT_LEARN_SECONDS": "30", "MQTT_EXPIRE_AFTER": "7200",
            "MQTT_LABEL_SECONDS": "5", "MQTT_QUERY": "no"})
        self.assertEqual(settings, PublishingSettings("a/b", 30, 7200, 5, False))
        self.assertEqual(read_publishing_settings({"MQTT_DISCOVERY": ""}).discovery, "")
        self.assertEqual(read_publishing_settings({"MQTT_LABEL_SECONDS": "0"}).label_wait, 0)
        self.assertEqual(read_publishing_settings({"MQTT_QUERY": "yes"}).queries, True)
        for text, seconds in (("auto", AUTO), ("", None), ("0", None), ("1", 1), ("9999999", 9999999)):
            self.assertEqual(read_publishing_settings({"MQTT_EXPIRE_AFTER": text}).expire_after, seconds, text)

    def test_empty_values_are_the_defaults(self):
        names = ("MQTT_PORT", "MQTT_USER", "MQTT_PASSWORD_FILE", "MQTT_TLS", "MQTT_CA_FILE")
        self.assertEqual(read_login(dict.fromkeys(names, "")), read_login({}))
        settings_of_empty = read_publishing_settings({"MQTT_LEARN_SECONDS": "", "MQTT_LABEL_SECONDS": "",
                                                      "MQTT_QUERY": ""})
        self.assertEqual(settings_of_empty, read_publishing_settings({}))

    def test_tls(self):
        login = read_login({"MQTT_TLS": "yes"})
        self.assertEqual(login.port, 8883)
        self.assertEqual((login.tls.verify_mode, login.tls.check_hostname), (ssl.CERT_REQUIRED, True))
        self.assertEqual(read_login({"MQTT_TLS": "yes", "MQTT_PORT": "1"}).port, 1)
        self.assertIsNone(read_login({"MQTT_TLS": "no"}).tls)

    def test_certificates(self):
        folder = BridgeFixture(self).folder
        subprocess.run(["openssl", "req", "-x509", "-newkey", "ec", "-pkeyopt", "ec_paramgen_curve:P-256", "-nodes",
                        "-days", "2", "-subj", "/CN=x", "-keyout", folder / "key", "-out", folder / "crt"], check=True,
                       capture_output=True)
        files = {"MQTT_TLS": "yes", "MQTT_CA_FILE": str(folder / "crt"), "MQTT_CERT_FILE": str(folder / "crt"),
                 "MQTT_KEY_FILE": str(folder / "key")}
        self.assertEqual(len(read_login(files).tls.get_ca_certs()), 1)

    def test_a_key_that_is_encrypted(self):
        """It is refused: nobody is there who could type its password."""
        with mock.patch("ssl.SSLContext.load_cert_chain", side_effect=ssl.SSLError("bad password")) as load:
            with self.assertRaisesRegex(WrongSetting, "cannot load MQTT_CERT_FILE"):
                read_login({"MQTT_TLS": "yes", "MQTT_CERT_FILE": "crt", "MQTT_KEY_FILE": "key"})
        self.assertEqual(load.call_args.kwargs, {"password": ""})

    def test_wrong_values(self):
        fixture = BridgeFixture(self)
        (fixture.folder / "empty").write_text("\nx\n")
        empty_path, missing_path = str(fixture.folder / "empty"), str(fixture.folder / "none")
        for environment, reason in (
            ({"MQTT_HOST": ""}, "MQTT_HOST is empty"), ({"MQTT_PORT": "0"}, "invalid MQTT_PORT: 0"),
            ({"MQTT_PORT": "65536"}, "invalid MQTT_PORT: 65536"), ({"MQTT_PORT": "x"}, "expected 1 to 65535"),
            ({"MQTT_PASSWORD_FILE": missing_path}, f"cannot read MQTT_PASSWORD_FILE: {missing_path}: No such file"),
            ({"MQTT_PASSWORD_FILE": empty_path}, f"first line of MQTT_PASSWORD_FILE is empty: {empty_path}"),
            ({"MQTT_TLS": "maybe"}, "invalid MQTT_TLS: maybe"), ({"MQTT_CA_FILE": "x"}, "MQTT_TLS is not yes"),
            ({"MQTT_CERT_FILE": "x"}, "MQTT_TLS is not yes"), ({"MQTT_KEY_FILE": "x"}, "MQTT_TLS is not yes"),
            ({"MQTT_TLS": "yes", "MQTT_KEY_FILE": "x"}, "MQTT_KEY_FILE is set, but MQTT_CERT_FILE is not"),
            ({"MQTT_TLS": "yes", "MQTT_CA_FILE": missing_path},
             f"cannot load MQTT_CA_FILE: {missing_path}: No such file"),
            ({"MQTT_TLS": "yes", "MQTT_CERT_FILE": missing_path}, "cannot load MQTT_CERT_FILE and MQTT_KEY_FILE"),
        ):
            with self.subTest(environment), self.assertRaisesRegex(WrongSetting, reason):
                read_login(environment)
        with self.assertRaisesRegex(WrongSetting, "MQTT_PASSWORD_FILE is set, but MQTT_USER is not"):
            (fixture.folder / "password").write_text("x\n")
            read_login({"MQTT_PASSWORD_FILE": str(fixture.folder / "password")})
        for environment, reason in (({"MQTT_DISCOVERY": "a/#"}, "invalid MQTT_DISCOVERY: a/#"),
                                    ({"MQTT_DISCOVERY": "/a"}, "invalid MQTT_DISCOVERY"),
                                    ({"MQTT_DISCOVERY": "a+"}, "invalid MQTT_DISCOVERY"),
                                    ({"MQTT_LEARN_SECONDS": "-1"}, "invalid MQTT_LEARN_SECONDS: -1"),
                                    ({"MQTT_QUERY": "on"}, r"invalid MQTT_QUERY: on \(expected yes or no\)"),
                                    ({"MQTT_LABEL_SECONDS": "1m"}, "invalid MQTT_LABEL_SECONDS: 1m"),
                                    ({"MQTT_EXPIRE_AFTER": "1h"}, "invalid MQTT_EXPIRE_AFTER: 1h"),
                                    ({"MQTT_EXPIRE_AFTER": "AUTO"}, "expected auto, a number of seconds, or nothing"),
                                    ({"MQTT_EXPIRE_AFTER": "12345678"}, "invalid MQTT_EXPIRE_AFTER")):
            with self.subTest(environment), self.assertRaisesRegex(WrongSetting, reason):
                read_publishing_settings(environment)


class ProgramStart(LogTest):
    def run_it(self, *arguments, environment=None):
        fixture = BridgeFixture(self)
        files = ["--lines", str(fixture.lines), "--desk", str(fixture.desk), "--state", str(fixture.state)]
        with mock.patch("sys.argv", ["enogate-mqtt", *files, *arguments]), mock.patch("os.environ",
                                                                                      environment or {}), \
                contextlib.redirect_stderr(io.StringIO()):
            with mock.patch("enogate_mqtt.log.set_up_logging"):
                return main.main(), fixture

    def test_a_wrong_setting(self):
        self.assertEqual(self.run_it("a/b")[0], 2)
        self.assertEqual(self.run_it("hall", environment={"MQTT_PORT": "x"})[0], 2)
        self.assertEqual(settings.EXIT_STATUS, 2)
        self.assert_logged("ERROR: 'a/b' is not the name of a gateway")
        self.assert_logged("ERROR: invalid MQTT_PORT")

    def test_without_paho(self):
        with mock.patch.dict("sys.modules", {"paho": None}):
            self.assertEqual(self.run_it("hall")[0], 2)
        self.assert_logged("ERROR: python3-paho-mqtt is not installed: ")

    def test_signals_end_it(self):
        for signal_number in (main.signal.SIGTERM, main.signal.SIGINT):
            with self.subTest(signal_number), mock.patch("enogate_mqtt.main.Bridge") as bridge, \
                    mock.patch("enogate_mqtt.main.import_paho"), mock.patch("signal.signal") as handlers:
                self.assertEqual(self.run_it("hall")[0], 0)
                handler_by_signal = {call.args[0]: call.args[1] for call in handlers.call_args_list}
                handler_by_signal[signal_number](signal_number, None)
                self.assertIs(bridge.return_value.is_stopped, True)
                bridge.return_value.run.assert_called_once_with()

    def test_what_is_run(self):
        """The state file decides what is adopted, and what is to be deleted."""
        fixture = BridgeFixture(self)
        words = Arguments("hall", str(fixture.lines), str(fixture.desk), str(fixture.state), "", False)
        settings = PublishingSettings("homeassistant", 60, 7200, 30, True)
        handler_by_signal = []
        for removed_topics in (set(), {"x/y"}):
            with mock.patch("enogate_mqtt.main.Bridge") as bridge, mock.patch("enogate_mqtt.main.import_paho"), \
                    mock.patch("signal.signal"):
                main.run(words, settings)
            topics, broker, devices, follower, desk, requests, store = bridge.call_args.args[:7]
            self.assertEqual(bridge.call_args.args[7:-1], (time.monotonic, time.time))
            self.assertEqual(bridge.call_args.args[-1].__self__.files.watches[:2], [
                (os.fsencode(path), inotify.FILE_EVENTS) for path in (fixture.lines, fixture.desk)])
            with mock.patch("enogate_mqtt.main.Connection") as connection:
                broker.connect(4, True)
            self.assertEqual(connection.call_args.args[2:], (topics, 4, time.monotonic, True))
            self.assertEqual((devices.label_wait, devices.clock), (30, time.monotonic))
            self.assertIs(requests.queries.devices, devices)
            handler_by_signal.append((topics.name, broker.name, devices.may_adopt, devices.removed_topics,
                                      devices.expire_after,
                                      follower.path, desk.path, requests.learn_for))
            store.save(main.NO_POSITION, [], {}, {"x/y"})
            store.connection.close()
        files = (str(fixture.lines), str(fixture.desk), 60)
        self.assertEqual(handler_by_signal, [("hall", "localhost:1883", True, set(), 7200, *files),
                                             ("hall", "localhost:1883", False, {"x/y"}, 7200, *files)])
        with mock.patch("enogate_mqtt.main.Bridge") as bridge, mock.patch("enogate_mqtt.main.import_paho"), \
                mock.patch("signal.signal"):
            main.run(words, PublishingSettings("other", 60, 7200, 30, False))
        self.assertIsNone(bridge.call_args.args[5].queries)
        self.assertLess({"x/y", "homeassistant/binary_sensor/enogate_hall/status/config"},
                        bridge.call_args.args[2].removed_topics)

    def test_what_is_printed(self):
        """With --print the settings of what is published apply, and nothing else is needed."""
        lines = b"".join(json.dumps(line).encode() + b"\n" for line in (learned("01800ABC"), reading("01800ABC")))
        out = io.StringIO()
        with mock.patch("sys.argv", ["enogate-mqtt", "--print", "hall"]), mock.patch("signal.signal") as handler, \
                mock.patch("os.environ", {"MQTT_DISCOVERY": "ha", "MQTT_EXPIRE_AFTER": "7200"}), \
                mock.patch("sys.stdin", mock.Mock(buffer=io.BytesIO(lines))), \
                mock.patch("enogate_mqtt.log.set_up_logging"), contextlib.redirect_stdout(out):
            self.assertEqual(main.main(), 0)
        # a pipe that is closed ends it without a message
        handler.assert_called_once_with(main.signal.SIGPIPE, main.signal.SIG_DFL)
        words_by_topic = {line.split(" ")[0]: line.split(" ", 2)[1:] for line in out.getvalue().splitlines()}
        self.assertEqual(words_by_topic["enogate/hall/01800ABC/TMP"], ["retained", "20"])
        self.assertEqual(words_by_topic["enogate/hall/lines"], ["-", json.dumps(reading("01800ABC"))])
        kind, config = words_by_topic["ha/sensor/enogate_hall/01800ABC_TMP/config"]
        self.assertEqual((kind, json.loads(config)["expire_after"]), ("retained", 7200))

    def test_an_interrupt(self):
        with mock.patch("enogate_mqtt.main.run", side_effect=KeyboardInterrupt):
            self.assertEqual(self.run_it("hall")[0], 1)

    def test_another_prefix(self):
        """The messages below the old prefix are deleted."""
        fixture = BridgeFixture(self)
        store = main.Store(str(fixture.state), "old")
        store.save(main.NO_POSITION, ["01800ABC"], {"01800ABC": Device("01800ABC", "D5-00-01", "")}, set())
        second_store = main.Store(str(fixture.state), "new")
        topics = main.old_discovery_topics(main.Topics("hall", "new"), second_store)
        self.assertIn("old/binary_sensor/enogate_hall/01800ABC_CO/config", topics)
        self.assertIn("old/binary_sensor/enogate_hall/status/config", topics)
        self.assertEqual(main.old_discovery_topics(main.Topics("hall", "old"), second_store), set())
        self.assertEqual(main.old_discovery_topics(main.Topics("hall", ""), second_store), topics)


if __name__ == "__main__":
    unittest.main()
