"""The command `enogate-mqtt`: what it prints of lines of a gateway, and the settings and words that it refuses."""
from __future__ import annotations

import json
import os
import pathlib
import re
import subprocess
import tempfile
import unittest

COMMAND = pathlib.Path(__file__).resolve().parents[2] / "contrib" / "enogate-mqtt"
PYTHON = "/usr/bin/python3"
# In seconds. Only a run that hangs is stopped by this limit.
TIMEOUT = 60

DEVICE = "enogate/hall/01800ABC"
ACCEPTED = '{"eep":"D5-00-01","id":"01800ABC","maker":null,"result":"accepted","type":"teach"}'
READING = '{"dbm":-45,"eep":"D5-00-01","id":"01800ABC","readings":[{"name":"CO","word":"closed"}],"type":"reading"}'
PACKET = '{"dbm":-45,"dest":null,"eep":"D5-00-01","id":"01800ABC","payload":"09","rorg":"D5","type":"packet"}'
CONTACT_CONFIG = "homeassistant/binary_sensor/enogate_hall/01800ABC_CO/config"
# What is printed to delete a retained message.
DELETED = "{} retained "


def reading(eep, *readings, device="01800ABC"):
    """A line of a gateway with these readings of a device."""
    return json.dumps({"dbm": None, "eep": eep, "id": device, "readings": list(readings), "type": "reading"})


def fraction_reading(text):
    """A reading with this fraction."""
    return dict(zip(("num", "den"), map(int, text.split("/"))), name="TMP", unit="C")


@unittest.skipUnless(os.path.exists(PYTHON) or os.environ.get("SKIP_NOTHING"), f"{PYTHON} is not installed")
class CommandTest(unittest.TestCase):
    maxDiff = None

    def run_command(self, *words, lines=(), **variables):
        """Runs the command with these words, lines on its standard input, and environment variables."""
        line_text = "".join(f"{line}\n" for line in lines).encode(errors="surrogateescape")
        environment = {**os.environ, **variables}
        return subprocess.run([COMMAND, *words], input=line_text, capture_output=True, env=environment, timeout=TIMEOUT)

    def printed_messages(self, *lines, **variables):
        """What the command prints of these lines, by line, and its journal."""
        run = self.run_command("--print", "hall", lines=lines, **variables)
        self.assertEqual(run.returncode, 0)
        return run.stdout.decode().splitlines(), run.stderr.decode().splitlines()


class PrintedMessages(CommandTest):
    """`--print` needs no broker."""

    def reading_messages(self, eep, subtopic, *readings):
        """What is published on this subtopic for each of the readings."""
        topic_start = f"{DEVICE}/{subtopic} retained "
        messages, _ = self.printed_messages(*(reading(eep, members) for members in readings))
        return [message.removeprefix(topic_start) for message in messages if message.startswith(topic_start)]

    def test_what_is_printed(self):
        """A line that is no JSON is reported. The last line is of a type that the bridge does not have to know."""
        messages, journal = self.printed_messages(ACCEPTED, '{"dbm":-45,"eep":"D5', READING, PACKET)
        self.assertEqual([message for message in messages if not message.startswith("homeassistant/")], [
            f"enogate/hall/lines - {ACCEPTED}",
            f"enogate/hall/lines - {READING}",
            f"{DEVICE}/CO retained closed",
            f"{DEVICE}/dbm retained -45",
            f"enogate/hall/lines - {PACKET}",
        ])
        self.assertEqual(sum(message.startswith(f"{CONTACT_CONFIG} retained {{") for message in messages), 1)
        self.assertEqual(journal, ["enogate-mqtt: invalid line ignored: b'{\"dbm\":-45,\"eep\":\"D5'"])

    def test_decimal_numbers(self):
        text_by_fraction = {
            "1024/51": "20.0784", "-1/3": "-0.333333", "2/3": "0.666667", "200001/2": "100000.5",
            "200003/2": "100001.5", "1234567/100": "12345.67", "12345678/5": "2469135.6",
            "999999999/1000": "999999.999", "1/3000000": "0.000000333333", "-100/1": "-100", "0/1": "0",
            "4294967295/1": "4294967295",
        }
        self.assertEqual(self.reading_messages("A5-02-05", "TMP", *map(fraction_reading, text_by_fraction)),
                         [*text_by_fraction.values()])

    def test_words_and_raw_numbers(self):
        for eep, value, text in (("A5-10-05", {"name": "SP", "raw": 255}, "255"),
                                 ("A5-10-05", {"name": "OCC", "word": "pressed"}, "pressed"),
                                 ("A5-04-01", {"name": "HUM", "out_of_range": 251}, "out_of_range")):
            with self.subTest(value):
                self.assertEqual(self.reading_messages(eep, value["name"], value), [text])

    def test_lines_of_no_gateway(self):
        """They are reported and not published. A line that is not understood is only published as it is."""
        no_lines = ["[]", '{"type":', "\udcff", '{"type":"\udcfc"}', ""]
        not_understood = [
            '{"type":"reading"}', '{"count":true,"type":"list"}', reading("A5-02-05", fraction_reading("1/0")),
            reading("A5-02-05", {"name": "../#", "word": "on"}), reading("A5-02-05", {"name": "TMP", "raw": 1.5}),
            reading("D5-00-01", {"name": "CO", "word": "closed"}, device="+"),
        ]
        messages, journal = self.printed_messages(*no_lines, *not_understood)
        self.assertEqual(messages, [f"enogate/hall/lines - {line}" for line in not_understood])
        line_starts = ("invalid line ignored: ", "line with unexpected members, not decoded: ")
        self.assertEqual([sum(start in entry for entry in journal) for start in line_starts],
                         [len(no_lines), len(not_understood)])

    def test_presses(self):
        """A press is an event of its rocker, a release is one event, and neither is retained."""
        pressed, released = ({"name": "EB", "word": word} for word in ("pressed", "released"))
        messages, _ = self.printed_messages(*(reading("F6-02-01", *members) for members in (
            [{"name": "R1", "word": "AI"}, pressed, {"name": "R2", "word": "B0"}],
            [{"name": "R1", "word": "AI"}, released],
            [{"name": "buttons", "word": "none"}, released],
            [{"name": "buttons", "word": "three_or_four"}, pressed],
            [{"name": "R1", "out_of_range": 5}, pressed],
        )))
        self.assertEqual([message for message in messages if "/press" in message.split(" ")[0]], [
            f'{DEVICE}/press - {{"event_type":"{event_type}"}}'
            for event_type in ("AI", "B0", "released", "released", "three_or_four")
        ])

    def test_lists(self):
        """A list deletes the devices that are not on it, if it is complete."""
        other_device_line = '{"eep":"D5-00-01","id":"01800ABD","label":"","maker":null,"type":"device"}'
        end_line = '{"count":1,"type":"list"}'
        for lines, count in (([other_device_line, end_line], 1), ([end_line], 0),
                             ([other_device_line, READING, end_line], 0), ([other_device_line, "torn", end_line], 0)):
            with self.subTest(lines):
                messages, _ = self.printed_messages(ACCEPTED, READING, *lines)
                self.assertEqual(messages.count(DELETED.format(CONTACT_CONFIG)), count)

    def test_a_changed_profile(self):
        """The device is announced again, and what was retained for its first profile is deleted."""
        teach_line = '{"eep":"A5-02-05","id":"01800ABC","maker":70,"result":"accepted","type":"teach"}'
        messages_before, _ = self.printed_messages(ACCEPTED, READING)
        messages, _ = self.printed_messages(ACCEPTED, READING, teach_line)
        self.assertEqual(messages[: len(messages_before)], messages_before)
        config_form = "homeassistant/sensor/enogate_hall/01800ABC_{}/config retained"
        self.assertEqual([message.split(" {")[0] for message in messages[len(messages_before) :]], [
            "enogate/hall/lines -", *map(DELETED.format, (f"{DEVICE}/CO", f"{DEVICE}/dbm", CONTACT_CONFIG)),
            *map(config_form.format, ("TMP", "dbm", "last_seen")),
        ])

    def test_discovery(self):
        messages, _ = self.printed_messages(ACCEPTED, READING, MQTT_DISCOVERY="")
        self.assertEqual([message.split(" ")[0] for message in messages],
                         ["enogate/hall/lines", "enogate/hall/lines", f"{DEVICE}/CO", f"{DEVICE}/dbm"])
        messages, _ = self.printed_messages(ACCEPTED, MQTT_DISCOVERY="ha/found")
        self.assertEqual(
            sum(message.startswith("ha/found/binary_sensor/enogate_hall/01800ABC_CO/config retained {")
                for message in messages), 1)


    def test_expiry(self):
        """Without the setting, each kind of device has a time of its own."""
        temperature = ACCEPTED.replace("D5-00-01", "A5-02-05")
        for variables, expected_times in (({}, [5400, 3600]), ({"MQTT_EXPIRE_AFTER": "auto"}, [5400, 3600]),
                                          ({"MQTT_EXPIRE_AFTER": "60"}, [60, 60]), ({"MQTT_EXPIRE_AFTER": ""}, [])):
            with self.subTest(variables):
                messages = self.printed_messages(ACCEPTED, temperature, **variables)[0]
                self.assertEqual([int(digits) for digits in re.findall('"expire_after":([0-9]+)',
                                                                       "\n".join(messages))], expected_times)


class RefusedArguments(CommandTest):
    """A wrong setting or word ends the command with one line, and the status at which its unit is not restarted."""

    def assert_refused(self, expected_error, *words, **variables):
        run = self.run_command(*words, **variables)
        status_and_output = run.returncode, run.stdout, run.stderr.decode()
        self.assertEqual(status_and_output, (2, b"", f"enogate-mqtt: {expected_error}\n"))

    def test_settings(self):
        work = pathlib.Path(self.enterContext(tempfile.TemporaryDirectory()))
        (work / "empty").write_text("\n")
        empty_file, missing_file, no_such_file = str(work / "empty"), str(work / "none"), "No such file or directory"
        paths = ["--lines", str(work / "lines"), "--desk", str(work / "desk"), "--state", str(work / "state")]
        for expected_error, variables in (
            ("MQTT_HOST is empty", {"MQTT_HOST": ""}),
            ("invalid MQTT_PORT: 65536 (expected 1 to 65535)", {"MQTT_PORT": "65536"}),
            ("invalid MQTT_PORT: mqtt (expected 1 to 65535)", {"MQTT_PORT": "mqtt"}),
            (f"cannot read MQTT_PASSWORD_FILE: {missing_file}: {no_such_file}",
             {"MQTT_USER": "hall", "MQTT_PASSWORD_FILE": missing_file}),
            (f"first line of MQTT_PASSWORD_FILE is empty: {empty_file}",
             {"MQTT_USER": "hall", "MQTT_PASSWORD_FILE": empty_file}),
            ("MQTT_PASSWORD_FILE is set, but MQTT_USER is not", {"MQTT_PASSWORD_FILE": str(COMMAND)}),
            ("invalid MQTT_TLS: on (expected yes or no)", {"MQTT_TLS": "on"}),
            ("MQTT_CA_FILE is set, but MQTT_TLS is not yes", {"MQTT_CA_FILE": "ca.crt"}),
            (f"cannot load MQTT_CA_FILE: {missing_file}: {no_such_file}",
             {"MQTT_TLS": "yes", "MQTT_CA_FILE": missing_file}),
            ("MQTT_KEY_FILE is set, but MQTT_CERT_FILE is not", {"MQTT_TLS": "yes", "MQTT_KEY_FILE": "hall.key"}),
            (f"cannot load MQTT_CERT_FILE and MQTT_KEY_FILE: {missing_file}: {no_such_file}",
             {"MQTT_TLS": "yes", "MQTT_CERT_FILE": missing_file}),
            ("invalid MQTT_LEARN_SECONDS: 2m (expected a number of seconds)", {"MQTT_LEARN_SECONDS": "2m"}),
            ("invalid MQTT_EXPIRE_AFTER: 1h (expected auto, a number of seconds, or nothing)",
             {"MQTT_EXPIRE_AFTER": "1h"}),
            ("invalid MQTT_DISCOVERY: home/# (expected a topic without # and +)", {"MQTT_DISCOVERY": "home/#"}),
        ):
            with self.subTest(expected_error):
                self.assert_refused(expected_error, *paths, "hall", **variables)

    def test_words(self):
        for expected_error, *words in (
            ("--lines, --desk and --state are required, except with --print", "hall"),
            ("'hall/+' is not the name of a gateway: use letters, digits, - and _, and do not begin it with - or mqtt",
             "--print", "hall/+"),
            ("the following arguments are required: NAME", "--print"),
            ("unrecognized arguments: --host", "--print", "--host", "hall"),
        ):
            with self.subTest(words):
                self.assert_refused(expected_error, *words)


if __name__ == "__main__":
    unittest.main()
