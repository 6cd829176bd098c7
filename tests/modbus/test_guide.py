"""The guide, the settings file and the manual page agree with the program."""
from __future__ import annotations

import pathlib
import re
import unittest

from enogate_lines.entities import AUTO
from enogate_modbus import main, protocol, readings, register_map
from manuals import manual, paths_in_manual, paths_of_unit, settings_files_in
from modbus_testcase import TABLE

ROOT = pathlib.Path(__file__).resolve().parents[2]
GUIDE = (ROOT / "docs/guide/modbus.md").read_text()
SETTINGS = (ROOT / "contrib/enogate-modbus.default").read_text()
MANUAL = manual("enogate-modbus")
SERVED_ROWS = [row for row in TABLE.rows if row.topic and row.entity not in ("", "event")]
SETTING_NAMES = {"MODBUS_ADDRESS", "MODBUS_PORT", "MODBUS_ORDERS", "MQTT_HOST", "MQTT_PORT", "MQTT_USER",
                 "MQTT_PASSWORD_FILE", "MQTT_TLS", "MQTT_CA_FILE", "MQTT_CERT_FILE", "MQTT_KEY_FILE",
                 "MQTT_DISCOVERY", "MQTT_EXPIRE_AFTER"}


def table_below(heading: str) -> list[list[str]]:
    """The cells of the rows of the first table below a heading."""
    section = GUIDE.split(f"\n## {heading}\n")[1].split("\n## ")[0]
    rows = [line.strip("|").split("|") for line in section.split("\n") if line.startswith("|")]
    return [[cell.strip(" `") for cell in cells] for cells in rows]


class Guide(unittest.TestCase):
    maxDiff = None

    def test_the_words_as_numbers(self):
        """Each word of each reading is in the table of the page, below its number. Digits are no words."""
        words_by_name = {row.topic: row.words("options") or row.words("off") + row.words("on") for row in SERVED_ROWS}
        expected_words = {name: words for name, words in words_by_name.items() if words not in ([], ["0", "1"])}
        head, _, *rows = table_below("Words as numbers")
        self.assertEqual(head, ["Reading", "0", "1", "2", "3"])
        self.assertEqual({name: [word for word in words if word] for name, *words in rows}, expected_words)

    def test_when_readings_expire(self):
        lifetimes = {row.topic: max(other.expires_after(AUTO) for other in SERVED_ROWS if other.topic == row.topic)
                     for row in SERVED_ROWS if "cyclic" in row.more}
        self.assertEqual({name for name, seconds in lifetimes.items() if seconds == 3600}, {"HUM", "CONC", "SP"})
        self.assertEqual(set(lifetimes.values()), {3600, 5400})
        self.assertIn("for 90 minutes, or 60 for `HUM`,\n`CONC` and `SP`", GUIDE)

    def test_the_limits(self):
        text = " ".join(GUIDE.split())
        for sentence in (f"at most {protocol.MAX_CONNECTIONS} connections, {protocol.MAX_CONNECTIONS_OF_ADDRESS} from "
                         f"one address, and ends one that has no request for {protocol.IDLE_WITHIN / 60:.0f} minutes",
                         f"{main.MAX_ORDERS} orders may be given at once, then two per second",
                         f"after {register_map.MAX_READINGS:,} rows, new readings get no registers",
                         f"the port is {main.DEFAULT_PORT}, not 502",
                         f"{readings.MAX_AGE} if this is unknown or longer"):
            self.assertIn(sentence, text)
        self.assertEqual(main.ORDERS_PER_SECOND, 2)

    def test_qualities_and_exceptions(self):
        section = GUIDE.split("## Registers of a reading")[1].split("\n## ")[0]
        self.assertEqual(re.findall(r"^\| ([0-9]) \| ([a-z]+)", section, re.MULTILINE),
                         [(str(readings.NO_READING), "no"), (str(readings.GOOD), "good"),
                          (str(readings.STALE), "stale"), (str(readings.NO_NUMBER), "not")])
        section = GUIDE.split("## Orders")[1].split("\n## ")[0]
        self.assertEqual(list(map(int, re.findall(r"^\| ([0-9]+) \|", section, re.MULTILINE))),
                         [protocol.ILLEGAL_FUNCTION, protocol.ILLEGAL_ADDRESS, protocol.ILLEGAL_VALUE,
                          protocol.DEVICE_BUSY, protocol.NO_RESPONSE])

    def test_the_map_of_the_guide(self):
        """It has the form of the file: each row has the columns that the program writes."""
        block = GUIDE.split("hall.csv\n")[1].split("```")[0].splitlines()
        self.assertEqual(block[0], ",".join(register_map.COLUMNS))
        for number, line in enumerate(block[1:]):
            columns = line.split(",")
            self.assertEqual(columns[:3], register_map.first_columns(number, columns[2]))


class SettingsFile(unittest.TestCase):
    def test_settings_and_manual_page(self):
        self.assertEqual(set(re.findall("^([A-Z_]+)=", SETTINGS, re.MULTILINE)), SETTING_NAMES)
        environment = MANUAL.split(".SH ENVIRONMENT")[1].split(".SH FILES")[0]
        self.assertEqual(set(re.findall("M(?:ODBUS|QTT)_[A-Z_]+", environment)), SETTING_NAMES)

    def test_the_files_of_the_unit(self):
        """The manual page has all that the unit uses. The program itself knows none of them."""
        self.assertEqual(paths_in_manual("enogate-modbus"), [
            "/etc/default/enogate.modbus", "/etc/default/enogate.modbus-NAME", "/etc/credstore/enogate-modbus-NAME",
            "/var/lib/enogate-modbus/NAME.csv"])
        self.assertEqual(paths_of_unit("enogate-modbus"), paths_in_manual("enogate-modbus"))
        for text in MANUAL, GUIDE, SETTINGS:
            self.assertEqual(settings_files_in(text), set(paths_in_manual("enogate-modbus")[:2]))

    def test_the_file_alone_starts_no_server(self):
        environment = dict(re.findall("^([A-Z_]+)=(.*)$", SETTINGS, re.MULTILINE))
        with self.assertRaisesRegex(main.WrongSetting, "^invalid MODBUS_ADDRESS"):
            main.read_server_settings(environment)
        self.assertEqual(main.read_server_settings({**environment, "MODBUS_ADDRESS": "192.0.2.10"}),
                         ("192.0.2.10", 1502, False))
