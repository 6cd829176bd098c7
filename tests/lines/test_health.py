"""Which devices are silent, have a weak signal, or have a low battery."""
import dataclasses
import math
import pathlib
import re
import unittest
from unittest import mock

from enogate_lines.entities import MISSED_INTERVALS, Table
from enogate_lines.health import LOW_VOLTAGE, SUPPLY_VOLTAGE, WEAK_SIGNAL, ObservedDevice, health_of, longest_silence

ROOT = pathlib.Path(__file__).parents[2]
TABLE = Table()
NOW = 1_796_000_000.0


def device(name, eep="A5-02-05", age=None, **reported):
    """A device whose last telegram came so many seconds ago."""
    return ObservedDevice(name, eep, reported, None if age is None else NOW - age)


class HealthOfDevices(unittest.TestCase):
    def health(self, *devices):
        return health_of(devices, TABLE, NOW)

    def test_no_device(self):
        self.assertEqual(self.health(), ([], [], [], [], None))

    def test_silence(self):
        """It begins after three times the longest usual interval of the profile."""
        health = self.health(device("04", age=3601), device("01", age=3600), device("03", age=9999),
                             device("02", age=0), device("05"), device("06", age=-1), device("07", "D5-00-01", 5400),
                             device("08", "D5-00-01", 5401), device("09", "F6-02-01", 10 ** 9))
        self.assertEqual(health[:2], (["01", "02", "07", "09"], ["03", "04", "08"]))
        self.assertEqual(health.last_telegram, NOW)

    def test_intervals(self):
        """They are those of the table: the longest one of the readings of a profile."""
        for eep in {row.profiles.replace("?", "1") for row in TABLE.rows}:
            rows = TABLE.rows_of_profile(eep).values()
            cyclic = [int(row.more["cyclic"]) for row in rows if "cyclic" in row.more]
            self.assertEqual(longest_silence(eep, TABLE), MISSED_INTERVALS * max(cyclic, default=math.inf), eep)
        self.assertEqual(longest_silence("A5-FF-FF", TABLE), math.inf)
        row = TABLE.rows_of_profile("D5-00-01")["CO", ""]
        rows = {seconds: dataclasses.replace(row, more={"cyclic": seconds}) for seconds in ("60", "90", "30")}
        with mock.patch.object(TABLE, "rows_of_profile", return_value=rows):
            self.assertEqual(longest_silence("D5-00-01", TABLE), 270)

    def test_limits(self):
        health = self.health(device("1", dbm="-85", SVC="2.5"), device("2", dbm="-86", SVC="2.49"), device("3"),
                             device("0", dbm="-99.5", SVC="-0.1"), device("4", dbm="", SVC="out_of_range"),
                             device("5", dbm="nan", SVC="2,4"))
        self.assertEqual(health[2:], (["0", "2"], ["0", "2"], None))

    def test_the_guide(self):
        """It has the limits, also of a weak signal in another page, and the profiles with a supply voltage."""
        page = " ".join((ROOT / "docs/guide/health.md").read_text("utf-8").split())
        self.assertIn(f"with less than {WEAK_SIGNAL} dBm", page)
        radio_page = (ROOT / "docs/guide/radio.md").read_text("utf-8")
        self.assertIn(f"| less than {WEAK_SIGNAL} | 1 |", radio_page)
        self.assertIn(f"with at least {WEAK_SIGNAL} dBm", radio_page)
        self.assertIn(f"its last reading `{SUPPLY_VOLTAGE}`, the supply voltage, is below {LOW_VOLTAGE} V", page)
        reporting = {row.profiles[:5] for row in TABLE.rows if row.reading == SUPPLY_VOLTAGE}
        self.assertEqual(set(re.findall("`(A5-..)`", re.search(r"\| has a low battery \|.*", page)[0].split("||")[0])),
                         reporting)


if __name__ == "__main__":
    unittest.main()
