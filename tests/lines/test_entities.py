"""Tests of the table of entities: its lines, and the subtopics and events of telegrams."""
from __future__ import annotations

import os
import pathlib
import subprocess
import sys
import tempfile
import unittest

from enogate_lines.contents import Reading, Telegram
from enogate_lines.entities import AUTO, GREATEST_CHANNEL, Table, WrongTable, parsed_entity_row

TABLE = Table()
HERE = pathlib.Path(__file__).resolve().parent
ENTITIES = HERE.parents[1] / "contrib/share/entities"


def value(name: str, text: str, unit: str) -> Reading:
    return Reading(name, unit, text, None)


def word(name: str, text: str) -> Reading:
    return Reading(name, "", text, None)


def raw(name: str, raw_number: int) -> Reading:
    return Reading(name, "", str(raw_number), raw_number)


def telegram(eep: str, *readings: Reading, dbm: int | None = None) -> Telegram:
    return Telegram("01800ABC", eep, dbm, readings)


def state(channel: int, output: str = "100") -> list[Reading]:
    """A part of the readings of a D2-01 state."""
    return [raw("PF", 0), word("EL", "ok"), raw("IO", channel), value("OV", output, "%")]


def row(eep: str, reading: str, unit: str = ""):
    return TABLE.rows_of_profile(eep)[reading, unit]


def table_of(text: str) -> Table:
    with tempfile.TemporaryDirectory() as folder:
        path = pathlib.Path(folder, "entities")
        path.write_text(text, "utf-8")
        return Table(path)


class TableLines(unittest.TestCase):
    """The lines of the table."""

    def test_a_line(self):
        entity_row = parsed_entity_row(
            'D2-01-1? MV kWh MV_kWh IO?2 sensor "All energy" class=energy unit=kWh diagnostic')
        self.assertEqual((entity_row.profiles, entity_row.reading, entity_row.unit, entity_row.topic),
                         ("D2-01-1?", "MV", "kWh", "MV_kWh"))
        self.assertEqual((entity_row.by, entity_row.count, entity_row.from_the_start), ("IO", 2, False))
        self.assertEqual((entity_row.entity, entity_row.name), ("sensor", "All energy"))
        self.assertEqual(entity_row.more, {"class": "energy", "unit": "kWh", "diagnostic": ""})

    def test_a_line_with_nothing_but_its_reading(self):
        entity_row = parsed_entity_row("D2-01-?? UN - - - - -")
        self.assertEqual((entity_row.unit, entity_row.topic, entity_row.by, entity_row.count), ("", "", "", 0))
        self.assertEqual((entity_row.entity, entity_row.name, entity_row.more), ("", "", {}))

    def test_channels_from_the_start(self):
        entity_row = parsed_entity_row("D2-01-0? OV % OV IO:1 switch -")
        self.assertEqual((entity_row.by, entity_row.count, entity_row.from_the_start), ("IO", 1, True))

    def test_a_wrong_line(self):
        for line in ["A5-02-?? TMP C TMP - sensor", 'A5-02-?? TMP C TMP - sensor "Temperature',
                     "A5-02-?? TMP C TMP - sensor Temperature hiden",
                     "A5-02-?? TMP C TMP - sensor Temperature digits", "A5-02-?? TMP C TMP - sensor T digits=-1",
                     "A5-02-?? TMP C TMP - sensor T digits=10", "A5-02-?? TMP C TMP - sensor T digits=1.0",
                     "A5-02-?? TMP C TMP - sensor T cyclic", "A5-02-?? TMP C TMP - sensor T cyclic=0",
                     "A5-02-?? TMP C TMP - sensor T cyclic=1h", "A5-02-?? TMP C TMP TI:x sensor Temperature"]:
            with self.assertRaises(WrongTable, msg=line):
                parsed_entity_row(line)

    def test_comments_and_blank_lines(self):
        table = table_of("# a comment\n\n  \nD5-00-01 CO - CO - binary_sensor Contact on=open off=closed\n# another\n")
        self.assertEqual([entity_row.reading for entity_row in table.rows], ["CO"])

    def test_the_first_line_that_matches_applies(self):
        table = table_of("A5-02-05 TMP C TMP - sensor First\nA5-02-?? TMP C TMP - sensor Second\n"
                         "A5-02-?? TMP K TMP_K - sensor Third\n")
        self.assertEqual([entity_row.name for entity_row in table.rows_of_profile("A5-02-05").values()],
                         ["First", "Third"])
        self.assertEqual([entity_row.name for entity_row in table.rows_of_profile("A5-02-06").values()],
                         ["Second", "Third"])
        self.assertEqual(table.rows_of_profile("a5-02-05"), {})
        self.assertEqual(table.rows_of_profile("A5-02-050"), {})

    def test_the_rows_of_a_profile_are_kept(self):
        self.assertIs(TABLE.rows_of_profile("D2-01-12"), TABLE.rows_of_profile("D2-01-12"))

    def test_rows_of_one_and_of_two_channels_are_alike(self):
        rows_of_one_channel, rows_of_two_channels = TABLE.rows_of_profile("D2-01-00"), TABLE.rows_of_profile("D2-01-12")
        self.assertEqual(list(rows_of_one_channel), list(rows_of_two_channels))
        for key, entity_row in rows_of_one_channel.items():
            other_row = rows_of_two_channels[key]
            self.assertEqual((entity_row.topic, entity_row.by, entity_row.from_the_start, entity_row.entity,
                              entity_row.more),
                             (other_row.topic, other_row.by, other_row.from_the_start, other_row.entity,
                              other_row.more), key)
            self.assertEqual((entity_row.count, other_row.count), (1, 2) if entity_row.by else (0, 0), key)
            self.assertEqual(other_row.name, "Channel" if key == ("OV", "%") else entity_row.name)

    def test_names_differ_within_a_profile(self):
        for eep in ["A5-08-01", "A5-10-05", "A5-12-01", "D2-01-00", "D2-01-02", "D2-01-12", "D2-05-00"]:
            names = [entity_row.name for entity_row in TABLE.rows_of_profile(eep).values() if entity_row.entity]
            self.assertEqual(len(names), len(set(names)), eep)

    def test_how_entities_are_shown(self):
        for eep, hidden, diagnostic in [
            ("D2-01-12", {"PF", "LC"}, {"PFD", "OC", "EL"}), ("D2-05-00", set(), {"LOCK"}),
            ("A5-06-01", set(), {"SVC"}), ("A5-07-01", set(), {"SVC"}), ("A5-08-01", set(), {"SVC"}),
        ]:
            rows = TABLE.rows_of_profile(eep).values()
            self.assertEqual({entity_row.reading for entity_row in rows if "hidden" in entity_row.more}, hidden, eep)
            self.assertEqual({entity_row.reading for entity_row in rows if "diagnostic" in entity_row.more}, diagnostic,
                             eep)

    def test_states(self):
        for eep, reading, device_class, on_word, off_word in [
            ("D5-00-01", "CO", "opening", "open", "closed"), ("A5-07-01", "PIRS", "motion", "on", "off"),
            ("A5-08-01", "PIRS", "motion", "on", "off"), ("A5-08-01", "OCC", None, "pressed", "released"),
            ("A5-10-05", "OCC", None, "pressed", "released"), ("D2-01-12", "PF", None, "1", "0"),
            ("D2-01-12", "PFD", "problem", "1", "0"), ("D2-01-12", "OC", "problem", "1", "0"),
            ("D2-01-12", "LC", None, "1", "0"),
        ]:
            config = row(eep, reading).more
            self.assertEqual((config.get("class"), config["on"], config["off"]), (device_class, on_word, off_word),
                             (eep, reading))

    def test_meters(self):
        for eep, unit, device_class, name in [
            ("A5-12-01", "kWh", "energy", "Energy"), ("A5-12-01", "W", "power", "Power"),
            ("A5-12-02", "m3", "gas", "Gas"), ("A5-12-02", "l/s", None, "Gas flow"),
            ("A5-12-03", "m3", "water", "Water"), ("A5-12-03", "l/s", None, "Water flow"),
        ]:
            entity_row = row(eep, "MR", unit)
            self.assertEqual((entity_row.more.get("class"), entity_row.name), (device_class, name), (eep, unit))

    def test_digits(self):
        """What a dashboard shows of a value. entities.py compares them with the profiles."""
        for eep, reading, unit, digits in [
            ("A5-02-05", "TMP", "C", 1), ("A5-02-20", "TMP", "C", 2), ("A5-02-30", "TMP", "C", 1),
            ("A5-04-01", "HUM", "%", 1), ("A5-06-01", "ILL1", "lx", 0), ("A5-07-01", "SVC", "V", 2),
            ("A5-09-04", "CONC", "ppm", 0), ("A5-10-05", "SP", "", 0), ("A5-12-01", "MR", "W", 0),
            ("A5-12-01", "MR", "kWh", 2), ("A5-12-03", "MR", "l/s", 3), ("D2-01-12", "MV", "W", 0),
            ("D2-05-00", "ANG", "%", 0), ("D2-05-00", "POS", "%", None), ("D2-01-02", "OV", "%", None),
            ("D5-00-01", "CO", "", None), ("D2-01-12", "EL", "", None),
        ]:
            self.assertEqual(row(eep, reading, unit).digits, digits, (eep, reading, unit))

    def test_each_reading_of_each_profile_has_a_row(self):
        """entities.py reads the table with code of its own, and prints what is wrong."""
        run = subprocess.run([sys.executable, "-B", HERE / "entities.py", ENTITIES], stdout=subprocess.PIPE,
                             stderr=subprocess.STDOUT, text=True, env={**os.environ, "PYTHONPATH": str(HERE.parent)})
        self.assertEqual((run.stdout, run.returncode), ("", 0))

    def test_which_rows_have_digits(self):
        """Each sensor with a unit or a state class is a number for Home Assistant."""
        for entity_row in TABLE.rows:
            is_number = entity_row.entity == "sensor" and ("unit" in entity_row.more or "state" in entity_row.more)
            self.assertEqual(entity_row.digits is not None, is_number, entity_row)

    def test_cyclic_readings(self):
        """When they expire: by the setting, or after three times 20 or 30 minutes."""
        for eep, reading, unit, config_text in [
            ("A5-02-05", "TMP", "C", 3600), ("A5-02-20", "TMP", "C", 3600), ("A5-04-01", "HUM", "%", 3600),
            ("A5-06-01", "ILL2", "lx", 3600), ("A5-07-01", "PIRS", "", 5400), ("A5-08-03", "OCC", "", 5400),
            ("A5-09-04", "CONC", "ppm", 3600), ("A5-10-05", "SP", "", 3600), ("D5-00-01", "CO", "", 5400),
        ]:
            entity_row = row(eep, reading, unit)
            self.assertEqual([entity_row.expires_after(setting) for setting in (AUTO, 1, 7200, None)],
                             [config_text, 1, 7200, None], (eep, reading))

    def test_readings_that_are_not_cyclic(self):
        for eep, reading, unit in [("A5-12-01", "MR", "kWh"), ("F6-02-01", "R1", ""), ("D2-01-12", "OV", "%"),
                                   ("D2-05-00", "POS", "%")]:
            entity_row = row(eep, reading, unit)
            self.assertEqual([entity_row.expires_after(setting) for setting in (AUTO, 7200, None)], [None] * 3, eep)


class RowEntities(unittest.TestCase):
    """The subtopics, names and numbers of entities."""

    def test_subtopics(self):
        self.assertEqual(row("A5-06-01", "ILL2", "lx").subtopic(None), "ILL")
        self.assertEqual(row("D2-01-12", "OV", "%").subtopic(0), "OV/0")
        self.assertEqual(row("A5-12-01", "MR", "kWh").subtopic(15), "MR_kWh/15")

    def test_titles(self):
        for eep, reading, unit, channel, title in [
            ("D5-00-01", "CO", "", None, "Contact"),
            ("D2-01-0F", "OV", "%", 0, None), ("D2-01-0F", "OV", "%", 1, "1"),
            ("D2-01-12", "OV", "%", 0, "Channel 0"), ("D2-01-12", "OV", "%", 1, "Channel 1"),
            ("A5-12-01", "MR", "kWh", 0, "Energy"), ("A5-12-01", "MR", "kWh", 1, "Energy 1"),
            ("D2-01-12", "MV", "W", 0, "Power 0"), ("D2-05-00", "POS", "%", 0, None),
            ("A5-08-01", "OCC", "", None, "Occupancy button"),
        ]:
            self.assertEqual(row(eep, reading, unit).title(channel), title, (eep, reading, channel))

    def test_words(self):
        self.assertEqual(row("F6-02-01", "R1").words("types"), ["AI", "A0", "BI", "B0"])
        self.assertEqual(row("F6-02-01", "R1").words("options"), [])
        self.assertEqual(row("D2-01-12", "EL").words("options"), ["ok", "warning", "failure", "not_supported"])

    def test_numbers_from_the_start(self):
        self.assertEqual(row("A5-02-05", "TMP", "C").entity_numbers(["TMP"]), [None])
        self.assertEqual(row("D2-01-0F", "OV", "%").entity_numbers([]), [0])
        self.assertEqual(row("D2-01-12", "OV", "%").entity_numbers([]), [0, 1])
        self.assertEqual(row("A5-12-01", "MR", "kWh").entity_numbers([]), [0])

    def test_numbers_of_measurements_when_they_are_reported(self):
        entity_row = row("D2-01-12", "MV", "W")
        self.assertEqual(entity_row.entity_numbers([]), [])
        self.assertEqual(entity_row.entity_numbers(["MV_W/1", "MV_kWh/0", "MV"]), [1])

    def test_numbers_that_are_reported_later(self):
        entity_row = row("A5-12-01", "MR", "kWh")
        self.assertEqual(entity_row.entity_numbers(["MR_kWh/9", "MR_kWh/10", "MR_kWh/2", "MR_W/5", "MR_kWh"]),
                         [0, 2, 9, 10])

    def test_a_subtopic_that_is_no_number(self):
        entity_row = row("A5-12-01", "MR", "kWh")
        for subtopic_end in ["", "x", "-1", "01", "100", "1/2", "1 ", "\u0661"]:
            self.assertEqual(entity_row.entity_numbers([f"MR_kWh/{subtopic_end}", "5"]), [0], subtopic_end)

    def test_channels_that_take_no_commands(self):
        self.assertEqual(GREATEST_CHANNEL, {"switch": 29, "light": 29, "cover": 0})
        subtopics = ["OV/29", "OV/30", "PF/30"]
        self.assertEqual(row("D2-01-12", "OV", "%").entity_numbers(subtopics), [0, 1, 29])
        self.assertEqual(row("D2-01-02", "OV", "%").entity_numbers(subtopics), [0, 29])
        self.assertEqual(row("D2-01-12", "PF").entity_numbers(subtopics), [0, 1, 30])
        self.assertEqual(row("D2-05-00", "POS", "%").entity_numbers(["POS/0", "POS/1", "ANG/1"]), [0])
        self.assertEqual(row("D2-05-00", "ANG", "%").entity_numbers(["POS/0", "POS/1", "ANG/1"]), [0, 1])


class TelegramReadings(unittest.TestCase):
    """Which row a reading has, and where it is published."""

    def test_the_row_of_a_reading(self):
        for eep, reading, topic in [
            ("A5-12-01", value("MR", "1", "kWh"), "MR_kWh"), ("A5-12-01", value("MR", "1", "W"), "MR_W"),
            ("A5-04-01", word("HUM", "out_of_range"), "HUM"), ("D2-05-00", word("POS", "unknown"), "POS"),
            ("D2-01-12", word("MV", "out_of_range"), ""), ("D5-00-01", word("CO", "open"), "CO"),
        ]:
            self.assertEqual(TABLE.row_of_reading(eep, reading).topic, topic, reading)

    def test_readings_without_a_row(self):
        for eep, reading in [
            ("A5-12-01", word("MR", "out_of_range")), ("A5-02-05", value("TMP", "1", "K")),
            ("A5-02-05", word("XYZ", "on")), ("A5-FF-FF", value("TMP", "1", "C")),
        ]:
            self.assertIsNone(TABLE.row_of_reading(eep, reading), reading)

    def test_subtopics_of_readings(self):
        for eep, readings, texts_by_subtopic in [
            ("D5-00-01", [word("CO", "closed")], {"CO": "closed"}),
            ("A5-06-01", [value("SVC", "5.1", "V"), value("ILL2", "300", "lx")],
             {"SVC": "5.1", "ILL2": "300", "ILL": "300"}),
            ("A5-12-01", [value("MR", "7", "kWh"), raw("TI", 1)], {"MR": "7", "MR_kWh/1": "7", "TI": "1"}),
            ("D2-05-00", [word("POS", "unknown"), raw("CHN", 0)], {"POS": "unknown", "POS/0": "unknown", "CHN": "0"}),
            ("A5-02-05", [word("TMP", "out_of_range"), raw("NEW", 3)], {"TMP": "out_of_range", "NEW": "3"}),
            ("F6-02-01", [word("R1", "AI"), word("EB", "pressed")], {"R1": "AI", "EB": "pressed"}),
            ("D2-01-12", [raw("IO", 0), raw("UN", 3), value("MV", "1234", "W")],
             {"IO": "0", "UN": "3", "MV": "1234", "MV_W/0": "1234"}),
        ]:
            self.assertEqual(TABLE.readings_by_subtopic(telegram(eep, *readings)), texts_by_subtopic, eep)

    def test_channels_of_readings(self):
        texts_by_subtopic = {"PF": "0", "PF/1": "0", "EL": "ok", "EL/1": "ok", "IO": "1", "OV": "100", "OV/1": "100"}
        self.assertEqual(TABLE.readings_by_subtopic(telegram("D2-01-12", *state(1))), texts_by_subtopic)
        self.assertEqual(TABLE.readings_by_subtopic(telegram("D2-01-12", *reversed(state(1)))), texts_by_subtopic)

    def test_a_reading_without_its_channel(self):
        self.assertEqual(TABLE.readings_by_subtopic(telegram("D2-01-12", value("OV", "0", "%"))), {"OV": "0"})
        channelless_telegram = telegram("D2-01-12", value("OV", "0", "%"), word("IO", "out_of_range"))
        self.assertEqual(TABLE.readings_by_subtopic(channelless_telegram),
                         {"OV": "0", "IO": "out_of_range"})

    def test_the_signal_strength(self):
        self.assertEqual(TABLE.readings_by_subtopic(telegram("D5-00-01", dbm=-45)), {"dbm": "-45"})
        self.assertEqual(TABLE.readings_by_subtopic(telegram("D5-00-01", dbm=0)), {"dbm": "0"})
        self.assertEqual(TABLE.readings_by_subtopic(telegram("D5-00-01")), {})

    def test_reports_each_subtopic_that_is_reported(self):
        for reporting_telegram in [telegram("D2-01-12", *state(1), dbm=-45),
                                   telegram("D5-00-01", word("CO", "open"), dbm=-45),
                                   telegram("D2-01-12", raw("IO", 31), value("MV", "1", "kWh")),
                                   telegram("A5-12-01", value("MR", "7", "W"), raw("TI", 15)),
                                   telegram("A5-06-01", value("ILL1", "1", "lx")),
                                   telegram("F6-02-01", word("R1", "AI"), word("EB", "pressed"))]:
            for subtopic in TABLE.readings_by_subtopic(reporting_telegram):
                self.assertTrue(TABLE.may_report(reporting_telegram.eep, subtopic), (reporting_telegram.eep, subtopic))

    def test_reports_nothing_else(self):
        for eep, subtopic in [
            ("A5-02-05", "nonsense"), ("A5-02-05", ""), ("A5-02-05", "TMP/0"), ("A5-02-05", "TMP/"),
            ("A5-02-05", "dbm/0"), ("A5-02-05", "5"), ("D5-00-01", "TMP"), ("D2-01-12", "OV/"),
            ("D2-01-12", "OV/x"), ("D2-01-12", "OV/100"), ("D2-01-12", "OV/01"), ("D2-01-12", "OV/0/0"),
            ("D2-01-12", "OV/\u0661"), ("D2-01-12", "MV_W"),
            ("D2-01-12", "nonsense/0"), ("D2-01-12", "/0"), ("D2-01-12", "IO/0"), ("F6-02-01", "press"),
            ("A5-FF-FF", "TMP"),
        ]:
            self.assertFalse(TABLE.may_report(eep, subtopic), (eep, subtopic))


class TelegramEvents(unittest.TestCase):
    """The events of telegrams."""

    def events(self, eep: str, *readings: Reading) -> list[str]:
        events = TABLE.events_of(telegram(eep, *readings))
        self.assertLessEqual({topic for topic, _ in events}, {"press"})
        return [kind for _, kind in events]

    def test_presses(self):
        pressed = word("EB", "pressed")
        for kind in ["AI", "A0", "BI", "B0"]:
            self.assertEqual(self.events("F6-02-02", word("R1", kind), pressed), [kind])
        for kind in ["AI", "A0", "BI", "B0", "CI", "C0", "DI", "D0"]:
            self.assertEqual(self.events("F6-03-01", word("R1", kind), pressed), [kind])
            self.assertEqual(self.events("F6-03-01", word("R1", "AI"), pressed, word("R2", kind)), ["AI", kind])
        self.assertEqual(self.events("F6-02-01", word("R1", "AI"), pressed, word("R2", "B0")), ["AI", "B0"])
        self.assertEqual(self.events("F6-02-01", word("buttons", "three_or_four"), pressed), ["three_or_four"])

    def test_a_release_is_one_event(self):
        self.assertEqual(self.events("F6-02-01", word("buttons", "none"), word("EB", "released")), ["released"])
        self.assertEqual(self.events("F6-02-01", word("R1", "AI"), word("EB", "released")), ["released"])
        self.assertEqual(self.events("F6-03-01", raw("buttons", 0), word("EB", "released")), ["released"])

    def test_a_push_button(self):
        self.assertEqual(self.events("F6-01-01", word("PB", "pressed")), ["pressed"])
        self.assertEqual(self.events("F6-01-01", word("PB", "released")), ["released"])

    def test_no_event(self):
        self.assertEqual(self.events("F6-02-01", word("R1", "out_of_range"), word("EB", "pressed")), [])
        self.assertEqual(self.events("F6-02-01", word("R1", "CI"), word("EB", "pressed")), [])
        self.assertEqual(self.events("A5-10-05", word("OCC", "pressed")), [])


class GoldenRows(unittest.TestCase):
    """Rows of each kind as EnOcean Equipment Profiles 2.6 and Home Assistant's documents require them: the place of the
    entity, the count of its numbers, its kind, and its device class, state class and unit."""

    def test_rows(self):
        for eep, reading, unit, expected_row in (
            ("A5-02-05", "TMP", "C", ("TMP", 0, "sensor", "temperature", "measurement", "°C")),
            ("A5-09-04", "CONC", "ppm", ("CONC", 0, "sensor", "carbon_dioxide", "measurement", "ppm")),
            ("A5-12-01", "MR", "kWh", ("MR_kWh", 1, "sensor", "energy", "total_increasing", "kWh")),
            ("A5-12-01", "MR", "W", ("MR_W", 1, "sensor", "power", "measurement", "W")),
            ("A5-12-02", "MR", "m3", ("MR_m3", 1, "sensor", "gas", "total_increasing", "m³")),
            ("A5-12-02", "MR", "l/s", ("MR_l_s", 1, "sensor", None, "measurement", "L/s")),
            ("A5-12-03", "MR", "m3", ("MR_m3", 1, "sensor", "water", "total_increasing", "m³")),
            ("D2-01-02", "OV", "%", ("OV", 1, "light", None, None, None)),
            ("D2-01-08", "OV", "%", ("OV", 1, "switch", None, None, None)),
            ("D2-01-12", "OV", "%", ("OV", 2, "switch", None, None, None)),
            ("D2-05-00", "POS", "%", ("POS", 1, "cover", "blind", None, None)),
            ("D5-00-01", "CO", "", ("CO", 0, "binary_sensor", "opening", None, None)),
        ):
            with self.subTest((eep, reading, unit)):
                entity_row = row(eep, reading, unit)
                config = [entity_row.more.get(key) for key in ("class", "state", "unit")]
                self.assertEqual((entity_row.topic, entity_row.count, entity_row.entity, *config), expected_row)


if __name__ == "__main__":
    unittest.main()
