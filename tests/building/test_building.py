"""The sheet, the time of the building, and that a run can be repeated byte by byte."""
import hashlib
import io
import unittest

from building_testcase import DEVICE, SHEET, BuildingTest, EvenRandom, full_building
from enogate_building.building import Building, read_sheet
from enogate_building.devices import RefusedCommand, Row
from enogate_building.radio import SENSITIVITY, Place, strength
from enogate_ctl.importing import DeviceImporter, DryRun
from enogate_ctl.sheet import DeviceRow, Head, Sheet, decoded
from enogate_tools import share
from oracle.esp3 import packets_in_stream
from oracle.profiles import telegram_readings

DAY = 86400
# The SHA-256 of what both sticks bring on that day. It has no other source than this program; the tests below read each
# of these packets with the oracle.
GOLDEN_DIGEST = "786f5e86dc2e11ef8825fa875a5d80b8278e116cecc575f2b02fc1ce07c9c322"


class SheetTest(unittest.TestCase):
    def test_rows(self):
        rows = list(read_sheet("id,eep,label,x,y,floor,period\n01800abc,d5-00-01,Door,1.5,2,-1,60\n"
                               "01800ABD,F6-02-01,,,,,\n01800ABE,D2-05-00,B,0,0,1,0\n"))
        self.assertEqual(rows, [Row(0x01800ABC, "D5-00-01", Place(1.5, 2, -1), 60),
                                Row(0x01800ABD, "F6-02-01", Place(0, 0, 0), None),
                                Row(0x01800ABE, "D2-05-00", Place(0, 0, 1), 0)])
        self.assertEqual(list(read_sheet("eep,id\nD5-00-01,01800ABC\n")), [Row(DEVICE, "D5-00-01", Place(0, 0, 0))])

    def assert_refused(self, text, *faults):
        with self.assertRaises(RefusedCommand) as refusal:
            read_sheet(text)
        self.assertEqual(str(refusal.exception).split("\n"), list(faults))

    def test_a_sheet_of_a_planner(self):
        """As a German spreadsheet writes it, and as `enogatectl devices --export --plan` does."""
        expected_rows = [Row(DEVICE, "D5-00-01", Place(1.5, 2, -1), 60), Row(0x01800ABD, "F6-02-01", Place(0, 12, 0))]
        for text in ("Raum;Bezeichnung;Geräte-ID;Profil;Floor;X;Y;PERIOD\n"
                     "2.14;Küche;01:80:0A:BC;D50001;-1;1,5;2,0;60\n;;0x01800abd;EEP F6-02-01;;;12;\n",
                     "id,eep,label,floor,y,x,period\n01800ABC,D5-00-01,,'-1,2.,1.50,60\n\n01800ABD,F6-02-01,,,12,\n"):
            self.assertEqual(read_sheet(text), expected_rows)

    def test_a_row_twice(self):
        """It is one device, as for an import."""
        row = "01800ABC,D5-00-01,1\n"
        self.assertEqual(read_sheet(f"id,eep,x\n{row}{row}"), [Row(DEVICE, "D5-00-01", Place(1, 0, 0))])
        self.assert_refused(f"id,eep,x\n{row}01800ABC,D5-00-01,2\n",
                            "row 3: id: 01800ABC is in row 2 already, with other values")

    def test_faults_are_those_of_an_import(self):
        """The same sentences, also for a profile that the gateway does not support."""
        text = ("Geräte-ID;Profil\nx;D5-00-01\n01800ABC;A5-3F-7F\n01800ABD;D5\n01800ABE;D5-00-01\n"
                "01800ABE;F6-02-01\n1,80E+15;D5-00-01\n")
        lines = []
        self.assertFalse(DeviceImporter({}, DryRun(()).give, lines.append).run(text))
        expected_lines = [line.replace("not learned: ", "") for line in lines if not line.endswith("learned")]
        self.assertEqual(len(expected_lines), 5, lines)
        self.assert_refused(text, *expected_lines)
        self.assertRegex(expected_lines[1], "^row 3: 01800ABC: Profil: the gateway does not support this profile: ")

    def test_a_head_that_lacks_a_column_and_no_devices(self):
        self.assert_refused("id,typ\n01800ABC,D5-00-01\n", f"row 1: {Head(['id']).missing}")
        for text in ("", "\n", "id,eep\n"):
            self.assert_refused(text, "the input has no devices")

    def test_numbers_out_of_range(self):
        heads, rows, faults = "ID,EEP,X,y,Floor,period", [], []
        for column_index, heading, number_kind, least, greatest, texts in (
                (0, "X", "number", -9999, 9999, ("one", "inf", "nan", "-9999.5", "10000", "1e3", "1 m", "-", "1.2.3")),
                (1, "y", "number", -9999, 9999, ("-10000", "9999.1", "1:2")),
                (2, "Floor", "whole number", -99, 99, ("1.5", "-100", "100", "EG")),
                (3, "period", "number", 0, 999999, ("-1", "1000000", "nan"))):
            for text in texts:
                faults.append(f"row {len(rows) + 2}: {heading}: {text!r} is not a {number_kind} from {least} to "
                              f"{greatest}")
                rows.append(",".join([f"01800A{len(rows):02X}", "D5-00-01"] + [text if column == column_index else "1"
                                                                               for column in range(4)]))
        self.assert_refused("\n".join([heads, *rows]), *faults)
        rows_at_limits = "01800ABC,D5-00-01,-9999,9999,-99,999999\n01800ABD,D5-00-01,9999,-9999,99.0,0\n"
        self.assertEqual(read_sheet(f"{heads}\n{rows_at_limits}"),
                         [Row(DEVICE, "D5-00-01", Place(-9999, 9999, -99), 999999),
                                              Row(0x01800ABD, "D5-00-01", Place(9999, -9999, 99), 0)])

    def test_encodings(self):
        """Those of spreadsheets."""
        text = "ID;Profil;Bezeichnung\n01800ABC;D5-00-01;Küche\n"
        for encoded_text in (text.encode("utf-8-sig"), text.encode("cp1252"), text.encode("utf-16")):
            self.assertEqual(read_sheet(decoded(encoded_text)), [Row(DEVICE, "D5-00-01", Place(0, 0, 0))])

    def test_the_sheet_of_the_package(self):
        """50 devices, which enogatectl reads as they are, and kinds of all RORGs."""
        rows = list(read_sheet(SHEET.read_text()))
        ctl_rows = [row for _, row in Sheet(SHEET.read_text()).rows()]
        self.assertEqual(len(rows), 50)
        self.assertTrue(all(isinstance(row, DeviceRow) and row.label for row in ctl_rows), ctl_rows)
        self.assertEqual([(f"{row.device:08X}", row.eep) for row in rows], [(row.device, row.eep) for row in ctl_rows])
        self.assertEqual(len({row.label for row in ctl_rows}), 50)
        self.assertEqual({row.eep[:2] for row in rows}, {"F6", "D5", "A5", "D2"})

    def test_its_gateways_hear_their_devices(self):
        """With 15 dB to spare, so that no telegram is lost. A single stick in the middle hears nearly all devices."""
        sticks = {"ground": Place(7, 6, 0), "attic": Place(33, 6, 1), "middle": Place(20, 6, 0)}
        gateways = [line.rsplit(",", 1)[1] for line in SHEET.read_text().splitlines()[1:]]
        places = [row.place for row in read_sheet(SHEET.read_text())]
        self.assertTrue(all((strength(place, sticks[name], EvenRandom()) or -100) > SENSITIVITY + 15
                            for place, name in zip(places, gateways)))
        self.assertGreaterEqual(sum(strength(place, sticks["middle"], EvenRandom()) is not None for place in places),
                                47)

    def test_each_sensor_has_its_form(self):
        profiles_with_form = [line.split()[0] for line in share.table_lines("payloads")]
        self.assertEqual(profiles_with_form, sorted(eep for eep in share.kinds_by_profile() if eep.startswith("A5")))


class TimeTest(BuildingTest):
    def test_things_happen_at_their_time(self):
        building, calls = self.build(), []
        for seconds in (3, 1, 2, 1):
            building.call_after(seconds, lambda seconds=seconds: calls.append((seconds, building.now)))
        building.call_after(1, lambda: building.call_after(0.5, lambda: calls.append((1.5, building.now))))
        building.advance(0.9)
        self.assertEqual((calls, building.now), ([], 0.9))
        building.advance(10)
        self.assertEqual((calls, building.now), ([(1, 1), (1, 1), (1.5, 1.5), (2, 2), (3, 3)], 10))
        building.advance(5)
        self.assertEqual(building.now, 10)

    def test_devices_send_by_themselves(self):
        """A contact once in 22.5 to 25 minutes, a sensor once in nine to ten; switches and actuators never."""
        for eep, period, min_count, max_count in (("D5-00-01", None, 57, 64), ("A5-02-05", None, 144, 161),
                                                  ("F6-02-01", None, 0, 0), ("D2-01-12", None, 0, 0),
                                                  ("D5-00-01", 0, 0, 0),
                                                  ("A5-02-05", 60, 1440, 1601)):
            self.build((DEVICE, eep), is_quiet=False, period=period)
            self.building.advance(DAY)
            self.assertTrue(min_count <= len(self.wire.handle_bytes()) <= max_count, (eep, period))
            self.build((DEVICE, eep), period=period)
            self.building.advance(DAY)
            self.assertEqual(self.wire.handle_bytes(), [])

    def test_a_packet_by_hand(self):
        """A contact that is nearer than a metre: -31 dBm, which is 1F, from one subtelegram to all."""
        self.build((DEVICE, "D5-00-01"), is_quiet=False)
        self.building.rng = EvenRandom()
        self.building.advance(1500)
        self.assertEqual(self.wire.received_bytes[:-1].hex(" ").upper(),
                         "55 00 07 07 01 7A D5 09 01 80 0A BC 00 01 FF FF FF FF 1F 00")


class RepeatTest(unittest.TestCase):
    """A day of the whole building."""

    @classmethod
    def setUpClass(cls):
        cls.runs = [cls.day(seed) for seed in (1, 1, 2)]

    @staticmethod
    def day(seed):
        building, wires = full_building(seed)
        for hour in range(24):
            building.advance(hour * 3600)
            building.devices[0x01800A03].press("BI")
            building.devices[0x01800A2D].report()
        building.advance(DAY)
        return [wire.received_bytes for wire in wires]

    def test_the_same_seed_gives_the_same_bytes(self):
        self.assertEqual(self.runs[0], self.runs[1])
        self.assertNotEqual(self.runs[0], self.runs[2])

    def test_the_seed_is_that_of_each_device_and_of_the_radio_path(self):
        building, other_building = (full_building(seed)[0] for seed in (1, 2))
        for device_id, device in building.devices.items():
            self.assertNotEqual(device.deviation, other_building.devices[device_id].deviation)
        self.assertNotEqual(building.rng.random(), other_building.rng.random())

    def test_golden(self):
        digest = hashlib.sha256(b"".join(self.runs[0])).hexdigest()
        self.assertEqual(digest, GOLDEN_DIGEST)

    def test_all_that_is_heard_is_read(self):
        """Every telegram of the day: its values are those of a building in which people live."""
        profiles = {row.device: row.eep for row in read_sheet(SHEET.read_text())}
        range_by_reading = {"TMP": (17, 25), "HUM": (30, 60), "CONC": (300, 1300), "SVC": (2.7, 3.3), "MR": (100, 911)}
        for received in self.runs[0]:
            heard_profiles = set()
            for kind, packet_data, optional in packets_in_stream(received):
                sender = int.from_bytes(packet_data[-5:-1], "big")
                heard_profiles.add(sender)
                self.assertTrue(kind == 1 and -92 <= -optional[5] <= -25)
                for reading in telegram_readings(profiles[sender], packet_data[0], packet_data[1:-5], packet_data[-1]):
                    self.assertNotIn("out_of_range", reading)
                    least, greatest = range_by_reading.get(reading["name"], (0, 1e9))
                    if "num" in reading:
                        self.assertTrue(least <= reading["num"] / reading["den"] <= greatest, reading)
            # Each stick hears most devices; ten switches and actuators did not send.
            self.assertTrue(30 <= len(heard_profiles) <= 45, len(heard_profiles))

    def test_devices_do_not_depend_on_others(self):
        """A device sends at the same times whether others are there or not."""
        text = io.StringIO(SHEET.read_text()).readlines()
        self.assertEqual(self.times(text), self.times(text[:6]))

    @staticmethod
    def times(lines):
        """When a sensor of these rows sends, and what; the others are dead."""
        building, times = Building(read_sheet("".join(lines))), []
        building.send = lambda telegram, _: times.append((building.now, telegram.payload))
        for device in building.devices.values():
            if device.row.device != 0x01800A02:
                device.is_dead = True
        building.advance(7200)
        return times


if __name__ == "__main__":
    unittest.main()
