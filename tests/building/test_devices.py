"""What devices send. The payloads were worked out by hand from the tables of the profiles; the oracle reads them."""
import random
import unittest
from fractions import Fraction

from building_testcase import DEVICE, BuildingTest, EvenRandom
from enogate_building.devices import RefusedCommand
from enogate_tools import share
from oracle.profiles import telegram_readings

# Measured values, and the payload of a profile for them.
PAYLOADS = (
    ("A5-02-05", {"TMP": 40}, "00000008"), ("A5-02-05", {"TMP": 0}, "0000FF08"), ("A5-02-05", {"TMP": 10}, "0000BF08"),
    ("A5-02-05", {"TMP": 99}, "00000008"), ("A5-02-05", {"TMP": -99}, "0000FF08"),
    ("A5-02-1B", {"TMP": 130}, "00000008"), ("A5-02-1B", {"TMP": 50}, "0000FF08"),
    ("A5-02-20", {"TMP": 41.2}, "00000008"), ("A5-02-20", {"TMP": -10}, "0003FF08"),
    ("A5-02-30", {"TMP": 62.3}, "00000008"), ("A5-02-30", {"TMP": -40}, "0003FF08"),
    ("A5-04-01", {"HUM": 50, "TMP": 20}, "007D7D0A"), ("A5-04-02", {"HUM": 100, "TMP": -20}, "00FA000A"),
    ("A5-06-01", {"SVC": 5.1, "ILL": 30000}, "FFFF0009"), ("A5-06-02", {"SVC": 0, "ILL": 510}, "00FF0009"),
    ("A5-07-01", {"SVC": 5, "PIRS": 1}, "FA00FF09"), ("A5-07-01", {"SVC": 2, "PIRS": 0}, "64000009"),
    ("A5-08-01", {"SVC": 3, "ILL": 510, "TMP": 51, "PIRS": 1}, "96FFFF09"),
    ("A5-08-01", {"SVC": 3, "ILL": 0, "TMP": 0, "PIRS": 0}, "9600000B"),
    ("A5-08-02", {"SVC": 0, "ILL": 1020, "TMP": 25.6, "PIRS": 1}, "00FF8009"),
    ("A5-08-03", {"SVC": 0, "ILL": 1530, "TMP": 50, "PIRS": 1}, "00FFFF09"),
    ("A5-09-04", {"HUM": 50, "CONC": 1000, "TMP": 25.6}, "6464800E"),
    ("A5-10-03", {"SP": 128, "TMP": 0}, "0080FF08"), ("A5-10-05", {"SP": 255, "TMP": 40}, "00FF0009"),
    ("A5-12-01", {"MR": 123.45}, "0030390A"), ("A5-12-02", {"MR": 0}, "0000000A"),
    ("A5-12-03", {"MR": 99999999}, "FFFFFF0A"),
)


SWEEPS = {"TMP": range(-70, 141), "HUM": range(-5, 106), "CONC": range(-50, 2700, 15),
          "ILL": [*range(-100, 1600, 20), *range(1600, 31000, 300)],
          "SVC": [fraction / 50 for fraction in range(-3, 260)],
          "SP": range(-2, 260), "MR": [0, *range(1, 99), 1e9]}


class DevicesTest(BuildingTest):
    def device(self, eep):
        """The only device of a building, in which nothing varies."""
        device = self.build((DEVICE, eep)).devices[DEVICE]
        device.rng = self.building.rng = EvenRandom()
        return device

    def test_payloads(self):
        for eep, values, payload in PAYLOADS:
            device = self.device(eep)
            device.measure = values.__getitem__
            device.report()
            self.assertEqual(self.wire.telegrams(), [f"A5 {payload} 01800ABC 00 FFFFFFFF"], (eep, values))

    def test_each_profile_is_read_by_the_oracle(self):
        for eep in share.kinds_by_profile():
            self.device(eep).report()
            for _, packet_data, _ in self.wire.handle_bytes():
                readings = telegram_readings(eep, packet_data[0], packet_data[1:-5], packet_data[-1])
                self.assertTrue(readings, eep)
                self.assertFalse([reading for reading in readings if "out_of_range" in reading], eep)

    def test_each_value_is_read_as_it_was_measured(self):
        """The values of a sweep come back, to within half of a raw number. Beyond its ends a scale stays at its end."""
        step_by_reading = {"TMP": 0.4, "HUM": 0.5, "CONC": 10, "ILL": 234, "SVC": 0.02, "SP": 1, "MR": 0.01}
        for eep in (eep for eep in share.kinds_by_profile() if eep.startswith("A5")):
            device = self.device(eep)
            for name, sweep in SWEEPS.items():
                readings = [self.reading(device, name, measured) for measured in sweep]
                if None not in readings:
                    self.assertEqual(readings, sorted(readings), (eep, name))
                    for measured, read in zip(sweep, readings):
                        if readings[0] < read < readings[-1]:
                            self.assertLessEqual(abs(read - measured), step_by_reading[name] / 2 + 1e-6,
                                                 (eep, name, measured))
                    self.assertGreater(len(set(readings)), 9, (eep, name))

    def reading(self, device, name, measured):
        """What a sensor that measures this value reports under this name; None if it does not report it."""
        device.measure = lambda measured_name: measured if measured_name == name else 0
        device.report()
        [(_, packet_data, _)] = self.wire.handle_bytes()
        for reading in telegram_readings(device.row.eep, packet_data[0], packet_data[1:-5], packet_data[-1]):
            if reading["name"].rstrip("12") == name:
                return float(Fraction(reading["num"], reading["den"])) if "num" in reading else reading["raw"]
        return None

    def test_days_and_nights(self):
        """At a quarter of the day it is warmest, after a day as at first; meters count on."""
        device = self.device("A5-12-01")
        device.deviation = 0.0
        for now, name, expected_value in ((0, "TMP", 21), (21600, "TMP", 22.5), (64800, "TMP", 19.5),
                                          (86400, "TMP", 21),
                                          (86400, "MR", 510), (43200, "CONC", 800), (21600, "HUM", 40)):
            self.building.now = now
            self.assertAlmostEqual(device.measure(name), expected_value, places=6)
        device.deviation = 1.0
        self.assertAlmostEqual(device.measure("SP"), 168)

    def test_contacts(self):
        contact = self.device("D5-00-01")
        contact.report()
        contact.is_closed = False
        contact.report()
        contact.teach_in()
        self.assertEqual(self.wire.telegrams(), [f"D5 {byte} 01800ABC 00 FFFFFFFF" for byte in ("09", "08", "00")])

    def test_switches(self):
        for eep, button, payload in (("F6-01-01", "", "10"), ("F6-02-01", "", "10"), ("F6-02-01", "AI", "10"),
                                     ("F6-02-01", "A0", "30"), ("F6-02-02", "BI", "50"), ("F6-02-01", "B0", "70"),
                                     ("F6-03-01", "CI", "90"), ("F6-03-02", "D0", "F0")):
            self.device(eep).press(button)
            self.assertEqual(self.wire.telegrams(), [f"F6 {payload} 01800ABC 30 FFFFFFFF"], (eep, button))
            self.assertEqual(self.answers(0.2), [])
            self.assertEqual(self.answers(0.1), ["F6 00 01800ABC 20 FFFFFFFF"])

    def test_the_oracle_reads_each_button(self):
        for eep, buttons in (("F6-02-01", "AI A0 BI B0"), ("F6-03-01", "AI A0 BI B0 CI C0 DI D0")):
            for button in buttons.split():
                self.device(eep).press(button)
                [(_, packet_data, _)] = self.wire.handle_bytes()
                self.assertEqual(telegram_readings(eep, 0xF6, packet_data[1:-5], packet_data[-1])[0],
                                 {"name": "R1", "word": button})

    def test_buttons_that_a_switch_does_not_have(self):
        for eep, button in (("F6-01-01", "AI"), ("F6-02-01", "CI"), ("F6-03-01", "E0")):
            device = self.device(eep)
            self.assertRaises(RefusedCommand, device.press, button)
            self.assertEqual((self.wire.telegrams(), self.building.due_calls), ([], []))

    def test_learn_buttons(self):
        """The profile and the manufacturer ID 7FF are in a query of four bytes."""
        for eep, telegram in (("A5-02-05", "A5 082FFF80"), ("A5-12-03", "A5 481FFF80"), ("A5-09-04", "A5 2427FF80"),
                              ("D5-00-01", "D5 00"), ("D2-01-12", "D4 8002FF071201D2"),
                              ("D2-05-00", "D4 8001FF070005D2")):
            self.device(eep).teach_in()
            self.assertEqual(self.wire.telegrams(), [f"{telegram} 01800ABC 00 FFFFFFFF"], eep)
        self.device("F6-02-01").teach_in()
        self.assertEqual(self.wire.telegrams(), ["F6 10 01800ABC 30 FFFFFFFF"])

    def test_a_dead_device_is_silent(self):
        for eep in ("F6-02-01", "D5-00-01", "A5-02-05", "D2-01-12", "D2-05-00"):
            device = self.device(eep)
            device.is_dead = True
            device.report()
            device.teach_in()
            self.building.advance(10)
            self.assertEqual(self.wire.handle_bytes(), [], eep)

    def test_noise_of_measurements(self):
        device = self.device("A5-02-05")
        device.rng = random.Random(2)
        measurements = [device.measure("TMP") - 2 * device.deviation for _ in range(300)]
        self.assertTrue(20.9 <= min(measurements) < 20.92 and 21.08 < max(measurements) <= 21.1)


if __name__ == "__main__":
    unittest.main()
