"""Learns the devices of a sheet."""
import json
import unittest
from unittest import mock

from enogate_ctl.answers import Answer, parse_line
from enogate_ctl.client import PAUSE
from enogate_ctl.importing import MAX_DEVICES, MAX_GROUP_ROWS, DeviceImporter, DryRun, OrderBatches
from enogate_lines.contents import Listed
from fakes import OK, Clock, TimeLimitedTest, error

UNSUPPORTED = "the gateway does not support this profile: see the table of profiles in the guide, and try a similar one"
FAILED = ("the database failed, and the order was not carried out: check the disk with enogate-check, and give the "
          "order again")
FULL = "1,000 devices are learned: `remove` one that is gone"
NO_ID = "id: 'x' is not the ID of a device: 8 hexadecimal digits"


class DeviceImports(TimeLimitedTest):
    def setUp(self):
        self.orders, self.printed_lines, self.refused, self.groups = [], [], {}, []

    def give(self, orders):
        self.assertNotEqual(orders, [])
        self.orders += orders
        self.groups.append(len(orders))
        return [self.refused.get(order) for order in orders]

    def run_import(self, text, *known):
        devices = {device.device: device for device in known}
        return DeviceImporter(devices, self.give, self.printed_lines.append).run(text)

    def dry_run(self, text, *known):
        devices = {device.device: device for device in known}
        return DeviceImporter(devices, DryRun(devices).give, self.printed_lines.append, "would be ").run(text)

    def test_new_devices(self):
        self.assertTrue(self.run_import("01800ABC,D5-00-01,Door\n01800ABD,F6-02-01\n"))
        self.assertEqual(self.orders, ["add 01800ABC D5-00-01", "add 01800ABD F6-02-01", "label 01800ABC Door"])
        self.assertEqual(self.printed_lines, ["row 1: 01800ABC: learned and labelled", "row 2: 01800ABD: learned"])

    def test_known_devices(self):
        known = [Listed(f"01800AB{digit}", "D5-00-01", "Door", 70) for digit in "CDEF"]
        self.assertTrue(self.run_import("01800abc,d5-00-01,Door\n01800ABD,D5-00-01,\n01800ABE,D5-00-01,Gate\n"
                                        "01800ABF,F6-02-01,Gate\n01800ABC,D5-00-01,Door\n", *known))
        self.assertEqual(self.orders, ["add 01800ABF F6-02-01", "label 01800ABE Gate", "label 01800ABF Gate"])
        self.assertEqual(self.printed_lines, ["row 1: 01800ABC: unchanged", "row 2: 01800ABD: unchanged",
                                              "row 3: 01800ABE: labelled",
                                              "row 4: 01800ABF: learned (in place of D5-00-01) and labelled",
                                              "row 5: 01800ABC: unchanged"])

    def test_a_device_with_two_rows(self):
        """Only if they are the same: otherwise it is not known which one is meant."""
        self.assertFalse(self.run_import("01800ABC,D5-00-01,Door\n01800ABC,D5-00-01,Door\n01800ABC,F6-02-01,Door\n"
                                         "01800ABC,D5-00-01,Gate\n"))
        self.assertEqual(self.orders, ["add 01800ABC D5-00-01", "label 01800ABC Door"])
        self.assertEqual(self.printed_lines, ["row 1: 01800ABC: learned and labelled", "row 2: 01800ABC: unchanged"] + [
            f"row {number}: id: 01800ABC is in row 1 already, with other values" for number in (3, 4)])

    def test_a_label_that_is_kept(self):
        self.assertTrue(self.run_import("01800ABC,F6-02-01\n", Listed("01800ABC", "D5-00-01", "Door", None)))
        self.assertEqual(self.orders, ["add 01800ABC F6-02-01"])

    def test_it_goes_on_after_an_error(self):
        self.refused = {"add 01800ABC D5-00-99": "unsupported_profile", "label 01800ABD x": "store"}
        self.assertFalse(self.run_import("01800ABC,D5-00-99,x\n01800ABD,D5-00-01,x\nx\n01800ABE,D5-00-01\n"))
        self.assertEqual(self.orders, ["add 01800ABC D5-00-99", "add 01800ABD D5-00-01", "add 01800ABE D5-00-01",
                                       "label 01800ABD x"])
        self.assertEqual(self.printed_lines, [
            f"row 1: 01800ABC: not learned: eep: {UNSUPPORTED}",
            f"row 2: 01800ABD: learned; not labelled: {FAILED}", f"row 3: {NO_ID}", "row 4: 01800ABE: learned"])
        self.assertFalse(self.run_import("x\n01800ABE,D5-00-01\n"))
        self.assertFalse(self.run_import("x\n"))

    def test_groups(self):
        """So many rows are handled at once. A device that occurs again begins a group."""
        self.assertEqual(MAX_GROUP_ROWS, 100)
        rows = [f"{number:08X},D5-00-01,Lamp {number}" for number in range(235)]
        self.assertTrue(self.run_import("\n".join(rows)))
        self.assertEqual(self.groups, [100, 100, 100, 100, 35, 35])
        self.assertEqual(self.printed_lines, [f"row {number + 1}: {number:08X}: learned and labelled"
                                              for number in range(235)])
        self.assertEqual((self.orders[100], self.orders[-1]), ("label 00000000 Lamp 0", "label 000000EA Lamp 234"))
        self.setUp()
        rows = ["01800ABC,D5-00-01,Door", "x", "01800ABD,D5-00-01", "01800ABC,D5-00-01,Door", "01800ABE,F6-02-01"]
        self.assertFalse(self.run_import("\n".join(rows)))
        self.assertEqual(self.groups, [2, 1, 1])
        self.assertEqual(self.orders, ["add 01800ABC D5-00-01", "add 01800ABD D5-00-01", "label 01800ABC Door",
                                       "add 01800ABE F6-02-01"])
        self.assertEqual([line[:15] for line in self.printed_lines], [
            "row 1: 01800ABC", "row 2: id: 'x' ", "row 3: 01800ABD", "row 4: 01800ABC", "row 5: 01800ABE"])

    def test_a_label_that_the_gateway_cannot_store(self):
        """The device is learned without it, and the row has not succeeded."""
        self.assertFalse(self.run_import("ID,Profil,Bezeichnung\n01800ABC,D5-00-01,Küche\n01800ABD,D5-00-01,Bad\n"))
        self.assertEqual(self.orders, ["add 01800ABC D5-00-01", "add 01800ABD D5-00-01", "label 01800ABD Bad"])
        why = "Bezeichnung: 'Küche' is not 1 to 32 ASCII characters; possible is 'Kueche'"
        self.assertEqual(self.printed_lines, [f"row 2: 01800ABC: learned; {why}",
                                              "row 3: 01800ABD: learned and labelled"])
        self.setUp()
        self.assertFalse(self.run_import("01800ABC,D5-00-01,Küche\n", Listed("01800ABC", "D5-00-01", "Kitchen", None)))
        self.assertEqual((self.orders, self.printed_lines),
                         ([], [f"row 1: 01800ABC: {why.replace('Bezeichnung', 'label')}"]))

    def test_a_column_with_another_head(self):
        """A sentence names the column as the sheet does."""
        self.refused = {"add 01800ABC A5-3F-7F": "unsupported_profile", "add 01800ABD D5-00-01": "full"}
        self.assertFalse(self.run_import("Raum;EEP-Profil;EnOcean ID\n1;A5-3F-7F;01800ABC\n2;D5-00-01;01800ABD\n"))
        self.assertEqual(self.printed_lines, [f"row 2: 01800ABC: not learned: EEP-Profil: {UNSUPPORTED}",
                                              f"row 3: 01800ABD: not learned: {FULL}"])

    def test_a_dry_run(self):
        """It gives no order, and finds what the gateway would refuse."""
        self.assertFalse(self.dry_run(
            "01800ABC,D5-00-01,Door\n01800ABD,F6-02-01\n01800ABE,A5-3F-7F,x\n01800ABF,D5-00-01,Gate\n01800ABF,D5-00-01,"
            "Gate\nx\n01800AC0,D5-00-01,ä\n", Listed("01800ABF", "D5-00-01", "", None)))
        self.assertEqual(self.printed_lines, [
            "row 1: 01800ABC: would be learned and labelled", "row 2: 01800ABD: would be learned",
            f"row 3: 01800ABE: not learned: eep: {UNSUPPORTED}", "row 4: 01800ABF: would be labelled",
            "row 5: 01800ABF: unchanged", f"row 6: {NO_ID}",
            "row 7: 01800AC0: would be learned; label: 'ä' is not 1 to 32 ASCII characters; possible is 'ae'"])
        self.assertEqual(self.orders, [])
        self.assertTrue(self.dry_run("01800ABC,D5-00-01,Door\n"))

    def test_a_dry_run_of_too_many_devices(self):
        self.assertEqual(MAX_DEVICES, 1000)
        known = [Listed(f"{number:08X}", "D5-00-01", "", None) for number in range(998)]
        rows = "".join(f"01800A0{number},D5-00-01\n" for number in range(3)) + "00000001,F6-02-01,Gate\n"
        self.assertFalse(self.dry_run(rows, *known))
        self.assertEqual(self.printed_lines, ["row 1: 01800A00: would be learned", "row 2: 01800A01: would be learned",
                                              f"row 3: 01800A02: not learned: {FULL}",
                                              "row 4: 00000001: would be learned (in place of D5-00-01) and labelled"])

    def test_no_devices(self):
        """An export writes the heading even without devices: an empty input is that of an export that failed."""
        for text, succeeds in (("", False), ("\n", False), ("id,eep,label\n", True)):
            self.assertEqual(self.run_import(text), succeeds)
        self.assertEqual((self.orders, self.printed_lines), ([], ["the input has no devices"] * 3))


class BatchSizes(TimeLimitedTest):
    """The orders of an import at a desk that needs so many seconds for each of them."""

    def setUp(self):
        self.clock, self.orders, self.parts, self.seconds, self.errors = Clock(), [], [], 0.0, {}
        self.giver = OrderBatches(mock.Mock(clock=self.clock, sleep=self.clock.sleep, ask_all=self.ask_all))

    def ask_all(self, orders):
        self.clock.now += self.seconds * len(orders)
        self.orders += orders
        self.parts.append(len(orders))
        lines = [error(self.errors[order]) if order in self.errors else OK for order in orders]
        return [Answer([parse_line(json.dumps(line).encode())]) for line in lines]

    def test_a_slow_gateway_gets_fewer_orders_at_once(self):
        orders = list(map(str, range(250)))
        for seconds, parts in ((0.0, [16, 100, 100, 34]), (0.01, [16, 100, 100, 34]), (0.09, [16] + 10 * [22] + [14]),
                               (0.3, [16] + 39 * [6]), (5.0, [16] + 234 * [1])):
            self.setUp()
            self.seconds = seconds
            self.assertEqual(self.giver.give(orders), [None] * 250)
            self.assertEqual((self.orders, self.parts), (orders, parts))
            self.assertEqual(self.clock.slept, [2 * PAUSE] * len(parts))

    def test_an_error_that_telegrams_have_too(self):
        """Each order of its part is given again. Another error is that of its order."""
        orders = list(map(str, range(20)))
        self.errors = {"1": "range", "3": "store", "17": "range"}
        self.seconds = 0.09
        self.assertEqual(self.giver.give(orders), [self.errors.get(order) for order in orders])
        self.assertEqual((self.orders, self.parts), (orders[:16] * 2 + orders[16:], [16, *[1] * 16, 4]))
        self.assertEqual(self.clock.slept, [2 * PAUSE] * 18)


if __name__ == "__main__":
    unittest.main()
