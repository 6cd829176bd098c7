"""Which reports belong to the same telegram, and the coverage that follows."""
import unittest

from enogate_lines.contents import Reading, Telegram
from enogate_site.merge import REMEMBERED, Merge

DEVICE = "01800AC1"


def telegram(text="BI", dbm=-60, eep="F6-02-01"):
    return Telegram(DEVICE, eep, dbm, (Reading("R1", "", text, None),))


class MergeTest(unittest.TestCase):
    def setUp(self):
        self.merge = Merge()

    def add(self, gateway, at, text="BI", dbm=-60, read_at=None, is_late=False, eep="F6-02-01"):
        return self.merge.add(gateway, telegram(text, dbm, eep), at, read_at, is_late)[0]

    def test_reports_of_others_within_a_second_and_a_half(self):
        self.assertEqual([self.add(name, at) for name, at in (("a", 10.0), ("b", 11.5), ("c", 11.51))],
                         [True, False, True])

    def test_equal_reports_of_one_gateway_are_two_telegrams(self):
        self.assertEqual([self.add("a", 10.0), self.add("a", 10.05), self.add("b", 10.1), self.add("b", 10.1)],
                         [True, True, False, False])
        self.assertTrue(self.add("b", 10.2))

    def test_the_oldest_one_that_is_not_reported(self):
        self.add("a", 10.0)
        self.add("a", 10.1)
        _, heard = self.merge.add("b", telegram(), 10.2, None, False)
        self.assertEqual(heard.arrived_at, 10.0)

    def test_other_contents_are_other_telegrams(self):
        self.assertTrue(self.add("a", 10.0))
        self.assertTrue(self.add("b", 10.1, "B0"))
        self.assertTrue(self.add("b", 10.1, eep="F6-02-02"))

    def test_a_slow_network(self):
        """Reports that bridges have read in the same second belong together, up to fifteen seconds later."""
        for at, read_at, is_new in ((25.0, 101.0, False), (25.0, 99.0, False), (25.0, 102.0, True), (25.0, 98.0, True),
                                    (25.01, 100.0, True), (25.0, None, True)):
            with self.subTest(at=at, read_at=read_at):
                self.merge = Merge()
                self.add("a", 10.0, read_at=100.0)
                self.assertEqual(self.add("b", at, read_at=read_at), is_new)

    def test_the_time_of_the_first_report_may_be_unknown(self):
        self.add("a", 10.0)
        self.assertTrue(self.add("b", 12.0, read_at=100.0))

    def test_late_reports_have_any_age(self):
        self.add("a", 10.0)
        self.add("a", 20.0, "B0")
        self.assertEqual([self.add("b", 5000.0, is_late=True), self.add("b", 5000.0, "B0", is_late=True),
                          self.add("b", 5000.0, "B0", is_late=True)], [False, False, True])

    def test_coverage(self):
        for number in range(4):
            self.add("north", 10.0 * number, dbm=-60 - number)
            if number:
                self.add("south", 10.0 * number, dbm=-80)
        self.assertEqual(self.merge.coverage(DEVICE),
                         {"north": {"heard": 1.0, "dbm": -62}, "south": {"heard": 0.75, "dbm": -80}})
        self.assertEqual(self.merge.coverage("01800AC2"), {})

    def test_coverage_without_signal_strength(self):
        self.add("north", 10.0, dbm=None)
        self.assertEqual(self.merge.coverage(DEVICE), {"north": {"heard": 1.0}})

    def test_coverage_is_that_of_the_last_telegrams(self):
        self.add("north", 0.0)
        for number in range(REMEMBERED):
            self.add("south", 10.0 + 10.0 * number)
        self.assertEqual(self.merge.coverage(DEVICE), {"south": {"heard": 1.0, "dbm": -60}})
        self.assertEqual(REMEMBERED, 20)

    def test_the_best_gateway(self):
        self.assertIsNone(self.merge.best_gateway(DEVICE, []))
        self.assertEqual(self.merge.best_gateway(DEVICE, ["south", "north"]), "north")
        self.add("south", 10.0, dbm=-90)
        self.assertEqual(self.merge.best_gateway(DEVICE, ["north", "south"]), "south")
        self.add("south", 20.0, dbm=-90)
        self.add("north", 20.0, dbm=-30)
        self.assertEqual(self.merge.best_gateway(DEVICE, ["north", "south"]), "south", "it hears more")
        self.add("north", 30.0, dbm=-30)
        self.assertEqual(self.merge.best_gateway(DEVICE, ["south", "north"]), "north", "its signal is stronger")
        self.assertEqual(self.merge.best_gateway(DEVICE, ["south"]), "south")


if __name__ == "__main__":
    unittest.main()
