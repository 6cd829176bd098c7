"""How many fences an order needs, by what is on the desk."""
import unittest

from enogate_ctl.answers import AnswerFinder
from enogate_ctl.fence import MAX_FENCES, VERBS_WITHOUT_PACKET_ERRORS, are_enough_fences, needed_fences
from fakes import TimeLimitedTest

COMMAND_TEXT = "status\nstatus\nlist\nstatus\r\n"
STATUS_PAIR = "status\nstatus\ncentral 0 on\n"


class NeededFences(TimeLimitedTest):
    def assert_needed(self, *cases, with_errors=False):
        """So many fences are needed for each of these texts on the desk."""
        for fences, text in cases:
            with self.subTest(text):
                self.assertEqual(needed_fences(text.encode(), with_errors), fences)

    def test_one_more_than_any_order_of_another_program_has(self):
        self.assert_needed((2, ""), (2, "list\n"), (2, "status\nlist\n"), (3, STATUS_PAIR),
                           (4, "status\n" + STATUS_PAIR),
                           (4, "status\n" + STATUS_PAIR + STATUS_PAIR.replace("central 0 on", "base")),
                           (2, "status\n\nstatus\n\n"),
                           (3, STATUS_PAIR + "status\nbase\n"), (6, "status\n" * 5 + "base\n" + STATUS_PAIR))

    def test_a_row_at_the_end_does_not_count(self):
        self.assert_needed((2, "status\n" * 9), (3, STATUS_PAIR + "status\n" * 9), (2, "status\n" * 9 + "status\n"))

    def test_an_incomplete_order_ends_a_row(self):
        """It is made invalid by the end that is written before the fences."""
        self.assert_needed((10, "status\n" * 9 + "status"), (10, "status\n" * 9 + "stat"),
                           (10, "status\n" * 9 + "status\r"), (2, "status"))
        self.assert_needed((11, "status\nlist\n" * 9 + "status\nx"), with_errors=True)
        self.assertTrue(are_enough_fences(2, b"lis", b"\x15\nstatus\n"))
        self.assertFalse(are_enough_fences(2, b"lis", b"status\n"))

    def test_both_ends_of_a_line(self):
        self.assert_needed((3, STATUS_PAIR.replace("\n", "\r\n")), (2, STATUS_PAIR.replace("status", "status\r\r")),
                           (2, STATUS_PAIR.replace("status", "status ")), (2, STATUS_PAIR.replace("status", "Status")))

    def test_each_order_ends_a_row(self):
        for order in ("learn on", "list", "add 01800ABC D5-00-01", "status x", "x", ""):
            self.assert_needed((2, f"status\n{order}\n" * 9), (3, f"status\nstatus\n{order}\n" * 9))

    def test_with_errors_only_orders_that_cannot_fail_end_a_row(self):
        self.assertEqual(VERBS_WITHOUT_PACKET_ERRORS, {b"learn", b"base", b"central", b"level", b"teach"})
        for order in ("learn on", "learn off", "base", "central 0 on", "level 0 0 0", "teach 0"):
            self.assert_needed((2, f"status\n{order}\n" * 9), with_errors=True)
        for order in ("list", "add 01800ABC D5-00-01", "remove 01800ABC", "label 01800ABC x", "stop 01800ABC", "x", "",
                      "learned", "query 01800ABC 0"):
            self.assert_needed((10, f"status\n{order}\n" * 9), with_errors=True)

    def test_a_long_row_is_answered(self):
        row = "status\n"
        self.assert_needed((23, 22 * row + "list\n"), (24, 23 * row + "list\n"), (24, 2000 * row + "list\n"))
        self.assert_needed((2001, 2000 * row + "list\n"), with_errors=True)
        finder = AnswerFinder("label 01800ABC " + 32 * "x")
        finder.least = MAX_FENCES
        self.assertLessEqual(len(finder.desk_text), 256)

    def test_what_is_before_the_end_of_a_text_is_answered(self):
        several = AnswerFinder("label 01800ABC x", "list").desk_text.decode()
        more = AnswerFinder("list")
        more.least = 4
        for text in (COMMAND_TEXT, several, COMMAND_TEXT + several, "list\n" + COMMAND_TEXT,
                     "list\n" + more.desk_text.decode(), STATUS_PAIR + COMMAND_TEXT):
            self.assert_needed((2, text), (2, text + "list\n"), (3, text + STATUS_PAIR),
                               (2, STATUS_PAIR + text + "status\nlist\n"))

    def test_what_is_not_the_end_of_a_text(self):
        before = STATUS_PAIR + "base\n"
        self.assert_needed(
            (3, before + "status\r\nlist\n"), (3, before + COMMAND_TEXT.replace("\r", "")),
            (3, before + COMMAND_TEXT.replace("\r", "").replace("\n", "\r\n")),
            (3, before + "x status\nlist\nstatus\r\n"),
            (3, before + "status x\nlist\nstatus\r\n"), (3, before + "status\nlist\r\nstatus\r\n"),
            (4, before + "status\nstatus\nstatus\r\nlist\n"), (3, before + "status\nlist\nx status\r\n"))

    def test_an_end_that_is_written_at_last_counts(self):
        self.assert_needed((2, STATUS_PAIR + COMMAND_TEXT + STATUS_PAIR + COMMAND_TEXT),
                           (3, COMMAND_TEXT + STATUS_PAIR))


class EnoughFences(TimeLimitedTest):
    def test_enough_fences(self):
        for fences, wanted in ((2, False), (3, True), (4, True)):
            self.assertEqual(are_enough_fences(fences, STATUS_PAIR.encode(), b"status\n"), wanted)

    def test_the_first_fence_is_a_line_of_its_own(self):
        for desk, text, wanted in (("", "status\n", True), ("list\n", "status\n", True), ("li", "status\n", False),
                                   ("li", "\nstatus\n", False), ("li", "\x15\nstatus\n", True),
                                   ("list\n", "\x15\nstatus\n", True)):
            with self.subTest((desk, text)):
                self.assertEqual(are_enough_fences(2, desk.encode(), text.encode()), wanted)


if __name__ == "__main__":
    unittest.main()
