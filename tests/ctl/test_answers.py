"""The rule that finds the answer to an order."""
import json
import unittest

from enogate_ctl.answers import AnswerFinder, is_line_of_order, parse_line
from fakes import OK, TimeLimitedTest, device, end_of_list, error, packet, reading, status, teach

RESPONSE = {"code": 0, "data": "", "name": "OK", "type": "response"}
ADD, REMOVE = "add 01800abc d5-00-01", "remove 01800abc"
ACCEPTED = teach("01800ABC")
DELETED = teach("01800ABC", result="deleted")


def all_answers(orders, *lines):
    """The answers to these orders in these lines, and how many lines were read for them; None if there are none."""
    finder = AnswerFinder(*orders)
    for number, line in enumerate(lines, 1):
        raw = line if isinstance(line, bytes) else json.dumps(line).encode()
        if answers := finder.handle_line(raw):
            return [[one.members for one in answer.lines] for answer in answers], number
    return None


def answer_to(order, *lines):
    """The same for one order and its answer."""
    answers = all_answers([order], *lines)
    return answers and (answers[0][0], answers[1])


def fenced_answer(order, *lines, before=0, after=0):
    """The answer to an order with these lines between its fences; the status lines count this many packets that
    taught."""
    answer = answer_to(order, status(teach=before), status(teach=before), *lines, status(teach=after))
    return answer and answer[0]


class AnswerRule(TimeLimitedTest):
    def test_text(self):
        self.assertEqual(AnswerFinder("label 01800ABC a  b").desk_text,
                         b"status\nstatus\nlabel 01800ABC a  b\nstatus\r\n")
        self.assertEqual(AnswerFinder("status").desk_text, b"status\n")
        self.assertLess(len(AnswerFinder("label 01800ABC " + 32 * "x").desk_text), 71)

    def test_text_with_four_fences(self):
        """The order `status` needs none."""
        finder = AnswerFinder("list")
        finder.least = 4
        self.assertEqual(finder.desk_text, b"status\nstatus\nstatus\nstatus\nlist\nstatus\r\n")
        finder = AnswerFinder("status")
        finder.least = 4
        self.assertEqual(finder.desk_text, b"status\n")

    def test_fewer_status_lines_than_fences_are_those_of_another_program(self):
        fence, refused = status(), error("unknown_device")
        lines = fence, fence, OK, fence, fence, fence, refused, fence
        for least, wanted in ((2, OK), (3, refused), (4, None)):
            with self.subTest(least):
                finder = AnswerFinder("label 01800ABC x")
                finder.least = finder.least_with_errors = least
                answers = filter(None, (finder.handle_line(json.dumps(line).encode()) for line in lines))
                found = next(answers, None)
                self.assertEqual(found and found[0].lines[0].members, wanted)

    def test_an_error_in_a_row_of_status_lines(self):
        """It may answer an order between two rows. So the status lines after it are also counted alone."""
        fence, failed, refused = status(), error("store"), error("unknown_device")
        for with_errors, lines, wanted in (
            (4, (fence, failed, fence, fence, OK, fence, fence, fence, refused, fence), refused),
            (3, (fence, failed, fence, fence, OK, fence), OK), (4, (fence, failed, fence, fence, fence, OK, fence), OK),
            (4, (fence, fence, failed, fence, fence, OK, fence), OK),
            (5, (fence, fence, failed, fence, fence, OK, fence), None),
            (9, (fence, packet("refused"), failed, fence, fence, OK, fence), OK),
            (9, (fence, failed, fence, fence, failed, fence, OK, fence), None),
        ):
            with self.subTest((with_errors, lines)):
                finder = AnswerFinder("label 01800ABC x")
                finder.least, finder.least_with_errors = 3, with_errors
                answers = filter(None, (finder.handle_line(json.dumps(line).encode()) for line in lines))
                found = next(answers, None)
                self.assertEqual(found and found[0].lines[0].members, wanted)

    def test_own_lines(self):
        self.assertEqual(fenced_answer("learn on", OK), [OK])
        self.assertEqual(fenced_answer("label 01800ABC x", error("unknown_device")), [error("unknown_device")])
        self.assertEqual(fenced_answer("list", end_of_list(0)), [end_of_list(0)])
        lines = [device("01800ABC"), device("01800ABD"), end_of_list(2)]
        self.assertEqual(fenced_answer("list", *lines), lines)

    def test_lines_of_packets_are_skipped(self):
        lines = [reading("01800ABC"), RESPONSE, packet("read"), teach("01800ABD"), packet("refused"), error("store")]
        self.assertEqual(fenced_answer("learn on", *lines, OK, *lines, after=2), [OK])
        self.assertEqual(fenced_answer("list", *lines, device("01800ABC"), *lines, end_of_list(1), *lines, after=3),
                         [device("01800ABC"), end_of_list(1)])

    def test_the_lines_need_two_fences_before_them_and_one_after_them(self):
        self.assertIsNone(answer_to("learn on", OK))
        self.assertIsNone(answer_to("learn on", status(), OK, status()))
        self.assertIsNone(answer_to("learn on", status(), status(), OK))
        self.assertEqual(answer_to("learn on", status(), status(), OK, status()), ([OK], 4))
        lines = (OK, status(), status(), error("range"), status(), status(), OK, status())
        self.assertEqual(answer_to("learn on", *lines), ([OK], 8))

    def test_status_lines_of_others(self):
        one, two = status(readings=1), status(readings=2)
        self.assertEqual(answer_to("learn on", one, status(), status(), OK, two), ([OK], 5))
        self.assertEqual(answer_to("learn on", one, OK, status(), status(), OK, two), ([OK], 6))
        self.assertEqual(answer_to("learn on", OK, one, one, one, two, two, OK, two), ([OK], 8))
        # what is between the fences of another program does not fit
        self.assertEqual(answer_to("learn on", one, one, error("unknown_device"), one, one, OK, two), ([OK], 7))
        self.assertEqual(answer_to("list", one, one, OK, one, one, end_of_list(0), two), ([end_of_list(0)], 7))

    def test_an_order_of_another_between_status_lines_begins_the_search_again(self):
        self.assertIsNone(answer_to("learn on", status(), error("range"), status(), OK, status()))
        self.assertIsNone(answer_to("learn on", status(), teach("01800ABC"), status(), OK, status()))
        lines = status(), teach("01800ABC"), status(teach=1), OK, status(teach=1)
        self.assertEqual(answer_to("learn on", *lines), ([OK], 5))

    def test_more_than_one_answer(self):
        self.assertIsNone(fenced_answer("learn on", OK, OK))
        self.assertIsNone(fenced_answer("learn on", OK, error("range")))
        self.assertIsNone(fenced_answer("learn on", OK, teach("01800ABD")))
        self.assertIsNone(fenced_answer("list", end_of_list(0), end_of_list(0)))
        self.assertIsNone(fenced_answer("list", device("01800ABC"), end_of_list(2)))
        self.assertIsNone(fenced_answer("list", device("01800ABC"), device("01800ABD"), end_of_list(1)))
        self.assertIsNone(fenced_answer("list", OK, end_of_list(1)))
        self.assertIsNone(fenced_answer("list", device("01800ABC")))
        self.assertIsNone(fenced_answer(ADD, ACCEPTED, ACCEPTED))
        self.assertIsNone(fenced_answer(ADD, ACCEPTED, error("full")))

    def test_lines_that_the_order_cannot_have(self):
        for order, line in (
            ("learn on", error("range")), ("learn on", end_of_list(0)), ("learn on", device("01800ABC")), (ADD, OK),
            (REMOVE, OK), ("list", OK), ("base", error("range")), (ADD, error("unknown_device")),
            ("switch 01800ABC 0 on", error("full")), ("central 5 on", error("wrong_profile")),
            ("learn on", error("syntax")),
        ):
            with self.subTest((order, line)):
                self.assertIsNone(fenced_answer(order, line))

    def test_teach_lines_of_orders(self):
        self.assertEqual(fenced_answer(ADD, ACCEPTED), [ACCEPTED])
        self.assertEqual(fenced_answer(REMOVE, DELETED), [DELETED])
        self.assertEqual(fenced_answer(REMOVE, teach("01800ABC", "A5-02-05", 70, "deleted")),
                         [teach("01800ABC", "A5-02-05", 70, "deleted")])

    def test_teach_lines_of_packets(self):
        """The counter distinguishes them from those of orders."""
        self.assertIsNone(fenced_answer(ADD, ACCEPTED, after=1))
        self.assertEqual(fenced_answer(ADD, ACCEPTED, ACCEPTED, after=1), [ACCEPTED])
        self.assertEqual(fenced_answer(ADD, ACCEPTED, error("full"), before=5, after=6), [error("full")])
        self.assertEqual(fenced_answer(REMOVE, DELETED, error("unknown_device"), after=1), [error("unknown_device")])
        self.assertEqual(fenced_answer("learn off", ACCEPTED, OK, DELETED, after=2), [OK])
        self.assertIsNone(fenced_answer("learn off", ACCEPTED, OK, DELETED, after=1))

    def test_other_teach_lines(self):
        for order, line in (
            (ADD, teach("01800ABD")), (ADD, teach("01800ABC", "D5-00-02")), (ADD, teach("01800ABC", maker=1)),
            (ADD, DELETED), (REMOVE, ACCEPTED), (REMOVE, teach("01800ABD", result="deleted")),
            (ADD, teach("01800ABC", result="full")), ("learn on", ACCEPTED),
        ):
            with self.subTest((order, line)):
                self.assertIsNone(fenced_answer(order, line))
        self.assertEqual(fenced_answer(ADD, ACCEPTED, teach("01800ABC", maker=1), after=1), [ACCEPTED])

    def test_errors_that_packets_have_too(self):
        for name in ("memory", "store"):
            self.assertEqual(fenced_answer(ADD, error(name)), [error(name)])
            self.assertEqual(fenced_answer("list", error(name)), [error(name)])
            self.assertIsNone(fenced_answer("learn on", error(name)))
            self.assertIsNone(fenced_answer("central 5 on", error(name)))
            self.assertIsNone(fenced_answer(ADD, packet("refused"), error(name)))
            self.assertEqual(fenced_answer(ADD, packet("refused"), error("store"), error(name)), [error(name)])
            self.assertEqual(fenced_answer(ADD, error(name), packet("refused"), error("store")), [error(name)])
            self.assertEqual(fenced_answer(ADD, packet("read"), error(name)), [error(name)])
            self.assertEqual(fenced_answer(ADD, packet("refused"), reading("01800ABC"), error(name)), [error(name)])
            self.assertEqual(fenced_answer(ADD, error(name), ACCEPTED), [ACCEPTED])
            self.assertEqual(fenced_answer("label 01800ABC", OK, error(name)), [OK])
        self.assertEqual(fenced_answer(ADD, error("memory"), error("store")), [error("store")])

    def test_status(self):
        self.assertEqual(answer_to("status", OK, error("memory"), status("on")), ([status("on")], 3))

    def test_lines_of_no_gateway(self):
        strange = (b"", b"{", b"3", b"[]", b'{"type":3}', b'{"type":["ok"]}', b'{"type":"status"}', b'{"type":"error"}',
                   b'{"type":"error","error":["store"]}', b'{"type":"error","error":null}', b'{"type":"ok"}\xff',
                   b'{"type":"status","mode":"on","teach":"x"}', b'{"type":"list"}', b'{"type":"device"}',
                   b'{"type":"teach","result":"accepted"}')
        for raw in strange:
            self.assertIsNone(parse_line(raw), raw)
            self.assertFalse(is_line_of_order(raw))
        self.assertEqual(fenced_answer("learn on", *strange, OK, *strange), [OK])

    def test_lines_that_only_orders_give(self):
        for line, is_from_order in ((OK, True), (status(), True), (device("01800ABC"), True), (end_of_list(0), True),
                                    (error("range"), True), (error("memory"), False), (error("store"), False),
                                    (teach("01800ABC"), False), (reading("01800ABC"), False), (packet("read"), False),
                                    (RESPONSE, False)):
            with self.subTest(line):
                self.assertEqual(is_line_of_order(json.dumps(line).encode()), is_from_order)

    def test_the_error_of_an_answer(self):
        finder = AnswerFinder("learn on")
        lines = [status(), status(), error("unsupported_profile"), status()]
        answers = [finder.handle_line(json.dumps(line).encode()) for line in lines]
        self.assertEqual([answer and answer[0].error for answer in answers], [None, None, None, "unsupported_profile"])


class SeveralOrders(TimeLimitedTest):
    """Several orders in a single write."""

    LABELS = ("label 01800ABC x", "label 01800ABD x", "label 01800ABE x")
    ADDS = (ADD, "add 01800abd D5-00-01")

    def test_text(self):
        self.assertEqual(AnswerFinder(*self.LABELS[:2]).desk_text,
                         b"status\nstatus\nlabel 01800ABC x\nstatus\nlabel 01800ABD x\nstatus\r\n")

    def test_each_has_its_own_answer(self):
        lines = status(), status(), OK, status(), error("unknown_device"), status(), OK, status()
        self.assertEqual(all_answers(self.LABELS, *lines), ([[OK], [error("unknown_device")], [OK]], 8))
        self.assertIsNone(all_answers(self.LABELS, *lines[:-1]))
        other = teach("01800ABD")
        self.assertEqual(all_answers(self.ADDS, status(), status(), ACCEPTED, status(), other, status()),
                         ([[ACCEPTED], [other]], 6))

    def test_no_answer_is_left_out_or_there_twice(self):
        start = status(), status(), OK
        for lines in (
            (OK, status(), OK, status(), status()), (status(), status(), OK, status(), OK, status()),
            (status(), OK, OK, status(), OK, status()), (status(), error("range"), error("range"), status()),
            (status(), error("full"), status(), OK, status()), (status(), teach("01800ABC"), status(), OK, status()),
        ):
            with self.subTest(lines):
                self.assertIsNone(all_answers(self.LABELS, *start, *lines))
        self.assertIsNone(all_answers(self.ADDS, status(), status(), teach("01800ABD"), status(), ACCEPTED, status()))

    def test_each_window_counts_its_packets(self):
        other = teach("01800ABD")
        one, two = status(teach=1), status(teach=2)
        self.assertEqual(all_answers(self.ADDS, status(), status(), ACCEPTED, other, one, other, one),
                         ([[ACCEPTED], [other]], 7))
        self.assertEqual(all_answers(self.ADDS, status(), status(), ACCEPTED, status(), other, error("full"), one),
                         ([[ACCEPTED], [error("full")]], 7))
        self.assertIsNone(all_answers(self.ADDS, status(), status(), ACCEPTED, one, other, one))
        self.assertIsNone(all_answers(self.ADDS, status(), status(), ACCEPTED, status(), other, two))

    def test_how_many_orders_may_be_answered(self):
        """The error may be that of a packet: the answers begin with it or after it."""
        finder, counts = AnswerFinder(*self.LABELS), []
        for line in (status(), status(), error("store"), status(), OK, status(), OK, OK, status()):
            finder.handle_line(json.dumps(line).encode())
            counts.append(finder.answered_count)
        self.assertEqual(counts, [0, 0, 0, 1, 1, 2, 2, 2, 0])

    def test_orders_of_others_before(self):
        """Of another program are an answer that the first order can have, and one that it cannot have."""
        own = status(), status(), OK, status(), OK, status(), error("range"), status()
        wanted = [[OK], [OK], [error("range")]]
        for lines in ((status(), status(), OK), (status(), status(), error("full")), (status(),), (status(), OK),
                      (status(), status(), OK, status(), OK)):
            with self.subTest(lines):
                self.assertEqual(all_answers(self.LABELS, *lines, *own), (wanted, len(lines) + len(own)))


if __name__ == "__main__":
    unittest.main()
