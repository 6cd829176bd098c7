"""The desk."""
import contextlib
import errno
import os
import signal
import unittest
from unittest import mock

from enogate_lines.contents import Deleted, EndOfList, Learned, OkOrError, Status, Telegram
from enogate_mqtt.desk import ANSWER_WITHIN, BYTES_PER_SECOND, COST_OF_LISTED_DEVICE, MAX_BURST, MAX_SIZE
from enogate_mqtt.desk import Desk, DeskChange
from fakes import LogTest, Clock, BridgeFixture


@contextlib.contextmanager
def full_disk_after(free):
    """A file system with so many bytes left."""
    original_write, free_bytes = os.write, [free]

    def write(file, text):
        if free_bytes[0] == 0:
            raise OSError(errno.ENOSPC, "No space left on device")
        written = original_write(file, text[:free_bytes[0]])
        free_bytes[0] -= written
        return written
    with mock.patch("os.write", write):
        yield


OK, STATUS, LIST, LEARNED = OkOrError(), Status("closed", {}), EndOfList(2), Learned("01800ABC", "D5-00-01", None)
REMOVED, READING = Deleted("01800ABC"), Telegram("01800ABC", "D5-00-01", -45, ())


class DeskOrders(LogTest):
    def setUp(self):
        super().setUp()
        self.fixture = BridgeFixture(self)
        self.path, self.clock = self.fixture.desk, Clock()
        self.desk = Desk(str(self.path), self.clock)

    def write(self, text, mode="a"):
        with self.path.open(mode) as file:
            file.write(text)

    def give(self, orders, devices=0):
        """Others give these orders to a gateway with so many devices."""
        return self.desk.give(orders, devices)

    def test_orders_are_appended(self):
        self.write("list\n")
        self.desk.append(b"status\n")
        self.desk.append(b"base\n")
        self.assertEqual(self.path.read_bytes(), b"list\nstatus\nbase\n")

    def test_an_incomplete_order_is_ended_first(self):
        """It may be the beginning of an order, so it is made invalid."""
        self.write("dim 01800ABC 0 10")
        self.desk.append(b"list\n")
        self.assertEqual(self.path.read_bytes(), b"dim 01800ABC 0 10\x15\nlist\n")

    def lost_orders(self, orders, *answers):
        """The orders that a gateway has not answered that is started after these lines."""
        self.setUp()
        self.give(orders.encode())
        for answer in answers:
            self.desk.handle_line(answer)
        self.desk.take_change()
        self.assertEqual(self.desk.take_lost_orders(), [])
        self.write("", "w")
        self.assertIs(self.desk.take_change(), DeskChange.TRUNCATED)
        lost_orders = [order.decode() for order in self.desk.take_lost_orders()]
        self.assertEqual((self.desk.take_lost_orders(), len(self.desk.pending_orders)), ([], 0))
        return lost_orders

    def test_orders_that_are_lost_by_a_start(self):
        two_orders = "dim 01800ABC 0 10\nteach 5\n"
        for orders, answers, expected_orders in (
            (two_orders, (), ["dim 01800ABC 0 10", "teach 5"]), (two_orders, (OK,), ["teach 5"]),
            (two_orders, (OK, OK, OK), []),
            (two_orders, (READING, LEARNED, REMOVED, LIST, STATUS), ["dim 01800ABC 0 10", "teach 5"]),
            ("teach 5\nstatus\nteach 6\nlist\nteach 7\n", (STATUS,), ["teach 6", "teach 7"]),
            ("teach 5\nstatus\nteach 6\nlist\nteach 7\n", (LIST,), ["teach 7"]),
            ("status\nteach 6\n", (OK, OK), ["teach 6"]),
            ("list\nteach 6\n", (OK, OK), ["teach 6"]),
            ("add 01800ABC D5-00-01\nremove 01800ABC\nteach 5\n", (LEARNED,), ["remove 01800ABC", "teach 5"]),
            ("add 01800ABC D5-00-01\nremove 01800ABC\nteach 5\n", (LEARNED, REMOVED), ["teach 5"]),
            ("remove 01800ABC\nadd 01800ABC D5-00-01\n", (REMOVED, OK), []),
            # the bridge gives these again by itself
            ("list\nstatus\nbase\nteach 5\n", (), ["teach 5"]),
        ):
            with self.subTest(orders=orders, answers=answers):
                self.assertEqual(self.lost_orders(orders, *answers), expected_orders)

    def test_orders_after_a_start_are_not_lost(self):
        """Also if the start was not noticed before."""
        self.give(b"teach 5\n")
        self.write("", "w")
        self.give(b"teach 6\n")
        self.assertIs(self.desk.take_change(), DeskChange.TRUNCATED)
        self.assertEqual(self.desk.take_lost_orders(), [b"teach 5"])
        self.assertIs(self.desk.take_change(), DeskChange.NONE)
        self.write("", "w")
        self.desk.take_change()
        self.assertEqual(self.desk.take_lost_orders(), [b"teach 6"])

    def test_a_start_before_an_order_of_the_bridge(self):
        self.give(b"teach 5\n")
        self.desk.take_change()
        self.write("", "w")
        self.desk.append(b"list\nstatus\nbase\n")
        self.assertIs(self.desk.take_change(), DeskChange.TRUNCATED)
        self.assertEqual(self.desk.take_lost_orders(), [b"teach 5"])

    def test_own_orders_are_not_lost(self):
        """But they show which orders before them were answered."""
        self.give(b"teach 5\n")
        self.desk.append(b"learn off\n")
        self.desk.append(b"status\n")
        self.give(b"teach 6\n")
        self.desk.append(b"learn off\n")
        self.desk.handle_line(STATUS)
        self.write("", "w")
        self.desk.take_change()
        self.assertEqual(self.desk.take_lost_orders(), [b"teach 6"])

    def test_a_list_after_a_start_that_was_not_noticed_is_not_answered_by_the_old_gateway(self):
        self.give(b"list\n")
        self.write("", "w")
        self.assertEqual(self.give(b"list\n"), 0)

    def test_orders_are_a_single_write(self):
        self.write("sta")
        with mock.patch("os.write", side_effect=os.write) as write:
            self.desk.append(b"list\nstatus\n")
        self.assertEqual(write.call_count, 1)

    def test_no_part_of_an_order_becomes_an_order(self):
        """The file system has so many bytes left, and more only after the next order, or the one after it."""
        orders = b"dim 01800ABC 0 100\nlearn on answer\n"
        for free in range(len(orders)):
            for free_later in (0, 1, 2, 5, 99):
                self.path.write_bytes(b"list\n")
                free_bytes = [free, free_later, 99]
                for text in (orders, b"status\n", b"base\n"):
                    with full_disk_after(free_bytes.pop(0)), contextlib.suppress(OSError):
                        self.desk.append(text)
                with self.subTest(free=free, more=free_later):
                    self.assert_orders(orders, b"status\n", b"list\n", b"base\n")

    def assert_orders(self, *given_orders):
        """Each line of the desk is one that was given, or no order. The last one is whole."""
        *lines, partial_line = self.path.read_bytes().split(b"\n")
        known_lines = b"".join(given_orders).split(b"\n")
        self.assertEqual(([line for line in lines if line not in known_lines and b"\x15" not in line], partial_line),
                         ([], b""))
        self.assertEqual(lines[-1], known_lines[-2])

    def test_a_part_is_ended_at_once_if_it_fits(self):
        original_write = os.write
        with mock.patch("os.write", lambda file, text: original_write(file, text[:17])), self.assertRaises(OSError):
            self.desk.append(b"dim 01800ABC 0 100\n")
        self.assertEqual(self.path.read_bytes(), b"dim 01800ABC 0 10\x15\n")

    def test_whole_orders_are_not_ended_again(self):
        original_write = os.write
        with mock.patch("os.write", lambda file, text: original_write(file, text[:5])), self.assertRaises(OSError):
            self.desk.append(b"list\nstatus\n")
        self.assertEqual(self.path.read_bytes(), b"list\n")

    def test_an_incomplete_write(self):
        with mock.patch("os.write", return_value=3), self.assertRaisesRegex(OSError, "^incomplete write$"):
            self.desk.append(b"list\n")

    def test_the_file_is_closed(self):
        descriptor_count = len(os.listdir("/proc/self/fd"))
        self.desk.append(b"list\n")
        with mock.patch("os.write", side_effect=OSError), self.assertRaises(OSError):
            self.desk.append(b"list\n")
        self.assertEqual(len(os.listdir("/proc/self/fd")), descriptor_count)

    def test_no_desk(self):
        self.path.unlink()
        with self.assertRaises(FileNotFoundError):
            self.desk.append(b"list\n")
        self.assertFalse(self.path.exists())

    def test_a_pipe_that_nobody_reads(self):
        self.path.unlink()
        os.mkfifo(self.path)
        # a desk that waits for a reader would wait for good
        former_handler = signal.signal(signal.SIGALRM, lambda *_: self.fail("it waits"))
        self.addCleanup(signal.signal, signal.SIGALRM, former_handler)
        self.addCleanup(signal.alarm, 0)
        signal.alarm(10)
        with self.assertRaises(OSError) as error:
            self.desk.append(b"list\n")
        self.assertEqual(error.exception.errno, errno.ENXIO)

    def test_a_full_desk(self):
        os.truncate(self.path, MAX_SIZE - 5)
        with self.path.open("r+b") as file:
            file.seek(MAX_SIZE - 6)
            file.write(b"\n")
        with self.assertRaisesRegex(OSError, "^file is full until the gateway restarts$"):
            self.desk.append(b"status\n")
        self.desk.append(b"list\n")
        self.assertEqual(MAX_SIZE, 16 * 1024 * 1024)

    def test_too_many_orders(self):
        message = b"x\n" * (MAX_BURST // 2)
        self.give(message)
        with self.assertRaisesRegex(OSError, "^too many orders in a short time$"):
            self.give(b"x\n")
        self.clock.now += 11 / BYTES_PER_SECOND
        self.give(b"x\n" * 5)
        with self.assertRaises(OSError):
            self.give(b"x\n")
        self.clock.now += 1000
        self.give(message)
        with self.assertRaises(OSError):
            self.give(b"x\n")
        self.assertEqual((MAX_BURST, BYTES_PER_SECOND), (16384, 2000))

    def test_own_orders_are_not_limited(self):
        self.give(b"x\n" * (MAX_BURST // 2))
        self.desk.append(b"list\n")
        self.assertTrue(self.path.read_bytes().endswith(b"list\n"))

    def lines(self):
        return self.path.read_text().split("\n")[:-1]

    def test_one_list_of_others_waits_for_its_answer(self):
        for order in (b"list", b"status"):
            with self.subTest(order):
                self.setUp()
                self.assertEqual(self.give((order + b"\n") * 400), 399)
                self.assertEqual(self.lines(), [order.decode()])
                self.assertEqual(self.give(order + b"\nbase\n" + order + b"\n"), 2)
                self.assertEqual(self.lines()[1:], ["base"])
                self.desk.pending_requests.note_answer(order)
                self.assertEqual(self.give(b"base\n" + order + b"\n"), 0)
                self.assertEqual(self.lines()[2:], ["base", order.decode()])

    def test_list_and_status_do_not_wait_for_each_other(self):
        self.give(b"list\nstatus\n")
        self.desk.pending_requests.note_answer(b"status")
        self.assertEqual(self.give(b"status\nlist\n"), 1)
        self.assertEqual(self.lines(), ["list", "status", "status"])

    def test_other_orders_are_all_passed_on(self):
        orders = b"lists\nlist\r\r\nlist \nLIST\nbase\nlearn on\n" * 2
        self.assertEqual(self.give(orders), 0)
        self.assertEqual(self.path.read_bytes(), orders)

    def test_orders_that_are_all_left_out_are_no_write(self):
        self.give(b"list\n")
        with mock.patch("os.write") as write:
            self.assertEqual(self.give(b"list\nlist\n"), 2)
        self.assertEqual(write.call_count, 0)

    def test_answers_come_in_the_sequence_of_the_orders(self):
        """The bridge gives its own orders always, and the list of others waits only for their own answer."""
        self.desk.append(b"list\n")
        self.assertEqual(self.give(b"list\n"), 0)
        self.desk.append(b"list\n")
        for _ in range(2):
            self.assertEqual(self.give(b"list\n"), 1)
            self.desk.pending_requests.note_answer(b"list")
        self.assertEqual(self.give(b"list\n"), 0)
        self.assertEqual(self.lines(), ["list"] * 4)

    def test_answers_to_orders_of_another_program(self):
        for _ in range(2):
            self.desk.pending_requests.note_answer(b"list")
        self.give(b"list\n")
        self.assertEqual(self.give(b"list\n"), 1)

    def test_an_answer_that_never_comes(self):
        self.desk.append(b"list\n")
        self.give(b"list\n")
        self.clock.now += ANSWER_WITHIN
        self.assertEqual(self.give(b"list\n"), 1)
        self.clock.now += 0.1
        self.assertEqual(self.give(b"list\n"), 0)
        self.assertEqual(ANSWER_WITHIN, 60)

    def test_a_gateway_that_does_not_answer_for_days(self):
        for _ in range(3000):
            self.desk.append(b"status\n")
            self.clock.now += 60
        self.assertEqual(len(self.desk.pending_requests.times_by_request[b"status"]), 100)

    def test_a_gateway_that_was_started_answers_no_order_of_before(self):
        self.desk.take_change()
        self.give(b"list\nstatus\n")
        self.desk.take_change()
        self.assertEqual(self.give(b"list\n"), 1)
        self.write("", "w")
        self.assertIs(self.desk.take_change(), DeskChange.TRUNCATED)
        self.assertEqual(self.give(b"list\nstatus\n"), 0)

    def test_a_list_counts_a_line_for_each_device(self):
        """Each line of its answer counts like the shortest order."""
        self.assertEqual(COST_OF_LISTED_DEVICE, 5)
        passed_on = []
        for second in range(20):
            try:
                self.give(b"list\n", devices=1000)
                self.desk.pending_requests.note_answer(b"list")
                passed_on.append(second)
            except OSError as error:
                self.assertEqual(str(error), "too many orders in a short time")
            self.clock.now += 1
        self.assertEqual(passed_on, [0, 1, 2, 3, 5, 7, 10, 12, 15, 17])
        self.assertEqual(self.lines(), ["list"] * len(passed_on))

    def test_other_orders_count_their_bytes_only(self):
        self.give(b"x\n" * (MAX_BURST // 2), devices=1000)

    def test_a_list_is_passed_on_however_many_devices_there_are(self):
        self.give(b"list\n", devices=10 * MAX_BURST)
        self.assertEqual(self.lines(), ["list"])

    def test_a_list_that_could_not_be_appended_does_not_wait(self):
        self.path.unlink()
        with self.assertRaises(FileNotFoundError):
            self.give(b"list\n")
        self.path.touch()
        self.assertEqual(self.give(b"list\n"), 0)

    def test_what_could_not_be_appended_does_not_count(self):
        self.path.unlink()
        with self.assertRaises(FileNotFoundError):
            self.give(b"x\n" * (MAX_BURST // 2))
        self.path.touch()
        self.give(b"x\n" * (MAX_BURST // 2))

    def test_a_word_that_was_seen(self):
        self.write("list\nlabel ")
        self.assertIs(self.desk.take_change(), DeskChange.LABELLED)
        self.write("x")
        self.assertIs(self.desk.take_change(), DeskChange.NONE)

    def test_news(self):
        self.assertIs(self.desk.take_change(), DeskChange.NONE)
        self.write("list\nlabel 01800ABC x\n")
        self.assertIs(self.desk.take_change(), DeskChange.LABELLED)
        self.assertIs(self.desk.take_change(), DeskChange.NONE)
        self.write("list\n")
        self.assertIs(self.desk.take_change(), DeskChange.NONE)
        self.write("", "w")
        self.assertIs(self.desk.take_change(), DeskChange.TRUNCATED)
        self.write("x" * 30)
        self.desk.take_change()
        self.write("x" * 29, "w")
        self.assertIs(self.desk.take_change(), DeskChange.TRUNCATED)

    def test_a_file_that_replaces_another(self):
        self.write("list\n")
        self.desk.take_change()
        new_path = self.fixture.folder / "new"
        new_path.write_text("list\nlist\n")
        new_path.rename(self.path)
        self.assertIs(self.desk.take_change(), DeskChange.REPLACED)
        self.assertIs(self.desk.take_change(), DeskChange.NONE)

    def test_a_desk_that_comes_and_goes(self):
        self.path.unlink()
        self.assertIs(self.desk.take_change(), DeskChange.NONE)
        self.assertIs(self.desk.take_change(), DeskChange.NONE)
        self.write("label 01800ABC x\n")
        self.assertIs(self.desk.take_change(), DeskChange.CREATED)
        self.assertIs(self.desk.take_change(), DeskChange.LABELLED)

    def test_a_pipe_has_no_news(self):
        self.path.unlink()
        os.mkfifo(self.path)
        with mock.patch("builtins.open", side_effect=AssertionError("it would wait for a program that writes")):
            self.assertIs(self.desk.take_change(), DeskChange.NONE)
            self.assertIs(self.desk.take_change(), DeskChange.NONE)

    def test_labels(self):
        self.write("label 01800ABC at the beginning\n")
        self.assertIs(self.desk.take_change(), DeskChange.LABELLED)
        self.write("label")
        self.assertIs(self.desk.take_change(), DeskChange.NONE)
        self.write(" 01800ABC in two pieces\n")
        self.assertIs(self.desk.take_change(), DeskChange.LABELLED)
        self.write("list label 01800ABC\nrelabel 01800ABC x\nlabels\n")
        self.assertIs(self.desk.take_change(), DeskChange.NONE)

    def test_a_desk_that_is_longer_than_the_memory(self):
        """Another program has made it so long. The labels that follow are found, a part in each turn."""
        os.truncate(self.path, 1 << 36)
        with mock.patch.object(Desk, "read", return_value=b"") as read_mock:
            self.desk.take_change()
            self.assertEqual(self.desk.appended_orders(b"query "), set())
        self.assertLessEqual(max(call.args[1] for call in read_mock.mock_calls), 16 << 20)
        os.truncate(self.path, 0)
        self.desk.take_change()
        os.truncate(self.path, (1 << 20) + 100)
        self.write("\nlabel 01800ABC x\n")
        self.assertEqual([self.desk.take_change() for _ in range(3)],
                         [DeskChange.NONE, DeskChange.LABELLED, DeskChange.NONE])

    def test_orders_that_were_given(self):
        self.write("query 01800ABC 1\nlist\nquery 01800ABC 30\nsubquery 01800ABC 2\nquery 01800ABC 1\nquery 0180")
        self.assertEqual(self.desk.appended_orders(b"query "), {b"query 01800ABC 1", b"query 01800ABC 30"})
        self.path.unlink()
        self.assertEqual(self.desk.appended_orders(b"query "), set())

    def test_what_was_there_before_is_no_news(self):
        self.write("label 01800ABC x\n")
        self.assertIs(Desk(str(self.path), self.clock).take_change(), DeskChange.NONE)

    def test_a_desk_that_cannot_be_read(self):
        self.write("list")
        with mock.patch("builtins.open", side_effect=PermissionError):
            self.desk.append(b"list\n")
            self.assertIs(self.desk.take_change(), DeskChange.NONE)
        self.assertEqual(self.path.read_bytes(), b"listlist\n")


if __name__ == "__main__":
    unittest.main()
