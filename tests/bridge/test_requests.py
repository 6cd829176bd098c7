"""The orders that the bridge gives by itself."""
import unittest

from enogate_lines.contents import EndOfList, Other, Response, Status, Telegram
from enogate_mqtt.desk import Desk
from enogate_mqtt.requests import ANSWER_WITHIN, MAX_PAUSE, PROBE_AFTER, SILENT_FOR, START_WITHIN, STATUS_EVERY
from enogate_mqtt.requests import Requests
from enogate_tools.desk import opens_window
from fakes import LogTest, BridgeFixture

STATUS = Status("closed", {})


class RequestTimes(LogTest):
    def setUp(self):
        super().setUp()
        self.fixture = BridgeFixture(self)
        self.clock = self.fixture.clock
        self.requests = self.make_requests()

    def make_requests(self, learn_until=None):
        return Requests(Desk(str(self.fixture.desk), self.clock), self.clock, self.fixture.wall, 120, learn_until)

    def turn(self, seconds=0.0, needs_list=False):
        """The orders that are given after this many seconds."""
        self.clock.now += seconds
        order_count = len(self.fixture.orders())
        self.requests.turn(needs_list)
        return self.fixture.orders()[order_count:]

    def test_at_the_start(self):
        self.assertEqual(self.turn(), ["list", "status"])
        self.assertEqual(self.turn(1), [])

    def times(self, order, seconds):
        """When this order is given within this many seconds, from now on."""
        return [second for second in range(seconds) if order in self.turn(1)]

    def test_the_list_is_asked_for_with_growing_pauses(self):
        self.turn()
        times = self.times("list", 3000)
        self.assertEqual([later - sooner for sooner, later in zip([-1, *times], times)],
                         [5, 10, 20, 40, 80, 160, 320, 600,
                                                                                          600, 600])
        self.assertEqual(MAX_PAUSE, 600)

    def test_an_answer_ends_this(self):
        self.turn()
        self.requests.list_request.note_answer()
        self.assertEqual(self.times("list", 3000), [])

    def test_it_is_asked_for_again_when_it_may_have_changed(self):
        self.turn()
        self.requests.list_request.note_answer()
        self.assertEqual(self.turn(1000, needs_list=True)[0], "list")
        self.requests.list_request.note_answer()
        self.turn(1, needs_list=True)
        self.assertEqual(self.times("list", 60)[0], 3)

    def test_a_label_asks_for_the_list(self):
        self.turn()
        self.requests.list_request.note_answer()
        with self.fixture.desk.open("a") as file:
            file.write("label 01800ABC x\n")
        self.assertEqual(self.turn(100), ["list", "status"])

    def test_a_start_asks_for_all(self):
        self.turn()
        self.requests.handle_line(STATUS)
        self.requests.handle_line(Response(0, ""))
        self.requests.list_request.note_answer()
        self.turn(20)
        self.fixture.desk.write_text("")
        self.assertEqual(self.turn(1), ["list", "status", "base"])

    def test_the_gateway_is_asked_each_minute(self):
        self.turn()
        self.requests.handle_line(STATUS)
        self.assertTrue(self.requests.gateway_probe.is_online)
        self.assertEqual(self.turn(STATUS_EVERY - 1).count("status"), 0)
        self.assertEqual(self.turn(1).count("status"), 1)
        self.assertEqual(STATUS_EVERY, 60)

    def test_a_gateway_that_does_not_answer(self):
        self.turn()
        self.turn(ANSWER_WITHIN - 0.1)
        self.assertIsNone(self.requests.gateway_probe.is_online)
        self.turn(0.1)
        self.assertIs(self.requests.gateway_probe.is_online, False)
        self.assert_logged("WARNING: the gateway does not answer: orders are lost until it runs")
        self.times("status", 600)
        self.assert_logged("does not answer")
        self.requests.handle_line(STATUS)
        self.assertIs(self.requests.gateway_probe.is_online, True)
        self.assert_logged("INFO: the gateway answers again")

    def test_an_unanswered_question_counts_from_the_first(self):
        self.requests.gateway_probe.interval = 10
        self.turn()
        self.turn(10)
        self.turn(5)
        self.assertIs(self.requests.gateway_probe.is_online, False)

    def test_it_may_stop_answering_later(self):
        self.turn()
        self.requests.handle_line(STATUS)
        self.turn(STATUS_EVERY)
        self.turn(ANSWER_WITHIN)
        self.assertIs(self.requests.gateway_probe.is_online, False)

    def test_the_first_answer_is_not_logged(self):
        self.turn()
        self.requests.handle_line(STATUS)
        self.assertEqual(self.logged_lines, [])

    def test_a_truncated_desk(self):
        self.turn()
        self.turn()
        self.requests.handle_line(STATUS)
        self.fixture.desk.write_text("")
        self.turn(1)
        self.turn(ANSWER_WITHIN)
        self.assert_logged("desk was truncated: if > was used in place of >>, restart the gateway")

    def test_a_truncated_desk_of_a_gateway_that_was_started(self):
        self.turn()
        self.turn()
        self.fixture.desk.write_text("")
        self.turn(1)
        self.requests.handle_line(STATUS)
        self.turn(STATUS_EVERY)
        self.turn(ANSWER_WITHIN)
        self.assert_logged("was truncated", 0)

    def test_a_replaced_desk(self):
        self.turn()
        self.requests.handle_line(STATUS)
        new_path = self.fixture.folder / "new"
        new_path.write_text("")
        new_path.rename(self.fixture.desk)
        self.turn(1)
        self.turn(ANSWER_WITHIN)
        self.assert_logged("desk was replaced by another file, which the gateway does not read: restart the gateway")

    def run_for(self, seconds, *answering):
        """The orders of this many seconds. A gateway answers each order in the next second if it is one of these; its
        module answers `base`, if `module` is one of them."""
        orders = []
        for _ in range(seconds):
            new_orders = self.turn(1)
            for order in new_orders:
                if order in answering:
                    self.requests.handle_line({"status": STATUS, "list": EndOfList(0)}.get(order, Other()))
                if order == "list":
                    self.requests.list_request.note_answer()
                if order == "base" and "module" in answering:
                    self.requests.handle_line(Response(0, "FF800000"))
            orders += new_orders
        return orders

    def states(self):
        return self.requests.gateway_probe.is_online, self.requests.module_probe.is_online

    def test_the_module(self):
        self.turn()
        self.assertEqual(self.turn(5), ["list"])
        self.requests.handle_line(STATUS)
        self.assertEqual(self.turn(1), ["base"])
        self.requests.handle_line(Response(0, ""))
        self.assertEqual(self.states(), (True, True))
        self.requests.list_request.note_answer()
        self.assertEqual(self.turn(PROBE_AFTER - 0.1), [])
        self.assertEqual(self.turn(0.1), ["base"])

    def test_telegrams_show_that_the_module_works(self):
        self.run_for(10, "list", "status", "base", "module")
        for _ in range(100):
            self.requests.handle_line(STATUS)
            self.requests.handle_line(Telegram("01800ABC", "A5-02-05", -45, ()))
            self.assertNotIn("base", self.turn(PROBE_AFTER - 1))
        self.assertIn("base", self.run_for(7))

    def test_a_gateway_that_stops_is_noticed_within_15_seconds(self):
        """Whenever it stops: it is not asked any more often."""
        for seconds in range(60, 74):
            self.setUp()
            self.run_for(seconds, "list", "status", "base", "module")
            self.assertEqual(self.states(), (True, True))
            self.run_for(5)
            self.assertEqual(self.states(), (True, True))
            self.run_for(9)
            self.assertIs(self.requests.gateway_probe.is_online, False)
            self.assert_logged("the gateway does not answer")
            self.assertEqual(set(self.run_for(120)), {"status"})
            self.assert_logged("the gateway does not answer")

    def test_a_module_that_stops_is_noticed_within_15_seconds(self):
        for seconds in range(60, 74):
            self.setUp()
            self.run_for(seconds, "list", "status", "base", "module")
            self.run_for(5, "status", "base")
            self.assertEqual(self.states(), (True, True))
            self.run_for(9, "status", "base")
            self.assertEqual(self.states(), (True, False))
            self.run_for(100, "status", "base")
            self.assertEqual(self.states(), (True, False))
            self.run_for(9, "status", "base", "module")
            self.assertEqual(self.states(), (True, True))

    def test_a_desk_that_the_gateway_does_not_read(self):
        """Readings do not show that it carries out orders."""
        self.run_for(70, "list", "status", "base", "module")
        for _ in range(int(STATUS_EVERY + ANSWER_WITHIN)):
            self.requests.handle_line(Telegram("01800ABC", "A5-02-05", -45, ()))
            self.turn(1)
        self.assertEqual(self.states()[0], False)

    def test_a_missing_desk(self):
        self.run_for(70, "list", "status", "base", "module")
        self.fixture.desk.unlink()
        with self.assertRaises(FileNotFoundError):
            self.fixture.desk.read_text()
        for _ in range(14):
            self.clock.now += 1
            self.requests.turn(False)
        self.assertIs(self.requests.gateway_probe.is_online, False)

    def test_an_hour_of_an_idle_building(self):
        """The answers would be a megabyte in a day."""
        orders = self.run_for(3600, "list", "status", "base", "module")
        sizes = {"list": 26, "status": 89, "base": 14 + 60}
        self.assertEqual(self.states(), (True, True))
        self.assertEqual(self.logged_lines, [])
        self.assertLess(24 * sum(sizes[order] for order in orders), 1_100_000)
        self.assertEqual(orders.count("status"), 61)

    def restart(self):
        self.fixture.desk.write_text("")
        self.turn(1)

    def test_a_gateway_may_need_some_seconds_to_start(self):
        self.run_for(70, "list", "status", "base", "module")
        self.run_for(4)
        self.restart()
        self.run_for(int(START_WITHIN) - 1)
        self.assertEqual(self.states(), (True, True))
        self.requests.handle_line(STATUS)
        self.requests.handle_line(Response(0, ""))
        self.run_for(70, "list", "status", "base", "module")
        self.assertEqual((self.states(), self.logged_lines), ((True, True), []))

    def test_a_gateway_that_waits_for_its_stick(self):
        """The unit empties the desk two seconds after the end of a gateway, and then waits."""
        self.run_for(70, "list", "status", "base", "module")
        self.run_for(2)
        self.restart()
        self.run_for(int(START_WITHIN) + 1)
        self.assertIs(self.requests.gateway_probe.is_online, False)

    def test_a_gateway_that_is_started_again_and_again(self):
        self.run_for(70, "list", "status", "base", "module")
        for _ in range(5):
            self.run_for(2)
            self.restart()
        self.assertIs(self.requests.gateway_probe.is_online, False)
        self.assert_logged("the gateway does not answer")

    def test_the_module_of_a_gateway_that_answers_again(self):
        """It is unknown until it has responded."""
        self.run_for(70, "list", "status", "base", "module")
        self.run_for(100)
        self.requests.handle_line(STATUS)
        self.assertEqual(self.states(), (True, None))
        self.assertIn("base", self.run_for(1, "base"))
        self.run_for(6, "base")
        self.assertEqual(self.states(), (True, None))
        self.run_for(2, "base")
        self.assertEqual(self.states(), (True, False))

    def test_a_module_that_does_not_respond(self):
        self.turn()
        self.requests.handle_line(STATUS)
        self.turn(1)
        self.requests.handle_line(Other())
        self.turn(SILENT_FOR - 1)
        self.assertIsNone(self.requests.module_probe.is_online)
        self.turn(1)
        self.assertIs(self.requests.module_probe.is_online, False)
        self.requests.handle_line(Response(0, ""))
        self.assertIs(self.requests.module_probe.is_online, True)

    def test_a_learn_window_closes(self):
        self.turn()
        self.requests.handle_line(STATUS)
        self.requests.note_window_orders(b"learn on\n")
        self.assertIn("status", self.turn(1))
        self.assertEqual(self.times("learn off", 300), [118])

    def test_the_status_is_asked_for_after_a_window_has_closed(self):
        self.turn()
        self.requests.list_request.note_answer()
        self.requests.handle_line(STATUS)
        self.requests.note_window_orders(b"learn on\n")
        self.turn(1)
        self.requests.handle_line(Response(0, ""))
        self.assertEqual(self.turn(60), ["status", "base"])
        self.assertEqual(self.turn(59), ["learn off"])
        self.assertEqual(self.turn(0.1), ["status"])

    def test_a_second_command_extends_the_window(self):
        self.turn()
        self.requests.note_window_orders(b"learn on\n")
        self.turn(60)
        self.requests.note_window_orders(b"learn on\n")
        self.assertEqual(self.times("learn off", 300), [119])

    def test_a_learn_window_that_was_closed(self):
        self.turn()
        self.requests.note_window_orders(b"learn on\n")
        self.requests.note_window_orders(b"learn off\n")
        self.assertEqual(self.times("learn off", 300), [])
        self.assertIsNone(self.requests.window)

    def test_each_order_that_opens_a_window(self):
        """Also if it is one of several lines."""
        for orders in (b"learn on\n", b"learn on answer\n", b"learn as F6-02-01\n", b"learn as d5-00-01\n",
                       b"learn on\nstatus\n", b"status\nlearn on answer\nlist\n", b"learn off\nlearn on\n"):
            with self.subTest(orders):
                self.setUp()
                self.turn()
                self.requests.handle_line(STATUS)
                self.assertTrue(opens_window(orders))
                self.requests.note_window_orders(orders)
                self.assertEqual(self.requests.window.time_of_day, self.fixture.wall() + 120)
                self.assertIn("status", self.turn(1))
                self.assertEqual(self.times("learn off", 300), [118])
                self.assertIsNone(self.requests.window)

    def test_other_orders_open_no_window(self):
        self.turn()
        for orders in (b"learn off\n", b"learn\n", b"learn as\n", b"learn as F6-02\n", b"learn on x\n",
                       b"learn off x\n", b" learn on\n", b"relearn on\n", b"learn on\r\r\n", b"LEARN ON\n", b"list\n",
                       b"\n", b""):
            self.assertFalse(opens_window(orders))
            self.requests.note_window_orders(orders)
        self.requests.note_window_orders(b"learn on\nlearn as F6-02-01\nlearn off\nlist\n")
        self.assertEqual(self.times("learn off", 300), [])

    def test_a_window_of_an_earlier_run(self):
        """It is closed at its time, or at once if this has passed. If the time of day was set back, it is not open for
        longer than a window that is opened now."""
        for seconds, expected_seconds in ((-1e9, 0), (-1, 0), (0, 0), (50, 50), (120, 120), (121, 120), (1e9, 120)):
            with self.subTest(seconds):
                self.setUp()
                self.requests = self.make_requests(self.fixture.wall() + seconds)
                self.assertEqual(self.requests.window.time_of_day, self.fixture.wall() + expected_seconds)
                is_closed = "learn off" in self.turn()
                self.assertEqual(is_closed, expected_seconds == 0)
                self.assertEqual(self.times("learn off", 300), [expected_seconds - 1] if expected_seconds else [])

    def test_the_window_is_closed_at_the_end(self):
        self.requests.close_window()
        self.assertEqual(self.fixture.orders(), [])
        self.requests.note_window_orders(b"learn on\n")
        self.requests.close_window()
        self.assertEqual(self.fixture.orders(), ["learn off"])

    def test_a_window_that_cannot_be_closed_is_closed_later(self):
        self.turn()
        self.requests.note_window_orders(b"learn on\n")
        self.fixture.desk.unlink()
        self.turn(130)
        self.fixture.desk.touch()
        self.assertIn("learn off", self.turn(1))

    def test_without_a_desk_nothing_happens(self):
        self.fixture.desk.unlink()
        self.requests.turn(True)
        self.assertEqual(self.logged_lines, [])

    def test_a_list_asks_for_the_status(self):
        self.turn()
        self.requests.handle_line(STATUS)
        self.requests.handle_line(EndOfList(0))
        self.assertIn("status", self.turn(1))


if __name__ == "__main__":
    unittest.main()
