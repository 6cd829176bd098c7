"""The learn window for a time."""
import json
import signal
import unittest

from enogate_ctl.client import Client, NoAnswer
from enogate_ctl.stops import Stopped, StopSignals
from enogate_ctl.window import PAUSE, LearnWindow
from fakes import OK, GatewayFilesTest, error, status, teach

OPENED, CLOSED = "the learn window is open for 0.25 s; Ctrl-C closes it", "the learn window is closed"


class LearnWindowRuns(GatewayFilesTest):
    def setUp(self):
        super().setUp()
        self.orders, self.printed, self.failing, self.stops = [], [], {}, StopSignals()

    def give(self, order):
        self.orders.append(order)
        if order in self.failing:
            raise self.failing[order]

    def report(self, text):
        self.printed.append(text)

    def open(self, is_json=False, seconds=0.25, order="learn on", timeout=10):
        client = Client(self.paths, timeout, self.clock, self.clock.sleep, lambda: 1)
        LearnWindow(client, self.give, self.report, self.stops, is_json).open_for(order, seconds)

    def test_it_is_closed_after_the_time(self):
        self.open()
        self.assertEqual((self.orders, self.printed), (["learn on", "learn off"], [OPENED, CLOSED]))
        self.assertEqual([round(seconds, 3) for seconds in self.clock.slept], [PAUSE, PAUSE, 0.05])
        self.assertTrue(self.stops.are_ignored)

    def test_a_signal_closes_it(self):
        self.clock.acts[2] = lambda: self.stops.handle_signal(signal.SIGTERM)
        self.open()
        self.assertEqual((self.orders, self.printed), (["learn on", "learn off"], [OPENED, CLOSED]))
        self.assertEqual(len(self.clock.slept), 2)

    def test_a_signal_while_it_is_opened(self):
        self.failing["learn on"] = Stopped(signal.SIGINT)
        self.open()
        self.assertEqual((self.orders, self.printed), (["learn on", "learn off"], [CLOSED]))

    def test_it_is_not_closed_if_it_was_not_opened(self):
        self.failing["learn on"] = NoAnswer("why")
        self.assertRaises(NoAnswer, self.open)
        self.assertEqual((self.orders, self.printed), (["learn on"], []))

    def test_what_is_taught_is_printed(self):
        self.write(teach("01800AAA"))
        self.clock.acts[1] = lambda: self.write("{", OK, teach("01800ABC"), teach("01800ABD", result="full"))
        self.open()
        self.assertEqual(self.printed[1:-1], ["01800ABC learned, D5-00-01 (Contact)",
                                              "01800ABD not learned: 1,000 devices are learned"])

    def test_a_window_for_one_device_ends_when_the_gateway_has_closed_it(self):
        self.clock.acts[1] = lambda: self.write(teach("01800ABC", result="full"), teach("01800ABC", "F6-02-01"))
        self.clock.acts[2] = lambda: self.write(status("closed"))
        self.open(order="learn as F6-02-01", seconds=60)
        self.assertEqual(self.orders, ["learn as F6-02-01", "learn off"])
        self.assertEqual((self.printed[2:], self.desk.read_text()), (
            ["01800ABC learned, F6-02-01 (Rocker switch, 2 rockers)", CLOSED], "status\n"))
        self.assertLess(self.clock.now, 1)

    def test_a_window_for_one_device_stays_open_after_an_order(self):
        """An `add` gives such a line too. No answer to `status`, and an error, do not end the window either."""
        for line in (status("as F6-02-01"), error("memory"), OK):
            with self.subTest(line):
                self.clock.acts[len(self.clock.slept) + 1] = lambda: self.write(teach("01800ABC"))
                self.clock.acts[len(self.clock.slept) + 2] = lambda line=line: self.write(line)
                begin = self.clock.now
                self.open(order="learn as F6-02-01", seconds=5, timeout=1)
                self.assertGreaterEqual(self.clock.now - begin, 5)

    def test_json(self):
        self.clock.acts[1] = lambda: self.write(OK, teach("01800ABC"))
        self.open(True)
        self.assertEqual([json.loads(text) for text in self.printed], [teach("01800ABC")])

    def test_control_characters(self):
        self.clock.acts[1] = lambda: self.write(teach("01800ABC", result="\x1b"))
        self.open()
        self.assertEqual(self.printed[1], "01800ABC ?")

    def test_nobody_reads(self):
        self.report = lambda _text: (_ for _ in ()).throw(BrokenPipeError)
        self.open()
        self.assertEqual(self.orders, ["learn on", "learn off"])


if __name__ == "__main__":
    unittest.main()
