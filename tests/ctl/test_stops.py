"""Signals that stop the command."""
import os
import signal
import unittest

from enogate_ctl.stops import SIGNALS, Stopped, StopSignals, restore_default_handlers
from fakes import TimeLimitedTest


class StopSignalHandling(TimeLimitedTest):
    def setUp(self):
        for number in SIGNALS:
            self.addCleanup(signal.signal, number, signal.getsignal(number))

    def test_the_first_one_stops(self):
        for number in (signal.SIGINT, signal.SIGTERM, signal.SIGHUP):
            StopSignals().install()
            with self.assertRaises(Stopped) as found:
                os.kill(os.getpid(), number)
            self.assertEqual((found.exception.number, found.exception.status), (number, 128 + number))
            for other in SIGNALS:
                os.kill(os.getpid(), other)

    def test_they_can_be_ignored(self):
        stops = StopSignals()
        stops.install()
        stops.ignore()
        for number in SIGNALS:
            os.kill(os.getpid(), number)

    def test_they_can_be_restored(self):
        StopSignals().install()
        restore_default_handlers()
        self.assertEqual({signal.getsignal(number) for number in SIGNALS}, {signal.SIG_DFL})
        self.assertEqual(set(SIGNALS), {signal.SIGINT, signal.SIGTERM, signal.SIGHUP})

    def test_a_stop_is_not_caught_as_an_error(self):
        self.assertFalse(issubclass(Stopped, Exception))


if __name__ == "__main__":
    unittest.main()
