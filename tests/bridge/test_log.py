"""Messages for the journal."""
import io
import logging
import unittest

from enogate_mqtt import log
from fakes import LogTest, Clock


class LogFormat(unittest.TestCase):
    def lines(self, environment):
        stream = io.StringIO()
        log.set_up_logging(environment, stream)
        logging.info("one")
        logging.warning("two\nlines")
        logging.error("three %s", 3)
        return stream.getvalue()

    def test_a_terminal(self):
        self.assertEqual(self.lines({}), "enogate-mqtt: one\nenogate-mqtt: two lines\nenogate-mqtt: three 3\n")

    def test_the_journal(self):
        self.assertEqual(self.lines({"JOURNAL_STREAM": "1:2"}),
                         "<6>enogate-mqtt: one\n<4>enogate-mqtt: two lines\n<3>enogate-mqtt: three 3\n")


class RateLimits(LogTest):
    def test_ten_of_a_kind_in_a_minute(self):
        clock = Clock()
        seldom = log.RateLimitedLog(clock)
        for number in range(15):
            seldom.warning("line", f"bad {number}")
        seldom.warning("other", "another")
        self.assertEqual(self.logged_lines, [*(f"WARNING: bad {number}" for number in range(10)), "WARNING: another"])
        clock.now += 59.9
        seldom.warning("line", "too soon")
        self.assertEqual(len(self.logged_lines), 11)
        clock.now += 0.1
        seldom.warning("line", "later")
        seldom.warning("line", "and")
        self.assertEqual(self.logged_lines[11:], ["WARNING: later (6 similar messages before)", "WARNING: and"])


if __name__ == "__main__":
    unittest.main()
