"""The orders that a message holds."""
import unittest

from enogate_mqtt.orders import MAX_LINE, MAX_MESSAGE, InvalidMessage, orders_of
from enogate_mqtt.topics import Topics

TOPICS = Topics("hall", "homeassistant")


class OrdersOfMessages(unittest.TestCase):
    def orders(self, subtopic, payload):
        return orders_of(TOPICS, f"enogate/hall/{subtopic}", payload)

    def test_each_line_is_an_order(self):
        self.assertEqual(self.orders("orders", b"list\nstatus"), b"list\nstatus\n")
        self.assertEqual(self.orders("orders", b"\n\nlist\n\nstatus\n\n"), b"list\nstatus\n")
        self.assertEqual(self.orders("orders", b""), b"")
        self.assertEqual(self.orders("orders", b"a\rb\0\xff"), b"a\rb\0\xff\n")

    def test_a_long_line_stays_too_long(self):
        # 200 bytes are the most that the gateway takes, without CR LF
        for length in (200, 201, 202, 203, 500):
            with self.subTest(length):
                self.assertEqual(self.orders("orders", b"x" * length), b"x" * min(length, 202) + b"\n")
        self.assertEqual(MAX_LINE, 202)

    def test_a_long_line_is_not_made_an_order(self):
        """A line of 201 bytes and CR, and more: without its end it would be one of 201 bytes with CR LF."""
        self.assertEqual(len(self.orders("orders", b"x" * 201 + b"\rmore")), 203)

    def test_the_end_of_a_line(self):
        """A CR that the gateway would remove is removed."""
        for payload, text in ((b"list\r\nstatus\r\n", b"list\nstatus\n"), (b"status\r", b"status\n"), (b"\r\n", b"\n"),
                              (b"status\r\r", b"status\r\r\n"), (b"a\rb\n", b"a\rb\n")):
            with self.subTest(payload):
                self.assertEqual(self.orders("orders", payload), text)

    def test_the_end_of_a_long_line(self):
        """One CR at the end does not count for the length of a line. A valid line has at most 200 bytes."""
        for length, line_end, is_valid in (
            (200, b"\r", True), (201, b"\r", False), (200, b"\r\r", False), (200, b"\r\r\r", False),
            (201, b"\r\r", False), (199, b"\r\r", True), (200, b"\r\rx", False),
        ):
            with self.subTest((length, line_end)):
                orders = self.orders("orders", b"x" * length + line_end).removesuffix(b"\n")
                self.assertEqual(len(orders.removesuffix(b"\r")) <= 200, is_valid)

    def test_the_longest_message(self):
        self.assertEqual(MAX_MESSAGE, 16384)
        self.assertEqual(len(self.orders("orders", b"x\n" * 8192)), 16384)
        with self.assertRaisesRegex(InvalidMessage, "^16385 bytes, the maximum is 16384$"):
            self.orders("orders", b"x\n" * 8192 + b"x")

    def test_channels(self):
        for subtopic, payload, order in (("OV/0", b"ON", b"switch 01800ABD 0 on\n"),
                                      ("OV/1", b"OFF", b"switch 01800ABD 1 off\n"),
                                      ("OV/00", b"ON", b"switch 01800ABD 0 on\n"),
                                      ("OV/30", b"0", b"dim 01800ABD 30 0\n"),
                                      ("OV/0", b"100", b"dim 01800ABD 0 100\n"), ("OV/0", b"7", b"dim 01800ABD 0 7\n")):
            with self.subTest((subtopic, payload)):
                self.assertEqual(self.orders(f"01800ABD/{subtopic}/set", payload), order)

    def test_blinds(self):
        for payload, order in ((b"OPEN", b"blind 01800ABD 0\n"), (b"CLOSE", b"blind 01800ABD 100\n"),
                               (b"STOP", b"stop 01800ABD\n"), (b"50", b"blind 01800ABD 50\n")):
            with self.subTest(payload):
                self.assertEqual(self.orders("01800ABD/POS/0/set", payload), order)

    def test_the_learn_window(self):
        self.assertEqual(self.orders("learn/set", b"ON"), b"learn on\n")
        self.assertEqual(self.orders("learn/set", b"OFF"), b"learn off\n")

    def test_what_is_no_command(self):
        channel, blind = "ON, OFF or 0 to 100", "OPEN, CLOSE, STOP or 0 to 100"
        for subtopic, payloads, expected_text in (
            ("01800ABD/OV/0/set",
             (b"on", b"TOGGLE", b"", b"101", b"07", b"+7", b"7.0", b"ON ", b"ON\n", b"\xff", b"OPEN",
                                   "7".encode("utf-16"), "\u0667".encode()), channel),
            ("01800ABD/POS/0/set", (b"ON", b"101", b"", b"open"), blind),
            ("learn/set", (b"on", b"", b"1"), "ON or OFF"),
        ):
            for payload in payloads:
                with self.subTest((subtopic, payload)), self.assertRaisesRegex(InvalidMessage,
                                                                               f" is not {expected_text}$"):
                    self.orders(subtopic, payload)

    def test_what_is_no_place(self):
        for subtopic in ("01800abd/OV/0/set", "01800ABD/OV/000/set", "01800ABD/OV/set", "01800ABD/OV/x/set",
                      "1800ABD/OV/0/set",
                      "01800ABD/POS/1/set", "01800ABD/TMP/0/set", "01800ABD/OV/0/get", "01800ABD/OV/0/set/x", "x"):
            with self.subTest(subtopic), self.assertRaisesRegex(InvalidMessage, "^the topic is not "):
                self.orders(subtopic, b"ON")

    def test_a_refusal_shows_the_beginning_of_the_message(self):
        with self.assertRaisesRegex(InvalidMessage, "^b'x{60}' is not ON"):
            self.orders("01800ABD/OV/0/set", b"x" * 1000)


if __name__ == "__main__":
    unittest.main()
