"""The grammar of orders."""
import unittest

from enogate_ctl import grammar
from enogate_tools.desk import opens_window
from fakes import TimeLimitedTest

VALID_ORDERS = (
    "learn on", "learn on answer", "learn off", "learn as A5-02-05", "learn as a5-02-0b", "add 01800ABC D5-00-01",
    "add 01800abc d5-00-01", "remove 00000000", "remove FFFFFFFF", "label 01800ABC x", "label 01800ABC",
    "label 01800ABC Front  door, \"A\" ~", "label 01800ABC " + "x" * 32, "list", "status", "base",
    "switch 01800ABC 0 on", "switch 01800ABC 99999 off", "dim 01800ABC 30 100", "query 01800ABC 10",
    "meter 01800ABC 0 energy", "meter 01800ABC 1 power", "blind 01800ABC 50", "stop 01800ABC", "central 127 on",
    "central 0 off", "level 1 100 255", "teach 126")
INVALID_ORDERS = (
    "", " ", "frob", "LIST", "list ", " list", "list x", "status now", "base 1", "learn", "learn answer", "learn On",
    "learn as", "learn as F6-02", "learn off now", "learn  on", "add 1800ABC D5-00-01", "add 01800ABCD D5-00-01",
    "add 01800ABG D5-00-01", "add 01800ABC D5-00-1", "add 01800ABC", "add 01800ABC D5-00-01 x", "remove",
    "remove 01800ABC x", "label", "label 01800ABC ", "label 01800ABC  x", "label 01800ABC x ", "label 01800ABC \t",
    "label 01800ABC ö", "label 01800ABC " + "x" * 33, "label 01800ABC a\nlist", "list\n", "label 01800ABC x\n",
    "switch 01800ABC on", "switch 01800ABC 00 on", "switch 01800ABC 100000 on", "switch 01800ABC 0 up",
    "switch 01800ABC -1 on", "dim 01800ABC 0", "dim 01800ABC 0 +5", "query 01800ABC", "meter 01800ABC 0 volt",
    "blind 01800ABC", "blind 01800ABC 7.5", "stop", "stop 01800ABC 0", "central on", "central 5 up", "level 5 40",
    "level 5 40 10 1", "teach", "teach x", "label 01800ABC a\rb", "label 01800ABC \x7f")


class OrderGrammar(TimeLimitedTest):
    def test_orders(self):
        for order in VALID_ORDERS:
            with self.subTest(order):
                grammar.check_order(order)

    def test_no_orders(self):
        for order in INVALID_ORDERS:
            with self.subTest(order):
                self.assertRaises(grammar.InvalidOrder, grammar.check_order, order)

    def test_messages(self):
        for order, text in (
            ("frob x", "'frob x' is not an order: the orders are learn, add, remove, label, list, status, base, "
             "switch, dim, query, meter, blind, stop, central, level, teach"),
            ("list x", "'list x' is not an order: the form is list"),
            ("stop", "'stop' is not an order: the form is stop ID (ID: 8 hexadecimal digits, or the "
             "label of a device)"),
            ("label 01800ABC ö", "'label 01800ABC ö' is not an order: the form is label ID TEXT | label ID (ID: 8 "
             "hexadecimal digits, or the label of a device; TEXT: 1 to 32 ASCII characters)"),
            ("learn", "'learn' is not an order: the form is learn on | learn on answer | learn as EEP | learn off "
             "(EEP: a profile such as D5-00-01)"),
        ):
            with self.assertRaises(grammar.InvalidOrder) as found:
                grammar.check_order(order)
            self.assertEqual(str(found.exception), text)

    def test_orders_that_open_the_window(self):
        opening = ["learn on", "learn on answer", "learn as A5-02-05", "learn as a5-02-0b"]
        self.assertEqual([order for order in VALID_ORDERS if opens_window(order.encode())], sorted(
            opening, key=VALID_ORDERS.index))
        self.assertFalse(opens_window(b"learn on x"))


if __name__ == "__main__":
    unittest.main()
