"""Actuators are asked for their states after a start of the gateway."""
import unittest

from fakes import OK, LogTest, BridgeFixture, learned, listing, reading, status

RESPONSE = {"code": 0, "data": "FF800000", "name": "OK", "type": "response"}
# A device of each kind, and how it is asked, if it is an actuator.
DEVICES_AND_QUERIES = (("01800A01", "D5-00-01", None), ("01800A02", "A5-02-05", None), ("01800A03", "A5-12-01", None),
                       ("01800A04", "F6-02-01", None), ("01800A05", "D2-01-0F", "query 01800A05 0"),
                       ("01800A06", "D2-01-02", "query 01800A06 0"), ("01800A07", "D2-01-12", "query 01800A07 30"),
                       ("01800A08", "D2-05-00", "query 01800A08 0"), ("01800A09", "A5-FF-FF", None))
MANY_ACTUATORS = [(f"{0x01800000 + number:08X}", "D2-01-12", "") for number in range(1000)]
QUERIES = [query for _, _, query in DEVICES_AND_QUERIES if query]


class ActuatorQueries(LogTest):
    """At a gateway that answers each order in the second after it; the actuators answer nothing."""

    def setUp(self):
        super().setUp()
        self.fixture = BridgeFixture(self)
        self.devices = [(device, eep, "") for device, eep, _ in DEVICES_AND_QUERIES]
        self.silent = ()

    def start(self, has_broker=True):
        self.handled_order_count = len(self.fixture.orders())
        self.fixture.start(asks_actuators=True)
        if has_broker:
            self.fixture.broker.accept_connection()

    def run_for(self, seconds):
        """The queries that are given within these seconds, with their seconds."""
        times_and_orders = []
        for second in range(seconds):
            self.fixture.run_turns(1, 1)
            orders = self.fixture.orders()[self.handled_order_count:]
            self.handled_order_count = len(self.fixture.orders())
            for order in orders:
                if order.split()[0] not in self.silent:
                    answer = {"list": listing(*self.devices), "status": [status()], "base": [OK, RESPONSE]}
                    self.fixture.write_lines(*answer.get(order, [OK]))
            times_and_orders += [(second, order) for order in orders if order.startswith("query")]
        return times_and_orders

    def queries(self, seconds):
        return [query for _, query in self.run_for(seconds)]

    def restart_gateway(self):
        self.fixture.desk.write_text("")
        self.handled_order_count = 0

    def test_each_kind_of_actuator_is_asked_once(self):
        self.start()
        self.assertEqual(self.queries(60), QUERIES)
        self.assertEqual(self.queries(3600), [])

    def test_1000_actuators(self):
        """One each second, and each once, although none answers."""
        self.devices = MANY_ACTUATORS
        self.start(has_broker=False)
        times_and_orders = self.run_for(1100)
        expected_queries = {f"query {device} 30" for device, _, _ in MANY_ACTUATORS}
        self.assertEqual({query for _, query in times_and_orders} ^ expected_queries, set())
        query_times = [second for second, _ in times_and_orders]
        self.assertEqual(len(query_times), 1000)
        self.assertEqual(len(set(query_times)), len(query_times))
        self.assertLess(query_times[-1], 1010)
        self.assertEqual(self.fixture.orders().count("list"), 1)

    def test_turns_are_more_often(self):
        """As in a running bridge."""
        self.start()
        self.run_for(2)
        order_count = len(self.fixture.orders())
        self.fixture.run_turns(10, 0.1)
        self.assertEqual(len(self.fixture.orders()) - order_count, 1)

    def test_not_before_the_list(self):
        self.silent = ("list",)
        self.start()
        self.assertEqual(self.queries(60), [])
        self.silent = ()
        self.assertEqual(self.queries(700), QUERIES)

    def test_a_start_of_the_gateway(self):
        """All are asked again, after the list: it may have another database."""
        self.start()
        self.run_for(60)
        self.devices = [("01800A0A", "D2-01-0F", ""), *self.devices[5:]]
        self.restart_gateway()
        self.silent = ("list",)
        self.assertEqual(self.queries(20), [])
        self.silent = ()
        self.assertEqual(self.queries(60), [*QUERIES[1:], "query 01800A0A 0"])
        self.assertEqual(self.queries(600), [])

    def test_a_start_while_they_are_asked(self):
        self.start()
        self.assertTrue(self.queries(5))
        self.restart_gateway()
        self.assertEqual(self.queries(60), QUERIES)

    def test_a_gateway_that_is_offline(self):
        """It is asked nothing. If it was not started again, the rest is asked when it answers again."""
        self.start()
        queries = self.queries(5)
        self.assertTrue(0 < len(queries) < len(QUERIES))
        self.silent = ("list", "status", "base", "query")
        queries += self.queries(10)
        self.assertIs(self.fixture.bridge.requests.gateway_probe.is_online, False)
        self.assertEqual(self.queries(300), [])
        self.silent = ()
        queries += self.queries(300)
        self.assertEqual(queries, QUERIES)

    def test_a_gateway_that_reads_no_orders(self):
        """Its readings show that the module works, but not that it carries out orders."""
        self.devices = MANY_ACTUATORS[:50]
        self.start()
        self.run_for(5)
        self.silent = ("list", "status", "base", "query")
        self.run_for(10)
        self.assertIs(self.fixture.bridge.requests.gateway_probe.is_online, False)
        for _ in range(10):
            self.fixture.write_lines(reading("01800000", "D2-01-12", [{"name": "IO", "raw": 0}]))
            self.assertEqual(self.queries(3), [])
        self.assertIs(self.fixture.bridge.requests.module_probe.is_online, True)
        self.silent = ()
        self.assertTrue(self.queries(100))

    def test_a_module_that_does_not_work(self):
        """A telegram of the gateway would be lost."""
        self.silent = ("base",)
        self.start()
        self.assertEqual(self.queries(60), [])
        self.silent = ()
        self.assertEqual(self.queries(60), QUERIES)

    def test_a_start_of_the_bridge(self):
        """It asks the rest, and none again."""
        self.start()
        queries = self.queries(5)
        self.assertTrue(0 < len(queries) < len(QUERIES))
        for _ in range(3):
            self.fixture.stop()
            self.fixture.broker.lose()
            self.start()
            queries += self.queries(30)
        self.assertEqual(queries, QUERIES)

    def test_a_new_actuator(self):
        """It is asked once, also if it is removed and learned again."""
        self.devices = []
        self.start()
        self.assertEqual(self.queries(60), [])
        self.fixture.write_lines(learned("01800A07", "D2-01-12"))
        self.assertEqual(self.queries(10), ["query 01800A07 30"])
        self.fixture.write_lines(learned("01800A07", "D2-01-12", result="deleted"))
        self.assertEqual(self.queries(10), [])
        self.fixture.write_lines(learned("01800A07", "D2-01-12"))
        self.assertEqual(self.queries(60), [])

    def test_a_query_that_cannot_be_given(self):
        self.start()
        self.run_for(2)
        self.fixture.bridge.desk.append = lambda _order: (_ for _ in ()).throw(OSError("file is full"))
        self.assertEqual(self.queries(3), [])
        del self.fixture.bridge.desk.append
        self.assertEqual(self.queries(60), QUERIES)

    def test_orders_of_others_do_not_wait(self):
        self.devices = MANY_ACTUATORS[:50]
        self.start()
        self.run_for(10)
        for _ in range(10):
            self.fixture.send("enogate/hall/01800001/OV/0/set", b"ON")
            order_count = len(self.fixture.orders())
            self.fixture.run_turns(1, 0.1)
            self.assertEqual(self.fixture.orders()[order_count], "switch 01800001 0 on")

    def test_no_queries(self):
        self.handled_order_count = 0
        self.fixture.start()
        self.fixture.broker.accept_connection()
        self.assertEqual(self.queries(120), [])


if __name__ == "__main__":
    unittest.main()
