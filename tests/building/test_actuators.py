"""Actuators: whom they learn, whom they obey, and what they answer."""
import unittest

from building_testcase import BASE, DEVICE, FAR_AWAY, OTHER_BASE, BuildingTest

UTE = 0xD4
# The query of D2-01-12, as a stick hears it, and the reply that accepts it.
QUERY, ACCEPTED = "8002FF071201D2", "9102FF071201D2"


class TeachInTest(BuildingTest):
    def setUp(self):
        self.build((DEVICE, "D2-01-12"), (0x01800ABD, "D2-01-12"), sticks=2)
        self.actuator = self.building.devices[DEVICE]

    def assert_owners(self, *bases):
        self.assertEqual(self.actuator.owners, set(bases))

    def learn(self):
        self.wire.handle_bytes()
        self.actuator.teach_in()
        self.assertEqual(self.wire.telegrams(), [f"D4 {QUERY} 01800ABC 00 FFFFFFFF"])

    def test_it_learns_the_gateway_that_accepts_it(self):
        self.learn()
        self.assert_owners()
        self.give(ACCEPTED, rorg=UTE)
        self.assert_owners(BASE)

    def test_it_learns_only_one_gateway_for_each_query(self):
        self.learn()
        self.give(ACCEPTED, rorg=UTE)
        self.give(ACCEPTED, rorg=UTE, base=OTHER_BASE, stick="stick1")
        self.assert_owners(BASE)
        self.learn()
        self.give(ACCEPTED, rorg=UTE, base=OTHER_BASE, stick="stick1")
        self.assert_owners(BASE, OTHER_BASE)

    def test_a_reply_that_it_has_not_asked_for(self):
        self.give(ACCEPTED, rorg=UTE)
        self.assert_owners()

    def test_a_reply_that_comes_too_late(self):
        self.learn()
        self.building.advance(601)
        self.give(ACCEPTED, rorg=UTE)
        self.assert_owners()

    def test_other_replies(self):
        """Refused, unsupported and deleted; to another query; of another kind; to another device."""
        self.learn()
        for payload in ("8102FF071201D2", "A102FF071201D2", "B102FF071201D2", "9002FF071201D2", "9101FF071201D2",
                        "9102FF071101D2", "9102FF07120", ACCEPTED + "00", "91"):
            self.give(payload if len(payload) % 2 == 0 else payload[:-1], rorg=UTE)
        self.give(ACCEPTED, rorg=0xD2)
        self.give(ACCEPTED, device=0x01800ABD, rorg=UTE)
        self.give(ACCEPTED, device=0xFFFFFFFF, rorg=UTE)
        self.assert_owners()

    def test_it_obeys_only_what_it_has_learned(self):
        self.give("010064")
        self.assertEqual((self.actuator.values, self.answers()), ([0, 0], []))
        self.actuator.owners.add(BASE)
        self.give("010064", base=OTHER_BASE, stick="stick1")
        self.give("010064", base=BASE + 1)
        self.give("010064", rorg=0xA5)
        self.give("010064", device=0xFFFFFFFF)
        self.assertEqual(self.actuator.values, [0, 0])
        self.give("010064")
        self.assertEqual(self.actuator.values, [100, 0])
        self.assertEqual(self.building.devices[0x01800ABD].values, [0, 0])

    def test_a_dead_or_distant_actuator(self):
        self.actuator.owners.add(BASE)
        self.actuator.is_dead = True
        self.give("010064")
        self.actuator.is_dead, self.actuator.place = False, FAR_AWAY
        self.give("010064")
        self.assertEqual((self.actuator.values, self.answers()), ([0, 0], []))


class OutputsTest(BuildingTest):
    def orders(self, eep, *orders_and_answers):
        """Each order has these answers, addressed to the gateway."""
        self.build((DEVICE, eep))
        self.building.devices[DEVICE].owners.add(BASE)
        for order, answers in orders_and_answers:
            self.give(order)
            self.assertEqual(self.answers(), [f"D2 {answer} 01800ABC 00 FF800000" for answer in answers.split()], order)

    def test_switching(self):
        self.orders("D2-01-12", ("010064", "0460E4"), ("010100", "046180"), ("0300", "0460E4"), ("010132", "0461B2"),
                    ("011E64", "0460E4 0461E4"), ("031E", "0460E4 0461E4"), ("010000", "046080"), ("0301", "0461E4"))

    def test_one_channel(self):
        self.orders("D2-01-09", ("010028", "0460A8"), ("010164", ""), ("0301", ""), ("011E0A", "04608A"))

    def test_what_is_no_order(self):
        orders = "010065 01007F 0100 01006400 03 030000 020064 0460E4 00 01 010264 0302 06 068000"
        self.orders("D2-01-12", *((order, "") for order in orders.split()), ("0300", "046080"))

    def test_measurements(self):
        """A load of 100 W, and the energy of an hour and a half."""
        self.orders("D2-01-12", ("010032", "0460B2"), ("0680", "076000000032"), ("0681", "076100000000"))
        self.building.advance(5400)
        self.give("0600")
        self.assertEqual(self.answers(), ["D2 072000000096 01800ABC 00 FF800000"])

    def test_it_reports_to_all(self):
        self.build((DEVICE, "D2-01-12"))
        self.building.devices[DEVICE].report()
        self.assertEqual(self.answers(), ["D2 046080 01800ABC 00 FFFFFFFF", "D2 046180 01800ABC 00 FFFFFFFF"])


class BlindTest(BuildingTest):
    def setUp(self):
        self.build((DEVICE, "D2-05-00"))
        self.building.devices[DEVICE].owners.add(BASE)

    def test_it_takes_its_time(self):
        """50 % take ten seconds, and the answer is for all."""
        self.give("327F0001")
        self.assertEqual(self.answers(9.9), [])
        self.assertEqual(self.answers(0.2), ["D2 327F0004 01800ABC 00 FFFFFFFF"])
        self.give("007F0001")
        self.assertEqual(self.answers(9.9), [])
        self.assertEqual(self.answers(0.2), ["D2 007F0004 01800ABC 00 FFFFFFFF"])

    def test_a_stop(self):
        self.give("647F0001")
        self.assertEqual(self.answers(8), [])
        self.give("02")
        self.assertEqual(self.answers(), ["D2 287F0004 01800ABC 00 FFFFFFFF"])
        self.assertEqual(self.answers(60), [])

    def test_a_query_on_its_way(self):
        self.give("647F0001")
        self.answers(10)
        self.give("03")
        self.assertEqual(self.answers(), ["D2 327F0004 01800ABC 00 FF800000"])

    def test_another_order_on_its_way(self):
        """From 50 % back to 25 % in five seconds: one report."""
        self.give("647F0001")
        self.answers(10)
        self.give("197F0001")
        self.assertEqual(self.answers(4.9), [])
        self.assertEqual(self.answers(60), ["D2 197F0004 01800ABC 00 FFFFFFFF"])

    def test_what_is_no_order(self):
        for order in ("657F0001", "7F7F0001", "327F00", "327F0000", "0202", "0303", "05", "327F000100", "00"):
            self.give(order)
        self.assertEqual(self.answers(60), [])


if __name__ == "__main__":
    unittest.main()
