"""Orders and commands to the site."""
import random
import unittest

from enogate_ctl.grammar import is_order
from enogate_site.members import LIST_EVERY
from fakes import learned, status
from site_testcase import (CONTACT, CONTACT_EEP, LAMP, LAMP_EEP, ROOT, SENSOR, SENSOR_EEP, SiteTest, contact,
                           lamp_output, temperature)

BLIND, BLIND_EEP = "01800AD2", "D2-05-00"


class Commands(SiteTest):
    """Each gateway has an actuator, and both have learned a third one."""

    devices = {"north": {LAMP: (LAMP_EEP, "Lamp"), "01800AD3": (LAMP_EEP, "Stairs")},
               "south": {BLIND: (BLIND_EEP, "Blind"), "01800AD3": (LAMP_EEP, "Stairs")}}

    def test_commands_go_to_the_gateway_that_has_learned_the_device(self):
        for subtopic, payload in ((f"{LAMP}/OV/0", "ON"), (f"{LAMP}/OV/1", "35"), (f"{BLIND}/POS/0", "40"),
                                  (f"{BLIND}/POS/0", "STOP")):
            self.fixture.send(f"{ROOT}/{subtopic}/set", payload)
        self.fixture.turn()
        self.assertEqual(self.fixture.orders("north"), [f"switch {LAMP} 0 on", f"dim {LAMP} 1 35"])
        self.assertEqual(self.fixture.orders("south"), [f"blind {BLIND} 40", f"stop {BLIND}"])

    def test_orders_too(self):
        self.fixture.order(f"query {LAMP.lower()} 30\nmeter {LAMP} 0 power\nswitch {BLIND} 0 on")
        self.assertEqual(self.fixture.orders("north"), [f"query {LAMP} 30", f"meter {LAMP} 0 power"])
        self.assertEqual(self.fixture.orders("south"), [f"switch {BLIND} 0 on"])

    def test_of_two_gateways_the_one_that_hears_it_best(self):
        self.fixture.hear("south", "01800AD3", LAMP_EEP, lamp_output(0, 100))
        self.fixture.order("switch 01800AD3 0 on")
        self.assertEqual((self.fixture.orders("north"), self.fixture.orders("south")), ([], ["switch 01800AD3 0 on"]))
        for kind in ("status", "gateway", "module"):
            self.fixture.report("south", kind, "offline")
            self.fixture.order("switch 01800AD3 0 off")
            self.fixture.report("south", kind, "online")
        self.assertEqual(self.fixture.orders("north"), ["switch 01800AD3 0 off"] * 3)

    def test_without_a_gateway_it_is_lost_and_logged(self):
        self.fixture.report("north", "gateway", "offline")
        self.fixture.order(f"switch {LAMP} 0 on")
        self.fixture.report("north", "gateway", "online")
        self.fixture.settle()
        self.assertEqual(self.fixture.orders("north"), [])
        self.assert_logged(f"order 'switch {LAMP} 0 on' ignored: no gateway that is online has learned this device")

    def test_retained_orders_are_ignored(self):
        self.fixture.send(f"{ROOT}/orders", f"switch {LAMP} 0 on", is_retained=True)
        self.fixture.turn()
        self.assertEqual(self.fixture.orders("north"), [])

    def test_orders_of_one_gateway(self):
        for order in ("central 5 on", "level 5 100 0", "teach 5", "base", "status"):
            self.fixture.order(order)
            self.assert_logged(f"order {order!r} ignored: give it to one of the gateways")
        self.assertEqual((self.fixture.orders("north"), self.fixture.orders("south")), ([], []))


class DeviceOrders(SiteTest):
    """Both gateways have learned a contact, and one a lamp."""

    devices = {"north": {CONTACT: (CONTACT_EEP, "Door"), LAMP: (LAMP_EEP, "Lamp")},
               "south": {CONTACT: (CONTACT_EEP, "Door")}}

    def test_a_label_goes_to_all_that_have_the_device(self):
        self.fixture.order(f"label {CONTACT} Front door")
        self.fixture.settle()
        self.assertEqual({gateway.devices[CONTACT] for gateway in (self.north, self.south)},
                         {(CONTACT_EEP, "Front door")})
        self.assertIn('"name":"Front door"', self.fixture.broker.memory[
            f"homeassistant/binary_sensor/enogate_hall/{CONTACT}_CO/config"])
        self.fixture.order(f"label {CONTACT}")
        self.fixture.settle()
        self.assertEqual({gateway.devices[CONTACT] for gateway in (self.north, self.south)}, {(CONTACT_EEP, "")})

    def test_a_removal_too(self):
        self.fixture.order(f"remove {CONTACT.lower()}")
        self.fixture.settle()
        self.assertEqual((list(self.north.devices), self.south.devices), ([LAMP], {}))

    def test_a_removal_is_passed_on_at_once(self):
        """Also that of a device without a label, whose successor is not looked for."""
        self.fixture.write("north", learned(SENSOR, SENSOR_EEP))
        self.fixture.settle()
        self.fixture.order(f"remove {SENSOR}")
        self.assertEqual(self.fixture.orders("north")[-1], f"remove {SENSOR}")

    def test_a_new_sensor_is_learned_where_it_is_heard(self):
        self.fixture.order(f"add {SENSOR.lower()} {SENSOR_EEP.lower()}\nlabel {SENSOR} Attic")
        self.fixture.settle()
        self.assertEqual((self.fixture.orders("north"), self.fixture.orders("south")), ([], []))
        self.assertIn(f"homeassistant/sensor/enogate_hall/{SENSOR}_TMP/config", self.fixture.broker.memory)
        self.fixture.hear("south", SENSOR, SENSOR_EEP, temperature(20))
        self.fixture.settle()
        self.assertEqual(self.fixture.orders("south"), [f"add {SENSOR} {SENSOR_EEP}", f"label {SENSOR} Attic"])
        self.assertEqual(self.fixture.orders("north"), [])

    def test_it_is_known_after_a_restart(self):
        self.fixture.order(f"add {SENSOR} {SENSOR_EEP}")
        self.fixture.pass_time(3.0)
        self.fixture.turn()
        self.fixture.restart(is_killed=True)
        self.fixture.connect()
        self.fixture.settle()
        self.fixture.hear("south", SENSOR, SENSOR_EEP, temperature(20))
        self.fixture.settle()
        self.assertEqual(self.fixture.orders("south"), [f"add {SENSOR} {SENSOR_EEP}"])

    def test_another_profile(self):
        self.fixture.order(f"add {CONTACT} F6-02-01")
        self.fixture.settle()
        self.assertEqual({gateway.devices[CONTACT] for gateway in (self.north, self.south)}, {("F6-02-01", "Door")})

    def test_refused_orders(self):
        for order, reason in ((f"add {LAMP} {CONTACT_EEP}", "an actuator obeys only the gateway that it has learned"),
                              (f"add 01800AD9 {LAMP_EEP}", "an actuator obeys only the gateway that it has learned"),
                              ("add 01800AD9 A5-FF-01", "this profile is not supported"),
                              ("remove 01800AD9", "the site has no such device"),
                              ("label 01800AD9 Door", "the site has no such device")):
            with self.subTest(order):
                self.fixture.order(order)
                self.assert_logged(f"order {order!r} ignored: {reason}")
        self.fixture.settle()
        self.assertEqual((self.fixture.orders("north"), self.fixture.orders("south")), ([], []))

    def test_a_list(self):
        self.fixture.settle()
        count = len(self.fixture.lines("list"))
        self.fixture.order("list\nlist\n")
        self.fixture.order("list")
        self.assertEqual([line["id"] for line in self.fixture.lines("device")[-2:]], [CONTACT, LAMP])
        self.assertEqual(self.fixture.lines("device")[-2], {"eep": CONTACT_EEP, "id": CONTACT, "label": "Door",
                                                            "maker": None, "type": "device"})
        self.assertEqual(len(self.fixture.lines("list")), count + 1)
        self.fixture.pass_time(LIST_EVERY)
        self.fixture.run_turns(2)
        self.assertEqual(len(self.fixture.lines("list")), count + 2)


class LearnWindows(SiteTest):
    def test_one_gateway_opens_it(self):
        self.fixture.send(f"{ROOT}/learn/set", "ON")
        self.fixture.order("learn as d5-00-01\nlearn on answer")
        self.assertEqual(self.fixture.orders("north"), ["learn on", "learn as d5-00-01", "learn on answer"])
        self.assertEqual(self.fixture.orders("south"), [])

    def test_it_is_shown(self):
        self.fixture.write("north", status("as D5-00-01"))
        self.fixture.run_turns(2)
        self.assertEqual(self.fixture.published("/learn")[-1], "ON")
        self.fixture.write("north", status("closed"))
        self.fixture.run_turns(2)
        self.assertEqual(self.fixture.published("/learn")[-1], "OFF")

    def test_not_while_that_of_another_one_is_open(self):
        self.fixture.report("south", "learn", "ON")
        self.fixture.order("learn on")
        self.assertEqual(self.fixture.orders("north"), [])
        self.assert_logged("order 'learn on' ignored: the learn window of south is open, and both would answer")

    def test_not_while_it_is_offline(self):
        self.fixture.report("north", "gateway", "offline")
        self.fixture.order("learn on")
        self.assertEqual((self.fixture.orders("north"), self.fixture.orders("south")), ([], []))
        self.assert_logged("order 'learn on' ignored: the gateway north is not online")

    def test_all_that_are_open_are_closed(self):
        self.fixture.order("learn off")
        self.assertEqual(self.fixture.orders("north"), ["learn off"])
        self.fixture.report("north", "learn", "ON")
        self.fixture.report("south", "learn", "ON")
        self.fixture.order("learn off")
        self.assertEqual((self.fixture.orders("north"), self.fixture.orders("south")),
                         (["learn off"] * 2, ["learn off"]))

    def test_a_warning_while_two_are_open(self):
        self.assertEqual(self.fixture.published("/warning"), ["none"])
        for name in ("north", "south"):
            self.fixture.report(name, "learn", "ON")
            self.fixture.turn()
        self.assertEqual(self.fixture.published("/warning")[1:],
                         ["the learn windows of north, south are open: all of them answer a teach-in query"])
        self.fixture.run_turns(3)
        self.assert_logged("WARNING: the learn windows of north, south are open")
        self.fixture.report("south", "gateway", "offline")
        self.fixture.turn()
        self.assertEqual(self.fixture.published("/warning")[2:], ["none"])


class HostileOrders(SiteTest):
    """Whatever is published for the site: its gateways get only orders that may be given to the site, each made of
    parsed words, and nothing that opens a learn window of another gateway than the first."""

    devices = {"north": {LAMP: (LAMP_EEP, "Lamp")}, "south": {BLIND: (BLIND_EEP, "Blind")}}
    PIECES = (b"switch", b"learn", b"on", b"as", b"label", b"add", b"remove", b"base", b"central", b"5", b"0", b" ",
              b"  ", b"\n", b"\r", b"\r\n", b"\0", b"\x15", b"\xff", b"D5-00-01", b"D2-01-12", LAMP.encode(),
              BLIND.encode(), b"ON", b"OFF", b"STOP", b"100", b"enogate", b"/", b"#", b"+", b"x" * 300, "ä".encode())

    def assert_orders(self):
        for name in ("north", "south"):
            for order in self.fixture.orders(name):
                self.assertTrue(is_order(order), order)
                self.assertIn(order.split(" ")[0], ("switch", "blind", "stop", "dim", "remove", "label", "learn",
                                                    "add"))
                self.assertFalse(order.startswith("add") and " D2-" in order, order)
        self.assertFalse([order for order in self.fixture.orders("south") if order.startswith("learn")
                          and order != "learn off"])

    def test_random_payloads_and_topics(self):
        chance = random.Random(5)
        topics = [f"{ROOT}/orders", f"{ROOT}/learn/set", f"{ROOT}/{LAMP}/OV/0/set", f"{ROOT}/{LAMP}/OV/../set",
                  f"{ROOT}/x\ny/OV/0/set", f"{ROOT}/{LAMP}/POS/0/set", f"{ROOT}//OV/0/set"]
        for _ in range(3000):
            payload = b"".join(chance.choices(self.PIECES, k=chance.randint(0, 8)))
            self.fixture.send(chance.choice(topics), payload)
            self.fixture.turn()
        self.assert_orders()
        self.assertGreater(len(self.fixture.orders("north")), 3)

    def test_a_label_cannot_hold_another_order(self):
        for text in (f"label {LAMP} x\rlearn on", f"label {LAMP} x\0learn on", f"switch {LAMP} 0 on\r\nbase\r",
                     f"switch {LAMP} 0 on ", f" switch {LAMP} 0 on", f"switch {LAMP}  0 on", f"switch {LAMP} 00 on"):
            self.fixture.order(text)
        self.fixture.settle()
        self.assertEqual(self.fixture.orders("north"), [f"switch {LAMP} 0 on"])
        self.assertEqual(self.north.devices, {LAMP: (LAMP_EEP, "Lamp")})

    def test_the_longest_message(self):
        self.fixture.order("x\n" * 8192)
        self.fixture.order(f"switch {LAMP} 0 on\n" * 1000)
        self.assertEqual(self.fixture.orders("north"), [])
        self.fixture.order(f"switch {LAMP} 0 on\n" * 500)
        self.assertEqual(len(self.fixture.orders("north")), 500)

    def test_labels_that_no_gateway_has(self):
        """A line of a gateway with such a label leads to no order."""
        self.fixture.hear("north south", CONTACT, CONTACT_EEP, contact("open"))
        for label in (" Door", "Door ", "Door\n", "x" * 33, "ä", 7, None, ["x"]):
            self.fixture.write("north", {"eep": CONTACT_EEP, "id": CONTACT, "label": label, "maker": None,
                                         "type": "device"}, {"count": 1, "type": "list"})
            self.fixture.hear("south", CONTACT, CONTACT_EEP, contact("open"))
            self.fixture.settle()
            self.assertEqual([order for order in self.fixture.orders("south") if order.startswith("label")], [])


if __name__ == "__main__":
    unittest.main()
