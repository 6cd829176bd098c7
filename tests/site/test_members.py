"""Which gateways learn which devices."""
import json
import unittest
from unittest import mock

from enogate_site import gateway
from enogate_site.gateway import CARRIED_OUT_WITHIN
from fakes import learned, listing
from site_testcase import (CONTACT, CONTACT_EEP, LAMP, LAMP_EEP, ROCKER, ROCKER_EEP, SENSOR, SENSOR_EEP, SiteTest,
                           contact, lamp_output, pressed, temperature, unknown_sender)


class Copies(SiteTest):
    """One gateway has learned a sensor and an actuator."""

    devices = {"north": {SENSOR: (SENSOR_EEP, "Attic"), LAMP: (LAMP_EEP, "Lamp")}}

    def test_a_gateway_that_hears_a_sensor_learns_it(self):
        self.assertEqual(self.fixture.orders("south"), [])
        self.fixture.hear("south", SENSOR, SENSOR_EEP, temperature(20))
        self.fixture.settle()
        self.assertEqual(self.fixture.orders("south"), [f"add {SENSOR} {SENSOR_EEP}", f"label {SENSOR} Attic"])
        self.assertEqual(self.fixture.orders("north"), [])
        self.assertEqual(self.south.devices, {SENSOR: (SENSOR_EEP, "Attic")})

    def test_actuators_are_not_copied(self):
        self.fixture.hear("south", LAMP, LAMP_EEP, lamp_output(0, 100))
        self.fixture.settle()
        self.assertEqual(self.fixture.orders("south"), [])

    def test_a_sensor_that_becomes_an_actuator_is_not_copied(self):
        self.test_a_gateway_that_hears_a_sensor_learns_it()
        self.north.devices[SENSOR] = LAMP_EEP, "Attic"
        self.fixture.write("north", learned(SENSOR, LAMP_EEP))
        self.fixture.settle()
        self.assertEqual(self.fixture.orders("south")[2:], [])

    def test_devices_of_others_are_not_learned(self):
        self.fixture.hear("south", CONTACT, CONTACT_EEP, contact("open"))
        self.fixture.settle()
        self.assertEqual((self.fixture.orders("south"), self.fixture.orders("north")), ([], []))

    def test_late_lines_copy_nothing(self):
        self.fixture.write("south", unknown_sender(SENSOR), late="1")
        self.fixture.settle()
        self.assertEqual(self.fixture.orders("south"), [])

    def test_the_limit_of_a_gateway(self):
        self.assertEqual(gateway.MAX_DEVICES, 1000)
        self.enterContext(mock.patch.object(gateway, "MAX_DEVICES", 20))
        self.south.devices = {f"0180{number:04X}": (CONTACT_EEP, "") for number in range(0x1000, 0x1000 + 19)}
        self.fixture.write("south", *self.south.listing())
        self.fixture.hear("south", SENSOR, SENSOR_EEP, temperature(20))
        self.fixture.settle()
        self.assertEqual(len(self.south.devices), 20)
        self.north.devices[CONTACT] = CONTACT_EEP, ""
        self.fixture.write("north", learned(CONTACT, CONTACT_EEP))
        self.fixture.hear("south", CONTACT, CONTACT_EEP, contact("open"))
        self.fixture.settle()
        self.assertNotIn(f"add {CONTACT} {CONTACT_EEP}", self.fixture.orders("south"))
        self.assert_logged(f"south has learned 20 devices: it cannot learn {CONTACT}")

    def test_waiting_orders_count_for_the_limit(self):
        self.assertEqual(gateway.MAX_DEVICES, 1000)
        self.enterContext(mock.patch.object(gateway, "MAX_DEVICES", 20))
        self.south.devices = {f"0180{number:04X}": (CONTACT_EEP, "") for number in range(0x1000, 0x1000 + 19)}
        self.fixture.write("south", *self.south.listing())
        self.north.devices[CONTACT] = CONTACT_EEP, ""
        self.fixture.write("north", learned(CONTACT, CONTACT_EEP))
        self.fixture.write("south", unknown_sender(SENSOR), unknown_sender(CONTACT))
        self.fixture.settle()
        self.assertEqual(self.fixture.orders("south"), [f"add {SENSOR} {SENSOR_EEP}", f"label {SENSOR} Attic"])

    def test_a_lost_order_is_given_again(self):
        self.south.capacity = 0
        self.fixture.hear("south", SENSOR, SENSOR_EEP, temperature(20))
        self.fixture.run_turns(4)
        self.fixture.hear("south", SENSOR, SENSOR_EEP, temperature(20))
        self.fixture.run_turns(4)
        counts = []
        for _ in range(10):
            counts.append(self.fixture.orders("south").count(f"add {SENSOR} {SENSOR_EEP}"))
            self.fixture.pass_time(CARRIED_OUT_WITHIN)
            self.fixture.run_turns(4)
        self.assertEqual(counts, [1, 2, 2, 3, 3, 3, 3, 4, 4, 4])
        self.south.capacity = 1000
        self.fixture.pass_time(8 * CARRIED_OUT_WITHIN)
        self.fixture.settle()
        self.assertEqual(self.south.devices, {SENSOR: (SENSOR_EEP, "Attic")})
        self.assertEqual(CARRIED_OUT_WITHIN, 30)

    def test_at_most_so_many_bytes_per_second(self):
        names = [f"0180{number:04X}" for number in range(0x2000, 0x2000 + 200)]
        self.north.devices |= {name: (CONTACT_EEP, "") for name in names}
        self.fixture.write("north", *self.north.listing())
        for name in names:
            self.fixture.write("south", unknown_sender(name))
        self.fixture.run_turns(4)
        sizes = []
        for _ in range(6):
            count = len(self.fixture.orders("south"))
            self.fixture.pass_time(1.0)
            self.fixture.run_turns(2)
            sizes.append(sum(len(order) + 1 for order in self.fixture.orders("south")[count:]))
        self.assertLess(max(sizes), 1100)
        self.fixture.settle()
        self.assertEqual(len(self.south.devices), 200)

    def test_each_device_is_shown_once(self):
        self.fixture.hear("south", SENSOR, SENSOR_EEP, temperature(20))
        self.fixture.settle()
        configs = [topic for topic in self.fixture.broker.memory if topic.startswith("homeassistant/sensor")]
        self.assertEqual([topic for topic in configs if f"{SENSOR}_TMP" in topic],
                         [f"homeassistant/sensor/enogate_hall/{SENSOR}_TMP/config"])


class News(SiteTest):
    """Both gateways have learned a switch."""

    devices = {name: {ROCKER: (ROCKER_EEP, "Door")} for name in ("north", "south")}

    def relabel(self, model, label):
        """Somebody gives a label at a gateway, whose bridge then asks for the list."""
        self.fixture.write_later(model.name, model.answer(f"label {ROCKER} {label}"))
        model.orders.clear()
        self.fixture.settle()

    def test_a_label_follows(self):
        self.relabel(self.north, "Front door")
        self.assertEqual(self.south.devices[ROCKER], (ROCKER_EEP, "Front door"))
        self.relabel(self.south, "Back door")
        self.assertEqual(self.north.devices[ROCKER], (ROCKER_EEP, "Back door"))
        self.assertIn('"name":"Back door"', self.fixture.broker.memory[
            f"homeassistant/event/enogate_hall/{ROCKER}_press/config"])

    def test_labels_of_the_site_in_quick_succession(self):
        for label in ("One", "Two", "Three"):
            self.fixture.order(f"label {ROCKER} {label}")
        self.fixture.settle()
        self.assertEqual({model.devices[ROCKER][1] for model in (self.north, self.south)}, {"Three"})

    def test_a_gateway_without_the_label_gets_it(self):
        self.south.devices[ROCKER] = ROCKER_EEP, ""
        self.fixture.write("south", *self.south.listing())
        self.fixture.settle()
        self.assertEqual(self.south.devices[ROCKER], (ROCKER_EEP, "Door"))
        self.assertEqual(self.fixture.orders("north"), [])

    def test_a_profile_follows(self):
        self.north.devices[ROCKER] = "F6-02-02", "Door"
        self.fixture.write("north", learned(ROCKER, "F6-02-02"))
        self.fixture.settle()
        self.assertEqual(self.fixture.orders("south"), [f"add {ROCKER} F6-02-02"])
        self.assertEqual(self.south.devices[ROCKER], ("F6-02-02", "Door"))
        self.assertEqual(self.fixture.lines("teach"), [learned(ROCKER, "F6-02-02")])

    def test_a_profile_follows_that_only_a_list_shows(self):
        self.north.devices[ROCKER] = "F6-02-02", "Door"
        self.fixture.write("north", *self.north.listing())
        self.fixture.settle()
        self.assertEqual(self.south.devices[ROCKER], ("F6-02-02", "Door"))

    def test_telegrams_with_the_old_profile_are_dropped(self):
        self.south.capacity = 0
        self.fixture.write("north", learned(ROCKER, "F6-02-02"))
        self.north.devices[ROCKER] = "F6-02-02", "Door"
        self.fixture.hear("south", ROCKER, ROCKER_EEP, pressed("BI"))
        self.assertEqual(self.fixture.lines("reading"), [])
        self.fixture.hear("north", ROCKER, "F6-02-02", pressed("BI"))
        self.assertEqual(len(self.fixture.lines("reading")), 1)

    def test_a_telegram_with_a_profile_that_was_missed(self):
        self.north.devices[ROCKER] = "F6-02-02", "Door"
        self.fixture.hear("north", ROCKER, "F6-02-02", pressed("BI"))
        self.fixture.settle()
        self.assertEqual([line["eep"] for line in self.fixture.lines("reading")], ["F6-02-02"])
        self.assertEqual(self.south.devices[ROCKER], ("F6-02-02", "Door"))

    def test_a_device_that_a_gateway_deletes_is_deleted(self):
        self.fixture.write_later("north", self.north.answer(f"remove {ROCKER}"))
        self.north.orders.clear()
        self.fixture.settle()
        self.assertEqual((self.north.devices, self.south.devices), ({}, {}))
        self.assertEqual(self.fixture.lines("teach"), [learned(ROCKER, ROCKER_EEP, "deleted")])
        self.assertNotIn(f"homeassistant/event/enogate_hall/{ROCKER}_press/config", self.fixture.broker.memory)
        self.fixture.hear("north south", ROCKER, ROCKER_EEP, pressed("BI"))
        self.fixture.settle()
        self.assertEqual((self.fixture.orders("north"), self.fixture.lines("reading")), ([], []))

    def test_nothing_is_noted_about_a_device_that_is_gone(self):
        members = self.fixture.site.members
        self.assertIn(ROCKER, members.gateways_by_device)
        self.fixture.order(f"remove {ROCKER}")
        self.fixture.settle()
        self.assertNotIn(ROCKER, members.gateways_by_device)

    def test_nothing_is_noted_about_a_device_that_no_gateway_has_heard(self):
        self.fixture.order(f"add {CONTACT} {CONTACT_EEP}\nremove {CONTACT}")
        self.fixture.settle()
        self.assertNotIn(CONTACT, self.fixture.site.members.gateways_by_device)

    def test_a_removed_device_does_not_come_back_from_a_gateway_that_was_offline(self):
        """An order to learn it still waits for that gateway."""
        self.south.devices[CONTACT] = SENSOR_EEP, ""
        self.fixture.write("south", *self.south.listing())
        self.fixture.report("south", "module", "offline")
        self.fixture.order(f"add {CONTACT} {CONTACT_EEP}")
        self.fixture.order(f"remove {CONTACT}")
        del self.south.devices[CONTACT]
        self.fixture.write("south", learned(CONTACT, SENSOR_EEP, "deleted"))
        self.north.devices[CONTACT] = CONTACT_EEP, ""
        self.fixture.write("north", learned(CONTACT, CONTACT_EEP))
        self.fixture.order(f"remove {CONTACT}")
        self.fixture.settle()
        count_before = len(self.fixture.lines("teach"))
        self.fixture.report("south", "module", "online")
        self.fixture.settle()
        self.assertEqual(self.fixture.lines("teach")[count_before:], [])
        self.assertEqual((CONTACT in self.south.devices, CONTACT in self.north.devices), (False, False))

    def test_a_device_that_a_full_gateway_has_not_learned_is_not_removed_there_later(self):
        self.south.capacity = 0
        self.fixture.order(f"add {CONTACT} {CONTACT_EEP}")
        self.fixture.write("south", unknown_sender(CONTACT))
        self.fixture.run_turns()
        self.fixture.order(f"remove {CONTACT}")
        self.fixture.run_turns(80, 1.0)
        self.south.capacity = 1000
        self.south.devices[CONTACT] = CONTACT_EEP, ""
        self.fixture.restart()
        self.fixture.settle()
        self.assertIn(CONTACT, self.south.devices)

    def test_a_gateway_that_has_lost_a_device_that_it_has_to_remove(self):
        self.fixture.report("south", "gateway", "offline")
        self.fixture.order(f"remove {ROCKER}")
        self.fixture.settle()
        self.assertIn(ROCKER, self.fixture.site.members.gateways["south"].held)
        self.fixture.write("south", unknown_sender(ROCKER))
        self.assertEqual(json.loads(self.fixture.published("/gateways")[-1])["south"]["devices"], 0)

    def test_a_device_that_is_learned_again_stays(self):
        self.test_a_device_that_a_gateway_deletes_is_deleted()
        self.north.devices[ROCKER] = ROCKER_EEP, ""
        self.fixture.write("north", learned(ROCKER, ROCKER_EEP))
        self.fixture.hear("south", ROCKER, ROCKER_EEP, pressed("BI"))
        self.fixture.settle()
        self.assertEqual((self.north.devices, self.south.devices), ({ROCKER: (ROCKER_EEP, "")},) * 2)

    def test_a_gateway_that_is_offline_deletes_it_later(self):
        self.fixture.report("south", "gateway", "offline")
        self.fixture.turn()
        self.fixture.order(f"remove {ROCKER}")
        self.fixture.settle()
        self.assertEqual((self.north.devices, list(self.south.devices)), ({}, [ROCKER]))
        self.fixture.restart()
        self.fixture.connect()
        self.fixture.settle()
        self.assertEqual(list(self.south.devices), [ROCKER])
        self.fixture.report("south", "gateway", "online")
        self.fixture.settle()
        self.assertEqual((self.north.devices, self.south.devices), ({}, {}))
        self.assertEqual(self.fixture.site.members.devices, {})

    def test_a_list_from_before_the_removal_brings_nothing_back(self):
        before = self.south.listing()
        self.fixture.report("south", "gateway", "offline")
        self.fixture.order(f"remove {ROCKER}")
        self.fixture.write("south", *before)
        self.fixture.hear("south", ROCKER, ROCKER_EEP, pressed("BI"))
        self.fixture.write("south", learned(ROCKER, ROCKER_EEP))
        self.assertEqual(self.fixture.site.members.devices, {})
        self.assertEqual(self.fixture.lines("reading"), [])

    def test_a_removal_is_over_when_a_line_shows_it(self):
        """The device may be learned again: after the teach line, or a list without the device."""
        for lines in ([learned(ROCKER, ROCKER_EEP, "deleted")], listing()):
            self.fixture.report("south", "gateway", "offline")
            self.fixture.order(f"remove {ROCKER}")
            self.fixture.write("south", *lines)
            self.fixture.write("south", learned(ROCKER, ROCKER_EEP))
            self.assertIn(ROCKER, self.fixture.site.members.devices)

    def test_a_device_that_is_added_before_its_removal_is_over(self):
        self.fixture.report("south", "gateway", "offline")
        self.fixture.order(f"remove {ROCKER}\nadd {ROCKER} {ROCKER_EEP}")
        self.fixture.write("south", learned(ROCKER, ROCKER_EEP, "deleted"))
        self.assertIn(ROCKER, self.fixture.site.members.devices)

    def test_a_gateway_that_deletes_what_it_has_not_learned(self):
        """A device may ask for that over the air."""
        self.fixture.write("south", learned(ROCKER, ROCKER_EEP, "deleted"))
        self.fixture.order(f"add {ROCKER} {ROCKER_EEP}")
        self.fixture.write("south", learned(ROCKER, ROCKER_EEP, "deleted"))
        self.assertIn(ROCKER, self.fixture.site.members.devices)

    def give(self, order):
        """An order that is handled before the lines that have arrived."""
        self.fixture.site.desk.give(order.encode() + b"\n", 0)

    def test_answers_to_orders_that_others_have_followed(self):
        self.give(f"label {ROCKER} One")
        self.fixture.turn()
        self.give(f"label {ROCKER} Two")
        self.give(f"add {ROCKER} F6-02-02")
        self.fixture.turn()
        self.assertEqual(self.fixture.site.members.devices[ROCKER][1:3], ("F6-02-02", "Two"))
        self.fixture.settle()
        self.assertEqual(self.north.devices, {ROCKER: ("F6-02-02", "Two")})
        self.give(f"add {ROCKER} F6-02-01")
        self.fixture.turn()
        self.give(f"add {ROCKER} F6-02-02")
        self.fixture.settle()
        self.assertEqual((self.north.devices, self.south.devices), ({ROCKER: ("F6-02-02", "Two")},) * 2)

    def test_a_removal_while_it_is_being_copied(self):
        self.fixture.write("south", unknown_sender(ROCKER))
        self.fixture.site.members.gateways["south"].orders.clear()
        self.fixture.write("south", *self.south.listing())
        self.fixture.settle()
        self.fixture.report("south", "gateway", "offline")
        del self.south.devices[ROCKER]
        self.fixture.write("south", unknown_sender(ROCKER))
        self.fixture.order(f"remove {ROCKER}")
        self.fixture.settle()
        self.fixture.report("south", "gateway", "online")
        self.fixture.settle()
        self.assertEqual((self.north.devices, self.south.devices, self.fixture.site.members.devices), ({}, {}, {}))


class LostRegistries(SiteTest):
    """A gateway has learned a sensor, a switch, which the other one hears, too, and a lamp."""

    devices = {"north": {SENSOR: (SENSOR_EEP, "Attic"), ROCKER: (ROCKER_EEP, "Door"), LAMP: (LAMP_EEP, "Lamp")},
               "south": {ROCKER: (ROCKER_EEP, "Door")}}

    def lose(self, model):
        """A gateway has lost its database. It is started again, and then its bridge asks for the list."""
        model.devices.clear()
        self.fixture.report(model.name, "gateway", "offline")
        self.fixture.report(model.name, "gateway", "online")
        self.fixture.write(model.name, *model.listing())

    def test_a_gateway_gets_its_sensors_back(self):
        self.lose(self.north)
        self.fixture.settle()
        self.assertEqual(self.north.devices, {SENSOR: (SENSOR_EEP, "Attic"), ROCKER: (ROCKER_EEP, "Door")})
        self.assertEqual([line for line in self.fixture.lines("teach") if line["result"] == "deleted"],
                         [learned(LAMP, LAMP_EEP, "deleted")])

    def test_also_if_it_has_just_learned_them(self):
        self.lose(self.south)
        self.fixture.run_turns(4, 0.1)
        self.assertEqual(self.south.devices, {ROCKER: (ROCKER_EEP, "Door")})
        self.lose(self.south)
        self.fixture.run_turns(4, 0.1)
        self.assertEqual(self.south.devices, {ROCKER: (ROCKER_EEP, "Door")})

    def test_also_after_a_restart_of_the_site(self):
        self.fixture.restart()
        self.north.devices.clear()
        self.fixture.connect()
        self.fixture.settle()
        self.assertEqual(self.north.devices, {SENSOR: (SENSOR_EEP, "Attic"), ROCKER: (ROCKER_EEP, "Door")})

    def test_also_a_gateway_that_has_learned_nothing_by_itself(self):
        self.lose(self.south)
        self.fixture.settle()
        self.assertEqual(self.south.devices, {ROCKER: (ROCKER_EEP, "Door")})

    def test_a_packet_line_is_enough(self):
        self.south.devices.clear()
        self.fixture.write("south", unknown_sender(ROCKER))
        self.fixture.run_turns(4)
        self.assertEqual(self.south.devices, {ROCKER: (ROCKER_EEP, "Door")})

    def test_an_incomplete_list_is_not_used(self):
        for lines in (self.north.listing()[1:], self.north.listing()[:1] + listing(),
                      self.north.listing()[:1] + [b"{", *self.north.listing()[1:]]):
            self.fixture.write("north", *lines)
            self.fixture.settle()
        self.assertEqual(self.fixture.orders("north"), [])
        self.assertEqual(len(self.fixture.site.members.devices), 3)

    def test_an_actuator_that_another_gateway_has_learned_stays(self):
        self.south.devices[LAMP] = LAMP_EEP, "Lamp"
        self.fixture.write("south", learned(LAMP, LAMP_EEP))
        self.lose(self.north)
        self.fixture.settle()
        self.assertIn(LAMP, self.fixture.site.members.devices)
        self.fixture.write("south", learned(LAMP, LAMP_EEP, "deleted"))
        self.assertNotIn(LAMP, self.fixture.site.members.devices)

    def test_a_lamp_that_one_of_two_gateways_deletes(self):
        self.south.devices[LAMP] = LAMP_EEP, "Lamp"
        self.fixture.write("south", learned(LAMP, LAMP_EEP))
        self.fixture.write("north", learned(LAMP, LAMP_EEP, "deleted"))
        self.fixture.settle()
        self.assertIn(LAMP, self.fixture.site.members.devices)
        self.assertIn(LAMP, self.south.devices)


class Replacements(SiteTest):
    """A sensor is replaced at a gateway, as `enogatectl replace` does it."""

    devices = {"north": {SENSOR: (SENSOR_EEP, "Attic")}}

    def test_home_assistant_keeps_its_entities(self):
        new = "01800AB9"
        config = f"homeassistant/sensor/enogate_hall/{SENSOR}_TMP/config"
        self.fixture.settle()
        for order in (f"add {new} {SENSOR_EEP}", f"label {new} Attic", f"remove {SENSOR}"):
            self.fixture.write_later("north", [line for line in self.north.answer(order) if line["type"] == "teach"])
        self.fixture.settle()
        self.fixture.write("north", *self.north.listing())
        self.fixture.settle()
        self.assertIn(f'"serial_number":"{new}"', self.fixture.broker.memory[config])


if __name__ == "__main__":
    unittest.main()
