"""The site at a broker: what it publishes, late lines, lost connections, restarts, and messages that are not as they
should be."""
import json
import random
import unittest
from unittest import mock

from enogate_mqtt.devices import time_text
from enogate_site.merge import WINDOW
from enogate_site.site import COVERAGE_AFTER, KNOWN_WITHIN
from fakes import learned, reading, status
from site_testcase import (CONTACT, CONTACT_EEP, LAMP, LAMP_EEP, RELEASED, ROCKER, ROCKER_EEP, ROOT, SENSOR,
                           SENSOR_EEP, SiteFixture, SiteTest, contact, lamp_output, pressed, temperature)

BOTH = {name: {ROCKER: (ROCKER_EEP, "Door"), CONTACT: (CONTACT_EEP, "Window"), SENSOR: (SENSOR_EEP, "Attic")}
        for name in ("north", "south")}
PRESS = '{"event_type":"BI"}'


class Telegrams(SiteTest):
    devices = BOTH

    def memory(self, device, subtopic):
        return self.fixture.broker.memory.get(f"{ROOT}/{device}/{subtopic}")

    def test_a_press_is_one_event_with_the_best_signal(self):
        for name, dbm, shown in (("south", -80, "-80"), ("north", -55, "-55")):
            self.fixture.hear(name, ROCKER, ROCKER_EEP, pressed("BI"), dbm)
            self.assertEqual(self.memory(ROCKER, "dbm"), shown)
        self.assertEqual(self.fixture.published(f"{ROCKER}/press"), [PRESS])
        self.assertEqual(self.fixture.lines("reading"), [reading(ROCKER, ROCKER_EEP, pressed("BI"), -80)])
        self.fixture.hear("north south", ROCKER, ROCKER_EEP, RELEASED, -70)
        self.assertEqual(self.fixture.published(f"{ROCKER}/press"), [PRESS, '{"event_type":"released"}'])
        self.assertEqual(self.memory(ROCKER, "dbm"), "-70")

    def test_a_weaker_report_changes_nothing(self):
        self.fixture.hear("north", ROCKER, ROCKER_EEP, pressed("BI"), -55)
        count = len(self.fixture.broker.connection.published)
        self.fixture.hear("south", ROCKER, ROCKER_EEP, pressed("BI"), -80)
        self.assertEqual(len(self.fixture.broker.connection.published), count)

    def test_it_is_published_at_once(self):
        self.fixture.hear("south", SENSOR, SENSOR_EEP, temperature(21))
        self.assertEqual(self.memory(SENSOR, "TMP"), "21")
        self.assertEqual(self.memory(SENSOR, "last_seen"), time_text(self.fixture.wall.now))

    def test_a_better_report_of_an_earlier_telegram(self):
        self.fixture.hear("north", SENSOR, SENSOR_EEP, temperature(21), -80)
        self.fixture.hear("north", SENSOR, SENSOR_EEP, temperature(22), -82)
        self.fixture.hear("south", SENSOR, SENSOR_EEP, temperature(21), -40)
        self.assertEqual(self.memory(SENSOR, "dbm"), "-82")

    def test_coverage(self):
        self.fixture.hear("north south", SENSOR, SENSOR_EEP, temperature(21), -60)
        self.fixture.pass_time(COVERAGE_AFTER)
        self.fixture.turn()
        self.fixture.hear("north", SENSOR, SENSOR_EEP, temperature(22), -70)
        self.assertEqual(json.loads(self.memory(SENSOR, "coverage")),
                         {"north": {"heard": 1.0, "dbm": -60}, "south": {"heard": 1.0, "dbm": -60}})
        self.fixture.pass_time(COVERAGE_AFTER)
        self.fixture.turn()
        self.assertEqual(json.loads(self.memory(SENSOR, "coverage")),
                         {"north": {"heard": 1.0, "dbm": -65}, "south": {"heard": 0.5, "dbm": -60}})

    def test_coverage_remains_when_a_rocker_is_released(self):
        self.fixture.hear("north", ROCKER, ROCKER_EEP, pressed("BI"))
        self.fixture.pass_time(COVERAGE_AFTER)
        self.fixture.turn()
        self.fixture.hear("north", ROCKER, ROCKER_EEP, RELEASED)
        self.assertIsNone(self.memory(ROCKER, "R1"))
        self.assertIsNotNone(self.memory(ROCKER, "coverage"))

    def test_a_device_that_no_list_has(self):
        """A line was missed: the device is learned by a telegram, and its label comes with the next list."""
        self.north.devices[LAMP] = LAMP_EEP, "Lamp"
        self.fixture.hear("north", LAMP, LAMP_EEP, lamp_output(0, 100))
        self.assertEqual(self.memory(LAMP, "OV/0"), "100")
        self.fixture.settle()
        config = f"homeassistant/switch/enogate_hall/{LAMP}_OV_0/config"
        self.assertIn('"name":"Lamp"', self.fixture.broker.memory[config])


class Reports(SiteTest):
    names = ("north", "south", "east")

    def test_the_gateways(self):
        self.assertEqual(self.fixture.published("/gateway"), ["online"])
        self.assertEqual(json.loads(self.fixture.published("/gateways")[-1]), {
            name: {"devices": 0, "learn": False, "online": True} for name in self.names})
        self.fixture.report("south", "module", "offline")
        self.fixture.report("east", "status", "offline")
        self.fixture.turn()
        self.assertEqual({name for name, state in json.loads(self.fixture.published("/gateways")[-1]).items()
                          if state["online"]}, {"north"})
        self.assertEqual(self.fixture.published("/module"), ["online"])
        self.fixture.report("north", "gateway", "offline")
        self.fixture.run_turns(2)
        self.assertEqual((self.fixture.published("/gateway")[-1], self.fixture.published("/module")[-1]),
                         ("offline", "offline"))
        self.assertFalse(json.loads(self.fixture.published("/health")[0])["silent"]["count"])

    def test_the_counters_are_sums(self):
        self.fixture.write("north", status("closed", readings=5, teach=1))
        self.fixture.write("south", status("closed", readings=7))
        self.fixture.pass_time(61.0)
        self.fixture.run_turns(2)
        self.assertEqual(json.loads(self.fixture.published("/counters")[-1]),
                         {"ignored": 0, "readings": 12, "refused": 0, "responses": 0, "teach": 1})

    def test_without_any_report_it_is_offline(self):
        fixture = SiteFixture(self, "north")
        fixture.gateways["north"].reports.clear()
        fixture.begin()
        self.assertEqual(fixture.published("/gateway"), [])
        fixture.pass_time(KNOWN_WITHIN)
        fixture.run_turns(2)
        self.assertEqual(fixture.published("/gateway"), ["offline"])

    def test_what_is_retained_of_earlier_devices_is_removed(self):
        stray = f"{ROOT}/{SENSOR}/TMP"
        self.fixture.broker.lose()
        self.fixture.turn()
        self.fixture.restart()
        self.fixture.state.unlink()
        self.fixture.start()
        self.fixture.broker.memory[stray] = "20"
        self.fixture.connect()
        self.fixture.settle()
        self.assertNotIn(stray, self.fixture.broker.memory)
        self.assertFalse([topic for topic in self.fixture.broker.connection.published
                          if topic[0].startswith(("enogate/north/", "enogate/south/")) and topic[2]])


class LateLines(SiteTest):
    devices = BOTH

    def late(self, name, device, eep, readings):
        self.fixture.hear(name, device, eep, readings, late="1", time="1800000000")

    def properties(self):
        return [properties for text, properties in self.fixture.broker.connection.properties if '"reading"' in text]

    def test_a_late_press_is_no_event(self):
        self.late("north", ROCKER, ROCKER_EEP, pressed("BI"))
        self.assertEqual(self.fixture.published("/press"), [])
        self.assertEqual(len(self.fixture.lines("reading")), 1)
        self.assertEqual(self.properties(), [{"time": "1800000000", "late": "1"}])

    def test_a_bridge_that_is_not_online(self):
        for text in ("offline", ""):
            self.fixture.report("north", "status", text)
            self.fixture.hear("north", ROCKER, ROCKER_EEP, pressed("BI"))
        self.assertEqual(self.fixture.published("/press"), [])
        self.fixture.report("north", "status", "online")
        self.fixture.hear("north", ROCKER, ROCKER_EEP, pressed("BI"))
        self.assertEqual(self.fixture.published("/press"), [PRESS])
        self.assertNotIn("late", self.properties()[-1])

    def test_late_reports_of_what_others_have_reported(self):
        self.fixture.hear("south", CONTACT, CONTACT_EEP, contact("open"))
        self.fixture.pass_time(600.0)
        self.fixture.hear("south", CONTACT, CONTACT_EEP, contact("closed"))
        self.fixture.pass_time(600.0)
        for word in ("open", "closed"):
            self.late("north", CONTACT, CONTACT_EEP, contact(word))
        self.assertEqual(len(self.fixture.lines("reading")), 2)
        self.assertEqual(self.fixture.broker.memory[f"{ROOT}/{CONTACT}/CO"], "closed")

    def test_a_late_telegram_does_not_replace_a_newer_one_of_another_gateway(self):
        self.fixture.hear("south", CONTACT, CONTACT_EEP, contact("closed"))
        self.late("north", CONTACT, CONTACT_EEP, contact("open"))
        self.assertEqual(self.fixture.broker.memory[f"{ROOT}/{CONTACT}/CO"], "closed")
        self.assertEqual(len(self.fixture.lines("reading")), 2)

    def test_of_one_gateway_they_are_in_order(self):
        self.fixture.hear("north", CONTACT, CONTACT_EEP, contact("closed"))
        seen = self.fixture.broker.memory[f"{ROOT}/{CONTACT}/last_seen"]
        self.fixture.pass_time(100.0)
        self.late("north", CONTACT, CONTACT_EEP, contact("open"))
        self.assertEqual(self.fixture.broker.memory[f"{ROOT}/{CONTACT}/CO"], "open")
        self.assertEqual(self.fixture.broker.memory[f"{ROOT}/{CONTACT}/last_seen"], seen)

    def test_late_teach_ins_count(self):
        self.fixture.write("north", learned(LAMP, LAMP_EEP), late="1")
        self.assertIn(LAMP, self.fixture.site.members.devices)
        self.fixture.write("north", learned(LAMP, LAMP_EEP, "deleted"), late="1")
        self.assertNotIn(LAMP, self.fixture.site.members.devices)


class Connections(SiteTest):
    devices = BOTH

    def retain(self, name, device, seen, **readings):
        """The bridge of a gateway retains readings, of this time."""
        for subtopic, text in {**readings, "last_seen": time_text(seen)}.items():
            self.fixture.broker.memory[f"enogate/{name}/{device}/{subtopic}"] = text

    def reconnect(self, seconds=100.0):
        self.fixture.broker.lose()
        self.fixture.run_turns(2)
        self.fixture.pass_time(seconds)
        self.fixture.connect()

    def test_readings_of_the_time_without_a_connection(self):
        self.fixture.hear("north", CONTACT, CONTACT_EEP, contact("closed"))
        now = self.fixture.wall.now
        self.retain("north", CONTACT, now, CO="closed")
        self.retain("south", CONTACT, now + 50, CO="open", dbm="-70", evil="1")
        self.reconnect()
        memory = self.fixture.broker.memory
        subtopics = "CO", "dbm", "last_seen", "evil"
        self.assertEqual([memory.get(f"{ROOT}/{CONTACT}/{subtopic}") for subtopic in subtopics],
                         ["open", "-70", time_text(now + 50), None])
        self.assertEqual(self.fixture.published("/press"), [])

    def test_a_new_site_has_the_readings_of_its_gateways(self):
        fixture = SiteFixture(self, "north", "south")
        fixture.gateways["south"].devices = dict(BOTH["south"])
        seen = time_text(fixture.wall.now - 500)
        fixture.broker.memory = {f"enogate/south/{CONTACT}/CO": "open", f"enogate/south/{CONTACT}/last_seen": seen}
        fixture.begin()
        fixture.settle()
        self.assertEqual(fixture.broker.memory[f"{ROOT}/{CONTACT}/CO"], "open")
        self.assertEqual(fixture.broker.memory[f"{ROOT}/{CONTACT}/last_seen"], seen)

    def test_older_readings_and_those_of_the_future(self):
        self.fixture.hear("north", CONTACT, CONTACT_EEP, contact("closed"))
        now = self.fixture.wall.now
        for seen in (now - 50, now, now + 1000 + KNOWN_WITHIN):
            self.retain("south", CONTACT, seen, CO="open")
            self.reconnect()
            self.assertEqual(self.fixture.broker.memory[f"{ROOT}/{CONTACT}/CO"], "closed", seen - now)
        self.reconnect(1000.0)
        self.assertEqual(self.fixture.broker.memory[f"{ROOT}/{CONTACT}/CO"], "open")

    def test_a_time_that_is_none(self):
        for seen in ("9999", "zzzz", "2027-01-15T08:05:00", ""):
            self.fixture.broker.memory |= {f"enogate/south/{CONTACT}/last_seen": seen,
                                           f"enogate/south/{CONTACT}/CO": "open"}
            self.reconnect()
            self.assertNotIn(f"{ROOT}/{CONTACT}/CO", self.fixture.broker.memory)

    def test_a_rocker_that_was_released(self):
        self.fixture.hear("north", ROCKER, ROCKER_EEP, pressed("BI"))
        self.retain("south", ROCKER, self.fixture.wall.now + 50, EB="released", buttons="none")
        self.reconnect()
        self.assertNotIn(f"{ROOT}/{ROCKER}/R1", self.fixture.broker.memory)
        self.assertEqual(self.fixture.broker.memory[f"{ROOT}/{ROCKER}/EB"], "released")
        self.assertEqual(self.fixture.published("/press"), [])

    def test_devices_with_another_profile_there(self):
        site, south = self.fixture.site, self.fixture.site.members.gateways["south"]
        readings = {"CO": "open", "last_seen": time_text(self.fixture.wall.now)}
        held = south.held[CONTACT]
        for south.held[CONTACT], is_taken in ((held._replace(eep=ROCKER_EEP), False), (held, True)):
            site.adopt_readings(south, CONTACT, readings)
            self.assertEqual(f"{ROOT}/{CONTACT}/CO" in self.fixture.broker.memory, is_taken)

    def test_presses_just_after_a_start_are_late(self):
        """They may be reports of telegrams that an earlier run has published."""
        self.fixture.hear("north", ROCKER, ROCKER_EEP, pressed("BI"))
        self.fixture.restart(is_killed=True)
        self.fixture.connect(waits=False)
        self.fixture.hear("south", ROCKER, ROCKER_EEP, pressed("BI"))
        self.fixture.pass_time(WINDOW - 0.01)
        self.fixture.hear("north", ROCKER, ROCKER_EEP, pressed("B0"))
        self.assertEqual(self.fixture.published("/press"), [])
        self.fixture.pass_time(0.01)
        self.fixture.hear("north", ROCKER, ROCKER_EEP, pressed("AI"))
        self.assertEqual(self.fixture.published("/press"), ['{"event_type":"AI"}'])

    def test_but_not_after_a_new_connection(self):
        self.fixture.broker.lose()
        self.fixture.turn()
        self.fixture.connect(waits=False)
        self.fixture.hear("north", ROCKER, ROCKER_EEP, pressed("BI"))
        self.assertEqual(self.fixture.published("/press"), [PRESS])

    def test_the_state_of_a_gateway_is_unknown_without_a_connection(self):
        self.fixture.broker.lose()
        self.fixture.run_turns(2)
        self.assertFalse(any(gateway.is_online for gateway in self.fixture.site.members.gateways.values()))
        self.assertFalse(self.fixture.gateways["north"].orders == [])

    def test_the_lists_are_asked_for_again(self):
        self.reconnect()
        self.assertEqual(self.north.orders.count("list"), 2)
        self.north.devices.pop(CONTACT)
        self.reconnect()
        self.fixture.settle()
        self.assertEqual(self.north.devices[CONTACT], (CONTACT_EEP, "Window"))

    def test_a_list_that_is_not_answered_is_asked_for_again(self):
        with mock.patch.object(type(self.north), "answer", lambda model, order: model.orders.append(order) or []):
            self.reconnect()
            self.fixture.run_turns(20, 1.0)
        self.assertGreater(self.north.orders.count("list"), 3)

    def test_readings_and_coverage_survive_a_restart(self):
        for is_killed in (False, True):
            self.fixture.hear("north", SENSOR, SENSOR_EEP, temperature(21 + is_killed))
            self.fixture.pass_time(COVERAGE_AFTER)
            self.fixture.run_turns(2, 3.0)
            before = {topic: text for topic, text in self.fixture.broker.memory.items() if f"{ROOT}/{SENSOR}/" in topic}
            self.fixture.restart(is_killed)
            self.fixture.connect()
            self.assertEqual({topic: text for topic, text in self.fixture.broker.memory.items()
                              if f"{ROOT}/{SENSOR}/" in topic}, before)
            self.assertIn(f"{ROOT}/{SENSOR}/coverage", before)
            self.assertEqual([topic for topic, *_ in self.fixture.broker.connection.published if SENSOR in topic], [])


class OtherSites(SiteTest):
    """A name in SITE_GATEWAYS is that of a site."""

    devices = BOTH

    def test_it_is_not_used(self):
        fixture = SiteFixture(self, "north", "south")
        fixture.gateways["south"].reports = {"gateways": "{}", "status": "online", "gateway": "online"}
        fixture.gateways["south"].devices = BOTH["south"]
        fixture.begin()
        fixture.hear("south", ROCKER, ROCKER_EEP, pressed("BI"))
        fixture.write("south", *fixture.gateways["south"].listing())
        fixture.settle()
        self.assertEqual((fixture.gateways["south"].orders, fixture.lines("reading")), ([], []))
        self.assertEqual(fixture.site.members.devices, {})
        self.assert_logged("ERROR: south is a site, so it is not used as a gateway: correct SITE_GATEWAYS")

    def test_it_stays_so(self):
        self.fixture.report("south", "gateways", "{}")
        self.fixture.report("south", "gateways", "")
        self.fixture.hear("south", ROCKER, ROCKER_EEP, pressed("BI"))
        self.assertEqual(self.fixture.lines("reading"), [])

    def test_a_gateway_without_this_message(self):
        self.fixture.report("south", "gateways", "")
        self.fixture.hear("south", ROCKER, ROCKER_EEP, pressed("BI"))
        self.assertEqual(len(self.fixture.lines("reading")), 1)


class HostileMessages(SiteTest):
    devices = BOTH

    def test_only_the_configured_gateways_count(self):
        line = json.dumps(learned(LAMP, LAMP_EEP))
        for topic in ("enogate/east/lines", "enogate/hall/lines", "enogate/north/x/lines", "enogate/NORTH/lines"):
            self.fixture.send(topic, line)
        self.fixture.turn()
        self.assertNotIn(LAMP, self.fixture.site.members.devices)

    def test_retained_lines_are_ignored(self):
        self.fixture.send("enogate/north/lines", json.dumps(learned(LAMP, LAMP_EEP)), is_retained=True)
        self.fixture.turn()
        self.assertNotIn(LAMP, self.fixture.site.members.devices)

    def test_it_subscribes_to_nothing_else(self):
        filters = self.fixture.site.topics.subscriptions
        self.assertEqual({topic.split("/")[1] for topic in filters if topic.startswith("enogate/")},
                         {"hall", "north", "south"})
        self.assertFalse([topic for topic in filters if "#" in topic or "/+/" in topic and "hall" not in topic])

    def test_random_lines(self):
        """It goes on, and nobody gets an order for that."""
        chance = random.Random(7)
        texts = [json.dumps(line).encode() for line in (*self.north.listing(), reading(SENSOR), learned(SENSOR),
                                                        status(), {"type": "packet", "why": "unknown_sender"})]
        for _ in range(3000):
            text = bytearray(chance.choice(texts))
            for _ in range(chance.randint(1, 4)):
                text[chance.randrange(len(text))] = chance.choice(b'\0\n"{}[]:,\xff0aZ')
            self.fixture.write(chance.choice(("north", "south")), bytes(text))
        self.fixture.settle()
        self.fixture.hear("north", ROCKER, ROCKER_EEP, pressed("BI"))
        self.assertEqual(self.fixture.published("/press")[-1], PRESS)

    def test_very_many_devices(self):
        """A client with the rights of a bridge can make up as many devices as a gateway may have, and no more."""
        for number in range(1200):
            self.fixture.site.members.handle_line(
                self.fixture.site.members.gateways["north"],
                json.dumps(learned(f"{0x05000000 + number:08X}", CONTACT_EEP)).encode(), None, False)
        self.assertEqual(len(self.fixture.site.members.devices), 1000)
        listing = [{"eep": CONTACT_EEP, "id": f"{0x06000000 + number:08X}", "label": "", "maker": None,
                    "type": "device"} for number in range(1200)]
        for line in (*listing, {"count": 1200, "type": "list"}, {"count": 200, "type": "list"}):
            self.fixture.site.members.handle_line(self.fixture.site.members.gateways["north"],
                                                  json.dumps(line).encode(), None, False)
        self.assertEqual(len(self.fixture.site.members.devices), 1000)
        self.assertEqual(len(self.fixture.site.members.gateways["north"].listing), 0)

    def test_times_that_are_none(self):
        for time in ("-1", "1e9", "x", "", "9" * 13, "１"):
            self.fixture.hear("north", SENSOR, SENSOR_EEP, temperature(20), time=time)
        self.assertEqual(len(self.fixture.lines("reading")), 6)


if __name__ == "__main__":
    unittest.main()
