"""The work of a site does not grow with the number of its devices, nor that about a device with the number of gateways:
as many of them are visited, however many there are."""
import unittest
from unittest import mock

from enogate_site.site import COVERAGE_AFTER
from fakes import LogTest, VisitedDict, count_visits, learned, reading
from site_testcase import CONTACT_EEP, SiteFixture, contact, unknown_sender

NEW = "FF800001"


def count_visits_of(site):
    count_visits(site, site.devices, site.members, site.members.merge, site.requests, *site.members.gateways.values())
    VisitedDict.visit_count = 0


class WorkOfASite(LogTest):
    def setUp(self):
        super().setUp()
        self.enterContext(mock.patch("site_testcase.DISCOVERY", ""))

    def start(self, *device_counts):
        """A site whose gateways have learned so many devices each."""
        names = [f"gateway-{number}" for number in range(len(device_counts))]
        self.fixture = SiteFixture(self, *names)
        self.fixture.checks_notes = False
        self.ids = {name: [f"{number:04X}{device:04X}" for device in range(count)]
                    for number, (name, count) in enumerate(zip(names, device_counts))}
        for name, ids in self.ids.items():
            self.fixture.gateways[name].devices.update((device, (CONTACT_EEP, f"Label {device}")) for device in ids)
        self.fixture.begin()
        self.settle()
        return self.fixture.site

    def settle(self):
        """What the broker retains is compared."""
        while not (self.fixture.site.is_online and self.fixture.site.reconciler.is_done):
            self.fixture.turn()

    def send(self, name, *lines):
        self.fixture.write_later(name, lines)

    def send_telegrams(self, word):
        """Each device sends a telegram, which its gateway hears."""
        for name, ids in self.ids.items():
            self.send(name, *(reading(device, CONTACT_EEP, contact(word)) for device in ids))

    def visits(self, *events):
        """How many devices and gateways a turn visits, by what happens in it. All devices have sent a telegram just
        before."""
        counts = {}
        self.send_telegrams("open")
        self.fixture.turn()
        while self.fixture.site.backlog:
            self.fixture.turn()
        count_visits_of(self.fixture.site)
        for what, lines, seconds in (("nothing", [], 0.0),
                                     ("a telegram", [reading("00000000", CONTACT_EEP, contact("closed"))], 0.0),
                                     ("the state is saved", [], 3.0), *events):
            self.send("gateway-0", *lines)
            self.fixture.pass_time(seconds)
            VisitedDict.visit_count = 0
            self.fixture.site.turn()
            counts[what] = VisitedDict.visit_count
        return counts

    def test_the_same_devices_are_visited(self):
        """Twenty gateways have a device each, or 500."""
        counts = []
        for device_count in (1, 500):
            self.start(*(device_count for _ in range(20)))
            counts.append(self.visits(
                ("a device is learned", [learned(NEW, CONTACT_EEP)], 0.0),
                ("a device of another gateway is heard", [unknown_sender("00010000")], 0.0),
                ("a device is deleted", [learned("00000000", CONTACT_EEP, "deleted")], 0.0)))
        self.assertEqual(counts[0], counts[1])

    def test_telegrams_visit_no_other_gateways(self):
        counts = []
        for gateway_count in (2, 200):
            self.start(*(1 for _ in range(gateway_count)))
            counts.append(self.visits())
        self.assertEqual(counts[0], counts[1])

    def test_a_device_visits_only_its_gateways(self):
        for gateway_count in (2, 200):
            members = self.start(*(1 for _ in range(gateway_count))).members
            count_visits_of(self.fixture.site)
            members.spread("00000000")
            members.remove("00000000")
            self.assertEqual((VisitedDict.visit_count, members.gateways["gateway-0"].unwanted), (0, {"00000000"}))

    def life(self, gateway_count, device_count):
        """How many devices and gateways a site visits from its start to the end of another session, if the first one
        of so many gateways has so many devices."""
        self.start(device_count, *(0 for _ in range(gateway_count - 1)))
        self.fixture.restart()
        count_visits_of(self.fixture.site)
        self.fixture.connect()
        self.settle()
        self.send_telegrams("closed")
        self.fixture.run_turns(4, COVERAGE_AFTER)
        return VisitedDict.visit_count

    def test_no_device_visits_all_gateways(self):
        """A device more costs the same with two gateways as with 50, and as with fewer devices."""
        few, more, most = ([self.life(gateway_count, device_count) for gateway_count in (2, 50)]
                           for device_count in (80, 160, 240))
        self.assertEqual(more[0] - few[0], more[1] - few[1])
        self.assertEqual([count - before for before, count in zip(few, more)],
                         [count - before for before, count in zip(more, most)])


if __name__ == "__main__":
    unittest.main()
