"""The work of a turn does not grow with the number of devices: as many of them are visited, however many there are."""
import unittest

from enogate_mqtt.topics import Topics
from fakes import BridgeFixture, LogTest, VisitedDict, count_visits, learned, listing, reading

EEP = "D5-00-01"
NEW, NEXT, LABELLED = "FF800001", "FF800002", "FF800003"
# So long a device waits for its label, in seconds: shorter than the time after which the gateway counts as silent.
LABEL_WAIT = 10


def listed(device, label):
    return listing((device, EEP, label))[0]


class TurnsOfABridge(LogTest):
    def start(self, device_count):
        """A bridge with so many devices with labels, and as many that wait for theirs. One of these waits longest."""
        self.fixture = BridgeFixture(self)
        self.fixture.checks_index = False
        self.fixture.topics = Topics("hall", "")
        bridge = self.fixture.start(label_wait=LABEL_WAIT)
        self.fixture.write_lines(*listing(*((f"{number:08X}", EEP, f"Label {number}")
                                            for number in range(device_count))))
        self.fixture.run_turns(1)
        self.fixture.broker.accept_connection()
        self.settle(bridge)
        for first, last in ((0, 1), (1, device_count)):
            self.fixture.write_lines(*(learned(f"{0x01800000 + number:08X}", EEP) for number in range(first, last)))
            self.fixture.run_turns(1, 1.0)
        self.settle(bridge)
        count_visits(bridge, bridge.devices, bridge.requests)
        return bridge

    def settle(self, bridge):
        """What the broker retains is compared."""
        while not (bridge.is_online and bridge.reconciler.is_done):
            self.fixture.run_turns(1, 0.0)

    def visits(self, device_count):
        """How many devices a turn visits, by what happens in it."""
        bridge, counts = self.start(device_count), {}
        for what, lines, seconds in (
                ("nothing", [], 0.0), ("a telegram", [reading("00000001", EEP)], 0.0), ("the state is saved", [], 3.0),
                ("a device is learned", [learned(NEW, EEP)], 0.0), ("it gets a label", [listed(NEW, "Attic")], 0.0),
                ("one gets the label of another", [listed(LABELLED, "Label 1")], 0.0),
                ("a device is deleted", [learned("01800002", EEP, "deleted")], 0.0),
                ("one with a label is deleted", [learned("00000003", EEP, "deleted")], 0.0),
                ("another device comes", [reading(NEXT, EEP)], 0.0), ("a wait ends", [], LABEL_WAIT - 4.5)):
            self.fixture.write_lines(*lines)
            self.fixture.clock.now += seconds
            VisitedDict.visit_count = 0
            self.fixture.run_turns(1, 0.0)
            counts[what] = VisitedDict.visit_count
        self.assertEqual(len(bridge.devices.wait_ends), device_count - 1)
        return counts

    def test_the_same_devices_are_visited(self):
        self.assertEqual(self.visits(10), self.visits(10000))

    def test_a_loop_is_counted(self):
        bridge = self.start(10)
        for copy in (set, dict, sorted, lambda devices: devices.keys() - {NEW}, lambda devices: {**devices}):
            VisitedDict.visit_count = 0
            copy(bridge.devices.known_devices)
            self.assertEqual(VisitedDict.visit_count, 20)


if __name__ == "__main__":
    unittest.main()
