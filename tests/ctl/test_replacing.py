"""Which steps are missing until a device is replaced."""
from __future__ import annotations

import unittest

from enogate_ctl.command_line import ReplaceDevice
from enogate_ctl.grammar import InvalidOrder
from enogate_ctl.replacing import missing_steps
from enogate_lines.contents import Listed
from fakes import GatewayFilesTest, device, end_of_list, teach

OLD, NEW, OTHER = "01800ABD", "01800AF0", "01800ABC"
ADD, LABEL, REMOVE = f"add {NEW} D2-01-12", f"label {NEW} Lamp left", f"remove {OLD}"
NOT_LEARNED = f"{OLD} is not learned: check the ID with `list`"


def listed(name: str, label: str = "", eep: str = "D2-01-12") -> Listed:
    return Listed(name, eep, label, 70)


class ReplacedDevices(GatewayFilesTest):
    def steps(self, *devices: Listed, old: str = OLD, eep: str = "") -> list[str]:
        """The missing orders, if these devices are learned."""
        command = ReplaceDevice(self.paths, 10.0, old, NEW, eep)
        return [order for order, _ in missing_steps(command, devices)]

    def assert_refused(self, text: str, *devices: Listed, old: str = OLD, eep: str = "") -> None:
        with self.assertRaises(InvalidOrder) as raised:
            self.steps(*devices, old=old, eep=eep)
        self.assertIn(text, str(raised.exception))

    def test_all_steps(self):
        """The new device is learned and labelled before the old one is removed."""
        others = listed(OTHER, "Lamp left, too", "D5-00-01"), listed("01800AFF")
        for old in (OLD, "Lamp left"):
            self.assertEqual(self.steps(*others, listed(OLD, "Lamp left"), old=old), [ADD, LABEL, REMOVE])
        self.assertEqual(self.steps(*others, listed(OLD)), [ADD, REMOVE])
        self.assertEqual(self.steps(listed(OLD, "Lamp left"), eep="D2-01-0F"),
                         [f"add {NEW} D2-01-0F", LABEL, REMOVE])
        command = ReplaceDevice(self.paths, 10.0, OLD, NEW)
        self.assertEqual([text for _, text in missing_steps(command, [listed(OLD, "Lamp left")])],
                         [f"{NEW}: learned", f"{NEW}: labelled", f"{OLD}: removed"])

    def test_after_each_step(self):
        """The same command finishes what was interrupted. The old device is named by its ID or its label."""
        old = listed(OLD, "Lamp left")
        for name in (OLD, "Lamp left"):
            self.assertEqual(self.steps(old, listed(NEW), old=name), [LABEL, REMOVE])
            self.assertEqual(self.steps(old, listed(NEW, "Lamp left"), old=name), [REMOVE])
            self.assertEqual(self.steps(old, listed(NEW, "Lamp left", "D2-01-0F"), old=name, eep="D2-01-0F"), [REMOVE])
        self.assertEqual(self.steps(listed(OLD), listed(NEW)), [REMOVE])

    def test_a_new_device_that_is_another_one(self):
        """It keeps its profile and its label, and the old device is not removed."""
        for old, new, eep in (
            (listed(OLD, "Lamp left"), listed(NEW, "Gate"), ""), (listed(OLD), listed(NEW, "Gate"), ""),
            (listed(OLD, "Lamp left"), listed(NEW, "", "D2-01-0F"), ""),
            (listed(OLD, "Lamp left"), listed(NEW, "Lamp left", "D2-01-0F"), ""),
            (listed(OLD, "Lamp left"), listed(NEW), "D2-01-0F"),
        ):
            self.assert_refused(f"{NEW} is learned already, with the profile {new.eep} and the label {new.label!r}: "
                                f"correct NEW, or give this profile as EEP and remove the label with `label {NEW}`",
                                old, new, eep=eep)

    def test_a_device_that_is_not_learned(self):
        self.assert_refused(NOT_LEARNED)
        self.assert_refused(NOT_LEARNED, listed(NEW, "Lamp left"), listed(OTHER, OLD))
        self.assert_refused("'Lamp' is neither an ID (8 hexadecimal digits) nor the label of a device: did you mean "
                            "`Lamps`?", listed(OTHER, "Lamps"), old="Lamp")
        self.assert_refused(f"'Lamp' is the label of {NEW}: give the ID of the device to replace",
                            listed(NEW, "Lamp"), old="Lamp")
        self.assert_refused(f"several devices have the label 'Lamp': give the ID, {OTHER} or {OLD}",
                            listed(OTHER, "Lamp"), listed(OLD, "Lamp"), listed(NEW, "Lamp"), old="Lamp")

    def test_a_device_that_was_replaced_already(self):
        """The last list that had it says so, also if it was named by its label."""
        self.write(device(OLD, "Gate", "D2-01-12"), end_of_list(1), device(OLD, "Lamp left", "D2-01-12"),
                   device(OTHER, "Gate"), end_of_list(2), teach(OLD, "D2-01-12", result="deleted"),
                   device(NEW, "Lamp left", "D2-01-12"), end_of_list(1))
        new = listed(NEW, "Lamp left")
        for name in (OLD, "Lamp left"):
            self.assertEqual(self.steps(new, listed(OTHER, "Gate"), old=name), [])
            self.assertEqual(self.steps(new, old=name, eep="D2-01-12"), [])
            self.assertEqual(self.steps(new._replace(eep="D2-01-0F"), old=name, eep="D2-01-0F"), [])
        for other in (listed(NEW), listed(NEW, "Gate"), new._replace(eep="D2-01-0F")):
            self.assert_refused(NOT_LEARNED, other)
        self.assert_refused(NOT_LEARNED, new, eep="D2-01-0F")
        self.assert_refused(NOT_LEARNED)
        # The old device is learned, with another label.
        self.assert_refused("is the label of", new, listed(OLD, "Cellar"), old="Lamp left")

    def test_a_replacement_that_is_not_certain(self):
        self.write(device(OLD, "", "D2-01-12"), end_of_list(1), teach(OLD, "D2-01-12", result="deleted"))
        self.assert_refused(NOT_LEARNED, listed(NEW))
        self.write(device(NEW, "Lamp", "D2-01-12"), end_of_list(1))
        self.assert_refused("is the label of", listed(NEW, "Lamp"), old="Lamp")


if __name__ == "__main__":
    unittest.main()
