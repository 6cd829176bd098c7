"""The commands of the control socket."""
import random
import re
import unittest

from building_testcase import DEVICE, BuildingTest
from enogate_building import control
from enogate_building.control import COMMAND_FORMS

SWITCH, CONTACT, ACTUATOR = DEVICE, 0x01800ABD, 0x01800ABE


class ControlTest(BuildingTest):
    def setUp(self):
        self.build((SWITCH, "F6-02-01"), (CONTACT, "D5-00-01"), (ACTUATOR, "D2-01-12"), sticks=2)

    def answer(self, line):
        """The answer to a line."""
        answer_bytes = control.answer(self.building, line if isinstance(line, bytes) else line.encode())
        self.assertTrue(answer_bytes.endswith(b"\n") and answer_bytes.count(b"\n") == 1, answer_bytes)
        return answer_bytes.decode()[:-1]

    def assert_sent(self, line, *telegrams):
        self.assertEqual(self.answer(line), "ok", line)
        self.assertEqual(self.wire.telegrams(), list(telegrams), line)

    def test_presses(self):
        self.assert_sent("press 01800ABC A0", "F6 30 01800ABC 30 FFFFFFFF")
        self.assert_sent("press 01800ABC bi", "F6 50 01800ABC 30 FFFFFFFF")
        self.assert_sent("press 01800abc", "F6 10 01800ABC 30 FFFFFFFF")
        self.building.advance(1)
        self.assertEqual(self.wire.telegrams(), ["F6 00 01800ABC 20 FFFFFFFF"] * 3)

    def test_contacts(self):
        self.assert_sent("open 01800ABD", "D5 08 01800ABD 00 FFFFFFFF")
        self.assert_sent("send 01800ABD", "D5 08 01800ABD 00 FFFFFFFF")
        self.assert_sent("close 01800ABD", "D5 09 01800ABD 00 FFFFFFFF")

    def test_learn_buttons(self):
        self.assert_sent("learn 01800ABD", "D5 00 01800ABD 00 FFFFFFFF")
        self.assert_sent("learn 01800ABE", "D4 8002FF071201D2 01800ABE 00 FFFFFFFF")

    def test_dead_devices(self):
        self.assert_sent("dead 01800ABD")
        self.assert_sent("open 01800ABD")
        for line in ("send 01800ABD", "learn 01800ABD"):
            self.assertEqual(self.answer(line), "error: this device is dead")
        self.assert_sent("alive 01800ABD")
        self.assert_sent("send 01800ABD", "D5 08 01800ABD 00 FFFFFFFF")

    def test_noise(self):
        self.assertEqual(self.answer("noise"), "ok")
        self.assertEqual([len(wire.received_bytes) for wire in self.wires], [100, 100])
        self.assertNotEqual(self.wires[0].received_bytes, self.wires[1].received_bytes)

    def test_sticks(self):
        self.assertEqual(self.answer("unplug stick0"), "ok")
        self.assert_sent("open 01800ABD")
        self.assertEqual(self.answer("unplug stick0"), "error: the stick stick0 is not plugged in")
        self.assertEqual(self.answer("plug stick0"), "ok")
        self.assert_sent("open 01800ABD", "D5 08 01800ABD 00 FFFFFFFF")
        self.assertEqual(self.answer("plug stick0"), "error: the stick stick0 is already plugged in")
        self.assertTrue(self.answer("unplug hall").endswith("; the sticks are stick0 stick1"))

    def state(self):
        """Everything that a command could change."""
        devices = [(device.is_dead, device.is_closed, getattr(device, "owners", None), getattr(device, "values", None),
                    getattr(device, "learns_until", None)) for device in self.building.devices.values()]
        sticks = [(stick.is_plugged_in, stick.unparsed_bytes) for stick in self.building.sticks.values()]
        return repr((devices, sticks, self.building.due_calls, self.building.rng.getstate(), self.building.now,
                     [wire.received_bytes for wire in self.wires]))

    def test_what_is_no_command_changes_nothing(self):
        state_before = self.state()
        lines = ["", " ", "press", "press 01800ABC XX", "press 01800ABC CI", "press 01800ABC A0 A0", "press  01800ABC",
                 "press 01800ABC ", " noise", "noise ", "noise stick0", "NOISE", "open", "open 01800ABC",
                 "open 01800ABD now", "close 01800ABE", "press 01800ABD", "press 01800ABE AI", "send", "send 01800ABF",
                 "send FFFFFFFF", "send 1800ABC", "send 01800ABCD", "send 0x800ABC", "send +1800ABC",
                 "send 01800AB\u0660",
                 "learn stick0", "dead", "dead 01800ABC 01800ABD", "alive x", "unplug", "unplug hall", "plug stick1",
                 "unplug stick0 stick1", "quit", "help", "press 01800ABC A0\r", "noise\0", "unplug stick0\n",
                 b"\xff\xfe", b"noise\xff", "x" * 5000]
        for line in lines:
            self.assertTrue(self.answer(line).startswith("error: "), line)
            self.assertEqual(self.state(), state_before, line)

    def test_random_lines(self):
        rng, state_before = random.Random(7), self.state()
        words = re.findall("[a-zA-Z]+", " ".join(COMMAND_FORMS)) + ["01800ABC", "01800ABD", "AI", "stick0", "", "\t",
                                                                    "0", "-"]
        for _ in range(3000):
            line = " ".join(rng.choices(words, k=rng.randrange(1, 5)))
            if self.answer(line) == "ok":
                self.setUp()
                state_before = self.state()
            self.assertEqual(self.state(), state_before, line)

    def test_each_form_is_a_command(self):
        for form in COMMAND_FORMS:
            line = form.replace("[BUTTON]", "AI").replace("STICK", "stick0")
            device = {"open": "01800ABD", "close": "01800ABD"}.get(form.split()[0], "01800ABC")
            self.assertEqual(self.answer(line.replace("ID", device)), "ok", form)
        self.assertIn("; ".join(COMMAND_FORMS), self.answer("help"))
        self.assertEqual(control.OK_ANSWER, "ok")


if __name__ == "__main__":
    unittest.main()
