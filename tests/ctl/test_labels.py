"""Labels in place of IDs."""
import contextlib
import io
import unittest
from unittest import mock

from enogate_ctl import main as program
from enogate_ctl.client import PAUSE, Client, NoAnswer
from enogate_ctl.command_line import parsed
from enogate_ctl.grammar import FORMS_BY_VERB, VERBS_WITH_ID, InvalidOrder, check_order, order_and_label, order_with_id
from enogate_ctl.labels import are_labels_current, id_of_label, listed_devices
from enogate_lines.contents import Listed
from fakes import OK, GatewayFilesTest, TimeLimitedTest, device, end_of_list, error, status, teach

# Labels that would change an order if a part of them got into it.
HOSTILE_LABELS = ("0 on", "01800ABD 0", "01800ABD 0 on", "ID", "ID 0 on", "on", "list", "; remove 01800ABD",
                  "$(remove)", "a`b`", "'", '"', "\\n", "%s {0}", "--", "~")


class LabelArguments(TimeLimitedTest):
    """Which argument is a label."""

    def test_the_orders_with_an_id(self):
        self.assertEqual(VERBS_WITH_ID, {"add", "remove", "label", "switch", "dim", "query", "meter", "blind", "stop"})

    def test_an_id(self):
        """In either case; in one argument with the rest of the order, too."""
        for words in (["switch", "01800ABC", "0", "on"], ["switch 01800abc 0 on"], ["stop", "01800abc"], ["list"],
                      ["label", "01800ABC", "Front", "door"], ["label 01800ABC Front door"], ["central", "5", "on"],
                      ["learn", "as", "A5-02-05"], ["label", "01800ABC", "01800ABD"]):
            self.assertEqual(order_and_label(words), (" ".join(words), ""), words)

    def test_a_label(self):
        for words, wanted in (
            (["switch", "Lamp", "0", "on"], ("switch ID 0 on", "Lamp")),
            (["stop", "Living room, left"], ("stop ID", "Living room, left")),
            (["label", "Lamp", "Front", "door"], ("label ID Front door", "Lamp")),
            (["label", "Lamp"], ("label ID", "Lamp")), (["label", "Lamp", "a  b"], ("label ID a  b", "Lamp")),
            (["add", "Lamp", "D2-01-12"], ("add ID D2-01-12", "Lamp")),
            (["remove", "1800ABC"], ("remove ID", "1800ABC")),
            (["query", "01800ABCD", "0"], ("query ID 0", "01800ABCD")),
        ):
            self.assertEqual(order_and_label(words), wanted)

    def test_no_part_of_an_argument_is_taken_for_an_id(self):
        """These would be orders if their arguments were joined."""
        self.assertEqual(order_and_label(["label", "01800ABC Lamp", "x"]), ("label ID x", "01800ABC Lamp"))
        self.assertEqual(order_and_label(["label", "01800ABC Lamp"]), ("label ID", "01800ABC Lamp"))
        for words in (["switch", "01800ABC 0", "on"], ["switch", "01800ABC 0 on"], ["blind", "01800ABC 50"],
                      ["add", "01800ABC D5-00-01"], ["stop", ""], ["remove", "01800ABC "]):
            self.assertRaises(InvalidOrder, order_and_label, words)

    def test_no_order(self):
        for words in (["switch", "Lamp", "on"], ["switch", "Lamp", "0", "up"], ["switch"], ["stop", "Lamp", "0"],
                      ["stop", " Lamp"], ["stop", "ö"], ["stop", "a\nlist"], ["stop", "x" * 33], ["list", "Lamp"],
                      ["central", "Lamp", "on"], ["learn", "Lamp"], ["label", "Lamp", "ö"], ["stop", "\x1b[2J"]):
            self.assertRaises(InvalidOrder, order_and_label, words)

    def test_what_may_be_meant(self):
        """A label of several words, or an order without its channel. A shell takes it as it is shown."""
        for words, wanted in (
            (["switch", "Bath", "lamp", "0", "on"], "switch 'Bath lamp' 0 on"),
            (["blind", "Kitchen", "blind", "left", "50"], "blind 'Kitchen blind left' 50"),
            (["stop", "Kitchen", "blind"], "stop 'Kitchen blind'"), (["switch", "Lamp", "on"], "switch Lamp 0 on"),
            (["query", "Bath lamp"], "query 'Bath lamp' 0"), (["switch", "$(reboot)", "x", "0", "on"],
                                                              "switch '$(reboot) x' 0 on"),
        ):
            with self.assertRaises(InvalidOrder) as found:
                order_and_label(words)
            self.assertEqual(str(found.exception), f"{' '.join(words)!r} is not an order: did you mean `{wanted}`?")
        for words in (["switch", "Lamp", "up"], ["stop", "ö"], ["switch"], ["dim", "Lamp", "0", "50", "x"]):
            with self.assertRaisesRegex(InvalidOrder, "the form is"):
                order_and_label(words)

    def test_an_order_with_a_label_is_no_order_yet(self):
        """A gateway would refuse it."""
        for label in ("Lamp", *HOSTILE_LABELS):
            order, found = order_and_label(["switch", label, "0", "on"])
            self.assertEqual((order, found), ("switch ID 0 on", label))
            self.assertRaises(InvalidOrder, check_order, order)

    def test_the_id_of_the_device(self):
        self.assertEqual(order_with_id("switch ID 0 on", "01800ABC"), "switch 01800ABC 0 on")
        self.assertEqual(order_with_id("label ID ID  ID", "01800ABC"), "label 01800ABC ID  ID")
        for name in ("01800ABC 1 off\nlist", "ID", "", "01800ABC 0"):
            self.assertRaises(InvalidOrder, order_with_id, "switch ID 0 on", name)

    def test_command_lines(self):
        found = parsed(["hall", "switch", "Front door", "--timeout", "3", "0", "on"])
        self.assertEqual((found.order, found.label, found.timeout), ("switch ID 0 on", "Front door", 3.0))
        found = parsed(["hall", "switch", "--", "-5 C", "0", "on"])
        self.assertEqual((found.order, found.label), ("switch ID 0 on", "-5 C"))
        self.assertEqual(parsed(["hall", "list"]).label, "")


class LabelLookups(TimeLimitedTest):
    """The device with a label."""

    LISTED = [Listed(f"01800AB{number}", "D2-01-12", label, None) for number, label in enumerate(
        ("Lamp", "Lamp 2", "", "Door", "Door", "", "lamp", *HOSTILE_LABELS))]

    def test_one_device(self):
        for label in ("Lamp", "Lamp 2", "lamp", *HOSTILE_LABELS):
            device = id_of_label(label, self.LISTED)
            self.assertEqual([one.label for one in self.LISTED if one.device == device], [label])

    def test_several_or_none(self):
        for label, text in (
            ("Door", "several devices have the label 'Door': give the ID, 01800AB3 or 01800AB4"),
            ("Lmp", "'Lmp' is neither an ID (8 hexadecimal digits) nor the label of a device: did you mean `Lamp`?"),
            ("LAMP", "'LAMP' is neither an ID (8 hexadecimal digits) nor the label of a device"),
            ("", "several devices have the label '': give the ID, 01800AB2 or 01800AB5"),
        ):
            with self.assertRaises(InvalidOrder) as found:
                id_of_label(label, self.LISTED)
            self.assertEqual(str(found.exception), text)
        self.assertRaises(InvalidOrder, id_of_label, "Lamp", [])


class RecordedLabels(GatewayFilesTest):
    """Whether the labels are those of the lines."""

    def test_a_list_after_the_last_label(self):
        for desk, wanted in (
            (b"", False), (b"list\n", True), (b"status\nlist\nstatus\r\n", True), (b"list\r\n", True),
            (b"list\nlabel 01800ABC x\n", False), (b"list\nlabel 01800ABC\n", False),
            (b"label 01800ABC x\nlist\n", True), (b"list\nlabel 01800ABC x\nlist\n", True), (b"list\nlabel", True),
            (b"list", False), (b"listing\n", False), (b"xlist\n", False), (b"label 01800ABC list\n", False),
            (b"list\nadd 01800ABC D5-00-01\nstatus\n", True), (b"label 01800ABC x\n list\n", False),
            (b"list\nxlabel 01800ABC x\n", True),
        ):
            self.assertEqual(are_labels_current(desk), wanted, desk)

    def devices(self):
        return listed_devices(Client(self.paths, 1.0, self.clock, self.clock.sleep, lambda: 1))

    def test_the_devices(self):
        self.write(device("01800ABC", "Lamp"), end_of_list(1), teach("01800ABC", result="deleted"), teach("01800ABD"))
        self.assertIsNone(self.devices())
        self.desk.write_text("list\n")
        self.assertEqual(self.devices(), [Listed("01800ABD", "D5-00-01", "", None)])
        self.desk.write_text("list\nlabel 01800ABD Lamp\n")
        self.assertIsNone(self.devices())

    def test_no_list_in_the_lines(self):
        """It was rotated away, or is not answered yet."""
        self.desk.write_text("list\n")
        self.assertIsNone(self.devices())

    def test_a_desk_that_may_not_be_read(self):
        self.desk.unlink()
        self.assertRaises(NoAnswer, self.devices)


class OrdersWithLabels(GatewayFilesTest):
    """The program, at a gateway that answers after a pause."""

    def give(self, *words):
        """The status, the output and the errors."""
        out, err = io.StringIO(), io.StringIO()

        def made(paths, timeout):
            return Client(paths, timeout, self.clock, self.clock.sleep, lambda: 1)
        with contextlib.redirect_stdout(out), contextlib.redirect_stderr(err), \
                mock.patch.object(program, "Client", made), mock.patch.object(program.StopSignals, "install"):
            result = program.main(["--desk", str(self.desk), "--lines", str(self.lines), "hall", *words])
        return result, out.getvalue(), err.getvalue()

    def at(self, pause, *lines):
        self.clock.acts[pause] = lambda: self.write(*lines)

    def orders(self):
        """The orders on the desk, without `status`."""
        return [order for order in self.desk.read_text().splitlines() if order != "status"]

    def test_the_first_order_asks_for_a_list(self):
        self.at(1, status(), status(), device("01800ABC", "Lamp"), end_of_list(1), status())
        self.at(2, status(), status(), OK, status())
        self.assertEqual(self.give("switch", "Lamp", "0", "on"), (0, "ok\n", ""))
        self.assertEqual(self.orders(), ["list", "switch 01800ABC 0 on"])
        self.at(3, status(), status(), OK, status())
        self.assertEqual(self.give("stop", "Lamp"), (0, "ok\n", ""))
        self.assertEqual(self.orders(), ["list", "switch 01800ABC 0 on", "stop 01800ABC"])
        self.assertEqual(self.clock.slept, [PAUSE] * 3)

    def test_a_label_that_was_moved(self):
        """The lines still have the old one."""
        self.write(device("01800ABC", "Lamp"), end_of_list(1))
        self.desk.write_text("list\nlabel 01800ABC\nlabel 01800ABD Lamp\n")
        self.at(1, status(), status(), device("01800ABC"), device("01800ABD", "Lamp"), end_of_list(2), status())
        self.at(2, status(), status(), OK, status())
        self.assertEqual(self.give("switch", "Lamp", "0", "on"), (0, "ok\n", ""))
        self.assertEqual(self.orders()[-1], "switch 01800ABD 0 on")

    def test_hostile_labels(self):
        for label in HOSTILE_LABELS:
            with self.subTest(label):
                self.clock.slept.clear()
                self.write(device("01800ABC", label), device("01800ABD", "Other"), end_of_list(2))
                self.desk.write_text("list\n")
                self.at(1, status(), status(), OK, status())
                words = ["--", "switch", label, "0", "on"]
                self.assertEqual(self.give(*words), (0, "ok\n", ""))
                self.assertEqual(self.orders(), ["list", "switch 01800ABC 0 on"])

    def test_each_order_takes_a_label(self):
        """In the form that it has with an ID."""
        values = {"EEP": "D5-00-01", "TEXT": "New name", "CH": "1", "VAL": "50"}
        self.write(device("01800ABC", "Old name"), end_of_list(1))
        for verb in VERBS_WITH_ID:
            for form, _ in FORMS_BY_VERB[verb]:
                rest = [values.get(word, word) for word in form.split(" ")[2:]]
                result = {"add": teach("01800ABC"), "remove": teach("01800ABC", result="deleted")}.get(verb, OK)
                self.clock.slept.clear()
                self.desk.write_text("list\n")
                self.write(device("01800ABC", "Old name"), end_of_list(1))
                self.at(1, status(), status(), result, status())
                with self.subTest(form):
                    self.assertEqual(self.give(verb, "Old name", *rest)[::2], (0, ""))
                    self.assertEqual(self.orders()[1:], [" ".join((verb, "01800ABC", *rest))])

    def test_a_label_that_no_device_has(self):
        """Nothing is given. The status is that of a wrong command line."""
        self.write(device("01800ABC", "Lamp"), device("01800ABD", "Lamp"), end_of_list(2))
        self.desk.write_text("list\n")
        for label, text in (("Lamp", "several devices have the label 'Lamp': give the ID, 01800ABC or 01800ABD"),
                            ("1800ABC", "'1800ABC' is neither an ID (8 hexadecimal digits) nor the label of a device")):
            self.assertEqual(self.give("switch", label, "0", "on"), (2, "", f"enogatectl: {text}\n"))
        self.assertEqual((self.orders(), self.clock.slept), (["list"], []))

    def test_a_list_that_fails(self):
        self.at(1, status(), status(), error("store"), status())
        result, out, err = self.give("switch", "Lamp", "0", "on")
        self.assertEqual((result, out, err[:18]), (1, "", "enogatectl: store:"))
        self.assertEqual(self.orders(), ["list"])

    def test_the_report_of_the_device(self):
        self.write(device("01800ABC", "Lamp", "D2-01-12"), end_of_list(1))
        self.desk.write_text("list\n")
        self.at(1, status(), status(), OK, status())
        self.assertEqual(self.give("--wait", "1", "switch", "Lamp", "0", "on"), (
            4, "", "enogatectl: sent, but 01800ABC reported nothing within 1 s: has it learned this gateway?\n"))


if __name__ == "__main__":
    unittest.main()
