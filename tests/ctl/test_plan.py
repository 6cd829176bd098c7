"""The devices of a gateway beside the sheet of a planner."""
import unittest

from enogate_ctl.plan import compare, export_with_plan
from enogate_ctl.sheet import Sheet
from enogate_lines.contents import Listed
from fakes import TimeLimitedTest

PLAN = ("Raum;Bezeichnung;ID;Profil;Notiz\n2.14;Window;01800ABC;D5-00-01;=left\n2.15;Lamp;01:80:0A:BD;D20112;\n"
        "2.16;Door;01800ABE;D5-00-01;\n2.17;Sensor;01800ABF;A5-02-05;on the wall\n"
        "2.18;Panel;01800AC5;A5-38-08;\n")
WINDOW, LAMP = Listed("01800ABC", "D5-00-01", "Window left", 70), Listed("01800ABD", "D2-01-12", "", None)
DOOR, OTHER = Listed("01800ABE", "F6-02-01", "Door", None), Listed("01800AC0", "D5-00-01", "Gate", None)


class Plan(TimeLimitedTest):
    maxDiff = None

    def test_every_state(self):
        found = compare(Sheet(PLAN), [WINDOW, LAMP, DOOR, OTHER], {"01800ABC", "01800ABE", "01800AC0", "01800AFF"})
        self.assertEqual(found.text.splitlines(), [
            "ROW  LABEL        ID        PROFILE   STATE                  RAUM  NOTIZ",
            "2    Window left  01800ABC  D5-00-01  heard                  2.14  =left",
            "3                 01800ABD  D2-01-12  learned, not heard     2.15",
            "4    Door         01800ABE  D5-00-01  learned as F6-02-01    2.16",
            "5    Sensor       01800ABF  A5-02-05  missing                2.17  on the wall",
            "6    Panel        01800AC5  A5-38-08  profile not supported  2.18",
            "     Gate         01800AC0  D5-00-01  not planned",
            "5 planned, 3 learned, 1 heard, 2 missing; 1 learned, but not planned"])
        self.assertFalse(found.is_complete)

    def test_what_is_complete(self):
        """All planned devices and no others are learned as planned, and were heard."""
        plan = "id,eep\n01800ABC,D5-00-01\n01800ABD,D2-01-12\n"
        both = {"01800ABC", "01800ABD"}
        for rows, learned, heard, is_complete in (
            (plan, [WINDOW, LAMP], both, True), (plan, [WINDOW], both, False),
            (plan, [WINDOW, LAMP], {"01800ABC"}, False),
            (plan, [WINDOW, LAMP, OTHER], both, False), (plan + "x,D5-00-01\n", [WINDOW, LAMP], both, False),
            ("id,eep\n", [], both, False), ("", [], both, False),
        ):
            with self.subTest(rows=rows, learned=learned, heard=heard):
                self.assertEqual(compare(Sheet(rows), learned, heard).is_complete, is_complete)

    def test_rows_of_no_device_and_devices_that_are_planned_twice(self):
        plan = ("id,eep,label\nx,D5-00-01,\n01800ABC,D5-00-01,Window\n01800abc,F6-02-01,Again\n"
                "01800ABC,D5-00-01,Window\n")
        self.assertEqual(compare(Sheet(plan), [], set()).text.splitlines(), [
            "ROW  LABEL   ID        PROFILE   STATE", "3    Window  01800ABC  D5-00-01  missing",
            "row 2: id: 'x' is not the ID of a device: 8 hexadecimal digits",
            "row 4: id: 01800ABC is in row 3 already, with other values",
            "1 planned, 0 learned, 0 heard, 1 missing"])

    def test_nothing_planned(self):
        self.assertEqual(compare(Sheet(""), [], set()).text, "0 planned, 0 learned, 0 heard, 0 missing")

    def test_no_control_character_is_printed(self):
        plan = 'i\x1bd,eep,label,no\x1bte\n01800ABC,D5-00-01,,"a\x1b[31mb\nc"\n\x1bx,D5-00-01,,\n'
        text = compare(Sheet(plan), [], set()).text
        self.assertEqual({character for character in text if not character.isprintable()}, {"\n"})
        self.assertEqual(len(text.splitlines()), 4)

    def test_the_export_keeps_the_other_columns(self):
        """The label and the profile are those of the gateway. Planned devices that are not learned are left out."""
        self.assertEqual(export_with_plan([WINDOW, OTHER], Sheet(PLAN)),
                         "id,eep,label,Raum,Notiz\n01800ABC,D5-00-01,Window left,2.14,'=left\n"
                         "01800AC0,D5-00-01,Gate,,\n")
        self.assertEqual(export_with_plan([WINDOW], Sheet("")), "id,eep,label\n01800ABC,D5-00-01,Window left\n")

    def test_an_export_is_a_plan(self):
        """An import of it changes nothing but what was changed in the spreadsheet."""
        once = export_with_plan([WINDOW], Sheet(PLAN))
        self.assertEqual(export_with_plan([WINDOW], Sheet(once)).replace("''", "'"), once)


if __name__ == "__main__":
    unittest.main()
