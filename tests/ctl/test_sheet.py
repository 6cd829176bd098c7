"""Devices as CSV."""
import unittest

from enogate_ctl import sheet
from enogate_ctl.sheet import DeviceRow, InvalidRow, Sheet, ascii_spelling, decoded
from enogate_lines.contents import Listed
from fakes import TimeLimitedTest

LABELS = ("Front door, \"A\" <b>", "=1+1", "'=1", "''+x", "-5C", "@home", "+", "'x", "", "a;b", "x" * 32)
SPELLINGS = (("Küche", "Kueche"), ("Tür Büro", "Tuer Buero"), ("Straße", "Strasse"), ("KÜCHE", "KUECHE"),
             ("Ä", "AE"), ("Entrée à côté", "Entree a cote"), ("Łódź", "odz"), ("Ku\u0308che", "Kueche"),
             ("Büro – Fenster", "Buero Fenster"), ("a\u00a0b\tc", "a b c"), ("日本", ""), (" é ", "e"),
             ("ü" * 40, "ue" * 16), ("x" * 31 + " ü", "x" * 31))


def listed_devices(*labels):
    return [Listed(f"01800A{number:02X}", "D5-00-01", label, 70) for number, label in enumerate(labels)]


class CsvRows(TimeLimitedTest):
    maxDiff = None

    def rows(self, text):
        return [(number, str(row) if isinstance(row, InvalidRow) else row) for number, row in Sheet(text).rows()]

    def test_export(self):
        self.assertEqual(sheet.devices_as_csv(listed_devices("Door, \"A\"", "=x", "")),
                         'id,eep,label\n01800A00,D5-00-01,"Door, ""A"""\n01800A01,D5-00-01,\'=x\n01800A02,D5-00-01,\n')
        self.assertEqual(sheet.devices_as_csv([]), "id,eep,label\n")

    def test_no_cell_begins_a_formula(self):
        for row in sheet.devices_as_csv(listed_devices(*LABELS)).splitlines():
            for cell in sheet.csv.reader([row]):
                self.assertNotIn(cell[-1][:1], tuple("=+-@"))

    def test_round_trip(self):
        devices = listed_devices(*LABELS)
        self.assertEqual([row for _, row in Sheet(sheet.devices_as_csv(devices)).rows()],
                         [DeviceRow(device.device, device.eep, device.label) for device in devices])

    def test_separators_headings_and_empty_rows(self):
        wanted = [(2, DeviceRow("01800ABC", "D5-00-01", "Door")), (4, DeviceRow("01800ABD", "D5-00-01", ""))]
        for separator in ",;\t":
            for start in ("", "\ufeff"):
                text = f"{start}ID,EEP, Label\r\n01800abc , d5-00-01,Door\r\n,,\r\n01800ABD,D5-00-01\r\n"
                self.assertEqual(self.rows(text.replace(",", separator)), wanted)
        self.assertEqual(self.rows("01800ABC,D5-00-01,Door"), [(1, wanted[0][1])])
        self.assertEqual(self.rows("id,eep,label,floor\n01800ABC,D5-00-01,Door,2\n"),
                         [(2, DeviceRow("01800ABC", "D5-00-01", "Door", "", ("2",)))])
        self.assertEqual(self.rows(""), [])

    def test_leading_zeros(self):
        for device, found in (("1800222", "01800222"), ("1", "00000001"), ("12345678", "12345678")):
            self.assertEqual(self.rows(f"{device},D5-00-01"), [(1, DeviceRow(found, "D5-00-01", ""))])
        self.assertEqual(self.rows("01800E12,D5-00-01"), [(1, DeviceRow("01800E12", "D5-00-01", ""))])

    def test_numbers_with_an_exponent(self):
        for device in ("1.80E+15", "1,80E+15", "1.8e15", "2E+10"):
            self.assertEqual(self.rows(f'"{device}",D5-00-01'), [(1, (
                f"id: a spreadsheet changed the ID to the number {device}: enter it again, in a column with the format "
                "Text"))])

    def test_rows_of_no_device(self):
        for text, reason in (
            ("x,D5-00-01", "id: 'x' is not the ID of a device: 8 hexadecimal digits"),
            (",D5-00-01", "id: '' is not the ID of a device: 8 hexadecimal digits"),
            ("ffffffff,D5-00-01", "id: 'ffffffff' is not the ID of a device: 8 hexadecimal digits"),
            ("01800ABC", "eep: '' is not a profile such as D5-00-01"),
            ("01800ABC,D5-00", "eep: 'D5-00' is not a profile such as D5-00-01"),
            ("01800ABC,D5-00-01-01", "eep: 'D5-00-01-01' is not a profile such as D5-00-01"),
        ):
            with self.subTest(text):
                self.assertEqual([row for _, row in self.rows(text)], [reason])

    def test_a_row_that_is_no_csv(self):
        sheet.csv.field_size_limit(200)
        self.addCleanup(sheet.csv.field_size_limit, sheet.csv.field_size_limit())
        self.addCleanup(sheet.csv.field_size_limit, 131072)
        rows = self.rows("x" * 300 + ",\n01800ABC,D5-00-01\n")
        self.assertEqual(rows, [(1, "not CSV: field larger than field limit (200)"),
                                (2, DeviceRow("01800ABC", "D5-00-01", ""))])

    def test_ids_and_profiles_as_planners_write_them(self):
        for device in ("01:80:0A:BC", "0x01800ABC", "01 80 0a bc", "01-80-0A-BC", "0X01.80.0A.BC", "01800ABC"):
            for eep in ("D50001", "d5-00-01", "EEP D5-00-01", "D5:00:01", "D5 00 01", "D5_00_01", "D5/00/01"):
                self.assertEqual(self.rows(f"{device},{eep}"), [(1, DeviceRow("01800ABC", "D5-00-01", ""))])

    def test_heads_in_any_sequence(self):
        """In English or German, with or without case, spaces and marks. Other columns are kept."""
        wanted = DeviceRow("01800ABC", "D5-00-01", "Door", "", ("2.14", ""))
        for heads in ("Room,Name,EEP,EnOcean-ID,Notes", "Raum,Bezeichnung,EEP-Profil,Geräte-ID,Bemerkung",
                      "room,Geraet,Equipment profile,CHIP_ID,remarks", "Raum,Name,Profil,Geraete-ID,x",
                      "Ort,Gerät,Profil,Sender ID,x"):
            with self.subTest(heads):
                found = Sheet(heads + "\n2.14,Door,D5-00-01,01800ABC\n")
                self.assertEqual(list(found.rows()), [(2, wanted)])
                self.assertEqual(found.other_heads, (heads.split(",")[0], heads.split(",")[4]))

    def test_a_column_without_a_label(self):
        self.assertEqual(self.rows("eep,id\nD5-00-01,01800ABC\n"), [(2, DeviceRow("01800ABC", "D5-00-01", ""))])

    def test_another_head_below(self):
        """Two sheets in one file."""
        self.assertEqual(self.rows("eep,id\nD5-00-01,01800ABC\nid,room,eep\n01800ABD,1,D5-00-01\n"),
                         [(2, DeviceRow("01800ABC", "D5-00-01", "")),
                          (4, DeviceRow("01800ABD", "D5-00-01", "", "", ("1",)))])

    def test_a_head_that_lacks_a_column(self):
        """No row is taken: its values would be taken for others."""
        for heads, what in (("Kennung,Profil,Name", "IDs: its head can be one of id, deviceid, enoceanid, senderid"),
                            ("ID,Typ,Name", "profiles: its head can be one of eep, profile, equipmentprofile"),
                            (",,\nName", "IDs: its head can be one of id")):
            with self.subTest(heads):
                (number, why), = self.rows(heads + "\n01800ABC,D5-00-01,Door\n")
                self.assertEqual(number, heads.count("\n") + 1)
                self.assertTrue(str(why).startswith(f"no column has the {what}"), why)

    def test_two_columns_for_one_value(self):
        """The first one counts."""
        self.assertEqual(self.rows("Gerät,Name,ID,EEP\nDoor,x,01800ABC,D5-00-01\n"),
                         [(2, DeviceRow("01800ABC", "D5-00-01", "Door", "", ("x",)))])

    def test_a_later_row_with_the_name_of_a_column(self):
        """It is no head, even if it has no ID."""
        self.assertEqual(self.rows("id,eep,label\nx,D5-00-01,Name\n01800ABC,D5-00-01,Profil\n"), [
            (2, "id: 'x' is not the ID of a device: 8 hexadecimal digits"),
            (3, DeviceRow("01800ABC", "D5-00-01", "Profil"))])

    def test_a_first_row_that_is_a_device(self):
        """Also if its label is the name of a column."""
        self.assertEqual(self.rows("01800ABC,D5-00-01,Name"), [(1, DeviceRow("01800ABC", "D5-00-01", "Name"))])

    def test_a_line_that_names_the_separator(self):
        self.assertEqual(self.rows("sep=;\r\neep;id\r\nD5-00-01;01800ABC\r\n"),
                         [(3, DeviceRow("01800ABC", "D5-00-01", ""))])
        self.assertEqual(self.rows("sep=;\n01800ABC;D5-00-01;a,b\n"), [(2, DeviceRow("01800ABC", "D5-00-01", "a,b"))])

    def test_encodings(self):
        """As spreadsheets write them. German letters have other bytes in each."""
        text = "Geräte-ID;EEP\n"
        for data in (text.encode(), text.encode("utf-8-sig"), text.encode("cp1252"), text.encode("utf-16")):
            self.assertEqual(Sheet(decoded(data)).text, text)
        self.assertEqual(decoded(b"\x81"), "\ufffd")

    def test_numbers_of_rows(self):
        """As a spreadsheet counts them: a cell with two lines is in one row."""
        self.assertEqual(self.rows('id,eep,note\n\n01800ABC,D5-00-01,"a\nb"\nx,D5-00-01\n'), [
            (3, DeviceRow("01800ABC", "D5-00-01", "", "", ("a\nb",))),
            (4, "id: 'x' is not the ID of a device: 8 hexadecimal digits")])

    def test_labels_that_the_gateway_cannot_store(self):
        for label, possible in (("Küche", "Kueche"), ("x" * 33, "x" * 32), ("a\nlist", "a list"), ("日本", "")):
            hint = f"; possible is {possible!r}" if possible else ""
            self.assertEqual(self.rows(f'01800ABC,D5-00-01,"{label}"'), [(1, DeviceRow(
                "01800ABC", "D5-00-01", "", f"label: {label!r} is not 1 to 32 ASCII characters{hint}"))])

    def test_spellings(self):
        """The page has the same: tests/page/label.test.mjs."""
        for text, wanted in SPELLINGS:
            self.assertEqual(ascii_spelling(text), wanted)

    def test_other_columns_in_an_export(self):
        others = {"01800A00": ("2.14", "=x"), "01800AFF": ("1", "")}
        self.assertEqual(sheet.devices_as_csv(listed_devices("Door", ""), ("Room", "Notes"), others),
                         "id,eep,label,Room,Notes\n01800A00,D5-00-01,Door,2.14,'=x\n01800A01,D5-00-01,,,\n")


if __name__ == "__main__":
    unittest.main()
