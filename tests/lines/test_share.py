"""The tables that the programs have in common, beside those of the oracle and of the guide."""
import pathlib
import re
import sys
import unittest

ROOT = pathlib.Path(__file__).parents[2]
sys.path.append(str(ROOT / "tests"))

from enogate_ctl.answers import PACKET_ERRORS  # noqa: E402
from enogate_tools import share  # noqa: E402
from oracle import reasons  # noqa: E402
from oracle.orders import MAX_VALUES, ORDERS  # noqa: E402
from oracle.profiles import SUPPORTED_PROFILES, eep_text  # noqa: E402

# The limits that pages state: the crate and the constant, and the text around the number in each page.
LIMIT_TEXTS = (
    ("learned_devices", "MAX_DEVICES", {"README.md": "| {:,} learned devices",
                                        "docs/guide/output.md": "while {:,} other"}),
    ("learned_devices", "MAX_LABEL", {"README.md": "labels of {} ASCII",
                                      "docs/guide/orders.md": "has 1 to {} printable"}),
    ("desk_orders", "MAX_LINE", {"docs/guide/orders.md": "A line may have {} bytes"}),
    ("json_lines", "MAX_PACKET_LINE", {"docs/guide/operation.md": "up to {} bytes",
                                       "contrib/enogate.default": "has up to {} bytes"}))


def table(page, heading):
    """The rows of the table of the guide with this head, each with its cells."""
    text = (ROOT / "docs" / "guide" / page).read_text().split(f"| {heading} |")[1].split("\n\n")[0]
    return [[cell.strip() for cell in row.strip("|").split(" | ")] for row in text.split("\n")[2:]]


def names(rows):
    """The names in the first cells of these rows."""
    return [row[0].strip("`") for row in rows]


class GuideTables(unittest.TestCase):
    def test_profiles(self):
        self.assertEqual(sorted(share.kinds_by_profile()), sorted(map(eep_text, SUPPORTED_PROFILES)))
        self.assertEqual(share.device_kind("A5-38-08"), "")

    def test_the_kinds_of_the_guide(self):
        profiles_by_kind, start = {}, ""
        for cell, kind, _ in table("output.md", "Profile | Device | Readings"):
            for first_profile, last_type in re.findall(r"`([0-9A-F-]+)`(?: to `-([0-9A-F]{2})`)?", cell):
                start = first_profile if len(first_profile) == 8 else start[:5] + first_profile
                for number in range(int(start[6:], 16), int(last_type or start[6:], 16) + 1):
                    profiles_by_kind.setdefault(kind, set()).add(share.device_kind(f"{start[:6]}{number:02X}"))
        self.assertEqual({kind: "; ".join(sorted(kinds_of_profile, key=kind.find))
                          for kind, kinds_of_profile in profiles_by_kind.items()},
                         {kind: kind for kind in profiles_by_kind})

    def test_usual_profiles(self):
        """The column "Supported" is right, and each kind of device is there."""
        kinds = {""}
        for device, cell, supported in table("radio.md", "Device | Usual profile | Supported"):
            for first, last in re.findall(r"(\w\w-\w\w-\w\w)(?: to \w\w-\w\w-(\w\w))?", cell):
                for number in range(int(first[6:], 16), int(last or first[6:], 16) + 1):
                    kinds.add(share.device_kind(f"{first[:6]}{number:02X}"))
                    self.assertEqual(bool(share.device_kind(f"{first[:6]}{number:02X}")), supported == "yes", device)
        self.assertEqual(kinds, {"", *share.kinds_by_profile().values()})

    def test_profiles_of_the_readme(self):
        """It lists each profile, and says how many there are."""
        row = re.search(r"^\| Devices \| (.*?) \[Which profile", (ROOT / "README.md").read_text(), re.MULTILINE)[1]
        profiles, kind = [], ""
        for new_kind, first, last in re.findall(r"(?:(\b\w\w-\w\w)|[ (])-(\w\w)\b(?: to -(\w\w))?", row):
            kind = new_kind or kind
            profiles += [f"{kind}-{number:02X}" for number in range(int(first, 16), int(last or first, 16) + 1)]
        self.assertEqual(sorted({*profiles}), sorted(share.kinds_by_profile()))
        self.assertEqual(re.search(r"one of (\d+) profiles", row)[1], str(len({*profiles})))

    def test_number_of_profiles_that_were_not_compared(self):
        """The README has the number of those that the guide names."""
        names = re.search(r"The rows of (.*) were not compared", (ROOT / "docs/guide/output.md").read_text())[1]
        kinds = tuple(re.findall(r"\w\w-\w\w(?:-\w\w)?", names))
        count = sum(profile.startswith(kinds) for profile in share.kinds_by_profile())
        self.assertIn(f"those of [{count} profiles]", " ".join((ROOT / "README.md").read_text().split()))

    def test_limits_of_pages(self):
        for crate, name, text_by_page in LIMIT_TEXTS:
            source = (ROOT / "crates" / crate / "src/limits.rt").read_text(encoding="utf-8")
            limit = int(re.search(rf"const {name}: usize = (\d+);", source)[1])
            for page, text in text_by_page.items():
                self.assertIn(text.format(limit), (ROOT / page).read_text(encoding="utf-8"), page)

    def test_forms_of_orders(self):
        forms = [form for order in share.order_forms().values() for form, _ in order]
        self.assertEqual(forms, [form for form, *_ in ORDERS if not re.search("[0-9]", form)])
        self.assertEqual({word for form in forms for word in form.split(" ") if word.isupper()},
                         share.parameter_meanings().keys())
        ranges = {row[0].strip("`"): row[-1] for row in table("orders.md", "Word | Meaning | Range")}
        self.assertEqual(ranges.keys(), share.parameter_meanings().keys())
        for name, greatest in MAX_VALUES.items():
            self.assertTrue(share.parameter_meanings()[name].endswith(f"0 to {greatest}"), name)
            self.assertEqual(re.match(r"0 to (\d+)", ranges[name])[1], str(greatest), name)

    def test_what_orders_do(self):
        """In a line of a terminal, next to the longest form."""
        forms = [form for order in share.order_forms().values() for form, _ in order]
        self.assertEqual(list(share.effects()), forms)
        self.assertEqual(len(set(share.effects().values())), len(forms))
        for text in share.effects().values():
            self.assertRegex(text, "^[a-z]+s [^.]{1,56}[^. ]$")

    def test_errors_of_orders(self):
        for row in table("orders.md", "Order | What it does | Answer | Possible errors"):
            forms = re.findall(r"`([^`]+)`", row[0])
            expected_errors = set(re.findall(r"`([a-z_]+)`", row[-1]))
            verb = forms[0].split(" ")[0]
            if verb == "list" or " ID" in forms[0]:
                expected_errors |= PACKET_ERRORS
            if verb == "status":
                expected_errors |= {"memory"}
            with self.subTest(forms[0]):
                errors_by_form = dict(share.order_forms()[verb])
                self.assertEqual(set().union(*(errors_by_form[form] for form in forms)), expected_errors)

    def test_words(self):
        self.assertEqual(list(share.texts_by_word("error")), names(table("output.md", "Error | When")))
        self.assertEqual(sorted(share.texts_by_word("result")), sorted(names(table("output.md", "Result | Meaning"))))
        self.assertEqual(sorted(share.texts_by_word("reason")), sorted(["refused", *reasons.COUNTER_BY_REASON]))
        self.assertEqual(list(share.texts_by_word("reason")),
                         names(table("devices.md", "`why` | Meaning | What to do")))
        self.assertEqual(list(share.texts_by_word("rorg")), ["F6", "D5", "A5", "D2", "D4"])
        for errors in share.order_forms().values():
            for _, words_of_error in errors:
                self.assertLessEqual(words_of_error, share.texts_by_word("error").keys())


if __name__ == "__main__":
    unittest.main()
