"""Sheets of devices as CSV (comma-separated values): the export of a gateway, with ID, EEP and label of each device; or
the sheet of a planner, whose head names these columns in any sequence, and which may have others."""
from __future__ import annotations

import codecs
import csv
import io
import itertools
import re
import unicodedata
from collections.abc import Iterable, Iterator, Sequence
from typing import NamedTuple

from enogate_lines.contents import Listed
from enogate_tools import share

from .grammar import EEP_PATTERN, ID_PATTERN, PATTERNS

HEADING = ["id", "eep", "label"]
# A spreadsheet takes a text that begins like this for a formula. The apostrophe before it says that it is a text.
FORMULA_PATTERN = re.compile("'*[=+@-]")
QUOTED_PATTERN = re.compile("'+[=+@-]")
# The characters that may separate the values, as the spreadsheets of different countries write them.
SEPARATORS = ",;\t"
# A first line that names the separator, for spreadsheets.
SEPARATOR_PATTERN = re.compile("sep=(.)\r?")
# A number that a spreadsheet makes of an ID with the letter E.
FLOAT_PATTERN = re.compile("[0-9.,]+[Ee][+-]?[0-9]+")
# What may be between the digits of an ID or of a profile.
MARKS_PATTERN = re.compile(r"[\s:._/-]")
LONGEST_LABEL = 32
# The ID of a telegram to all devices, which no device has.
BROADCAST_ID = "FFFFFFFF"


class InvalidRow(ValueError):
    """A row does not describe a device. The text is a sentence that says why."""


class DeviceRow(NamedTuple):
    """A device as a row describes it. `fault` says why it has no label although the row has a text for it. `others`
    are the values of the other columns."""
    device: str
    eep: str
    label: str
    fault: str = ""
    others: tuple[str, ...] = ()


# A row, and its number in the sheet.
NumberedRow = tuple[int, DeviceRow | InvalidRow]


class Head:
    """The head of a sheet: the titles of the columns, as the sheet has them."""

    def __init__(self, titles: Sequence[str]):
        self.titles = titles
        fields_by_title = share.texts_by_word("column")
        # the number of the column of each field
        self.places: dict[str, int] = {}
        for place, title in enumerate(titles):
            if device_field := fields_by_title.get(re.sub(r"[\W_]", "", title.lower())):
                self.places.setdefault(device_field, place)
        self.other_places = [place for place in range(len(titles)) if place not in self.places.values()]

    @property
    def is_complete(self) -> bool:
        """Whether it names the columns that each sheet needs."""
        return {"id", "eep"} <= self.places.keys()

    @property
    def missing(self) -> str:
        """Which column it does not name."""
        field = "eep" if "id" in self.places else "id"
        words = ", ".join(word for word, one in share.texts_by_word("column").items() if one == field)
        return f"no column has the {'profiles' if field == 'eep' else 'IDs'}: its head can be one of {words}"

    @property
    def others(self) -> tuple[str, ...]:
        """The titles of the other columns."""
        return tuple(self.titles[place] for place in self.other_places)

    def value(self, field: str, cells: Sequence[str]) -> str:
        """The value of a field in a row."""
        place = self.places.get(field, len(cells))
        return cells[place] if place < len(cells) else ""

    def name(self, field: str) -> str:
        """The title of the column of a field."""
        return self.titles[self.places[field]]

    def row_of(self, cells: list[str]) -> DeviceRow:
        """The device of a row, or InvalidRow."""
        device, eep, label = (self.value(field, cells) for field in HEADING)
        others = tuple(cells[place] if place < len(cells) else "" for place in self.other_places)
        label, fault = self.label_and_fault(label[1:] if QUOTED_PATTERN.match(label) else label)
        return DeviceRow(self.id_in(device), self.eep_in(eep), label, fault, others)

    def id_in(self, text: str) -> str:
        """The ID in a cell, or InvalidRow."""
        digits = MARKS_PATTERN.sub("", text).upper().removeprefix("0X")
        if re.fullmatch("[0-9]{1,7}", text):
            # A spreadsheet removes leading zeros.
            digits = text.zfill(8)
        if FLOAT_PATTERN.fullmatch(text) and not re.fullmatch(ID_PATTERN, text):
            raise InvalidRow(f"{self.name('id')}: a spreadsheet changed the ID to the number {text}: enter it again, "
                             "in a column with the format Text")
        if not re.fullmatch(ID_PATTERN, digits) or digits == BROADCAST_ID:
            raise InvalidRow(f"{self.name('id')}: {text!r} is not the ID of a device: 8 hexadecimal digits")
        return digits

    def eep_in(self, text: str) -> str:
        """The profile in a cell, or InvalidRow."""
        digits = MARKS_PATTERN.sub("", text).upper().removeprefix("EEP")
        eep = "-".join((digits[:2], digits[2:4], digits[4:]))
        if not re.fullmatch(EEP_PATTERN, eep):
            raise InvalidRow(f"{self.name('eep')}: {text!r} is not a profile such as D5-00-01")
        return eep

    def label_and_fault(self, text: str) -> tuple[str, str]:
        """The label in a cell, and an empty text; or no label, and why the text is none."""
        if not text or re.fullmatch(PATTERNS["TEXT"], text):
            return text, ""
        possible = ascii_spelling(text)
        hint = f"; possible is {possible!r}" if possible else ""
        return "", f"{self.name('label')}: {text!r} is not 1 to {LONGEST_LABEL} ASCII characters{hint}"


def devices_as_csv(devices: Iterable[Listed], heads: tuple[str, ...] = (),
                   others: dict[str, tuple[str, ...]] | None = None) -> str:
    """The devices as CSV, with further columns, whose values `others` has by the IDs of devices."""
    out = io.StringIO()
    writer = csv.writer(out, lineterminator="\n")
    writer.writerow([*HEADING, *heads])
    for device in devices:
        more = (others or {}).get(device.device, ("",) * len(heads))
        writer.writerow([device.device, device.eep, *map(without_formula, (device.label, *more))])
    return out.getvalue()


def without_formula(text: str) -> str:
    """A text that no spreadsheet takes for a formula."""
    return f"'{text}" if FORMULA_PATTERN.match(text) else text


class Sheet:
    """A sheet of devices. Without a head, its columns are those of an export. `other_heads` are the heads of the other
    columns, as far as the rows were read."""

    def __init__(self, text: str):
        self.text, self.head, self.other_heads = text.removeprefix("\ufeff"), Head(HEADING), tuple[str, ...]()
        self.has_begun = False
        # the number of the row of each device, and what it has
        self.seen: dict[str, tuple[int, DeviceRow]] = {}

    def rows(self) -> Iterator[NumberedRow]:
        """The rows, each with its number, without heads and empty rows. A head that lacks a column ends them."""
        first = self.text.partition("\n")[0]
        named = SEPARATOR_PATTERN.fullmatch(first)
        separator = named[1] if named else max(SEPARATORS, key=first.count)
        reader = csv.reader(io.StringIO(self.text, newline=""), delimiter=separator)
        for number in itertools.count(1):
            try:
                cells = [cell.strip() for cell in next(reader)]
                if not (named and number == 1) and (row := self.row_of(cells)):
                    yield number, self.checked(number, row)
            except StopIteration:
                return
            except csv.Error as error:
                yield number, InvalidRow(f"not CSV: {error}")
            except InvalidRow as error:
                yield number, error
                if not self.head.is_complete:
                    return

    def reason(self, error: str) -> str:
        """The sentence of an error of an order, with the head of the column that is wrong."""
        column = f"{self.head.name('eep')}: " if error == "unsupported_profile" else ""
        return column + share.texts_by_word("error").get(error, error)

    def checked(self, number: int, row: DeviceRow) -> DeviceRow:
        """A row, or InvalidRow if another row has something else for its device."""
        before, first = self.seen.setdefault(row.device, (number, row))
        if first != row:
            raise InvalidRow(f"{self.head.name('id')}: {row.device} is in row {before} already, with other values")
        return row

    def row_of(self, cells: list[str]) -> DeviceRow | None:
        """The device of a row; None if it is a head or empty. Raises InvalidRow."""
        if not any(cells):
            return None
        head, is_first, self.has_begun = Head(cells), not self.has_begun, True
        if not head.is_complete and not (is_first and head.places and not any(map(has_id, cells))):
            return self.head.row_of(cells)
        self.head, self.other_heads = head, head.others
        if not head.is_complete:
            raise InvalidRow(head.missing)
        return None


def has_id(cell: str) -> bool:
    """Whether this cell is an ID."""
    return re.fullmatch(ID_PATTERN, MARKS_PATTERN.sub("", cell)) is not None


def decoded(data: bytes) -> str:
    """The text of a file, in UTF-8, in UTF-16 with its mark, or as spreadsheets of Western countries write it."""
    if data.startswith((codecs.BOM_UTF16_LE, codecs.BOM_UTF16_BE)):
        return data.decode("utf-16", "replace")
    try:
        return data.decode("utf-8")
    except UnicodeDecodeError:
        return data.decode("cp1252", "replace")


def ascii_spelling(text: str) -> str:
    """A text as a label that the gateway can store; empty if it has no characters for that."""
    spellings = share.texts_by_word("spelling")
    german = "".join(spellings.get(letter, letter) for letter in unicodedata.normalize("NFC", text))
    ascii_only = re.sub("[^ -~]", "", unicodedata.normalize("NFD", re.sub(r"\s", " ", german)))
    shown = re.sub(" +", " ", ascii_only).strip()
    return (shown.upper() if text == text.upper() else shown)[:LONGEST_LABEL].strip()
