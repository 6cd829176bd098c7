"""The orders: how each is written, the ranges of its values, and what it does."""
import re

from oracle.esp3 import BROADCAST_ID

# The orders. A line is an order if it has the words of a row, with one space between two, and nothing else. A word in
# capitals is a value, any other word is itself; TEXT is the rest of the line. If a line fits two rows, the
# first one that can be done is done. After the words, a row has what is done:
#
#   mode M           the mode becomes M
#   D2-01, D2-05-00  a VLD telegram with this payload goes from the base ID to the device ID, whose profile has to begin
#                    with this
#   all              a 4BS telegram with this payload goes to all, from the base ID + OFF
#   module           a command with these bytes (packet type 5) goes to the radio module
#   else             what `Gateway.order` says of this word; nothing is sent
#
# Payloads are hexadecimal.
ORDERS = [
    # Words                Done
    ("learn on",           "mode",     "on"),
    ("learn on answer",    "mode",     "answer"),
    ("learn as EEP",       "mode",     "as EEP"),
    ("learn off",          "mode",     "closed"),
    ("add ID EEP",         "add",      ""),
    ("remove ID",          "remove",   ""),
    ("label ID TEXT",      "label",    ""),
    ("label ID",           "label",    ""),
    ("list",               "list",     ""),
    ("status",             "status",   ""),
    ("base",               "module",   "08"),
    ("switch ID CH on",    "D2-01",    "01 CH 64"),
    ("switch ID CH off",   "D2-01",    "01 CH 00"),
    ("dim ID CH VAL",      "D2-01",    "01 CH VAL"),
    ("query ID CH",        "D2-01",    "03 CH"),
    ("query ID 0",         "D2-05-00", "03"),
    ("meter ID CH energy", "D2-01",    "06 CH"),
    ("meter ID CH power",  "D2-01",    "06 CH+80"),
    ("blind ID VAL",       "D2-05-00", "VAL 7F 00 01"),
    ("stop ID",            "D2-05-00", "02"),
    ("central OFF on",     "all",      "01 00 00 09"),
    ("central OFF off",    "all",      "01 00 00 08"),
    ("level OFF 0 RAMP",   "all",      "02 00 RAMP 0C"),
    ("level OFF VAL RAMP", "all",      "02 VAL RAMP 0D"),
    ("teach OFF",          "all",      "E0 47 FF 80"),
]

# The rows by their first word, which is never in capitals.
ORDERS_BY_NAME = {}
for row in ORDERS:
    ORDERS_BY_NAME.setdefault(row[0].split(" ")[0], []).append(row)

# The numbers, each with the greatest value in its range; the least is 0. An ID is in its range unless it is FFFFFFFF,
# and a text if it has at most 32 bytes.
MAX_VALUES = {"CH": 30, "OFF": 127, "VAL": 100, "RAMP": 255}
MAX_LABEL_BYTES = 32

# How the values are written. A text has characters from space to `~`. Neither the first nor the last is a space.
VALUE_PATTERNS = {
    "ID": "[0-9A-Fa-f]{8}",
    "EEP": "[0-9A-Fa-f]{2}-[0-9A-Fa-f]{2}-[0-9A-Fa-f]{2}",
    "TEXT": "[!-~](?:[ -~]*[!-~])?",
    **dict.fromkeys(MAX_VALUES, "0|[1-9][0-9]{0,4}"),
}


def values_in_line(form, text):
    """The values that this line has at the form in capitals, or None if it does not fit the form."""
    form_words = form.split(" ")
    said_words = text.split(" ", len(form_words) - 1 if form_words[-1] == "TEXT" else -1)
    if len(form_words) != len(said_words):
        return None
    values = {}
    for word, as_said in zip(form_words, said_words):
        if word not in VALUE_PATTERNS:
            if word != as_said:
                return None
        elif not re.fullmatch(VALUE_PATTERNS[word], as_said):
            return None
        elif word == "EEP":
            values[word] = as_said.upper()
        elif word == "TEXT":
            values[word] = as_said
        else:
            values[word] = int(as_said, 16 if word == "ID" else 10)
    return values


def matching_orders(text):
    """The rows that this line fits: its values, what is done, and by what."""
    rows = ((values_in_line(words, text), does, payload_form)
            for words, does, payload_form in ORDERS_BY_NAME.get(text.split(" ")[0], []))
    return [row for row in rows if row[0] is not None]


def is_in_range(values):
    if values.get("ID") == BROADCAST_ID or len(values.get("TEXT", "")) > MAX_LABEL_BYTES:
        return False
    return all(values.get(word, 0) <= greatest for word, greatest in MAX_VALUES.items())


def order_payload(payload_form, values):
    """The bytes of a payload in the table."""

    def byte(word):
        name, _, addition = word.partition("+")
        return values[name] + int(addition or "0", 16) if name in values else int(word, 16)

    return bytes(byte(word) for word in payload_form.split(" "))
