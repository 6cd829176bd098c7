"""The sessions on the orders. `orders` has every order at both ends of its ranges, and past them, and lines that one
letter, digit, space or word keeps from being an order; `orders-to-devices` each order to a device, against devices of
every profile, and unknown ones; `orders-to-all` the orders that send and need no device; `label-texts` labels with
every character, and texts that are no labels."""
import itertools

from oracle.esp3 import BROADCAST_ID, radio_optional_data, gateway_telegram_packet, telegram_packet
from oracle.gateway import BASE_ID, MAX_LINE_BYTES
from oracle.orders import ORDERS_BY_NAME, MAX_VALUES, ORDERS
from oracle.profiles import SUPPORTED_PROFILES, eep_text
from oracle.sessions import Session, every_nth_item

# Devices that are known, by what an order has to find; a device for the orders that need none; and an unknown one.
SWITCH_ID, BLIND_ID, CONTACT_ID, UNKNOWN_ID = 0x01800ABC, 0x01800ABD, 0xABCDEF09, 0x01800ABE
KNOWN_DEVICES = {SWITCH_ID: "D2-01-12", BLIND_ID: "D2-05-00", CONTACT_ID: "D5-00-01"}
ID_BY_PROFILE = {"D2-01": f"{SWITCH_ID:08X}", "D2-05-00": f"{BLIND_ID:08X}"}

# The values of an order, where no others are named.
DEFAULT_VALUES = {"EEP": "D5-00-01", "CH": "7", "OFF": "5", "VAL": "50", "RAMP": "20", "TEXT": 'Door "A"'}


def order_words(row, **other_values):
    """The words of an order of the table, with these values, and otherwise with values that can be done."""
    words, does, _ = row
    values = {**DEFAULT_VALUES, "ID": ID_BY_PROFILE.get(does, f"{CONTACT_ID:08X}"), **other_values}
    return [values.get(word, word) for word in words.split(" ")]


def order_text(row, **other_values):
    return " ".join(order_words(row, **other_values))


def order_name(row):
    return row[0].split(" ")[0]


def text_with_word(words, index, word):
    return " ".join([*words[:index], word, *words[index + 1 :]])


def word_positions(words_wanted, orders=ORDERS):
    """The rows of the table, with the places of the words that are of these kinds."""
    for row in orders:
        for index, word in enumerate(row[0].split(" ")):
            if word in words_wanted:
                yield row, index, word


DEVICE_ORDERS = [row for row in ORDERS if row[1].startswith("D2")]
BROADCAST_ORDERS = [row for row in ORDERS if row[1] in ("all", "module")]
# One row for each order; and all rows except those that differ from the row beside them only in the last word.
ONE_ROW_PER_ORDER = [rows[0] for rows in ORDERS_BY_NAME.values()]
DISTINCT_ROWS = [row for row in ORDERS if not row[0].endswith((" off", " energy"))]


class OrderSession(Session):
    def try_lines(self, lines):
        """These lines, each once, and each of them while the devices are known."""
        for text in dict.fromkeys(lines):
            self.add_devices(KNOWN_DEVICES)
            self.add_lines(text)

    def increment_all_counters(self):
        """After this no count is 0, except `refused`."""
        self.add_lines("learn on")
        for payload in ("00", "09", "08"):
            self.add_telegram("D5 " + payload, CONTACT_ID)
        self.add_lines("learn off", f"remove {CONTACT_ID:08X}", "S 5500010002650000", "S 5500010002650107")
        self.add_telegram("D5 09", CONTACT_ID)
        self.add_lines("status")

    def remove_all_devices(self):
        super().remove_all_devices()
        self.add_lines("status")


def numbers_around_limit(greatest):
    """The ends of a range, and numbers past it: also some that are in it if only their last byte, their last two
    bytes or all bits except the highest one are taken."""
    near_numbers = {0, 1, greatest - 1, greatest, greatest + 1, 127, 128, 255, 256, 257, 256 + greatest}
    return [str(number) for number in sorted(near_numbers | {1000, 32768, 65535, 65536, 65536 + greatest, 99999})]


def try_range_limits(session):
    for order, index, word in word_positions(MAX_VALUES):
        session.try_lines(
            text_with_word(order_words(order), index, number) for number in numbers_around_limit(MAX_VALUES[word])
        )


# Texts that are no number, no ID and no profile: of another length, with signs, in another base or another script.
INVALID_NUMBERS = ["", "00", "007", "+1", "-1", "1.0", "100000", "/", ":", "1/", "1:"]
INVALID_NUMBERS += [
    "1e1", "000000", "01", "00001", "000001", "+0", "-0", "+", "-", ".1", "1.", "1,0", "1E1", "0x1", "0b1"
]
INVALID_NUMBERS += ["1_0", "1'0", "1h", "A", "a", "1+1", "000100", "999999", "4294967296", "4294967297"]
INVALID_NUMBERS += ["18446744073709551616", "18446744073709551617"]
INVALID_NUMBERS += ["\u0661", "\u0967", "\uff11", "\u00b9", "\u2160", "1\u0660", "\u00bd"]
INVALID_IDS = ["", "0180", "01800AB", "001800ABC", "01800ABG", "0x01800A", "+1800ABC"]
INVALID_IDS += ["-1800ABC", "01800AB_", "0x01800ABC", "01-80-0A-BC", "01:80:0A", "all", "FFFFFFF", "FFFFFFFF0"]
INVALID_IDS += ["01800AB\u0661", "0180\u00c4\u00c4", "\uff10\uff11\uff18\uff10\uff10\uff21\uff22\uff23"]
INVALID_EEPS = ["", "D2-01", "D2-01-1", "D2-01-012", "D20112", "D2-01-1G", "D2-01-+1"]
INVALID_EEPS += [
    "D2", "D2-1-12", "2-01-12", "D2-01-12-00", "+2-01-12", "D2--01-12", "-D2-01-12", "D2-01-12-", "D2_01_12"
]
INVALID_EEPS += ["D2:01:12", "D2 01 12", "on", "off", "FFFFFFFF"]
INVALID_EEPS += ["D2-01-1\u0662", "D2-01-\u00e4", "D2\u201301\u201312", "\uff242-01-12"]


def try_invalid_values(session):
    """These, in place of values: all of them at the first place of a kind, and some at the others."""
    texts_by_word = {"ID": INVALID_IDS, "EEP": INVALID_EEPS, **dict.fromkeys(MAX_VALUES, INVALID_NUMBERS)}
    for order, index, kind in word_positions(texts_by_word, DISTINCT_ROWS):
        session.try_lines(text_with_word(order_words(order), index, text) for text in texts_by_word[kind])
        texts_by_word[kind] = texts_by_word[kind][:7]


# The ends of the range of IDs, and some in it; even the gateway's own IDs are.
BOUNDARY_IDS = [0, 1, 0x80000000, BASE_ID, BASE_ID + 127, 0xFFFFFFFE]


def try_ids(session):
    """Every order with an ID at each end of the range, learned and not learned."""
    with_id = [order for order in ORDERS if " ID" in order[0]]
    for order in with_id:
        session.try_lines(order_text(order, ID=ident) for ident in ("FFFFFFFF", "ffffffff", "FfFfFfFf"))
    for eep in ("D2-01-00", "D2-05-00"):
        session.add_lines(*(f"add {ident:08X} {eep}" for ident in BOUNDARY_IDS))
        fitting_orders = [order for order in with_id if eep.startswith(order[1])]
        session.add_lines(*(order_text(order, ID=f"{ident:08X}") for order in fitting_orders for ident in BOUNDARY_IDS))
        session.add_lines("list", *(f"remove {ident:08X}" for ident in BOUNDARY_IDS))
    unknown = [order for order in ONE_ROW_PER_ORDER if order in with_id and order_name(order) != "add"]
    session.add_lines(*(order_text(order, ID=f"{ident:08X}") for order in unknown for ident in (0, 0xFFFFFFFE)))
    session.remove_all_devices()


def try_letter_cases(session):
    """The digits of an ID and of a profile may be of either case."""
    for eep in ("D2-01-0A", "D2-05-00"):
        session.add_lines("add ABCDEF09 " + eep)
        for order in DEVICE_ORDERS:
            if eep.startswith(order[1]):
                session.add_lines(
                    *(order_text(order, ID=ident) for ident in ("ABCDEF09", "abcdef09", "AbCdEf09", "aBcDeF09"))
                )
    for eep in ("A5-02-0B", "a5-02-0b", "A5-02-0b", "a5-02-0B", "d2-01-0F", "D2-01-0f", "f6-02-01", "d5-00-01"):
        session.add_lines("add abcdef09 " + eep, "learn as " + eep, "status")
    session.add_lines("remove AbCdEf09", "list")
    session.remove_all_devices()


def try_spaces(session):
    """Another space, or none, between two words, and spaces around them. A CR at the end is not part of a line."""
    for order in ORDERS:
        text = order_text(order)
        gaps = [index for index, letter in enumerate(text) if letter == " "]
        lines = [text[:index] + gap + text[index + 1 :] for index in gaps for gap in ("  ", "\t", "")]
        session.try_lines([*lines, " " + text, text + " ", "\t" + text, text + "\t", text + "\r", text + "\r\r"])
    text = order_text(ORDERS[-1])
    session.try_lines(text.replace(" ", gap)
                      for gap in ("\u00a0", "\u3000", "\u200b ", "-", ",", "_", "\r", " \r", "\r "))
    session.try_lines([around.replace("x", text)
                       for around in ("\u00a0x", "x\u00a0", "\ufeffx", "x\ufeff", "\rx", "x \r")])


def misspellings(word):
    """Words that differ from this one in one letter: another one, the other case, one missing or one more."""
    for index, letter in enumerate(word):
        yield word[:index] + chr(ord("a") + (ord(letter) - ord("a") + 1) % 26) + word[index + 1 :]
    yield from (word.upper(), word.capitalize(), word[:-1] + word[-1].upper(), word[:-1], word[1:], word + "s")


def try_misspelled_words(session):
    """Every word of the table, each with its letters changed one by one."""
    tried_words = set()
    for order, index, word in word_positions(
        {word for words, *_ in ORDERS for word in words.split(" ") if word.islower()}
    ):
        if (order_name(order), word) not in tried_words:
            tried_words.add((order_name(order), word))
            session.try_lines(text_with_word(order_words(order), index, misspelling)
                              for misspelling in misspellings(word))


def try_wrong_words(session):
    """Words that are missing, too many, in another order, or of another order."""
    for order in ORDERS:
        words = order_words(order)
        lines = [" ".join(words[:index] + words[index + 1 :]) for index in range(len(words))]
        lines += [" ".join(words[: index + 1] + words[index:]) for index in range(len(words))]
        lines += [" ".join([*words, extra_word]) for extra_word in ("0", "on")]
        for index in range(len(words) - 1):
            lines.append(" ".join([*words[:index], words[index + 1], words[index], *words[index + 2 :]]))
        session.try_lines(lines)
    for order_number, order in enumerate(ONE_ROW_PER_ORDER):
        other_orders = every_nth_item(ONE_ROW_PER_ORDER, order_number, 3)
        session.try_lines(text_with_word(order_words(order), 0, order_name(other_order))
                          for other_order in other_orders)
    for order, index, word in word_positions(("on", "energy", "answer")):
        other_words = ("off", "power", "energy", "answer", "as", "0", "1", "100", "true")
        session.try_lines(text_with_word(order_words(order), index, other_word) for other_word in other_words)


def try_long_lines(session):
    """A line of 200 bytes is read. A longer one is not, not even its words."""
    for text in (order_text(ORDERS[-1]), order_text(DEVICE_ORDERS[0])):
        session.try_lines(
            text.ljust(length, filling) for length in (MAX_LINE_BYTES, MAX_LINE_BYTES + 1) for filling in " 0"
        )
    a_umlaut = "\u00e4"
    session.try_lines(
        [100 * a_umlaut, 100 * a_umlaut + "x", 101 * a_umlaut, 200 * "x" + "\r", 201 * "x" + "\r", 200 * "\r"]
    )
    session.try_lines(["", " ", "\r", "\t", "-", "?", "help"])
    session.try_lines(["S", "s 55", "S 5", "S  55", "S 55 ", "S\t55", " S 55", "S 5G", "S 0x55", "S 55\r\r"])


def orders_session():
    session = OrderSession()
    session.increment_all_counters()
    for group in (
        try_range_limits,
        try_invalid_values,
        try_ids,
        try_letter_cases,
        try_spaces,
        try_misspelled_words,
        try_wrong_words,
        try_long_lines,
    ):
        group(session)
        session.add_lines("status")
    session.remove_all_devices()
    return session


# Profiles of each RORG, among them some that share FUNC or TYPE with those that take orders.
SAMPLE_PROFILES = ["F6-01-01", "F6-02-01", "D5-00-01", "A5-02-05", "D2-01-00", "D2-01-12", "D2-05-00"]


def order_texts_at_limits(order):
    """An order with all values at the ends of their ranges, each with each; the ID is left to fill in."""
    value_words = [word for word in order[0].split(" ") if word in MAX_VALUES]
    for values in itertools.product(*(("0", "1", str(MAX_VALUES[kind])) for kind in value_words)):
        yield order_text(order, ID="{}", **dict(zip(value_words, values)))


def try_each_device_kind(session):
    """Every order to a device, with values at their ends, against a device of each kind, and an unknown one."""
    targets = {0x01900000 + index: eep for index, eep in enumerate(SAMPLE_PROFILES)}
    session.add_devices(targets)
    texts = list(dict.fromkeys(text for order in DEVICE_ORDERS for text in order_texts_at_limits(order)))
    for target in [*targets, UNKNOWN_ID]:
        session.add_lines(*(text.format(f"{target:08X}") for text in texts), "status")
    session.remove_all_devices()


def try_each_profile(session):
    """A device has every profile in turn: all orders to a device with a VLD profile, and two with the others."""
    texts = [order_text(order, ID=f"{UNKNOWN_ID:08X}") for order in DEVICE_ORDERS if order in DISTINCT_ROWS]
    for index, number in enumerate(sorted(SUPPORTED_PROFILES)):
        eep = eep_text(number)
        chosen_texts = [texts[index % len(texts)], texts[(index + 3) % len(texts)]]
        session.add_lines(f"add {UNKNOWN_ID:08X} {eep}", *(texts if eep.startswith("D2") else chosen_texts))
    session.add_lines("status")
    session.remove_all_devices()


def power_of_two_neighbours(greatest):
    """Numbers up to the one after this: the ends, and all with one bit, and the numbers next to these."""
    near_numbers = {number + step for number in (1 << exponent for exponent in range(9)) for step in (-1, 0, 1)}
    return sorted(number for number in near_numbers | {greatest - 1, greatest, greatest + 1} if number <= greatest + 1)


def try_channels_and_values(session):
    """Channels and values at the ends of each bit, and the next ones."""
    session.add_devices(KNOWN_DEVICES)
    for channel in power_of_two_neighbours(MAX_VALUES["CH"]):
        session.add_lines(f"query {SWITCH_ID:08X} {channel}")
    for value in power_of_two_neighbours(MAX_VALUES["VAL"]):
        session.add_lines(f"dim {SWITCH_ID:08X} {value % 31} {value}")
    session.add_lines("status")
    session.remove_all_devices()


def try_error_precedence(session):
    """If there are two causes: first a line that is too long, then syntax, then range, and then the device."""
    session.add_devices(KNOWN_DEVICES)
    for order in [order for order in DEVICE_ORDERS if order in DISTINCT_ROWS]:
        value_words = [word for word in order[0].split(" ") if word in MAX_VALUES]
        for sender in (SWITCH_ID, BLIND_ID, CONTACT_ID, UNKNOWN_ID, BROADCAST_ID):
            ident = f"{sender:08X}"
            session.add_lines(order_text(order, ID=ident))
            for kind in value_words:
                session.add_lines(order_text(order, ID=ident, **{kind: str(MAX_VALUES[kind] + 1)}))
            session.add_lines(order_text(order, ID=ident, **dict.fromkeys(value_words, "99999")))
            session.add_lines(order_text(order, ID=ident, **dict.fromkeys(value_words, "100000")))
            session.add_lines(order_text(order, ID=ident, **dict.fromkeys(value_words, "99999")) + " x")
        session.add_lines(order_text(order, ID=f"{UNKNOWN_ID:08X}").ljust(MAX_LINE_BYTES + 1))
    for text in ("add {} D2-01-13", "add {} D2-05-01", "add {} D2-01-12-", "remove {}", "remove {} x"):
        session.add_lines(*(text.format(ident) for ident in ("FFFFFFFF", f"{UNKNOWN_ID:08X}")))
    session.add_lines("status")
    session.remove_all_devices()


def try_relearned_device(session):
    """The last profile of a device counts, by whatever it was learned."""
    texts = [order_text(order, ID=f"{UNKNOWN_ID:08X}") for order in DEVICE_ORDERS]
    for eep in ("D2-01-00", "D2-05-00", "F6-02-01", "D2-01-12"):
        session.add_lines(f"add {UNKNOWN_ID:08X} {eep}", *texts)
    session.add_lines("learn on")
    session.add_telegram("D5 00", UNKNOWN_ID)
    session.add_lines(
        *texts, f"add {UNKNOWN_ID:08X} D2-05-00", *texts, f"remove {UNKNOWN_ID:08X}", *texts, "learn off", "status"
    )
    session.remove_all_devices()


LEARN_ORDERS = [
    "learn off", "learn on", "learn on answer", "learn as F6-02-01", "learn as D2-01-12", "learn as A5-12-03"
]


def try_in_each_mode(session, sending):
    """An order that sends increments no count, teaches nothing, and leaves the mode."""
    for mode in LEARN_ORDERS:
        session.add_lines(mode)
        for order in sending:
            session.add_lines(order_text(order))
            if "ID" in order[0]:
                session.add_lines(order_text(order, ID=f"{CONTACT_ID:08X}"), order_text(order, ID=f"{UNKNOWN_ID:08X}"))
            if mode == "learn on":
                session.add_lines("status")
        session.add_lines("status", "list")


def try_device_answers(session):
    """The answers of devices to orders, which are addressed to the gateway. And orders amid a packet."""
    session.add_devices(KNOWN_DEVICES)
    for text, sender, payload in (
        (f"switch {SWITCH_ID:08X} 0 on", SWITCH_ID, "0460E4"),
        (f"dim {SWITCH_ID:08X} 3 0", SWITCH_ID, "046380"),
        (f"query {SWITCH_ID:08X} 0", SWITCH_ID, "0460E4"),
        (f"meter {SWITCH_ID:08X} 0 power", SWITCH_ID, "0760000004D2"),
        (f"blind {BLIND_ID:08X} 50", BLIND_ID, "327F0004"),
        (f"query {BLIND_ID:08X} 0", BLIND_ID, "327F0004"),
        (f"stop {BLIND_ID:08X}", BLIND_ID, "2D640004"),
    ):
        session.add_lines(text)
        session.add_telegram("D2 " + payload, sender, radio_optional_data(1, BASE_ID))
        stream = telegram_packet(0xD2, bytes.fromhex(payload), sender, 0, radio_optional_data(1, BASE_ID))
        for cut in (5, len(stream) - 1):
            session.add_lines("S " + stream[:cut].hex(), text, "S " + stream[cut:].hex())
        session.add_lines("status")
    # Packets that the gateway itself sends are for another device, if they come back.
    session.add_lines("S " + gateway_telegram_packet(0xD2, bytes.fromhex("010064"), BASE_ID, SWITCH_ID).hex(), "status")
    session.remove_all_devices()


def device_orders_session():
    session = OrderSession()
    session.increment_all_counters()
    for group in (
        try_each_device_kind, try_each_profile, try_channels_and_values, try_error_precedence, try_relearned_device
    ):
        group(session)
    session.add_devices(KNOWN_DEVICES)
    try_in_each_mode(session, DEVICE_ORDERS)
    session.remove_all_devices()
    try_device_answers(session)
    return session


def broadcast_orders_session():
    session = OrderSession()
    session.increment_all_counters()
    session.add_lines("base", "status")
    for offset in (0, 1, 126, 127):
        session.add_lines(f"central {offset} on", f"central {offset} off", f"teach {offset}", "base")
        for value, ramp in itertools.product((0, 1, 99, 100), (0, 1, 254, 255)):
            session.add_lines(f"level {offset} {value} {ramp}")
        session.add_lines("status")
    session.add_lines("level 128 101 256", "level 127 101 256", "level 128 0 255", "level 128 0 256",
                      "level 128 101 007")
    session.add_lines("central 128 onn", "teach 128 on", "teach 99999", "base 128")
    for offset in power_of_two_neighbours(MAX_VALUES["OFF"]):
        session.add_lines(f"teach {offset}")
    for ramp in power_of_two_neighbours(MAX_VALUES["RAMP"]):
        session.add_lines(f"level {ramp % 128} {ramp % 101} {ramp}")
    session.add_lines("status", "list")
    try_in_each_mode(session, BROADCAST_ORDERS)
    session.remove_all_devices()
    # Known devices do not matter, not even those with the gateway's own IDs.
    session.add_devices({BASE_ID: "D2-01-12", BASE_ID + 5: "D2-05-00", **KNOWN_DEVICES})
    session.add_lines(*(order_text(order) for order in BROADCAST_ORDERS), "status", "list")
    # The answer of the module to `base`, also amid a packet of it, and the packets that the gateway sends, if they come
    # back.
    for response in ("5500010002650000", "5500050002CE00FF800000DA"):
        session.add_lines("base", "S " + response, "S " + response[:12], "base", "S " + response[12:], "status")
    for order in BROADCAST_ORDERS:
        session.add_lines(order_text(order))
    session.add_lines("S " + gateway_telegram_packet(0xA5, bytes.fromhex("01000009"), BASE_ID + 6).hex(), "status")
    session.remove_all_devices()
    return session


# Texts that are labels, and texts that are no labels: with a space or a tab within them or at their ends, or with a
# letter that is no character of a label.
VALID_LABELS = ["x", "Hall", 'Door "A"', '"', '""', "\\", "\\\\", '\\"', "\\n", "\\u0041", "a b", "a  b", "a   b", "/"]
VALID_LABELS += [
    "label", "01800ABC", "FFFFFFFF", "D5-00-01", "on", "null", "0", "-", "{}", '{"label":""}', "S 00", "a:b,c"
]
INVALID_LABELS = [
    "", " ", "  ", " x", "x ", " x ", "  x", "x  ", " Hall", 'Door "A" ', "\t", "\tx", "x\t", "a\tb", "a\rb"
]
INVALID_LABELS += [
    "\rx", "\x00", "a\x01b", "\x1f", "a\x1fb", "\x7f", "a\x7fb", "T\u00fcr", "\u00fc", "a\u00a0b", "\u00a0"
]
INVALID_LABELS += ["\u3000x", "a\u200bb", "\u201cA\u201d", "\ufeffx", "\u0661", 31 * "x" + " ", 32 * "x" + " "]
INVALID_LABELS += [" " + 32 * "x", 32 * "x" + "\x7f", 33 * "\u00fc", 33 * " ", 100 * "x" + " ", "x" + 31 * " " + "y"]


def try_labels(session):
    """`list` shows each label. A text that is no label leaves the label before it."""
    characters = [chr(code) for code in range(0x20, 0x7F)]
    texts = VALID_LABELS + characters[1:]
    texts += ["".join(characters[start : start + 32]).strip() for start in range(0, 95, 31)]
    texts += [length * "x" for length in (2, 15, 16, 17, 30, 31, 32)] + ["x" + 30 * " " + "y", 16 * '"\\', 32 * "\\"]
    for text in dict.fromkeys(texts):
        session.add_lines(f"label {CONTACT_ID:08X} {text}", "list")
    session.add_lines(*(f"label {CONTACT_ID:08X} {text}" for text in INVALID_LABELS), "list")
    # a line of 200 bytes holds a text of 185
    session.add_lines(*(f"label {CONTACT_ID:08X} {length * 'x'}" for length in (33, 34, 64, 184, 185, 186)), "list")
    for line_end in ("\r", "x\r", " \r", " x\r", " x\r\r", " x \r"):
        session.add_lines(f"label {CONTACT_ID:08X}{line_end}", "list")


def try_label_error_precedence(session):
    """Of two causes the first one is reported: a line that is too long, syntax, range, an unknown device."""
    for ident in ("FFFFFFFF", "ffffffff", f"{UNKNOWN_ID:08X}", f"{CONTACT_ID:08X}", "0180"):
        long = [" " + 33 * "y", " " + 33 * "y" + " ", "  " + 33 * "y", 200 * "y"]
        for text in ["", " ", " y", "  y", " y ", " y\ty", *long]:
            session.add_lines(f"label {ident}{text}")
        session.add_lines("list", "status")


def try_label_lifetime(session):
    """A label stays if its device is learned again, and goes if it is forgotten."""
    session.add_lines(f"label {CONTACT_ID:08X} Hall", "list", f"add {CONTACT_ID:08X} D5-00-01", "list")
    session.add_lines(f"add {CONTACT_ID:08x} A5-02-05", "list", f"add {CONTACT_ID:08X} D5-00-02", "list", "learn on")
    session.add_telegram("D5 00", CONTACT_ID)
    session.add_lines("list", "learn off", f"remove {CONTACT_ID:08X}", "list", f"label {CONTACT_ID:08X} Door", "list")
    session.add_lines(
        f"add {CONTACT_ID:08X} D5-00-01", "list", f"label {CONTACT_ID:08X} Door", f"label {CONTACT_ID:08X}", "list"
    )
    session.add_telegram("D5 09", CONTACT_ID)
    session.add_lines("status", "list")


def try_labels_of_many_devices(session):
    """Each device has its own, at both ends of the IDs."""
    session.add_lines(*(f"add {ident:08X} D5-00-01" for ident in BOUNDARY_IDS))
    session.add_lines(*(f"label {ident:08X} no. {index}" for index, ident in enumerate(BOUNDARY_IDS)), "list")
    session.add_lines(
        f"label {BOUNDARY_IDS[0]:08X}",
        f"label {BOUNDARY_IDS[-1]:08x} last",
        f"remove {BOUNDARY_IDS[1]:08X}",
        "list",
        "status",
    )


def label_texts_session():
    session = OrderSession()
    for group in (try_labels, try_label_error_precedence, try_label_lifetime):
        session.add_devices({CONTACT_ID: "D5-00-01"})
        group(session)
    session.remove_all_devices()
    try_labels_of_many_devices(session)
    session.remove_all_devices()
    return session


SESSION_BUILDERS = {
    "orders": orders_session,
    "orders-to-devices": device_orders_session,
    "orders-to-all": broadcast_orders_session,
    "label-texts": label_texts_session,
}
