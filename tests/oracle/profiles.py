"""The profiles of EnOcean Equipment Profiles 2.6 that the gateway reads, and what a telegram says by each. The oracle
makes its sessions from these tables. They share nothing with the program: the fractions are Python's."""
from fractions import Fraction

# How a row reads its number. A row is (name, offset, length, condition, kind). A condition lists fields and their
# values. `ends` are numbers at which the meaning changes.


def linear_scale_decoder(first_raw, last_raw, first_value, last_value, unit):
    """The number `low` stands for `first`, and `high` for `last`."""
    first_value, last_value = Fraction(first_value), Fraction(last_value)

    def decode(raw, _bits):
        if not min(first_raw, last_raw) <= raw <= max(first_raw, last_raw):
            return {"out_of_range": raw}
        value = first_value + (raw - first_raw) * (last_value - first_value) / (last_raw - first_raw)
        return {"num": value.numerator, "den": value.denominator, "unit": unit}

    decode.ends = [first_raw, last_raw]
    return decode


def word_table_decoder(table):
    def decode(raw, _bits):
        return {"word": table[raw]} if raw in table else {"out_of_range": raw}

    decode.ends = list(table)
    return decode


def threshold_decoder(raw_bound, lower, upper):
    def decode(raw, _bits):
        return {"word": lower if raw < raw_bound else upper}

    decode.ends = [raw_bound - 1, raw_bound]
    return decode


def percent_decoder(word):
    decode_percent = linear_scale_decoder(0, 100, 0, 100, "%")

    def decode(raw, bits):
        return {"word": word} if raw == 127 else decode_percent(raw, bits)

    decode.ends = [0, 100, 127]
    return decode


def power_of_ten_decoder(offset, length, unit):
    def decode(raw, bits):
        value = Fraction(raw, 10 ** bit_field_value(bits, offset, length))
        return {"num": value.numerator, "den": value.denominator, "unit": unit}

    decode.ends = [0, 1, 10]
    return decode


def integer_decoder(unit):
    def decode(raw, _bits):
        return {"num": raw, "den": 1, "unit": unit}

    decode.ends = [0, 1, 1234]
    return decode


def decode_raw_number(raw, _bits):
    return {"raw": raw}


def decode_undefined_number(raw, _bits):
    return {"out_of_range": raw}


decode_raw_number.ends = []
decode_undefined_number.ends = []


def bit_field_value(bits, offset, length):
    return int(bits[offset : offset + length], 2)


BUTTON_DECODER = word_table_decoder({0: "released", 1: "pressed"})
ROCKER_DECODER = word_table_decoder({0: "AI", 1: "A0", 2: "BI", 3: "B0"})
FOUR_ROCKER_DECODER = word_table_decoder({0: "AI", 1: "A0", 2: "BI", 3: "B0", 4: "CI", 5: "C0", 6: "DI", 7: "D0"})
OCCUPANCY_DECODER = word_table_decoder({0: "pressed", 1: "released"})

# NU stands for the bit of the status with the mask 10.
NU_STATUS_BIT = "NU"

SWITCH_PROFILES = {
    "F6-01-01": [("PB", 3, 1, {}, BUTTON_DECODER)],
    "D5-00-01": [("CO", 7, 1, {(4, 1): 1}, word_table_decoder({0: "open", 1: "closed"}))],
}
for kind in ("01", "02"):
    SWITCH_PROFILES["F6-02-" + kind] = [
        ("R1", 0, 3, {NU_STATUS_BIT: 1}, ROCKER_DECODER),
        ("buttons", 0, 3, {NU_STATUS_BIT: 0}, word_table_decoder({0: "none", 3: "three_or_four"})),
        ("EB", 3, 1, {}, BUTTON_DECODER),
        ("R2", 4, 3, {NU_STATUS_BIT: 1, (7, 1): 1}, ROCKER_DECODER),
    ]
    SWITCH_PROFILES["F6-03-" + kind] = [
        ("R1", 0, 3, {NU_STATUS_BIT: 1}, FOUR_ROCKER_DECODER),
        ("buttons", 0, 3, {NU_STATUS_BIT: 0}, decode_raw_number),
        ("EB", 3, 1, {}, BUTTON_DECODER),
        ("R2", 4, 3, {NU_STATUS_BIT: 1, (7, 1): 1}, FOUR_ROCKER_DECODER),
    ]

FOUR_BYTE_PROFILES = {}
for step in range(11):
    FOUR_BYTE_PROFILES[f"A5-02-{step + 1:02X}"] = [
        ("TMP", 16, 8, {}, linear_scale_decoder(255, 0, -40 + 10 * step, 10 * step, "C"))
    ]
for step in range(12):
    FOUR_BYTE_PROFILES[f"A5-02-{step + 16:02X}"] = [
        ("TMP", 16, 8, {}, linear_scale_decoder(255, 0, -60 + 10 * step, 20 + 10 * step, "C"))
    ]
FOUR_BYTE_PROFILES["A5-02-20"] = [("TMP", 14, 10, {}, linear_scale_decoder(1023, 0, -10, "41.2", "C"))]
FOUR_BYTE_PROFILES["A5-02-30"] = [("TMP", 14, 10, {}, linear_scale_decoder(1023, 0, -40, "62.3", "C"))]
for kind, first, last in (("01", 0, 40), ("02", -20, 60)):
    FOUR_BYTE_PROFILES["A5-04-" + kind] = [
        ("HUM", 8, 8, {}, linear_scale_decoder(0, 250, 0, 100, "%")),
        ("TMP", 16, 8, {(30, 1): 1}, linear_scale_decoder(0, 250, first, last, "C")),
    ]
for kind, second, first in (("01", (300, 30000), (600, 60000)), ("02", (0, 510), (0, 1020))):
    FOUR_BYTE_PROFILES["A5-06-" + kind] = [
        ("SVC", 0, 8, {}, linear_scale_decoder(0, 255, 0, "5.1", "V")),
        ("ILL2", 8, 8, {(31, 1): 1}, linear_scale_decoder(0, 255, *second, "lx")),
        ("ILL1", 16, 8, {(31, 1): 0}, linear_scale_decoder(0, 255, *first, "lx")),
    ]
FOUR_BYTE_PROFILES["A5-07-01"] = [
    ("SVC", 0, 8, {(31, 1): 1}, linear_scale_decoder(0, 250, 0, 5, "V")),
    ("PIRS", 16, 8, {}, threshold_decoder(128, "off", "on")),
]
for kind, light, cold, warm in (("01", 510, 0, 51), ("02", 1020, 0, 51), ("03", 1530, -30, 50)):
    FOUR_BYTE_PROFILES["A5-08-" + kind] = [
        ("SVC", 0, 8, {}, linear_scale_decoder(0, 255, 0, "5.1", "V")),
        ("ILL", 8, 8, {}, linear_scale_decoder(0, 255, 0, light, "lx")),
        ("TMP", 16, 8, {}, linear_scale_decoder(0, 255, cold, warm, "C")),
        ("PIRS", 30, 1, {}, word_table_decoder({0: "on", 1: "off"})),
        ("OCC", 31, 1, {}, OCCUPANCY_DECODER),
    ]
FOUR_BYTE_PROFILES["A5-09-04"] = [
    ("HUM", 0, 8, {(29, 1): 1}, linear_scale_decoder(0, 200, 0, 100, "%")),
    ("CONC", 8, 8, {}, linear_scale_decoder(0, 255, 0, 2550, "ppm")),
    ("TMP", 16, 8, {(30, 1): 1}, linear_scale_decoder(0, 255, 0, 51, "C")),
]
ROOM_PANEL_FIELDS = [
    ("SP", 8, 8, {}, decode_raw_number),
    ("TMP", 16, 8, {}, linear_scale_decoder(255, 0, 0, 40, "C")),
]
FOUR_BYTE_PROFILES["A5-10-03"] = ROOM_PANEL_FIELDS
FOUR_BYTE_PROFILES["A5-10-05"] = ROOM_PANEL_FIELDS + [("OCC", 31, 1, {}, OCCUPANCY_DECODER)]
for kind, total, now in (("01", "kWh", "W"), ("02", "m3", "l/s"), ("03", "m3", "l/s")):
    FOUR_BYTE_PROFILES["A5-12-" + kind] = [
        ("MR", 0, 24, {(29, 1): 0}, power_of_ten_decoder(30, 2, total)),
        ("MR", 0, 24, {(29, 1): 1}, power_of_ten_decoder(30, 2, now)),
        ("TI", 24, 4, {}, decode_raw_number),
    ]

# The messages of D2-01, by command: their length in bytes, and their rows.
ACTUATOR_STATE_FIELDS = [
    ("PF", 0, 1, {}, decode_raw_number),
    ("PFD", 1, 1, {}, decode_raw_number),
    ("OC", 8, 1, {}, decode_raw_number),
    ("EL", 9, 2, {}, word_table_decoder({0: "ok", 1: "warning", 2: "failure", 3: "not_supported"})),
    ("IO", 11, 5, {}, decode_raw_number),
    ("LC", 16, 1, {}, decode_raw_number),
    ("OV", 17, 7, {}, percent_decoder("not_applicable")),
]
METER_UNITS = ["Ws", "Wh", "kWh", "W", "kW"]
METER_READING_FIELDS = [("IO", 11, 5, {}, decode_raw_number)]
METER_READING_FIELDS += [("UN", 8, 3, {(8, 3): unit}, decode_undefined_number) for unit in range(5, 8)]
METER_READING_FIELDS += [("MV", 16, 32, {(8, 3): unit}, integer_decoder(name)) for unit, name in enumerate(METER_UNITS)]
METER_READING_FIELDS += [("MV", 16, 32, {(8, 3): unit}, decode_raw_number) for unit in range(5, 8)]
D2_01_MESSAGES = {4: (3, ACTUATOR_STATE_FIELDS), 7: (6, METER_READING_FIELDS)}
BLIND_STATE_FIELDS = [
    ("POS", 1, 7, {}, percent_decoder("unknown")),
    ("ANG", 9, 7, {}, percent_decoder("unknown")),
    ("LOCK", 21, 3, {}, decode_raw_number),
    ("CHN", 24, 4, {}, decode_raw_number),
]
VARIABLE_LENGTH_PROFILES = [f"D2-01-{kind:02X}" for kind in range(0x13)] + ["D2-05-00"]

# The profiles of the tables, as numbers of three bytes.
SUPPORTED_PROFILES = {
    int(eep.replace("-", ""), 16) for eep in [*SWITCH_PROFILES, *FOUR_BYTE_PROFILES, *VARIABLE_LENGTH_PROFILES]
}


def eep_text(eep):
    return eep.to_bytes(3, "big").hex("-").upper()


def is_supported(eep):
    return int(eep.replace("-", ""), 16) in SUPPORTED_PROFILES


def bit_text(data):
    return "".join(f"{byte:08b}" for byte in data)


def bytes_with_fields(size, fields, fill=0):
    """Bytes with these fields, and this bit in all other places."""
    bits = [str(fill)] * (8 * size)
    for (offset, length), value in fields.items():
        bits[offset : offset + length] = f"{value:0{length}b}"
    return int("".join(bits), 2).to_bytes(size, "big")


def decoded_fields(rows, payload, status):
    """The readings of the rows, in their order."""
    bits = bit_text(payload)
    readings = []
    for name, offset, length, condition, kind in rows:
        holds = all(
            (status >> 4 & 1 if field_place == NU_STATUS_BIT else bit_field_value(bits, *field_place)) == value
            for field_place, value in condition.items()
        )
        if holds:
            readings.append({"name": name, **kind(bit_field_value(bits, offset, length), bits)})
    return readings


def telegram_readings(eep, rorg, payload, status):
    """The readings of a telegram of this RORG, or None if the profile cannot read it: it is of another RORG, is for
    teach-in, or has another length or command than the messages of the profile."""
    if rorg != int(eep[:2], 16):
        return None
    if eep in SWITCH_PROFILES:
        teaches = rorg == 0xD5 and payload[0] & 8 == 0
        return None if teaches else decoded_fields(SWITCH_PROFILES[eep], payload, status)
    if eep in FOUR_BYTE_PROFILES:
        return None if payload[3] & 8 == 0 else decoded_fields(FOUR_BYTE_PROFILES[eep], payload, status)
    if eep == "D2-05-00":
        is_state_message = len(payload) == 4 and payload[3] & 15 == 4
        return decoded_fields(BLIND_STATE_FIELDS, payload, status) if is_state_message else None
    size, rows = D2_01_MESSAGES.get(payload[0] & 15, (None, None))
    return decoded_fields(rows, payload, status) if len(payload) == size else None


def unreadable_reason(eep, rorg, payload):
    """The word for why the profile cannot read data of this RORG. The first that is wrong counts: the kind of the
    telegram, the command of its message for D2-01, its length, or the command for D2-05-00."""
    if rorg != int(eep[:2], 16):
        return "wrong_kind"
    if eep == "D2-05-00":
        return "other_message" if len(payload) == 4 else "wrong_length"
    return "wrong_length" if payload[0] & 15 in D2_01_MESSAGES else "other_message"
