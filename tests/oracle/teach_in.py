"""Learning by telegram: the kinds of telegrams, what is done with each, and the replies."""

# How a teach-in telegram, and data of an unknown sender (one that is not learned), are handled: in the modes `on` and
# `answer`, and in the mode `as E`. In the mode `closed` all are ignored. A telegram that is not silent gives a teach
# line.
#
#   learn EEP    the sender is learned with this profile; one that is learned keeps its label
#   learn own    the sender is learned with the telegram's own profile; if that is not supported: `unsupported`
#   as RORG      if E is of this RORG, the sender is learned as E, and the mode is closed then; otherwise silent
#   forget       the sender is forgotten, with its label, if it is learned: `deleted`
#   tell WORD    nothing is learned or forgotten; this is the result
#   silent       nothing is learned, forgotten or reported
#
# The maker is the telegram's own, if it names one. If 1,000 other senders are learned, the result is `full`. A
# line with `unsupported`, with `deleted` or with the WORD has the telegram's own profile and maker.
ACTIONS_BY_TELEGRAM_KIND = {
    # Kind                 modes `on`, `answer`    mode `as E`
    "1BS teach-in":        ("learn D5-00-01",      "as D5"),
    "4BS bare teach-in":   ("tell no_profile",     "as A5"),
    "4BS query":           ("learn own",           "as A5"),
    "UTE teach-in":        ("learn own",           "silent"),
    "UTE deletion":        ("forget",              "silent"),
    "UTE not specified":   ("learn own",           "silent"),
    "UTE not used":        ("tell general",        "silent"),
    "RPS press, stranger": ("silent",              "as F6"),
    "VLD, stranger":       ("silent",              "as D2"),
    "reply":               ("silent",              "silent"),
    "data":                ("silent",              "silent"),
}

# The kinds of a UTE query, by bits 5 and 4 of its first byte.
UTE_QUERY_KINDS = ["UTE teach-in", "UTE deletion", "UTE not specified", "UTE not used"]

# The last byte of the reply to a 4BS query, by the result. There is a reply in the mode `answer` only. The other bytes
# are those of the query.
REPLY_CODES_4BS = {"accepted": 0xF0, "unsupported": 0x90, "full": 0xD0}

# Bits 5 and 4 of the first byte of the reply to a UTE query, by the result. Bit 7 is that of the query, bit 6 is 0, and
# the others are the number 1. There is a reply if bit 6 of the query's first byte is 0. The other bytes are those of
# the query.
REPLY_CODES_UTE = {"accepted": 1, "deleted": 2, "unsupported": 3, "full": 0, "general": 0}


def telegram_kind(rorg, payload, known):
    """The kind of a telegram, and the profile and the maker that it names."""
    last_byte = payload[-1]
    if rorg == 0xD4:
        first_byte, _, maker_low, maker_high, *profile = payload
        if first_byte % 16 != 0:
            return "reply", (None, None)
        eep = "-".join(f"{byte:02X}" for byte in reversed(profile))
        return UTE_QUERY_KINDS[first_byte // 16 % 4], (eep, maker_low + maker_high % 8 * 256)
    if rorg == 0xD5 and last_byte & 0x08 == 0:
        return "1BS teach-in", (None, None)
    if rorg == 0xA5 and last_byte & 0x08 == 0:
        if last_byte & 0x80 == 0:
            return "4BS bare teach-in", (None, None)
        if last_byte & 0x10:
            return "reply", (None, None)
        bits = int.from_bytes(payload, "big")
        func, variant, maker = bits >> 26, bits >> 19 & 0x7F, bits >> 8 & 0x7FF
        return "4BS query", (f"A5-{func:02X}-{variant:02X}", maker)
    if rorg == 0xF6 and not known and payload[0] & 0x10:
        return "RPS press, stranger", (None, None)
    if rorg == 0xD2 and not known:
        return "VLD, stranger", (None, None)
    return "data", (None, None)


def teach_in_reply_payload(kind, payload, mode, result):
    """The payload of the reply to a telegram with this result, or None if it gets none."""
    if kind == "4BS query" and mode == "answer":
        return [*payload[:3], REPLY_CODES_4BS[result]]
    if kind in UTE_QUERY_KINDS and payload[0] & 0x40 == 0:
        return [payload[0] & 0x80 | REPLY_CODES_UTE[result] << 4 | 1, *payload[1:]]
    return None
