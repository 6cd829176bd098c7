"""Why a packet is handled as it is: the lines of `--explain`. Each word except `refused` is below."""
from oracle.esp3 import BROADCAST_ID
from oracle.profiles import telegram_readings, unreadable_reason
from oracle.teach_in import telegram_kind

# The words, by the count that their packets increment. Those of `teach` are the results of the teach line.
REASONS_BY_COUNTER = {
    "responses": ["response"],
    "readings": ["read"],
    "teach": ["accepted", "deleted", "unsupported", "full", "general", "no_profile"],
    "ignored": [
        "empty_response",
        "other_type",
        "no_telegram",
        "from_broadcast",
        "for_others",
        "teach_in_reply",
        "window_closed",
        "other_mode",
        "unknown_sender",
        "wrong_kind",
        "wrong_length",
        "other_message",
    ],
}
COUNTER_BY_REASON = {reason: counter for counter, reasons in REASONS_BY_COUNTER.items() for reason in reasons}

# The kinds of telegrams that are data, and the words of data whose sender is learned.
DATA_TELEGRAM_KINDS = ["data", "RPS press, stranger", "VLD, stranger"]
REASONS_OF_LEARNED_SENDERS = ["read", "wrong_kind", "wrong_length", "other_message"]


def first_true_case(cases):
    """The word of the first case that holds."""
    return next(word for word, is_true in cases if is_true)


def packet_reason(kind, data):
    """Why, for a packet without a telegram."""
    return first_true_case(
        [
            ("response", kind == 2 and data),
            ("empty_response", kind == 2),
            ("other_type", kind != 1),
            ("no_telegram", True),
        ]
    )


def telegram_reason(telegram, mode, known_device, teach_result):
    """The reason, for a telegram that came in this mode. `known` has the stored profile and maker of its sender; it is
    None if the sender was not learned. `taught` has the profile, the maker and the result of its teach line, if any."""
    kind, _ = telegram_kind(telegram.rorg, telegram.payload, known_device is not None)
    is_data = kind in DATA_TELEGRAM_KINDS
    return first_true_case(
        [
            ("from_broadcast", telegram.sender == BROADCAST_ID),
            ("for_others", not telegram.is_for_gateway()),
            ("teach_in_reply", kind == "reply"),
            (teach_result and teach_result[2], teach_result),
            ("window_closed", not is_data and mode == "closed"),
            ("other_mode", not is_data),
            ("unknown_sender", known_device is None),
            ("read", known_device
             and telegram_readings(known_device[0], telegram.rorg, telegram.payload, telegram.status) is not None),
            (known_device and unreadable_reason(known_device[0], telegram.rorg, telegram.payload), True),
        ]
    )


def explanation_members(telegram, reason, known_device, teach_result):
    """The members of the line for a telegram. Its profile and maker are those that it contains itself, as a query does;
    otherwise those with which its sender is learned, by this telegram or, if it is data that is read, before."""
    eep, maker = telegram_kind(telegram.rorg, telegram.payload, known_device is not None)[1]
    if eep is None and reason == "accepted":
        eep, maker, _ = teach_result
    elif eep is None and reason in REASONS_OF_LEARNED_SENDERS:
        eep, maker = known_device
    return {
        "dbm": telegram.dbm,
        "dest": None if telegram.destination == BROADCAST_ID else f"{telegram.destination:08X}",
        "eep": eep,
        "id": f"{telegram.sender:08X}",
        "maker": maker,
        "payload": telegram.payload.hex().upper(),
        "rorg": f"{telegram.rorg:02X}",
        "status": f"{telegram.status:02X}",
    }
