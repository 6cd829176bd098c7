"""The contents of the gateway's lines, as far as programs use them: parses a line, and checks each field's bounds."""
from __future__ import annotations

import json
import re
from typing import NamedTuple

SHOWN_OF_A_LINE = 60
# What a gateway writes is within these bounds. Texts are printable ASCII: labels have at most 32 characters
# (docs/guide/orders.md), and names, words and units are shorter. A signal strength is a negated byte.
MAX_TEXT, MAX_READINGS, MAX_MAKER, MAX_BYTE = 32, 64, 2047, 255
MAX_SIGNED, MAX_UNSIGNED = 2 ** 63 - 1, 2 ** 64 - 1
TEXT_PATTERN, OPTIONAL_TEXT_PATTERN = f"[ -~]{{1,{MAX_TEXT}}}", f"[ -~]{{0,{MAX_TEXT}}}"
# A name is part of a topic, so it may contain only letters, digits and _.
NAME_PATTERN = f"[A-Za-z0-9_]{{1,{MAX_TEXT}}}"
PROFILE_PATTERN = "[0-9A-F]{2}-[0-9A-F]{2}-[0-9A-F]{2}"


class BadLine(Exception):
    """Not a line of a gateway: a full disk truncated it, or another program wrote it."""

    def __init__(self, line: bytes):
        super().__init__(f"invalid line ignored: {line[:SHOWN_OF_A_LINE]!r}")


class UnexpectedMember(ValueError):
    """A member of a line has an unexpected value."""


class Reading(NamedTuple):
    """A named value of a telegram. `number` is set if the value has no unit."""
    name: str
    unit: str
    text: str
    number: int | None


class Telegram(NamedTuple):
    """The readings of a telegram."""
    device: str
    eep: str
    dbm: int | None
    readings: tuple[Reading, ...]


class Learned(NamedTuple):
    """A device was learned."""
    device: str
    eep: str
    maker: int | None


class Deleted(NamedTuple):
    """A device was deleted."""
    device: str


class Listed(NamedTuple):
    """A device, as `list` reports it."""
    device: str
    eep: str
    label: str
    maker: int | None


class EndOfList(NamedTuple):
    """The end of a list, with the number of its devices."""
    count: int


class Status(NamedTuple):
    """The answer to `status`: the mode of the learn window, and the counters by their names."""
    mode: str
    counters: dict[str, int]


class Response(NamedTuple):
    """A response of the radio module: its return code, and the data after it as hexadecimal digits."""
    code: int
    data: str


class UnknownSender(NamedTuple):
    """A packet whose sender is not learned."""
    device: str


class OkOrError(NamedTuple):
    """An order was carried out, or refused; a packet that failed gives the same error."""


class Other(NamedTuple):
    """A line with other contents."""


class Strange(NamedTuple):
    """A line of a known type with unexpected members: some are missing, of another kind, or beyond their bounds."""
    complaint: str


Content = (Telegram | Learned | Deleted | Listed | EndOfList | Status | Response | UnknownSender | OkOrError | Other
           | Strange)
COUNTERS = ("ignored", "readings", "refused", "responses", "teach")


def members_of(line: bytes) -> dict[str, object]:
    """The members of a line, one of which is its type, or BadLine."""
    try:
        members = json.loads(line.decode("ascii"))
        members["type"]
    except (ValueError, TypeError, KeyError, RecursionError) as error:
        raise BadLine(line) from error
    return members


def content_of(line: bytes) -> Content:
    """The contents of a line, or BadLine."""
    return content_of_members(members_of(line), line)


def content_of_members(members: dict[str, object], line: bytes) -> Content:
    """The contents of a line with these members."""
    try:
        return content_by_type(members["type"], members)
    except (ValueError, TypeError, KeyError):
        return Strange(f"line with unexpected members, not decoded: {line[:SHOWN_OF_A_LINE]!r}")


def content_by_type(kind: str, members: dict[str, object]) -> Content:
    """The contents of a line of this type."""
    match kind, members.get("result"):
        case "reading", _:
            return Telegram(device_of(members), eep_of(members), dbm_of(members), readings_of(members["readings"]))
        case "teach", "accepted":
            return Learned(device_of(members), eep_of(members), maker_of(members))
        case "teach", "deleted":
            return Deleted(device_of(members))
        case "device", _:
            return Listed(device_of(members), eep_of(members), checked_text(members["label"], OPTIONAL_TEXT_PATTERN),
                          maker_of(members))
        case "list", _:
            return EndOfList(checked_count(members["count"]))
        case "status", _:
            counters = {name: checked_count(members[name]) for name in COUNTERS}
            return Status(checked_text(members["mode"], TEXT_PATTERN), counters)
        case "response", _:
            return Response(checked_number(members["code"], 0, MAX_BYTE),
                            checked_text(members["data"], "(?:[0-9A-F]{2})*"))
        case "packet", _ if members.get("why") == "unknown_sender":
            return UnknownSender(device_of(members))
        case "ok" | "error", _:
            return OkOrError()
    return Other()


def readings_of(members: object) -> tuple[Reading, ...]:
    """The readings of a telegram."""
    if not isinstance(members, list) or len(members) > MAX_READINGS:
        raise UnexpectedMember
    return tuple(map(reading_of, members))


def reading_of(members: dict[str, object]) -> Reading:
    """A reading of a telegram."""
    name = checked_text(members["name"], NAME_PATTERN)
    if "num" in members:
        # imported only here, since most commands of enogatectl(1) need no numbers, and imports take most of their time
        from .decimals import decimal
        value = decimal(checked_number(members["num"], -MAX_SIGNED - 1, MAX_SIGNED),
                        checked_number(members["den"], 1, MAX_SIGNED))
        return Reading(name, checked_text(members["unit"], OPTIONAL_TEXT_PATTERN), value, None)
    if "word" in members:
        return Reading(name, "", checked_text(members["word"], TEXT_PATTERN), None)
    if "raw" in members:
        raw = checked_count(members["raw"])
        return Reading(name, "", str(raw), raw)
    checked_count(members["out_of_range"])
    return Reading(name, "", "out_of_range", None)


def device_of(members: dict[str, object]) -> str:
    return checked_text(members["id"], "[0-9A-F]{8}")


def eep_of(members: dict[str, object]) -> str:
    return checked_text(members["eep"], PROFILE_PATTERN)


def maker_of(members: dict[str, object]) -> int | None:
    return None if members["maker"] is None else checked_number(members["maker"], 0, MAX_MAKER)


def dbm_of(members: dict[str, object]) -> int | None:
    return None if members["dbm"] is None else checked_number(members["dbm"], -MAX_BYTE, 0)


def checked_text(value: object, pattern: str) -> str:
    """A string that matches this pattern."""
    if not isinstance(value, str) or not re.fullmatch(pattern, value):
        raise UnexpectedMember
    return value


def checked_number(value: object, least: int, greatest: int) -> int:
    """An integer within these bounds."""
    if not isinstance(value, int) or isinstance(value, bool) or not least <= value <= greatest:
        raise UnexpectedMember
    return value


def checked_count(value: object) -> int:
    return checked_number(value, 0, MAX_UNSIGNED)
