"""The orders that a message holds, as lines for the desk."""
from __future__ import annotations

import re

from .topics import Topics

# The longest message, in bytes.
MAX_MESSAGE = 16384
# The gateway answers all longer lines alike, whatever they contain (docs/guide/orders.md).
MAX_LINE = 202
SHOWN_OF_A_PAYLOAD = 60
LEARN_ORDERS = {"ON": "learn on", "OFF": "learn off"}
DEVICE_PATTERN = "[0-9A-F]{8}"


class InvalidMessage(ValueError):
    """Why a message is ignored."""


def orders_of(topics: Topics, topic: str, payload: bytes) -> bytes:
    """The lines for the desk of the message on this topic, or InvalidMessage."""
    if len(payload) > MAX_MESSAGE:
        raise InvalidMessage(f"{len(payload)} bytes, the maximum is {MAX_MESSAGE}")
    if topic == topics.orders:
        return b"".join(without_cr(line)[:MAX_LINE] + b"\n" for line in payload.split(b"\n") if line)
    command = payload.decode("ascii", "replace")
    if topic == topics.learn_command:
        order, expected_text = LEARN_ORDERS.get(command), "ON or OFF"
    else:
        order, expected_text = command_order(topic.removeprefix(topics.root + "/"), command)
    if order is None:
        raise InvalidMessage(f"{payload[:SHOWN_OF_A_PAYLOAD]!r} is not {expected_text}")
    return order.encode() + b"\n"


def without_cr(line: bytes) -> bytes:
    """The line without the CR of CR LF, which the gateway would remove too. On the desk, `status` CR LF is the end of a
    text of enogatectl. If the line ends with several CRs, none is removed: with one fewer it would be another
    order."""
    return line[:-1] if line.endswith(b"\r") and not line.endswith(b"\r\r") else line


def command_order(subtopic: str, command: str) -> tuple[str | None, str]:
    """The order for a command at ID/OV/CHANNEL/set or ID/POS/0/set, if it is one, and what the subtopic expects."""
    percent = command if re.fullmatch("0|[1-9][0-9]?|100", command) else None
    if match := re.fullmatch(f"({DEVICE_PATTERN})/OV/([0-9]{{1,2}})/set", subtopic):
        return switch_order(f"{match[1]} {int(match[2])}", command, percent), "ON, OFF or 0 to 100"
    if match := re.fullmatch(f"({DEVICE_PATTERN})/POS/0/set", subtopic):
        return blind_order(match[1], command, percent), "OPEN, CLOSE, STOP or 0 to 100"
    raise InvalidMessage("the topic is not ID/OV/CHANNEL/set or ID/POS/0/set (with ID in upper case)")


def is_command(reading: str, command: str) -> bool:
    """Whether this is a command for the reading ID/NAME/CHANNEL."""
    try:
        return command_order(f"{reading}/set", command)[0] is not None
    except InvalidMessage:
        return False


def switch_order(channel: str, command: str, percent: str | None) -> str | None:
    """The order for a channel of an actuator."""
    if percent is not None:
        return f"dim {channel} {percent}"
    return f"switch {channel} {command.lower()}" if command in ("ON", "OFF") else None


def blind_order(device: str, command: str, percent: str | None) -> str | None:
    """The order for a blind. In the profile, 0 % is open and 100 % is closed."""
    if command == "STOP":
        return f"stop {device}"
    percent = {"OPEN": "0", "CLOSE": "100"}.get(command, percent)
    return None if percent is None else f"blind {device} {percent}"
