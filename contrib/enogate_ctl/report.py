"""What a device reports after an order. The answer `ok` says only that the order was sent; the next reading of the
device shows that it arrived."""
from __future__ import annotations

from collections.abc import Iterable
from typing import NamedTuple

from enogate_lines.contents import Listed, Telegram
from enogate_lines.entities import ALL_CHANNELS, Table

from .readings import readings_text
from .recent import channel_of, telegram_in

# An order with this first word asks for one of these values. After other orders, any report shows that they arrived.
ASKED_READINGS = {"query": {"OV", "POS"}, "meter": {"MV"}}
# The profiles whose readings have a channel.
CHANNEL_PROFILES = "D2-01-"
# The entities that show the outputs of these devices.
OUTPUTS = ("switch", "light")


class Report(NamedTuple):
    """A telegram of a device, and the line that has it."""
    telegram: Telegram
    line: bytes

    @property
    def text(self) -> str:
        """Its readings, for people."""
        return readings_text(self.telegram, Table())


def is_report(telegram: Telegram, order: str) -> bool:
    """Whether this telegram, which came after the order, reports what the order did."""
    verb, device, *numbers = order.split(" ")
    found = {reading.name for reading in telegram.readings}
    if telegram.device != device.upper() or not ASKED_READINGS.get(verb, found) & found:
        return False
    has_channels = telegram.eep.startswith(CHANNEL_PROFILES)
    return not has_channels or int(numbers[0]) in (ALL_CHANNELS, channel_of(telegram))


def missing_channel(order: str, devices: Iterable[Listed]) -> str:
    """Which channels the device of an order has, if it does not have that of the order; otherwise empty."""
    _, device, *numbers = order.split(" ")
    eeps = [one.eep for one in devices if one.device == device.upper() and one.eep.startswith(CHANNEL_PROFILES)]
    counts = [row.count for eep in eeps for row in Table().rows_of_profile(eep).values() if row.entity in OUTPUTS]
    if not counts or int(numbers[0]) in (ALL_CHANNELS, *range(counts[0])):
        return ""
    return f"it has only the channel{'s' * (counts[0] > 1)} {', '.join(map(str, range(counts[0])))}"


def report_in(line: bytes, order: str) -> Report | None:
    """The report on the order, if this line has it."""
    telegram = telegram_in(line)
    return Report(telegram, line) if telegram and is_report(telegram, order) else None
