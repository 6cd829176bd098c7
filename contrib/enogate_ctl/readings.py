"""Readings in words, for people."""
from __future__ import annotations

from decimal import Decimal

from enogate_lines.contents import Reading, Telegram
from enogate_lines.entities import Table


def readings_text(telegram: Telegram, table: Table) -> str:
    """The readings of a telegram without details; all of them, if none is more than a detail."""
    shown = [item for item in telegram.readings if not is_detail(item, telegram.eep, table)] or telegram.readings
    return ", ".join(channel_prefix(item, telegram, table) + reading_text(item, telegram.eep, table) for item in shown)


def is_detail(item: Reading, eep: str, table: Table) -> bool:
    """Whether people need not see this reading, if the device has others."""
    row = table.row_of_reading(eep, item)
    return row is not None and row.is_detail(item.text)


def channel_prefix(item: Reading, telegram: Telegram, table: Table) -> str:
    """The text before a reading: the channel, if the actuator has several. Otherwise empty."""
    row = table.row_of_reading(telegram.eep, item)
    numbers = {other.name: other.number for other in telegram.readings}
    return f"channel {numbers[row.by]}: " if row and row.count > 1 and numbers.get(row.by) is not None else ""


def reading_text(item: Reading, eep: str, table: Table) -> str:
    """A reading with its name, at most two decimals, and its unit."""
    row = table.row_of_reading(eep, item)
    unit = row.more.get("unit", item.unit) if row and item.unit else item.unit
    name = row.name_for_people if row else item.name
    return " ".join(filter(None, (name, rounded_text(item.text) if item.unit else item.text, unit)))


def rounded_text(number: str) -> str:
    """A number with at most two decimals."""
    shown = f"{round(Decimal(number), 2):f}"
    return shown.rstrip("0").rstrip(".") if "." in shown else shown
