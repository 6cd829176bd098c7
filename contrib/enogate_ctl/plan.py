"""Compares the devices of a gateway with the sheet of a planner."""
from __future__ import annotations

from collections.abc import Collection, Iterable
from typing import NamedTuple

from enogate_lines.contents import Listed
from enogate_tools import share

from . import words
from .sheet import DeviceRow, InvalidRow, Sheet, devices_as_csv
from .tables import table

HEADINGS = ("ROW", "LABEL", "ID", "PROFILE", "STATE")


class Comparison(NamedTuple):
    """What is printed, and whether all planned devices, and no others, are learned as planned and were heard."""
    text: str
    is_complete: bool


def planned_rows(sheet: Sheet) -> tuple[dict[str, tuple[int, DeviceRow]], list[tuple[int, InvalidRow]]]:
    """The planned devices by their IDs, each with the number of its row; and the rows that have none."""
    planned: dict[str, tuple[int, DeviceRow]] = {}
    invalid: list[tuple[int, InvalidRow]] = []
    for number, row in sheet.rows():
        if isinstance(row, DeviceRow):
            planned.setdefault(row.device, (number, row))
        else:
            invalid.append((number, row))
    return planned, invalid


def export_with_plan(devices: Iterable[Listed], sheet: Sheet) -> str:
    """The learned devices as CSV, with the other columns of the plan."""
    planned, _ = planned_rows(sheet)
    others = {device: row.others for device, (_, row) in planned.items()}
    return devices_as_csv(devices, sheet.other_heads, others)


def state_of(row: DeviceRow, learned: dict[str, Listed], heard: Collection[str]) -> str:
    """The state of a planned device."""
    if row.device not in learned:
        return "missing" if share.device_kind(row.eep) else "profile not supported"
    eep = learned[row.device].eep
    if eep != row.eep:
        return f"learned as {eep}"
    return "heard" if row.device in heard else "learned, not heard"


def compare(sheet: Sheet, devices: Iterable[Listed], heard: Collection[str]) -> Comparison:
    """Compares a plan with the learned devices, and with those that were heard."""
    planned, invalid = planned_rows(sheet)
    learned = {device.device: device for device in devices}
    states = {device: state_of(row, learned, heard) for device, (_, row) in planned.items()}
    unplanned = [device for name, device in learned.items() if name not in planned]
    rows = [(*HEADINGS, *(head.upper() for head in sheet.other_heads))]
    rows += [(str(number), learned[device].label if device in learned else row.label, device, row.eep, states[device],
              *row.others) for device, (number, row) in planned.items()]
    rows += [("", device.label, device.device, device.eep, "not planned", *("" for _ in sheet.other_heads))
             for device in unplanned]
    heard_count, missing = sum(state == "heard" for state in states.values()), len(planned.keys() - learned.keys())
    total = f"{len(planned)} planned, {len(planned) - missing} learned, {heard_count} heard, {missing} missing"
    more = f"; {len(unplanned)} learned, but not planned" if unplanned else ""
    lines = [table([tuple(map(words.printable, row)) for row in rows])] if len(rows) > 1 else []
    lines += [f"row {number}: {words.printable(str(row))}" for number, row in invalid]
    is_complete = heard_count == len(planned) > 0 and not unplanned and not invalid
    return Comparison("\n".join([*lines, total + more]), is_complete)
