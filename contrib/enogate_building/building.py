"""The building: its sheet, its time, its radio channel, its devices and sticks."""
import heapq
import itertools
import random
import re
from collections.abc import Callable, Iterable
from typing import Any

from enogate_ctl.sheet import DeviceRow, InvalidRow, Sheet
from enogate_tools import esp3, share

from .actuators import Actuator, Blind, Outputs
from .devices import Device, RefusedCommand, Row
from .radio import Place, Telegram, strength
from .stick import Stick

FIRST_BASE, BASE_STEP = 0xFF800000, 0x1000
# By how much a period may be shorter than the usual one.
JITTER = 0.1
# The columns of a sheet that only a building reads: the lowest and the highest number, and whether it has to be whole.
NUMBER_COLUMNS = {"x": (-9999, 9999, ""), "y": (-9999, 9999, ""), "floor": (-99, 99, "whole "),
                  "period": (0, 999999, "")}


def read_sheet(text: str) -> list[Row]:
    """The devices of a sheet, which is read as `enogatectl devices --import` reads it; Refused names all its faults."""
    sheet, rows, faults = Sheet(text), dict[int, Row](), list[str]()
    for row_number, planned_row in sheet.rows():
        row = row_of(planned_row, sheet) if isinstance(planned_row, DeviceRow) else planned_row
        if isinstance(row, Row):
            rows[row.device] = row
        else:
            faults.append(f"row {row_number}: {row}")
    if faults or not rows:
        raise RefusedCommand("\n".join(faults) or "the input has no devices")
    return list(rows.values())


def row_of(row: DeviceRow, sheet: Sheet) -> Row | InvalidRow:
    """A row with its numbers, which may have a decimal comma, and the apostrophe of an export before a sign."""
    if not share.device_kind(row.eep):
        return InvalidRow(f"{row.device}: {sheet.reason('unsupported_profile')}")
    values: dict[str, Any] = {"x": 0, "y": 0, "floor": 0, "period": None}
    for heading, cell in zip(sheet.other_heads, row.others):
        if cell and (name := heading.lower()) in NUMBER_COLUMNS:
            match = re.fullmatch("'?(-?[0-9]+)[.,]?([0-9]*)", cell)
            (least, greatest, whole_or_empty) = NUMBER_COLUMNS[name]
            values[name] = float(".".join(match.groups()) if match else "inf")
            if not least <= values[name] <= greatest or whole_or_empty and values[name] % 1:
                return InvalidRow(f"{heading}: {cell!r} is not a {whole_or_empty}number from {least} to {greatest}")
    *coordinates, period = values.values()
    return Row(int(row.device, 16), row.eep, Place(*coordinates), period)


class Building:
    """A building, whose time passes only by `advance`. The same rows, sticks and seed, and the same calls at the same
    times, give the same bytes at the sticks. In a quiet building no device sends by itself."""

    def __init__(self, rows: Iterable[Row], seed: int = 1, is_quiet: bool = False):
        self.now, self.rng, self.event_numbers = 0.0, random.Random(seed), itertools.count()
        self.due_calls: list[tuple[float, int, Callable[[], Any]]] = []
        self.sticks: dict[str, Stick] = {}
        self.devices: dict[int, Device] = {}
        for row in rows:
            kind = {"D2-01": Outputs, "D2-05": Blind}.get(row.eep[:5], Device)
            self.devices[row.device] = device = kind(row, self, random.Random(f"{seed} {row.device}"))
            if device.period and not is_quiet:
                self.call_after(device.period
                                * device.rng.random(), lambda device=device: self.report_and_repeat(device))

    def add_stick(self, name: str, place: Place, port: Any) -> None:
        """Another stick is plugged in."""
        self.sticks[name] = Stick(place, FIRST_BASE + BASE_STEP * len(self.sticks), port, self)

    def call_after(self, seconds: float, due_call: Callable[[], Any]) -> None:
        """Calls this after so many seconds."""
        heapq.heappush(self.due_calls, (self.now + seconds, next(self.event_numbers), due_call))

    def advance(self, until: float) -> None:
        """Lets time pass. What is due happens at its time."""
        while self.due_calls and self.due_calls[0][0] <= until:
            self.now, _, due_call = heapq.heappop(self.due_calls)
            due_call()
        self.now = max(self.now, until)

    def report_and_repeat(self, device: Device) -> None:
        """A device sends by itself, and again after its period."""
        device.report()
        self.call_after(device.period * (1 - JITTER * device.rng.random()), lambda: self.report_and_repeat(device))

    def send(self, telegram: Telegram, sender: Device | Stick) -> None:
        """The other sticks hear a telegram, and the actuator to which it is addressed, if they are near enough."""
        for stick in self.sticks.values():
            if (dbm := strength(sender.place, stick.place, self.rng)) and stick is not sender:
                stick.port.write(esp3.telegram(*telegram, dbm))
        device = self.devices.get(telegram.destination)
        if isinstance(device, Actuator) and not device.is_dead and strength(sender.place, device.place, self.rng):
            device.hear(telegram)
