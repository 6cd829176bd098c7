"""Devices of a building. Those of this module only send: switches, contacts and sensors."""
import functools
import math
import random
import re
from typing import Any, NamedTuple

from enogate_tools import share
from enogate_tools.esp3 import BROADCAST_ID

from .radio import Place, Telegram

RPS, ONE_BYTE, FOUR_BYTES = 0xF6, 0xD5, 0xA5
# The manufacturer ID that any manufacturer may use.
MANUFACTURER = 0x7FF
BUTTONS = ("AI", "A0", "BI", "B0", "CI", "C0", "DI", "D0")
PRESS_SECONDS = 0.25
# How often contacts and sensors send by themselves, in seconds. Others do not.
PERIOD_BY_RORG = {ONE_BYTE: 1500.0, FOUR_BYTES: 600.0}
SECONDS_OF_A_DAY = 86400.0
# What sensors measure: the mean, how much it swings in a day, by how much devices differ, the noise of each telegram,
# and how much is added in a day.
MEASURED_QUANTITIES = {"TMP": (21, 1.5, 2, 0.1, 0), "HUM": (45, -5, 8, 0.3, 0), "CONC": (800, 350, 100, 15, 0),
                       "ILL": (350, 300, 40, 10, 0), "SVC": (3.0, 0, 0.2, 0, 0), "PIRS": (0.4, 0.3, 0, 0.5, 0),
                       "SP": (128, 0, 40, 0, 0), "MR": (500, 0, 400, 0, 10)}
# A field of the table `payloads`: its name, place and length, and the raw numbers and the values of both ends.
FIELD_PATTERN = re.compile(r"(\w+):(\d+)\+(\d+):(\d+)\.\.(\d+):(\S+?)\.\.(\S+)")


class RefusedCommand(ValueError):
    """A sheet or a command is invalid. The text says why."""


class Row(NamedTuple):
    """A device of the sheet. Without a period it sends as often as is usual for its kind; with 0, never by itself."""
    device: int
    eep: str
    place: Place
    period: float | None = None


@functools.cache
def payload_form(eep: str) -> tuple[int, list[tuple[str, int, list[float]]]]:
    """The constant bits of a payload, and its fields: the name, the number of bits after it, and both ends."""
    [line] = [line for line in share.table_lines("payloads") if line.startswith(eep)]
    fields = [(name, 32 - int(offset) - int(length), list(map(float, ends)))
              for name, offset, length, *ends in FIELD_PATTERN.findall(line)]
    return int(line.split()[1], 16), fields


class Device:
    """A device. A dead one is silent. `deviation` says by how much a sensor differs from others, from -1 to 1."""
    is_dead, is_closed = False, True

    def __init__(self, row: Row, building: Any, rng: random.Random):
        self.row, self.place, self.building, self.rng = row, row.place, building, rng
        self.rorg, self.func, self.eep_type = (int(part, 16) for part in row.eep.split("-"))
        self.period = PERIOD_BY_RORG.get(self.rorg, 0.0) if row.period is None else row.period
        self.deviation = 2 * rng.random() - 1

    def transmit(self, rorg: int, payload: bytes, status: int = 0, destination: int = BROADCAST_ID) -> None:
        """Sends a telegram."""
        if not self.is_dead:
            self.building.send(Telegram(rorg, payload, self.row.device, status, destination), self)

    def press(self, button: str = "") -> None:
        """A button of a switch is pressed, and soon released."""
        buttons = {1: ("",), 2: BUTTONS[:4], 3: BUTTONS}[self.func]
        if button and button not in buttons:
            raise RefusedCommand(f"{self.row.eep} has no button {button}")
        self.transmit(RPS, bytes([buttons.index(button or buttons[0]) << 5 | 0x10]), 0x30)
        self.building.call_after(PRESS_SECONDS, self.report)

    def report(self) -> None:
        """Sends its state, or what it measures. No button of a switch is pressed."""
        if self.rorg == RPS:
            self.transmit(RPS, b"\0", 0x20)
        elif self.rorg == ONE_BYTE:
            self.transmit(ONE_BYTE, bytes([8 | self.is_closed]))
        else:
            payload_bits, fields = payload_form(self.row.eep)
            for name, shift, (first_raw, last_raw, first_value, last_value) in fields:
                fraction = max(0.0, min(1.0, (self.measure(name) - first_value) / (last_value - first_value)))
                payload_bits |= round(first_raw + fraction * (last_raw - first_raw)) << shift
            self.transmit(FOUR_BYTES, payload_bits.to_bytes(4, "big"))

    def measure(self, name: str) -> float:
        """What a sensor measures now: the building has days and nights."""
        mean, swing, spread, noise, growth = MEASURED_QUANTITIES[name]
        elapsed_days, random_part = self.building.now / SECONDS_OF_A_DAY, noise * (2 * self.rng.random() - 1)
        return (mean + swing * math.sin(2 * math.pi * elapsed_days) + spread * self.deviation + random_part
                + growth * elapsed_days)

    def teach_in(self) -> None:
        """Sends what its learn button sends. A switch has none: any press teaches it in."""
        if self.rorg == RPS:
            self.press()
        elif self.rorg == ONE_BYTE:
            self.transmit(ONE_BYTE, b"\0")
        else:
            query = self.func << 26 | self.eep_type << 19 | MANUFACTURER << 8 | 0x80
            self.transmit(FOUR_BYTES, query.to_bytes(4, "big"))
