"""What the unit tests of the virtual building have in place of terminals, clock and chance."""
from __future__ import annotations

import pathlib
import unittest

from enogate_building.building import Building, read_sheet
from enogate_building.devices import Row
from enogate_building.radio import Place
from oracle.esp3 import packet, packets_in_stream

SHEET = pathlib.Path(__file__).parents[2] / "contrib/share/building.csv"
HERE = Place(0, 0, 0)
BASE, OTHER_BASE = 0xFF800000, 0xFF801000
DEVICE = 0x01800ABC
FAR_AWAY = Place(400, 0, 0)


class Wire:
    """A port that keeps what its gateway gets."""

    def __init__(self) -> None:
        self.received_bytes, self.is_plugged_in = b"", False

    def plug(self) -> None:
        self.is_plugged_in = True

    def unplug(self) -> None:
        self.is_plugged_in = False

    def write(self, stream: bytes) -> None:
        self.received_bytes += stream if self.is_plugged_in else b""

    def handle_bytes(self) -> list[tuple[int, bytes, bytes]]:
        """The packets since the last call, as the oracle finds them."""
        packets, self.received_bytes = list(packets_in_stream(self.received_bytes)), b""
        return packets

    def telegrams(self) -> list[str]:
        """The telegrams since the last call, each as RORG PAYLOAD SENDER STATUS DESTINATION, without its strength."""
        return [" ".join(field.hex() for field in (data[:1], data[1:-5], data[-5:-1], data[-1:], optional[1:5])).upper()
                for kind, data, optional in self.handle_bytes() if kind == 1]


class EvenRandom:
    """A chance without chance: nothing varies."""

    def random(self) -> float:
        return 0.5


def sent_packet(payload: str, destination: int, base: int = BASE, rorg: int = 0xD2) -> bytes:
    """The packet of an order or a reply of a gateway to a device."""
    data = bytes([rorg]) + bytes.fromhex(payload) + base.to_bytes(4, "big") + b"\0"
    return packet(1, data, b"\x03" + destination.to_bytes(4, "big") + b"\xff\0")


class BuildingTest(unittest.TestCase):
    """A quiet building with sticks at the same place as all devices that have no other place."""

    maxDiff = None

    def build(self, *devices: tuple[int, str], sticks: int = 1, is_quiet: bool = True, period: float | None = None,
              place: Place = HERE) -> Building:
        building = Building([Row(device, eep, place, period) for device, eep in devices], 1, is_quiet)
        self.wires = [Wire() for _ in range(sticks)]
        for index, wire in enumerate(self.wires):
            building.add_stick(f"stick{index}", HERE, wire)
        self.building, self.wire = building, self.wires[0]
        return building

    def give(self, payload: str, device: int = DEVICE, base: int = BASE, rorg: int = 0xD2,
             stick: str = "stick0") -> None:
        """A gateway sends this to a device. The response of the module is taken off."""
        self.building.sticks[stick].handle_bytes(sent_packet(payload, device, base, rorg))
        self.assertEqual(self.wires[int(stick[-1])].handle_bytes()[-1:], [(2, b"\0", b"")])

    def answers(self, seconds: float = 0.1) -> list[str]:
        """What the first stick hears within this time."""
        self.building.advance(self.building.now + seconds)
        return self.wire.telegrams()


def full_building(seed: int = 1) -> tuple[Building, list[Wire]]:
    """The building of the sheet with two sticks."""
    building, wires = Building(read_sheet(SHEET.read_text()), seed), [Wire(), Wire()]
    for (name, place), wire in zip((("ground", Place(7, 6, 0)), ("attic", Place(33, 6, 1))), wires):
        building.add_stick(name, place, wire)
    return building, wires
