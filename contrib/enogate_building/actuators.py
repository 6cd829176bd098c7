"""Actuators: they learn a gateway by universal teach-in (UTE), and obey only gateways that they have learned."""
import random
from typing import Any

from enogate_tools import share

from .devices import MANUFACTURER, Device, Row
from .radio import Telegram

RORG_VLD, RORG_UTE = 0xD2, 0xD4
# The first byte of a query, which asks for teach-in and a reply, and that of the reply that accepts it.
UTE_QUERY_BYTE, UTE_ACCEPTED_BYTE = 0x80, 0x91
# How long a device waits for this reply, and how long it takes to answer an order, in seconds.
LEARN_SECONDS, ANSWER_SECONDS = 600.0, 0.05
ALL_CHANNELS = 30
# What an output at 100 % uses, in watts, and how far a blind moves in a second, in percent.
LOAD_WATTS, PERCENT_PER_SECOND = 100, 5.0


class Actuator(Device):
    """`owners` are the base IDs that it has learned. `obey` carries out an order, and returns the answers. `statuses`
    are the payloads of its state, and `values` those of its channels."""

    def __init__(self, row: Row, building: Any, rng: random.Random):
        super().__init__(row, building, rng)
        self.owners: set[int] = set()
        self.channels = 2 if share.device_kind(row.eep).endswith("2 channels") else 1
        self.ute_query = bytes([UTE_QUERY_BYTE, self.channels, MANUFACTURER & 0xFF, MANUFACTURER >> 8, self.eep_type,
                                self.func, RORG_VLD])
        self.values, self.learns_until = [0] * self.channels, -1.0

    def teach_in(self) -> None:
        self.learns_until = self.building.now + LEARN_SECONDS
        self.transmit(RORG_UTE, self.ute_query)

    def hear(self, telegram: Telegram) -> None:
        """A telegram is addressed to it. It learns the sender of the first reply, and obeys what it has learned."""
        if telegram[:2] == (RORG_UTE,
                            bytes([UTE_ACCEPTED_BYTE]) + self.ute_query[1:]) and self.building.now <= self.learns_until:
            self.owners.add(telegram.sender)
            self.learns_until = -1.0
        elif telegram.rorg == RORG_VLD and telegram.sender in self.owners:
            for answer in self.obey(telegram.payload):
                self.building.call_after(ANSWER_SECONDS, lambda answer=answer: self.transmit(RORG_VLD, answer, 0,
                                                                                             telegram.sender))

    def report(self) -> None:
        for status in self.statuses():
            self.transmit(RORG_VLD, status)


class Outputs(Actuator):
    """An electronic switch or a dimmer (D2-01). It measures the energy of a load that is always on."""

    def obey(self, order: bytes) -> list[bytes]:
        command_and_size, channel = (order[0] & 0x0F, len(order)), order[1] & 0x1F if len(order) > 1 else None
        channels = [number for number in range(self.channels) if channel in (number, ALL_CHANNELS)]
        if command_and_size == (1, 3) and order[2] & 0x7F <= 100:
            for number in channels:
                self.values[number] = order[2] & 0x7F
        elif command_and_size == (6, 2):
            return [self.measurement(number, bool(order[1] & 0x80)) for number in channels]
        elif command_and_size != (3, 2):
            return []
        return [self.statuses()[number] for number in channels]

    def statuses(self) -> list[bytes]:
        """For each channel. Errors are not supported, and local control is enabled."""
        return [bytes([4, 0x60 | channel, 0x80 | value]) for channel, value in enumerate(self.values)]

    def measurement(self, channel: int, is_power: bool) -> bytes:
        """The power of a channel in W (unit 3), or the energy in Wh (unit 1)."""
        amount = LOAD_WATTS * self.values[channel] // 100 if is_power else int(LOAD_WATTS * self.building.now / 3600)
        return bytes([7, (3 if is_power else 1) << 5 | channel, *amount.to_bytes(4, "big")])


class Blind(Actuator):
    """A blind (D2-05). It takes its time, and does not know the angle of its slats."""
    start_position, target_position, start_time = 0.0, 0.0, 0.0

    def position(self) -> float:
        """Where it is now: 0 is open, and 100 closed."""
        distance = PERCENT_PER_SECOND * (self.building.now - self.start_time)
        return self.start_position + max(-distance, min(distance, self.target_position - self.start_position))

    def obey(self, order: bytes) -> list[bytes]:
        command_and_size = order[-1] & 0x0F, len(order)
        if command_and_size == (1, 4) and order[0] & 0x7F <= 100:
            self.move(order[0] & 0x7F)
        elif command_and_size == (2, 1):
            self.move(self.position())
        return self.statuses() if command_and_size == (3, 1) else []

    def move(self, target: float) -> None:
        """Moves there, and reports when it arrives, unless another order comes first."""
        self.start_position, self.target_position, self.start_time = self.position(), target, self.building.now
        seconds = ANSWER_SECONDS + abs(self.target_position - self.start_position) / PERCENT_PER_SECOND
        start_time = self.start_time
        self.building.call_after(seconds, lambda: self.report() if start_time == self.start_time else None)

    def statuses(self) -> list[bytes]:
        return [bytes([round(self.position()), 0x7F, 0, 4])]
