"""The workloads of `bench/replay` and `bench/instructions`: scripts for `enogate replay`."""
import functools
import io
import itertools
import pathlib
import random
import sys
import typing

ROOT = pathlib.Path(__file__).resolve().parent.parent
sys.path.insert(0, str(ROOT / "tests"))

from oracle.esp3 import packet, serial_script_lines, telegram_packet

PROGRAM = ROOT / "crates/enogate/out/enogate"  # what `make build` makes

SENDERS = [0x01800000 + 0x111 * number for number in range(200)]
CONTACT_TELEGRAMS = [telegram_packet(0xD5, b"\x09", sender) for sender in SENDERS]
# For each kind of device (contact, rocker, temperature sensor): its profile, and the RORG, the payload and the status
# of its telegrams.
DEVICE_KINDS = [
    ("D5-00-01", 0xD5, b"\x09", 0), ("F6-02-01", 0xF6, b"\x50", 0x30), ("A5-02-05", 0xA5, b"\0\0\x7F\x08", 0)]
SENDERS_WITH_KINDS = list(zip(SENDERS, itertools.cycle(DEVICE_KINDS)))
MIXED_TELEGRAMS = [
    telegram_packet(rorg, payload, sender, status) for sender, (_, rorg, payload, status) in SENDERS_WITH_KINDS
]
SENSOR_TELEGRAM = telegram_packet(0xA5, bytes.fromhex("FB7F7F0B"), 0x01800ABC)
LONGEST_PACKET = packet(1, bytes(65535), bytes(255))


@functools.cache
def noise_bytes():
    """Random bytes, the same in each run."""
    return random.Random(1).randbytes(24_000_000)


class Workload(typing.NamedTuple):
    """A script: an `add` command for each device, given as (ID, profile), and then the bytes of the serial line."""

    devices: list[tuple[int, str]]
    source: bytes | typing.Callable[[], bytes]  # the stream, or a function that returns it
    sizes: list[int]  # how many of its bytes the lines bring, in turn
    packets: int = 0  # how many the stream has
    options: tuple[str, ...] = ()

    @property
    def stream(self):
        """The bytes of the serial line, which are repeated as often as needed."""
        return self.source() if callable(self.source) else self.source

    @property
    def arguments(self):
        """The arguments of the program."""
        return ["replay", "--base", "FF800000", *self.options]

    @property
    def unit_of_cost(self):
        """What a cost is divided by: packets, or bytes if the stream has none."""
        return "packet" if self.packets else "byte"

    def bytes_in(self, units):
        """The number of bytes in this many units."""
        return units * len(self.stream) // self.packets if self.packets else units

    def script(self, total):
        """The script that brings this many bytes of the serial line."""
        stream = self.stream
        orders = [f"add {sender:08X} {eep}\n" for sender, eep in self.devices]
        source = io.BytesIO((stream * (total // len(stream) + 1))[:total])
        sizes = itertools.cycle(self.sizes)
        return "".join([*orders, *map(serial_script_lines, iter(lambda: source.read(next(sizes)), b""))])


CONTACT_WORKLOAD = Workload([(SENDERS[0], "D5-00-01")], CONTACT_TELEGRAMS[0], [21], packets=1)
MIXED_SENDERS = [(sender, eep) for sender, (eep, *_) in SENDERS_WITH_KINDS]
MIXED_WORKLOAD = Workload(
    MIXED_SENDERS, b"".join(MIXED_TELEGRAMS), list(map(len, MIXED_TELEGRAMS)), packets=len(MIXED_TELEGRAMS))
EXPLAIN_OPTION = ("--explain",)

WORKLOADS = {
    "packets": CONTACT_WORKLOAD,
    "explained": CONTACT_WORKLOAD._replace(options=EXPLAIN_OPTION),
    "devices": Workload(
        [(sender, "D5-00-01") for sender in SENDERS], b"".join(CONTACT_TELEGRAMS), [21],
        packets=len(CONTACT_TELEGRAMS)),
    "mixed": MIXED_WORKLOAD,
    "mixed explained": MIXED_WORKLOAD._replace(options=EXPLAIN_OPTION),
    "readings": Workload([(0x01800ABC, "A5-08-01")], SENSOR_TELEGRAM, [24], packets=1),
    "long": Workload([], LONGEST_PACKET, [99], packets=1),
    "noise": Workload([], noise_bytes, [24]),
    "headers": Workload([], LONGEST_PACKET[:6], [24]),
    "starts": Workload([], LONGEST_PACKET[:6] + b"\x55" * 65791, [24]),
}
