"""Packets of EnOcean Serial Protocol 3 (ESP3)."""
from __future__ import annotations

from collections.abc import Iterator

SYNC = 0x55
# The types of packets.
RADIO_ERP1, RESPONSE, COMMON_COMMAND = 1, 2, 5
BROADCAST_ID = 0xFFFFFFFF


def crc8_after(crc: int) -> int:
    """The CRC after one byte, which is combined with the CRC before it."""
    for _ in range(8):
        crc = crc << 1 & 0xFF ^ (0x07 if crc & 0x80 else 0)
    return crc


CRC8_TABLE = bytes(map(crc8_after, range(256)))


def crc8(data: bytes) -> int:
    """The CRC of ESP3, with the polynomial x^8 + x^2 + x + 1."""
    crc = 0
    for byte in data:
        crc = CRC8_TABLE[crc ^ byte]
    return crc


def packet(kind: int, data: bytes, optional: bytes = b"") -> bytes:
    """A packet of this type."""
    header = len(data).to_bytes(2, "big") + bytes([len(optional), kind])
    return bytes([SYNC, *header, crc8(header), *data, *optional, crc8(data + optional)])


def telegram(rorg: int, payload: bytes, sender: int, status: int = 0, destination: int = BROADCAST_ID,
             dbm: int | None = -45) -> bytes:
    """The packet of a telegram that a radio module has received: one subtelegram, not encrypted. Without a signal
    strength it has no optional data, so no destination either."""
    data = bytes([rorg, *payload, *sender.to_bytes(4, "big"), status])
    optional = b"" if dbm is None else bytes([1, *destination.to_bytes(4, "big"), min(255, -dbm), 0])
    return packet(RADIO_ERP1, data, optional)


def packets_in(stream: bytes) -> Iterator[tuple[int, int, bytes, bytes]]:
    """The complete packets of a stream: the place after each, its type, its data, and its optional data. Other bytes
    are skipped; a packet is not empty."""
    start = stream.find(SYNC)
    while 0 <= start < len(stream) - 6:
        header = stream[start + 1:start + 5]
        body = start + 6
        middle = body + int.from_bytes(header[:2], "big")
        end = middle + header[2]
        is_packet = (body < end < len(stream) and crc8(header) == stream[start + 5]
                     and crc8(stream[body:end]) == stream[end])
        if is_packet:
            yield end + 1, header[3], stream[body:middle], stream[middle:end]
        start = stream.find(SYNC, end + 1 if is_packet else start + 1)
