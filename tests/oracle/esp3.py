"""Packets of EnOcean Serial Protocol 3, and the lines of a script that bring them. The oracle and the scripts in
`bench` and `tests` make their data with this module. It shares nothing with the program."""


def crc8_of_each_byte():
    for crc in range(256):
        for _ in range(8):
            crc = crc << 1 ^ 0x107 if crc & 0x80 else crc << 1
        yield crc


CRC8_TABLE = list(crc8_of_each_byte())


def crc8(data):
    """CRC-8 with the polynomial x^8 + x^2 + x + 1, from 0."""
    crc = 0
    for byte in data:
        crc = CRC8_TABLE[crc ^ byte]
    return crc


def packet(kind, data, optional=b""):
    """A packet of this type."""
    header = len(data).to_bytes(2, "big") + bytes([len(optional), kind])
    return bytes([0x55, *header, crc8(header), *data, *optional, crc8(data + optional)])


def packets_in_stream(stream):
    """The packets of a stream, each as its type, its data and its optional data. Returns what may still begin a packet.
    If a packet begins at a byte it is taken; otherwise the byte is skipped."""
    start = stream.find(0x55)
    while start >= 0 and len(stream) >= start + 6:
        header = stream[start + 1 : start + 5]
        middle = start + 6 + int.from_bytes(header[:2], "big")
        end = middle + header[2]
        begins = end > start + 6 and crc8(header) == stream[start + 5]
        if begins and end >= len(stream):
            break
        if begins and crc8(stream[start + 6 : end]) == stream[end]:
            yield header[3], stream[start + 6 : middle], stream[middle:end]
            start = end
        start = stream.find(0x55, start + 1)
    return stream[start:] if start >= 0 else b""


BROADCAST_ID = 0xFFFFFFFF


def radio_optional_data(subtelegrams=1, destination=BROADCAST_ID, dbm=45):
    """The optional data of a telegram; no security."""
    return bytes([subtelegrams, *destination.to_bytes(4, "big"), dbm, 0])


def telegram_packet(rorg, payload, sender, status=0, optional=radio_optional_data()):
    """The packet of a telegram. The default of `optional` is: to all, one subtelegram, -45 dBm."""
    data = bytes([rorg, *payload, *sender.to_bytes(4, "big"), status])
    return packet(1, data, optional)


def gateway_telegram_packet(rorg, payload, sender, destination=BROADCAST_ID):
    """The packet of a telegram that the gateway sends: three subtelegrams, no signal strength, status 0."""
    return telegram_packet(rorg, payload, sender, 0, radio_optional_data(3, destination, 255))


def serial_script_lines(stream, size=99):
    """The lines `S ` of a script that bring these bytes, this many at a time. A line takes 99 bytes at most."""
    return "".join(f"S {stream[start : start + size].hex().upper()}\n" for start in range(0, len(stream), size))
