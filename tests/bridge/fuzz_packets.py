"""Random packets for the connection to the broker, with the real paho: whatever a broker sends, a turn raises nothing
but ConnectionLost.

    PYTHONPATH=contrib:tests/bridge python3 tests/bridge/fuzz_packets.py [CONNECTIONS] [SEED]"""
import random
import socket
import sys
import unittest
from unittest import mock

import paho.mqtt.client

from enogate_mqtt.connection import Connection, ConnectionLost
from enogate_mqtt.settings import Login
from enogate_mqtt.topics import Message, Topics

CONNECTIONS, SEED = (int(word) for word in (*sys.argv[1:], *("2000", "76")[len(sys.argv) - 1:]))
LOGIN, TOPICS = Login("localhost", 1883, None, None, None), Topics("hall", "homeassistant")
PUBLISH_HEAD = b"\x00\x13enogate/hall/orders"
# The bodies of packets that a broker may send, by the first byte of the packet, for MQTT 5 and 3.1.1.
PACKET_BODIES = {
    5: ((0x20, b"\x00\x00\x00"), (0x20, b"\x00\x00\x05\x27\x00\x00\xff\xff"), (0x90, b"\x00\x01\x00\x01\x01\x01\x01"),
        (0x30, PUBLISH_HEAD + b"\x00list"), (0x32, PUBLISH_HEAD + b"\x00\x07\x00list"), (0x62, b"\x00\x08"),
        (0x34, PUBLISH_HEAD + b"\x00\x08\x00list"), (0x30, PUBLISH_HEAD + b"\x05\x02\x00\x00\x00\x01list"),
        (0x40, b"\x00\x02"), (0x40, b"\x00\x02\x10\x00"), (0xB0, b"\x00\x03\x00\x00"), (0xE0, b"\x8e\x00"),
        (0xD0, b""), (0xF0, b"\x18\x00")),
    4: ((0x20, b"\x00\x00"), (0x90, b"\x00\x01\x01\x01\x01\x01"), (0x30, PUBLISH_HEAD + b"list"), (0x40, b"\x00\x02"),
        (0x32, PUBLISH_HEAD + b"\x00\x07list"), (0x34, PUBLISH_HEAD + b"\x00\x08list"), (0x62, b"\x00\x08"),
        (0xB0, b"\x00\x03"), (0xD0, b""), (0x20, b"\x00\x05"))}


def packet(first_byte: int, body: bytes) -> bytes:
    """A packet with its length."""
    length, digits = len(body), bytearray()
    while length or not digits:
        length, digit = length >> 7, length & 127
        digits.append(digit | (128 if length else 0))
    return bytes([first_byte]) + bytes(digits) + body


def mutated_bytes(rng: random.Random, original: bytes) -> bytes:
    """These bytes, with some of them replaced, removed or added."""
    mutated_copy = bytearray(original)
    for _ in range(rng.choice((1, 1, 2, 5))):
        index = rng.randrange(len(mutated_copy) + 1)
        mutated_copy[index:index + rng.choice((0, 1, 1, 4))] = rng.randbytes(rng.choice((0, 1, 1, 4)))
    return bytes(mutated_copy)


def random_packet(rng: random.Random, version: int) -> bytes:
    """A packet that is right, has a wrong body or a wrong length, or consists of random bytes."""
    first_byte, body = rng.choice(PACKET_BODIES[version])
    match rng.randrange(8):
        case 0:
            return packet(first_byte, body)
        case 1:
            return mutated_bytes(rng, packet(first_byte, body))
        case 2:
            return rng.randbytes(rng.randrange(30))
        case 3:
            return packet(rng.randrange(256), body)
        case 4:
            return packet(first_byte, body[:rng.randrange(len(body) + 1)])
    return packet(first_byte, mutated_bytes(rng, body))


class RandomPackets(unittest.TestCase):
    def test_random_packets(self):
        rng, reasons = random.Random(SEED), set()
        for connection_number in range(CONNECTIONS):
            reasons.add(self.reason_of_a_loss(rng, rng.choice((4, 5)), connection_number))
        invalid = [reason for reason in reasons if reason.startswith("invalid packet from the broker (")]
        print(f"{CONNECTIONS} connections, {len(reasons)} reasons of losses, {len(invalid)} of them exceptions of paho")
        self.assertGreater(len(invalid), 5)

    def reason_of_a_loss(self, rng: random.Random, version: int, connection_number: int) -> str:
        """Why a connection is lost whose broker sends some packets, and closes it."""
        bridge_socket, broker_socket = socket.socketpair()
        stream = b"".join(random_packet(rng, version) for _ in range(rng.randrange(1, 6)))
        with bridge_socket, broker_socket, mock.patch("socket.create_connection", return_value=bridge_socket):
            broker_socket.setblocking(False)
            opening = packet(*PACKET_BODIES[version][0]) if rng.random() < 0.6 else b""
            try:
                connection = Connection(paho.mqtt.client, LOGIN, TOPICS, version, lambda: 0.0, rng.random() < 0.2)
                broker_socket.sendall(opening + stream)
                connection.turn(0)
                connection.publish(Message("enogate/hall/status", "online", True))
                broker_socket.shutdown(socket.SHUT_WR)
                for _ in range(200):
                    connection.turn(0)
            except ConnectionLost as lost:
                connection.close()
                return str(lost)
            except Exception as error:
                raise AssertionError(f"connection {connection_number}, MQTT {version}: {opening + stream!r}") from error
        self.fail(f"connection {connection_number} is not lost: {opening + stream!r}")


if __name__ == "__main__":
    unittest.main(argv=sys.argv[:1])
