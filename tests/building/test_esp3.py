"""The packets of ESP3 that enogate-port reads and virtual-building writes."""
import random
import unittest

from enogate_tools import esp3
from oracle.esp3 import packet, packets_in_stream

# Packets of the guide: a contact, and the question for the base ID.
CONTACT = "55000707017AD50901800ABC0001FFFFFFFF2D001F"
QUESTION = "5500010005700838"


class PacketsTest(unittest.TestCase):
    def test_packets_of_the_guide(self):
        data, optional = bytes.fromhex("D50901800ABC00"), bytes.fromhex("01FFFFFFFF2D00")
        self.assertEqual(esp3.packet(esp3.RADIO_ERP1, data, optional).hex().upper(), CONTACT)
        self.assertEqual(esp3.packet(esp3.COMMON_COMMAND, b"\x08").hex().upper(), QUESTION)
        stream = bytes.fromhex("00" + CONTACT + "5555" + QUESTION + CONTACT[:-2])
        self.assertEqual(list(esp3.packets_in(stream)), [(22, 1, data, optional), (32, 5, b"\x08", b"")])

    def test_a_wrong_byte_is_no_packet(self):
        contact_packet = bytes.fromhex(CONTACT)
        for index in range(len(contact_packet)):
            damaged = bytearray(contact_packet)
            damaged[index] ^= 0x10
            self.assertEqual(list(esp3.packets_in(bytes(damaged))), [], index)

    def test_the_oracle_finds_the_same_packets(self):
        rng = random.Random(5)
        for _ in range(300):
            stream = b"".join(packet(rng.choice((1, 2, 5)), rng.randbytes(rng.randrange(1, 20)),
                                     rng.randbytes(rng.randrange(9))) + rng.randbytes(rng.randrange(4))
                              for _ in range(3)) + b"\0" * 300
            self.assertEqual([end_and_packet[1:] for end_and_packet in esp3.packets_in(stream)],
                             list(packets_in_stream(stream)))


if __name__ == "__main__":
    unittest.main()
