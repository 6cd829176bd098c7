"""The radio module of a stick."""
import random
import unittest

from building_testcase import BASE, DEVICE, FAR_AWAY, OTHER_BASE, BuildingTest, sent_packet
from enogate_tools.port import BASE_REQUEST, base_in
from oracle.esp3 import packet


class StickTest(BuildingTest):
    def setUp(self):
        self.build((DEVICE, "D5-00-01"), sticks=2)
        self.stick = self.building.sticks["stick0"]

    def response(self, stream):
        """The only response to this packet."""
        self.stick.handle_bytes(stream)
        [(kind, response_data, optional)] = self.wire.handle_bytes()
        self.assertEqual((kind, optional), (2, b""))
        return response_data

    def test_base_ids(self):
        for name, wire, base in zip(self.building.sticks, self.wires, ("FF800000", "FF801000")):
            self.building.sticks[name].handle_bytes(BASE_REQUEST)
            self.assertEqual(base_in(wire.received_bytes), base)

    def test_other_packets(self):
        self.assertEqual(self.response(packet(5, b"\x03")), b"\x02")
        self.assertEqual(self.response(packet(5, b"\x08\0")), b"\x02")
        self.assertEqual(self.response(packet(2, b"\0")), b"\x02")

    def test_telegrams_are_sent(self):
        self.assertEqual(self.response(sent_packet("010064", 0x01800A01, BASE + 127)), b"\0")
        self.assertEqual(self.wires[1].telegrams(), ["D2 010064 FF80007F 00 01800A01"])

    def test_senders_that_are_not_of_the_module(self):
        for sender in (BASE - 1, BASE + 128, OTHER_BASE, DEVICE):
            self.assertEqual(self.response(sent_packet("010064", 0x01800A01, sender)), b"\x03")
        self.assertEqual(self.wires[1].handle_bytes(), [])

    def test_packets_that_are_no_telegram(self):
        short = BASE.to_bytes(4, "big") + b"\0"
        for packet_data, optional in ((b"\xd2" + short, b"\x03" + bytes(4) + b"\xff\0"), (b"\xd2\0" + short, b""),
                                      (b"\xd2\0" + short, b"\x03\xff\xff\xff"), (b"", b"\x03" * 7)):
            self.assertEqual(self.response(packet(1, packet_data, optional)), b"\x03")

    def test_a_stream_in_pieces_with_noise(self):
        rng, question = random.Random(4), BASE_REQUEST
        for size in range(1, 9):
            stream = b"".join(b"\xff\x55\0" + question + sent_packet("00", 0x01800A01) for _ in range(3)) + b"\x55"
            for start in range(0, len(stream), size):
                self.stick.handle_bytes(stream[start:start + size])
            self.assertEqual(len(self.wire.handle_bytes()), 6, size)
        self.stick.handle_bytes(rng.randbytes(5000).replace(b"\x55", b""))
        self.assertLess(len(self.stick.unparsed_bytes), 6000)

    def test_unplugged(self):
        self.stick.plug(False)
        self.building.devices[DEVICE].report()
        self.assertEqual((self.wire.handle_bytes(), len(self.wires[1].handle_bytes())), ([], 1))
        self.stick.plug(True)
        self.building.devices[DEVICE].report()
        self.assertEqual(len(self.wire.handle_bytes()), 1)

    def test_half_a_packet_ends_with_the_stick(self):
        self.stick.handle_bytes(BASE_REQUEST[:4])
        self.stick.plug(False)
        self.stick.plug(True)
        self.stick.handle_bytes(BASE_REQUEST[4:])
        self.assertEqual(self.wire.handle_bytes(), [])

    def test_too_far_away(self):
        self.stick.place = FAR_AWAY
        self.building.devices[DEVICE].report()
        self.assertEqual((self.wire.handle_bytes(), len(self.wires[1].handle_bytes())), ([], 1))


if __name__ == "__main__":
    unittest.main()
