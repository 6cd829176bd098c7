"""The radio path, with strengths that were worked out by hand from its constants."""
import random
import unittest

from building_testcase import EvenRandom
from enogate_building.radio import SENSITIVITY, Place, Telegram, strength
from enogate_tools import esp3


class StrengthTest(unittest.TestCase):
    def test_distances_walls_and_ceilings(self):
        for receiver_place, dbm in ((Place(0.2, 0, 0), -31),  # nearer than 1 m
                                    (Place(1, 0, 0), -31), (Place(4, 0, 0), -46),  # 25 * log10(4) = 15.05
                                    (Place(10, 0, 0), -62),  # 25 and two walls
                                    (Place(0, 7, 0), -55),  # 25 * log10(7) = 21.13 and a wall
                                    (Place(0, 0, 1), -55),
                                    (Place(0, 0, -1), -55),  # 25 * log10(3) = 11.93 and a ceiling
                                    (Place(-1, 0, 0), -34),  # beyond the wall at 0
                                    (Place(33, 0, 0), -87),  # 37.96 and six walls
                                    (Place(40, 0, 0), None)):  # 40.05 and eight walls: -95
            self.assertEqual(strength(Place(0, 0, 0), receiver_place, EvenRandom()), dbm, receiver_place)
            self.assertEqual(strength(receiver_place, Place(0, 0, 0), EvenRandom()), dbm, receiver_place)

    def test_fading(self):
        rng = random.Random(3)
        strengths = [strength(Place(0, 0, 0), Place(4, 0, 0), rng) for _ in range(500)]
        self.assertEqual((min(strengths), max(strengths)), (-50, -42))
        at_the_limit = [strength(Place(0, 0, 0), Place(34, 3, 0), rng) for _ in range(100)]
        self.assertTrue(all(dbm is None or dbm >= SENSITIVITY for dbm in at_the_limit))

    def test_the_packet_of_a_telegram(self):
        for telegram, packet in ((Telegram(0xD5, b"\x09", 0x01800ABC), "55000707017AD50901800ABC0001FFFFFFFF2D001F"),
                                 (Telegram(0xD2, bytes.fromhex("0460E4"), 0x01800ABC, 0, 0xFF800000),
                                  "550009070156D20460E401800ABC0001FF8000002D009F")):
            self.assertEqual(esp3.telegram(*telegram, -45).hex().upper(), packet)


if __name__ == "__main__":
    unittest.main()
