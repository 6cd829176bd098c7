"""Radio telegrams, and how strong they arrive. The numbers of the path are rules of thumb for 868 MHz."""
import math
import random
from typing import NamedTuple

from enogate_tools import esp3

# The strength at a distance of 1 m, in dBm, and what each tenfold distance, wall and ceiling takes of it, in dB.
DBM_AT_ONE_METRE, DECADE_LOSS, WALL_LOSS, CEILING_LOSS = -31.0, 25.0, 3.0, 12.0
# There is a wall after each of these lengths, along x and y, and a ceiling after this height; in metres.
ROOM_SIZES, FLOOR_HEIGHT = (5.0, 6.0), 3.0
# By how much one telegram is stronger or weaker at most, in dB. One that is weaker than SENSITIVITY, in dBm, is lost.
FADING, SENSITIVITY = 4.0, -92


class Telegram(NamedTuple):
    """A radio telegram to a device, or to all."""
    rorg: int
    payload: bytes
    sender: int
    status: int = 0
    destination: int = esp3.BROADCAST_ID


class Place(NamedTuple):
    """A place in the building: metres from a corner, and the number of the floor."""
    x: float
    y: float
    floor: int


def strength(sender_place: Place, receiver_place: Place, rng: random.Random) -> int | None:
    """The strength of a telegram between two places, in dBm, or None if it is lost. It takes one random number."""
    ceilings = abs(sender_place.floor - receiver_place.floor)
    metres = max(1.0, math.hypot(sender_place.x - receiver_place.x, sender_place.y - receiver_place.y,
                                 ceilings * FLOOR_HEIGHT))
    walls = sum(abs(here // size - there // size)
                for here, there, size in zip(sender_place[:2], receiver_place[:2], ROOM_SIZES))
    loss = DECADE_LOSS * math.log10(metres) + WALL_LOSS * walls + CEILING_LOSS * ceilings
    dbm = round(DBM_AT_ONE_METRE - loss + FADING * (2 * rng.random() - 1))
    return dbm if dbm >= SENSITIVITY else None
