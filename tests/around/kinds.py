"""A device of each kind, and what it sends: a row of the guide's profiles for each."""
from __future__ import annotations

from bridge_testcase import GatewayTest

# The ID and the profile of each device, and its telegrams as RORG PAYLOAD or RORG PAYLOAD STATUS.
DEVICES_OF_EACH_KIND: tuple[tuple[str, str, tuple[str, ...]], ...] = (
    ("01800A01", "D5-00-01", ("D5 09",)),
    ("01800A02", "A5-02-05", ("A5 00007F08",)),
    ("01800A03", "A5-04-01", ("A5 007DFA0A",)),
    ("01800A04", "A5-06-01", ("A5 FF80FF09",)),
    ("01800A05", "A5-07-01", ("A5 7D008009",)),
    ("01800A06", "A5-08-01", ("A5 96FF8D08",)),
    ("01800A07", "A5-09-04", ("A5 C850780E",)),
    ("01800A08", "A5-10-05", ("A5 00806408",)),
    ("01800A09", "A5-12-01", ("A5 12D6870A", "A5 0009011A", "A5 0009010D")),
    ("01800A0A", "A5-12-02", ("A5 00000109",)),
    ("01800A0B", "A5-12-03", ("A5 0000030D",)),
    ("01800A0C", "F6-01-01", ("F6 10 20",)),
    ("01800A0D", "F6-02-01", ("F6 50 30", "F6 00 20")),
    ("01800A0E", "F6-03-01", ("F6 B5 30",)),
    ("01800A0F", "D2-01-0F", ("D2 046000",)),
    ("01800A10", "D2-01-02", ("D2 0460B2",)),
    ("01800ABC", "D2-01-12", ("D2 0461E4", "D2 0760000004D2")),
    ("01800ABD", "D2-05-00", ("D2 327F0004",)),
)
ADD_ORDERS = tuple(f"add {device} {profile}" for device, profile, _ in DEVICES_OF_EACH_KIND)
END_OF_LIST = f'{{"count":{len(DEVICES_OF_EACH_KIND)},"type":"list"}}'


class KindsTest(GatewayTest):
    """A test with a device of each kind."""

    def bring_all(self) -> None:
        """Each device sends its telegrams, and the bridge publishes what they say."""
        def bring() -> None:
            for device, _, telegrams in DEVICES_OF_EACH_KIND:
                self.stick.bring(device, *telegrams)

        self.act_and_wait_for_lines(bring, sum(len(telegrams) for _, _, telegrams in DEVICES_OF_EACH_KIND), "reading")
        self.wait_until_handled()

    def start_all(self) -> None:
        """Adds the devices, and starts the bridge. Then each device sends its telegrams."""
        self.order(*ADD_ORDERS)
        self.start_bridge()
        self.bring_all()
