"""Which reports of the gateways belong to the same telegram."""
from __future__ import annotations

from collections import deque
from dataclasses import dataclass

from enogate_lines.contents import Telegram

# Reports of one telegram arrive from all gateways that heard it within this time, in seconds: subtelegrams, repeaters,
# a read of the gateway and a turn of its bridge take some tenths of a second.
WINDOW = 1.5
# A bridge may publish a line up to 10 seconds after it has read it. If reports arrive so late, the times show which
# ones belong together: bridges read the lines about one telegram within a second.
MAX_DELAY, MAX_TIME_DIFFERENCE = 15.0, 1.0
# So many telegrams of a device are remembered, which is also the number for its coverage.
REMEMBERED = 20
NO_SIGNAL = -999
Coverage = dict[str, dict[str, float]]


@dataclass(slots=True)
class Heard:
    """A telegram: the hash of its profile and readings, since so many are remembered; when its first report arrived,
    when a bridge read that (in seconds since 1970, if it is known), and the signal strength at each gateway that has
    reported it."""
    contents: int
    arrived_at: float
    read_at: float | None
    signals: dict[str, int | None]

    def is_near(self, now: float, read_at: float | None) -> bool:
        """Whether a report that arrives now can belong to this telegram."""
        has_same_time = (read_at is not None and self.read_at is not None
                         and abs(read_at - self.read_at) <= MAX_TIME_DIFFERENCE)
        return now <= self.arrived_at + (MAX_DELAY if has_same_time else WINDOW)


class Merge:
    """The last telegrams of each device."""

    def __init__(self) -> None:
        self.telegrams_by_device: dict[str, deque[Heard]] = {}

    def add(self, gateway: str, telegram: Telegram, now: float, read_at: float | None, is_late: bool
            ) -> tuple[bool, Heard]:
        """Returns whether this is the first report of its telegram, and the telegram. A gateway reports each telegram
        at most once, and in their sequence: this is the oldest one with these contents that it has not reported, if
        there is one. So no telegram is taken for two. If two equal ones come within WINDOW, and no gateway hears both,
        the second one is taken for the first."""
        heard_telegrams = self.telegrams_by_device.setdefault(telegram.device, deque(maxlen=REMEMBERED))
        contents = hash((telegram.eep, telegram.readings))
        for heard in heard_telegrams:
            if heard.contents == contents and gateway not in heard.signals and (is_late or heard.is_near(now, read_at)):
                heard.signals[gateway] = telegram.dbm
                return False, heard
        heard_telegrams.append(Heard(contents, now, read_at, {gateway: telegram.dbm}))
        return True, heard_telegrams[-1]

    def last(self, device: str) -> Heard | None:
        heard_telegrams = self.telegrams_by_device.get(device)
        return heard_telegrams[-1] if heard_telegrams else None

    def coverage(self, device: str) -> Coverage:
        """For each gateway that heard the last telegrams of a device: which share of them, and their mean signal
        strength."""
        heard_telegrams, coverage = self.telegrams_by_device.get(device, ()), Coverage()
        for gateway in sorted({name for heard in heard_telegrams for name in heard.signals}):
            reported = [heard.signals[gateway] for heard in heard_telegrams if gateway in heard.signals]
            coverage[gateway] = {"heard": round(len(reported) / len(heard_telegrams), 2)}
            if signals := [dbm for dbm in reported if dbm is not None]:
                coverage[gateway]["dbm"] = round(sum(signals) / len(signals))
        return coverage

    def best_gateway(self, device: str, names: list[str]) -> str | None:
        """Which of these gateways hears most telegrams of a device and, of those, has the strongest signal."""
        coverage = self.coverage(device)

        def rank(name: str) -> tuple[float, float, str]:
            return -coverage.get(name, {}).get("heard", 0), -coverage.get(name, {}).get("dbm", NO_SIGNAL), name
        return min(names, key=rank, default=None)
