"""Random buildings: which gateways hear a telegram is random, and so are the delays of their bridges, losses of the
connection, and restarts of the site."""
import random
import unittest
from typing import NamedTuple

from enogate_site.merge import WINDOW
from fakes import reading
from site_testcase import ROCKER, ROCKER_EEP, SENSOR, SENSOR_EEP, SiteTest, pressed, temperature

NAMES = ("north", "south", "east", "west")
BUTTONS = ("AI", "BI")
# The longest time between two reports of a telegram.
MAX_DELAY = 0.4
BUILDINGS, STOPPED_BUILDINGS = 1200, 800
LOSS, STOP, KILL = "the connection is lost", "the site is stopped", "the site is killed"


class Report(NamedTuple):
    """A gateway reports a telegram at this time."""
    at: float
    gateway: str
    telegram: int
    line: dict


class Building:
    """The telegrams of a sensor, whose values are their numbers, and of a rocker. The same gateways hear each telegram
    of the rocker: so the site can distinguish equal ones, whatever the time between them."""

    def __init__(self, seed):
        self.chance, self.reports = random.Random(seed), []
        self.names = NAMES[:self.chance.randint(1, len(NAMES))]
        self.rocker_names = [name for name in self.names if self.chance.random() < 0.7] or [self.names[0]]
        last_report, at = dict.fromkeys(self.names, 0.0), 10.0
        for number in range(self.chance.randint(2, 25)):
            at += self.chance.choice([0.05, 0.2, 0.6, 3.0])
            line, hearing = self.telegram(number)
            for name in hearing:
                last_report[name] = max(last_report[name] + 1e-6, at + self.chance.uniform(0.0, MAX_DELAY))
                self.reports.append(Report(last_report[name], name, number, line))
        self.reports.sort(key=lambda report: report.at)

    def telegram(self, number):
        """A line about this telegram, and the gateways that hear it."""
        if self.chance.random() < 0.5:
            return reading(ROCKER, ROCKER_EEP, pressed(self.chance.choice(BUTTONS)), -50), self.rocker_names
        hearing = [name for name in self.names if self.chance.random() < 0.6]
        return reading(SENSOR, SENSOR_EEP, temperature(number), -50), hearing


class RandomBuildings(SiteTest):
    """One site sees the telegrams of all buildings, one after the other."""

    names = NAMES
    devices = {name: {SENSOR: (SENSOR_EEP, "Sensor"), ROCKER: (ROCKER_EEP, "Rocker")} for name in NAMES}

    def begin(self):
        """The telegrams of another building come, after a while."""
        self.fixture.pass_time(60.0)
        self.began_at, self.numbers, self.press_count = self.fixture.clock.now, [], 0

    def bring(self, report):
        """A report arrives. What the site publishes for it is counted."""
        published = self.fixture.broker.connection.published
        count_before = len(published)
        self.fixture.pass_time(self.began_at + report.at - self.fixture.clock.now)
        self.fixture.write(report.gateway, report.line)
        for topic, text, _ in published[count_before:]:
            self.press_count += topic.endswith("/press")
            self.numbers += [report.telegram] if topic.endswith("/lines") and '"type":"reading"' in text else []

    def test_each_telegram_once(self):
        """No telegram twice, none lost that a gateway heard, each at its first report, and so in the order of each
        gateway."""
        for seed in range(BUILDINGS):
            self.begin()
            numbers, presses = [], set()
            for report in Building(seed).reports:
                self.bring(report)
                presses |= {report.telegram} if report.line["id"] == ROCKER else set()
                numbers += [] if report.telegram in numbers else [report.telegram]
                self.assertEqual((self.numbers, self.press_count), (numbers, len(presses)), seed)

    def interrupt(self, kind, seconds):
        """The site or its connection is gone for so long. The broker has acknowledged everything before."""
        self.fixture.run_turns(2)
        if kind == LOSS:
            self.fixture.broker.lose()
            self.fixture.turn()
        else:
            self.fixture.restart(is_killed=kind == KILL)
        self.fixture.pass_time(seconds)
        self.fixture.connect(waits=False)

    def test_interruptions_between_any_two_messages(self):
        """Reports that come meanwhile are lost. Of the others, each telegram is published once, unless the site was
        started in between: then another report of it is late, and causes no event. Just after a start, presses are
        late, too."""
        for seed in range(BUILDINGS, BUILDINGS + STOPPED_BUILDINGS):
            self.begin()
            building = Building(seed)
            chance, kind = building.chance, building.chance.choice((LOSS, STOP, KILL))
            begin = chance.choice(building.reports).at + 1e-7 if building.reports else 1.0
            seconds = chance.uniform(0.3, 2.0)
            before = [report for report in building.reports if report.at < begin]
            after = [report for report in building.reports if report.at > begin + seconds]
            for report in before:
                self.bring(report)
            self.fixture.pass_time(self.began_at + begin - self.fixture.clock.now)
            self.interrupt(kind, seconds)
            for report in after:
                self.bring(report)
            self.check_once(before, after, begin + seconds, kind, seed)

    def check_once(self, before, after, connected_at, kind, seed):
        """The numbers and presses that were published are those of these reports."""
        numbers_before, numbers_after = ({report.telegram for report in reports} for reports in (before, after))
        if kind == LOSS:
            self.assertEqual(sorted(self.numbers), sorted(numbers_before | numbers_after), seed)
        else:
            self.assertEqual(sorted(self.numbers), sorted([*numbers_before, *numbers_after]), seed)
        first_times = {}
        for report in before + after:
            if report.line["id"] == ROCKER:
                first_times.setdefault(report.telegram, report.at)
        quiet = 0.0 if kind == LOSS else WINDOW
        least, most = (sum(not connected_at <= at < connected_at + seconds for at in first_times.values())
                       for seconds in (2 * quiet + MAX_DELAY if quiet else 0.0, quiet))
        self.assertTrue(least <= self.press_count <= most, (seed, kind, least, self.press_count, most))


if __name__ == "__main__":
    unittest.main()
