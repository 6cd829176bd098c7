"""The site: a bridge whose gateway is made of several gateways at the broker."""
from __future__ import annotations

import json
import logging
import math
from collections import OrderedDict
from collections.abc import Callable, Iterable
from typing import Any

from enogate_lines.contents import EndOfList
from enogate_lines.follow import NO_POSITION
from enogate_mqtt.bridge import Bridge
from enogate_mqtt.connection import ReceivedMessage
from enogate_mqtt.devices import time_text
from enogate_mqtt.reconcile import Part
from enogate_mqtt.requests import ListRequest, Probe
from enogate_mqtt.state import COVERAGE_SUBTOPIC, LAST_SEEN_SUBTOPIC, time_in
from enogate_mqtt.topics import Message, Topics

from .gateway import Gateway
from .members import Members
from .merge import WINDOW
from .orders import SiteDesk, orders_message
from .topics import LINES_KIND, SITE_KIND, SiteTopics

# If no gateway is online so long after the connection, the site is offline. Clocks may differ by so much. In seconds.
KNOWN_WITHIN = 15.0
# The coverage of a device is published so long after a telegram, when other gateways have reported it, too.
COVERAGE_AFTER = 5.0
NO_WARNING = "none"


class NoFile:
    """In place of the file with the lines of a gateway."""
    path, fault, file, position, is_found, seen_next, is_at_end = "", "", 0, NO_POSITION, True, None, True


class SiteRequests:
    """In place of what a bridge asks its gateway. The bridges of the gateways close learn windows."""

    learn_for, window = 0.0, None

    def __init__(self, members: Members, clock: Callable[[], float], publish: Callable[[list[Message]], None]):
        self.members, self.clock, self.publish = members, clock, publish
        self.list_request = ListRequest()
        self.begin_session(math.inf)
        self.schedule_window_end = self.note_window_orders = self.close_window = lambda *_: None
        self.note_gateways()

    def begin_session(self, known_at: float) -> None:
        """A connection was opened or lost. From this time on, a gateway is offline if nothing is known about it."""
        self.gateway_probe, self.module_probe = Probe(math.inf, math.inf), Probe(math.inf, math.inf)
        self.known_at = known_at
        self.members.begin_session()

    def turn(self, needs_list: bool) -> None:
        """Gives the orders that are due, and notes whether a gateway is online. The gateways are only looked at if they
        have changed, or something is due."""
        if needs_list:
            self.members.need_lists()
        if self.members.has_news or self.clock() >= self.due:
            for gateway in self.members.gateways.values():
                if orders := gateway.take_due_orders():
                    self.publish([orders_message(gateway, orders)])
            self.note_gateways()
        self.members.list_when_due()
        if self.is_online or self.gateway_probe.is_online or self.clock() >= self.known_at:
            self.gateway_probe.is_online = self.module_probe.is_online = self.is_online

    def note_gateways(self) -> None:
        """Notes what the gateways have reported, and when an order for one of them is due."""
        gateways, windows = self.members.gateways.values(), self.members.open_windows()
        self.members.has_news, self.due = False, min(gateway.next_due() for gateway in gateways)
        self.status, self.is_online = self.members.status, any(gateway.is_online for gateway in gateways)
        states = {gateway.name: {"devices": len(gateway.held), "learn": gateway in windows,
                                 "online": gateway.is_online} for gateway in gateways}
        self.states_text = json.dumps(states, sort_keys=True, separators=(",", ":"))
        names = ", ".join(gateway.name for gateway in windows)
        self.warning = NO_WARNING if len(windows) < 2 else (
            f"the learn windows of {names} are open: all of them answer a teach-in query")

    def next_due(self) -> float:
        """When `turn` has something to do again."""
        return 0.0 if self.members.lines else min(self.members.list_due, self.due)


class Site(Bridge):
    """Several gateways at a broker as one. `learner` is the gateway whose learn window it opens; the other arguments
    are those of a bridge."""

    def __init__(self, members: Members, learner: Gateway, topics: SiteTopics, **parts: Any):
        desk = SiteDesk(members, learner, self.warn, self.publish)
        requests = SiteRequests(members, parts["clock"], self.publish)
        super().__init__(topics, follower=NoFile(), desk=desk, requests=requests, **parts)
        self.gateway_topics, self.members, self.store.members = topics.gateway_topics, members, members
        # until when lines may be reports of telegrams that an earlier run has published
        self.repeated_until = math.inf
        # when the coverage of a device is published, and the warning that was logged last
        self.coverage_due: OrderedDict[str, float] = OrderedDict()
        self.warning = NO_WARNING

    def warn(self, kind: str, text: str) -> None:
        self.rate_limited_log.warning(kind, text)

    def read_earlier_lines(self) -> None:
        """The devices that an earlier run has saved."""
        for content in (*self.members.devices.values(), EndOfList(len(self.members.devices))):
            self.devices.handle_line(content)
        super().read_earlier_lines()

    def handle_connected(self) -> None:
        """A connection was opened. The readings that the bridges retain may be newer than those of the site."""
        super().handle_connected()
        self.requests.begin_session(self.clock() + KNOWN_WITHIN)
        self.members.need_list()
        self.repeated_until = min(self.repeated_until, self.clock() + WINDOW)
        self.read_gateways(self.members.devices)

    def read_gateways(self, names: Iterable[str]) -> None:
        """Reads what the bridges of the gateways retain about these devices."""
        self.reconciler.add(Part(f"{gateway.name}/{name}", Topics(gateway.name, "").device_filters(name))
                            for name in sorted(names) for gateway in self.members.owners(name))

    def note_devices(self, lists_before: int) -> None:
        new_devices = self.devices.new_devices
        super().note_devices(lists_before)
        if self.reconciler:
            self.read_gateways(new_devices)

    def turn(self) -> None:
        super().turn()
        if self.connection is None and self.requests.known_at < math.inf:
            self.requests.begin_session(math.inf)

    def handle_message(self, message: ReceivedMessage) -> None:
        """Handles a message of a gateway, or one to the site."""
        name, kind = self.gateway_topics.get(message.topic, ("", ""))
        gateway, properties = self.members.gateways.get(name), dict(message.properties)
        if gateway is None:
            super().handle_message(message)
        elif kind != LINES_KIND:
            self.members.note_report(gateway, kind, message.payload.decode("ascii", "replace"))
        elif not message.retained and not gateway.is_site:
            is_late = "late" in properties or not gateway.has_bridge or self.clock() < self.repeated_until
            self.members.handle_line(gateway, message.payload, seconds_in(properties.get("time", "")), is_late)

    def handle_lines(self, are_kept: bool, is_late: bool = False, is_earlier: bool = False) -> None:
        """Handles the lines of the site. Those that are late cause no events."""
        lists_before, now = self.devices.list_count, self.plausible_time()
        while self.members.lines:
            line = self.members.lines.popleft()
            line_is_late = is_late or line.is_late
            self.outbox.add(line.text, NO_POSITION, self.clock(), line.read_at if line_is_late else now, line_is_late)
            if line.sets_state:
                messages = self.devices.handle_line(line.content, None if line_is_late else now)
                self.publish([message for message in messages if message.retained or not line_is_late])
        self.follower.is_at_end = True
        self.note_devices(lists_before)
        self.update_signals()

    def update_signals(self) -> None:
        """Publishes better signal strengths, and coverage that is due."""
        for name, dbm in self.members.better_signals.items():
            self.take_reading(name, "dbm", str(dbm))
        self.members.better_signals.clear()
        for name in self.members.covered_devices:
            self.coverage_due.setdefault(name, self.clock() + COVERAGE_AFTER)
        self.members.covered_devices.clear()
        while self.coverage_due and self.clock() >= next(iter(self.coverage_due.values())):
            name, _ = self.coverage_due.popitem(last=False)
            coverage = json.dumps(self.members.merge.coverage(name), sort_keys=True, separators=(",", ":"))
            self.take_reading(name, COVERAGE_SUBTOPIC, coverage)

    def take_reading(self, name: str, subtopic: str, text: str) -> None:
        """Publishes a reading that no line has, if it has changed."""
        device = self.devices.known_devices.get(name)
        if device and device.last_readings.get(subtopic) != text:
            device.last_readings[subtopic] = text
            self.devices.changed_devices.add(name)
            self.publish(self.devices.publish_retained({self.topics.reading(name, subtopic): text}))

    def publish_differences(self, part: Part) -> None:
        """Compares what is retained of the site, and reads what the bridges of the gateways retain."""
        name, _, device = part.name.partition("/")
        if not device:
            super().publish_differences(part)
            return
        root = Topics(name, "").reading(device, "")
        self.adopt_readings(self.members.gateways[name], device, {
            topic.removeprefix(root): text for topic, text in part.retained.items() if text})

    def adopt_readings(self, gateway: Gateway, name: str, texts: dict[str, str]) -> None:
        """Takes the readings that a bridge retains, if they are newer than those of the site, which was not connected
        meanwhile."""
        device, held = self.devices.known_devices.get(name), gateway.held.get(name)
        if not (device and held and held.eep == device.eep and time_in(texts)):
            return
        last, latest = device.last_readings.get(LAST_SEEN_SUBTOPIC, ""), time_text(self.time_of_day() + KNOWN_WITHIN)
        if last < texts[LAST_SEEN_SUBTOPIC] <= latest:
            self.publish(self.devices.take_readings(device, {
                subtopic: text for subtopic, text in texts.items()
                if subtopic == LAST_SEEN_SUBTOPIC or self.devices.table.may_report(device.eep, subtopic)}))
            self.devices.changed_devices.add(name)

    def reports_besides(self, published_reports: dict[str, str]) -> dict[str, str]:
        """What is known about the site itself, by topic."""
        if self.requests.warning not in (NO_WARNING, self.warning):
            logging.warning("%s", self.requests.warning)
        self.warning = self.requests.warning
        return super().reports_besides(published_reports) | {
            f"{self.topics.root}/{SITE_KIND}": self.requests.states_text, self.topics.warning: self.warning}

    def save(self) -> None:
        """Saves the state if it has changed, with what the gateways have learned."""
        self.devices.changed_devices |= self.members.changed_devices
        self.members.changed_devices.clear()
        super().save()


def seconds_in(text: str) -> float | None:
    """The time that a bridge gives a line, in seconds since 1970, if it gives one."""
    return float(text) if text.isascii() and text.isdigit() and len(text) <= 12 else None
