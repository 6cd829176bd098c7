"""The devices of a site and its gateways: what the lines of the gateways mean for the site, as lines of its own."""
from __future__ import annotations

import json
import math
from collections import deque
from collections.abc import Callable, Iterable
from typing import NamedTuple

from enogate_lines.contents import (COUNTERS, BadLine, Content, Deleted, EndOfList, Learned, Listed, Status, Telegram,
                                    UnknownSender, content_of)

from .gateway import ACTUATOR_START, MAX_DEVICES, Gateway, Held
from .merge import Merge

# The site lists its devices when each gateway has listed its own, or so long after a list is needed, and at most so
# often, in seconds.
ALL_LISTED_WITHIN, LIST_EVERY = 10.0, 5.0


class SiteLine(NamedTuple):
    """A line of the site: whether it is late, whether it sets the state of its device, and when a bridge read it, in
    seconds since 1970, if that is known."""
    text: str
    content: Content
    is_late: bool = False
    sets_state: bool = True
    read_at: float | None = None


class Members:
    """The gateways and devices of a site."""

    def __init__(self, gateways: Iterable[Gateway], devices: Iterable[Listed], clock: Callable[[], float],
                 warn: Callable[[str, str], None]):
        self.gateways = {gateway.name: gateway for gateway in gateways}
        self.devices = {device.device: device for device in devices}
        self.clock, self.warn, self.merge = clock, warn, Merge()
        # the lines that were written and not handled yet, what is to be saved, and the devices with new coverage
        self.lines: deque[SiteLine] = deque()
        self.changed_devices: set[str] = set()
        self.covered_devices: set[str] = set()
        # the signal strengths of last telegrams that are better than in their lines
        self.better_signals: dict[str, int] = {}
        # when a list was needed, and when the last one was written
        self.list_due, self.listed_at = math.inf, -math.inf
        # whether anything has changed about a gateway since this was set to False
        self.has_news = True
        # the gateways that use a device, and perhaps others
        self.gateways_by_device: dict[str, list[Gateway]] = {}
        for gateway in self.gateways.values():
            for name in gateway.held.keys() | gateway.wanted | gateway.unwanted:
                self.gateways_by_device.setdefault(name, []).append(gateway)

    def begin_session(self) -> None:
        """A connection was opened or lost."""
        self.has_news = True
        for gateway in self.gateways.values():
            gateway.begin_session()

    def note_report(self, gateway: Gateway, kind: str, text: str) -> None:
        """The bridge of a gateway has published this."""
        self.has_news = True
        gateway.note_report(kind, text)

    def need_list(self) -> None:
        """The site lists its devices soon."""
        self.list_due = min(self.list_due, self.clock())

    def need_lists(self) -> None:
        """The gateways list their devices soon, and so does the site."""
        self.need_list()
        self.has_news = True
        for gateway in self.gateways.values():
            gateway.list_request.note_needed(self.clock())

    def handle_line(self, gateway: Gateway, line: bytes, read_at: float | None, is_late: bool) -> None:
        """Handles a line of a gateway."""
        try:
            content = content_of(line)
        except BadLine as bad:
            self.warn("line", f"{gateway.name}: {bad}")
            content = None
        if isinstance(content, Listed) and len(gateway.listing) < MAX_DEVICES:
            gateway.listing.append(content)
            return
        listing, gateway.listing = gateway.listing, []
        self.has_news |= isinstance(content, (EndOfList, Deleted, Status))
        match content:
            case EndOfList(count) if len(listing) == count:
                self.handle_list(gateway, {listed.device: listed for listed in listing})
            case EndOfList():
                gateway.list_request.note_needed(self.clock(), is_news=False)
            case Learned():
                self.handle_learned(gateway, content)
            case Deleted(device):
                self.handle_deleted(gateway, device)
            case Telegram():
                self.handle_telegram(gateway, SiteLine(line.decode("ascii"), content, is_late, read_at=read_at))
            case UnknownSender(device) if not is_late:
                self.handle_unknown_sender(gateway, device)
            case Status():
                gateway.note_status(content)

    def handle_telegram(self, gateway: Gateway, line: SiteLine) -> None:
        """Passes on a telegram if this is the first report of it. One with another profile is dropped: the gateway gets
        the profile of the site."""
        device, eep, dbm, _ = telegram = line.content
        if device not in gateway.held or gateway.held[device].eep != eep:
            # a line was missed
            gateway.list_request.note_needed(self.clock())
            self.handle_learned(gateway, Learned(device, eep, None))
        if device not in self.devices or self.devices[device].eep != eep:
            return
        last = self.merge.last(device)
        is_new, heard = self.merge.add(gateway.name, telegram, self.clock(), line.read_at, line.is_late)
        self.covered_devices.add(device)
        if is_new:
            # a late telegram is certainly newer than the last one only if this gateway has reported that one, too
            is_newest = not line.is_late or last is None or gateway.name in last.signals
            self.lines.append(line._replace(sets_state=is_newest))
        elif heard is last and dbm is not None and dbm == max(filter(None, heard.signals.values()), default=0):
            self.better_signals[device] = dbm

    def handle_learned(self, gateway: Gateway, learned: Learned) -> None:
        """A gateway has learned a device: by radio, by an order of others, or by one of the site, which is no news."""
        device, eep, maker = learned
        self.has_news = True
        if device not in gateway.held and len(gateway.held) >= MAX_DEVICES:
            return
        known, is_ordered = self.devices.get(device), bool(gateway.orders_under_way(device))
        gateway.note_learned(device, eep)
        if device in gateway.unwanted:
            return
        changed = Listed(device, eep, known.label if known else "", known.maker if known and maker is None else maker)
        if known is None or changed != known and not is_ordered:
            self.set_device(changed)
        self.spread(device, gateway)

    def set_device(self, device: Listed) -> None:
        """The site learns this device."""
        self.devices[device.device] = device
        self.write(Learned(device.device, device.eep, device.maker), eep=device.eep, id=device.device,
                   maker=device.maker, result="accepted", type="teach")

    def spread(self, device: str, owner: Gateway | None = None) -> None:
        """The gateways that have learned a device get its profile and label, and so does the owner, which hears it."""
        known, gateways = self.devices[device], self.gateways_by_device.setdefault(device, [])
        if owner and owner not in gateways:
            gateways.append(owner)
        self.changed_devices.add(device)
        self.has_news = True
        for gateway in gateways:
            if gateway is owner or device in gateway.held:
                gateway.wanted.add(device)
            gateway.complete(device, known.eep, known.label)

    def handle_deleted(self, gateway: Gateway, device: str) -> None:
        """A gateway has deleted a device. Unless the site has ordered this, the site deletes it, too."""
        is_news = device in gateway.held and device not in gateway.unwanted
        gateway.note_deleted(device)
        self.changed_devices.add(device)
        if is_news and device in self.devices and not self.devices[device].eep.startswith(ACTUATOR_START):
            self.remove(device)
        self.note_not_held(device)

    def note_not_held(self, device: str) -> None:
        """A gateway has not learned a device any more. The site deletes an actuator that no gateway has learned."""
        known = self.devices.get(device)
        if known and known.eep.startswith(ACTUATOR_START) and not self.owners(device):
            self.remove(device)
        self.forget_unused(device)

    def forget_unused(self, device: str) -> None:
        """Forgets which gateways use a device, if none does."""
        if not any(gateway.uses(device) for gateway in self.gateways_by_device.get(device, ())):
            self.gateways_by_device.pop(device, None)

    def remove(self, device: str) -> None:
        """The site deletes a device, and all its gateways do."""
        known = self.devices.pop(device)
        self.changed_devices.add(device)
        self.merge.telegrams_by_device.pop(device, None)
        self.has_news = True
        for gateway in self.gateways_by_device.get(device, ()):
            gateway.drop(device)
        self.forget_unused(device)
        self.write(Deleted(device), eep=known.eep, id=device, maker=known.maker, result="deleted", type="teach")

    def owners(self, device: str) -> list[Gateway]:
        """The gateways that have learned a device."""
        return [gateway for gateway in self.gateways_by_device.get(device, ()) if device in gateway.held]

    def owner(self, device: str) -> Gateway | None:
        """The gateway for orders to a device: of those that have learned it and are online, the one that hears it
        best."""
        names = [gateway.name for gateway in self.owners(device) if gateway.is_online]
        best_name = self.merge.best_gateway(device, names)
        return self.gateways[best_name] if best_name else None

    def handle_unknown_sender(self, gateway: Gateway, device: str) -> None:
        """A gateway hears a device that it has not learned. If the site has it, the gateway learns it, too."""
        if gateway.held.pop(device, None):
            self.has_news = True
            gateway.list_request.note_needed(self.clock())
        if device in self.devices:
            self.spread(device, gateway)
            if not self.devices[device].eep.startswith(ACTUATOR_START) and not gateway.has_room(device):
                self.warn("full", f"{gateway.name} has learned {len(gateway.held)} devices: it cannot learn {device}")

    def handle_list(self, gateway: Gateway, listing: dict[str, Listed]) -> None:
        """A gateway has listed its devices. What has changed since its last list is news, unless the site has ordered
        it. Then what differs from the site is brought up to date, and sensors that are missing are learned again."""
        held_before, unwanted_before = dict(gateway.held), set(gateway.unwanted)
        gateway.note_list(listing)
        for name, listed in listing.items():
            if name in gateway.unwanted:
                continue
            known, before = self.devices.get(name, listed), held_before.get(name, Held("", ""))
            changed = known._replace(maker=known.maker if listed.maker is None else listed.maker)
            if listed[1:3] != known[1:3] and not gateway.orders_under_way(name):
                changed = changed._replace(eep=known.eep if listed.eep == before.eep else listed.eep,
                                           label=known.label if listed.label in ("", before.label) else listed.label)
            if changed != self.devices.get(name):
                self.devices[name] = changed
                self.need_list()
            self.spread(name, gateway)
        for name in (held_before.keys() | unwanted_before) - listing.keys():
            self.changed_devices.add(name)
            self.note_not_held(name)
        for name in sorted(gateway.wanted - listing.keys() | gateway.unwanted):
            gateway.complete(name, *self.devices.get(name, Listed(name, "", "", None))[1:3])

    def write(self, content: Content, **members: object) -> None:
        """Adds a line of the site, in the form of a gateway's line."""
        self.lines.append(SiteLine(json.dumps(members, sort_keys=True, separators=(",", ":")), content))

    def list_when_due(self) -> None:
        """Lists the devices of the site, if this is due."""
        now = self.clock()
        if now >= max(self.list_due, self.listed_at + LIST_EVERY) and (
                now >= self.list_due + ALL_LISTED_WITHIN
                or all(gateway.list_request.is_answered for gateway in self.gateways.values())):
            self.list_due, self.listed_at = math.inf, now
            for name, device in sorted(self.devices.items()):
                self.write(device, eep=device.eep, id=name, label=device.label, maker=device.maker, type="device")
            self.write(EndOfList(len(self.devices)), count=len(self.devices), type="list")

    @property
    def status(self) -> Status | None:
        """The sums of the counters, and the mode of an open learn window; None if no gateway has reported its own."""
        statuses = [gateway.status for gateway in self.gateways.values() if gateway.status]
        modes = [gateway.status.mode for gateway in self.open_windows() if gateway.status]
        counters = {name: sum(status.counters[name] for status in statuses) for name in COUNTERS}
        return Status((modes or ["closed"])[0], counters) if statuses else None

    def open_windows(self) -> list[Gateway]:
        """The gateways whose learn window is open."""
        return [gateway for gateway in self.gateways.values() if gateway.has_open_window]
