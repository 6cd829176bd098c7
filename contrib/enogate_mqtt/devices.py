"""The devices of a gateway as its lines report them, and what is published about them."""
from __future__ import annotations

import itertools
import json
import time
from collections import OrderedDict
from collections.abc import Callable, Iterable
from dataclasses import dataclass, field
from datetime import datetime, timezone

from enogate_lines.contents import Content, Deleted, EndOfList, Learned, Listed, Telegram
from enogate_lines.entities import Table

from . import discovery
from .state import LAST_SEEN_SUBTOPIC, LASTING_SUBTOPICS
from .topics import Message, Topics


@dataclass(slots=True)
class Device:
    """A device. Its label is None until it is known that it has one or none; until then, Home Assistant is not shown
    the device. `last_readings` has its readings, by their subtopics. Its entities in Home Assistant have IDs with
    `identity`: its own ID or, if it has replaced another device, that of the other one."""
    name: str
    eep: str
    label: str | None = None
    maker: int | None = None
    last_readings: dict[str, str] = field(default_factory=dict)
    identity: str = ""

    def __post_init__(self) -> None:
        self.identity = self.identity or self.name


class Devices:
    """The devices of a gateway, and the retained messages that the broker should have about them. A device that is
    learned without a label waits for one for `label_wait` seconds, because Home Assistant derives entity IDs from the
    first name. If it gets the label of another device, it waits as long: it may replace that one. A device with a label
    that is deleted is shown until the next list: if another one has its label then, that one replaces it, and keeps its
    entities."""

    def __init__(self, topics: Topics, table: Table, expire_after: int | None = None,
                 known_devices: Iterable[Device] = (),
                 removed_topics: Iterable[str] = (), may_adopt: bool = False, label_wait: int = 0,
                 clock: Callable[[], float] = time.monotonic):
        self.topics, self.table, self.expire_after = topics, table, expire_after
        self.label_wait, self.clock = label_wait, clock
        # the devices that wait before they are shown, each with the end of its wait: the earliest first
        self.wait_ends: OrderedDict[str, float] = OrderedDict()
        self.known_devices = {device.name: device for device in known_devices}
        # the identities of the known devices, and which of these devices have a label
        self.identities: set[str] = set()
        self.names_by_label: dict[str, set[str]] = {}
        for device in self.known_devices.values():
            self.index(device)
        # the devices that became known since this was emptied
        self.new_devices: set[str] = set()
        self.shown_configs = {device.name: self.discovery_configs(device) for device in self.known_devices.values()}
        # the topics whose retained messages are to be deleted
        self.removed_topics = set(removed_topics)
        # the devices that changed since this was emptied
        self.changed_devices: set[str] = set()
        # how many complete lists have arrived, and whether another one is needed
        self.list_count = 0
        self.needs_list = False
        # the devices of a list that has not ended
        self.listed_devices: list[str] = []
        # without a state file, the readings that the broker retains are adopted for devices that only a list reported
        self.adopting_devices = {name for name, device in self.known_devices.items() if may_adopt
                                 and not device.last_readings}
        self.may_adopt = may_adopt

    def retained_messages(self, device: str) -> dict[str, str]:
        """Everything that the broker should retain about a device, by topic."""
        texts_by_subtopic = self.known_devices[device].last_readings
        return self.shown_configs.get(device, {}) | {self.topics.reading(device, subtopic): text
                                             for subtopic, text in texts_by_subtopic.items()}

    def is_shown_on(self, topic: str) -> bool:
        """Whether a device is shown by a discovery message on this topic, which may have been that of another device
        when the broker was asked for it."""
        return any(topic in configs for configs in self.shown_configs.values())

    def adopt_reading(self, topic: str, text: str) -> bool:
        """Takes a reading that the broker retains as the last one of its device: the state file was lost, or another
        bridge ran before. Returns whether it was taken."""
        name, _, subtopic = topic.removeprefix(self.topics.root + "/").partition("/")
        if name not in self.adopting_devices:
            return False
        device = self.known_devices[name]
        is_possible = subtopic == LAST_SEEN_SUBTOPIC or self.table.may_report(device.eep, subtopic)
        if subtopic in device.last_readings or not is_possible:
            return False
        device.last_readings[subtopic] = text
        self.changed_devices.add(name)
        return True

    def handle_line(self, content: Content, now: float | None = None) -> list[Message]:
        """Handles a line, and returns what is published for it. `now` is the time of its arrival in seconds since 1970,
        if it is known."""
        match content:
            case Listed():
                self.listed_devices.append(content.device)
                if content.device not in self.known_devices and self.may_adopt:
                    self.adopting_devices.add(content.device)
                label = content.label or (None if content.device in self.wait_ends else "")
                return self.learn(content.device, content.eep, content.maker, label)
            case EndOfList():
                return self.end_list(content.count)
        self.listed_devices = []
        match content:
            case Telegram():
                return self.handle_telegram(content, now)
            case Learned():
                self.adopting_devices.discard(content.device)
                label = self.label_of(content.device, now)
                return self.learn(content.device, content.eep, content.maker, label)
            case Deleted():
                return self.delete(content.device)
        return []

    def drop_listing(self) -> None:
        """Drops the current list: an invalid line may have been part of it."""
        self.listed_devices = []

    def end_list(self, count: int) -> list[Message]:
        """Forgets the devices that a complete list does not contain."""
        listing, self.listed_devices = self.listed_devices, []
        if len(listing) != count:
            self.needs_list = True
            return []
        self.list_count += 1
        gone_devices = [self.pop(name) for name in sorted(self.known_devices.keys() - set(listing))]
        return [message for device in gone_devices for message in self.forget(device)]

    def label_of(self, name: str, now: float | None) -> str | None:
        """The label of a device that is taught in or added: it keeps the one that it had. A new device waits for one.
        If this happened at an unknown time, the next list says which label it has got since then."""
        label = self.known_devices[name].label if name in self.known_devices else None
        if label is None and not self.label_wait:
            return ""
        if label is None and now is None:
            self.needs_list = True
        elif label is None:
            self.wait_ends.setdefault(name, self.clock() + self.label_wait)
        return label

    def device_of(self, name: str, eep: str) -> Device:
        """The device with this ID, which may be new. If another one has its identity, because it has replaced it, it
        gets a new one."""
        if name not in self.known_devices:
            possible_identities = itertools.chain([name], (f"{name}_{number}" for number in itertools.count(2)))
            self.known_devices[name] = Device(name, eep, identity=next(identity for identity in possible_identities
                                                                       if identity not in self.identities))
            self.index(self.known_devices[name])
            self.new_devices.add(name)
        return self.known_devices[name]

    def index(self, device: Device) -> None:
        """Notes the identity and the label of a known device."""
        self.identities.add(device.identity)
        if device.label:
            self.names_by_label.setdefault(device.label, set()).add(device.name)

    def unindex(self, device: Device) -> None:
        """Undoes `index`, before its identity or label changes."""
        self.identities.discard(device.identity)
        if device.label:
            self.names_by_label[device.label].remove(device.name)
            if not self.names_by_label[device.label]:
                del self.names_by_label[device.label]

    def pop(self, name: str) -> Device:
        """Removes a device from the known ones."""
        self.unindex(self.known_devices[name])
        self.new_devices.discard(name)
        return self.known_devices.pop(name)

    def learn(self, name: str, eep: str, maker: int | None, label: str | None) -> list[Message]:
        """A device is learned, with this label, or None if it is not known yet."""
        device = self.device_of(name, eep)
        if name in self.shown_configs and (device.eep, device.maker, device.label) == (eep, maker, label):
            # a list repeats what is known, and the discovery messages of 1,000 devices take seconds
            return []
        messages = self.set_profile(device, eep)
        self.unindex(device)
        device.maker, device.label = maker, label
        self.index(device)
        if label is not None:
            self.wait_ends.pop(name, None)
            if label and self.label_wait and not self.shown_configs.get(name) and self.others_with_label_of(device):
                self.wait_ends[name] = self.clock() + self.label_wait
        return messages + self.update_discovery(device)

    def others_with_label_of(self, device: Device) -> list[Device]:
        """Other devices with the label of this one: at most two."""
        names = (name for name in self.names_by_label.get(device.label or "", ()) if name != device.name)
        return [self.known_devices[name] for name in itertools.islice(names, 2)]

    def end_label_waits(self) -> list[Message]:
        """Shows the devices that have waited for long enough."""
        due = []
        while self.wait_ends and self.clock() >= next(iter(self.wait_ends.values())):
            due.append(self.known_devices[self.wait_ends.popitem(last=False)[0]])
            due[-1].label = due[-1].label or ""
        return [message for device in due for message in self.update_discovery(device)]

    def delete(self, name: str) -> list[Message]:
        """A device is deleted. If it has a label, the next list shows whether another one replaces it."""
        device = self.known_devices.get(name)
        if device and device.label:
            self.needs_list = True
            self.changed_devices.add(name)
            return self.remove_readings(device)
        return self.forget(self.pop(name)) if device else []

    def forget(self, device: Device) -> list[Message]:
        """Removes everything that is retained about a device that is not learned any more. Its entities remain if
        another device replaces it."""
        self.adopting_devices.discard(device.name)
        self.wait_ends.pop(device.name, None)
        self.changed_devices.add(device.name)
        discovery_topics, heir = self.shown_configs.pop(device.name, {}), self.heir_of(device)
        messages = self.remove_readings(device)
        if heir is None:
            return messages + self.delete_retained(discovery_topics)
        self.unindex(heir)
        heir.identity = device.identity
        self.index(heir)
        self.wait_ends.pop(heir.name, None)
        self.shown_configs[heir.name] = self.shown_configs.get(heir.name, {}) | discovery_topics
        return messages + self.update_discovery(heir)

    def heir_of(self, device: Device) -> Device | None:
        """The device that replaces another one: the only one with its label, if it also has its profile or was not
        shown yet."""
        candidates = self.others_with_label_of(device)
        is_heir = len(candidates) == 1 and (candidates[0].eep == device.eep
                                            or not self.shown_configs.get(candidates[0].name))
        return candidates[0] if is_heir else None

    def handle_telegram(self, telegram: Telegram, now: float | None) -> list[Message]:
        """Handles a telegram. If its device is unknown or has another profile, lines were missed: a list is needed."""
        device = self.device_of(telegram.device, telegram.eep)
        is_unknown = device.label is None and device.name not in self.wait_ends
        self.needs_list |= is_unknown or device.eep != telegram.eep
        messages = self.set_profile(device, telegram.eep)
        texts_by_subtopic = self.table.readings_by_subtopic(telegram)
        if now is not None:
            texts_by_subtopic[LAST_SEEN_SUBTOPIC] = time_text(now)
        messages += self.take_readings(device, texts_by_subtopic)
        return messages + [Message(self.topics.reading(device.name, subtopic), event_payload(kind), False)
                           for subtopic, kind in self.table.events_of(telegram)]

    def take_readings(self, device: Device, texts_by_subtopic: dict[str, str]) -> list[Message]:
        """The device has these readings."""
        messages = []
        if self.has_events(device.eep):
            # a rocker that is not pressed any more is not retained as pressed
            earlier_subtopics = [subtopic for subtopic in device.last_readings
                                 if subtopic not in texts_by_subtopic and subtopic not in LASTING_SUBTOPICS]
            messages += self.delete_retained(self.topics.reading(device.name, subtopic)
                                             for subtopic in earlier_subtopics)
            device.last_readings = {subtopic: text
                                    for subtopic, text in device.last_readings.items()
                                    if subtopic not in earlier_subtopics}
        is_new = not texts_by_subtopic.keys() <= device.last_readings.keys()
        device.last_readings |= texts_by_subtopic
        self.changed_devices.add(device.name)
        messages += self.update_discovery(device) if is_new else []
        return messages + self.publish_retained({self.topics.reading(device.name, subtopic): text
                                                 for subtopic, text in texts_by_subtopic.items()})

    def has_events(self, eep: str) -> bool:
        """Whether devices of this profile are switches, whose telegrams are events."""
        return any(row.entity == "event" for row in self.table.rows_of_profile(eep).values())

    def set_profile(self, device: Device, eep: str) -> list[Message]:
        """Removes the readings of another profile."""
        if device.eep == eep:
            return []
        device.eep = eep
        self.adopting_devices.discard(device.name)
        return self.remove_readings(device)

    def remove_readings(self, device: Device) -> list[Message]:
        """Removes all readings of a device."""
        topics = [self.topics.reading(device.name, subtopic) for subtopic in device.last_readings]
        device.last_readings = {}
        return self.delete_retained(topics)

    def update_discovery(self, device: Device) -> list[Message]:
        """The discovery messages for a device that changed."""
        self.changed_devices.add(device.name)
        configs_before, configs = self.shown_configs.get(device.name, {}), self.discovery_configs(device)
        self.shown_configs[device.name] = configs
        deletions = self.delete_retained(topic for topic in configs_before if topic not in configs)
        return deletions + self.publish_retained({topic: text for topic, text in configs.items()
                                                  if configs_before.get(topic) != text})

    def delete_retained(self, topics: Iterable[str]) -> list[Message]:
        """Deletes the retained messages on these topics, now or when the broker is connected again."""
        topics = list(topics)
        self.removed_topics.update(topics)
        return [Message(topic, "", True) for topic in topics]

    def publish_retained(self, texts: dict[str, str]) -> list[Message]:
        """Retained messages on these topics."""
        self.removed_topics.difference_update(texts)
        return [Message(topic, text, True) for topic, text in texts.items()]

    def discovery_configs(self, device: Device) -> dict[str, str]:
        """The messages of Home Assistant's discovery, by topic. A device that no list has reported is not shown: it
        would get a wrong name."""
        if device.label is None or device.name in self.wait_ends or not self.topics.discovery:
            return {}
        about = discovery.device_description(self.topics, device.name, device.identity, device.eep, device.label,
                                             device.maker)
        rows = self.table.rows_of_profile(device.eep).values()
        return discovery.device_configs(self.topics, device.name, device.identity, about, rows, device.last_readings,
                                        self.expire_after)


def time_text(seconds: float) -> str:
    """A time in seconds since 1970, as it is published. Of two such texts the greater one is the later time."""
    return datetime.fromtimestamp(seconds, timezone.utc).isoformat(timespec="seconds")


def event_payload(kind: str) -> str:
    return json.dumps({"event_type": kind}, separators=(",", ":"))
