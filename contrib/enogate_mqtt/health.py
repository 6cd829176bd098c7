"""The message about the state of a gateway and its devices."""
from __future__ import annotations

import json
from collections.abc import Callable, Sequence

from enogate_lines.contents import Content, Response
from enogate_lines.health import ObservedDevice, health_of
from enogate_tools import VERSION
from enogate_tools.port import is_base
from enogate_tools.space import least_free_megabytes

from .devices import Device, Devices, time_text
from .requests import Requests
from .state import time_in

# The shortest time between two messages, in seconds.
HEALTH_EVERY = 60.0
# The message names at most so many devices of a kind.
MAX_NAMED_DEVICES = 50


class HealthReport:
    """What the message says. `folders` have the files of the gateway. `base` is the base ID in the last answer of the
    radio module."""

    def __init__(self, devices: Devices, requests: Requests, clock: Callable[[], float],
                 time_of_day: Callable[[], float], folders: Sequence[str]):
        self.devices, self.requests, self.clock, self.time_of_day = devices, requests, clock, time_of_day
        self.folders = folders
        self.base: str | None = None
        self.due = 0.0

    def handle_line(self, content: Content) -> None:
        """Handles a line of the gateway."""
        match content:
            case Response(0, data) if is_base(data):
                self.base = data

    def take_due_text(self, is_published: bool) -> str | None:
        """The message, if it is due, or if the broker has none; None until it is known whether gateway and radio module
        answer."""
        gateway, module = self.requests.gateway_probe.is_online, self.requests.module_probe.is_online
        if gateway is None or (gateway and module is None) or (is_published and self.clock() < self.due):
            return None
        self.due = self.clock() + HEALTH_EVERY
        return self.text(gateway, bool(gateway and module))

    def text(self, has_gateway: bool, has_stick: bool) -> str:
        """The message, with whether gateway and stick answer."""
        observed_devices = map(observed_device, self.devices.known_devices.values())
        health = health_of(observed_devices, self.devices.table, self.time_of_day())
        last = health.last_telegram
        names_by_kind = {"low_battery": health.low_battery, "silent": health.silent, "weak": health.weak}
        members = {
            "base": self.base, "gateway": has_gateway, "stick": has_stick, "version": VERSION,
            "free_megabytes": least_free_megabytes(self.folders),
            "last_telegram": None if last is None else time_text(last),
            "last_telegram_seconds": None if last is None else int(last),
            **{kind: {"count": len(names), "ids": names[:MAX_NAMED_DEVICES]} for kind, names in names_by_kind.items()},
        }
        return json.dumps(members, sort_keys=True, separators=(",", ":"))


def observed_device(device: Device) -> ObservedDevice:
    """A device, with the time of its last telegram."""
    time = time_in(device.last_readings)
    return ObservedDevice(device.name, device.eep, device.last_readings, time.timestamp() if time else None)
