"""Which devices of a gateway are silent, have a weak signal, or have a low battery."""
from __future__ import annotations

import math
from collections.abc import Iterable, Mapping
from typing import NamedTuple

from .entities import AUTO, Table

# A signal below this is weak, in dBm: telegrams get lost.
WEAK_SIGNAL = -85
# The reading with the voltage of a battery or an energy store, and the limit below which that is low, in volts. The
# profiles define no limit: a lithium cell of 3 V is nearly empty then, and radio modules stop at about 2.1 V.
SUPPLY_VOLTAGE, LOW_VOLTAGE = "SVC", 2.5


class ObservedDevice(NamedTuple):
    """A learned device, with its last readings by their subtopics, and the time of its last telegram in seconds since
    1970, if that is known."""
    name: str
    eep: str
    last_readings: Mapping[str, str]
    last_seen: float | None


class Health(NamedTuple):
    """The IDs of the devices that were heard and are not silent, of those that are silent, that have a weak signal, and
    that have a low battery, each in ascending order; and the time of the last telegram, in seconds since 1970."""
    heard: list[str]
    silent: list[str]
    weak: list[str]
    low_battery: list[str]
    last_telegram: float | None


def health_of(devices: Iterable[ObservedDevice], table: Table, now: float) -> Health:
    """The state of these devices at this time, in seconds since 1970. If the time of the last telegram of a device is
    not known, or is in the future, because a clock was wrong, the device is neither heard nor silent."""
    devices = sorted(devices, key=lambda device: device.name)
    times_by_name = {device.name: device.last_seen for device in devices
                     if device.last_seen is not None and device.last_seen <= now}
    silent = [device.name for device in devices if device.name in times_by_name
              and now - times_by_name[device.name] > longest_silence(device.eep, table)]
    return Health(heard=sorted(times_by_name.keys() - set(silent)), silent=silent,
                  weak=[device.name for device in devices if is_below(device, "dbm", WEAK_SIGNAL)],
                  low_battery=[device.name for device in devices if is_below(device, SUPPLY_VOLTAGE, LOW_VOLTAGE)],
                  last_telegram=max(times_by_name.values(), default=None))


def longest_silence(eep: str, table: Table) -> float:
    """After how many seconds without a telegram all readings of such a device have expired; infinity if it sends at no
    intervals."""
    rows = table.rows_of_profile(eep).values()
    return max((seconds for row in rows if (seconds := row.expires_after(AUTO)) is not None), default=math.inf)


def is_below(device: ObservedDevice, subtopic: str, limit: float) -> bool:
    """Whether a reading of a device is a number below this limit. It may be missing, or a word."""
    try:
        return float(device.last_readings[subtopic]) < limit
    except (KeyError, ValueError):
        return False
