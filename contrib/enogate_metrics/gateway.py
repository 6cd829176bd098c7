"""What is known about a gateway of this machine. This program may run as root, so it opens only regular files of the
user who owns their directory, and SQLite opens a copy."""
from __future__ import annotations

import contextlib
import os
import sqlite3
import stat
import tempfile
from collections.abc import Mapping
from typing import NamedTuple

from enogate_ctl.client import UnreadableLines
from enogate_ctl.recent import MAX_READ_BYTES, last_lines, last_reports
from enogate_ctl.recorded import recorded_devices
from enogate_lines.contents import BadLine, Response, Status, content_of
from enogate_lines.entities import Table
from enogate_lines.health import Health, ObservedDevice, health_of
from enogate_mqtt.state import ForeignFile, last_readings, time_in
from enogate_tools.check import MAX_SQLITE_STEPS, MEMORY_FOLDER, Check, copy_if_small
from enogate_tools.files import open_file
from enogate_tools.gateways import DATABASE_FOLDER, Paths, paths_of
from enogate_tools.port import is_base
from enogate_tools.space import free_bytes
from enogate_tools.system import System


class GatewayState(NamedTuple):
    """What is known about a gateway; None, an empty text or an empty mapping for what is not known. Without times,
    nothing is known about silence. The free bytes are those of file systems, by what is stored there."""
    name: str
    is_active: bool | None
    has_stick: bool | None
    base: str
    learned_count: int | None
    health: Health | None
    has_times: bool
    counters: Mapping[str, int]
    free_bytes: Mapping[str, int]


def state_of(name: str, system: System, table: Table, now: float) -> GatewayState:
    """The state of the gateway with this name at this time, in seconds since 1970."""
    paths, settings = paths_of(name, system.root), settings_of(name, system)
    unit_state = system.unit_state(paths.unit)
    status, base = last_status_and_base(paths.lines)
    devices, has_times = observed_devices(paths, system, table)
    folders_by_use = {"lines": os.path.dirname(paths.lines), "database": system.path(DATABASE_FOLDER)}
    return GatewayState(
        name=name, is_active=unit_state == "active" if unit_state else None, has_stick=is_port(settings["SERIAL"]),
        base=base or base_in(settings["BASE"]) or first_base(system.path(f"{DATABASE_FOLDER}/{name}.base")),
        learned_count=None if devices is None else len(devices),
        health=None if devices is None else health_of(devices, table, now), has_times=has_times,
        counters=status.counters if status else {},
        free_bytes={use: size for use, folder in folders_by_use.items() if (size := free_bytes(folder)) is not None})


def settings_of(name: str, system: System) -> dict[str, str]:
    """The settings of a gateway, as its unit has them; the default ones if they cannot be read."""
    check = Check(name, system)
    with contextlib.suppress(OSError):
        for _finding in check.check_settings():
            pass
    return check.settings


def is_port(path: str) -> bool | None:
    """Whether there is a serial port at this path; None if this is not known."""
    try:
        return stat.S_ISCHR(os.stat(path).st_mode) if path else None
    except (FileNotFoundError, NotADirectoryError):
        return False
    except (OSError, ValueError):
        return None


def last_status_and_base(path: str) -> tuple[Status | None, str]:
    """The last answer to `status`, and the base ID in the last answer of the radio module to `base`, if they are near
    the end of these lines."""
    status, base = None, ""
    for line in last_lines(path, MAX_READ_BYTES):
        if not line.endswith((b'"type":"status"}', b'"type":"response"}')):
            continue
        with contextlib.suppress(BadLine):
            match content_of(line):
                case Status() as earlier_status:
                    status = status or earlier_status
                case Response(0, data):
                    base = base or base_in(data)
        if status and base:
            break
    return status, base


def base_in(text: str) -> str:
    """The base ID that this is, in upper case; nothing if it is none."""
    return text.upper() if is_base(text) else ""


def first_base(path: str) -> str:
    """The base ID of the first start, which the unit has stored in this file."""
    try:
        with os.fdopen(open_file(path), encoding="ascii", errors="replace") as file:
            return base_in(file.read(9).strip())
    except OSError:
        return ""


def observed_devices(paths: Paths, system: System, table: Table) -> tuple[list[ObservedDevice] | None, bool]:
    """The learned devices with their last readings, or None if the lines do not record them; and whether the times of
    their telegrams are known. A bridge that runs knows these; otherwise, the readings are those near the end of the
    lines."""
    try:
        learned_devices = recorded_devices(paths)
    except UnreadableLines:
        return None, False
    is_bridge_active = system.unit_state(f"enogate-mqtt@{paths.name}") == "active"
    saved = saved_readings(paths.bridge) if is_bridge_active else None
    readings_by_device = recorded_readings(paths.lines, table) if saved is None else saved
    observed = []
    for device in learned_devices:
        readings = readings_by_device.get(device.device, {})
        time = time_in(readings)
        observed.append(ObservedDevice(device.device, device.eep, readings, time.timestamp() if time else None))
    return observed, saved is not None


def recorded_readings(path: str, table: Table) -> dict[str, dict[str, str]]:
    """The readings in the last telegram of each device, if it is near the end of these lines."""
    return {device: table.readings_by_subtopic(reports[0][0]) for device, reports in last_reports(path).items()}


def saved_readings(path: str) -> dict[str, dict[str, str]] | None:
    """The last readings of each device that the bridge with this state file has saved, or None if it cannot be read. If
    the bridge begins a new log between the copies of the file and of its log, they may be older, or none."""
    with tempfile.TemporaryDirectory(dir=MEMORY_FOLDER if os.access(MEMORY_FOLDER, os.W_OK) else None) as folder:
        copy_path = f"{folder}/copy"
        try:
            if not (copy_if_small(path, copy_path) and copy_if_small(f"{path}-wal", f"{copy_path}-wal")):
                return None
            with contextlib.closing(sqlite3.connect(copy_path)) as connection:
                connection.set_progress_handler(lambda: 1, MAX_SQLITE_STEPS)
                return last_readings(connection)
        except (OSError, sqlite3.Error, ForeignFile):
            return None
