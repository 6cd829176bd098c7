"""The file with the state of the bridge: its version, and what enogatectl(1) reads there too."""
from __future__ import annotations

import contextlib
import json
import pathlib
import sqlite3
from collections.abc import Mapping
from datetime import datetime

from enogate_lines.follow import Position

# The version of the tables, in PRAGMA user_version. A file of another version is replaced. The tables `learn`, `boot`
# and `identity` were added without another version: programs that do not know them can use the file.
VERSION = 2
# No file is larger, in bytes.
MAX_SIZE = 1 << 62
# How long `last_seen` waits for a bridge that is writing, in seconds.
LOCK_WAIT = 1.0
# The subtopic of the reading with the time of the last telegram, and of that with the gateways of a site that hear a
# device. These and the signal strength remain when a rocker is released.
LAST_SEEN_SUBTOPIC, COVERAGE_SUBTOPIC = "last_seen", "coverage"
LASTING_SUBTOPICS = ("dbm", LAST_SEEN_SUBTOPIC, COVERAGE_SUBTOPIC)


class ForeignFile(Exception):
    """The file is not a state file of this version."""


def uri_of(path: str, option: str) -> str:
    """The file as SQLite opens it with this option."""
    return f"{pathlib.Path(path).absolute().as_uri()}?{option}"


def check_version(connection: sqlite3.Connection) -> None:
    """Raises ForeignFile, unless this is a state file of this version, or a new one."""
    version = connection.execute("PRAGMA user_version").fetchone()[0]
    tables = connection.execute("SELECT count(*) FROM sqlite_master").fetchone()[0]
    if tables and version != VERSION:
        raise ForeignFile(f"version {version} of the state, expected {VERSION}")


def position_of(inode: object, offset: object, last_bytes: object) -> Position:
    """How far the lines were read."""
    if not (isinstance(inode, int) and isinstance(offset, int) and isinstance(last_bytes, bytes)
            and 0 <= offset <= MAX_SIZE):
        raise ForeignFile("place of an unknown form")
    return Position(inode, offset, last_bytes)


def last_seen(path: str) -> tuple[Position, dict[str, datetime]] | None:
    """How far the bridge with this state file has read the lines, and when it received the last telegram of each
    device. None if the bridge has read none, or if the file cannot be read."""
    try:
        with contextlib.closing(sqlite3.connect(uri_of(path, "mode=ro"), uri=True, timeout=LOCK_WAIT)) as connection:
            readings_by_device = last_readings(connection)
            row = connection.execute("SELECT inode, offset, last FROM place").fetchone()
        times_by_device = {device: time for device, readings in readings_by_device.items()
                           if (time := time_in(readings))}
        return (position_of(*row), times_by_device) if row else None
    except (sqlite3.Error, ForeignFile):
        return None


def last_readings(connection: sqlite3.Connection) -> dict[str, dict[str, str]]:
    """The last readings of each device, by their subtopics, or sqlite3.Error or ForeignFile."""
    check_version(connection)
    rows = connection.execute("SELECT id, told FROM device")
    return {device: texts_in(readings_text) for device, readings_text in rows}


def texts_in(text: str) -> dict[str, str]:
    """The texts in a JSON object, by their names; none if it is something else."""
    try:
        members = json.loads(text)
    except (ValueError, TypeError, RecursionError):
        return {}
    named_values = members.items() if isinstance(members, dict) else ()
    return {name: value for name, value in named_values if isinstance(value, str)}


def time_in(readings: Mapping[str, str]) -> datetime | None:
    """The time of the last telegram in the readings of a device; None if they have none. Each time that the bridge
    stores has a time zone."""
    try:
        time = datetime.fromisoformat(readings[LAST_SEEN_SUBTOPIC])
    except (KeyError, ValueError):
        return None
    return time if time.tzinfo else None
