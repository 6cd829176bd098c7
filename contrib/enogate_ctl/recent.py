"""What was received last from each device: its readings, from the lines, and its time, from the MQTT bridge. The lines
have no times."""
from __future__ import annotations

import contextlib
import os
from collections.abc import Iterator
from datetime import datetime
from typing import BinaryIO

from enogate_lines.contents import BadLine, Telegram, content_of
from enogate_lines.follow import Follower, Position, rotated_files, ignore_message, without_nuls
from enogate_mqtt.state import last_seen
from enogate_tools.files import is_safe, open_file

# How much of the lines is read for the last readings, how much at once, and the end of a line with readings.
MAX_READ_BYTES = 1 << 20
BLOCK = 1 << 20
READING_LINE_END = b'"type":"reading"}'
# The reading that says which channel of an actuator a telegram is about.
CHANNEL_READING = "IO"


def channel_of(telegram: Telegram) -> int | None:
    """The channel that a telegram is about, if it says so."""
    return next((reading.number for reading in telegram.readings if reading.name == CHANNEL_READING), None)


def last_reports(path: str, most: int = MAX_READ_BYTES) -> dict[str, list[tuple[Telegram, bytes]]]:
    """The last telegram of each device, and the last one of each other channel of it, the newest first, if they are
    near the end of the lines; and the lines that report them."""
    found: dict[str, dict[int | None, tuple[Telegram, bytes]]] = {}
    for line in last_lines(path, most):
        if telegram := telegram_in(line):
            found.setdefault(telegram.device, {}).setdefault(channel_of(telegram), (telegram, line))
    return {device: list(reports.values()) for device, reports in found.items()}


def telegram_in(line: bytes) -> Telegram | None:
    """The telegram that a line reports; None if it is another line."""
    if not line.endswith(READING_LINE_END):
        return None
    try:
        content = content_of(line)
    except BadLine:
        return None
    return content if isinstance(content, Telegram) else None


def last_lines(path: str, most: int) -> Iterator[bytes]:
    """The lines in so many bytes at the end, the last line first. They may be in several files. The first one may be
    incomplete, and is then not valid."""
    for name in reversed(rotated_files(path)):
        try:
            file = os.fdopen(open_file(name), "rb")
        except OSError:
            continue
        with file:
            size = file.seek(0, os.SEEK_END)
            yield from lines_backwards(file, size, max(0, size - most))
        most -= size
        if most <= 0:
            return


def lines_backwards(file: BinaryIO, end: int, start: int) -> Iterator[bytes]:
    """The lines of a file between two offsets, the last line first. What follows the last line end is left out."""
    # the end of a line whose beginning is in the block before
    rest, has_end = b"", False
    while end > start:
        size = min(BLOCK, end - start)
        end -= size
        file.seek(end)
        rest, *lines = (file.read(size) + rest).split(b"\n")
        if lines and not has_end:
            lines.pop()
            has_end = True
        yield from map(without_nuls, reversed(lines))
    if has_end:
        yield without_nuls(rest)


def last_seen_times(path: str, lines: str, most: int = MAX_READ_BYTES) -> dict[str, datetime]:
    """When the bridge with this state file received the last telegram of each device. Devices with a later telegram,
    which the bridge has not read yet, are left out. Empty if the bridge does not run, or if this user may not read its
    state."""
    if not (is_safe(path) and is_safe(f"{path}-wal")):
        return {}
    saved = last_seen(path)
    if saved is None:
        return {}
    position, times = saved
    later = devices_after(position, lines, most)
    return {} if later is None else {device: time for device, time in times.items() if device not in later}


def devices_after(position: Position, path: str, most: int) -> set[str] | None:
    """The devices with telegrams after this position in the lines; None if it is not found, or more than so many bytes
    before their end."""
    follower, devices = Follower(path, position, ignore_message), set()
    if follower.file is None:
        return None
    with contextlib.closing(follower):
        while not follower.is_at_end and most >= 0:
            for line, _ in follower.read():
                most -= len(line)
                devices |= {telegram.device} if (telegram := telegram_in(line)) else set()
    return devices if most >= 0 else None
