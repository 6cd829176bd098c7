"""Prints the readings of a gateway as they come, for people."""
from __future__ import annotations

import contextlib
from collections.abc import Callable
from datetime import datetime

from enogate_lines.contents import BadLine, Deleted, Listed, Telegram, content_of
from enogate_lines.entities import Table
from enogate_tools.gateways import Paths

from . import recorded
from .client import UnreadableLines
from .following import follow_lines, open_lines
from .readings import readings_text


def print_readings(paths: Paths, now: Callable[[], datetime], report: Callable[[str], None],
                   wait: Callable[[bool], bool]) -> None:
    """Prints for each telegram the time, the label or the ID of the device, and its readings in words, until nobody
    reads the output (`follow_lines`). The labels are those of the last list. Raises UnreadableLines."""
    names, labels = Table(), {}
    with contextlib.closing(open_lines(paths)) as lines:
        with contextlib.suppress(UnreadableLines):
            labels = {device.device: device.label for device in recorded.recorded_devices(paths)}
        for line in (line for found in follow_lines(lines, wait) for line in found):
            with contextlib.suppress(BadLine):
                match content_of(line):
                    case Telegram(device) as telegram:
                        report(f"{now():%H:%M:%S}  {labels.get(device) or device}  {readings_text(telegram, names)}")
                    case Listed(device, _, label):
                        labels[device] = label
                    case Deleted(device):
                        labels.pop(device, None)
