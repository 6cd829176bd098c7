"""The table of the learned devices, for people."""
from __future__ import annotations

from collections.abc import Iterable
from datetime import datetime

from enogate_lines.contents import Listed
from enogate_lines.entities import Table
from enogate_tools import share
from enogate_tools.gateways import Paths

from . import recent, words
from .readings import readings_text
from .tables import table

HEADINGS = ("LABEL", "ID", "PROFILE", "NAME", "LAST READINGS", "SIGNAL", "LAST SEEN")


def device_table(listed: Iterable[Listed], paths: Paths, now: datetime, most: int = 0) -> str:
    """The table of these devices, with at most so many characters in a row, unless that is 0."""
    reports = recent.last_reports(paths.lines)
    times = recent.last_seen_times(paths.bridge, paths.lines)
    names, rows = Table(), [HEADINGS]
    for device in listed:
        telegrams, time = [telegram for telegram, _ in reports.get(device.device, ())], times.get(device.device)
        current = [one for one in telegrams if one.eep == device.eep == telegrams[0].eep]
        current.sort(key=lambda telegram: recent.channel_of(telegram) or 0)
        shown = ", ".join(readings_text(telegram, names) for telegram in current)
        signal = f"{telegrams[0].dbm} dBm" if telegrams and telegrams[0].dbm is not None else ""
        age = words.age((now - time).total_seconds()) if time else ""
        row = (device.label, device.device, device.eep, share.device_kind(device.eep), shown, signal, age)
        rows.append(tuple(words.printable(cell) for cell in row))
    return table(rows, most) if len(rows) > 1 else "no device is learned"
