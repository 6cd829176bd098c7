"""The learned devices as the lines of a gateway record them, for users who may read the lines but give no orders, and
while the gateway does not run: those of the last list, with what was learned and deleted after it."""
from __future__ import annotations

import json
from collections.abc import Iterable, Iterator

from enogate_lines.contents import BadLine, Content, Deleted, EndOfList, Learned, Listed, content_of
from enogate_tools.gateways import Paths

from .client import Lines, UnreadableLines
from .recent import last_lines, last_reports, last_seen_times

# How much of the lines is searched for a list. A gateway with 100 devices that send each minute writes less in a day.
MAX_SEARCHED_BYTES = 1 << 26
LINE_ENDS = (b'"type":"list"}', b'"type":"device"}', b'"type":"teach"}')


def recorded_devices(paths: Paths) -> list[Listed]:
    """The devices, by ascending ID, or UnreadableLines."""
    Lines(paths.lines).close()
    found = devices_in(last_lines(paths.lines, MAX_SEARCHED_BYTES))
    if found is None:
        raise UnreadableLines(f"no list of the devices is in the lines {paths.lines}: give the order `list` once")
    return found


def devices_as_json(found: list[Listed], paths: Paths) -> Iterator[str]:
    """The devices as lines, like those of the order `list`. The member `seen` is the time of the last telegram in
    seconds since 1970, or null if it is not known. The members `dbm` and `readings` are those of the last telegram, if
    it is near the end of the lines and has the profile of the device; otherwise null and an empty list."""
    times = last_seen_times(paths.bridge, paths.lines)
    reports = last_reports(paths.lines)
    for device in found:
        seen = int(times[device.device].timestamp()) if device.device in times else None
        telegram, line = reports.get(device.device, [(None, b"")])[0]
        last = json.loads(line) if telegram and telegram.eep == device.eep else {"dbm": None, "readings": []}
        yield json_line({"dbm": last["dbm"], "eep": device.eep, "id": device.device, "label": device.label,
                       "maker": device.maker, "readings": last["readings"], "seen": seen, "type": "device"})
    yield json_line({"count": len(found), "type": "list"})


def json_line(members: dict[str, object]) -> str:
    """A line with these members."""
    return json.dumps(members, separators=(",", ":"))


def devices_in(lines: Iterable[bytes]) -> list[Listed] | None:
    """The devices that these lines record, the last line first; None if they have no complete list."""
    listed: list[Listed] = []
    changes: list[Learned | Deleted] = []
    count = None
    for content in filter(None, map(content_in, lines)):
        match content:
            case EndOfList():
                listed, count = [], content.count
            case Listed():
                listed.append(content)
            case Learned() | Deleted():
                changes.append(content)
        if count == len(listed):
            return apply_changes(listed, reversed(changes))
    return None


def content_in(line: bytes) -> Content | None:
    """The content of a line of a list, or of a teach line; None if it is another line."""
    try:
        return content_of(line) if line.endswith(LINE_ENDS) else None
    except BadLine:
        return None


def apply_changes(listed: list[Listed], changes: Iterable[Learned | Deleted]) -> list[Listed]:
    """The devices of a list after these changes, by ascending ID. A device that is learned again keeps its label."""
    known = {device.device: device for device in listed}
    for change in changes:
        old = known.pop(change.device, None)
        if isinstance(change, Learned):
            label = old.label if old else ""
            known[change.device] = Listed(change.device, change.eep, label, change.maker)
    return [known[name] for name in sorted(known)]
