"""Labels in place of IDs. An order on the desk always has the ID, and no part of a label gets into it."""
from __future__ import annotations

import contextlib
from collections.abc import Iterable

from enogate_lines.contents import Listed

from . import recorded
from .client import Client, UnreadableLines
from .desk_file import DeskFile
from .grammar import InvalidOrder, suggestion


def are_labels_current(desk: bytes) -> bool:
    """Whether no label was set after the last list that was asked for on this desk. A start of the gateway empties the
    desk, and before it a label may have been set, or a backup restored."""
    orders = b"\n" + desk.replace(b"\r\n", b"\n")
    return orders.rfind(b"\nlist\n") > orders.rfind(b"\nlabel ")


def listed_devices(client: Client) -> list[Listed] | None:
    """The learned devices as the lines record them; None if a label may have been set since then."""
    with contextlib.closing(DeskFile(client.paths.desk)) as file:
        desk = file.read()
    with contextlib.suppress(UnreadableLines):
        return recorded.recorded_devices(client.paths) if are_labels_current(desk) else None
    return None


def id_of_label(label: str, listed: Iterable[Listed]) -> str:
    """The ID of the one device with this label, or InvalidOrder."""
    ids: dict[str, list[str]] = {}
    for device in listed:
        ids.setdefault(device.label, []).append(device.device)
    found = ids.get(label, [])
    if len(found) == 1:
        return found[0]
    if found:
        raise InvalidOrder(f"several devices have the label {label!r}: give the ID, {' or '.join(found)}")
    raise InvalidOrder(f"{label!r} is neither an ID (8 hexadecimal digits) nor the label of a device"
                       f"{suggestion(label, ids)}")
