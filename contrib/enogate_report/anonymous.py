"""Replaces the IDs in lines and texts, and the name of the gateway, and removes labels."""
from __future__ import annotations

import itertools
import json
import re
from collections.abc import Iterable

from enogate_ctl.recorded import json_line
from enogate_lines.contents import BadLine, members_of

# Base IDs are multiples of 128.
FIRST_BASE, BROADCAST, BASE_STEP, FIRST_NEW_ID = 0xFF800000, 0xFFFFFFFF, 128, 0x01000000
ID_PATTERN = re.compile(rb'"(?:id|dest|data)":"([0-9A-F]{8})"')
LABEL_PATTERN = re.compile(rb'"label":("(?:[ !#-\[\]-~]|\\["\\])+")')
# A longer number may contain an ID, and a shorter one is none.
DIGITS_PATTERN = re.compile("[0-9A-Fa-f]{7,}")
LEFT_OUT_TEXT, GATEWAY_NAME = b"(left out)", "gateway"
LINE_TYPES = ("packet", "reading", "teach", "device", "list", "status", "response", "ok", "error")


class Names:
    """Other IDs for those in these lines and for a base ID. They have the same order, since the gateway lists devices
    by ID. A base ID stays one, and each of its 128 IDs keeps its offset. `name` is that of the gateway."""

    def __init__(self, lines: Iterable[bytes], base: str, name: str = GATEWAY_NAME):
        ids, labels = {int(base, 16)}, set[bytes]()
        for line in lines:
            ids.update(int(id_text, 16) for id_text in ID_PATTERN.findall(line))
            labels.update(LABEL_PATTERN.findall(line))
        self.name, self.labels = name, [*map(json.loads, labels)]
        bases = {old_id & -BASE_STEP for old_id in ids if FIRST_BASE <= old_id < BROADCAST}
        free_ids = (new_id for new_id in itertools.count(FIRST_NEW_ID) if new_id not in ids)
        free_bases = (base for base in range(FIRST_BASE, BROADCAST - BASE_STEP, BASE_STEP) if base not in bases)
        device_ids = sorted(old_id for old_id in ids if old_id < FIRST_BASE)
        new_ids = dict(zip(device_ids, free_ids)) | dict(zip(sorted(bases), free_bases))
        new_ids |= {old_id: new_ids[old_id & -BASE_STEP] + old_id % BASE_STEP
                    for old_id in ids - new_ids.keys() if old_id & -BASE_STEP in new_ids}
        new_ids[BROADCAST] = BROADCAST
        self.ids = {f"{old_id:08X}": f"{new_id:08X}" for old_id, new_id in new_ids.items()}
        self.unused_id = next(text for number in itertools.count() if (text := f"{number:08X}") not in self.ids)

    def anonymous_line(self, line: bytes) -> bytes:
        """A line with other IDs and without a label. One that a gateway has not written like this is left out."""
        try:
            members = members_of(line)
            members.update({key: members[key] and self.ids[members[key]] for key in {"id", "dest"} & members.keys()})
            if "data" in members:
                members["data"] = self.ids.get(members["data"], "00" * (len(members["data"]) // 2))
        except (BadLine, LookupError, TypeError):
            return LEFT_OUT_TEXT
        members.update({"label": ""} if "label" in members else {})
        return json_line(members).encode() if members["type"] in LINE_TYPES else LEFT_OUT_TEXT

    def anonymous_text(self, text: str) -> str:
        """A text with other IDs, without labels, serial numbers of sticks and the gateway's name. X replaces digits."""
        text = re.sub(r"by-id/\S*\w", "by-id/(hidden)", text)
        for word in sorted({self.name, *self.labels}, key=len, reverse=True):
            text = (re.sub(f"(?<![A-Za-z0-9]){word}(?![A-Za-z0-9])", GATEWAY_NAME, text) if word == self.name
                    else text.replace(word, "(label)"))
        return DIGITS_PATTERN.sub(lambda match: self.ids.get(match[0].upper(), "X" * len(match[0])), text)
