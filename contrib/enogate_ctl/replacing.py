"""Replaces a device by a new one, which gets its profile and its label."""
from __future__ import annotations

import re
from collections.abc import Iterable

from enogate_lines.contents import Listed

from .command_line import ReplaceDevice
from .grammar import ID_PATTERN, InvalidOrder
from .labels import id_of_label
from .recent import last_lines
from .recorded import MAX_SEARCHED_BYTES, content_in


def missing_steps(command: ReplaceDevice, listed: Iterable[Listed]) -> list[tuple[str, str]]:
    """The orders that are missing, each with what it does; none if the device was replaced already. This is certain if
    the new one has the label and the profile of the last list that had the old one. Raises InvalidOrder if the device
    cannot be replaced."""
    known = {device.device: device for device in listed}
    name, new, is_id = command.old, known.pop(command.new, None), re.fullmatch(ID_PATTERN, command.old) is not None

    def is_old(one: object) -> bool:
        return isinstance(one, Listed) and one.device != command.new and name == (one.device if is_id else one.label)

    if not any(map(is_old, known.values())):
        gone = next(filter(is_old, map(content_in, last_lines(command.paths.lines, MAX_SEARCHED_BYTES))), None)
        if gone and new and gone.device not in known and gone.label and (new.label, new.eep) == (
                gone.label, command.eep or gone.eep):
            return []
        if is_id or (new and new.label == name):
            raise InvalidOrder(f"{name} is not learned: check the ID with `list`" if is_id else
                               f"{name!r} is the label of {command.new}: give the ID of the device to replace")
    old = known[name if is_id else id_of_label(name, known.values())]
    eep = command.eep or old.eep
    if new and (new.eep != eep or new.label not in ("", old.label)):
        raise InvalidOrder(f"{new.device} is learned already, with the profile {new.eep} and the label {new.label!r}: "
                           f"correct NEW, or give this profile as EEP and remove the label with `label {new.device}`")
    add = [] if new else [(f"add {command.new} {eep}", f"{command.new}: learned")]
    needs_label = old.label and not (new and new.label)
    label = [(f"label {command.new} {old.label}", f"{command.new}: labelled")] if needs_label else []
    return [*add, *label, (f"remove {old.device}", f"{old.device}: removed")]
