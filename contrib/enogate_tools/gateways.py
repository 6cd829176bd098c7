"""The gateways of this machine: their names, and where their units have their files."""
from __future__ import annotations

import os
import re
from collections.abc import Callable
from typing import NamedTuple

# The name of a gateway. Programs would take one that begins with - for an option, and /etc/default/enogate-mqtt-NAME
# has the settings of a bridge.
NAME_PATTERN = "(?!-|mqtt)[A-Za-z0-9_-]+"
SETTINGS_FOLDER, UNITS_FOLDER = "/etc/default", "/etc/systemd/system"
RUNTIME_FOLDER, DATABASE_FOLDER = "/run/enogate", "/var/lib/enogate"


class InvalidName(ValueError):
    """A text is not the name of a gateway."""

    def __init__(self, text: str):
        super().__init__(f"{text!r} is not the name of a gateway: use letters, digits, - and _, and do not begin it "
                         "with - or mqtt")


class Paths(NamedTuple):
    """The files of a gateway: its desk, its lines, and the state of its MQTT bridge. With a name, they are those of the
    unit with this name."""
    desk: str
    lines: str
    bridge: str
    name: str = ""

    @property
    def unit(self) -> str:
        """The name of its unit."""
        return f"enogate@{self.name}"


def is_name(text: str) -> bool:
    """Whether a gateway may have this name."""
    return re.fullmatch(NAME_PATTERN, text) is not None


def paths_of(name: str, root: str = "") -> Paths:
    """The files of the gateway with this name, or InvalidName. `root` is put before their paths."""
    if not is_name(name):
        raise InvalidName(name)
    return Paths(f"{root}{RUNTIME_FOLDER}/{name}/desk", f"{root}/var/log/enogate/{name}.lines",
                 f"{root}/var/lib/enogate-mqtt/{name}.db", name)


def all_paths(root: str = "") -> dict[str, dict[str, str]]:
    """The files of each gateway of this machine, by their names. Each of these files may be missing."""
    paths_of_names = (paths_of(name, root) for name in gateway_names(root))
    return {paths.name: {"desk": paths.desk, "lines": paths.lines,
                         "settings": f"{root}{SETTINGS_FOLDER}/enogate-{paths.name}"} for paths in paths_of_names}


def settings_paths(name: str) -> list[str]:
    """The files with the settings of a gateway, its bridge and its Modbus server. Each of them may be missing."""
    return [f"{SETTINGS_FOLDER}/{file}" for shared_file in ("enogate", "enogate-mqtt", "enogate.modbus")
            for file in (shared_file, f"{shared_file}-{name}")]


def gateway_names(root: str = "") -> list[str]:
    """The names of the gateways that may be started, and of those that have a desk: its directory may also be that of a
    unit that was not started. A directory that this user may not read counts as empty. `root` is put before all."""
    started_names = names_in_folder(root + RUNTIME_FOLDER, "({})", lambda folder: os.path.lexists(f"{folder}/desk"))
    return sorted(startable_names(root) | started_names)


def startable_names(root: str = "") -> set[str]:
    """The names of the gateways that have settings of their own, a database, or a unit that is started at boot."""
    names = names_in_folder(root + SETTINGS_FOLDER, "enogate-({})", os.path.isfile)
    names |= names_in_folder(root + DATABASE_FOLDER, r"({})\.db")
    for folder in file_names(root + UNITS_FOLDER):
        if folder.endswith(".wants"):
            names |= names_in_folder(f"{root}{UNITS_FOLDER}/{folder}", r"enogate@({})\.service")
    return names


def why_unknown(paths: Paths, root: str = "") -> str:
    """A sentence if no gateway of this machine has this name; otherwise empty. One without a unit needs no name."""
    has_files = not paths.name or os.path.exists(paths.desk) or os.path.exists(paths.lines)
    return "" if has_files else why_not_among(paths.name, gateway_names(root))


def why_not_among(name: str, known_names: list[str]) -> str:
    """A sentence if these gateways do not have the one with this name; otherwise empty."""
    if name in known_names:
        return ""
    if not is_name(name):
        return str(InvalidName(name))
    from difflib import get_close_matches
    make = f"sudo systemctl enable --now enogate@{name}"
    if similar := get_close_matches(name.lower(), {known_name.lower(): known_name for known_name in known_names}, 1):
        meant = next(known_name for known_name in known_names if known_name.lower() == similar[0])
        return f"there is no gateway {name}: did you mean {meant}? If not, make it: {make}"
    names_text = (f"the gateways of this machine are {', '.join(known_names)}"
                  if known_names else "this machine has none")
    return f"there is no gateway {name}: {names_text}; to make it, enable it: {make}"


def names_in_folder(folder: str, form: str, is_of_gateway: Callable[[str], bool] = os.path.lexists) -> set[str]:
    """The gateways whose names are part of the names of files in this directory. `form` is the form of these names."""
    pattern = form.format(NAME_PATTERN)
    return {match[1] for file in file_names(folder)
            if (match := re.fullmatch(pattern, file)) and is_of_gateway(f"{folder}/{file}")}


def file_names(folder: str) -> list[str]:
    """The names of the files in this directory; none if it is missing, or if this user may not read it."""
    try:
        return os.listdir(folder)
    except OSError:
        return []
