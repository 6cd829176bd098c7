"""What a report has besides the lines and their script."""
from __future__ import annotations

import contextlib
import os
import platform
import re
import subprocess
from collections.abc import Callable

from enogate_tools import VERSION, files
from enogate_tools.check import Check, settings_in
from enogate_tools.gateways import settings_paths
from enogate_tools.port import is_base

MAX_TEXT, COMMAND_TIMEOUT = 1 << 20, 60
# The settings in a report, and the forms of the values that it shows. All other values may be secret.
NUMBER_PATTERN, YES_OR_NO_PATTERN = "[0-9]+", "yes|no"
SHOWN_SETTINGS = {"BASE": "[0-9A-Fa-f]{8}", "SERIAL": "/(dev|run)/[A-Za-z0-9/._:+@=,~-]+", "TURNS": NUMBER_PATTERN,
    "EXPLAIN": "--explain",
    "MQTT_HOST": "localhost", "MQTT_PORT": NUMBER_PATTERN, "MQTT_USER": "", "MQTT_PASSWORD_FILE": "",
    "MQTT_TLS": YES_OR_NO_PATTERN,
    "MQTT_CA_FILE": "", "MQTT_CERT_FILE": "", "MQTT_KEY_FILE": "", "MQTT_DISCOVERY": "homeassistant",
    "MQTT_EXPIRE_AFTER": "auto|[0-9]+", "MQTT_LEARN_SECONDS": NUMBER_PATTERN, "MQTT_LABEL_SECONDS": NUMBER_PATTERN,
    "MQTT_QUERY": YES_OR_NO_PATTERN,
    "MODBUS_ADDRESS": "", "MODBUS_PORT": NUMBER_PATTERN, "MODBUS_ORDERS": YES_OR_NO_PATTERN}
# A value of this length is found in other words.
MAX_UNHIDDEN, HIDDEN_TEXT = 2, "(hidden)"
BRIDGE_JOURNAL = "journal-mqtt.txt"
UNITS_BY_JOURNAL = {"journal.txt": ["enogate@", "enogate-backup@"], BRIDGE_JOURNAL: ["enogate-mqtt@"]}
JOURNALCTL = "journalctl --quiet --no-pager --no-hostname --output=short-iso --since=-7d --lines=5000"
VERSION_COMMANDS = ("enogate --version", "systemctl --version", "grep ^PRETTY_NAME= /etc/os-release", *(
    f"dpkg-query --show {package}" for package in ("enogate", "cockpit-enogate", "enogate-demo", "python3-paho-mqtt")))
OutputFunction = Callable[[list[str]], str]


def output_of(command: list[str]) -> str:
    """The end of what a command prints, or nothing if it fails."""
    try:
        result = subprocess.run(command, capture_output=True, timeout=COMMAND_TIMEOUT, check=True)
    except (OSError, subprocess.SubprocessError):
        return ""
    return result.stdout[-MAX_TEXT:].decode(errors="replace")


def settings(check: Check, missing: list[str]) -> tuple[str, set[str]]:
    """The settings of gateway, bridge and Modbus server, and the values that are hidden."""
    text, hidden = "", set[str]()
    for path in settings_paths(check.name):
        try:
            with open(check.system.path(path), encoding="utf-8", errors="replace") as file:
                values = settings_in(file.read(MAX_TEXT))
        except OSError as error:
            missing.append(f"{path}: {error.strerror}")
            continue
        for key, value in values.items():
            is_shown = not value or re.fullmatch(SHOWN_SETTINGS.get(key, ""), value)
            hidden |= set() if is_shown else {value}
            text += f"{path}: {key}={value if is_shown else HIDDEN_TEXT}\n" if key in SHOWN_SETTINGS else ""
    return text, hidden


def base_of(check: Check) -> str:
    """The base ID with which the gateway runs, or the one in its settings, or that of its first start; or nothing."""
    bases = [check.system.option_value(check.gateway, "--base") if check.gateway else "", check.settings["BASE"]]
    with contextlib.suppress(OSError), os.fdopen(files.open_file(f"{check.database[:-3]}.base"), "rb") as file:
        bases.append(file.read(8).decode(errors="replace"))
    return next(filter(is_base, bases), "").upper()


def texts_of(check: Check, output: OutputFunction, is_anonymous: bool, missing: list[str]) -> dict[str, str]:
    """The texts of a report by the names of their files. What is missing is added to the list."""
    shown_settings, hidden_values = settings(check, missing)
    texts = {"check.txt": "".join(f"{kind}: {text}\n" for kind, text in check.findings())}
    for name, units in UNITS_BY_JOURNAL.items():
        if is_anonymous and name == BRIDGE_JOURNAL:
            missing.append(f"{name}: it may have labels")
        elif text := output([*JOURNALCTL.split(), *(f"--unit={unit}{check.name}" for unit in units)]):
            texts[name] = text
        else:
            missing.append(f"{name}: journalctl prints no messages of the last seven days"
                           + ("" if check.system.is_root else "; only root and the group systemd-journal may see all"))
    for value in sorted(hidden_values, key=len, reverse=True):
        if len(value) > MAX_UNHIDDEN:
            texts = {name: text.replace(value, HIDDEN_TEXT) for name, text in texts.items()}
    versions = [f"{command}: " + output(command.split()).partition("\n")[0] for command in VERSION_COMMANDS]
    versions += [f"enogate-report {VERSION}", f"Python {platform.python_version()}",
                 f"{platform.system()} {platform.release()} {platform.machine()}"]
    return {"versions.txt": "\n".join([*versions, ""]), "settings.txt": shown_settings, **texts}
