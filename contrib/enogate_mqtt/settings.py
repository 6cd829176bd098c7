"""The settings of the bridge: its command line, and its environment variables."""
from __future__ import annotations

import argparse
import re
import ssl
from collections.abc import Mapping, Sequence
from dataclasses import dataclass
from typing import NoReturn

from enogate_lines.entities import AUTO
from enogate_tools import VERSION
from enogate_tools.gateways import InvalidName, is_name

EXIT_STATUS = 2
# How long a learn window stays open that was opened through the bridge, in seconds.
LEARN_FOR = 120
# How long a newly learned device waits for a label before it is shown without one, in seconds.
LABEL_WAIT = 60


class WrongSetting(Exception):
    """Why the bridge cannot run with these settings, in one line."""


@dataclass(frozen=True)
class Arguments:
    """The command line."""
    name: str
    lines: str
    desk: str
    state: str
    boot: str
    prints: bool


@dataclass(frozen=True)
class Login:
    """Address of the broker, and how to connect to it."""
    host: str
    port: int
    user: str | None
    password: str | None
    tls: ssl.SSLContext | None


@dataclass(frozen=True)
class PublishingSettings:
    """The topic prefix of Home Assistant's discovery, or an empty string; how long a learn window stays open that was
    opened through the bridge; after which time without a telegram a cyclic reading expires, AUTO, or None if it never
    does; how long a newly learned device waits for a label; and whether actuators are asked for their states. All times
    are in seconds."""
    discovery: str
    learn_for: int
    expire_after: int | None
    label_wait: int
    queries: bool


class Parser(argparse.ArgumentParser):
    """A parser whose error messages are one line."""

    def error(self, message: str) -> NoReturn:
        raise WrongSetting(message)


def read_arguments(arguments: Sequence[str]) -> Arguments:
    """The command line, or WrongSetting."""
    parser = Parser("enogate-mqtt", description="Connect an enogate gateway to an MQTT broker. The connection is "
                    "configured with environment variables; see enogate-mqtt(1).")
    parser.add_argument("name", metavar="NAME", help="name of the gateway, for example `hall` for enogate@hall.service")
    parser.add_argument("--lines", metavar="PATH", help="file to which the gateway appends its output lines")
    parser.add_argument("--desk", metavar="PATH", help="desk of the gateway: the file from which it reads orders")
    parser.add_argument("--state", metavar="PATH", help="SQLite file for the state of the bridge, created if missing")
    parser.add_argument("--boot", metavar="ID", default="", help="ID of this boot of the computer; if it has changed, "
                        "lines that were written before the start of the bridge are not published")
    parser.add_argument("--print", action="store_true", dest="prints",
                        help="print what would be published for the lines on standard input; no broker is needed")
    parser.add_argument("--version", action="version", version=f"enogate-mqtt {VERSION}")
    words = parser.parse_args(arguments)
    if not is_name(words.name):
        raise WrongSetting(str(InvalidName(words.name)))
    if not words.prints and not (words.lines and words.desk and words.state):
        raise WrongSetting("--lines, --desk and --state are required, except with --print")
    return Arguments(**vars(words))


def read_discovery(environment: Mapping[str, str]) -> str:
    """The topic prefix of Home Assistant's discovery, or an empty string."""
    topic = environment.get("MQTT_DISCOVERY", "homeassistant")
    if not re.fullmatch("([^/#+]+(/[^/#+]+)*)?", topic):
        raise WrongSetting(f"invalid MQTT_DISCOVERY: {topic} (expected a topic without # and +)")
    return topic


def read_publishing_settings(environment: Mapping[str, str]) -> PublishingSettings:
    """The settings of what is published, or WrongSetting."""
    learn_for = read_seconds("MQTT_LEARN_SECONDS", environment.get("MQTT_LEARN_SECONDS") or str(LEARN_FOR))
    label_wait = read_seconds("MQTT_LABEL_SECONDS", environment.get("MQTT_LABEL_SECONDS") or str(LABEL_WAIT))
    queries = read_yes_or_no("MQTT_QUERY", environment.get("MQTT_QUERY") or "yes")
    return PublishingSettings(read_discovery(environment), learn_for, read_expiry(environment), label_wait, queries)


def read_expiry(environment: Mapping[str, str]) -> int | None:
    """After which time a cyclic reading expires: AUTO, a number of seconds, or None."""
    text = environment.get("MQTT_EXPIRE_AFTER", "auto")
    if text == "auto":
        return AUTO
    if not re.fullmatch("[0-9]{0,7}", text):
        raise WrongSetting(f"invalid MQTT_EXPIRE_AFTER: {text} (expected auto, a number of seconds, or nothing)")
    return int(text or "0") or None


def read_seconds(name: str, text: str) -> int:
    if not re.fullmatch("[0-9]{1,7}", text):
        raise WrongSetting(f"invalid {name}: {text} (expected a number of seconds)")
    return int(text)


def read_yes_or_no(name: str, text: str) -> bool:
    if text not in ("yes", "no"):
        raise WrongSetting(f"invalid {name}: {text} (expected yes or no)")
    return text == "yes"


def read_login(environment: Mapping[str, str]) -> Login:
    """The settings of the broker, or WrongSetting."""
    host = environment.get("MQTT_HOST", "localhost")
    if not host:
        raise WrongSetting("MQTT_HOST is empty")
    user, password = environment.get("MQTT_USER") or None, None
    if environment.get("MQTT_PASSWORD_FILE"):
        password = first_line("MQTT_PASSWORD_FILE", environment["MQTT_PASSWORD_FILE"])
        if user is None:
            raise WrongSetting("MQTT_PASSWORD_FILE is set, but MQTT_USER is not")
    tls = read_tls(environment)
    port = read_port("MQTT_PORT", environment.get("MQTT_PORT") or ("8883" if tls else "1883"))
    return Login(host, port, user, password, tls)


def read_port(name: str, port: str) -> int:
    if not re.fullmatch("[0-9]{1,5}", port) or not 0 < int(port) < 65536:
        raise WrongSetting(f"invalid {name}: {port} (expected 1 to 65535)")
    return int(port)


def read_tls(environment: Mapping[str, str]) -> ssl.SSLContext | None:
    """How the broker and the bridge identify themselves on an encrypted connection; None without encryption."""
    is_wanted = read_yes_or_no("MQTT_TLS", environment.get("MQTT_TLS") or "no")
    files = {name: environment.get(name) or None for name in ("MQTT_CA_FILE", "MQTT_CERT_FILE", "MQTT_KEY_FILE")}
    if not is_wanted:
        for name, path in files.items():
            if path:
                raise WrongSetting(f"{name} is set, but MQTT_TLS is not yes")
        return None
    ca, cert, key = files.values()
    if key and not cert:
        raise WrongSetting("MQTT_KEY_FILE is set, but MQTT_CERT_FILE is not")
    try:
        context = ssl.create_default_context(cafile=ca)
    except OSError as error:
        raise WrongSetting(f"cannot load MQTT_CA_FILE: {ca}: {error_text(error)}") from error
    if cert:
        try:
            context.load_cert_chain(cert, key, password="")
        except OSError as error:
            files_named = f"{cert} and {key}" if key else cert
            raise WrongSetting(f"cannot load MQTT_CERT_FILE and MQTT_KEY_FILE: {files_named}: {error_text(error)}"
                               ) from error
    return context


def first_line(name: str, path: str) -> str:
    """The first line of the file of this setting."""
    try:
        with open(path, encoding="utf-8") as file:
            line = file.readline().rstrip("\r\n")
    except (OSError, ValueError) as error:
        raise WrongSetting(f"cannot read {name}: {path}: {error_text(error)}") from error
    if not line:
        raise WrongSetting(f"first line of {name} is empty: {path}")
    return line


def error_text(error: Exception) -> str:
    """The text of the error, without the path."""
    return getattr(error, "strerror", None) or str(error)
