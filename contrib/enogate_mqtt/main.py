"""The program: reads its settings and runs the bridge."""
from __future__ import annotations

import importlib
import logging
import os
import signal
import sys
import time
from collections.abc import Callable
from types import ModuleType

from enogate_lines.entities import Table
from enogate_lines.follow import NO_POSITION, Follower, without_nuls

from . import discovery, log
from .bridge import Bridge, decoded_lines
from .connection import Broker, Connection
from .desk import Desk
from .devices import Devices
from .queries import Queries
from .requests import Requests
from .settings import EXIT_STATUS, Arguments, Login, PublishingSettings, WrongSetting
from .settings import read_arguments, read_login, read_publishing_settings
from .store import Store
from .topics import Message, Topics
from .wake import Waiter


def main() -> int:
    """Runs the program, and returns its exit status."""
    log.set_up_logging(os.environ)
    try:
        words = read_arguments(sys.argv[1:])
        settings = read_publishing_settings(os.environ)
        if words.prints:
            print_messages(Topics(words.name, settings.discovery), settings)
        else:
            run(words, settings)
    except WrongSetting as wrong:
        logging.error("%s", wrong)
        return EXIT_STATUS
    except KeyboardInterrupt:
        return 1
    return 0


def run(words: Arguments, settings: PublishingSettings) -> None:
    """Connects the gateway to the broker, until a signal stops it."""
    login, clock = read_login(os.environ), time.monotonic
    topics = Topics(words.name, settings.discovery)
    broker = broker_of(import_paho(), login, topics, clock)
    store = Store(words.state, settings.discovery, words.boot)
    removed_topics = store.removed_topics | old_discovery_topics(topics, store)
    devices = Devices(topics, Table(), settings.expire_after, store.devices, removed_topics,
                      may_adopt=store.may_adopt, label_wait=settings.label_wait, clock=clock)
    desk = Desk(words.desk, clock)
    queries = Queries(devices, desk) if settings.queries else None
    requests = Requests(desk, clock, time.time, settings.learn_for, store.learn_until, queries)
    follower = Follower(words.lines, store.position, logging.warning, store.is_same_boot)
    wake = Waiter([words.lines, words.desk])
    bridge = Bridge(topics, broker, devices, follower, desk, requests, store, clock, time.time, wake.wait)
    run_until_stopped(bridge, wake)


def broker_of(paho: ModuleType, login: Login, topics: Topics, clock: Callable[[], float]) -> Broker:
    """The broker of these settings, with connections of paho."""
    return Broker(lambda version, is_reader: Connection(paho, login, topics, version, clock, is_reader),
                  f"{login.host}:{login.port}", clock)


def run_until_stopped(bridge: Bridge, wake: Waiter) -> None:
    """Runs the bridge until a signal stops it."""
    def stop(_number: int, _frame: object) -> None:
        bridge.is_stopped = True
        wake.stop()

    signal.signal(signal.SIGTERM, stop)
    signal.signal(signal.SIGINT, stop)
    bridge.run()


def import_paho() -> ModuleType:
    """The client library; only the running bridge needs it. If dnspython is installed, paho would import it, with 20 MB
    of other packages, for a function that is not used."""
    sys.modules.setdefault("dns", None)
    try:
        return importlib.import_module("paho.mqtt.client")
    except ImportError as error:
        raise WrongSetting(f"python3-paho-mqtt is not installed: {error}") from error


def old_discovery_topics(topics: Topics, store: Store) -> set[str]:
    """The discovery messages below another topic prefix, if it was changed."""
    if store.old_discovery in ("", topics.discovery):
        return set()
    old_topics = Topics(topics.name, store.old_discovery)
    removed_topics = set(discovery.gateway_configs(old_topics))
    return removed_topics.union(*Devices(old_topics, Table(), known_devices=store.devices).shown_configs.values())


def print_messages(topics: Topics, settings: PublishingSettings) -> None:
    """Prints what would be published for the lines on standard input."""
    signal.signal(signal.SIGPIPE, signal.SIG_DFL)
    devices = Devices(topics, Table(), settings.expire_after)
    lines = ((without_nuls(line.removesuffix(b"\n")), NO_POSITION) for line in sys.stdin.buffer)
    for line, _, content in decoded_lines(lines, devices, lambda _kind, text: logging.warning("%s", text)):
        for message in [Message(topics.lines, line, False), *devices.handle_line(content)]:
            print(message.topic, "retained" if message.retained else "-", message.payload, flush=True)
