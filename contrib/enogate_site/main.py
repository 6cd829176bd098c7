"""The program: reads its settings and runs the site."""
from __future__ import annotations

import logging
import os
import sys
import time
from collections.abc import Mapping, Sequence
from typing import Any, NamedTuple

from enogate_lines.entities import Table
from enogate_mqtt import log
from enogate_mqtt.devices import Devices
from enogate_mqtt.main import broker_of, import_paho, old_discovery_topics, run_until_stopped
from enogate_mqtt.settings import (EXIT_STATUS, Parser, PublishingSettings, WrongSetting, read_login,
                                   read_publishing_settings)
from enogate_mqtt.wake import Waiter
from enogate_tools import VERSION
from enogate_tools.gateways import InvalidName, is_name

from .gateway import Gateway
from .members import Members
from .site import Site
from .store import SiteStore
from .topics import SiteTopics

PROGRAM = "enogate-site"


class SiteSettings(NamedTuple):
    """The name of the site, its state file, its gateways, and the one whose learn window it opens."""
    name: str
    state: str
    gateways: tuple[str, ...]
    learner: str


def main() -> int:
    """Runs the program, and returns its exit status."""
    log.set_up_logging(os.environ, program=PROGRAM)
    try:
        settings, publishing = read_settings(sys.argv[1:], os.environ), read_publishing_settings(os.environ)
        topics, login, wake = topics_of(settings, publishing), read_login(os.environ), Waiter([])
        broker = broker_of(import_paho(), login, topics, time.monotonic)
        site = make_site(settings, publishing, broker=broker, wait=wake.wait, clock=time.monotonic, wall=time.time)
        run_until_stopped(site, wake)
    except WrongSetting as wrong:
        logging.error("%s", wrong)
        return EXIT_STATUS
    return 0


def read_settings(arguments: Sequence[str], environment: Mapping[str, str]) -> SiteSettings:
    """The command line and the settings of the site, or WrongSetting."""
    parser = Parser(PROGRAM, description="Make one site of several enogate gateways at an MQTT broker. It is configured"
                    " with environment variables; see enogate-site(1).")
    parser.add_argument("name", metavar="NAME", help="name of the site, which no gateway has")
    parser.add_argument("--state", metavar="PATH", required=True,
                        help="SQLite file for the state of the site, created if missing")
    parser.add_argument("--version", action="version", version=f"{PROGRAM} {VERSION}")
    words = parser.parse_args(arguments)
    names = environment.get("SITE_GATEWAYS", "").split()
    for name in filter(lambda name: not is_name(name), (words.name, *names)):
        raise WrongSetting(str(InvalidName(name)))
    if not names or len({words.name, *names}) <= len(names):
        raise WrongSetting(f"invalid SITE_GATEWAYS: {' '.join(names)} (expected the names of the gateways, each once, "
                           "without that of the site)")
    learner = environment.get("SITE_LEARN") or names[0]
    if learner not in names:
        raise WrongSetting(f"invalid SITE_LEARN: {learner} (expected one of SITE_GATEWAYS)")
    return SiteSettings(words.name, words.state, tuple(names), learner)


def topics_of(settings: SiteSettings, publishing: PublishingSettings) -> SiteTopics:
    return SiteTopics(settings.name, publishing.discovery, settings.gateways)


def make_site(settings: SiteSettings, publishing: PublishingSettings, **parts: Any) -> Site:
    """The site, with the state of its last run."""
    topics, clock = topics_of(settings, publishing), parts["clock"]
    store = SiteStore(settings.state, topics.discovery)
    devices = Devices(topics, Table(), publishing.expire_after, store.devices,
                      store.removed_topics | old_discovery_topics(topics, store), may_adopt=store.may_adopt,
                      label_wait=publishing.label_wait, clock=clock)
    gateways = {name: Gateway(name, clock) for name in settings.gateways}
    members = Members(gateways.values(), store.restored_devices(gateways.values()), clock,
                      log.RateLimitedLog(clock).warning)
    return Site(members, gateways[settings.learner], topics, devices=devices, store=store, **parts)
