"""The topics of a site: those of a gateway, two more, and those of its gateways that it reads."""
from __future__ import annotations

import functools
from dataclasses import dataclass

from enogate_mqtt.topics import Topics

# What a site reads of a gateway. Only a site publishes `gateways`: so it is read first.
SITE_KIND, LINES_KIND = "gateways", "lines"
KINDS = (SITE_KIND, "status", "gateway", "module", "learn", LINES_KIND)


@dataclass(frozen=True)
class SiteTopics(Topics):
    """The topics of the site with this name, and the names of its gateways."""
    gateways: tuple[str, ...] = ()

    @property
    def warning(self) -> str:
        """Text for people, retained: what needs attention."""
        return f"{self.root}/warning"

    @property
    def report_topics(self) -> list[str]:
        return [*super().report_topics, f"{self.root}/{SITE_KIND}", self.warning]

    @functools.cached_property
    def gateway_topics(self) -> dict[str, tuple[str, str]]:
        """The topics that the site reads, each with the name of its gateway and its last level."""
        return {f"{Topics(name, '').root}/{kind}": (name, kind) for name in self.gateways for kind in KINDS}

    @property
    def subscriptions(self) -> list[str]:
        return [*super().subscriptions, *self.gateway_topics]
