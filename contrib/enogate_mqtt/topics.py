"""The topics of a gateway, and the messages that are published on them."""
from __future__ import annotations

from dataclasses import dataclass


@dataclass(frozen=True, slots=True)
class Message:
    """A message to publish. A retained message without a payload deletes what the broker retains. With MQTT 5, it has
    these user properties: names and texts."""
    topic: str
    payload: str
    retained: bool
    properties: tuple[tuple[str, str], ...] = ()


@dataclass(frozen=True)
class Topics:
    """The topics of the gateway with this name. `discovery` is the topic prefix of Home Assistant's discovery, or
    empty."""
    name: str
    discovery: str

    @property
    def root(self) -> str:
        return f"enogate/{self.name}"

    @property
    def lines(self) -> str:
        return f"{self.root}/lines"

    @property
    def orders(self) -> str:
        return f"{self.root}/orders"

    @property
    def status(self) -> str:
        """`online` or `offline`, retained: whether the bridge is connected."""
        return f"{self.root}/status"

    @property
    def gateway(self) -> str:
        """`online` or `offline`, retained: whether the gateway answers the order `status`."""
        return f"{self.root}/gateway"

    @property
    def module(self) -> str:
        """`online` or `offline`, retained: whether the radio module answers the order `base`."""
        return f"{self.root}/module"

    @property
    def counters(self) -> str:
        """The counters of the last status line, retained, as a JSON object."""
        return f"{self.root}/counters"

    @property
    def health(self) -> str:
        """The state of the gateway and its devices, retained, as a JSON object."""
        return f"{self.root}/health"

    @property
    def learn(self) -> str:
        """`ON` or `OFF`, retained: whether the learn window is open."""
        return f"{self.root}/learn"

    @property
    def report_topics(self) -> list[str]:
        """The topics for what is known about the gateway itself."""
        return [self.gateway, self.module, self.counters, self.learn, self.health]

    @property
    def watched_topics(self) -> list[str]:
        """Topics of the gateway itself. Whoever removes all retained messages removes these too: the bridge receives
        this if it subscribes to them, and little else, since it rarely publishes there."""
        configs = [("binary_sensor", "status"), ("sensor", "readings"), ("switch", "learn")] if self.discovery else []
        return [self.status, *self.report_topics, *(self.config(component, name) for component, name in configs)]

    @property
    def learn_command(self) -> str:
        """`ON` or `OFF`: opens or closes the learn window."""
        return f"{self.root}/learn/set"

    @property
    def command_filters(self) -> list[str]:
        """Filters for everything that the bridge receives as an order."""
        return [self.orders, self.learn_command, self.command("+", "+/+")]

    @property
    def subscriptions(self) -> list[str]:
        """Filters for everything that a connection subscribes to. Those for orders are the first."""
        return [*self.command_filters, *self.watched_topics]

    def reading(self, device: str, subtopic: str) -> str:
        """The topic of a reading: this subtopic of the topic of the device."""
        return f"{self.root}/{device}/{subtopic}"

    def last_seen(self, device: str) -> str:
        """The time of the last telegram of a device, retained, in ISO 8601 with the time zone."""
        return self.reading(device, "last_seen")

    def device_filters(self, device: str) -> list[str]:
        """Filters for everything that is retained below the topic of a device."""
        return [f"{self.root}/{device}/+", f"{self.root}/{device}/+/+"]

    def command(self, device: str, subtopic: str) -> str:
        """The topic for commands to this subtopic of a device."""
        return f"{self.root}/{device}/{subtopic}/set"

    def config(self, component: str, entity: str) -> str:
        """The topic of the discovery message of an entity."""
        return f"{self.discovery}/{component}/enogate_{self.name}/{entity}/config"
