"""The orders that a site gets: each is passed to the gateways for which it is, or carried out by the site."""
from __future__ import annotations

from collections.abc import Callable, Iterable, Iterator

from enogate_ctl.grammar import VERBS_WITH_ID, is_order
from enogate_lines.contents import Listed
from enogate_mqtt.topics import Message, Topics
from enogate_tools import share
from enogate_tools.desk import opens_window

from .gateway import ACTUATOR_START, Gateway
from .members import Members

SHOWN_OF_ORDER = 60


class RefusedOrder(ValueError):
    """Why an order is not carried out."""


def orders_message(gateway: Gateway, orders: Iterable[str]) -> Message:
    """The message with these orders to a gateway."""
    return Message(Topics(gateway.name, "").orders, "".join(f"{order}\n" for order in orders), False)


class SiteDesk:
    """The desk of a site, in place of that of a gateway. `learner` is the gateway whose learn window it opens."""

    path = "the gateways of the site"

    def __init__(self, members: Members, learner: Gateway, warn: Callable[[str, str], None],
                 publish: Callable[[list[Message]], None]):
        self.members, self.learner, self.warn, self.publish = members, learner, warn, publish

    def give(self, orders: bytes, _device_count: int) -> int:
        """Carries out orders. Each gateway gets those for it in one message. Returns 0: what is refused is logged."""
        orders_by_gateway: dict[str, list[str]] = {}
        for line in orders.split(b"\n")[:-1]:
            text = line.decode("ascii", "replace")
            try:
                for gateway, order in self.passed_on(text):
                    orders_by_gateway.setdefault(gateway.name, []).append(order)
            except RefusedOrder as refused:
                self.warn("order", f"order {text[:SHOWN_OF_ORDER]!r} ignored: {refused}")
        self.publish([orders_message(self.members.gateways[name], passed_orders)
                      for name, passed_orders in orders_by_gateway.items()])
        return 0

    def passed_on(self, text: str) -> Iterator[tuple[Gateway, str]]:
        """The gateways for an order, each with the order that it gets, made of the words of this one."""
        if not is_order(text):
            raise RefusedOrder("it is not an order")
        verb, *words = text.split(" ")
        device, others = words[0].upper() if words else "", words[1:]
        if verb in ("label", "remove") and device not in self.members.devices:
            raise RefusedOrder("the site has no such device")
        match verb:
            case "list":
                self.members.need_list()
            case "learn":
                yield from self.learn(words)
            case "add":
                self.add(device, others[0].upper())
            case "remove":
                self.members.remove(device)
            case "label":
                self.members.devices[device] = self.members.devices[device]._replace(label=" ".join(others))
                self.members.spread(device)
                self.members.need_list()
            case _ if verb in VERBS_WITH_ID:
                if (owner := self.members.owner(device)) is None:
                    raise RefusedOrder("no gateway that is online has learned this device")
                yield owner, " ".join((verb, device, *others))
            case _:
                raise RefusedOrder("give it to one of the gateways")

    def learn(self, words: list[str]) -> Iterator[tuple[Gateway, str]]:
        """Opens the learn window of one gateway, or closes those that are open."""
        order, open_gateways = " ".join(("learn", *words)), self.members.open_windows()
        if not opens_window(order.encode()):
            yield from ((gateway, order) for gateway in open_gateways or [self.learner])
            return
        if not self.learner.is_online:
            raise RefusedOrder(f"the gateway {self.learner.name} is not online")
        if any(gateway is not self.learner for gateway in open_gateways):
            raise RefusedOrder(f"the learn window of {open_gateways[0].name} is open, and both would answer")
        yield self.learner, order

    def add(self, device: str, eep: str) -> None:
        """The site has a new sensor: the gateways that hear it learn it."""
        known = self.members.devices.get(device, Listed(device, eep, "", None))
        if ACTUATOR_START in (eep[:3], known.eep[:3]):
            raise RefusedOrder("an actuator obeys only the gateway that it has learned: give it to that one")
        if not share.device_kind(eep):
            raise RefusedOrder("this profile is not supported")
        self.members.set_device(known._replace(eep=eep))
        self.members.spread(device)
