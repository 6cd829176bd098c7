"""A gateway of a site: what its bridge publishes, which devices it has learned, and the orders for it."""
from __future__ import annotations

import logging
import math
from collections.abc import Callable
from typing import NamedTuple

from enogate_ctl.grammar import is_order
from enogate_lines.contents import Listed, Status
from enogate_mqtt.requests import ListRequest

from .topics import SITE_KIND

# A gateway learns at most so many devices.
MAX_DEVICES = 1000
# Devices with these profiles obey only a gateway that they have learned, so no other gateway learns them by an order.
ACTUATOR_START = "D2-"
# So many bytes of orders are given per second. A bridge passes on twice as many, of all clients together.
BYTES_PER_SECOND = 1000
# If the lines do not show so long after an order that it was carried out, it is given again if it is still needed, with
# pauses that grow. In seconds.
CARRIED_OUT_WITHIN, MAX_PATIENCE = 30.0, 3600.0


class Held(NamedTuple):
    """A device as a gateway has learned it."""
    eep: str
    label: str


class Gateway:
    """A gateway. `held` has the devices that it has learned, as far as its lines say; `wanted` those that it has
    learned or hears, and `unwanted` those that it has to remove."""

    def __init__(self, name: str, clock: Callable[[], float]):
        self.name, self.clock = name, clock
        self.held: dict[str, Held] = {}
        self.wanted: set[str] = set()
        self.unwanted: set[str] = set()
        # the orders that wait, by their first word and device; and when the others were given
        self.orders: dict[tuple[str, str], str] = {}
        self.given_at: dict[str, float] = {}
        self.status: Status | None = None
        self.is_site = False
        self.begin_session()

    def begin_session(self) -> None:
        """A connection was opened or lost: what was published meanwhile is not known."""
        self.reports: dict[str, str] = {}
        self.listing: list[Listed] = []
        self.list_request, self.next_order_at, self.patience = ListRequest(), 0.0, CARRIED_OUT_WITHIN
        self.given_at.clear()

    @property
    def has_bridge(self) -> bool:
        """Whether its bridge is connected, so that its lines are new."""
        return self.reports.get("status") == "online" and not self.is_site

    @property
    def is_online(self) -> bool:
        """Whether it carries out orders."""
        return self.has_bridge and self.reports.get("gateway") == "online" and self.reports.get("module") != "offline"

    @property
    def has_open_window(self) -> bool:
        return self.is_online and self.reports.get("learn") == "ON"

    def note_report(self, kind: str, text: str) -> None:
        """Its bridge has published this."""
        was_online = self.is_online
        self.reports[kind] = text
        if kind == SITE_KIND and text and not self.is_site:
            self.is_site = True
            logging.error("%s is a site, so it is not used as a gateway: correct SITE_GATEWAYS", self.name)
        if self.is_online and not was_online:
            # after a start its bridge asks for the list, too
            self.list_request.asked_at = self.clock()
            self.list_request.note_needed(self.clock())

    def note_status(self, status: Status) -> None:
        self.status, self.reports["learn"] = status, "OFF" if status.mode == "closed" else "ON"

    def note_list(self, devices: dict[str, Listed]) -> None:
        """It has listed all its devices."""
        self.list_request.note_answer()
        self.held = {name: Held(listed.eep, listed.label) for name, listed in devices.items()}
        self.unwanted &= self.held.keys()
        self.drop_done_orders()

    def note_learned(self, device: str, eep: str) -> None:
        """It has learned a device, which keeps its label."""
        self.held[device] = Held(eep, self.held[device].label if device in self.held else "")
        self.drop_done_orders()

    def note_deleted(self, device: str) -> None:
        self.held.pop(device, None)
        self.unwanted.discard(device)
        self.drop_done_orders()

    def drop_done_orders(self) -> None:
        """Drops the orders that were carried out, as the lines show."""
        for order in list(filter(self.is_done, self.given_at)):
            del self.given_at[order]
            self.patience = CARRIED_OUT_WITHIN

    def is_done(self, order: str) -> bool:
        verb, device, *texts = order.split(" ", 2)
        held, text = self.held.get(device), "".join(texts)
        return not held if verb == "remove" else held is not None and text == held[verb == "label"]

    def orders_under_way(self, device: str) -> list[str]:
        """The orders about a device that wait, or are perhaps not carried out yet."""
        return [order for order in (*self.orders.values(), *self.given_at) if order.split(" ", 2)[1] == device]

    def has_or_gets(self, device: str) -> bool:
        """Whether it has learned a device, or an order for that is under way."""
        return device in self.held or any(order.startswith("add ") for order in self.orders_under_way(device))

    def uses(self, device: str) -> bool:
        """Whether it has learned a device, is learning it, is to learn it, or has to remove it."""
        return device in self.wanted or device in self.unwanted or self.has_or_gets(device)

    def complete(self, device: str, eep: str, label: str) -> None:
        """Gives the orders that are missing until it has a device of the site as the site knows it."""
        held = self.held.get(device)
        if device in self.unwanted:
            self.give(f"remove {device}")
            return
        is_missing = device in self.wanted and not eep.startswith(ACTUATOR_START) and (held is None or held.eep != eep)
        if is_missing and self.has_room(device):
            self.give(f"add {device} {eep}")
        if label != (held.label if held else "") and self.has_or_gets(device):
            self.give(f"label {device} {label}" if label else f"label {device}")

    def has_room(self, device: str) -> bool:
        """Whether it may learn this device, too."""
        adding = {order.split(" ")[1] for order in (*self.orders.values(), *self.given_at) if order.startswith("add ")}
        return len(self.held) + sum(name not in self.held for name in adding | {device}) <= MAX_DEVICES

    def give(self, order: str) -> None:
        """Gives an order about a device as soon as the gateway is online."""
        verb, device, *_ = order.split(" ")
        if is_order(order) and order not in self.given_at:
            self.orders[verb, device] = order

    def drop(self, device: str) -> None:
        """The site has no such device any more."""
        self.wanted.discard(device)
        if self.has_or_gets(device):
            self.unwanted.add(device)
            self.give(f"remove {device}")

    def take_due_orders(self) -> list[str]:
        """The orders that are due, if it is online."""
        now = self.clock()
        if not self.is_online:
            return []
        if now >= self.given_until():
            # what is still needed after a list is given again
            self.given_at.clear()
            self.patience = min(2 * self.patience, MAX_PATIENCE)
            self.list_request.note_needed(now)
        orders = ["list"] if self.list_request.begin_if_due(now) else []
        size = 0
        while now >= self.next_order_at and self.orders and size < BYTES_PER_SECOND:
            orders.append(self.orders.pop(next(iter(self.orders))))
            self.given_at[orders[-1]] = now
            size += len(orders[-1]) + 1
        self.next_order_at = max(self.next_order_at, now + size / BYTES_PER_SECOND)
        return orders

    def next_due(self) -> float:
        """When `take_due_orders` has something to do again."""
        due = min(self.list_request.due, self.given_until(), self.next_order_at if self.orders else math.inf)
        return due if self.is_online else math.inf

    def given_until(self) -> float:
        """How long it may take to carry out what was given; the oldest order is the first one."""
        return next(iter(self.given_at.values()), math.inf) + self.patience
