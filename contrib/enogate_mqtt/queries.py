"""Asks actuators for their states: they may have been switched by hand or by another gateway while this one did not
run, and most report only changes."""
from __future__ import annotations

from .desk import Desk
from .devices import Devices

# The shortest time between two queries, in seconds: so no other order waits for them, and the answers do not collide.
QUERY_EVERY = 1.0
QUERY_START = b"query "


class Queries:
    """Each actuator is asked once after each start of the gateway. It is not asked again if it does not answer: it may
    be without power for a long time. Which queries were given since the start is seen at the desk, which the start
    empties, so a new run of the bridge gives none again."""

    def __init__(self, devices: Devices, desk: Desk):
        self.devices, self.next_query_at = devices, 0.0
        self.given_queries = desk.appended_orders(QUERY_START)
        # the devices that need not be looked at again
        self.finished_devices: set[str] = set()

    def forget_given(self) -> None:
        """The gateway was started."""
        self.given_queries.clear()
        self.finished_devices.clear()

    def take_due_query(self, now: float) -> bytes | None:
        """The query that is due, if there is one."""
        if now < self.next_query_at:
            return None
        self.next_query_at = now + QUERY_EVERY
        for name in sorted(self.devices.known_devices.keys() - self.finished_devices):
            query = self.query_of(name)
            if query and query not in self.given_queries:
                return query
            self.finished_devices.add(name)
        return None

    def note_given(self, query: bytes) -> None:
        """This query was given."""
        self.given_queries.add(query)

    def query_of(self, name: str) -> bytes | None:
        """The order that asks a device for the states of all its channels; None if it is no actuator."""
        channel = self.devices.table.channel_of_all(self.devices.known_devices[name].eep)
        return None if channel is None else b"%s%s %d" % (QUERY_START, name.encode(), channel)
