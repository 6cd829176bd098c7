"""The state of a site across restarts: that of a bridge, and what each gateway has learned."""
from __future__ import annotations

import re
import sqlite3
from collections.abc import Iterable

from enogate_lines.contents import OPTIONAL_TEXT_PATTERN, PROFILE_PATTERN, Listed
from enogate_mqtt.devices import Device
from enogate_mqtt.orders import DEVICE_PATTERN
from enogate_mqtt.state import ForeignFile
from enogate_mqtt.store import CREATE_TABLES, Store

from .gateway import Gateway, Held
from .members import Members

# The name of the site in the rows of its devices.
SITE = ""


class SiteStore(Store):
    """The state file of a site. A row has what a gateway has learned of a device (NULL if it has not), and whether the
    gateway should have it, or has to remove it."""

    create_tables = CREATE_TABLES.replace("PRAGMA user_version", """
CREATE TABLE IF NOT EXISTS member (id TEXT, gateway TEXT, eep TEXT, label TEXT, wanted INTEGER, unwanted INTEGER);
CREATE INDEX IF NOT EXISTS member_id ON member (id);
PRAGMA user_version""")
    members: Members

    def start_empty(self) -> None:
        super().start_empty()
        self.member_rows: list[tuple[str, str, str | None, str, int, int]] = []

    def read(self, connection: sqlite3.Connection) -> None:
        super().read(connection)
        rows = list(connection.execute("SELECT id, gateway, eep, label, wanted, unwanted FROM member"))
        if not all(re.fullmatch(DEVICE_PATTERN, name) and re.fullmatch(PROFILE_PATTERN, eep or "00-00-00")
                   and re.fullmatch(OPTIONAL_TEXT_PATTERN, label) for name, _, eep, label, _, _ in rows):
            raise ForeignFile("device of an unknown form")
        self.member_rows = rows

    def restored_devices(self, gateways: Iterable[Gateway]) -> list[Listed]:
        """The devices of the site. The gateways get what they have learned."""
        makers, gateways_by_name = {device.name: device.maker for device in self.devices}, {
            gateway.name: gateway for gateway in gateways}
        for name, gateway_name, eep, label, is_wanted, is_unwanted in self.member_rows:
            if gateway := gateways_by_name.get(gateway_name):
                gateway.held |= {name: Held(eep, label)} if eep else {}
                gateway.wanted |= {name} if is_wanted else set()
                gateway.unwanted |= {name} if is_unwanted else set()
        return [Listed(name, eep, label, makers.get(name)) for name, gateway_name, eep, label, *_ in self.member_rows
                if gateway_name == SITE and eep]

    def save_device(self, connection: sqlite3.Connection, name: str, device: Device | None) -> None:
        super().save_device(connection, name, device)
        connection.execute("DELETE FROM member WHERE id = ?", (name,))
        known = self.members.devices.get(name)
        rows = [(name, SITE, known.eep, known.label, False, False)] if known else []
        for gateway in self.members.gateways_by_device.get(name, ()):
            row = (name, gateway.name, *gateway.held.get(name, (None, "")), name in gateway.wanted,
                   name in gateway.unwanted)
            rows += [row] if row[2] or row[4] or row[5] else []
        connection.executemany("INSERT INTO member VALUES (?, ?, ?, ?, ?, ?)", rows)
