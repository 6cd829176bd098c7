"""A model of a gateway: which lines it writes for orders and packets, as docs/guide says. It is small: five devices fit
in."""
from __future__ import annotations

import json
import random

IDS = ("01800A01", "01800A02", "01800A03", "01800A04", "01800A05", "01800A06")
EEPS = ("D5-00-01", "F6-02-01", "D2-01-12", "D2-05-00")
UNSUPPORTED = "A5-99-99"
MAX_DEVICES = 5
COUNTERS = ("ignored", "readings", "refused", "responses", "teach")


def line(**members: object) -> bytes:
    """A line with these members."""
    return json.dumps(members, separators=(",", ":"), sort_keys=True).encode()


def error(name: str) -> bytes:
    """An error line."""
    return line(type="error", error=name)


def teach(device: str, eep: str | None, maker: int | None, result: str) -> bytes:
    """A teach line."""
    return line(type="teach", id=device, eep=eep, maker=maker, result=result)


OK = line(type="ok")


class GatewayModel:
    """A gateway. `failing` is the share of the orders and packets that fail with `memory` or `store`, and `fences_fail`
    says whether `status` does so, too."""

    def __init__(self, source: random.Random, explains: bool, failing: float, fences_fail: bool):
        self.source, self.explains, self.failing, self.fences_fail = source, explains, failing, fences_fail
        self.devices: dict[str, tuple[str, int | None]] = {}
        self.labels: dict[str, str] = {}
        self.start()

    def start(self) -> None:
        """A start: the devices stay."""
        self.counts, self.mode = dict.fromkeys(COUNTERS, 0), "closed"

    def failure_line(self) -> bytes | None:
        """The error line of an order or a packet that fails."""
        if self.source.random() >= self.failing:
            return None
        self.counts["refused"] += 1
        return error(self.source.choice(("memory", "store")))

    def order(self, text: str) -> list[bytes]:
        """The lines that answer an order."""
        verb, *words = text.split(" ")
        if verb == "status":
            failed = self.failure_line() if self.fences_fail else None
            return [error("memory") if failed else line(type="status", mode=self.mode, **self.counts)]
        return getattr(self, verb)(words)

    def list(self, _words: list[str]) -> list[bytes]:
        failed = self.failure_line()
        devices = [line(type="device", id=name, eep=eep, label=self.labels.get(name, ""), maker=maker)
                   for name, (eep, maker) in sorted(self.devices.items())]
        return [failed] if failed else [*devices, line(type="list", count=len(devices))]

    def add(self, words: list[str]) -> list[bytes]:
        name, eep = words[0].upper(), words[1].upper()
        if name == "FFFFFFFF" or eep == UNSUPPORTED:
            return [error("range" if name == "FFFFFFFF" else "unsupported_profile")]
        if failed := self.failure_line():
            return [failed]
        if name not in self.devices and len(self.devices) >= MAX_DEVICES:
            return [error("full")]
        self.devices[name] = eep, None
        return [teach(name, eep, None, "accepted")]

    def remove(self, words: list[str]) -> list[bytes]:
        if failed := self.failure_line():
            return [failed]
        return self.delete_lines(words[0].upper()) or [error("unknown_device")]

    def delete_lines(self, name: str) -> list[bytes]:
        """The teach line of a device that is deleted."""
        if name not in self.devices:
            return []
        self.labels.pop(name, None)
        return [teach(name, *self.devices.pop(name), "deleted")]

    def label(self, words: list[str]) -> list[bytes]:
        if failed := self.failure_line():
            return [failed]
        if words[0].upper() not in self.devices:
            return [error("unknown_device")]
        self.labels[words[0].upper()] = " ".join(words[1:])
        return [OK]

    def switch(self, words: list[str]) -> list[bytes]:
        if int(words[1]) > 30:
            return [error("range")]
        if failed := self.failure_line():
            return [failed]
        if words[0].upper() not in self.devices:
            return [error("unknown_device")]
        return [OK if self.devices[words[0].upper()][0] == "D2-01-12" else error("wrong_profile")]

    def learn(self, words: list[str]) -> list[bytes]:
        if words[-1] == UNSUPPORTED:
            return [error("unsupported_profile")]
        self.mode = "closed" if words == ["off"] else " ".join(words)
        return [OK]

    def base(self, _words: list[str]) -> list[bytes]:
        return [OK]

    def central(self, words: list[str]) -> list[bytes]:
        return [OK if int(words[0]) <= 127 else error("range")]

    def packet(self) -> list[bytes]:
        """The lines of a packet."""
        name = self.source.choice(IDS)
        kind = self.source.choice(("read", "teach", "teach", "delete", "response", "ignore"))
        if kind in ("read", "teach", "delete") and (failed := self.failure_line()):
            return [*self.packet_lines(name, "refused"), failed]
        return getattr(self, kind)(name)

    def packet_lines(self, name: str, why: str) -> list[bytes]:
        """The packet line of a packet, if there is one."""
        return [line(type="packet", id=name, why=why, dbm=-45, dest=None, rorg="D5")] if self.explains else []

    def read(self, name: str) -> list[bytes]:
        if name not in self.devices:
            return self.ignore(name)
        self.counts["readings"] += 1
        readings = [{"name": "CO", "word": "closed"}]
        reading = line(type="reading", id=name, eep=self.devices[name][0], dbm=-45, readings=readings)
        return [*self.packet_lines(name, "read"), reading]

    def teach(self, name: str) -> list[bytes]:
        if self.mode == "closed":
            return self.ignore(name)
        eep, maker = self.source.choice(EEPS), self.source.choice((None, None, 70))
        result = "accepted" if name in self.devices or len(self.devices) < MAX_DEVICES else "full"
        result = self.source.choice((result, result, result, "unsupported", "general", "no_profile"))
        if result == "accepted":
            self.devices[name] = eep, maker
        self.counts["teach"] += 1
        none = result == "no_profile"
        return [*self.packet_lines(name, result), teach(name, None if none else eep, None if none else maker, result)]

    def delete(self, name: str) -> list[bytes]:
        if self.mode == "closed":
            return self.ignore(name)
        self.counts["teach"] += 1
        deleted = self.delete_lines(name) or [teach(name, self.source.choice(EEPS), 70, "deleted")]
        return [*self.packet_lines(name, "deleted"), *deleted]

    def response(self, _name: str) -> list[bytes]:
        self.counts["responses"] += 1
        return [*self.packet_lines("", "response"), line(type="response", code=0, data="", name="OK")]

    def ignore(self, name: str) -> list[bytes]:
        self.counts["ignored"] += 1
        return self.packet_lines(name, "unknown_sender")
