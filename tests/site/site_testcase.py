"""A site with stand-ins for its gateways and the broker, for the unit tests of the site."""
from __future__ import annotations

import json
import pathlib
import tempfile
from unittest import mock

from enogate_lines.entities import AUTO
from enogate_mqtt.connection import ReceivedMessage
from enogate_mqtt.settings import PublishingSettings
from enogate_site.main import SiteSettings, make_site
from enogate_site.merge import WINDOW
from enogate_tools import space
from fakes import OK, Clock, FakeBroker, LogTest, check_index, learned, listing, reading

SITE, DISCOVERY = "hall", "homeassistant"
ROOT = f"enogate/{SITE}"
SENSOR, CONTACT, ROCKER, LAMP = "01800AB1", "01800AB2", "01800AC1", "01800AD1"
SENSOR_EEP, CONTACT_EEP, ROCKER_EEP, LAMP_EEP = "A5-02-05", "D5-00-01", "F6-02-01", "D2-01-12"


def temperature(number: int) -> list[dict]:
    return [{"den": 1, "name": "TMP", "num": number, "unit": "C"}]


def contact(word: str) -> list[dict]:
    return [{"name": "CO", "word": word}]


def pressed(button: str) -> list[dict]:
    return [{"name": "R1", "word": button}, {"name": "EB", "word": "pressed"}]


RELEASED = [{"name": "buttons", "word": "none"}, {"name": "EB", "word": "released"}]


def lamp_output(channel: int, percent: int) -> list[dict]:
    return [{"name": "IO", "raw": channel}, {"den": 1, "name": "OV", "num": percent, "unit": "%"}]


def unknown_sender(device: str) -> dict:
    return {"dbm": -60, "dest": None, "eep": None, "id": device, "maker": None, "payload": "09", "rorg": "D5",
            "status": "00", "type": "packet", "why": "unknown_sender"}


class GatewayModel:
    """A gateway and its bridge, as far as a client of the broker sees them."""

    def __init__(self, name: str):
        self.name = name
        # the learned devices, each with its profile and its label
        self.devices: dict[str, tuple[str, str]] = {}
        self.orders: list[str] = []
        self.reports = {"status": "online", "gateway": "online", "module": "online", "learn": "OFF"}
        self.capacity = 1000

    def listing(self) -> list[dict]:
        return listing(*((device, eep, label) for device, (eep, label) in sorted(self.devices.items())))

    def answer(self, order: str) -> list[dict]:
        """The lines after an order. The bridge asks for the list after a label."""
        self.orders.append(order)
        match order.split(" ", 2):
            case ["list"]:
                return self.listing()
            case ["add", device, _] if device not in self.devices and len(self.devices) >= self.capacity:
                return [{"error": "full", "type": "error"}]
            case ["add", device, eep]:
                self.devices[device] = eep, self.devices.get(device, ("", ""))[1]
                return [learned(device, eep)]
            case ["remove" | "label", device, *_] if device not in self.devices:
                return [{"error": "unknown_device", "type": "error"}]
            case ["remove", device]:
                eep, _ = self.devices.pop(device)
                return [learned(device, eep, "deleted")]
            case ["label", device, *label]:
                self.devices[device] = self.devices[device][0], "".join(label)
                return [OK, *self.listing()]
        return [OK]

    def hear(self, device: str, eep: str, readings: list[dict], dbm: int = -60) -> list[dict]:
        """The lines about a telegram of a device with this profile."""
        if device not in self.devices:
            return [unknown_sender(device)]
        return [reading(device, eep, readings, dbm)] if self.devices[device][0] == eep else []


class SiteFixture:
    """A site with these gateways."""

    # whether what the site has noted is checked after each turn, which visits all gateways and devices
    checks_notes = True

    def __init__(self, test_case: LogTest, *names: str, label_wait: int = 0, state: pathlib.Path | None = None):
        test_case.enterContext(mock.patch.object(space, "free_bytes", lambda _folder: 4 * 2 ** 20))
        if state is None:
            folder = tempfile.TemporaryDirectory()
            test_case.addCleanup(folder.cleanup)
            state = pathlib.Path(folder.name) / "hall.db"
        self.state, self.label_wait = state, label_wait
        self.clock, self.wall, self.broker = Clock(), Clock(1_800_000_000.0), FakeBroker()
        self.gateways = {name: GatewayModel(name) for name in names}
        self.settings = SiteSettings(SITE, str(self.state), names, names[0])
        self.handled_count = 0

    def start(self) -> SiteFixture:
        """Starts the site, or another run of it after it was killed."""
        publishing = PublishingSettings(DISCOVERY, 120, AUTO, self.label_wait, True)
        self.site = make_site(self.settings, publishing, broker=self.broker, wait=lambda *_: None, clock=self.clock,
                              wall=self.wall)
        self.site.read_earlier_lines()
        self.check_notes()
        return self

    def connect(self, waits: bool = True) -> SiteFixture:
        """The broker is connected, and sends what it retains. Then the time passes in which telegrams may be those of
        an earlier run."""
        self.broker.accept_connection()
        self.handled_count = 0
        for gateway in self.gateways.values():
            for kind, text in gateway.reports.items():
                self.report(gateway.name, kind, text, is_retained=True)
        self.run_turns()
        self.pass_time(WINDOW if waits else 0.0)
        self.run_turns()
        return self

    def begin(self) -> SiteFixture:
        return self.start().connect()

    def pass_time(self, seconds: float) -> None:
        self.clock.now += seconds
        self.wall.now += seconds

    def send(self, topic: str, payload: bytes | str, is_retained: bool = False, **properties: str) -> None:
        """Somebody publishes a message."""
        payload = payload if isinstance(payload, bytes) else payload.encode()
        message = ReceivedMessage(topic, payload, is_retained, tuple(properties.items()))
        self.broker.connection.received_messages.append(message)

    def report(self, name: str, kind: str, text: str, is_retained: bool = False) -> None:
        """The bridge of a gateway publishes something about it."""
        self.gateways[name].reports[kind] = text
        self.send(f"enogate/{name}/{kind}", text, is_retained)

    def write(self, name: str, *lines: dict | bytes | str, **properties: str) -> None:
        """The bridge of a gateway publishes lines, and the site handles them."""
        for line in lines:
            payload = json.dumps(line, sort_keys=True, separators=(",", ":")) if isinstance(line, dict) else line
            self.send(f"enogate/{name}/lines", payload, **properties)
        self.turn()

    def hear(self, names: str, device: str, eep: str, readings: list[dict], dbm: int = -60, **properties: str) -> None:
        """These gateways hear a telegram, one after the other."""
        for name in names.split():
            self.write(name, *self.gateways[name].hear(device, eep, readings, dbm), **properties)

    def turn(self) -> None:
        self.site.turn()
        if self.checks_notes:
            self.check_notes()
        self.carry_out_orders()

    def check_notes(self) -> None:
        """What the site has noted about its gateways and devices is up to date, unless it knows that it is not."""
        members, requests = self.site.members, self.site.requests
        if not members.has_news:
            noted = dict(vars(requests))
            requests.note_gateways()
            assert noted == vars(requests), (noted, vars(requests))
        for gateway in members.gateways.values():
            learning = {order.split(" ")[1] for order in (*gateway.orders.values(), *gateway.given_at)
                        if order.startswith("add ")}
            for name in gateway.held.keys() | gateway.wanted | gateway.unwanted | learning:
                assert gateway in members.gateways_by_device[name], (gateway.name, name)
        unused = [name for name, gateways in members.gateways_by_device.items()
                  if name not in members.devices and not any(gateway.uses(name) for gateway in gateways)]
        assert not unused, unused
        check_index(self.site.devices)

    def run_turns(self, count: int = 4, seconds: float = 0.0) -> None:
        for _ in range(count):
            self.turn()
            self.pass_time(seconds)

    def carry_out_orders(self) -> None:
        """The gateways carry out the orders that the site has published since the last call."""
        if self.broker.connection is None:
            return
        published = self.broker.connection.published[self.handled_count:]
        self.handled_count = len(self.broker.connection.published)
        for topic, text, _ in published:
            _, name, kind = topic.split("/", 2)
            if kind == "orders" and name in self.gateways and self.gateways[name].reports["gateway"] == "online":
                for order in text.splitlines():
                    self.write_later(name, self.gateways[name].answer(order))

    def write_later(self, name: str, lines: list[dict]) -> None:
        """The bridge publishes lines, which the site handles in its next turn."""
        for line in lines:
            self.send(f"enogate/{name}/lines", json.dumps(line, sort_keys=True, separators=(",", ":")))

    def settle(self) -> None:
        """All orders are carried out, and their answers are handled."""
        self.run_turns(40, 1.0)

    def order(self, text: str) -> None:
        """Somebody gives orders to the site."""
        self.send(f"{ROOT}/orders", text)
        self.turn()

    def orders(self, name: str) -> list[str]:
        """The orders that a gateway has got, without `list`."""
        return [order for order in self.gateways[name].orders if order != "list"]

    def published(self, end: str) -> list[str]:
        """What was published on the topics of the site with this end."""
        return [text for topic, text, _ in self.broker.connection.published
                if topic.startswith(f"{ROOT}/") and topic.endswith(end)]

    def lines(self, kind: str = "") -> list[dict]:
        """The lines of this type that the site has published."""
        lines = map(json.loads, self.published("/lines"))
        return [line for line in lines if not kind or line["type"] == kind]

    def restart(self, is_killed: bool = False) -> None:
        """The site is stopped or killed, and started again."""
        if is_killed:
            self.site.store.close()
        else:
            self.site.is_stopped = True
            self.site.run()
        self.broker.lose()
        self.start()


class SiteTest(LogTest):
    """A test of a site with two gateways."""

    maxDiff = None
    names = ("north", "south")
    devices: dict[str, dict[str, tuple[str, str]]] = {}

    def setUp(self) -> None:
        super().setUp()
        self.fixture = SiteFixture(self, *self.names)
        for name, devices in self.devices.items():
            self.fixture.gateways[name].devices.update(devices)
        self.fixture.begin()
        self.north, self.south = (self.fixture.gateways[name] for name in self.names[:2])


