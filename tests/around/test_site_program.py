"""The program enogate-site at a broker, with the bridges of two gateways at the sticks of a virtual building."""
from __future__ import annotations

import json
import os
import pathlib
import random
import re
import signal
import subprocess
import sys
import tempfile
import unittest
from collections.abc import Callable

from bridge_testcase import MAY_SKIP, missing_requirement
from broker import PEOPLE_LOGIN, Broker, Listener
from programs import Program, lines_of, wait_for
from services import COMMANDS, CONTRIB, CTL, HERE, ROOT

SITE = "campus"
TOPIC_ROOT = f"enogate/{SITE}"
GUIDE = ROOT / "docs/guide/site.md"
BUILDING = CONTRIB / "virtual-building"
SOURCES = [*(CONTRIB / "enogate_site").glob("*.py"), CONTRIB / "enogate-site", *(ROOT / "tests/site").glob("*.py"),
           pathlib.Path(__file__)]
# The devices: at the sticks, between them, and where only the first one hears it.
WINDOW, DOOR, CLIMATE, ROCKER, FAR = "01800B01", "01800B02", "01800B03", "01800B04", "01800B05"
LAMPS = {"hall": "01800B06", "attic": "01800B07"}
SHEET = f"""id,eep,label,x,y,floor
{WINDOW},D5-00-01,Window,1,1,0
{DOOR},D5-00-01,Door,4,1,0
{CLIMATE},A5-04-01,Climate,2,2,0
{ROCKER},F6-02-01,Switch,3,2,0
{FAR},D5-00-01,Far window,-29,1,0
{LAMPS['hall']},D2-01-12,Hall lamp,1,2,0
{LAMPS['attic']},D2-01-12,Attic lamp,4,2,0
"""
STICKS = {"hall": "1,1,0", "attic": "16,1,0"}
SENSORS = [WINDOW, DOOR, CLIMATE, ROCKER, FAR]
PRESSES, DISTURBANCES = 20, 8
BRIDGE_PASSWORD = "secret"


class SiteBroker(Broker):
    """A broker with the access rights that the guide lists for the site and for the bridges."""

    def __init__(self, work: pathlib.Path):
        super().__init__(work)
        rules = re.search(rf"^user enogate-{SITE}\n(?:topic .*\n)+", GUIDE.read_text(), re.MULTILINE)
        assert rules, f"{GUIDE} lists no rights"
        bridge_rules = [f"user enogate-{name}\ntopic readwrite enogate/{name}/#\n" for name in STICKS]
        (work / "rights").write_text("".join((f"user {PEOPLE_LOGIN[0]}\ntopic readwrite #\n", rules[0], *bridge_rules)))
        for user in (SITE, *STICKS):
            subprocess.run(["mosquitto_passwd", "-b", work / "users", f"enogate-{user}", BRIDGE_PASSWORD], check=True,
                           capture_output=True)
        (work / "password").write_text(BRIDGE_PASSWORD + "\n")

    def login(self, user: str) -> dict[str, str]:
        """The settings of a program with this user."""
        return {"MQTT_HOST": "localhost", "MQTT_PORT": str(self.port), "MQTT_USER": f"enogate-{user}",
                "MQTT_PASSWORD_FILE": str(self.work / "password")}


class UnitProgram(Program):
    """A program that is run by the commands of its unit, with this name and these settings."""

    def __init__(self, work: pathlib.Path, unit: str, name: str, settings: dict[str, str]):
        super().__init__(work / f"{unit}-{name}.journal")
        self.script, self.settings = work / f"{unit}-{name}.sh", settings
        for folder in ("bin", f"run/enogate/{name}", "log/enogate", "lib/enogate", "lib/enogate-mqtt",
                       "lib/enogate-site"):
            (work / folder).mkdir(parents=True, exist_ok=True)
        for command, path in {**COMMANDS, "enogate-site": CONTRIB / "enogate-site"}.items():
            if not (work / "bin" / command).exists():
                (work / "bin" / command).symlink_to(path)
        self.path = f"{work / 'bin'}:{os.environ['PATH']}"
        words = [sys.executable, HERE / "unit.py", CONTRIB / f"{unit}@.service", work, name]
        self.script.write_bytes(subprocess.run(words, check=True, stdout=subprocess.PIPE).stdout)

    def start(self) -> None:
        self.run(["sh", self.script], PATH=self.path, **self.settings)


class Member(UnitProgram):
    """A gateway at a stick of the building, with its bridge."""

    def __init__(self, work: pathlib.Path, name: str, broker: SiteBroker):
        settings = {"BASE": "", "SERIAL": str(work / f"{name}.stick"), "TURNS": "40000", "EXPLAIN": "--explain"}
        super().__init__(work, "enogate", name, settings)
        self.work, self.name, self.lines_path = work, name, work / f"log/enogate/{name}.lines"
        self.bridge = UnitProgram(work, "enogate-mqtt", name, {"MQTT_DISCOVERY": "", "MQTT_QUERY": "no",
                                                               **broker.login(name)})

    def ctl(self, *words: str, text: str = "") -> str:
        """What enogatectl prints."""
        paths = "--desk", self.work / f"run/enogate/{self.name}/desk", "--lines", self.lines_path
        return subprocess.run([sys.executable, "-B", CTL, *paths, self.name, *words], input=text, text=True,
                              stdout=subprocess.PIPE, stderr=subprocess.STDOUT).stdout

    def remove_database(self) -> None:
        for path in (self.work / "lib/enogate").glob(f"{self.name}.db*"):
            path.unlink()


class Campus(unittest.TestCase):
    """All tests have one building. The devices are taught in at its beginning."""

    maxDiff = None

    @classmethod
    def setUpClass(cls) -> None:
        if MAY_SKIP and missing_requirement():
            raise unittest.SkipTest(missing_requirement())
        cls.work = pathlib.Path(cls.enterClassContext(tempfile.TemporaryDirectory()))
        cls.broker = cls.enterClassContext(SiteBroker(cls.work))
        cls.listener = cls.enterClassContext(Listener(cls.broker, cls.work))
        cls.broker.start()
        cls.listener.start()
        cls.building = cls.enterClassContext(Program(cls.work / "building.journal"))
        (cls.work / "sheet.csv").write_text(SHEET)
        sticks = [word for name, place in STICKS.items() for word in ("--stick", f"{name}:{place}")]
        words = [sys.executable, "-B", BUILDING, "--quiet", "--sheet", cls.work / "sheet.csv", *sticks, cls.work]
        cls.building.run(words)
        cls.gateways = {name: cls.enterClassContext(Member(cls.work, name, cls.broker)) for name in STICKS}
        for gateway in cls.gateways.values():
            cls.wait((cls.work / f"{gateway.name}.stick").exists)
            gateway.start()
            cls.enterClassContext(gateway.bridge).start()
        settings = {"SITE_GATEWAYS": " ".join(STICKS), "MQTT_LABEL_SECONDS": "0", **cls.broker.login(SITE)}
        cls.site = cls.enterClassContext(UnitProgram(cls.work, "enogate-site", SITE, settings))
        cls.site.start()
        cls.wait(lambda: cls.online() == set(STICKS))
        cls.teach()

    @classmethod
    def teach(cls) -> None:
        """The sensors are imported at one gateway. Each lamp is taught in at its own, and each sensor sends once."""
        rows = [line for line in SHEET.splitlines() if "D2-" not in line]
        cls.gateways["hall"].ctl("devices", "--import", text="\n".join(rows) + "\n")
        for name, lamp in LAMPS.items():
            cls.gateways[name].ctl("learn", "on")
            cls.command("learn", lamp)
            cls.wait(lambda: lamp in cls.gateways[name].ctl("list"))
            cls.gateways[name].ctl("learn", "off")
            cls.gateways[name].ctl("label", lamp, f"{name.capitalize()} lamp")
        for device in SENSORS:
            cls.send(device)
        cls.wait(lambda: cls.states()["attic"]["devices"] == len(SENSORS))

    @classmethod
    def wait(cls, condition: Callable[[], object]) -> None:
        assert wait_for(condition, bool), cls.report()

    @classmethod
    def report(cls) -> str:
        """What the programs have logged and published, for a failure."""
        journals = {path.name: lines_of(path)[-12:] for path in cls.work.glob("*.journal")}
        return json.dumps({**journals, "published": cls.listener.messages()[-30:], "gateways": cls.states()}, indent=1)

    @classmethod
    def command(cls, *words: str) -> str:
        """The answer of the building to a command."""
        words = (sys.executable, "-B", str(BUILDING), str(cls.work), *words)
        return subprocess.run(words, capture_output=True, text=True).stdout

    @classmethod
    def send(cls, device: str) -> None:
        """A device sends: a switch is pressed and released."""
        assert cls.command(*(("press", device, "BI") if device == ROCKER else ("send", device))) == "ok\n"

    @classmethod
    def last(cls, end: str) -> str:
        """The last message on this topic of the site."""
        start = f"{TOPIC_ROOT}/{end} "
        return next((message.removeprefix(start) for message in reversed(cls.listener.messages())
                     if message.startswith(start)), "")

    @classmethod
    def published(cls, end: str) -> list[str]:
        """The messages on this topic of the site since the listener has forgotten the earlier ones."""
        start = f"{TOPIC_ROOT}/{end} "
        return [message.removeprefix(start) for message in cls.listener.messages() if message.startswith(start)]

    @classmethod
    def states(cls) -> dict[str, dict]:
        """The state of each gateway, as the broker retains it."""
        return json.loads(cls.broker.retained().get(f"{TOPIC_ROOT}/gateways", "{}"))

    @classmethod
    def online(cls) -> set[str]:
        return {name for name, state in cls.states().items() if state["online"]}

    def label_at(self, name: str, device: str) -> str:
        """The label of a device in the last list of a gateway."""
        return next((json.loads(line)["label"] for line in reversed(lines_of(self.gateways[name].lines_path))
                     if line.endswith('"type":"device"}') and device in line), "")

    def readings(self, device: str) -> list[dict]:
        lines = [json.loads(text) for text in self.published("lines") if f'"id":"{device}"' in text]
        return [line for line in lines if line["type"] == "reading"]

    def setUp(self) -> None:
        self.wait(lambda: self.online() == set(STICKS))
        self.listener.forget()

    def test_each_device_is_shown_once(self) -> None:
        def shown() -> dict[str, str]:
            """The names of devices, by their identifiers."""
            configs = [json.loads(text)["device"] for topic, text in self.broker.retained().items()
                       if topic.startswith("homeassistant/")]
            return {config["identifiers"][0]: config["name"] for config in configs}

        rows = [line.split(",") for line in SHEET.splitlines()[1:]]
        expected = {f"enogate_{SITE}": f"enogate {SITE}"} | {
            f"enogate_{SITE}_{device}": label for device, _, label, *_ in rows}
        self.assertEqual(wait_for(shown, lambda names: names == expected), expected)

    def test_sensors_are_learned_where_they_are_heard(self) -> None:
        tables = {name: gateway.ctl("list") for name, gateway in self.gateways.items()}
        self.assertEqual({device for device in [*SENSORS, *LAMPS.values()] if device in tables["hall"]},
                         {*SENSORS, LAMPS["hall"]})
        self.assertEqual({device for device in [*SENSORS, *LAMPS.values()] if device in tables["attic"]},
                         {*SENSORS, LAMPS["attic"]} - {FAR})
        self.assertIn("Climate", tables["attic"])

    def test_each_device_sends_once(self) -> None:
        for device in SENSORS:
            self.send(device)
        self.wait(lambda: all(map(self.readings, SENSORS)) and len(self.readings(ROCKER)) > 1)
        self.assertEqual({device: len(self.readings(device)) for device in SENSORS},
                         {**dict.fromkeys(SENSORS, 1), ROCKER: 2})
        covering = {WINDOW: set(STICKS), FAR: {"hall"}}
        self.assertEqual(wait_for(lambda: {device: self.covering(device) for device in covering},
                                  lambda found: found == covering), covering)

    def covering(self, device: str) -> set[str]:
        """The gateways that hear a device, as the broker retains them."""
        return set(json.loads(self.broker.retained().get(f"{TOPIC_ROOT}/{device}/coverage", "{}")))

    def test_twenty_presses_are_twenty_events(self) -> None:
        for number in range(PRESSES):
            self.command("press", ROCKER, "BI" if number % 3 else "B0")
            self.wait(lambda: self.published(f"{ROCKER}/press").count('{"event_type":"released"}') > number)
        self.wait(lambda: sum(f'"{ROCKER}"' in line and '"read"' in line for gateway in self.gateways.values()
                              for line in lines_of(gateway.lines_path)[-400:]) >= 4 * PRESSES)
        self.send(WINDOW)
        self.wait(lambda: self.readings(WINDOW))
        kinds = [json.loads(text)["event_type"] for text in self.published(f"{ROCKER}/press")]
        expected = [kind for number in range(PRESSES) for kind in ("BI" if number % 3 else "B0", "released")]
        self.assertEqual(kinds, expected)

    def test_orders_reach_each_actuator_through_its_gateway(self) -> None:
        for value, command in (("100", "ON"), ("0", "OFF")):
            for lamp in LAMPS.values():
                self.broker.publish(f"{TOPIC_ROOT}/{lamp}/OV/1/set", command)
                self.wait(lambda: self.last(f"{lamp}/OV/1") == value)
        self.broker.publish(f"{TOPIC_ROOT}/orders", f"switch {LAMPS['attic']} 0 on")
        self.wait(lambda: self.last(f"{LAMPS['attic']}/OV/0") == "100")

    def test_a_label_follows(self) -> None:
        self.gateways["attic"].ctl("label", DOOR, "Front", "door")
        self.wait(lambda: self.label_at("hall", DOOR) == "Front door")
        self.broker.publish(f"{TOPIC_ROOT}/orders", f"label {DOOR} Door")
        self.wait(lambda: self.label_at("hall", DOOR) == self.label_at("attic", DOOR) == "Door")
        self.wait(lambda: any(DOOR in topic and '"name":"Door"' in text
                              for topic, text in self.broker.retained().items()))

    def test_a_stick_is_unplugged(self) -> None:
        self.command("unplug", "hall")
        self.wait(lambda: self.online() == {"attic"})
        self.assertEqual(self.broker.retained()[f"{TOPIC_ROOT}/gateway"], "online")
        self.command("open", WINDOW)
        self.wait(lambda: self.last(f"{WINDOW}/CO") == "open")
        self.gateways["hall"].end()
        self.command("plug", "hall")
        self.gateways["hall"].start()
        self.wait(lambda: self.online() == set(STICKS))
        self.command("close", WINDOW)
        self.wait(lambda: self.last(f"{WINDOW}/CO") == "closed")

    def test_two_learn_windows(self) -> None:
        for name in STICKS:
            self.broker.publish(f"enogate/{name}/learn/set", "ON")
        self.wait(lambda: self.last("warning").startswith("the learn windows of hall, attic are open"))
        self.broker.publish(f"{TOPIC_ROOT}/learn/set", "OFF")
        self.wait(lambda: self.last("warning") == "none")

    def test_a_gateway_without_its_database(self) -> None:
        gateway = self.gateways["attic"]
        gateway.end()
        gateway.remove_database()
        gateway.start()
        self.wait(lambda: self.states()["attic"]["devices"] == len(SENSORS) - 1)
        self.assertEqual({device for device in SENSORS if device in gateway.ctl("list")}, {*SENSORS} - {FAR})
        self.wait(lambda: "Climate" in gateway.ctl("list"))
        gateway.ctl("add", LAMPS["attic"], "D2-01-12")
        gateway.ctl("label", LAMPS["attic"], "Attic", "lamp")
        self.wait(lambda: self.states()["attic"]["devices"] == len(SENSORS))

    def test_random_restarts(self) -> None:
        """Devices send while gateways, bridges and the site are stopped or killed, and started again. No press is
        published twice, presses are published again soon, and at the end the site has the states of the contacts."""
        chance, self.press_count = random.Random(1), 0
        for number in range(DISTURBANCES):
            gateway = chance.choice(list(self.gateways.values()))
            program = chance.choice((gateway, gateway.bridge, self.site))
            program.end(chance.choice((signal.SIGTERM, signal.SIGKILL)))
            self.press()
            program.start()
            self.press_until_published()
            for contact in (WINDOW, DOOR):
                self.command("open" if number % 2 else "close", contact)
        for contact in (WINDOW, DOOR):
            self.wait(lambda: self.broker.retained().get(f"{TOPIC_ROOT}/{contact}/CO") == "open")

    def press(self) -> int:
        """A press. Returns how many were published."""
        self.press_count += self.command("press", ROCKER, "AI") == "ok\n"
        published_count = self.published(f"{ROCKER}/press").count('{"event_type":"AI"}')
        self.assertLessEqual(published_count, self.press_count)
        return published_count

    def press_until_published(self) -> None:
        count_before = self.press()
        self.wait(lambda: self.press() > count_before)
