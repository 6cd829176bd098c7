"""A stick, and the gateway and the bridge `hall` as their units run them, in folders below one folder."""
from __future__ import annotations

import contextlib
import os
import pathlib
import sqlite3
import subprocess
import sys

from broker import BRIDGE_LOGIN, Broker
from oracle.esp3 import packet, telegram_packet
from programs import Program, lines_of, wait_for

HERE = pathlib.Path(__file__).resolve().parent
ROOT = HERE.parents[1]
CONTRIB = ROOT / "contrib"
PROGRAM = ROOT / os.environ.get("TESTED_PROGRAM", "crates/enogate/out/enogate")
COMMANDS = {"enogate": PROGRAM, **{name: CONTRIB / name for name in ("enogate-mqtt", "enogate-modbus", "enogate-port",
                                                                     "enogate-check")}}
CTL = CONTRIB / "enogatectl"
BASE = "FF800000"


def lines_of_type(lines: list[str], kind: str) -> list[str]:
    """The lines of a gateway that are of this type; all of them without a type."""
    return [line for line in lines if not kind or line.endswith(f'"type":"{kind}"}}')]


class Stick(Program):
    """A stick with a radio module, which reports its base ID."""

    def __init__(self, work: pathlib.Path):
        super().__init__(work / "stick.journal")
        self.path, self.brought, self.sent_path = work / "stick", work / "brought", work / "sent"

    def start(self) -> None:
        self.brought.touch()
        self.sent_path.touch()
        answer = packet(2, bytes.fromhex("00" + BASE)).hex()
        self.run([sys.executable, HERE / "stick.py", self.path, self.brought, self.sent_path, answer])
        assert wait_for(self.path.exists, bool), self.journal()

    def bring(self, device: str, *telegrams: str) -> None:
        """Receives telegrams of a device, each as RORG PAYLOAD or RORG PAYLOAD STATUS in hexadecimal digits."""
        for words in map(str.split, telegrams):
            rorg, payload, status = (*words, "0")[:3]
            self.bring_packet(telegram_packet(int(rorg, 16), bytes.fromhex(payload), int(device, 16), int(status, 16)))

    def bring_packet(self, packet_bytes: bytes) -> None:
        with self.brought.open("a") as file:
            file.write(packet_bytes.hex() + "\n")

    def sent(self) -> str:
        """All bytes that the gateway has sent to the stick, except for the question for its base ID."""
        return self.sent_path.read_text()


class Unit(Program):
    """A program that is run by the commands of its unit."""

    def __init__(self, work: pathlib.Path, unit: str):
        super().__init__(work / f"{unit}.journal")
        self.work, self.script = work, work / f"{unit}.sh"
        self.desk, self.lines_path = work / "run/enogate/hall/desk", work / "log/enogate/hall.lines"
        self.state = work / "lib/enogate-mqtt/hall.db"
        for folder in (self.desk.parent, self.lines_path.parent, self.state.parent, work / "lib/enogate",
                       work / "lib/enogate-modbus", work / "bin"):
            folder.mkdir(parents=True, exist_ok=True)
        for name, program in COMMANDS.items():
            if not (work / "bin" / name).exists():
                (work / "bin" / name).symlink_to(program)
        words = [sys.executable, HERE / "unit.py", CONTRIB / f"{unit}@.service", work, "hall"]
        self.script.write_bytes(subprocess.run(words, check=True, stdout=subprocess.PIPE).stdout)

    def run_unit(self, **variables: str) -> None:
        """Starts the unit. With PAHO in the environment, it finds paho-mqtt in that folder."""
        path = f"{self.work / 'bin'}:{os.environ['PATH']}"
        self.run(["sh", self.script], PATH=path, PYTHONPATH=os.environ.get("PAHO", ""), **variables)


class Gateway(Unit):
    """The gateway, at a stick."""

    def __init__(self, work: pathlib.Path):
        super().__init__(work, "enogate")

    def start(self, stick: Stick, explain: str = "") -> None:
        self.run_unit(BASE=BASE, SERIAL=str(stick.path), TURNS="4000", EXPLAIN=explain)
        assert wait_for(self.desk.exists, bool), self.journal()

    def order(self, *orders: str) -> None:
        """Gives orders at the desk itself."""
        with self.desk.open("a") as desk:
            desk.writelines(f"{order}\n" for order in orders)

    def ctl_words(self, *words: str) -> list[str | pathlib.Path]:
        """The command of enogatectl with these words for this gateway."""
        return [sys.executable, "-B", CTL, "--desk", self.desk, "--lines", self.lines_path, "hall", *words]

    def lines(self) -> list[str]:
        """The text that it has printed since its lines were rotated."""
        return lines_of(self.lines_path)

    def size(self) -> int:
        """How many bytes of lines it has printed, since they were rotated."""
        return self.lines_path.stat().st_size

    def append(self, text: str) -> None:
        """Appends this to its lines, as the gateway does."""
        with self.lines_path.open("a") as lines:
            lines.write(text)

    def zero_end(self, count: int) -> None:
        """The last bytes of its lines become NUL bytes, as a power failure leaves them."""
        with self.lines_path.open("r+b") as lines:
            lines.seek(-count, os.SEEK_END)
            lines.write(bytes(count))

    def rotate(self) -> None:
        """Renames the file of its lines, as logrotate does."""
        self.lines_path.rename(f"{self.lines_path}.1")


class Bridge(Unit):
    """The bridge, at a broker."""

    def __init__(self, work: pathlib.Path, broker: Broker):
        super().__init__(work, "enogate-mqtt")
        self.broker = broker
        self.password = work / "bridge.password"
        self.password.write_text(BRIDGE_LOGIN[1] + "\n")

    def start(self, **settings: str) -> None:
        """Starts it with the user and the password that it has at the broker, and these settings besides. Devices are
        shown at once, and actuators are not asked for their states."""
        login = {"MQTT_PORT": str(self.broker.port), "MQTT_USER": BRIDGE_LOGIN[0],
                 "MQTT_PASSWORD_FILE": str(self.password)}
        default_settings = {"MQTT_EXPIRE_AFTER": "7200", "MQTT_LABEL_SECONDS": "0", "MQTT_QUERY": "no"}
        self.run_unit(**{**default_settings, **login, **settings})

    def saved_offset(self) -> int:
        """Up to which offset its state file says that the lines were read; 0 if it does not say it yet."""
        with contextlib.closing(sqlite3.connect(f"file:{self.state}?mode=ro", uri=True)) as connection:
            row = connection.execute("SELECT offset FROM place").fetchone()
        return int(row[0]) if row else 0
