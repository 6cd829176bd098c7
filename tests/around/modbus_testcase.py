"""The Modbus server at a broker, and its clients, for tests."""
from __future__ import annotations

import contextlib
import csv
import importlib
import logging
import math
import pathlib
import signal
import socket
import struct
import subprocess
import time
import unittest

from bridge_testcase import MAY_SKIP, missing_requirement
from broker import Broker, free_ports, rules_of
from programs import wait_for
from services import ROOT, Unit

GUIDE_PAGE = ROOT / "docs/guide/modbus.md"
SERVER_LOGIN = ("modbus", "modbus-secret")
NO_READING, GOOD, STALE, NO_NUMBER = range(4)
# A request for the first input register.
REQUEST = bytes.fromhex("0001 0000 0006 01 04 0000 0001")


def missing_for_modbus() -> str:
    """Why the server cannot be tried on this computer; empty if it can."""
    try:
        importlib.import_module("pymodbus.client")
    except ImportError:
        return "python3-pymodbus is not installed"
    return missing_requirement()


class ModbusBroker(Broker):
    """A broker with a user for the server, who has the rights that the guide lists."""

    def __init__(self, work: pathlib.Path):
        super().__init__(work)
        subprocess.run(["mosquitto_passwd", "-b", work / "users", *SERVER_LOGIN], check=True, capture_output=True)
        with (work / "rights").open("a") as rights:
            rights.write(f"user {SERVER_LOGIN[0]}\n{rules_of(GUIDE_PAGE, 'modbus')}")


class Server(Unit):
    """The server of the gateway `hall`, at a port of its own."""

    def __init__(self, work: pathlib.Path, broker_port: int):
        super().__init__(work, "enogate-modbus")
        self.broker_port, self.map_path = broker_port, work / "lib/enogate-modbus/hall.csv"
        [self.port] = free_ports(1)
        self.password = work / "server.password"
        self.password.write_text(SERVER_LOGIN[1] + "\n")

    def start(self, **settings: str) -> None:
        """Starts it with these settings, and waits until it listens."""
        login = {"MQTT_PORT": str(self.broker_port), "MQTT_USER": SERVER_LOGIN[0],
                 "MQTT_PASSWORD_FILE": str(self.password)}
        self.run_unit(**{"MODBUS_ADDRESS": "127.0.0.1", "MODBUS_PORT": str(self.port), **login, **settings})
        assert wait_for(self.is_listening, bool), self.journal()

    def end(self, signal_number: signal.Signals = signal.SIGTERM) -> None:
        """Ends it, and waits until its port is free."""
        super().end(signal_number)
        assert wait_for(lambda: not self.is_listening(), bool)

    def is_listening(self) -> bool:
        with contextlib.closing(socket.socket()) as client:
            return client.connect_ex(("127.0.0.1", self.port)) == 0

    def connect(self) -> socket.socket:
        return socket.create_connection(("127.0.0.1", self.port), 10)

    def rows(self) -> list[dict[str, str]]:
        """The rows of the register map."""
        with contextlib.suppress(FileNotFoundError), self.map_path.open(newline="", encoding="utf-8") as file:
            return list(csv.DictReader(file))
        return []

    def row(self, topic: str) -> dict[str, str]:
        """The row of a reading, once it is there."""
        rows = wait_for(lambda: [row for row in self.rows() if row["topic"] == topic], bool)
        assert rows, (topic, self.rows(), self.journal())
        return rows[0]

    def processor_seconds(self) -> float:
        """The processor time of the server until now."""
        assert self.process is not None
        [process] = subprocess.run(["pgrep", "-f", f"enogate-modbus --map {self.map_path} hall"], capture_output=True,
                                   text=True, check=True).stdout.split()[-1:]
        return sum(map(int, pathlib.Path(f"/proc/{process}/stat").read_text().rsplit(") ", 1)[1].split()[11:13])) / 100


class ModbusTest(unittest.TestCase):
    """A test with clients of the server `self.server`."""

    maxDiff = None
    server: Server

    @classmethod
    def setUpClass(cls) -> None:
        if MAY_SKIP and missing_for_modbus():
            raise unittest.SkipTest(missing_for_modbus())
        logging.getLogger("pymodbus").setLevel(logging.CRITICAL)

    def shortDescription(self) -> None:
        """Only the names of tests are printed, without their docstrings."""

    def new_client(self):
        """A client of pymodbus."""
        client = importlib.import_module("pymodbus.client").ModbusTcpClient("127.0.0.1", port=self.server.port)
        self.assertTrue(client.connect())
        self.addCleanup(client.close)
        return client

    def registers(self, first: int, count: int) -> list[int]:
        with contextlib.closing(self.new_client()) as client:
            answer = client.read_input_registers(first, count=count)
        self.assertFalse(answer.isError(), answer)
        return answer.registers

    def reading(self, topic: str) -> tuple[float | None, int, int]:
        """The value of a reading, or None if it is not a number, its quality, and its age."""
        *words, quality, age = self.registers(int(self.server.row(topic)["register"]), 4)
        value = struct.unpack(">f", struct.pack(">HH", *words))[0]
        return None if math.isnan(value) else round(value, 4), quality, age

    def assert_soon(self, observe, expected) -> None:
        """This is so within some time."""
        self.assertEqual(wait_for(observe, lambda observation: observation == expected), expected,
                         self.server.journal()[-12:])

    def assert_answers(self, client: socket.socket) -> None:
        """The server answers a request of this client."""
        client.sendall(REQUEST)
        self.assertEqual(client.recv(4096)[:8], bytes.fromhex("0001 0000 0005 01 04"))

    def assert_closed(self, client: socket.socket) -> None:
        """The server has closed this connection, and has sent nothing before."""
        client.settimeout(10)
        with contextlib.suppress(ConnectionError):
            self.assertEqual(client.recv(4096), b"")


def seconds_since(start: float) -> float:
    return time.monotonic() - start
