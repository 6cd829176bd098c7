"""The program: its settings, what connects clients and broker, and its loop."""
from __future__ import annotations

import argparse
import asyncio
import ipaddress
import logging
import os
import signal
import sys
import time
from collections.abc import Callable, Mapping, Sequence

from enogate_lines.entities import Table
from enogate_lines.inotify import POLL_PAUSE
from enogate_mqtt import connection as mqtt, log, settings
from enogate_mqtt.main import import_paho
from enogate_mqtt.settings import WrongSetting
from enogate_mqtt.topics import Message, Topics
from enogate_tools import VERSION, gateways

from .protocol import DEVICE_BUSY, NO_RESPONSE, Answers, Connection, require
from .readings import Readings
from .register_map import RegisterMap

# Not 502, the usual port of Modbus: the unit has no right to listen at ports below 1024.
DEFAULT_PORT = "1502"
# So many orders may be given at once, and so many per second: EnOcean devices may use radio for 1 % of the time.
MAX_ORDERS, ORDERS_PER_SECOND = 20, 2.0


class Gateway:
    """The gateway, as it is seen at the broker."""

    def __init__(self, broker: mqtt.Broker, readings: Readings, register_map: RegisterMap, clock: Callable[[], float]):
        self.broker, self.readings, self.map, self.clock = broker, readings, register_map, clock
        self.connection: mqtt.Connection | None = None
        self.allowed_orders, self.counted_at = float(MAX_ORDERS), clock()

    def turn(self) -> bool:
        """Handles what has arrived from the broker. Returns whether there was anything."""
        received: list[mqtt.ReceivedMessage] = []
        if self.broker.connection and self.broker.turn():
            self.connection = self.broker.connection
            self.readings.start_session()
            self.broker.report_connected()
            try:
                self.connection.request_retained(self.readings.filters)
            except mqtt.ConnectionLost as lost:
                self.broker.lose(str(lost))
        if self.connection:
            received, self.connection.received_messages = self.connection.received_messages, []
            for topic in filter(None, map(self.readings.handle_message, received)):
                self.map.add(topic)
        if self.connection is not self.broker.connection:
            self.connection = None
            self.readings.start_session()
        self.map.turn()
        return bool(received)

    def give(self, topic: str, command: str) -> None:
        """Gives a command for the reading with this topic, or raises Refused."""
        now = self.clock()
        self.allowed_orders = min(self.allowed_orders + ORDERS_PER_SECOND * (now - self.counted_at), MAX_ORDERS)
        self.counted_at = now
        require(self.readings.is_online(), NO_RESPONSE)
        require(self.allowed_orders >= 1, DEVICE_BUSY)
        self.allowed_orders -= 1
        message = Message(f"{self.readings.topics.root}/{topic}/set", command, False)
        require(self.connection.publish(message) != mqtt.NOT_SENT, NO_RESPONSE)


def read_arguments(arguments: Sequence[str]) -> argparse.Namespace:
    """The command line, or WrongSetting."""
    about = "Serve the readings of an enogate gateway as Modbus TCP registers. The manual page lists the settings."
    parser = settings.Parser("enogate-modbus", allow_abbrev=False, description=about)
    parser.add_argument("name", metavar="NAME", help="name of the gateway at the broker, for example `hall`")
    parser.add_argument("--map", metavar="PATH", required=True, help="CSV file with the registers, created if missing")
    parser.add_argument("--version", action="version", version=f"enogate-modbus {VERSION}")
    words = parser.parse_args(arguments)
    if not gateways.is_name(words.name):
        raise WrongSetting(str(gateways.InvalidName(words.name)))
    return words


def read_server_settings(environment: Mapping[str, str]) -> tuple[str, int, bool]:
    """The address and the port at which the server listens, and whether it accepts orders, or WrongSetting."""
    address = environment.get("MODBUS_ADDRESS", "")
    try:
        ipaddress.ip_address(address)
    except ValueError as error:
        raise WrongSetting(f"invalid MODBUS_ADDRESS: {address} (expected an IP address of this computer)") from error
    port = settings.read_port("MODBUS_PORT", environment.get("MODBUS_PORT") or DEFAULT_PORT)
    return address, port, settings.read_yes_or_no("MODBUS_ORDERS", environment.get("MODBUS_ORDERS") or "no")


async def serve(words: argparse.Namespace, environment: Mapping[str, str]) -> None:
    """Serves the readings until a signal stops the program."""
    address, port, with_orders = read_server_settings(environment)
    login, topics = settings.read_login(environment), Topics(words.name, settings.read_discovery(environment))
    paho, clock = import_paho(), time.monotonic
    broker = mqtt.Broker(lambda version, _: mqtt.Connection(paho, login, topics, version, clock, True, ".modbus"),
                         f"{login.host}:{login.port}", clock)
    readings = Readings(topics, Table(), settings.read_expiry(environment), time.time)
    register_map = RegisterMap(words.map, readings, log.RateLimitedLog(clock), clock)
    gateway = Gateway(broker, readings, register_map, clock)
    answers = Answers(register_map, readings, gateway.give if with_orders else None)
    loop, connections, signals = asyncio.get_running_loop(), set[Connection](), list[int]()
    for number in (signal.SIGTERM, signal.SIGINT):
        loop.add_signal_handler(number, signals.append, number)
    await loop.create_server(lambda: Connection(answers, connections), address, port)
    logging.info("listening at %s, port %d; orders: %s", address, port, "yes" if with_orders else "no")
    while not signals:
        if broker.connection is None:
            # to connect may take seconds, in which clients get answers; they use nothing of the broker
            await asyncio.to_thread(broker.turn)
        await asyncio.sleep(0 if gateway.turn() else POLL_PAUSE)


def main() -> int:
    """Runs the program, and returns its exit status."""
    log.set_up_logging(os.environ, program="enogate-modbus")
    try:
        asyncio.run(serve(read_arguments(sys.argv[1:]), os.environ))
    except WrongSetting as wrong:
        logging.error("%s", wrong)
        return settings.EXIT_STATUS
    except OSError as error:
        logging.error("cannot listen: %s", error)
        return 1
    return 0
