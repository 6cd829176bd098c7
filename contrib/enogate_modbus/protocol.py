"""Modbus TCP: connections of clients, requests and answers (MODBUS Application Protocol 1.1b3). The server of pymodbus
3.0.0 drops a request that arrives in two parts, and those of later versions have another interface."""
from __future__ import annotations

import asyncio
import struct
from collections.abc import Callable

from enogate_mqtt.orders import is_command

from .readings import REGISTERS_PER_READING, Readings
from .register_map import RegisterMap

READ_INPUT_REGISTERS, WRITE_COIL, WRITE_REGISTER = 4, 5, 6
ILLEGAL_FUNCTION, ILLEGAL_ADDRESS, ILLEGAL_VALUE, DEVICE_BUSY, NO_RESPONSE = 1, 2, 3, 6, 11
EXCEPTION_FLAG, MAX_REGISTERS, COMMANDS_BY_COIL = 0x80, 125, {0xFF00: "ON", 0: "OFF"}
# The number of a request, the protocol, the length of the rest, and the unit. At most 16 requests may wait.
HEADER, MODBUS, LENGTHS, MAX_WAITING = struct.Struct(">HHHB"), 0, range(2, 255), 16 * 260
# The connections of all clients and of one address, and how long one lasts without a request, in seconds.
MAX_CONNECTIONS, MAX_CONNECTIONS_OF_ADDRESS, IDLE_WITHIN = 32, 8, 300.0


class Refused(Exception):
    """A request is answered with an exception, whose code is the argument."""


def require(is_met: bool, code: int) -> None:
    """Raises Refused with this code, unless a condition is met."""
    if not is_met:
        raise Refused(code)


class Answers:
    """Answers requests. `give` gives a command for a topic, or raises Refused; it is None if orders are off."""

    def __init__(self, register_map: RegisterMap, readings: Readings, give: Callable[[str, str], None] | None):
        self.map, self.readings, self.give = register_map, readings, give

    def answer(self, request: bytes) -> bytes:
        """The answer to a request. Both begin with the number of the function."""
        try:
            return request[:1] + self.answer_after_function(request[0], request[1:])
        except Refused as refused:
            return bytes([request[0] | EXCEPTION_FLAG, refused.args[0]])
        except struct.error:
            return bytes([request[0] | EXCEPTION_FLAG, ILLEGAL_VALUE])

    def answer_after_function(self, function: int, body: bytes) -> bytes:
        """The answer to a request with this body."""
        if function == READ_INPUT_REGISTERS:
            return self.input_registers(*struct.unpack(">HH", body))
        require(self.give is not None and function in (WRITE_COIL, WRITE_REGISTER), ILLEGAL_FUNCTION)
        address, value = struct.unpack(">HH", body)
        topic = self.map.topics[address] if address < len(self.map.topics) else ""
        command = COMMANDS_BY_COIL.get(value, "") if function == WRITE_COIL else str(value)
        require(is_command(topic, "ON" if function == WRITE_COIL else "0"), ILLEGAL_ADDRESS)
        require(is_command(topic, command), ILLEGAL_VALUE)
        self.give(topic, command)
        return body

    def input_registers(self, address: int, count: int) -> bytes:
        """So many input registers from this address on."""
        require(1 <= count <= MAX_REGISTERS, ILLEGAL_VALUE)
        require(address + count <= REGISTERS_PER_READING * len(self.map.topics), ILLEGAL_ADDRESS)
        first, start = divmod(address, REGISTERS_PER_READING)
        topics = self.map.topics[first:(address + count - 1) // REGISTERS_PER_READING + 1]
        registers = [register for topic in topics for register in self.readings.registers_of(topic)]
        return struct.pack(f">B{count}H", 2 * count, *registers[start:start + count])


class Connection(asyncio.Protocol):
    """A connection of a client. `connections` has all that are open."""

    def __init__(self, answers: Answers, connections: set[Connection]):
        self.answers, self.connections, self.received = answers, connections, b""

    def connection_made(self, transport: asyncio.Transport) -> None:
        self.transport, self.address = transport, transport.get_extra_info("peername")[0]
        addresses = [connection.address for connection in self.connections]
        self.connections.add(self)
        self.idle_timer = asyncio.get_running_loop().call_later(IDLE_WITHIN, transport.abort)
        if len(addresses) >= MAX_CONNECTIONS or addresses.count(self.address) >= MAX_CONNECTIONS_OF_ADDRESS:
            transport.abort()

    def connection_lost(self, _error: Exception | None) -> None:
        self.connections.discard(self)
        self.idle_timer.cancel()

    def pause_writing(self) -> None:
        """The client does not read its answers."""
        self.transport.abort()

    def data_received(self, received: bytes) -> None:
        """Answers all requests that have arrived as a whole. Anything else ends the connection."""
        self.received += received
        while len(self.received) >= HEADER.size and not self.transport.is_closing():
            number, protocol, length, unit = HEADER.unpack_from(self.received)
            end = HEADER.size - 1 + length
            if protocol != MODBUS or length not in LENGTHS or len(self.received) > MAX_WAITING:
                return self.transport.abort()
            if len(self.received) < end:
                return
            answer = self.answers.answer(self.received[HEADER.size:end])
            self.transport.write(HEADER.pack(number, MODBUS, len(answer) + 1, unit) + answer)
            self.received = self.received[end:]
            self.idle_timer.cancel()
            self.idle_timer = asyncio.get_running_loop().call_later(IDLE_WITHIN, self.transport.abort)
