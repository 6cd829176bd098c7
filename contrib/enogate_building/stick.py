"""A stick with a radio module, and the pseudo-terminal at which it is plugged in."""
import contextlib
import os
import select
from typing import Any

from enogate_tools import esp3
from enogate_tools.port import configure

from .radio import Place, Telegram

READ_BASE_COMMAND, OK_RESPONSE, NOT_SUPPORTED_RESPONSE, WRONG_PARAMETER_RESPONSE = b"\x08", b"\x00", b"\x02", b"\x03"
# A module sends from its base ID and from the next 127 IDs only.
SENDER_COUNT = 128


class Stick:
    """A stick at a place, which carries out the packets of a gateway. `port` has `plug`, `unplug` and `write`, which
    drops what is written while the stick is unplugged."""

    def __init__(self, place: Place, base: int, port: Any, building: Any):
        self.place, self.base, self.port, self.building = place, base, port, building
        self.plug(True)

    def plug(self, is_plugged_in: bool) -> None:
        """It is plugged in or pulled out."""
        (self.port.plug if is_plugged_in else self.port.unplug)()
        self.is_plugged_in, self.unparsed_bytes = is_plugged_in, b""

    def handle_bytes(self, stream: bytes) -> None:
        """Carries out what a gateway has written, and responds to each packet."""
        self.unparsed_bytes, end = self.unparsed_bytes + stream, 0
        for end, kind, body, optional in esp3.packets_in(self.unparsed_bytes):
            self.port.write(esp3.packet(esp3.RESPONSE, self.response(kind, body, optional)))
        self.unparsed_bytes = self.unparsed_bytes[end:]

    def response(self, kind: int, data: bytes, optional: bytes) -> bytes:
        """Carries out a packet, and returns the response."""
        if kind == esp3.COMMON_COMMAND and data == READ_BASE_COMMAND:
            return OK_RESPONSE + self.base.to_bytes(4, "big")
        if kind != esp3.RADIO_ERP1:
            return NOT_SUPPORTED_RESPONSE
        sender, destination = int.from_bytes(data[-5:-1], "big"), int.from_bytes(optional[1:5], "big")
        if len(data) < 7 or len(optional) < 5 or not self.base <= sender < self.base + SENDER_COUNT:
            return WRONG_PARAMETER_RESPONSE
        self.building.send(Telegram(data[0], data[1:-5], sender, data[-1], destination), self)
        return OK_RESPONSE


class Terminal:
    """A pseudo-terminal with a symbolic link as its stable name. Like a serial port, it drops what nobody reads."""

    def __init__(self, path: str, events: select.epoll):
        self.path, self.events, self.module_end = path, events, -1

    def plug(self) -> None:
        """Makes it. Only gateways open the terminal itself, since enogate-check reports each program that does. That
        nobody has it open is an event that lasts, so each event is reported once."""
        self.module_end, line = os.openpty()
        configure(line, self.path)
        os.set_blocking(self.module_end, False)
        if os.path.islink(self.path):
            os.unlink(self.path)
        os.symlink(os.ttyname(line), self.path)
        os.close(line)
        self.events.register(self.module_end, select.EPOLLIN | select.EPOLLET)

    def unplug(self) -> None:
        """Removes it. A gateway that has it open gets a hangup."""
        os.unlink(self.path)
        os.close(self.module_end)
        self.module_end = -1

    def write(self, stream: bytes) -> None:
        """The gateway gets these bytes. Without a gateway they may be dropped, and without a terminal they are."""
        with contextlib.suppress(OSError):
            os.write(self.module_end, stream)

    def read(self) -> bytes:
        """What the gateway has written."""
        stream = b""
        with contextlib.suppress(OSError):
            while chunk := os.read(self.module_end, 4096):
                stream += chunk
        return stream
