"""The serial port of a radio module: its lock, its settings, and the base ID that the module reports."""
from __future__ import annotations

import contextlib
import errno
import fcntl
import os
import select
import stat
import sys
import termios
import time

from .esp3 import RESPONSE, packets_in

# ESP3, packet type 5: the command CO_RD_IDBASE. The response has type 2, the code 0 and four bytes.
BASE_REQUEST = bytes.fromhex("5500010005700838")
# A module answers within 0.5 s (ESP3); the rest is for a slow computer.
ANSWER_TIMEOUT = 2.0
BASE_FORM_IN_WORDS = "8 hexadecimal digits from FF800000 to FFFFFF80; the last two are 00 or 80"
NO_MODULE = "no radio module answers at {}: check that this is its port, and that it uses ESP3 at 57,600 baud"

# The settings as stty prints them: the line of the guide sets the same ones.
REQUIRED_C_CC = {"min 0": (termios.VMIN, 0), "time 1": (termios.VTIME, 1)}
FLAGS_REQUIRED_OFF = {
    "icrnl": (0, termios.ICRNL), "inlcr": (0, termios.INLCR), "igncr": (0, termios.IGNCR),
    "istrip": (0, termios.ISTRIP), "ixon": (0, termios.IXON), "ixoff": (0, termios.IXOFF),
    "opost": (1, termios.OPOST), "cstopb": (2, termios.CSTOPB), "parenb": (2, termios.PARENB),
    "crtscts": (2, termios.CRTSCTS), "icanon": (3, termios.ICANON), "isig": (3, termios.ISIG),
    "echo": (3, termios.ECHO),
}


# How long the end of a run waits for the stick to take what was sent to it, in seconds. 4 KB, the most that the kernel
# holds for a USB stick, take 0.7 s.
SEND_TIMEOUT, CLOSE_PAUSE = 1.0, 0.1


class PortError(Exception):
    """The port cannot be used. The text is a sentence that says why, and what to do."""


def is_base(text: str) -> bool:
    """Whether this is a base ID, in upper or lower case."""
    if len(text) != 8 or not set(text) <= set("0123456789ABCDEFabcdef"):
        return False
    return 0xFF800000 <= int(text, 16) <= 0xFFFFFF80 and int(text, 16) % 128 == 0


def other_stick_fault(earlier: str, base: str, path: str) -> str:
    """What is wrong if the base ID at earlier starts of a gateway was another one; empty if it was not, or if this is
    not known."""
    if not is_base(earlier) or earlier == base:
        return ""
    return (f"at earlier starts the base ID was {earlier}: if {path} is the wrong stick, correct SERIAL; if the stick "
            f"was replaced, set BASE={base}, and teach in actuators again")


def base_in(stream: bytes) -> str | None:
    """The base ID in the first response of the module that has one. Other packets are skipped."""
    for _, kind, packet_data, _ in packets_in(stream):
        base = packet_data[1:].hex().upper()
        if kind == RESPONSE and packet_data[:1] == b"\0" and is_base(base):
            return base
    return None


def open_port(path: str) -> int:
    """Opens and locks a port. The lock lasts until this descriptor, and each copy of it, is closed."""
    if not path:
        raise PortError("no port is set: set SERIAL")
    try:
        if not stat.S_ISCHR(os.stat(path).st_mode):
            raise PortError(f"{path} is not a serial port: correct SERIAL")
        port = os.open(path, os.O_RDWR | os.O_NOCTTY | os.O_NONBLOCK)
    except OSError as error:
        if error.errno in (errno.ENOENT, errno.ENODEV, errno.ENXIO, errno.ENOTDIR):
            raise PortError(f"no stick at {path}: plug it in, or correct SERIAL") from error
        if error.errno == errno.EACCES:
            raise PortError(f"permission denied for {path}: let the group dialout read and write it") from error
        raise PortError(f"{path} cannot be opened: {error.strerror}") from error
    try:
        fcntl.flock(port, fcntl.LOCK_EX | fcntl.LOCK_NB)
    except OSError as error:
        os.close(port)
        raise PortError(f"another program has locked {path}: stop it, or correct SERIAL") from error
    return port


def configure(port: int, path: str) -> None:
    """Sets everything that the line depends on, whatever the last program left: 57,600 baud, 8 data bits, no parity,
    one stop bit, no flow control, raw, and a read that returns after 0.1 s even if no data arrives. What came before is
    dropped: it could be the answer to a question of a start that was stopped."""
    try:
        attributes = termios.tcgetattr(port)
        for index, value in REQUIRED_C_CC.values():
            attributes[6][index] = value
        flags = termios.CS8 | termios.CREAD | termios.CLOCAL | attributes[2] & termios.HUPCL
        termios.tcsetattr(port, termios.TCSANOW, [0, 0, flags, 0, termios.B57600, termios.B57600, attributes[6]])
        termios.tcflush(port, termios.TCIFLUSH)
    except termios.error as error:
        raise PortError(f"{path} is not a serial port: correct SERIAL") from error


def wrong_settings(port: int) -> list[str]:
    """The settings of an open port that keep a gateway from working, as stty prints them."""
    attributes = termios.tcgetattr(port)
    wrong_flags = [name for name, (index, bit) in FLAGS_REQUIRED_OFF.items() if attributes[index] & bit]
    wrong_flags += ["-clocal"] * (not attributes[2] & termios.CLOCAL) + ["not cs8"] * (attributes[2] & termios.CSIZE
                                                                                       != termios.CS8)
    wrong_flags += ["not 57600 baud"] * (attributes[4:6] != [termios.B57600] * 2)
    return wrong_flags + [f"not {name}" for name, (index, value) in REQUIRED_C_CC.items() if attributes[6][index] not in
                          (value, bytes([value]))]


def ask_base(port: int, path: str, clock=time.monotonic) -> str | None:
    """The base ID that the module reports, or None if it reports none in time."""
    stream, deadline = b"", clock() + ANSWER_TIMEOUT
    try:
        os.write(port, BASE_REQUEST)
        while (seconds_left := deadline - clock()) > 0:
            if select.select([port], [], [], seconds_left)[0]:
                chunk = os.read(port, 4096)
                stream += chunk
                if base_in(stream) or not chunk:
                    break
    except BlockingIOError:
        return None
    except OSError as error:
        raise PortError(f"{path} cannot be used: {error.strerror}") from error
    return base_in(stream)


def module_base(path: str) -> str | None:
    """The base ID that the radio module at this port reports, or None. Raises PortError if the port cannot be used."""
    port = open_port(path)
    try:
        configure(port, path)
        return ask_base(port, path)
    finally:
        os.close(port)


def unsent_bytes(port: int) -> int:
    """How many bytes wait in the kernel for the stick."""
    try:
        return int.from_bytes(fcntl.ioctl(port, termios.TIOCOUTQ, bytes(4)), sys.byteorder)
    except OSError:
        return 0


def is_hung_up(port: int) -> bool:
    """Whether the stick of an open port was unplugged."""
    poll = select.poll()
    poll.register(port, 0)
    return bool(poll.poll(0))


def close_port(port: int, sleep=time.sleep) -> None:
    """Closes a port. What the stick has not taken after a second is discarded: the kernel would wait for half a
    minute."""
    for _ in range(round(SEND_TIMEOUT / CLOSE_PAUSE)):
        if not unsent_bytes(port):
            break
        sleep(CLOSE_PAUSE)
    discard_unsent(port)
    os.close(port)


def discard_unsent(port: int) -> None:
    """Discards what the stick has not taken."""
    with contextlib.suppress(termios.error):
        termios.tcflush(port, termios.TCOFLUSH)
