"""The control socket. A command is a line, which is answered with a line."""
import contextlib
import os
import re
import socket
import stat

from .building import Building
from .devices import BUTTONS, ONE_BYTE, RPS, Device, RefusedCommand

SOCKET_NAME = "control"
COMMAND_FORMS = ("press ID [BUTTON]", "open ID", "close ID", "send ID", "learn ID", "dead ID", "alive ID", "noise",
                 "unplug STICK", "plug STICK")
OK_ANSWER = "ok"
NOISE_SIZE, MAX_SIZE, CLIENT_TIMEOUT = 100, 4096, 0.5


def carry_out(building: Building, words: list[str]) -> None:
    """Carries out a command. One that is refused changes nothing."""
    match words:
        case ["press", name, *button] if len(button) <= 1 and {letter.upper() for letter in button} <= {*BUTTONS}:
            find_device(building, name, RPS, "is no switch").press(*map(str.upper, button))
        case ["open" | "close" as verb, name]:
            contact = find_device(building, name, ONE_BYTE, "is no contact")
            contact.is_closed = verb == "close"
            contact.report()
        case ["send" | "learn" as verb, name]:
            if (device := find_device(building, name)).is_dead:
                raise RefusedCommand("this device is dead")
            (device.report if verb == "send" else device.teach_in)()
        case ["dead" | "alive" as verb, name]:
            find_device(building, name).is_dead = verb == "dead"
        case ["noise"]:
            for stick in building.sticks.values():
                stick.port.write(building.rng.randbytes(NOISE_SIZE))
        case ["plug" | "unplug" as verb, name] if name in building.sticks:
            if building.sticks[name].is_plugged_in == (verb == "plug"):
                raise RefusedCommand(f"the stick {name} is {'already' if verb == 'plug' else 'not'} plugged in")
            building.sticks[name].plug(verb == "plug")
        case _:
            raise RefusedCommand(f"the commands are {'; '.join(COMMAND_FORMS)}; the buttons are {' '.join(BUTTONS)}; "
                                 "the sticks are " + " ".join(building.sticks))


def find_device(building: Building, name: str, rorg: int | None = None, fault: str = "") -> Device:
    """The device with this ID, which has to be of this kind."""
    device = building.devices.get(int(name, 16)) if re.fullmatch("[0-9A-Fa-f]{8}", name) else None
    if device is None:
        raise RefusedCommand("no device of the sheet has this ID")
    if rorg not in (None, device.rorg):
        raise RefusedCommand(f"this device ({device.row.eep}) {fault}")
    return device


def answer(building: Building, line: bytes) -> bytes:
    """Carries out a command, and returns the line of its answer."""
    try:
        carry_out(building, line.decode("ascii", "replace").split(" "))
    except RefusedCommand as error:
        return f"error: {error}\n".encode()
    return f"{OK_ANSWER}\n".encode()


def listen(folder: str) -> socket.socket:
    """Makes the socket of a folder, in place of that of a building that has ended."""
    listener, path = socket.socket(socket.AF_UNIX), os.path.join(folder, SOCKET_NAME)
    with socket.socket(socket.AF_UNIX) as other_socket, contextlib.suppress(OSError):
        other_socket.connect(path)
        raise RefusedCommand(f"a building runs in {folder}")
    if os.path.exists(path) and stat.S_ISSOCK(os.lstat(path).st_mode):
        os.unlink(path)
    listener.bind(path)
    listener.listen()
    return listener


def serve(building: Building, listener: socket.socket) -> None:
    """Answers the lines of a program that has connected. It has to send them whole, at once, and soon."""
    client, _ = listener.accept()
    with client, contextlib.suppress(OSError):
        client.settimeout(CLIENT_TIMEOUT)
        request = client.recv(MAX_SIZE)
        lines = request[:-1].split(b"\n") if request.endswith(b"\n") else [b""]
        client.sendall(b"".join(answer(building, line) for line in lines))


def give_command(folder: str, line: str) -> bool:
    """Gives a command to the building of a folder, and prints the answer. Returns whether it was carried out."""
    with socket.socket(socket.AF_UNIX) as client:
        if fault := client.connect_ex(path := os.path.join(folder, SOCKET_NAME)):
            raise RefusedCommand(f"{path}: {os.strerror(fault)}: no building of this user runs there")
        client.sendall(f"{line}\n".encode())
        reply = client.makefile().readline().rstrip("\n")
    print(reply)
    return reply == OK_ANSWER
