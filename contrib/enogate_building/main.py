"""virtual-building: runs a building, or gives commands to a running one."""
import argparse
import os
import re
import select
import signal
import sys
import time

from enogate_ctl.sheet import decoded
from enogate_ctl.stops import Stopped, StopSignals
from enogate_tools import VERSION, gateways, share

from .building import Building, read_sheet
from .control import give_command, listen, serve
from .devices import RefusedCommand
from .radio import Place
from .stick import Terminal

# Faster than this, a building with many devices would fall behind.
MAX_SPEED = 10000
STICK_FORM, DEFAULT_STICKS = "NAME:X,Y,FLOOR", ("ground:7,6,0", "attic:33,6,1")


def stick_at(text: str) -> tuple[str, Place]:
    """The name and the place of a stick."""
    match = re.fullmatch(r"([^:]+):(-?\d{1,4}),(-?\d{1,4}),(-?\d{1,2})", text, re.ASCII)
    if not match or not gateways.is_name(match[1]):
        raise argparse.ArgumentTypeError(f"{text!r} is not {STICK_FORM}, such as {DEFAULT_STICKS[0]}")
    return match[1], Place(*map(int, match.groups()[1:]))


def parse_arguments(arguments: list[str]) -> argparse.Namespace:
    """The command line."""
    parser = argparse.ArgumentParser(
        prog="virtual-building", allow_abbrev=False, epilog="See virtual-building(1).",
        description="Run the EnOcean devices and radio modules of a virtual building, or give it a command.")
    parser.add_argument("--sheet", metavar="FILE", default=os.path.join(share.SHARE, "building.csv"),
                        help="devices, as CSV (default: 50 devices)")
    parser.add_argument("--stick", metavar=STICK_FORM, action="append", type=stick_at,
                        help=f"a stick, and where it is (default: {' and '.join(DEFAULT_STICKS)})")
    parser.add_argument("--speed", metavar="N", type=float, default=1.0, help="how fast time passes (default: 1)")
    parser.add_argument("--seed", metavar="N", type=int, default=1, help="seed of the random numbers (default: 1)")
    parser.add_argument("--quiet", action="store_true", help="let no device send by itself")
    parser.add_argument("--version", action="version", version=f"virtual-building {VERSION}")
    parser.add_argument("folder", metavar="DIRECTORY")
    parser.add_argument("command", metavar="COMMAND", nargs="*", help="command, or - for lines of standard input")
    words = parser.parse_args(arguments)
    if not 0 < words.speed <= MAX_SPEED:
        parser.error(f"argument --speed: not between 0 and {MAX_SPEED}")
    return words


def run(words: argparse.Namespace) -> None:
    """Runs a building until a signal stops it."""
    signal.signal(signal.SIGTERM, StopSignals().handle_signal)
    with open(words.sheet, "rb") as file:
        building = Building(read_sheet(decoded(file.read())), words.seed, words.quiet)
    os.makedirs(words.folder, exist_ok=True)
    # Only the user of this program may give commands.
    os.umask(0o177)
    events, listener, start_time = select.epoll(), listen(words.folder), time.monotonic()
    events.register(listener, select.EPOLLIN)
    for name, place in dict(words.stick or map(stick_at, DEFAULT_STICKS)).items():
        building.add_stick(name, place, Terminal(os.path.join(words.folder, f"{name}.stick"), events))
    print(f"{len(building.devices)} devices, and the sticks {', '.join(building.sticks)}", flush=True)
    try:
        while True:
            seconds_left = None
            if building.due_calls:
                seconds_left = building.due_calls[0][0] / words.speed - (time.monotonic() - start_time)
            ready = [file_number
                     for file_number, _ in events.poll(None if seconds_left is None else max(0.0, seconds_left))]
            building.advance((time.monotonic() - start_time) * words.speed)
            for stick in building.sticks.values():
                stick.handle_bytes(stick.port.read())
            if listener.fileno() in ready:
                serve(building, listener)
    finally:
        for stick in building.sticks.values():
            if stick.is_plugged_in:
                stick.plug(False)
        os.unlink(listener.getsockname())


def main() -> int:
    """Runs the program, and returns its exit status."""
    words = parse_arguments(sys.argv[1:])
    try:
        if words.command:
            lines = sys.stdin.read().splitlines() if words.command == ["-"] else [" ".join(words.command)]
            return 0 if all([give_command(words.folder, line) for line in lines]) else 1
        run(words)
    except (KeyboardInterrupt, Stopped):
        return 0
    except (OSError, RefusedCommand) as error:
        # The errors of sockets name no file.
        sys.stderr.write(f"virtual-building: {error}{'' if getattr(error, 'filename', 1) else f': {words.folder}'}\n")
        return 1
