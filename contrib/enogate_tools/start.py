"""enogate-port: locks and configures a serial port, asks the radio module for its base ID, and runs a command."""
from __future__ import annotations

import argparse
import contextlib
import os
import signal
import sys
import time

from . import VERSION, desk, gateways, lines, port as ports
from .lines import NOTICE, WARNING
from .unit import Unit

# In a command, this word stands for the base ID.
PLACEHOLDER = "{base}"
# How often a unit looks for a stick, in seconds.
PAUSE = 1.0


def parse_arguments(arguments: list[str]) -> argparse.Namespace:
    """The command line."""
    parser = argparse.ArgumentParser(
        prog="enogate-port", allow_abbrev=False,
        usage="enogate-port [--base ID] PORT COMMAND [ARG..]\n       enogate-port --base-id PORT\n"
        "       enogate-port --unit DIRECTORY --lines FILE [--base ID] [--base-file FILE] PORT COMMAND [ARG..]\n"
        "       enogate-port --unit DIRECTORY --lines FILE --clean",
        description="Lock and configure the serial port of a radio module, and run a command that uses it.",
        epilog="In ARG, the word {base} stands for the base ID. See enogate-port(1).")
    parser.add_argument("--base", metavar="ID", help="base ID to use; compared with that of the module "
                        "(default: the one that the module reports)")
    parser.add_argument("--base-id", action="store_true", help="print the base ID that the module reports")
    parser.add_argument("--unit", metavar="DIRECTORY", help="run as the unit of the gateway with this runtime "
                        "directory: wait until the port can be used, and watch the command")
    parser.add_argument("--lines", metavar="FILE", help="file to which the output of the command is appended")
    parser.add_argument("--base-file", metavar="FILE", help="file with the base ID of earlier starts")
    parser.add_argument("--clean", action="store_true", help="empty the desk and repair the lines, before a start")
    parser.add_argument("--version", action="version", version=f"enogate-port {VERSION}")
    parser.add_argument("port", metavar="PORT", nargs="?")
    parser.add_argument("command", metavar="COMMAND", nargs=argparse.REMAINDER)
    words = parser.parse_args(arguments)
    if [bool(words.command), words.base_id, words.clean].count(True) != 1 or (words.port is not None) == words.clean:
        parser.error("either --base-id, --clean or a command is required")
    if bool(words.unit) != bool(words.lines) or (words.clean and not words.unit):
        parser.error("--unit, --lines: either both or none are required")
    if words.base and not ports.is_base(words.base):
        prefix = "" if words.unit else "enogate-port: "
        parser.exit(2, f"{prefix}BASE={words.base} is not a base ID ({ports.BASE_FORM_IN_WORDS}): correct it, or "
                    "remove it\n")
    return words


class PortStarter:
    """Prepares the port. `path` is its name, `base` the ID that was set, or empty."""

    def __init__(self, words: argparse.Namespace, say, sleep=time.sleep, clock=time.monotonic):
        self.path, self.unit, self.base_file = words.port, words.unit, words.base_file
        self.set_base = self.base = (words.base or "").upper()
        # what the module reported at the start, and what it was compared with last
        self.reported_base: str | None = None
        self.compared_base = ""
        # the port while it is being prepared
        self.prepared_port: int | None = None
        self.command_words = words.command
        self.needs_base = bool(self.base) or words.base_id or PLACEHOLDER in words.command
        self.announces = not words.base_id
        self.say, self.sleep, self.clock = say, sleep, clock

    def prepare_port(self) -> int:
        """Opens, locks and configures the port, and finds the base ID. Returns the descriptor that holds the lock."""
        self.prepared_port = port = ports.open_port(self.path)
        try:
            ports.configure(port, self.path)
            if self.needs_base:
                self.set_or_compare_base(ports.ask_base(port, self.path, self.clock))
        except ports.PortError:
            ports.close_port(port)
            raise
        finally:
            self.prepared_port = None
        return port

    def discard_unsent(self) -> None:
        """This process ends while it prepares a port: a stick that takes no bytes must not delay that."""
        if self.prepared_port is not None:
            ports.discard_unsent(self.prepared_port)

    def set_or_compare_base(self, reported_base: str | None) -> None:
        """Compares the base ID with the one that the module reported, or takes that one."""
        self.reported_base, self.compared_base = reported_base, ""
        if not self.set_base and not reported_base:
            raise ports.PortError(f"no radio module at {self.path} reports its base ID: unplug it and plug it in, "
                                  "correct SERIAL, or set BASE")
        if not self.set_base:
            self.base = reported_base
            if self.announces:
                self.say(NOTICE, f"the base ID is {reported_base}, as the radio module at {self.path} reports")
        elif not reported_base:
            self.say(WARNING, f"no radio module at {self.path} reports its base ID: check SERIAL; the gateway starts "
                     f"with BASE={self.base}")
        else:
            self.warn_of_other_base(reported_base)

    def warn_of_other_base(self, reported_base: str) -> None:
        """Logs a warning if the module has reported another base ID than that of the gateway; once for each one."""
        if reported_base not in (self.base, self.compared_base):
            self.say(WARNING,
                     f"BASE is {self.base}, but the base ID of the radio module at {self.path} is {reported_base}: "
                     "correct or remove BASE, and restart the gateway")
        self.compared_base = reported_base

    def wait_for_port(self) -> int:
        """Like `prepare_port`, but waits until the port can be used. Each reason is reported once, even if it comes
        back: a stick with a loose plug may change between two reasons for days."""
        reported_faults: set[str] = set()
        while True:
            try:
                port = self.prepare_port()
                break
            except ports.PortError as error:
                if str(error) not in reported_faults:
                    self.say(WARNING, f"{error}; waiting")
                    reported_faults.add(str(error))
            self.sleep(PAUSE)
        if reported_faults:
            self.say(NOTICE, f"{self.path} can be used now")
            # Orders that were given meanwhile are out of date.
            desk.make_empty(os.path.join(self.unit, "desk"))
        self.warn_of_other_stick()
        return port

    def warn_of_other_stick(self) -> None:
        """Logs a warning if the module is not that of earlier starts: of two sticks, the other one may have been taken.
        Its base ID is stored if it is set, or if none was stored."""
        if not self.base_file or self.reported_base != self.base:
            return
        earlier_base = ""
        with contextlib.suppress(OSError), open(self.base_file, encoding="ascii", errors="replace") as file:
            earlier_base = file.read(9).strip()
        if not self.set_base and (fault := ports.other_stick_fault(earlier_base, self.base, self.path)):
            self.say(WARNING, fault)
        elif earlier_base != self.base:
            with contextlib.suppress(OSError), open(self.base_file, "w", encoding="ascii") as file:
                print(self.base, file=file)

    def command(self) -> list[str]:
        """The command with the base ID."""
        return [self.base if word == PLACEHOLDER else word for word in self.command_words]


def run_in_place(command: list[str], port: int) -> int:
    """Runs the command in place of this process. It keeps the lock."""
    os.set_inheritable(port, True)
    signal.signal(signal.SIGPIPE, signal.SIG_DFL)
    try:
        os.execvp(command[0], command)
    except OSError as error:
        print(f"{command[0]} cannot be run: {error.strerror}", file=sys.stderr)
        return 127


def main(arguments: list[str] | None = None) -> int:
    """Runs the program, and returns its exit status."""
    words = parse_arguments(sys.argv[1:] if arguments is None else arguments)

    def say(priority: str, text: str) -> None:
        """Writes a line, in a unit with its priority for the journal."""
        prefix = (priority if "JOURNAL_STREAM" in os.environ else "") if words.unit else "enogate-port: "
        # without a journal the gateway runs on
        with contextlib.suppress(OSError):
            print(f"{prefix}{text}", file=sys.stderr, flush=True)

    starter = PortStarter(words, say)
    if words.unit:
        return run_unit(words, starter, say)
    try:
        port = starter.prepare_port()
    except ports.PortError as error:
        print(f"enogate-port: {error}", file=sys.stderr)
        return 1
    except KeyboardInterrupt:
        return 130
    if words.base_id:
        print(starter.base)
        return 0
    return run_in_place(starter.command(), port)


def run_unit(words: argparse.Namespace, starter: PortStarter, say) -> int:
    """Prepares the files for a start of the unit, or runs the gateway. A unit with a mistyped name does neither.
    Its main process reports that: systemd does not look at the status of another one when it decides on a restart."""
    folder, name = os.path.split(words.unit)
    # Another directory is that of a gateway without a unit.
    if folder == gateways.RUNTIME_FOLDER and (reason := gateways.why_not_among(name,
                                                                               sorted(gateways.startable_names()))):
        if not words.clean:
            say(WARNING, reason)
        return 0 if words.clean else 2
    try:
        if not words.clean:
            return Unit(words.port, words.unit, words.lines, starter, say).run()
        desk.make_empty(os.path.join(words.unit, "desk"))
    except OSError as error:
        say(WARNING, f"{error.filename}: {error.strerror}")
        return 1
    try:
        lines.repair_file(words.lines, say)
    except OSError as error:
        # the gateway runs while its lines cannot be stored, so it starts, too
        say(WARNING, f"{words.lines}: {error.strerror}")
    return 0
