"""The command line of enogatectl."""
from __future__ import annotations

import argparse
import contextlib
import math
import re
from collections.abc import Sequence
from typing import NamedTuple, NoReturn

from enogate_tools import VERSION
from enogate_tools.desk import opens_window
from enogate_tools.gateways import InvalidName, Paths, paths_of

from . import grammar

TIMEOUT = 10.0
# How long a command at a terminal waits for what the device reports after an order, by the first word of the order, in
# seconds. Devices answer at once. A blind reports when it stands still: a full run takes a tall one a minute, or more
# with a slow motor.
REPORT_TIMEOUT, BLIND_REPORT_TIMEOUT = 3.0, 120.0
REPORT_TIMEOUTS = {**dict.fromkeys(("switch", "dim", "query", "meter", "stop"), REPORT_TIMEOUT),
                   "blind": BLIND_REPORT_TIMEOUT}
USAGE = """enogatectl [--timeout SECONDS] [--wait SECONDS|--no-wait] [--json] [--desk PATH] [--lines PATH] GATEWAY
                  ORDER..
       enogatectl [..] GATEWAY learn on|on answer|as EEP --for SECONDS
       enogatectl [..] GATEWAY devices [--plan] [--export | --import [--dry-run]]
       enogatectl [..] GATEWAY lines|watch
       enogatectl [..] GATEWAY replace OLD NEW [EEP]
       enogatectl [..] GATEWAY backup [DIRECTORY]
       enogatectl help [ORDER|COMMAND]
       enogatectl base PORT
       enogatectl paths
       enogatectl --serve"""
# The options that not all commands have, by the names of their values.
OPTIONS = {"json": "json", "seconds": "for", "exports": "export", "imports": "import", "plan": "plan",
           "dry_run": "dry-run", "desk": "desk", "lines": "lines",
           "wait": "wait", "no_wait": "no-wait"}
EPILOG = ("GATEWAY is the name of a gateway, for example `hall` for enogate@hall.service. ORDER is one of: "
          f"{', '.join(grammar.FORMS_BY_VERB)}. Words after -- are part of the order, even if they begin with -. "
          "The exit status is 0 if the order was carried out, 1 if the gateway refused it or it failed, 2 if the "
          "command line is invalid, 3 if the gateway does not run or did not answer in time, and 4 if the device "
          "reported nothing. See enogatectl(1).")


class AskBase(NamedTuple):
    """Asks the radio module at this port for its base ID."""
    port: str


class ShowPaths(NamedTuple):
    """Prints where the files of the gateways are."""


class ShowHelp(NamedTuple):
    """Prints the forms of the orders, or of those with this first word, or the usage of this command."""
    verb: str


class GiveOrder(NamedTuple):
    """Gives an order to a gateway. With `seconds`, it opens the learn window for this time. It waits for the report of
    the device as long as `wait` says: None is the default. With a label, `order` has the word ID in place of the ID of
    the device with this label."""
    paths: Paths
    timeout: float
    is_json: bool
    order: str
    seconds: float | None
    wait: float | None = None
    label: str = ""


class ExportDevices(NamedTuple):
    """Writes the devices of a gateway as CSV, with the other columns of a plan if one is on standard input."""
    paths: Paths
    timeout: float
    has_plan: bool = False


class ImportDevices(NamedTuple):
    """Learns the devices of a CSV file, or prints what it would do."""
    paths: Paths
    timeout: float
    is_dry_run: bool = False


class ComparePlan(NamedTuple):
    """Compares the plan on standard input with the devices of a gateway as its lines record them."""
    paths: Paths


class ReplaceDevice(NamedTuple):
    """Learns the device `new` in place of the one with the ID or label `old`, with its profile or with `eep`."""
    paths: Paths
    timeout: float
    old: str
    new: str
    eep: str = ""


class BackUp(NamedTuple):
    """Writes a backup of the gateway `name` to a directory."""
    paths: Paths
    timeout: float
    name: str
    folder: str = "/var/backups/enogate"


class ShowDevices(NamedTuple):
    """Prints the devices of a gateway as its lines record them."""
    paths: Paths
    is_json: bool


class FollowLines(NamedTuple):
    """Prints the lines of a gateway, also those that are written later; or for people the readings as they come."""
    paths: Paths
    are_for_people: bool


class Serve(NamedTuple):
    """Runs the commands that another program requests."""


OrderCommand = GiveOrder | ExportDevices | ImportDevices | ReplaceDevice | BackUp
Command = AskBase | ShowPaths | ShowHelp | Serve | OrderCommand | ShowDevices | ComparePlan | FollowLines


def seconds_of(text: str) -> float:
    """A time in seconds, which is greater than 0."""
    with contextlib.suppress(ValueError):
        seconds = float(text)
        if 0 < seconds < math.inf:
            return seconds
    raise argparse.ArgumentTypeError(f"{text!r} is not a number of seconds greater than 0")


# The beginning of argparse's message about unknown words.
UNRECOGNIZED = "unrecognized arguments: "


class Parser(argparse.ArgumentParser):
    """A parser that prints one line if the command line is invalid."""

    def error(self, message: str) -> NoReturn:
        """Ends the program with status 2."""
        from .words import printable
        if message.startswith(UNRECOGNIZED):
            option = message.removeprefix(UNRECOGNIZED).split(" ")[0]
            known = (f"--{name}" for name in ("help", "serve", "timeout", "version", *OPTIONS.values()))
            message = f"there is no option {option}{grammar.suggestion(option, known)}"
        self.exit(2, f"enogatectl: {printable(message)}\n")


def parser() -> argparse.ArgumentParser:
    """The parser of the command line."""
    made = Parser("enogatectl", USAGE, "Give orders to an EnOcean gateway, and print the answers.", EPILOG,
                  allow_abbrev=False)
    made.add_argument("gateway", metavar="GATEWAY", help=argparse.SUPPRESS)
    made.add_argument("order", metavar="ORDER", nargs="*", help=argparse.SUPPRESS)
    made.add_argument("--timeout", metavar="SECONDS", type=seconds_of, default=TIMEOUT,
                      help=f"how long to wait for the answer (default: {TIMEOUT:g})")
    made.add_argument("--wait", metavar="SECONDS", type=seconds_of,
                      help="with an order to a device: how long to wait until it reports what it did (default at a "
                      f"terminal: {REPORT_TIMEOUT:g}, for a blind {BLIND_REPORT_TIMEOUT:g}; otherwise no wait)")
    made.add_argument("--no-wait", action="store_true", help="do not wait for that")
    made.add_argument("--json", action="store_true", help="print the lines of the answer as they are")
    made.add_argument("--desk", metavar="PATH", help="desk of a gateway without a unit")
    made.add_argument("--lines", metavar="PATH", help="output lines of a gateway without a unit")
    made.add_argument("--for", metavar="SECONDS", type=seconds_of, dest="seconds",
                      help="with `learn`: close the learn window after this time, or if interrupted; print what is "
                      "taught meanwhile")
    made.add_argument("--export", action="store_true", dest="exports",
                      help="with `devices`: print the learned devices as CSV (id,eep,label)")
    made.add_argument("--import", action="store_true", dest="imports",
                      help="with `devices`: learn and label the devices of a CSV file, from standard input")
    made.add_argument("--dry-run", action="store_true", help="with `devices --import`: print what would be done")
    made.add_argument("--plan", action="store_true",
                      help="with `devices`: compare the devices with those of a CSV file, from standard input; with "
                      "--export, print its other columns, too")
    made.add_argument("--serve", action="store_true",
                      help="run the commands that a program requests on standard input")
    made.add_argument("--version", action="version", version=f"enogatectl {VERSION}")
    return made


def parsed(arguments: Sequence[str]) -> Command:
    """The command of this command line. If it is invalid, the program ends with status 2."""
    if list(arguments) == ["--serve"]:
        return Serve()
    made = parser()
    end = arguments.index("--") if "--" in arguments else len(arguments)
    # Options may come between the words of an order.
    words = made.parse_intermixed_args(arguments[:end])
    words.order += arguments[end + 1:]
    return CommandLine(made, words).command()


class CommandLine:
    """The words of a command line, which may not fit together."""

    def __init__(self, made: argparse.ArgumentParser, words: argparse.Namespace):
        self.parser, self.words = made, words

    def fail(self, message: str) -> NoReturn:
        """Ends the program with status 2."""
        self.parser.error(message)

    def command(self) -> Command:
        """The command."""
        words = self.words
        if words.serve:
            self.fail("--serve cannot be used with other words")
        if words.gateway == "base" and len(words.order) == 1 and "/" in words.order[0]:
            self.allow("base")
            return AskBase(words.order[0])
        if words.gateway == "paths" and not words.order:
            self.allow("paths")
            return ShowPaths()
        if words.gateway == "help" and len(words.order) < 2:
            return self.help(*words.order)
        if words.order[:1] == ["help"] and len(words.order) < 3:
            return self.help(*words.order[1:])
        if words.order == ["devices"]:
            return self.devices()
        if words.order in (["lines"], ["watch"]):
            self.allow(words.order[0], "desk", "lines")
            return FollowLines(self.paths(), words.order == ["watch"])
        if words.order[:1] == ["backup"] and len(words.order) < 3:
            self.allow("backup", "desk", "lines")
            return BackUp(self.paths(), words.timeout, words.gateway, *words.order[1:])
        if words.order[:1] == ["replace"]:
            return self.replace(*words.order[1:])
        if hint := self.hint():
            self.fail(hint)
        self.allow("an order", "desk", "lines", "json", "seconds", "wait", "no_wait")
        try:
            order, label = grammar.order_and_label(words.order)
        except grammar.InvalidOrder as error:
            self.fail(str(error) if any(words.order) else "an order is required")
        if words.seconds is not None and not opens_window(order.encode()):
            self.fail("--for needs an order that opens the learn window: learn on, learn on answer, or learn as EEP")
        return GiveOrder(self.paths(), words.timeout, words.json, order, words.seconds, self.wait(order), label)

    def wait(self, order: str) -> float | None:
        """How long the order waits for the report of its device; None if this is not set."""
        words = self.words
        if words.wait and words.no_wait:
            self.fail("--wait and --no-wait cannot be used together")
        if words.wait and order.split(" ")[0] not in REPORT_TIMEOUTS:
            self.fail(f"--wait needs an order after which a device reports something: {', '.join(REPORT_TIMEOUTS)}")
        return 0.0 if words.no_wait else words.wait

    def hint(self) -> str:
        """What to write instead, if the name of the gateway or the path of the port is missing, or a file name is too
        much; otherwise empty."""
        first, others = self.words.gateway, self.words.order
        if others[:1] == ["devices"]:
            return "devices takes no file name: append <FILE to the command"
        if first not in (*grammar.FORMS_BY_VERB, *grammar.COMMANDS) or (others and others[0] in grammar.FORMS_BY_VERB):
            return ""
        if first == "base" and others:
            return ("base needs the path of a serial port, such as /dev/enocean; give the order as: enogatectl GATEWAY "
                    "base")
        return f"the name of the gateway comes first: enogatectl GATEWAY {first} .."

    def help(self, verb: str = "") -> Command:
        """The command `help`."""
        self.allow("help", "desk", "lines")
        if verb and verb not in (*grammar.FORMS_BY_VERB, *grammar.COMMANDS):
            self.fail(str(grammar.invalid_order(verb)))
        return ShowHelp(verb)

    def devices(self) -> Command:
        """The command `devices`."""
        self.allow("devices", "desk", "lines", "json", "exports", "imports", "plan", "dry_run")
        words = self.words
        if words.exports and words.imports:
            self.fail("--export and --import cannot be used together")
        if words.imports:
            self.allow("devices --import", "desk", "lines", "imports", "dry_run")
            return ImportDevices(self.paths(), words.timeout, words.dry_run)
        self.allow("devices without --import", "desk", "lines", "json", "exports", "plan")
        if words.exports:
            self.allow("devices --export", "desk", "lines", "exports", "plan")
            return ExportDevices(self.paths(), words.timeout, words.plan)
        if words.plan:
            self.allow("devices --plan", "desk", "lines", "plan")
            return ComparePlan(self.paths())
        return ShowDevices(self.paths(), words.json)

    def replace(self, *words: str) -> Command:
        """The command `replace`."""
        self.allow("replace", "desk", "lines")
        one = grammar.ID_PATTERN
        shape = f"(?:{one}|{grammar.PATTERNS['TEXT']})\0{one}(?:\0{grammar.EEP_PATTERN})?"
        if not re.fullmatch(shape, "\0".join(words)) or words[0].upper() == words[1].upper():
            self.fail("the form is replace OLD NEW [EEP]: OLD is the ID or the label of a device, and NEW another ID")
        old = words[0].upper() if re.fullmatch(one, words[0]) else words[0]
        return ReplaceDevice(self.paths(), self.words.timeout, old, *map(str.upper, words[1:]))

    def paths(self) -> Paths:
        """The files of the gateway."""
        try:
            paths = paths_of(self.words.gateway)
        except InvalidName as error:
            self.fail(str(error))
        if (self.words.desk is None) != (self.words.lines is None):
            self.fail("--desk and --lines must be used together")
        return Paths(self.words.desk, self.words.lines, paths.bridge) if self.words.desk is not None else paths

    def allow(self, where: str, *options: str) -> None:
        """Fails if another option than these and --timeout was given."""
        for option, name in OPTIONS.items():
            if option not in options and getattr(self.words, option) not in (None, False):
                self.fail(f"--{name} cannot be used with {where}")
