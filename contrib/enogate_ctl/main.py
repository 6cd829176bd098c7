"""The program: carries out the command of its command line. Each command imports only the modules that it needs,
because the imports take longer than an order."""
from __future__ import annotations

import contextlib
import os
import sys
import time
from collections.abc import Sequence

from enogate_lines.contents import Listed
from enogate_tools import files
from enogate_tools.gateways import Paths, all_paths, why_unknown

from .answers import Answer
from .command_line import REPORT_TIMEOUT, REPORT_TIMEOUTS, AskBase, BackUp, Command, ComparePlan, ExportDevices
from .command_line import FollowLines, GiveOrder, ImportDevices, OrderCommand, ReplaceDevice, Serve
from .command_line import ShowHelp, ShowPaths, parsed
from .client import LONG_PAUSE, Client, NoAnswer, UnreadableLines
from .grammar import BASE_ORDER, InvalidOrder, order_with_id
from .stops import Stopped, StopSignals

OK, REFUSED, INVALID, SILENT, UNREPORTED = 0, 1, 2, 3, 4


class CommandFailed(Exception):
    """The gateway refused the order, or the command failed. The text says why."""


# The exit status of each failure.
STATUSES = {CommandFailed: REFUSED, UnreadableLines: REFUSED, InvalidOrder: INVALID, NoAnswer: SILENT}


def main(arguments: Sequence[str] | None = None) -> int:
    """Runs the program, and returns its exit status."""
    return carry_out(parsed(list(sys.argv[1:] if arguments is None else arguments)))


def carry_out(command: Command) -> int:
    """Carries out a command, prints why it failed if it did, and returns the exit status."""
    stops = StopSignals()
    try:
        stops.install()
        status = run(command, stops)
        sys.stdout.flush()
        return status or OK
    except tuple(STATUSES) as error:
        return report_failure(str(error), next(status for kind, status in STATUSES.items() if isinstance(error, kind)))
    except Stopped as stopped:
        return stopped.status
    except BrokenPipeError:
        # Nobody reads the rest.
        drop_output()
        return OK
    except OSError as error:
        # The modules handle the errors of all other files.
        drop_output()
        return report_failure(f"standard input or output failed: {error.strerror}", REFUSED)


def drop_output() -> None:
    """What standard output has buffered is not written, not even at the end of the interpreter."""
    os.dup2(os.open(os.devnull, os.O_WRONLY), sys.stdout.fileno())


def report_failure(why: str, status: int) -> int:
    """Prints the reason of a failure, and returns the status."""
    from .words import printable
    print(f"enogatectl: {printable(why)}", file=sys.stderr)
    return status


def run(command: Command, stops: StopSignals) -> int | None:
    """Carries out a command, and returns the exit status; None if the command has succeeded."""
    match command:
        case Serve():
            from .serve import serve
            return serve(sys.stdin.fileno(), sys.stdout.fileno(), stops)
        case AskBase(port):
            return print_module_base(port)
        case ShowPaths():
            return show_paths()
        case ShowHelp(verb):
            from .shown import forms
            print(forms(verb))
            return OK
    become_gateway_user(command.paths)
    if isinstance(command, OrderCommand):
        return ask_gateway(command, stops)
    if why := why_unknown(command.paths):
        raise UnreadableLines(why)
    match command:
        case ComparePlan(paths):
            return compare_plan(paths)
        case FollowLines(paths, are_for_people):
            return print_readings(paths) if are_for_people else print_lines(paths)
    return print_devices(*command)


def ask_gateway(command: OrderCommand, stops: StopSignals) -> int | None:
    """Carries out a command that gives orders, if the gateway runs, and returns the exit status."""
    if command.paths.name:
        from .running import System, why_not_running
        if why := why_not_running(command.paths, System()):
            raise NoAnswer(why)
    client = Client(command.paths, command.timeout)
    if isinstance(command, GiveOrder) and command.seconds is not None:
        return open_window(client, command, stops)
    askers = {ExportDevices: export_devices, ImportDevices: import_devices, ReplaceDevice: replace_device,
              BackUp: back_up, GiveOrder: give_order}
    return askers[type(command)](client, command)


def become_gateway_user(paths: Paths) -> None:
    """As root, takes on the rights of the user of the gateway, or raises NoAnswer."""
    folders = [os.path.dirname(path) for path in (paths.desk, paths.lines)]
    try:
        files.become_owner(*folders)
    except OSError as error:
        raise NoAnswer(f"the rights of the owner of {folders[0]} cannot be taken on: {error.strerror}") from error


def give_order(client: Client, command: GiveOrder) -> int | None:
    """Gives an order, and prints its answer."""
    if command.label:
        command = command._replace(order=order_with_id(command.order, id_with_label(command.label, client)))
    if seconds := seconds_to_wait(command):
        return give_and_wait(client, command, seconds)
    if command.order == BASE_ORDER:
        from .base import ask_base
        answer = ask_base(client)
    else:
        answer = client.ask(command.order)
    return print_answer(answer, command)


def id_with_label(label: str, client: Client) -> str:
    """The ID of the device with this label. Asks the gateway for the devices if the lines do not record all labels."""
    from . import labels
    listed = labels.listed_devices(client)
    return labels.id_of_label(label, require_success(client.ask("list")).devices if listed is None else listed)


def print_answer(answer: Answer, command: GiveOrder) -> None:
    """Prints an answer, or raises CommandFailed if it is an error."""
    if command.is_json:
        for line in answer.lines:
            print(line.raw.decode("ascii"))
    require_success(answer)
    if not command.is_json:
        print(answer_text(answer, command.paths))


def seconds_to_wait(command: GiveOrder) -> float:
    """How long to wait for what the device reports after the order."""
    if command.wait is not None:
        return command.wait
    seconds = REPORT_TIMEOUTS.get(command.order.split(" ")[0], 0.0)
    return seconds if seconds and sys.stdout.isatty() else 0.0


def give_and_wait(client: Client, command: GiveOrder, seconds: float) -> int:
    """Gives an order, and prints what the device reports after it in place of `ok`."""
    from . import report
    from .words import printable
    verb, device = command.order.split(" ")[:2]
    (answer,), lines = client.ask_and_follow([command.order])
    with contextlib.closing(lines):
        if command.is_json or answer.error:
            print_answer(answer, command)
        if command.wait is None and seconds > REPORT_TIMEOUT:
            print(f"enogatectl: sent; waiting up to {seconds:g} s until {device} reports (Ctrl-C ends the wait)",
                  file=sys.stderr)
        found = client.wait_for(lines, lambda line: report.report_in(line, command.order), client.clock() + seconds,
                                LONG_PAUSE)
    if found:
        print(found.line.decode("ascii") if command.is_json else printable(found.text))
    elif verb == "stop" and command.wait is None:
        # A blind that stood still already need not report anything.
        if not command.is_json:
            print_answer(answer, command)
    else:
        return report_failure(f"sent, but {device} reported nothing within {seconds:g} s: "
                              f"{why_silent(command)}", UNREPORTED)
    return OK


def why_silent(command: GiveOrder) -> str:
    """Why a device may have reported nothing after an order."""
    from . import recorded, report
    with contextlib.suppress(UnreadableLines):
        if found := report.missing_channel(command.order, recorded.recorded_devices(command.paths)):
            return found
    return "has it learned this gateway?"


def answer_text(answer: Answer, paths: Paths) -> str:
    """An answer, which is not an error, as text."""
    if answer.lines[-1].kind == "list":
        return device_table_text(answer.devices, paths)
    from .shown import shown
    return shown(answer)


def require_success(answer: Answer) -> Answer:
    """The answer, or CommandFailed if it is an error."""
    if answer.error:
        from .words import advice
        raise CommandFailed(advice(answer.error))
    return answer


def open_window(client: Client, command: GiveOrder, stops: StopSignals) -> None:
    """Opens the learn window for the time of the command."""
    from .window import LearnWindow
    LearnWindow(client, lambda order: require_success(client.ask(order)), print_at_once, stops,
                command.is_json).open_for(command.order, command.seconds)


def print_at_once(text: str) -> None:
    """Prints a line, also if another program reads the output."""
    from .words import printable
    print(printable(text), flush=True)


def show_paths() -> None:
    """Prints where the files of the gateways are."""
    import json
    print(json.dumps(all_paths(), separators=(",", ":"), sort_keys=True))


def print_devices(paths: Paths, is_json: bool) -> None:
    """Prints the devices as the lines record them."""
    from . import recorded
    found = recorded.recorded_devices(paths)
    for line in recorded.devices_as_json(found, paths) if is_json else [device_table_text(found, paths)]:
        print(line)


def print_lines(paths: Paths) -> None:
    """Prints the lines, and those that come."""
    from . import following
    following.print_lines(paths, sys.stdout.buffer, following.OutputReader(paths.lines, sys.stdout.buffer).wait)


def print_readings(paths: Paths) -> None:
    """Prints the readings that come, until Ctrl-C."""
    import signal
    from datetime import datetime

    from . import watching
    from .following import OutputReader
    try:
        watching.print_readings(paths, datetime.now, print_at_once, OutputReader(paths.lines, sys.stdout).wait)
    except Stopped as stopped:
        if stopped.number != signal.SIGINT:
            raise


def device_table_text(devices: Sequence[Listed], paths: Paths) -> str:
    """The table of these devices, for people. At a terminal, it has the width of the terminal."""
    from datetime import datetime, timezone

    from .device_table import device_table
    columns = os.get_terminal_size(sys.stdout.fileno()).columns if sys.stdout.isatty() else 0
    return device_table(devices, paths, datetime.now(timezone.utc), columns)


def read_sheet() -> str:
    """The CSV file on standard input."""
    if sys.stdin.isatty():
        print("enogatectl: enter the devices as CSV, and end with Ctrl-D; to read a file, append <FILE to the command",
              file=sys.stderr)
    from .sheet import decoded
    return decoded(sys.stdin.buffer.read())


def export_devices(client: Client, command: ExportDevices) -> None:
    """Prints the learned devices as CSV."""
    from .plan import export_with_plan
    from .sheet import Sheet
    sheet = Sheet(read_sheet() if command.has_plan else "")
    print(export_with_plan(require_success(client.ask("list")).devices, sheet), end="")


def import_devices(client: Client, command: ImportDevices) -> int:
    """Learns and labels the devices of the CSV file on standard input."""
    from .importing import DeviceImporter, DryRun, OrderBatches
    text = read_sheet()
    known = {device.device: device for device in require_success(client.ask("list")).devices}
    giver, would = (DryRun(known), "would be ") if command.is_dry_run else (OrderBatches(client), "")
    succeeded = DeviceImporter(known, giver.give, print_at_once, would).run(text)
    if not command.is_dry_run:
        # The lines then record the labels, if the gateway still answers.
        with contextlib.suppress(NoAnswer):
            client.ask("list")
    return OK if succeeded else REFUSED


def compare_plan(paths: Paths) -> int:
    """Prints which devices of the CSV file on standard input are learned, and which of them were heard."""
    from . import plan, recent, recorded
    from .sheet import Sheet
    devices = recorded.recorded_devices(paths)
    heard = recent.last_reports(paths.lines).keys() | recent.last_seen_times(paths.bridge, paths.lines).keys()
    found = plan.compare(Sheet(read_sheet()), devices, heard)
    print(found.text)
    return OK if found.is_complete else REFUSED


def replace_device(client: Client, command: ReplaceDevice) -> None:
    """Learns a device in place of another one, and prints what was done, and what is left to do."""
    from .replacing import missing_steps
    steps = missing_steps(command, require_success(client.ask("list")).devices)
    for order, done in steps:
        require_success(client.ask(order))
        with contextlib.suppress(OSError):
            print_at_once(done)
    print_at_once(f"{command.old} was replaced by {command.new}{'' if steps else ' already'}. If it is an actuator, "
                  "teach it this gateway. Programs that use the ID need the new one.")


def back_up(client: Client, command: BackUp) -> None:
    """Writes the devices and the settings of a gateway to a file, and prints its path."""
    from .backup import write_backup
    devices = require_success(client.ask("list")).devices
    try:
        path, has_replaced = write_backup(command.folder, command.name, devices, time.time())
    except OSError as error:
        why = filter(None, (f"the backup in {command.folder} failed", error.filename, error.strerror))
        raise CommandFailed(": ".join(why)) from error
    replaced = "; the earlier backup of this day was replaced" if has_replaced else ""
    print(f"{path}: {len(devices)} devices{replaced}")


def print_module_base(path: str) -> None:
    """Asks the radio module at this port for its base ID, and prints it."""
    from enogate_tools import port as ports
    try:
        base = ports.module_base(path)
    except ports.PortError as error:
        raise CommandFailed(str(error)) from error
    if not base:
        raise NoAnswer(ports.NO_MODULE.format(path))
    print(base)
