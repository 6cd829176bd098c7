"""Runs the commands that another program requests, such as the page in Cockpit, so that Python does not start for each
of them.

A request is a line of JSON on standard input. It has an `id`, which is a number of the other program's choice:

    {"id": 7, "arguments": ["--json", "hall", "--", "list"]}    runs the command `enogatectl --json hall -- list`
    {"id": 7, "stop": true}                                     ends this command, as the signal SIGTERM does

The commands `lines`, `watch`, `devices --import`, `devices --plan` and `--serve` cannot be requested. Each command runs
in a forked process of its own, with the locks and rights that it always has. When it has ended, its answer is a line on
standard output:

    {"error":"","id":7,"output":"{\\"count\\":0,\\"type\\":\\"list\\"}\\n","status":0}

`output` and `error` are what it wrote to its standard output and error, `status` is its exit status. The program ends
all commands, and itself, at the end of standard input with status 0, after an invalid request with status 2, and also
if a signal stops it."""
from __future__ import annotations

import gc
import importlib
import json
import os
import select
import signal
import sys
import traceback
from collections.abc import Callable, Iterable
from dataclasses import dataclass, field

from .command_line import ComparePlan, FollowLines, ImportDevices, Serve, parsed
from .main import carry_out, report_failure
from .stops import SIGNALS, Stopped, StopSignals, block_signals, restore_default_handlers

OK, FAILED, INVALID = 0, 1, 2
# The modules that commands of the page import only if they need them. They are imported before the first fork, so that
# none of these commands has to do it.
PRELOADED_MODULES = ("enogate_ctl.base", "enogate_ctl.device_table", "enogate_ctl.labels", "enogate_ctl.plan",
                     "enogate_ctl.recorded", "enogate_ctl.replacing", "enogate_ctl.running", "enogate_ctl.sheet",
                     "enogate_ctl.shown", "enogate_ctl.window", "enogate_lines.decimals", "enogate_tools.port")
# A command line that is only parsed.
WARM_UP_ARGUMENTS = ["--json", "hall", "--", "status"]
# How much is read at once, the length of the longest request, and how much of a bad one is shown, in bytes.
BLOCK, MAX_REQUEST_BYTES, SHOWN_OF_A_LINE = 1 << 16, 1 << 16, 60


class InvalidRequest(ValueError):
    """A line is no request. The text says why."""


@dataclass
class RunningCommand:
    """A running command, and what it has written, by the descriptors from which this is read."""
    number: int
    process: int
    written: dict[int, bytearray] = field(default_factory=dict)


def serve(requests: int, answers: int, stops: StopSignals) -> int:
    """Runs the commands that are requested at the first descriptor, and answers them at the second one. Returns the
    exit status. If nobody reads the last answers, a signal ends the wait for that."""
    # The program that started this one may ignore this signal. The system would then drop the exit statuses.
    signal.signal(signal.SIGCHLD, signal.SIG_DFL)
    server, status = Server(answers, run), OK
    try:
        try:
            server.serve(requests)
        except InvalidRequest as error:
            status = report_failure(str(error), INVALID)
        server.end()
    except Stopped as stopped:
        status = stopped.status
    finally:
        server.is_read = False
        stops.ignore()
        server.end()
    return status


def run(arguments: list[str]) -> int:
    """Runs a command, and returns its exit status."""
    try:
        command = parsed(arguments)
        if isinstance(command, ImportDevices | ComparePlan | Serve | FollowLines):
            return report_failure("this command cannot be requested", INVALID)
        return carry_out(command)
    except SystemExit as end:
        return end.code if isinstance(end.code, int) else OK


class Server:
    """The running commands. Their answers are written to `answers`, as long as somebody reads them. `run` runs a
    command in its forked process."""

    def __init__(self, answers: int, run: Callable[[list[str]], int]):
        self.answers, self.run, self.is_read = answers, run, True
        self.running: dict[int, RunningCommand] = {}
        # the commands by the descriptors from which their output is read
        self.sources: dict[int, RunningCommand] = {}
        self.rest = b""

    def serve(self, requests: int) -> None:
        """Handles the requests up to their end, or raises InvalidRequest."""
        for name in PRELOADED_MODULES:
            importlib.import_module(name)
        # What argparse loads and compiles for its first command line takes longer than the rest of a command.
        parsed(WARM_UP_ARGUMENTS)
        # A garbage collection in a forked process then copies none of these objects.
        gc.freeze()
        while self.is_read:
            for source in wait_until_readable([requests, *self.sources]):
                if source != requests:
                    self.read_output(source)
                elif not self.handle_requests(read_requests(requests)):
                    return

    def end(self) -> None:
        """Ends all commands."""
        for number in self.running:
            self.stop(number)
        while self.sources:
            for source in wait_until_readable(self.sources):
                self.read_output(source)

    def handle_requests(self, added: bytes) -> bool:
        """Handles the requests that these bytes complete. No bytes are the end of the input: this returns False."""
        *lines, self.rest = (self.rest + added).split(b"\n")
        if max(map(len, (*lines, self.rest))) > MAX_REQUEST_BYTES:
            raise InvalidRequest(f"a request has more than {MAX_REQUEST_BYTES} bytes")
        for line in lines:
            self.handle_request(line)
        return added != b""

    def handle_request(self, line: bytes) -> None:
        """Handles a request."""
        number, arguments = parse_request(line)
        if arguments is None:
            # A command that has ended meanwhile is already answered.
            self.stop(number)
        elif number in self.running:
            raise InvalidRequest(f"the command {number} has not ended")
        else:
            self.start(number, arguments)

    def start(self, number: int, arguments: list[str]) -> None:
        """Starts a command. If the system refuses this, the answer says so."""
        try:
            self.fork_command(number, arguments)
        except OSError as error:
            self.write_answer(number, "", f"enogatectl: the command cannot be started: {error.strerror}\n", FAILED)

    def fork_command(self, number: int, arguments: list[str]) -> None:
        """Starts a command, or raises OSError."""
        pipes: list[tuple[int, int]] = []
        with block_signals():
            try:
                pipes.append(os.pipe())
                pipes.append(os.pipe())
                process = os.fork()
            except OSError:
                for file in sum(pipes, ()):
                    os.close(file)
                raise
            if process == 0:
                self.run_in_fork(pipes, arguments)
            self.running[number] = running = RunningCommand(number, process)
            for reading, writing in pipes:
                os.close(writing)
                running.written[reading] = bytearray()
                self.sources[reading] = running

    def run_in_fork(self, pipes: list[tuple[int, int]], arguments: list[str]) -> None:
        """Runs a command in a forked process, with these pipes for its output and errors, and ends the process. No
        exception leaves this method: the process would go on as the server, and end the other commands."""
        status = FAILED
        try:
            restore_default_handlers()
            signal.pthread_sigmask(signal.SIG_UNBLOCK, SIGNALS)
            nothing = os.open(os.devnull, os.O_RDONLY)
            for number, file in enumerate([nothing, *(writing for _, writing in pipes)]):
                os.dup2(file, number)
            for file in (nothing, *sum(pipes, ()), *self.sources):
                os.close(file)
            status = self.run(arguments)
            sys.stdout.flush()
        except BaseException:
            traceback.print_exc()
        finally:
            try:
                sys.stderr.flush()
            finally:
                os._exit(status)

    def stop(self, number: int) -> None:
        """Ends a command, if it runs."""
        if number in self.running:
            os.kill(self.running[number].process, signal.SIGTERM)

    def read_output(self, source: int) -> None:
        """Reads what a command has written. If this was all, the command is answered."""
        with block_signals():
            running = self.sources[source]
            added = os.read(source, BLOCK)
            running.written[source] += added
            if added:
                return
            os.close(source)
            del self.sources[source]
            if self.sources.keys() & running.written.keys():
                return
            _, status = os.waitpid(running.process, 0)
            del self.running[running.number]
        output, error = (text.decode("utf-8", "replace") for text in running.written.values())
        self.write_answer(running.number, output, error, exit_status(status))

    def write_answer(self, number: int, output: str, error: str, status: int) -> None:
        """Answers a command that has ended."""
        members = {"error": error, "id": number, "output": output, "status": status}
        line = json.dumps(members, separators=(",", ":")).encode() + b"\n"
        try:
            while line and self.is_read:
                line = line[os.write(self.answers, line):]
        except ConnectionError:
            self.is_read = False


def read_requests(requests: int) -> bytes:
    """The bytes that have come; none at the end of the input."""
    try:
        return os.read(requests, BLOCK)
    except ConnectionResetError:
        # The other end of a socket was closed before the answers in it were read.
        return b""


def parse_request(line: bytes) -> tuple[int, list[str] | None]:
    """The number and the arguments of a request; no arguments if it ends a command."""
    try:
        match json.loads(line.decode("ascii")):
            case {"id": bool()}:
                pass
            case {"id": int(number), "arguments": list(words), **rest}:
                if not rest and all(isinstance(word, str) for word in words):
                    return number, words
            case {"id": int(number), "stop": True, **rest}:
                if not rest:
                    return number, None
    except (ValueError, RecursionError):
        pass
    raise InvalidRequest(f"not a request: {line[:SHOWN_OF_A_LINE]!r}")


def wait_until_readable(sources: Iterable[int]) -> list[int]:
    """Those of these descriptors that can be read. Waits until there is one."""
    poll = select.poll()
    for source in sources:
        poll.register(source, select.POLLIN)
    return [source for source, _ in poll.poll()]


def exit_status(status: int) -> int:
    """The exit status of a process, as a shell shows it."""
    code = os.waitstatus_to_exitcode(status)
    return 128 - code if code < 0 else code
