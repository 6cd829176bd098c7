"""The main process of the unit of a gateway: waits for the port, runs the gateway, stores its lines, and watches it."""
from __future__ import annotations

import os
import re
import select
import signal
import stat
import subprocess
import time
from collections.abc import Callable
from typing import Protocol

from . import desk, port as ports
from .lines import NOTICE, WARNING, LineStore
from .system import Process, System, is_same_file
from .watch import RestartPauses, Sample, Watch

# How often it looks at the gateway, in seconds.
LOOK_PAUSE = 1.0
# After so many looks a gateway that does not end is killed.
KILLED_AFTER = 10
# The pause before a start after a fault of the program, in seconds: the first one, which then doubles, and the longest
# one. After a run of LONG_RUN seconds, the first one applies again.
FIRST_WAIT, MAX_WAIT, LONG_RUN = 2.0, 60.0, 600.0
READ_SIZE = 1 << 16
# The line of a module's response with its base ID: no other response to an order has four bytes of data. Lines are
# searched for it, and not parsed: see lines.PACKET.
BASE_REPORT_PATTERN = re.compile(rb'^\{"code":0,"data":"([0-9A-F]{8})","name":"OK","type":"response"\}$', re.MULTILINE)


class StarterOfUnit(Protocol):
    """Prepares a start of the gateway: enogate_tools.start.PortStarter."""

    def wait_for_port(self) -> int:
        """Waits for the port, and returns it."""

    def command(self) -> list[str]:
        """The command of the gateway, once the base ID is known."""

    def warn_of_other_base(self, reported_base: str) -> None:
        """The module has reported this base ID."""

    def discard_unsent(self) -> None:
        """The unit ends, perhaps while a port is being prepared."""


class Unit:
    """Runs a gateway at a port with this path, with its desk in a folder and its lines in a file."""

    def __init__(self, path: str, folder: str, lines: str, starter: StarterOfUnit, say: Callable[[str, str], None],
                 look_pause: float = LOOK_PAUSE, clock: Callable[[], float] = time.monotonic,
                 sleep: Callable[[float], None] = time.sleep):
        self.path, self.folder, self.starter = path, folder, starter
        self.say, self.look_pause, self.clock, self.sleep = say, look_pause, clock, sleep
        self.desk = os.path.join(folder, "desk")
        self.lines = LineStore(lines, say)
        self.pauses, self.start_wait = RestartPauses(), FIRST_WAIT / 2
        self.gateway: subprocess.Popen[bytes] | None = None
        self.is_stopped = False

    def run(self) -> int:
        """Runs the gateway until its turns are over, its stick is unplugged, or a signal stops it, and returns its exit
        status. After a fault it is started again. It reads the desk from its beginning, so the desk is emptied."""
        signal.signal(signal.SIGTERM, self.stop)
        try:
            while (status := self.run_gateway()) is None:
                desk.make_empty(self.desk)
        finally:
            self.close()
        return status

    def run_gateway(self) -> int | None:
        """Runs the gateway once. Returns the exit status of the unit, or None if it is to be started again."""
        port, command, start_time = self.starter.wait_for_port(), self.starter.command(), self.clock()
        try:
            # SIGXFSZ and SIGPIPE stay ignored: a write that fails is an error of the gateway, which it reports
            self.gateway = subprocess.Popen(command, stdout=subprocess.PIPE, restore_signals=False)
        except OSError as error:
            self.say("", f"{command[0]} cannot be run: {error.strerror}")
            # systemd does not start the unit again after 127, but memory may be free later
            return 127 if isinstance(error, (FileNotFoundError, PermissionError)) else 1
        fault = GatewayRun(self, self.gateway, port).follow()
        status, self.gateway = self.gateway.wait(), None
        is_unplugged, node = ports.is_hung_up(port), os.fstat(port)
        ports.close_port(port)
        if self.is_stopped:
            self.end_stopped()
        if fault:
            self.say(WARNING, f"{fault}; the gateway is started again")
            return None
        if not self.log_end(status, is_unplugged, node):
            return status if status >= 0 else 128 - status
        self.log_fault_cause()
        self.sleep_before_start(self.clock() - start_time)
        return None

    def stop(self, *_: object) -> None:
        """The unit is stopped. systemd sends the signal to the gateway, too."""
        self.is_stopped = True
        if self.gateway is None:
            self.end_stopped()
        else:
            self.gateway.terminate()

    def end_stopped(self) -> None:
        """Ends the unit, which is stopped."""
        self.starter.discard_unsent()
        self.close()
        end_by_signal(signal.SIGTERM)

    def close(self) -> None:
        """Stores the lines that wait. A signal that came meanwhile would store them twice."""
        signal.signal(signal.SIGTERM, signal.SIG_IGN)
        self.lines.close()

    def log_end(self, status: int, is_unplugged: bool, node: os.stat_result) -> bool:
        """Logs why the gateway has ended. Returns whether its program reported a fault for another reason."""
        try:
            node_status = os.stat(self.path)
        except OSError:
            node_status = None
        if is_unplugged or node_status is None or not stat.S_ISCHR(node_status.st_mode):
            reconnection = (" and plugged in again" if node_status and stat.S_ISCHR(node_status.st_mode)
                            and not is_same_node(node_status, node) else "")
            self.say(NOTICE, f"the stick at {self.path} was unplugged{reconnection}")
            return False
        if status == 0:
            turn_count = os.environ.get("TURNS", "its")
            self.say(NOTICE, f"exited after {turn_count} read cycles (TURNS), with the stick plugged in")
        return status == 1

    def log_fault_cause(self) -> None:
        """Looks for the cause of a fault."""
        name = os.path.basename(self.folder)
        if run_enogate_check(name) == 0:
            self.say(NOTICE, f"no cause found; more is checked by: sudo enogate-check {name}")

    def sleep_before_start(self, run_seconds: float) -> None:
        """Waits before the next start, after a run of so many seconds that ended with a fault."""
        self.start_wait = FIRST_WAIT if run_seconds >= LONG_RUN else min(2 * self.start_wait, MAX_WAIT)
        self.say(NOTICE, f"the gateway is started again in {self.start_wait:.0f} s")
        self.sleep(self.start_wait)


class GatewayRun:
    """One run of the gateway."""

    def __init__(self, unit: Unit, gateway: subprocess.Popen[bytes], port: int):
        self.unit, self.gateway, self.port = unit, gateway, port
        self.watch = Watch(unit.path, "--explain" in unit.starter.command())
        self.system = System()
        # why it is ended, and at how many looks since then it still ran
        self.fault, self.looks_since_end = "", -1

    def follow(self) -> str:
        """Stores the lines of the gateway until it has ended. Returns why it was ended; empty if it was not."""
        assert self.gateway.stdout
        lines, output = self.unit.lines, self.gateway.stdout.fileno()
        poll = select.poll()
        poll.register(output, select.POLLIN)
        # reports only whether it is hung up
        poll.register(self.port, 0)
        looked_at = self.unit.clock()
        while True:
            seconds_left = looked_at + self.unit.look_pause - self.unit.clock()
            for file, _ in poll.poll(max(0.0, seconds_left * 1000)):
                if file == self.port:
                    # reads would now return at once, without data, until all turns are over
                    poll.unregister(self.port)
                    self.end()
                elif text := os.read(output, READ_SIZE):
                    for report in BASE_REPORT_PATTERN.finditer(lines.add(text)):
                        self.unit.starter.warn_of_other_base(report[1].decode())
                else:
                    lines.drop_unended()
                    self.gateway.stdout.close()
                    return self.fault
            lines.store()
            if seconds_left <= 0:
                looked_at = self.unit.clock()
                self.look(looked_at)

    def look(self, now: float) -> None:
        """Looks at the gateway, and ends it if it does not work."""
        if self.looks_since_end >= 0:
            self.looks_since_end += 1
            if self.looks_since_end == KILLED_AFTER:
                self.gateway.kill()
            return
        fault = self.watch.fault_at(self.take_sample())
        if fault and self.unit.pauses.take_restart(now):
            self.fault = fault
            self.end()

    def end(self) -> None:
        self.looks_since_end = 0
        self.gateway.terminate()

    def take_sample(self) -> Sample:
        """The gateway as it is now."""
        process = Process(self.gateway.pid, "enogate")
        read_calls, bytes_read = self.system.read_counts(process)
        try:
            desk = os.stat(self.unit.desk)
        except OSError:
            desk = None
        files = self.system.open_files(process) or []
        read_files = (file for file in files if desk and file.is_read_only)
        offset = next((file.offset for file in read_files if is_same_file(file.status, desk)), 0)
        return Sample(read_calls, None if bytes_read is None else bytes_read - offset, self.unit.lines.count,
                      self.unit.lines.packet_count, offset, desk.st_size - offset if desk else 0,
                      ports.unsent_bytes(self.port))


def is_same_node(status: os.stat_result, other_status: os.stat_result) -> bool:
    """Whether these are the same device node. A stick that is plugged in again gets another one."""
    return (status.st_dev, status.st_ino) == (other_status.st_dev, other_status.st_ino)


def end_by_signal(signal_number: int) -> None:
    """Ends this process by a signal, as systemd expects it of a unit that it stops."""
    signal.signal(signal_number, signal.SIG_DFL)
    os.kill(os.getpid(), signal_number)


def run_enogate_check(name: str) -> int:
    """Looks for the cause of a fault. Returns 0 if none was found."""
    try:
        return subprocess.run(["enogate-check", "--quiet", name], stdin=subprocess.DEVNULL, stdout=2, check=False
                              ).returncode
    except OSError:
        return 1
