"""The programs between a stick and an MQTT subscriber, as `bench/latency` and `bench/idle` run them: the gateway by
itself or by the commands of its unit, a broker and a bridge. Also the tables of the two scripts."""
import contextlib
import os
import pathlib
import shutil
import signal
import sys
import tempfile
import time

from workloads import ROOT, SENDERS

sys.path.insert(0, str(ROOT / "tests/around"))

from broker import PROBE_TOPIC, Broker
from programs import Program, lines_of, wait_for
from pty_stick import Stick
from services import BASE, Bridge, Gateway

# How long an event is waited for, and the pause between two looks at a file, in seconds.
TIMEOUT = 300.0
LOOK_PAUSE = 0.00005
# How many lines of a file are shown after a fault.
SHOWN_LINES = 5
# A day of an idle gateway.
TURNS_OF_A_DAY = "864000"
# The devices that each gateway has learned.
CONTACT_ID, ACTUATOR_ID = (f"{SENDERS[0] + number:08X}" for number in range(2))
LEARN_ORDERS = (f"add {CONTACT_ID} D5-00-01", f"add {ACTUATOR_ID} D2-01-12")
# The end of the answer to the order `status`.
STATUS_MARK = b'"type":"status"'


def program_of(word):
    """The path of the program that an argument names."""
    program = shutil.which(word)
    return pathlib.Path(program).resolve() if program else sys.exit(f"{word}: not found or not executable")


def raise_priority():
    """Gives this process, and those that it will start, priority over all others if this is allowed. Returns a sentence
    about the priority."""
    try:
        os.sched_setscheduler(0, os.SCHED_FIFO, os.sched_param(1))
    except OSError as error:
        return f"All processes have the usual priority, since real-time priority is refused: {error.strerror}."
    return "All processes have real-time priority 1, as with `chrt -f 1`."


def print_row(widths, first_cell, *other_cells):
    """Prints a row of a table. All cells but the first one are numbers."""
    cells = [f"{first_cell:<{widths[0]}}", *(f"{cell:>{width}}" for cell, width in zip(other_cells, widths[1:]))]
    print("|", " | ".join(cells), "|", flush=True)


def print_head(widths, *names):
    """Prints the head of a table."""
    print_row(widths, *names)
    print_row(widths, "-" * widths[0], *("-" * (width - 1) + ":" for width in widths[1:]))


class Tail:
    """The text that is appended to a file from now on."""

    def __init__(self, path):
        self.file = open(path, "rb", buffering=0)
        self.file.seek(0, os.SEEK_END)
        self.buffer = b""

    def takes_through(self, text):
        """Whether this was appended after the place at which a text was found last. Then it ends at this place."""
        bytes_before, match, bytes_after = (self.buffer + self.file.read()).partition(text)
        # a part of the text may have come
        self.buffer = bytes_after if match else bytes_before[-len(text):]
        return bool(match)

    def wait_for(self, text):
        """Waits until this is appended, and returns the time."""
        deadline = time.monotonic() + TIMEOUT
        while not self.takes_through(text):
            if time.monotonic() > deadline:
                sys.exit(f"{self.file.name}: no {text!r} within {TIMEOUT:.0f} s")
            time.sleep(LOOK_PAUSE)
        return time.monotonic()


class Chain(contextlib.ExitStack):
    """A stick, and the programs that are started beside it, in a folder of the chain. They end with the chain."""

    def __init__(self):
        super().__init__()
        # the programs end with this process, also if `timeout` ends it
        signal.signal(signal.SIGTERM, lambda *_: sys.exit("ended by SIGTERM"))
        self.work = pathlib.Path(self.enter_context(tempfile.TemporaryDirectory()))
        self.stick = self.enter_context(Stick())
        self.desk, self.lines = self.work / "run/enogate/hall/desk", self.work / "log/enogate/hall.lines"

    def __exit__(self, exception_type, *exception_details):
        """Ends the programs. After a fault it first prints the last lines of the gateway, and of each journal."""
        if exception_type:
            for path in (self.lines, *self.work.glob("*journal")):
                print(f"{path.name}:", *lines_of(path)[-SHOWN_LINES:], sep="\n    ", file=sys.stderr)
        return super().__exit__(exception_type, *exception_details)

    def start_program(self, program, *options):
        """Starts the program itself, with the paths that the unit has."""
        for path in (self.desk, self.lines):
            path.parent.mkdir(parents=True)
        self.desk.touch()
        self.gateway = self.enter_context(Program(self.work / "journal"))
        words = ["live", "--base", BASE, "--serial", self.stick.path, "--desk", self.desk, "--out", self.lines]
        self.gateway.run([program, *words, "--turns", TURNS_OF_A_DAY, *options])
        self.learn_devices()

    def start_unit(self, program):
        """Starts the gateway by the commands of its unit."""
        (self.work / "bin").mkdir()
        (self.work / "bin/enogate").symlink_to(program)
        self.gateway = self.enter_context(Gateway(self.work))
        self.gateway.run_unit(BASE=BASE, SERIAL=self.stick.path, TURNS=TURNS_OF_A_DAY)
        wait_for(self.desk.exists, bool)
        self.learn_devices()

    def learn_devices(self):
        """Learns the devices, which shows that the gateway works."""
        self.append_orders(*LEARN_ORDERS)
        answers = wait_for(lambda: lines_of(self.lines), lambda lines: len(lines) == len(LEARN_ORDERS))
        if len(answers) != len(LEARN_ORDERS):
            sys.exit("the gateway does not answer")
        self.stick.collect_all(TIMEOUT)

    def append_orders(self, *orders):
        """Appends orders to the desk, all at once."""
        with self.desk.open("a") as desk:
            desk.write("".join(f"{order}\n" for order in orders))

    def start_bridge(self):
        """Starts a broker, and a bridge from the unit to this broker."""
        self.broker = self.enter_context(Broker(self.work))
        self.broker.start()
        self.bridge = self.enter_context(Bridge(self.work, self.broker))
        self.bridge.start()
        status = wait_for(lambda: self.broker.retained().get("enogate/hall/status"), lambda payload: payload
                          == "online")
        if status != "online":
            sys.exit("the bridge is not online")

    def subscribe(self, topic):
        """Returns the tail of a file that gets the messages on this topic."""
        path = self.work / topic.replace("/", ".")
        client = self.enter_context(Program(path.with_suffix(".journal")))
        client.run(self.broker.client_command("sub", "-R", "-t", topic, "-t", PROBE_TOPIC), out=path)

        def is_heard():
            self.broker.publish(PROBE_TOPIC, "")
            return lines_of(path)

        wait_for(is_heard, bool)
        return Tail(path)
