"""Runs a gateway with lines of all kinds that change its devices, and keeps the states that the oracle finds."""
import copy
import os
import pathlib
import shutil
import signal
import subprocess
import sys

sys.path[:0] = [str(pathlib.Path(__file__).parents[1] / "program")]

from model import (  # noqa: E402
    ACTUATOR_DATA,
    QUERY_4BS,
    ROCKER_PRESS,
    TEACH_IN_1BS,
    TEACH_IN_4BS_WITHOUT_EEP,
    UTE_DELETION,
    UTE_QUERY,
)
from model import VERSION_1_REGISTRY, VERSION_1_DEVICES  # noqa: E402
from model import Gateway, telegram_line, is_device_change  # noqa: E402

DATABASE_NAME, BASE = "hall.db", "FF800000"
# The lines of a check: another device can be learned.
CHECK_LINES = ["list", "add 00FACADE D5-00-01", "label 00FACADE Checked", "list"]
DEVICE_PROFILES = ("D5-00-01", "F6-02-01", "A5-02-05", "A5-04-01", "D2-01-12")
# There are few devices, so that each is changed and removed often.
FIRST_SENDER, DEVICE_COUNT = 0x01800A00, 40


def random_change_lines(change_number, rng):
    """Lines that make a change of any kind."""
    device, other_device = (f"{FIRST_SENDER + rng.randrange(DEVICE_COUNT):08X}" for _ in range(2))
    sender = FIRST_SENDER + rng.randrange(DEVICE_COUNT)
    return rng.choice((
        [f"add {device} {rng.choice(DEVICE_PROFILES)}"],
        [f"add {device} {rng.choice(DEVICE_PROFILES)}", f"label {device} L{change_number}"],
        [f"label {device} Lamp {change_number}", f"label {other_device}"], [f"remove {device}"],
        ["learn on", telegram_line(TEACH_IN_1BS, sender), telegram_line(QUERY_4BS, sender + 1), "learn off"],
        ["learn on answer", telegram_line(UTE_QUERY, sender), telegram_line(UTE_DELETION, sender + 1), "learn off"],
        ["learn as F6-02-01", telegram_line(ROCKER_PRESS, sender), "learn off"],
        ["learn as D2-01-12", telegram_line(ACTUATOR_DATA, sender)],
        ["learn as A5-10-03", telegram_line(TEACH_IN_4BS_WITHOUT_EEP, sender)],
    ))


def version_1_gateway():
    """The gateway over the registry of version 1."""
    gateway = Gateway()
    gateway.devices = dict(VERSION_1_DEVICES)
    return gateway


def restarted_gateway(gateway):
    """The gateway after another start."""
    new_gateway = Gateway()
    new_gateway.devices, new_gateway.labels = copy.deepcopy(gateway.devices), copy.deepcopy(gateway.labels)
    return new_gateway


class GatewayRuns:
    """The gateways that run one after the other over the database in this folder. `states` has the gateway after each
    line that changes it. `acknowledged` has the size of the disk's log when this line had been answered, and `places`
    has this size with the places of the database on the disk. `size_of_log` and `places_of` return size and places."""

    def __init__(self, program, folder, size_of_log, places_of, environment=None):
        self.program, self.folder, self.environment = program, folder, environment
        self.size_of_log, self.places_of = size_of_log, places_of
        self.gateway = Gateway()
        self.states, self.acknowledged_sizes, self.places = [self.gateway], [0], []

    def start_with_version_1(self):
        """The first run migrates a registry of version 1."""
        shutil.copy(VERSION_1_REGISTRY, self.database_path)
        self.gateway = version_1_gateway()
        self.states = [self.gateway]

    @property
    def database_path(self):
        return os.path.join(self.folder, DATABASE_NAME)

    def run_gateway(self, rng, changes):
        """Runs a gateway with so many changes, and ends it in any way."""
        words = [self.program, "replay", "--base", BASE, "--db", self.database_path]
        self.gateway = restarted_gateway(self.gateway)
        with subprocess.Popen(words, stdin=subprocess.PIPE, stdout=subprocess.PIPE, env=self.environment) as process:
            for change_number in range(changes):
                for line in random_change_lines(change_number, rng):
                    self.give_and_compare(process, line)
            self.end_run(process, rng)

    def give_and_compare(self, process, line):
        """Gives a line, and waits for its answer, which must be that of the oracle."""
        self.gateway = copy.deepcopy(self.gateway)
        expected_answer = self.gateway.answer(line).encode()
        process.stdin.write(line.encode() + b"\n")
        process.stdin.flush()
        answer = process.stdout.read(len(expected_answer))
        assert answer == expected_answer, (line, answer, expected_answer)
        if is_device_change(line, expected_answer.decode()):
            self.keep_state(self.gateway)

    def keep_state(self, gateway):
        """Keeps the next state, which the program has reported."""
        self.gateway = gateway
        self.states.append(gateway)
        self.acknowledged_sizes.append(self.size_of_log())
        self.places.append((self.acknowledged_sizes[-1], self.places_of(self.database_path)))

    def end_run(self, process, rng):
        """Ends a run: by the end of its input, by a signal, or by SIGKILL in the middle of a change."""
        end_method = rng.choice(("input", signal.SIGTERM, signal.SIGKILL, "change"))
        if end_method == "change":
            # it may be carried out or not; the next run finds what became of it
            line = f"add {FIRST_SENDER + rng.randrange(DEVICE_COUNT):08X} {rng.choice(DEVICE_PROFILES)}"
            process.stdin.write(line.encode() + b"\n")
            process.stdin.flush()
            process.kill()
            process.wait()
            self.keep_state_if_done(line)
        elif end_method != "input":
            process.send_signal(end_method)

    def keep_state_if_done(self, line):
        """Looks in the database whether this line was carried out, and keeps the next state if it was."""
        gateway_before, gateway_after = restarted_gateway(self.gateway), restarted_gateway(self.gateway)
        gateway_after.answer(line)
        listed_output = subprocess.run([self.program, "replay", "--base", BASE, "--db", self.database_path],
                                       input=b"list\n",
                                       stdout=subprocess.PIPE, env=self.environment).stdout.decode()
        assert listed_output in (gateway_before.device_list(), gateway_after.device_list()), (line, listed_output)
        if listed_output == gateway_after.device_list():
            self.keep_state(gateway_after)


def expected_check_answers(gateway):
    """The answers to the lines of a check if the database has the devices of this gateway."""
    gateway = restarted_gateway(gateway)
    return "".join(gateway.answer(line) for line in CHECK_LINES)


def expected_check_states(gateway):
    """The gateway after each line of a check that changes it."""
    states = []
    for line in CHECK_LINES:
        gateway = restarted_gateway(gateway)
        if is_device_change(line, gateway.answer(line)):
            states.append(gateway)
    return states


def check_database(program, path, states):
    """Gives the lines of a check to the program with this database. Returns the number of the first of these states
    whose answers it gives, and an empty text; if it gives those of none, None and what it did."""
    text = "".join(f"{line}\n" for line in CHECK_LINES).encode()
    process = subprocess.run([program, "replay", "--base", BASE, "--db", path], input=text, capture_output=True)
    output = process.stdout.decode()
    if process.returncode == 0:
        for state_number, state in enumerate(states):
            if output == expected_check_answers(state):
                return state_number, ""
    return None, f"status {process.returncode}, {process.stderr.decode()!r}, {output!r}"
