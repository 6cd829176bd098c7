"""The base classes of the tests of the bridge at a broker."""
from __future__ import annotations

import difflib
import functools
import os
import pathlib
import shutil
import subprocess
import tempfile
import unittest
from typing import Callable, TypeVar

from broker import Broker, Listener
from programs import lines_of, wait_for
from services import BASE, Bridge, Gateway, Stick, lines_of_type

PYTHON = "/usr/bin/python3"
MAY_SKIP = not os.environ.get("SKIP_NOTHING")
TOPIC_ROOT = "enogate/hall"
ONLINE, OFFLINE = f"{TOPIC_ROOT}/status online", f"{TOPIC_ROOT}/status offline"
# The client as which the bridge reads what the broker retains.
READER = "enogate-hall.reader"
RESPONSE = f'{{"code":0,"data":"{BASE}","name":"OK","type":"response"}}'
# The parts of a failure's report: the first lines of a difference, the last lines of each journal and of what was
# published, each limited to its first characters.
MAX_DIFFERENT_LINES, MAX_SHOWN_LINES, MAX_WIDTH = 60, 12, 240
# These are not compared: they depend on the time, or on how often the bridge has asked.
VARYING_TOPIC_ENDS = ("/last_seen", "/counters", "/health")
Observation = TypeVar("Seen")


def has_module(name: str) -> bool:
    """Whether the Python of the bridge has this module."""
    environment = {**os.environ, "PYTHONPATH": os.environ.get("PAHO", "")}
    words = [PYTHON, "-c", f"import {name}"]
    return os.access(PYTHON, os.X_OK) and subprocess.run(words, env=environment, capture_output=True).returncode == 0


@functools.cache
def missing_requirement() -> str:
    """Why the bridge cannot be tried at a broker on this computer; empty if it can."""
    for program in (PYTHON, "mosquitto", "mosquitto_pub", "mosquitto_sub", "mosquitto_passwd", "openssl", "bash"):
        if not shutil.which(program):
            return f"{program} is not installed"
    return "" if has_module("paho.mqtt.client") else "python3-paho-mqtt is not installed"


def printable_start(line: str) -> str:
    """A line as a failure shows it: the first characters, without line breaks and control characters."""
    return "".join(character if character.isprintable() else repr(character)[1:-1] for character in line[:MAX_WIDTH])


def value_lines(json_value: object) -> list[str]:
    """A value as lines: each member of a list or a dictionary is one."""
    if isinstance(json_value, dict):
        return [f"{key} {json_value[key]}" for key in sorted(json_value)]
    return list(map(str, json_value)) if isinstance(json_value, list) else str(json_value).splitlines()


def difference_lines(expected: object, observation: object) -> str:
    """The lines that are different, each with the lines next to it."""
    lines = list(difflib.unified_diff(value_lines(expected), value_lines(observation), "wanted", "seen", n=1,
                                      lineterm=""))
    count_of_more = [f"({len(lines) - MAX_DIFFERENT_LINES} more lines)"] if len(lines) > MAX_DIFFERENT_LINES else []
    return "\n".join([*map(printable_start, lines[:MAX_DIFFERENT_LINES]), *count_of_more])


class BridgeTest(unittest.TestCase):
    """Each test has a broker, a bridge that is not started, and a new folder for both, `work`."""

    maxDiff = None

    @classmethod
    def setUpClass(cls) -> None:
        if MAY_SKIP and missing_requirement():
            raise unittest.SkipTest(missing_requirement())

    def shortDescription(self) -> None:
        """Only the names of tests are printed, without their docstrings."""

    def setUp(self) -> None:
        self.work = pathlib.Path(self.enterContext(tempfile.TemporaryDirectory()))
        self.broker = self.enterContext(Broker(self.work))
        self.listener = self.enterContext(Listener(self.broker, self.work))
        self.bridge = self.enterContext(Bridge(self.work, self.broker))

    def start_broker(self) -> None:
        self.broker.start()
        self.listener.start()

    def start_bridge(self, **settings: str) -> None:
        """Starts the bridge, and waits until it is connected and has compared what the broker retains."""
        self.bridge.start(**settings)
        self.assert_published(ONLINE)

    def failure_context(self) -> str:
        """The report of a failure, besides the difference."""
        lines_by_part = {"what was published": self.listener.messages(),
                         "the gateway": lines_of(self.bridge.lines_path)}
        lines_by_part |= {path.name: lines_of(path) for path in sorted(self.work.glob("enogate*.journal"))}
        shown_by_part = {name: [f"    {printable_start(line)}" for line in lines[-MAX_SHOWN_LINES:]]
                         for name, lines in lines_by_part.items() if lines}
        return "\n".join(line for name, lines in shown_by_part.items() for line in (f"last lines of {name}:", *lines))

    def assert_soon(self, observe: Callable[[], Observation], expected: Observation) -> None:
        """`see` returns this within WITHIN seconds."""
        self.assert_seen(wait_for(observe, lambda observation: observation == expected), expected)

    def assert_seen(self, observation: object, expected: object) -> None:
        if observation != expected:
            differences = difference_lines(expected, observation)
            self.fail(f"this is not what was wanted:\n{differences}\n{self.failure_context()}")

    def assert_published(self, *expected_messages: str) -> None:
        """Each of these messages was published. If not, what was published on their topics is shown."""
        def is_complete(messages: list[str]) -> bool:
            return set(expected_messages) <= set(messages)

        messages = wait_for(self.listener.messages, is_complete)
        if not is_complete(messages):
            topics = {message.split(" ")[0] for message in expected_messages}
            topic_messages = [message for message in messages if message.split(" ")[0] in topics]
            self.assert_seen(topic_messages[-MAX_SHOWN_LINES:], list(expected_messages))

    def assert_lines(self, *lines: str) -> None:
        """Each of these lines of the gateway was published."""
        self.assert_published(*(f"{TOPIC_ROOT}/lines {line}" for line in lines))

    def assert_logged(self, text: str) -> None:
        """A line of the bridge's journal begins with this text."""
        expected_line = f"enogate-mqtt: {text}"

        def has_line(journal: list[str]) -> bool:
            return any(line.startswith(expected_line) for line in journal)

        journal = wait_for(self.bridge.journal, has_line)
        if not has_line(journal):
            self.assert_seen(journal[-MAX_SHOWN_LINES:], [expected_line])

    def published(self) -> list[str]:
        """The messages that were published besides lines, counters and the state of the devices, sorted."""
        other_starts = (f"{TOPIC_ROOT}/lines ", f"{TOPIC_ROOT}/counters ", f"{TOPIC_ROOT}/health ")
        return sorted(message for message in self.listener.messages() if not message.startswith(other_starts))

    def published_lines(self, kind: str = "") -> list[str]:
        """The lines of the gateway that were published: those of this type, or all."""
        start = f"{TOPIC_ROOT}/lines "
        messages = [message for message in self.listener.messages() if message.startswith(start)]
        return lines_of_type([message.removeprefix(start) for message in messages], kind)

    def retained(self) -> dict[str, str]:
        """The messages that the broker retains, by topic, without the parts that vary."""
        return {topic: text for topic, text in self.broker.retained().items() if not topic.endswith(VARYING_TOPIC_ENDS)}

    def wait_for_a_cycle(self) -> None:
        """Waits until the bridge has looked at its lines: it handles messages before them, in each of its cycles."""
        for _ in range(2):
            count_before = self.listener.messages().count(ONLINE)
            self.broker.publish(f"{TOPIC_ROOT}/status", "offline")
            self.assert_soon(lambda: self.listener.messages().count(ONLINE) - count_before, 1)


class GatewayTest(BridgeTest):
    """A bridge test with a gateway at a stick, which runs, as does the broker."""

    def setUp(self) -> None:
        super().setUp()
        self.stick = self.enterContext(Stick(self.work))
        self.gateway = self.enterContext(Gateway(self.work))
        self.stick.start()
        self.gateway.start(self.stick)
        self.start_broker()

    def start_bridge(self, **settings: str) -> None:
        """Starts the bridge, and waits until the last order is answered that it gives at its start."""
        super().start_bridge(**settings)
        self.assert_lines(RESPONSE)

    def order(self, *orders: str) -> None:
        """Gives orders at the desk itself, and waits for a line for each."""
        self.act_and_wait_for_lines(lambda: self.gateway.order(*orders), len(orders))

    def bring(self, device: str, *telegrams: str) -> None:
        """A device sends telegrams. Waits for a reading line for each."""
        self.act_and_wait_for_lines(lambda: self.stick.bring(device, *telegrams), len(telegrams), "reading")

    def act_and_wait_for_lines(self, action: Callable[[], None], count: int, kind: str = "") -> None:
        """Does something, and waits until the gateway has printed this many lines of this type, or more."""
        def line_count() -> int:
            return len(lines_of_type(self.gateway.lines(), kind))

        count_before = line_count()
        action()
        line_increase = wait_for(lambda: line_count() - count_before, lambda line_increase: line_increase >= count)
        self.assert_seen(f"{min(line_increase, count)} new lines of the gateway", f"{count} new lines of the gateway")

    def wait_until_handled(self) -> None:
        """Waits until the bridge has handled everything that the gateway has printed (an invalid order is answered),
        and has compared the retained messages."""
        error_count = len(self.published_lines("error"))
        self.gateway.order("settle")
        self.assert_soon(lambda: len(self.published_lines("error")) - error_count, 1)
        self.assert_soon(lambda: self.broker.has_client(READER), False)
