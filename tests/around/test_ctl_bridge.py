"""Orders with enogatectl to a gateway that has a bridge, which gives orders, too."""
from __future__ import annotations

import contextlib
import json
import re
import sqlite3
import subprocess
import sys
import threading
import time
from typing import Callable

from bridge_testcase import TOPIC_ROOT, GatewayTest
from ctl_testcase import OK, REFUSED, Run
from enogate_ctl.fence import needed_fences
from oracle.esp3 import gateway_telegram_packet
from programs import WITHIN, lines_of, wait_for
from services import BASE, CONTRIB, lines_of_type

# The command, with the files of its gateway and its bridge below a directory.
COMMAND = """import functools, sys
from enogate_ctl import command_line, main
command_line.paths_of = functools.partial(command_line.paths_of, root=sys.argv.pop(1))
sys.exit(main.main())"""
ROUNDS, MESSAGES = 3, 6
# The pause between two messages, in seconds.
PAUSE = 1.0
SWITCH_PROFILE = "D2-01-12"
# An order between its fences. Those of another program may be directly before them.
FENCED_ORDER_PATTERN = re.compile(rb"^(?:status\n)+(?!status\n)[^\r\n]+\nstatus\r\n", re.MULTILINE)
# The types of the lines that end an answer.
ANSWER_END_TYPES = ("ok", "teach", "error", "list", "status")
SENSOR, NEVER_HEARD, REPLACEMENT = "01800A02", "01800A03", "01800A04"



class StateOfBridgeTest(GatewayTest):
    """The places of the units are below `work`."""

    def setUp(self):
        super().setUp()
        (self.work / "var").symlink_to(self.work)
        self.order(f"add {SENSOR} A5-02-05", f"add {NEVER_HEARD} A5-02-05", f"label {SENSOR} Attic")
        self.start_bridge()
        self.wait_until_handled()

    def ctl(self, *words: str) -> Run:
        """Runs a command for the gateway."""
        program = [sys.executable, "-B", "-c", COMMAND, self.work, "hall", *words]
        process = subprocess.run(program, capture_output=True, text=True, timeout=60, env={"PYTHONPATH": str(CONTRIB)})
        return Run(process.returncode, process.stdout, process.stderr)


class OrdersOfTwoPrograms(StateOfBridgeTest):
    """Two programs that give orders with enogatectl, messages that the bridge receives, orders that the bridge gives by
    itself, and telegrams."""

    def setUp(self):
        super().setUp()
        self.wrong_runs: list[tuple[str, Run]] = []
        self.given_orders: list[str] = []

    def give(self, order: str, status: int = OK, text: str | None = None) -> str:
        """Gives an order with enogatectl. It has this exit status and prints this text, or an error with it."""
        self.given_orders.append(order)
        run = self.ctl(*order.split(" "))
        printable_start = run.out if status == OK else run.err
        if run.status != status or (text and text not in printable_start) or (run.err if status == OK else run.out):
            self.wrong_runs.append((order, run))
        return run.out

    def give_all(self, program_number: int) -> None:
        """What a program gives, in rounds. Its devices are its own."""
        for round_number in range(ROUNDS):
            device = f"0190{program_number:02X}{round_number:02X}"
            self.give(f"add {device} {SWITCH_PROFILE}", OK, "accepted\n")
            self.give(f"label {device} Lamp {program_number} {round_number}", OK, "ok\n")
            expected_line = {"eep": SWITCH_PROFILE, "id": device, "label": f"Lamp {program_number} {round_number}",
                             "maker": None,
                             "type": "device"}
            device_lines = self.give("list --json").splitlines()
            if expected_line not in map(json.loads,
                                        device_lines) or f'"count":{len(device_lines) - 1},' not in device_lines[-1]:
                self.wrong_runs.append((f"list after {device}", Run(OK, "\n".join(device_lines), "")))
            self.give(f"switch {device} {round_number} on", OK, "ok\n")
            self.give(f"switch {device} 31 on", REFUSED, "range: ")
            self.give("status --json", OK, '"type":"status"')
            self.give(f"label 0190FF{program_number:02X} x", REFUSED, "unknown_device: ")
            if round_number % 2:
                self.give(f"remove {device}", OK, "deleted\n")

    def publish(self) -> None:
        """Messages to the bridge while the programs give orders, and telegrams. Each message to the learn window makes
        the bridge ask for the status, and each label for the list."""
        for message_number in range(MESSAGES):
            device = f"0190AA{message_number:02X}"
            orders = f"add {device} {SWITCH_PROFILE}", f"label {device} Message {message_number}", "status", "status"
            self.broker.publish(f"{TOPIC_ROOT}/orders", "\n".join(orders))
            self.broker.publish(f"{TOPIC_ROOT}/{device}/OV/{message_number}/set", "ON")
            self.broker.publish(f"{TOPIC_ROOT}/learn/set", "OFF" if message_number % 2 else "ON")
            self.stick.bring(SENSOR, "A5 00007F08", "A5 00007F08")
            time.sleep(PAUSE)

    def at_once(self, *actions: Callable[[], None]) -> None:
        """Does these at the same time."""
        threads = [threading.Thread(target=action) for action in actions]
        for thread in threads:
            thread.start()
        for thread in threads:
            thread.join()

    def test_orders_of_the_bridge_and_of_two_programs_at_once(self):
        """The programs give 44 orders, and the bridge receives 36."""
        self.at_once(lambda: self.give_all(1), lambda: self.give_all(2), self.publish)
        self.wait_until_handled()
        with self.subTest("each exit status and each answer is right"):
            self.assert_seen(self.wrong_runs, [])
        with self.subTest("the bridge has given orders of its own"):
            lists, statuses = self.bridge_orders()
            self.assertGreater(lists, 1)
            self.assertGreater(statuses, lists + 2)
        with self.subTest("no order is lost"):
            self.assert_answered()
            packets = self.packets()
            self.assert_soon(lambda: [self.stick.sent().count(packet) for packet in packets], [1] * len(packets))
            self.assert_soon(self.listed, self.expected_devices())
        with self.subTest("the state of the bridge is right"):
            self.assert_state()
        with self.subTest("the journal of the bridge"):
            self.assert_seen(self.bridge.journal()[2:], [])

    def packets(self) -> list[str]:
        """The packets of the orders `switch` that are not refused."""
        counts = {"01": ROUNDS, "02": ROUNDS, "AA": MESSAGES}
        devices_and_turns = [(f"0190{number}{turn:02X}", turn) for number, count in counts.items()
                             for turn in range(count)]
        return [
            gateway_telegram_packet(0xD2, bytes([1, channel, 100]), int(BASE, 16), int(device, 16)).hex()
            for device, channel in devices_and_turns
        ]

    def expected_devices(self) -> dict[str, str]:
        """The labels of the devices that are learned in the end."""
        own_labels = {f"0190{number:02X}{turn:02X}": f"Lamp {number} {turn}" for number in (1, 2)
                      for turn in range(0, ROUNDS, 2)}
        return {SENSOR: "Attic", NEVER_HEARD: "", **own_labels, **{f"0190AA{turn:02X}": f"Message {turn}"
                                                                   for turn in range(MESSAGES)}}

    def listed(self) -> dict[str, str]:
        """The labels of the devices that the gateway lists."""
        lines = map(json.loads, self.give("list --json").splitlines())
        return {line["id"]: line["label"] for line in lines if line["type"] == "device"}

    def bridge_orders(self) -> tuple[int, int]:
        """How many orders `list` and `status` the bridge has given by itself. Each order of a program that is not
        `status` has fences before it, and one after it, which ends with CR."""
        desk, given_verbs = self.gateway.desk.read_bytes(), [order.split(" ")[0] for order in self.given_orders]
        on_desk = desk.decode("ascii").split("\n")
        fence_count = sum(needed_fences(desk[:fenced_order.start()])
                          for fenced_order in FENCED_ORDER_PATTERN.finditer(desk))
        status_count = given_verbs.count("status") + fence_count + MESSAGES * 2
        return on_desk.count("list") - given_verbs.count("list"), on_desk.count("status") - status_count

    def assert_answered(self) -> None:
        """Each order on the desk has one answer."""
        def count() -> tuple[int, int]:
            answer_count = sum(len(lines_of_type(self.gateway.lines(), kind)) for kind in ANSWER_END_TYPES)
            return answer_count - len(lines_of(self.gateway.desk)), len(lines_of_type(self.gateway.lines(), "reading"))
        self.assert_soon(count, (0, 2 * MESSAGES))

    def state(self) -> dict[str, str]:
        """The labels of the devices in the state file of the bridge."""
        with contextlib.closing(sqlite3.connect(f"file:{self.bridge.state}?mode=ro", uri=True)) as connection:
            return dict(connection.execute("SELECT id, label FROM device"))

    def assert_state(self) -> None:
        """The bridge has published each line, and has the devices with their labels. The learn window is closed, as the
        last message wanted. A bridge that begins without a state file makes the broker retain the same."""
        self.assert_soon(self.state, self.expected_devices())
        self.assert_soon(lambda: self.gateway.size() - self.bridge.saved_offset(), 0)
        lines_written = self.gateway.lines()
        self.assert_soon(lambda: self.published_lines()[-100:], lines_written[-100:])
        retained = self.retained()
        topics = "status", "gateway", "module", "learn"
        self.assert_seen({topic: retained.get(f"{TOPIC_ROOT}/{topic}") for topic in topics},
                         {"status": "online", "gateway": "online", "module": "online", "learn": "OFF"})
        self.bridge.end()
        for file in self.bridge.state.parent.iterdir():
            file.unlink()
        self.listener.forget()
        self.start_bridge()
        self.wait_until_handled()
        self.assert_seen(self.retained(), retained)


class ReplacedDevice(StateOfBridgeTest):
    """A client of Home Assistant's discovery while a sensor is replaced."""

    def start_bridge(self, **settings: str) -> None:
        super().start_bridge(MQTT_LABEL_SECONDS="60", **settings)

    def discovery_messages(self) -> list[list[str]]:
        """The topics and payloads that it has received."""
        topics_and_texts = [message.partition(" ")[::2] for message in self.listener.messages()]
        return [[topic, text] for topic, text in topics_and_texts if topic.startswith("homeassistant/")]

    def test_it_keeps_its_entities(self):
        topic = f"homeassistant/sensor/enogate_hall/{SENSOR}_TMP/config"
        self.assert_soon(lambda: topic in self.retained(), True)
        topics_before = [retained_topic
                         for retained_topic in self.retained() if retained_topic.startswith("homeassistant/")]
        self.listener.forget()
        self.assertEqual(self.ctl("replace", "Attic", REPLACEMENT).status, OK)

        def serial_number() -> str:
            return json.loads(self.retained()[topic])["device"]["serial_number"]
        self.assert_soon(serial_number, REPLACEMENT)
        self.wait_until_handled()
        self.assertEqual([retained_topic for retained_topic in self.retained()
                          if retained_topic.startswith("homeassistant/")], topics_before)
        for changed_topic, text in self.discovery_messages():
            self.assertIn(SENSOR, changed_topic)
            self.assertIn(f'"state_topic":"{TOPIC_ROOT}/{REPLACEMENT}/', text)
        self.bring(REPLACEMENT, "A5 00007F08")
        self.assert_soon(lambda: self.retained().get(f"{TOPIC_ROOT}/{REPLACEMENT}/TMP"), "20.0784")


class LastSeenTimes(StateOfBridgeTest):
    """The times of telegrams, which `list` takes from the state of the bridge."""

    def last_seen_cell(self) -> str:
        """The row of the sensor, after its readings."""
        row_match = re.search(rf"Attic +{SENSOR} .* dBm(.*)", self.ctl("list").out)
        return row_match[1].strip() if row_match else "no row"

    def test_they_are_shown_while_the_bridge_runs(self):
        self.assertNotIn("LAST SEEN", self.ctl("list").out)
        self.bring(SENSOR, "A5 00007F08")
        age = wait_for(self.last_seen_cell, lambda cell: cell.endswith(" ago"))
        self.assertRegex(age, "^[0-9]+ s ago$")
        self.assertLess(int(age.split(" ")[0]), 2 * WITHIN)
        heading, row_with_time, row_without_time = self.ctl("list").out.splitlines()
        self.assertRegex(heading, "SIGNAL +LAST SEEN$")
        self.assertRegex(row_with_time, rf"^Attic +{SENSOR} .*Temperature 20.08 °C +-45 dBm +[0-9]+ s ago$")
        self.assertRegex(row_without_time, f"{NEVER_HEARD} +A5-02-05 +Temperature sensor$")
        self.assertEqual(self.ctl("devices").out.splitlines()[2], row_without_time)
        first_device, second_device, _ = map(json.loads, self.ctl("devices", "--json").out.splitlines())
        self.assertLess(abs(time.time() - first_device["seen"]), 3 * WITHIN)
        self.assertEqual((first_device["id"], first_device["label"], second_device["id"], second_device["seen"]),
                         (SENSOR, "Attic", NEVER_HEARD, None))
        self.bridge.end()
        self.assertEqual(self.last_seen_cell(), "")
        self.assertNotIn("LAST SEEN", self.ctl("list").out)
