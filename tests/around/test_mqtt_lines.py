"""The bridge at a broker: it reads each line of the gateway once, also if the file is rotated, cut or incomplete."""
from __future__ import annotations

import json
import os
import pathlib
import re
import time

from bridge_testcase import TOPIC_ROOT, GatewayTest
from programs import Program, lines_of, wait_for
from services import BASE

DEVICE = f"{TOPIC_ROOT}/01800A02"
READING = ('{{"dbm":-45,"eep":"A5-02-05","id":"01800A02","readings":'
           '[{{"den":1,"name":"TMP","num":{},"unit":"C"}}],"type":"reading"}}\n')
TORN_LINE = '{"dbm":-45,"eep":"D5-0'


class ManyLines(GatewayTest):
    """Many lines at once: the broker needs seconds for all their messages."""

    def test_a_press_after_many_lines(self):
        self.start_bridge()
        press = ('{"dbm":-45,"eep":"F6-02-01","id":"01800A0D","readings":[{"name":"R1","word":"BI"},'
                 '{"name":"EB","word":"pressed"}],"type":"reading"}\n')
        self.gateway.append("".join(map(READING.format, range(9000))) + press)
        self.assert_published(f'{TOPIC_ROOT}/01800A0D/press {{"event_type":"BI"}}')
        self.assert_published(f"{DEVICE}/TMP 8999")
        self.assertLess(len([message for message in self.listener.messages() if message.startswith(f"{DEVICE}/TMP ")]),
                        2000)


class TimesOfLines(GatewayTest):
    """Each line is published with the time when it was read, and those of before the connection are late."""

    def test_times_and_state(self):
        self.order("add 01800A02 A5-02-05")
        self.start_bridge()
        path, listener = self.work / "properties", self.enterContext(Program(self.work / "properties.journal"))
        listener.run(self.broker.client_command("sub", "-V", "5", "-t", f"{TOPIC_ROOT}/lines", "-F", "%P %p"), path)
        self.assert_soon(lambda: bool(lines_of(path)), True)
        start = int(time.time())
        self.gateway.append(READING.format(1))
        self.assert_times(path, 1, start, "")
        self.bridge.end()
        self.gateway.append(READING.format(2))
        self.start_bridge()
        self.assert_times(path, 2, start, "late:1 ")
        with self.subTest("the state"):
            state = wait_for(self.published_state, lambda state: state["last_telegram_seconds"])
            self.assertIn(state["last_telegram_seconds"], range(start, int(time.time()) + 1))
            self.assertEqual((state["base"], state["gateway"], state["stick"]), (BASE, True, True))

    def published_state(self) -> dict:
        """The state of the gateway and its devices that the broker retains."""
        return json.loads(self.broker.retained()[f"{TOPIC_ROOT}/health"])

    def assert_times(self, path: pathlib.Path, value: int, start: int, late: str) -> None:
        """The line with this value was published with a time after the start, and this property after it."""
        found = wait_for(lambda: [line for line in lines_of(path) if f'"num":{value},' in line], bool)
        self.assertEqual([line.split(" ", 1)[1] for line in found], [late + READING.format(value)[:-1]])
        self.assertRegex(found[0], "^time:[0-9]+ ")
        self.assertIn(int(found[0].split()[0].removeprefix("time:")), range(start, int(time.time()) + 1))


class IdleBridge(GatewayTest):
    """The bridge waits until something happens."""

    def test_an_idle_bridge(self):
        self.start_bridge()
        self.wait_until_handled()
        time.sleep(2)
        count_before = self.wait_count()
        time.sleep(5)
        self.assertLess(self.wait_count() - count_before, 15)

    def wait_count(self) -> int:
        """How often the bridge has waited."""
        # it is a child, below `timeout`
        pid = str(self.bridge.process.pid)
        while children := pathlib.Path(f"/proc/{pid}/task/{pid}/children").read_text().split():
            pid = children[0]
        text = pathlib.Path(f"/proc/{pid}/status").read_text()
        return int(re.findall(r"^voluntary_ctxt_switches:\s*(\d+)$", text, re.MULTILINE)[0])


class LinesOfGateway(GatewayTest):
    """A gateway that received its device before the bridge runs for the first time, and a broker that retains an order.
    While the bridge runs, other programs change the file of lines."""

    def setUp(self):
        super().setUp()
        self.broker.publish(f"{TOPIC_ROOT}/orders", "level 5 40 10", "-r")
        self.order("add 01800A02 A5-02-05")
        self.bring("01800A02", "A5 00007F08")
        self.start_bridge()

    def test_the_first_run_a_torn_line_a_rotation_and_a_cut(self):
        with self.subTest("the first run"):
            self.assert_first_run()
        with self.subTest("an order that is retained"):
            self.assert_logged(f"message on '{TOPIC_ROOT}/orders' ignored: it is retained")
            self.assert_seen(self.stick.sent(), "")
        self.listener.forget()
        with self.subTest("a torn line"):
            self.assert_torn_line()
        with self.subTest("a rotation"):
            self.gateway.rotate()
            self.wait_for_a_cycle()
            self.bring_temperature("A5 0000FF08", "0")
        with self.subTest("a cut"):
            os.truncate(self.gateway.lines_path, 0)
            self.assert_logged(self.reason_of_truncation())
            self.bring_temperature("A5 00007F08", "20.0784")
        self.wait_until_handled()
        with self.subTest("each reading is published once"):
            temperature_messages = [message
                                    for message in self.listener.messages() if message.startswith(f"{DEVICE}/TMP ")]
            self.assert_seen(temperature_messages,
                             [f"{DEVICE}/TMP {temperature}" for temperature in ("40", "0", "20.0784")])
        with self.subTest("the journal"):
            self.assert_seen(self.bridge.journal()[2:], [
                f"enogate-mqtt: invalid line ignored: b'{TORN_LINE}'", f"enogate-mqtt: {self.reason_of_truncation()}"])

    def assert_first_run(self) -> None:
        """The readings of the device are published, but none of its lines. The bridge asks for the name of the
        device."""
        self.assert_lines('{"eep":"A5-02-05","id":"01800A02","label":"","maker":null,"type":"device"}',
                          '{"count":1,"type":"list"}')
        self.assert_published(f"{DEVICE}/TMP 20.0784")
        self.wait_until_handled()
        self.assert_seen(self.published_lines("reading"), [])
        retained = {topic: text for topic, text in self.retained().items() if topic.startswith(TOPIC_ROOT)}
        self.assert_seen(retained, {
            f"{DEVICE}/TMP": "20.0784", f"{DEVICE}/dbm": "-45", f"{TOPIC_ROOT}/gateway": "online",
            f"{TOPIC_ROOT}/learn": "OFF", f"{TOPIC_ROOT}/module": "online", f"{TOPIC_ROOT}/orders": "level 5 40 10",
            f"{TOPIC_ROOT}/status": "online"})

    def assert_torn_line(self) -> None:
        """The first part of a line is read, and then its end. The next line is not affected."""
        self.gateway.append(TORN_LINE)
        self.wait_for_a_cycle()
        self.gateway.append("\n")
        self.assert_logged(f"invalid line ignored: b'{TORN_LINE}'")
        self.bring_temperature("A5 00000008", "40")

    def bring_temperature(self, telegram: str, temperature: str) -> None:
        """The device sends this telegram, and its value is published."""
        self.bring("01800A02", telegram)
        self.assert_published(f"{DEVICE}/TMP {temperature}")

    def reason_of_truncation(self) -> str:
        return f"{self.gateway.lines_path}: file truncated, continuing at its end"
