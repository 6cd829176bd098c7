"""The bridge at a broker: what it publishes of devices, what the broker retains, and what Home Assistant is shown."""
from __future__ import annotations

import json
import re
import subprocess

from bridge_testcase import MAY_SKIP, TOPIC_ROOT, PYTHON, GatewayTest, has_module
from kinds import ADD_ORDERS, END_OF_LIST, DEVICES_OF_EACH_KIND, KindsTest
from services import HERE

# The teach-in of a UTE device, the reply of the gateway, and its line.
TEACH_IN = bytes.fromhex("55000D0701FDD4A00146001201D201800ABC0001FFFFFFFF2D008A")
TEACH_IN_REPLY = "55000d0701fdd4910146001201d2ff800000000301800abcff00f3"
LEARNED_LINE = '{"eep":"D2-01-12","id":"01800ABC","maker":70,"result":"accepted","type":"teach"}'
LABEL_ORDERS = ("label 01800A01 Front door", 'label 01800A09 Meter "A" \\')
LABELLED_LINE = r'{"eep":"A5-12-01","id":"01800A09","label":"Meter \"A\" \\","maker":null,"type":"device"}'
PRESSES = (
    '01800A0C/press {"event_type":"pressed"}', '01800A0D/press {"event_type":"BI"}',
    '01800A0D/press {"event_type":"released"}', '01800A0E/press {"event_type":"C0"}',
    '01800A0E/press {"event_type":"BI"}',
)
LAST_SEEN_MESSAGE_PATTERN = re.compile(rf"{TOPIC_ROOT}/(\w+)/last_seen 20[-0-9]+T[:0-9]+\+00:00")
# An empty message on this topic removes an entity of a device from Home Assistant.
SHOWN_TOPIC = "homeassistant/event/enogate_hall/{}_press/config "


def stored_lines(name: str) -> list[str]:
    """The lines of a file beside this one that is kept by hand, without comments."""
    return [line for line in (HERE / name).read_text().splitlines() if not line.startswith("#")]


class FirstLabel(GatewayTest):
    """Home Assistant is shown the label of a new device first."""

    def shown_names(self, device: str) -> list[str]:
        """The names under which Home Assistant was shown the contact of a device."""
        topic = f"homeassistant/binary_sensor/enogate_hall/{device}_CO/config "
        return [json.loads(message.removeprefix(topic))["device"]["name"] for message in self.listener.messages()
                if message.startswith(topic)]

    def test_a_label_is_in_the_first_message(self):
        self.start_bridge(MQTT_LABEL_SECONDS="3600")
        self.order("add 01800A01 D5-00-01", "label 01800A01 Front door", "add 01800A02 D5-00-01")
        self.bring("01800A02", "D5 09")
        self.assert_soon(lambda: self.shown_names("01800A01"), ["Front door"])
        self.assert_published(f"{TOPIC_ROOT}/01800A02/CO closed")
        self.wait_until_handled()
        self.assert_seen((self.shown_names("01800A01"), self.shown_names("01800A02")), (["Front door"], []))

    def test_a_device_without_a_label_appears_later(self):
        self.start_bridge(MQTT_LABEL_SECONDS="2")
        self.order("add 01800A01 D5-00-01")
        self.assert_soon(lambda: self.shown_names("01800A01"), ["D5-00-01 01800A01"])


class DevicesOfEachKind(KindsTest):
    """A device of each kind. All but one are added by one message, which opens the learn window for the last one."""

    def setUp(self):
        super().setUp()
        self.start_bridge()
        self.add_and_teach_in()
        self.bring_all()
        # the bridge asks for the labels a few seconds after its first query
        self.assert_lines(LABELLED_LINE, END_OF_LIST)
        self.wait_until_handled()

    def add_and_teach_in(self) -> None:
        added_orders = [order for order in ADD_ORDERS if "01800ABC" not in order]
        self.broker.publish(f"{TOPIC_ROOT}/orders",
                            "\n".join([*added_orders[:9], "", *added_orders[9:], "learn on", "status"]))
        self.assert_published(f"{TOPIC_ROOT}/learn ON")
        self.stick.bring_packet(TEACH_IN)
        self.assert_lines(LEARNED_LINE)
        self.order(*LABEL_ORDERS)
        self.broker.publish(f"{TOPIC_ROOT}/orders", "learn off")
        self.assert_published(f"{TOPIC_ROOT}/learn OFF")

    def test_devices_of_each_kind_are_published_and_removed(self):
        retained = self.retained()
        with self.subTest("the orders of a message are given in their sequence"):
            self.assert_seen(self.stick.sent(), TEACH_IN_REPLY)
        with self.subTest("readings are retained"):
            retained_lines = sorted(f"{topic} {text}" for topic, text in retained.items()
                                    if topic.startswith(TOPIC_ROOT) and not topic.endswith("/dbm"))
            self.assert_seen(retained_lines, stored_lines("states"))
        with self.subTest("signal strengths are retained"):
            retained_lines = {topic: text for topic, text in retained.items() if topic.endswith("/dbm")}
            self.assert_seen(retained_lines,
                             {f"{TOPIC_ROOT}/{device}/dbm": "-45" for device, _, _ in DEVICES_OF_EACH_KIND})
        with self.subTest("the times of telegrams are published"):
            retained_lines = {time[1]
                              for time in map(LAST_SEEN_MESSAGE_PATTERN.fullmatch, self.listener.messages()) if time}
            self.assert_seen(sorted(retained_lines), [device for device, _, _ in DEVICES_OF_EACH_KIND])
        with self.subTest("presses are published as events"):
            retained_lines = [message for message in self.listener.messages() if "/press " in message]
            self.assert_seen(retained_lines, [f"{TOPIC_ROOT}/{press}" for press in PRESSES])
        with self.subTest("Home Assistant is shown each device"):
            self.assert_shown(retained)
        with self.subTest("a device is removed"):
            self.remove_devices()
        with self.subTest("a device is removed while the bridge is stopped and loses its state"):
            self.remove_device_while_stopped()

    def assert_shown(self, retained: dict[str, str]) -> None:
        """Home Assistant is shown what the file `discovery` has."""
        if MAY_SKIP and not has_module("jinja2"):
            self.skipTest("python3-jinja2 is not installed")
        text = "".join(f"{topic} {text}\n" for topic, text in sorted(retained.items())
                       if not topic.startswith(TOPIC_ROOT))
        run = subprocess.run([PYTHON, HERE / "shown.py", "hall", "7200"], input=text, capture_output=True, text=True)
        self.assert_seen(run.stderr, "")
        self.assert_seen(run.stdout.splitlines(), stored_lines("discovery"))

    def remove_devices(self) -> None:
        """Nothing of the device is retained."""
        self.broker.publish(f"{TOPIC_ROOT}/orders", "remove 01800A0D")
        self.assert_published(SHOWN_TOPIC.format("01800A0D"), f"{TOPIC_ROOT}/01800A0D/EB ")
        self.wait_until_handled()
        self.assert_seen([topic for topic in self.retained() if "01800A0D" in topic], [])

    def remove_device_while_stopped(self) -> None:
        """Everything else stays retained. Since lines are rotated, only the broker still has the readings."""
        retained_before = self.retained()
        self.bridge.end()
        for file in self.bridge.state.parent.iterdir():
            file.unlink()
        self.gateway.rotate()
        self.order("remove 01800A0E")
        self.listener.forget()
        self.start_bridge()
        self.assert_published(SHOWN_TOPIC.format("01800A0E"), f"{TOPIC_ROOT}/01800A0E/R1 ")
        self.wait_until_handled()
        self.assert_seen(self.retained(),
                         {topic: retained_before[topic] for topic in retained_before if "01800A0E" not in topic})
