"""The bridge at a broker: which messages are given to the gateway as orders, and what the gateway sends for them."""
from __future__ import annotations

from bridge_testcase import TOPIC_ROOT, BridgeTest, GatewayTest
from oracle.esp3 import gateway_telegram_packet
from programs import lines_of
from services import BASE

# A topic and a payload, and the packet that is sent. Packets of the guide and of the golden tests are given as they
# are there.
COMMANDS = (
    ("01800ABC/OV/0", "ON", "550009070156d2010064ff800000000301800abcff0024"),
    ("01800ABC/OV/0", "OFF", "550009070156d2010000ff800000000301800abcff007f"),
    ("01800ABC/OV/0", "50", "550009070156d2010032ff800000000301800abcff00d1"),
    ("01800ABC/OV/1", "ON", "010164"),
    ("01800A10/OV/0", "100", "010064"),
    ("01800ABD/POS/0", "50", "55000a0701ebd2327f0001ff800000000301800abdff0003"),
    ("01800ABD/POS/0", "STOP", "55000707017ad202ff800000000301800abdff00ac"),
    ("01800ABD/POS/0", "OPEN", "007F0001"),
    ("01800ABD/POS/0", "CLOSE", "647F0001"),
)
# A topic and a payload, and why they are no command.
INVALID_COMMANDS = (
    ("0/OV/0", "ON", "the topic is not ID/OV/CHANNEL/set or ID/POS/0/set (with ID in upper case)"),
    ("01800ABC/OV/0", "101", "b'101' is not ON, OFF or 0 to 100"),
    ("01800ABC/OV/0", "toggle", "b'toggle' is not ON, OFF or 0 to 100"),
    ("01800ABD/POS/1", "OPEN", "the topic is not ID/OV/CHANNEL/set or ID/POS/0/set (with ID in upper case)"),
    ("01800ABC/TMP/0", "20", "the topic is not ID/OV/CHANNEL/set or ID/POS/0/set (with ID in upper case)"),
)
# The orders that the bridge gives by itself.
ORDERS_OF_BRIDGE = ("list", "status", "base")
OK = '{"type":"ok"}'


class ActuatorQueries(GatewayTest):
    """Actuators are asked for their states."""

    def test_each_actuator_is_asked_once_after_a_start_of_the_gateway(self):
        """Two channels, one channel, and a blind, as the guide has its packet."""
        self.order("add 01800ABC D2-01-12", "add 01800A10 D2-01-02", "add 01800ABD D2-05-00", "add 01800A01 D5-00-01")
        packets = (gateway_telegram_packet(0xD2, bytes.fromhex("0300"), int(BASE, 16), 0x01800A10).hex()
                   + gateway_telegram_packet(0xD2, bytes.fromhex("031E"), int(BASE, 16), 0x01800ABC).hex()
                   + "55000707017ad203ff800000000301800abdff0038")
        self.start_bridge(MQTT_QUERY="yes")
        self.assert_soon(self.stick.sent, packets)
        self.gateway.end()
        self.gateway.start(self.stick)
        self.assert_soon(self.stick.sent, 2 * packets)
        self.bridge.end()
        self.listener.forget()
        self.start_bridge(MQTT_QUERY="yes")
        self.wait_until_handled()
        self.assert_seen(self.stick.sent(), 2 * packets)


class PublishedOrders(GatewayTest):
    """Orders and commands to actuators that the gateway knows."""

    def setUp(self):
        super().setUp()
        self.order("add 01800ABC D2-01-12", "add 01800A10 D2-01-02", "add 01800ABD D2-05-00")
        self.start_bridge()

    def orders_of_others(self) -> list[str]:
        """The orders at the desk, without those that the bridge gives by itself."""
        return [order for order in lines_of(self.gateway.desk) if order not in ORDERS_OF_BRIDGE]

    def answer_lines(self) -> list[str]:
        """The lines that were published since messages were forgotten, without the status."""
        return [line for line in self.published_lines() if '"type":"status"' not in line]

    def test_commands_become_packets_and_invalid_orders_are_answered(self):
        self.assert_each_command()
        with self.subTest("invalid orders"):
            self.assert_invalid_orders()

    def assert_each_command(self) -> None:
        """Each is sent as one packet."""
        for command_topic, command, packet in COMMANDS:
            if not packet.startswith("55"):
                packet = gateway_telegram_packet(0xD2, bytes.fromhex(packet), int(BASE, 16),
                                                 int(command_topic[:8], 16)).hex()
            with self.subTest(place=command_topic, command=command):
                sent_before = self.stick.sent()
                self.broker.publish(f"{TOPIC_ROOT}/{command_topic}/set", command)
                self.assert_soon(lambda: self.stick.sent().removeprefix(sent_before), packet)

    def assert_invalid_orders(self) -> None:
        """The broker does not send a message of 1 MB to the bridge."""
        # the bridge gives no order by itself for some seconds after a telegram
        self.bring("01800A10", "D2 046064")
        self.wait_until_handled()
        self.listener.forget()
        order_count = len(self.orders_of_others())
        topic = f"{TOPIC_ROOT}/orders"
        self.broker.publish(topic, "x" * 20000)
        self.broker.publish(topic, bytes(1000000))
        self.broker.publish(topic, "0" * 300 + "\nli\0st\nlearn on\r\nlearn off")
        self.assert_logged(f"message on '{topic}' ignored: 20000 bytes, the maximum is 16384")
        with self.subTest("the answers"):
            errors = [f'{{"error":"{error}","type":"error"}}' for error in ("too_long", "syntax")]
            self.assert_soon(self.answer_lines, [*errors, OK, OK])
        with self.subTest("the orders"):
            self.assert_seen(self.orders_of_others()[order_count:], ["0" * 202, "li\0st", "learn on", "learn off"])
        with self.subTest("the journal"):
            self.assert_seen(self.bridge.journal()[2:], [])


class OrdersLostByRestart(GatewayTest):
    """A gateway that is started again, as each day."""

    def test_orders_between_the_end_and_the_start_are_named(self):
        self.order("add 01800ABC D2-01-12")
        self.start_bridge()
        self.broker.publish(f"{TOPIC_ROOT}/01800ABC/OV/0/set", "ON")
        self.assert_soon(lambda: lines_of(self.gateway.desk)[-1:], ["switch 01800ABC 0 on"])
        self.wait_until_handled()
        self.gateway.end()
        self.broker.publish(f"{TOPIC_ROOT}/01800ABC/OV/0/set", "OFF")
        self.broker.publish(f"{TOPIC_ROOT}/orders", "list\nlevel 5 40 10")
        self.assert_soon(lambda: lines_of(self.gateway.desk)[-1:], ["level 5 40 10"])
        sent_before = self.stick.sent()
        self.gateway.start(self.stick)
        self.assert_logged("not answered before the gateway was started again, so probably lost: "
                           "'switch 01800ABC 0 off', 'level 5 40 10'")
        self.wait_until_handled()
        self.assert_seen(self.stick.sent(), sent_before)


class IgnoredMessages(BridgeTest):
    """Messages that are not given as orders. There is a desk, but no gateway."""

    def setUp(self):
        super().setUp()
        self.start_broker()
        self.bridge.desk.touch()
        self.start_bridge()

    def test_messages_that_are_no_commands(self):
        for command_topic, command, reason in INVALID_COMMANDS:
            with self.subTest(place=command_topic, command=command):
                topic = f"{TOPIC_ROOT}/{command_topic}/set"
                self.broker.publish(topic, command)
                self.assert_logged(f"message on '{topic}' ignored: {reason}")
        given_orders = [order for order in lines_of(self.bridge.desk) if order not in ORDERS_OF_BRIDGE]
        self.assert_seen(given_orders, [])

    def test_an_order_without_a_desk_is_lost(self):
        self.bridge.desk.unlink()
        self.broker.publish(f"{TOPIC_ROOT}/orders", "status")
        self.assert_logged(f"message on '{TOPIC_ROOT}/orders' lost: {self.bridge.desk}: No such file or directory")
