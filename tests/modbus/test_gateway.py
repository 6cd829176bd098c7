"""The gateway as it is seen at the broker, orders to it, and the settings of the program."""
from __future__ import annotations

import contextlib
import io
import os
import pathlib
import signal
import subprocess
import threading
import unittest.mock

from enogate_modbus import main as main_module
from enogate_modbus.main import Gateway, read_arguments, read_server_settings
from enogate_modbus.protocol import Refused
from enogate_modbus.readings import GOOD, STALE
from enogate_mqtt.connection import NOT_SENT, ConnectionLost
from enogate_mqtt.settings import WrongSetting
from enogate_mqtt.topics import Message
from enogate_tools import VERSION
from fakes import FakeBroker
from modbus_testcase import MapTest

COMMAND = pathlib.Path(__file__).resolve().parents[2] / "contrib/enogate-modbus"
LAMP, BLIND = "01800ABB/OV/0", "01800ABC/POS/0"
DEVICE_BUSY, NO_RESPONSE = 6, 11
ONLINE = {f"enogate/hall/{name}": "online" for name in ("status", "gateway", "module")}


class GatewayTest(MapTest):
    """A broker that retains the reading of a lamp, and no connection to it yet."""

    def setUp(self) -> None:
        super().setUp()
        self.readings.start_session()
        self.open_map()
        self.broker = FakeBroker()
        self.broker.memory = {f"enogate/hall/{LAMP}": "100", **ONLINE}
        self.gateway = Gateway(self.broker, self.readings, self.map, self.clock)

    def connect(self) -> None:
        self.broker.accept_connection()
        self.gateway.turn()
        self.gateway.turn()

    def state(self) -> tuple[float, int]:
        return self.readings.state_of(LAMP)


class BrokerConnections(GatewayTest):
    def test_everything_is_requested_when_a_connection_is_opened(self):
        self.assertFalse(self.gateway.turn())
        self.broker.accept_connection()
        self.assertTrue(self.gateway.turn())
        self.assertEqual(self.broker.connection.requests, [self.readings.filters])
        self.assertEqual(self.state(), (100.0, GOOD))
        self.assertEqual(self.broker.messages, ["connected"])
        self.assertFalse(self.gateway.turn())
        self.assertEqual(len(self.broker.connection.requests), 1)
        self.assertEqual(self.map.known_topics, {LAMP})

    def test_without_a_connection_the_broker_is_not_asked(self):
        """To connect may take seconds."""
        with unittest.mock.patch.object(self.broker, "turn", side_effect=AssertionError):
            self.gateway.turn()

    def test_a_new_reading_gets_registers(self):
        self.connect()
        self.pass_time()
        self.assertEqual(self.map.topics, [LAMP])
        self.broker.connection.publish(Message(f"enogate/hall/{BLIND}", "0", True))
        self.broker.connection.request_retained([f"enogate/hall/{BLIND}"])
        self.clock.now += 10
        self.gateway.turn()
        self.assertEqual(self.map.topics, [LAMP, BLIND])

    def test_a_lost_connection(self):
        self.connect()
        self.broker.lose()
        self.gateway.turn()
        self.assertEqual(self.state(), (100.0, STALE))
        self.connect()
        self.assertEqual(self.state(), (100.0, GOOD))

    def test_a_reading_that_was_removed_meanwhile_is_stale(self):
        self.connect()
        self.broker.lose()
        self.gateway.turn()
        del self.broker.memory[f"enogate/hall/{LAMP}"]
        self.connect()
        self.assertEqual((self.state(), self.readings.is_online()), ((100.0, STALE), True))

    def test_another_connection_in_one_turn(self):
        """What the earlier one has sent does not count for the new one."""
        self.connect()
        del self.broker.memory[f"enogate/hall/{LAMP}"]
        self.broker.accept_connection()
        self.gateway.turn()
        self.assertEqual(self.state(), (100.0, STALE))

    def test_a_connection_that_is_lost_by_the_request(self):
        self.broker.accept_connection()
        self.broker.connection.request_retained = unittest.mock.Mock(side_effect=ConnectionLost("why"))
        self.gateway.turn()
        self.assertEqual((self.broker.given_loss_reasons, self.gateway.connection), (["why"], None))
        self.connect()
        self.assertEqual(self.state(), (100.0, GOOD))


class Orders(GatewayTest):
    def assert_refused(self, code: int) -> None:
        published_before = list(self.broker.connection.published) if self.broker.connection else []
        with self.assertRaises(Refused) as refusal:
            self.gateway.give(LAMP, "ON")
        self.assertEqual(refusal.exception.args, (code,))
        if self.broker.connection:
            self.assertEqual(self.broker.connection.published, published_before)

    def test_commands_are_published_and_not_retained(self):
        self.connect()
        self.gateway.give(LAMP, "ON")
        self.gateway.give(BLIND, "50")
        self.assertEqual(self.broker.connection.published, [(f"enogate/hall/{LAMP}/set", "ON", False),
                                                            (f"enogate/hall/{BLIND}/set", "50", False)])

    def test_a_gateway_that_does_not_answer(self):
        self.assert_refused(NO_RESPONSE)
        self.connect()
        for name in ("status", "gateway", "module"):
            self.receive(name, "offline")
            self.assert_refused(NO_RESPONSE)
            self.receive(name, "online")
        self.gateway.give(LAMP, "ON")
        self.broker.lose()
        self.gateway.turn()
        self.assert_refused(NO_RESPONSE)

    def test_a_broker_that_is_connected_again_but_has_sent_nothing(self):
        self.connect()
        self.broker.memory.clear()
        self.broker.lose()
        self.gateway.turn()
        self.connect()
        self.assert_refused(NO_RESPONSE)

    def test_a_command_that_cannot_be_sent(self):
        self.connect()
        self.broker.connection.publish = lambda _message: NOT_SENT
        with self.assertRaises(Refused) as refusal:
            self.gateway.give(LAMP, "ON")
        self.assertEqual(refusal.exception.args, (NO_RESPONSE,))

    def give_all(self, count: int) -> None:
        for _ in range(count):
            self.gateway.give(LAMP, "ON")

    def test_the_limit_of_orders(self):
        """Twenty at once, then two per second; an hour without orders permits no more than twenty."""
        self.connect()
        self.give_all(20)
        self.assert_refused(DEVICE_BUSY)
        self.clock.now += 0.4
        self.assert_refused(DEVICE_BUSY)
        self.clock.now += 0.11
        self.give_all(1)
        self.assert_refused(DEVICE_BUSY)
        self.clock.now += 3600
        self.give_all(20)
        self.assert_refused(DEVICE_BUSY)

    def test_refused_orders_do_not_count(self):
        for _ in range(30):
            self.assert_refused(NO_RESPONSE)
        self.connect()
        self.give_all(20)


class Settings(unittest.TestCase):
    def test_the_address_has_no_default(self):
        for environment in ({}, {"MODBUS_ADDRESS": ""}, {"MODBUS_ADDRESS": " "}, {"MODBUS_ADDRESS": "*"},
                            {"MODBUS_ADDRESS": "0"}, {"MODBUS_ADDRESS": "localhost"}, {"MODBUS_ADDRESS": "010.0.0.1"},
                            {"MODBUS_ADDRESS": "192.0.2.1:502"}, {"MODBUS_ADDRESS": "192.0.2.0/24"}):
            with self.assertRaisesRegex(WrongSetting, "^invalid MODBUS_ADDRESS: "):
                read_server_settings(environment)

    def test_values(self):
        for environment, settings in (
            ({"MODBUS_ADDRESS": "192.0.2.1"}, ("192.0.2.1", 1502, False)),
            ({"MODBUS_ADDRESS": "0.0.0.0", "MODBUS_PORT": "", "MODBUS_ORDERS": ""}, ("0.0.0.0", 1502, False)),
            ({"MODBUS_ADDRESS": "::1", "MODBUS_PORT": "502", "MODBUS_ORDERS": "yes"}, ("::1", 502, True)),
            ({"MODBUS_ADDRESS": "127.0.0.1", "MODBUS_ORDERS": "no"}, ("127.0.0.1", 1502, False)),
        ):
            self.assertEqual(read_server_settings(environment), settings)

    def test_wrong_values(self):
        for name, text in (("MODBUS_PORT", "0"), ("MODBUS_PORT", "65536"), ("MODBUS_PORT", "x"),
                           ("MODBUS_ORDERS", "on"), ("MODBUS_ORDERS", "YES")):
            with self.assertRaisesRegex(WrongSetting, f"^invalid {name}: {text} "):
                read_server_settings({"MODBUS_ADDRESS": "127.0.0.1", name: text})

    def test_the_command_line(self):
        words = read_arguments(["--map", "m.csv", "hall"])
        self.assertEqual((words.name, words.map), ("hall", "m.csv"))
        for arguments, reason in ((["hall"], "--map"), (["--map", "m"], "NAME"), (["--map", "m", "a/b"], "'a/b'"),
                                  (["--map", "m", "a", "b"], "unrecognized"), (["--ma", "m", "a"], "--map")):
            with self.assertRaisesRegex(WrongSetting, reason):
                read_arguments(arguments)
        output = io.StringIO()
        with self.assertRaises(SystemExit) as end, contextlib.redirect_stdout(output):
            read_arguments(["--version"])
        self.assertEqual((end.exception.code, output.getvalue()), (0, f"enogate-modbus {VERSION}\n"))


class ProgramStart(MapTest):
    """The program, without paho and a broker."""

    def start(self, **settings: str) -> int:
        environment = {"MODBUS_ADDRESS": "127.0.0.1", "MODBUS_PORT": "1502", **settings}
        with unittest.mock.patch("sys.argv", ["enogate-modbus", "--map", str(self.path), "hall"]), \
                unittest.mock.patch("os.environ", environment), \
                unittest.mock.patch("enogate_mqtt.log.set_up_logging"), \
                unittest.mock.patch.object(main_module, "import_paho"):
            return main_module.main()

    def test_faults_are_one_line(self):
        self.path.write_text("x\n")
        for settings, line in (({}, f"damaged register map {self.path}: "), ({"MODBUS_ADDRESS": ""}, "invalid MODBUS"),
                               ({"MQTT_PORT": "x"}, "invalid MQTT_PORT: x"), ({"MODBUS_PORT": "x"}, "invalid MODBUS"),
                               ({"MQTT_EXPIRE_AFTER": "x"}, "invalid MQTT_EXPIRE_AFTER")):
            self.logged_lines.clear()
            self.assertEqual(self.start(**settings), 2)
            self.assertEqual(len(self.logged_lines), 1)
            self.assertTrue(self.logged_lines[0].startswith(f"ERROR: {line}"), self.logged_lines)

    def test_an_address_of_another_computer(self):
        self.assertEqual(self.start(MODBUS_ADDRESS="192.0.2.1"), 1)
        self.assertEqual(len(self.logged_lines), 1)
        self.assertRegex(self.logged_lines[0], "^ERROR: cannot listen: .*192.0.2.1")

    def test_a_signal_stops_it(self):
        """It listens before it connects for the first time, and connects in another thread."""
        connecting_threads = []

        def connect(*arguments: object) -> None:
            # a reader with a name of its own: with that of another client, each would throw the other out
            self.assertEqual(arguments[-2:], (True, ".modbus"))
            connecting_threads.append(threading.current_thread())
            os.kill(os.getpid(), signal.SIGTERM)
            raise ConnectionLost("why")

        self.addCleanup(signal.signal, signal.SIGTERM, signal.getsignal(signal.SIGTERM))
        with unittest.mock.patch("asyncio.base_events.BaseEventLoop.create_server") as create_server, \
                unittest.mock.patch("enogate_mqtt.connection.Connection", side_effect=connect), \
                unittest.mock.patch.object(main_module, "Answers") as answers:
            self.assertEqual(self.start(), 0)
            self.assertIsNone(answers.call_args.args[2])
            self.logged_lines.clear()
            self.assertEqual(self.start(MODBUS_ORDERS="yes"), 0)
            self.assertIsNotNone(answers.call_args.args[2])
        self.assertNotIn(threading.main_thread(), connecting_threads)
        self.assertEqual(create_server.call_args.args[1:], ("127.0.0.1", 1502))
        self.assertEqual(self.logged_lines, ["INFO: listening at 127.0.0.1, port 1502; orders: yes",
                                             "WARNING: no connection to localhost:1883: why"])

    def test_the_command(self):
        run = subprocess.run([COMMAND, "--help"], capture_output=True, text=True)
        self.assertEqual((run.returncode, run.stderr), (0, ""))
        self.assertIn("--map PATH", run.stdout)
        run = subprocess.run([COMMAND, "--map", self.path, "hall"], capture_output=True, text=True, env={})
        self.assertEqual((run.returncode, len(run.stderr.splitlines())), (2, 1))
        self.assertTrue(run.stderr.startswith("enogate-modbus: invalid MODBUS_ADDRESS: "), run.stderr)
