"""The Modbus server at a broker: readings that a test publishes in place of a bridge, a gateway, and a building."""
from __future__ import annotations

import contextlib
import pathlib
import re
import signal
import socket
import struct
import subprocess
import tempfile
import time
import unittest

from modbus_testcase import GOOD, NO_NUMBER, NO_READING, REQUEST, STALE, ModbusBroker, ModbusTest, Server, \
    seconds_since
from programs import Program, lines_of, wait_for
from services import CONTRIB, PROGRAM, ROOT, Bridge, Gateway, Stick

ROOM, LAMP, WINDOW = "01800ABC/TMP", "01800ABD/OV/0", "01800ABE/CO"
UNKNOWN_AGE = 65535
NO_REGISTER, OTHER_VALUE, NO_GATEWAY = 2, 3, 11
MAX_CONNECTIONS, MAX_CONNECTIONS_OF_ADDRESS = 32, 8
COMMAND, MODULES, TESTS = CONTRIB / "enogate-modbus", CONTRIB / "enogate_modbus", ROOT / "tests/modbus"
SERVED_TOPIC = re.compile("[0-9A-F]{8}/((CO|TMP|HUM|CONC|ILL|SVC|PIRS|OCC|SP)|"
                          "(OV|PFD?|OC|EL|LC|POS|ANG|LOCK|M[RV]_[a-zA-Z0-9_]+)/[0-9]+)")
WORDS = {"closed": 0, "open": 1, "off": 0, "on": 1, "released": 0, "pressed": 1, "ok": 0, "warning": 1, "failure": 2,
         "not_supported": 3}


def number_of(text: str) -> float:
    return float(WORDS.get(text, text))


def time_text(seconds: float) -> str:
    return time.strftime("%Y-%m-%dT%H:%M:%S+00:00", time.gmtime(seconds))


class PublishedReadings(ModbusTest):
    """A broker with a lamp, a room of two minutes ago, and a window. There is no gateway."""

    def setUp(self) -> None:
        self.work = pathlib.Path(self.enterContext(tempfile.TemporaryDirectory()))
        self.broker = self.enterContext(ModbusBroker(self.work))
        self.server = self.enterContext(Server(self.work, self.broker.port))
        # with a map there is no wait for its first write
        self.server.map_path.write_text("register,output,topic,unit,label,model\n"
                                        f"0,,{ROOM},°C,,\n4,1,{LAMP},,,\n8,,{WINDOW},,,\n")
        self.broker.start()
        self.publish_all()

    def publish_all(self) -> None:
        for topic, text in (("status", "online"), (ROOM, "20.5"), (LAMP, "100"), (WINDOW, "open"),
                            ("01800ABC/last_seen", time_text(time.time() - 150)),
                            ("01800ABE/last_seen", time_text(time.time() - 5000))):
            self.broker.publish(f"enogate/hall/{topic}", text, "-r")

    def start(self, **settings: str) -> None:
        """Starts the server, and waits until it has received the readings."""
        self.server.start(**settings)
        self.assert_soon(lambda: self.reading(LAMP), (100.0, GOOD, UNKNOWN_AGE))

    def test_values_qualities_and_ages(self) -> None:
        self.start()
        self.assertEqual([self.reading(topic) for topic in (ROOM, LAMP, WINDOW)],
                         [(20.5, GOOD, 2), (100.0, GOOD, UNKNOWN_AGE), (1.0, GOOD, 83)])
        for text, state in (("unknown", (None, NO_NUMBER, 2)), ("-40", (-40.0, GOOD, 2)),
                            ("", (None, NO_READING, UNKNOWN_AGE))):
            self.broker.publish(f"enogate/hall/{ROOM}", text, "-r")
            self.assert_soon(lambda: self.reading(ROOM), state)
        for text, quality in (("offline", STALE), ("online", GOOD)):
            self.broker.publish("enogate/hall/gateway", text, "-r")
            self.assert_soon(lambda: self.reading(LAMP)[:2], (100.0, quality))
        self.assertEqual(self.server.journal(), [
            f"enogate-modbus: listening at 127.0.0.1, port {self.server.port}; orders: no",
            f"enogate-modbus: connected to localhost:{self.broker.port}"])

    def test_what_others_publish(self) -> None:
        self.start()
        for topic, payload in ((LAMP, b"\xff" * 9999), (ROOM, b"1e999"), ("01800ABF/press", b"1"), ("x/y", b"\0"),
                               ("01800ABD/last_seen", b"9" * 999), ("status/x", b"offline"), ("lines", b"x" * 65536)):
            self.broker.publish(f"enogate/hall/{topic}", payload, "-r")
        self.broker.publish("homeassistant/sensor/enogate_hall/x_last_seen/config", b"[" * 60000, "-r")
        self.assert_soon(lambda: self.reading(LAMP)[:2], (None, NO_NUMBER))
        self.assert_soon(lambda: self.reading(ROOM)[:2], (None, NO_NUMBER))
        self.assertEqual(len(self.server.rows()), 3)

    def test_a_broker_that_is_away(self) -> None:
        """The readings are stale, orders are refused, and a client never waits for the broker."""
        self.start(MODBUS_ORDERS="yes")
        rows = self.server.rows()
        self.broker.end()
        self.assert_soon(lambda: self.reading(LAMP)[:2], (100.0, STALE))
        answer = self.new_client().write_coil(int(self.server.row(LAMP)["output"]), True)
        self.assertEqual(answer.exception_code, NO_GATEWAY)
        self.broker.start()
        self.publish_all()
        self.assert_soon(lambda: self.reading(LAMP)[:2], (100.0, GOOD))
        self.assertEqual(self.server.rows(), rows)
        self.assert_soon(lambda: self.server.journal()[-1],
                         f"enogate-modbus: connected to localhost:{self.broker.port}")

    def test_a_broker_that_does_not_answer(self) -> None:
        """To connect takes long. Meanwhile clients get answers."""
        silent = self.enterContext(contextlib.closing(socket.create_server(("127.0.0.1", 0), backlog=0)))
        # with a full queue, further connections are not accepted
        for _ in range(3):
            waiting = self.enterContext(contextlib.closing(socket.socket()))
            waiting.setblocking(False)
            waiting.connect_ex(silent.getsockname())
        self.start()
        self.server.end()
        self.server.broker_port = silent.getsockname()[1]
        self.server.start()
        client = self.enterContext(contextlib.closing(self.server.connect()))
        start = time.monotonic()
        for _ in range(20):
            self.assert_answers(client)
            time.sleep(0.02)
        self.assertLess(seconds_since(start), 3)

    def test_orders(self) -> None:
        self.start(MODBUS_ORDERS="yes")
        client, output = self.new_client(), int(self.server.row(LAMP)["output"])
        words = self.broker.client_command("sub", "-i", "modbus-listener", "-R", "-C", "4", "-W", "20", "-v", "-t",
                                           "enogate/hall/+/+/+/set")
        with subprocess.Popen(words, stdout=subprocess.PIPE, text=True) as listener:
            self.assertTrue(wait_for(lambda: self.broker.has_client("modbus-listener"), bool))
            for answer in (client.write_coil(output, True), client.write_register(output, 37),
                           client.write_coil(output, False), client.write_register(output, 100)):
                self.assertFalse(answer.isError(), answer)
            self.assertEqual(listener.communicate()[0].splitlines(),
                             [f"enogate/hall/{LAMP}/set {text}" for text in ("ON", "37", "OFF", "100")])
        for answer, code in ((client.write_register(output, 101), OTHER_VALUE),
                             (client.write_coil(0, True), NO_REGISTER),
                             (client.write_coil(9, True), NO_REGISTER), (client.read_coils(output, count=1), 1),
                             (client.write_coils(output, [True]), 1), (client.write_registers(output, [1]), 1)):
            self.assertEqual(answer.exception_code, code)
        self.assertNotIn(f"enogate/hall/{LAMP}/set", self.broker.retained())

    def test_orders_are_off_by_default(self) -> None:
        self.start()
        client = self.new_client()
        for answer in (client.write_coil(1, True), client.write_register(1, 1), client.write_registers(1, [1]),
                       client.write_coils(1, [True]), client.read_holding_registers(1, count=1)):
            self.assertEqual(answer.exception_code, 1)

    def test_a_flood_of_connections(self) -> None:
        """One address cannot take the connections of others, and what it opens is closed again."""
        self.start()
        client = self.new_client()
        flood = [self.enterContext(contextlib.closing(self.server.connect())) for _ in range(300)]
        for connection in flood[MAX_CONNECTIONS_OF_ADDRESS - 1:]:
            self.assert_closed(connection)
        self.assert_answers(flood[0])
        other = self.enterContext(contextlib.closing(socket.create_connection(
            ("127.0.0.1", self.server.port), 10, source_address=("127.0.0.2", 0))))
        self.assert_answers(other)
        self.assertFalse(client.read_input_registers(0, count=4).isError())
        for connection in flood:
            connection.close()
        self.assert_soon(lambda: self.reading(LAMP)[:2], (100.0, GOOD))

    def test_malformed_frames(self) -> None:
        self.start()
        for frame in ("0001 0001 0006 01", "0001 0000 0000 01", "0001 0000 0001 01", "0001 0000 00FF 01",
                      "0001 0000 FFFF 01", "FFFF FFFF FFFF FF", "4745 5420 2F20 48", "1603 0102 0001 00"):
            with contextlib.closing(self.server.connect()) as client:
                client.sendall(bytes.fromhex(frame) + REQUEST)
                self.assert_closed(client)
        with contextlib.closing(self.server.connect()) as client:
            for place in range(1, len(REQUEST)):
                client.sendall(REQUEST[:place])
                time.sleep(0.005)
                client.sendall(REQUEST[place:])
                self.assertEqual(len(client.recv(4096)), 11, place)
        self.assertEqual(len(self.server.journal()), 2, self.server.journal())

    def test_a_client_that_does_not_read(self) -> None:
        """The server keeps no answers for it without end."""
        self.start()
        client = self.enterContext(contextlib.closing(self.server.connect()))
        with self.assertRaises(ConnectionError):
            for _ in range(100000):
                client.sendall(struct.pack(">HHHBBHH", 1, 0, 6, 1, 4, 0, 12) * 16)
        self.assert_soon(lambda: self.reading(LAMP)[:2], (100.0, GOOD))

    def test_the_processor_time_of_an_idle_server(self) -> None:
        self.start()
        before = self.server.processor_seconds()
        time.sleep(2)
        self.assertLess(self.server.processor_seconds() - before, 0.1)


class FilesAndSettings(ModbusTest):
    """The server without a broker."""

    def setUp(self) -> None:
        self.work = pathlib.Path(self.enterContext(tempfile.TemporaryDirectory()))
        self.server = self.enterContext(Server(self.work, 1))

    def assert_ends(self, status: int, text: str, **settings: str) -> None:
        """The server ends with this status, and one line."""
        self.server.run_unit(**{"MODBUS_ADDRESS": "127.0.0.1", "MODBUS_PORT": str(self.server.port), **settings})
        self.assertEqual(self.server.process.wait(30), status)
        self.assertEqual(len(self.server.journal()), 1, self.server.journal())
        self.assertIn(text, self.server.journal()[0])

    def test_it_does_not_start(self) -> None:
        self.assert_ends(2, "invalid MODBUS_ADDRESS: ", MODBUS_ADDRESS="")
        self.assert_ends(1, "cannot listen: ", MODBUS_ADDRESS="192.0.2.1")
        self.server.map_path.write_text("register\n")
        self.assert_ends(2, "damaged register map ")
        self.server.map_path.unlink()
        with contextlib.closing(socket.create_server(("127.0.0.1", self.server.port))):
            self.assert_ends(1, "cannot listen: ")


class RealGateway(ModbusTest):
    """A gateway at a stick with its bridge. The server, the bridge and the broker are started again."""

    def setUp(self) -> None:
        self.work = pathlib.Path(self.enterContext(tempfile.TemporaryDirectory()))
        self.broker = self.enterContext(ModbusBroker(self.work))
        self.stick = self.enterContext(Stick(self.work))
        self.gateway = self.enterContext(Gateway(self.work))
        self.bridge = self.enterContext(Bridge(self.work, self.broker))
        self.server = self.enterContext(Server(self.work, self.broker.port))
        self.stick.start()
        self.gateway.start(self.stick)
        self.broker.start()

    def start_bridge(self) -> None:
        """Starts the bridge, and waits until it reads what the gateway writes: earlier telegrams have no time."""
        self.bridge.start()
        self.assertTrue(wait_for(lambda: any("connected to" in line for line in self.bridge.journal()), bool))

    def order(self, *orders: str) -> None:
        count = len(self.gateway.lines())
        self.gateway.order(*orders)
        self.assertTrue(wait_for(lambda: len(self.gateway.lines()) >= count + len(orders), bool))

    def test_restarts(self) -> None:
        """Broker, bridge and server: each reading keeps its registers. A device that comes later gets the next ones."""
        self.order("add 01800ABC A5-02-05", "label 01800ABC Office", "add 01800ABE D5-00-01")
        self.start_bridge()
        self.stick.bring("01800ABC", "A5 00007F08")
        self.stick.bring("01800ABE", "D5 09")
        self.server.start()
        self.assert_soon(lambda: self.reading(ROOM), (20.0784, GOOD, 0))
        self.assert_soon(lambda: self.reading(WINDOW), (0.0, GOOD, 0))
        self.assert_soon(lambda: [tuple(row.values()) for row in self.server.rows()], [
            ("0", "", ROOM, "°C", "Office", "Temperature sensor (A5-02-05)"),
            ("4", "", WINDOW, "", "D5-00-01 01800ABE", "Contact (D5-00-01)")])
        rows = self.server.rows()
        for program, start in ((self.server, self.server.start), (self.bridge, self.start_bridge)):
            program.end(signal.SIGKILL)
            start()
            self.assert_soon(lambda: self.reading(WINDOW), (0.0, GOOD, 0))
        self.broker.end()
        self.assert_soon(lambda: self.reading(WINDOW)[:2], (0.0, STALE))
        self.broker.start()
        self.assert_soon(lambda: self.reading(WINDOW)[:2], (0.0, GOOD))
        self.assertEqual(self.server.rows(), rows)
        self.order("add 01800AAA D5-00-01", "remove 01800ABE")
        self.stick.bring("01800AAA", "D5 08")
        self.assert_soon(lambda: self.reading("01800AAA/CO"), (1.0, GOOD, 0))
        self.assert_soon(lambda: self.reading(WINDOW), (None, NO_READING, UNKNOWN_AGE))
        self.assertEqual([row["topic"] for row in self.server.rows()], [ROOM, WINDOW, "01800AAA/CO"])

    def test_the_end_of_the_bridge(self) -> None:
        self.order("add 01800ABE D5-00-01")
        self.start_bridge()
        self.stick.bring("01800ABE", "D5 09")
        self.server.start()
        self.assert_soon(lambda: self.reading(WINDOW)[:2], (0.0, GOOD))
        self.bridge.end()
        self.assert_soon(lambda: self.reading(WINDOW)[:2], (0.0, STALE))


class BuildingServer(Server):
    """The server of the gateway `attic` of a virtual building, at a broker without passwords."""

    def run_unit(self, **variables: str) -> None:
        self.run([COMMAND, "--map", self.map_path, "attic"],
                 **{**variables, "MQTT_USER": "", "MQTT_PASSWORD_FILE": "", "MODBUS_ORDERS": "yes"})


class WholeBuilding(ModbusTest):
    """`make building`, and a server for one of its gateways."""

    @classmethod
    def setUpClass(cls) -> None:
        super().setUpClass()
        cls.folder = pathlib.Path(cls.enterClassContext(tempfile.TemporaryDirectory()))
        cls.building = cls.enterClassContext(Program(cls.folder / "journal"))
        cls.building.run([ROOT / "scripts/building", PROGRAM], cls.folder / "out", BUILDING=str(cls.folder / "files"))
        config = wait_for(lambda: "".join(lines_of(cls.folder / "files/broker.conf")), bool)
        cls.port = re.search("listener ([0-9]+) ", config)[1]
        cls.server = cls.enterClassContext(BuildingServer(cls.folder, int(cls.port)))
        cls.server.start()
        for _ in range(2):
            is_ready = wait_for(lambda: any("Ctrl-C" in line for line in lines_of(cls.folder / "out")), bool)
        assert is_ready, (lines_of(cls.folder / "out"), cls.building.journal())

    def published(self) -> dict[str, str]:
        """The readings that the broker retains, by topic, that are no events."""
        words = ["mosquitto_sub", "-p", self.port, "--retained-only", "-W", "1", "-v", "-t", "enogate/attic/+/+",
                 "-t", "enogate/attic/+/+/+"]
        messages = (line.removeprefix("enogate/attic/").partition(" ")
                    for line in subprocess.run(words, capture_output=True, text=True).stdout.splitlines())
        return {topic: text for topic, _, text in messages if SERVED_TOPIC.fullmatch(topic)}

    def all_values(self) -> dict[str, float]:
        """The values of all rows of the map that are good, by topic."""
        rows, client, registers = self.server.rows(), self.new_client(), []
        for first in range(0, 4 * len(rows), 120):
            answer = client.read_input_registers(first, count=min(120, 4 * len(rows) - first))
            registers += answer.registers
        floats = [struct.unpack(">f", struct.pack(">HH", *registers[first:first + 2]))[0]
                  for first in range(0, len(registers), 4)]
        return {row["topic"]: value for row, value, quality in zip(rows, floats, registers[2::4]) if quality == GOOD}

    def differences(self) -> list[tuple[str, str, float | None]]:
        """The readings whose text and value are not the same. Devices send while they are compared."""
        values = self.all_values()
        texts = self.published()
        return [(topic, text, values.get(topic)) for topic, text in texts.items()
                if text != "unknown" and abs(values.get(topic, 1e9) - number_of(text)) > 1e-3]

    def test_all_registers(self) -> None:
        self.assert_soon(lambda: self.differences(), [])
        self.assertGreater(len(self.all_values()), 30)
        self.assertEqual({row["topic"] for row in self.server.rows()}, set(self.published()))
        labels = {row["label"] for row in self.server.rows()}
        self.assertLessEqual({"Meeting window", "Meeting climate"}, labels)

    def test_a_lamp_a_dimmer_and_a_blind(self) -> None:
        """They report what they have done."""
        lamp, client = self.server.row("01800A2F/OV/1"), self.new_client()
        for state, value in ((True, 100.0), (False, 0.0), (True, 100.0)):
            self.assertFalse(client.write_coil(int(lamp["output"]), state).isError())
            self.assert_soon(lambda: self.reading(lamp["topic"])[:2], (value, GOOD))
        for topic in ("01800A2E/OV/0", "01800A30/POS/0"):
            self.assertFalse(client.write_register(int(self.server.row(topic)["output"]), 30).isError())
            self.assert_soon(lambda: self.reading(topic)[:2], (30.0, GOOD))


if __name__ == "__main__":
    unittest.main()
