"""Requests and answers, byte by byte, and the connections of clients. The expected bytes are those of the protocol's
specification."""
from __future__ import annotations

import unittest.mock

from enogate_modbus.protocol import Answers, Connection, Refused
from modbus_testcase import MapTest

# The topics of the rows 0 to 4.
TOPICS = ("01800ABA/TMP", "01800ABB/OV/0", "01800ABB/OV/1", "01800ABC/POS/0", "01800ABD/CO")
READ = bytes.fromhex("04 0000 0002")
TEMPERATURE = bytes.fromhex("04 04 41A40000")
FUNCTIONS_OF_ORDERS = (5, 6)
REQUEST = bytes.fromhex("0007 0000 0006 11") + READ
ANSWER = bytes.fromhex("0007 0000 0007 11") + TEMPERATURE


class AnswersTest(MapTest):
    """Five readings. The first and the last output are known."""

    def setUp(self) -> None:
        super().setUp()
        self.open_map()
        self.add(TOPICS)
        self.receive_now("01800ABA/TMP", "20.5")
        self.receive_now("01800ABD/CO", "open")
        self.given: list[tuple[str, str]] = []
        self.answers = Answers(self.map, self.readings, lambda *command: self.given.append(command))

    def answer(self, request: str) -> str:
        return self.answers.answer(bytes.fromhex(request)).hex(" ")

    def assert_answers(self, *requests_and_answers: tuple[str, str]) -> None:
        for request, answer in requests_and_answers:
            self.assertEqual(self.answer(request), bytes.fromhex(answer).hex(" "), request)


class ReadRequests(AnswersTest):
    def test_the_registers_of_a_reading(self):
        self.assert_answers(("04 0000 0004", "04 08 41A4 0000 0001 0000"),
                            ("04 0010 0004", "04 08 3F80 0000 0001 0000"),
                            ("04 0004 0004", "04 08 7FC0 0000 0000 FFFF"))

    def test_a_part_of_some_readings(self):
        self.assert_answers(("04 0000 0001", "04 02 41A4"), ("04 0002 0003", "04 06 0001 0000 7FC0"),
                            ("04 0003 0001", "04 02 0000"), ("04 0007 0002", "04 04 FFFF 7FC0"),
                            ("04 0012 0002", "04 04 0001 0000"), ("04 0013 0001", "04 02 0000"))
        self.assertEqual(len(self.answer("04 0000 0014").split()), 2 + 40)

    def test_registers_that_do_not_exist(self):
        self.assert_answers(*((request, "84 02") for request in (
            "04 0014 0001", "04 0013 0002", "04 0000 0015", "04 FFFF 0001", "04 FFFF 007D", "04 0000 007D")))

    def test_wrong_counts(self):
        self.assert_answers(*((request, "84 03") for request in (
            "04 0000 0000", "04 0000 007E", "04 0000 FFFF", "04", "04 00", "04 0000 00", "04 0000 0001 00")))

    def test_the_longest_request(self):
        self.add([f"0180{number:04X}/TMP" for number in range(32)])
        self.assertEqual(len(self.answer("04 0000 007D").split()), 2 + 250)

    def test_an_empty_map(self):
        self.path.unlink()
        self.answers = Answers(self.open_map(), self.readings, None)
        self.assert_answers(("04 0000 0001", "84 02"), ("05 0000 FF00", "85 01"))


class OtherFunctions(AnswersTest):
    def test_without_orders_only_input_registers_are_read(self):
        answers = Answers(self.map, self.readings, None)
        for function in set(range(256)) - {4}:
            for body in (b"", b"\0\1\xff\0", b"\0\1\0\1\1\1", b"\0\1\0\1\2\0\1"):
                self.assertEqual(answers.answer(bytes([function]) + body), bytes([function | 0x80, 1]))

    def test_with_orders_two_functions_write(self):
        for function in set(range(256)) - {4, *FUNCTIONS_OF_ORDERS}:
            for body in (b"", b"\0\1\0\1", b"\0\0\0\0", b"\0\1\0\1\1\1", b"\0\1\0\1\2\0\1", b"\xff" * 200):
                self.assertEqual(self.answers.answer(bytes([function]) + body), bytes([function | 0x80, 1]))
        self.assertEqual(self.given, [])


class WriteRequests(AnswersTest):
    def assert_given(self, request: str, answer: str, *commands: tuple[str, str]) -> None:
        self.assert_answers((request, answer))
        self.assertEqual(self.given, list(commands), request)
        self.given.clear()

    def test_coils(self):
        self.assert_given("05 0001 FF00", "05 0001 FF00", ("01800ABB/OV/0", "ON"))
        self.assert_given("05 0002 0000", "05 0002 0000", ("01800ABB/OV/1", "OFF"))

    def test_holding_registers(self):
        for value in range(101):
            self.assert_given(f"06 0001 {value:04X}", f"06 0001 {value:04X}", ("01800ABB/OV/0", str(value)))
        self.assert_given("06 0003 0064", "06 0003 0064", ("01800ABC/POS/0", "100"))

    def test_other_values(self):
        for value in (1, 0xFF, 0x100, 0xFEFF, 0xFF01, 0xFFFF):
            self.assert_given(f"05 0001 {value:04X}", "85 03")
        for value in (101, 255, 256, 1000, 0x7FFF, 0x8000, 0xFFFF):
            self.assert_given(f"06 0001 {value:04X}", "86 03")
            self.assert_given(f"06 0003 {value:04X}", "86 03")

    def test_addresses_without_an_output(self):
        for address in ("0000", "0004", "0005", "FFFF"):
            self.assert_given(f"05 {address} FF00", "85 02")
            self.assert_given(f"06 {address} 0001", "86 02")
        self.assert_given("05 0003 FF00", "85 02")
        self.assert_given("05 0003 0000", "85 02")
        self.assert_given("05 0003 1234", "85 02")

    def test_wrong_forms(self):
        for function in FUNCTIONS_OF_ORDERS:
            for rest in ("", "00", "0001", "0001 00", "0001 FF00 00", "0001 0000 00"):
                self.assert_given(f"{function:02X} {rest}", f"{function | 0x80:02X} 03")

    def test_a_refused_order(self):
        for code in (6, 11):
            self.answers.give = unittest.mock.Mock(side_effect=Refused(code))
            self.assert_answers(("05 0001 FF00", f"85 {code:02X}"), ("06 0001 0000", f"86 {code:02X}"))


class FakeTransport:
    """A connection of TCP. What is written after its end is lost."""

    def __init__(self, address: str = "192.0.2.1"):
        self.address, self.written, self.is_aborted = address, b"", False

    def get_extra_info(self, name: str) -> tuple[str, int]:
        return {"peername": (self.address, 40000)}[name]

    def write(self, content: bytes) -> None:
        self.written += content

    def abort(self) -> None:
        self.is_aborted = True

    def is_closing(self) -> bool:
        return self.is_aborted


class FakeTimer:
    def __init__(self, seconds: float, call) -> None:
        self.seconds, self.call, self.is_cancelled = seconds, call, False

    def cancel(self) -> None:
        self.is_cancelled = True


class ConnectionTest(AnswersTest):
    def setUp(self) -> None:
        super().setUp()
        self.connections: set[Connection] = set()
        self.timers: list[FakeTimer] = []
        loop = unittest.mock.Mock()
        loop.call_later = lambda seconds, call: self.timers.append(FakeTimer(seconds, call)) or self.timers[-1]
        self.enterContext(unittest.mock.patch("asyncio.get_running_loop", lambda: loop))

    def connect(self, address: str = "192.0.2.1") -> Connection:
        connection = Connection(self.answers, self.connections)
        connection.connection_made(FakeTransport(address))
        return connection

    def end(self, connection: Connection) -> None:
        connection.transport.abort()
        connection.connection_lost(None)


class Streams(ConnectionTest):
    def test_a_request_in_two_parts(self):
        for place in range(len(REQUEST) + 1):
            connection = self.connect()
            connection.data_received(REQUEST[:place])
            self.assertEqual(connection.transport.written, b"" if place < len(REQUEST) else ANSWER)
            connection.data_received(REQUEST[place:])
            self.assertEqual((connection.transport.written, connection.transport.is_aborted), (ANSWER, False), place)
            self.end(connection)

    def test_byte_by_byte_and_several_at_once(self):
        connection = self.connect()
        for byte in REQUEST * 2:
            connection.data_received(bytes([byte]))
        connection.data_received(REQUEST * 16)
        self.assertEqual((connection.transport.written, connection.transport.is_aborted), (ANSWER * 18, False))

    def test_number_and_unit_are_those_of_the_request(self):
        for number, unit in ((0, 0), (0xFFFF, 0xFF), (1, 1)):
            connection = self.connect()
            start = number.to_bytes(2, "big")
            connection.data_received(start + bytes.fromhex("0000 0006") + bytes([unit]) + READ)
            self.assertEqual(connection.transport.written,
                             start + bytes.fromhex("0000 0007") + bytes([unit]) + TEMPERATURE)
            self.end(connection)

    def test_an_exception_keeps_the_connection(self):
        connection = self.connect()
        connection.data_received(bytes.fromhex("0001 0000 0002 01 2B") + REQUEST)
        self.assertEqual(connection.transport.written, bytes.fromhex("0001 0000 0003 01 AB 01") + ANSWER)

    def test_anything_else_ends_the_connection(self):
        for start in ("0001 0001 0006 01", "0001 0100 0006 01", "0001 0000 0000 01", "0001 0000 0001 01",
                      "0001 0000 00FF 01", "0001 0000 FFFF 01", "4745 5420 2F20 48", "1603 0102 0001 00"):
            connection = self.connect()
            connection.data_received(bytes.fromhex(start) + REQUEST)
            self.assertEqual((connection.transport.written, connection.transport.is_aborted), (b"", True), start)
            self.end(connection)

    def test_the_longest_request(self):
        connection = self.connect()
        connection.data_received(bytes.fromhex("0001 0000 00FE 01 04") + bytes(252))
        self.assertEqual(connection.transport.written, bytes.fromhex("0001 0000 0003 01 84 03"))

    def test_too_much_at_once(self):
        connection = self.connect()
        connection.data_received(REQUEST * 400)
        self.assertEqual((connection.transport.written, connection.transport.is_aborted), (b"", True))

    def test_a_client_that_does_not_read(self):
        connection = self.connect()
        write = connection.transport.write
        connection.transport.write = lambda answer: (write(answer), connection.pause_writing())
        connection.data_received(REQUEST * 3)
        self.assertEqual((connection.transport.written, connection.transport.is_aborted), (ANSWER, True))


class Limits(ConnectionTest):
    def test_of_one_address(self):
        connections = [self.connect() for _ in range(9)]
        self.assertEqual([connection.transport.is_aborted for connection in connections], [False] * 8 + [True])
        self.assertFalse(self.connect("192.0.2.2").transport.is_aborted)
        self.end(connections[8])
        self.end(connections[0])
        self.assertFalse(self.connect().transport.is_aborted)
        self.assertTrue(self.connect().transport.is_aborted)

    def test_of_all(self):
        connections = [self.connect(f"192.0.2.{number}") for number in range(33)]
        self.assertEqual([connection.transport.is_aborted for connection in connections], [False] * 32 + [True])

    def test_an_idle_connection(self):
        """Only a request that was answered counts."""
        connection = self.connect()
        connection.data_received(REQUEST[:-1])
        self.assertEqual([(timer.seconds, timer.is_cancelled) for timer in self.timers], [(300.0, False)])
        connection.data_received(REQUEST[-1:])
        self.assertEqual([timer.is_cancelled for timer in self.timers], [True, False])
        self.timers[-1].call()
        self.assertTrue(connection.transport.is_aborted)
        connection.connection_lost(None)
        self.assertTrue(self.timers[-1].is_cancelled)
        self.assertEqual(self.connections, set())
