"""The wait of the bridge, over real files, without a clock: each wait says at once whether it would go on."""
import ctypes
import json
import math
import os
import pathlib
import select
import socket
import tempfile
import types
import unittest.mock

from enogate_lines.inotify import LONGEST_WAIT, POLL_PAUSE
from enogate_mqtt import wake
from enogate_mqtt.connection import Connection
from enogate_mqtt.settings import Login
from enogate_mqtt.wake import Waiter
from fakes import LogTest, Clock, BridgeFixture, listing, reading, status
from test_connection import TOPICS, fake_paho

HOUR = 3600
RESPONSE = {"code": 0, "data": "FF800000", "name": "OK", "type": "response"}
ANSWERS = {"status": [status()], "list": listing(("01800000", "D2-01-12", "lamp"))}


class FakeConnection:
    """A connection with these sockets."""

    def __init__(self, readable_sockets, writable_sockets, has_work=False):
        self.sockets_of_kinds, self.is_working = (readable_sockets, writable_sockets), has_work

    def sockets(self):
        return self.sockets_of_kinds

    def has_work(self):
        return self.is_working


class FileWaits(LogTest):
    """A bridge with its lines and its desk in two directories."""

    def setUp(self):
        super().setUp()
        folder = tempfile.TemporaryDirectory()
        self.addCleanup(folder.cleanup)
        self.log, self.run_folder = pathlib.Path(folder.name, "log"), pathlib.Path(folder.name, "run")
        self.lines, self.desk = self.log / "hall.lines", self.run_folder / "desk"
        for file in (self.lines, self.desk):
            file.parent.mkdir()
            file.touch()
        # what select was called with
        self.seconds, self.reading, self.writing = 0.0, [], []
        patch = unittest.mock.patch.object(wake.select, "select", self.look)
        self.select = select.select
        patch.start()
        self.addCleanup(patch.stop)

    def look(self, reading, writing, _, seconds):
        self.seconds, self.reading, self.writing = seconds, reading, writing
        ready_files = self.select(reading, writing, [], 0)
        self.is_over = seconds == 0 or any(ready_files)
        return ready_files

    def start(self):
        """A bridge that has waited before."""
        self.wake = Waiter([str(self.lines), str(self.desk)])
        self.addCleanup(lambda: [os.close(file) for file in (self.wake.stops, self.wake.files.file) if file >= 0])
        self.assertTrue(self.waits())
        self.assertFalse(self.waits())

    def waits(self, *connections, seconds=10.0, watches=True):
        """Whether a wait would end at once."""
        self.wake.wait(connections, seconds, watches)
        return self.is_over

    def test_an_idle_wait(self):
        self.start()
        self.assertEqual(self.seconds, LONGEST_WAIT)
        self.waits(seconds=0.5)
        self.assertEqual(self.seconds, 0.5)

    def test_lines_and_orders_end_a_wait(self):
        self.start()
        for path in (self.lines, self.desk):
            append(path, b"line\n")
            self.assertTrue(self.waits())
            self.assertFalse(self.waits())

    def test_files_that_are_not_looked_at(self):
        self.start()
        append(self.lines, b"line\n")
        self.assertFalse(self.waits(watches=False))
        self.assertTrue(self.waits())

    def test_messages_end_a_wait(self):
        self.start()
        near_socket, far_socket = socket.socketpair()
        self.addCleanup(near_socket.close)
        self.addCleanup(far_socket.close)
        connection = FakeConnection([near_socket], [])
        self.assertFalse(self.waits(connection))
        far_socket.send(b"x")
        self.assertTrue(self.waits(connection))

    def test_what_cannot_be_sent_yet_ends_a_wait(self):
        self.start()
        near_socket, far_socket = socket.socketpair()
        self.addCleanup(near_socket.close)
        self.addCleanup(far_socket.close)
        self.assertTrue(self.waits(FakeConnection([near_socket], [near_socket])))

    def test_a_connection_with_work_ends_a_wait(self):
        self.start()
        self.assertTrue(self.waits(FakeConnection([], [], True)))

    def test_a_signal_ends_all_waits(self):
        self.start()
        self.wake.stop()
        self.assertTrue(self.waits())
        self.assertTrue(self.waits(watches=False))

    def test_without_inotify(self):
        with unittest.mock.patch.object(ctypes, "CDLL", side_effect=OSError("none")):
            waiter = Waiter(["/log/hall.lines"])
        self.addCleanup(os.close, waiter.stops)
        with unittest.mock.patch.object(wake.select, "select", return_value=([], [], [])) as select:
            waiter.wait([], 1.0, True)
        select.assert_called_once_with([waiter.stops], [], [], 0.1)


class ConnectionWaits(LogTest):
    """What is waited for of a connection."""

    def setUp(self):
        super().setUp()
        module = fake_paho(1)
        self.connection = Connection(module, Login("h", 1883, None, None, None), TOPICS, 5, Clock())
        self.client, self.socket = module.clients[0], types.SimpleNamespace(fileno=lambda: 4)
        self.client.socket, self.client.want_write = lambda: self.socket, lambda: False

    def test_a_connection(self):
        self.assertEqual((self.connection.sockets(), self.connection.has_work()), (([self.socket], []), False))

    def test_something_to_send(self):
        self.client.want_write = lambda: True
        self.assertEqual(self.connection.sockets(), ([self.socket], [self.socket]))

    def test_bytes_that_tls_has_decrypted(self):
        for count in (0, 1):
            self.socket.pending = lambda: count
            self.assertEqual(self.connection.has_work(), count == 1)

    def test_a_message_that_could_not_be_sent(self):
        self.connection.send_error = "broken pipe"
        self.assertTrue(self.connection.has_work())

    def test_a_socket_that_is_closed(self):
        self.client.want_write = lambda: True
        for self.socket in (None, types.SimpleNamespace(fileno=lambda: -1)):
            self.assertEqual((self.connection.sockets(), self.connection.has_work()), (([], []), True))


class TurnWaits(LogTest):
    """How long a bridge waits. The clock goes on by each wait, as if nothing happened meanwhile."""

    def setUp(self):
        super().setUp()
        self.fixture = BridgeFixture(self)
        self.fixture.wait = self.wait
        self.answers_orders, self.answered_count, self.ends_at_once = True, 0, False

    def wait(self, *connections):
        """A wait, which lasts a little longer than it was asked for, or ends at once."""
        self.fixture.wait_calls = connections
        self.fixture.clock.now += 0.001 + (0 if self.ends_at_once else connections[1])

    def turn(self):
        """A turn, after which the gateway answers. Returns how long it has waited."""
        self.fixture.run_turns(1, 0)
        orders = self.fixture.orders() if self.answers_orders else []
        for order in orders[self.answered_count:]:
            self.fixture.write_lines(*ANSWERS.get(order, [RESPONSE]))
        self.answered_count = len(orders)
        return round(self.fixture.wait_calls[1], 6)

    def connect_and_settle(self, **options):
        self.fixture.start(**options)
        self.fixture.broker.accept_connection()
        for _ in range(100):
            self.turn()
        # from now on it is silent, until more is wanted
        self.answers_orders = False
        while self.turn() != LONGEST_WAIT:
            pass
        self.fixture.bridge.saved_at = self.fixture.clock()

    def waits(self, answers=True):
        """The waits in an hour, in which the gateway answers its orders, or does not."""
        self.answers_orders = answers
        waits, deadline = [], self.fixture.clock() + HOUR
        while self.fixture.clock() < deadline:
            waits.append(self.turn())
        return waits

    def test_an_idle_bridge(self):
        for asks in (False, True):
            self.connect_and_settle(asks_actuators=asks)
            self.assertTrue(self.fixture.bridge.requests.may_ask_actuators())
            waits = self.waits()
            self.assertLess(len(waits), 2 * HOUR)
            self.assertGreater(len(waits), HOUR)

    def test_a_bridge_whose_gateway_does_not_answer(self):
        self.connect_and_settle(asks_actuators=True)
        self.assertLess(len(self.waits(answers=False)), 2 * HOUR)
        self.assertIs(self.fixture.bridge.requests.gateway_probe.is_online, False)

    def test_a_bridge_without_a_broker(self):
        self.fixture.start()
        self.fixture.broker.due = math.inf
        self.assertLess(len(self.waits()), 2 * HOUR)

    def test_the_next_attempt_to_connect(self):
        self.answers_orders = False
        self.fixture.start()
        self.turn()
        for pause in (0.5, 60.0):
            self.fixture.broker.due = self.fixture.clock() + pause
            self.assertEqual(self.turn(), min(pause, 1.0))

    def test_an_order_that_is_due(self):
        self.connect_and_settle()
        requests = self.fixture.bridge.requests
        requests.gateway_probe.due = self.fixture.clock() + 0.25
        self.assertEqual(self.turn(), 0.25)
        self.assertEqual(self.fixture.orders()[-1], "status")

    def test_a_module_that_does_not_respond(self):
        """It is reported at once when the time is over."""
        self.connect_and_settle()
        requests = self.fixture.bridge.requests
        requests.module_probe.due = math.inf
        requests.module_probe.asked_at = self.fixture.clock() + 0.25 - requests.module_probe.max_wait
        self.assertEqual(self.turn(), 0.25)
        self.assertIs(requests.module_probe.is_online, False)

    def test_what_is_due_but_cannot_be_done(self):
        """It is tried again, but not without a pause."""
        self.connect_and_settle()
        self.fixture.bridge.requests.schedule_window_end(0)
        self.fixture.desk.unlink()
        self.fixture.desk.mkdir()
        self.turn()
        self.assertEqual([self.turn() for _ in range(3)], [POLL_PAUSE] * 3)

    def test_something_under_way(self):
        self.connect_and_settle()
        self.fixture.broker.connection.acknowledges_messages = False
        self.fixture.write_lines(reading("01800000"))
        self.turn()
        self.assertEqual([self.turn() for _ in range(3)], [0.0, POLL_PAUSE, POLL_PAUSE])

    def test_more_to_read(self):
        """After lines there may be more."""
        self.connect_and_settle()
        self.fixture.write_lines(reading("01800000"))
        self.turn()
        self.assertEqual(self.turn(), 0.0)
        self.assertGreater(self.turn(), 0.0)

    def test_a_rotation(self):
        """The old file may still be written to: events of the new one do not end the wait."""
        self.connect_and_settle()
        self.fixture.lines.rename(self.fixture.lines.with_suffix(".lines.1"))
        self.fixture.lines.touch()
        self.turn()
        self.turn()
        self.assertEqual(self.fixture.wait_calls[1:], (POLL_PAUSE, False))
        self.turn()
        self.turn()
        self.assertIs(self.fixture.wait_calls[2], True)

    def test_a_line_that_is_written_to_the_old_file(self):
        """The broker ends each wait at once, but the old file is not left at once."""
        self.connect_and_settle()
        old_path = self.fixture.lines.with_suffix(".lines.1")
        self.fixture.lines.rename(old_path)
        self.fixture.write_lines(reading("01800002"))
        self.ends_at_once = True
        self.fixture.run_turns(5, 0)
        self.ends_at_once = False
        append(old_path, json.dumps(reading("01800001")).encode() + b"\n")
        for _ in range(10):
            self.turn()
        lines = [json.loads(text) for _, text in self.fixture.published("enogate/hall/lines")]
        self.assertEqual([line["id"] for line in lines if line["type"] == "reading"], ["01800001", "01800002"])

    def test_both_connections_are_waited_for(self):
        self.fixture.start()
        publishing = self.fixture.broker.accept_connection()
        self.turn()
        self.turn()
        self.assertEqual(self.fixture.wait_calls, ([publishing, self.fixture.broker.readers[0]], POLL_PAUSE, True))


def append(path, text):
    with path.open("ab") as file:
        file.write(text)
