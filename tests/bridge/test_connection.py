"""The connection to the broker, over stand-ins for paho 1.6 and paho 2."""
import random
import ssl
import struct
import tracemalloc
import types
import unittest
import unittest.mock

from enogate_mqtt import connection, outbox
from enogate_mqtt.connection import Broker, Connection, ConnectionLost, ReceivedMessage, WrongProtocol
from enogate_mqtt.settings import Login
from enogate_mqtt.topics import Message, Topics
from fakes import OK, WATCHED, LogTest, Clock, FakeConnection, BridgeFixture, reading, status

TOPICS = Topics("hall", "homeassistant")


class FakeReasonCode:
    """A reason code of MQTT 5."""

    def __init__(self, number, name="text"):
        self.value, self.text = number, name

    def __str__(self):
        return self.text


class FakePahoClient:
    """A client of paho. Its calls are kept; its network does what `steps` has."""

    def __init__(self, **options):
        self.options, self.calls, self.loop_steps, self.last_message_id = options, [], [], 0
        self.closed = False

    def __getattr__(self, name):
        if name.startswith("on_"):
            raise AttributeError(name)

        def call(*arguments, **keywords):
            self.calls.append((name, arguments, keywords))
            self.last_message_id += 1
            return (0, self.last_message_id)
        return call

    def publish(self, topic, payload, **options):
        self.calls.append(("publish", (topic, payload), options))
        self.last_message_id += 1
        return types.SimpleNamespace(mid=self.last_message_id)

    def loop(self, seconds):
        self.calls.append(("loop", (seconds,), {}))
        return self.step()

    def loop_read(self):
        self.calls.append(("loop_read", (), {}))
        return self.step()

    def step(self):
        next_step = self.loop_steps.pop(0) if self.loop_steps else (lambda: 0)
        return next_step() or 0

    def socket(self):
        return types.SimpleNamespace(close=lambda: setattr(self, "closed", True))

    def calls_of(self, name):
        return [(arguments, named) for called, arguments, named in self.calls if called == name]


class FakeProperties:
    def __init__(self, packet):
        self.packet = packet


def fake_paho(version):
    """A stand-in for the module paho.mqtt.client of this version."""
    module = types.SimpleNamespace(MQTTv5=5, MQTTv311=4, Properties=FakeProperties, clients=[])
    module.connack_string = lambda code: f"connack {code}"
    module.error_string = lambda status: f"error {status}"
    if version == 2:
        module.CallbackAPIVersion = types.SimpleNamespace(VERSION1=1, VERSION2=2)

    def client(**options):
        module.clients.append(FakePahoClient(**options))
        return module.clients[-1]
    module.Client = client
    return module


def exceptions_of_kind(kind):
    """The kinds of exceptions that are built in, and those of this kind."""
    subclasses = [subclass for subclass in kind.__subclasses__()
                  if subclass.__module__ in ("builtins", "ssl", "struct", "socket")]
    return subclasses + [subclass_below for subclass in subclasses for subclass_below in exceptions_of_kind(subclass)]


def message(topic, payload, retain=False):
    return types.SimpleNamespace(topic=topic, payload=payload, retain=retain)


class PahoConnection(LogTest):
    def setUp(self):
        super().setUp()
        self.clock = Clock()

    def connect(self, version=5, module=None, login=Login("h", 1883, None, None, None), is_reader=False):
        self.fake_paho = module or fake_paho(1)
        mqtt_connection = Connection(self.fake_paho, login, TOPICS, version, self.clock, is_reader)
        self.client = self.fake_paho.clients[-1]
        return mqtt_connection

    def accept(self, mqtt_connection, code=0, codes=(1, 1, 1, 1)):
        """The broker accepts the connection and the subscription."""
        self.client.on_connect(self.client, None, {}, code, None)
        request_number = self.client.last_message_id
        self.client.on_subscribe(self.client, None, request_number, list(codes), None)
        return request_number

    def test_the_client(self):
        self.connect(module=fake_paho(2))
        self.assertEqual(self.client.options, {"client_id": "enogate-hall", "protocol": 5, "callback_api_version": 2})
        (arguments, keywords), = self.client.calls_of("connect")
        self.assertEqual((arguments, keywords["clean_start"]), (("h", 1883, 30), True))
        self.assertEqual((keywords["properties"].packet, keywords["properties"].MaximumPacketSize), (1, 65536))
        self.connect(version=4)
        self.assertEqual(self.client.options, {"client_id": "enogate-hall", "clean_session": True})
        self.assertEqual(self.client.calls_of("connect"), [(("h", 1883, 30), {})])

    def test_the_will(self):
        self.connect()
        self.assertEqual(self.client.calls_of("will_set"),
                         [(("enogate/hall/status", "offline"), {"qos": 1, "retain": True})])

    def test_a_reader(self):
        mqtt_connection = self.connect(is_reader=True)
        self.assertEqual(self.client.options["client_id"], "enogate-hall.reader")
        self.client.on_connect(self.client, None, {}, 0)
        self.assertTrue(mqtt_connection.is_open)
        self.assertEqual(self.client.calls_of("will_set") + self.client.calls_of("subscribe"), [])

    def test_a_broker_that_acknowledges_nothing(self):
        mqtt_connection = self.connect()
        self.accept(mqtt_connection)
        self.clock.now += 1000
        mqtt_connection.turn(0)
        message_number = mqtt_connection.publish(Message("a", "x", True))
        self.clock.now += connection.ACKNOWLEDGE_WITHIN
        mqtt_connection.turn(0)
        mqtt_connection.publish(Message("b", "x", True))
        self.clock.now += 0.1
        with self.assertRaisesRegex(ConnectionLost, "^the broker acknowledges nothing$"):
            mqtt_connection.turn(0)
        self.client.on_publish(self.client, None, message_number)
        mqtt_connection.turn(0)
        self.assertEqual(connection.ACKNOWLEDGE_WITHIN, 30)

    def test_the_login(self):
        self.connect(login=Login("h", 1, "user", "secret", "context"))
        self.assertEqual(self.client.calls_of("username_pw_set"), [(("user", "secret"), {})])
        self.assertEqual(self.client.calls_of("tls_set_context"), [(("context",), {})])
        self.connect()
        self.assertEqual(self.client.calls_of("username_pw_set") + self.client.calls_of("tls_set_context"), [])

    def test_subscriptions(self):
        mqtt_connection = self.connect()
        self.assertFalse(mqtt_connection.is_open)
        self.accept(mqtt_connection)
        self.assertEqual(self.client.calls_of("subscribe"), [(([
            ("enogate/hall/orders", 1), ("enogate/hall/learn/set", 1), ("enogate/hall/+/+/+/set", 1),
            *((topic, 1) for topic in WATCHED)],), {})])
        self.assertEqual((mqtt_connection.is_open, mqtt_connection.missing_right), (True, ""))

    def test_orders_that_may_not_be_received(self):
        for codes in ((1, 128, 1, 1), (FakeReasonCode(135), FakeReasonCode(1))):
            mqtt_connection = self.connect()
            self.accept(mqtt_connection, codes=codes)
            self.assertEqual((mqtt_connection.is_open, mqtt_connection.missing_right),
                             (True, ", but this user may not subscribe to orders"))
        mqtt_connection = self.connect()
        self.accept(mqtt_connection, codes=(1, 1, 1, 128, 128))
        self.assertEqual(mqtt_connection.missing_right, "")
        mqtt_connection = self.connect()
        self.accept(mqtt_connection, codes=(FakeReasonCode(1), FakeReasonCode(2)))
        self.assertEqual(mqtt_connection.missing_right, "")

    def test_another_answer_does_not_open_it(self):
        mqtt_connection = self.connect()
        self.client.on_connect(self.client, None, {}, 0)
        self.client.on_subscribe(self.client, None, 999, [0])
        self.assertFalse(mqtt_connection.is_open)

    def test_a_refusal(self):
        for version, code, text in ((5, FakeReasonCode(134, "Bad user name or password"), "Bad user name or password"),
                                    (4, 5, "connack 5")):
            mqtt_connection = self.connect(version)
            self.client.on_connect(self.client, None, {}, code)
            with self.assertRaisesRegex(ConnectionLost, f"^rejected by the broker: {text}$") as caught_error:
                mqtt_connection.turn(0)
            self.assertNotIsInstance(caught_error.exception, WrongProtocol)

    def test_a_broker_without_mqtt_5(self):
        for code in (1, FakeReasonCode(132)):
            mqtt_connection = self.connect()
            self.client.on_connect(self.client, None, {}, code)
            with self.assertRaises(WrongProtocol):
                mqtt_connection.turn(0)
        mqtt_connection = self.connect(version=4)
        self.client.on_connect(self.client, None, {}, 1)
        with self.assertRaises(ConnectionLost) as caught_error:
            mqtt_connection.turn(0)
        self.assertNotIsInstance(caught_error.exception, WrongProtocol)

    def test_no_connection(self):
        module = fake_paho(1)
        original_client = module.Client

        def client(**options):
            paho_client = original_client(**options)
            paho_client.connect = unittest.mock.Mock(side_effect=ConnectionRefusedError(111, "Connection refused"))
            return paho_client
        module.Client = client
        with self.assertRaisesRegex(ConnectionLost, "^Connection refused$"):
            self.connect(module=module)

    def test_messages(self):
        mqtt_connection = self.connect()
        self.client.on_message(self.client, None, message("a", b"1", True))
        self.client.on_message(self.client, None, message("b", b"2"))
        self.assertEqual(mqtt_connection.received_messages,
                         [ReceivedMessage("a", b"1", True), ReceivedMessage("b", b"2", False)])

    def test_a_topic_that_is_no_text(self):
        class BadMessage:
            payload, retain = b"", False

            @property
            def topic(self):
                raise UnicodeDecodeError("utf-8", b"\xff", 0, 1, "bad")
        mqtt_connection = self.connect()
        self.client.on_message(self.client, None, BadMessage())
        self.assertEqual(mqtt_connection.received_messages, [])

    def test_publishing(self):
        mqtt_connection = self.connect()
        message_number = mqtt_connection.publish(Message("a", "x", True))
        other_number = mqtt_connection.publish(Message("b", "y", False))
        self.assertEqual(self.client.calls_of("publish"), [(("a", "x"), {"qos": 1, "retain": True}),
                                                           (("b", "y"), {"qos": 1, "retain": False})])
        self.assertEqual(mqtt_connection.unacknowledged_numbers, {message_number, other_number})
        self.client.on_publish(self.client, None, message_number, FakeReasonCode(0), None)
        self.assertEqual(mqtt_connection.unacknowledged_numbers, {other_number})
        self.client.on_publish(self.client, None, other_number)
        self.assertEqual(mqtt_connection.unacknowledged_numbers, set())

    def test_user_properties(self):
        """Only with MQTT 5, and only if the message has some."""
        message = Message("a", "x", False, (("time", "5"), ("late", "1")))
        self.connect().publish(message)
        options = self.client.calls_of("publish")[0][1]
        properties = options.pop("properties")
        self.assertEqual((properties.packet, properties.UserProperty, options),
                         (3, [("time", "5"), ("late", "1")], {"qos": 1, "retain": False}))
        self.connect(version=4).publish(message)
        self.assertEqual(self.client.calls_of("publish"), [(("a", "x"), {"qos": 1, "retain": False})])

    def test_requests(self):
        mqtt_connection = self.connect()
        message_number = mqtt_connection.request_retained(["a/+", "b"])
        other_number = mqtt_connection.cancel_request(["a/+", "b"])
        self.assertEqual(self.client.calls_of("subscribe"), [(([("a/+", 0), ("b", 0)],), {})])
        self.assertEqual(self.client.calls_of("unsubscribe"), [((["a/+", "b"],), {})])
        self.client.on_subscribe(self.client, None, message_number, [0])
        self.assertEqual((mqtt_connection.unanswered_numbers, mqtt_connection.is_open), ({other_number}, False))
        self.client.on_unsubscribe(self.client, None, other_number, None, None)
        self.assertEqual(mqtt_connection.unanswered_numbers, set())

    def test_requests_that_cannot_be_sent(self):
        mqtt_connection = self.connect()
        self.client.subscribe = lambda _filters: (4, None)
        self.client.unsubscribe = lambda _filters: (4, None)
        for request_call in (mqtt_connection.request_retained, mqtt_connection.cancel_request):
            with self.assertRaisesRegex(ConnectionLost, "^error 4$"):
                request_call(["a"])
        self.assertEqual(mqtt_connection.unanswered_numbers, set())

    def test_a_turn_handles_all_that_has_arrived(self):
        mqtt_connection = self.connect()
        deliver = lambda: self.client.on_message(self.client, None, message("a", b""))  # noqa: E731
        self.client.loop_steps = [deliver] * 5
        mqtt_connection.turn(0.1)
        self.assertEqual(len(mqtt_connection.received_messages), 5)
        self.assertEqual([(name, *arguments) for name, arguments, _ in self.client.calls if name.startswith("loop")],
                         [("loop", 0.1), *[("loop_read",)] * 5])
        self.client.loop_steps = [deliver] * 500
        mqtt_connection.turn(0.1)
        self.assertEqual(len(mqtt_connection.received_messages), 5 + connection.MAX_LOOPS)

    def test_a_turn_handles_all_acknowledgements(self):
        mqtt_connection = self.connect()
        message_numbers = [mqtt_connection.publish(Message("a", "x", True)) for _ in range(5)]
        self.client.loop_steps = [lambda message_number=message_number: self.client.on_publish(self.client, None,
                                                                                               message_number)
                                  for message_number in message_numbers]
        mqtt_connection.turn(0.1)
        self.assertEqual(mqtt_connection.unacknowledged_numbers, set())

    def test_a_loss(self):
        mqtt_connection = self.connect()
        self.client.loop_steps = [lambda: 7]
        with self.assertRaisesRegex(ConnectionLost, "^error 7$"):
            mqtt_connection.turn(0)

    def test_another_client_with_the_name(self):
        for disconnect_arguments in ((FakeReasonCode(142), None),
                                     (types.SimpleNamespace(is_disconnect_packet_from_server=True), FakeReasonCode(142),
                                      None)):
            mqtt_connection = self.connect()
            self.client.loop_steps = [lambda: self.client.on_disconnect(self.client, None, *disconnect_arguments) or 7]
            with self.assertRaisesRegex(ConnectionLost, "^another client has the name enogate-hall$"):
                mqtt_connection.turn(0)
        mqtt_connection = self.connect()
        self.client.loop_steps = [lambda: self.client.on_disconnect(self.client, None, 7) or 7]
        with self.assertRaisesRegex(ConnectionLost, "^error 7$"):
            mqtt_connection.turn(0)

    def test_another_client_with_the_name_without_a_reason_code(self):
        """paho 1.6 does not report that of mosquitto."""
        mqtt_connection = self.connect()
        self.accept(mqtt_connection)
        self.client.loop_steps = [lambda: self.client.on_disconnect(self.client, None, 7) or 7]
        with self.assertRaisesRegex(ConnectionLost,
                                    "^broker or network closed the connection; perhaps another client has the "
                                    "name enogate-hall$"):
            mqtt_connection.turn(0)

    def test_a_broker_that_does_not_answer(self):
        mqtt_connection = self.connect()
        self.clock.now += connection.OPEN_WITHIN
        mqtt_connection.turn(0)
        self.clock.now += 0.1
        with self.assertRaisesRegex(ConnectionLost, "^no answer from the broker$"):
            mqtt_connection.turn(0)
        self.accept(mqtt_connection)
        mqtt_connection.turn(0)

    def test_the_end_waits_for_acknowledgements(self):
        mqtt_connection = self.connect()
        message_number = mqtt_connection.publish(Message("a", "x", True))
        self.client.loop_steps = [lambda: None, lambda: self.client.on_publish(self.client, None, message_number)]
        mqtt_connection.end(2)
        self.assertEqual(mqtt_connection.unacknowledged_numbers, set())
        self.assertEqual(len(self.client.calls_of("disconnect")), 1)

    def test_the_end_does_not_wait_for_ever(self):
        mqtt_connection = self.connect()
        mqtt_connection.publish(Message("a", "x", True))

        def wait():
            self.clock.now += 0.5
        self.client.loop_steps = [wait] * 100
        mqtt_connection.end(2)
        self.assertEqual(len(self.client.calls_of("loop")), 4)
        self.assertEqual(len(self.client.calls_of("disconnect")), 1)

    def test_the_end_of_a_lost_connection(self):
        mqtt_connection = self.connect()
        mqtt_connection.publish(Message("a", "x", True))
        self.client.loop_steps = [lambda: 7]
        mqtt_connection.end(2)
        self.assertEqual(self.client.calls_of("disconnect"), [])

    def raising(self, error):
        """A call of paho, or a callback, that raises this."""
        return unittest.mock.Mock(side_effect=error)

    def test_what_paho_raises_is_a_loss(self):
        """On packets that are malformed, and on faults of TLS."""
        for error, text in ((IndexError("bytearray index out of range"), "IndexError: bytearray index out of range"),
                            (KeyError(200), "KeyError: 200"), (struct.error("bad"), "error: bad"),
                            (AssertionError(), "AssertionError: "),
                            (ValueError("x" * 1000), "ValueError: " + "x" * 100),
                            (UnicodeDecodeError("utf-8", b"\xff", 0, 1, "bad"), "UnicodeDecodeError: .*"),
                            (RecursionError("deep"), "RecursionError: deep")):
            mqtt_connection = self.connect()
            self.client.loop_steps = [self.raising(error)]
            with self.assertRaisesRegex(ConnectionLost, f"^invalid packet from the broker \\({text}\\)$"):
                mqtt_connection.turn(0)
        for error in (ssl.SSLError(1, "certificate required"), OSError(1, "certificate required")):
            mqtt_connection = self.connect()
            self.client.loop_steps = [self.raising(error)]
            with self.assertRaisesRegex(ConnectionLost, "^certificate required$"):
                mqtt_connection.turn(0)

    def test_an_error_in_a_callback_is_not_a_loss(self):
        """It is an error of the bridge, which has to be seen."""
        callbacks = {"on_connect": ({}, 0), "on_disconnect": (7,), "on_message": (message("a", b""),),
                     "on_publish": (1,), "on_subscribe": (1, [0]), "on_unsubscribe": (1,)}
        for name, arguments in callbacks.items():
            for error in (IndexError("a mistake"), OSError(1, "a mistake")):
                mqtt_connection = self.connect()
                for method in ("on_connect", "on_disconnect", "on_message", "on_answer", "on_subscribe"):
                    setattr(mqtt_connection, method, self.raising(error))
                self.client.loop_steps = [lambda: getattr(self.client, name)(self.client, None, *arguments)]
                with self.subTest(name), self.assertRaises(type(error)) as raised_error:
                    mqtt_connection.turn(0)
                self.assertIs(raised_error.exception, error)

    def test_a_network_that_fails_while_something_is_sent(self):
        """Nothing more is sent on this connection, and what was published is not acknowledged."""
        mqtt_connection = self.connect()
        message_number = mqtt_connection.publish(Message("a", "x", True))
        self.client.publish = self.raising(ssl.SSLError(1, "alert"))
        other_number, third_number = (mqtt_connection.publish(Message("b", "x", True)) for _ in range(2))
        self.client.on_publish(self.client, None, message_number)
        self.assertEqual((mqtt_connection.unacknowledged_numbers, self.client.publish.call_count),
                         ({other_number, third_number}, 1))
        with self.assertRaisesRegex(ConnectionLost, "^alert$"):
            mqtt_connection.turn(0)
        self.assertEqual(self.client.calls_of("loop"), [])

    def test_a_network_that_fails_during_requests(self):
        mqtt_connection = self.connect()
        for name, request_call in (("subscribe", mqtt_connection.request_retained),
                                   ("unsubscribe", mqtt_connection.cancel_request)):
            setattr(self.client, name, self.raising(ssl.SSLError(1, "alert")))
            with self.assertRaisesRegex(ConnectionLost, "^alert$"):
                request_call(["a"])
        self.client.loop_steps = [lambda: self.client.on_connect(self.client, None, {}, 0)]
        with self.assertRaisesRegex(ConnectionLost, "^alert$"):
            mqtt_connection.turn(0)

    def test_a_network_that_fails_at_the_end(self):
        mqtt_connection = self.connect()
        self.client.disconnect = self.raising(ssl.SSLError(1, "alert"))
        mqtt_connection.end(2)
        self.assertEqual(self.client.disconnect.call_count, 1)
        self.client.socket = lambda: types.SimpleNamespace(close=self.raising(OSError()))
        mqtt_connection.close()

    def test_wrong_arguments_are_not_a_loss(self):
        mqtt_connection = self.connect()
        for name, request_call in (("publish", lambda: mqtt_connection.publish(Message("+", "x", True))),
                                   ("subscribe", lambda: mqtt_connection.request_retained([]))):
            setattr(self.client, name, self.raising(ValueError("Invalid topic.")))
            with self.assertRaisesRegex(ValueError, "^Invalid topic.$"):
                request_call()

    def test_random_errors_of_paho(self):
        rng = random.Random(76)
        exception_types = [exception_type for exception_type in exceptions_of_kind(Exception)
                           if not issubclass(exception_type, ExceptionGroup)]
        self.assertGreater(len(exception_types), 50)
        for _ in range(3000):
            mqtt_connection = self.connect(rng.choice((4, 5)))
            exception_type = rng.choice(exception_types)
            text = "".join(rng.choices("abc \n\0\ud800", k=rng.randrange(200)))
            error = exception_type.__new__(exception_type, text)
            self.client.loop_steps = [lambda: None, self.raising(error)]
            if rng.random() < 0.5:
                self.client.loop_steps[0] = lambda: self.client.on_connect(self.client, None, {}, 0)
            with self.assertRaises(ConnectionLost) as caught_error:
                mqtt_connection.turn(0)
                mqtt_connection.turn(0)
            self.assertLess(len(str(caught_error.exception)), 250)

    def test_close(self):
        mqtt_connection = self.connect()
        mqtt_connection.close()
        self.assertTrue(self.client.closed)
        # paho has closed it
        self.client.socket = lambda: None
        mqtt_connection.close()


class ScriptedConnection:
    """A connection that does what the test says."""

    def __init__(self, clock, loss=None, opens=True):
        self.clock, self.loss, self.opens = clock, loss, opens
        self.is_open, self.missing_right, self.began_at, self.closed = False, "", clock(), False

    def turn(self, _seconds):
        if self.loss:
            raise self.loss
        self.is_open = self.opens

    def close(self):
        self.closed = True


class BrokerReconnection(LogTest):
    def setUp(self):
        super().setUp()
        self.clock, self.versions, self.sessions = Clock(), [], []
        self.random = 1.0
        self.broker = Broker(self.connect, "h:1883", self.clock, lambda: self.random)

    def connect(self, version, is_reader):
        if is_reader:
            self.reader_version = version
            raise ConnectionLost("no reader")
        self.versions.append(version)
        self.attempt_times = getattr(self, "attempt_times", []) + [self.clock()]
        self.session = ScriptedConnection(self.clock, *(self.sessions.pop(0) if self.sessions else ()))
        if isinstance(self.session.loss, OSError):
            raise ConnectionLost("cannot connect")
        return self.session

    def turn(self):
        """A turn of the bridge, which waits until the next attempt is due."""
        if not self.broker.connection:
            self.clock.now += min(0.1, max(self.broker.due - self.clock(), 0.0))
        return self.broker.turn()

    def run_turns(self, count):
        return [self.turn() for _ in range(count)]

    def test_a_reader_that_cannot_connect(self):
        self.run_turns(2)
        self.assertIsNone(self.broker.open_reader())
        self.assertIsNone(self.broker.connection)
        self.assert_logged("no connection to h:1883: no reader")

    def test_a_reader_has_the_protocol_of_the_broker(self):
        self.sessions = [(WrongProtocol("x"),)]
        self.run_turns(4)
        self.broker.open_reader()
        self.assertEqual(self.reader_version, 4)

    def test_the_hint_at_another_bridge_is_given_once(self):
        for _ in range(3):
            while not (self.broker.connection and self.broker.connection.is_open):
                self.turn()
            self.session.loss = ConnectionLost("x")
            self.turn()
        self.sessions = [(OSError(),)] * 20
        while self.sessions:
            self.turn()
        self.assert_logged("is there another bridge with this name?")

    def test_an_opening_is_told_once(self):
        self.assertEqual(self.run_turns(4), [False, True, False, False])
        self.assertEqual(self.logged_lines, [])
        self.broker.report_connected()
        self.assertEqual(self.logged_lines, ["INFO: connected to h:1883"])

    def test_a_connection_that_is_not_open_yet(self):
        self.sessions = [(None, False)]
        self.assertEqual(self.run_turns(5), [False] * 5)
        self.assertEqual(self.logged_lines, [])
        self.session.opens = True
        self.assertEqual(self.run_turns(2), [True, False])

    def test_a_missing_right_is_logged(self):
        self.run_turns(1)
        self.session.missing_right = ", but"
        self.run_turns(1)
        self.broker.report_connected()
        self.assertEqual(self.logged_lines, ["INFO: connected to h:1883, but"])

    def test_a_connection_on_which_nothing_is_published(self):
        self.run_turns(2)
        self.broker.report_refused("enogate/hall/status")
        self.assertEqual(self.logged_lines, [
            "WARNING: the broker at h:1883 accepts the connection, but refuses what is published: enogate/hall/status "
            "did not come back within 15 seconds; check the access rights of this user"])

    def test_a_connection_that_was_lost_is_not_reported(self):
        self.broker.report_connected()
        self.assertEqual(self.logged_lines, [])

    def test_a_loss_is_logged_once(self):
        self.sessions = [(OSError(),)] * 3
        for _ in range(1000):
            self.turn()
            if len(self.versions) == 4:
                break
        self.assert_logged("WARNING: no connection to h:1883: cannot connect")

    def test_another_reason_is_logged(self):
        self.sessions = [(ConnectionLost(reason),) for reason in ("one", "two", "two", "one")]
        for _ in range(1000):
            self.turn()
        self.assertEqual([line.rsplit(" ", 1)[1] for line in self.logged_lines], ["one", "two"])

    def test_pauses_grow_to_a_minute(self):
        self.sessions = [(OSError(),)] * 9
        while len(self.versions) < 10:
            self.turn()
        pauses = [round(later - sooner) for sooner, later in zip(self.attempt_times, self.attempt_times[1:])]
        self.assertEqual(pauses, [1, 2, 4, 8, 16, 32, 60, 60, 60])

    def test_malformed_packets_have_growing_pauses(self):
        """The journal has the reason once."""
        module = fake_paho(1)

        def connect(version, is_reader):
            self.attempt_times = getattr(self, "attempt_times", []) + [self.clock()]
            mqtt_connection = Connection(module, Login("h", 1883, None, None, None), TOPICS, version, self.clock,
                                         is_reader)
            module.clients[-1].loop_steps = [unittest.mock.Mock(side_effect=struct.error("unpack requires 2 bytes"))]
            return mqtt_connection
        self.broker.connect = connect
        while len(getattr(self, "attempt_times", [])) < 9:
            self.turn()
        pauses = [round(later - sooner) for sooner, later in zip(self.attempt_times, self.attempt_times[1:])]
        self.assertEqual(pauses, [1, 2, 4, 8, 16, 32, 60, 60])
        self.assertEqual(self.logged_lines, ["WARNING: no connection to h:1883: invalid packet from the broker "
                                             "(error: unpack requires 2 bytes)"])

    def test_half_of_a_pause_is_random(self):
        self.random = 0.0
        self.sessions = [(OSError(),)] * 8
        while len(self.versions) < 9:
            self.turn()
        pauses = [later - sooner for sooner, later in zip(self.attempt_times, self.attempt_times[1:])]
        for pause, expected_pause in zip(pauses, [0.5, 1, 2, 4, 8, 16, 30, 30]):
            self.assertAlmostEqual(pause, expected_pause, delta=0.2)

    def test_a_long_connection_begins_with_a_short_pause_again(self):
        self.broker.pause = 32
        self.run_turns(2)
        self.clock.now += connection.MAX_PAUSE + 1
        self.session.loss = ConnectionLost("x")
        self.run_turns(1)
        self.assertEqual(self.broker.due, self.clock() + 1)
        self.assertEqual((self.session.closed, self.broker.connection), (True, None))

    def test_a_short_connection_does_not(self):
        self.broker.pause = 32
        self.run_turns(2)
        self.clock.now += connection.MAX_PAUSE
        self.session.loss = ConnectionLost("x")
        self.run_turns(1)
        self.assertEqual(self.broker.due, self.clock() + 32)

    def test_a_broker_without_mqtt_5(self):
        self.sessions = [(WrongProtocol("x"),)]
        self.assertEqual(self.run_turns(4), [False, False, False, True])
        self.assertEqual(self.versions, [5, 4])
        self.assertEqual(self.logged_lines, [])

    def test_a_name_that_is_used_twice(self):
        for _ in range(4):
            while not (self.broker.connection and self.broker.connection.is_open):
                self.turn()
            self.session.loss = ConnectionLost("x")
            self.turn()
        self.assert_logged("is there another bridge with this name?")
        self.assertEqual((connection.SHORT_CONNECTION, connection.OFTEN_SHORT), (10, 3))

    def test_a_long_connection_between_short_ones(self):
        for seconds in (0, 0, connection.SHORT_CONNECTION, 0, 0):
            while not (self.broker.connection and self.broker.connection.is_open):
                self.turn()
            self.clock.now += seconds
            self.session.loss = ConnectionLost("x")
            self.turn()
        self.assert_logged("is there another bridge", 0)

    def test_the_same_reason_after_a_connection(self):
        for _ in range(2):
            while not (self.broker.connection and self.broker.connection.is_open):
                self.turn()
            self.session.loss = ConnectionLost("x")
            self.turn()
        self.assert_logged("no connection to h:1883: x", 2)

    def test_constants(self):
        self.assertEqual((connection.OPEN_WITHIN, connection.KEEPALIVE), (30, 30))

    def test_losses_after_some_time_are_no_sign_of_that(self):
        for _ in range(4):
            while not (self.broker.connection and self.broker.connection.is_open):
                self.turn()
            self.clock.now += connection.SHORT_CONNECTION
            self.session.loss = ConnectionLost("x")
            self.turn()
        self.assert_logged("is there another bridge", 0)


class DayWithoutBroker(LogTest):
    """The broker is away for a day, in which the gateway goes on. A turn takes two minutes, and has two lines: they are
    fewer than a bridge keeps, so this one keeps less."""

    TURNS, KEPT_LINES = 720, 500

    def setUp(self):
        super().setUp()
        self.fixture, self.session, self.attempt_count = BridgeFixture(self), None, 0
        self.reasons = ["Connection refused"]
        # all pauses are as short as they may be
        self.fixture.broker = Broker(self.connect, "h:1883", self.fixture.clock, lambda: 0.0)
        patch = unittest.mock.patch.object(outbox, "MAX_LINES", self.KEPT_LINES)
        patch.start()
        self.addCleanup(patch.stop)

    def connect(self, _version, _is_reader):
        if self.session:
            return self.session
        self.attempt_count += 1
        raise ConnectionLost(self.reasons[self.attempt_count % len(self.reasons)])

    def run_turns(self, count, answers=True):
        """Turns in which one of 50 devices sends, and the gateway answers the bridge, or does not."""
        for turn_number in range(count):
            self.fixture.write_lines(reading(f"018000{turn_number % 50:02X}"), status() if answers else OK)
            self.fixture.run_turns(1, 120)

    def returns(self):
        """The broker is there again."""
        session = self.session = FakeConnection({})
        session.is_open, session.missing_right, session.began_at = False, "", self.fixture.clock()
        original_turn = session.turn
        session.turn = lambda seconds: setattr(session, "is_open", True) or original_turn(seconds)
        self.fixture.write_lines(status())
        self.fixture.run_turns(120, 0.05)

    def test_the_journal(self):
        bridge = self.fixture.start()
        self.run_turns(self.TURNS)
        self.assertEqual(self.logged_lines, [
            "WARNING: no connection to h:1883: Connection refused",
            "WARNING: broker unavailable or too slow: 500 lines kept, dropping the oldest"])
        self.assertGreaterEqual(self.attempt_count, self.TURNS // 2)
        self.assertEqual(len(bridge.outbox.entries), self.KEPT_LINES)
        self.returns()
        self.assertEqual(self.logged_lines[2:], ["INFO: connected to h:1883"])
        last_lines = self.fixture.lines.read_text().split("\n")[-self.KEPT_LINES - 1:-1]
        self.assertEqual([text for topic, text, _ in self.session.published if topic == "enogate/hall/lines"],
                         last_lines)

    def test_the_journal_of_a_gateway_that_is_silent_too(self):
        self.fixture.start()
        self.run_turns(self.TURNS // 2)
        self.run_turns(self.TURNS // 2, answers=False)
        self.assertEqual(sorted(self.logged_lines), [
            "WARNING: broker unavailable or too slow: 500 lines kept, dropping the oldest",
            "WARNING: no connection to h:1883: Connection refused",
            "WARNING: the gateway does not answer: orders are lost until it runs"])

    def test_the_journal_of_reasons_that_change(self):
        self.reasons = ["No route to host", "Connection refused"]
        self.fixture.start()
        self.run_turns(self.KEPT_LINES // 3)
        self.assertEqual(self.logged_lines, ["WARNING: no connection to h:1883: Connection refused",
                                             "WARNING: no connection to h:1883: No route to host"])

    def test_the_memory(self):
        self.fixture.start()
        tracemalloc.start()
        self.addCleanup(tracemalloc.stop)
        sizes = []
        for _ in range(4):
            self.run_turns(self.TURNS // 4)
            sizes.append(tracemalloc.get_traced_memory()[0])
        # a quarter of a day has 360 lines; from the second one on, new ones replace old ones
        self.assertGreater(sizes[1], sizes[0])
        self.assertLess(sizes[3], sizes[1] + 50_000)


if __name__ == "__main__":
    unittest.main()
