"""The connection to the broker, with python3-paho-mqtt, 1.6 or 2."""
from __future__ import annotations

import contextlib
import logging
import random
from collections.abc import Callable
from dataclasses import dataclass
from types import ModuleType
from typing import Any

from .settings import Login, error_text
from .topics import Message, Topics

KEEPALIVE = 30
# How long the broker may take to accept the connection and the subscriptions, in seconds.
OPEN_WITHIN = 30.0
# How long the broker may take to acknowledge something, if messages wait for it, in seconds. A broker with too many
# messages for a client drops acknowledgements too, and paho would wait for them without end.
ACKNOWLEDGE_WITHIN = 30.0
# How long the first message of the bridge may take to come back from the broker, in seconds.
ECHO_WITHIN = 15.0
# The largest packet that the broker may send, in bytes: greater messages are dropped by the broker (MQTT 5).
MAX_PACKET = 65536
# The pauses between two attempts, in seconds: the first, and the longest. A connection that was open for longer than
# the longest pause resets it. Up to half of a pause is random, so that many bridges do not connect in the same moment.
FIRST_PAUSE, MAX_PAUSE = 1.0, 60.0
# An open connection that is lost sooner, so often in a row, is a sign of another client with this name.
SHORT_CONNECTION, OFTEN_SHORT = 10.0, 3
FIRST_REFUSAL_CODE = 128
# The status of paho after the end of a connection. Up to 1.6 it does not report the reason code that MQTT 5 has for it.
CONNECTION_LOST = 7
# The types of the packets that open a connection, and that publish a message.
CONNECT_PACKET, PUBLISH_PACKET = 1, 3
# So many packets are handled in one turn, if there are so many.
MAX_LOOPS = 100
# So much of the text of an exception is logged.
SHOWN_OF_AN_ERROR = 100
# The number of a message that could not be sent; those of paho are positive.
NOT_SENT = -1


class ConnectionLost(Exception):
    """The reason why the connection was lost."""


class WrongProtocol(ConnectionLost):
    """The broker does not speak MQTT 5."""


@dataclass(frozen=True)
class ReceivedMessage:
    """A message that was received, with its user properties."""
    topic: str
    payload: bytes
    retained: bool
    properties: tuple[tuple[str, str], ...] = ()


class Connection:
    """One connection, until it is lost. It is open when the broker has accepted the subscriptions to orders. Each one
    has a client of its own: paho sends messages again that were under way when a connection was lost, also presses.
    A reader subscribes to nothing by itself, and publishes nothing: it gets what the broker retains."""

    def __init__(self, paho: ModuleType, login: Login, topics: Topics, version: int, clock: Callable[[], float],
                 is_reader: bool = False, reader_suffix: str = ".reader"):
        self.paho, self.topics, self.clock, self.is_five = paho, topics, clock, version == 5
        self.is_reader = is_reader
        self.name = f"enogate-{topics.name}" + (reader_suffix if is_reader else "")
        self.is_open, self.refusal, self.missing_right = False, "", ""
        self.is_unsupported = self.is_taken_over = False
        # why a message could not be sent, and the last exception of a callback
        self.send_error = ""
        self.callback_error: Exception | None = None
        self.received_messages: list[ReceivedMessage] = []
        # the numbers of messages, and of requests for (un)subscription, that the broker has not acknowledged
        self.unacknowledged_numbers: set[int] = set()
        self.unanswered_numbers: set[int] = set()
        self.orders_request = -1
        # the user properties of the last message that had any, as paho takes them
        self.last_properties: Any = None
        # how many answers and messages have arrived
        self.arrived_count = 0
        self.began_at = self.acknowledged_at = clock()
        self.client = self.make_client(login)
        try:
            self.client.connect(login.host, login.port, KEEPALIVE, **self.connect_options())
        except (OSError, ValueError) as error:
            raise ConnectionLost(error_text(error)) from error

    def make_client(self, login: Login) -> Any:
        """A client of paho. Its callbacks have the same last arguments in all versions."""
        options: dict[str, Any] = {"client_id": self.name}
        if hasattr(self.paho, "CallbackAPIVersion"):
            options["callback_api_version"] = self.paho.CallbackAPIVersion.VERSION2
        if self.is_five:
            options["protocol"] = self.paho.MQTTv5
        else:
            # the broker stores no orders for later
            options["clean_session"] = True
        client = self.paho.Client(**options)
        if login.user is not None:
            client.username_pw_set(login.user, login.password)
        if login.tls:
            client.tls_set_context(login.tls)
        if not self.is_reader:
            client.will_set(self.topics.status, "offline", qos=1, retain=True)
        noting = self.with_noted_error
        client.on_connect = noting(lambda client, _data, _flags, code, *_: self.on_connect(client, code))
        client.on_disconnect = noting(lambda _client, _data, *arguments: self.on_disconnect(arguments))
        client.on_message = noting(lambda _client, _data, message: self.on_message(message))
        client.on_publish = noting(lambda _c, _data, request_number, *_: self.on_answer(self.unacknowledged_numbers,
                                                                                        request_number))
        client.on_subscribe = noting(lambda _c, _data, request_number, codes, *_: self.on_subscribe(request_number,
                                                                                                    codes))
        client.on_unsubscribe = noting(lambda _c, _data, request_number, *_: self.on_answer(self.unanswered_numbers,
                                                                                            request_number))
        return client

    def with_noted_error(self, callback: Callable[..., None]) -> Callable[..., None]:
        """This callback. What it raises passes through paho, and is noted: it is not an exception of paho."""
        def call(*arguments: Any) -> None:
            try:
                callback(*arguments)
            except Exception as error:
                self.callback_error = error
                raise
        return call

    def connect_options(self) -> dict[str, Any]:
        """With MQTT 5 the session ends with the connection, and large messages are not sent to the bridge."""
        if not self.is_five:
            return {}
        properties = self.paho.Properties(CONNECT_PACKET)
        properties.MaximumPacketSize = MAX_PACKET
        return {"clean_start": True, "properties": properties}

    def on_connect(self, client: Any, code: Any) -> None:
        if code_number(code) == 0 and self.is_reader:
            self.is_open = True
            return
        if code_number(code) == 0:
            filters = [(topic_filter, 1) for topic_filter in self.topics.subscriptions]
            self.orders_request = send_or_lose(client.subscribe, filters)[1]
            return
        self.is_unsupported = self.is_five and code_number(code) in (1, 132)
        text = self.paho.connack_string(code) if isinstance(code, int) else str(code)
        self.refusal = f"rejected by the broker: {text}"

    def on_disconnect(self, arguments: tuple[Any, ...]) -> None:
        """The reason code is the first argument, or the second one after the flags of paho 2."""
        self.is_taken_over = any(code_number(code) == 142 for code in arguments)

    def on_answer(self, pending_numbers: set[int], number: int) -> None:
        pending_numbers.discard(number)
        self.acknowledged_at = self.clock()
        self.arrived_count += 1

    def on_subscribe(self, number: int, codes: Any) -> None:
        self.on_answer(self.unanswered_numbers, number)
        if number == self.orders_request:
            if any(code_number(code) >= FIRST_REFUSAL_CODE for code in codes[:len(self.topics.command_filters)]):
                self.missing_right = ", but this user may not subscribe to orders"
            self.is_open = True

    def on_message(self, message: Any) -> None:
        try:
            topic = message.topic
        except UnicodeDecodeError:
            return
        properties = tuple(getattr(getattr(message, "properties", None), "UserProperty", ()))
        self.received_messages.append(ReceivedMessage(topic, message.payload, bool(message.retain), properties))
        self.arrived_count += 1

    def sockets(self) -> tuple[list[Any], list[Any]]:
        """What is to be waited for: the socket to be readable, and to be writable, if something could not be sent."""
        socket = self.client.socket()
        open_sockets = [socket] if socket and socket.fileno() >= 0 else []
        return open_sockets, open_sockets if self.client.want_write() else []

    def has_work(self) -> bool:
        """Whether there is something to do without a wait: the connection is lost, or TLS has decrypted more."""
        socket = self.client.socket()
        return bool(self.send_error) or not self.sockets()[0] or hasattr(socket, "pending") and socket.pending() > 0

    def turn(self, seconds: float) -> None:
        """Does the network's work: waits for at most so many seconds, and handles what has arrived. Or raises
        ConnectionLost."""
        if self.send_error:
            raise ConnectionLost(self.send_error)
        arrived_before, status = self.arrived_count, self.run_loop(self.client.loop, seconds)
        for _ in range(MAX_LOOPS - 1):
            if status != 0 or self.arrived_count == arrived_before:
                break
            # without a system call that asks whether there is anything to read
            arrived_before, status = self.arrived_count, self.run_loop(self.client.loop_read)
        if self.is_unsupported:
            raise WrongProtocol(self.refusal)
        if self.refusal:
            raise ConnectionLost(self.refusal)
        if self.is_taken_over:
            raise ConnectionLost(f"another client has the name {self.name}")
        if status == CONNECTION_LOST and self.is_open:
            raise ConnectionLost(
                f"broker or network closed the connection; perhaps another client has the name {self.name}")
        if status != 0:
            raise ConnectionLost(self.paho.error_string(status))
        if not self.is_open and self.clock() > self.began_at + OPEN_WITHIN:
            raise ConnectionLost("no answer from the broker")
        if self.unacknowledged_numbers and self.clock() > self.acknowledged_at + ACKNOWLEDGE_WITHIN:
            raise ConnectionLost("the broker acknowledges nothing")

    def run_loop(self, loop: Callable[..., Any], *arguments: Any) -> int:
        """Calls a loop of paho. It raises all kinds of exceptions if the broker sends malformed packets, and those of
        ssl if TLS fails. Each of them is ConnectionLost, but not those that a callback has raised: these are errors of
        the bridge."""
        try:
            return int(loop(*arguments))
        except Exception as error:
            if error is self.callback_error:
                raise
            if isinstance(error, OSError):
                raise ConnectionLost(error_text(error)[:SHOWN_OF_AN_ERROR]) from error
            text = f"{type(error).__name__}: {str(error)[:SHOWN_OF_AN_ERROR]}"
            raise ConnectionLost(f"invalid packet from the broker ({text})") from error

    def publish(self, message: Message) -> int:
        """Publishes a message. Its number is in `unacknowledged` until it is acknowledged. If it cannot be sent, the
        next turn raises ConnectionLost."""
        if not self.unacknowledged_numbers:
            self.acknowledged_at = self.clock()
        message_number = NOT_SENT
        if not self.send_error:
            try:
                options = {"qos": 1, "retain": message.retained, **self.publish_options(message)}
                message_number = int(send_or_lose(self.client.publish, message.topic, message.payload, **options).mid)
            except ConnectionLost as lost:
                self.send_error = str(lost)
        self.unacknowledged_numbers.add(message_number)
        return message_number

    def publish_options(self, message: Message) -> dict[str, Any]:
        """With MQTT 5, the user properties of a message."""
        if not (self.is_five and message.properties):
            return {}
        if self.last_properties is None or self.last_properties.UserProperty != list(message.properties):
            # the lines that have arrived together have the same ones
            self.last_properties = self.paho.Properties(PUBLISH_PACKET)
            self.last_properties.UserProperty = list(message.properties)
        return {"properties": self.last_properties}

    def request_retained(self, filters: list[str]) -> int:
        """Subscribes to these, to get what the broker retains. The number is in `unanswered` until it is answered."""
        return self.note_request(*send_or_lose(self.client.subscribe, [(topic_filter, 0) for topic_filter in filters]))

    def cancel_request(self, filters: list[str]) -> int:
        """Ends these subscriptions. What the broker retains arrives before the answer."""
        return self.note_request(*send_or_lose(self.client.unsubscribe, filters))

    def note_request(self, status: int, number: int | None) -> int:
        """Notes a request that paho has sent, or raises ConnectionLost if it could not."""
        if status != 0 or number is None:
            raise ConnectionLost(self.paho.error_string(status))
        self.unanswered_numbers.add(number)
        return number

    def end(self, seconds: float) -> None:
        """Disconnects after all messages are acknowledged, or after so many seconds."""
        until = self.clock() + seconds
        try:
            while self.unacknowledged_numbers and self.clock() < until:
                self.turn(0.1)
            send_or_lose(self.client.disconnect)
        except ConnectionLost:
            pass

    def close(self) -> None:
        """Closes a connection that is lost."""
        with contextlib.suppress(OSError):
            if self.client.socket():
                self.client.socket().close()


def send_or_lose(function: Callable[..., Any], *arguments: Any, **keywords: Any) -> Any:
    """The result of this call of paho, which sends something. Unlike other faults of the network, those of TLS are
    exceptions: they are ConnectionLost."""
    try:
        return function(*arguments, **keywords)
    except OSError as error:
        raise ConnectionLost(error_text(error)[:SHOWN_OF_AN_ERROR]) from error


def code_number(code: Any) -> int:
    """The number of a return code or reason code; -1 of anything else."""
    number = getattr(code, "value", code)
    return number if isinstance(number, int) else -1


class Broker:
    """The broker. After a loss, connects again, with growing pauses."""

    def __init__(self, connect: Callable[[int, bool], Connection], name: str, clock: Callable[[], float],
                 fraction: Callable[[], float] = random.random):
        self.connect, self.name, self.clock, self.random_fraction = connect, name, clock, fraction
        self.connection: Connection | None = None
        self.pause, self.due, self.version = FIRST_PAUSE, 0.0, 5
        # the reasons that were logged since the last connection
        self.reasons: set[str] = set()
        self.short_connection_count = 0

    def turn(self) -> bool:
        """Connects if this is due, or handles what has arrived. Returns whether a connection was opened."""
        try:
            if self.connection is None:
                if self.clock() >= self.due:
                    self.connection = self.connect(self.version, False)
                return False
            was_open = self.connection.is_open
            self.connection.turn(0)
        except WrongProtocol:
            self.version = 4
            self.close_connection()
            return False
        except ConnectionLost as lost:
            self.lose(str(lost))
            return False
        if self.connection.is_open and not was_open:
            self.reasons.clear()
        return self.connection.is_open and not was_open

    def report_connected(self) -> None:
        """A message of the bridge has come back: the broker accepts and passes on what is published."""
        if self.connection:
            logging.info("connected to %s%s", self.name, self.connection.missing_right)

    def report_refused(self, topic: str) -> None:
        """A message on this topic has not come back. The broker acknowledges messages that it drops, too."""
        logging.warning("the broker at %s accepts the connection, but refuses what is published: %s did not come back "
                        "within %.0f seconds; check the access rights of this user", self.name, topic, ECHO_WITHIN)

    def open_reader(self) -> Connection | None:
        """A reader, which is opened in its turns; None if there is no connection any more."""
        try:
            return self.connect(self.version, True)
        except ConnectionLost as lost:
            self.lose(str(lost))
            return None

    def lose(self, reason: str) -> None:
        """Drops the connection, and schedules the next attempt after a pause, which grows."""
        if self.connection and self.connection.is_open:
            duration = self.clock() - self.connection.began_at
            self.pause = FIRST_PAUSE if duration > MAX_PAUSE else self.pause
            self.short_connection_count = self.short_connection_count + 1 if duration < SHORT_CONNECTION else 0
            if self.short_connection_count == OFTEN_SHORT:
                logging.warning("the connection is lost again and again: is there another bridge with this name?")
        self.close_connection()
        if reason not in self.reasons:
            logging.warning("no connection to %s: %s", self.name, reason)
            self.reasons.add(reason)
        self.due = self.clock() + self.pause * (0.5 + self.random_fraction() / 2)
        self.pause = min(2 * self.pause, MAX_PAUSE)

    def close_connection(self) -> None:
        """Closes the connection, if there is one."""
        if self.connection:
            self.connection.close()
            self.connection = None
