"""The bridge: passes the lines of the gateway to the broker, and messages from the broker to the gateway's desk."""
from __future__ import annotations

import json
import logging
import math
import os
import re
from collections.abc import Callable, Iterable, Iterator

from enogate_lines.contents import BadLine, Content, Strange, content_of
from enogate_lines.follow import Follower, Position
from enogate_lines.inotify import LONGEST_WAIT, POLL_PAUSE
from enogate_tools.desk import opens_window
from enogate_tools.gateways import DATABASE_FOLDER

from . import discovery
from .connection import ECHO_WITHIN, Broker, Connection, ConnectionLost, ReceivedMessage
from .desk import Desk
from .devices import Devices, time_text
from .health import HealthReport
from .log import RateLimitedLog
from .orders import DEVICE_PATTERN, InvalidMessage, orders_of
from .outbox import MAX_UNDER_WAY, Backlog, Entry, Outbox
from .reconcile import Part, Reconciler
from .requests import ListRequest, Probe, Requests
from .state import LAST_SEEN_SUBTOPIC
from .store import Store
from .topics import Message, Topics

# The shortest time between two writes of the state, in seconds.
SAVE_EVERY = 2.0
# How long the end of the bridge waits for acknowledgements, in seconds.
END_WITHIN = 2.0
# What the broker retains is compared on an open connection, too: each day, and when somebody has removed some of it and
# has then removed nothing for so long, in seconds.
COMPARE_EVERY, COMPARE_AFTER_REMOVAL = 86400.0, 5.0
# The shortest time between two messages with counters, in seconds. The gateway is asked for its status more often, and
# not only by the bridge.
COUNTERS_EVERY = 60.0
GATEWAY_PART, UNKNOWN_PART = "gateway", "unknown"
# So long after its start the bridge waits for the clock to be set, in seconds.
CLOCK_SET_WITHIN = 600.0


def decoded_lines(lines: Iterable[tuple[bytes, Position]], devices: Devices, warn: Callable[[str, str], None]
             ) -> Iterator[tuple[str, Position, Content]]:
    """The lines that are lines of a gateway, each with its position and its contents. Others are logged."""
    for line, position in lines:
        try:
            content = content_of(line)
        except BadLine as bad:
            warn("line", str(bad))
            devices.drop_listing()
            continue
        if isinstance(content, Strange):
            warn("members", content.complaint)
        yield line.decode("ascii"), position, content


class Bridge:
    """Connects one gateway to one broker."""

    def __init__(self, topics: Topics, broker: Broker, devices: Devices, follower: Follower, desk: Desk,
                 requests: Requests, store: Store, clock: Callable[[], float], wall: Callable[[], float],
                 wait: Callable[[list[Connection], float, bool], None]):
        self.topics, self.broker, self.devices, self.follower = topics, broker, devices, follower
        self.desk, self.requests, self.store, self.clock, self.time_of_day = desk, requests, store, clock, wall
        self.wait = wait
        self.outbox, self.backlog = Outbox(), Backlog()
        self.health = HealthReport(devices, requests, clock, wall,
                                   [os.path.dirname(follower.path), DATABASE_FOLDER])
        self.rate_limited_log = RateLimitedLog(clock)
        self.connection: Connection | None = None
        # what the broker retains comes on a connection of its own: if it is too much for the broker, it drops some of
        # it, but no acknowledgement and no order
        self.reader: Connection | None = None
        self.reconciler: Reconciler | None = None
        self.is_stopped = False
        # whether all lines were read that were written before the start
        self.has_read = False
        # whether what the broker retains was compared, so that the readings there are the last ones
        self.is_online = False
        # what the broker retains about the gateway itself, once this is known, and the deletions that are under way
        self.gateway_reports: dict[str, str] | None = None
        self.deletion_numbers: dict[str, int] = {}
        # when the counters were published
        self.counters_sent_at = -math.inf
        # whether its own message `online` has come back on this connection
        self.echo = Probe(math.inf, ECHO_WITHIN)
        # when what is retained is compared again, and until when the lines are not looked at
        self.compare_at = self.next_look_at = 0.0
        self.saved_state: Position | None = store.position if store.is_same_boot else None
        self.saved_at = 0.0
        # the newest time of a telegram in an earlier run, and until when an earlier time is not published
        self.newest_last_seen = max((device.last_readings.get(LAST_SEEN_SUBTOPIC, "") for device in store.devices),
                                    default="")
        self.clock_set_until = clock() + CLOCK_SET_WITHIN
        self.is_unknown_asked = False

    def run(self) -> None:
        """Runs until it is stopped. Lines from before the first run set the state, and are not published."""
        self.read_earlier_lines()
        if self.follower.file is None and not self.is_stopped:
            logging.warning("cannot open %s: %s; retrying", self.follower.path, self.follower.fault)
        while not self.is_stopped:
            self.turn()
        self.requests.close_window()
        if self.connection:
            # what waits is not published any more: the next run compares the states
            self.send(Message(self.topics.status, "offline", True))
            self.connection.end(END_WITHIN)
            self.note_acknowledged(self.connection)
        self.save()
        # a second signal must not leave the log there: enogatectl takes a file with a log for that of a running bridge
        self.store.close()

    def read_earlier_lines(self) -> None:
        """Reads what the gateway has written before. A list among these lines is not the answer to a request. The lines
        are published if they are known to be new: after a power failure the state may be older than what was published,
        and after a position that was not found, all lines may be."""
        self.read_existing_lines(self.store.is_same_boot and self.follower.is_found, is_earlier=True)
        self.has_read |= not self.is_stopped
        self.devices.list_count = 0
        self.requests.list_request = ListRequest()

    def turn(self) -> None:
        """Waits until there is something to do, and does it."""
        connections = [connection for connection in (self.broker.connection, self.reader) if connection]
        self.wait(connections, self.longest_wait(), self.follower.seen_next is None)
        if self.broker.turn():
            self.handle_connected()
        self.turn_reader()
        # what has arrived before a loss is handled too
        for connection in filter(None, (self.connection, self.reader)):
            received_messages, connection.received_messages = connection.received_messages, []
            for message in received_messages:
                self.handle_message(message)
        if self.connection is not self.broker.connection:
            self.connection = self.reconciler = None
            self.close_reader()
        if self.clock() >= self.next_look_at:
            self.handle_lines(True)
            # a file that follows another one is not read at once: a line may still be written to the other one
            self.next_look_at = self.clock() + POLL_PAUSE if self.follower.seen_next else 0.0
        self.publish(self.devices.end_label_waits())
        self.requests.turn(self.devices.needs_list)
        self.devices.needs_list = False
        if self.connection and self.reconciler:
            if self.reconciler.is_done and self.clock() >= self.compare_at:
                self.compare_all(self.reconciler)
            self.turn_reconciler(self.reconciler)
            if self.reconciler.is_done and not self.is_online:
                self.is_online = True
                self.publish([Message(self.topics.status, "online", True)])
            if self.echo.note_if_late(self.clock()):
                self.broker.report_refused(self.topics.status)
            self.publish_gateway_reports()
            self.publish_waiting()
            self.outbox.publish(self.publish_line, self.has_room)
            self.note_acknowledged(self.connection)
        if self.clock() >= self.saved_at + SAVE_EVERY:
            self.save()

    def longest_wait(self) -> float:
        """How long the next turn waits if nothing happens. It is not 0 if something is due: it may stay so."""
        if not self.follower.is_at_end and self.follower.seen_next is None:
            return 0.0
        if self.follower.seen_next or self.is_busy():
            return POLL_PAUSE
        due = min(self.requests.next_due(), self.saved_at + SAVE_EVERY)
        if not self.broker.connection:
            due = min(due, self.broker.due)
        return min(max(due - self.clock(), POLL_PAUSE), LONGEST_WAIT)

    def is_busy(self) -> bool:
        """Whether something is under way at the broker."""
        if not self.connection or not self.reconciler:
            return self.broker.connection is not None
        is_settled = self.is_online and self.reconciler.is_done and not self.reader
        return not is_settled or bool(self.backlog or self.outbox.entries or self.connection.unacknowledged_numbers)

    def turn_reader(self) -> None:
        """Handles what the broker retains. The reader is opened when it is needed, and closed when all is compared."""
        if self.connection is not self.broker.connection:
            return
        if self.reconciler and self.reconciler.is_done:
            self.close_reader()
        elif self.reconciler and not self.reader:
            self.reader = self.broker.open_reader()
        if self.reader:
            try:
                self.reader.turn(0)
            except ConnectionLost as lost:
                self.broker.lose(f"{lost} (on the connection that reads what is retained)")

    def turn_reconciler(self, reconciler: Reconciler) -> None:
        """Asks the broker for what it retains, once the reader is open."""
        if self.reader and self.reader.is_open:
            try:
                reconciler.turn(self.reader)
            except ConnectionLost as lost:
                self.broker.lose(str(lost))

    def close_reader(self) -> None:
        if self.reader:
            self.reader.close()
            self.reader = None

    def read_existing_lines(self, are_kept: bool, is_earlier: bool = False) -> None:
        """Reads all existing lines while nothing is published. Those of before this run answer none of its requests."""
        self.follower.is_at_end = False
        while not self.follower.is_at_end and not self.is_stopped:
            self.handle_lines(are_kept, is_late=True, is_earlier=is_earlier)

    def handle_connected(self) -> None:
        """A connection was opened. Lines that came before cause no events. Then what the broker retains is compared."""
        self.read_existing_lines(True)
        self.connection = self.broker.connection
        assert self.connection is not None
        self.close_reader()
        self.outbox.start_session()
        self.backlog = Backlog()
        self.gateway_reports, self.deletion_numbers = None, {}
        self.reconciler = Reconciler(self.clock, self.publish_differences)
        self.is_online, self.echo = False, Probe(math.inf, ECHO_WITHIN)
        self.publish([Message(topic, "", True) for topic in sorted(self.devices.removed_topics)])
        self.compare_all(self.reconciler)
        self.is_unknown_asked = False

    def compare_all(self, reconciler: Reconciler) -> None:
        """Compares everything that the broker retains about the gateway and its devices."""
        reconciler.add([Part(GATEWAY_PART, [*self.topics.report_topics, *self.gateway_configs()])])
        reconciler.add(map(self.part_of_device, sorted(self.devices.known_devices)))
        self.compare_at = self.clock() + COMPARE_EVERY

    def gateway_configs(self) -> dict[str, str]:
        """The discovery messages of the gateway itself, by topic."""
        return discovery.gateway_configs(self.topics) if self.topics.discovery else {}

    def part_of_device(self, device: str) -> Part:
        """What the broker may retain about a device: its readings, and the discovery messages that it should have."""
        return Part(device, [*self.topics.device_filters(device), *self.devices.shown_configs.get(device, ())])

    def parts_for_unknown_devices(self) -> list[Part]:
        """Without a state file it is unknown which devices were published before: the broker is asked for all, in parts
        that are as small as possible."""
        filters_of_parts = [[f"{self.topics.root}/+/+"], [f"{self.topics.root}/+/+/+"]]
        if self.topics.discovery:
            filters_of_parts += [[self.topics.config(component, "+")] for component in sorted(discovery.COMPONENTS)]
        expected_topics = self.wanted_messages()
        return [Part(UNKNOWN_PART, filters, is_large=True, expected_topics=expected_topics)
                for filters in filters_of_parts]

    def wanted_messages(self) -> dict[str, str]:
        """Everything that the broker should retain, by topic."""
        messages = self.gateway_configs()
        for device in self.devices.known_devices:
            messages |= self.devices.retained_messages(device)
        return messages

    def publish_differences(self, part: Part) -> None:
        """Publishes the differences between what is retained and what should be."""
        retained_texts = {topic: text for topic, text in part.retained.items() if text}
        expected_texts = self.gateway_configs() if part.name == GATEWAY_PART else {}
        if part.name == GATEWAY_PART:
            self.gateway_reports = {topic: retained_texts.pop(topic)
                                    for topic in self.topics.report_topics if topic in retained_texts}
        if part.name == UNKNOWN_PART:
            expected_texts, self.devices.may_adopt = self.wanted_messages(), False
        elif part.name in self.devices.known_devices:
            # a list, since a device may be shown with other entities
            if any([self.devices.adopt_reading(topic, text) for topic, text in retained_texts.items()]):
                self.publish(self.devices.update_discovery(self.devices.known_devices[part.name]))
            expected_texts = self.devices.retained_messages(part.name)
        if part.name != UNKNOWN_PART:
            # the topics of a device that was not shown before are not in this part, and were published meanwhile
            self.publish([Message(topic, text, True) for topic, text in expected_texts.items()
                          if retained_texts.get(topic) != text and part.has_topic(topic)])
        strays = (topic for topic in retained_texts if topic not in expected_texts and self.is_stray(topic, part))
        self.publish(self.devices.delete_retained(strays))

    def is_stray(self, topic: str, part: Part) -> bool:
        """Whether an unwanted topic is one that this bridge publishes: below a device, or a discovery message. A part
        for unknown devices expects all topics on which a device is shown."""
        if topic.startswith(self.topics.root + "/"):
            return re.match(f"{DEVICE_PATTERN}/", topic.removeprefix(self.topics.root + "/")) is not None
        return part.name == UNKNOWN_PART or not self.devices.is_shown_on(topic)

    def publish(self, messages: Iterable[Message]) -> None:
        """Publishes these if there is a connection, as soon as there is room for them. Otherwise, retained messages are
        published once there is one, and events never."""
        if self.connection and self.reconciler:
            for message in messages:
                if message.retained:
                    self.reconciler.note_published(message.topic, message.payload)
                self.backlog.add(message)
                self.publish_waiting()

    def has_room(self) -> bool:
        """Whether another message may be under way."""
        return self.connection is not None and len(self.connection.unacknowledged_numbers) < MAX_UNDER_WAY

    def publish_waiting(self) -> None:
        """Publishes messages that wait, while there is room for them."""
        while self.backlog and self.has_room():
            message = self.backlog.pop_next()
            number = self.send(message)
            if message.retained and not message.payload:
                self.deletion_numbers[message.topic] = number
            if message.topic == self.topics.status and self.echo.is_online is None:
                self.echo.note_asked(self.clock())

    def send(self, message: Message) -> int:
        """Publishes a message on the open connection, and returns its number."""
        assert self.connection is not None
        return self.connection.publish(message)

    def publish_line(self, entry: Entry) -> int:
        """Publishes a line, and returns the number of the message."""
        return self.send(Message(self.topics.lines, entry.line, False, entry.properties(self.clock())))

    def handle_lines(self, are_kept: bool, is_late: bool = False, is_earlier: bool = False) -> None:
        """Handles the lines that have arrived. When they are late, the time of their arrival is not known."""
        lists_before, now = self.devices.list_count, self.plausible_time()
        for line, position, content in decoded_lines(self.follower.read(), self.devices, self.rate_limited_log.warning):
            if are_kept:
                self.outbox.add(line, position, self.clock(), now)
            self.publish(self.devices.handle_line(content, None if is_late else now))
            if not is_earlier:
                self.requests.handle_line(content)
                self.health.handle_line(content)
        self.note_devices(lists_before)

    def note_devices(self, lists_before: int) -> None:
        """Notes lists that have ended, and compares what the broker retains about new devices."""
        if self.devices.list_count > lists_before:
            self.requests.list_request.note_answer()
        new_devices, self.devices.new_devices = self.devices.new_devices, set()
        if self.reconciler:
            self.reconciler.add(map(self.part_of_device, sorted(new_devices)))
            if self.devices.may_adopt and self.devices.list_count and not self.is_unknown_asked:
                self.is_unknown_asked = True
                self.reconciler.add(self.parts_for_unknown_devices())

    def plausible_time(self) -> float | None:
        """The time; None if it is earlier than that of an earlier run, soon after the start: a computer without a clock
        chip has the wrong time until the network is there. Later it counts, since the earlier time may be wrong."""
        now = self.time_of_day()
        return None if self.clock() < self.clock_set_until and time_text(now) < self.newest_last_seen else now

    def handle_message(self, message: ReceivedMessage) -> None:
        """Handles a message from the broker."""
        is_order = message.topic == self.topics.orders or message.topic.endswith("/set")
        if message.retained and is_order:
            self.rate_limited_log.warning("retained", f"message on {message.topic!r} ignored: it is retained")
        elif message.retained and self.reconciler:
            self.reconciler.handle_retained(message.topic, message.payload.decode("utf-8", "replace"))
        if message.retained:
            return
        if message.topic in self.topics.watched_topics:
            self.restore_own_topic(message.topic, message.payload.decode("utf-8", "replace"))
        elif is_order:
            self.pass_orders_on(message)

    def restore_own_topic(self, topic: str, text: str) -> None:
        """Handles a message on a topic on which only this bridge publishes: what others publish there is replaced, and
        what they have removed comes back. The broker sends `offline` if it notices late that an earlier connection was
        lost."""
        if not text:
            self.compare_at = self.clock() + COMPARE_AFTER_REMOVAL
        if topic == self.topics.status and self.is_online:
            if text != "online":
                self.publish([Message(topic, "online", True)])
            elif not self.echo.is_online:
                self.echo.note_answer()
                self.broker.report_connected()
        if (self.gateway_reports is not None and topic in self.topics.report_topics
            and text != self.gateway_reports.get(topic)):
            self.gateway_reports.pop(topic, None)

    def pass_orders_on(self, message: ReceivedMessage) -> None:
        """Passes the orders of a message to the gateway."""
        window = self.requests.window
        try:
            orders = orders_of(self.topics, message.topic, message.payload)
            if opens_window(orders):
                # this is saved first: if the bridge is killed after it has given the order, its next run closes the
                # learn window
                self.requests.schedule_window_end(self.requests.learn_for)
                self.save()
            left_out_count = self.desk.give(orders, len(self.devices.known_devices))
        except InvalidMessage as invalid:
            self.rate_limited_log.warning("refused", f"message on {message.topic!r} ignored: {invalid}")
            return
        except OSError as error:
            loss_warning = f"message on {message.topic!r} lost: {self.desk.path}: {error.strerror or error}"
            self.rate_limited_log.warning("lost", loss_warning)
            self.requests.window = window
            return
        if left_out_count:
            left_out_warning = (f"message on {message.topic!r}: {left_out_count} orders not passed on: "
                                "an earlier list or status is not answered yet")
            self.rate_limited_log.warning("left out", left_out_warning)
        self.requests.note_window_orders(orders)
        if self.requests.gateway_probe.is_online is False:
            offline_warning = f"message on {message.topic!r}: the gateway does not answer, orders may be lost"
            self.rate_limited_log.warning("offline", offline_warning)

    def publish_gateway_reports(self) -> None:
        """Publishes what is known about the gateway itself, if it has changed."""
        if self.gateway_reports is None:
            return
        changed_reports = {topic: text for topic, text in self.reports_besides(self.gateway_reports).items()
                           if self.gateway_reports.get(topic) != text}
        if self.topics.counters in changed_reports:
            self.counters_sent_at = self.clock()
        self.publish([Message(topic, text, True) for topic, text in changed_reports.items()])
        self.gateway_reports |= changed_reports

    def reports_besides(self, published_reports: dict[str, str]) -> dict[str, str]:
        """What is known about the gateway itself, by topic. Of what is published already, some is left out."""
        reports, gateway, module = {}, self.requests.gateway_probe.is_online, self.requests.module_probe.is_online
        if gateway is not None:
            reports[self.topics.gateway] = "online" if gateway else "offline"
        if gateway is False or module is not None:
            reports[self.topics.module] = "online" if gateway and module else "offline"
        if self.requests.status:
            reports[self.topics.learn] = "OFF" if self.requests.status.mode == "closed" else "ON"
            if self.topics.counters not in published_reports or self.clock() >= self.counters_sent_at + COUNTERS_EVERY:
                reports[self.topics.counters] = json.dumps(self.requests.status.counters, separators=(",", ":"))
        if health := self.health.take_due_text(self.topics.health in published_reports):
            reports[self.topics.health] = health
        return reports

    def note_acknowledged(self, connection: Connection) -> None:
        """Notes which lines and deletions the broker has acknowledged."""
        self.outbox.drop_acknowledged(connection.unacknowledged_numbers)
        deleted_topics = {topic
                          for topic, number in self.deletion_numbers.items()
                          if number not in connection.unacknowledged_numbers}
        for topic in deleted_topics:
            del self.deletion_numbers[topic]
        self.devices.removed_topics -= deleted_topics

    def save(self) -> None:
        """Saves the state if it has changed: how far the broker has acknowledged the lines, the devices, and the end of
        the learn window. A position among the earlier lines is not saved: the next run would take the rest for new."""
        if not self.has_read:
            return
        position = self.outbox.acknowledged_position(self.follower.position)
        self.saved_at = self.clock()
        changed_devices = self.devices.changed_devices
        removed_topics, may_adopt = self.devices.removed_topics, self.devices.may_adopt
        learn_until = self.requests.window.time_of_day if self.requests.window else None
        now = position, removed_topics, may_adopt, learn_until
        if not changed_devices and now == (self.saved_state, self.store.removed_topics, self.store.may_adopt,
                                           self.store.learn_until):
            return
        if self.store.save(position, changed_devices, self.devices.known_devices, removed_topics, may_adopt,
                           learn_until):
            self.saved_state, self.devices.changed_devices = position, set()
