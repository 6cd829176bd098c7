"""The orders that the bridge gives by itself: it asks for the list of devices, for the status, for the radio module and
for the states of actuators, and closes a learn window that it opened."""
from __future__ import annotations

import logging
import math
from collections.abc import Callable
from dataclasses import dataclass

from enogate_lines.contents import Content, EndOfList, Response, Status, Telegram
from enogate_tools.desk import opens_window

from .desk import Desk, DeskChange
from .queries import Queries

# The pauses between two unanswered requests for the list, in seconds: the first, and the longest.
FIRST_PAUSE, MAX_PAUSE = 5.0, 600.0
# How often the gateway is asked for its status, and how long it may take to answer at most, in seconds.
STATUS_EVERY, ANSWER_WITHIN = 60.0, 15.0
# If the radio module has shown nothing for so long, it is asked, in seconds: an order `base` is answered with 73 bytes
# of lines and a packet line of 53, 1.6 megabytes a day. If the gateway writes no line for so long after an order, or
# the module does not respond for so long, it does not work: with the time before, that is noticed within 15 seconds.
PROBE_AFTER, SILENT_FOR = 7.0, 7.0
# So long may a gateway be silent that starts. The unit starts it two seconds after its end.
START_WITHIN = 10.0
# So many lost orders are named in a message, and so much of each.
MAX_NAMED_ORDERS, SHOWN_OF_ORDER = 5, 60
# The order that closes the learn window.
CLOSE_WINDOW = b"learn off"


class ListRequest:
    """Asks for the list at the start and when its answer may have changed, and again until it is answered."""

    def __init__(self) -> None:
        self.due, self.pause, self.asked_at = 0.0, FIRST_PAUSE, -math.inf

    def note_needed(self, now: float, is_news: bool = True) -> None:
        """The answer may have changed. Without news, a list that is asked for already keeps its pauses: it may never be
        complete."""
        if is_news or self.is_answered:
            self.pause = FIRST_PAUSE
            self.due = min(self.due, max(now, self.asked_at + FIRST_PAUSE))

    def begin_if_due(self, now: float) -> bool:
        """Whether to ask now; if so, the next request is due after a pause, which grows."""
        if now < self.due:
            return False
        self.asked_at, self.due = now, now + self.pause
        self.pause = min(2 * self.pause, MAX_PAUSE)
        return True

    def note_answer(self) -> None:
        """A complete list has arrived."""
        self.due = math.inf

    @property
    def is_answered(self) -> bool:
        """Whether the devices are known."""
        return self.due == math.inf


@dataclass
class Probe:
    """Whether something answers a request that is repeated, within so many seconds: `is_online` is None until this is
    known."""
    interval: float
    max_wait: float
    due: float = 0.0
    asked_at: float = math.inf
    is_online: bool | None = None

    def begin_if_due(self, now: float) -> bool:
        """Whether to ask now."""
        if now < self.due:
            return False
        self.due = now + self.interval
        self.note_asked(now)
        return True

    def note_asked(self, now: float) -> None:
        """It is asked now. An unanswered request stays the one that counts."""
        self.asked_at = min(self.asked_at, now)

    def note_answer(self) -> None:
        self.asked_at, self.is_online = math.inf, True

    @property
    def late_at(self) -> float:
        """When the answer has been missing for too long; never if this was reported."""
        return math.inf if self.is_online is False else self.asked_at + self.max_wait

    def note_if_late(self, now: float, earliest: float = 0.0) -> bool:
        """Whether the answer has been missing for too long, and this was not reported yet. It is not missing before the
        earliest time."""
        if now < max(self.late_at, earliest):
            return False
        self.is_online = False
        return True


@dataclass(frozen=True)
class WindowEnd:
    """When a learn window is to be closed: by the clock, and in seconds since 1970, for a bridge that starts later."""
    clock_time: float
    time_of_day: float


class Requests:
    """Gives these orders at the desk of the gateway. `learn_for` is the time after which a learn window that was opened
    through the bridge closes, in seconds, and `learn_until` the end of one that an earlier run opened and did not
    close, in seconds since 1970. Without `queries`, actuators are not asked."""

    def __init__(self, desk: Desk, clock: Callable[[], float], wall: Callable[[], float], learn_for: float,
                 learn_until: float | None = None, queries: Queries | None = None):
        self.desk, self.clock, self.time_of_day, self.learn_for, self.queries = desk, clock, wall, learn_for, queries
        self.list_request = ListRequest()
        # whether the gateway answers `status`, whether it writes any line after an order, and whether the module works
        self.gateway_probe, self.output_probe = Probe(STATUS_EVERY, ANSWER_WITHIN), Probe(math.inf, SILENT_FOR)
        self.module_probe = Probe(PROBE_AFTER, SILENT_FOR)
        # when a start of the gateway was noticed after which it has not answered yet
        self.started_at = -math.inf
        self.status: Status | None = None
        self.window: WindowEnd | None = None
        if learn_until is not None:
            # if the time of day was set back, a window is not open for longer than a new one
            self.schedule_window_end(min(max(learn_until - wall(), 0.0), learn_for))
        self.desk_change: DeskChange | None = None

    def turn(self, needs_list: bool) -> None:
        """Gives the orders that are due."""
        now = self.clock()
        self.handle_desk_change(now)
        if needs_list:
            self.list_request.note_needed(now, is_news=False)
        if self.list_request.begin_if_due(now):
            self.give_order(b"list\n")
        if self.gateway_probe.begin_if_due(now):
            self.give_order(b"status\n")
        # the order `base` has the response of the module as its answer
        if self.gateway_probe.is_online and self.module_probe.begin_if_due(now):
            self.give_order(b"base\n")
        if self.window and now >= self.window.clock_time:
            self.close_window()
        self.ask_actuator(now)
        earliest = self.started_at + START_WITHIN
        if (self.gateway_probe.note_if_late(now)
                or self.gateway_probe.is_online and self.output_probe.note_if_late(now, earliest)):
            self.report_silence()
        self.module_probe.note_if_late(now, earliest)

    def next_due(self) -> float:
        """When `turn` has something to do again, as far as this is known now."""
        due = [self.list_request.due, self.gateway_probe.due, self.gateway_probe.late_at]
        if self.gateway_probe.is_online:
            earliest = self.started_at + START_WITHIN
            due += [self.module_probe.due,
                    *(max(probe.late_at, earliest) for probe in (self.output_probe, self.module_probe))]
        if self.window:
            due.append(self.window.clock_time)
        if self.queries and self.may_ask_actuators():
            due.append(self.queries.next_query_at)
        return min(due)

    def may_ask_actuators(self) -> bool:
        """Whether actuators are known and can be reached."""
        return bool(self.list_request.is_answered and self.gateway_probe.is_online and self.module_probe.is_online)

    def ask_actuator(self, now: float) -> None:
        """Asks an actuator for its states, if one is to be asked and can be reached."""
        if self.queries and self.may_ask_actuators():
            query = self.queries.take_due_query(now)
            if query and self.give_order(query + b"\n"):
                self.queries.note_given(query)

    def handle_desk_change(self, now: float) -> None:
        """Asks again if the gateway was started, or a label was given."""
        news = self.desk.take_change()
        lost_orders = [repr(order.decode("ascii", "replace")[:SHOWN_OF_ORDER])
                       for order in self.desk.take_lost_orders()]
        if lost_orders:
            and_more = f" and {len(lost_orders) - MAX_NAMED_ORDERS} more" if len(lost_orders) > MAX_NAMED_ORDERS else ""
            logging.warning("not answered before the gateway was started again, so probably lost: %s%s",
                            ", ".join(lost_orders[:MAX_NAMED_ORDERS]), and_more)
        if news in (DeskChange.CREATED, DeskChange.REPLACED, DeskChange.TRUNCATED):
            self.gateway_probe.due = self.module_probe.due = now
            if self.desk_change is None:
                # if it is started again and again, the first time counts
                self.started_at = now
            self.desk_change = news
            if self.queries:
                self.queries.forget_given()
        if news is not DeskChange.NONE:
            self.list_request.note_needed(now)

    def report_silence(self) -> None:
        """Says once that the gateway does not answer, with a change at the desk that may be the reason. Whether the
        module works is then unknown."""
        self.gateway_probe.is_online, self.module_probe = False, Probe(PROBE_AFTER, SILENT_FOR)
        logging.warning("the gateway does not answer: orders are lost until it runs")
        if self.desk_change is DeskChange.TRUNCATED:
            logging.warning("%s was truncated: if > was used in place of >>, restart the gateway", self.desk.path)
        if self.desk_change is DeskChange.REPLACED:
            logging.warning("%s was replaced by another file, which the gateway does not read: restart the gateway",
                            self.desk.path)

    def handle_line(self, content: Content) -> None:
        """Handles a line of the gateway."""
        self.output_probe.note_answer()
        self.desk.handle_line(content)
        match content:
            case Status():
                if self.gateway_probe.is_online is False:
                    logging.info("the gateway answers again")
                self.gateway_probe.note_answer()
                self.status, self.desk_change = content, None
            case Response() | Telegram():
                self.module_probe.note_answer()
                self.module_probe.due = self.clock() + PROBE_AFTER
            case EndOfList():
                self.gateway_probe.due = min(self.gateway_probe.due, self.clock())

    def note_window_orders(self, orders: bytes) -> None:
        """Remembers commands for the learn window that were passed on, and asks for the status after them."""
        for line in orders.split(b"\n"):
            if opens_window(line):
                self.schedule_window_end(self.learn_for)
            elif line == CLOSE_WINDOW:
                self.window = None
            else:
                continue
            self.gateway_probe.due = self.clock()

    def schedule_window_end(self, seconds: float) -> None:
        """Closes the learn window after so many seconds."""
        self.window = WindowEnd(self.clock() + seconds, self.time_of_day() + seconds)

    def close_window(self) -> None:
        """Closes the learn window, if it was opened through the bridge."""
        if self.window and self.give_order(CLOSE_WINDOW + b"\n"):
            self.window, self.gateway_probe.due = None, self.clock()

    def give_order(self, order: bytes) -> bool:
        """Gives an order; without a desk, or if it takes none now, nothing is lost, since all of these are repeated."""
        self.output_probe.note_asked(self.clock())
        try:
            self.desk.append(order)
        except OSError:
            return False
        return True
