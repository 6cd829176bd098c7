"""What the broker has not acknowledged or received yet: lines, and other messages that wait."""
from __future__ import annotations

import logging
from collections import OrderedDict, deque
from collections.abc import Callable, Container
from dataclasses import dataclass

from enogate_lines.follow import Position

from .topics import Message

# So many lines are kept while the broker is unavailable; after that the oldest are dropped.
MAX_LINES = 10000
# So many messages are under way at a time: the others wait here, where a press is put before them. This is less than
# what mosquitto takes in a second.
MAX_UNDER_WAY = 500
# So many events wait; after that the oldest are dropped.
MAX_EVENTS = 1000
# A line that waits here for longer is late, in seconds.
LATE_AFTER = 10.0


@dataclass(slots=True)
class Entry:
    """A line, the position before it in the file, when it was read (by the clock of the bridge, and in seconds since
    1970, if that is known), and the number of its message once it is published. A line that was read before there was
    this connection is late."""
    line: str
    start_position: Position
    read_at: float = 0.0
    time_of_day: float | None = None
    message_number: int | None = None
    is_late: bool = False

    def properties(self, now: float) -> tuple[tuple[str, str], ...]:
        """The user properties of its message at this time, by the clock of the bridge."""
        time = (("time", str(int(self.time_of_day))),) if self.time_of_day is not None else ()
        return (*time, ("late", "1")) if self.is_late or now > self.read_at + LATE_AFTER else time


class Outbox:
    """Keeps lines in their sequence until the broker has acknowledged them."""

    def __init__(self) -> None:
        self.entries: deque[Entry] = deque()
        self.is_dropping = False

    def add(self, line: str, start_position: Position, read_at: float = 0.0, time_of_day: float | None = None,
            is_late: bool = False) -> None:
        if len(self.entries) == MAX_LINES:
            self.entries.popleft()
            if not self.is_dropping:
                logging.warning("broker unavailable or too slow: %s lines kept, dropping the oldest", MAX_LINES)
            self.is_dropping = True
        self.entries.append(Entry(line, start_position, read_at, time_of_day, is_late=is_late))

    def start_session(self) -> None:
        """A new connection knows nothing of messages that were published on another one."""
        self.is_dropping = False
        for entry in self.entries:
            entry.message_number, entry.is_late = None, True

    def publish(self, publish: Callable[[Entry], int], has_room: Callable[[], bool]) -> None:
        """Publishes the lines that are not published yet, while there is room for another message; `publish` returns
        the number of the message."""
        for entry in self.entries:
            if not has_room():
                return
            if entry.message_number is None:
                entry.message_number = publish(entry)

    def drop_acknowledged(self, unacknowledged_numbers: Container[int]) -> None:
        """Drops the lines at the front that the broker has acknowledged."""
        while (self.entries and self.entries[0].message_number is not None
               and self.entries[0].message_number not in unacknowledged_numbers):
            self.entries.popleft()

    def acknowledged_position(self, end_position: Position) -> Position:
        """The position up to which all lines are acknowledged; `end_position` is that up to which they were read."""
        return self.entries[0].start_position if self.entries else end_position


class Backlog:
    """Messages that wait because enough others are under way. Events are first, and of each retained topic only the
    newest message is kept, so there are never more of them than topics."""

    def __init__(self) -> None:
        self.events: deque[Message] = deque(maxlen=MAX_EVENTS)
        # a plain dict would search for its first item among those that were removed
        self.states: OrderedDict[str, Message] = OrderedDict()

    def __len__(self) -> int:
        return len(self.events) + len(self.states)

    def add(self, message: Message) -> None:
        if message.retained:
            self.states[message.topic] = message
        else:
            self.events.append(message)

    def pop_next(self) -> Message:
        """Removes the message that is published next."""
        return self.events.popleft() if self.events else self.states.popitem(last=False)[1]
