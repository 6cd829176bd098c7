"""Finds the lines that answer an order.

The gateway answers the orders of its desk one by one: `list` with a line for each device and a line with their number,
any other order with one line. It handles all orders of one or more reads of the desk (256 bytes each) before it reads
the serial port again. No line names its order, and a telegram can give the same line as an order. So an order is
written between orders `status`, the fences, in a single write:

    status
    status
    ORDER
    status

More than two of them are before the order if another program may have written two that are not answered yet (fence.py).

Some lines only orders give: `ok`, `device`, `list`, and all errors but `memory` and `store`. Teach lines come from
orders and from packets; the counter `teach` of two status lines says how many came from packets in between. The rule:

1. Nothing counts until status lines have come without a line of an order between them, as many as there are fences
   before the order. If an error `memory` or `store` is between them, more may be needed (fence.py).
2. The lines from there to the next status line are the answer if exactly one answer is among them that this order can
   have: lines that only orders give, or a teach line that no packet gave. If there is neither, it is an error `memory`
   or `store` that does not directly follow the packet line of a packet that failed.
3. Otherwise these were status lines of another program, and the search continues with the last of them.

Several orders are written with a `status` order after each one. Their answers are in intervals that follow each other:
as many as there are orders, each with an answer that its order can have.

The order `status` is given alone and needs no fences: each status line after it is written answers it."""
from __future__ import annotations

from typing import NamedTuple

from enogate_lines.contents import BadLine, Content, Deleted, EndOfList, Learned, Listed, Status, Strange
from enogate_lines.contents import content_of_members, members_of
from enogate_tools import share

# A fence, and the last fence of a text, which shows where the text ends. The gateway removes one CR before LF.
FENCE, LAST_FENCE = b"status\n", b"status\r\n"
# The minimum number of fences before an order.
MIN_FENCES = 2
# The errors that packets have, too.
PACKET_ERRORS = frozenset({"memory", "store"})
# The errors that each order can have, by its first word.
ERRORS_BY_VERB = {verb: frozenset().union(*(errors for _, errors in forms))
                  for verb, forms in share.order_forms().items()}


class Line(NamedTuple):
    """A line of the gateway."""
    raw: bytes
    members: dict[str, object]
    content: Content

    @property
    def kind(self) -> str:
        return str(self.members["type"])

    @property
    def error(self) -> str | None:
        """The name of the error, if it is one."""
        return str(self.members["error"]) if self.kind == "error" else None

    @property
    def is_from_order(self) -> bool:
        """Whether only orders give such lines."""
        return self.kind in ("ok", "device", "list") or (self.kind == "error" and self.error not in PACKET_ERRORS)


class Answer(NamedTuple):
    """The lines that answer an order."""
    lines: list[Line]

    @property
    def error(self) -> str | None:
        """The name of the error, if the order was refused or failed."""
        return self.lines[-1].error

    @property
    def devices(self) -> list[Listed]:
        """The devices of an answer to `list`."""
        return [line.content for line in self.lines if isinstance(line.content, Listed)]


class Interval:
    """The lines after a status line: those that only orders give, teach lines, and errors that orders and packets have
    in common."""

    def __init__(self, opening: Status):
        self.opening = opening
        self.order_lines: list[Line] = []
        self.teach_lines: list[Line] = []
        self.errors: list[Line] = []
        # whether the last line explained a packet that failed: the next line is its error
        self.follows_failed = False

    def add(self, line: Line) -> None:
        """Adds a line, unless a packet gave it."""
        if line.is_from_order:
            self.order_lines.append(line)
        elif line.kind == "teach":
            self.teach_lines.append(line)
        elif line.kind == "error" and not self.follows_failed:
            self.errors.append(line)
        self.follows_failed = line.kind == "packet" and line.members.get("why") == "refused"

    def count_order_teach_lines(self, closing: Status) -> int:
        """How many of the teach lines no packet gave."""
        return len(self.teach_lines) - (closing.counters["teach"] - self.opening.counters["teach"])


def parse_line(raw: bytes) -> Line | None:
    """The line, or None if it is not one of a gateway."""
    try:
        members = members_of(raw)
    except BadLine:
        return None
    content = content_of_members(members, raw)
    if isinstance(content, Strange) or not isinstance(members["type"], str):
        return None
    if members["type"] == "error" and not isinstance(members.get("error"), str):
        return None
    return Line(raw, members, content)


def is_line_of_order(raw: bytes) -> bool:
    """Whether only an order can have given this line."""
    line = parse_line(raw)
    return line is not None and (line.is_from_order or isinstance(line.content, Status))


class AnswerFinder:
    """Finds the answers to orders among the lines that come after they were written. `least` is the number of fences
    before the first order, and of status lines in a row that are needed. If an error `memory` or `store` is between
    status lines, `least_with_errors` are needed, or `least` after this error."""

    def __init__(self, *orders: str):
        self.orders = [Order(order) for order in orders]
        self.least = self.least_with_errors = MIN_FENCES
        # How many status lines have come without a line of an order between them, and how many of them after the last
        # error `memory` or `store`. An error that the packet line of a failed packet explains does not count.
        self.fences = self.fences_after_error = 0
        self.interval: Interval | None = None
        # The answers to the first orders, for each line where they may have begun.
        self.begun: list[list[Answer]] = []
        # Whether the answers were found.
        self.is_done = False

    @property
    def answered_count(self) -> int:
        """How many of the orders may have been answered so far."""
        return max(map(len, self.begun), default=0)

    @property
    def desk_text(self) -> bytes:
        """The text for the desk."""
        if self.is_status_order:
            return FENCE
        return FENCE * self.least + FENCE.join(order.as_line for order in self.orders) + LAST_FENCE

    @property
    def is_status_order(self) -> bool:
        """Whether the order is `status`."""
        return self.orders[0].verb == "status"

    def handle_line(self, raw: bytes) -> list[Answer] | None:
        """The answers, if the last one ends with this line."""
        line = parse_line(raw)
        if line is None:
            return None
        if isinstance(line.content, Status):
            return self.handle_status_line(line, line.content)
        if self.interval:
            self.interval.add(line)
        return None

    def handle_status_line(self, line: Line, closing: Status) -> list[Answer] | None:
        """The answers, if this status line is the closing fence of the last order."""
        if self.is_status_order:
            return [Answer([line])]
        interval, self.interval = self.interval, Interval(closing)
        if interval is None:
            self.fences = self.fences_after_error = 1
            return None
        if self.fences_after_error >= self.least or self.fences >= self.least_with_errors:
            self.begun.append([])
        self.begun = [[*answers, answer] for answers in self.begun
                      if (answer := self.orders[len(answers)].answer_in(interval, closing))]
        has_order = bool(interval.order_lines) or interval.count_order_teach_lines(closing) != 0
        self.fences = 1 if has_order else self.fences + 1
        self.fences_after_error = 1 if has_order or interval.errors else self.fences_after_error + 1
        return next((answers for answers in self.begun if len(answers) == len(self.orders)), None)


class Order:
    """An order, and which lines can answer it."""

    def __init__(self, order: str):
        self.words = order.split(" ")
        self.verb = self.words[0]

    @property
    def as_line(self) -> bytes:
        """The order as a line."""
        return " ".join(self.words).encode("ascii") + b"\n"

    def answer_in(self, interval: Interval, closing: Status) -> Answer | None:
        """The answer between two status lines, if they are those next to the order."""
        taught = interval.count_order_teach_lines(closing)
        if interval.order_lines:
            return Answer(interval.order_lines) if taught == 0 and self.is_whole_answer(interval.order_lines) else None
        if taught:
            fitting = [line for line in interval.teach_lines if self.is_answered_by(line)]
            return Answer(fitting[-1:]) if taught == 1 and fitting else None
        fitting = [line for line in interval.errors if self.is_answered_by(line)]
        return Answer(fitting[-1:]) if fitting else None

    def is_whole_answer(self, order_lines: list[Line]) -> bool:
        """Whether these lines are exactly one answer that this order can have."""
        if self.verb == "list":
            *devices, end = order_lines
            return (isinstance(end.content, EndOfList) and end.content.count == len(devices)
                    and all(isinstance(line.content, Listed) for line in devices))
        return len(order_lines) == 1 and self.is_answered_by(order_lines[0])

    def is_answered_by(self, line: Line) -> bool:
        """Whether this line can answer the order, which is not `list`; or whether it is an error that it can have."""
        if line.kind == "error":
            return line.error in ERRORS_BY_VERB[self.verb]
        match self.verb, line.content:
            case "add", Learned(device, eep, maker):
                return (device, eep, maker) == (self.words[1].upper(), self.words[2].upper(), None)
            case "remove", Deleted(device):
                return device == self.words[1].upper()
        return line.kind == "ok" and self.verb not in ("add", "remove", "list")
