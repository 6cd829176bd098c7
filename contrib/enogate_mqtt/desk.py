"""The desk of a gateway: the file to which orders are appended."""
from __future__ import annotations

import enum
import os
import re
import stat
from collections import deque
from collections.abc import Callable

from enogate_lines.contents import OkOrError, Content, Deleted, EndOfList, Learned, Status
from enogate_tools.desk import INVALID_END, MAX_SIZE, write_orders

# So many bytes may be appended at once, and so many more with each second. The gateway reads more per second, unless
# its disk is slow: what it has not read stays below MAX_BURST, and another order waits for a few seconds at most.
MAX_BURST, BYTES_PER_SECOND = 16384, 2000
# The gateway reads nothing from the stick while it writes an answer, and the answer to `list` has a line for each
# device. Each of these lines counts like the shortest order, which is answered with one line.
LIST_ORDER, STATUS_ORDER, BASE_ORDER = b"list", b"status", b"base"
COST_OF_LISTED_DEVICE = len(LIST_ORDER) + 1
# An answer that has not come after so many seconds does not come any more.
ANSWER_WITHIN = 60.0
# So many orders that are not answered are noted; the bridge gives far fewer in that time.
MAX_PENDING_REQUESTS = 100
# So many orders are noted that may be lost.
MAX_PENDING_ORDERS = 1000
LABEL_START = b"\nlabel "
# So many bytes are looked at in a turn. Other programs may make the desk longer than the memory.
MAX_LOOK = 1 << 20


class DeskChange(enum.Enum):
    """What changed at the desk."""
    NONE = enum.auto()
    CREATED = enum.auto()    # the file is there, and was not
    REPLACED = enum.auto()   # another file has its name
    TRUNCATED = enum.auto()  # it is shorter than before: a gateway was started, or somebody used > in place of >>
    LABELLED = enum.auto()   # an order for a label was appended


class PendingRequests:
    """The orders `list` and `status` that were given and are not answered yet. Others give one of each at a time: its
    answer is published, so whoever gives another one gets it too. An order that another program wrote to the desk may
    be answered first; then another one is passed on early."""

    def __init__(self, clock: Callable[[], float]):
        self.clock = clock
        # by order: when each was given, and whether by the bridge itself; the gateway answers them in this sequence
        self.times_by_request: dict[bytes, deque[tuple[float, bool]]] = {
            order: deque(maxlen=MAX_PENDING_REQUESTS) for order in (LIST_ORDER, STATUS_ORDER)}

    def without_pending(self, orders: bytes) -> list[bytes]:
        """The lines of these orders of others, without those for which an earlier one waits."""
        lines_left = []
        waiting = {order for order in self.times_by_request if self.is_pending(order)}
        for line in orders.split(b"\n")[:-1]:
            if line not in waiting:
                lines_left.append(line)
            if line in self.times_by_request:
                waiting.add(line)
        return lines_left

    def is_pending(self, order: bytes) -> bool:
        """Whether an order of others is not answered yet."""
        pending = self.times_by_request[order]
        while pending and self.clock() > pending[0][0] + ANSWER_WITHIN:
            pending.popleft()
        return any(not is_own for _, is_own in pending)

    def add(self, orders: bytes, is_own: bool) -> None:
        for line in orders.split(b"\n"):
            if line in self.times_by_request:
                self.times_by_request[line].append((self.clock(), is_own))

    def note_answer(self, order: bytes) -> None:
        if self.times_by_request[order]:
            self.times_by_request[order].popleft()

    def clear(self) -> None:
        """A gateway that was started answers none of them."""
        for pending in self.times_by_request.values():
            pending.clear()


class PendingOrders:
    """The orders that the bridge has written to the desk and that are not answered yet, each with whether it is of
    others. No line names its order, and other programs give orders too, whose answers are taken for those of the
    oldest order here. So an order may be taken as answered too early, until a `status` or `list` is answered: these
    show that all orders before them were."""

    def __init__(self) -> None:
        self.orders: deque[tuple[bytes, bool]] = deque(maxlen=MAX_PENDING_ORDERS)

    def __len__(self) -> int:
        return len(self.orders)

    def add(self, orders: bytes, is_own: bool) -> None:
        self.orders.extend((line, not is_own) for line in orders.split(b"\n")[:-1])

    def handle_line(self, content: Content) -> None:
        """Handles a line of the gateway."""
        match content:
            case Status():
                self.end_through(STATUS_ORDER)
            case EndOfList():
                self.end_through(LIST_ORDER)
            case OkOrError():
                self.end_first(lambda order: order not in (LIST_ORDER, STATUS_ORDER))
            case Learned():
                self.end_first(lambda order: order.startswith(b"add "))
            case Deleted():
                self.end_first(lambda order: order.startswith(b"remove "))

    def end_through(self, answered_order: bytes) -> None:
        """This order and all before it are answered."""
        if any(order == answered_order for order, _ in self.orders):
            while self.orders.popleft()[0] != answered_order:
                pass

    def end_first(self, can_be: Callable[[bytes], bool]) -> None:
        """The first order is answered, if it can be the one."""
        if self.orders and can_be(self.orders[0][0]):
            self.orders.popleft()

    def clear(self) -> list[bytes]:
        """A gateway that was started answers none of them. Returns those of others that are lost. The bridge then gives
        `list`, `status` and `base` by itself."""
        bridge_requests = LIST_ORDER, STATUS_ORDER, BASE_ORDER
        lost_orders = [order for order, is_of_others in self.orders if is_of_others and order not in bridge_requests]
        self.orders.clear()
        return lost_orders


class Desk:
    """The desk at this path."""

    def __init__(self, path: str, clock: Callable[[], float]):
        self.path, self.clock = path, clock
        self.pending_requests, self.pending_orders = PendingRequests(clock), PendingOrders()
        # what has changed since the last question for news, and the orders that were lost by that
        self.change, self.lost_orders = DeskChange.NONE, list[bytes]()
        # which file was checked, up to which offset, and the last bytes before that; and its size after an order
        self.inode, self.checked_size = self.inode_and_size()
        self.size = 0
        self.last_bytes = b"\n"
        self.allowance, self.allowance_time = float(MAX_BURST), clock()

    def give(self, orders: bytes, devices: int) -> int:
        """Appends these orders of others to a gateway with so many devices, or raises OSError. A `list` or `status` is
        left out while an earlier one is not answered. Returns how many orders were left out."""
        self.note_replacement()
        lines = self.pending_requests.without_pending(orders)
        if lines:
            # the end that the last line of the longest message got does not count
            cost = sum(len(line) + 1 for line in lines) + lines.count(LIST_ORDER) * devices * COST_OF_LISTED_DEVICE
            self.append(b"".join(line + b"\n" for line in lines), min(cost, MAX_BURST))
        return orders.count(b"\n") - len(lines)

    def append(self, orders: bytes, cost: int | None = None) -> None:
        """Appends these orders in a single write, or raises OSError. If the file ends with an incomplete line, that
        line is made invalid first. Orders that the bridge gives by itself are few: they have no cost, and are not
        limited."""
        self.note_replacement()
        flags = os.O_WRONLY | os.O_APPEND | os.O_NONBLOCK | os.O_NOCTTY | os.O_CLOEXEC
        file = os.open(self.path, flags)
        try:
            size = os.fstat(file).st_size
            if size + len(orders) > MAX_SIZE:
                raise OSError("file is full until the gateway restarts")
            if cost is not None:
                self.charge_allowance(cost)
            text = orders if size == 0 or self.has_whole_lines(size) else INVALID_END + orders
            if not write_orders(file, text):
                raise OSError("incomplete write")
            self.size = size + len(text)
            self.pending_requests.add(orders, is_own=cost is None)
            self.pending_orders.add(orders, is_own=cost is None)
        finally:
            os.close(file)

    def charge_allowance(self, cost: int) -> None:
        """Accounts for a cost in bytes, or raises OSError if too much was appended in a short time."""
        now = self.clock()
        self.allowance = min(MAX_BURST, self.allowance + (now - self.allowance_time) * BYTES_PER_SECOND)
        self.allowance_time = now
        if cost > self.allowance:
            raise OSError("too many orders in a short time")
        self.allowance -= cost

    def has_whole_lines(self, size: int) -> bool:
        """Whether the file ends with the end of a line, as far as it can be read."""
        return self.read(size - 1, 1) in (b"\n", b"")

    def handle_line(self, content: Content) -> None:
        """Handles a line of the gateway."""
        self.pending_orders.handle_line(content)
        match content:
            case Status():
                self.pending_requests.note_answer(STATUS_ORDER)
            case EndOfList():
                self.pending_requests.note_answer(LIST_ORDER)

    def note_replacement(self) -> int:
        """Notes whether this is another desk, or one that was emptied: its gateway answers no earlier order. Returns
        its size."""
        inode, size = self.inode_and_size()
        inode_before = self.inode
        if inode != inode_before or size < max(self.checked_size, self.size):
            self.inode, self.checked_size, self.size, self.last_bytes = inode, 0, 0, b"\n"
            self.pending_requests.clear()
            self.lost_orders += self.pending_orders.clear()
            if inode != 0:
                is_same, change = inode == inode_before, DeskChange.REPLACED if inode_before else DeskChange.CREATED
                self.change = DeskChange.TRUNCATED if is_same else change
        return size

    def appended_orders(self, start: bytes) -> set[bytes]:
        """The orders that begin with these bytes and were appended since the file was emptied. After MAX_SIZE bytes the
        bridge has appended none."""
        inode, size = self.inode_and_size()
        # opening a pipe that nobody writes would block
        text = self.read(0, min(size, MAX_SIZE)) if inode else b""
        return {match[0] for match in re.finditer(rb"^%s.*(?=\n)" % re.escape(start), text, re.MULTILINE)}

    def take_lost_orders(self) -> list[bytes]:
        """The orders of others that were lost since the last call."""
        lost_orders, self.lost_orders = self.lost_orders, []
        return lost_orders

    def take_change(self) -> DeskChange:
        """What changed since the last call."""
        size = self.note_replacement()
        change, self.change = self.change, DeskChange.NONE
        if change is not DeskChange.NONE or self.inode == 0 or size == self.checked_size:
            # opening a pipe that nobody writes would block
            return change
        text = self.last_bytes + self.read(self.checked_size, min(size - self.checked_size, MAX_LOOK))
        self.checked_size += len(text) - len(self.last_bytes)
        self.last_bytes = text[1 - len(LABEL_START):]
        return DeskChange.LABELLED if LABEL_START in text else DeskChange.NONE

    def read(self, offset: int, length: int) -> bytes:
        """This part of the file, or nothing if it cannot be read."""
        try:
            with open(self.path, "rb") as file:
                file.seek(offset)
                return file.read(length)
        except OSError:
            return b""

    def inode_and_size(self) -> tuple[int, int]:
        """The inode and the size of the file; both are 0 if there is none, or if it is a terminal or a pipe."""
        try:
            status = os.stat(self.path)
        except OSError:
            return 0, 0
        return (status.st_ino, status.st_size) if stat.S_ISREG(status.st_mode) else (0, 0)
