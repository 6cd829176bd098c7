"""Gives orders to a gateway, and waits for their answers."""
from __future__ import annotations

import contextlib
import os
import sys
import time
from collections.abc import Callable, Sequence
from typing import TypeVar

from enogate_lines.follow import Follower, position_at_end, ignore_message
from enogate_tools.files import Unsafe, open_file
from enogate_tools.gateways import Paths

from .answers import Answer, AnswerFinder, is_line_of_order
from .desk_file import DeskFile, NoAnswer
from .fence import are_enough_fences, needed_fences
from .stops import Stopped, block_signals, restore_default_handlers

# The pauses of the command and of the process that keeps the lock, in seconds.
PAUSE, LONG_PAUSE = 0.01, 0.1
# How long that process keeps the lock: in all, and after the gateway answers orders again. The second is for an order
# whose fence failed, which never gets its answer.
MAX_LOCK_SECONDS, LOCK_SECONDS_AFTER_ANSWER = 3600.0, 10.0
# A number of fences that never comes. With it, the process keeps the lock as long as for an order without an answer.
UNREACHABLE_FENCES = sys.maxsize
Taken = TypeVar("Taken")


class UnreadableLines(Exception):
    """The lines cannot be read. The text is a sentence that says why, and what to do."""


class PendingAnswer(NoAnswer):
    """The answer to an order that was written may still come."""


class Lines:
    """The lines that are written after this was made, and those in so many bytes before."""

    def __init__(self, path: str, earlier: int = 0):
        try:
            os.close(open_file(path))
        except FileNotFoundError:
            # The file appears with the first line.
            pass
        except Unsafe as error:
            raise UnreadableLines(f"the lines {path} cannot be read: {error.strerror}") from error
        except OSError as error:
            raise UnreadableLines(f"the lines {path} cannot be read: {error.strerror}; become root, or a member of the "
                                  "group enogate (log in again afterwards)") from error
        start = position_at_end(path, earlier)
        self.follower = Follower(path, start, ignore_message)
        # The lines that were read, and not taken.
        self.unread: list[bytes] = []
        # The rest of a line that was begun before.
        self.is_torn = start is not None and start.offset > 0 and not start.last.endswith(b"\n")

    @property
    def is_at_end(self) -> bool:
        """Whether the last call of `read` found the end of the lines."""
        return self.follower.is_at_end

    @property
    def is_at_end_of_rotated_file(self) -> bool:
        """Whether the last call of `read` found the end of a rotated file. A line may still be written to it."""
        return self.follower.seen_next is not None

    def read(self) -> list[bytes]:
        """The lines that have ended since the last call."""
        found = [line for line, _ in self.follower.read()]
        if found and self.is_torn:
            found, self.is_torn = found[1:], False
        found, self.unread = self.unread + found, []
        return found

    def first_result(self, take: Callable[[bytes], Taken | None]) -> Taken | None:
        """What `take` returns of the first of these lines for which it returns something. The lines after that one are
        read again."""
        found = self.read()
        for number, line in enumerate(found, 1):
            if taken := take(line):
                self.unread = found[number:]
                return taken
        return None

    def close(self) -> None:
        """Closes the file."""
        self.follower.close()


class Client:
    """Gives orders to the gateway with these files. An order waits so many seconds for its answer."""

    def __init__(self, paths: Paths, timeout: float, clock: Callable[[], float] = time.monotonic,
                 sleep: Callable[[float], None] = time.sleep, fork: Callable[[], int] = os.fork):
        self.paths, self.timeout, self.clock, self.sleep, self.fork = paths, timeout, clock, sleep, fork

    def follow(self) -> Lines:
        """The lines from now on, or NoAnswer if they cannot be read."""
        try:
            return Lines(self.paths.lines)
        except UnreadableLines as error:
            raise NoAnswer(str(error)) from error

    def wait_for(self, lines: Lines, take: Callable[[bytes], Taken | None], limit: float, pause: float
                 ) -> Taken | None:
        """What `take` returns (Lines.first_result), if it does so by this time. The desk is not locked meanwhile."""
        while not (found := lines.first_result(take)) and self.clock() < limit:
            self.sleep(pause)
        return found

    def ask(self, order: str) -> Answer:
        """The answer to this order, or NoAnswer."""
        return self.ask_all([order])[0]

    def ask_all(self, orders: Sequence[str]) -> list[Answer]:
        """The answers to these orders, which are written at once, or NoAnswer."""
        answers, lines = self.ask_and_follow(orders)
        lines.close()
        return answers

    def ask_and_follow(self, orders: Sequence[str]) -> tuple[list[Answer], Lines]:
        """The answers to these orders, which are written at once, and the lines after them, or NoAnswer. The desk is
        locked until then. If they get no answers in time, or if a signal stops the command, another process keeps the
        lock until no answer can come any more: otherwise the next order could get the answer of one of these."""
        limit = self.clock() + self.timeout
        with contextlib.closing(DeskFile(self.paths.desk)) as file:
            self.lock(file, limit)
            return self.ask_with_lock(file, AnswerFinder(*orders), limit)

    def lock(self, file: DeskFile, limit: float) -> None:
        """Waits until the desk is locked."""
        while not file.lock():
            if self.clock() >= limit:
                raise NoAnswer("another order is still waiting for its answer: check the gateway with enogate-check; "
                               "a restart of the gateway ends the wait")
            self.sleep(PAUSE)

    def ask_with_lock(self, file: DeskFile, finder: AnswerFinder, limit: float) -> tuple[list[Answer], Lines]:
        """Writes the orders and waits for their answers. Returns these, and the lines after them."""
        lines, answers = self.follow(), None
        try:
            self.append_orders(file, finder)
            answers = self.wait(file, lines, finder, limit)
            return answers, lines
        except (PendingAnswer, Stopped):
            if file.text and not finder.is_done:
                self.keep_lock(file, lines, finder)
            raise
        finally:
            if answers is None:
                lines.close()

    def append_orders(self, file: DeskFile, finder: AnswerFinder) -> None:
        """Writes the orders with the fences that they need. The lines must be open already: then all orders whose
        answers can still come are on the desk when it is read. Other programs may write before the orders are appended,
        so the desk is read again afterwards. Raises PendingAnswer if the fences turn out to be too few: answers to
        other orders could be taken for those of the command."""
        finder.least = needed_fences(file.read())
        with block_signals():
            file.append(finder.desk_text)
            desk = file.read()
            finder.least_with_errors = needed_fences(desk, with_errors=True)
            if not finder.is_status_order and not are_enough_fences(finder.least, desk, file.text):
                finder.least = finder.least_with_errors = UNREACHABLE_FENCES
        if finder.least == UNREACHABLE_FENCES:
            raise PendingAnswer("another program gave orders at the same moment, so no answer can be recognized: find "
                                "out with `list` or `status` whether the order was carried out, and give it again if "
                                "not")

    def wait(self, file: DeskFile, lines: Lines, finder: AnswerFinder, limit: float) -> list[Answer]:
        """The answers, if they come in time and the desk still has the orders then. The time limit begins again with
        each answer."""
        count = 0
        while True:
            # A line is read only once, so a signal must not interrupt this before the line is taken.
            with block_signals():
                answers = lines.first_result(finder.handle_line)
                finder.is_done = answers is not None
            file.check()
            if answers:
                return answers
            if finder.answered_count > count:
                count, limit = finder.answered_count, self.clock() + self.timeout
            if self.clock() >= limit:
                raise PendingAnswer(f"the gateway did not answer within {self.timeout:g} s, and may still carry out "
                                    "the order: check the gateway with enogate-check")
            self.sleep(PAUSE)

    def keep_lock(self, file: DeskFile, lines: Lines, finder: AnswerFinder) -> None:
        """Starts a process that keeps the lock until no answer can come any more. It leaves the terminal and the pipes
        of the command, which others may be reading."""
        if self.fork():
            return
        try:
            restore_default_handlers()
            os.setsid()
            nothing = os.open(os.devnull, os.O_RDWR)
            for number in (0, 1, 2):
                os.dup2(nothing, number)
            self.wait_for_last_answer(file, lines, finder)
        finally:
            os._exit(0)

    def wait_for_last_answer(self, file: DeskFile, lines: Lines, finder: AnswerFinder) -> None:
        """Returns or fails once no answer to the orders can come any more. LOCK_SECONDS_AFTER_ANSWER begins again with
        each answer to them."""
        end = limit = self.clock() + MAX_LOCK_SECONDS
        count = finder.answered_count
        while self.clock() < limit:
            for line in lines.read():
                if finder.handle_line(line):
                    return
                if finder.answered_count > count:
                    count, limit = finder.answered_count, end
                if is_line_of_order(line):
                    limit = min(limit, self.clock() + LOCK_SECONDS_AFTER_ANSWER)
            file.check()
            self.sleep(LONG_PAUSE)
