"""Opens the learn window for a time. What is taught meanwhile is printed."""
from __future__ import annotations

import contextlib
from collections.abc import Callable

from enogate_lines.contents import Status

from . import words
from .answers import parse_line
from .client import Client, Lines, NoAnswer
from .stops import Stopped, StopSignals

# The pause between two looks at the lines, in seconds.
PAUSE = 0.1
CLOSE_ORDER = "learn off"


class LearnWindow:
    """The learn window of a gateway. `give` gives an order, and raises an exception if it fails. `report` prints a
    line; it may fail if nobody reads it any more."""

    def __init__(self, client: Client, give: Callable[[str], object], report: Callable[[str], None], stops: StopSignals,
                 is_json: bool = False):
        self.client, self.give, self.print, self.stops, self.is_json = client, give, report, stops, is_json
        self.clock, self.sleep = client.clock, client.sleep

    def open_for(self, order: str, seconds: float) -> None:
        """Opens the window with this order, and closes it after the time, or if a signal stops the command. A window
        for one device (`learn as`) ends earlier: the gateway closes it. The desk is not locked meanwhile. A window that
        the gateway refused to open is not closed: another program may have opened it."""
        with contextlib.closing(self.client.follow()) as lines:
            try:
                self.give(order)
                self.report("" if self.is_json else f"the learn window is open for {seconds:g} s; Ctrl-C closes it")
                self.show(lines, self.clock() + seconds, order.startswith("learn as "))
                self.stops.ignore()
            except Stopped:
                # The window is closed in any case.
                pass
            self.give(CLOSE_ORDER)
            self.report("" if self.is_json else "the learn window is closed")

    def show(self, lines: Lines, end: float, is_for_one: bool) -> None:
        """Prints what is taught up to this time, or until a window for one device is closed."""
        while (left := end - self.clock()) > 0:
            for raw in lines.read():
                line = parse_line(raw)
                text = words.teach_result_text(line) if line else None
                if line and text:
                    self.report(raw.decode("ascii") if self.is_json else text)
                    # The order `add` gives such a line too, and leaves the window open.
                    if is_for_one and line.members["result"] == "accepted" and self.is_closed():
                        return
            self.sleep(min(PAUSE, left))

    def is_closed(self) -> bool:
        """Whether the gateway says that the window is closed."""
        try:
            last = self.client.ask("status").lines[-1].content
        except NoAnswer:
            return False
        return isinstance(last, Status) and last.mode == "closed"

    def report(self, text: str) -> None:
        """Prints a line, if somebody reads it. A window is closed also if nobody does."""
        if text:
            with contextlib.suppress(OSError):
                self.print(words.printable(text))
