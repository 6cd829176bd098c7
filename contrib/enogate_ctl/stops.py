"""Signals that stop the command. They raise an exception, so the command can still do what has to be done."""
from __future__ import annotations

import contextlib
import signal
from collections.abc import Iterator

SIGNALS = (signal.SIGINT, signal.SIGTERM, signal.SIGHUP)


class Stopped(BaseException):
    """A signal stopped the command."""

    def __init__(self, number: int):
        super().__init__(number)
        self.number = number

    @property
    def status(self) -> int:
        """The exit status, as a shell shows the end by this signal."""
        return 128 + self.number


class StopSignals:
    """The signals that stop the command. Only the first one does: systemd and terminals may send two at once, and the
    second one must not stop what the first one has begun."""

    def __init__(self) -> None:
        self.are_ignored = False

    def install(self) -> None:
        """From now on, the first of these signals raises Stopped."""
        for number in SIGNALS:
            signal.signal(number, self.handle_signal)

    def handle_signal(self, number: int, _frame: object = None) -> None:
        """Handles a signal."""
        if not self.are_ignored:
            self.are_ignored = True
            raise Stopped(number)

    def ignore(self) -> None:
        """From now on, these signals have no effect."""
        self.are_ignored = True


def restore_default_handlers() -> None:
    """From now on, each of these signals ends the process."""
    for number in SIGNALS:
        signal.signal(number, signal.SIG_DFL)


@contextlib.contextmanager
def block_signals() -> Iterator[None]:
    """Holds these signals back in a block that must not be left half done."""
    before = signal.pthread_sigmask(signal.SIG_BLOCK, SIGNALS)
    try:
        yield
    finally:
        signal.pthread_sigmask(signal.SIG_SETMASK, before)
