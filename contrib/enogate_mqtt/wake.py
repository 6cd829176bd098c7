"""Waits until the broker has sent something, or files have changed."""
from __future__ import annotations

import logging
import os
import select
from collections.abc import Iterable
from typing import Protocol

from enogate_lines.inotify import WatchedFiles


class WaitableConnection(Protocol):
    """What is needed of a connection."""

    def sockets(self) -> tuple[list, list]: ...

    def has_work(self) -> bool: ...


class Waiter:
    """The wait of the bridge."""

    def __init__(self, paths: Iterable[str]):
        self.files = WatchedFiles(list(paths), logging.warning)
        self.stops = os.eventfd(0, os.EFD_NONBLOCK | os.EFD_CLOEXEC)

    def wait(self, connections: Iterable[WaitableConnection], seconds: float, watches: bool) -> None:
        """Waits until something arrives on these connections, or can be sent, or a watched file changes, or the bridge
        is stopped, but at most so many seconds."""
        reading, writing = [self.stops], []
        for connection in connections:
            for sockets_of_kind, sockets in zip((reading, writing), connection.sockets()):
                sockets_of_kind += sockets
            seconds = 0.0 if connection.has_work() else seconds
        if watches:
            seconds = min(seconds, self.files.longest_wait())
            reading += [self.files.file] if self.files.file >= 0 else []
        if self.files.file in select.select(reading, writing, [], seconds)[0]:
            self.files.drop_events()

    def stop(self) -> None:
        """Ends this wait and all later ones. A handler of a signal may call it."""
        os.eventfd_write(self.stops, 1)
