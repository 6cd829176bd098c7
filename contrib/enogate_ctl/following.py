"""Prints the lines of a gateway: those that are there, an empty line, and then each new one."""
from __future__ import annotations

import contextlib
import os
import select
from collections.abc import Callable, Iterator
from typing import BinaryIO

from enogate_lines.follow import ignore_message
from enogate_lines.inotify import POLL_PAUSE, WatchedFiles
from enogate_tools.gateways import Paths

from .client import Lines, UnreadableLines

# How many bytes of earlier lines are printed.
MAX_EARLIER_BYTES = 1 << 20


def open_lines(paths: Paths, earlier: int = 0) -> Lines:
    """The lines from now on, and those in so many bytes before. Raises UnreadableLines, also if there is neither a file
    of lines nor a desk: the name of the gateway is probably wrong."""
    if is_missing(paths.lines) and is_missing(paths.desk):
        raise UnreadableLines(f"there are no lines {paths.lines}: correct the name of the gateway, or start it")
    return Lines(paths.lines, earlier)


def is_missing(path: str) -> bool:
    """Whether there is no such file. A file that this user may not see is not missing."""
    try:
        os.stat(path)
    except OSError as error:
        return not isinstance(error, PermissionError)
    return False


def follow_lines(lines: Lines, wait: Callable[[bool], bool]) -> Iterator[list[bytes]]:
    """The lines as they come, until nobody reads the output. `wait(True)` waits for new lines, `wait(False)` for a
    short time. Both return whether somebody still reads."""
    is_read = True
    while is_read:
        yield lines.read()
        is_read = not (lines.is_at_end or lines.is_at_end_of_rotated_file) or wait(not lines.is_at_end_of_rotated_file)


def print_lines(paths: Paths, out: BinaryIO, wait: Callable[[bool], bool]) -> None:
    """Prints the lines, or raises UnreadableLines."""
    are_new = False
    with contextlib.closing(open_lines(paths, MAX_EARLIER_BYTES)) as lines:
        for found in follow_lines(lines, wait):
            out.write(b"".join(line + b"\n" for line in found if line))
            if lines.is_at_end and not are_new:
                out.write(b"\n")
                are_new = True
            out.flush()


class OutputReader:
    """Whoever reads the output, to which the lines at this path are printed."""

    def __init__(self, path: str, out: BinaryIO):
        self.out, self.files = out.fileno(), WatchedFiles([path], ignore_message)

    def wait(self, is_woken: bool) -> bool:
        """Waits for 0.1 s or, if `is_woken`, until the lines change, for a second at most. Returns whether somebody
        still reads."""
        poll = select.poll()
        poll.register(self.out, 0)
        seconds = self.files.longest_wait() if is_woken else POLL_PAUSE
        if is_woken and self.files.file >= 0:
            poll.register(self.files.file, select.POLLIN)
        changed = {file for file, _ in poll.poll(seconds * 1000)}
        if self.files.file in changed:
            self.files.drop_events()
        return self.out not in changed
