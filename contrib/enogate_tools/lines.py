"""The file to which the lines of a gateway are appended."""
from __future__ import annotations

import contextlib
import errno
import glob
import os
import stat
from collections.abc import Callable

NEW_MODE = 0o640
READ_SIZE = 1 << 16
# How much waits in memory while the lines cannot be stored, in bytes. The oldest lines are dropped first.
MAX_WAITING = 1 << 20
# Each line passes through here before it is stored, so it is searched for this, and not parsed.
PACKET_MARK = b'"type":"packet"'
WARNING, NOTICE = "<4>", "<5>"


class LineStore:
    """Stores the lines of one gateway in the file at this path, which may be renamed at any time. While this fails, for
    example because the disk is full, they wait in memory. A line is stored as a whole or not at all."""

    def __init__(self, path: str, say: Callable[[str, str], None]):
        self.path, self.say = path, say
        self.waiting_bytes, self.partial_line = b"", b""
        # how many were added, how many of them report a packet, and how many were dropped since the last one was stored
        self.count = self.packet_count = self.dropped_count = 0
        self.is_failing = False

    def add(self, text: bytes) -> bytes:
        """Takes what the gateway has written, and returns the lines that have ended. The rest waits for its end."""
        whole_lines, line_end, self.partial_line = (self.partial_line + text).rpartition(b"\n")
        whole_lines += line_end
        self.count += whole_lines.count(b"\n")
        self.packet_count += whole_lines.count(PACKET_MARK)
        self.waiting_bytes += whole_lines
        return whole_lines

    def drop_unended(self) -> None:
        """The gateway has ended. A line that has not ended is not stored."""
        self.partial_line = b""

    def store(self) -> None:
        """Stores what waits, as far as possible."""
        if not self.waiting_bytes:
            return
        try:
            self.append()
        except OSError as error:
            if not self.is_failing:
                self.say(WARNING, f"{self.path}: {error.strerror}: the lines cannot be stored, and wait in memory")
            self.is_failing = True
            self.drop_oldest()
        else:
            if self.is_failing:
                self.say(NOTICE, f"{self.path}: the lines are stored again, {self.dropped_count} are lost")
            self.is_failing, self.dropped_count = False, 0

    def append(self) -> None:
        """Appends the lines that wait. If there is space for some only, these are stored, and OSError is raised."""
        file = os.open(self.path, os.O_WRONLY | os.O_APPEND | os.O_CREAT | os.O_CLOEXEC, NEW_MODE)
        try:
            size = os.fstat(file).st_size
            written_size = os.write(file, self.waiting_bytes)
            if written_size < len(self.waiting_bytes):
                written_size = self.waiting_bytes.rfind(b"\n", 0, written_size) + 1
                os.ftruncate(file, size + written_size)
            self.waiting_bytes = self.waiting_bytes[written_size:]
        finally:
            os.close(file)
        if self.waiting_bytes:
            raise OSError(errno.ENOSPC, os.strerror(errno.ENOSPC))

    def drop_oldest(self) -> None:
        """Drops the oldest lines if there are too many."""
        if len(self.waiting_bytes) > MAX_WAITING:
            start = self.waiting_bytes.index(b"\n", len(self.waiting_bytes) - MAX_WAITING - 1) + 1
            self.dropped_count += self.waiting_bytes.count(b"\n", 0, start)
            self.waiting_bytes = self.waiting_bytes[start:]

    def close(self) -> None:
        """Stores what waits, and logs how many lines could not be stored."""
        self.store()
        if lost_lines := self.dropped_count + self.waiting_bytes.count(b"\n"):
            self.say(WARNING, f"{self.path}: {lost_lines} lines are lost")


def repair_file(path: str, say: Callable[[str, str], None]) -> None:
    """Corrects what an earlier run left: lines of older versions could be written by the group. After a power failure
    the file may end with NUL bytes and with a part of a line. The part stays, as a line of its own, since it may have
    been read already; if the disk is full, it is removed."""
    for old_path in glob.glob(glob.escape(path) + "*"):
        with contextlib.suppress(OSError):
            os.chmod(old_path, stat.S_IMODE(os.stat(old_path).st_mode) & ~stat.S_IWGRP)
    with contextlib.suppress(FileNotFoundError), open(path, "r+b", buffering=0) as file:
        size = os.fstat(file.fileno()).st_size
        new_size = end_of_last(file.fileno(), size, lambda part: len(part.rstrip(b"\0")))
        if new_size < size:
            file.truncate(new_size)
            say(NOTICE, f"{path}: {size - new_size} NUL bytes at the end are removed, as a power failure leaves them")
        if new_size and os.pread(file.fileno(), 1, new_size - 1) != b"\n":
            try:
                os.pwrite(file.fileno(), b"\n", new_size)
            except OSError:
                file.truncate(end_of_last(file.fileno(), new_size, lambda part: part.rfind(b"\n") + 1))


def end_of_last(file: int, size: int, length: Callable[[bytes], int]) -> int:
    """The end of the last part of a file of this size that has a length according to `length`; 0 if none has."""
    start = size
    while start:
        start, chunk_end = max(0, start - READ_SIZE), start
        if chunk_size := length(os.pread(file, chunk_end - start, start)):
            return start + chunk_size
    return 0
