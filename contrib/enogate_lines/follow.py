"""Follows a file to which lines are appended, across rotation."""
from __future__ import annotations

import os
import re
from collections.abc import Callable
from typing import NamedTuple

from enogate_tools.files import open_regular

# How much is read at once; no line of a gateway is longer.
MAX_READ = 1 << 20
# So many bytes before a position identify its file, together with the inode.
MAX_LAST = 64
SHOWN_OF_A_LINE = 60


class Position(NamedTuple):
    """How far a file was read. The inode and the last bytes of that part identify the file."""
    inode: int
    offset: int
    last: bytes

    def after(self, chunk: bytes) -> Position:
        """The position after this part, which follows."""
        return Position(self.inode, self.offset + len(chunk), (self.last + chunk)[-MAX_LAST:])


NO_POSITION = Position(0, 0, b"")


class Follower:
    """Reads the lines of the file at this path from a position on; without a position, or if it is not found, from the
    beginning. A file that was rotated (renamed) is read to its end first, and then those that were written after it:
    their sequence is that of their names, since a clock may have been set back. If the computer was started since the
    position was noted, the end of its file may be lost. What is left of it was read before, or is not new. `warn` logs
    what goes wrong."""

    def __init__(self, path: str, position: Position | None, warn: Callable[[str], None], is_same_boot: bool = True):
        self.path, self.warn = path, warn
        self.file: int | None = None
        self.position = position or NO_POSITION
        # the beginning of a line whose end has not been written yet
        self.partial_line = b""
        # the next file, if it existed at the last call
        self.seen_next: str | None = None
        # the inodes of the files that existed before the open one
        self.older: set[int] = set()
        self.is_at_end = False
        # why there is no file, and whether this was logged of the next one
        self.fault, self.is_failing = "", False
        # whether there is a file, which could not be opened
        self.is_barred = False
        # whether the file of the position was found
        self.is_found = bool(self.position.inode) and self.open_at_position(is_same_boot)
        if self.position.inode and not self.is_found:
            warn(f"{path}: previous file not found, reading from the beginning")
            self.position = NO_POSITION

    def open_at_position(self, is_same_boot: bool) -> bool:
        """Opens the file of the position, whatever its name is now."""
        paths = rotated_files(self.path)
        for number, path in enumerate(paths):
            try:
                file = open_regular(path)
            except OSError:
                continue
            found_position = position_at(file, self.position.offset)
            if found_position == self.position or (found_position.inode == self.position.inode and not is_same_boot):
                self.file, self.older = file, inodes_of(paths[:number])
                if found_position != self.position:
                    self.warn(f"{path}: lines were lost, continuing at the end")
                    self.position = position_after_last_line(file)
                return True
            os.close(file)
        return False

    def read(self) -> list[tuple[bytes, Position]]:
        """The lines that have ended since the last call, each with the position before it."""
        if self.file is None:
            was_barred = self.is_barred
            if not self.open_at_start(self.path):
                self.is_at_end = True
                return []
            if was_barred:
                # its lines may be old
                self.warn(f"{self.path}: can be read now, continuing at its end")
                self.position = position_after_last_line(self.file)
        assert self.file is not None
        size = os.fstat(self.file).st_size
        if size < self.position.offset + len(self.partial_line):
            self.partial_line = b""
        if size < self.position.offset:
            # what is left of the file was read before
            self.warn(f"{self.path}: file truncated, continuing at its end")
            self.position = position_after_last_line(self.file)
        chunk = os.pread(self.file, MAX_READ, self.position.offset + len(self.partial_line))
        if len(chunk) < MAX_READ:
            # NUL bytes at the end, which a power failure leaves, are truncated when the gateway starts
            chunk = chunk.rstrip(b"\0")
        if not chunk:
            self.open_next()
            return []
        self.seen_next, self.is_at_end = None, False
        return self.split_lines(chunk)

    def split_lines(self, chunk: bytes) -> list[tuple[bytes, Position]]:
        """The lines that end with these bytes. Data longer than any line of a gateway is returned as a line."""
        *whole_lines, self.partial_line = (self.partial_line + chunk).split(b"\n")
        lines = []
        for line in whole_lines:
            lines.append((without_nuls(line), self.position))
            self.position = self.position.after(line + b"\n")
        if len(self.partial_line) > MAX_READ:
            lines.append((self.partial_line, self.position))
            self.position, self.partial_line = self.position.after(self.partial_line), b""
        return lines

    def open_next(self) -> None:
        """At the end of this file, continues with the next one, if there is one. It must have existed at the last call
        too: a line may still be written to the old one."""
        next_path = self.next_file()
        self.is_at_end = next_path is None
        if next_path and next_path == self.seen_next:
            if self.partial_line:
                self.warn(f"incomplete line ignored: {self.partial_line[:SHOWN_OF_A_LINE]!r}")
            self.is_at_end = not self.open_at_start(next_path)
            if self.is_at_end and not self.is_failing:
                self.warn(f"cannot open {next_path}: {self.fault}; retrying")
            self.is_failing = self.is_at_end
        else:
            self.seen_next = next_path

    def next_file(self) -> str | None:
        """The file that was written after this one, if there is one."""
        assert self.file is not None
        own_inode = os.fstat(self.file).st_ino
        if inode_of(self.path) == own_inode:
            return None
        paths = rotated_files(self.path)
        paths_and_inodes = [(path, inode) for path in paths if (inode := inode_of(path))]
        indices = [index for index, (_, inode) in enumerate(paths_and_inodes) if inode == own_inode]
        if indices:
            later = paths_and_inodes[indices[0] + 1:]
        else:
            # this file was compressed or removed: those that existed before it are not read again
            later = [(path, inode) for path, inode in paths_and_inodes if inode not in self.older]
        return later[0][0] if later else None

    def open_at_start(self, path: str) -> bool:
        """Continues at the beginning of the file at this path."""
        try:
            file = open_regular(path)
        except OSError as error:
            self.fault = error.strerror or str(error)
            self.is_barred = not isinstance(error, FileNotFoundError)
            return False
        if self.file is not None:
            os.close(self.file)
        self.file, self.partial_line, self.seen_next = file, b"", None
        paths = rotated_files(self.path)
        self.older = inodes_of(paths[:paths.index(path)] if path in paths else [])
        self.position = Position(os.fstat(file).st_ino, 0, b"")
        return True

    def close(self) -> None:
        """Closes the file."""
        if self.file is not None:
            os.close(self.file)
            self.file = None


def ignore_message(_message: str) -> None:
    """Logs nothing."""


def without_nuls(line: bytes) -> bytes:
    """The line that follows NUL bytes, which a power failure may leave in place of what was written. If nothing follows
    them, these bytes are the line, which is invalid."""
    return line.rpartition(b"\0")[2] or line


def rotated_files(path: str) -> list[str]:
    """The rotated files as logrotate names them, without the compressed ones, and the file itself: the oldest first.
    Their names end with a date (`-20261127`) or with a number (`.1`), which is greater for an older file."""
    folder, name = os.path.split(path)
    try:
        with os.scandir(folder or ".") as entries:
            endings = [entry.name[len(name):] for entry in entries
                       if entry.name.startswith(name) and entry.is_file(follow_symlinks=False)]
    except OSError:
        endings = []
    dated_endings = sorted(ending for ending in endings if re.fullmatch(r"-[0-9-]+", ending))
    numbers = sorted((int(ending[1:]) for ending in endings if re.fullmatch(r"\.[0-9]+", ending)), reverse=True)
    return [*(path + ending for ending in dated_endings), *(f"{path}.{number}" for number in numbers), path]


def position_at(file: int, offset: int) -> Position:
    """The position after so many bytes of an open file."""
    start = max(0, offset - MAX_LAST)
    return Position(os.fstat(file).st_ino, offset, os.pread(file, offset - start, start))


def position_at_end(path: str, bytes_before_end: int = 0) -> Position | None:
    """The position at the end of the file at this path, or so many bytes before it; None if the file cannot be read. It
    may grow meanwhile."""
    try:
        file = open_regular(path)
    except OSError:
        return None
    try:
        return position_at(file, max(0, os.lseek(file, 0, os.SEEK_END) - bytes_before_end))
    finally:
        os.close(file)


def position_after_last_line(file: int) -> Position:
    """The position after the last whole line of an open file. If no line ends there, it is the beginning of the file,
    or the end of a long one."""
    size = os.fstat(file).st_size
    start = max(0, size - MAX_READ)
    end = os.pread(file, size - start, start).rfind(b"\n") + 1
    return position_at(file, start + end if end or not start else size)


def inode_of(path: str) -> int:
    """The inode of a file, or of a link; 0 if there is none."""
    try:
        return os.lstat(path).st_ino
    except OSError:
        return 0


def inodes_of(paths: list[str]) -> set[int]:
    return {inode for path in paths if (inode := inode_of(path))}
