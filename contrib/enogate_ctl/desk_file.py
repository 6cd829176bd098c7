"""The file of a desk: its lock, and the offset of an order in it."""
from __future__ import annotations

import fcntl
import os

from enogate_tools.desk import INVALID_END, MAX_SIZE, write_orders
from enogate_tools.files import IRREGULAR_FAULT, Unsafe, open_file

from .stops import block_signals


class NoAnswer(Exception):
    """An order gets no answer, or got none in time. The text is a sentence that says why, and what to do."""


class DeskFile:
    """The open desk at this path, and the text that was appended to it. Its lock belongs to the open file, so a forked
    process keeps it."""

    def __init__(self, path: str):
        self.path, self.text, self.start = path, b"", 0
        try:
            self.file = open_file(path, os.O_RDWR | os.O_APPEND)
        except FileNotFoundError as error:
            raise NoAnswer(f"there is no desk {path}: correct the name of the gateway, or start it; its unit "
                           "makes the desk") from error
        except Unsafe as error:
            if error.strerror == IRREGULAR_FAULT:
                raise NoAnswer(f"the desk {path} is not a file: this command cannot use terminals and pipes") from error
            raise NoAnswer(f"the desk {path} is not used, because {error.strerror}: it must be a regular file with "
                           "one name, which belongs to the owner of its directory; delete it, and restart the "
                           "gateway") from error
        except OSError as error:
            raise NoAnswer(f"the desk {path} cannot be opened: {error.strerror}; become root, or a member of the "
                           "group enogate (log in again afterwards)") from error

    def lock(self) -> bool:
        """Locks the desk, unless another program has locked it. Returns whether it is locked now."""
        try:
            fcntl.flock(self.file, fcntl.LOCK_EX | fcntl.LOCK_NB)
        except BlockingIOError:
            return False
        return True

    def read(self) -> bytes:
        """The content of the desk. After `append`, only the content before that call."""
        size = self.start if self.text else os.fstat(self.file).st_size
        if size > MAX_SIZE:
            raise NoAnswer(f"the desk {self.path} has more than {MAX_SIZE >> 20} MB: restart the gateway, which "
                           "empties it")
        return os.pread(self.file, size, 0)

    def append(self, text: bytes) -> None:
        """Appends this text in a single write. If the file ends with an incomplete line, that line is made invalid
        first."""
        size = os.fstat(self.file).st_size
        end = b"" if size == 0 or os.pread(self.file, 1, size - 1) == b"\n" else INVALID_END
        try:
            with block_signals():
                is_whole = write_orders(self.file, end + text)
                self.text = end + text
                self.start = os.lseek(self.file, 0, os.SEEK_CUR) - len(self.text)
        except OSError as error:
            raise NoAnswer(f"the desk {self.path} cannot be written: {error.strerror}") from error
        if not is_whole:
            raise NoAnswer(f"the desk {self.path} could only be written in part, because its file system is full: "
                           "restart the gateway, which empties the desk")

    def check(self) -> None:
        """Raises NoAnswer if the text is no longer on the desk."""
        if os.pread(self.file, len(self.text), self.start) != self.text:
            raise NoAnswer("the gateway was restarted, or its desk was truncated: find out with `list` or `status` "
                           "whether the order was carried out, and give it again if not")
        try:
            is_same = os.path.samestat(os.stat(self.path), os.fstat(self.file))
        except OSError:
            is_same = False
        if not is_same:
            raise NoAnswer(f"the desk {self.path} was replaced or deleted: restart the gateway, and give the order "
                           "again")

    def close(self) -> None:
        """Closes the file. This unlocks it, unless a forked process has it open."""
        os.close(self.file)
