"""The file from which a gateway reads its orders."""
from __future__ import annotations

import contextlib
import os
import re
import stat

# The group may write to it.
DESK_MODE = 0o660
# The desk is in memory, and may grow to this size until the gateway restarts, once a day.
MAX_SIZE = 16 * 1024 * 1024
# Ends an incomplete line. If a full file system has cut off the end of an order, the rest could be another order: with
# the control character NAK it is none.
INVALID_END = b"\x15\n"
# The orders that open the learn window (docs/guide/orders.md).
WINDOW_ORDER = re.compile(rb"learn (?:on|on answer|as [0-9A-Fa-f]{2}-[0-9A-Fa-f]{2}-[0-9A-Fa-f]{2})")


def opens_window(orders: bytes) -> bool:
    """Whether one of these orders opens the learn window."""
    return any(WINDOW_ORDER.fullmatch(line) for line in orders.split(b"\n"))


def make_empty(path: str) -> int:
    """Makes the desk an empty file of this user. Another file there, such as one that root created, is replaced.
    Returns how many bytes were in it."""
    size = 0
    with contextlib.suppress(FileNotFoundError):
        status = os.lstat(path)
        size = status.st_size
        if not stat.S_ISREG(status.st_mode) or status.st_uid != os.geteuid():
            os.unlink(path)
    flags = os.O_WRONLY | os.O_CREAT | os.O_TRUNC | os.O_NOFOLLOW | os.O_NONBLOCK | os.O_CLOEXEC
    file = os.open(path, flags, DESK_MODE)
    try:
        os.fchmod(file, DESK_MODE)
    finally:
        os.close(file)
    return size


def write_orders(file: int, text: bytes) -> bool:
    """Writes a text to a desk in a single write. Returns whether all of it was written. If the last line was not, it is
    made invalid; if there is no space for that, the program that writes next does it."""
    written_size = os.write(file, text)
    if 0 < written_size < len(text) and text[written_size - 1:written_size] != b"\n":
        with contextlib.suppress(OSError):
            os.write(file, INVALID_END)
    return written_size == len(text)
