"""Notices that files have changed: inotify, through the C library. No call has a callback, so MemoryDenyWriteExecute of
systemd permits them."""
from __future__ import annotations

import ctypes
import errno
import os
from collections.abc import Callable, Iterable

# The longest wait without inotify, or while something is under way, and the longest one of all, in seconds.
POLL_PAUSE, LONGEST_WAIT = 0.1, 1.0
# What is to be noticed, with the numbers of inotify(7): of a file, that it is written; of a directory, that a file is
# created, gets another name or may be read now, and that the directory itself is renamed or removed.
MODIFY, ATTRIB, MOVED, CREATE, SELF, ONLY_DIRECTORIES = 0x2, 0x4, 0xC0, 0x100, 0xC00, 0x1000000
FILE_EVENTS, FOLDER_EVENTS = MODIFY, ATTRIB | MOVED | CREATE | SELF | ONLY_DIRECTORIES
# So many bytes of events are dropped at once; if there are more, the next wait ends at once.
MAX_EVENT_BYTES = 65536


class WatchedFiles:
    """Notices changes of these files. A file is found by its directory when it is created. Files are watched by
    themselves, since the lines of other gateways are in the same directory. Without inotify, `warn` logs why."""

    def __init__(self, paths: Iterable[str], warn: Callable[[str], None]):
        folders = sorted({os.path.dirname(os.path.abspath(path)) for path in paths})
        self.watches = [(os.fsencode(path), FILE_EVENTS) for path in paths] + [
            (os.fsencode(folder), FOLDER_EVENTS) for folder in folders]
        # the numbers of what is watched: a new one is that of another file or directory
        self.watched_paths: list[int] = []
        try:
            self.library = ctypes.CDLL(None, use_errno=True)
            self.file = self.library.inotify_init1(os.O_NONBLOCK | os.O_CLOEXEC)
            fault = os.strerror(ctypes.get_errno())
        except (OSError, AttributeError) as error:
            self.file, fault = -1, str(error)
        if self.file < 0:
            warn(f"no inotify ({fault}): the lines are looked at every {POLL_PAUSE} seconds")

    def longest_wait(self) -> float:
        """How long the wait may be. It is 0 if other files than before are watched now: what was written to them
        meanwhile has not been noticed."""
        if self.file < 0:
            return POLL_PAUSE
        watched_before, self.watched_paths, are_all = self.watched_paths, [], True
        for path, mask in self.watches:
            self.watched_paths.append(self.library.inotify_add_watch(self.file, path, mask))
            if self.watched_paths[-1] < 0:
                are_all &= mask == FILE_EVENTS and ctypes.get_errno() == errno.ENOENT
        if self.watched_paths != watched_before:
            return 0.0
        return LONGEST_WAIT if are_all else POLL_PAUSE

    def drop_events(self) -> None:
        """Drops the events. What has changed is seen in the files."""
        os.read(self.file, MAX_EVENT_BYTES)
