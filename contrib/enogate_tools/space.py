"""How much space is free on the disk."""
from __future__ import annotations

import contextlib
import os
from collections.abc import Iterable

MEGABYTE = 1024 * 1024


def free_bytes(folder: str) -> int | None:
    """How many bytes are free in the file system of this directory, or of the one in which it will be."""
    for path in (folder, os.path.dirname(folder)):
        with contextlib.suppress(OSError):
            file_system = os.statvfs(path)
            return file_system.f_bavail * file_system.f_frsize
    return None


def least_free_megabytes(folders: Iterable[str]) -> int | None:
    """How many megabytes are free for files in each of these directories; None if this is not known of any."""
    known_sizes = [size for folder in folders if (size := free_bytes(folder)) is not None]
    return min(known_sizes) // MEGABYTE if known_sizes else None
