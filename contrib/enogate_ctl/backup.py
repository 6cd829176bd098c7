"""A backup of a running gateway: an archive with its devices as CSV, and with its settings."""
from __future__ import annotations

import contextlib
import io
import os
import re
import tarfile
from collections.abc import Iterable
from datetime import date
from typing import IO

from enogate_lines.contents import Listed
from enogate_tools import files
from enogate_tools.files import Unsafe
from enogate_tools.gateways import settings_paths

from .sheet import devices_as_csv

MODE, MAX_KEPT_DAYS = 0o640, 30


def write_backup(folder: str, name: str, devices: Iterable[Listed], now: float) -> tuple[str, bool]:
    """Writes a backup of the gateway in place of that of the same day, and keeps only those of this user of the last
    days that have one. Returns its path, and whether it replaced another one, or raises OSError. A day that a wrong
    clock has named counts as one day."""
    today = date.fromtimestamp(now)
    file = f"{name}-{today}.tar.gz"
    shape = re.compile(name + r"-([0-9]{4}-[01][0-9]-[0-3][0-9])\.tar\.gz(?:\.[0-9a-f]{16})?")
    contents = {"devices.csv": devices_as_csv(devices).encode()}
    for path in settings_paths(name):
        # Only root may write in this directory, so a link in it is followed.
        with contextlib.suppress(FileNotFoundError), open(path, "rb") as settings:
            contents[path.lstrip("/")] = settings.read()
    # Another user may put a link to another directory in its place meanwhile.
    directory = os.open(folder, os.O_RDONLY | os.O_DIRECTORY)
    try:
        own = {one.name for one in os.scandir(directory)
               if one.is_file(follow_symlinks=False) and one.stat(follow_symlinks=False).st_uid == os.geteuid()}
        if file in os.listdir(directory) and file not in own:
            raise Unsafe("it is not a file of this user", file)
        replace_file(directory, file, contents, now)
        days = {one: found[1] for one in own if (found := shape.fullmatch(one))}
        kept = sorted({*days.values(), str(today)})[-MAX_KEPT_DAYS:]
        for old, day in days.items():
            if day not in kept and old != file:
                os.unlink(old, dir_fd=directory)
    finally:
        os.close(directory)
    return os.path.join(folder, file), file in own


def replace_file(directory: int, name: str, contents: dict[str, bytes], now: float, mode: int = MODE) -> None:
    """Puts an archive with these contents into an open directory."""
    def write_archive(stream: IO[bytes]) -> None:
        with tarfile.open(fileobj=stream, mode="w:gz") as archive:
            for path, content in contents.items():
                member = tarfile.TarInfo(path)
                member.size, member.mtime = len(content), int(now)
                archive.addfile(member, io.BytesIO(content))

    files.replace_file(directory, name, mode, write_archive)
