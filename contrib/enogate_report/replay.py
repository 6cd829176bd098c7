"""Replays a report. Anybody may have made it: it is read in memory, and nothing of it is run but its script, by
`enogate replay`, which opens no file and no port."""
from __future__ import annotations

import gzip
import io
import itertools
import re
import subprocess
import tarfile
import tempfile
import zlib
from collections.abc import Iterator

from enogate_tools.port import is_base

BASE_FILE, SCRIPT_FILE, EXPECTED_FILE = "base.txt", "script.txt", "expected.lines"
MEMBER_NAMES = {BASE_FILE, SCRIPT_FILE, EXPECTED_FILE, "README.txt", "lines.txt", "versions.txt", "settings.txt",
                "check.txt", "journal.txt", "journal-mqtt.txt"}
FOLDER_PATTERN = "enogate-report-[A-Za-z0-9_-]+-[0-9]{4}-[0-9]{2}-[0-9]{2}-[0-9]{6}"
MAX_CONTENTS, MAX_SHOWN_TEXT = 1 << 26, 300


class BadReport(Exception):
    """Why a file cannot be replayed."""


def contents_of(path: str) -> dict[str, bytes]:
    """The files in a report by their names, or BadReport."""
    contents, pattern = dict[str, bytes](), FOLDER_PATTERN
    try:
        with gzip.open(path) as file:
            text = file.read(MAX_CONTENTS + 1)
        if len(text) > MAX_CONTENTS:
            raise BadReport("it is too large")
        with tarfile.open(fileobj=io.BytesIO(text), mode="r:") as archive:
            for member in archive:
                content = archive.extractfile(member) if member.isreg() and not member.issparse() else None
                folder, _, name = member.name.partition("/")
                if content is None or name not in MEMBER_NAMES - contents.keys() or not re.fullmatch(pattern, folder):
                    raise BadReport(f"it has an unexpected file: {member.name[:MAX_SHOWN_TEXT]!r}")
                contents[name], pattern = content.read(), re.escape(folder)
    except (EOFError, gzip.BadGzipFile, tarfile.TarError, ValueError, zlib.error) as error:
        raise BadReport(f"it is no report, or it is damaged: {error}") from error
    if not {BASE_FILE, SCRIPT_FILE, EXPECTED_FILE} <= contents.keys():
        raise BadReport("it has no script: README.txt in it says why")
    return contents


def output_for(script: bytes, base: str, program: str) -> Iterator[bytes]:
    """The lines that the program writes for a script, without the packets for the radio module."""
    with tempfile.TemporaryFile() as file:
        file.write(script)
        file.seek(0)
        command = [program, "replay", "--base", base, "--explain"]
        with subprocess.Popen(command, stdin=file, stdout=subprocess.PIPE) as process:
            try:
                yield from (line for line in process.stdout or () if not line.startswith(b"S "))
            finally:
                process.kill()


def replay(path: str, program: str) -> int:
    """Replays a report, prints how many lines are the same and the first difference, and returns the exit status."""
    contents = contents_of(path)
    base = contents[BASE_FILE].decode(errors="replace").strip()
    if not is_base(base):
        raise BadReport(f"{BASE_FILE} has no base ID")
    same_line_count, lines = 0, io.BytesIO(contents[EXPECTED_FILE])
    for line, written_line in itertools.zip_longest(lines, output_for(contents[SCRIPT_FILE], base, program),
                                                    fillvalue=b""):
        if line != written_line:
            print(f"line {same_line_count + 1} of {EXPECTED_FILE} is {line[:MAX_SHOWN_TEXT]!r}, but the replay writes "
                  f"{written_line[:MAX_SHOWN_TEXT]!r}")
            return 1
        same_line_count += 1
    print(f"{same_line_count} lines are the same")
    return 0
