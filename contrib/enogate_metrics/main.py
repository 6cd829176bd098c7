"""enogate-metrics: writes the state of all gateways of this machine as metrics for Prometheus."""
from __future__ import annotations

import argparse
import contextlib
import os
import signal
import sys
import time
from collections.abc import Callable, Sequence

from enogate_lines.entities import Table
from enogate_tools import VERSION
from enogate_tools.gateways import gateway_names
from enogate_tools.system import System

from .exposition import exposition
from .gateway import state_of

# The directory from which node_exporter reads text files: all those with this end.
TEXTFILE_FOLDER, FILE_NAME = "/var/lib/prometheus/node-exporter", "enogate.prom"
# Every user may read the file: it has no IDs of devices.
FILE_MODE = 0o644
STANDARD_OUTPUT = "-"


def replace_file(folder: str, text: str) -> None:
    """Replaces the file in this directory, or raises OSError. A reader gets the old file or the new one. Nothing that
    exists is written to: a link in place of either file is removed."""
    temporary_name = f".{FILE_NAME}.{os.getpid()}"
    directory = os.open(folder, os.O_RDONLY | os.O_DIRECTORY | os.O_CLOEXEC)
    try:
        with contextlib.suppress(FileNotFoundError):
            os.unlink(temporary_name, dir_fd=directory)
        flags = os.O_WRONLY | os.O_CREAT | os.O_EXCL | os.O_CLOEXEC
        descriptor = os.open(temporary_name, flags, FILE_MODE, dir_fd=directory)
        try:
            with os.fdopen(descriptor, "w", encoding="utf-8") as file:
                os.fchmod(descriptor, FILE_MODE)
                file.write(text)
            os.rename(temporary_name, FILE_NAME, src_dir_fd=directory, dst_dir_fd=directory)
        except OSError:
            os.unlink(temporary_name, dir_fd=directory)
            raise
    finally:
        os.close(directory)


def read_arguments(arguments: Sequence[str] | None) -> argparse.Namespace:
    """The command line."""
    parser = argparse.ArgumentParser(
        prog="enogate-metrics", allow_abbrev=False, description="Write the state of all gateways of this machine as "
        f"metrics for Prometheus, to the file {FILE_NAME} in a directory from which node_exporter reads text files.",
        epilog="The exit status is 0 if the file was written, 1 if it could not be written, and 2 if the command line "
        "is invalid.")
    parser.add_argument("folder", metavar="FOLDER", nargs="?", default=TEXTFILE_FOLDER,
                        help=f"the directory (default: {TEXTFILE_FOLDER}), or {STANDARD_OUTPUT} for standard output")
    parser.add_argument("--version", action="version", version=f"enogate-metrics {VERSION}")
    return parser.parse_args(arguments)


def main(arguments: Sequence[str] | None = None, system: System | None = None,
         clock: Callable[[], float] = time.time) -> int:
    """Runs the program, and returns its exit status."""
    folder, system = read_arguments(arguments).folder, system or System()
    signal.signal(signal.SIGPIPE, signal.SIG_DFL)
    if folder != STANDARD_OUTPUT and not os.path.isdir(folder):
        print(f"enogate-metrics: there is no directory {folder}: install prometheus-node-exporter, or give another one",
              file=sys.stderr)
        return 1
    table = Table()
    text = exposition(state_of(name, system, table, clock()) for name in gateway_names(system.root))
    if folder == STANDARD_OUTPUT:
        sys.stdout.write(text)
        return 0
    try:
        replace_file(folder, text)
    except OSError as error:
        print(f"enogate-metrics: cannot write {folder}/{FILE_NAME}: {error.strerror}", file=sys.stderr)
        return 1
    return 0
