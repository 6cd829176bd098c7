"""enogate-report: writes a file for a support case, and replays such a file."""
from __future__ import annotations

import argparse
import errno
import glob
import os
import sys
import time

from enogate_ctl.backup import replace_file
from enogate_ctl.recent import last_lines
from enogate_lines.follow import rotated_files
from enogate_tools import VERSION, files, gateways
from enogate_tools.check import ASK_TIMEOUT, Check
from enogate_tools.system import System

from .anonymous import GATEWAY_NAME, Names
from .contents import OutputFunction, base_of, output_of, texts_of
from .replay import BASE_FILE, EXPECTED_FILE, SCRIPT_FILE, BadReport, replay
from .script import script_of

# How many bytes of lines a report has: those of three days with 10,000 packets each. If no base ID is known, no packet
# was addressed to the gateway.
MAX_LINES, ANY_BASE, REPORT_MODE = 1 << 24, "FF800000", 0o600
README = """Report on the gateway {}, for `enogate-report --replay FILE`. The page faults.md of the guide describes it.

`enogate replay --base {} --explain <script.txt` must write expected.lines, besides packets for the radio module. These
are the lines of lines.txt, with counters from 0 on. The numbers of the differences are:
- answers to orders of the script that set devices, labels or the learn window: {}
- lines that are left out, because they are incomplete, or their input failed or has no packet line: {}
- status lines whose counters do not fit the packets before them, after a restart or missing lines: {}

Not in this report:
{}
"""
HELP = """It has the lines, a script that replays them, versions, settings without secrets, journals, and the output
of enogate-check. Look at it before you send it: the packets show when people are in the building."""


def left_out_files(path: str, max_size: int) -> list[str]:
    """The files of lines that are not wholly in so many bytes at the end of the lines. Compressed ones are not read."""
    log_files = {*glob.glob(f"{glob.escape(path)}[.-][0-9]*")}
    for log_path in filter(files.is_safe, reversed(rotated_files(path))):
        max_size -= os.stat(log_path).st_size
        log_files = log_files - {log_path} if max_size >= 0 else log_files | {log_path}
    return sorted(log_files)


def contents_of_report(check: Check, output: OutputFunction, is_anonymous: bool) -> dict[str, bytes]:
    """The files in a report by their names."""
    missing: list[str] = []
    texts, base = texts_of(check, output, is_anonymous, missing), base_of(check) or ANY_BASE
    if check.takes_orders:
        check.system.run(["enogatectl", "--timeout", ASK_TIMEOUT, check.name, "list"])
    try:
        os.close(files.open_file(check.lines))
    except OSError as error:
        missing.append(f"{check.lines}: {error.strerror}")
    lines = [*last_lines(check.lines, MAX_LINES)][::-1]
    missing += [f"{log}: older lines; from when to when is not known" for log in left_out_files(check.lines, MAX_LINES)]
    if not any(b'"type":"packet"' in line for line in lines):
        missing.append(("packets: the lines have none" if lines else "packets: no line was read")
                       + ("" if check.settings["EXPLAIN"] == "--explain" else "; EXPLAIN=--explain is needed"))
    names, title = Names(lines, base, check.name), check.name
    if is_anonymous:
        missing, title = [*map(names.anonymous_text, missing)], GATEWAY_NAME
        lines, base = [*map(names.anonymous_line, lines)], names.ids.get(base, ANY_BASE)
        texts = {name: names.anonymous_text(text) for name, text in texts.items()}
    script = script_of(lines, base, names.unused_id)
    texts["README.txt"] = README.format(title, base, len(script.orders) - script.input_count, script.left_out_count,
                                        script.gap_count, "\n".join(missing) or "(nothing is missing)")
    texts |= {BASE_FILE: f"{base}\n", SCRIPT_FILE: "\n".join([*script.orders, ""]),
              EXPECTED_FILE: "\n".join([*script.expected_lines, ""])}
    return {"lines.txt": b"".join(line + b"\n" for line in lines), **{name: texts[name].encode() for name in texts}}


def write_report(path: str, contents: dict[str, bytes], now: float) -> None:
    """Writes a report to a new file, or raises OSError."""
    if os.path.lexists(path):
        raise FileExistsError(errno.EEXIST, os.strerror(errno.EEXIST), path)
    folder, name = os.path.split(path)
    directory = os.open(folder or ".", os.O_RDONLY | os.O_DIRECTORY)
    try:
        replace_file(directory, name, contents, now, REPORT_MODE)
    finally:
        os.close(directory)


def main(arguments: list[str] | None = None, system: System | None = None, output: OutputFunction = output_of,
         clock=time.time) -> int:
    """Runs the program, and returns its exit status."""
    parser = argparse.ArgumentParser(
        prog="enogate-report", allow_abbrev=False, description="Write a file for a support case: the last lines of a "
        "gateway, a script that replays them, versions, settings, journals, and the output of enogate-check.")
    parser.add_argument("name", metavar="NAME", nargs="?", help="name of the gateway")
    parser.add_argument("--output", metavar="FILE", help="the new file (default: a name with the gateway and the time)")
    parser.add_argument("--anonymous", action="store_true", help="replace IDs and the gateway's name; leave out labels")
    parser.add_argument("--replay", metavar="FILE", help="replay this report, and print the first difference")
    parser.add_argument("--program", metavar="PATH", default="enogate", help="the program that replays it")
    parser.add_argument("--version", action="version", version=f"enogate-report {VERSION}")
    words, system, now = parser.parse_args(arguments), system or System(), clock()
    if (words.name is None) == (words.replay is None) or words.replay and (words.output or words.anonymous):
        parser.error("use NAME with --output and --anonymous, or --replay with --program")
    try:
        if words.replay is not None:
            return replay(words.replay, words.program)
        if reason := gateways.why_unknown(gateways.paths_of(words.name, system.root), system.root):
            parser.error(reason)
        title = GATEWAY_NAME if words.anonymous else words.name
        folder = time.strftime(f"enogate-report-{title}-%Y-%m-%d-%H%M%S", time.localtime(now))
        contents = contents_of_report(Check(words.name, system), output, words.anonymous)
        path = words.output or f"{folder}.tar.gz"
        write_report(path, {f"{folder}/{name}": content for name, content in contents.items()}, now)
    except gateways.InvalidName as error:
        parser.error(str(error))
    except (BadReport, OSError) as error:
        path = getattr(error, "filename", None) or words.replay
        print(f"enogate-report: {path}: {getattr(error, 'strerror', None) or error}", file=sys.stderr)
        return 1
    print(f"{path}\n{HELP}")
    return 0
