#!/usr/bin/env python3
"""Golden sessions. The session of a row NAME is a file NAME.session: its script, and below each line of the script what
is written for it.

    > TEXT      a line of the script; if the line `\\ no LF` follows, it has no LF
    + TEXT      a line that is written only with `--explain`
    TEXT        a line that is written with the option and without it

As a program it prints one of the SESSION_PARTS of a row:

    tests/oracle/session.py PART NAME
"""
import pathlib
import re
import sys

SESSION_FOLDER = pathlib.Path(__file__).resolve().parent.parent.parent / "crates" / "rows" / "data"
NO_LF_MARK = b"\\ no LF\n"
SESSION_PARTS = ["script", "plain", "explained"]  # the script, what is written without `--explain`, and with it


def session_steps(session):
    """The lines of the script, each with its end, and what is below it."""
    for step in re.split(rb"(?m)^> ", session)[1:]:
        line, line_end, lines_below = step.partition(b"\n")
        if lines_below.startswith(NO_LF_MARK):
            line_end, lines_below = b"", lines_below[len(NO_LF_MARK) :]
        yield line + line_end, lines_below


def text_of_session(session, part):
    """The script of a golden session, or what is written for it without or with `--explain`: one of SESSION_PARTS."""
    lines, lines_below = map(b"".join, zip(*session_steps(session), (b"", b"")))
    return {
        "script": lines,
        "plain": re.sub(rb"(?m)^\+ .*\n", b"", lines_below),
        "explained": re.sub(rb"(?m)^\+ ", b"", lines_below),
    }[part]


def read_session(name):
    return (SESSION_FOLDER / f"{name}.session").read_bytes()


if __name__ == "__main__":
    part_wanted, session_wanted = sys.argv[1:]
    sys.stdout.buffer.write(text_of_session(read_session(session_wanted), part_wanted))
