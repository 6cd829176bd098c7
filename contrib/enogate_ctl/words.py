"""Names and values of a gateway in words, for people."""
from __future__ import annotations

from enogate_lines.contents import Learned
from enogate_tools import share

from .answers import Line

MINUTE, HOUR, DAY = 60, 3600, 86400


def advice(error: str) -> str:
    """The name of an error, with a sentence that says what to do."""
    advice = share.texts_by_word("error").get(error)
    return f"{error}: {advice}" if advice else error


def age(seconds: float) -> str:
    """How long ago something was. A time in the future, after a clock was set back, counts as now."""
    for length, name in ((DAY, "d"), (HOUR, "h"), (MINUTE, "min")):
        if seconds >= length:
            return f"{int(seconds // length)} {name} ago"
    return f"{max(0, int(seconds))} s ago"


def teach_result_text(line: Line) -> str | None:
    """The result of a teach line in words; None for any other line."""
    result, device, eep = (line.members.get(key) for key in ("result", "id", "eep"))
    if line.kind != "teach" or not isinstance(result, str):
        return None
    text = f"{device} {share.texts_by_word('result').get(result, result)}"
    if not isinstance(line.content, Learned):
        return text
    kind = share.device_kind(line.content.eep)
    return f"{text}, {eep} ({kind})" if kind else f"{text}, {eep}"


def printable(text: str) -> str:
    """A text without control characters, which a terminal would carry out."""
    return "".join(character if character.isprintable() else "?" for character in text)
