"""The number of `status` orders, the fences, that are needed before an order, so that only its own answer is taken.

Another program may have written `status`, `status` and an order without a lock, and the gateway may not have answered
them when the command opens the lines. Their answers look like those of the command. So the command writes more fences
in a row than are before any of these orders. A row of `status` orders directly before the fences does not count,
because the order of the command follows it.

Each command keeps the desk locked until its order is answered. So only orders after the text of the last command can be
unanswered. A text ends with `status` LF, an order, LF, and `status` CR LF. A program that ends all of its lines in the
same way does not write this. A row of MAX_FENCES or more `status` orders counts as answered. A program that often asks
for the status writes such a row in a day, but the whole row is unanswered only if the program waits for no answer.

An order that fails with `memory` or `store` gives the same line as a packet that fails. If such a line is between
status lines, they may answer two rows of `status` orders, with the failed order between them. Then enough status lines
must come after this line. Otherwise there must be more of them in all than in the longest row on the desk, and only an
order that cannot fail in this way ends such a row."""
from __future__ import annotations

import re

from enogate_tools.desk import INVALID_END

from .answers import ERRORS_BY_VERB, MIN_FENCES, PACKET_ERRORS

# The maximum number of fences before an order. With them, one order and its last fence fit in one read of the desk.
MAX_FENCES = 24
COMMAND_TEXT_END = re.compile(rb"^status\n(?!status\n)[^\r\n]+\nstatus\r\n", re.MULTILINE)
# The orders that cannot fail with `memory` or `store`.
VERBS_WITHOUT_PACKET_ERRORS = frozenset(verb.encode() for verb, errors in ERRORS_BY_VERB.items()
                                        if not errors & PACKET_ERRORS)


def needed_fences(desk: bytes, with_errors: bool = False) -> int:
    """The number of status lines in a row which shows that the next order that is not `status` is that of the command,
    if its fences follow what is on the desk. `with_errors`: errors `memory` or `store` are between the status lines."""
    start = max((found.end() for found in COMMAND_TEXT_END.finditer(desk)), default=0)
    desk += b"" if desk[-1:] in (b"", b"\n") else INVALID_END
    row = longest = 0
    for order in desk[start:].removesuffix(b"\n").split(b"\n"):
        if order.removesuffix(b"\r") == b"status":
            row += 1
            continue
        longest = max(longest, row)
        if not with_errors or order.split(b" ")[0] in VERBS_WITHOUT_PACKET_ERRORS:
            row = 0
    return max(MIN_FENCES, longest + 1) if with_errors else max(MIN_FENCES, min(longest + 1, MAX_FENCES))


def are_enough_fences(fences: int, desk: bytes, text: bytes) -> bool:
    """Whether this number of fences is enough for a text that follows what is on the desk, and whether the first fence
    is a line of its own."""
    return needed_fences(desk) <= fences and (desk[-1:] in (b"", b"\n") or text.startswith(INVALID_END))
