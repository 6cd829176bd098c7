"""The order `base`: its answer, and the base ID that the radio module reports afterwards.

The gateway answers the order with `ok` when it has sent the question to the module. The base ID comes later, in a
response. No line names the order to which a response belongs, but only `base` makes the module report a base ID, and it
is the same one for all programs that ask. So the first response with a base ID is taken, whoever asked for it."""
from __future__ import annotations

import contextlib

from enogate_lines.contents import Response
from enogate_tools.port import is_base

from .answers import Answer, Line, parse_line
from .client import PAUSE, Client, NoAnswer
from .grammar import BASE_ORDER


def base_line(raw: bytes) -> Line | None:
    """The line, if it reports a base ID."""
    line = parse_line(raw)
    match line.content if line else None:
        case Response(0, data) if is_base(data):
            return line
    return None


def ask_base(client: Client) -> Answer:
    """The answer to the order `base` and the response with the base ID, or NoAnswer if one of them does not come in
    time."""
    limit = client.clock() + client.timeout
    with contextlib.closing(client.follow()) as lines:
        # This order has no errors.
        answer = client.ask(BASE_ORDER)
        report = client.wait_for(lines, base_line, limit, PAUSE)
    if not report:
        raise NoAnswer(f"the gateway has asked the radio module, which did not report its base ID within "
                       f"{client.timeout:g} s: check with enogate-check that the stick is at SERIAL")
    return Answer([*answer.lines, report])
