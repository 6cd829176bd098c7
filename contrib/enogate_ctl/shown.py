"""What is printed about an answer, and about the forms of orders, for people."""
from __future__ import annotations

import re

from enogate_lines.contents import Response, Status
from enogate_tools import share

from . import grammar
from .answers import Answer
from .command_line import USAGE
from .tables import table


def shown(answer: Answer) -> str:
    """An answer that is neither an error nor a list, as text."""
    last = answer.lines[-1]
    match last.content:
        case Status(mode, counters):
            return table([("learn window", mode), *((name, str(count)) for name, count in counters.items())])
        case Response(data=base):
            return base
    return last.members.get("result", last.kind)


def forms(verb: str) -> str:
    """The forms of the orders and the commands, or of those with this first word, each with what it does, and their
    parameters. Of a command that is no order, its usage."""
    if verb in grammar.COMMANDS:
        usage = (line.strip() for line in USAGE.split("\n") if verb in re.split(r"[ |]", line))
        return "\n".join([*usage, grammar.COMMANDS[verb]])
    shown = [(form, does) for form, does in share.effects().items() if not verb or form.split(" ")[0] == verb]
    parameters = grammar.parameters_of(" ".join(form for form, _ in shown))
    return table([*shown, *([] if verb else grammar.COMMANDS.items()), *parameters])
