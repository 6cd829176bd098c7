"""The grammar of orders. An order is checked before it is written to the desk, so no other line gets there."""
from __future__ import annotations

import re
from collections.abc import Iterable, Sequence

from enogate_tools import share

ID_PATTERN = "[0-9A-Fa-f]{8}"
EEP_PATTERN = "[0-9A-Fa-f]{2}-[0-9A-Fa-f]{2}-[0-9A-Fa-f]{2}"
# How a word in capital letters is written.
PATTERNS = {"ID": ID_PATTERN, "EEP": EEP_PATTERN, "TEXT": "[!-~](?:[ -~]{0,30}[!-~])?",
            **dict.fromkeys(("CH", "OFF", "VAL", "RAMP"), "(?:0|[1-9][0-9]{0,4})")}
BASE_ORDER = "base"
FORMS_BY_VERB = share.order_forms()
VERB_LIST = ", ".join(FORMS_BY_VERB)
# The commands about a gateway that are no orders, and what each does.
COMMANDS = {"backup": "writes a backup of the devices and the settings",
            "devices": "prints the devices, also for spreadsheets",
            "help": "prints the forms of orders and commands", "lines": "prints the output lines",
            "replace": "learns a device in place of a broken one", "watch": "prints the readings as they come"}
# What a parameter of an order on the desk does not accept, but one of this command does.
MORE_VALUES = {"ID": ", or the label of a device"}
# The word in place of the ID of a device. The orders with these first words have an ID as the second word.
ID_PLACEHOLDER, SAMPLE_ID, FIRST_CHANNEL = "ID", "00000000", "0"
VERBS_WITH_ID = frozenset(verb for verb, forms in FORMS_BY_VERB.items()
                          if forms[0][0].split(" ")[1:2] == [ID_PLACEHOLDER])


class InvalidOrder(ValueError):
    """A text is not an order. The text of the error says which form is expected."""


def check_order(order: str) -> None:
    """Raises InvalidOrder if the gateway would answer with `syntax`, or if a label is too long for it."""
    if not is_order(order):
        raise invalid_order(order)


def is_order(text: str) -> bool:
    """Whether a text has the form of an order."""
    return any(re.fullmatch(pattern_of(form), text) for form, _ in FORMS_BY_VERB.get(text.split(" ", 1)[0], ()))


def parameters_of(forms: str) -> list[tuple[str, str]]:
    """The parameters in these forms, each with what it means for this command."""
    return [(name, meaning + MORE_VALUES.get(name, "")) for name, meaning in share.parameter_meanings().items()
            if name in forms.split(" ")]


def invalid_order(order: str) -> InvalidOrder:
    """Why this text is not an order."""
    verb = order.split(" ", 1)[0]
    if verb not in FORMS_BY_VERB:
        others = [one for one in (*FORMS_BY_VERB, *COMMANDS) if one != verb]
        return InvalidOrder(f"{order!r} is not an order{suggestion(verb, others) or f': the orders are {VERB_LIST}'}")
    shown = " | ".join(form for form, _ in FORMS_BY_VERB[verb])
    named = [f"{name}: {meaning}" for name, meaning in parameters_of(shown)]
    return InvalidOrder(f"{order!r} is not an order: the form is {shown}" + (f" ({'; '.join(named)})" if named else ""))


def suggested_order(words: Sequence[str]) -> str:
    """What may be meant by words that are no order, as a shell takes it: a label of several words, which needs
    quotation marks, or an order without the channel. Empty if there is neither."""
    from shlex import join
    verb, *others = words
    labels = [[verb, " ".join(others[:end]), *others[end:]] for end in range(2, len(others) + 1)]
    for possible in [*labels, [verb, *others[:1], FIRST_CHANNEL, *others[1:]]]:
        if re.fullmatch(PATTERNS["TEXT"], possible[1]) and is_order(" ".join((verb, SAMPLE_ID, *possible[2:]))):
            return join(possible)
    return ""


def order_and_label(words: Sequence[str]) -> tuple[str, str]:
    """The order of these arguments, and an empty text. If the second one is the label of a device: the order with
    ID_PLACEHOLDER there, and the label. Raises InvalidOrder if it is no order."""
    order = " ".join(words)
    verb, name = (*words, "", "")[:2]
    if verb not in VERBS_WITH_ID or re.fullmatch(ID_PATTERN, name):
        check_order(order)
        return order, ""
    # This argument is a whole label, even if it begins with an ID, so that the rest becomes no part of the order.
    if not re.fullmatch(PATTERNS["TEXT"], name) or not is_order(" ".join((verb, SAMPLE_ID, *words[2:]))):
        if possible := suggested_order(words):
            raise InvalidOrder(f"{order!r} is not an order: did you mean `{possible}`?")
        raise invalid_order(order)
    return " ".join((verb, ID_PLACEHOLDER, *words[2:])), name


def order_with_id(order: str, device: str) -> str:
    """The order with this ID in the place of ID_PLACEHOLDER."""
    made = order.replace(ID_PLACEHOLDER, device, 1)
    check_order(made)
    return made


def suggestion(word: str, known: Iterable[str]) -> str:
    """The question whether one of these was meant; empty if none is similar."""
    from difflib import get_close_matches
    found = get_close_matches(word, filter(None, known), 1)
    return f": did you mean `{found[0]}`?" if found else ""


def pattern_of(form: str) -> str:
    """The regular expression of the orders of this form."""
    return " ".join(PATTERNS.get(word, word) for word in form.split(" "))
