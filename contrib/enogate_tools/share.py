"""The tables in the folder `share`: facts that the programs around the gateway have in common."""
from __future__ import annotations

import functools
import os
import re
from collections.abc import Iterator

SHARE = os.path.join(os.path.dirname(os.path.dirname(os.path.abspath(__file__))), "share")


def table_lines(name: str) -> Iterator[str]:
    """The lines of a table, without its comments. `name` is that of a file in `share`, or an absolute path."""
    with open(os.path.join(SHARE, name), encoding="utf-8") as file:
        for line in file:
            if line.strip() and not line.startswith("#"):
                yield line.rstrip("\n")


def profiles_in(text: str) -> list[str]:
    """The profiles of a profile, or of a profile and the last TYPE of a range: A5-02-01..0B."""
    first_profile, _, last_type = text.partition("..")
    return [f"{first_profile[:6]}{number:02X}"
            for number in range(int(first_profile[6:], 16), int(last_type or first_profile[6:], 16) + 1)]


@functools.cache
def kinds_by_profile() -> dict[str, str]:
    """The supported profiles, each with the kind of its devices."""
    rows = (row.split(None, 1) for row in table_lines("profiles"))
    return {eep: kind for eeps, kind in rows for eep in profiles_in(eeps)}


def device_kind(eep: str) -> str:
    """The kind of the devices of a profile; empty if the profile is not supported."""
    return kinds_by_profile().get(eep, "")


@functools.cache
def texts_by_word(kind: str) -> dict[str, str]:
    """Words of this kind, each with its text: those of the gateway (`error`, `result`, `reason` or `rorg`), each with a
    text for people; the heads of a sheet (`column`), each with what the column has; and letters (`spelling`)."""
    kinds_words_texts = (row.split(None, 2) for row in table_lines("words"))
    return {word: text for row_kind, word, text in kinds_words_texts if row_kind == kind}


@functools.cache
def order_forms() -> dict[str, list[tuple[str, frozenset[str]]]]:
    """The orders by their first words: the forms of each, with the errors that each form can have."""
    errors_by_form: dict[str, list[tuple[str, frozenset[str]]]] = {}
    for row in table_lines("orders"):
        if row[0].islower():
            form, *errors = re.split(" {2,}", row, maxsplit=1)
            errors_by_form.setdefault(form.split(" ")[0], []).append((form, frozenset(" ".join(errors).split())))
    return errors_by_form


@functools.cache
def effects() -> dict[str, str]:
    """What each of these forms does."""
    lines = list(table_lines("orders"))
    orders_and_effects = ((row, effect.strip()) for row, effect in zip(lines, lines[1:]) if effect[0] == " ")
    return {re.split(" {2,}", row, maxsplit=1)[0]: effect for row, effect in orders_and_effects}


@functools.cache
def parameter_meanings() -> dict[str, str]:
    """The meanings of the words in capital letters in these forms."""
    return dict(row.split(None, 1) for row in table_lines("orders") if row[0].isupper())
