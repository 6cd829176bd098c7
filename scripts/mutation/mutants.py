"""A mutant: a file of `file:`, `old:` and `new:` lines, as in must-fail/, and the function whose body it changes."""
import os
import re
from typing import NamedTuple

from mutation.sources import Function, split_functions

# A ghost member of an `impl`, as `ghost state = { .. };`, is a definition, and stays.
GHOST_LINES_PATTERN = re.compile(r"^ *(?:ghost\b(?! \w+ = \{)|//).*\n?", re.M)
CLAUSES_PATTERN = re.compile(r"\s*\b(?:requires|ensures)\b.*", re.S)


class UnusableMutant(Exception):
    """Why a mutant cannot be applied, or shows nothing about the code."""


class Mutant(NamedTuple):
    name: str
    text: str
    edits: tuple[tuple[str, str, str], ...]  # path of a file, and the text in it that another replaces
    function: Function | None  # the one whose body it changes, or None if it changes more or something else
    fault: str  # why it is unusable, or ""


def read_text(path):
    with open(path, encoding="utf-8") as file:
        return file.read()


def edits_in(text):
    path, old_text, edits = "", "", []
    for line in text.split("\n"):
        if line.startswith("file: "):
            path = line[len("file: ") :].strip()
        elif line.startswith("old: "):
            if old_text:
                raise UnusableMutant("an 'old:' line has no 'new:' line")
            old_text = line[len("old: ") :]
        elif line.startswith("new:"):
            if not path or not old_text:
                raise UnusableMutant("a 'new:' line stands before any 'file:' or 'old:' line")
            edits.append((path, old_text, re.sub(r"\A ", "", line[len("new:") :])))
            old_text = ""
        elif line.startswith(("file:", "old:")):
            raise UnusableMutant(f"there is no text after '{line.strip()}', or no space before it")
    if old_text:
        raise UnusableMutant("an 'old:' line has no 'new:' line")
    if not edits:
        raise UnusableMutant("it has no 'file:', 'old:' and 'new:' lines in this order")
    return tuple(edits)


def edited_texts(folder, edits):
    """The new texts of the files of this crate that these edits change, by path."""
    texts = {}
    for path, old_text, new_text in edits:
        if not re.fullmatch(r"(src|specs|proofs)(/\w+)+\.(rt|antt)", path):
            raise UnusableMutant(f"'file: {path}' names no file of src/, specs/ or proofs/")
        if path not in texts:
            if not os.path.isfile(f"{folder}/{path}"):
                raise UnusableMutant(f"there is no file {path}")
            texts[path] = read_text(f"{folder}/{path}")
        if texts[path].count(old_text) != 1:
            count = texts[path].count(old_text)
            raise UnusableMutant(
                f"an 'old:' text is in {path} {count} times, and not once: {old_text.strip()[:60]}"
            )
        texts[path] = texts[path].replace(old_text, new_text)
    return texts


def changed_function(folder, edits):
    """The function of src/ if these edits change only its body, or None. Edits of no code are unusable."""
    bodies, is_code, is_more = [], False, False
    for path, text in edited_texts(folder, edits).items():
        if path.startswith("specs/"):
            is_code = is_more = True
            continue
        if path.startswith("proofs/"):
            # (only the changed bodies come into a batch)
            is_more = True
            continue
        old_functions, old_text_outside = split_functions(path, read_text(f"{folder}/{path}"))
        new_functions, new_text_outside = split_functions(path, text)
        if [function.key for function in old_functions] != [function.key for function in new_functions]:
            return None
        is_more |= old_text_outside != new_text_outside or any(old_function.head != new_function.head
                                                               for old_function, new_function in zip(old_functions,
                                                                                                     new_functions))
        is_code |= code_in("\n".join(old_text_outside)) != code_in("\n".join(new_text_outside))
        is_code |= any(code_of_function(old_function) != code_of_function(new_function)
                       for old_function, new_function in zip(old_functions, new_functions))
        bodies += [old_function for old_function, new_function in zip(old_functions, new_functions)
                   if old_function.body != new_function.body]
    if not is_code:
        raise UnusableMutant("it changes no code: only a clause, a proof, a comment or nothing")
    return bodies[0] if len(bodies) == 1 and not is_more else None


def code_in(text):
    """The text without comments and ghost lines, except for ghost members of an `impl`."""
    return GHOST_LINES_PATTERN.sub("", text).strip()


def code_of_function(function):
    return CLAUSES_PATTERN.sub("", function.head).rstrip("{ \n"), code_in(function.body)


def read_mutant(folder, path):
    """The mutant of this file, for the crate in this folder."""
    text, edits, function, fault = read_text(path), (), None, ""
    try:
        edits = edits_in(text)
        function = changed_function(folder, edits)
    except UnusableMutant as error:
        fault = str(error)
    return Mutant(os.path.basename(path), text, edits, function, fault)


def combined_texts(folder, mutants):
    """The new texts of the files that these mutants change, by path.

    Each mutant is applied to the unchanged file, since the 'new:' of one may hold the 'old:' of another."""
    if len(mutants) == 1:
        return edited_texts(folder, mutants[0].edits)
    lines = {path: read_text(f"{folder}/{path}").split("\n")
             for path in {mutant.function.path for mutant in mutants}}
    # (from the last function to the first, so that the lines before keep their numbers)
    for mutant in sorted(mutants, key=lambda mutant: -mutant.function.line):
        old_function, text = mutant.function, edited_texts(folder, mutant.edits)[mutant.function.path]
        new_function = next(function for function in split_functions(old_function.path, text)[0]
                            if function.key == old_function.key)
        lines[old_function.path][old_function.line : old_function.line + len(old_function.lines)] = new_function.lines
    return {path: "\n".join(new_lines) for path, new_lines in lines.items()}
