"""The functions of a Rattle file, found by its layout: `rt fmt` has indented it."""
import re
from typing import NamedTuple

FUNCTION_HEAD_PATTERN = re.compile(r"^ *(?:pub(?:\([^)]*\))? )?(?:const )?(?:unsafe )?fn (\w+)")
# A quotation mark that neither begins nor ends a text.
NO_QUOTES_PATTERN = re.compile(r"\\.|'\"'")
BLOCK_HEAD_PATTERN = re.compile(r"^(?:pub(?:\([^)]*\))? )?(?:unsafe )?(impl|trait)\b(.*)")


class Function(NamedTuple):
    """A function that has a body."""

    path: str  # of its file, from the folder of the crate
    type: str  # the type or trait whose method it is, or ""
    trait: tuple[str, ...]  # of a trait's impl: the trait's words as one, with their paths and without
    name: str
    head: str
    body: str
    line: int  # where its head begins, from 0

    @property
    def key(self):
        """What stays the same when a file is edited."""
        return self[:4]

    @property
    def lines(self):
        return f"{self.head}\n{self.body}".split("\n")


def body_range(lines, start):
    """The lines that open and close the body of the function whose head begins here, or None if it has no body."""
    indent = lines[start][: len(lines[start]) - len(lines[start].lstrip())]
    opening_pattern = re.compile(rf"{indent}(?:\{{|\).*\{{|where\b.*\{{)$")
    head_end = start
    while not (opening_pattern.match(lines[head_end]) or head_end == start and lines[head_end].endswith("{")):
        head_end += 1
        # (clauses are indented further; after a head without a body comes a line that is not)
        if head_end == len(lines) or not re.match(rf"$|{indent}(?: +\S|[{{)]|where\b)", lines[head_end]):
            return None
    closing_line = next((index for index in range(start + 1, len(lines)) if lines[index] == f"{indent}}}"), None)
    return closing_line and (head_end, closing_line)


def without_generics(text):
    """The words after `impl` or `trait`, without lifetimes, parameters of its own and `where`."""
    text = re.sub(r"'\w+,? ?|\s*(?:where\b.*)?\{?$", "", text).strip()
    depth = 0
    for index, character in enumerate(text if text.startswith("<") else ""):
        depth += (character == "<") - (character == ">" and text[index - 1] != "-")
        if not depth:
            return text[index + 1 :].strip()
    return text


def type_and_trait(line):
    """The type, and the words of the trait, that the functions of this block belong to."""

    def words(text):
        return re.findall(r"\w+", re.sub(r"\w+::", "", text))

    trait_text, _, type_text = without_generics(BLOCK_HEAD_PATTERN.match(line)[2]).partition(" for ")
    if not type_text:
        return words(re.split(r":(?!:)", trait_text)[0])[0], ()
    return words(type_text)[0], ("".join(words(trait_text)),
                                 "".join(re.findall(r"\w+", re.sub(r"^[^<]*::", "", trait_text))))


def split_functions(path, text):
    """The functions of a file that have bodies, and its other lines without comments, with one for each function."""
    lines, index, functions, other_lines, type_and_trait_words, is_text = text.split("\n"), 0, [], [], ("", ()), False
    while index < len(lines):
        if BLOCK_HEAD_PATTERN.match(lines[index]):
            type_and_trait_words = type_and_trait(lines[index])
        elif lines[index] == "}":
            type_and_trait_words = "", ()
        name = FUNCTION_HEAD_PATTERN.match(lines[index])
        ends = name and body_range(lines, index)
        if ends:
            head_text, body = "\n".join(lines[index : ends[0] + 1]), "\n".join(lines[ends[0] + 1 : ends[1] + 1])
            functions.append(Function(path, *type_and_trait_words, name[1], head_text, body, index))
            other_lines, index, is_text = [*other_lines, f"fn {name[1]}"], ends[1], False
        elif lines[index].strip() and (is_text or not lines[index].lstrip().startswith("//")):
            # (a line of a text that goes on from the line before is no comment)
            is_text ^= NO_QUOTES_PATTERN.sub("", lines[index]).count('"') % 2 == 1
            other_lines.append(lines[index])
        index += 1
    return functions, other_lines
