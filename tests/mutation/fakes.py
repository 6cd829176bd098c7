"""A crate in a folder, and a prover that knows only words: for the unit tests of scripts/mutation."""
import os
import tempfile
import unittest

from mutation.sources import split_functions
from mutation.verdicts import CheckReport

# `twice` calls `once`, and `thrice` calls both; `other` and Pair::sum call nothing.
CRATE_SOURCES = {
    "src/lib.rt": """\
pub mod pairs;

const STEP: u64 = 1;

pub fn once(a: u64) -> u64 {
    a + STEP
}

pub fn twice(a: u64) -> u64 {
    once(once(a))
}

pub fn thrice(a: u64) -> u64 {
    let b = twice(a);
    once(b)
}

pub fn other(a: u64) -> u64 {
    a
}
""",
    "src/pairs.rt": """\
impl Pair {
    pub fn sum(&self) -> u64 {
        self.first + self.second
    }
}
""",
}
FUNCTION_NAMES = ["tiny::once", "tiny::twice", "tiny::thrice", "tiny::other", "tiny::pairs::Pair::sum"]
CALLEES_BY_FUNCTION = {"tiny::twice": ["tiny::once"], "tiny::thrice": ["tiny::once", "tiny::twice"]}


def mutant_text(path, *text_pairs):
    """The text of a mutant: pairs of old and new texts."""
    return f"file: {path}\n" + "".join(f"old: {old_text}\nnew: {new_text}\n" for old_text, new_text in text_pairs)


class FakeChecker:
    """A prover that refuses each function whose body has the word WRONG, and all if STEP has it.

    WORSE makes the own proof of `other` fail, and WORST that of `once`. GIBBERISH is no program, HIDDEN is not
    reported, and DEEP runs out of steps.
    """

    def __init__(self, folder, sources):
        self.folder, self.sources, self.labels, self.only = folder, sources, [], []

    def check_unchanged(self):
        return self.check({})

    def check(self, texts, only=()):
        texts = {**self.sources, **texts}
        self.labels.append(sum("WRONG" in source for source in texts.values()))
        self.only.append([*only])
        all_sources = "\n".join(texts.values())
        if "GIBBERISH" in all_sources:
            return CheckReport(1, "src/lib.rt:1:1: error[syntax]: what is this\n")
        if "DEEP" in all_sources:
            return CheckReport(3, "src/lib.rt:1:1: error: antt ran out of steps\nantt ran out of the steps\n")
        verdict_by_name = {name: "proved" for name in FUNCTION_NAMES}
        functions = [function for path, text in texts.items() for function in split_functions(path, text)[0]]
        for name, function in zip(FUNCTION_NAMES, functions):
            if "HIDDEN" in function.body:
                del verdict_by_name[name]
            elif "WRONG" in function.body or "STEP: u64 = WRONG" in all_sources:
                verdict_by_name[name] = "not proved"
        for word, name in (("WORSE", "tiny::other"), ("WORST", "tiny::once")):
            if word in all_sources:
                verdict_by_name[name] = "not proved"
        for name, callees in CALLEES_BY_FUNCTION.items():
            refused_names = [callee for callee in callees if verdict_by_name.get(callee, "proved") != "proved"]
            if refused_names and verdict_by_name.get(name) == "proved":
                verdict_by_name[name] = f"no proof: it calls {refused_names[0]}, which is not proved"
        if only:
            reached_names = {*only, *(callee for name in only for callee in CALLEES_BY_FUNCTION.get(name, []))}
            verdict_by_name = {name: text for name, text in verdict_by_name.items() if name in reached_names}
        is_proved = all(verdict == "proved" for verdict in verdict_by_name.values())
        lines = [f"fn {name}: {text}" for name, text in verdict_by_name.items()]
        last_line = f"only={len(only)} proved=?" if only else "logic=proved" if is_proved else "logic=not-proved"
        return CheckReport(0 if is_proved else 1, "\n".join([*lines, last_line]) + "\n")


class CrateFolderTest(unittest.TestCase):
    """A test with the crate `tiny` in a folder of its own."""

    def setUp(self):
        room = tempfile.TemporaryDirectory()
        self.addCleanup(room.cleanup)
        self.folder = f"{room.name}/tiny"
        for path, text in CRATE_SOURCES.items():
            self.write_file(path, text)

    def write_file(self, path, text):
        os.makedirs(os.path.dirname(f"{self.folder}/{path}"), exist_ok=True)
        with open(f"{self.folder}/{path}", "w", encoding="utf-8") as file:
            file.write(text)
        return f"{self.folder}/{path}"
