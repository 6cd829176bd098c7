"""Unit tests of scripts/mutation/mutants.py."""
import unittest

from fakes import CRATE_SOURCES, CrateFolderTest, mutant_text
from mutation.mutants import read_mutant, combined_texts


class ReadMutantTest(CrateFolderTest):
    def mutant_of_text(self, text, name="turns"):
        return read_mutant(self.folder, self.write_file(f"mutants/{name}.edit", text))

    def test_the_function_is_the_one_whose_body_changes(self):
        mutant = self.mutant_of_text("-- A comment.\n" + mutant_text("src/lib.rt", ("    a + STEP", "    a")))
        self.assertEqual((mutant.name, mutant.function.name, mutant.fault), ("turns.edit", "once", ""))

    def test_a_method(self):
        mutant = self.mutant_of_text(mutant_text("src/pairs.rt", ("self.first + ", "")))
        self.assertEqual((mutant.function.type, mutant.function.name), ("Pair", "sum"))

    def test_several_pairs_in_one_function(self):
        mutant = self.mutant_of_text(
            mutant_text("src/lib.rt", ("let b = twice(a)", "let c = twice(a)"), ("once(b)", "once(c)"))
        )
        self.assertEqual(mutant.function.name, "thrice")

    def test_two_functions_are_no_single_one(self):
        mutant = self.mutant_of_text(
            mutant_text("src/lib.rt", ("    a + STEP", "    a"), ("    once(once(a))", "    once(a)"))
        )
        self.assertEqual((mutant.function, mutant.fault), (None, ""))

    def test_a_constant_and_a_head_are_no_body(self):
        for text_pair in (
            ("STEP: u64 = 1", "STEP: u64 = 2"),
            ("pub fn other(a", "pub fn other(mut a"),
            ("fn other", "fn others"),
        ):
            mutant = self.mutant_of_text(mutant_text("src/lib.rt", text_pair))
            self.assertEqual((mutant.function, mutant.fault), (None, ""))

    def test_a_body_and_something_else_are_no_single_body(self):
        for text_pairs in (
            (("STEP: u64 = 1", "STEP: u64 = 2"), ("    a + STEP", "    a")),
            (("pub fn once(a", "pub fn once(mut a"), ("    a + STEP", "    a")),
        ):
            mutant = self.mutant_of_text(mutant_text("src/lib.rt", *text_pairs))
            self.assertEqual((mutant.function, mutant.fault), (None, ""))

    def test_a_definition_is_tried_but_belongs_to_no_function(self):
        self.write_file("specs/Lib.antt", "def a := 1\n")
        mutant = self.mutant_of_text(mutant_text("specs/Lib.antt", ("def a := 1", "def a := 2")))
        self.assertEqual((mutant.function, mutant.fault), (None, ""))

    def test_what_cannot_be_applied(self):
        for text, fault in (
            ("old: a\nnew: b\n", "before any"),
            ("file: src/lib.rt\nnew: b\n", "before any"),
            ("file: src/lib.rt\n", "in this order"),
            ("", "in this order"),
            ("file: src/lib.rt\nold: a + STEP\nnew: a\nnew: b\n", "before any"),
            ("file: src/lib.rt\nold: a + STEP\nnew: a\nold: once(b)\n", "has no 'new:' line"),
            ("file: src/lib.rt\nold: a + STEP\nold: once(b)\nnew: a\n", "has no 'new:' line"),
            ("file: src/lib.rt\nold: a + STEP\nnew: a\nfile:src/pairs.rt\n", "no space before it"),
            ("file: src/lib.rt\nold: a + STEP\nnew: a\nold:\n", "no space before it"),
            (mutant_text("src//lib.rt", ("a + STEP", "a")), "no file of src/"),
            (mutant_text("src/none.rt", ("a", "b")), "no file src/none.rt"),
            (mutant_text("docs/a.md", ("a", "b")), "no file of src/"),
            (mutant_text("src/../src/lib.rt", ("a + STEP", "a")), "no file of src/"),
            (mutant_text("src/lib.rt", ("a + STAP", "a")), "0 times"),
            (mutant_text("src/lib.rt", ("once", "twice")), "times, and not once"),
            (mutant_text("src/lib.rt", ("a + STEP", "a + STEP")), "changes no code"),
        ):
            self.assertIn(fault, self.mutant_of_text(text).fault, text)

    def test_clauses_ghosts_and_comments_are_no_code(self):
        self.write_file(
            "src/lib.rt",
            "pub fn f(a: u64) -> u64\n    ensures { result ≡ a }\n{\n    ghost let b = a;\n    // one\n    a\n}\n",
        )
        self.write_file("proofs/f/Proof.antt", "a\n")
        for path, text_pair in (
            ("src/lib.rt", ("result ≡ a", "result ≤ a")),
            ("src/lib.rt", ("ghost let b = a;", "ghost let b = 2;")),
            ("src/lib.rt", ("// one", "// two")),
            ("proofs/f/Proof.antt", ("a", "b")),
        ):
            self.assertIn("changes no code", self.mutant_of_text(mutant_text(path, text_pair)).fault, text_pair)

    def test_a_ghost_member_is_a_definition(self):
        self.write_file("src/lib.rt", "impl A for B {\n    ghost state = { held };\n\n    fn f(&self) {}\n}\n")
        mutant = self.mutant_of_text(mutant_text("src/lib.rt", ("{ held }", "{ lost }")))
        self.assertEqual((mutant.function, mutant.fault), (None, ""))

    def test_an_empty_new_text_removes(self):
        mutant = self.mutant_of_text("file: src/lib.rt\nold:     once(once(a))\nnew:\n")
        self.assertEqual((mutant.function.name, mutant.edits), ("twice", (("src/lib.rt", "    once(once(a))", ""),)))

    def test_one_space_after_new_is_no_part_of_the_text(self):
        mutant = self.mutant_of_text("file: src/lib.rt\nold:     a + STEP\nnew:     a\n")
        self.assertEqual(mutant.edits, (("src/lib.rt", "    a + STEP", "    a"),))


class CombinedTextsTest(CrateFolderTest):
    def combined_texts_of(self, *texts):
        mutants = [read_mutant(self.folder, self.write_file(f"mutants/{index}.edit", text))
                   for index, text in enumerate(texts)]
        self.assertEqual([mutant.fault for mutant in mutants], [""] * len(texts))
        return combined_texts(self.folder, mutants)

    def test_one_mutant(self):
        text = CRATE_SOURCES["src/lib.rt"].replace("a + STEP", "a")
        self.assertEqual(self.combined_texts_of(mutant_text("src/lib.rt", ("a + STEP", "a"))), {"src/lib.rt": text})

    def test_several_files_and_functions(self):
        text_by_path = self.combined_texts_of(
            mutant_text("src/lib.rt", ("    once(once(a))", "    once(a)")),
            mutant_text("src/lib.rt", ("    a + STEP", "    a")),
            mutant_text("src/pairs.rt", ("self.first + ", "")),
        )
        text = CRATE_SOURCES["src/lib.rt"].replace("once(once(a))", "once(a)").replace("    a + STEP", "    a")
        self.assertEqual(text_by_path["src/lib.rt"], text)
        self.assertEqual(text_by_path["src/pairs.rt"], CRATE_SOURCES["src/pairs.rt"].replace("self.first + ", ""))

    def test_the_new_text_of_one_may_hold_the_old_text_of_another(self):
        text_by_path = self.combined_texts_of(
            mutant_text("src/lib.rt", ("    a + STEP", "    once(once(a))")),
            mutant_text("src/lib.rt", ("    once(once(a))", "    a + STEP")),
        )
        self.assertEqual(text_by_path["src/lib.rt"].count("once(once(a))"), 1)
        self.assertIn("pub fn twice(a: u64) -> u64 {\n    a + STEP\n}", text_by_path["src/lib.rt"])

    def test_texts_of_other_numbers_of_lines(self):
        self.write_file(
            "src/lib.rt", CRATE_SOURCES["src/lib.rt"] + "\npub fn late(a: u64) -> u64 {\n    let b = a;\n    b\n}\n"
        )
        text_by_path = self.combined_texts_of(
            "file: src/lib.rt\nold:     a + STEP\nnew:\n",
            mutant_text("src/lib.rt", ("    let b = a;", "    let b = 0;")),
        )
        self.assertIn("pub fn once(a: u64) -> u64 {\n\n}", text_by_path["src/lib.rt"])
        self.assertTrue(text_by_path["src/lib.rt"].endswith("{\n    let b = 0;\n    b\n}\n"))

    def test_twin_functions_of_two_types(self):
        source_form = "impl {} {{\n    fn f(&self) -> u64 {{\n        {}\n    }}\n}}\n"
        twins = source_form.format("One", "1") + "\n" + source_form.format("Two", "1 + 0")
        self.write_file("src/twins.rt", twins)
        text_by_path = self.combined_texts_of(
            mutant_text("src/twins.rt", ("1 + 0", "2")), mutant_text("src/lib.rt", ("a + STEP", "a"))
        )
        self.assertEqual(text_by_path["src/twins.rt"], twins.replace("1 + 0", "2"))


if __name__ == "__main__":
    unittest.main()
