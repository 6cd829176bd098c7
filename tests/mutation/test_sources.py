"""Unit tests of scripts/mutation/sources.py: the texts are as `rt fmt` lays them out."""
import unittest

from mutation.sources import split_functions

FREE_FUNCTIONS = """\
//! A file.
use core::fmt;

const MOST: u64 = 4;

/// A comment.
pub fn first(a: u64) -> u64 {
    a + 1
}

pub(crate) const fn second(
    a: u64,
    b: u64,
) -> u64
    requires { a < b }
    ensures { result ≡ b - a }
{
    if a < b {
        b - a
    } else {
        0
    }
}
"""

FUNCTIONS_IN_BLOCKS = """\
impl Framer {
    pub fn push(&mut self, byte: u8) -> bool {
        self.len = 1;
        true
    }
}

impl<'a, T: Into<Vec<u8>>> fmt::Debug for Lines<'a, T>
where
    T: Copy,
{
    fn fmt(&self) -> u64 {
        0
    }
}

impl From<io::Error> for Fault {
    fn from(it: io::Error) -> Fault {
        Fault::Read
    }
}

pub trait Source {
    fn read(&mut self, to: &mut [u8]) -> usize
        requires { 0 < length to.now }
        ensures within { IfOk result (λ n. n ≤ length to.now) };

    fn twice(&mut self) -> usize {
        2
    }
}

fn last() {
}
"""


class SplitFunctionsTest(unittest.TestCase):
    def functions_in(self, text):
        return split_functions("src/a.rt", text)[0]

    def test_free_functions(self):
        first_function, second_function = self.functions_in(FREE_FUNCTIONS)
        self.assertEqual((first_function.name, first_function.type, first_function.trait, first_function.path),
                         ("first", "", (), "src/a.rt"))
        self.assertEqual(first_function.head, "pub fn first(a: u64) -> u64 {")
        self.assertEqual(first_function.body, "    a + 1\n}")
        self.assertEqual(second_function.name, "second")

    def test_clauses_belong_to_the_head(self):
        second_function = self.functions_in(FREE_FUNCTIONS)[1]
        self.assertTrue(second_function.head.endswith("    ensures { result ≡ b - a }\n{"))
        self.assertTrue(second_function.body.startswith("    if a < b {"))
        self.assertTrue(second_function.body.endswith("    }\n}"))

    def test_a_head_may_end_with_its_bounds(self):
        for bounds in ("where T: Copy {", "where\n    T: Copy,\n{"):
            (function,) = self.functions_in(f"fn f<T>(\n    a: T,\n) -> T\n{bounds}\n    a\n}}\n")
            self.assertEqual((function.head.endswith(bounds), function.body), (True, "    a\n}"))

    def test_lines_are_those_of_the_file(self):
        for text in (FREE_FUNCTIONS, FUNCTIONS_IN_BLOCKS):
            lines = text.split("\n")
            for function in self.functions_in(text):
                self.assertEqual(lines[function.line : function.line + len(function.lines)], function.lines)

    def test_methods_have_their_type(self):
        type_and_trait_by_name = {function.name: (function.type, function.trait)
                                  for function in self.functions_in(FUNCTIONS_IN_BLOCKS)}
        self.assertEqual(type_and_trait_by_name["push"], ("Framer", ()))
        self.assertEqual(type_and_trait_by_name["twice"], ("Source", ()))
        self.assertEqual(type_and_trait_by_name["last"], ("", ()))

    def test_methods_of_a_trait_have_its_words(self):
        type_and_trait_by_name = {function.name: (function.type, function.trait)
                                  for function in self.functions_in(FUNCTIONS_IN_BLOCKS)}
        self.assertEqual(type_and_trait_by_name["fmt"], ("Lines", ("Debug", "Debug")))
        self.assertEqual(type_and_trait_by_name["from"], ("Fault", ("FromError", "FromioError")))

    def test_a_head_without_a_body_is_no_function(self):
        self.assertNotIn("read", [function.name for function in self.functions_in(FUNCTIONS_IN_BLOCKS)])

    def test_other_lines_are_kept_without_comments(self):
        other_lines = split_functions("src/a.rt", FREE_FUNCTIONS)[1]
        self.assertEqual(other_lines, ["use core::fmt;", "const MOST: u64 = 4;", "fn first", "fn second"])

    def test_the_key_of_an_edited_function_is_the_same(self):
        other_text = FREE_FUNCTIONS.replace("a + 1", "a + 2")
        keys, other_keys = ([function.key for function in self.functions_in(text)]
                            for text in (FREE_FUNCTIONS, other_text))
        self.assertEqual(keys, other_keys)
        self.assertNotEqual(self.functions_in(FREE_FUNCTIONS)[0].body, self.functions_in(other_text)[0].body)


if __name__ == "__main__":
    unittest.main()
