"""Unit tests of scripts/mutation/graph.py."""
import unittest

from fakes import FUNCTION_NAMES, CRATE_SOURCES, CrateFolderTest, mutant_text
from mutation.graph import CallGraph
from mutation.mutants import read_mutant
from mutation.sources import split_functions


def functions_in_sources(sources):
    return [function for path, text in sources.items() for function in split_functions(path, text)[0]]


class ReportedNamesTest(unittest.TestCase):
    def reported_names_of(self, path, text, *reported_names):
        (function,) = split_functions(path, text)[0]
        return CallGraph("tiny", [function], list(reported_names)).reported_names_by_key[function.key]

    def test_free_functions_have_their_files_module(self):
        text = "fn f() {\n}\n"
        self.assertEqual(self.reported_names_of("src/lib.rt", text, "tiny::f", "tiny::a::f"), ["tiny::f"])
        self.assertEqual(self.reported_names_of("src/main.rt", text, "tiny::f", "tiny::a::f"), ["tiny::f"])
        self.assertEqual(self.reported_names_of("src/a.rt", text, "tiny::f", "tiny::a::f"), ["tiny::a::f"])
        self.assertEqual(self.reported_names_of("src/a/b.rt", text, "tiny::b::f", "tiny::a::b::f"), ["tiny::a::b::f"])
        self.assertEqual(self.reported_names_of("src/a.rt", text, "tiny::f", "other::a::f"), [])

    def test_closures_belong_to_their_function(self):
        reported_names = ["tiny::fn::f::closure0", "tiny::fn::ff::closure0", "tiny::f"]
        self.assertEqual(
            self.reported_names_of("src/lib.rt", "fn f() {\n}\n", *reported_names), ["tiny::f", "tiny::fn::f::closure0"]
        )

    def test_methods_have_the_module_of_their_type(self):
        text = "impl Framer {\n    fn f() {\n    }\n}\n"
        self.assertEqual(
            self.reported_names_of("src/a.rt", text, "tiny::b::Framer::f", "tiny::b::Frame::f"), ["tiny::b::Framer::f"]
        )
        self.assertEqual(self.reported_names_of("src/a.rt", text, "tiny::b::Framer::g"), [])

    def test_methods_of_traits_have_the_traits_words(self):
        text = "impl io::Write for Framer {\n    fn f() {\n    }\n}\n"
        reported_names = ["tiny::FramerRead::f", "tiny::FramerWrite::f", "tiny::Framer::f"]
        self.assertEqual(self.reported_names_of("src/a.rt", text, *reported_names), ["tiny::FramerWrite::f"])

    def test_two_names_that_fit_are_none(self):
        text = "impl Framer {\n    fn f() {\n    }\n}\n"
        self.assertEqual(self.reported_names_of("src/a.rt", text, "tiny::a::Framer::f", "tiny::b::Framer::f"), [])


class AmbiguousNamesTest(unittest.TestCase):
    """Functions that one name may belong to."""

    def reported_names(self, sources, *names):
        return [[*names] for names in CallGraph("tiny", functions_in_sources(sources),
                                                list(names)).reported_names_by_key.values()]

    def test_a_name_of_two_functions_is_neithers(self):
        text = "impl Framer {\n    fn f() {\n    }\n}\n"
        self.assertEqual(self.reported_names({"src/a.rt": text, "src/b.rt": text}, "tiny::a::Framer::f"), [[], []])

    def test_two_functions_of_one_key_have_no_name(self):
        text = "impl Framer<u8> {\n    fn f() {\n    }\n}\n\nimpl Framer<u16> {\n    fn f() {\n    }\n}\n"
        self.assertEqual(self.reported_names({"src/a.rt": text}, "tiny::a::Framer::f"), [[]])

    def test_a_name_that_is_exactly_anothers_is_not_taken(self):
        source_form = "impl From<{0}> for Framer {{\n    fn from() {{\n    }}\n}}\n"
        sources = {"src/a.rt": source_form.format("One"), "src/b.rt": source_form.format("Two")}
        self.assertEqual(self.reported_names(sources, "tiny::FramerFromTwo::from"), [[], ["tiny::FramerFromTwo::from"]])

    def test_a_name_that_only_begins_with_the_type(self):
        text = "impl Into<One> for Framer {\n    fn into() {\n    }\n}\n"
        self.assertEqual(
            self.reported_names({"src/a.rt": text}, "tiny::FramerInto::into"), [["tiny::FramerInto::into"]]
        )


class CallGraphTest(CrateFolderTest):
    def setUp(self):
        super().setUp()
        self.graph = CallGraph("tiny", functions_in_sources(CRATE_SOURCES), FUNCTION_NAMES)

    def function_names(self, keys):
        return {key[3] for key in keys}

    def test_callees(self):
        callees_by_name = {key[3]: self.function_names(callees) for key, callees in self.graph.callees_by_key.items()}
        expected_callees = {"once": set(), "twice": {"once"}, "thrice": {"once", "twice"}, "other": set(), "sum": set()}
        self.assertEqual(callees_by_name, expected_callees)

    def test_calls_in_comments_and_texts_are_none(self):
        text = 'fn a() {\n}\n\nfn b() {\n    // a()\n    "a()"\n}\n'
        graph = CallGraph("tiny", functions_in_sources({"src/lib.rt": text}), ["tiny::a", "tiny::b"])
        self.assertEqual([*graph.callees_by_key.values()], [set(), set()])

    def test_callees_of_callees(self):
        text = "fn a() {\n}\n\nfn b() {\n    a()\n}\n\nfn c() {\n    b()\n}\n"
        graph = CallGraph("tiny", functions_in_sources({"src/lib.rt": text}), ["tiny::a", "tiny::b", "tiny::c"])
        self.assertEqual(
            {key[3]: self.function_names(reached) for key, reached in graph.reached_by_key.items()},
            {"a": set(), "b": {"a"}, "c": {"a", "b"}},
        )

    def test_methods_are_found_by_their_type(self):
        sources = {
            "src/a.rt": "impl One {\n    fn f(&self) {\n    }\n\n    fn g(&self) {\n        self.f()\n    }\n}\n",
            "src/b.rt": "impl Two {\n    fn f() {\n    }\n\n    fn h() {\n        Self::f()\n    }\n\n"
            "    fn i(it: One) {\n        it.g()\n    }\n}\n",
            "src/c.rt": "fn j() {\n    One::g();\n    a::f()\n}\n\nfn k() {\n    f()\n}\n",
        }
        names = ["One::f", "One::g", "Two::f", "Two::h", "Two::i", "c::j", "c::k"]
        graph = CallGraph("tiny", functions_in_sources(sources), [f"tiny::{name}" for name in names])
        callees_by_name = {
            key[3]: {key[1:4:2] for key in callees}
            for key, callees in graph.callees_by_key.items() if key[1:4:2] != ("Two", "f")
        }
        self.assertEqual(callees_by_name["g"], {("One", "f")})
        self.assertEqual(callees_by_name["h"], {("Two", "f")})
        self.assertEqual(callees_by_name["i"], {("One", "g")})
        self.assertEqual(callees_by_name["j"], {("One", "g")})
        self.assertEqual(callees_by_name["k"], set())

    def mutants_of_texts(self, *texts):
        edits = [("src/lib.rt", f"    {old_text}", f"    WRONG {old_text}") for old_text in texts]
        return [
            read_mutant(self.folder,
                        self.write_file(f"mutants/{index}.edit", mutant_text(edit[0], edit[1:])))
            for index, edit in enumerate(edits)
        ]

    def test_no_caller_is_beside_its_callee_and_no_function_is_twice(self):
        mutants = self.mutants_of_texts(
            "a + STEP", "once(once(a))", "let b = twice(a);", "once(b)", "a\n".strip() + " + STEP"
        )
        batches = [[mutant.function.name for mutant in batch] for batch in self.graph.batches(mutants)]
        self.assertEqual(batches, [["once"], ["once"], ["twice"], ["thrice"], ["thrice"]])

    def test_functions_that_do_not_meet_are_together(self):
        text = mutant_text("src/pairs.rt", ("self.first", "WRONG"))
        mutants = self.mutants_of_texts("a + STEP") + [
            read_mutant(self.folder, self.write_file("mutants/pair.edit", text))
        ]
        self.assertEqual([[mutant.function.name for mutant in batch] for batch in self.graph.batches(mutants)],
                         [["once", "sum"]])


if __name__ == "__main__":
    unittest.main()
