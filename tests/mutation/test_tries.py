"""Unit tests of scripts/mutation/tries.py, with a prover that knows only words."""
import unittest

from fakes import CRATE_SOURCES, FakeChecker, CrateFolderTest, mutant_text
from mutation.mutants import read_mutant
from mutation.tries import CrateTries
from mutation.verdicts import CheckReport, Outcome

ONCE_BODY, TWICE_BODY, THRICE_BODY, SUM_BODY = "    a + STEP", "    once(once(a))", "    once(b)", "self.first"


class CrateTriesTest(CrateFolderTest):
    def setUp(self):
        super().setUp()
        self.checker = FakeChecker(self.folder, CRATE_SOURCES)
        self.tries = CrateTries("tiny", CRATE_SOURCES, self.checker)
        self.assertEqual(self.tries.check_unchanged(), "")
        self.mutants = []

    def add_mutant(self, name, *text_pairs, path="src/lib.rt"):
        self.mutants.append(
            read_mutant(self.folder, self.write_file(f"mutants/{name}.edit", mutant_text(path, *text_pairs)))
        )

    def try_mutants(self):
        self.tries.try_all(self.mutants)
        return {name.removesuffix(".edit"): (result.outcome, result.refused_function)
                for name, result in self.tries.results.items()}

    def test_a_batch(self):
        self.add_mutant("one", (ONCE_BODY, "    WRONG"))
        self.add_mutant("pair", (SUM_BODY, "WRONG"), path="src/pairs.rt")
        self.assertEqual(self.try_mutants(), {"one": (Outcome.REFUSED_AT_OWN_FUNCTION, "batch"),
                                              "pair": (Outcome.REFUSED_AT_OWN_FUNCTION, "batch")})
        self.assertEqual(self.tries.results["pair.edit"].text, "tiny::pairs::Pair::sum")
        # (one check of the unchanged crate, and one of both, in which no other function is checked)
        self.assertEqual(self.checker.labels, [0, 2])
        self.assertEqual(self.checker.only, [[], ["tiny::once", "tiny::pairs::Pair::sum"]])

    def test_a_mutant_alone_is_checked_with_its_own_function_first(self):
        self.add_mutant("one", (ONCE_BODY, "    WRONG"))
        self.add_mutant("const", ("STEP: u64 = 1", "STEP: u64 = WRONG"))
        self.assertEqual(self.try_mutants(),
                         {"one": (Outcome.REFUSED_AT_OWN_FUNCTION, "alone"), "const": (Outcome.REFUSED_ALONE, "alone")})
        self.assertEqual(self.checker.only, [[], [], ["tiny::once"]])

    def test_if_its_own_function_is_not_refused_the_whole_crate_decides(self):
        self.add_mutant("worse", (SUM_BODY, "WORSE"), path="src/pairs.rt")
        self.assertEqual(self.try_mutants(), {"worse": (Outcome.REFUSED_ALONE, "alone")})
        self.assertEqual(self.checker.only, [[], ["tiny::pairs::Pair::sum"], []])

    def test_if_only_a_function_that_it_calls_is_refused_the_whole_crate_decides(self):
        self.add_mutant("worst", (TWICE_BODY, "    WORST"))
        self.assertEqual(self.try_mutants(), {"worst": (Outcome.REFUSED_ALONE, "alone")})
        self.assertEqual(self.checker.only, [[], ["tiny::twice"], []])

    def test_a_mutant_that_is_proved_is_not_refused(self):
        self.add_mutant("one", (ONCE_BODY, "    WRONG"))
        self.add_mutant("same", (SUM_BODY, "self.second"), path="src/pairs.rt")
        self.assertEqual(self.try_mutants(),
                         {"one": (Outcome.REFUSED_AT_OWN_FUNCTION, "batch"), "same": (Outcome.NOT_REFUSED, "alone")})

    def test_one_that_only_calls_a_refused_function_is_not_refused(self):
        # (the graph does not see that `twice` calls `once`, so both come into one batch)
        self.add_mutant("one", (ONCE_BODY, "    WRONG"))
        self.add_mutant("same", (TWICE_BODY, "    once(once(a + 0))"))
        self.tries.graph.reached_by_key = {key: set() for key in self.tries.graph.reached_by_key}
        self.assertEqual(self.try_mutants(),
                         {"one": (Outcome.REFUSED_AT_OWN_FUNCTION, "batch"), "same": (Outcome.NOT_REFUSED, "alone")})

    def test_what_a_batch_leaves_open_is_tried_in_another(self):
        self.add_mutant("one", (ONCE_BODY, "    WRONG"))
        self.add_mutant("open", (TWICE_BODY, "    once(once(a + 0))"))
        self.add_mutant("open-too", (SUM_BODY, "HIDDEN"), path="src/pairs.rt")
        self.tries.graph.reached_by_key = {key: set() for key in self.tries.graph.reached_by_key}
        self.assertEqual(self.try_mutants()["open"], (Outcome.NOT_REFUSED, "alone"))

    def test_a_second_batch_decides_without_what_was_in_the_way(self):
        def unknown_beside_another(texts, only=(), check=self.checker.check):
            word = "" if "WRONG" in "".join(texts.values()) else "WRONG"
            return check({path: text.replace("MAYBE", word) for path, text in texts.items()}, only)

        self.checker.check = unknown_beside_another
        self.add_mutant("one", (ONCE_BODY, "    WRONG"))
        self.add_mutant("two", (TWICE_BODY, "    MAYBE"))
        self.add_mutant("three", (THRICE_BODY, "    MAYBE"))
        self.tries.graph.reached_by_key = {key: set() for key in self.tries.graph.reached_by_key}
        self.assertEqual(self.try_mutants(),
                         {name: (Outcome.REFUSED_AT_OWN_FUNCTION, "batch") for name in ("one", "two", "three")})

    def refuse_closures(self, name):
        """Has the prover refuse the closure of each function that has the word CLOSURE."""

        def checked(texts, only=(), check=self.checker.check):
            closure_report, line = check(texts, only), f"fn {name}: not proved\n"
            is_refused = "CLOSURE" in "".join(texts.values())
            report = CheckReport(1, line + closure_report.output.replace("logic=proved", "logic=not-proved"))
            return report if is_refused else closure_report

        self.checker.check = checked
        key = next(key_of_function
                   for key_of_function in self.tries.graph.reported_names_by_key if key_of_function[3] == "once")
        self.tries.graph.reported_names_by_key[key].append(name)

    def test_a_closure_in_a_batch(self):
        self.refuse_closures("tiny::fn::once::closure0")
        self.add_mutant("one", (ONCE_BODY, "    CLOSURE"))
        self.add_mutant("pair", (SUM_BODY, "WRONG"), path="src/pairs.rt")
        self.assertEqual(self.try_mutants(), {"one": (Outcome.REFUSED_AT_OWN_FUNCTION, "batch"),
                                              "pair": (Outcome.REFUSED_AT_OWN_FUNCTION, "batch")})
        self.assertEqual(self.tries.results["one.edit"].text, "tiny::fn::once::closure0")
        self.assertEqual(self.checker.only, [[], ["tiny::once", "tiny::pairs::Pair::sum"]])

    def test_a_closure_alone(self):
        self.refuse_closures("tiny::fn::once::closure0")
        self.add_mutant("one", (ONCE_BODY, "    CLOSURE"))
        self.assertEqual(self.try_mutants(), {"one": (Outcome.REFUSED_AT_OWN_FUNCTION, "alone")})
        self.assertEqual(self.tries.results["one.edit"].text, "tiny::fn::once::closure0")
        self.assertEqual(self.checker.only, [[], ["tiny::once"]])

    def test_of_mutants_of_one_function_each_is_tried(self):
        self.add_mutant("one", (ONCE_BODY, "    WRONG"))
        self.add_mutant("other", (ONCE_BODY, "    a"))
        self.assertEqual(self.try_mutants(),
                         {"one": (Outcome.REFUSED_AT_OWN_FUNCTION, "alone"), "other": (Outcome.NOT_REFUSED, "alone")})

    def test_one_that_does_not_compile_does_not_decide_for_the_others(self):
        self.add_mutant("one", (ONCE_BODY, "    WRONG"))
        self.add_mutant("bad", (SUM_BODY, "GIBBERISH"), path="src/pairs.rt")
        self.assertEqual(self.try_mutants(),
                         {"one": (Outcome.REFUSED_AT_OWN_FUNCTION, "alone"), "bad": (Outcome.UNUSABLE, "alone")})

    def test_one_that_cannot_be_read_does_not_decide_for_itself_or_others(self):
        def unreadable(texts, only=(), check=self.checker.check):
            line = "src/pairs.rt:3:9: error: `tiny::pairs::Pair::sum`: `b` is not in scope\n"
            report, is_read = check(texts, only), "WRONG b" not in "".join(texts.values())
            return report if is_read else CheckReport(report.status, line + report.output)

        self.checker.check = unreadable
        self.add_mutant("one", (ONCE_BODY, "    WRONG"))
        self.add_mutant("bad", (SUM_BODY, "WRONG b"), path="src/pairs.rt")
        self.assertEqual(self.try_mutants(),
                         {"one": (Outcome.REFUSED_AT_OWN_FUNCTION, "alone"), "bad": (Outcome.UNUSABLE, "alone")})

    def test_a_batch_whose_check_names_no_function_is_halved_at_once(self):
        def silent_in_batches(texts, only=(), check=self.checker.check):
            report = check(texts, only)
            return CheckReport(0, "logic=proved\n") if len(only) > 1 else report

        self.checker.check = silent_in_batches
        self.add_mutant("one", (ONCE_BODY, "    WRONG"))
        self.add_mutant("pair", (SUM_BODY, "WRONG"), path="src/pairs.rt")
        self.assertEqual(self.try_mutants(), {"one": (Outcome.REFUSED_AT_OWN_FUNCTION, "alone"),
                                              "pair": (Outcome.REFUSED_AT_OWN_FUNCTION, "alone")})
        self.assertEqual([len(names) for names in self.checker.only], [0, 2, 1, 1])

    def test_one_that_makes_another_function_fail(self):
        self.add_mutant("one", (ONCE_BODY, "    WRONG"))
        self.add_mutant("worse", (SUM_BODY, "WORSE"), path="src/pairs.rt")
        self.assertEqual(self.try_mutants(),
                         {"one": (Outcome.REFUSED_AT_OWN_FUNCTION, "batch"), "worse": (Outcome.REFUSED_ALONE, "alone")})
        self.assertEqual(self.tries.results["worse.edit"].text, "tiny::other")

    def test_one_that_makes_a_function_fail_that_another_one_calls(self):
        self.add_mutant("two", (TWICE_BODY, "    WRONG"))
        self.add_mutant("worst", (SUM_BODY, "WORST"), path="src/pairs.rt")
        self.assertEqual(self.try_mutants(),
                         {"two": (Outcome.REFUSED_AT_OWN_FUNCTION, "alone"), "worst": (Outcome.REFUSED_ALONE, "alone")})
        self.assertEqual(self.tries.results["worst.edit"].text, "tiny::once")

    def test_what_changes_more_than_one_body_is_tried_alone(self):
        self.add_mutant("const", ("STEP: u64 = 1", "STEP: u64 = WRONG"))
        self.add_mutant("const-too", ("STEP: u64 = 1", "STEP: u64 = 0 + 1"))
        self.add_mutant("one", (ONCE_BODY, "    WRONG"))
        expected_results = {
            "const": (Outcome.REFUSED_ALONE, "alone"),
            "const-too": (Outcome.NOT_REFUSED, "alone"),
            "one": (Outcome.REFUSED_AT_OWN_FUNCTION, "alone"),
        }
        self.assertEqual(self.try_mutants(), expected_results)

    def test_a_batch_whose_check_ends_early_decides_nothing(self):
        # (the lines that a killed check printed say `not proved` of a mutant that is proved by itself)
        def killed_in_batches(texts, only=(), check=self.checker.check):
            report = check(texts, only)
            output = report.output.replace("Pair::sum: proved", "Pair::sum: not proved")
            return CheckReport(-9, output) if "WRONG" in "".join(texts.values()) and len(texts) > 1 else report

        self.checker.check = killed_in_batches
        self.add_mutant("one", (ONCE_BODY, "    WRONG"))
        self.add_mutant("same", (SUM_BODY, "self.second"), path="src/pairs.rt")
        self.assertEqual(self.try_mutants(),
                         {"one": (Outcome.REFUSED_AT_OWN_FUNCTION, "alone"), "same": (Outcome.NOT_REFUSED, "alone")})

    def test_a_mutant_with_a_proof_is_tried_alone(self):
        # (the body is refused with the proof as it is, and proved with the mutant's)
        def proved_with_it(texts, only=(), check=self.checker.check):
            is_new = "new" in texts.get("proofs/sum/Proof.antt", "")
            return check({path: text.replace("WRONG", "") if is_new else text for path, text in texts.items()}, only)

        self.checker.check = proved_with_it
        self.write_file("proofs/sum/Proof.antt", "old\n")
        self.add_mutant("one", (ONCE_BODY, "    WRONG"))
        text = mutant_text("src/pairs.rt", (SUM_BODY, "WRONG")) + mutant_text("proofs/sum/Proof.antt", ("old", "new"))
        self.mutants.append(read_mutant(self.folder, self.write_file("mutants/proof.edit", text)))
        self.assertEqual(self.try_mutants()["proof"], (Outcome.NOT_REFUSED, "alone"))

    def test_a_limit_of_the_prover(self):
        self.add_mutant("deep", (ONCE_BODY, "    DEEP"))
        self.assertEqual(self.try_mutants(), {"deep": (Outcome.REFUSED_BY_LIMIT, "alone")})
        self.assertEqual(self.checker.only, [[], ["tiny::once"], []])

    def test_what_cannot_be_applied_is_not_checked(self):
        self.add_mutant("misspelt", ("a + STAP", "a"))
        self.assertEqual(self.try_mutants(), {"misspelt": (Outcome.UNUSABLE, "")})
        self.assertEqual(len(self.checker.labels), 1)

    def test_a_function_that_is_not_reported(self):
        self.write_file("src/unused.rt", "fn unused() {\n    0\n}\n")
        self.tries = CrateTries("tiny", {**CRATE_SOURCES, "src/unused.rt": "fn unused() {\n    0\n}\n"}, self.checker)
        self.tries.check_unchanged()
        self.add_mutant("unused", ("    0", "    WRONG"), path="src/unused.rt")
        self.assertEqual(self.try_mutants(), {"unused": (Outcome.NOT_REPORTED, "")})

    def test_a_crate_that_is_not_proved_has_no_results(self):
        wrong_sources = {**CRATE_SOURCES, "src/lib.rt": CRATE_SOURCES["src/lib.rt"].replace(ONCE_BODY, "    WRONG")}
        tries = CrateTries("tiny", wrong_sources, FakeChecker(self.folder, wrong_sources))
        self.assertIn("not proved as it is", tries.check_unchanged())

    def test_a_crate_without_functions_has_no_results(self):
        self.checker.check_unchanged = lambda: CheckReport(0, "logic=proved\n")
        self.assertIn("not proved as it is", self.tries.check_unchanged())

    def test_every_mutant_has_a_result(self):
        for index, text in enumerate((ONCE_BODY, TWICE_BODY, THRICE_BODY)):
            self.add_mutant(f"wrong{index}", (text, f"    WRONG{text}"))
            self.add_mutant(f"same{index}", (text, f"{text} + 0"))
        report = self.try_mutants()
        expected_results = {
            f"{name}{index}": (Outcome.REFUSED_AT_OWN_FUNCTION if name == "wrong" else Outcome.NOT_REFUSED)
            for name in ("wrong", "same")
            for index in range(3)
        }
        self.assertEqual({name: names[0] for name, names in report.items()}, expected_results)


if __name__ == "__main__":
    unittest.main()
