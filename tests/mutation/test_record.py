"""Unit tests of scripts/mutation/record.py."""
import os
import types
import unittest
from unittest import mock

from fakes import CrateFolderTest
from mutation import record
from mutation.mutants import Mutant
from mutation.sources import split_functions
from mutation.tries import TryResult
from mutation.verdicts import Outcome


def fake_crate(folder, name, *deps, of_kit=("std",)):
    crates_below = [crate_below for dep in deps for crate_below in [*dep.below(), dep]]
    return types.SimpleNamespace(name=name, folder=folder, deps=list(deps), of_kit=of_kit, below=lambda: crates_below)


CRATE_SOURCE = """\
const STEP: u64 = 1;

// Adds one.
pub fn once(a: u64) -> u64
    ensures { result ≡ a + 1 }
{
    a + STEP
}

pub fn other(a: u64) -> u64 {
    a
}

pub fn law()
    ensures { StepIs 1 };
"""
SOURCE_WITH_OTHER_BODY = CRATE_SOURCE.replace("    a\n", "    a + 0\n")


class DigestTest(CrateFolderTest):
    def setUp(self):
        super().setUp()
        self.root = os.path.dirname(self.folder)
        self.write_file("../HANDLES", "Handles allowed: none.\n")
        self.write_file("../low/src/lib.rt", CRATE_SOURCE)
        self.write_file("src/lib.rt", CRATE_SOURCE)
        self.low_crate = fake_crate(f"{self.root}/low", "low")
        self.tiny = fake_crate(self.folder, "tiny", self.low_crate)

    def mutant_digests(self, text="old: a\nnew: b\n", logic="a1", crate=None, function_name="once"):
        """The digests of a mutant of this function, or of one that changes more than a body if it is None."""
        with open(f"{self.folder}/src/lib.rt", encoding="utf-8") as file:
            functions_by_name = {function.name: function for function in split_functions("src/lib.rt", file.read())[0]}
        check_inputs = record.CheckInputs(crate or self.tiny, self.root, logic)
        return check_inputs.digests(Mutant("a.edit", text, (), functions_by_name.get(function_name), ""))

    def digests_after_changes(self, *changes):
        """For each of these changes of a file, made by itself, whether each digest stays the same."""
        digests_before, unchanged_digests = self.mutant_digests(), []
        for path, text in changes:
            old_text = self.read_file(path)
            self.write_file(path, text)
            digests_now = self.mutant_digests()
            unchanged_digests.append(tuple(digest_before == digest_now
                                           for digest_before, digest_now in zip(digests_before, digests_now)))
            self.write_file(path, old_text) if old_text is not None else os.remove(f"{self.folder}/{path}")
        self.assertEqual(self.mutant_digests(), digests_before)
        return unchanged_digests

    def read_file(self, path):
        if not os.path.exists(f"{self.folder}/{path}"):
            return None
        with open(f"{self.folder}/{path}", encoding="utf-8") as file:
            return file.read()


class DigestedContentsTest(DigestTest):
    def test_their_form(self):
        for mutant_digest in self.mutant_digests():
            self.assertRegex(mutant_digest, "^[0-9a-f]{16}$")
        self.assertNotEqual(*self.mutant_digests())

    def test_what_no_check_reads(self):
        changes = ("mutants/b.edit", "old: c\n"), ("out/kept", "1"), ("../high/src/lib.rt", CRATE_SOURCE)
        self.assertEqual(self.digests_after_changes(*changes), [(True, True)] * 3)

    def test_what_only_the_proofs_of_other_functions_read(self):
        changes = (
            ("src/lib.rt", SOURCE_WITH_OTHER_BODY),
            ("proofs/other/Answers.antt", "a"),
            ("proofs/other/Invariants.antt", "a"),
            ("proofs/fn/other/loops/Proof.antt", "a"),
            ("proofs/law/Answers.antt", "a"),
            ("src/lib.rt", CRATE_SOURCE.replace("Adds one", "Adds 1")),
        )
        self.assertEqual(self.digests_after_changes(*changes), [(True, False)] * len(changes))

    def test_proofs_of_a_function_whose_name_begins_alike(self):
        self.write_file("src/more.rt", "fn once_more() {\n}\n")
        self.assertEqual(self.digests_after_changes(("proofs/once_more/Answers.antt", "a")), [(True, False)])

    def test_bodies_of_others_in_a_folder_of_its_name(self):
        self.write_file("src/once/more.rt", CRATE_SOURCE)
        self.assertEqual(self.digests_after_changes(("src/once/more.rt", SOURCE_WITH_OTHER_BODY)), [(True, False)])

    def test_bodies_and_proofs_of_functions_below(self):
        changes = (
            ("../low/src/lib.rt", SOURCE_WITH_OTHER_BODY),
            ("../low/src/lib.rt", CRATE_SOURCE.replace("a + STEP", "STEP + a")),
            ("../low/proofs/once/Answers.antt", "a"),
            ("../low/proofs/+once/Invariants.antt", "a"),
        )
        self.assertEqual(self.digests_after_changes(*changes), [(True, True)] * len(changes))

    def test_only_a_source_has_the_names_of_functions(self):
        self.write_file("specs/Lists.antt", "-- as fn lists\n")
        self.assertEqual(self.digests_after_changes(("proofs/lists/Answers.antt", "a")), [(False, False)])

    def test_what_all_proofs_read(self):
        changes = (
            ("src/lib.rt", CRATE_SOURCE.replace("STEP: u64 = 1", "STEP: u64 = 2")),
            ("src/lib.rt", CRATE_SOURCE.replace("pub fn other(a: u64)", "pub fn other(b: u64)")),
            ("src/lib.rt", f"{CRATE_SOURCE}\nstruct New {{}}\n"),
            ("src/new.rt", ""),
            ("specs/Lib.antt", "a"),
            ("specs/other/Answers.antt", "a"),
            ("proofs/Lemmas.antt", "a"),
            ("proofs/Lib.antt", "a"),
            ("proofs/ForCallers.antt", "a"),
            ("proofs/MoreProof.antt", "a"),
            ("proofs/Proof.antt", "a"),
            ("proofs/lists/Answers.antt", "a"),
            ("proofs/Pair/TheLaw/Proof.antt", "a"),
            ("proofs/other/Lemmas.antt", "a"),
            ("proofs/other/Lib.antt", "a"),
            ("proofs/other/ForCallers.antt", "a"),
            ("c/a.c", "a"),
            ("../low/src/lib.rt", CRATE_SOURCE.replace("result ≡ a + 1", "result ≡ a + 2")),
            ("../low/src/lib.rt", CRATE_SOURCE.replace("STEP: u64 = 1", "STEP: u64 = 2")),
            ("../low/src/lib.rt", CRATE_SOURCE.replace("fn once", "fn lower")),
            ("../low/specs/Lib.antt", "a"),
            ("../low/proofs/Lemmas.antt", "a"),
            ("../low/proofs/ForCallers.antt", "a"),
            ("../low/c/a.c", "a"),
            ("../HANDLES", "Handles allowed: Threads.\n"),
        )
        self.assertEqual(self.digests_after_changes(*changes), [(False, False)] * len(changes))

    def test_what_the_proof_of_its_own_function_reads(self):
        changes = (
            ("src/lib.rt", CRATE_SOURCE.replace("a + STEP", "STEP + a")),
            ("src/lib.rt", CRATE_SOURCE.replace("result ≡ a + 1", "result ≡ a + 2")),
            ("proofs/once/Answers.antt", "a"),
            ("proofs/once/Invariants.antt", "a"),
            ("proofs/once/Proof.antt", "a"),
            ("proofs/fn/once/loops/Answers.antt", "a"),
            ("proofs/+both/Invariants.antt", "a"),
        )
        self.assertEqual(self.digests_after_changes(*changes), [(False, False)] * len(changes))

    def test_the_bodies_of_a_macro(self):
        self.write_file("../low/src/macros.rt", f"macro_rules! many {{}}\n{CRATE_SOURCE}")
        changes = [("../low/src/macros.rt", f"macro_rules! many {{}}\n{SOURCE_WITH_OTHER_BODY}")]
        self.assertEqual(self.digests_after_changes(*changes), [(False, False)])

    def test_what_looks_like_a_body_in_another_file_than_a_source(self):
        for path in ("specs/Lib.antt", "proofs/Lemmas.antt", "../low/specs/Lib.antt", "c/a.c"):
            self.write_file(path, CRATE_SOURCE)
            self.assertEqual(self.digests_after_changes((path, SOURCE_WITH_OTHER_BODY)), [(False, False)], path)

    def test_functions_that_call_each_other_have_one_proof(self):
        self.write_file("src/both.rt", "#[cycle(around)]\npub fn one() {\n}\n")
        self.assertEqual(self.digests_after_changes(("src/lib.rt", SOURCE_WITH_OTHER_BODY)), [(False, False)])

    def test_another_logic_graph_or_mutant(self):
        digests = [
            self.mutant_digests(), self.mutant_digests(text="old: a\nnew: c\n"), self.mutant_digests(logic="b2")
        ]
        digests.append(self.mutant_digests(crate=fake_crate(self.folder, "tiny")))
        digests.append(self.mutant_digests(crate=fake_crate(self.folder, "tiny", self.low_crate,
                                                            of_kit=("std", "hex"))))
        digests.append(self.mutant_digests(crate=fake_crate(self.folder, "little", self.low_crate)))
        digests.append(self.mutant_digests(crate=fake_crate(self.folder, "tinier", self.low_crate)))
        middle = fake_crate(f"{self.root}/middle", "middle", self.low_crate)
        for deps in ([middle], [self.low_crate, middle]):
            other_crate = fake_crate(self.folder, "tiny", *deps)
            other_crate.below = lambda: [self.low_crate, middle]
            digests.append(self.mutant_digests(crate=other_crate))
        self.assertEqual(len({mutant_digest.function_digest for mutant_digest in digests}), len(digests))
        self.assertEqual(len({mutant_digest.crate_digest for mutant_digest in digests}), len(digests))

    def test_a_mutant_of_more_than_a_body_depends_on_all(self):
        digests_before = self.mutant_digests(function_name=None)
        self.assertEqual(digests_before.function_digest, digests_before.crate_digest)
        self.write_file("src/lib.rt", SOURCE_WITH_OTHER_BODY)
        self.assertNotEqual(self.mutant_digests(function_name=None).function_digest, digests_before.function_digest)

    def test_the_order_of_crates_does_not_matter(self):
        lowest, digests = fake_crate(f"{self.root}/lowest", "lowest"), set()
        for crates_below, of_kit in (([self.low_crate, lowest], ("std", "hex")),
                                     ([lowest, self.low_crate], ("hex", "std"))):
            digests.add(self.mutant_digests(crate=fake_crate(self.folder, "tiny", *crates_below, of_kit=of_kit)))
        self.assertEqual(len(digests), 1)

    def test_the_order_of_files_does_not_matter(self):
        for walked_folders in ([("b", [], ["d", "c"]), ("a", [], ["e"])], [("a", [], ["e"]), ("b", [], ["c", "d"])]):
            with mock.patch("os.walk", lambda _, walked_folders=walked_folders: walked_folders):
                self.assertEqual(record.files_below(""), ["a/e", "b/c", "b/d"])

    def test_the_name_of_a_file(self):
        self.write_file("specs/a.antt", "a")
        digests_before = self.mutant_digests()
        os.rename(f"{self.folder}/specs/a.antt", f"{self.folder}/specs/b.antt")
        self.assertNotEqual(self.mutant_digests().function_digest, digests_before.function_digest)
        self.assertNotEqual(self.mutant_digests().crate_digest, digests_before.crate_digest)

    def test_a_body_that_another_function_of_its_name_has(self):
        for first_head, second_head in (
            ("impl One for Pair", "impl Two for Pair"),
            ("impl Pair<u8>", "impl Pair<u16>"),
            ("impl One for Pair", "impl One for Three"),
        ):
            digests = []
            for bodies in (("a", "b"), ("b", "a")):
                methods = (f"    fn once(&self) {{\n        {body}\n    }}\n" for body in bodies)
                text = "".join(f"{head} {{\n{body}}}\n" for head, body in zip((first_head, second_head), methods))
                self.write_file("src/lib.rt", text)
                changed_function = split_functions("src/lib.rt", text)[0][bodies.index("a")]
                check_inputs = record.CheckInputs(self.tiny, self.root, "kit 1")
                digests.append(check_inputs.digests(Mutant("a.edit", "old: a\n", (), changed_function,
                                                           "")).function_digest)
            self.assertNotEqual(*digests)

    def test_a_line_of_a_text_that_looks_like_a_comment(self):
        for start in ('"a', """(b'"', "a""", '("\\"", "a'):
            text = f'const A: T = {start}\n// one\nb;"\n// Two.\n'
            self.write_file("src/text.rt", text)
            changes = ("src/text.rt", text.replace("one", "1")), ("src/text.rt", text.replace("Two", "2"))
            self.assertEqual(self.digests_after_changes(*changes), [(False, False), (True, False)])

    def test_after_a_function_no_text_goes_on(self):
        # (the backslash of a raw text is no escape)
        text = 'const A: &str = r"\\";\nfn most() {\n}\n// Two.\n'
        self.write_file("src/text.rt", text)
        self.assertEqual(self.digests_after_changes(("src/text.rt", text.replace("Two", "2"))), [(True, False)])

    def test_bytes_do_not_move_between_files(self):
        self.write_file("specs/a.antt", "ab")
        self.write_file("specs/b.antt", "c")
        digests_before = self.mutant_digests()
        self.write_file("specs/a.antt", "a")
        self.write_file("specs/b.antt", "bc")
        self.assertNotEqual(self.mutant_digests().function_digest, digests_before.function_digest)
        self.assertNotEqual(self.mutant_digests().crate_digest, digests_before.crate_digest)

    def test_a_sum_of_several_texts_depends_on_where_each_ends(self):
        self.assertNotEqual(record.digest_of(b"ab", b"c"), record.digest_of(b"a", b"bc"))
        self.assertNotEqual(record.digest_of(b"ab"), record.digest_of(b"ab", b""))


class RecordFilesTest(CrateFolderTest):
    def mutant_digests(self, **digest_by_name):
        return {name: record.MutantDigests(digest, digest.upper()) for name, digest in digest_by_name.items()}

    def write_record(self, digests, **results):
        results_by_name = {name: TryResult(*result_members) for name, result_members in results.items()}
        record.write_record(self.folder, "tiny", digests, results_by_name)
        with open(f"{self.folder}/tests/mutant-records/tiny", encoding="utf-8") as file:
            return file.read()

    def test_refusals_with_their_function(self):
        digests = self.mutant_digests(b="bbbb", a="aaaa", c="cccc")
        own_refusal = (Outcome.REFUSED_AT_OWN_FUNCTION, "batch", "tiny::once")
        refusal_alone = (Outcome.REFUSED_ALONE, "alone", "tiny::once, tiny::twice")
        refusal_by_limit = (Outcome.REFUSED_BY_LIMIT, "alone", "no")
        text = self.write_record(digests, b=own_refusal, a=refusal_alone, c=refusal_by_limit)
        self.assertEqual(text, "AAAA a -\nbbbb b tiny::once\nCCCC c -\n")
        self.assertEqual({*record.valid_records(self.folder, "tiny", digests)}, {*"abc"})

    def test_no_other_outcome_is_recorded(self):
        for outcome in (Outcome.NOT_REFUSED, Outcome.UNUSABLE, Outcome.NOT_REPORTED, Outcome.NO_RESULT):
            self.assertEqual(self.write_record(self.mutant_digests(a="aaaa"), a=(outcome, "alone", "")), "")

    def test_earlier_refusals_stay_while_their_digest_does(self):
        own_refusal = (Outcome.REFUSED_AT_OWN_FUNCTION, "batch", "tiny::once")
        self.write_record(self.mutant_digests(a="aaaa", b="bbbb", c="cccc"), a=own_refusal, b=own_refusal,
                          c=own_refusal)
        text = self.write_record(self.mutant_digests(a="aaaa", b="dddd", c="cccc"),
                                 c=(Outcome.NOT_REFUSED, "alone", ""))
        self.assertEqual(text, "aaaa a tiny::once\n")

    def test_lines_that_hold(self):
        digests = self.mutant_digests(a="aaaa", b="bbbb", c="cccc", d="dddd", e="eeee", f="ffff")
        lines = ["aaaa a f", "BBBB b -", "CCCC c f", "dddd d -", "eeee e", "ffff f ", "gggg g f", "aaaa b f", ""]
        self.write_file("tests/mutant-records/tiny", "".join(f"{line}\n" for line in lines))
        self.assertEqual(record.valid_records(self.folder, "tiny", digests), {"a": "aaaa a f", "b": "BBBB b -"})

    def test_no_record(self):
        self.assertEqual(record.valid_records(self.folder, "none", {}), {})


class SampledMutantsTest(unittest.TestCase):
    NAMES = {"b": [*"123456789"], "a": [*"12"], "c": []}

    def test_a_sample_is_of_one_crate(self):
        self.assertEqual(record.sample_for_turn(self.NAMES, 4, 0), ("a", ["1", "2"]))
        self.assertEqual(record.sample_for_turn(self.NAMES, 4, 1), ("b", ["1", "2", "3", "4"]))
        self.assertEqual(record.sample_for_turn(self.NAMES, 4, 3), ("b", ["9"]))
        self.assertEqual(record.sample_for_turn(self.NAMES, 4, 4), ("a", ["1", "2"]))

    def test_each_mutant_is_in_one_sample_of_a_round(self):
        samples = [record.sample_for_turn(self.NAMES, 4, commit_number) for commit_number in range(4)]
        sampled_mutants = [(crate, mutant_name) for crate, names in samples for mutant_name in names]
        self.assertEqual(sorted(sampled_mutants),
                         sorted((crate, mutant_name) for crate, names in self.NAMES.items() for mutant_name in names))

    def test_a_round_has_as_many_samples_as_there_are_lists(self):
        samples = [record.sample_for_turn(self.NAMES, 2, commit_number)[1] for commit_number in range(6)]
        self.assertEqual(["".join(names) for names in samples], ["12", "12", "34", "56", "78", "9"])

    def test_nothing_recorded(self):
        self.assertEqual(record.sample_for_turn({"a": []}, 4, 7), ("", []))


class ExpectedCountsTest(CrateFolderTest):
    def test_lines_and_comments(self):
        self.write_file("tests/mutant-counts", "# How many.\n\ntiny 3\nlow 12\n")
        self.assertEqual(record.expected_counts(self.folder), {"tiny": 3, "low": 12})


if __name__ == "__main__":
    unittest.main()
