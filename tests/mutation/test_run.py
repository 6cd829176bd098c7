"""Unit tests of scripts/mutation/run.py, with a prover that knows only words."""
import contextlib
import io
import os
import threading
import time
import types
import unittest
from unittest import mock

from fakes import CRATE_SOURCES, FakeChecker, CrateFolderTest, mutant_text
from mutation import checker, record
from mutation.run import SAMPLE_SIZE, MutantRun, count_faults
from mutation.verdicts import CheckReport


class FakeRunChecker(FakeChecker):
    """A checker as Run makes it."""

    check_count, seconds, sound, opened = 2, 3.4, True, 0

    def __init__(self, crate, root):
        assert root and crate.folder.startswith(root)
        super().__init__(crate.folder, CRATE_SOURCES)
        FakeRunChecker.opened += 1

    def is_seed_unchanged(self):
        return self.sound

    def close(self):
        FakeRunChecker.opened -= 1


class CheckerWithoutLibraries(FakeRunChecker):
    def check_unchanged(self):
        raise checker.LibrariesNotBuilt("the libraries below tiny are not built")


class CheckerOfUnprovedCrate(FakeRunChecker):
    def check_unchanged(self):
        return CheckReport(1, "fn tiny::once: not proved\nlogic=not-proved\n")


class CheckerWithChangedSeed(FakeRunChecker):
    sound = False


class CountingChecker(FakeRunChecker):
    """Counts how many checks run at the same time."""

    lock, now, peak = threading.Lock(), 0, 0

    def check(self, texts, only=()):
        with CountingChecker.lock:
            CountingChecker.now += 1
            CountingChecker.peak = max(CountingChecker.peak, CountingChecker.now)
        time.sleep(0.01)
        with CountingChecker.lock:
            CountingChecker.now -= 1
        return super().check(texts, only)


class MutantRunTest(CrateFolderTest):
    def setUp(self):
        super().setUp()
        self.root = os.path.dirname(self.folder)
        self.write_file("../HANDLES", "Handles allowed: none.\n")
        members = {
            "name": "tiny",
            "folder": self.folder,
            "deps": [],
            "of_kit": ("std",),
            "below": lambda: [],
            "need": lambda: 1,
        }
        self.crate = types.SimpleNamespace(**members)

    def add_mutant(self, name, old_text, new_text, path="src/lib.rt", folder="mutants"):
        self.write_file(f"{folder}/{name}.edit", mutant_text(path, (old_text, new_text)))

    def make_run(self, make_checker=FakeRunChecker):
        return MutantRun(self.root, [self.crate], 2, make_checker)

    def valid_records(self, run):
        return record.valid_records(self.root, "tiny", run.digests["tiny"])

    def run_tries(self, run, chosen):
        output = io.StringIO()
        with contextlib.redirect_stdout(output):
            run.try_all(chosen)
        self.assertEqual(FakeRunChecker.opened, 0)
        return output.getvalue()

    def test_all_mutants(self):
        self.add_mutant("one", "    a + STEP", "    WRONG")
        self.add_mutant("pair", "self.first", "WRONG", "src/pairs.rt")
        self.add_mutant("same", "    once(b)", "    once(b + 0)")
        run = self.make_run()
        output = self.run_tries(run, run.mutants)
        expected_output = ("tiny: 1 NOT REFUSED (alone), 2 refused at its own function (batch); 2 checks, "
                           "3 processor seconds\n")
        self.assertEqual(output, expected_output)
        self.assertEqual(
            [*run.result_lines()],
            [
                (True, "tiny/one.edit: refused at its own function: tiny::once (batch)"),
                (True, "tiny/pair.edit: refused at its own function: tiny::pairs::Pair::sum (batch)"),
                (False, "tiny/same.edit: NOT REFUSED: tiny::thrice (alone)"),
            ],
        )
        self.assertEqual((run.untried_count, run.faults), (0, []))

    def test_only_new_mutants_and_a_sample(self):
        for index in range(SAMPLE_SIZE + 3):
            self.add_mutant(f"one{index:02}", "    a + STEP", f"    WRONG {index}")
        run = self.make_run()
        self.assertEqual(len(run.new_and_sample()["tiny"]), SAMPLE_SIZE + 3)
        self.run_tries(run, run.mutants)
        run.write_records()
        self.add_mutant("new", "    a + STEP", "    WRONG at last")
        self.add_mutant("one00", "    a + STEP", "    WRONG again")
        run = self.make_run()
        chosen = [mutant.name for mutant in run.new_and_sample()["tiny"]]
        self.assertEqual(chosen,
                         ["new.edit", "one00.edit", *(f"one{index:02}.edit" for index in range(1, SAMPLE_SIZE + 1))])
        self.run_tries(run, run.new_and_sample())
        self.assertEqual(run.untried_count, 2)

    def test_a_record_keeps_what_was_not_tried(self):
        self.add_mutant("one", "    a + STEP", "    WRONG")
        self.add_mutant("two", "    once(once(a))", "    WRONG")
        run = self.make_run()
        self.run_tries(run, run.mutants)
        run.write_records()
        self.assertEqual({*self.valid_records(run)}, {"one.edit", "two.edit"})
        os.remove(f"{self.folder}/mutants/two.edit")
        run = self.make_run()
        self.run_tries(run, {"tiny": []})
        run.write_records()
        self.assertEqual({*self.valid_records(run)}, {"one.edit"})

    def test_no_more_checks_at_a_time_than_lanes(self):
        self.add_mutant("one", "    a + STEP", "    WRONG")
        self.add_mutant("const", "STEP: u64 = 1", "STEP: u64 = WRONG")
        crates = [types.SimpleNamespace(**{**vars(self.crate), "name": f"tiny{index}"}) for index in range(5)]
        for lanes in (2, 3):
            CountingChecker.peak = 0
            run = MutantRun(self.root, crates, lanes, CountingChecker)
            self.run_tries(run, run.mutants)
            self.assertEqual(CountingChecker.peak, lanes)

    def two_copies_of_crate(self):
        need_by_name = {"tiny1": lambda: 1, "tiny2": lambda: 2}
        return [types.SimpleNamespace(**{**vars(self.crate), "name": name, "need": need})
                for name, need in need_by_name.items()]

    def test_the_crate_that_costs_more_begins_first(self):
        self.add_mutant("one", "    a + STEP", "    WRONG")
        run = MutantRun(self.root, self.two_copies_of_crate(), 2, FakeRunChecker)
        self.assertRegex(self.run_tries(run, run.mutants), "^tiny2: .*\ntiny1: ")

    def test_a_sample_is_of_its_crate_if_another_has_the_same_mutant(self):
        self.add_mutant("one", "    a + STEP", "    WRONG")
        run = MutantRun(self.root, self.two_copies_of_crate(), 2, FakeRunChecker)
        for name, digests in run.digests.items():
            self.write_file(f"../tests/mutant-records/{name}",
                            f"{digests['one.edit'].function_digest} one.edit {name}::once\n")
        with mock.patch("mutation.record.sample_for_turn", lambda names, *_: ("tiny1", names["tiny1"])):
            chosen = run.new_and_sample()
        self.assertEqual({name: len(mutants) for name, mutants in chosen.items()}, {"tiny1": 1, "tiny2": 0})

    def test_a_crate_without_mutants_has_no_record(self):
        run = self.make_run()
        self.run_tries(run, run.mutants)
        run.write_records()
        self.assertFalse(os.path.exists(f"{self.root}/tests/mutant-records"))

    def test_a_kit_with_another_logic_has_other_digests(self):
        self.add_mutant("one", "    a + STEP", "    WRONG")
        digests = []
        for name in ("kit-1 logic a1\n", "kit-2 logic a1\n", "kit-2 logic b2\n", "kit-1\n", "kit-2\n"):
            self.write_file("../kit/KIT-ID", name)
            with mock.patch.object(checker, "KIT", f"{self.root}/kit"):
                digests.append(self.make_run().digests["tiny"]["one.edit"].function_digest)
        self.assertEqual(digests[0], digests[1])
        self.assertEqual(len(set(digests[1:])), 4)

    def test_a_crate_whose_libraries_are_not_built(self):
        self.add_mutant("one", "    a + STEP", "    WRONG")
        run = self.make_run(CheckerWithoutLibraries)
        self.assertIn("tiny: no result", self.run_tries(run, run.mutants))
        self.assertEqual((run.faults, run.untried_count), (["the libraries below tiny are not built"], 1))

    def test_a_crate_that_is_not_proved_as_it_is(self):
        self.add_mutant("one", "    a + STEP", "    WRONG")
        run = self.make_run(CheckerOfUnprovedCrate)
        self.run_tries(run, run.mutants)
        self.assertEqual((len(run.faults), run.untried_count), (1, 1))
        self.assertIn("tiny is not proved as it is", run.faults[0])

    def test_checks_that_change_what_they_began_with(self):
        self.add_mutant("one", "    a + STEP", "    WRONG")
        run = self.make_run(CheckerWithChangedSeed)
        self.run_tries(run, run.mutants)
        self.assertEqual(run.faults, ["tiny: a check changed what the others began with"])
        run.write_records()
        self.assertEqual(self.valid_records(run), {})

    def test_files_that_change_during_the_run(self):
        self.add_mutant("one", "    a + STEP", "    WRONG")
        run = self.make_run()
        self.write_file("src/new.rt", "")
        self.run_tries(run, run.mutants)
        run.write_records()
        self.assertEqual(run.faults, ["tiny: a file that the checks read was changed during the run"])
        self.assertEqual(self.valid_records(run), {})

    def test_a_file_that_is_lost_during_the_run(self):
        self.add_mutant("pair", "self.first", "WRONG", "src/pairs.rt")
        run = self.make_run()
        with mock.patch("mutation.tries.CrateTries.try_all", lambda *_: os.remove(f"{self.folder}/src/pairs.rt")):
            self.run_tries(run, run.mutants)
        self.assertEqual(run.faults, ["tiny: a file that the checks read was changed during the run"])

    def test_a_mutant_without_a_result(self):
        self.add_mutant("one", "    a + STEP", "    WRONG")
        self.add_mutant("two", "    once(once(a))", "    WRONG")
        run = self.make_run()
        with mock.patch("mutation.tries.CrateTries.try_alone", lambda tries, lane_mutants: (run.mutants["tiny"][0],
                                                                                            None)):
            with contextlib.suppress(AttributeError):
                self.run_tries(run, run.mutants)
        self.assertEqual(run.faults, ["tiny: two.edit was not tried"])

    def test_an_exception_in_a_check_ends_the_run(self):
        self.add_mutant("one", "    a + STEP", "    WRONG")
        run = self.make_run()
        with mock.patch("mutation.tries.CrateTries.try_alone", side_effect=OSError("no space left")):
            with self.assertRaises(OSError):
                self.run_tries(run, run.mutants)

    def test_a_recorded_mutant_that_cannot_be_applied_is_tried(self):
        self.add_mutant("one", "    a + STAP", "    WRONG")
        run = self.make_run()
        self.write_file("../tests/mutant-records/tiny",
                        f"{run.digests['tiny']['one.edit'].function_digest} one.edit tiny::once\n")
        with mock.patch("mutation.record.sample_for_turn", lambda *_: ("", [])):
            self.run_tries(run, run.new_and_sample())
        self.assertEqual([is_refused for is_refused, _ in run.result_lines()], [False])

    def test_the_counts(self):
        self.add_mutant("one", "    a + STEP", "    WRONG")
        self.add_mutant("two", "    a + STEP", "    WRONG", folder="must-fail")
        for text, faults in (
            ("tiny 2\n", []),
            ("tiny 1\n", ["tiny has 2 mutants, and tests/mutant-counts says 1"]),
            ("", ["tiny has 2 mutants, and tests/mutant-counts says 0"]),
            ("tiny 2\nlow 3\n", ["low has 0 mutants, and tests/mutant-counts says 3"]),
        ):
            self.write_file("../tests/mutant-counts", text)
            self.assertEqual(count_faults(self.root, [self.crate]), faults)

    def test_a_file_that_is_no_mutant(self):
        self.write_file("../tests/mutant-counts", "tiny 1\n")
        self.add_mutant("one", "    a + STEP", "    WRONG")
        for path in ("two.edti", ".three.edit", "more/four.edit"):
            self.write_file(f"mutants/{path}", "")
        names = (".three.edit", "more/four.edit", "two.edti")
        expected_output = [f"tiny/mutants/{file_name} has another name than mutants have" for file_name in names]
        self.assertEqual(count_faults(self.root, [self.crate]), expected_output)


if __name__ == "__main__":
    unittest.main()
