"""Unit tests of scripts/mutants itself, with a fake run and generated crates."""
import contextlib
import importlib.machinery
import importlib.util
import io
import os
import types
import unittest
from unittest import mock

SCRIPT_PATH = os.path.realpath(f"{__file__}/../../../scripts/mutants")


def load_script():
    loader = importlib.machinery.SourceFileLoader("mutants_script", SCRIPT_PATH)
    module = importlib.util.module_from_spec(importlib.util.spec_from_loader("mutants_script", loader))
    loader.exec_module(module)
    return module


class FakeMutantRun:
    """The functions that scripts/mutants needs of a run."""

    untried_count, mutants = 5, "all"

    def __init__(self, result_lines, faults, actions):
        self.lines_of_results, self.faults, self.actions = result_lines, faults, actions

    def new_and_sample(self):
        return "new and a sample"

    def try_all(self, chosen):
        self.actions.append(f"tried {chosen}")

    def write_records(self):
        self.actions.append("recorded")

    def result_lines(self):
        yield from self.lines_of_results


class MutantsScriptTest(unittest.TestCase):
    def run_script(self, *words, result_lines=((True, "low/a: refused"),), faults=(), count_faults=(), script=None):
        """The status of a run with these words, what it printed, and what it did."""
        script, actions, output = script or load_script(), [], io.StringIO()
        crates = [types.SimpleNamespace(name=name) for name in ("low", "high")]

        def make_run(_root, chosen, lane_count):
            actions.append(f"{' '.join(crate.name for crate in chosen)} in {lane_count}")
            return FakeMutantRun(result_lines, [*faults], actions)

        with (
            mock.patch.object(script.checker, "crates", lambda _: crates),
            mock.patch.object(script.checker, "lane_count", lambda: 3),
            mock.patch.object(script, "MutantRun", make_run),
            mock.patch.object(script, "count_faults", lambda *_: [*count_faults]),
            contextlib.redirect_stdout(output),
            contextlib.redirect_stderr(output),
        ):
            try:
                status = script.main([*words])
            except SystemExit as end:
                status = end.code
        return status, output.getvalue(), actions

    def test_all_mutants_of_all_crates(self):
        expected_run = (0, "mutants: 1 refused in this run, 5 not tried, 0 faults\n", ["low high in 3", "tried all"])
        self.assertEqual(self.run_script(), expected_run)

    def test_new_mutants(self):
        status, output, actions = self.run_script("--new")
        self.assertEqual((status, actions), (0, ["low high in 3", "tried new and a sample"]))
        self.assertTrue(output.endswith("1 refused in this run, 5 recorded, 0 faults\n"), output)

    def test_a_record_is_written_on_request(self):
        self.assertEqual(self.run_script("--record")[2], ["low high in 3", "tried all", "recorded"])

    def test_ci_only_runs_rt_and_notes_the_libraries(self):
        script = load_script()
        noted_calls = []

        def run_and_note(_root, crates, kit_name, words):
            noted_calls.append(([crate.name for crate in crates], kit_name, words[1:]))
            return 3

        with mock.patch.object(script.libraries, "run_and_note", run_and_note):
            self.assertEqual(self.run_script("--ci", script=script), (3, "", []))
        self.assertEqual(noted_calls, [(["low", "high"], script.checker.kit_name(), ["ci"])])

    def test_crates_by_name(self):
        self.assertEqual(self.run_script("high")[2], ["high in 3", "tried all"])
        status, output, actions = self.run_script("high", "none")
        self.assertEqual((status, actions), (2, []))
        self.assertIn("no crate has the name none", output)

    def test_a_line_for_each_mutant(self):
        result_lines = ((True, "low/a: refused"), (False, "low/b: NOT REFUSED"))
        last_lines = "mutants: low/b: NOT REFUSED\nmutants: 1 refused in this run, 5 not tried, 1 faults\n"
        self.assertEqual(self.run_script("--list", result_lines=result_lines)[:2], (1, f"low/a: refused\n{last_lines}"))
        self.assertEqual(self.run_script(result_lines=result_lines)[:2], (1, last_lines))

    def test_each_fault_fails_the_run(self):
        for run_options in (
            {"result_lines": ((False, "a fault"),)},
            {"faults": ["a fault"]},
            {"count_faults": ["a fault"]},
        ):
            status, output, _ = self.run_script(**run_options)
            self.assertEqual(status, 1, run_options)
            self.assertIn("mutants: a fault\n", output)
            self.assertIn(" 1 faults\n", output)


if __name__ == "__main__":
    unittest.main()
