"""Unit tests of scripts/mutation/checker.py, with a shell script instead of the prover."""
import os
import pathlib
import types
import unittest
from unittest import mock

from fakes import CRATE_SOURCES, CrateFolderTest
from mutation import checker

# It prints what was passed, and each file that it finds, adds one to what it keeps, and ends with the status in
# src/status.
FAKE_PROVER_SCRIPT = """\
#!/bin/sh
echo "words: $*"
for kept in "$@"; do :; done
(cd "$kept" && ls | sed 's/^/kept: /')
echo 1 >"$kept/added$(ls "$kept" | wc -l)"
grep -rh a src specs 2>/dev/null
status=$(cat src/status 2>/dev/null)
case $status in KILL) kill -9 $$ ;; esac
exit ${status:-0}
"""


class CheckerTest(CrateFolderTest):
    def setUp(self):
        super().setUp()
        prover = self.write_file("../prover", FAKE_PROVER_SCRIPT)
        os.chmod(prover, 0o755)
        words = lambda flags, keeps: ["words", *flags, f"keeps={keeps}"]  # noqa: E731
        crate = types.SimpleNamespace(name="tiny", folder=self.folder, below=lambda: [], words=words)
        patch = mock.patch.object(checker.rtlib, "RATTLE", prover)
        patch.start()
        self.addCleanup(patch.stop)
        self.checker = checker.Checker(crate, os.path.dirname(self.folder))
        self.addCleanup(self.checker.close)

    def kept_results(self, check):
        return [line for line in check.output.splitlines() if line.startswith("kept: ")]

    def test_the_words(self):
        first_line = self.checker.check_unchanged().output.splitlines()[0]
        self.assertEqual(first_line, f"words: check words --jobs 1 keeps=False --incremental {self.checker.seed}")

    def test_the_words_for_some_functions(self):
        self.checker.check_unchanged()
        first_line = self.checker.check({}, ["tiny::once", "tiny::pairs::Pair::sum"]).output.splitlines()[0]
        self.assertIn(" --jobs 1 --only=once --only=pairs::Pair::sum keeps=False ", first_line)

    def test_the_texts_stand_in_place_of_the_files(self):
        self.checker.check_unchanged()
        check = self.checker.check({"src/pairs.rt": "another text\n"})
        self.assertIn("\nanother text\n", check.output)
        self.assertIn("    a + STEP\n", check.output)
        self.assertNotIn("impl Pair", check.output)
        self.assertEqual([*check.edited_paths], ["src/pairs.rt"])
        with open(f"{self.folder}/src/pairs.rt", encoding="utf-8") as file:
            self.assertEqual(file.read(), CRATE_SOURCES["src/pairs.rt"])

    def test_each_check_begins_with_the_seed(self):
        self.write_file("out/incremental/before", "")
        self.assertEqual(self.kept_results(self.checker.check_unchanged()), ["kept: before"])
        for _ in range(2):
            self.assertEqual(self.kept_results(self.checker.check({})), ["kept: added1", "kept: before"])
        self.assertTrue(self.checker.is_seed_unchanged())
        self.assertEqual(os.listdir(f"{self.folder}/out/incremental"), ["before"])

    def test_a_change_of_the_seed_is_seen(self):
        self.write_file("out/incremental/before", "one")
        self.checker.check_unchanged()
        path = f"{self.checker.seed}/before"
        for change in (
            lambda: pathlib.Path(path).write_text("two", encoding="utf-8"),
            lambda: os.truncate(path, 1),
            lambda: os.rename(path, f"{path}s"),
            lambda: os.remove(f"{path}s"),
        ):
            self.checker.files = checker.file_sums(self.checker.seed)
            self.assertTrue(self.checker.is_seed_unchanged())
            change()
            self.assertFalse(self.checker.is_seed_unchanged())

    def test_another_time_is_no_change_of_the_seed(self):
        self.write_file("out/incremental/before", "one")
        self.checker.check_unchanged()
        os.utime(f"{self.checker.seed}/before", (1, 1))
        self.assertTrue(self.checker.is_seed_unchanged())

    def test_libraries_that_are_not_built(self):
        with mock.patch.object(checker.libraries, "are_built", return_value=False) as are_built:
            with self.assertRaisesRegex(checker.LibrariesNotBuilt, "the libraries below tiny are not built"):
                self.checker.check_unchanged()
        are_built.assert_called_once_with(os.path.dirname(self.folder), [], checker.kit_name())

    def test_the_status_is_the_provers(self):
        self.checker.check_unchanged()
        for text, status in (("0", 0), ("1", 1), ("3", 3), ("KILL", -9)):
            self.assertEqual(self.checker.check({"src/status": text}).status, status)

    def test_what_the_checks_cost(self):
        self.checker.check_unchanged()
        self.checker.check({})
        self.assertEqual(self.checker.check_count, 2)
        self.assertGreater(self.checker.seconds, 0)

    def test_a_file_with_a_proof_is_linked_and_others_are_copied(self):
        for name, is_one in (("a.oantt", True), ("a.antt", False), ("index", False)):
            copied = checker.link_or_copy(self.write_file(f"kept/{name}", ""), f"{self.folder}/{name}")
            self.assertEqual(os.path.samefile(f"{self.folder}/kept/{name}", copied or f"{self.folder}/{name}"), is_one)


class CheckerHelpersTest(unittest.TestCase):
    def test_lanes(self):
        with mock.patch.dict(os.environ, {"RT_JOBS": "3"}):
            self.assertEqual(checker.lane_count(), 3)
        with mock.patch.dict(os.environ, {"RT_JOBS": ""}):
            self.assertEqual(checker.lane_count(), len(os.sched_getaffinity(0)))


if __name__ == "__main__":
    unittest.main()
