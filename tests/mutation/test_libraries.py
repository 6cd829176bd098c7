"""Unit tests of scripts/mutation/libraries.py: crates `low` and `middle`, the libraries below `tiny`."""
import os
import sys
import types
import unittest

from fakes import CrateFolderTest
from mutation import libraries

# A shell script that builds no library, and ends with its status.
EXIT_COMMAND = ["sh", "-c", "exit $0"]


class BuiltLibrariesTest(CrateFolderTest):
    def setUp(self):
        super().setUp()
        self.root = os.path.dirname(self.folder)
        self.low_crate = self.make_crate("low")
        self.middle_crate = self.make_crate("middle", self.low_crate)
        self.crates = [self.low_crate, self.middle_crate]

    def make_crate(self, name, *deps):
        folder = f"{self.root}/{name}"
        self.write_file(f"../{name}/src/lib.rt", name)
        self.write_file(f"../{name}/out/rlib/{name}.rlib/format", name)
        members = {"name": name, "folder": folder, "rlib": f"{folder}/out/rlib/{name}.rlib", "of_kit": ["std"]}
        return types.SimpleNamespace(**members, deps=[*deps], is_built=lambda: False)

    def build_and_note(self, *words, kit_name="kit 1"):
        return libraries.run_and_note(self.root, self.crates, kit_name, [*words] or [*EXIT_COMMAND, "0"])

    def are_built(self, kit_name="kit 1"):
        return libraries.are_built(self.root, self.crates, kit_name)

    def test_none_below(self):
        self.assertTrue(libraries.are_built(self.root, [], "kit 1"))

    def test_without_a_note_and_stamps(self):
        self.assertFalse(self.are_built())

    def test_noted_libraries(self):
        self.assertEqual(self.build_and_note(), 0)
        self.assertTrue(self.are_built())

    def test_stamps(self):
        for has_low_stamp, has_middle_stamp in ((True, True), (True, False), (False, True)):
            self.low_crate.is_built = lambda has_low_stamp=has_low_stamp: has_low_stamp
            self.middle_crate.is_built = lambda has_middle_stamp=has_middle_stamp: has_middle_stamp
            self.assertEqual(self.are_built(), has_low_stamp and has_middle_stamp)

    def test_a_stamp_and_a_note_are_not_taken_together(self):
        self.build_and_note()
        self.low_crate.is_built = lambda: True
        self.write_file("../low/out/rlib/low.rlib/format", "built again")
        self.assertFalse(self.are_built())

    def test_a_change_after_the_note(self):
        for path in (
            "low/src/lib.rt",
            "low/specs/Lib.antt",
            "low/proofs/Lib.antt",
            "low/c/a.c",
            "middle/src/new.rt",
            "low/out/rlib/low.rlib/format",
            "middle/out/rlib/middle.rlib/new",
        ):
            self.build_and_note()
            self.assertTrue(self.are_built())
            self.write_file(f"../{path}", "another")
            self.assertFalse(self.are_built(), path)

    def test_a_file_with_another_name(self):
        for folder in (f"{self.low_crate.folder}/src", self.low_crate.rlib):
            self.build_and_note()
            os.rename(f"{folder}/{os.listdir(folder)[0]}", f"{folder}/renamed")
            self.assertFalse(self.are_built(), folder)

    def test_another_kit_or_other_dependencies(self):
        self.build_and_note()
        self.assertFalse(self.are_built(kit_name="kit 2"))
        self.low_crate.of_kit = ["std", "hex"]
        self.assertFalse(self.are_built())
        self.low_crate.of_kit, self.middle_crate.deps = ["std"], []
        self.assertFalse(self.are_built())

    def test_a_library_that_is_not_there(self):
        os.rename(self.low_crate.rlib, f"{self.low_crate.rlib}.none")
        self.build_and_note()
        self.assertFalse(self.are_built())

    def test_times_do_not_count(self):
        self.build_and_note()
        for index, (source, library) in enumerate(((30, 20), (20, 30))):
            os.utime(f"{self.low_crate.folder}/src/lib.rt", (source, source))
            os.utime(self.low_crate.rlib, (library, library))
            os.utime(f"{self.low_crate.rlib}/format", (library, library))
            self.assertTrue(self.are_built(), index)
        self.write_file("../low/src/lib.rt", "another")
        os.utime(f"{self.low_crate.folder}/src/lib.rt", (1, 1))
        self.assertFalse(self.are_built())

    def test_a_command_that_fails_leaves_no_note(self):
        self.build_and_note()
        self.assertEqual(self.build_and_note(*EXIT_COMMAND, "3"), 3)
        self.assertFalse(self.are_built())
        self.assertEqual(self.build_and_note("sh", "-c", "kill -9 $$"), 128 + 9)

    def test_a_note_is_gone_while_the_command_runs(self):
        self.build_and_note()
        exit_if_gone = f"import os, sys; sys.exit(os.path.exists({self.root!r} + '/{libraries.NOTE_FILE}'))"
        self.assertEqual(self.build_and_note(sys.executable, "-c", exit_if_gone), 0)

    def test_a_source_that_changes_while_the_command_runs(self):
        self.assertEqual(self.build_and_note("sh", "-c", f"echo >{self.low_crate.folder}/src/lib.rt"), 0)
        self.assertFalse(self.are_built())
        self.write_file("../low/src/lib.rt", "low")
        self.assertFalse(self.are_built())


if __name__ == "__main__":
    unittest.main()
