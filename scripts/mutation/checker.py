"""Checks a crate with other texts in place of its own. It uses the kit's module rtlib, as `rt must-fail` does."""
import os
import shutil
import subprocess
import sys
import tempfile

from mutation import libraries, record
from mutation.verdicts import CheckReport

RT = shutil.which("rt") or sys.exit("mutants: there is no rt on the PATH")
KIT = os.path.dirname(os.path.dirname(os.path.realpath(RT)))
sys.path.insert(0, f"{KIT}/bin")
sys.dont_write_bytecode = True
import rtlib  # noqa: E402 (it is in the folder that the lines above find)


class LibrariesNotBuilt(Exception):
    """Why a crate cannot be checked as it is."""


def lane_count():
    """How many checks run at a time."""
    return int(os.environ.get("RT_JOBS") or len(os.sched_getaffinity(0)))


def crates(root):
    """The crates of this repository, each after those that it uses."""
    return rtlib.crates_below(root)


def kit_name():
    """The kit's name, which differs in each version."""
    return record.file_content(f"{KIT}/KIT-ID").decode()


def kit_logic():
    """The logic of the kit. Versions that only search or compile in another way have the same one. If the kit's name
    does not have it, each version counts as another one."""
    return kit_name().partition(" logic ")[2] or kit_name()


def link_or_copy(source, target):
    """Copies a kept file, or links it if it holds a proof: a check replaces such a file and never changes it."""
    if source.endswith(".oantt"):
        try:
            return os.link(source, target)
        except OSError:
            pass
    return shutil.copy2(source, target)


def file_sums(folder):
    """The names and the sums of the files of the folder. They show whether one was changed, lost or added."""
    return [(path, record.digest_of(record.file_content(path))) for path in record.files_below(folder)]


class Checker:
    """The checks of one crate. Each begins with the seed, which holds what a check of the unchanged crate proved."""

    def __init__(self, crate, root):
        self.crate, self.folder, self.root = crate, crate.folder, root
        self.work_folder = tempfile.TemporaryDirectory(prefix="mutation-")
        self.seed, self.files = f"{self.work_folder.name}/seed", None
        self.seconds = self.check_count = 0

    def check_unchanged(self):
        """Checks the unchanged crate, and returns this check. It uses the results of an earlier `rt check`, if any."""
        if not libraries.are_built(self.root, self.crate.below(), kit_name()):
            raise LibrariesNotBuilt(f"the libraries below {self.crate.name} are not built: run `make build`")
        incremental_folder = f"{self.folder}/out/incremental"
        if os.path.isdir(incremental_folder):
            shutil.copytree(incremental_folder, self.seed, symlinks=True, copy_function=link_or_copy)
        else:
            os.mkdir(self.seed)
        report = self.run_prover({}, self.seed)
        self.files = file_sums(self.seed)
        return report

    def check(self, texts, only=()):
        """Checks the crate with these texts of files, by path, in place of its own.

        If `only` has names of functions, only these and those that they call are checked."""
        with tempfile.TemporaryDirectory(prefix="kept-", dir=self.work_folder.name) as incremental_folder:
            shutil.copytree(self.seed, incremental_folder, symlinks=True, copy_function=link_or_copy,
                            dirs_exist_ok=True)
            return self.run_prover(texts, incremental_folder,
                                   [f"--only={reported_name.partition('::')[2]}" for reported_name in only])

    def run_prover(self, texts, incremental_folder, flags=()):
        # (tests/minutes recognizes the checks by this prefix)
        with tempfile.TemporaryDirectory(prefix="mutants-", dir=self.work_folder.name) as copy:
            for rtlib_part in rtlib.PARTS:
                if os.path.isdir(f"{self.folder}/{rtlib_part}"):
                    shutil.copytree(f"{self.folder}/{rtlib_part}", f"{copy}/{rtlib_part}")
            for path, text in texts.items():
                with open(f"{copy}/{path}", "w", encoding="utf-8") as file:
                    file.write(text)
            words = [rtlib.RATTLE, "check", *self.crate.words(["--jobs", "1", *flags], keeps=False)]
            words += ["--incremental", incremental_folder]
            process_options = {"stdin": subprocess.DEVNULL, "stdout": subprocess.PIPE, "stderr": subprocess.STDOUT}
            with subprocess.Popen(words, cwd=copy, **process_options) as process:
                output = process.stdout.read().decode(errors="replace")
                _, status, resource_usage = os.wait4(process.pid, 0)
                process.returncode = os.waitstatus_to_exitcode(status)
        self.seconds += resource_usage.ru_utime + resource_usage.ru_stime
        self.check_count += 1
        return CheckReport(process.returncode, output, texts)

    def is_seed_unchanged(self):
        """Whether no check has changed the seed."""
        return file_sums(self.seed) == self.files

    def close(self):
        self.work_folder.cleanup()
