"""One run of scripts/mutants over the crates of a repository."""
import collections
import concurrent.futures
import glob
import os
import subprocess

from mutation import checker, record
from mutation.mutants import read_text, read_mutant
from mutation.tries import CrateTries

# The number of recorded mutants that a run tries again.
SAMPLE_SIZE = 8


def mutants_in(folder):
    return [read_mutant(folder, path) for path in sorted(glob.glob(f"{folder}/mutants/*.edit"))]


def count_faults(root, crates):
    """The crates that do not have as many mutants as tests/mutant-counts says, and files that are no mutants."""
    wanted_counts = record.expected_counts(root)
    actual_counts = {
        crate.name: len(glob.glob(f"{crate.folder}/mutants/*.edit") + glob.glob(f"{crate.folder}/must-fail/*.edit"))
        for crate in crates
    }
    other_files = {file for crate in crates for file in record.files_below(f"{crate.folder}/mutants")}
    other_files -= {file for crate in crates for file in glob.glob(f"{crate.folder}/mutants/*.edit")}
    return [f"{os.path.relpath(file, root)} has another name than mutants have" for file in sorted(other_files)] + [
        f"{name} has {actual_counts.get(name, 0)} mutants, and {record.COUNTS_FILE} says {wanted_counts.get(name, 0)}"
        for name in sorted({*wanted_counts, *actual_counts})
        if actual_counts.get(name, 0) != wanted_counts.get(name, 0)
    ]


def commit_count(root):
    """How many commits led to this state, or 0 if git does not say."""
    process = subprocess.run(
        ["git", "-C", root, "rev-list", "--count", "HEAD"], capture_output=True, text=True, check=False
    )
    return 0 if process.returncode else int(process.stdout)


class MutantRun:
    """The tries of these crates' mutants, as many checks at a time as there are lanes."""

    def __init__(self, root, crates, lane_count, make_checker=checker.Checker):
        self.root, self.crates, self.make_checker = root, crates, make_checker
        self.pool = concurrent.futures.ThreadPoolExecutor(lane_count)
        self.mutants = {crate.name: mutants_in(crate.folder) for crate in crates}
        self.digests = {crate.name: self.digests_of(crate) for crate in crates}
        self.results_by_crate, self.faults = {}, []

    def digests_of(self, crate):
        check_inputs = record.CheckInputs(crate, self.root, checker.kit_logic())
        return {mutant.name: check_inputs.digests(mutant) for mutant in self.mutants[crate.name]}

    def map_in_lanes(self, function, items):
        return list(self.pool.map(function, items))

    def new_and_sample(self):
        """The mutants that are not recorded, and a sample of those that are, by crate."""
        recorded_names = {}
        for name, mutants in self.mutants.items():
            valid_records = record.valid_records(self.root, name, self.digests[name])
            recorded_names[name] = [mutant for mutant in mutants if not mutant.fault and mutant.name in valid_records]
        crate, sample = record.sample_for_turn(recorded_names, SAMPLE_SIZE, commit_count(self.root))
        return {
            name: [mutant
                   for mutant in mutants if mutant not in recorded_names[name] or name == crate and mutant in sample]
            for name, mutants in self.mutants.items()
        }

    def try_all(self, chosen):
        """Tries the mutants of each crate, and prints a line for it. Crates that cost more begin first."""
        crates = sorted((crate for crate in self.crates if chosen[crate.name]), key=lambda crate: -crate.need())
        with concurrent.futures.ThreadPoolExecutor(len(crates) or 1) as threads:
            for tries in threads.map(lambda crate: self.try_crate(crate, chosen[crate.name]), crates):
                self.results_by_crate[tries.name] = tries.results
                print(summary_of_crate(tries), flush=True)

    def try_crate(self, crate, mutants):
        crate_checker = self.make_checker(crate, self.root)
        paths = sorted(glob.glob(f"{crate.folder}/src/**/*.rt", recursive=True))
        sources = {os.path.relpath(path, crate.folder): read_text(path) for path in paths}
        tries, fault = CrateTries(crate.name, sources, crate_checker, self.map_in_lanes), ""
        try:
            fault = self.pool.submit(tries.check_unchanged).result()
            if not fault:
                tries.try_all(mutants)
                if not crate_checker.is_seed_unchanged():
                    fault = f"{crate.name}: a check changed what the others began with"
                if self.digests_of(crate) != self.digests[crate.name]:
                    fault = f"{crate.name}: a file that the checks read was changed during the run"
        except checker.LibrariesNotBuilt as error:
            fault = str(error)
        finally:
            crate_checker.close()
        untried_names = {mutant.name for mutant in mutants} - {*tries.results}
        if fault:
            # (the results of such checks must not be recorded)
            tries.results.clear()
        elif untried_names:
            fault = f"{crate.name}: {min(untried_names)} was not tried"
        self.faults += [fault] if fault else []
        return tries

    def write_records(self):
        for name in (crate_name for crate_name, mutants in self.mutants.items() if mutants):
            record.write_record(self.root, name, self.digests[name], self.results_by_crate.get(name, {}))

    def result_lines(self):
        """A line for each mutant that was tried, with whether it is refused."""
        for name, results in sorted(self.results_by_crate.items()):
            for mutant, result in sorted(results.items()):
                function_text = f" ({result.refused_function})" if result.refused_function else ""
                text = f"{name}/{mutant}: {result.outcome.value}: {result.text}{function_text}"
                yield result.outcome.is_refusal, text

    @property
    def untried_count(self):
        return sum(map(len, self.mutants.values())) - sum(map(len, self.results_by_crate.values()))


def summary_of_crate(tries):
    counts = collections.Counter(f"{result.outcome.value} ({result.refused_function})"
                                 for result in tries.results.values())
    text = ", ".join(f"{count} {outcome}" for outcome, count in sorted(counts.items()))
    cost = f"{tries.checker.check_count} checks, {tries.checker.seconds:.0f} processor seconds"
    return f"{tries.name}: {text or 'no result'}; {cost}"
