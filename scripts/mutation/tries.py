"""The tries of one crate's mutants: first in batches, then by themselves if no batch decides about them."""
from typing import NamedTuple

from mutation.graph import CallGraph
from mutation.mutants import combined_texts
from mutation.sources import split_functions
from mutation.verdicts import Outcome


class TryResult(NamedTuple):
    outcome: Outcome
    refused_function: str  # "batch" or "alone"
    text: str  # the function, or the message, that shows it

    @property
    def is_by_own_proof(self):
        return self.outcome is Outcome.REFUSED_AT_OWN_FUNCTION


class CrateTries:
    """`checker` checks the crate with other texts. `map_in_lanes` maps a function over a list, several at a time."""

    def __init__(self, name, sources, checker, map_in_lanes=map):
        self.name, self.checker, self.map_in_lanes = name, checker, map_in_lanes
        self.functions = [function for path, text in sources.items() for function in split_functions(path, text)[0]]
        self.results, self.graph = {}, None

    def check_unchanged(self):
        """Checks the unchanged crate. Returns why it cannot be used, or ""."""
        check = self.checker.check_unchanged()
        if check.status or not check.functions:
            return f"{self.name} is not proved as it is, so a refusal would say nothing: {check.first_error}"
        self.graph = CallGraph(self.name, self.functions, [*check.functions])
        return ""

    def reported_names(self, mutant):
        return self.graph.reported_names_by_key[mutant.function.key] if mutant.function else []

    def try_all(self, mutants):
        """Tries each mutant. The results are in `results`, by name."""
        for mutant in mutants:
            if mutant.fault:
                self.results[mutant.name] = TryResult(Outcome.UNUSABLE, "", mutant.fault)
            elif mutant.function and not self.reported_names(mutant):
                self.results[mutant.name] = TryResult(Outcome.NOT_REPORTED, "",
                                                      f"{mutant.function.path} {mutant.function.name}")
        untried_mutants = [mutant for mutant in mutants if mutant.name not in self.results]
        batched_mutants, single_mutants = [mutant for mutant in untried_mutants if mutant.function], [
            mutant for mutant in untried_mutants if not mutant.function
        ]
        for _ in range(2):
            # (a second batch may decide without the mutant that was in the way in the first)
            undecided_mutants = [undecided_mutant
                                 for undecided_of_batch in self.map_in_lanes(self.try_batch,
                                                                             self.graph.batches(batched_mutants))
                                 for undecided_mutant in undecided_of_batch]
            batched_mutants, proved_mutants = [mutant for mutant, is_proved in undecided_mutants if not is_proved], [
                mutant for mutant, is_proved in undecided_mutants if is_proved
            ]
            single_mutants += proved_mutants
            if not batched_mutants:
                break
        for mutant, result in self.map_in_lanes(self.try_alone, single_mutants + batched_mutants):
            self.results[mutant.name] = result

    def try_batch(self, mutants):
        """Tries these in one check. Returns those without a result, each with whether its function was proved."""
        if len(mutants) == 1:
            return [(mutants[0], True)]
        names = [self.reported_names(mutant)[0] for mutant in mutants]
        check = self.checker.check(combined_texts(self.checker.folder, mutants), names)
        own_names = {name for mutant in mutants for name in self.reported_names(mutant)}
        if not check.functions or not check.has_verdict or check.unreadable or not own_names.issuperset(check.refused):
            # one does not compile, cannot be read, or makes the own proof of another function fail, or the check had
            # no verdict
            middle = len(mutants) // 2
            return self.try_batch(mutants[:middle]) + self.try_batch(mutants[middle:])
        undecided = []
        for mutant in mutants:
            refused_names = [name for name in self.reported_names(mutant) if name in check.refused]
            if refused_names:
                self.results[mutant.name] = TryResult(Outcome.REFUSED_AT_OWN_FUNCTION, "batch", refused_names[0])
            else:
                undecided.append((mutant, check.is_proved(self.reported_names(mutant))))
        return undecided

    def try_alone(self, mutant):
        """Tries it by itself: its own function first, and the whole crate if this function is not refused."""
        texts, names = combined_texts(self.checker.folder, [mutant]), self.reported_names(mutant)
        outcome, text = self.checker.check(texts, names[:1]).outcome(names)
        if names and outcome is not Outcome.REFUSED_AT_OWN_FUNCTION:
            outcome, text = self.checker.check(texts).outcome(names)
        return mutant, TryResult(outcome, "alone", text)
