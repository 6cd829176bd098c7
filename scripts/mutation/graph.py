"""The names that a check gives the functions, their calls, and which mutants can therefore be tried in one check."""
import collections
import re

CALL_PATTERN = re.compile(r"((?:\bself)?\.|\b\w+::|)\b([a-z_]\w*)\b")
NO_CALLS_PATTERN = re.compile(r'//.*|"(?:[^"\\]|\\.)*"')


class CallGraph:
    """The functions of a crate. A check of it named `names`, each after those that it calls."""

    def __init__(self, crate, functions, names):
        self.crate, self.functions, self.names = crate, functions, names
        index_by_name = {name: index for index, name in enumerate(names)}
        self.reported_names_by_key = self.names_by_key()
        self.rank_by_key = {key: index_by_name[reported_names[0]]
                            for key, reported_names in self.reported_names_by_key.items() if reported_names}
        self.callees_by_key = {function.key: self.calls_of(function) for function in functions}
        self.reached_by_key = {key: self.functions_reached(key) for key in self.callees_by_key}

    def names_by_key(self):
        """The names that a check gives each function and its closures. It gives none if no name or several names fit,
        or if the name fits several functions."""
        exact = {function: self.exact_names(function) for function in self.functions}
        taken_names = {name for names in exact.values() for name in names}
        names_by_function = {function: names or self.similar_names(function, taken_names)
                             for function, names in exact.items()}
        uses = collections.Counter(names[0] for names in names_by_function.values() if len(names) == 1)
        return {
            function.key: self.with_closures(function, *names) if len(names) == 1 and uses[names[0]] == 1 else []
            for function, names in names_by_function.items()
        }

    def exact_names(self, function):
        if function.type:
            # (a method is named in the module of its type, which another file may hold)
            joined_types = {(function.type + trait_word).lower()
                            for trait_word in function.trait} or {function.type.lower()}
            return [reported_name for reported_name in self.methods_named(function.name)
                    if reported_name.split("::")[-2].lower() in joined_types]
        path = function.path.removeprefix("src/").removesuffix(".rt").split("/")
        module = "::".join([self.crate, *([] if path in (["lib"], ["main"]) else path)])
        return [reported_name for reported_name in self.names if reported_name == f"{module}::{function.name}"]

    def similar_names(self, function, taken_names):
        """The names of methods that begin with this one's type, without those that are exactly another function's."""
        methods = self.methods_named(function.name) if function.type else []
        return [reported_name for reported_name in methods if reported_name.split("::")[-2].startswith(function.type)
                and reported_name not in taken_names]

    def methods_named(self, name):
        return [reported_name for reported_name in self.names if reported_name.endswith(f"::{name}")]

    def with_closures(self, function, name):
        closure_prefix = f"{name.rpartition('::')[0]}::fn::{function.name}::"
        return [name] + [reported_name for reported_name in self.names if reported_name.startswith(closure_prefix)]

    def calls_of(self, function):
        """The functions that this body may call: those with a name in it that the check named earlier."""
        own_rank, callees = self.rank_by_key.get(function.key, -1), set()
        for receiver, name in CALL_PATTERN.findall(NO_CALLS_PATTERN.sub("", function.body)):
            candidates = [callee for callee in self.functions
                          if callee.name == name and self.rank_by_key.get(callee.key, -1) < own_rank]
            type_name = receiver.rstrip(":").replace("Self", function.type)
            if receiver.endswith("."):
                methods_of_type = [callee for callee in candidates
                                   if callee.key[1:3] == function.key[1:3]] if receiver == "self." else []
                candidates = methods_of_type or [callee for callee in candidates if callee.type]
            elif receiver:
                candidates = [callee for callee in candidates if callee.type == type_name or not callee.type
                              and callee.path.endswith(f"{type_name}.rt")]
            else:
                candidates = [callee for callee in candidates if not callee.type]
            callees.update(callee.key for callee in candidates)
        return callees

    def functions_reached(self, start):
        reached, unvisited = set(), [*self.callees_by_key[start]]
        while unvisited:
            key = unvisited.pop()
            unvisited += [] if key in reached else self.callees_by_key[key]
            reached.add(key)
        return reached

    def may_affect(self, key, other_key):
        """Whether two functions are one, or one calls the other, directly or through others."""
        return key == other_key or key in self.reached_by_key[other_key] or other_key in self.reached_by_key[key]

    def batches(self, mutants):
        """The mutants in a few lists, callees first. No two functions of a list clash."""
        batches = []
        for mutant in sorted(mutants, key=lambda mutant: (len(self.reached_by_key[mutant.function.key]), mutant.name)):
            key = mutant.function.key
            fitting_batch = next((batch for batch in batches
                                  if not any(self.may_affect(key, other.function.key) for other in batch)), None)
            if fitting_batch is None:
                batches.append(fitting_batch := [])
            fitting_batch.append(mutant)
        return batches
