"""The record of the refused mutants, with a digest of everything that each result depends on."""
import hashlib
import os
import re
from typing import NamedTuple

from mutation.sources import split_functions

RECORD_FOLDER = "tests/mutant-records"
COUNTS_FILE = "tests/mutant-counts"
# The files that a check reads of a crate.
CHECKED_FOLDERS = ("src", "specs", "proofs", "c")
# The proof files of one function, in a folder of its name. The proofs of other functions do not read these files.
FUNCTION_PROOF_FILES = ("Answers.antt", "Invariants.antt", "Proof.antt")
FUNCTION_PATTERN = re.compile(rb"\bfn (\w+)")
# Replaces the function's name if the proof of another function or statement fails.
NOT_ITS_FUNCTION = "-"


class MutantDigests(NamedTuple):
    """Digests of everything that the refusal of a mutant depends on: `own` if its own function is refused, otherwise
    `whole`."""

    function_digest: str
    crate_digest: str

    def of(self, function):
        return self.crate_digest if function == NOT_ITS_FUNCTION else self.function_digest


def digest_of(*texts):
    digest = hashlib.sha256()
    for text in texts:
        digest.update(f"{len(text)} ".encode() + text)
    return digest.hexdigest()


def files_below(folder):
    return sorted(f"{subfolder}/{name}" for subfolder, _, names in os.walk(folder) for name in names)


def file_content(path):
    with open(path, "rb") as file:
        return file.read()


def checked_files(crate):
    """The files that a check reads of the crate, as pairs of a path in its folder and the content."""
    files = [file for checked_folder in CHECKED_FOLDERS for file in files_below(f"{crate.folder}/{checked_folder}")]
    return [(os.path.relpath(path, crate.folder), file_content(path)) for path in files]


def without_bodies(path, text):
    """What the proofs of other functions read of a source: no bodies or comments. A file with macros is kept whole."""
    if not path.endswith(".rt") or b"macro_rules!" in text:
        return text
    functions, text_outside = split_functions(path, text.decode())
    return "\n".join([*text_outside, *(function.head for function in functions)]).encode()


def digest_of_files(files):
    return digest_of(*(digested_text for path, text in files for digested_text in (path.encode(), text))).encode()


class CheckInputs:
    """What the checks of a crate's mutants read, in this logic of the kit."""

    def __init__(self, crate, root, logic):
        crates = sorted([crate, *crate.below()], key=lambda crate_below: crate_below.name)
        uses = [repr((crate_below.name, sorted(dep.name for dep in crate_below.deps),
                      sorted(crate_below.of_kit))).encode() for crate_below in crates]
        self.files = checked_files(crate)
        shared = [digest_of_files(shared_inputs(self.files if crate_below is crate else checked_files(crate_below)))
                  for crate_below in crates]
        self.shared = digest_of(logic.encode(), file_content(f"{root}/HANDLES"), *uses, *shared).encode()
        self.crate_digest = digest_of_files(self.files)
        # (functions that call each other have one proof, which reads all their bodies)
        self.has_cycles = any(b"#[cycle(" in text for _, text in self.files)

    def proof_files_of(self, function):
        """The proof files of this function, and those of cycles of calls."""
        names = {function.name}
        return [(path, text) for path, text in self.files if is_of_one_function(path, names)]

    def own_text_of(self, function):
        """The text of the function, with its place among those of its file that have the same head and type."""
        functions = split_functions(function.path, dict(self.files).get(function.path, b"").decode())[0]
        functions_alike = [other_function for other_function in functions
                           if (other_function.type, other_function.head) == (function.type, function.head)]
        earlier_count = sum(other_function.line < function.line for other_function in functions_alike)
        return "\n".join([*[str(earlier_count)] * (earlier_count > 0), function.type, *function.lines])

    def digests(self, mutant):
        digest_of_whole = digest_of(self.shared, self.crate_digest, mutant.text.encode())[:16]
        if self.has_cycles or not mutant.function:
            return MutantDigests(digest_of_whole, digest_of_whole)
        own_text = self.own_text_of(mutant.function).encode()
        proofs_digest = digest_of_files(self.proof_files_of(mutant.function))
        digest_of_function = digest_of(self.shared, own_text, proofs_digest, mutant.text.encode())[:16]
        return MutantDigests(digest_of_function, digest_of_whole)


def is_of_one_function(path, names):
    """Whether it is a proof file of a function with one of these names, or of a cycle of calls."""
    checked_folder, *folders, name = path.split("/")
    return checked_folder == "proofs" and name in FUNCTION_PROOF_FILES and any(folder in names or folder[0] == "+"
                                                                               for folder in folders)


def shared_inputs(files):
    """What the proofs of other functions, in this crate and above it, read of these files."""
    names = {function_name.decode() for path, text in files if path.startswith("src/")
             for function_name in FUNCTION_PATTERN.findall(text)}
    return [(path, without_bodies(path, text)) for path, text in files if not is_of_one_function(path, names)]


def valid_records(root, crate, digests):
    """The lines of the crate's record that are valid for the present files, by mutant. `digests` has those of each."""
    path = f"{root}/{RECORD_FOLDER}/{crate}"
    lines = file_content(path).decode().splitlines() if os.path.exists(path) else []
    return {name: line for line in lines for name in [mutant_of_record(line, digests)] if name}


def mutant_of_record(line, digests):
    """The mutant of this line of a record, or "" if the line is not valid."""
    digest, name, function = (line.split(" ") + ["", ""])[:3]
    return name if function and name in digests and digest == digests[name].of(function) else ""


def write_record(root, crate, digests, results):
    """Writes the mutants that this run refused, each with its function, and the earlier lines of those it did not try.

    `digests` has those of each mutant of the crate, by name; `results` has the mutants that were tried."""
    earlier_records, lines = valid_records(root, crate, digests), []
    for name, mutant_digests in sorted(digests.items()):
        if name not in results:
            lines += [earlier_records[name]] if name in earlier_records else []
        elif results[name].outcome.is_refusal:
            function = results[name].text if results[name].is_by_own_proof else NOT_ITS_FUNCTION
            lines.append(f"{mutant_digests.of(function)} {name} {function}")
    os.makedirs(f"{root}/{RECORD_FOLDER}", exist_ok=True)
    with open(f"{root}/{RECORD_FOLDER}/{crate}", "w", encoding="utf-8") as file:
        file.write("".join(f"{line}\n" for line in lines))


def sample_for_turn(names, size, commit_number):
    """The crate and the mutants of this turn. The turns go through lists that hold each recorded mutant once.

    `names` has the recorded mutants by crate. A list is of one crate, since each crate costs a check without mutants.
    """
    samples = [
        (crate, mutant_names[start : start + size]) for crate, mutant_names in sorted(names.items())
        for start in range(0, len(mutant_names), size)
    ]
    return samples[commit_number % len(samples)] if samples else ("", [])


def expected_counts(root):
    """The hand-kept numbers of mutants, by crate."""
    lines = file_content(f"{root}/{COUNTS_FILE}").decode().splitlines()
    return {name: int(count) for name, count in (line.split() for line in lines if line and not line.startswith("#"))}
