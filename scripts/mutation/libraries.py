"""Whether the libraries that a check reads are built from the present sources. Sums of contents decide, never times."""
import contextlib
import os
import subprocess

from mutation.record import file_content, files_below, checked_files, digest_of, digest_of_files

# The libraries that `scripts/mutants --ci` built last, one in each line: the name of the crate, the sum of its sources,
# and that of the library. `rt check` leaves a stamp in each library, and needs no such line; `rt ci` leaves none.
NOTE_FILE = "target/libraries"


def source_sum(crate, kit_name):
    """The name of a crate, and the sum of all that its library is built from, except for the libraries below it."""
    uses = repr((sorted(dependency.name for dependency in crate.deps), sorted(crate.of_kit)))
    return f"{crate.name} {digest_of(kit_name.encode(), uses.encode(), digest_of_files(checked_files(crate)))}"


def library_sum(crate):
    """The sum of the files of a crate's library."""
    files = [(os.path.relpath(path, crate.rlib), file_content(path)) for path in files_below(crate.rlib)]
    return digest_of_files(files).decode()


def are_built(root, crates, kit_name):
    """Whether the libraries of these crates, which are all that one crate uses, are built from their sources."""
    path = f"{root}/{NOTE_FILE}"
    noted_lines = file_content(path).decode().splitlines() if os.path.exists(path) else []
    if all(f"{source_sum(crate, kit_name)} {library_sum(crate)}" in noted_lines for crate in crates):
        return True
    return all(crate.is_built() for crate in crates)


def run_and_note(root, crates, kit_name, words):
    """Runs a command that builds the libraries of all crates, and notes them if it passes and no source has changed
    meanwhile. Returns its status."""
    path = f"{root}/{NOTE_FILE}"
    with contextlib.suppress(FileNotFoundError):
        os.remove(path)
    sums_before = [source_sum(crate, kit_name) for crate in crates]
    status = subprocess.run(words, check=False).returncode
    if status == 0 and sums_before == [source_sum(crate, kit_name) for crate in crates]:
        os.makedirs(os.path.dirname(path), exist_ok=True)
        with open(path, "w", encoding="utf-8") as file:
            file.writelines(f"{sum_before} {library_sum(crate)}\n"
                            for sum_before, crate in zip(sums_before, crates) if os.path.isdir(crate.rlib))
    return status if status >= 0 else 128 - status
