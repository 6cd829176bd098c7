#!/usr/bin/env python3
"""Runs the random scripts of the oracle on two builds of the program, which have to write the same bytes: with and
without `--explain`, in memory and on a file. Then it runs each script in four parts on one file, with a start for each
part. The output and the bytes in the file have to be the same, whichever build runs which part.

    scripts.py ONE OTHER COUNT
"""
import concurrent.futures
import os
import pathlib
import subprocess
import sys
import tempfile

sys.path.insert(0, str(pathlib.Path(__file__).resolve().parent.parent))

from oracle.random_scripts import script_of_seed

PART_COUNT = 4


def replay_script(program, base, script, options):
    """What the program writes, and its exit status."""
    process = subprocess.run([program, "replay", "--base", base, *options], input=script, capture_output=True)
    return process.stdout, process.stderr, process.returncode


def file_contents(folder):
    """The bytes of each database, and the size of each other file: a write-ahead log has a random salt."""
    files = {file.name: file.read_bytes() for file in sorted(folder.iterdir())}
    return {name: content if name.endswith(".db") else len(content) for name, content in files.items()}


def replay_whole_script(program, base, script):
    """The results of one run of a script with each of the options, and the files that these leave."""
    with tempfile.TemporaryDirectory() as folder:
        folder = pathlib.Path(folder)
        runs = []
        for options in (
            [], ["--explain"], ["--db", folder / "plain.db"], ["--explain", "--db", folder / "explained.db"]
        ):
            runs.append(replay_script(program, base, script, options))
        return runs, file_contents(folder)


def script_parts(script):
    lines = script.splitlines(keepends=True)
    size = len(lines) // PART_COUNT + 1
    return [b"".join(lines[start : start + size]) for start in range(0, len(lines), size)]


def replay_in_parts(programs, base, script):
    """The results of the parts of a script, which these programs run in turn, and the files after each part."""
    with tempfile.TemporaryDirectory() as folder:
        folder = pathlib.Path(folder)
        runs = []
        for part_number, script_part in enumerate(script_parts(script)):
            runs.append(replay_script(programs[part_number % len(programs)], base, script_part,
                                      ["--db", folder / "parts.db"]))
            runs.append(file_contents(folder))
        return runs


def compare_programs(program, other_program, base, script):
    """Whether all results are the same, and how many lines the first run wrote."""
    first_runs = replay_whole_script(program, base, script)
    runs_of_orders = [replay_in_parts(programs, base, script)
                      for programs in ([program], [other_program], [program, other_program], [other_program, program])]
    is_same = first_runs == replay_whole_script(other_program, base,
                                                script) and all(runs == runs_of_orders[0] for runs in runs_of_orders)
    all_succeeded = all(status == 0 for _, _, status in first_runs[0])
    return is_same and all_succeeded, first_runs[0][0][0].count(b"\n")


def main():
    program, other_program, count = *sys.argv[1:3], int(sys.argv[3])
    scripts = [script_of_seed(number) for number in range(count)]
    with concurrent.futures.ThreadPoolExecutor(os.cpu_count()) as pool:
        results = list(pool.map(lambda base_and_script: compare_programs(program, other_program, *base_and_script),
                                scripts))
    differing_seeds = [number for number, (is_same, _) in enumerate(results) if not is_same]
    line_count = sum(count_of_script for _, count_of_script in results)
    print(f"{count} scripts of {line_count:,} lines",
          f"differ: {differing_seeds}" if differing_seeds else "are the same")
    sys.exit(1 if differing_seeds else 0)


if __name__ == "__main__":
    main()
