"""Builds the program of `bench/baseline.c` for the scripts in this folder, and compares outputs with its output."""
import pathlib
import shutil
import subprocess
import sys
import tempfile

SOURCE = pathlib.Path(__file__).resolve().with_name("baseline.c")


def find_compiler():
    """The C compiler: gcc if it is installed, since the counts of `bench/instructions` are for gcc, otherwise cc."""
    compiler = shutil.which("gcc") or shutil.which("cc")
    if not compiler:
        sys.exit("neither gcc nor cc is installed")
    return compiler


def build(folder):
    """Builds the program into this folder, and returns its path."""
    program = pathlib.Path(folder) / "baseline"
    subprocess.run([find_compiler(), "-std=c11", "-O2", "-Wall", "-Wextra", "-o", program, SOURCE], check=True)
    return program


def require_same_output(outputs, text, name):
    """Returns the output of both programs, this one and the other, for this text. If the two outputs differ, keeps them
    and exits with an error."""
    if outputs[0] != outputs[1]:
        kept_folder = pathlib.Path(tempfile.mkdtemp())
        (kept_folder / "script").write_bytes(text)
        for program, output in zip(["baseline", "program"], outputs):
            (kept_folder / program).write_bytes(output)
        sys.exit(f"{name}: the outputs differ, see {kept_folder}")
    return outputs[0]
