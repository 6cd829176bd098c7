"""What the tests of this folder need of the machine, and the number from which their random choices follow."""
import importlib.util
import os
import pathlib
import subprocess

ROOT = pathlib.Path(__file__).resolve().parents[2]


def missing_disk_requirement():
    """What this machine lacks for a recorded disk; empty if it lacks nothing."""
    if not importlib.util.find_spec("fusepy"):
        return "python3-fusepy"
    if os.geteuid() != 0 or not os.path.exists("/dev/loop-control") or not os.path.exists("/dev/fuse"):
        return "root, /dev/fuse or loop devices"
    return ""


def default_seed():
    """The number of commits."""
    count = subprocess.run(["git", "-C", ROOT, "rev-list", "--count", "HEAD"], capture_output=True, text=True)
    return int(count.stdout or 0)


def print_and_skip(reasons):
    """Prints what is missing. Returns the exit status of a test that is skipped for these reasons."""
    for reason in reasons:
        print(f"tests/power: skipped, since this is missing: {reason}")
    return int("SKIP_NOTHING" in os.environ)
