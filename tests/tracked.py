"""The files of the repository."""
import re
import subprocess

# What is made here: `.gitignore` has the same.
BUILT_FILE_PATTERNS = re.compile(r"(^|/)(\.git|target|out|__pycache__)/|\.deb$|^contrib/cockpit/enogate/tables\.js$")


def tracked_paths(root):
    """The paths of the files that git tracks; where git does not say, of all files that are not made here."""
    run = subprocess.run(["git", "-C", root, "ls-files", "-z"], capture_output=True, text=True)
    if run.returncode == 0:
        return run.stdout.split("\0")[:-1]
    names = (path.relative_to(root).as_posix() for path in root.rglob("*") if path.is_file())
    return sorted(name for name in names if not BUILT_FILE_PATTERNS.search(name))
