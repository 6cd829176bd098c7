"""What enogate-check looks at, and enogatectl(1) before an order: files of a gateway, processes, locks, and units.
Tests put others in their place."""
from __future__ import annotations

import functools
import grp
import os
import pwd
import re
import stat
from typing import NamedTuple

# How long a command may take that is asked, in seconds: systemctl, or enogatectl, which waits for an answer.
LONGEST_RUN = 10.0


class Process(NamedTuple):
    """A running process."""
    number: int
    name: str

    def __str__(self):
        return f"process {self.number} ({self.name})"


class OpenFile(NamedTuple):
    """A file that a process has open, with the offset at which it reads or writes next."""
    number: int
    status: os.stat_result
    offset: int
    is_read_only: bool


def first_line_of(command: list[str]) -> str:
    """The first line that a command prints, or nothing if it cannot be run."""
    # imported only here, since enogatectl(1) seldom runs a command, and imports take most of its time
    import subprocess
    try:
        result = subprocess.run(command, capture_output=True, text=True, timeout=LONGEST_RUN, check=False)
    except (OSError, subprocess.TimeoutExpired):
        return ""
    return result.stdout.partition("\n")[0]


def user_and_groups(name: str = "enogate") -> tuple[int, set[int]] | None:
    """The user and the groups with which the unit runs, or None if there is no such user."""
    try:
        user = pwd.getpwnam(name)
        groups = {user.pw_gid} | {group.gr_gid for group in grp.getgrall() if name in group.gr_mem}
        return user.pw_uid, groups | {group.gr_gid for group in grp.getgrall() if group.gr_name == "dialout"}
    except KeyError:
        return None


class System:
    """A machine: `root` is put before the directories of the gateways, `proc` has its processes."""

    def __init__(self, root: str = "", proc: str = "/proc", run=first_line_of, user=user_and_groups):
        self.root, self.proc, self.run, self.identify = root, proc, run, user
        self.is_root = os.geteuid() == 0

    @functools.cached_property
    def user(self) -> tuple[int, set[int]] | None:
        """The user and the groups with which the unit runs."""
        return self.identify()

    def path(self, path: str) -> str:
        """A path on this machine."""
        return self.root + path

    def read(self, *path_parts: str) -> str:
        """The text of a file of /proc, or nothing if it cannot be read."""
        try:
            with open(os.path.join(self.proc, *path_parts), encoding="utf-8", errors="replace") as file:
                return file.read()
        except OSError:
            return ""

    def process(self, process_number: int) -> Process:
        """The process with this number."""
        return Process(process_number, self.read(str(process_number), "comm").strip() or "of another user")

    def processes(self) -> list[Process]:
        """All processes but this one."""
        process_numbers = sorted(int(name) for name in os.listdir(self.proc) if name.isdigit())
        return [self.process(number) for number in process_numbers if number != os.getpid()]

    def gateway_at(self, desk: str) -> Process | None:
        """The gateway that reads this desk."""
        for process in self.processes():
            if process.name == "enogate" and self.option_value(process, "--desk") == desk:
                return process
        return None

    def main_process(self, folder: str) -> Process | None:
        """The main process of the unit with this folder. The one that runs this program looks for the cause of a fault,
        and does nothing else."""
        for process in self.processes():
            if process.name == "enogate-port" and self.option_value(process, "--unit") == folder:
                return process if process.number != os.getppid() else None
        return None

    def age_of(self, process: Process) -> float:
        """How long ago a process was started, in seconds; 0 if it has ended."""
        fields = self.read(str(process.number), "stat").rpartition(")")[2].split()
        uptime = self.read("uptime").split()
        return float(uptime[0]) - int(fields[19]) / os.sysconf("SC_CLK_TCK") if fields and uptime else 0.0

    def read_counts(self, process: Process) -> tuple[int | None, int | None]:
        """How many read calls a process has made, and how many bytes it has read; None if the kernel does not count."""
        counts = dict(re.findall(r"(rchar|syscr): (\d+)", self.read(str(process.number), "io")))
        read_calls, bytes_read = counts.get("syscr"), counts.get("rchar")
        return read_calls and int(read_calls), bytes_read and int(bytes_read)

    def option_value(self, process: Process, name: str) -> str:
        """The value of this option in the command line of a process, or nothing."""
        words = self.read(str(process.number), "cmdline").split("\0")
        for word, next_word in zip(words, words[1:]):
            if word == name or word.startswith(f"{name}="):
                return next_word if word == name else word.removeprefix(f"{name}=")
        return ""

    def open_files(self, process: Process) -> list[OpenFile] | None:
        """What a process has open, or None if this user may not see it."""
        folder = os.path.join(self.proc, str(process.number))
        try:
            names = os.listdir(os.path.join(folder, "fd"))
            return [file for name in names if (file := self.open_file(folder, name))]
        except PermissionError:
            # The kernel may deny access to the files of a process that has ended meanwhile. It has none.
            return None if os.path.exists(folder) else []
        except OSError:
            return []

    def open_file(self, folder: str, name: str) -> OpenFile | None:
        """One of the files that the process with this folder has open. None if it was closed, or if it is in a file
        system that only another user may see, where no file of a gateway is."""
        path = os.path.join(folder, "fd", name)
        try:
            status = os.stat(path)
        except PermissionError:
            # Fails, too, if the process itself may not be seen.
            os.readlink(path)
            return None
        except OSError:
            return None
        descriptor_info = dict(re.findall(r"(pos|flags):\s*(\d+)", self.read(folder, "fdinfo", name)))
        return OpenFile(int(name), status, int(descriptor_info.get("pos", "0")),
                        int(descriptor_info.get("flags", "2"), 8) & os.O_ACCMODE == os.O_RDONLY)

    def users_of(self, path: str) -> tuple[list[Process], bool]:
        """The processes that have a file or a device open, and whether this user can see those of all users."""
        status, users, sees_all = os.stat(path), [], True
        for process in self.processes():
            files = self.open_files(process)
            sees_all &= files is not None
            if any(is_same_file(file.status, status) for file in files or []):
                users.append(process)
        return users, sees_all

    def lockers_of(self, path: str) -> list[Process]:
        """The processes that have locked a file or a device node."""
        status = os.stat(path)
        file = f"{os.major(status.st_dev):02x}:{os.minor(status.st_dev):02x}:{status.st_ino}"
        process_numbers = re.findall(rf"^\d+: \w+ +\w+ +\w+ (\d+) {file} ", self.read("locks"), re.MULTILINE)
        return [self.process(number) for number in sorted(set(map(int, process_numbers)) - {os.getpid()})]

    def may_access(self, path: str, rights: int) -> bool:
        """Whether the user of the unit has these rights on a path: 4 read, 2 write, 1 search. Without the user: yes."""
        if self.user is None:
            return True
        status, (user, groups) = os.stat(path), self.user
        shift = 6 if status.st_uid == user else 3 if status.st_gid in groups else 0
        return user == 0 or stat.S_IMODE(status.st_mode) >> shift & rights == rights

    def unit_state(self, unit: str, question: str = "is-active") -> str:
        """What systemctl answers about a unit, or nothing."""
        return self.run(["systemctl", question, unit])


def is_same_file(status: os.stat_result, other_status: os.stat_result) -> bool:
    """Whether these are the same file, or the same device with whatever name."""
    if stat.S_ISCHR(status.st_mode) and stat.S_ISCHR(other_status.st_mode):
        return status.st_rdev == other_status.st_rdev
    return (status.st_dev, status.st_ino) == (other_status.st_dev, other_status.st_ino)
