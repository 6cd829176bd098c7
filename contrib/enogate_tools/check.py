"""enogate-check: looks at everything that a gateway needs, and prints a sentence for each fault."""
from __future__ import annotations

import argparse
import os
import re
import signal
import sqlite3
import stat
import tempfile
import time

from . import VERSION, files, gateways, port as ports
from .space import MEGABYTE
from .system import OpenFile, System, is_same_file

OK, FAULT, UNCHECKED = "ok", "fault", "not checked"
# The write-ahead log of the database grows to 4.3 MB.
MIN_SPACE = {"/var/lib": 5 * MEGABYTE, "/var/log": MEGABYTE}
# How much is copied of the database and of its log, and how many instructions SQLite may execute for a question: the
# user of the service could make files that fill the disk, or never answer.
MAX_COPY_SIZE, MAX_SQLITE_STEPS = 64 * MEGABYTE, 100_000_000
# The copy is made here, in memory: the disk may be full.
MEMORY_FOLDER = "/dev/shm"
# How long a running gateway is asked for the base ID of its module, in seconds.
ASK_TIMEOUT = "5"
# The fault of a unit that has not started its gateway, if no other one is found.
NOT_STARTED = "the gateway is not started yet; see why: sudo journalctl -n 5 -t enogate-{}"
DEVICE_TABLES = {1: "enogate_device", 2: "enogate_device_v2"}
# The parts of a file with settings: what is before a key, a key, a value in quotes, and the rest of a value.
BLANKS_AND_COMMENTS_PATTERN = re.compile(r"(?:[ \t\n\r]|[#;][^\n\r]*)*")
KEY_PATTERN = re.compile(r"([^=\n\r]*?)[ \t]*(=|[\n\r]|\Z)")
QUOTED_VALUE_PATTERN = re.compile(r"""[ \t]*(?:'([^']*)'|"((?:[^"\\]|\\.)*)")""", re.DOTALL)
PLAIN_VALUE_PATTERN = re.compile(r"[ \t]*((?:[^\n\r\\]|\\.?)*?)[ \t]*(?=[\n\r]|\Z)", re.DOTALL)


def exists(path: str) -> bool:
    """Whether there is such a file. Unlike os.path.exists, it fails if this user may not know."""
    try:
        os.stat(path)
        return True
    except (FileNotFoundError, NotADirectoryError):
        return False


def is_irregular(path: str) -> bool:
    """Whether this is a file, but not a regular file with one name."""
    try:
        status = os.lstat(path)
    except (FileNotFoundError, NotADirectoryError):
        return False
    return not stat.S_ISREG(status.st_mode) or status.st_nlink > 1


def copy_if_small(path: str, copy_path: str) -> bool:
    """Copies a file of the service, as long as it is now. Returns whether it is small enough for that."""
    with os.fdopen(files.open_file(path), "rb") as source, open(copy_path, "wb") as copy:
        size = os.fstat(source.fileno()).st_size
        if size > MAX_COPY_SIZE:
            return False
        while size and (chunk := source.read(min(size, MEGABYTE))):
            copy.write(chunk)
            size -= len(chunk)
    return True


def settings_in(text: str) -> dict[str, str]:
    """The settings in a file, as systemd reads them (systemd.exec(5), EnvironmentFile=): a comment is a line of its
    own. If a quotation mark has no partner, its line is the value, and the rest of the file is not read."""
    settings, offset = {}, 0
    while (offset := BLANKS_AND_COMMENTS_PATTERN.match(text, offset).end()) < len(text):
        key, value = KEY_PATTERN.match(text, offset), ""
        offset = key.end()
        if key[2] != "=":
            continue
        while quoted := QUOTED_VALUE_PATTERN.match(text, offset):
            value += re.sub(r'\\(["\\`$\n])', unescaped_character, quoted[2]) if quoted[1] is None else quoted[1]
            offset = quoted.end()
        plain = PLAIN_VALUE_PATTERN.match(text, offset)
        offset = plain.end()
        if plain[1][:1] in ("'", '"'):
            return {**settings, key[1]: plain[1]}
        settings[key[1]] = value + re.sub(r"(?s)\\(.?)", unescaped_character, plain[1])
    return settings


def unescaped_character(match: re.Match) -> str:
    """A character that follows a backslash. The end of a line is left out: the value continues in the next one."""
    return match[1].strip("\n")


class Check:
    """The checks of one gateway. Each yields its findings: a kind, and a sentence."""

    def __init__(self, name: str, system: System, sleep=time.sleep):
        self.name, self.system, self.sleep = name, system, sleep
        self.desk, self.lines, *_ = gateways.paths_of(name, system.root)
        self.database = system.path(f"/var/lib/enogate/{name}.db")
        self.gateway = system.gateway_at(self.desk)
        self.start = system.main_process(os.path.dirname(self.desk))
        self.settings = {"BASE": "", "SERIAL": "/dev/enocean", "TURNS": "864000", "EXPLAIN": ""}
        # The files that have them.
        self.source_by_key: dict[str, str] = {}
        self.restart_advice = f"run: sudo systemctl restart enogate@{name}"
        # Whether an order reaches the gateway, as far as this can be seen.
        self.takes_orders = False

    def findings(self):
        """The findings of all checks, whatever the files are."""
        # On a full disk the answer with the base ID is missing, too: the cause comes first.
        checks = {"settings": self.check_settings, "port": self.check_port, "desk": self.check_desk,
                  "disk space": self.check_space, "base ID": self.check_base,
                  "earlier base ID": self.check_earlier_base, "lines": self.check_lines,
                  "database": self.check_database, "units": self.check_units}
        for subject, check in checks.items():
            try:
                yield from check()
            except OSError as error:
                yield self.failure_finding(subject, error)

    def failure_finding(self, subject: str, error: OSError):
        """The finding that this check failed."""
        if not error.filename:
            return FAULT, f"the check of the {subject} failed: {error.strerror or error}"
        if isinstance(error, PermissionError):
            return self.unchecked_finding(f"permission denied for {error.filename}")
        return FAULT, f"{error.filename} cannot be read: {error.strerror}"

    def unchecked_finding(self, subject: str):
        """The finding that this could not be checked, and why."""
        if self.system.is_root:
            return UNCHECKED, f"{subject}: not even root may see this here, for example because this is a container"
        return UNCHECKED, f"{subject}: run enogate-check as root"

    def check_settings(self):
        """The settings of the gateway, which override those of all."""
        common_path, own_path = (self.system.path(f"/etc/default/enogate{file_end}")
                                 for file_end in ("", f"-{self.name}"))
        for path in (common_path, own_path) if exists(own_path) else (common_path,):
            with open(path, encoding="utf-8", errors="replace") as file:
                for key, value in settings_in(file.read()).items():
                    self.settings[key], self.source_by_key[key] = value, path
        if commented_keys := [key for key in ("BASE", "SERIAL", "TURNS", "EXPLAIN") if "#" in self.settings[key]]:
            for key in commented_keys:
                yield FAULT, (f"{key}={self.settings[key]} has a comment after the value, which is part of the value "
                              f"for systemd: write the comment on a line of its own in {self.source_by_key[key]}")
            return
        yield from self.check_values()

    def check_values(self):
        """The values of the settings."""
        advice = f"correct it in /etc/default/enogate-{self.name}"
        base, turns = self.settings["BASE"], self.settings["TURNS"]
        if base and not ports.is_base(base):
            yield FAULT, f"BASE={base} is not a base ID ({ports.BASE_FORM_IN_WORDS}): {advice}, or remove it"
        if not (turns.isdecimal() and 1 <= int(turns) <= 4294967295):
            yield FAULT, f"TURNS={turns} is not a number from 1 to 4294967295: {advice}"
        if self.settings["EXPLAIN"] not in ("", "--explain"):
            yield FAULT, f"EXPLAIN={self.settings['EXPLAIN']} is neither empty nor --explain: {advice}"
        yield OK, f"settings: BASE={base} SERIAL={self.settings['SERIAL']} TURNS={turns}"

    def check_port(self):
        """The serial port."""
        path, setting_place = self.settings["SERIAL"], f"SERIAL in /etc/default/enogate-{self.name}"
        if not path:
            yield FAULT, f"no port is set: set {setting_place}"
        elif not exists(path):
            yield FAULT, f"no stick at {path}: plug it in, or correct {setting_place}"
        elif not stat.S_ISCHR(os.stat(path).st_mode):
            yield FAULT, f"{path} is not a serial port: correct {setting_place}"
        else:
            yield from self.check_node(path, setting_place)

    def check_node(self, path: str, setting_place: str):
        """The node of the port: rights, other users, and the lock or the settings of the line. `setting_place` is its
        setting."""
        if not self.system.may_access(path, 6):
            yield FAULT, (f"the user enogate may not read and write {path}: give it to the group dialout, for example "
                          f"with a udev rule, or run: sudo chgrp dialout {path} && sudo chmod 660 {path}")
        users, sees_all = self.system.users_of(path)
        own_processes = {self.gateway, self.start}
        other_processes = sorted({*users, *self.system.lockers_of(path)} - own_processes,
                                 key=lambda process: process.number)
        for process in other_processes:
            yield FAULT, (f"{process} uses {path} too, and each program receives only part of the data: end it, or "
                          f"correct {setting_place}")
        if not sees_all:
            yield self.unchecked_finding(f"programs of other users that use {path} without a lock")
        if self.gateway:
            yield from self.check_line(path)
        elif self.start:
            yield FAULT, NOT_STARTED.format(self.name)
        elif not other_processes:
            yield from self.check_module(path)

    def check_line(self, path: str):
        """The settings of the line that a running gateway uses."""
        port = os.open(path, os.O_RDONLY | os.O_NOCTTY | os.O_NONBLOCK)
        try:
            wrong_flags = ports.wrong_settings(port)
        finally:
            os.close(port)
        if wrong_flags:
            flags = ", ".join(wrong_flags)
            yield FAULT, f"another program changed the settings of {path} ({flags}); {self.restart_advice}"
        else:
            yield OK, f"port: {path}, used by {self.gateway}"

    def check_module(self, path: str):
        """The base ID of the module at a free port."""
        try:
            reported_base = ports.module_base(path)
        except ports.PortError as error:
            if isinstance(error.__cause__, PermissionError):
                yield self.unchecked_finding(f"the radio module at {path}")
            else:
                yield FAULT, str(error)
            return
        base = self.settings["BASE"].upper()
        if not reported_base:
            yield FAULT, ports.NO_MODULE.format(path)
        elif base not in ("", reported_base):
            yield FAULT, (f"BASE is {base}, but the base ID of the radio module at {path} is {reported_base}: "
                          f"correct it in /etc/default/enogate-{self.name}, or remove it")
        else:
            yield OK, f"port: {path}, with a radio module whose base ID is {reported_base}"

    def check_desk(self):
        """The desk, compared with what the running gateway has open."""
        if not self.gateway:
            if exists(os.path.dirname(self.desk)) and not self.system.may_access(os.path.dirname(self.desk), 7):
                yield FAULT, f"the user enogate may not write in {os.path.dirname(self.desk)}: delete this directory"
            yield OK, f"desk: no gateway reads {self.desk}, which each start empties"
            return
        files = self.system.open_files(self.gateway)
        if files is None:
            self.takes_orders = True
            yield self.unchecked_finding("whether the desk was truncated or replaced")
            return
        held = self.held_desk(files)
        if not held:
            # A gateway that has just started opens the database first.
            self.sleep(2)
            held = self.held_desk(self.system.open_files(self.gateway) or [])
        if not held:
            yield FAULT, (f"the desk {self.desk} was replaced or deleted, for example by an editor: no order reaches "
                          f"the gateway, which reads the old file; {self.restart_advice}, and give the orders again, "
                          "with >>")
            return
        offset, size = held.offset, held.status.st_size
        if offset > size:
            yield FAULT, (f"the desk {self.desk} was truncated (> in place of >>): the next {offset - size} bytes of "
                          f"orders are lost; {self.restart_advice}, and give the orders again, with >>")
        elif offset < size and self.is_stuck(held.number, offset):
            yield FAULT, (f"the gateway does not read the desk: {size - offset} bytes of orders are waiting, perhaps "
                          f"because the radio module accepts no data; {self.restart_advice}")
        else:
            self.takes_orders = True
            yield OK, f"desk: {self.desk}, read up to byte {offset} of {size}"

    def held_desk(self, files: list[OpenFile]) -> OpenFile | None:
        """The desk among the files that the gateway has open."""
        desk = os.stat(self.desk) if exists(self.desk) else None
        if not desk or not stat.S_ISREG(desk.st_mode):
            return None
        read_files = (file for file in files if file.number > 2 and file.is_read_only)
        return next((file for file in read_files if is_same_file(file.status, desk)), None)

    def is_stuck(self, file_number: int, offset: int) -> bool:
        """Whether the gateway has read nothing from the desk for two seconds."""
        self.sleep(2)
        return any(file.number == file_number and file.offset == offset
                   for file in self.system.open_files(self.gateway) or [])

    def check_base(self):
        """The base ID that a running gateway uses, compared with the one that its radio module reports now. A report
        that is in the lines already may be that of an earlier stick."""
        if not self.takes_orders:
            return
        module = f"the radio module at {self.settings['SERIAL']}"
        used_base = self.system.option_value(self.gateway, "--base").upper()
        if not (self.system.is_root or os.access(self.desk, os.W_OK) and os.access(self.lines, os.R_OK)):
            yield self.unchecked_finding(f"the base ID of {module}")
            return
        answer = self.system.run(["enogatectl", "--timeout", ASK_TIMEOUT, self.name, "base"])
        if not ports.is_base(answer):
            yield FAULT, (f"{module} did not report its base ID within {ASK_TIMEOUT} s: after noise, the gateway may "
                          f"be waiting for the end of a packet, or SERIAL is wrong; {self.restart_advice}")
        elif answer != used_base:
            is_set = self.settings["BASE"].upper() not in ("", answer)
            correct = f"correct or remove BASE in /etc/default/enogate-{self.name}, and " if is_set else ""
            yield FAULT, (f"the gateway uses the base ID {used_base}, but that of {module} is {answer}: {correct}"
                          f"{self.restart_advice}")
        else:
            yield OK, f"base ID: {used_base}, as {module} reports"

    def check_earlier_base(self):
        """The base ID that a running gateway uses, compared with that of its first start, if no base ID is set."""
        path = self.system.path(f"/var/lib/enogate/{self.name}.base")
        if self.settings["BASE"] or not self.gateway or not exists(path):
            return
        if faults := self.irregularity_faults(path):
            yield from faults
            return
        with os.fdopen(files.open_file(path), encoding="ascii", errors="replace") as file:
            earlier_base = file.read(9).strip()
        used_base = self.system.option_value(self.gateway, "--base").upper()
        if fault := ports.other_stick_fault(earlier_base, used_base, self.settings["SERIAL"]):
            yield FAULT, fault

    def irregularity_faults(self, *paths: str):
        """The faults of files that are no regular files with one name. They are not opened: root could open a file of
        another user through a link, or wait for a pipe."""
        return [(FAULT, f"{path} is not a regular file with one name: move it, or remove its other names")
                for path in paths if is_irregular(path)]

    def rights_faults(self, does: str, *paths: tuple[str, int]):
        """The faults of files on which the user of the unit does not have these rights. The command that is recommended
        follows no link."""
        return [(FAULT, f"the user enogate may not {does} {path}: run: sudo chown -h enogate:enogate {path}")
                for path, rights in paths if exists(path) and not self.system.may_access(path, rights)]

    def check_lines(self):
        """The output file."""
        if faults := self.irregularity_faults(self.lines):
            yield from faults
            return
        yield from (faults := self.rights_faults("write", (os.path.dirname(self.lines), 3), (self.lines, 2)))
        if not exists(self.lines):
            yield OK, f"lines: {self.lines} does not exist yet"
            return
        if faults and not files.is_safe(self.lines):
            return
        with os.fdopen(files.open_file(self.lines), "rb") as file:
            size = file.seek(0, os.SEEK_END)
            file.seek(max(size - 1, 0))
            is_whole = file.read(1) in (b"", b"\n")
        if is_whole:
            yield OK, f"lines: {self.lines}, {size} bytes"
        else:
            yield FAULT, (f"the last line of {self.lines} is truncated, because the disk was full or the power failed: "
                          "programs that read it must skip this line, and the next start of the gateway ends it")

    def check_database(self):
        """The database: rights, users, and contents."""
        if faults := self.irregularity_faults(*(self.database + file_end for file_end in ("", "-wal", "-shm"))):
            yield from faults
            return
        faults = self.rights_faults("read and write", (os.path.dirname(self.database), 7), (self.database, 6),
                                    (self.database + "-wal", 6))
        yield from faults
        if not exists(self.database):
            yield OK, f"database: {self.database} does not exist yet; the first start makes it"
            return
        if faults and not all(map(files.is_safe, self.database_files())):
            return
        users, sees_all = self.system.users_of(self.database)
        other_processes = sorted({*users, *self.system.lockers_of(self.database)} - {self.gateway},
                                 key=lambda process: process.number)
        for process in other_processes:
            yield FAULT, f"{process} uses the database {self.database}: end it"
        if not sees_all and not other_processes:
            yield self.unchecked_finding(f"programs of other users that use {self.database}")
        if self.gateway:
            yield OK, f"database: {self.database}, used by {self.gateway}"
        elif not other_processes:
            yield self.check_contents()

    def database_files(self) -> list[str]:
        """The database and its write-ahead log, if there is one."""
        return [path for path in (self.database, self.database + "-wal") if exists(path)]

    def check_contents(self):
        """What is in the database, read from a copy: SQLite may write to a file and its log even if it only reads."""
        with tempfile.TemporaryDirectory(dir=MEMORY_FOLDER if os.access(MEMORY_FOLDER, os.W_OK) else None) as folder:
            for path in self.database_files():
                if not copy_if_small(path, f"{folder}/copy{path.removeprefix(self.database)}"):
                    return UNCHECKED, f"the contents of {path}, because it has more than {MAX_COPY_SIZE // MEGABYTE} MB"
            connection = sqlite3.connect(f"{folder}/copy")
            connection.set_progress_handler(lambda: 1, MAX_SQLITE_STEPS)
            try:
                return self.check_registry(connection)
            except sqlite3.Error as error:
                return FAULT, (f"{self.database} is not a database of enogate ({error}): restore a backup, or move the "
                               "file away; the next start then begins without devices")
            finally:
                connection.close()

    def check_registry(self, connection: sqlite3.Connection):
        """The version and the number of devices."""
        if not connection.execute("SELECT count(*) FROM sqlite_master WHERE name LIKE 'enogate_%'").fetchone()[0]:
            return OK, f"database: {self.database} has no tables yet; the next start makes them"
        version, = connection.execute("SELECT version FROM enogate_meta").fetchone() or (None,)
        if version not in DEVICE_TABLES:
            return FAULT, f"the version of {self.database} is {version}, not 1 or 2: install the newest enogate"
        count, = connection.execute(f"SELECT count(*) FROM {DEVICE_TABLES[version]}").fetchone()
        if count > 1000:
            return FAULT, f"{self.database} has {count} devices, and a gateway takes 1,000: remove some with sqlite3"
        return OK, f"database: {self.database}, version {version}, {count} devices"

    def check_space(self):
        """The disk space for the database and the lines."""
        for path, min_space in MIN_SPACE.items():
            # It may be a file system of its own. The sandbox of the unit makes the folders above it read-only.
            folder = self.system.path(f"{path}/enogate")
            is_made = exists(folder)
            status = os.statvfs(folder if is_made else self.system.path(path))
            if is_made and status.f_flag & os.ST_RDONLY:
                yield FAULT, f"{path}/enogate is on a read-only file system: look for errors of the disk with dmesg"
            free = status.f_bavail * status.f_frsize
            if free < min_space or (status.f_files and not status.f_favail):
                yield FAULT, (f"the file system of {path}/enogate has {free // 1024} KB and {status.f_favail} inodes "
                              "left: delete files there")
            else:
                yield OK, f"disk space: {free // MEGABYTE} MB for {path}/enogate"

    def check_units(self):
        """Whether the gateway and, if it is enabled, its bridge run."""
        unit, bridge = f"enogate@{self.name}", f"enogate-mqtt@{self.name}"
        unit_state = self.system.unit_state(unit)
        if not unit_state:
            yield UNCHECKED, f"whether {unit} and {bridge} run: systemctl does not answer"
            return
        if unit_state in ("inactive", "failed") and not self.gateway:
            yield FAULT, f"{unit} is not running ({unit_state}): run: sudo systemctl start {unit}"
        elif unit_state == "active" and not self.gateway:
            yield FAULT, f"{unit} is waiting, for a reason that this command prints: sudo journalctl -n 20 -u {unit}"
        else:
            yield OK, f"{unit} is {unit_state}"
        enabled_state, unit_state = self.system.unit_state(bridge, "is-enabled"), self.system.unit_state(bridge)
        if unit_state == "failed" or (enabled_state == "enabled" and unit_state == "inactive"):
            yield FAULT, f"{bridge} is not running ({unit_state}): run: sudo journalctl -n 20 -u {bridge}"
        else:
            yield OK, f"{bridge} is {unit_state}"


def main(arguments: list[str] | None = None, system: System | None = None) -> int:
    """Runs the program, and returns its exit status."""
    parser = argparse.ArgumentParser(
        prog="enogate-check", allow_abbrev=False, description="Check everything that a gateway needs: settings, serial "
        "port, base ID, desk, output, database, disk space and units. Print one sentence per fault.",
        epilog="The exit status is 0 if there is no fault, 1 if there are faults, and 2 if the command line is "
        "invalid. Run it as root to check everything.")
    parser.add_argument("name", metavar="NAME", nargs="?", help="name of the gateway (default: all of them)")
    parser.add_argument("--verbose", action="store_true", help="also print what is in order")
    parser.add_argument("--quiet", action="store_true", help="do not print what could not be checked")
    parser.add_argument("--version", action="version", version=f"enogate-check {VERSION}")
    words = parser.parse_args(arguments)
    signal.signal(signal.SIGPIPE, signal.SIG_DFL)
    if words.name is not None and not gateways.is_name(words.name):
        parser.error(str(gateways.InvalidName(words.name)))
    system = system or System()
    if words.name and (reason := gateways.why_unknown(gateways.paths_of(words.name, system.root), system.root)):
        parser.error(reason)
    names = gateways.gateway_names(system.root) if words.name is None else [words.name]
    if not names:
        parser.error("no gateway is found on this machine: give a NAME")
    shown_kinds = {FAULT} | ({UNCHECKED} if not words.quiet else set()) | ({OK} if words.verbose else set())
    is_faulty = False
    for name in names:
        for kind, text in Check(name, system).findings():
            is_faulty |= kind == FAULT
            if kind in shown_kinds:
                print(f"{name}: {'' if kind == FAULT else kind + ': '}{text}", flush=True)
    return int(is_faulty)
