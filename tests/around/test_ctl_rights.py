"""The rights of each user on the files of a gateway. The commands of the units make these files, with the user and the
settings of the units; only the program is another one. Needs root, but no built program."""
from __future__ import annotations

import contextlib
import datetime
import fcntl
import gzip
import os
import pathlib
import re
import shutil
import sqlite3
import stat
import subprocess
import sys
import tempfile
import unittest
from typing import Any, Callable, Iterator

from bridge_testcase import MAY_SKIP, PYTHON
from enogate_ctl.backup import write_backup
from enogate_tools.check import Check
from enogate_tools.gateways import gateway_names
from enogate_tools.system import System
from programs import wait_for
from services import BASE, Stick

HERE = pathlib.Path(__file__).resolve().parent
ROOT = HERE.parents[1]
CONTRIB = ROOT / "contrib"
# The users: each has an ID, and its groups. The first group of the service is the group `enogate`.
SERVICE, MEMBER, OTHER, SUPERUSER = 61000, 61001, 61002, 0
GROUPS = {SERVICE: [61000], MEMBER: [61001, 61000], OTHER: [61002], SUPERUSER: [0]}
# What the unit runs in place of the gateway: it writes what a gateway writes.
PROGRAM = '#!/bin/sh\n: >"$DATABASE"\n: >"$DATABASE-wal"\necho \'{"type":"ok"}\'\n'


def setting(unit: str, name: str) -> str:
    """A setting of a unit."""
    setting_match = re.search(rf"^{name}=(.*)$", (CONTRIB / f"{unit}@.service").read_text(), re.MULTILINE)
    assert setting_match, (unit, name)
    return setting_match[1]


def as_user(user: int, see: Callable[[], Any]) -> str:
    """What `see` returns, as a text, if this user calls it; the name of the error if it fails."""
    read_end, write_end = os.pipe()
    child = os.fork()
    if not child:
        try:
            os.setgroups(GROUPS[user])
            os.setresgid(*GROUPS[user][:1] * 3)
            os.setresuid(user, user, user)
            os.write(write_end, str(see()).encode())
        except BaseException as error:
            os.write(write_end, type(error).__name__.encode())
        finally:
            os._exit(0)
    os.close(write_end)
    os.waitpid(child, 0)
    with os.fdopen(read_end, "rb") as file:
        return file.read().decode()


class RightsTest(unittest.TestCase):
    """The directories of the units as systemd makes them, and the files after a start of the gateway."""

    maxDiff = None
    as_service = ("setpriv", "--reuid", str(SERVICE), "--regid", str(SERVICE), "--clear-groups")

    def setUp(self) -> None:
        if MAY_SKIP and os.getuid():
            self.skipTest("needs root")
        self.work = pathlib.Path(self.enterContext(tempfile.TemporaryDirectory())).resolve()
        self.work.chmod(0o755)
        self.desk = self.work / "run/enogate/hall/desk"
        self.lines, self.database = self.work / "log/enogate/hall.lines", self.work / "lib/enogate/hall.db"
        self.state = self.work / "lib/enogate-mqtt/hall.db"
        for path, unit, name in ((self.desk, "enogate", "RuntimeDirectoryMode"),
                                 (self.lines, "enogate", "LogsDirectoryMode"),
                                 (self.database, "enogate", "StateDirectoryMode"),
                                 (self.state, "enogate-mqtt", "StateDirectoryMode")):
            path.parent.mkdir(parents=True)
            path.parent.chmod(int(setting(unit, name), 8))
            os.chown(path.parent, SERVICE, SERVICE)
        shutil.copytree(CONTRIB / "enogate_tools", self.work / "bin/enogate_tools")
        shutil.copy(CONTRIB / "enogate-port", self.work / "bin")
        program = self.work / "bin/enogate"
        program.write_text(PROGRAM)
        program.chmod(0o755)
        self.stick = self.enterContext(Stick(self.work))
        self.stick.start()
        os.chown(self.stick.path, SERVICE, SERVICE)

    def start(self) -> None:
        """Runs the commands of the unit of the gateway to their end, and makes the state of its bridge."""
        words = [sys.executable, HERE / "unit.py", CONTRIB / "enogate@.service", self.work, "hall"]
        script = self.work / "script"
        script.write_bytes(subprocess.run(words, check=True, stdout=subprocess.PIPE).stdout)
        settings = {"PATH": f"{self.work}/bin:{os.environ['PATH']}", "BASE": BASE,
                    "SERIAL": str(self.stick.path), "TURNS": "1", "EXPLAIN": "", "DATABASE": str(self.database)}
        words = ["timeout", "10", *self.as_service, "sh", script]
        run = subprocess.run(words, env=settings, capture_output=True, text=True, cwd="/")
        self.assertEqual((run.returncode, run.stderr), (0, "exited after 1 read cycles (TURNS), with the stick plugged "
                                                        "in\n"))
        self.assertEqual(as_user(SERVICE, self.make_state), "None")

    def make_state(self) -> None:
        """What the bridge does at its first start."""
        os.umask(int(setting("enogate-mqtt", "UMask"), 8))
        self.state.with_name("another").touch()
        with contextlib.closing(sqlite3.connect(self.state)) as connection:
            connection.execute("CREATE TABLE IF NOT EXISTS place (inode)")

    def make_registry(self, path: pathlib.Path) -> None:
        """Makes a database of the service."""
        with contextlib.closing(sqlite3.connect(path)) as connection:
            connection.executescript("CREATE TABLE enogate_meta AS SELECT 2 AS version; CREATE TABLE enogate_device_v2 "
                                     "(id)")
        os.chown(path, SERVICE, SERVICE)

    def mode(self, path: pathlib.Path) -> str:
        """The mode of a file."""
        return f"{path.stat().st_mode & 0o7777:04o}"


class GroupMember(RightsTest):
    """A member of the group gives orders, and changes nothing else."""

    def modes(self) -> dict[str, str]:
        """The mode of each file."""
        return {path.name: self.mode(path) for path in self.files()}

    def files(self) -> Iterator[pathlib.Path]:
        """The files of the gateway."""
        for folder in (self.desk.parent, self.lines.parent, self.database.parent):
            yield from sorted(folder.iterdir())

    def test_only_the_desk_may_be_written(self):
        self.start()
        expected_modes = {"desk": "0660", "hall.base": "0640", "hall.lines": "0640", "hall.db": "0640",
                          "hall.db-wal": "0640"}
        self.assertEqual(self.modes(), expected_modes)
        self.assertEqual([self.mode(self.state.with_name(name)) for name in ("hall.db", "another")], ["0640"] * 2)
        self.start()
        self.assertEqual(self.modes(), expected_modes)

    def test_a_gateway_that_has_only_a_database_or_a_desk_is_hidden_from_others(self):
        self.database.with_name("cellar.db").touch()
        (self.work / "var").mkdir()
        (self.work / "var/lib").symlink_to(self.work / "lib")
        self.desk.touch()
        for user, expected_names in ((MEMBER, ["cellar", "hall"]), (OTHER, []), (SUPERUSER, ["cellar", "hall"])):
            self.assertEqual(as_user(user, lambda: gateway_names(str(self.work))), str(expected_names))

    def test_forged_and_emptied_lines(self):
        self.start()
        lines_before = self.lines.read_bytes()
        for mode in ("a", "w", "r+"):
            self.assertEqual(as_user(MEMBER, lambda: self.lines.open(mode)), "PermissionError")
        self.assertEqual(as_user(MEMBER, self.lines.read_bytes), str(lines_before))
        self.assertEqual(as_user(MEMBER, self.give_order), "5")
        self.assertEqual((self.desk.read_text(), self.lines.read_bytes()), ("list\n", lines_before))

    def give_order(self) -> int:
        with self.desk.open("a") as desk:
            return desk.write("list\n")

    def test_files_of_older_versions(self):
        """Their lines could be written by the group, and the desk of a start without this command only by the user."""
        for name in ("hall.lines", "hall.lines.1", "hall.lines.2.gz"):
            path = self.lines.with_name(name)
            path.write_text("{}\n")
            path.chmod(0o660)
        self.desk.write_text("old\n")
        self.desk.chmod(0o640)
        for path in self.files():
            os.chown(path, SERVICE, SERVICE)
        self.start()
        self.assertEqual(self.modes(), {
            "desk": "0660", "hall.lines": "0640", "hall.lines.1": "0640", "hall.lines.2.gz": "0640",
            "hall.base": "0640", "hall.db": "0640", "hall.db-wal": "0640"})
        self.assertEqual((self.desk.read_text(), self.lines.read_text()), ("", '{}\n{"type":"ok"}\n'))

    def test_a_start_replaces_a_desk_that_is_none(self):
        """Such as a file of root, or a pipe, for which it would wait. Otherwise it keeps the file: the bridge reads
        it."""
        self.start()
        with self.desk.open() as old_desk_file:
            self.start()
            self.assertTrue(os.path.samestat(os.fstat(old_desk_file.fileno()), self.desk.stat()))
        other_path = self.work / "other"
        other_path.write_text("kept\n")
        os.chown(other_path, SERVICE, SERVICE)
        for make in (self.desk.touch, self.make_pipe, lambda: self.desk.symlink_to(other_path),
                     lambda: self.desk.symlink_to("/none")):
            self.desk.unlink()
            make()
            self.start()
            status = self.desk.lstat()
            self.assertEqual((stat.S_ISREG(status.st_mode), status.st_uid), (True, SERVICE))
            self.assertEqual(self.mode(self.desk), "0660")
        self.assertEqual(other_path.read_text(), "kept\n")

    def make_pipe(self) -> None:
        """Makes a pipe of the service."""
        os.mkfifo(self.desk)
        os.chown(self.desk, SERVICE, SERVICE)

    def test_rotated_lines(self):
        """logrotate keeps the modes, and the user of the unit, who is that of the bridge, may read each file."""
        if MAY_SKIP and not shutil.which("logrotate"):
            self.skipTest("logrotate is not installed")
        self.start()
        rotation = self.work / "rotation"
        text = (CONTRIB / "enogate.logrotate").read_text()
        self.assertIn("    su enogate enogate\n", text)
        rotation.write_text(text.replace("/var/log", f"{self.work}/log").replace("    su enogate enogate\n", ""))
        for _ in range(3):
            words = [*self.as_service, "logrotate", "-f", "-s", self.desk.with_name("rotated"), rotation]
            run = subprocess.run(words, capture_output=True, text=True, cwd="/")
            self.assertEqual((run.returncode, run.stderr), (0, ""))
            self.start()
        self.assertEqual({name: mode for name, mode in self.modes().items() if name.startswith("hall.lines")}, {
            name: "0640" for name in ("hall.lines", "hall.lines.1", "hall.lines.2.gz", "hall.lines.3.gz")})
        for path in self.lines.parent.iterdir():
            self.assertEqual([as_user(user, lambda: len(path.read_bytes()) > 0) for user in (SERVICE, MEMBER, OTHER)],
                             ["True", "True", "PermissionError"])


class RightsTable(RightsTest):
    """Each cell of the table in docs/guide/access.md."""

    def setUp(self) -> None:
        super().setUp()
        self.start()
        shutil.copy2(self.lines, f"{self.lines}.1")
        for path in (self.database.with_name("hall.db-wal"), self.lines.with_name("hall.lines.1")):
            os.chown(path, SERVICE, SERVICE)
        mode = re.search(r"^d /var/backups/enogate (\d+) enogate enogate", (CONTRIB / "enogate.tmpfiles").read_text(),
                         re.MULTILINE)
        assert mode
        backups, settings = self.work / "backups/enogate", self.work / "etc/default"
        for folder in (backups, settings):
            folder.mkdir(parents=True)
        backups.chmod(int(mode[1], 8))
        os.chown(backups, SERVICE, SERVICE)
        made_database = self.work / "made/hall.db"
        made_database.parent.mkdir()
        os.chown(made_database.parent, SERVICE, SERVICE)
        self.make_registry(made_database)
        words = [CONTRIB / "enogate-backup", made_database, backups / "hall.db"]
        run = subprocess.run(words, capture_output=True, text=True, cwd="/")
        self.assertEqual((run.returncode, run.stderr), (0, ""))
        day = datetime.datetime(2026, 12, 1).timestamp()
        path = as_user(SERVICE, lambda: write_backup(str(backups), "hall", [], day)[0])
        self.assertEqual(path, f"{backups}/hall-2026-12-01.tar.gz")
        self.assertIn(b"devices.csv", gzip.decompress(pathlib.Path(path).read_bytes()))
        for mode, source, target in re.findall(r"^system +(\d+) (\S+) +(/etc/default/\S+)$",
                                               (ROOT / "packaging/files").read_text(), re.MULTILINE):
            shutil.copy(ROOT / source, f"{self.work}{target}")
            os.chmod(f"{self.work}{target}", int(mode, 8))
        shutil.copy(settings / "enogate", settings / "enogate-hall")

    @staticmethod
    def table() -> list[list[str]]:
        """The rows of the table: a path, and what root, the service, a member of the group and others may do."""
        text = (ROOT / "docs/guide/access.md").read_text()
        rows = re.findall(r"^\| `(/\S+)` \| (.*) \| (.*) \| (.*) \| (.*) \|$", text, re.MULTILINE)
        return [list(row) for row in rows]

    def rights(self, path: pathlib.Path) -> str:
        """What this process may do with a file."""
        def rename() -> None:
            path.rename(path.with_name("renamed"))
            path.with_name("renamed").rename(path)
        tries = {"read": lambda: path.open("rb").close(), "write": lambda: path.open("r+b").close(),
                 "rename": rename}
        rights_found = []
        for name, attempt in tries.items():
            with contextlib.suppress(PermissionError):
                attempt()
                rights_found.append(name)
        return ", ".join(rights_found) or "nothing"

    def test_each_cell(self):
        table = self.table()
        self.assertEqual(len(table), 14)
        for name, *cells in table:
            path = self.work / name.removeprefix("/var").removeprefix("/")
            self.assertTrue(path.is_file(), path)
            for user, cell in zip((SUPERUSER, SERVICE, MEMBER, OTHER), cells):
                with self.subTest(name, user=user):
                    self.assertEqual(as_user(user, lambda: self.rights(path)), cell)

    def test_each_file_is_in_the_table(self):
        """Each one that the unit makes."""
        listed_files = {name.removeprefix("/var") for name, *_ in self.table()}
        for folder in ("run", "log", "lib"):
            existing_files = {f"/{path.relative_to(self.work)}"
                              for path in (self.work / folder).rglob("*") if path.is_file()}
            self.assertEqual(existing_files - listed_files - {"/lib/enogate-mqtt/another"}, set())


class RootTools(RightsTest):
    """The programs that run as root, with links, pipes and devices of the service in their way."""

    SECRET = b"root's secret\n"

    def setUp(self) -> None:
        super().setUp()
        self.start()
        self.tools = self.work / "tools"
        for name in ("enogate_ctl", "enogate_lines", "enogate_mqtt", "enogate_tools", "share"):
            shutil.copytree(CONTRIB / name, self.tools / name, ignore=shutil.ignore_patterns("__pycache__"))
        for path in (CONTRIB / "enogatectl", CONTRIB / "enogate-backup", HERE / "gateway.py"):
            shutil.copy(path, self.tools)
        # the layout that enogate-check expects
        (self.work / "var").symlink_to(self.work)
        (self.work / "etc/default").mkdir(parents=True)
        (self.work / "etc/default/enogate").write_text("TURNS=5\nSERIAL=/none\n")
        self.secret = self.work / "secret"
        self.secret.write_bytes(self.SECRET)
        self.secret.chmod(0o600)

    def ctl(self, *words: str, user: int = SUPERUSER) -> tuple[int, str]:
        """The status and the errors of enogatectl with the files of the unit, as this user, within ten seconds."""
        return self.run_as(user, PYTHON, "-B", self.tools / "enogatectl", "--timeout", "0.5", "--desk", self.desk,
                           "--lines", self.lines, "hall", *words)

    def run_as(self, user: int, *words: str | pathlib.Path) -> tuple[int, str]:
        """The status and the errors of a command."""
        groups = GROUPS[user]
        run = subprocess.run(words, user=user, group=groups[0], extra_groups=groups, capture_output=True, text=True,
                             timeout=10, cwd="/")
        self.assertNotIn("secret", run.stdout)
        return run.returncode, run.stderr.replace(str(self.work), "")

    def check(self) -> list[str]:
        """The faults that enogate-check finds at the files."""
        system = System(str(self.work), run=lambda _: "", user=lambda: (SERVICE, {SERVICE}))
        findings = Check("hall", system, sleep=lambda _: None).findings()
        return [text.replace(str(self.work), "") for kind, text in findings if kind == "fault" and "hall." in text]

    def obstacles(self, path: pathlib.Path) -> Iterator[str]:
        """Puts one thing after the other in place of a file, and yields what it is."""
        kept_path = path.with_name("kept")
        path.rename(kept_path)
        makers: dict[str, Callable[[], None]] = {
            "link": lambda: path.symlink_to(self.secret), "lost link": lambda: path.symlink_to("/none"),
            "link to a device": lambda: path.symlink_to("/dev/zero"), "pipe": lambda: os.mkfifo(path),
            "device": lambda: os.mknod(path, stat.S_IFCHR | 0o666, os.makedev(1, 5)),
            "hard link": lambda: path.hardlink_to(self.secret), "file of root": path.touch}
        for obstacle, make in makers.items():
            make()
            yield obstacle
            path.unlink(missing_ok=True)
            self.assertEqual(self.secret.read_bytes(), self.SECRET)
        kept_path.rename(path)

    @contextlib.contextmanager
    def gateway(self) -> Iterator[None]:
        """A stand-in for a gateway, which answers orders."""
        words = [*self.as_service, PYTHON, self.tools / "gateway.py", self.desk, self.lines, "0"]
        with subprocess.Popen(words, cwd="/") as process:
            try:
                wait_for(lambda: self.ctl("status")[0], lambda status: status == 0)
                yield
            finally:
                process.kill()

    def test_orders(self):
        """Root and a member of the group may give them, and root without its rights."""
        with self.gateway():
            for user in (SUPERUSER, SERVICE, MEMBER):
                self.assertEqual(self.ctl("list", user=user), (0, ""), user)
            self.assertEqual(self.ctl("list", user=OTHER), (
                3, "enogatectl: the desk /run/enogate/hall/desk cannot be opened: Permission denied; become root, or a "
                "member of the group enogate (log in again afterwards)\n"))

    def test_root_takes_on_the_rights_of_the_service(self):
        """And keeps none of its own groups."""
        words = [PYTHON, "-B", self.tools / "enogatectl", "--timeout", "20", "--desk", self.desk, "--lines", self.lines,
                 "hall", "status"]
        with subprocess.Popen(words, cwd="/", stderr=subprocess.DEVNULL, extra_groups=(SUPERUSER, OTHER)) as process:
            wait_for(self.desk.read_text, bool)
            status = pathlib.Path(f"/proc/{process.pid}/status").read_text()
            process.kill()
        ids_found = re.findall(r"^(?:Uid|Gid):\s*(.*)$", status, re.MULTILINE)
        self.assertEqual(ids_found, ["\t".join([str(SERVICE)] * 4)] * 2)
        self.assertEqual(re.findall(r"^Groups:\s*(\S*) *$", status, re.MULTILINE), [str(SERVICE)])

    def test_a_gateway_by_hand(self):
        """Its files are in a directory of a user."""
        for path in (self.desk.parent, self.desk, self.lines.parent, self.lines):
            os.chown(path, MEMBER, MEMBER)
        for user in (SUPERUSER, MEMBER):
            self.assertEqual(self.ctl("status", user=user)[1].partition(" within")[0],
                             "enogatectl: the gateway did not answer")
            self.assertEqual(self.desk.read_text(), "status\n")
            self.desk.write_text("")
            self.wait_for_lock()

    def wait_for_lock(self) -> None:
        """Waits until the process that keeps the lock has seen that the desk is empty."""
        def is_free() -> bool:
            with self.desk.open() as desk, contextlib.suppress(BlockingIOError):
                fcntl.flock(desk, fcntl.LOCK_EX | fcntl.LOCK_NB)
                return True
            return False
        self.assertTrue(wait_for(is_free, bool))

    def test_the_desk(self):
        reason_by_obstacle = {"pipe": "is not a file: ", "device": "is not a file: ",
                              "file of root": "is not used, because it does not belong to the owner of its directory: ",
                              "hard link": "is not used, because it has a second name (a hard link): "}
        for obstacle in self.obstacles(self.desk):
            with self.subTest(obstacle):
                status, text = self.ctl("list")
                self.assertEqual(status, 3)
                self.assertIn("enogatectl: the desk /run/enogate/hall/desk "
                              + reason_by_obstacle.get(obstacle, "is not used, because it is a symbolic link: "), text)
                self.assertEqual(text.count("\n"), 1)

    def test_the_lines(self):
        for obstacle in self.obstacles(self.lines):
            with self.subTest(obstacle):
                for order, status in (("list", 3), ("devices", 1), ("lines", 1)):
                    exit_status, text = self.ctl(order)
                    self.assertEqual((exit_status, text.count("\n")), (status, 1), text)
                    self.assertIn("enogatectl: the lines /log/enogate/hall.lines cannot be read: it ", text)
                self.assertEqual(len(self.check()), 1)
                self.assertIn("/var/log/enogate/hall.lines", self.check()[0])
        self.assertEqual((self.desk.read_text(), self.check()), ("", []))

    def test_the_database(self):
        self.make_registry(self.database)
        copy_path = self.database.with_name("copy.db")
        words = (self.tools / "enogate-backup", self.database, copy_path)
        for name in ("hall.db", "hall.db-wal"):
            for obstacle in self.obstacles(self.database.with_name(name)):
                with self.subTest(name, what=obstacle):
                    self.assertEqual(len(self.check()), 1)
                    self.assertIn(f"/var/lib/enogate/{name}", self.check()[0])
                    # an empty log of root is none that the service could use: it may only delete it
                    if (name, obstacle) != ("hall.db-wal", "file of root"):
                        self.assertEqual((self.run_as(SUPERUSER, *words)[0], copy_path.exists()), (1, False))
                    copy_path.unlink(missing_ok=True)
        self.assertEqual((self.check(), self.run_as(SUPERUSER, *words), copy_path.exists()), ([], (0, ""), True))


if __name__ == "__main__":
    unittest.main()
