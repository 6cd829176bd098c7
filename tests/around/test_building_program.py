"""The program virtual-building at terminals and its socket, and `make building` with two gateways and their bridges."""
from __future__ import annotations

import contextlib
import os
import pathlib
import re
import select
import shutil
import signal
import socket
import stat
import subprocess
import sys
import tempfile
import time
import unittest

from bridge_testcase import MAY_SKIP, missing_requirement
from enogate_tools import port as ports
from programs import WITHIN, Program, lines_of, wait_for
from services import CONTRIB, CTL, PROGRAM, ROOT

COMMAND, MODULES, TESTS = CONTRIB / "virtual-building", CONTRIB / "enogate_building", ROOT / "tests/building"
NOBODY = 65534
OK, FAILED, UNREPORTED = 0, 1, 4
WITHIN_A_MINUTE = 60.0


class Simulator(Program):
    """The program in a folder."""

    def __init__(self, folder: pathlib.Path):
        super().__init__(folder / "journal")
        self.folder = folder

    def start(self, *words: str) -> None:
        (self.folder / "out").unlink(missing_ok=True)
        self.run([sys.executable, "-B", COMMAND, *words, self.folder], self.folder / "out")
        assert wait_for(lambda: lines_of(self.folder / "out"), bool), self.journal()

    def command(self, *words: str, text: str = "") -> tuple[int, str]:
        """The exit status of a command, and the answers."""
        process = subprocess.run([sys.executable, "-B", COMMAND, self.folder, *words], input=text, text=True,
                                 stdout=subprocess.PIPE, stderr=subprocess.STDOUT, timeout=WITHIN)
        return process.returncode, process.stdout


class SimulatorTest(unittest.TestCase):
    """A quiet building with two sticks, and no gateway."""

    maxDiff = None

    def setUp(self) -> None:
        self.folder = pathlib.Path(self.enterContext(tempfile.TemporaryDirectory()))
        self.simulator = self.enterContext(Simulator(self.folder))
        self.simulator.start("--quiet")

    def open_stick(self, name: str) -> int:
        """Opens the terminal of a stick, as a gateway does."""
        path = str(self.folder / f"{name}.stick")
        port = ports.open_port(path)
        self.addCleanup(os.close, port)
        ports.configure(port, path)
        return port

    def read(self, port: int) -> bytes:
        """What a stick brings."""
        return os.read(port, 4096) if select.select([port], [], [], 10)[0] else b""

    def test_each_stick_reports_its_base_id(self) -> None:
        for name, base in (("ground", "FF800000"), ("attic", "FF801000"), ("ground", "FF800000")):
            self.assertEqual(ports.module_base(str(self.folder / f"{name}.stick")), base)

    def test_a_press_is_heard_at_a_stick(self) -> None:
        port = self.open_stick("ground")
        self.assertEqual(self.simulator.command("press", "01800A03", "BI"), (OK, "ok\n"))
        self.assertRegex(self.read(port).hex(), "^55000707017af65001800a033001ffffffff")
        self.assertRegex(self.read(port).hex(), "^55000707017af60001800a032001ffffffff")

    def test_answers_and_exit_statuses(self) -> None:
        self.assertEqual(self.simulator.command("-", text="open 01800A01\nclose 01800A01\n"), (OK, "ok\nok\n"))
        status, answers = self.simulator.command("-", text="open 01800A01\nopen 01800A03\n\nnoise\n")
        self.assertEqual((status, re.findall("^(?:ok$|error:)", answers, re.MULTILINE)),
                         (FAILED, ["ok", "error:", "error:", "ok"]))
        self.simulator.end()
        status, answers = self.simulator.command("noise")
        self.assertEqual(status, FAILED)
        self.assertIn(f"virtual-building: {self.folder}/control: No such file or directory: ", answers)

    def test_an_unplugged_stick(self) -> None:
        port = self.open_stick("ground")
        self.assertFalse(ports.is_hung_up(port))
        self.simulator.command("unplug", "ground")
        self.assertTrue(wait_for(lambda: ports.is_hung_up(port), bool))
        self.assertFalse(os.path.lexists(self.folder / "ground.stick"))
        self.assertEqual(self.simulator.command("plug", "ground"), (OK, "ok\n"))
        self.assertEqual(ports.module_base(str(self.folder / "ground.stick")), "FF800000")

    def test_only_gateways_have_a_terminal_open(self) -> None:
        """enogate-check reports every program that uses the stick of a gateway."""
        terminal = os.stat(self.folder / "ground.stick")
        for folder in pathlib.Path("/proc").glob("[0-9]*/fd"):
            with contextlib.suppress(OSError):
                for file in folder.iterdir():
                    # Other systems on this computer have terminals with the same names.
                    self.assertFalse(os.path.samestat(os.stat(file), terminal), file)

    def test_a_second_signal_does_not_stop_the_end(self) -> None:
        for _ in range(20):
            self.simulator.send(signal.SIGTERM)
        self.simulator.process.wait(WITHIN)
        self.assertTrue(wait_for(lambda: not os.path.lexists(self.folder / "control"), bool), self.simulator.journal())
        self.assertEqual(self.simulator.journal(), [])

    def test_noise(self) -> None:
        port = self.open_stick("attic")
        self.simulator.command("noise")
        self.assertEqual(len(self.read(port)), 100)

    def test_without_a_gateway_it_sleeps(self) -> None:
        """A gateway that has ended is an event that lasts."""
        os.close(ports.open_port(str(self.folder / "ground.stick")))
        process = subprocess.run(["pgrep", "-g", str(self.simulator.process.pid), "-f", "virtual-building --quiet"],
                                 capture_output=True, text=True)
        ticks_used = [self.used_ticks(number) for number in process.stdout.split()]
        time.sleep(1)
        self.assertEqual([self.used_ticks(number) for number in process.stdout.split()], ticks_used)
        self.assertTrue(ticks_used)

    @staticmethod
    def used_ticks(process: str) -> list[str]:
        """The processor time of a process."""
        return pathlib.Path(f"/proc/{process}/stat").read_text().rsplit(") ", 1)[1].split()[11:13]

    def test_only_its_user_gives_commands(self) -> None:
        path = self.folder / "control"
        self.assertEqual(stat.S_IMODE(path.stat().st_mode), 0o600)
        if os.geteuid():
            self.skipTest("only root can become another user")
        self.folder.chmod(0o755)
        script = "import socket, sys; socket.socket(socket.AF_UNIX).connect(sys.argv[1])"
        process = subprocess.run([sys.executable, "-c", script, path], user=NOBODY, group=NOBODY, extra_groups=[],
                                 capture_output=True, text=True)
        self.assertIn("PermissionError", process.stderr)

    def test_what_is_no_line(self) -> None:
        """A part of a line is refused, and so is all that was sent with it. A silent program does not stop the rest."""
        for request in (b"unplug ground", b"unplug ground\nunplug att", b"\n", b"x" * 5000):
            with contextlib.closing(socket.socket(socket.AF_UNIX)) as client:
                client.connect(str(self.folder / "control"))
                client.sendall(request)
                self.assertTrue(client.recv(4096).startswith(b"error: "), request)
        with contextlib.closing(socket.socket(socket.AF_UNIX)) as silent:
            silent.connect(str(self.folder / "control"))
            self.assertEqual(self.simulator.command("send", "01800A01"), (OK, "ok\n"))
        self.assertTrue(self.simulator.is_running())
        self.assertTrue(os.path.lexists(self.folder / "ground.stick"))

    def test_nothing_is_left(self) -> None:
        self.simulator.end(signal.SIGTERM)
        self.assertEqual(self.simulator.journal(), ["Terminated"] * len(self.simulator.journal()))
        self.assertEqual(sorted(path.name for path in self.folder.iterdir()), ["journal", "out"])

    def test_only_one_building_runs_in_a_directory(self) -> None:
        self.assertEqual(self.simulator.command(), (FAILED, f"virtual-building: a building runs in {self.folder}\n"))
        self.simulator.end(signal.SIGKILL)
        self.simulator.start("--quiet")
        self.assertEqual(ports.module_base(str(self.folder / "ground.stick")), "FF800000")

    def test_files_of_others_are_not_replaced(self) -> None:
        for name in ("control", "ground.stick"):
            folder = pathlib.Path(self.enterContext(tempfile.TemporaryDirectory()))
            (folder / name).write_text("mine")
            process = subprocess.run([sys.executable, "-B", COMMAND, folder], capture_output=True, text=True,
                                     timeout=20)
            self.assertEqual((process.returncode, (folder / name).read_text()), (FAILED, "mine"), process.stderr)

    def test_wrong_command_lines_and_sheets(self) -> None:
        sheet = self.folder / "sheet.csv"
        sheet.write_text("id,eep\n01800A01,A5-99-99\n")
        for words, status, text in ((["--stick", "a"], 2, "'a' is not NAME:"), (["--speed", "0"], 2, "--speed"),
                                    (["--stick", "../a:1,1,1"], 2, "NAME:"), (["--seed", "x"], 2, "--seed"),
                                    (["--sheet", str(sheet)], 1, "row 2: "), (["--sheet", "/none"], 1, "/none")):
            process = subprocess.run([sys.executable, "-B", COMMAND, *words, self.folder / "other"],
                                     capture_output=True,
                                     text=True, timeout=20)
            self.assertEqual(process.returncode, status, words)
            self.assertIn(text, process.stderr)


class WholeBuilding(unittest.TestCase):
    """`make building`. The tests share the building, and each uses devices of its own."""

    @classmethod
    def setUpClass(cls) -> None:
        cls.folder = pathlib.Path(cls.enterClassContext(tempfile.TemporaryDirectory()))
        cls.building = cls.enterClassContext(Program(cls.folder / "journal"))
        start_time = time.monotonic()
        cls.building.run([ROOT / "scripts/building", PROGRAM], cls.folder / "out", BUILDING=str(cls.folder / "files"))
        deadline = start_time + WITHIN_A_MINUTE
        while not any("until you press Ctrl-C" in line for line in lines_of(cls.folder / "out")):
            assert time.monotonic() < deadline, (lines_of(cls.folder / "out"), cls.building.journal())
            time.sleep(0.1)
        cls.seconds = time.monotonic() - start_time

    @classmethod
    def ctl(cls, name: str, *words: str) -> subprocess.CompletedProcess[str]:
        files = cls.folder / "files"
        return subprocess.run([sys.executable, "-B", CTL, "--desk", files / f"{name}.desk", "--lines",
                               files / f"{name}.lines", name, *words], capture_output=True, text=True)

    def command(self, *words: str) -> str:
        """The answer of the building to a command."""
        words = (sys.executable, "-B", str(COMMAND), str(self.folder / "files"), *words)
        return subprocess.run(words, capture_output=True, text=True).stdout

    def test_all_devices_are_learned_and_have_sent(self) -> None:
        """50 devices: each is learned once, with its label. All but the switches have sent what they measure."""
        rows = [line for name in ("ground", "attic") for line in self.ctl(name, "list").stdout.splitlines()[1:]]
        self.assertEqual(len(rows), 50, rows)
        self.assertEqual(len({re.search("0180[0-9A-F]{4}", row)[0] for row in rows}), 50)
        silent = wait_for(lambda: [row for name in ("ground", "attic")
                                   for row in self.ctl(name, "devices").stdout.splitlines()[1:] if "dBm" not in row],
                          lambda observation: not observation)
        self.assertEqual(silent, [])
        self.assertLess(self.seconds, WITHIN_A_MINUTE)

    def test_an_actuator_obeys_its_gateway_only(self) -> None:
        """The other gateway learns it by its ID, so it gives the order, and gets no answer."""
        switch_result = self.ctl("ground", "--wait", "5", "switch", "01800A2D", "1", "on")
        self.assertEqual((switch_result.returncode, switch_result.stdout), (OK, "channel 1: Output 100 %\n"),
                         switch_result)
        self.assertEqual(self.ctl("attic", "add", "01800A2D", "D2-01-12").stdout, "accepted\n")
        self.assertEqual(self.ctl("attic", "--wait", "2", "switch", "01800A2D", "1", "off").returncode, UNREPORTED)
        query_result = self.ctl("ground", "--wait", "5", "query", "01800A2D", "1")
        self.assertEqual(query_result.stdout, "channel 1: Output 100 %\n", query_result)

    def test_a_press_and_a_window(self) -> None:
        for words, text in ((("press", "01800A03", "B0"), '"id":"01800A03","readings":[{"name":"R1","word":"B0"}'),
                            (("open", "01800A01"), '"id":"01800A01","readings":[{"name":"CO","word":"open"}]')):
            self.assertEqual(self.command(*words), "ok\n")
            lines = self.folder / "files/ground.lines"
            self.assertTrue(wait_for(lambda: text in lines.read_text(), bool), words)

    def test_the_devices_are_at_the_broker(self) -> None:
        if MAY_SKIP and missing_requirement():
            self.skipTest(missing_requirement())
        port = re.search("listener ([0-9]+) ", (self.folder / "files/broker.conf").read_text())[1]
        words = ["mosquitto_sub", "-p", port, "--retained-only", "-W", "2", "-t", "enogate/+/+/dbm", "-F", "%t"]

        def published() -> set[str]:
            return set(subprocess.run(words, capture_output=True, text=True).stdout.split())

        self.assertEqual(len(wait_for(published, lambda observation: len(observation) >= 50)), 50)

    def test_what_it_prints(self) -> None:
        """Each command that it prints can be run."""
        command_lines = [line for line in lines_of(self.folder / "out") if line.startswith("  ")]
        for line in command_lines:
            words = re.sub(".*?(contrib/|tail|mosquitto_sub)", r"\1", line, count=1)
            self.assertTrue(shutil.which(words.split()[0], path=f"{ROOT}:{os.environ['PATH']}")
                            or (ROOT / words.split()[0]).exists(), line)
        [order] = [line.split("an order")[1].strip() for line in command_lines if "an order" in line]
        process = subprocess.run(["sh", "-c", order], cwd=ROOT, capture_output=True, text=True)
        self.assertEqual((process.returncode, process.stdout), (OK, "ok\n"), process)


class EndOfBuilding(unittest.TestCase):
    """What is left of `make building`."""

    def test_nothing_runs_on(self) -> None:
        folder = pathlib.Path(self.enterContext(tempfile.TemporaryDirectory()))
        building = self.enterContext(Program(folder / "journal"))
        building.run([ROOT / "scripts/building", PROGRAM], folder / "out", BUILDING=str(folder / "files"))
        self.assertTrue(wait_for((folder / "files/attic.lines").exists, bool), building.journal())
        os.kill(self.child(building.process.pid), signal.SIGINT)
        building.process.wait(30)
        self.assertEqual(subprocess.run(["pgrep", "-f", str(folder)], capture_output=True, text=True).stdout, "")

    @staticmethod
    def child(process: int) -> int:
        """The only child of a process."""
        return int(pathlib.Path(f"/proc/{process}/task/{process}/children").read_text().split()[0])

    def test_without_a_program(self) -> None:
        process = subprocess.run([ROOT / "scripts/building", "/none"], capture_output=True, text=True)
        self.assertEqual((process.returncode, process.stderr),
                         (1, "/none not found: run `make demo` or `make build` first\n"))
