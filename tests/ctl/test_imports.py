"""What a command imports: Python's start takes longer than an order."""
import pathlib
import subprocess
import sys
import unittest

from enogate_ctl.serve import PRELOADED_MODULES
from fakes import OK, GatewayFilesTest, device, end_of_list, status

CONTRIB = pathlib.Path(__file__).parents[2] / "contrib"
# Those of our modules that each command needs.
ORDER_MODULES = {
    "enogate_ctl", "enogate_ctl.answers", "enogate_ctl.client", "enogate_ctl.command_line", "enogate_ctl.desk_file",
    "enogate_ctl.fence", "enogate_ctl.grammar", "enogate_ctl.main", "enogate_ctl.stops", "enogate_lines",
    "enogate_lines.contents", "enogate_lines.follow", "enogate_tools", "enogate_tools.desk", "enogate_tools.files",
    "enogate_tools.gateways", "enogate_tools.share",
}
TEXT_MODULES = {"enogate_ctl.shown", "enogate_ctl.tables"}
TABLE_MODULES = {
    "enogate_ctl.device_table", "enogate_ctl.readings", "enogate_ctl.recent", "enogate_ctl.tables", "enogate_ctl.words",
    "enogate_lines.entities", "enogate_mqtt", "enogate_mqtt.state",
}
# Large modules of Python, and those that need a library.
SLOW_MODULES = {
    "ctypes", "csv", "dataclasses", "decimal", "fractions", "inspect", "logging", "pathlib", "shlex", "sqlite3",
    "subprocess", "urllib.parse",
}
OK_ANSWER = [status(), status(), OK, status()]
LIST_ANSWER = [status(), status(), device("01800ABC"), end_of_list(1), status()]
REPLACED_ANSWER = [device("01800ABC", "Lamp"), status(), status(), device("01800AF0", "Lamp"), end_of_list(1), status()]


class CommandImports(GatewayFilesTest):
    def imported(self, *words, lines=()):
        """Our modules, and the large ones, that a command imports while the gateway writes these lines."""
        # -S: no file of the system's `site-packages` imports modules before the command does.
        command = [sys.executable, "-S", "-B", "-X", "importtime", CONTRIB / "enogatectl", "--desk", self.desk,
                   "--lines", self.lines, "hall", *words]
        size = self.desk.stat().st_size
        with subprocess.Popen(command, text=True, stdout=subprocess.DEVNULL, stderr=subprocess.PIPE) as process:
            while lines and self.desk.stat().st_size == size:
                self.assertIsNone(process.poll())
            self.write(*lines)
            errors = process.communicate(timeout=60)[1]
        self.assertEqual(process.returncode, 0, errors)
        names = {line.rpartition("|")[2].strip() for line in errors.splitlines()}
        return {name for name in names if name.startswith("enogate")}, names & SLOW_MODULES

    def test_an_order(self):
        self.assertEqual(self.imported("status", lines=[status()]), (ORDER_MODULES | TEXT_MODULES, set()))
        self.assertEqual(self.imported("switch", "01800ABC", "0", "on", lines=OK_ANSWER),
                         (ORDER_MODULES | TEXT_MODULES, set()))
        self.assertEqual(self.imported("--json", "status", lines=[status()]), (ORDER_MODULES, set()))

    def test_whether_the_gateway_runs(self):
        """This is asked before each order to the gateway of a unit."""
        program = f"import sys; sys.path.insert(0, {str(CONTRIB)!r}); import enogate_ctl.running"
        done = subprocess.run([sys.executable, "-S", "-B", "-X", "importtime", "-c", program], text=True,
                              stderr=subprocess.PIPE, check=True)
        names = {line.rpartition("|")[2].strip() for line in done.stderr.splitlines()}
        self.assertIn("enogate_tools.system", names)
        self.assertEqual(names & (SLOW_MODULES | {"enogate_tools.check"}), set())

    def test_devices(self):
        large = {"dataclasses", "decimal", "inspect", "pathlib", "shlex", "sqlite3", "urllib.parse"}
        self.assertEqual(self.imported("list", lines=LIST_ANSWER), (ORDER_MODULES | TABLE_MODULES, large))
        self.assertEqual(self.imported("devices"), (ORDER_MODULES | TABLE_MODULES | {"enogate_ctl.recorded"}, large))
        self.assertEqual(self.imported("devices", "--export", lines=LIST_ANSWER), (
            ORDER_MODULES | {"enogate_ctl.plan", "enogate_ctl.sheet", "enogate_ctl.tables", "enogate_ctl.words"},
            {"csv"}))

    def test_the_server_has_imported_what_its_commands_need(self):
        self.write(*LIST_ANSWER)
        used = set()
        for words, lines in ((["status"], [status()]), (["list"], LIST_ANSWER), (["devices"], ()),
                             (["devices", "--export"], LIST_ANSWER), (["--json", "devices"], ()),
                             (["replace", "01800ABC", "01800AF0"], REPLACED_ANSWER)):
            used |= self.imported(*words, lines=lines)[0]
        self.assertLessEqual(used - ORDER_MODULES - TEXT_MODULES - TABLE_MODULES, set(PRELOADED_MODULES))
        self.assertLessEqual({"enogate_ctl.shown", "enogate_ctl.device_table"}, set(PRELOADED_MODULES))


if __name__ == "__main__":
    unittest.main()
