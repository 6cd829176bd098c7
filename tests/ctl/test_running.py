"""Whether the gateway of a unit runs, on a machine of generated files."""
import contextlib
import os
import pathlib
import shutil
import stat
import tempfile
from unittest import mock

from enogate_ctl import running
from enogate_ctl.running import MAX_START_SECONDS, why_not_running
from enogate_tools.gateways import paths_of, why_unknown
from enogate_tools.system import System
from fakes import TimeLimitedTest

STOPPED = "enogate@hall is stopped: sudo systemctl start enogate@hall"
NO_STICK = "enogate@hall waits: no stick at {}: plug it in, or correct SERIAL in /etc/default/enogate-hall"
NOT_STARTED = ("enogate@hall waits: the gateway is not started yet; see why: sudo journalctl -n 5 -t enogate-hall")
# The number of the main process of the unit, and that of the gateway.
START, GATEWAY = 60, 70
UPTIME = 5000.0


class FakeMachineTest(TimeLimitedTest):
    """A machine with the gateway `hall`, whose unit was started once."""

    maxDiff = None

    def setUp(self):
        self.root = pathlib.Path(self.enterContext(tempfile.TemporaryDirectory()))
        self.states = {"is-active enogate@hall": "inactive"}
        self.asked = []
        for path in ("etc/default", "run/enogate/hall", "var/lib/enogate", "var/log/enogate", "proc/1", "dev"):
            (self.root / path).mkdir(parents=True)
        self.put("proc/1/comm", "systemd\n")
        self.put("proc/locks", "")
        self.put("proc/uptime", f"{UPTIME} 1.0\n")
        self.put("etc/default/enogate-hall", "SERIAL=/none/corrected\n")
        self.paths = paths_of("hall", str(self.root))
        self.put("run/enogate/hall/desk", "status\n")
        self.stick = self.root / "dev/enocean"

    def put(self, name, text):
        path = self.root / name
        path.parent.mkdir(exist_ok=True)
        path.write_text(text)

    def process(self, number, name, *words, age=0.0):
        """A process that was started so long ago."""
        self.put(f"proc/{number}/comm", name + "\n")
        self.put(f"proc/{number}/cmdline", "\0".join(map(str, words)) + "\0")
        ticks = int((UPTIME - age) * os.sysconf("SC_CLK_TCK"))
        self.put(f"proc/{number}/stat", f"{number} ({name}) S " + "0 " * 18 + f"{ticks} 0 0\n")

    def gateway(self, desk=None, name="enogate"):
        self.process(GATEWAY, name, "enogate", "live", "--desk", desk or self.paths.desk, "--turns", "5")

    def unit(self, serial=None, age=0.0):
        """The main process of the unit, as its command names the port."""
        serial = self.stick if serial is None else serial
        self.process(START, "enogate-port", "python3", "enogate-port", "--unit", os.path.dirname(self.paths.desk),
                     "--lines", self.paths.lines, "--base", "", serial, "enogate", "live", "--serial", serial,
                     "--desk", self.paths.desk, age=age)

    def answer(self, words):
        """What systemctl prints."""
        self.asked.append(words)
        return self.states.get(" ".join(words[1:]), "")

    def why(self, paths=None):
        system = System(str(self.root), str(self.root / "proc"), run=self.answer, user=lambda: None)
        return why_not_running(paths or self.paths, system)


class StoppedGateways(FakeMachineTest):
    def test_a_unit_that_is_stopped_or_has_failed(self):
        self.assertEqual(self.why(), STOPPED)
        self.assertEqual(self.asked, [["systemctl", "is-active", "enogate@hall"]])
        self.states["is-active enogate@hall"] = "failed"
        self.assertEqual(self.why(), "enogate@hall has failed: find out why with sudo journalctl -n 20 -u enogate@hall")

    def test_states_that_do_not_say_it(self):
        """Nothing is running, but it will be; or the processes are hidden; or there is no systemd."""
        for state in ("active", "activating", "deactivating", "reloading", "unknown", ""):
            self.states["is-active enogate@hall"] = state
            self.assertEqual(self.why(), "", state)

    def test_a_gateway_that_runs(self):
        """Whoever started it. Nothing else is asked."""
        self.gateway()
        self.assertEqual((self.why(), self.asked), ("", []))

    def test_other_gateways(self):
        """Also one with the name of a program that is none."""
        for desk, name in (("/run/enogate/attic/desk", "enogate"), (f"{self.paths.desk}x", "enogate"),
                           (None, "enogate-x")):
            self.gateway(desk, name)
            self.assertEqual(self.why(), STOPPED, (desk, name))

    def test_a_program_without_a_desk(self):
        """Such as `replay`, or one that is ending."""
        for words in (["enogate", "replay", "--base", "FF800000"], []):
            self.process(GATEWAY, "enogate", *words)
            self.assertEqual(self.why(), STOPPED)

    def test_a_gateway_by_hand_with_another_name_of_the_desk(self):
        """In its directory, or through a link."""
        self.gateway("desk")
        self.assertEqual(self.why(), "")
        (self.root / "var/run").symlink_to(self.root / "run")
        self.gateway(f"{self.root}/var/run/enogate/hall/desk")
        self.assertEqual(self.why(), "")
        self.gateway(f"{self.root}/var/run/enogate/attic/desk")
        self.assertEqual(self.why(), STOPPED)

    def test_a_gateway_without_a_unit(self):
        """Its files were named in the command line."""
        self.assertEqual(self.why(self.paths._replace(name="")), "")
        self.assertEqual(self.asked, [])

    def test_a_desk_that_was_never_made(self):
        os.unlink(self.paths.desk)
        self.assertEqual(self.why(), STOPPED)


class WaitingGateways(FakeMachineTest):
    def test_no_stick(self):
        """The port is that of the start, not the one that was set after it."""
        for age in (0.0, 100.0):
            self.unit(age=age)
            self.assertEqual(self.why(), NO_STICK.format(self.stick))
        self.unit("")
        self.assertEqual(self.why(), "enogate@hall waits: no port is set: set SERIAL in /etc/default/enogate-hall")
        self.assertEqual(self.asked, [])

    def test_no_port(self):
        self.put("dev/enocean", "")
        self.unit()
        self.assertEqual(self.why(), f"enogate@hall waits: {self.stick} is not a serial port: correct SERIAL in "
                         "/etc/default/enogate-hall")

    def port(self):
        """A port that nobody opens."""
        self.put("dev/enocean", "")
        status = os.stat(self.stick)
        device = os.stat_result((stat.S_IFCHR | 0o660, *status[1:]), {"st_rdev": 1234})
        self.enterContext(mock.patch("os.stat", side_effect=lambda path, *words, real=os.stat, **more: (
            device if str(path) == str(self.stick) else real(path, *words, **more))))
        self.enterContext(mock.patch("enogate_tools.port.open_port", side_effect=AssertionError("it is opened")))
        return status

    def test_another_program_has_locked_the_port(self):
        self.port()
        self.unit()
        self.process(80, "enogate-port", "enogate-port", "--unit", "/run/enogate/attic")
        with mock.patch.object(System, "lockers_of", lambda system, path: [system.process(80)]):
            self.assertEqual(self.why(), f"enogate@hall waits: process 80 (enogate-port) uses {self.stick} too, and "
                             "each program receives only part of the data: end it, or correct SERIAL in "
                             "/etc/default/enogate-hall")

    def test_a_start(self):
        """The unit asks the module, or starts the gateway: an order may be written. Later, it waits for a module."""
        self.port()
        for age, wanted in ((0.0, ""), (MAX_START_SECONDS - 0.1, ""), (MAX_START_SECONDS + 0.1, NOT_STARTED)):
            self.unit(age=age)
            self.assertEqual(self.why(), wanted, age)

    def test_the_gateway_has_started_meanwhile(self):
        """Or the unit has ended: the port is opened in neither case."""
        def end():
            (self.root / f"proc/{START}/cmdline").write_text("")

        def end_and_start():
            end()
            self.process(START + 1, "enogate-port", "enogate-port", "--unit", os.path.dirname(self.paths.desk), age=99)
        self.port()
        for act in (self.gateway, end, end_and_start):
            self.unit(age=100.0)
            with mock.patch.object(running, "why_waiting", side_effect=lambda *words, real=running.why_waiting: (
                    act() or real(*words))):
                self.assertEqual(self.why(), "", act)
            for number in (START, START + 1, GATEWAY):
                shutil.rmtree(self.root / f"proc/{number}", ignore_errors=True)

    def test_a_stick_that_is_unplugged_in_this_moment(self):
        self.port()
        self.unit()
        with mock.patch.object(System, "users_of", side_effect=FileNotFoundError):
            self.assertEqual(self.why(), "")

    def test_the_unit_of_another_gateway(self):
        self.process(START, "enogate-port", "enogate-port", "--unit", "/run/enogate/attic", "/none", "enogate")
        self.assertEqual(self.why(), STOPPED)


class UnknownGatewayNames(FakeMachineTest):
    def unknown(self, name):
        return why_unknown(paths_of(name, str(self.root)), str(self.root))

    def test_a_name_that_no_gateway_has(self):
        self.put("etc/default/enogate-attic", "")
        text = "there is no gateway Hall: did you mean hall? If not, make it: sudo systemctl enable --now enogate@Hall"
        self.assertEqual(self.unknown("Hall"), text)
        self.assertEqual((self.why(paths_of("Hall", str(self.root))), self.asked), (text, []))

    def test_a_gateway_with_a_trace(self):
        """Files of any kind count."""
        self.assertEqual(self.unknown("hall"), "")
        self.put("etc/default/enogate-attic", "")
        self.put("var/log/enogate/den.lines", "")
        self.put("run/enogate/barn/desk", "")
        for name in ("attic", "den", "barn"):
            self.assertEqual(self.unknown(name), "", name)

    def test_no_gateway(self):
        with contextlib.suppress(FileNotFoundError), tempfile.TemporaryDirectory() as empty:
            self.assertEqual(why_unknown(paths_of("hall", empty), empty), "there is no gateway hall: this machine has "
                             "none; to make it, enable it: sudo systemctl enable --now enogate@hall")

    def test_files_that_were_named(self):
        self.assertEqual(why_unknown(paths_of("Hall", str(self.root))._replace(name=""), str(self.root)), "")


class ProcessAges(FakeMachineTest):
    def test_the_age_of_a_process(self):
        system = System(str(self.root), str(self.root / "proc"), run=self.answer, user=lambda: None)
        self.process(90, "a) (b", age=12.5)
        self.assertAlmostEqual(system.age_of(system.process(90)), 12.5, places=1)
        self.assertEqual(system.age_of(system.process(91)), 0.0)
        os.unlink(self.root / "proc/uptime")
        self.assertEqual(system.age_of(system.process(90)), 0.0)

    def test_on_this_machine(self):
        system = System()
        self.assertLess(system.age_of(system.process(os.getpid())), system.age_of(system.process(1)))


if __name__ == "__main__":
    import unittest
    unittest.main()
