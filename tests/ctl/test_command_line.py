"""The command line, and what the program does without a gateway."""
import contextlib
import datetime
import io
import json
import os
import pathlib
import re
import shlex
import subprocess
import sys
import tempfile
import unittest
from unittest import mock

from enogate_ctl import command_line, following, grammar, main as program, recent, running
from enogate_ctl.answers import Answer, parse_line
from enogate_ctl.client import NoAnswer, UnreadableLines
from enogate_ctl.command_line import AskBase, BackUp, ComparePlan, ExportDevices, FollowLines, GiveOrder
from enogate_ctl.command_line import ImportDevices, ReplaceDevice, Serve, ShowDevices, ShowHelp, ShowPaths, parsed
from enogate_tools.gateways import Paths, paths_of
from enogate_ctl.stops import Stopped
from enogate_tools import VERSION, port as ports, share
from fakes import TimeLimitedTest

ROOT = pathlib.Path(__file__).parents[2]
HALL, DEVICES = paths_of("hall"), paths_of("devices")


class FakeOutput(io.StringIO):
    """A standard output that may be a terminal."""
    is_terminal = False

    def isatty(self):
        return self.is_terminal

    def fileno(self):
        return 77


def run_ctl(*arguments, text="", is_terminal=False, why_not_running=""):
    """The status of the program, what it printed, and its errors. `why_not_running` says why no gateway runs."""
    out, err = FakeOutput(), io.StringIO()
    stdin = mock.Mock(buffer=io.BytesIO(text.encode("utf-8", "surrogateescape")), isatty=lambda: is_terminal)
    with contextlib.redirect_stdout(out), contextlib.redirect_stderr(err), mock.patch("sys.stdin", stdin), \
            mock.patch.object(program.StopSignals, "install"), \
            mock.patch.object(running, "why_not_running", return_value=why_not_running), \
            mock.patch.object(program, "why_unknown", return_value=why_not_running):
        try:
            status = program.main(arguments)
        except SystemExit as end:
            status = end.code
    return status, out.getvalue(), err.getvalue()


class CommandLines(TimeLimitedTest):
    def test_orders(self):
        for words, wanted in (
            ("hall list", GiveOrder(HALL, 10.0, False, "list", None)),
            ("--json hall list", GiveOrder(HALL, 10.0, True, "list", None)),
            ("hall --timeout 2.5 list --json", GiveOrder(HALL, 2.5, True, "list", None)),
            ("hall add 01800ABC D5-00-01", GiveOrder(HALL, 10.0, False, "add 01800ABC D5-00-01", None)),
            ("hall learn as F6-02-01 --for 120", GiveOrder(HALL, 10.0, False, "learn as F6-02-01", 120.0)),
            ("hall learn --for 120 on", GiveOrder(HALL, 10.0, False, "learn on", 120.0)),
            ("hall label 01800ABC -- -x --json", GiveOrder(HALL, 10.0, False, "label 01800ABC -x --json", None)),
            ("--desk d --lines l hall status", GiveOrder(Paths("d", "l", HALL.bridge), 10.0, False, "status", None)),
            ("base base", GiveOrder(paths_of("base"), 10.0, False, "base", None)),
            ("base status", GiveOrder(paths_of("base"), 10.0, False, "status", None)),
            ("base /dev/enocean", AskBase("/dev/enocean")), ("paths", ShowPaths()),
            ("paths list", GiveOrder(paths_of("paths"), 10.0, False, "list", None)),
            ("paths list --json", GiveOrder(paths_of("paths"), 10.0, True, "list", None)),
            ("hall lines", FollowLines(HALL, False)), ("--timeout 3 hall lines", FollowLines(HALL, False)),
            ("--desk d --lines l hall lines", FollowLines(Paths("d", "l", HALL.bridge), False)),
            ("hall replace 01800abd 01800af0", ReplaceDevice(HALL, 10.0, "01800ABD", "01800AF0", "")),
            ("--timeout 3 hall -- replace Lamp 01800AF0 d2-01-12",
             ReplaceDevice(HALL, 3.0, "Lamp", "01800AF0", "D2-01-12")),
            ("--desk d --lines l hall replace -x 01800AF0".replace("-x", "+x"),
             ReplaceDevice(Paths("d", "l", HALL.bridge), 10.0, "+x", "01800AF0", "")),
            ("hall backup", BackUp(HALL, 10.0, "hall", "/var/backups/enogate")),
            ("backup backup", BackUp(paths_of("backup"), 10.0, "backup", "/var/backups/enogate")),
            ("--timeout 3 hall backup /mnt", BackUp(HALL, 3.0, "hall", "/mnt")),
            ("--desk d --lines l hall backup .", BackUp(Paths("d", "l", HALL.bridge), 10.0, "hall", ".")),
            ("--serve", Serve()),
        ):
            self.assert_parsed(words, wanted)
        self.assertEqual(parsed(["hall", "label", "01800ABC", "a  b"]).order, "label 01800ABC a  b")
        self.assertEqual(parsed(["hall", "--", "replace", "-Lamp a", "01800AF0"]).old, "-Lamp a")

    def assert_parsed(self, words, wanted):
        with self.subTest(words):
            found = parsed(words.split(" "))
            self.assertEqual((type(found), found), (type(wanted), wanted))

    def test_devices(self):
        for words, wanted in (
            ("paths devices --export", ExportDevices(paths_of("paths"), 10.0)),
            ("hall devices --export", ExportDevices(HALL, 10.0)),
            ("--timeout 3 hall devices --export", ExportDevices(HALL, 3.0)),
            ("hall devices", ShowDevices(HALL, False)), ("--json devices devices", ShowDevices(DEVICES, True)),
            ("hall devices --import", ImportDevices(HALL, 10.0)),
            ("hall --timeout 3 devices --import", ImportDevices(HALL, 3.0)),
            ("hall devices --import --dry-run", ImportDevices(HALL, 10.0, True)),
            ("hall devices --export --plan", ExportDevices(HALL, 10.0, True)),
            ("--plan hall devices", ComparePlan(HALL)),
        ):
            self.assert_parsed(words, wanted)

    def test_bad_usage(self):
        for words, text in (
            ("", "required: GATEWAY"), ("hall", "an order is required"), ("hall frob", "'frob' is not an order"),
            ("hall /dev/enocean", "'/dev/enocean' is not an order"), ("hall base x", "the form is base"),
            ("../x list", "'../x' is not the name of a gateway"), ("mqtt list", "'mqtt' is not the name of a gateway"),
            ("hall list --for 5", "--for needs an order that opens the learn window"),
            ("hall learn off --for 5", "--for needs an order"),
            *((f"hall learn on --for {text}", f"argument --for: '{text}' is not a number of seconds greater than 0")
              for text in ("0", "-0", "-1", "inf", "x")),
            ("hall list --timeout nan", "argument --timeout: 'nan' is not a number of seconds greater than 0"),
            ("base /dev/x --json", "--json cannot be used with base"), ("base /dev/x --for 5", "--for cannot be used"),
            ("base /dev/x --export", "--export cannot be used"), ("base /dev/x --import", "--import cannot be used"),
            ("base /dev/x --desk d", "--desk cannot be used"), ("base /dev/x --lines d", "--lines cannot be used"),
            ("status", "enogatectl: the name of the gateway comes first: enogatectl GATEWAY status .."),
            ("learn on", "the name of the gateway comes first: enogatectl GATEWAY learn .."),
            ("devices --export", "the name of the gateway comes first: enogatectl GATEWAY devices .."),
            ("base", "the name of the gateway comes first: enogatectl GATEWAY base .."),
            ("base hall", "base needs the path of a serial port, such as /dev/enocean; give the order as: enogatectl "
             "GATEWAY base"), ("base status now", "'status now' is not an order"),
            ("hall list --desk d", "--desk and --lines must be used together"),
            ("hall devices --export --lines l", "--desk and --lines must be used together"),
            ("paths paths", "'paths' is not an order"), ("hall paths", "'paths' is not an order"),
            ("paths --json", "--json cannot be used with paths"), ("paths --for 5", "--for cannot be used with paths"),
            ("paths --export", "--export cannot be used with paths"), ("paths --import", "--import cannot be used"),
            ("paths --desk d", "--desk cannot be used with paths"), ("paths --lines d", "--lines cannot be used"),
            ("--time 5 hall list", "there is no option --time"), ("-- hall list", "required: GATEWAY"),
        ):
            self.assert_bad(words, text)

    def test_bad_usage_of_devices(self):
        for words, text in (
            ("hall devices --export --import", "--export and --import cannot be used together"),
            ("mqtt devices --export", "is not the name"),
            ("hall devices --export --json", "--json cannot be used with devices --export"),
            ("hall devices --import --plan", "--plan cannot be used with devices --import"),
            ("hall devices --export --dry-run", "--dry-run cannot be used with devices without --import"),
            ("hall devices --dry-run", "--dry-run cannot be used with devices without --import"),
            ("hall devices --plan --json", "--json cannot be used with devices --plan"),
            ("hall list --plan", "--plan cannot be used with an order"),
            ("hall devices --import --dry-run plan.csv", "devices takes no file name: append <FILE to the command"),
            ("hall devices plan.csv", "devices takes no file name: append <FILE to the command"),
            ("hall backup --dry-run", "--dry-run cannot be used with backup"),
            ("hall devices --import --for 5", "--for cannot be used with devices"),
            ("hall devices --for 5", "--for cannot be used with devices"),
            ("hall devices --import --json", "--json cannot be used with devices --import"),
            ("hall list --export", "--export cannot be used with an order"),
            ("hall list --import", "--import cannot be used with an order"),
        ):
            self.assert_bad(words, text)

    def test_bad_usage_of_lines(self):
        for words, text in (
            ("lines", "the name of the gateway comes first: enogatectl GATEWAY lines .."),
            ("hall lines x", "'lines x' is not an order"),
            *((f"hall lines --{option}", f"--{option.split(' ')[0]} cannot be used with lines")
              for option in ("json", "for 5", "export", "import")),
        ):
            self.assert_bad(words, text)

    def test_bad_usage_of_replace_and_backup(self):
        form = "the form is replace OLD NEW [EEP]: OLD is the ID or the label of a device, and NEW another ID"
        for words in ("hall replace", "hall replace 01800ABD", "hall replace 01800ABD Lamp",
                      "hall replace A B 01800AF0", "hall replace 01800ABD 01800AF0 D2-01",
                      "hall replace 01800ABD 01800AF0 D2-01-12 x",
                      "hall replace 01800ABD 01800AF0D2-01-12", "hall replace 01800ABD 01800abd",
                      f"hall replace {33 * 'x'} 01800AF0", "hall replace ö 01800AF0"):
            self.assert_bad(words, form)
        for words, text in (
            ("replace 01800ABD 01800AF0", "the name of the gateway comes first: enogatectl GATEWAY replace .."),
            ("backup", "the name of the gateway comes first: enogatectl GATEWAY backup .."),
            ("hall backup a b", "'backup a b' is not an order"), ("hall bakup", "did you mean `backup`?"),
            *((f"hall {words} --{option}", f"--{option.split(' ')[0]} cannot be used with {words.split(' ')[0]}")
              for words in ("replace 01800ABD 01800AF0", "backup")
              for option in ("json", "for 5", "export", "import", "wait 3", "no-wait")),
        ):
            self.assert_bad(words, text)

    def assert_bad(self, words, text):
        with self.subTest(words):
            status, out, err = run_ctl(*filter(None, words.split(" ")))
            self.assertEqual((status, out), (2, ""))
            self.assertRegex(err, r"\Aenogatectl: [^\n]+\n\Z")
            self.assertIn(text, err)

    def test_what_may_be_meant(self):
        for words, text in (
            ("hall swich 01800ABC 0 on", "'swich 01800ABC 0 on' is not an order: did you mean `switch`?"),
            ("hall devcies", "'devcies' is not an order: did you mean `devices`?"),
            ("hall lnes", "'lnes' is not an order: did you mean `lines`?"),
            ("hall hepl", "'hepl' is not an order: did you mean `help`?"),
            ("help swtch", "'swtch' is not an order: did you mean `switch`?"),
            ("hall --jsn list", "there is no option --jsn: did you mean `--json`?"),
            ("hall --no-wiat list x", "there is no option --no-wiat: did you mean `--no-wait`?"),
        ):
            self.assertEqual(run_ctl(*words.split(" ")), (2, "", f"enogatectl: {text}\n"))
        for words, text in (("hall frob", "'frob' is not an order: the orders are learn, add, "),
                            ("help frob", "'frob' is not an order: the orders are learn, "),
                            ("hall --frobnicate list", "there is no option --frobnicate\n")):
            self.assert_bad(words, text)
        self.assertEqual(run_ctl("hall", "list", "--\x1b[2J")[2], "enogatectl: there is no option --?[2J\n")

    def test_help_about_orders(self):
        for words, wanted in (("hall help", ""), ("help", ""), ("help switch", "switch"), ("hall help stop", "stop"),
                              ("nosuch help", "")):
            self.assertEqual(parsed(words.split(" ")), ShowHelp(wanted))
        self.assertEqual(run_ctl("help", "meter"), (0, """\
meter ID CH energy  asks for the energy that a channel has measured
meter ID CH power   asks for the power that a channel measures
ID                  8 hexadecimal digits, or the label of a device
CH                  a channel, 0 to 30
""", ""))
        self.assertEqual(run_ctl("hall", "help", "list"), (0, "list  lists all learned devices\n", ""))
        for command, usage, does in (
            ("backup", "backup [DIRECTORY]", "writes a backup of the devices and the settings"),
            ("devices", "devices [--plan] [--export | --import [--dry-run]]",
             "prints the devices, also for spreadsheets"),
            ("lines", "lines|watch", "prints the output lines"),
            ("replace", "replace OLD NEW [EEP]", "learns a device in place of a broken one"),
            ("watch", "lines|watch", "prints the readings as they come"),
        ):
            self.assertEqual(run_ctl("help", command), (0, f"enogatectl [..] GATEWAY {usage}\n{does}\n", ""))
        status, out, err = run_ctl("hall", "help")
        self.assertEqual((status, err), (0, ""))
        self.assertEqual([line.split("  ")[0] for line in out.splitlines()],
                         [*(form for forms in grammar.FORMS_BY_VERB.values() for form, _ in forms), *grammar.COMMANDS,
                          *grammar.PATTERNS])
        self.assertLessEqual(max(map(len, out.splitlines())), 80)
        for words, text in (("hall help stop x", "'help stop x' is not an order"), ("help list x", "not an order"),
                            ("help --json", "--json cannot be used with help"),
                            ("hall help --for 5", "--for cannot be used with help")):
            self.assert_bad(words, text)

    def test_help_and_version(self):
        self.assertEqual(run_ctl("--version"), (0, f"enogatectl {VERSION}\n", ""))
        status, out, err = run_ctl("--help")
        self.assertEqual((status, err), (0, ""))
        for word in (*grammar.FORMS_BY_VERB, "--timeout", "--json", "--for", "--export", "--import", "--desk",
                     "--lines", "10"):
            self.assertIn(word, out)

    def test_the_manual_page(self):
        """It has each form of an order, the numbers of the program, and examples that are valid."""
        page = (ROOT / "contrib/enogatectl.1").read_text().replace("\\-", "-")
        self.assertIn(f"The default is {command_line.TIMEOUT:g}.", page)
        forms, examples = re.findall(r"(?ms)^\.EX\n(.*?)^\.EE$", page)
        self.assertEqual(forms.splitlines(), [
            form for forms_of_verb in grammar.FORMS_BY_VERB.values() for form, _ in forms_of_verb])
        for line in examples.splitlines():
            name, *words = shlex.split(line.partition(" >")[0])
            self.assertEqual((name, parsed(words).paths), ("enogatectl", HALL))


class ProgramRuns(TimeLimitedTest):
    """The program, with a fake desk."""

    def patch_answers(self, *answers):
        """Each order gets the next of these: lines, or an exception."""
        self.orders = []

        def answer():
            lines = answers[min(sum(map(len, self.orders)), len(answers)) - 1]
            if isinstance(lines, BaseException):
                raise lines
            return Answer([parse_line(line.encode()) for line in lines])

        def ask_all(_desk, orders):
            found = []
            self.orders.append([])
            for order in orders:
                self.orders[-1].append(order)
                found.append(answer())
            return found
        return mock.patch.object(program.Client, "ask_all", ask_all)

    def test_statuses(self):
        ok, store = ['{"type":"ok"}'], ['{"error":"store","type":"error"}']
        for answer, words, wanted in (
            (ok, ["learn", "off"], (0, "ok\n", "")), (ok, ["learn", "off", "--json"], (0, '{"type":"ok"}\n', "")),
            (NoAnswer("why\x1b"), ["list"], (3, "", "enogatectl: why?\n")), (Stopped(2), ["list"], (130, "", "")),
        ):
            with self.patch_answers(answer):
                self.assertEqual(run_ctl("hall", *words), wanted)
        with self.patch_answers(store):
            status, out, err = run_ctl("hall", "list")
            self.assertEqual((status, out, err[:37]), (1, "", "enogatectl: store: the database faile"))
            status, out, err = run_ctl("hall", "list", "--json")
            self.assertEqual((status, out, err[:18]), (1, store[0] + "\n", "enogatectl: store:"))
            self.assertEqual(run_ctl("hall", "devices", "--export")[0], 1)
            self.assertEqual(run_ctl("hall", "devices", "--import")[0], 1)
            self.assertEqual(run_ctl("hall", "learn", "on", "--for", "1")[0], 1)

    def test_no_gateway_runs(self):
        """Each command that gives an order says so, and gives none. The others only need the name of a gateway."""
        why = "enogate@hall is stopped"
        for words in ("list", "status", "base", "switch 01800ABC 0 on", "learn on --for 5", "devices --export",
                      "devices --import", "replace 01800ABD 01800AF0", "backup /none"):
            with self.patch_answers(['{"type":"ok"}']), self.subTest(words):
                self.assertEqual(run_ctl("hall", *words.split(" "), why_not_running=why),
                                 (3, "", f"enogatectl: {why}\n"))
                self.assertEqual(self.orders, [])
                run_ctl("--desk", "d", "--lines", "l", "hall", *words.split(" "), why_not_running=why)
                self.assertNotEqual(self.orders, [])
        for words in ("devices", "lines", "devices --json", "devices --plan"):
            self.assertEqual(run_ctl("hall", *words.split(" "), why_not_running=why), (1, "", f"enogatectl: {why}\n"))

    def test_devices(self):
        lines = ['{"eep":"D5-00-01","id":"01800ABC","label":"Door","maker":null,"type":"device"}',
                 '{"count":1,"type":"list"}']
        with self.patch_answers(lines):
            self.assertEqual(run_ctl("hall", "devices", "--export"), (0, "id,eep,label\n01800ABC,D5-00-01,Door\n", ""))
        text = "01800ABC,D5-00-01,Door\n01800ABD,D5-00-01,\udcff\n"
        with self.patch_answers(lines, ['{"type":"ok"}']):
            self.assertEqual(run_ctl("hall", "devices", "--import", text=text[:23]),
                             (0, "row 1: 01800ABC: unchanged\n", ""))
        with self.patch_answers(lines, ['{"type":"ok"}']):
            self.assertEqual(run_ctl("hall", "devices", "--import", text=text), (
                1, "row 1: 01800ABC: unchanged\nrow 2: 01800ABD: learned; label: 'ÿ' is not 1 to 32 ASCII "
                "characters; possible is 'y'\n", ""))
        with self.patch_answers(lines):
            self.assertEqual(run_ctl("hall", "devices", "--import", "--dry-run", text="01800ABD,D5-00-01,Gate\n"),
                             (0, "row 1: 01800ABD: would be learned and labelled\n", ""))
            self.assertEqual(self.orders, [["list"]])
        with self.patch_answers(lines):
            plan = "id,eep,Room\n01800ABC,D5-00-01,2\n"
            self.assertEqual(run_ctl("hall", "devices", "--export", "--plan", text=plan),
                             (0, "id,eep,label,Room\n01800ABC,D5-00-01,Door,2\n", ""))
        with self.patch_answers(lines):
            self.assertEqual(run_ctl("hall", "devices", "--import", text=text[:23], is_terminal=True), (
                0, "row 1: 01800ABC: unchanged\n", "enogatectl: enter the devices as CSV, and end with Ctrl-D; to "
                "read a file, append <FILE to the command\n"))
        with self.patch_answers(lines, ['{"error":"full","type":"error"}']):
            status, out, _ = run_ctl("hall", "devices", "--import", text="01800ABE,D5-00-01\n")
            self.assertEqual((status, out), (1, "row 1: 01800ABE: not learned: 1,000 devices are learned: `remove` one "
                                             "that is gone\n"))

    def test_the_comparison_with_a_plan(self):
        """Of the devices that the lines record. It gives no order. A device counts as heard if the bridge has received
        a telegram, or if one is in the lines."""
        device = {"id": "01800ABC", "eep": "D5-00-01", "label": "Door", "maker": None, "type": "device"}
        heard = {"dbm": -45, "eep": "D5-00-01", "id": "01800ABC", "readings": [], "type": "reading"}
        listed, row = [device, {"count": 1, "type": "list"}], "2    Door   01800ABC  D5-00-01  "
        plan = "id,eep\n01800ABC,D5-00-01\n"
        with tempfile.TemporaryDirectory() as folder:
            lines = pathlib.Path(folder, "lines")
            for written, state, status in ((listed, "learned, not heard", 1), ([*listed, heard], "heard", 0)):
                lines.write_text("".join(json.dumps(line, separators=(",", ":")) + "\n" for line in written))
                heads = "ROW  LABEL  ID        PROFILE   STATE\n"
                count = f"1 planned, 1 learned, {1 - status} heard, 0 missing\n"
                self.assertEqual(run_ctl("--desk", "d", "--lines", str(lines), "hall", "devices", "--plan", text=plan),
                                 (status, f"{heads}{row}{state}\n{count}", ""))
            with mock.patch.object(recent, "last_seen_times", return_value={"01800ABC": None}):
                lines.write_text("".join(json.dumps(line, separators=(",", ":")) + "\n" for line in listed))
                run = run_ctl("--desk", "d", "--lines", str(lines), "hall", "devices", "--plan", text=plan)
                self.assertEqual(run[0], 0)

    def test_replace(self):
        """Each step is printed when it is done. After one that failed there is none."""
        device = '{"eep":"D2-01-12","id":"%s","label":"Lamp","maker":70,"type":"device"}'
        added = '{"eep":"D2-01-12","id":"01800AF0","maker":null,"result":"accepted","type":"teach"}'
        listed, ok = [device % "01800ABD", '{"count":1,"type":"list"}'], ['{"type":"ok"}']
        words = ("--desk", "d", "--lines", "l", "hall", "replace", "Lamp", "01800AF0")
        orders = [["list"], ["add 01800AF0 D2-01-12"], ["label 01800AF0 Lamp"], ["remove 01800ABD"]]
        with self.patch_answers(listed, [added], ok, [added.replace("accepted", "deleted")]):
            self.assertEqual(run_ctl(*words), (
                0, "01800AF0: learned\n01800AF0: labelled\n01800ABD: removed\nLamp was replaced by 01800AF0. If it is "
                "an actuator, teach it this gateway. Programs that use the ID need the new one.\n", ""))
            self.assertEqual(self.orders, orders)
        for number, printed in enumerate(("", "01800AF0: learned\n", "01800AF0: learned\n01800AF0: labelled\n"), 2):
            answers = [listed, [added], ok][:number - 1] + [['{"error":"store","type":"error"}']]
            with self.patch_answers(*answers):
                status, out, err = run_ctl(*words)
            self.assertEqual((status, out, err[:19], self.orders), (1, printed, "enogatectl: store: ", orders[:number]))
        # All steps are carried out even if nobody reads what is printed.
        with self.patch_answers(listed, [added], ok, [added.replace("accepted", "deleted")]), \
                mock.patch("builtins.print", side_effect=BrokenPipeError), mock.patch("os.dup2"):
            self.assertEqual(run_ctl(*words), (0, "", ""))
            self.assertEqual(self.orders, orders)
        # A signal ends the command after the step in which it comes.
        with self.patch_answers(listed, [added], ok), mock.patch("builtins.print", side_effect=Stopped(15)):
            self.assertEqual((run_ctl(*words), self.orders), ((143, "", ""), orders[:2]))
        # Each step is printed at once, also into a pipe.
        with self.patch_answers(listed, [added], ok, [added.replace("accepted", "deleted")]), \
                mock.patch("builtins.print") as printed:
            run_ctl(*words)
        self.assertEqual([call.kwargs for call in printed.call_args_list], [{"flush": True}] * 4)
        with self.patch_answers(['{"count":0,"type":"list"}']):
            status, out, err = run_ctl(*words[:-2], "01800ABD", "01800AF0")
            self.assertEqual((status, out, self.orders), (2, "", [["list"]]))
            self.assertEqual(err, "enogatectl: 01800ABD is not learned: check the ID with `list`\n")

    def test_a_device_that_was_replaced_already(self):
        listed = ['{"eep":"D2-01-12","id":"01800AF0","label":"Lamp","maker":70,"type":"device"}',
                  '{"count":1,"type":"list"}']
        with tempfile.NamedTemporaryFile("w") as lines, self.patch_answers(listed):
            lines.write(listed[0].replace("01800AF0", "01800ABD") + "\n")
            lines.flush()
            status, out, err = run_ctl("--desk", "d", "--lines", lines.name, "hall", "replace", "01800abd", "01800AF0")
            self.assertEqual((status, out[:46], err), (0, "01800ABD was replaced by 01800AF0 already. If ", ""))
            self.assertEqual(self.orders, [["list"]])

    def test_backup(self):
        with tempfile.TemporaryDirectory() as folder, mock.patch.object(program.time, "time", return_value=1e9):
            words = ("--desk", "d", "--lines", "l", "hall", "backup", folder)
            with self.patch_answers(['{"count":0,"type":"list"}']):
                path = f"{folder}/hall-{datetime.date.fromtimestamp(1e9)}.tar.gz"
                self.assertEqual(run_ctl(*words), (0, f"{path}: 0 devices\n", ""))
                self.assertEqual(self.orders, [["list"]])
                self.assertEqual(run_ctl(*words), (
                    0, f"{path}: 0 devices; the earlier backup of this day was replaced\n", ""))
            for answer, status in ((['{"error":"memory","type":"error"}'], 1), (NoAnswer("why"), 3)):
                with self.patch_answers(answer):
                    self.assertEqual(run_ctl(*words)[:2], (status, ""))
            with self.patch_answers(['{"count":0,"type":"list"}']):
                self.assertEqual(run_ctl(*words[:-1], "/none/x"), (
                    1, "", "enogatectl: the backup in /none/x failed: /none/x: No such file or directory\n"))
                with mock.patch("os.fsync", side_effect=OSError(28, "No space left on device")):
                    self.assertEqual(run_ctl(*words), (
                        1, "", f"enogatectl: the backup in {folder} failed: No space left on device\n"))

    def test_the_width_of_a_table(self):
        """That of a terminal on which it is printed; without one, it has no limit."""
        lines = ['{"eep":"D2-01-12","id":"01800ABC","label":"%s","maker":null,"type":"device"}' % ("x" * 32),
                 '{"count":1,"type":"list"}']
        for is_terminal, columns, wanted in ((True, 50, 50), (True, 0, 83), (True, 200, 83), (False, 50, 83)):
            with self.patch_answers(lines), mock.patch.object(FakeOutput, "is_terminal", is_terminal), \
                    mock.patch("os.get_terminal_size", return_value=os.terminal_size((columns, 24))) as asked:
                status, out, _ = run_ctl("--desk", "d", "--lines", "l", "hall", "list")
            self.assertEqual((status, max(map(len, out.splitlines()))), (0, wanted))
            self.assertEqual([call.args for call in asked.call_args_list if call.args != (1,)], [(77,)] * is_terminal)

    def test_an_import_gives_orders_together(self):
        """If one of them fails with an error that telegrams have too, they are given again, one by one."""
        text = "01800ABC,D5-00-01,Door\n01800ABD,D5-00-01\n"
        adds = ["add 01800ABC D5-00-01", "add 01800ABD D5-00-01"]
        empty_list, ok, accepted = ['{"count":0,"type":"list"}'], ['{"type":"ok"}'], [
            '{"eep":"D5-00-01","id":"01800ABC","maker":null,"result":"accepted","type":"teach"}']
        with self.patch_answers(empty_list, accepted, accepted, ok):
            status, out, _ = run_ctl("hall", "devices", "--import", text=text)
            self.assertEqual(self.orders, [["list"], adds, ["label 01800ABC Door"], ["list"]])
            self.assertEqual((status, out.splitlines()), (0, ["row 1: 01800ABC: learned and labelled",
                                                              "row 2: 01800ABD: learned"]))
        for name in ("memory", "store"):
            failed = ['{"error":"%s","type":"error"}' % name]
            with self.patch_answers(empty_list, failed, accepted, accepted, failed, ok):
                status, out, _ = run_ctl("hall", "devices", "--import", text=text)
                self.assertEqual(self.orders, [["list"], adds, adds[:1], adds[1:], ["label 01800ABC Door"], ["list"]])
                self.assertEqual((status, out.splitlines()[0]), (1, "row 1: 01800ABC: learned and labelled"))
                self.assertIn(f"row 2: 01800ABD: not learned: {share.texts_by_word('error')[name]}", out)
            with self.patch_answers(empty_list, accepted, failed, accepted, accepted, ok):
                self.assertEqual(run_ctl("hall", "devices", "--import", text=text)[0], 0)
                self.assertEqual(self.orders, [["list"], adds, adds[:1], adds[1:], ["label 01800ABC Door"], ["list"]])
        with self.patch_answers(empty_list, ['{"error":"full","type":"error"}']):
            self.assertEqual(run_ctl("hall", "devices", "--import", text=text)[0], 1)
            self.assertEqual(self.orders, [["list"], adds, ["list"]])

    def test_base(self):
        with mock.patch.object(ports, "open_port", return_value=99), mock.patch("os.close") as close, \
                mock.patch.object(ports, "configure") as configure:
            with mock.patch.object(ports, "ask_base", return_value="FFA1B280"):
                self.assertEqual(run_ctl("base", "/dev/x"), (0, "FFA1B280\n", ""))
            with mock.patch.object(ports, "ask_base", return_value=None):
                status, out, err = run_ctl("base", "/dev/x")
                self.assertEqual((status, out, err[:46]), (3, "", "enogatectl: no radio module answers at /dev/x:"))
            with mock.patch.object(ports, "ask_base", side_effect=ports.PortError("why")):
                self.assertEqual(run_ctl("base", "/dev/x"), (1, "", "enogatectl: why\n"))
            configure.assert_called_with(99, "/dev/x")
            self.assertEqual(close.call_count, 3)

    def test_paths(self):
        with mock.patch.object(program, "all_paths", return_value={"hall": {"lines": "l", "desk": "d"}, "attic": {}}):
            self.assertEqual(run_ctl("paths"), (0, '{"attic":{},"hall":{"desk":"d","lines":"l"}}\n', ""))
        with mock.patch.object(program, "all_paths", return_value={}):
            self.assertEqual(run_ctl("paths"), (0, "{}\n", ""))

    def test_lines(self):
        for why, status in ((None, 0), (UnreadableLines("why"), 1)):
            with mock.patch.object(following, "print_lines", side_effect=why) as printed, \
                    mock.patch.object(following, "OutputReader") as reader, \
                    mock.patch("sys.stdout", mock.Mock(buffer=7)), \
                    mock.patch.object(program.StopSignals, "install"), \
                    contextlib.redirect_stderr(io.StringIO()) as err, \
                    mock.patch.object(program, "why_unknown", return_value=""):
                self.assertEqual(program.main(["hall", "lines"]), status)
            self.assertEqual(err.getvalue(), "enogatectl: why\n" if why else "")
            reader.assert_called_once_with(HALL.lines, 7)
            printed.assert_called_once_with(HALL, 7, reader.return_value.wait)

    def test_a_signal_before_the_command_begins(self):
        with mock.patch.object(program.StopSignals, "install", side_effect=Stopped(15)):
            self.assertEqual(program.main(["paths"]), 143)

    def test_nobody_reads(self):
        with self.patch_answers(['{"type":"ok"}']), mock.patch("builtins.print", side_effect=BrokenPipeError), \
                mock.patch("os.dup2") as dup2, mock.patch("sys.stdout", mock.Mock(fileno=lambda: 1)):
            self.assertEqual(program.main(["--desk", "d", "--lines", "l", "hall", "list", "--json"]), 0)
        self.assertEqual(dup2.call_args.args[1], 1)

    def test_a_full_disk(self):
        with open("/dev/full", "w", encoding="ascii") as full:
            ended = subprocess.run([sys.executable, "-B", ROOT / "contrib/enogatectl", "paths"], stdout=full,
                                   stderr=subprocess.PIPE, text=True, check=False)
        self.assertEqual((ended.returncode, ended.stderr), (
            1, "enogatectl: standard input or output failed: No space left on device\n"))


if __name__ == "__main__":
    unittest.main()
