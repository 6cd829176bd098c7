"""Reports for support cases, on lines that the built program writes, such as those of a day with 10,000 packets and of
two runs on one database. The program replays each of them byte for byte."""
import io
import json
import random
import re
import resource
import subprocess
import sys
import tarfile
import unittest

from runs import ADD_ORDER, PROGRAM, REFUSE_CALL_SOURCE, ROOT, count_calls
from testcase import ProgramTest, decoded_text

from oracle import random_scripts
from oracle.esp3 import serial_script_lines, telegram_packet
from oracle.reasons import REASONS_BY_COUNTER

# Some of the random packets are empty, and form no packet.
BASE, PACKETS, STREAMS, DEVICES = 0xFFA1B280, 10_000, 5_200, 100
# What a report of this day may cost: CPU seconds on a slow machine, and bytes.
MAX_SECONDS, MAX_MEMORY = 30, 200 << 20
COUNTERS_PATTERN = re.compile(rb'"(?:ignored|readings|refused|responses|teach)":\d+')
REPORT = """import sys
sys.dont_write_bytecode = True
sys.path.insert(0, sys.argv[1])
from enogate_report import main
from enogate_tools.system import System
machine = System(sys.argv[2], sys.argv[2] + "/proc", run=lambda _: "")
sys.exit(main.main(sys.argv[3:], machine, lambda _: ""))
"""


def script_of_a_day(rng, count):
    """Orders and packets of all kinds, from and for known and unknown devices, and the devices."""
    devices = [(0x01800000 + rng.randrange(1 << 22), random_scripts.random_profile(rng)) for _ in range(DEVICES)]
    lines = [f"add {device:08X} {eep}".encode() for device, eep in devices[:-10]]
    lines += [f"label {device:08X} Label of {device}".encode() for device, _ in devices[:30]] + [b"list", b"status"]
    for device_number in range(count):
        packets = {0: random_scripts.random_response, 1: random_scripts.random_packet}
        stream = packets.get(rng.randrange(20), random_telegram_of(devices))(rng)
        lines += serial_script_lines(stream).encode().splitlines()
        if device_number % 50 == 0:
            orders = random_scripts.random_actuator_orders(rng, devices)
            lines += [b"status", random_scripts.random_order(rng, devices, 0.3), *orders, b"status"]
        if device_number % 1000 == 999:
            lines += [b"learn on", b"list", b"base"]
    return b"".join(line + b"\n" for line in lines)


def random_telegram_of(devices):
    """Makes packets of telegrams of these devices."""
    return lambda rng: random_scripts.random_telegram(rng, devices, BASE, 0.05)


class ReportTest(ProgramTest):
    """A machine with the gateway `hall`, whose lines are those of a run."""

    def setUp(self):
        super().setUp()
        for folder in ("etc/default", "run/enogate/hall", "var/lib/enogate", "var/log/enogate", "proc"):
            (self.work / folder).mkdir(parents=True)
        self.write_file("proc/locks")
        self.write_file("etc/default/enogate", "BASE=\nEXPLAIN=--explain\nSERIAL=/dev/enocean\nTURNS=864000\n")
        self.write_file("etc/default/enogate-hall", f"BASE={BASE:08X}\n")

    def lines_of(self, text, *options, **settings):
        """The lines that the program writes for a script, without the packets for the radio module."""
        run = self.run_replay("--explain", *options, base=f"{BASE:08X}", script=text, **settings)
        return [line for line in run.stdout.splitlines(keepends=True) if not line.startswith(b"S ")]

    def report(self, lines, *options):
        """The path of a report on these lines, and the contents of its files."""
        self.write_file("var/log/enogate/hall.lines", b"".join(lines))
        path = self.work / "report"
        path.unlink(missing_ok=True)
        words = [sys.executable, "-c", REPORT, ROOT / "contrib", self.work, "hall", "--output", path, *options]
        run = subprocess.run(words, capture_output=True, check=False)
        self.assertEqual((decoded_text(run.stderr), run.returncode), ("", 0))
        with tarfile.open(path) as archive:
            return path, {member.name.split("/")[1]: archive.extractfile(member).read() for member in archive}

    def replay(self, path):
        """The exit status of a replay, and what it prints."""
        words = [ROOT / "contrib/enogate-report", "--replay", path, "--program", PROGRAM]
        run = subprocess.run(words, capture_output=True, check=False)
        self.assertEqual(decoded_text(run.stderr), "")
        return run.returncode, decoded_text(run.stdout)

    def assert_same(self, path, report_files):
        """The replay writes all expected lines."""
        count = report_files["expected.lines"].count(b"\n")
        self.assertEqual(self.replay(path), (0, f"{count} lines are the same\n"))

    def assert_only_more(self, lines, report_files):
        """The expected lines are all of these, in their sequence, with other counters, and only answers besides."""
        expected_lines = (COUNTERS_PATTERN.sub(b"", line)
                          for line in report_files["expected.lines"].splitlines(keepends=True))
        missing_lines = [line for line in lines if COUNTERS_PATTERN.sub(b"", line) not in expected_lines]
        self.assertEqual(missing_lines[:1], [])


class DayTest(ReportTest):
    def setUp(self):
        super().setUp()
        self.rng = random.Random(2026)

    def lines_of_a_day(self):
        """Those of two runs on one database."""
        database = self.work / "hall.db"
        scripts = (script_of_a_day(self.rng, STREAMS), script_of_a_day(self.rng, STREAMS))
        return [line for script in scripts for line in self.lines_of(script, "--db", database)]

    def test_a_day(self):
        lines = self.lines_of_a_day()
        reasons = [json.loads(line)["why"] for line in lines if b'"type":"packet"' in line]
        self.assertGreaterEqual(len(reasons), PACKETS)
        self.assertEqual(set(reasons), {reason for reasons_of_counter in REASONS_BY_COUNTER.values()
                                        for reason in reasons_of_counter} - {"full"})
        usage_before = resource.getrusage(resource.RUSAGE_CHILDREN)
        path, report_files = self.report(lines)
        self.assert_same(path, report_files)
        usage_after = resource.getrusage(resource.RUSAGE_CHILDREN)
        self.assertLess(usage_after.ru_utime - usage_before.ru_utime, MAX_SECONDS)
        self.assertLess(usage_after.ru_maxrss << 10, MAX_MEMORY)
        self.assertEqual(report_files["lines.txt"], b"".join(lines))
        self.assertIn(b"missing lines: 1\n", report_files["README.txt"])
        self.assert_only_more(lines, report_files)
        with self.subTest("anonymous"):
            path, anonymous_files = self.report(lines, "--anonymous")
            self.assert_same(path, anonymous_files)
            label_count = report_files["script.txt"].count(b"\nlabel ")
            self.assertEqual(anonymous_files["expected.lines"].count(b"\n"),
                             report_files["expected.lines"].count(b"\n") - label_count)
            # Zeros are also the data of packets, and the broadcast ID is before a signal strength.
            ids = set(re.findall(rb'"(?:id|dest)":"(?!0{7}|F{7})(.{8})"', b"".join(lines)))
            for name, content in anonymous_files.items():
                self.assertEqual([secret for secret in ids | {b"LABEL OF", b"FFA1B280"} if secret in content.upper()],
                                 [], name)

    def test_from_the_middle(self):
        """Whatever is missing before and in the lines."""
        lines = self.lines_of_a_day()
        for _ in range(3):
            first_line, last_line = sorted(self.rng.sample(range(len(lines)), 2))
            path, report_files = self.report(lines[first_line:last_line] + [b"{"] + lines[last_line + 100:])
            self.assert_same(path, report_files)

    def test_a_changed_report(self):
        path, report_files = self.report(self.lines_of(script_of_a_day(self.rng, 100)))
        self.assert_same(path, report_files)
        text = report_files["script.txt"].replace(b"09", b"08", 1)
        with tarfile.open(path, "w:gz") as archive:
            for name, content in {**report_files, "script.txt": text}.items():
                member_info = tarfile.TarInfo(f"enogate-report-hall-2026-12-01-041500/{name}")
                member_info.size = len(content)
                archive.addfile(member_info, io.BytesIO(content))
        status, out = self.replay(path)
        self.assertEqual(status, 1)
        self.assertRegex(out, "^line [0-9]+ of expected.lines is b'")


class FailedInputsTest(ReportTest):
    def test_each_allocation(self):
        """An input that failed is left out. The replay writes the other lines, also those of later inputs."""
        contact = telegram_packet(0xD5, b"\x09", 0x01800ABC)
        query = telegram_packet(0xD4, bytes.fromhex("A00146001201D2"), 0x01800ABD)
        text = ADD_ORDER + serial_script_lines(contact) + "learn on\n" + serial_script_lines(query + contact)
        text += "status\nlist\n"
        failed_texts = set()
        for call_number in range(count_calls(self.libraries, "growth", text)):
            env = self.preload_environment(REFUSE_CALL_SOURCE, REFUSE_KIND="growth", REFUSE_NUMBER=call_number + 1)
            failed_texts.add(tuple(self.lines_of(text, env=env)))
        for lines in failed_texts:
            path, contents = self.report(lines)
            self.assert_same(path, contents)
            failed = sum(b'"why":"refused"' in line or b'"error":' in line for line in lines)
            self.assertIn(f"no packet line: {failed}\n", contents["README.txt"].decode())
        self.assertTrue(any(b'"why":"refused"' in line for lines in failed_texts for line in lines))


if __name__ == "__main__":
    unittest.main()
