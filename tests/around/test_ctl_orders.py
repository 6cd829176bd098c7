"""Orders with enogatectl, and their answers."""
from __future__ import annotations

import json
import subprocess
import tarfile
import threading
import time

from ctl_testcase import OK, REFUSED, USAGE, CtlTest, Run
from oracle.esp3 import gateway_telegram_packet
from programs import wait_for

RANGE_TEXT = ("range: a number is out of its range, or an ID is FFFFFFFF: a channel is 0 to 30, an offset 0 to 127, a "
              "value 0 to 100 %, and a time 0 to 255 s")
UNKNOWN_DEVICE_TEXT = ("unknown_device: no device with this ID is learned: check the ID with `list`, or learn the "
                       "device with `add`")
WRONG_PROFILE_TEXT = ("wrong_profile: the order does not apply to the profile of this device: check the profile with "
                      "`list`")


class EachOrder(CtlTest):
    """Each order, and each exit status but 3."""

    def test_each_order(self):
        """The devices are an actuator, a blind and a contact."""
        for words, status, text in (
            ("add 01800ABC d2-01-12", OK, "accepted"), ("add 01800abd D2-05-00", OK, "accepted"),
            ("add 01800ABE D5-00-01", OK, "accepted"), ("add FFFFFFFF D5-00-01", REFUSED, RANGE_TEXT),
            ("add 01800ABC A5-99-99", REFUSED, "unsupported_profile: the gateway does not support this profile: see "
             "the table of profiles in the guide, and try a similar one"),
            ("label 01800ABE Front door", OK, "ok"), ("label 01800ABE", OK, "ok"),
            ("label 01800ABF Lamp", REFUSED, UNKNOWN_DEVICE_TEXT), ("remove 01800ABE", OK, "deleted"),
            ("remove 01800ABE", REFUSED, UNKNOWN_DEVICE_TEXT), ("base", OK, "FF800000"), ("learn on answer", OK, "ok"),
            ("learn as f6-02-01", OK, "ok"), ("learn on", OK, "ok"), ("learn off", OK, "ok"),
            ("switch 01800ABC 0 on", OK, "ok"), ("switch 01800ABC 31 on", REFUSED, RANGE_TEXT),
            ("switch 01800ABD 0 off", REFUSED, WRONG_PROFILE_TEXT), ("dim 01800ABC 0 50", OK, "ok"),
            ("query 01800ABC 0", OK, "ok"),
            ("meter 01800ABC 0 power", OK, "ok"), ("blind 01800ABD 50", OK, "ok"), ("stop 01800ABD", OK, "ok"),
            ("central 5 on", OK, "ok"), ("level 5 40 10", OK, "ok"), ("level 128 0 0", REFUSED, RANGE_TEXT),
            ("teach 5", OK, "ok"),
        ):
            with self.subTest(words):
                run = self.ctl(*words.split(" "))
                expected_output = (text, "") if status == OK else ("", f"enogatectl: {text}")
                self.assertEqual((run.status, run.out.rstrip("\n"), run.err.rstrip("\n")), (status, *expected_output))
        switch_packet = gateway_telegram_packet(0xD2, bytes.fromhex("010064"), 0xFF800000, 0x01800ABC).hex()
        self.assertIn(switch_packet, wait_for(self.stick.sent, lambda stick_bytes: switch_packet in stick_bytes))
        self.assert_run(self.ctl("remove", "01800ABC"), OK, "deleted\n")
        self.assert_run(self.ctl("remove", "01800ABD"), OK, "deleted\n")

    def test_a_device_is_replaced(self):
        """After each step at which the command may have been interrupted, and again when it was done."""
        done_form = ("{} was replaced by 01800C02{}. If it is an actuator, teach it this gateway. Programs that use "
                     "the ID need the new one.\n")
        step_lines = ["01800C02: learned\n", "01800C02: labelled\n", "01800C01: removed\n"]
        for count in range(3):
            for words in ("add 01800C01 D2-01-12", "label 01800C01 Lamp C", "add 01800C02 D2-01-12",
                          "label 01800C02 Lamp C")[:2 + count]:
                self.assertEqual(self.ctl(*words.split(" ")).status, OK)
            old_device = "Lamp C" if count else "01800C01"
            self.assert_run(self.ctl("replace", old_device, "01800C02"), OK,
                            "".join(step_lines[count:]) + done_form.format(old_device, ""))
            for old_device in ("Lamp C", "01800C01"):
                self.assert_run(self.ctl("--", "replace", old_device, "01800C02"), OK,
                                done_form.format(old_device, " already"))
            exported_devices = self.ctl("devices", "--export").out
            self.assertIn("\n01800C02,D2-01-12,Lamp C\n", exported_devices)
            self.assertNotIn("01800C01", exported_devices)
            self.assert_run(self.ctl("remove", "01800C02"), OK, "deleted\n")

    def test_a_device_is_replaced_by_request(self):
        """As the page does it."""
        for words in ("add 01800C07 D2-01-12", "label 01800C07 Lamp D"):
            self.assertEqual(self.ctl(*words.split(" ")).status, OK)
        words = self.words("--", "replace", "01800C07", "01800C08")
        start = words.index("--desk")
        with subprocess.Popen([*words[:start], "--serve"], text=True, stdin=subprocess.PIPE,
                              stdout=subprocess.PIPE) as server:
            print(json.dumps({"id": 1, "arguments": [*map(str, words[start:])]}), file=server.stdin, flush=True)
            answer = json.loads(server.stdout.readline())
        self.assertEqual((answer["status"], answer["error"], answer["output"].splitlines()[:3]), (
            OK, "", ["01800C08: learned", "01800C08: labelled", "01800C07: removed"]))
        self.assert_run(self.ctl("remove", "01800C08"), OK, "deleted\n")

    def test_a_device_that_cannot_be_replaced(self):
        for words in ("add 01800C03 D2-01-12", "add 01800C04 D5-00-01", "label 01800C04 Gate"):
            self.assertEqual(self.ctl(*words.split(" ")).status, OK)
        exported_before = self.ctl("devices", "--export").out
        for words, status, text in (
            ("01800C03 01800C04", USAGE, "01800C04 is learned already, with the profile D5-00-01 and the label 'Gate'"),
            ("01800C05 01800C04", USAGE, "01800C05 is not learned: check the ID with `list`\n"),
            ("01800C03 01800C03", USAGE, "the form is replace OLD NEW [EEP]: "),
            ("01800C03 01800C05 A5-99-99", REFUSED, "unsupported_profile: "), ("01800C03 FFFFFFFF", REFUSED, "range: "),
        ):
            run = self.ctl("replace", *words.split(" "))
            self.assertEqual((run.status, run.out, run.err.startswith(f"enogatectl: {text}")), (status, "", True), run)
        self.assertEqual(self.ctl("devices", "--export").out, exported_before)

    def test_a_backup(self):
        """The devices in it can be imported."""
        self.assertEqual(self.ctl("add", "01800C06", "D5-00-01").status, OK)
        run = self.ctl("backup", str(self.work))
        path, count = run.out.split(": ")
        devices = self.ctl("devices", "--export").out
        self.assertEqual((run.status, count, run.err), (OK, f"{devices.count(chr(10)) - 1} devices\n", ""))
        self.assertRegex(path, rf"\A{self.work}/hall-[0-9-]+\.tar\.gz\Z")
        with tarfile.open(path) as archive:
            self.assertEqual(archive.extractfile("devices.csv").read().decode(), devices)
        self.assertEqual(self.ctl("devices", "--import", text=devices).status, OK)

    def test_bad_usage_is_not_written_to_the_desk(self):
        desk_before = self.gateway.desk.read_bytes()
        for words in ((), ("frob",), ("add", "1800ABC D5-00-01"), ("switch", "01800ABC 0", "on"),
                      ("label", "01800ABC", "a\nremove 01800ABC"),
                      ("label", "01800ABC", "ö"), ("label", "01800ABC", "x" * 33), ("--no", "list"), ("list", " "),
                      ("list", "--for", "5"), ("learn", "off", "--for", "5"), ("learn", "on", "--for", "0"),
                      ("learn", "on", "--for", "x"), ("devices", "--export", "--import"),
                      ("list", "--export"), ("--timeout", "-1", "list"), ("devices", "--json", "--export"),
                      ("devices", "--export", "--for", "1")):
            with self.subTest(words):
                run = self.ctl(*words)
                self.assertEqual((run.status, run.out), (USAGE, ""))
                self.assertRegex(run.err, r"\Aenogatectl: [^\n]+\n\Z")
        self.assertEqual(self.gateway.desk.read_bytes(), desk_before)

    def test_labels_in_place_of_ids(self):
        """A label that was moved counts at once, whoever moved it. One that looks like an order is only a label."""
        hostile = "01900302 0 off"
        for order in ("add 01900301 D2-01-12", "add 01900302 D2-01-12", "label 01900301 Lamp",
                      f"label 01900302 {hostile}"):
            self.assertEqual(self.ctl(*order.split(" ")).status, OK)
        desk_before = self.gateway.desk.read_bytes()
        for label, device in (("Lamp", "01900301"), (hostile, "01900302")):
            self.assert_run(self.ctl("switch", label, "7", "on"), OK, "ok\n")
            packet = gateway_telegram_packet(0xD2, bytes.fromhex("010764"), 0xFF800000, int(device, 16)).hex()
            self.assertIn(packet, wait_for(self.stick.sent, lambda stick_bytes: packet in stick_bytes))
        given_orders = self.gateway.desk.read_bytes().removeprefix(desk_before).replace(b"\r", b"").replace(b"status\n",
                                                                                                            b"")
        self.assertEqual(given_orders, b"list\nswitch 01900301 7 on\nswitch 01900302 7 on\n")
        self.gateway.order("label 01900301 Other", "label 01900302 Lamp")
        self.assert_run(self.ctl("switch", "Lamp", "8", "on"), OK, "ok\n")
        packet = gateway_telegram_packet(0xD2, bytes.fromhex("010864"), 0xFF800000, 0x01900302).hex()
        self.assertIn(packet, wait_for(self.stick.sent, lambda stick_bytes: packet in stick_bytes))
        self.assert_run(self.ctl("label", "Other", "Lamp"), OK, "ok\n")
        self.assert_run(self.ctl("switch", "Lamp", "9", "on"), USAGE, "", "several devices have the label 'Lamp': give "
                        "the ID, 01900301 or 01900302")
        for device in ("01900301", "01900302"):
            self.assert_run(self.ctl("remove", device), OK, "deleted\n")

    def test_one_write_between_status_orders(self):
        desk_before = self.gateway.desk.read_bytes()
        self.ctl("central", "3", "on")
        self.assertEqual(self.gateway.desk.read_bytes(), desk_before + b"status\nstatus\ncentral 3 on\nstatus\r\n")
        self.ctl("status")
        self.assertEqual(self.gateway.desk.read_bytes(),
                         desk_before + b"status\nstatus\ncentral 3 on\nstatus\r\nstatus\n")

    def test_json_is_the_lines_themselves(self):
        accepted = '{"eep":"D5-00-01","id":"01900001","maker":null,"result":"accepted","type":"teach"}\n'
        self.assert_run(self.ctl("--json", "add", "01900001", "D5-00-01"), OK, accepted)
        self.assert_run(self.ctl("--json", "base"), OK, '{"type":"ok"}\n'
                        '{"code":0,"data":"FF800000","name":"OK","type":"response"}\n')
        run = self.ctl("label", "--json", "01900002", "x")
        self.assertEqual((run.status, run.out), (REFUSED, '{"error":"unknown_device","type":"error"}\n'))
        self.assert_run(self.ctl("label", "01900001", "--", "-x", "--json  \"b\""), OK, "ok\n")
        lines = self.ctl("list", "--json").out.splitlines()
        device = '{"eep":"D5-00-01","id":"01900001","label":"-x --json  \\"b\\"","maker":null,"type":"device"}'
        self.assertIn(device, lines)
        self.assertEqual(json.loads(lines[-1]), {"count": len(lines) - 1, "type": "list"})
        self.assert_run(self.ctl("remove", "01900001"), OK, "deleted\n")


class PrintedTables(CtlTest):
    """What people see, by a gateway with three devices."""

    def test_list_and_status(self):
        self.assert_ends(self.ctl("devices"), REFUSED, "give the order `list` once")
        self.assert_run(self.ctl("list"), OK, "no device is learned\n")
        self.assert_run(self.ctl("devices"), OK, "no device is learned\n")
        for order in ("add 01800A01 D5-00-01", "add 01800A02 A5-02-05", "add 01800A0F D2-01-0F", "label 01800A01 Door"):
            self.assertEqual(self.ctl(*order.split(" ")).status, OK)
        self.stick.bring("01800A01", "D5 09")
        self.stick.bring("01800A02", "A5 00007F08")
        self.stick.bring("01800A0F", "D2 046064")
        self.read_all(3)
        table = """\
LABEL  ID        PROFILE   NAME                          LAST READINGS         SIGNAL
Door   01800A01  D5-00-01  Contact                       Contact closed        -45 dBm
       01800A02  A5-02-05  Temperature sensor            Temperature 20.08 °C  -45 dBm
       01800A0F  D2-01-0F  Electronic switch, 1 channel  Output 100 %          -45 dBm
"""
        # The lines have no label until they have a list.
        without_labels = "".join(row[len("LABEL  "):] for row in table.splitlines(True))
        self.assert_run(self.ctl("devices"), OK, without_labels)
        self.assert_run(self.ctl("list"), OK, table)
        desk_before = self.gateway.desk.read_bytes()
        self.assert_run(self.ctl("devices"), OK, table)
        self.assertEqual(self.gateway.desk.read_bytes(), desk_before)
        self.gateway.rotate()
        self.assertIn("Temperature 20.08 °C", self.ctl("list").out)
        self.assert_run(self.ctl("status"), OK, """\
learn window  closed
ignored       0
readings      3
refused       0
responses     0
teach         0
""")


class SeveralPrograms(CtlTest):
    """Several programs that write to the desk, while devices send."""

    explain = "--explain"

    def flood(self) -> None:
        """Devices send teach-in telegrams, which give the same line as `add`, and readings."""
        self.ctl("learn", "on")
        self.ctl("add", "019000FF", "D5-00-01")
        while not self.is_over.is_set():
            self.stick.bring("01900300", "D5 00")
            self.stick.bring("019000FF", "D5 09")
            self.stick.bring("01900999", "F6 50 30")
            time.sleep(0.02)

    def write(self) -> None:
        """Another program gives orders, and takes no lock."""
        while not self.is_over.is_set():
            self.gateway.order("learn on", "status", "label 01900777 x", "list")
            time.sleep(0.15)

    def give(self, program_number: int) -> None:
        """A program gives orders with enogatectl."""
        device = f"019001{program_number:02X}"
        for words, status in ((f"add {device} F6-02-01", OK), (f"remove {device}", OK), (f"remove {device}", REFUSED),
                              (f"label {device} x", REFUSED), ("add 01900300 D5-00-01", OK), ("central 0 on", OK)):
            run = self.ctl(*words.split(" "))
            if run.status != status:
                self.wrong_runs.append((words, run))

    def run_at_once(self, *actions) -> None:
        """Runs these at the same time, while devices send and another program gives orders."""
        self.is_over, self.wrong_runs = threading.Event(), []
        other_threads = [threading.Thread(target=action) for action in (self.flood, self.write)]
        threads = [threading.Thread(target=action, args=(program_number,))
                   for program_number, action in enumerate(actions)]
        for thread in other_threads + threads:
            thread.start()
        for thread in threads:
            thread.join()
        self.is_over.set()
        for thread in other_threads:
            thread.join()

    def test_three_at_once(self):
        """Other writers and radio lines give neither a wrong answer nor a missing one."""
        self.run_at_once(*[self.give] * 3)
        self.assertEqual(self.wrong_runs, [])

    def bring_in(self, program_number: int) -> None:
        """A program imports devices."""
        devices = [f"01A{program_number:02X}{row:03X}" for row in range(20)]
        text = "".join(f"{device},F6-02-01,Lamp {device}\n" for device in devices)
        run = self.ctl("devices", "--import", text=text)
        expected_lines = [f"row {row}: {device}: learned and labelled" for row, device in enumerate(devices, 1)]
        if (run.status, run.out.splitlines()) != (OK, expected_lines) or text not in self.ctl("devices",
                                                                                              "--export").out:
            self.wrong_runs.append((text, run))

    def test_two_imports_at_once(self):
        """Each gives several orders at once."""
        self.run_at_once(*[self.bring_in] * 2)
        self.assertEqual(self.wrong_runs, [])


class DeviceSheets(CtlTest):
    """Export and import."""

    def test_round_trip(self):
        rows = ("id;eep;label\r\n1800222;D5-00-01;'=Hall\r\n01800AC1;D5-00-99;\r\nnonsense;x\r\n"
                "01800ac2;d2-01-12;Lamp, \"2\"\r\n01800AC3;F6-02-01;ö\r\n1,80E+15;F6-02-01\r\n;;\r\n"
                "01800AC4;F6-02-01\r\n")
        run = self.ctl("devices", "--import", text="\ufeff" + rows)
        self.assertEqual((run.status, run.err), (REFUSED, ""))
        self.assertEqual(run.out.splitlines(), [
            "row 2: 01800222: learned and labelled",
            "row 3: 01800AC1: not learned: eep: the gateway does not support this profile: see the table of profiles "
            "in the guide, and try a similar one",
            "row 4: id: 'nonsense' is not the ID of a device: 8 hexadecimal digits",
            "row 5: 01800AC2: learned and labelled",
            "row 6: 01800AC3: learned; label: 'ö' is not 1 to 32 ASCII characters; possible is 'oe'",
            "row 7: id: a spreadsheet changed the ID to the number 1,80E+15: enter it again, in a column with the "
            "format Text",
            "row 9: 01800AC4: learned"])
        self.assert_run(self.ctl("remove", "01800AC3"), OK, "deleted\n")
        exported = self.ctl("devices", "--export")
        self.assertEqual(exported, Run(OK, "id,eep,label\n01800222,D5-00-01,'=Hall\n"
                                       '01800AC2,D2-01-12,"Lamp, ""2"""\n01800AC4,F6-02-01,\n', ""))
        self.assert_run(self.ctl("devices", "--import", text=exported.out), OK,
                        "row 2: 01800222: unchanged\nrow 3: 01800AC2: unchanged\nrow 4: 01800AC4: unchanged\n")
        for device in ("01800222", "01800AC2", "01800AC4"):
            self.assert_run(self.ctl("remove", device), OK, "deleted\n")
        self.assertEqual(self.ctl("devices", "--import", text=exported.out).status, OK)
        self.assertEqual(self.ctl("devices", "--export"), exported)
