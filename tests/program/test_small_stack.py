"""The built program on a stack of 128 KiB; the default is 8 MiB. Measured, it needs about 90 KiB, for an empty script
as for the packets below, so there is no space for calls that nest once per byte of a packet. And the program with 20
MiB of addresses. Measured, it needs about 6 MiB, and about 14 MiB with a registry in a file."""
import unittest

from runs import ACCEPTED_LINE, OK_LINE, READING_LINE, status_line, limit_stack_and_memory, limit_stack
from testcase import ProgramTest

from oracle import session
from oracle.esp3 import packet, serial_script_lines, telegram_packet
from oracle.lines import device_lines


def packets_of_each_type():
    """A packet of each type with the data of a contact's telegram. In the first five types, the longest packet comes
    after it, which is all zeros. The longest packet with a wrong check comes first: all its bytes are skipped at
    once."""
    contact = telegram_packet(0xD5, b"\x09", 0x01800ABC)
    longest_packets = [packet(kind, bytes(65535), bytes(255)) for kind in range(5)]
    stream = longest_packets[0][:-1] + b"\x01"
    for kind in range(256):
        stream += packet(kind, contact[6:13], contact[13:20]) + b"".join(longest_packets[kind : kind + 1])
    return f"add 01800ABC D5-00-01\n{serial_script_lines(stream)}status\n"


# A packet of type 1 is read as a telegram, and zeros are no telegram. Type 2 is a response, whose code is the first
# byte of the data. All others are ignored: 254 of the short packets, and four of the longest.
RESPONSE_LINES = (
    '{"code":213,"data":"0901800ABC00","name":null,"type":"response"}\n'
    + '{"code":0,"data":"' + 131068 * "0" + '","name":"OK","type":"response"}\n'
)
EXPECTED_OUTPUT = ACCEPTED_LINE + READING_LINE + RESPONSE_LINES + status_line(258, 1, responses=2)


class SmallStackTest(ProgramTest):
    def setUp(self):
        super().setUp()
        self.in_file = ["--db", self.work / "registry.db"]

    def test_packets_of_each_type_on_a_small_stack(self):
        run = self.run_replay(script=packets_of_each_type(), preexec_fn=limit_stack)
        self.assert_run(run, EXPECTED_OUTPUT)

    def test_packets_of_each_type_on_a_small_stack_with_a_registry_in_a_file(self):
        run = self.run_replay(*self.in_file, script=packets_of_each_type(), preexec_fn=limit_stack)
        self.assert_run(run, EXPECTED_OUTPUT)

    def test_packets_of_each_type_in_little_memory(self):
        run = self.run_replay(script=packets_of_each_type(), preexec_fn=limit_stack_and_memory)
        self.assert_run(run, EXPECTED_OUTPUT)

    def test_packets_of_each_type_in_little_memory_with_a_registry_in_a_file(self):
        run = self.run_replay(*self.in_file, script=packets_of_each_type(), preexec_fn=limit_stack_and_memory)
        self.assert_run(run, EXPECTED_OUTPUT)

    def assert_golden_session(self, name, session_part, *options, limit_resource):
        """The program writes this part of the golden session."""
        golden_session = session.read_session(name)
        run = self.run_replay(
            *options, script=self.write_file("row", session.text_of_session(golden_session, "script")),
            preexec_fn=limit_resource
        )
        self.assert_run(run, session.text_of_session(golden_session, session_part).decode())

    def test_every_teach_in_telegram_in_every_mode(self):
        self.assert_golden_session("verdicts", "plain", limit_resource=limit_stack)
        self.assert_golden_session("verdicts", "plain", *self.in_file, limit_resource=limit_stack_and_memory)

    def test_every_teach_in_telegram_in_every_mode_with_explanations(self):
        self.assert_golden_session("verdicts", "explained", "--explain", limit_resource=limit_stack)
        self.assert_golden_session("verdicts", "explained", "--explain", *self.in_file,
                                   limit_resource=limit_stack_and_memory)

    def test_every_teach_in_telegram_in_every_mode_with_1000_devices(self):
        self.assert_golden_session("verdicts-full", "plain", limit_resource=limit_stack)
        self.assert_golden_session("verdicts-full", "plain", *self.in_file, limit_resource=limit_stack_and_memory)

    def test_every_teach_in_telegram_in_every_mode_with_1000_devices_and_explanations(self):
        self.assert_golden_session("verdicts-full", "explained", "--explain", limit_resource=limit_stack)
        self.assert_golden_session("verdicts-full", "explained", "--explain", *self.in_file,
                                   limit_resource=limit_stack_and_memory)


class ThousandDevicesTest(ProgramTest):
    """1,000 devices, learned and listed."""

    SENDERS = [f"{sender:08X}" for sender in range(1000)]
    SCRIPT = "".join(f"add {sender} D5-00-01\n" for sender in SENDERS) + "list\n"
    ANSWERS = (
        "".join(f'{{"eep":"D5-00-01","id":"{sender}","maker":null,"result":"accepted","type":"teach"}}\n'
                for sender in SENDERS)
        + "".join(f'{{"eep":"D5-00-01","id":"{sender}","label":"","maker":null,"type":"device"}}\n'
                  for sender in SENDERS)
        + '{"count":1000,"type":"list"}\n'
    )

    def test_1000_devices_in_little_memory(self):
        run = self.run_replay(script=self.SCRIPT, preexec_fn=limit_stack_and_memory)
        self.assert_run(run, self.ANSWERS)

    def test_1000_devices_and_their_longest_labels_in_little_memory_with_a_registry_in_a_file(self):
        """Each byte of these labels is printed as two."""
        in_file = ["--db", self.work / "registry.db"]
        run = self.run_replay(*in_file, script=self.SCRIPT, preexec_fn=limit_stack_and_memory)
        self.assert_run(run, self.ANSWERS)
        labels = {sender: 32 * "\\" for sender in range(1000)}
        script = "".join(f"label {sender:08X} {label}\n" for sender, label in labels.items()) + "list\n"
        list_answer = device_lines(dict.fromkeys(labels, ("D5-00-01", None)), labels)
        run = self.run_replay(*in_file, script=script, preexec_fn=limit_stack_and_memory)
        self.assert_run(run, 1000 * OK_LINE + list_answer)


if __name__ == "__main__":
    unittest.main()
