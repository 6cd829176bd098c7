"""What the built program must write for a script, and what it may leave, according to the oracle."""
import copy
import re

from runs import ROOT, run_script

from oracle.esp3 import serial_script_lines, telegram_packet
from oracle.gateway import Gateway
from oracle.lines import OK_LINE, error_line


def telegram_line(text, sender):
    """The line that brings a telegram: its RORG and payload, in hexadecimal."""
    rorg, payload = (bytes.fromhex(word) for word in text.split(" "))
    return serial_script_lines(telegram_packet(rorg[0], payload, sender)).strip()


# A registry of version 1, its log after a crash, and the devices of the registry by ID: profile and maker. The files
# are those of an earlier program (version-1.md).
VERSION_1_REGISTRY = ROOT / "tests/program/version-1.registry"
VERSION_1_LOG = ROOT / "tests/program/version-1.log"
VERSION_1_DEVICES = {
    0x00000000: ("F6-02-01", None),
    0x01800A00: ("D2-01-12", 70),
    0x01800A01: ("A5-02-05", 2047),
    0x01800A02: ("F6-03-02", None),
    0x01800ABC: ("D5-00-01", None),
    0x01800ABE: ("A5-10-03", 0),
    0xFFFFFFFE: ("D2-05-00", None),
}

TEACH_IN_1BS, QUERY_4BS, ROCKER_PRESS, ACTUATOR_DATA = "D5 00", "A5 08284680", "F6 50", "D2 0460E4"
UNSUPPORTED_QUERY, TEACH_IN_4BS_WITHOUT_EEP, REPLY_4BS = "A5 50084680", "A5 00000000", "A5 082846F0"

# UTE queries, one of them of a profile that is not supported, and a reply.
UTE_QUERY, UTE_DELETION, UTE_NOT_USED = "D4 A00146001201D2", "D4 900146001201D2", "D4 B00146001201D2"
UTE_UNSUPPORTED_QUERY, UTE_REPLY = "D4 A00146000032D2", "D4 910146001201D2"


def joined_lines(lines):
    return "".join(line + "\n" for line in lines)


def expected_answers(lines, refused_numbers=(), fault="memory", gateway=None):
    """The required answer to each line, if the lines with these numbers fail with this error."""
    gateway = gateway or Gateway()
    answers = []
    for line_number, line in enumerate(lines):
        if line_number in refused_numbers:
            gateway.counts["refused"] += 1
            answers.append(error_line(fault))
        else:
            answers.append(gateway.answer(line))
    return answers


def expected_run(lines, fault="", status=0):
    """The text that a run writes to its two streams, and its status."""
    return "".join(lines), fault, status


def new_database_paths(work, name):
    """By its number, a database for each run, which does not exist yet."""
    return lambda number: work / f"{name}_{number}.db"


def is_device_change(line, answer):
    """Whether the answer to this line says that what is kept of a device is another: learned, forgotten or labelled."""
    return re.search('"(accepted|deleted)"', answer) or (line.startswith("label ") and answer == OK_LINE)


def possible_lists(lines, refused_numbers):
    """The answers to `list` that a start may give after a run in which the lines with these numbers were refused. In
    the first, all that was acknowledged is done, and nothing else. The others are for an end that was not clean: one
    more change is done, which was refused after the last one that was acknowledged."""
    gateway, possible_answers = Gateway(), []
    for line_number, line in enumerate(lines):
        if line_number in refused_numbers:
            other_gateway = copy.deepcopy(gateway)
            other_gateway.answer(line)
            possible_answers.append(other_gateway.device_list())
        elif is_device_change(line, gateway.answer(line)):
            possible_answers = []
    return [gateway.device_list(), *possible_answers]


def failed_line_numbers(lines, output):
    """The numbers of the lines that failed, if each line was answered as the oracle says or, if it needs the database,
    with `store`; otherwise None."""
    gateway, failed_numbers = Gateway(), []
    for line_number, line in enumerate(lines):
        needs_store = not re.match("learn|status|S 5500010002", line)
        if needs_store and output.startswith(error_line("store")):
            failed_numbers.append(line_number)
            gateway.counts["refused"] += 1
            answer = error_line("store")
        else:
            answer = gateway.answer(line)
        if not output.startswith(answer):
            return None
        output = output[len(answer) :]
    return failed_numbers if output == "" else None


def kept_devices_check(lines, refused_numbers):
    """Whether a start after a run finds what it may, by its case; `refused` has the lines refused in each case."""

    def is_so(case_name, run_result, database):
        lists = possible_lists([] if case_name == "start" else lines, refused_numbers[case_name])
        return run_script("list\n", database=database)[0] in (lists if run_result[2] else lists[:1])

    return is_so
