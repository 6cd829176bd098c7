"""The sessions on learning by telegram. `verdicts` has every kind of telegram in every mode, from known and unknown
senders. Of the telegrams of one kind that the gateway handles for the same reason, each mode has another one: the
contract of `teach_in::plan_for` is proved for all of them. `verdicts-full` has the same with 1,000 devices, and at its
end the lines of where-full.session, which is kept by hand: 01800ABC is none of these devices, and 00000001 is one.
`every-kind-of-item`, which is kept by hand, is also made with each of its lines left out: the answers to the other
lines if that line is refused."""
import copy
import functools
import itertools
import pathlib
import re

from oracle.esp3 import BROADCAST_ID, packet, serial_script_lines, radio_optional_data
from oracle.gateway import BASE_ID, MAX_DEVICES
from oracle.profiles import FOUR_BYTE_PROFILES, SUPPORTED_PROFILES, eep_text, bytes_with_fields
from oracle.session import read_session, session_steps
from oracle.sessions import MODE_ORDERS, Session, repeat_lines

# The modes. There are two modes `as E` for most RORGs.
FIRST_PROFILE_MODES = ["as F6-02-01", "as D5-00-01", "as A5-02-05", "as D2-01-12"]
SECOND_PROFILE_MODES = ["as F6-03-02", "as A5-12-03", "as D2-05-00"]
LEARN_MODES = [*MODE_ORDERS, *FIRST_PROFILE_MODES, *SECOND_PROFILE_MODES]

UNKNOWN_ID, OTHER_UNKNOWN_ID = 0x01800ABC, 0x01800ABD

# Telegrams: RORG, payload and status. If a bit determines the kind, there is one with all other bits 0, and one with
# them 1.
TELEGRAMS_OF_UNKNOWN_SENDERS = [
    "D5 00",  # 1BS teach-in
    "D5 F7",
    "D5 08",  # 1BS data
    "D5 FF",
    "A5 00000000",  # 4BS teach-in without a profile
    "A5 FFFFFF77",
    "A5 08284680",  # 4BS query: A5-02-05, maker 70
    "A5 082846E7",
    "A5 10080080",  # A5-04-01, maker 0
    "A5 0887FF80",  # A5-02-10, maker 2047
    "A5 50084680",  # A5-14-01, maker 70
    "A5 E047FF80",  # A5-38-08, maker 2047
    "A5 00000080",  # A5-00-00, maker 0
    "A5 FFFFFFE7",  # A5-3F-7F, maker 2047
    "A5 00000090",  # 4BS reply
    "A5 082846F0",
    "A5 FFFFFFF7",
    "A5 00000008",  # 4BS data
    "A5 FFFFFFFF",
    "A5 08284688",
    "F6 10 00",  # RPS, (3,1) is 1
    "F6 FF 30",
    "F6 00 20",  # RPS, (3,1) is 0
    "F6 EF 30",
    "D2 00",  # VLD
    "D2 0460E4",
    "D2 FFFFFFFF",
    "D2 0000000000000000000000000008",
    "D4 800146001201D2",  # UTE queries, D2-01-12, maker 70: teach-in, deletion, not specified, not used
    "D4 900146001201D2",
    "D4 A00146001201D2",
    "D4 B00146001201D2",
    "D4 E0FF46000502A5",  # ones that ask for no reply: A5-02-05, and F6-02-01, maker 2047
    "D4 40FFFFFF0102F6",
    "D4 A00146000032D2",  # D2-32-00, and one that asks for no reply
    "D4 D00146000032D2",
    "D4 910146001201D2",  # UTE replies
    "D4 AF0146001201D2",
]

# The same for known senders, with data that their profiles read; and, of these, those that may teach. The last of them
# learns its sender, whatever those before it did.
TELEGRAMS_OF_KNOWN_SENDERS = [
    "D5 00",
    "D5 09",
    "A5 00000000",
    "A5 08284680",
    "A5 50084680",
    "A5 082846F0",
    "A5 00007F08",
    "F6 50 30",
    "F6 20 20",
    "D2 0460E4",
    "D4 800146001201D2",
    "D4 900146001201D2",
    "D4 A00146001201D2",
    "D4 B00146001201D2",
    "D4 E00146000032D2",
]
TEACHING_TELEGRAMS = ["D5 00", "A5 00000000", "A5 08284680", "A5 50084680", "F6 50 30", "D2 0460E4"]
TEACHING_TELEGRAMS += ["D4 900146001201D2", "D4 A00146001201D2", "D4 B00146001201D2", "D4 800146001201D2"]

# A known sender's profile by the telegram's RORG: one that fits, another one of that RORG, and one of another RORG.
KNOWN_PROFILES_BY_RORG = {
    "D5": ["D5-00-01", "F6-02-01"],
    "A5": ["A5-02-05", "A5-10-03", "D5-00-01"],
    "F6": ["F6-02-01", "F6-01-01", "D2-01-12"],
    "D2": ["D2-01-12", "D2-05-00", "A5-02-05"],
    "D4": ["D2-01-12", "F6-01-01"],
}

# Telegrams of one sender. Each may change what the next one does.
SEQUENCE_4BS_1BS = [
    "A5 08284680",
    "A5 00007F08",
    "A5 00000000",
    "A5 50084680",
    "A5 100FFF80",
    "A5 00000008",
    "D5 00",
    "D5 09",
]
SEQUENCE_UTE = [
    "D4 A00146001201D2",  # not specified: it is learned again each time
    "D2 0460E4",
    "D4 A00146001201D2",
    "D4 A002FF070005D2",
    "D2 327F0004",
    "A5 08284680",
    "D4 B00146001201D2",
    "D4 A00146000032D2",
    "D4 910146001201D2",
    "D4 900146000032D2",  # deletion, also if it is gone
    "D2 327F0004",
    "D4 900146001201D2",
    "D4 A00146001201D2",
    "D4 800146000502A5",
    "A5 00007F08",
    "D4 D00146001201D2",
    "A5 00007F08",
]
SEQUENCES_BY_MODE = [
    ("as D5-00-01", ["D5 09", "D5 00", "D5 00", "D5 09"]),
    ("as A5-02-05", ["A5 E047FF88", "A5 E047FF90", "A5 E047FF80", "A5 08284680", "A5 00000000", "A5 0000FF08"]),
    ("as A5-02-05", ["A5 00000000", "A5 E047FF80", "A5 00000008"]),
    ("as F6-02-01", ["F6 00 20", "F6 50 30", "F6 50 30", "F6 00 20"]),
    ("as D2-01-12", ["D2 0460", "D2 0460E4", "D2 0460"]),
    ("as D2-05-00", ["D2 327F0004", "D2 327F0004", "D2 0460E4"]),
    ("as D2-01-12", ["D4 A00146001201D2", "D4 900146001201D2", "D2 0460E4", "D4 900146001201D2"]),
]

# Each is refused: no row of the table of orders has it, or its profile is not supported.
REFUSED_LEARN_ORDERS = [
    "learn as F6-02-03",
    "learn as F6-00-00",
    "learn as D5-00-02",
    "learn as A5-02-0C",
    "learn as A5-00-00",
    "learn as D2-01-13",
    "learn as D4-00-00",
    "learn as 00-00-00",
    "learn as FF-FF-FF",
    "learn as FFFFFFFF",
    "learn ",
    " learn on",
    "learn  on",
    "learn on ",
    "learn ON",
    "Learn on",
    "learnon",
    "learn onn",
    "learn offf",
    "learn off off",
    "learn answer",
    "learn on Answer",
    "learn on  answer",
    "learn on answer ",
    "learn on answer on",
    "learn off answer",
    "learn as",
    "learn as ",
    "learn A5-02-05",
    "learn as A5",
    "learn as A5-02",
    "learn as A5-02-5",
    "learn as A5-02-005",
    "learn as A5-02-0G",
    "learn as A50205",
    "learn as A5 02 05",
    "learn as  A5-02-05",
    "learn as A5-02-05 ",
    "learn as A5-02-05 answer",
    "learn on A5-02-05",
]

# If 1,000 devices are learned: the telegram of an unknown sender that each mode would learn.
FIRST_TELEGRAM_BY_MODE = [
    ("on", "D5 00"),
    ("answer", "A5 08284680"),
    ("as D5-00-01", "D5 00"),
    ("as A5-02-05", "A5 E047FF80"),
    ("as F6-02-01", "F6 10"),
    ("as D2-01-12", "D2 00"),
]
TELEGRAMS_AFTER_DELETION = [
    (UNKNOWN_ID, "D4 900146001201D2"),
    (UNKNOWN_ID, "D4 A00146001201D2"),
    (1, "D4 D00146001201D2"),
    (UNKNOWN_ID, "D4 E00146001201D2"),
    (OTHER_UNKNOWN_ID, "D4 800146001201D2"),
    (1, "D5 00"),
    (1, "A5 08284680"),
    (UNKNOWN_ID, "D4 900146001201D2"),
    (1, "D5 00"),
]


class TeachInSession(Session):
    def ensure_learned(self, sender, eep):
        """This sender is learned with this profile, and with no maker."""
        if self.gateway.devices.get(sender) != (eep, None):
            self.remove_device(sender)
            self.add_devices({sender: eep})


def known_devices(rorg):
    """Known senders for telegrams of this RORG, and their profiles."""
    return {0x01900000 + 16 * int(rorg, 16) + index: eep for index, eep in enumerate(KNOWN_PROFILES_BY_RORG[rorg])}


def add_telegram_in_mode(session, mode, text, sender, eep):
    """A telegram in this mode, of a sender that is learned with this profile, or not learned if it is None."""
    if eep is None:
        session.set_mode(mode, sender)
    else:
        session.set_mode(mode)
        session.ensure_learned(sender, eep)
    session.add_telegram(text, sender)


def reasons_for_telegram(session, *telegram):
    """Why the gateway would handle the telegram as it does."""
    trial = TeachInSession()
    trial.gateway = copy.deepcopy(session.gateway)
    add_telegram_in_mode(trial, *telegram)
    return tuple(re.findall(r'"(?:result|why)":"(\w+)"', trial.steps[-1][1]))


def try_telegrams_in_mode(session, mode, first_number, from_strangers, from_known):
    """Telegrams of these kinds in the mode with this number. Removing the device shows what was learned."""
    session.set_mode("closed", UNKNOWN_ID)
    for sender, eep in itertools.chain(*(known_devices(rorg).items() for rorg in KNOWN_PROFILES_BY_RORG)):
        session.ensure_learned(sender, eep)
    telegrams_of_known = [(text, *device) for text in from_known for device in known_devices(text[:2]).items()]
    alike = {}
    for text, sender, eep in [*((text, UNKNOWN_ID, None) for text in from_strangers), *telegrams_of_known]:
        kind = text[:2], eep and eep[:2], reasons_for_telegram(session, mode, text, sender, eep)
        alike.setdefault(kind, []).append((text, sender, eep))
    for telegrams in alike.values():
        add_telegram_in_mode(session, mode, *telegrams[first_number % len(telegrams)])
        session.add_lines("status")


def try_each_kind(session):
    """Every kind of telegram in every mode."""
    for mode_number, mode in enumerate(LEARN_MODES):
        try_telegrams_in_mode(
            session,
            mode,
            mode_number,
            TELEGRAMS_OF_KNOWN_SENDERS if mode in SECOND_PROFILE_MODES else TELEGRAMS_OF_UNKNOWN_SENDERS,
            TELEGRAMS_OF_KNOWN_SENDERS,
        )
        session.add_lines("list")
    session.remove_all_devices()


def single_bit_numbers(length):
    """No bit, each single bit, and the complements of these."""
    ones = [0] + [1 << bit for bit in range(length)]
    return ones + [2**length - 1 - number for number in ones]


def try_single_bits(session):
    """Bits that determine the kind, and bits that do not."""
    session.set_mode("answer", UNKNOWN_ID)
    for last_byte in dict.fromkeys([*range(0, 256, 16), *single_bit_numbers(8)]):
        if last_byte & 0x08 == 0:
            session.add_telegram(f"A5 082846{last_byte:02X}", UNKNOWN_ID)
    session.add_lines("status")
    session.set_mode("on", UNKNOWN_ID)
    for high in range(16):
        session.add_telegram(f"A5 082846{high:X}8", UNKNOWN_ID)
    session.add_lines("status", "list")
    for byte in single_bit_numbers(8):
        session.set_mode("on", UNKNOWN_ID)
        session.add_telegram(f"D5 {byte:02X}", UNKNOWN_ID)
    session.add_lines("status")
    for byte in single_bit_numbers(8):
        session.set_mode("as F6-02-01", UNKNOWN_ID)
        session.add_telegram(f"F6 {byte:02X} 30", UNKNOWN_ID)
    for status in (0x00, 0x0F, 0x10, 0x20, 0xFF):
        session.set_mode("as F6-01-01", UNKNOWN_ID)
        session.add_telegram(f"F6 10 {status:02X}", UNKNOWN_ID)
    session.add_lines("status")
    for length in range(1, 15):
        for fill in ("00", "FF"):
            session.set_mode("as D2-05-00", UNKNOWN_ID)
            session.add_telegram("D2 " + length * fill, UNKNOWN_ID)
    session.add_lines("status")
    session.set_mode("on", UNKNOWN_ID)
    for high in range(16):
        for low in (0, 1, max(2, high)):
            session.add_telegram(f"D4 {high:X}{low:X}0146001201D2", UNKNOWN_ID)
        session.add_lines("status", "list")
    session.set_mode("answer")
    for number, bits in ((0xA00146001201D2, range(56)), (0x20FEB9FFEDFE2D, range(24, 40))):
        for bit in bits:
            session.add_telegram(f"D4 {number ^ 1 << bit:014X}", UNKNOWN_ID)
        session.add_lines("status", "list")
    session.remove_all_devices()


def query_telegram_4bs(func, variant, maker, last_byte=0x80):
    payload = bytes_with_fields(4, {(0, 6): func, (6, 7): variant, (13, 11): maker, (24, 8): last_byte})
    return "A5 " + payload.hex().upper()


def numbered_sender(index):
    """A sender for each number: the ends and the middle of the range, and two of the gateway's own IDs; from 6 on,
    these with other bits."""
    return [0x00000000, 0xFFFFFFFE, 0x7FFFFFFF, 0x80000000, BASE_ID, BASE_ID + 127][index % 6] ^ index // 6 << 8


def try_4bs_queries(session):
    """4BS queries: each profile of the tables, those next to them, and each bit of the fields."""
    profiles = [tuple(bytes.fromhex(eep[3:].replace("-", ""))) for eep in FOUR_BYTE_PROFILES]
    session.set_mode("answer")
    for index, (func, variant) in enumerate(profiles):
        session.add_telegram(query_telegram_4bs(func, variant, 2047 - 53 * index), numbered_sender(index))
    session.add_lines("status", "list")
    session.remove_all_devices()
    session.set_mode("on")
    near_profiles = {(func_near + func_step, type_near + type_step) for func_near, type_near in profiles
                     for func_step, type_step in ((0, 1), (0, -1), (1, 0), (-1, 0))} - set(profiles)
    for func, variant in sorted(pair for pair in near_profiles if pair[1] >= 0):
        session.add_telegram(query_telegram_4bs(func, variant, 70), UNKNOWN_ID)
    session.add_lines("status", "list")
    session.set_mode("answer")
    for number in single_bit_numbers(13):
        session.add_telegram(query_telegram_4bs(number >> 7, number & 0x7F, 70), UNKNOWN_ID)
    session.add_lines("status", "list")
    for maker in single_bit_numbers(11):
        session.add_telegram(query_telegram_4bs(2, 5, maker), UNKNOWN_ID)
        session.add_lines(f"remove {UNKNOWN_ID:08X}")
    session.add_lines("status")
    session.remove_all_devices()


def query_telegram_ute(eep, maker, first_byte=0xA0, channels=1, unused=0):
    """A UTE query, of the profile with this number; the unused bits are beside those of the maker."""
    fields = {(0, 8): first_byte, (8, 8): channels, (16, 8): maker & 0xFF, (24, 5): unused, (29, 3): maker >> 8}
    profile = {(32, 8): eep & 0xFF, (40, 8): eep >> 8 & 0xFF, (48, 8): eep >> 16}
    return "D4 " + bytes_with_fields(7, {**fields, **profile}).hex().upper()


def try_ute_queries(session):
    """UTE queries: each profile of the tables, those next to them and some of another RORG; each bit of the maker, with
    the bits beside it; and channels."""
    session.set_mode("on")
    for index, number in enumerate(sorted(SUPPORTED_PROFILES)):
        session.add_telegram(query_telegram_ute(number, 2047 - 31 * index), numbered_sender(index))
    session.add_lines("status")
    session.remove_all_devices()
    session.set_mode("answer")
    first_bytes = [number for number in SUPPORTED_PROFILES if number - 1 not in SUPPORTED_PROFILES]
    near_profiles = {number + step for number in SUPPORTED_PROFILES for step in (1, -1)}
    near_profiles |= {number + step for number in first_bytes for step in (0x100, -0x100)}
    for rorg, kind in itertools.product((0xA5, 0xD2, 0xD4, 0xD5, 0xF6), (0x0201, 0x0001, 0x0205, 0x0112)):
        near_profiles.add(rorg << 16 | kind)
    for index, number in enumerate(sorted(near_profiles - SUPPORTED_PROFILES)):
        session.add_telegram(query_telegram_ute(number, 70, [0x80, 0xA0, 0xC0, 0xE0][index % 4]), UNKNOWN_ID)
    session.add_lines("status", "list")
    for maker in (0, 255, 1023, 2047, *(1 << index for index in range(11))):
        for unused in (0, 31):
            session.add_telegram(query_telegram_ute(0xD20112, maker, unused=unused), UNKNOWN_ID)
            session.add_lines(f"remove {UNKNOWN_ID:08X}")
    for channels in (0, 254, 255):
        for first_byte in (0x00, 0x10, 0x30):
            session.add_telegram(query_telegram_ute(0xD20112, 70, first_byte, channels), UNKNOWN_ID)
    session.add_lines("status", "list")
    session.remove_all_devices()


def try_learn_as_each_profile(session):
    """`learn as` each profile, and a telegram with which another sender each time is learned."""
    for index, number in enumerate(sorted(SUPPORTED_PROFILES)):
        eep = eep_text(number)
        session.set_mode("as " + eep)
        four_byte = "A5 00000000" if index % 2 else query_telegram_4bs(0x3F, index, 2 * index)
        session.add_telegram({"F6": "F6 10", "D5": "D5 00", "A5": four_byte, "D2": "D2 00"}[eep[:2]],
                             0x01800000 + index)
    session.add_lines("status", "list")
    session.remove_all_devices()


def try_addresses(session):
    """Telegrams that are for others or of no sender, and those to the gateway's own IDs."""
    session.set_mode("closed")
    session.ensure_learned(OTHER_UNKNOWN_ID, "D5-00-01")
    session.add_telegram("D5 09", BROADCAST_ID)
    for destination in (
        BASE_ID, BASE_ID + 1, BASE_ID + 127, 0, 0x01020304, BASE_ID - 1, BASE_ID + 128, 0xFFFFFF80, BROADCAST_ID - 1
    ):
        session.add_telegram("D5 09", OTHER_UNKNOWN_ID, radio_optional_data(1, destination))
    session.add_lines("status")
    for mode, text in (
        ("on", "D5 00"),
        ("answer", "A5 00000000"),
        ("answer", "A5 08284680"),
        ("answer", "A5 50084680"),
        ("as D5-00-01", "D5 00"),
        ("as A5-02-05", "A5 E047FF80"),
        ("as F6-02-01", "F6 50 30"),
        ("as D2-01-12", "D2 0460E4"),
        ("on", "D4 A00146001201D2"),
        ("answer", "D4 900146001201D2"),
    ):
        session.set_mode(mode, UNKNOWN_ID)
        session.add_telegram(text, BROADCAST_ID)
        session.add_telegram(text, BROADCAST_ID, radio_optional_data(1, BASE_ID))
        for destination in (0x01020304, BASE_ID - 1, BASE_ID + 128):
            session.add_telegram(text, UNKNOWN_ID, radio_optional_data(1, destination))
        session.add_lines("status")
        for destination in (BASE_ID, BASE_ID + 127):
            session.set_mode(mode, UNKNOWN_ID)
            session.add_telegram(text, UNKNOWN_ID, radio_optional_data(1, destination))
        session.add_lines("status", "list")
    session.remove_all_devices()


def try_optional_data(session):
    """Optional data of fewer than seven bytes is ignored, so the telegram is a broadcast. Of longer ones the first
    seven bytes are read."""
    for optional in (
        b"",
        radio_optional_data(1, 0x01020304)[:6],
        radio_optional_data(1, BROADCAST_ID, 0) + b"\x00",
        radio_optional_data(1, BASE_ID, 255) + b"\xff\xff",
    ):
        session.set_mode("answer", UNKNOWN_ID)
        session.add_telegram("A5 08284680", UNKNOWN_ID, optional)
        session.add_telegram("A5 00007F08", UNKNOWN_ID, optional)
        session.add_telegram("D4 900146001201D2", UNKNOWN_ID, optional)
    session.set_mode("answer", UNKNOWN_ID)
    session.add_telegram("A5 08284680", UNKNOWN_ID, radio_optional_data(1, 0x01020304) + radio_optional_data())
    session.add_telegram("D4 A00146001201D2", UNKNOWN_ID, radio_optional_data(1, 0x01020304) + radio_optional_data())
    session.add_lines("status", "list")
    session.remove_all_devices()


def try_no_telegrams(session):
    """Packets that are no telegrams, although their bytes would teach in a device: of another length, RORG or type."""
    for mode, rorg, byte in (
        ("on", "D5", "00"),
        ("as D5-00-01", "D5", "00"),
        ("answer", "A5", "80"),
        ("as A5-02-05", "A5", "80"),
        ("as F6-02-01", "F6", "10"),
        ("as D2-01-12", "D2", "04"),
        ("on", "D4", "80"),
    ):
        session.set_mode(mode)
        for length in {"D5": (0, 2), "A5": (0, 1, 3, 5), "F6": (0, 2), "D2": (0, 15, 16), "D4": (0, 6, 8)}[rorg]:
            session.add_telegram(f"{rorg} {byte * length}", UNKNOWN_ID)
        for other_rorg in (0xA6, 0xD0, 0xD1, 0xD3, 0x30, 0x35):
            for length in (1, 4):
                session.add_telegram(f"{other_rorg:02X} {byte * length}", UNKNOWN_ID)
        session.add_lines("status")
    for mode, data in (
        ("on", "D50001800ABC00"),
        ("answer", "A50828468001800ABC00"),
        ("as F6-02-01", "F65001800ABC30"),
        ("answer", "D4A00146001201D201800ABC00"),
    ):
        session.set_mode(mode)
        for kind in (0, 3, 5, 10, 255):
            session.add_lines(serial_script_lines(packet(kind, bytes.fromhex(data), radio_optional_data())).strip())
        session.add_lines("status")
    session.remove_all_devices()


def try_telegram_sequences(session):
    """The effect of a telegram on the next one: a sender is learned again, the mode is closed, data are read."""
    session.set_mode("on", UNKNOWN_ID)
    for text in SEQUENCE_4BS_1BS:
        session.add_telegram(text, UNKNOWN_ID)
        session.add_lines("list")
    session.add_lines(f"add {UNKNOWN_ID:08X} A5-02-05", "status")
    session.add_telegram("A5 00007F08", UNKNOWN_ID)
    session.add_telegram("A5 08284680", UNKNOWN_ID)
    session.add_lines(f"add {UNKNOWN_ID:08X} A5-02-05", "list", f"remove {UNKNOWN_ID:08X}", "status")
    session.set_mode("on", OTHER_UNKNOWN_ID)
    session.ensure_learned(OTHER_UNKNOWN_ID, "D2-01-12")
    for text in SEQUENCE_UTE:
        session.add_telegram(text, UNKNOWN_ID)
        session.add_lines("list")
    session.add_telegram("D2 0460E4", OTHER_UNKNOWN_ID)
    session.add_lines("status", f"remove {OTHER_UNKNOWN_ID:08X}")
    for mode, texts in SEQUENCES_BY_MODE:
        session.set_mode(mode, UNKNOWN_ID)
        for text in texts:
            session.add_telegram(text, UNKNOWN_ID)
            session.add_telegram(text, OTHER_UNKNOWN_ID)
            session.add_lines("status")
        session.add_lines("list", f"remove {UNKNOWN_ID:08X}")
        session.set_mode("closed", OTHER_UNKNOWN_ID)
    session.set_mode("as A5-10-03")
    session.ensure_learned(UNKNOWN_ID, "F6-02-01")
    session.add_telegram("A5 E047FF80", UNKNOWN_ID)
    session.add_lines("status", "list")
    session.set_mode("as D5-00-01")
    session.add_telegram("D5 00", UNKNOWN_ID)
    session.add_lines("status", "list")
    session.remove_all_devices()


def try_learn_orders(session):
    """The orders themselves: an order that is refused does not change the mode, nor does one that sets no mode."""
    for mode in LEARN_MODES[:4]:
        session.set_mode(mode)
        session.add_lines(
            "learn as A5-38-08", "status", "learn", "status", "add 01800ABC A5-38-08", "remove 01800ABC", "status"
        )
        session.add_lines("add 01800ABC D5-00-01", "list", "remove 01800ABC", "add FFFFFFFF D5-00-01", "status")
    session.add_lines("learn as a5-02-0b", "status", "learn as d2-01-0A", "status", "learn as D2-01-0b", "status")
    for text in REFUSED_LEARN_ORDERS:
        session.add_lines(text)
    session.add_lines("status")
    session.remove_all_devices()


def verdicts_session():
    session = TeachInSession()
    for group in (
        try_learn_orders,
        try_each_kind,
        try_single_bits,
        try_4bs_queries,
        try_ute_queries,
        try_learn_as_each_profile,
        try_addresses,
        try_optional_data,
        try_no_telegrams,
        try_telegram_sequences,
    ):
        group(session)
    return session


def verdicts_full_session():
    """If 1,000 devices are learned, no unknown sender is, and one of the 1,000 may still be learned again."""
    session = TeachInSession()
    fixed = dict(itertools.chain(*(known_devices(rorg).items() for rorg in KNOWN_PROFILES_BY_RORG)))
    for sender, eep in fixed.items():
        session.ensure_learned(sender, eep)
    for sender in range(1, MAX_DEVICES - len(fixed) + 1):
        session.ensure_learned(sender, "D5-00-01")
    for number, (mode, text) in enumerate(FIRST_TELEGRAM_BY_MODE):
        try_telegrams_in_mode(
            session, mode, number, TELEGRAMS_OF_KNOWN_SENDERS + ["A5 E047FF80", "A5 10080080"], TEACHING_TELEGRAMS
        )
        # If 999 are learned, one unknown sender is learned, and not the next.
        session.add_lines("remove 00000001")
        session.set_mode(mode)
        session.add_telegram(text, UNKNOWN_ID)
        session.set_mode(mode)
        session.add_telegram(text, OTHER_UNKNOWN_ID)
        session.add_lines("status", "add 00000001 D5-00-01", f"remove {OTHER_UNKNOWN_ID:08X}",
                          f"remove {UNKNOWN_ID:08X}")
        session.ensure_learned(1, "D5-00-01")
    session.add_lines(
        f"add {UNKNOWN_ID:08X} D5-00-01", f"add {UNKNOWN_ID:08X} A5-38-08", f"add {BROADCAST_ID:08X} D5-00-01", "status"
    )
    # After a deletion one more can be learned, unless the deleted sender was not learned.
    session.set_mode("on")
    for sender, text in TELEGRAMS_AFTER_DELETION:
        session.add_telegram(text, sender)
    session.add_lines("status")
    size_before = len(session.session_text(explains=False))
    where_full = pathlib.Path(__file__).with_name("where-full.session").read_bytes()
    repeat_lines(session, where_full)
    added_text = session.session_text(explains=False)[size_before:].encode()
    assert added_text == where_full, "the tables say otherwise than where-full.session"
    return session


def session_without_line(line_number):
    """`every-kind-of-item` without the line of this number, from 1 on."""
    session = Session()
    all_script_lines = [line.decode().strip() for line, _ in session_steps(read_session("every-kind-of-item"))]
    session.add_lines(*all_script_lines[: line_number - 1], *all_script_lines[line_number:])
    return session


SESSION_BUILDERS = {
    "verdicts": verdicts_session,
    "verdicts-full": verdicts_full_session,
    **{f"every-kind-of-item-but-{place}": functools.partial(session_without_line, place) for place in range(1, 11)},
}
