"""The sessions on profiles: `switches`, `four-byte` and `variable-length` have telegrams of every profile;
`other-profiles` an `add` of profiles that are next to those of the tables, which are rejected; `two-hundred-contacts`
devices that are learned, and then send."""
import itertools

from oracle.profiles import (
    BLIND_STATE_FIELDS,
    D2_01_MESSAGES,
    FOUR_BYTE_PROFILES,
    SUPPORTED_PROFILES,
    SWITCH_PROFILES,
    bytes_with_fields,
    eep_text,
)
from oracle.sessions import Session, every_nth_item

# The RORGs of the five kinds of telegrams.
RORGS = (0xF6, 0xD5, 0xA5, 0xD2, 0xD4)


def boundary_payloads(rows, size, fixed_fields, fill_bytes=(0, 1)):
    """Payloads with these fixed fields: each row's field at each end of its range, just past them, at its words, and at
    the least and the greatest number, under every value of every condition, with all other bits 0, and with all other
    bits 1."""
    places = {}
    for _, _, _, condition, kind in rows:
        for field_place in condition:
            places.setdefault(field_place, range(2 ** field_place[1]))
    if any(name == "MR" for name, *_ in rows):
        places[(30, 2)] = range(4)
    payloads = {}
    for _, offset, length, _, kind in rows:
        greatest = 2**length - 1
        near_numbers = [end + step for end in kind.ends for step in (-1, 0, 1)]
        raw_numbers = sorted({number for number in near_numbers + [0, greatest] if 0 <= number <= greatest})
        for values in itertools.product(*places.values()):
            for number in raw_numbers:
                fields = {**dict(zip(places, values)), (offset, length): number, **fixed_fields}
                for fill_byte in fill_bytes:
                    payloads[bytes_with_fields(size, fields, fill_byte)] = None
    return list(payloads)


class ProfileSession(Session):
    def learn_device(self, eep):
        """A device of its own is learned with this profile."""
        self.eep, self.device = eep, 0x01800000 + len(self.gateway.devices)
        self.add_devices({self.device: eep})

    def add_telegram_and_check(self, payload, status=0, is_read=True):
        """A telegram of the device that was learned last, and whether its profile reads it."""
        self.add_telegram(f"{self.eep[:2]} {payload.hex()} {status:02X}", self.device)
        assert ('"type":"reading"' in self.steps[-1][1]) == is_read, f"{self.eep}: {payload.hex()}"


def pairwise_bytes():
    """Bytes in which every two of the fields (0,3), (3,1), (4,3) and (7,1) have each pair of values."""
    for first_action, second_action in itertools.product(range(8), repeat=2):
        total = first_action + second_action
        yield first_action << 5 | (total & 1) << 4 | second_action << 1 | (total >> 1 & 1)


def switches_session():
    """Each switch at these payloads, with NU 0 and 1. The bit (4,1) of a contact is 0 at teach-in."""
    session = ProfileSession()
    for eep in SWITCH_PROFILES:
        session.learn_device(eep)
        for status in (0x20, 0x30):
            for byte in pairwise_bytes():
                session.add_telegram_and_check(bytes([byte]), status,
                                               is_read=not (eep.startswith("D5") and byte & 8 == 0))
    session.add_lines("status")
    return session


def four_byte_session():
    """Each 4BS profile; the bit (28,1) is 0 at teach-in. The other bits are 0 with every second profile, and 1 with the
    others."""
    session = ProfileSession()
    for number, (eep, rows) in enumerate(FOUR_BYTE_PROFILES.items()):
        session.learn_device(eep)
        for payload in boundary_payloads(rows, 4, {(28, 1): 1}, fill_bytes=(number % 2,)):
            session.add_telegram_and_check(payload)
        session.add_telegram_and_check(bytes_with_fields(4, {(16, 8): 127}), is_read=False)
    session.add_lines("status")
    return session


def variable_length_session():
    """Each VLD profile; other commands and other lengths are not read. The types of D2-01 have the same rows, so each
    has one of three telegrams, and the other bits are 0 with every second type, and 1 with the others."""
    session = ProfileSession()
    for kind in range(0x13):
        session.learn_device(f"D2-01-{kind:02X}")
        for command, (size, rows) in D2_01_MESSAGES.items():
            for payload in every_nth_item(boundary_payloads(rows, size, {(4, 4): command}, fill_bytes=(kind % 2,)),
                                          kind, 3):
                session.add_telegram_and_check(payload)
            for size_of_other in every_nth_item(sorted({1, size - 1, size + 1, 14}), kind, 3):
                session.add_telegram_and_check(bytes_with_fields(size_of_other, {(4, 4): command}), is_read=False)
        for command, size in every_nth_item(
            itertools.product(set(range(16)) - set(D2_01_MESSAGES), (1, 3, 6)), kind, 3
        ):
            session.add_telegram_and_check(bytes_with_fields(size, {(4, 4): command}), is_read=False)
    session.learn_device("D2-05-00")
    for payload in boundary_payloads(BLIND_STATE_FIELDS, 4, {(28, 4): 4}):
        session.add_telegram_and_check(payload)
    for command in set(range(16)) - {4}:
        session.add_telegram_and_check(bytes_with_fields(4, {(28, 4): command}), is_read=False)
    for size in (1, 3, 5):
        session.add_telegram_and_check(bytes_with_fields(size, {(8 * size - 4, 4): 4}), is_read=False)
    session.add_lines("status")
    return session


def rejected_profiles_session(profiles):
    """An `add` of each of these profiles that is outside the tables. It learns nothing."""
    session = Session()
    session.add_lines(
        *(f"add 01800ABC {eep_text(number)}" for number in sorted(set(profiles) - SUPPORTED_PROFILES)), "list", "status"
    )
    assert not session.gateway.devices
    return session


def neighbour_profiles_session():
    """The profiles one step from those of the tables: RORG, FUNC or TYPE is one more or one less."""
    steps = [sign << shift for shift in (0, 8, 16) for sign in (1, -1)]
    return rejected_profiles_session(number + step for number in SUPPORTED_PROFILES for step in steps)


def all_other_profiles_session():
    """All profiles of the five RORGs, and with every other RORG the FUNC and TYPE of each profile in the tables."""
    known_func_types = {number & 0xFFFF for number in SUPPORTED_PROFILES}
    return rejected_profiles_session(
        rorg << 16 | func_and_type for rorg in range(256)
        for func_and_type in (range(0x10000) if rorg in RORGS else known_func_types)
    )


def two_hundred_contacts_session():
    """Each is learned, and then sends twice."""
    session, senders = Session(), range(0x01800A00, 0x01800AC8)
    session.add_devices(dict.fromkeys(senders, "D5-00-01"))
    for sender in senders:
        session.add_telegram("D5 09", sender)
        session.add_telegram("D5 09", sender)
    return session


SESSION_BUILDERS = {
    "switches": switches_session,
    "four-byte": four_byte_session,
    "variable-length": variable_length_session,
    "other-profiles": neighbour_profiles_session,
    "two-hundred-contacts": two_hundred_contacts_session,
}
