"""Random scripts: orders, valid and invalid labels, packets split anywhere, noise, false headers, wrong CRCs,
responses, lines with odd digits, and lines that are too long. In two of three scripts the learn window is opened and
closed, and there are teach-in telegrams from few senders: half of them are UTE telegrams, which also forget devices.
Half of the scripts have orders to actuators, valid and invalid ones. The script of a number is the same in each
run."""
import random

from oracle.esp3 import packet
from oracle.profiles import SUPPORTED_PROFILES

# The profiles that are read, by RORG and FUNC, and some that are not; RORGs, and the sizes of their payloads.
SUPPORTED_BY_RORG_AND_FUNC = {rorg: {} for rorg in (0xD5, 0xF6, 0xA5, 0xD2)}
for eep in sorted(SUPPORTED_PROFILES):
    SUPPORTED_BY_RORG_AND_FUNC[eep >> 16].setdefault(eep >> 8, []).append(
        f"{eep >> 16:02X}-{eep >> 8 & 255:02X}-{eep & 255:02X}"
    )
UNSUPPORTED_PROFILES = """D5-00-00 D5-00-02 F6-02-00 F6-12-01 A5-02-00 A5-04-00 A5-08-00 D2-01-13 D4-00-01
00-00-00""".split()
PAYLOAD_SIZES = {0xD5: [1], 0xF6: [1], 0xA5: [4], 0xD2: [3, 4, 6], 0xD4: [7]}
# Bytes that a changed line has in it: some are no digits.
MUTATION_BYTES = b"\0\t\r /:@G`g\x7f\x80\xff0179aAfF"
# Lines that are nearly `learn` orders.
MISSPELLED_LEARN_ORDERS = """learn|learn |learn as|learn as |learn answer|learn on as D5-00-01|learn on  answer
learn on answer |learn On
learn on D5-00-01|learn off answer|learn as D50001|learn as D5-00-1|learn as 01800ABC D5-00-01|learn as answer
learn as D5-00-01 |learn as  F6-02-01|learn as F6-02-01 answer|learn on Answer|Learn on| learn on|learn\ton|LEARN OFF
learn close|learn closed""".encode().replace(b"\n", b"|").split(b"|")

# The orders that have a packet, and where the ranges of their numbers end: those to a device, with the
# beginning of its profile, and the others.
DEVICE_ORDERS = [
    ("D2-01", "switch ID {} on", 30),
    ("D2-01", "switch ID {} off", 30),
    ("D2-01", "dim ID {} {}", 30, 100),
    ("D2-01", "query ID {}", 30),
    ("D2-05", "query ID {}", 0),
    ("D2-01", "meter ID {} energy", 30),
    ("D2-01", "meter ID {} power", 30),
    ("D2-05", "blind ID {}", 100),
    ("D2-05", "stop ID"),
]
BROADCAST_ORDERS = [
    ("central {} on", 127),
    ("central {} off", 127),
    ("level {} {} {}", 127, 100, 255),
    ("level {} 0 {}", 127, 255),
    ("teach {}", 127),
    ("base",),
]
# Words that are no numbers: some have too many digits.
INVALID_NUMBERS = """00 01 000 007 00000 000001 +7 -1 7.0 0x1 1e1 7% ff 100000 123456 4294967296
18446744073709551616""".split()


def usual_or_rare(rng, usual, *rare):
    """The usual value three times in four."""
    return usual if rng.random() < 0.75 else rng.choice(rare)


def random_letter_case(rng, digits):
    return rng.choice([digits.upper(), digits.lower()]).encode()


def mutate_line(rng, line):
    """The line with a byte replaced, inserted or removed, or with more bytes at its end, so that it may be too long."""
    index = rng.randrange(len(line))
    byte = bytes([rng.choice(MUTATION_BYTES)])
    count = rng.choice([1, 2, 300, max(1, rng.randrange(195, 205) - len(line))])
    inserted_bytes = bytes(rng.choices(b"0123456789abcdefABCDEF \r", k=count))
    bytes_before, bytes_after = line[:index], line[index + 1 :]
    return rng.choice([bytes_before + byte + bytes_after, bytes_before + byte + line[index:],
                       bytes_before + bytes_after, line + inserted_bytes])


def profile_number(eep):
    """A profile, or its beginning, as a number."""
    return int(eep.replace("-", ""), 16)


def random_profile(rng):
    """A profile that is read. All RORGs are equally frequent, and so are all FUNCs of a RORG."""
    return rng.choice(rng.choice(list(rng.choice(list(SUPPORTED_BY_RORG_AND_FUNC.values())).values())))


def random_learn_order(rng):
    to_read = b"learn as " + random_letter_case(rng, usual_or_rare(rng, random_profile(rng), *UNSUPPORTED_PROFILES))
    line = rng.choice([b"learn on", b"learn on answer", b"learn on answer", b"learn off", *[to_read] * 4])
    return usual_or_rare(rng, line, *MISSPELLED_LEARN_ORDERS)


def random_label_order(rng, sender):
    """An order that labels a device. The text is usually a label; otherwise it has a space at an end, a byte of no
    label, or too many bytes."""
    size = usual_or_rare(rng, rng.randrange(1, 33), 0, 32, 33, 34, rng.randrange(200))
    text = bytes(rng.choices(rng.choice([range(0x20, 0x7F), b' "\\~a']), k=size)).strip(b" ")
    strange = bytes([rng.choice([0x1F, 0x7F, 0x80, 0xC3, 0xFF, rng.randrange(256)])])
    text = usual_or_rare(rng, text, b" " + text, text + b" ", text + strange, strange + text, text + strange + text)
    return b"label " + sender + usual_or_rare(rng, b" " + text, b"")


def random_order(rng, devices, learn_share):
    """An order of the desk; `learns` is how frequent the `learn` orders are."""
    sender = random_letter_case(
        rng, f"{usual_or_rare(rng, rng.choice(devices)[0], 0, 0xFFFFFFFF, rng.getrandbits(32)):08x}"
    )
    eep = random_letter_case(rng, usual_or_rare(rng, random_profile(rng), *UNSUPPORTED_PROFILES))
    lines = [b"add " + sender + b" " + eep] * 5 + [b"remove " + sender] * 3 + [random_label_order(rng, sender)] * 5
    line = rng.choice([*lines, b"list", b"status"])
    if rng.random() < learn_share:
        line = random_learn_order(rng)
    return usual_or_rare(rng, line, mutate_line(rng, line))


def random_number(rng, greatest):
    """A number of this range, nine times in ten."""
    if rng.random() < 0.9:
        return str(rng.choice([0, greatest, rng.randrange(greatest + 1)]))
    numbers_past_limit = [greatest + 1, 128, 255, 256, 256 + greatest, 65536, 65536 + greatest, 99999,
                          rng.randrange(100000)]
    return rng.choice([str(rng.choice(numbers_past_limit)), rng.choice(INVALID_NUMBERS)])


def misspell_order(rng, line):
    """The line with a space too many or too few, a word too many or too few, or in another case."""
    words = line.split(b" ")
    index = rng.randrange(len(words))
    words_before, words_after = words[:index], words[index:]
    space = rng.choice([b"  ", b"\t", b"", b" ", b","])
    return rng.choice(
        [
            b" ".join(words_before) + space + b" ".join(words_after),
            b" ".join(words_before + [b""] + words_after),
            line + b" ",
            b" ".join(words_before + words_after[1:]),
            b" ".join(words_before),
            b" ".join(words_before + words_after[:1] + words_after),
            b" ".join(words_before + [words_after[0].swapcase()] + words_after[1:]),
            b" ".join(rng.sample(words, len(words))),
        ]
    )


def random_actuator_orders(rng, devices):
    """An order that has a packet. An order to a device is often to one of the right profile, or the device is added
    before."""
    lines = []
    if rng.random() < 0.3:
        order_form, *limits = rng.choice(BROADCAST_ORDERS)
    else:
        eep_start, order_form, *limits = rng.choice(DEVICE_ORDERS)
        fitting_senders = [sender for sender, eep in devices if eep.startswith(eep_start)] or [devices[0][0]]
        sender = usual_or_rare(
            rng, rng.choice(fitting_senders), rng.choice(devices)[0], 0, 0xFFFFFFFE, 0xFFFFFFFF, rng.getrandbits(32)
        )
        if rng.random() < 0.4:
            right_eep = rng.choice(SUPPORTED_BY_RORG_AND_FUNC[0xD2][profile_number(eep_start)])
            lines.append(f"add {sender:08X} {usual_or_rare(rng, right_eep, random_profile(rng))}".encode())
        digits = random_letter_case(rng, f"{sender:08x}").decode()
        order_form = order_form.replace("ID", digits if rng.random() < 0.95 else rng.choice([digits[1:], digits + "0"]))
    line = order_form.format(*(random_number(rng, greatest) for greatest in limits)).encode()
    return [*lines, rng.choice([line] * 6 + [misspell_order(rng, line), mutate_line(rng, line)])]


def random_4bs_query(rng):
    """The payload of a 4BS query: mostly its profile is read."""
    eep = profile_number(rng.choice(rng.choice(list(SUPPORTED_BY_RORG_AND_FUNC[0xA5].values()))))
    bits = (eep >> 8 & 63) << 18 | (eep & 127) << 11 | usual_or_rare(rng, rng.randrange(2048), 0, 2047)
    bits = usual_or_rare(rng, bits, bits ^ 1 << rng.randrange(24), rng.getrandbits(24))
    return bits.to_bytes(3, "big") + bytes([0x80 | rng.randrange(256) & 0x67])


def random_ute_payload(rng, eep):
    """The payload of a UTE telegram: usually a query, otherwise a reply. Its profile is usually supported, and often is
    this one. Some have a byte too few or too many."""
    eep_in_query = profile_number(usual_or_rare(rng, rng.choice([eep, random_profile(rng)]), *UNSUPPORTED_PROFILES))
    eep_in_query = usual_or_rare(rng, eep_in_query, eep_in_query ^ 1 << rng.randrange(24), rng.getrandbits(24))
    request = rng.randrange(16) << 4 | usual_or_rare(rng, 0, *range(1, 16))
    unused = rng.randrange(32) << 11
    maker = unused | usual_or_rare(rng, rng.randrange(2048), 0, 2047)
    payload = bytes([request, rng.randrange(256)]) + maker.to_bytes(2, "little") + eep_in_query.to_bytes(3, "little")
    return rng.choice([payload] * 18 + [payload[:-1], payload + rng.randbytes(1)])


def random_teach_in_payload(rng, eep):
    """The RORG and the payload of a telegram that may teach a device in or delete it, in some mode or in none. Some
    have this profile."""
    byte = rng.randrange(256)
    return rng.choice(
        [
            (0xD5, bytes([byte & 0xF7])),
            (0xA5, rng.randbytes(3) + bytes([byte & 0x77])),
            (0xA5, random_4bs_query(rng)),
            (0xA5, random_4bs_query(rng)),
            (0xA5, random_4bs_query(rng)[:3] + bytes([0x90 | byte & 0xF7])),
            (0xF6, bytes([usual_or_rare(rng, byte | 0x10, byte & 0xEF)])),
            (0xD2, rng.randbytes(rng.randrange(1, 15))),
            *[(0xD4, random_ute_payload(rng, eep))] * 7,
        ]
    )


def random_telegram(rng, devices, base, teach_share):
    """The packet of a telegram; `teaches` is how frequent those of teach-in are."""
    sender, eep = rng.choice(devices)
    rorg = usual_or_rare(rng, int(eep[:2], 16), *PAYLOAD_SIZES, 0xA6, rng.randrange(256))
    size = usual_or_rare(rng, rng.choice(PAYLOAD_SIZES.get(rorg, [1, 4])), *range(8), 14, 15, rng.randrange(300))
    payload = bytearray(rng.choices(rng.choice([range(256), b"\0\x08\x0b\xfa\xfb\xff"]), k=size))
    if rorg == 0xD2 and size and rng.random() < 0.9:
        lrn_index = 3 if size == 4 else 0
        payload[lrn_index] = payload[lrn_index] & 0xF0 | (7 if size == 6 else 4)
    if rng.random() < teach_share:
        rorg, payload = random_teach_in_payload(rng, eep)
    sender = usual_or_rare(rng, sender, 0, 0xFFFFFFFF, base, base + 5, rng.getrandbits(32))
    status = usual_or_rare(rng, rng.choice([0x00, 0x20, 0x30]), rng.randrange(256))
    target = usual_or_rare(rng, 0xFFFFFFFF, base - 1, base, base + 127, base + 128 & 0xFFFFFFFF, rng.getrandbits(32))
    optional = bytes([3, *target.to_bytes(4, "big"), rng.choice([0, 45, 255])]) + rng.randbytes(10)
    data = bytes([rorg, *payload, *sender.to_bytes(4, "big"), status])
    return packet(usual_or_rare(rng, 1, rng.randrange(256)), data, optional[: usual_or_rare(rng, 7, *range(17))])


def random_response(rng):
    size = usual_or_rare(rng, rng.randrange(1, 20), 0, 1, usual_or_rare(rng, rng.randrange(2000), 65535))
    data = bytes([usual_or_rare(rng, rng.randrange(6), rng.randrange(256))]) + rng.randbytes(size)
    return packet(2, data[:size], rng.randbytes(usual_or_rare(rng, 0, 1, 255)))


def random_packet(rng):
    size = rng.choice([0, 0, 1, 5, rng.randrange(1030)])
    return packet(rng.randrange(4), rng.randbytes(size), rng.randbytes(usual_or_rare(rng, 0, 1, 7, 255)))


def random_header(rng):
    """A header with a correct CRC, and nothing after it."""
    size = usual_or_rare(rng, rng.randrange(60), 0, rng.randrange(1500))
    if rng.random() < 0.01:
        size = usual_or_rare(rng, rng.randrange(65536), 65535)
    return packet(rng.randrange(4), bytes(size), bytes(usual_or_rare(rng, 0, 1, 7, 255)))[:6]


def corrupt_packet(rng, intact_packet):
    """A packet with a wrong bit, or without its end."""
    index = rng.randrange(len(intact_packet))
    return usual_or_rare(rng, intact_packet[:index] + bytes([intact_packet[index] ^ 1 << rng.randrange(8)])
                         + intact_packet[index + 1 :], intact_packet[:index])


def random_stream(rng, devices, base, teach_share):
    """Bytes of the serial line. Some telegrams are sent a few times."""
    kind = rng.randrange(12)
    if kind < 6:
        return random_telegram(rng, devices, base, teach_share) * usual_or_rare(rng, 1, 2, 3)
    if kind < 8:
        return corrupt_packet(rng, random_telegram(rng, devices, base, teach_share))
    if kind == 8:
        return random_response(rng)
    if kind == 9:
        return random_packet(rng)
    if kind == 10:
        return random_header(rng)
    return bytes(rng.choices(rng.choice([range(256), b"\x55\x55\x00\x01\x07"]), k=rng.randrange(40)))


def random_script(rng, base):
    learn_share = teach_share = order_share = 0
    device_counts, learned_counts, line_counts = [1, 3, 10, 1100], [10, 10, 990, 1000, 1001], [5, 50, 300]
    if rng.random() < 0.67:
        learn_share, teach_share = rng.choice([0.1, 0.5, 0.8]), rng.choice([0.1, 0.5, 0.8])
        device_counts, learned_counts, line_counts = [3, 10, 1100, 1100], [0, 2, 999, 1000, 1000], [50, 300, 300]
    devices = [(rng.getrandbits(32), random_profile(rng)) for _ in range(rng.choice(device_counts))]
    if rng.random() < 0.5:
        order_share = rng.choice([0.2, 0.6, 2])
        eeps = ["D2-01-00", "D2-01-12", "D2-05-00", random_profile(rng), random_profile(rng)]
        senders_and_eeps = [(rng.getrandbits(32), eep) for eep in eeps]
        devices = senders_and_eeps[: rng.randrange(1, 6)] + devices
    lines = [f"add {sender:08X} {eep}".encode() for sender, eep in devices[: rng.choice(learned_counts)]]
    if learn_share:
        devices = devices[:3] + devices[-2:] + [(rng.getrandbits(32), random_profile(rng)) for _ in range(3)]
    mutation_share = rng.choice([0, 0.01, 0.2])
    for _ in range(rng.choice(line_counts)):
        if rng.random() < 0.3:
            lines.append(random_order(rng, devices, learn_share))
        if rng.random() < order_share:
            for _ in range(rng.choice([1, 1, 5])):
                lines += random_actuator_orders(rng, devices)
        stream = b"".join(random_stream(rng, devices, base, teach_share) for _ in range(rng.choice([1, 1, 5])))
        while stream:
            size = rng.choice([0, 1, 2, 24, 24, 99, 99, rng.randrange(100)])
            line = b"S " + random_letter_case(rng, stream[:size].hex())
            lines.append(mutate_line(rng, line) if rng.random() < mutation_share else line)
            stream = stream[size:]
    ends = [b"S " + b"00" * 99] * 665  # as many bytes as any header announces
    text = b"".join(line + usual_or_rare(rng, b"\n", b"\r\n") for line in [*lines, *ends, b"status", b"list"])
    return usual_or_rare(rng, text, text[: -rng.randrange(1, 20)])


def script_of_seed(seed):
    """The base ID and the text of the script of this number."""
    rng = random.Random(seed)
    base = 0xFF800000 + 128 * rng.choice([0, 1, 0xFFFF, rng.randrange(0x10000)])
    return f"{base:08X}", random_script(rng, base)
