"""The bridge with random lines: none of them ends it."""
import copy
import json
import random
import unittest

from enogate_lines.contents import BadLine, Strange, content_of
from fakes import OK, LogTest, BridgeFixture, learned, listing, reading, status

SEED, ROUNDS, LINES = 76, 40, 100
RESPONSE = {"code": 0, "data": "FF800000", "name": "OK", "type": "response"}
LEVEL = [{"name": "IO", "raw": 0}, {"den": 1, "name": "OV", "num": 100, "unit": "%"},
         {"name": "T", "out_of_range": 251}]
ROCKER = [{"name": "R1", "word": "BI"}, {"name": "EB", "word": "pressed"}]
VALID_LINES = (OK, RESPONSE, status(), status("as F6-02-01"), learned("01800ABC", maker=70), reading("01800ABC"),
               reading("01800AC1", "F6-02-01", ROCKER), reading("01800ABD", "D2-01-12", LEVEL),
               learned("01800ABC", result="deleted"),
               *listing(("01800ABC", "A5-02-05", "Attic"), ("01800ABD", "D2-01-12", "")))
ODD_TEXTS = ("", "\ud800", "\udfff\ud800", "a\nb", "\0", "\x7f", "ä", "T/O", "+", "#", "x" * 33, "x" * 70_000,
             "closed", "CO", "01800ABC", "D5-00-01", "F6-02-01")
ODD_NUMBERS = (-1, 0, 1, 255, 256, 2048, 2 ** 31, 2 ** 63, 2 ** 64, -2 ** 63 - 1, 10 ** 400, 0.5, 1e300, float("inf"),
               float("nan"))
WRONG_VALUES = (*ODD_TEXTS, *ODD_NUMBERS, True, None, [], {}, [[]], [{}], ["x"], {"x": 1})


def members_of(json_value):
    """Each object or list within this value, with its keys."""
    length = len(json_value) if isinstance(json_value, list) else 0
    keys = list(json_value) if isinstance(json_value, dict) else list(range(length))
    places = [(json_value, key) for key in keys]
    return places + [member for key in keys for member in members_of(json_value[key])]


def random_line(rng):
    """A line of a gateway with wrong members, or with wrong bytes."""
    members = json.loads(json.dumps(rng.choice(VALID_LINES)))
    for _ in range(rng.choice((0, 1, 1, 1, 2))):
        container, key = rng.choice(members_of(members))
        if rng.random() < 0.15:
            del container[key]
        else:
            container[key] = copy.deepcopy(rng.choice(WRONG_VALUES))
        if not members:
            break
    line = bytearray(json.dumps(members).encode())
    for _ in range(rng.choice((0, 0, 0, 1, 3))):
        index = rng.randrange(len(line) + 1)
        line[index:index + rng.choice((0, 1, 1, 9))] = rng.randbytes(rng.choice((0, 1, 1, 9)))
    return bytes(line).replace(b"\n", b"")


def texts_of(content):
    """The texts in a value: those of its members, and of theirs."""
    if isinstance(content, str):
        return [content]
    members = vars(content).values() if hasattr(content, "__dict__") else content if isinstance(content,
                                                                                                (tuple, list)) else ()
    return [text for member in members for text in texts_of(member)]


class RandomLines(LogTest):
    def test_their_contents_are_bounded(self):
        rng, decoded_count = random.Random(SEED), 0
        for _ in range(ROUNDS * LINES):
            line = random_line(rng)
            try:
                content = content_of(line)
            except BadLine:
                continue
            if not isinstance(content, Strange):
                decoded_count += 1
                for text in texts_of(content):
                    self.assertTrue(text.isascii() and (text == "" or text.isprintable()), line)
                    self.assertLess(len(text), 200, line)
        self.assertGreater(decoded_count, ROUNDS * LINES // 10)

    def test_none_ends_the_bridge(self):
        fixture, rng = BridgeFixture(self), random.Random(SEED)
        fixture.start()
        fixture.broker.accept_connection()
        for _ in range(ROUNDS):
            with fixture.lines.open("ab") as file:
                file.write(b"".join(random_line(rng) + b"\n" for _ in range(LINES)))
            fixture.run_turns(30)
        self.assertEqual([line for line in self.logged_lines if "state" in line], [])
        for topic, text, _ in fixture.broker.connection.published:
            self.assertLess(len(topic.encode()), 200)
            # a discovery message has units such as °C
            self.assertTrue(text.encode().isascii() or topic.startswith("homeassistant/"), text)
        fixture.stop()
        fixture.broker.lose()
        fixture.start()
        fixture.broker.accept_connection()
        fixture.write_lines(learned("01800AFF"))
        fixture.run_turns(30)
        self.assertIn(json.dumps(learned("01800AFF")), [text for _, text in fixture.published("enogate/hall/lines")])


if __name__ == "__main__":
    unittest.main()
