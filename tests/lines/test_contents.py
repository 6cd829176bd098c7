"""The contents of lines."""
import json
import unittest
from fractions import Fraction

from enogate_lines.contents import BadLine, Deleted, EndOfList, Learned, Listed, OkOrError, Other, Reading, Response
from enogate_lines.contents import Status, Strange, Telegram, content_of
from enogate_lines.decimals import decimal
from enogate_lines import contents


CONTACT_LINE = ('{"dbm":-45,"eep":"D5-00-01","id":"01800ABC","readings":[{"name":"CO","word":"closed"}],'
                '"type":"reading"}')
VALUE_LINE = CONTACT_LINE.replace('"word":"closed"', '"den":51,"num":1024,"unit":"C"')
TEACH_LINE = '{"eep":"D5-00-01","id":"01800ABC","maker":70,"result":"accepted","type":"teach"}'
DEVICE_LINE = '{"eep":"D5-00-01","id":"01800ABC","label":"Door","maker":70,"type":"device"}'
STATUS_LINE = '{"ignored":1,"mode":"on","readings":2,"refused":3,"responses":4,"teach":5,"type":"status"}'


class DecimalTexts(unittest.TestCase):
    def test_finite_decimals_are_exact(self):
        for fraction, text in ((Fraction(5), "5"), (Fraction(0), "0"), (Fraction(-3, 4), "-0.75"),
                               (Fraction(1, 8), "0.125"),
                               (Fraction(12345678, 1000), "12345.678"), (Fraction(10000011, 10), "1000001.1"),
                               (Fraction(2**24 - 1, 1000), "16777.215"), (Fraction(1, 2**20), "0.00000095367431640625"),
                               (Fraction(100), "100"), (Fraction(1000, 10), "100")):
            with self.subTest(fraction):
                self.assertEqual(decimal(fraction.numerator, fraction.denominator), text)

    def test_other_fractions_have_six_digits_rounded_half_to_even(self):
        for fraction, text in ((Fraction(1024, 51), "20.0784"), (Fraction(-1, 3), "-0.333333"),
                               (Fraction(2, 3), "0.666667"),
                               (Fraction(1, 3000), "0.000333333"), (Fraction(10**7, 3), "3333333"),
                               (Fraction(1999999, 3), "666666"), (Fraction(200, 3), "66.6667"),
                               (Fraction(-1234567, 3), "-411522")):
            with self.subTest(fraction):
                self.assertEqual(decimal(fraction.numerator, fraction.denominator), text)

    def test_fractions_that_are_not_reduced(self):
        for fraction, text in (((1000, 10), "100"), ((6, 48), "0.125"), ((-36, 48), "-0.75"), ((0, 51), "0"),
                               ((3 * 2**40, 3 * 2**41), "0.5"), ((7 * 2**40, 7 * 2**60), "0.00000095367431640625"),
                               ((2048, 102), "20.0784"), ((21 * 10**7, 63), "3333333")):
            with self.subTest(fraction):
                self.assertEqual(decimal(*fraction), text)

    def test_a_counter_does_not_step_backwards(self):
        for divisor in (1, 10, 100, 1000):
            texts = [decimal(raw, divisor) for raw in range(999_990, 1_000_040)]
            fractions = list(map(Fraction, texts))
            self.assertEqual(fractions, sorted(set(fractions)))


class LineContents(unittest.TestCase):
    def test_each_type(self):
        for line, content in (
            (CONTACT_LINE.encode(),
             Telegram("01800ABC", "D5-00-01", -45, (Reading("CO", "", "closed", None),))),
            (b'{"dbm":null,"eep":"A5-12-01","id":"01800ABC","readings":[{"name":"TI","raw":3},'
             b'{"den":51,"name":"T","num":1024,"unit":"C"},{"name":"H","out_of_range":251}],"type":"reading"}',
             Telegram("01800ABC", "A5-12-01", None, (Reading("TI", "", "3", 3), Reading("T", "C", "20.0784", None),
                                                     Reading("H", "", "out_of_range", None)))),
            (b'{"eep":"D5-00-01","id":"01800ABC","maker":70,"result":"accepted","type":"teach"}',
             Learned("01800ABC", "D5-00-01", 70)),
            (b'{"eep":"D5-00-01","id":"01800ABC","maker":null,"result":"deleted","type":"teach"}', Deleted("01800ABC")),
            (b'{"eep":"D5-00-01","id":"01800ABC","maker":null,"result":"full","type":"teach"}', Other()),
            (b'{"eep":"D5-00-01","id":"01800ABC","label":"a \\"b\\"","maker":null,"type":"device"}',
             Listed("01800ABC", "D5-00-01", 'a "b"', None)),
            (b'{"count":2,"type":"list"}', EndOfList(2)),
            (b'{"ignored":1,"mode":"as F6-02-01","readings":2,"refused":3,"responses":4,"teach":5,"type":"status"}',
             Status("as F6-02-01", {"ignored": 1, "readings": 2, "refused": 3, "responses": 4, "teach": 5})),
            (b'{"code":0,"data":"","name":"OK","type":"response"}', Response(0, "")),
            (b'{"code":213,"data":"09FF","name":null,"type":"response"}', Response(213, "09FF")),
            (b'{"type":"ok"}', OkOrError()), (b'{"error":"syntax","type":"error"}', OkOrError()),
            (b'{"type":"new"}', Other()),
        ):
            with self.subTest(line):
                decoded_content = content_of(line)
                self.assertEqual((type(decoded_content), decoded_content), (type(content), content))

    def test_lines_of_no_gateway(self):
        for line in (b"", b"{", b"3", b"[]", b"null", b'{"kind":1}', b'{"type":"ok"}\xff', "{\"type\":\"ö\"}".encode(),
                     b"[" * 100_000, b'"type"'):
            with self.subTest(line[:20]):
                with self.assertRaises(BadLine) as caught_error:
                    content_of(line)
                self.assertLess(len(str(caught_error.exception)), 300)

    def test_unexpected_members(self):
        for old_text, new_text in (("01800ABC", "01800abc"), ("01800ABC", "01800AB"), ("D5-00-01", "D5-00"),
                                   ("-45", '"x"'),
                                   ("-45", "true"), ("-45", "1.5"), ('"CO"', '"C/O"'), ('"CO"', '"C+"'), ('"CO"', '""'),
                                   ('"word":"closed"', '"num":1,"den":0,"unit":"C"'), ('"word":"closed"', '"num":1'),
                                   ('"closed"', "3"), ('"word":"closed"', '"raw":"3"'),
                                   ('"word":"closed"', '"out_of_range":"x"'),
                                   ('[{"name":"CO","word":"closed"}]', "3"),
                                   (',"readings":[{"name":"CO","word":"closed"}]', "")):
            with self.subTest(new_text):
                self.assertIsInstance(content_of(CONTACT_LINE.replace(old_text, new_text).encode()), Strange)
        for line in (b'{"count":"2","type":"list"}', b'{"mode":"on","type":"status"}', b'{"type":["list"]}',
                     b'{"type":"response"}', b'{"code":"0","data":"","type":"response"}',
                     b'{"code":0,"data":"F","type":"response"}', b'{"code":0,"data":"ff","type":"response"}'):
            with self.subTest(line):
                self.assertIsInstance(content_of(line), (Strange, Other))

    def assert_bounds(self, line, name, valid_values, invalid_values):
        """The line is decoded with these values of the member, and strange with those."""
        for member_value in valid_values + invalid_values:
            members = json.loads(line)
            parent = members if name in members else members["readings"][0]
            parent[name] = member_value
            with self.subTest(name=name, value=str(member_value)[:40]):
                content = content_of(json.dumps(members).encode())
                self.assertEqual(isinstance(content, Strange), member_value in invalid_values)

    def test_bounds_of_texts(self):
        """Printable ASCII: others cannot be published, or are not what a gateway writes."""
        invalid_texts = ["\ud800", "\udfffx", "\0", "a\n", "\x7f", "ä", "x" * 33, "x" * 70_000]
        self.assert_bounds(DEVICE_LINE, "label", ["", " ~", "x" * 32], invalid_texts)
        self.assert_bounds(CONTACT_LINE, "word", [" ~", "x" * 32], ["", *invalid_texts])
        self.assert_bounds(VALUE_LINE, "unit", ["", "%", "x" * 32], invalid_texts)
        self.assert_bounds(VALUE_LINE, "name", ["x" * 32], ["", "a b", *invalid_texts])
        self.assert_bounds(STATUS_LINE, "mode", ["closed", "as F6-02-01"], ["", *invalid_texts])

    def test_bounds_of_numbers(self):
        for line in (DEVICE_LINE, TEACH_LINE):
            self.assert_bounds(line, "maker", [None, 0, 2047], [-1, 2048, 2 ** 70])
        self.assert_bounds(CONTACT_LINE, "dbm", [None, 0, -255], [1, -256, 2 ** 70])
        self.assert_bounds(VALUE_LINE, "num", [0, 2 ** 63 - 1, -2 ** 63], [2 ** 63, -2 ** 63 - 1, 10 ** 4000])
        self.assert_bounds(VALUE_LINE, "den", [1, 2 ** 63 - 1], [0, -1, 2 ** 63])
        for name in ("raw", "out_of_range"):
            line = CONTACT_LINE.replace('"word":"closed"', f'"{name}":1')
            self.assert_bounds(line, name, [0, 2 ** 64 - 1], [-1, 2 ** 64, 10 ** 4000])
        self.assert_bounds('{"count":2,"type":"list"}', "count", [0, 2 ** 64 - 1], [-1, 2 ** 64])
        self.assert_bounds(STATUS_LINE, "teach", [0, 2 ** 64 - 1], [-1, 2 ** 64])
        self.assert_bounds('{"code":0,"data":"","name":"OK","type":"response"}', "code", [0, 255], [-1, 256])

    def test_bounds_of_readings(self):
        reading = {"name": "CO", "word": "closed"}
        self.assert_bounds(CONTACT_LINE, "readings", [[], [reading] * 64], [[reading] * 65])

    def test_a_complaint_shows_the_beginning(self):
        line = b'{"count":"' + b"2" * 100 + b'","type":"list"}'
        self.assertEqual(content_of(line), Strange(
            f"line with unexpected members, not decoded: {line[:contents.SHOWN_OF_A_LINE]!r}"))


if __name__ == "__main__":
    unittest.main()
