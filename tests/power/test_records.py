"""The images after power failures, without a disk."""
import pathlib
import random
import tempfile
import unittest

from records import FLUSH_RECORD, CUT_MODES, PAGE_SIZE, SECTOR_SIZE, DiskImage, PowerCutter
from records import choose_cuts, interrupted_write_bytes, records_in, packed_write_record


def records_of_writes(*writes):
    """The records of these writes; None is a flush."""
    return records_in(b"".join(FLUSH_RECORD if offset_and_content is None else packed_write_record(*offset_and_content)
                               for offset_and_content in writes))


def image_bytes(image, size):
    content = bytearray(size)
    for page_number, page in image.pages.items():
        content[page_number * PAGE_SIZE:page_number * PAGE_SIZE + PAGE_SIZE] = page
    return bytes(content[:size])


class DiskRecordTest(unittest.TestCase):
    def test_a_log(self):
        first_record, flush_record, third_record = records_of_writes((5, b"abc"), None, (4096, b""))
        self.assertEqual((first_record.offset, first_record.data, first_record.end, first_record.is_flush),
                         (5, b"abc", 15, False))
        self.assertEqual((flush_record.is_flush, flush_record.end), (True, 27))
        self.assertEqual((third_record.offset, third_record.data, third_record.end, third_record.is_flush),
                         (4096, b"", 39, False))

    def test_an_image(self):
        image = DiskImage()
        image.write(PAGE_SIZE - 2, b"abcd")
        image.write(0, b"x")
        with tempfile.TemporaryDirectory() as folder:
            path = pathlib.Path(folder, "image")
            image.save(path, 3 * PAGE_SIZE)
            text = path.read_bytes()
            self.assertEqual(DiskImage.from_file(path).pages, image.pages)
        self.assertEqual(text, b"x" + bytes(PAGE_SIZE - 3) + b"abcd" + bytes(2 * PAGE_SIZE - 2))
        image.copy().write(0, b"y")
        self.assertEqual(image.pages[0][0], ord("x"))


class PowerCutterTest(unittest.TestCase):
    def images_after_cut(self, records, cut, mode, size, tries=200):
        """All images that a cut leaves."""
        rng = random.Random(1)
        return {image_bytes(PowerCutter(DiskImage(), records).image_after(cut, mode, rng), size) for _ in range(tries)}

    def test_what_was_flushed_is_there(self):
        records = records_of_writes((0, b"a"), (1, b"b"), None, (2, b"c"), (3, b"d"), None, (4, b"e"))
        for mode in CUT_MODES:
            for text in self.images_after_cut(records, 4, mode, 4):
                self.assertEqual(text[:2], b"ab", mode)
            self.assertEqual(self.images_after_cut(records, 3, mode, 3) if mode in ("none", "all") else {b"ab\0"},
                             {b"ab\0"})
        self.assertEqual(self.images_after_cut(records, 5, "none", 4), {b"ab\0\0"})
        self.assertEqual(self.images_after_cut(records, 5, "all", 4), {b"abcd"})
        self.assertEqual(self.images_after_cut(records, 5, "writes", 4), {b"ab\0\0", b"abc\0", b"ab\0d", b"abcd"})

    def test_nothing_after_the_cut_is_there(self):
        records = records_of_writes((0, b"a"), (1, b"b"), None, (2, b"c"))
        self.assertEqual(self.images_after_cut(records, 1, "all", 3), {b"a\0\0"})

    def test_parts_of_a_write(self):
        size = 2 * PAGE_SIZE
        records = records_of_writes((0, b"x" * size))
        full = {mode: self.images_after_cut(records, 1, mode, size) for mode in ("writes", "pages", "sectors", "bytes")}
        self.assertEqual([len(full[mode]) for mode in ("writes", "pages")], [2, 4])
        for mode, unit_size in (("pages", PAGE_SIZE), ("sectors", SECTOR_SIZE), ("bytes", SECTOR_SIZE)):
            for text in full[mode]:
                for start in range(0, size, unit_size):
                    self.assertIn(text[start:start + unit_size], (bytes(unit_size), b"x" * unit_size))
        self.assertGreater(len(full["sectors"]), 100)

    def test_bytes_of_the_files_of_the_gateway(self):
        records = records_of_writes((0, b"x" * 2 * SECTOR_SIZE))
        rng, values = random.Random(1), set()
        for _ in range(50):
            places = [
                (records[0].end - 1, [(0, SECTOR_SIZE)]),
                (records[0].end, [(SECTOR_SIZE, 2 * SECTOR_SIZE)]),
                (records[0].end + 1, [(0, SECTOR_SIZE)]),
            ]
            image = PowerCutter(DiskImage(), records, places).image_after(1, "bytes", rng)
            text = image_bytes(image, 2 * SECTOR_SIZE)
            self.assertIn(text[:SECTOR_SIZE], (bytes(SECTOR_SIZE), b"x" * SECTOR_SIZE))
            self.assertIn(0, text[SECTOR_SIZE:])
            self.assertIn(ord("x"), text[SECTOR_SIZE:])
            values |= set(text[SECTOR_SIZE:])
        self.assertEqual(len(values), 256)

    def test_bytes_that_do_not_change(self):
        for _ in range(100):
            text = interrupted_write_bytes(b"abcdef", b"abxdey", random.Random(1))
            self.assertEqual((text[:2], text[3:5]), (b"ab", b"de"))

    def test_later_and_later_cuts(self):
        records = records_of_writes((0, b"a"), None, (0, b"b"), (1, b"c"), None, (0, b"d"))
        cutter, rng = PowerCutter(DiskImage(), records), random.Random(1)
        self.assertEqual([image_bytes(cutter.image_after(cut, "all", rng), 2) for cut in range(1, 7)],
                         [b"a\0", b"a\0", b"b\0", b"bc", b"bc", b"dc"])

    def test_the_choice(self):
        places = choose_cuts(50, 400, random.Random(1))
        self.assertEqual(places, sorted(places))
        self.assertEqual({cut_place for cut_place, _ in places}, set(range(1, 51)))
        self.assertEqual({mode for _, mode in places}, set(CUT_MODES))


if __name__ == "__main__":
    unittest.main()
