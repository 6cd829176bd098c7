"""What was written to a disk, and how a power failure may leave the disk.

The disk has everything that was written before the last flush. Of each later write it may have nothing, everything, or
some of its pages or sectors. The bytes that a write was to change in a file of the gateway may have any values, because
the gateway assumes nothing about them."""
import dataclasses
import random
import struct

RECORD_HEADER = struct.Struct("<qI")
FLUSH_RECORD = RECORD_HEADER.pack(-1, 0)
PAGE_SIZE, SECTOR_SIZE = 4096, 512
# The modes of a cut, and the size of the parts of a write. Each part may be missing. None means the whole write.
CUT_MODES = {
    "none": None, "all": None, "writes": None, "pages": PAGE_SIZE, "sectors": SECTOR_SIZE, "bytes": SECTOR_SIZE
}


def packed_write_record(offset, content):
    """The record of a write."""
    return RECORD_HEADER.pack(offset, len(content)) + content


@dataclasses.dataclass(frozen=True)
class DiskRecord:
    """A write, or a flush if the offset is negative. `end` is where the record ends in the log."""
    offset: int
    data: bytes
    end: int

    @property
    def is_flush(self):
        return self.offset < 0


def records_in(log):
    """The records of a log."""
    records, log_offset = [], 0
    while log_offset < len(log):
        offset, size = RECORD_HEADER.unpack_from(log, log_offset)
        log_offset += RECORD_HEADER.size + size
        records.append(DiskRecord(offset, log[log_offset - size:log_offset], log_offset))
    return records


class DiskImage:
    """The contents of a disk: the pages that are not empty, by their numbers."""

    def __init__(self, pages=()):
        self.pages = {page_number: bytearray(page) for page_number, page in dict(pages).items()}

    @classmethod
    def from_file(cls, path):
        """The image in a file."""
        image = cls()
        with open(path, "rb") as file:
            page_number = 0
            while page := file.read(PAGE_SIZE):
                if any(page):
                    image.pages[page_number] = bytearray(page.ljust(PAGE_SIZE, b"\0"))
                page_number += 1
        return image

    def copy(self):
        return DiskImage(self.pages)

    def write(self, offset, content):
        """Writes these bytes."""
        written_size = 0
        while written_size < len(content):
            page_number, start = divmod(offset + written_size, PAGE_SIZE)
            page_part = content[written_size:written_size + PAGE_SIZE - start]
            self.pages.setdefault(page_number, bytearray(PAGE_SIZE))[start:start + len(page_part)] = page_part
            written_size += len(page_part)

    def read(self, offset, size):
        """Bytes of one page."""
        page_number, start = divmod(offset, PAGE_SIZE)
        return bytes(self.pages.get(page_number, bytearray(PAGE_SIZE))[start:start + size])

    def save(self, path, size):
        """Makes this file the image of a disk of this size."""
        with open(path, "wb") as file:
            file.truncate(size)
            for page_number, page in self.pages.items():
                file.seek(page_number * PAGE_SIZE)
                file.write(page)


class PowerCutter:
    """Makes the images after power failures at later and later places of the records. The disk had this image first.
    `places` has the parts of the disk with the files of the gateway: for several sizes of the log, the starts and ends
    of the parts when it had this size."""

    def __init__(self, image, records, sizes_and_extents=()):
        self.image, self.records, self.sizes_and_extents = image.copy(), records, sizes_and_extents
        # how many records the image has
        self.count = 0

    def image_after(self, cut, mode, rng):
        """The image if the power fails after so many records."""
        last_flush = max((record_number for record_number in range(cut) if self.records[record_number].is_flush),
                         default=0)
        for record in self.records[self.count:last_flush]:
            if not record.is_flush:
                self.image.write(record.offset, record.data)
        self.count = max(self.count, last_flush)
        image = self.image.copy()
        for record in self.records[last_flush:cut]:
            if not record.is_flush and mode != "none":
                self.write_part(image, record, mode, rng)
        return image

    def write_part(self, image, record, mode, rng):
        """Writes what this mode leaves of a record."""
        size = CUT_MODES[mode] or len(record.data)
        for start in range(0, len(record.data), size):
            content = record.data[start:start + size]
            if mode == "bytes" and self.is_of_gateway(record, start, len(content)):
                content = interrupted_write_bytes(image.read(record.offset + start, len(content)), content, rng)
            elif mode != "all" and rng.random() < 0.5:
                continue
            image.write(record.offset + start, content)

    def is_of_gateway(self, record, start, size):
        """Whether this part of a record is in a file of the gateway."""
        first_byte = record.offset + start
        extents = next((extents for size_of_log, extents in self.sizes_and_extents if size_of_log >= record.end), [])
        return any(extent_start <= first_byte and first_byte + size <= extent_end
                   for extent_start, extent_end in extents)


def interrupted_write_bytes(old_bytes, new_bytes, rng):
    """What a power failure may leave of a write: each byte that was to change has the old, the new, or any value."""
    return bytes(old_byte if old_byte == new_byte else rng.choice((old_byte, new_byte, rng.randrange(256)))
                 for old_byte, new_byte in zip(old_bytes, new_bytes))


def choose_cuts(count, cuts, rng: random.Random):
    """Chooses this many cuts among the places of `count` records, in ascending order, each with a mode."""
    return sorted((rng.randrange(count) + 1, rng.choice(sorted(CUT_MODES))) for _ in range(cuts))
