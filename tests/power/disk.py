#!/usr/bin/python3
"""A disk in user space, which records what is written to it: disk.py FOLDER SIZE LOG [IMAGE]

The folder gets a file `disk` of this size, with the contents of IMAGE if there is one. Each write is appended to LOG as
its offset, its length and its bytes, and each flush as the offset -1 and the length 0 (records.py reads this)."""
import errno
import stat
import sys

from fusepy import FUSE, FuseOSError, Operations

import records

DISK_FILE_NAME = "disk"


class RecordedDisk(Operations):
    """The folder with the file."""

    def __init__(self, size, log, image=None):
        self.disk_bytes = bytearray(size)
        if image:
            with open(image, "rb") as file:
                file.readinto(self.disk_bytes)
        self.log = open(log, "ab", buffering=0)

    def getattr(self, path, fh=None):
        if path == "/":
            return {"st_mode": stat.S_IFDIR | 0o755, "st_nlink": 2}
        if path == f"/{DISK_FILE_NAME}":
            return {"st_mode": stat.S_IFREG | 0o600, "st_nlink": 1, "st_size": len(self.disk_bytes)}
        raise FuseOSError(errno.ENOENT)

    def readdir(self, path, fh):
        return [".", "..", DISK_FILE_NAME]

    def open(self, path, flags):
        return 0

    def read(self, path, size, offset, fh):
        return bytes(self.disk_bytes[offset:offset + size])

    def write(self, path, content, offset, fh):
        self.disk_bytes[offset:offset + len(content)] = content
        self.log.write(records.packed_write_record(offset, content))
        return len(content)

    def fsync(self, path, datasync, fh):
        self.log.write(records.FLUSH_RECORD)
        return 0

    def flush(self, path, fh):
        return 0

    def fallocate(self, *_):
        raise FuseOSError(errno.EOPNOTSUPP)


if __name__ == "__main__":
    folder, size, *files = sys.argv[1:]
    FUSE(RecordedDisk(int(size), *files), folder, foreground=True, nothreads=True)
