"""File systems on loop devices."""
import contextlib
import fcntl
import os
import shutil
import struct
import subprocess
import sys
import time

POWER_FOLDER = os.path.dirname(os.path.abspath(__file__))
MEGABYTE = 1 << 20
# Without its last option, the kernel would write empty tables for some seconds after the mount.
MAKE_EXT4_COMMAND = ["mkfs.ext4", "-q", "-F", "-J", "size=4", "-E", "lazy_itable_init=0"]
# By name: the type, the size, the program that makes it, and the options of a mount.
FILE_SYSTEMS = {
    "ext4": ("ext4", 32 * MEGABYTE, MAKE_EXT4_COMMAND, "data=ordered"),
    "ext4-writeback": ("ext4", 32 * MEGABYTE, MAKE_EXT4_COMMAND, "data=writeback"),
    "xfs": ("xfs", 320 * MEGABYTE, ["mkfs.xfs", "-q", "-f"], "nouuid"),
    "btrfs": ("btrfs", 160 * MEGABYTE, ["mkfs.btrfs", "-q", "-f", "-M"], "defaults"),
    "f2fs": ("f2fs", 64 * MEGABYTE, ["mkfs.f2fs", "-q", "-f"], "defaults"),
}
# How often a mount is tried, because the device may still be in use, and the pause before each further try, in seconds.
MOUNT_TRIES, PAUSE = 5, 0.1
# How often an unmount is tried, with the same pause: a process that was killed may still be at its end.
MAX_UNMOUNTS = 100
# What is tried before the last mount: a superblock of ext4 has two sectors, and is not in the journal.
REPAIR_COMMANDS = {"ext4": ["e2fsck", "-f", "-y"]}
# How often the file of a disk in user space is looked for, with the same pause.
MAX_MOUNT_LOOKS = 200
# The file systems that overwrite the contents of a file in place, at the offsets that FIEMAP reports.
IN_PLACE_FILE_SYSTEMS = ("ext4", "xfs")
# The call FIEMAP, its request, each extent of its answer, how many extents are asked for, and the flags of an extent
# that has no place yet.
FIEMAP_REQUEST, REQUEST, EXTENT = 0xC020660B, struct.Struct("=QQLLLL"), struct.Struct("=QQQQQLLLL")
MAX_EXTENTS, EXTENTS_WITHOUT_PLACE = 16, 6


class MountError(Exception):
    """The file system cannot be mounted. The text says why."""


def missing_file_system_requirement(name):
    """What this machine lacks for this file system; empty if it lacks nothing."""
    kind, _, make, _ = FILE_SYSTEMS[name]
    with open("/proc/filesystems", encoding="ascii") as file:
        if kind not in file.read().split():
            return f"{kind} in the kernel"
    if not shutil.which(make[0], path=f"{os.environ['PATH']}:/usr/sbin:/sbin"):
        return make[0]
    return ""


def run_command(*words):
    """Runs a command that must succeed, and returns what it printed."""
    process = subprocess.run(words, stdout=subprocess.PIPE, stderr=subprocess.PIPE, text=True)
    if process.returncode:
        raise MountError(f"{' '.join(map(str, words))}: {process.stderr.strip()}")
    return process.stdout.strip()


@contextlib.contextmanager
def loop_device(path):
    """A loop device over this file."""
    device = run_command("losetup", "--find", "--show", path)
    try:
        yield device
    finally:
        run_command("losetup", "--detach", device)


@contextlib.contextmanager
def mounted(name, image, folder):
    """Mounts the image of this file system in the folder."""
    kind, _, _, options = FILE_SYSTEMS[name]
    with loop_device(image) as device:
        for try_number in range(MOUNT_TRIES):
            try:
                run_command("mount", "-t", kind, "-o", options, device, folder)
                break
            except MountError:
                if try_number == MOUNT_TRIES - 1:
                    raise
                time.sleep(PAUSE)
                if try_number == MOUNT_TRIES - 2 and kind in REPAIR_COMMANDS:
                    subprocess.run([*REPAIR_COMMANDS[kind], device],
                                   stdout=subprocess.DEVNULL, stderr=subprocess.DEVNULL)
        try:
            yield
        finally:
            unmount(folder)


def unmount(folder):
    """Unmounts the file system that is mounted in this folder."""
    for _ in range(MAX_UNMOUNTS - 1):
        try:
            run_command("umount", folder)
            return
        except MountError:
            time.sleep(PAUSE)
    run_command("umount", folder)


@contextlib.contextmanager
def recorded_disk(name, work, image=None):
    """A disk in user space with this image, or with a new file system. Yields the paths of its file
    and of its log."""
    _, size, make, _ = FILE_SYSTEMS[name]
    folder, log = os.path.join(work, "recorded"), os.path.join(work, "log")
    os.makedirs(folder)
    open(log, "wb").close()
    words = [
        sys.executable, "-B", os.path.join(POWER_FOLDER, "disk.py"), folder, str(size), log, *([image] if image else [])
    ]
    path = os.path.join(folder, "disk")
    with subprocess.Popen(words, start_new_session=True) as process:
        try:
            for _ in range(MAX_MOUNT_LOOKS):
                if os.path.exists(path):
                    break
                time.sleep(PAUSE)
            if not image:
                with loop_device(path) as device:
                    run_command(*make, device)
            yield path, log
        finally:
            # lazily: the kernel detaches a loop device some time after it was asked to
            run_command("umount", "--lazy", folder)
            process.wait()
            os.rmdir(folder)


def file_extents(name, path):
    """The parts of the disk that have the contents of this file, each with its start and its end. None are known if the
    file system writes files at other places each time."""
    if FILE_SYSTEMS[name][0] not in IN_PLACE_FILE_SYSTEMS or not os.path.exists(path):
        return []
    request = bytearray(REQUEST.pack(0, (1 << 64) - 1, 0, 0, MAX_EXTENTS, 0) + bytes(MAX_EXTENTS * EXTENT.size))
    with open(path, "rb") as file:
        fcntl.ioctl(file, FIEMAP_REQUEST, request)
    count = REQUEST.unpack_from(request)[3]
    extents = [EXTENT.unpack_from(request, REQUEST.size + extent_number * EXTENT.size)
               for extent_number in range(count)]
    return [(extent_start, extent_start + size)
            for _, extent_start, size, _, _, flags, *_ in extents if not flags & EXTENTS_WITHOUT_PLACE]


def database_extents(name, path):
    """The parts of the disk that have the contents of this database and of its log."""
    return [extent for file_end in ("", "-wal") for extent in file_extents(name, path + file_end)]
