"""A machine in QEMU, whose disk records each write and each flush."""
import contextlib
import os
import pathlib
import re
import shlex
import socket
import struct
import subprocess
import sys
import time

HERE = pathlib.Path(__file__).resolve().parent
sys.path[:0] = [str(HERE.parents[0]), str(HERE.parents[0] / "power")]

import records  # noqa: E402
from stick import SimulatedStick  # noqa: E402

# How long the host waits for the machine, in seconds: without KVM a boot takes more than a minute.
HOST_TIMEOUT, POLL_PAUSE = 600.0, 0.5
STICK_COUNT = 2
KERNEL_ARGUMENTS = ("root=/dev/vda console=ttyS0 quiet mitigations=off audit=0 selinux=0 apparmor=0 tsc=reliable "
                    "no_timer_check "
                    "random.trust_cpu=on systemd.default_timeout_start_sec=900 systemd.default_device_timeout_sec=900")
# Without KVM, the clock of the machine counts its instructions: it is right however busy this computer is.
EMULATION_ARGUMENTS = ["-accel", "tcg", "-icount", "shift=2,sleep=on", "-cpu", "Nehalem"]
# The log of QEMU's driver blklogwrites consists of sectors. The first one has the head of the log. An entry has a
# sector for its numbers (the first sector, how many, flags), and then what was written.
SECTOR_SIZE, ENTRY, FLUSH, DISCARD = 512, struct.Struct("<QQQ"), 1, 4
COMMAND_END_PATTERN = re.compile(r"\n?\x04(\d+)\n")


def qemu_processor_arguments():
    """The arguments for the processor. A /dev/kvm without these flags emulates, too, and may hang."""
    with open("/proc/cpuinfo", encoding="ascii") as file:
        has_flags = re.search(r"\b(vmx|svm)\b", file.read())
    return ["-accel", "kvm", "-cpu", "host"] if has_flags and os.access("/dev/kvm", os.W_OK) else EMULATION_ARGUMENTS


class QemuMachine:
    """A machine that boots from a copy of this disk, in this folder, with the clock at `clock`."""

    def __init__(self, work, disk, kernel, initrd, clock=""):
        self.work, self.disk_before = work, disk
        self.disk, self.log = work / "disk", work / "log"
        for path in (self.log, *work.glob("*.socket")):
            path.unlink(missing_ok=True)
        self.log.touch()
        copy_disk(disk, self.disk)
        words = ["qemu-system-x86_64", *qemu_processor_arguments(), "-m", "384", "-nodefaults", "-display", "none",
                 "-no-reboot",
                 "-kernel", kernel, "-initrd", initrd, "-append", KERNEL_ARGUMENTS, "-serial", f"file:{work}/console",
                 *self.device_arguments(), *(["-rtc", f"base={clock}"] if clock else [])]
        with open(work / "qemu", "w") as file:
            self.process = subprocess.Popen(words, stdin=subprocess.DEVNULL, stdout=file, stderr=file)
        self.sticks = [SimulatedStick(work / f"stick{number}.socket") for number in range(STICK_COUNT)]
        # what has come from the agent, and the time before which the journal is not read
        self.text, self.since = "", "@0"
        self.agent = socket.socket(socket.AF_UNIX)
        self.agent.settimeout(HOST_TIMEOUT)
        while self.agent.connect_ex(str(work / "agent.socket")):
            assert self.process.poll() is None, (work / "qemu").read_text()
            time.sleep(POLL_PAUSE)

    def device_arguments(self):
        """The arguments for disk, agent and sticks."""
        sockets = {name: f"socket,id={name},path={self.work}/{name}.socket,server=on,wait=off"
                   for name in ("agent", *(f"stick{number}" for number in range(STICK_COUNT)))}
        disks = (f"driver=file,node-name=data,filename={self.disk},cache.no-flush=on",
                 f"driver=file,node-name=log,filename={self.log},cache.no-flush=on",
                 "driver=blklogwrites,node-name=disk,file=data,log=log")
        words = [word for disk in disks for word in ("-blockdev", disk)]
        words += [word for text in sockets.values() for word in ("-chardev", text)]
        for device in ("virtio-blk-pci,drive=disk", "virtio-serial-pci", "virtserialport,chardev=agent,name=agent",
                       "qemu-xhci", *(f"usb-serial,chardev=stick{number},serial=FT00000{number}"
                                      for number in range(STICK_COUNT))):
            words += ["-device", device]
        return words

    def send_command(self, command):
        """Gives the machine a command, and does not wait for its end."""
        self.agent.sendall(command.encode() + b"\n")

    def receive_output(self):
        """Waits for more of what the commands print. Returns whether there is more."""
        chunk = self.agent.recv(65536)
        self.text += chunk.decode(errors="replace")
        return bool(chunk)

    def run_command(self, command, within=60):
        """Runs a command in the machine, and returns what it printed."""
        self.send_command(f"timeout -k 5 {within} bash -c {shlex.quote(command)}")
        while not (end_match := COMMAND_END_PATTERN.search(self.text)):
            console = self.work / "console"
            assert self.receive_output(), f"QEMU has ended: {console.read_text(errors='replace')[-500:]}"
        output, self.text = self.text[:end_match.start()], self.text[end_match.end():]
        return output

    def run_until_printed(self, command, pattern):
        """Runs a command until it prints this, and returns what it printed."""
        deadline = time.monotonic() + HOST_TIMEOUT
        while not re.search(pattern, output := self.run_command(command)):
            assert time.monotonic() < deadline, f"`{command}` does not print {pattern!r}, but {output[-1000:]!r}"
            time.sleep(POLL_PAUSE)
        return output

    def start_gateway(self):
        """Plugs the first stick in, if it is not, and waits until the gateway answers."""
        if not self.sticks[0].socket:
            self.sticks[0].plug()
        self.wait_for_gateway()

    def wait_for_gateway(self):
        """Waits until the gateway answers."""
        self.run_until_printed("enogatectl --timeout 20 hall status", "learn window *closed")

    def wait_for_journal(self, pattern):
        """Waits until the journal of the gateway has this."""
        return self.run_until_printed(f"journalctl -o cat -t enogate-hall --since {self.since}", pattern)

    def kill_qemu(self):
        """Ends QEMU, with everything that it holds."""
        self.process.kill()
        self.process.wait()
        with contextlib.suppress(OSError):
            while self.receive_output():
                pass
        self.agent.close()

    def disk_log_size(self):
        """How many bytes the log of the disk has."""
        return self.log.stat().st_size

    def cut_power(self, start, mode, rng, disk):
        """The power failed just after a write since the log had the size `start`. `disk` becomes what the disk had
        then, with a part of what was written since the last flush. Returns the size of the log at this moment."""
        self.kill_qemu()
        copy_disk(self.disk_before, disk)
        log_records = list(log_entries(self.log.read_bytes()))
        record_number = rng.choice([record_number for record_number, record in enumerate(log_records, 1)
                                    if record.end > start and not record.is_flush])
        with open(disk, "r+b") as file:
            records.PowerCutter(DiskFile(file), log_records).image_after(record_number, mode, rng)
        return log_records[record_number - 1].end


class DiskFile:
    """A disk, as records.PowerCutter writes to it."""

    def __init__(self, file):
        self.file = file

    def copy(self):
        return self

    def write(self, offset, content):
        self.file.seek(offset)
        self.file.write(content)


def log_entries(log):
    """The writes and flushes in a log. The last one may be incomplete."""
    offset = SECTOR_SIZE
    while offset + SECTOR_SIZE <= len(log):
        sector, count, flags = ENTRY.unpack_from(log, offset)
        size = 0 if flags & DISCARD else count * SECTOR_SIZE
        start, offset = offset + SECTOR_SIZE, offset + SECTOR_SIZE + size
        if offset > len(log) or not count + flags:
            return
        if size:
            yield records.DiskRecord(sector * SECTOR_SIZE, log[start:offset], offset)
        if flags & FLUSH:
            yield records.DiskRecord(-1, b"", offset)


def copy_disk(source, target):
    """Copies a disk, without its empty parts."""
    subprocess.run(["cp", "--sparse=always", source, target], check=True)

