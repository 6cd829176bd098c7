"""The disk of a Debian system with the package, and the kernel and the initrd that boot it."""
import hashlib
import os
import pathlib
import re
import shutil
import subprocess
import tempfile

from oracle.esp3 import packet
from stick import BASE_ID, COMMAND_TYPE, READ_BASE_COMMAND, RESPONSE_TYPE

ROOT = pathlib.Path(__file__).resolve().parents[2]
PROGRAM = ROOT / "crates/enogate/out/enogate"
CACHE_FOLDER = ROOT / "target/machine"
DEBIAN_SUITE, DISK_SIZE = "bookworm", "1200M"
PACKAGES = ("linux-image-amd64", "systemd-sysv", "udev", "procps", "logrotate", "mosquitto", "mosquitto-clients")
# The commands that are needed, each with its Debian package.
PACKAGE_BY_COMMAND = {"qemu-system-x86_64": "qemu-system-x86", "mmdebstrap": "mmdebstrap", "mke2fs": "e2fsprogs",
                      "busybox": "busybox-static", "dpkg-deb": "dpkg", "strip": "binutils"}
# The initrd loads these modules and what they depend on.
INITRD_MODULES = ("virtio_pci", "virtio_blk", "crc32c_generic", "ext4", "virtio_console", "xhci_pci")
INIT_SCRIPT = """#!/bin/busybox sh
/bin/busybox mount -t devtmpfs dev /dev
for module in $(/bin/busybox cat /order); do /bin/busybox insmod "/$module"; done
until [ -b /dev/vda ]; do /bin/busybox sleep 0.1; done
/bin/busybox mount -t ext4 -o errors=remount-ro /dev/vda /root
/bin/busybox mount --move /dev /root/dev
exec /bin/busybox switch_root /root /sbin/init
"""
# What the system does not need, for a faster boot.
MASKED_UNITS = ("getty@tty1.service", "serial-getty@ttyS0.service", "systemd-logind.service", "e2scrub_reap.service",
                "apt-daily.timer", "apt-daily-upgrade.timer", "dpkg-db-backup.timer", "systemd-binfmt.service",
                "modprobe@drm.service", "modprobe@fuse.service", "modprobe@efi_pstore.service")
# The rule of the package also names QEMU's adapter, whose texts cannot be set.
RULES_FILE, ADAPTER_NAMES = "60-enocean.rules", {"EnOcean GmbH": "QEMU", "EnOcean USB 3*": "QEMU USB SERIAL"}
SYSTEM_FILES = {
    "etc/machine-id": "0123456789abcdef0123456789abcdef\n",
    "etc/hostname": "machine\n",
    "etc/hosts": "127.0.0.1 localhost machine\n",
    "etc/systemd/journald.conf.d/test.conf": "[Journal]\nStorage=volatile\nRateLimitBurst=0\n",
    # devices that no unit here needs are not looked for
    "etc/systemd/system/systemd-udev-trigger.service.d/test.conf":
        "[Service]\nExecStart=\nExecStart=udevadm trigger --type=devices --action=add --subsystem-match=block "
        "--subsystem-match=usb --subsystem-match=virtio-ports\n",
    # runs each line that comes from the host as a command
    "etc/systemd/system/agent.service":
        "[Unit]\nDefaultDependencies=no\nAfter=systemd-udev-trigger.service\n"
        "[Service]\nExecStart=/bin/bash /root/agent\nRestart=always\n[Install]\nWantedBy=sysinit.target\n",
    "root/agent": r"""until exec <>/dev/virtio-ports/agent; do sleep 0.2; done 2>/dev/null
exec >&0
while IFS= read -r command; do
    bash -c "$command" </dev/null 2>&1
    printf '\004%s\n' "$?"
done
""",
    # the module of a stick that the kernel of the system itself provides (g_serial). Each packet of an FTDI chip begins
    # with two bytes about its state
    "root/module": f"""import os, tty
line = os.open("/dev/ttyGS0", os.O_RDWR)
tty.setraw(line)
while got := os.read(line, 4096):
    if {packet(COMMAND_TYPE, bytes([READ_BASE_COMMAND]))} in got:
        os.write(line, bytes([0x01, 0x60]) + {packet(RESPONSE_TYPE, bytes(1) + BASE_ID.to_bytes(4, "big"))})
""",
    # has what is published, before the bridge starts
    "etc/systemd/system/heard.service":
        "[Unit]\nAfter=mosquitto.service\nBefore=enogate-mqtt@hall.service\nStartLimitIntervalSec=0\n"
        "[Service]\nExecStart=mosquitto_sub -R -v -t #\nStandardOutput=append:/run/heard\nRestart=always\n"
        "[Install]\nWantedBy=multi-user.target\n",
}
WATCHED_UNITS = ("agent", "heard", "mosquitto", "enogate@hall", "enogate-mqtt@hall")


def missing_requirements():
    """The Debian packages that are missing on this machine, and what else it lacks."""
    path = f"{os.environ['PATH']}:/usr/sbin:/sbin"
    missing_packages = [package
                        for command, package in PACKAGE_BY_COMMAND.items() if not shutil.which(command, path=path)]
    return missing_packages + ["root"] * (os.geteuid()
                                          != 0) + ["the built program (make build)"] * (not PROGRAM.exists())


def run_command(*words, **options):
    """Runs a command that must succeed, and returns what it printed."""
    process = subprocess.run(words, stdout=subprocess.PIPE, stderr=subprocess.STDOUT, text=True, **options)
    assert process.returncode == 0, f"{' '.join(map(str, words))}: {process.stdout}"
    return process.stdout


def packages_with_dependencies():
    """The packages of the system, with those that the package depends on."""
    fields = (ROOT / "packaging/debian/control").read_text()
    depends = re.search(r"^Depends: (.*)$", fields, re.MULTILINE)[1].split(",")
    return sorted({*PACKAGES, *(re.match(r"\s*([^\s:]+)", dependency)[1] for dependency in depends)})


def build_debian_folder():
    """The folder of the Debian system, which is made if its list of packages is new."""
    names = ",".join(packages_with_dependencies())
    debian_folder = CACHE_FOLDER / "debian"
    package_list = CACHE_FOLDER / "packages"
    if not package_list.exists() or package_list.read_text() != names:
        shutil.rmtree(debian_folder, ignore_errors=True)
        run_command("mmdebstrap", "--variant=minbase", f"--include={names}", DEBIAN_SUITE, debian_folder)
        package_list.write_text(names)
    return debian_folder


def build_disk():
    """The disk of the system with the package of the built program, its kernel and its initrd."""
    CACHE_FOLDER.mkdir(parents=True, exist_ok=True)
    with tempfile.TemporaryDirectory(prefix="image-", dir=CACHE_FOLDER) as folder:
        work = pathlib.Path(folder)
        # the program that is there is not built again
        run_command("make", "-s", "-o", PROGRAM.relative_to(ROOT), "package", f"PACKAGES={work}", cwd=ROOT)
        package, = work.glob("enogate_*.deb")
        base = build_debian_folder()
        digested_bytes = package.read_bytes() + pathlib.Path(__file__).read_bytes() + (CACHE_FOLDER
                                                                                       / "packages").read_bytes()
        digest = hashlib.sha256(digested_bytes).hexdigest()
        made_files = [CACHE_FOLDER / name for name in ("disk", "kernel", "initrd")]
        if (CACHE_FOLDER / "digest").exists() and (CACHE_FOLDER / "digest").read_text() == digest:
            return made_files
        (CACHE_FOLDER / "digest").unlink(missing_ok=True)
        root = work / "root"
        run_command("cp", "-a", base, root)
        shutil.copy(package, root / "root")
        run_command("chroot", root, "dpkg", "-i", f"/root/{package.name}")
        configure_system(root)
        shutil.copy(next((root / "boot").glob("vmlinuz-*")), made_files[1])
        make_initrd(root, work / "initrd", made_files[2])
        made_files[0].unlink(missing_ok=True)
        run_command("mke2fs", "-q", "-t", "ext4", "-E", "lazy_itable_init=0", "-d", root, made_files[0], DISK_SIZE)
        (CACHE_FOLDER / "digest").write_text(digest)
        return made_files


def configure_system(root):
    """Writes the settings of the test into the system in this folder."""
    for name, text in SYSTEM_FILES.items():
        (root / name).parent.mkdir(parents=True, exist_ok=True)
        (root / name).write_text(text)
    rules = (root / "usr/lib/udev/rules.d" / RULES_FILE).read_text()
    for link_name, adapter in ADAPTER_NAMES.items():
        assert f'"{link_name}"' in rules, rules
        rules = rules.replace(f'"{link_name}"', f'"{link_name}|{adapter}"')
    (root / "etc/udev/rules.d" / RULES_FILE).write_text(rules)
    run_command("chroot", root, "systemctl", "mask", *MASKED_UNITS)
    run_command("chroot", root, "systemctl", "enable", *WATCHED_UNITS)
    # what only the build of the disk needed
    for pattern in ("root/*.deb", "boot/initrd*", "var/cache/apt/*.bin"):
        for path in root.glob(pattern):
            path.unlink()


def make_initrd(root, work, initrd):
    """Makes an initrd that mounts the disk. Without udev, it takes a fraction of the time of Debian's one."""
    for name in ("bin", "dev", "root"):
        (work / name).mkdir(parents=True)
    shutil.copy(shutil.which("busybox"), work / "bin")
    kernel = next((root / "lib/modules").iterdir()).name
    needed_modules = {}
    for module in INITRD_MODULES:
        for line in run_command("chroot", root, "modprobe", "-S", kernel, "--show-depends", module).splitlines():
            if line.startswith("insmod "):
                path = line.split()[1]
                needed_modules[os.path.basename(path)] = shutil.copy(f"{root}{path}", work)
    (work / "order").write_text("\n".join(needed_modules) + "\n")
    (work / "init").write_text(INIT_SCRIPT)
    (work / "init").chmod(0o755)
    run_command("sh", "-c", 'cd "$0" && find . | busybox cpio -o -H newc >"$1"', work, initrd)
