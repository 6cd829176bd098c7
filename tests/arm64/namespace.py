"""Runs a command as root in new namespaces for mounts, users and processes, in which the kernel starts programs for
64-bit ARM with this emulator, which has to be a static program. The machine's own emulators do not change. When the
command ends, all its processes end.

    namespace.py EMULATOR COMMAND..
"""
import ctypes
import os
import signal
import sys

C_LIBRARY = ctypes.CDLL(None, use_errno=True)
CLONE_NEWNS, CLONE_NEWUSER, CLONE_NEWPID = 0x00020000, 0x10000000, 0x20000000
MS_REC_PRIVATE = 0x4000 | 0x40000
PR_SET_PDEATHSIG = 1
BINFMT_FOLDER = "/proc/sys/fs/binfmt_misc"
# The first bytes of such a program, and which of their bits are compared: ELF of 64 bits, a program or a library,
# AArch64.
AARCH64_MAGIC = r"\x7fELF\x02\x01\x01\x00\x00\x00\x00\x00\x00\x00\x00\x00\x02\x00\xb7\x00"
AARCH64_MASK = r"\xff\xff\xff\xff\xff\xff\xff\x00\xff\xff\xff\xff\xff\xff\xff\xff\xfe\xff\xff\xff"


def require_success(result):
    if result != 0:
        sys.exit(f"no namespace with an emulator: {os.strerror(ctypes.get_errno())}")


def mount_file_system(kind, target, flags=0):
    require_success(C_LIBRARY.mount(kind, target.encode(), kind, flags, None))


def end_with_parent():
    C_LIBRARY.prctl(PR_SET_PDEATHSIG, signal.SIGKILL)


def map_user_and_group_ids(process):
    """Gives users and groups the same numbers inside as outside."""
    for kind in ("uid", "gid"):
        with open(f"/proc/{process}/{kind}_map", "w") as users:
            users.write("0 0 65536\n")


def run_as_init(command):
    """Runs it as the first process: when that ends, the others end. Returns its status."""
    process = os.fork()
    if process == 0:
        end_with_parent()
        mount_file_system(b"proc", "/proc")
        mount_file_system(b"binfmt_misc", BINFMT_FOLDER)
        with open(f"{BINFMT_FOLDER}/register", "w") as register:
            register.write(f":arm64:M::{AARCH64_MAGIC}:{AARCH64_MASK}:{os.path.realpath(sys.argv[1])}:PF")
        os.execvp(command[0], command)
    return os.waitstatus_to_exitcode(os.waitpid(process, 0)[1])


def main():
    mapped_pipe, unshared_pipe = os.pipe(), os.pipe()
    process = os.fork()
    if process == 0:
        end_with_parent()
        require_success(C_LIBRARY.unshare(CLONE_NEWUSER | CLONE_NEWNS | CLONE_NEWPID))
        os.write(unshared_pipe[1], b".")
        os.read(mapped_pipe[0], 1)
        mount_file_system(None, "/", MS_REC_PRIVATE)
        sys.exit(run_as_init(sys.argv[2:]))
    os.close(unshared_pipe[1])
    if os.read(unshared_pipe[0], 1):
        map_user_and_group_ids(process)
    os.write(mapped_pipe[1], b".")
    sys.exit(os.waitstatus_to_exitcode(os.waitpid(process, 0)[1]))


if __name__ == "__main__":
    main()
