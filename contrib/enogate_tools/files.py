"""Opens files in the directory of another user, such as that of the service, and replaces whole files. That user could
replace one of them by a link to a file of a third user, by a device, or by a pipe."""
from __future__ import annotations

import errno
import os
import pwd
import stat
from collections.abc import Callable
from typing import IO

LINK_FAULT, IRREGULAR_FAULT = "it is a symbolic link", "it is not a regular file"
OPEN_FLAGS = os.O_NOFOLLOW | os.O_NONBLOCK | os.O_NOCTTY | os.O_CLOEXEC


class Unsafe(OSError):
    """A file is not opened. `strerror` says why."""

    def __init__(self, reason: str, path: str):
        super().__init__(errno.EINVAL, reason, path)


def safety_fault(status: os.stat_result, owner: int) -> str:
    """Why a file with this status is not opened, if its directory belongs to this user; empty if it may be opened. A
    user other than root may also open a file of their own."""
    if stat.S_ISLNK(status.st_mode):
        return LINK_FAULT
    if not stat.S_ISREG(status.st_mode):
        return IRREGULAR_FAULT
    if status.st_nlink > 1:
        return "it has a second name (a hard link)"
    user = os.geteuid()
    if status.st_uid != owner and (user == 0 or status.st_uid != user):
        return "it does not belong to the owner of its directory"
    return ""


def owner_of(folder: int) -> int:
    """The owner of an open directory."""
    return os.fstat(folder).st_uid


def open_file(path: str, flags: int = os.O_RDONLY) -> int:
    """Opens a regular file with one name, which belongs to the owner of its directory, or raises Unsafe or another
    OSError. Nothing else is opened, so no pipe is waited for. The open file is looked at as well, since another one
    may have got its name meanwhile."""
    folder = os.open(os.path.dirname(path) or ".", os.O_PATH | os.O_DIRECTORY | os.O_CLOEXEC)
    try:
        owner, name = owner_of(folder), os.path.basename(path)
        require_safe(os.stat(name, dir_fd=folder, follow_symlinks=False), owner, path)
        file = os.open(name, flags | OPEN_FLAGS, dir_fd=folder)
    except OSError as error:
        raise Unsafe(LINK_FAULT, path) if error.errno == errno.ELOOP else error
    finally:
        os.close(folder)
    try:
        require_safe(os.fstat(file), owner, path)
    except Unsafe:
        os.close(file)
        raise
    return file


def open_regular(path: str) -> int:
    """Opens a regular file of any user to read it, or raises Unsafe or another OSError. No link is followed, and no
    pipe is waited for."""
    try:
        file = os.open(path, os.O_RDONLY | OPEN_FLAGS)
    except OSError as error:
        raise Unsafe(LINK_FAULT, path) if error.errno == errno.ELOOP else error
    if not stat.S_ISREG(os.fstat(file).st_mode):
        os.close(file)
        raise Unsafe(IRREGULAR_FAULT, path)
    return file


def replace_file(directory: int, name: str, mode: int, write: Callable[[IO[bytes]], object]) -> None:
    """Puts a file with this mode, and what `write` writes to it, into an open directory, or raises OSError. After a
    power failure, the earlier file or this one is there, and perhaps the temporary file."""
    temporary = f"{name}.{os.urandom(8).hex()}"
    file = os.open(temporary, os.O_WRONLY | os.O_CREAT | os.O_EXCL, mode, dir_fd=directory)
    try:
        with os.fdopen(file, "wb") as stream:
            os.fchmod(file, mode)
            write(stream)
            stream.flush()
            os.fsync(file)
        os.rename(temporary, name, src_dir_fd=directory, dst_dir_fd=directory)
    except BaseException:
        os.unlink(temporary, dir_fd=directory)
        raise
    os.fsync(directory)


def replace_path(path: str, mode: int, content: bytes) -> None:
    """Puts a file with this mode and content at a path, in the same way."""
    directory = os.open(os.path.dirname(path) or ".", os.O_RDONLY | os.O_DIRECTORY | os.O_CLOEXEC)
    try:
        replace_file(directory, os.path.basename(path), mode, lambda file: file.write(content))
    finally:
        os.close(directory)


def require_safe(status: os.stat_result, owner: int, path: str) -> None:
    """Raises Unsafe if a file with this status is not opened."""
    if fault := safety_fault(status, owner):
        raise Unsafe(fault, path)


def is_safe(path: str) -> bool:
    """Whether `open_file` opens this file."""
    try:
        os.close(open_file(path))
    except OSError:
        return False
    return True


def become_owner(*folders: str) -> None:
    """As root, takes on the rights of the user who owns the first of these directories that is not root's. A link in it
    then leads to no file that this user may not open. Raises OSError if this is not possible."""
    if os.geteuid() != 0:
        return
    for folder in folders:
        try:
            status = os.stat(folder or ".")
        except OSError:
            continue
        if status.st_uid != 0:
            become_user(status.st_uid, status.st_gid)
            return


def become_user(user: int, group: int) -> None:
    """Takes on the rights of this user, for good. A user without an entry in the list of users has only this group."""
    groups = [group]
    try:
        entry = pwd.getpwuid(user)
        group = entry.pw_gid
        groups = os.getgrouplist(entry.pw_name, group)
    except KeyError:
        pass
    os.setgroups(groups)
    os.setresgid(group, group, group)
    os.setresuid(user, user, user)
