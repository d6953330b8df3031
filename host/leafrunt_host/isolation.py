"""A world of its own for `routerd`: a user that nobody else is, no capabilities and no way to any,
bounded memory, files and system calls (`confined`), and a network namespace that has nothing but a loopback interface. The
bridge's ends of the UDP sockets are opened there too, so no other user of this machine reaches
them or `routerd`'s, and what `routerd` might do wrong reaches nothing.
"""
from __future__ import annotations

import ctypes
import errno
import fcntl
import logging
import os
import pwd
import shutil
import socket
import struct
import zlib
from collections.abc import Callable
from concurrent.futures import ThreadPoolExecutor
from dataclasses import dataclass
from pathlib import Path
from typing import TypeVar

from leafrunt_host import confined
from leafrunt_host.confined import ADDRESS_SPACE

log = logging.getLogger("leafrunt.isolation")
T = TypeVar("T")
PLACES = "/usr/sbin:/usr/bin:/sbin:/bin"
"""Where programs of the system are looked for: never where the caller's PATH says."""
FIRST_NUMBER, LAST_NUMBER = 61184, 65519
"""User numbers that systemd gives to services that have no user (DynamicUser=): nobody's else."""
CONFINED = Path(confined.__file__).read_text(encoding="utf-8")
"""The program that becomes `routerd`: whoever that runs as may not be able to read this folder."""
ENVIRONMENT = {
    "PATH": PLACES,
    "LANG": "C.UTF-8",
    # How glibc allocates (mallopt(3)). It would reserve 64 MiB or more of address space for each
    # thread; and each recalculation takes some buffers of up to a megabyte for a moment, which it
    # would give back to the kernel and get anew as empty pages, every time.
    "MALLOC_ARENA_MAX": "1",
    "MALLOC_MMAP_THRESHOLD_": str(2 << 20),
    "MALLOC_TRIM_THRESHOLD_": str(4 << 20),
}

# Numbers of Linux that Python has no names for.
CLONE_NEWNET = 0x40000000  # <linux/sched.h>
PR_SET_NO_NEW_PRIVS = 38  # <linux/prctl.h>
PR_CAP_AMBIENT, PR_CAP_AMBIENT_CLEAR_ALL = 47, 4  # the same
SIOCSIFFLAGS = 0x8914  # <linux/sockios.h>
IFF_UP = 0x1  # <linux/if.h>
OF_NAMESPACES, OF_NETWORK, OF_USERS = "CAP_SYS_ADMIN", "CAP_NET_ADMIN", "CAP_SETUID and CAP_SETGID"
"""Capabilities (capabilities(7)) that a namespace, its interface and another user need."""


class CannotIsolate(Exception):
    """`routerd` can't be given a world of its own; the text is a sentence that says what to do."""


@dataclass(frozen=True)
class Account:
    """Whom `routerd` runs as."""

    name: str
    user: int
    group: int

    def may(self, status: os.stat_result, bit: int) -> bool:
        """Whether a file's mode allows it that (4 read, 2 write, 1 execute or pass)."""
        shift = 6 if status.st_uid == self.user else 3 if status.st_gid == self.group else 0
        return bool(status.st_mode >> shift & bit)

    def runs(self, program: Path) -> bool:
        """Whether it may run a program: each folder on the way has to let it pass."""
        places = {*program.parents, *program.resolve().parents, program}
        return all(self.may(each.stat(), 1) for each in places)


def account_of(name: str | None, box: str) -> Account:
    """The account of a user, by default one of a number that nobody has: two boxes' `routerd`s can't
    end each other. `ValueError`, with half a sentence, if the user isn't there, is root, or is this
    process's own, whose files and keys aren't `routerd`'s."""
    if name is None:
        number = free_number(box)
        return Account(str(number), number, number)
    try:
        found = pwd.getpwnam(name)
    except KeyError:
        raise ValueError("which the system doesn't have") from None
    if found.pw_uid == 0:
        raise ValueError("who may do everything")
    if found.pw_uid == os.geteuid():
        raise ValueError("whom leafrunt itself runs as")
    return Account(found.pw_name, found.pw_uid, found.pw_gid)


def free_number(box: str) -> int:
    """A user number that no user has, and no process; for one box the same, if it's free."""
    taken = {each.pw_uid for each in pwd.getpwall()} | running_users()
    span = LAST_NUMBER - FIRST_NUMBER + 1
    start = zlib.crc32(box.encode())
    numbers = (FIRST_NUMBER + (start + at) % span for at in range(span))
    return next((each for each in numbers if each not in taken), LAST_NUMBER)


def running_users(processes: Path = Path("/proc")) -> set[int]:
    """The users of all processes."""
    found = set()
    for each in processes.iterdir():
        if each.name.isdigit():
            try:
                found.add(each.stat().st_uid)
            except OSError:
                pass  # it has ended
    return found


def libc_call(name: str, *numbers: int) -> None:
    """A call of the C library that Python has no name for. `OSError` if it fails."""
    if getattr(ctypes.CDLL(None, use_errno=True), name)(*map(ctypes.c_ulong, numbers)):
        number = ctypes.get_errno()
        raise OSError(number, os.strerror(number))


def enter_namespace() -> None:
    """Takes this thread, alone, into a new network namespace (unshare(2)) whose loopback interface
    is up, and takes the way to privileges from its children (prctl(2)): new ones, and the ambient
    capabilities of a `leafrunt` that isn't root (capabilities(7)), which a change of the user
    leaves."""
    libc_call("unshare", CLONE_NEWNET)
    with socket.socket(socket.AF_INET, socket.SOCK_DGRAM) as any_socket:
        try:
            fcntl.ioctl(any_socket, SIOCSIFFLAGS, struct.pack("16sH22x", b"lo", IFF_UP))
        except OSError as error:
            raise OSError(error.errno, error.strerror, OF_NETWORK) from error
    libc_call("prctl", PR_SET_NO_NEW_PRIVS, 1, 0, 0, 0)
    libc_call("prctl", PR_CAP_AMBIENT, PR_CAP_AMBIENT_CLEAR_ALL, 0, 0, 0)


class World:
    """Where `routerd` is started, and the bridge's sockets to it are opened."""

    def __init__(self, account: Account | None) -> None:
        """With an account, a world of its own: `CannotIsolate` if it can't be had."""
        self.account = account
        self._inside: ThreadPoolExecutor | None = None
        if account is None:
            return
        self._inside = ThreadPoolExecutor(1, "namespace")
        try:
            self.do(enter_namespace)
        except OSError as error:
            self.close()
            raise CannotIsolate(why_not_isolated(error)) from error

    def do(self, work: Callable[[], T]) -> T:
        """Does something there: what it opens or starts stays there."""
        return self._inside.submit(work).result() if self._inside else work()

    def close(self) -> None:
        """Nothing more is done there; the namespace ends with what is open there."""
        if self._inside:
            self._inside.shutdown()

    def words(self, program: Path, *words: str) -> list[str]:
        """The command that runs a program there, with bounded memory, and in a world of its own with
        the files and system calls that it needs alone."""
        command = [str(program), *words]
        means, before = ("prlimit", [f"--as={ADDRESS_SPACE}", "--"])
        if self._inside:
            means, before = "python3", ["-IS", "-c", CONFINED]
        found = shutil.which(means, path=PLACES)
        if found is None:
            log.warning("there is no program `%s`: what routerd can take isn't bounded", means)
            return command
        return [found, *before, *command]

    def sockets_of(self, process: int) -> Path:
        """Where the kernel lists the UDP sockets of `routerd`'s namespace (proc(5))."""
        return Path(f"/proc/{process}/net/udp") if self._inside else Path("/proc/net/udp")


def why_not_isolated(error: OSError) -> str:
    if error.errno in (errno.EPERM, errno.EACCES):
        needs = f"root, or the capability {error.filename or OF_NAMESPACES}, is needed"
    elif error.errno == errno.ENOSPC:
        needs = "there are too many of them: sysctl user.max_net_namespaces"
    else:
        needs = "the kernel may have none"
    return (
        f"routerd can't have a network namespace of its own: {error.strerror} ({needs}). "
        "`isolated = false` in the configuration does without: then every user of this machine "
        "can send to routerd as if a neighbor did"
    )
