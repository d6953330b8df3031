"""Where a running box keeps its files, and that it is the only one of its name."""
from __future__ import annotations

import errno
import fcntl
import logging
import os
import re
import shutil
import socket
import stat
from collections.abc import Iterable, Iterator
from contextlib import contextmanager
from dataclasses import dataclass, field
from pathlib import Path
from typing import TextIO

from leafrunt_host.statuses import Status, Stopped

log = logging.getLogger("leafrunt.room")
BOX_NAME = re.compile(r"[A-Za-z0-9][A-Za-z0-9._-]{0,63}")
CLAIMS = ".claims"
"""In the folder of running boxes: no box has such a name."""
NAMESPACE = "/proc/self/ns/net"
LONGEST_HOLDER = 100
NO_ROOM = (errno.ENOSPC, errno.EDQUOT, errno.EROFS)
LONGEST_OBJECT = 16 << 20
LONGEST_SOCKET_PATH = 107
"""unix(7): `sun_path` has 108 bytes with the zero at its end."""


def socket_path(run: Path, name: str) -> Path:
    """The socket of a box's console."""
    return run / name / "socket"


def make_folder(path: Path, mode: int) -> None:
    """Makes a folder, and those above it, which nobody else may change, whatever the umask."""
    if not path.parent.exists():
        make_folder(path.parent, 0o755)
    path.mkdir(mode, exist_ok=True)


def own_folder(path: Path, may_be_anyones: bool = False) -> None:
    """Makes a folder that only its owner may use. One that is there must be like that, and may be
    another's only if that's said."""
    try:
        make_folder(path, 0o700)
        status = path.stat(follow_symlinks=False)
    except OSError as error:
        raise Stopped(f"cannot make the folder {path}: {error.strerror}") from error
    is_own = status.st_uid == os.geteuid() or may_be_anyones
    if not stat.S_ISDIR(status.st_mode) or not is_own:
        raise Stopped(f"{path} is no folder of this user's", Status.REFUSED)
    if status.st_mode & 0o077:
        try:
            path.chmod(0o700)
        except OSError as error:
            raise Stopped(
                f"{path} is open to others, and can't be closed: {error.strerror}"
            ) from error


def locked(path: Path, holder: str) -> tuple[TextIO | None, str]:
    """A file that is locked for this process, which the kernel gives back however that ends, with
    the holder written into it; None if another has it, and who that is."""
    try:
        lock = open(
            os.open(path, os.O_RDWR | os.O_CREAT | os.O_NOFOLLOW | os.O_CLOEXEC, 0o600),
            "r+",
            encoding="ascii",
            errors="replace",
        )
    except OSError as error:
        raise Stopped(f"cannot open {path}: {error.strerror}") from error
    try:
        fcntl.flock(lock, fcntl.LOCK_EX | fcntl.LOCK_NB)
    except OSError:
        with lock:
            return None, lock.read(LONGEST_HOLDER).strip()
    try:
        os.truncate(lock.fileno(), 0)
        os.pwrite(lock.fileno(), holder.encode("ascii", "replace"), 0)
    except OSError as error:
        log.warning("%s: locked, but who holds it can't be written: %s", path, error.strerror)
    return lock, holder


def holder_of(path: Path) -> str:
    """Who is written into a file that was locked; nobody if it can't be read."""
    try:
        flags = os.O_RDONLY | os.O_NOFOLLOW | os.O_NONBLOCK | os.O_CLOEXEC
        with open(os.open(path, flags), "rb") as it:
            return it.read(LONGEST_HOLDER).decode("ascii", "replace")
    except OSError:
        return ""


@dataclass
class Room:
    """The folders of a running box. While it's held no other box of the name can be started."""

    name: str
    run: Path
    state: Path
    _lock: TextIO | None = None
    _claims: dict[str, TextIO] = field(default_factory=dict)
    _lent: Path | None = None
    _has_state: bool = True
    fault: str = ""
    """Why there is no folder for what is kept over a restart."""

    @property
    def socket(self) -> Path:
        return self.run / "socket"

    @property
    def lent(self) -> Path:
        """What `routerd` may read: it's started there. Other users can't pass the folder above."""
        return self._lent or self.run / "routerd"

    @property
    def configuration(self) -> Path:
        return self.lent / "routerd.conf"

    def kept(self, name: str) -> Path | None:
        """A file that is kept over a restart; None if there is no folder for it."""
        return self.state / name if self._has_state else None

    def lend(self, name: str, data: bytes) -> Path:
        """Writes a file for `routerd`: if the run's folder has no room, beside the state. `OSError`
        if it can't be written there either."""
        try:
            return self._lend(name, data)
        except OSError as error:
            if self._lent or not self._has_state or error.errno not in NO_ROOM:
                raise
            log.warning("%s: no room for %s: %s", self.run, name, error.strerror)
        shutil.rmtree(self.lent, ignore_errors=True)
        self._lent = self.state / "routerd"
        return self._lend(name, data)

    def _lend(self, name: str, data: bytes) -> Path:
        self.lent.mkdir(exist_ok=True)
        self.lent.chmod(0o755)
        path = self.lent / name
        path.unlink(missing_ok=True)
        self._write(path, data)
        return path

    @staticmethod
    def _write(path: Path, data: bytes) -> None:
        """Whatever the umask."""
        with open(path, "xb") as it:
            os.fchmod(it.fileno(), 0o644)
            it.write(data)

    @contextmanager
    def lent_object(self, path: str) -> Iterator[str]:
        """A name by which `routerd` can read an object file, which may be in a folder that's closed
        to it: a copy's. If it can't be copied, its own: `routerd` says what is wrong."""
        name = "object"
        try:
            with open(os.open(path, os.O_RDONLY | os.O_NONBLOCK | os.O_CLOEXEC), "rb") as it:
                is_file = stat.S_ISREG(os.fstat(it.fileno()).st_mode)
                data = it.read(LONGEST_OBJECT + 1) if is_file else b""
            if not 0 < len(data) <= LONGEST_OBJECT or len(path.split()) != 1:
                raise ValueError(path)
            self.lend(name, data)
        except (OSError, ValueError):
            yield path
            return
        try:
            yield name
        finally:
            (self.lent / name).unlink(missing_ok=True)

    def enter(self) -> None:
        """Makes the folders and takes the lock. What an earlier box left is removed."""
        if len(os.fsencode(self.socket)) > LONGEST_SOCKET_PATH:
            raise Stopped(
                f"{self.socket}: a socket's path has at most {LONGEST_SOCKET_PATH} bytes",
                Status.REFUSED,
            )
        own_folder(self.run)
        try:
            own_folder(self.state)
        except Stopped as why:
            if why.status == Status.REFUSED:
                raise
            log.warning("%s: sequence numbers aren't kept over a restart", why)
            self._has_state, self.fault = False, str(why)
        self._lock, holder = locked(self.run / "lock", f"{os.getpid()}\n")
        if self._lock is None:
            process = f" (process {holder})" if holder.isdigit() else ""
            raise Stopped(
                f"the box {self.name} runs already{process}: `leafrunt down` ends it",
                Status.REFUSED,
            )
        self.socket.unlink(missing_ok=True)

    def claim(self, names: Iterable[str]) -> None:
        """Claims interfaces and the kernel's table for this box, in this network namespace: two
        boxes that share one would undo each other's work. A claim is a locked file, in a folder
        that its owner alone may use, so nobody else can claim anything. Root shares that of boxes
        that run as another. If one can't be had, none is; those of before stay."""
        folder = self.run.parent / CLAIMS
        own_folder(folder, may_be_anyones=os.geteuid() == 0)
        namespace = os.stat(NAMESPACE).st_ino
        new = [each for each in names if each not in self._claims]
        try:
            for name in new:
                path = folder / f"{namespace} {name}"
                claim, holder = locked(path, f"{self.name} (process {os.getpid()})\n")
                if claim is None:
                    who = f"the box {holder}" if holder else "another box"
                    words = f"{who} has the {name} in this network namespace"
                    raise Stopped(words, Status.REFUSED)
                self._claims[name] = claim
        except Stopped:
            self.give_back(new)
            raise

    def claimed_before(self) -> list[str]:
        """What a box of this name claimed here and never gave back: it runs, or it was killed."""
        folder, found = self.run.parent / CLAIMS, []
        head = f"{os.stat(NAMESPACE).st_ino} "
        try:
            names = [each for each in sorted(os.listdir(folder)) if each.startswith(head)]
        except OSError:
            return []
        for each in names:
            if holder_of(folder / each).startswith(f"{self.name} (process "):
                found.append(each.removeprefix(head))
        return found

    def give_back(self, names: Iterable[str]) -> None:
        """Claims these no longer."""
        for each in names:
            claim = self._claims.pop(each, None)
            if claim:
                os.truncate(claim.fileno(), 0)
                claim.close()

    @property
    def claimed(self) -> frozenset[str]:
        return frozenset(self._claims)

    def leave(self) -> None:
        """Removes what nobody needs any more, and gives the name back. The state's folder stays,
        for the next start."""
        self.give_back(list(self._claims))
        if self._lock is None:
            return
        self.socket.unlink(missing_ok=True)
        shutil.rmtree(self.lent, ignore_errors=True)
        os.truncate(self._lock.fileno(), 0)
        self._lock.close()
        self._lock = None


def running(run: Path) -> list[str]:
    """The names of the boxes that take connections."""
    try:
        return sorted(each.name for each in run.iterdir() if is_listening(each / "socket"))
    except OSError:
        return []


def is_listening(path: Path) -> bool:
    """Whether a box takes connections at a socket: one that was killed leaves its socket behind."""
    if len(os.fsencode(path)) > LONGEST_SOCKET_PATH:
        return False
    with socket.socket(socket.AF_UNIX, socket.SOCK_STREAM) as tried:
        try:
            tried.connect(str(path))
        except OSError:
            return False
    return True
