"""A client of a box's console."""
from __future__ import annotations

import socket
import time
from pathlib import Path

from leafrunt_host.rooms import BOX_NAME, LONGEST_SOCKET_PATH, running, socket_path
from leafrunt_host.statuses import FAILED, REFUSED, Status, Stopped
from leafrunt_host.tables import shown

LONGEST_ANSWER = 64 << 20
"""Bytes: a table of 16,384 routes has one."""
SECONDS_TO_ANSWER = 150.0
"""`routerd` is given 120 by the box."""
PIECE = 1 << 18


def chosen_box(run: Path, name: str | None) -> str:
    """The box that is meant: the one of this name, or the only one that runs."""
    if name is not None:
        if not BOX_NAME.fullmatch(name):
            raise Stopped(
                f"{name!r} is no name of a box: letters, digits, `.`, `_` and `-`", Status.USAGE
            )
        return name
    names = running(run)
    if not names:
        raise Stopped(f"no box of this user's runs (in {run}): `leafrunt up CONFIG` starts one")
    if len(names) > 1:
        raise Stopped(
            f"several boxes run: {', '.join(names)}; choose one by `--box NAME`", Status.USAGE
        )
    return names[0]


class Client:
    """A connection to a box: one line, one answer."""

    def __init__(self, run: Path, name: str | None) -> None:
        self.box = chosen_box(run, name)
        path = socket_path(run, self.box)
        if len(str(path).encode()) > LONGEST_SOCKET_PATH:
            raise Stopped(
                f"{path}: a socket's path has at most {LONGEST_SOCKET_PATH} bytes", Status.USAGE
            )
        self._socket = connected(path, self.box)
        self._data = bytearray()
        """What came and belongs to no answer yet."""

    def ask(
        self, line: str, descriptor: int | None = None, seconds: float = SECONDS_TO_ANSWER
    ) -> list[str]:
        """The answer's lines. A file's descriptor may go with the line. `Stopped` if the box has
        ended, if the answer isn't whole after this many seconds, and if it is too long."""
        data = line.encode("utf-8", "replace") + b"\n"
        self._socket.settimeout(seconds)
        try:
            if descriptor is None:
                self._socket.sendall(data)
            else:
                socket.send_fds(self._socket, [data], [descriptor])
        except OSError:
            pass  # what it said before it went is still to be read
        return self.answer(seconds)

    def answer(self, seconds: float | None = None) -> list[str]:
        """The lines up to the empty one, however long they take if no time is given."""
        until = None if seconds is None else time.monotonic() + seconds
        searched = 0
        while (end := self._end(searched)) is None:
            searched = len(self._data)
            self._receive(until)
            if len(self._data) > LONGEST_ANSWER:
                raise Stopped(f"the box {self.box} answers more than {LONGEST_ANSWER} bytes")
        data, self._data = bytes(self._data[:end]), self._data[end + 1 :]
        return data.decode("utf-8", "replace").removesuffix("\n").split("\n") if data else []

    def _end(self, searched: int) -> int | None:
        """Where the empty line begins that ends the answer; None if it hasn't come yet."""
        if self._data.startswith(b"\n"):
            return 0
        at = self._data.find(b"\n\n", max(0, searched - 1))
        return None if at < 0 else at + 1

    def _receive(self, until: float | None) -> None:
        """Waits for more."""
        left = None if until is None else until - time.monotonic()
        try:
            if left is not None and left <= 0:
                raise TimeoutError
            self._socket.settimeout(left)
            data = self._socket.recv(PIECE)
        except TimeoutError:
            raise Stopped(f"the box {self.box} doesn't answer") from None
        except OSError:
            data = b""
        if not data:
            raise Stopped(f"the box {self.box} has ended")
        self._data += data

    def close(self) -> None:
        """Leaves the box, also if another thread waits for its answer."""
        try:
            self._socket.shutdown(socket.SHUT_RDWR)
        except OSError:
            pass  # the box has left
        self._socket.close()


def connected(path: Path, box: str) -> socket.socket:
    """A connection to the socket of a box."""
    one = socket.socket(socket.AF_UNIX, socket.SOCK_STREAM)
    try:
        one.connect(str(path))
    except OSError as error:
        one.close()
        if isinstance(error, (FileNotFoundError, ConnectionRefusedError)):
            raise Stopped(f"the box {box} doesn't run: `leafrunt up` starts it") from error
        if isinstance(error, PermissionError):
            raise Stopped(
                f"{path}: a box's console is its owner's alone", Status.REFUSED
            ) from error
        raise Stopped(f"cannot connect to {path}: {error.strerror}") from error
    return one


def own_answer(answer: list[str]) -> list[str]:
    """The lines of a word of the box's own, without the `end` of a list; `Stopped` if it was
    refused, or failed."""
    for word, status in ((REFUSED, Status.REFUSED), (FAILED, Status.FAILED)):
        if answer and answer[0].startswith(word):
            raise Stopped("\n".join(each.removeprefix(word) for each in answer), status)
    return answer[:-1] if answer and answer[-1] == "end" else answer


def list_of(answer: list[str]) -> list[str]:
    """The lines of a list, `routerd`'s or the box's, without its `end`. `Stopped` if it was
    refused, if `routerd` was out of memory, and if it is no list."""
    lines = own_answer(answer)
    if len(lines) < len(answer):
        return lines
    said = " ".join(answer)
    if said == "out of memory":
        raise Stopped("routerd is out of memory", Status.MEMORY)
    raise Stopped(f"the box answers no list: {shown(said)}")
