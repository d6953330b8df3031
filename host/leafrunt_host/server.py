"""The box's console: a unix socket that its owner alone may use, for several clients at once.

A client sends lines, and gets to each an answer: its lines, and then an empty one. Whatever a
client does, stops doing or sends, the others don't notice: each has a thread of its own, and what
it is sent is complete before the first byte of it goes out.
"""
from __future__ import annotations

import logging
import os
import pwd
import socket
import struct
import threading
import time
from collections.abc import Callable
from dataclasses import dataclass, field
from pathlib import Path

from leafrunt_host.router import LONGEST_LINE
from leafrunt_host.statuses import Stopped

log = logging.getLogger("leafrunt.console")
MOST_CLIENTS = 32
"""Beyond these the one that has asked nothing longest is let go for each that comes."""
SECONDS_TO_READ = 30
"""A client that takes nothing of its answer for so long is let go."""
CREDENTIALS = struct.Struct("3i")
NO_LOGIN = 0xFFFF_FFFF
LEAVING = ("quit", "exit")
"""Lines that end a client's connection, and nothing else."""


@dataclass
class Asked:
    """A line of a client, and the descriptor of a file that came with it: whoever takes it sets it
    to None."""

    line: str
    descriptor: int | None = None
    by: str = "somebody"
    """Who asks, in words."""


@dataclass
class Answer:
    """What a line is answered. If `stays` is set, the connection stays open until the box has
    ended."""

    lines: list[str] = field(default_factory=list)
    stays: bool = False


@dataclass
class _Client:
    """When a client asked last, or came, and whether it is being answered."""

    asked: float
    is_answered: bool = False


def name_of(user: int) -> str:
    """A user's name, or the number that has none."""
    try:
        return pwd.getpwuid(user).pw_name
    except KeyError:
        return str(user)


def who_is(process: int, user: int, processes: Path = Path("/proc")) -> str:
    """A user by the name; and who logged in, if that is another one (pam_loginuid(8))."""
    try:
        login = int((processes / str(process) / "loginuid").read_text())
    except (OSError, ValueError):
        login = NO_LOGIN
    name = name_of(user)
    return name if login in (user, NO_LOGIN) else f"{name_of(login)} as {name}"


def encoded(lines: list[str]) -> bytes:
    """An answer as it is sent: no line of it is empty, an empty one is its end."""
    return "".join(f"{line or ' '}\n" for line in lines).encode("utf-8", "replace") + b"\n"


class Server:
    """The socket and its clients."""

    def __init__(self, path: Path, answer: Callable[[Asked], Answer]) -> None:
        self._path, self._answer = path, answer
        self._ending = threading.Event()
        self._clients: dict[socket.socket, _Client] = {}
        self._staying: list[threading.Thread] = []
        self._last_word = ""
        self._changing = threading.Lock()
        self._listener = socket.socket(socket.AF_UNIX, socket.SOCK_STREAM)
        mask = os.umask(0o177)
        try:
            self._listener.bind(str(path))
            self._listener.listen(MOST_CLIENTS)
        except OSError as error:
            self._listener.close()
            raise Stopped(f"cannot make the socket {path}: {error.strerror}") from error
        finally:
            os.umask(mask)
        self._thread = threading.Thread(target=self._accept, name="console", daemon=True)
        self._thread.start()

    def _accept(self) -> None:
        while not self._ending.is_set():
            try:
                client, _ = self._listener.accept()
            except OSError as error:
                if not self._ending.wait(1):
                    log.warning("console: no client can come in: %s", error.strerror)
                continue
            try:
                process, user, _ = CREDENTIALS.unpack(
                    client.getsockopt(socket.SOL_SOCKET, socket.SO_PEERCRED, CREDENTIALS.size)
                )
                why = self._why_not(client, user)
            except OSError as error:
                why = str(error.strerror)
            if why:
                log.warning("console: a client was refused: %s", why)
                self._send(client, [f"refused: {why}"])
                client.close()
                continue
            self._let_in(client, who_is(process, user))

    def _let_in(self, client: socket.socket, by: str) -> None:
        """Gives a client a thread of its own."""
        with self._changing:
            self._clients[client] = _Client(time.monotonic())
        thread = threading.Thread(target=self._serve, args=(client, by), name="client", daemon=True)
        try:
            thread.start()
        except RuntimeError as error:
            log.warning("console: no client can come in: %s", error)
            with self._changing:
                self._clients.pop(client, None)
            client.close()

    def _why_not(self, client: socket.socket, user: int) -> str | None:
        """Beside the socket's mode: root and the box's own user may come in, nobody else."""
        client.settimeout(SECONDS_TO_READ)
        if user not in (0, os.geteuid()):
            return f"the console is its owner's alone, and this is the user {user}"
        with self._changing:
            if len(self._clients) >= MOST_CLIENTS and not self._let_go():
                return f"there are {MOST_CLIENTS} clients already, and all are being answered"
        return None

    def _let_go(self) -> bool:
        """Lets the client go that has asked nothing longest; whether there is one."""
        idle = {each: it.asked for each, it in self._clients.items() if not it.is_answered}
        if not idle:
            return False
        oldest = min(idle, key=lambda each: idle[each])
        del self._clients[oldest]
        word = f"refused: this console was let go, since {MOST_CLIENTS} others came or asked later"
        try:
            oldest.send(encoded([word]), socket.MSG_DONTWAIT)
            oldest.shutdown(socket.SHUT_RDWR)
        except OSError:
            pass  # it has left
        return True

    def _note(self, client: socket.socket, is_answered: bool) -> None:
        with self._changing:
            it = self._clients.get(client)
            if it:
                it.asked, it.is_answered = time.monotonic(), is_answered

    def _serve(self, client: socket.socket, by: str) -> None:
        """Answers a client until it leaves."""
        reader = _Lines(client)
        try:
            while not self._ending.is_set():
                asked = reader.next()
                if asked is None or asked.line in LEAVING:
                    break
                self._note(client, is_answered=True)
                asked.by = by
                answer = self._answer(asked)
                reader.close(asked)
                if answer.stays:
                    self._stay(client, answer)
                    break
                if not self._send(client, answer.lines):
                    break
                self._note(client, is_answered=False)
        except (OSError, ValueError) as error:
            log.debug("console: a client left: %s", error)
        finally:
            reader.end()
            with self._changing:
                self._clients.pop(client, None)
            client.close()

    def _stay(self, client: socket.socket, answer: Answer) -> None:
        """Keeps a client until the box has ended, and tells it how."""
        with self._changing:
            self._staying.append(threading.current_thread())
        self._send(client, answer.lines)
        self._ending.wait()
        self._send(client, [self._last_word])

    def _send(self, client: socket.socket, lines: list[str]) -> bool:
        """Sends an answer; whether the client took it."""
        try:
            client.settimeout(SECONDS_TO_READ)
            client.sendall(encoded(lines))
            return True
        except OSError:
            return False

    def close(self, last_word: str) -> None:
        """Takes no more clients, tells those that wait for the end how it was, and lets all go."""
        self._last_word = last_word
        self._ending.set()
        with self._changing:
            staying, clients = list(self._staying), list(self._clients)
        for thread in staying:
            thread.join(2)
        for one in [self._listener, *clients]:
            try:
                one.shutdown(socket.SHUT_RDWR)
            except OSError:
                pass  # it has left
        self._listener.close()


class _Lines:
    """The lines that a client sends, with the files that come with them."""

    def __init__(self, client: socket.socket) -> None:
        self._client = client
        self._data = b""
        self._descriptors: list[int] = []

    def next(self) -> Asked | None:
        """The next line; None if the client has left. One that is too long, or no text, is an empty
        line, which is no command."""
        is_long = False
        while b"\n" not in self._data:
            if len(self._data) > LONGEST_LINE:
                is_long, self._data = True, b""
            self._client.settimeout(None)
            data, descriptors, _, _ = socket.recv_fds(self._client, LONGEST_LINE, 4)
            if descriptors:
                # (the last one counts)
                self._close_descriptors()
                self._descriptors += descriptors
            if not data:
                return None
            self._data += data
        line, self._data = self._data.split(b"\n", 1)
        descriptor = self._descriptors.pop() if self._descriptors else None
        self._close_descriptors()
        try:
            text = "" if is_long or len(line) > LONGEST_LINE else line.decode("utf-8")
        except UnicodeDecodeError:
            text = ""
        return Asked(text, descriptor)

    def _close_descriptors(self) -> None:
        for each in self._descriptors:
            os.close(each)
        self._descriptors.clear()

    @staticmethod
    def close(asked: Asked) -> None:
        """Closes the file that came with a line, if nobody took it."""
        if asked.descriptor is not None:
            os.close(asked.descriptor)
            asked.descriptor = None

    def end(self) -> None:
        self._close_descriptors()
