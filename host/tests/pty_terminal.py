"""`leafrunt watch` on a pseudoterminal (pty(7)), as an operator sees it."""
from __future__ import annotations

import fcntl
import os
import pty
import re
import select
import signal
import struct
import sys
import termios
import time
from contextlib import suppress
from pathlib import Path

from leafrunt_host.terminal import HOME

LEAFRUNT = Path(__file__).resolve().parents[1] / "leafrunt"
SEQUENCE = re.compile(r"\x1b\[[0-9;?]*[a-zA-Z]")
SECONDS_TO_SHOW = 60


class Terminal:
    """`leafrunt watch` on a pty."""

    def __init__(self, run_folder: Path, *words: str, term: str = "xterm") -> None:
        said = [sys.executable, str(LEAFRUNT), "watch", "--run-directory", str(run_folder), *words]
        self.pid, self.master = pty.fork()
        if self.pid == 0:
            os.environ["TERM"] = term
            os.execv(said[0], said)
        self.text = ""
        self.status: int | None = None
        self._is_open = True

    def read(self, seconds: float) -> None:
        """What comes within this many seconds."""
        until = time.monotonic() + seconds
        while self._is_open and (left := until - time.monotonic()) > 0:
            if select.select([self.master], [], [], left)[0]:
                with suppress(OSError):
                    data = os.read(self.master, 65536)
                    self.text += data.decode("utf-8", "replace")
                    continue
                return

    def shows(self, said: str) -> bool:
        """Whether it comes to show this within a minute."""
        until = time.monotonic() + SECONDS_TO_SHOW
        while said not in self.text and time.monotonic() < until:
            self.read(0.05)
        return said in self.text

    def screen(self) -> list[str]:
        """The lines that it shows now, as far as they have come."""
        last = SEQUENCE.sub("", self.text.split(HOME)[-1])
        return last.split("\r\n")

    def size(self, rows: int, columns: int) -> None:
        fcntl.ioctl(self.master, termios.TIOCSWINSZ, struct.pack("4H", rows, columns, 0, 0))

    def modes(self) -> list[object]:
        return termios.tcgetattr(self.master)

    def types(self, keys: bytes) -> None:
        os.write(self.master, keys)

    def ended(self, seconds: float = 30) -> int | None:
        """Its status, once it has ended."""
        until = time.monotonic() + seconds
        while self.status is None and time.monotonic() < until:
            self.read(0.02)
            time.sleep(0.02)
            pid, status = os.waitpid(self.pid, os.WNOHANG)
            self.status = os.waitstatus_to_exitcode(status) if pid else None
        return self.status

    def close(self) -> None:
        if self.status is None:
            os.kill(self.pid, signal.SIGKILL)
            os.waitpid(self.pid, 0)
        self.hang_up()

    def hang_up(self) -> None:
        """The terminal goes away, as one does whose window is closed."""
        if self._is_open:
            self._is_open = False
            os.close(self.master)
