"""The box's log: lines on standard error, and the last of them for the console."""
from __future__ import annotations

import logging
import os
import queue
import select
import stat
import sys
import threading
import time
from collections import deque
from contextlib import suppress
from typing import TextIO

MOST_KEPT = 2000
MOST_WAITING = 1000
"""Lines that wait until somebody takes them."""
SECONDS_TO_WRITE = 2.0
"""How long the end of the program waits for that."""
NOT_READ = "nobody took them from standard error in time (`log` at the console has the last ones)"
LEVELS = {
    "error": logging.ERROR,
    "warning": logging.WARNING,
    "info": logging.INFO,
    "debug": logging.DEBUG,
}
PRIORITIES = {
    logging.DEBUG: 7,
    logging.INFO: 6,
    logging.WARNING: 4,
    logging.ERROR: 3,
    logging.CRITICAL: 2,
}
"""syslog(3), as sd-daemon(3) writes them before a line."""


def one_line(text: str) -> str:
    """The text without anything that would act on a terminal or begin another line."""
    return "".join(each if each.isprintable() else " " for each in text)


class Line(logging.Formatter):
    """A record as a line: with its moment, or, for systemd's journal, which has its own, with its
    priority."""

    def __init__(self, for_journal: bool) -> None:
        super().__init__()
        self._for_journal = for_journal

    def format(self, record: logging.LogRecord) -> str:
        text = one_line(record.getMessage())
        if self._for_journal:
            return f"<{PRIORITIES.get(record.levelno, 6)}>{text}"
        moment = time.strftime("%Y-%m-%d %H:%M:%S", time.localtime(record.created))
        return f"{moment} {record.levelname.lower()}: {text}"


class Kept(logging.Handler):
    """Keeps the last lines."""

    def __init__(self) -> None:
        super().__init__()
        self.setFormatter(Line(for_journal=False))
        self._lines: deque[str] = deque(maxlen=MOST_KEPT)

    def emit(self, record: logging.LogRecord) -> None:
        self._lines.append(self.format(record))

    def last(self, count: int) -> list[str]:
        """The last `count` lines, the oldest first."""
        lines = list(self._lines)
        return lines[-count:] if count else []


class Shown(logging.Handler):
    """Writes lines to a file by a thread of its own: if nobody takes them (a terminal that stands
    still, a pipe that is full), nothing else waits for that. Lines that have no room are left out,
    and how many were is told."""

    def __init__(self, descriptor: int, formatter: logging.Formatter) -> None:
        super().__init__()
        self.setFormatter(formatter)
        self._descriptor, self._left_out = descriptor, 0
        self._path = path_of(descriptor)
        """The file that it is, if it is one."""
        self._waiting: queue.Queue[str] = queue.Queue(MOST_WAITING)
        threading.Thread(target=self._write_all, name="log", daemon=True).start()

    def emit(self, record: logging.LogRecord) -> None:
        try:
            self._waiting.put_nowait(self.format(record))
        except queue.Full:
            self._left_out += 1

    def _write_all(self) -> None:
        while True:
            self._write(self._waiting.get())
            if self._left_out and self._waiting.empty():
                said, self._left_out = f"{self._left_out} lines were left out: {NOT_READ}", 0
                record = logging.LogRecord("leafrunt", logging.WARNING, "", 0, said, None, None)
                self._write(self.format(record))
            self._waiting.task_done()

    def _follow(self) -> None:
        """A file that logrotate(8) moved away is made anew under its name."""
        if self._path is None:
            return
        try:
            with suppress(FileNotFoundError):
                if os.path.samestat(os.stat(self._path), os.fstat(self._descriptor)):
                    return
            flags = os.O_WRONLY | os.O_CREAT | os.O_APPEND | os.O_NOFOLLOW | os.O_NONBLOCK
            new = os.open(self._path, flags | os.O_CLOEXEC, 0o640)
            if stat.S_ISREG(os.fstat(new).st_mode):
                os.dup2(new, self._descriptor)
            os.close(new)
        except OSError:
            pass  # it goes on in the one that was moved

    def _write(self, line: str) -> None:
        data = f"{line}\n".encode(errors="replace")
        self._follow()
        try:
            while data:
                # (another program may have made it one that doesn't wait)
                select.select([], [self._descriptor], [])
                with suppress(BlockingIOError):
                    data = data[os.write(self._descriptor, data) :]
        except (OSError, ValueError):
            pass  # nobody is there any more

    def flush(self) -> None:
        """Waits until what came is written, but not for long."""
        until = time.monotonic() + SECONDS_TO_WRITE
        with self._waiting.all_tasks_done:
            while self._waiting.unfinished_tasks and (left := until - time.monotonic()) > 0:
                self._waiting.all_tasks_done.wait(left)


def path_of(descriptor: int) -> str | None:
    """The path of the regular file that a descriptor is; None if it is none, or has none."""
    try:
        path = os.readlink(f"/proc/self/fd/{descriptor}")
        its, there = os.fstat(descriptor), os.stat(path)
    except OSError:
        return None
    return path if stat.S_ISREG(its.st_mode) and os.path.samestat(its, there) else None


def where_it_failed(error: Exception) -> str:
    """One line on an error that nobody expected: what it was, and where."""
    at = error.__traceback__
    while at and at.tb_next:
        at = at.tb_next
    where = (
        f" ({os.path.basename(at.tb_frame.f_code.co_filename)}, line {at.tb_lineno})" if at else ""
    )
    return f"a mistake in this program: {type(error).__name__}: {error}{where}"


def told_of_thread(failed: threading.ExceptHookArgs) -> None:
    """What a thread that nobody waits for failed with: in one line, as everything is."""
    if isinstance(failed.exc_value, Exception):
        logging.getLogger("leafrunt").error("%s", where_it_failed(failed.exc_value))


def is_journal(stream: TextIO) -> bool:
    """Whether what is written there goes to systemd's journal (systemd.exec(5), JOURNAL_STREAM)."""
    try:
        its = os.fstat(stream.fileno())
    except (OSError, ValueError):
        return False
    return os.environ.get("JOURNAL_STREAM") == f"{its.st_dev}:{its.st_ino}"


def set_level(name: str) -> None:
    """From now on the log has lines of this level, and of those above it."""
    logging.getLogger("leafrunt").setLevel(LEVELS[name])


def start_log(level: str = "info") -> Kept:
    """Sends the log of this package to standard error, and keeps its last lines."""
    log = logging.getLogger("leafrunt")
    set_level(level)
    log.propagate = False
    shown = Shown(sys.stderr.fileno(), Line(is_journal(sys.stderr)))
    kept = Kept()
    log.handlers = [shown, kept]
    logging.raiseExceptions = False
    threading.excepthook = told_of_thread
    return kept
