"""`routerd route` as a child: one answer to one line of its console, for any number of threads."""
from __future__ import annotations

import logging
import re
import subprocess
import threading
import time
from collections.abc import Callable
from concurrent.futures import Future
from concurrent.futures import TimeoutError as WaitedFor
from contextlib import AbstractContextManager, nullcontext
from dataclasses import dataclass
from pathlib import Path
from typing import NamedTuple, TypeVar

from leafrunt_host.answers import Answers
from leafrunt_host.isolation import ENVIRONMENT, World
from leafrunt_host.observing import Limiter

log = logging.getLogger("leafrunt.router")
LISTS = ("table", "neighbors", "counters")
"""The commands whose answer is a list of lines and then `end`."""
NO_LISTS = re.compile(rb"unknown|out of memory|refused \d+")
"""What such a command may be answered in place of a list."""
ATTACH = "attach "
LONGEST_LINE = 4096
SECONDS_TO_ANSWER = 120
"""A program may have to be verified first, and no other line needs as long."""
LEAST_PATIENCE = 20.0
"""Seconds for which an answer to any other line is waited for, at the least."""
SECONDS_TO_END = 30
SECONDS_TO_END_SILENT = 3.0
"""The same of one that has been asked in vain."""
SECONDS_TO_HEAR = 1.0
"""Whoever looks at a box waits so long for `routerd`."""
T = TypeVar("T")


def started(world: World, program: Path, configuration: Path) -> subprocess.Popen[bytes]:
    """The process: in the folder of its configuration, as whom the world says."""
    account = world.account
    return subprocess.Popen(
        world.words(program, "route", configuration.name),
        stdin=subprocess.PIPE,
        stdout=subprocess.PIPE,
        stderr=subprocess.PIPE,
        cwd=configuration.parent,
        env=ENVIRONMENT,
        start_new_session=True,
        user=account.user if account else None,
        group=account.group if account else None,
        extra_groups=[] if account else None,
    )


class RouterGone(Exception):
    """`routerd` has ended, or doesn't answer any more."""


class RouterSilent(Exception):
    """`routerd` doesn't answer now."""


class Unanswered(NamedTuple):
    """A line that `routerd` was given and hasn't answered, and for how many seconds."""

    line: str
    seconds: float

    def __str__(self) -> str:
        return f"routerd hasn't answered `{self.line}` for {self.seconds:.0f} s"


@dataclass(frozen=True)
class Ended:
    """How `routerd` ended: its status, negative for a signal's number; its exact counters, which it
    prints last; the last line that it printed, which says why if it didn't start."""

    status: int
    counters: tuple[str, ...]
    said: str = ""

    @property
    def words(self) -> str:
        return f"killed by signal {-self.status}" if self.status < 0 else f"status {self.status}"


class Router:
    """The child. Its standard error is logged, line by line, within bounds."""

    def __init__(
        self,
        program: Path,
        configuration: Path,
        told: Callable[[str], None] = lambda line: None,
        world: World | None = None,
        lends: Callable[[str], AbstractContextManager[str]] = nullcontext,
        patience: float = LEAST_PATIENCE,
    ) -> None:
        """`lends` makes an object file readable there, and says by which name. An answer is waited
        for as long as `patience`."""
        self._told, self._lends, self._patience = told, lends, patience
        world = world or World(None)
        self._one_at_a_time = threading.Lock()
        self._is_gone = False
        self._asking: tuple[str, float] | None = None
        """The line that waits for its answer, and since when."""
        self._ran: subprocess.Popen[bytes] = world.do(
            lambda: started(world, program, configuration)
        )
        assert self._ran.stdin and self._ran.stdout and self._ran.stderr  # each is a pipe
        self._input, self._output, self._errors = (
            self._ran.stdin,
            self._ran.stdout,
            self._ran.stderr,
        )
        self._answers = Answers(self._output)
        errors = threading.Thread(target=self._read_errors, daemon=True)
        errors.start()
        self._readers = [self._answers.reader, errors]

    @property
    def pid(self) -> int:
        return self._ran.pid

    def _read_errors(self) -> None:
        limiter = Limiter()
        while line := self._errors.readline(LONGEST_LINE):
            text = line.decode("utf-8", "replace").rstrip()
            for each in limiter.passing("routerd", [f"routerd: {text}"], time.monotonic()):
                log.warning("%s", each)
            self._told(text)

    def status(self) -> int | None:
        """The status that it ended with by itself; None while it runs."""
        return self._ran.poll()

    def is_silent(self) -> bool:
        """Whether it was given up, since it didn't answer."""
        return self._is_gone and self._ran.poll() is None

    def ask(self, line: str, seconds: float | None = None) -> list[str]:
        """The lines of the answer as they are; `end`, which closes a list, is one of them."""
        if line.startswith(ATTACH):
            with self._lends(line.removeprefix(ATTACH)) as name:
                return self._lines(ATTACH + name, seconds or SECONDS_TO_ANSWER)
        return self._lines(line, seconds or self._patience)

    def _lines(self, line: str, seconds: float) -> list[str]:
        first, more = self._asked(line, seconds)
        lines = [first.decode("utf-8", "replace")]
        if more is not None:
            lines += more.decode("utf-8", "replace").splitlines() + ["end"]
        return lines

    def _asked(self, line: str, seconds: float) -> tuple[bytes, bytes | None]:
        """The first line of the answer, and, if a list follows, its other lines."""
        data = line.encode("utf-8")
        if b"\n" in data or len(data) > LONGEST_LINE:
            return b"unknown", None
        with self._one_at_a_time:
            if self._is_gone:
                raise RouterGone("routerd has ended")
            self._asking = line, time.monotonic()
            try:
                self._write(data + b"\n")
                return self._answer(line in LISTS, seconds)
            finally:
                self._asking = None

    def unanswered(self, seconds: float = SECONDS_TO_HEAR) -> Unanswered | None:
        """The line that it hasn't answered for so long; None if there is none."""
        asking = self._asking
        since = time.monotonic() - asking[1] if asking else 0.0
        return Unanswered(asking[0], since) if asking and since >= seconds else None

    def look(self) -> None:
        """`RouterSilent` if it doesn't answer what it was asked; a program's verification may take
        its time."""
        it = self.unanswered()
        if it and not it.line.startswith(ATTACH):
            raise RouterSilent(str(it))

    def soon(self, ask: Callable[[], T], seconds: float = SECONDS_TO_HEAR) -> T:
        """What `ask` brings, which asks `routerd`. `RouterSilent` if that takes longer, or another
        line has waited so long already; the answer is then waited for in a thread of its own."""
        self.look()
        answer: Future[T] = Future()

        def work() -> None:
            try:
                answer.set_result(ask())
            except BaseException as error:
                answer.set_exception(error)

        threading.Thread(target=work, name="asker", daemon=True).start()
        try:
            return answer.result(seconds)
        except WaitedFor:
            it = self.unanswered(0) or Unanswered("a line", seconds)
            raise RouterSilent(str(it)) from None

    def _answer(self, is_list: bool, seconds: float) -> tuple[bytes, bytes | None]:
        try:
            first = self._answers.next(seconds)
            if not is_list or first == b"end" or NO_LISTS.fullmatch(first):
                return first, None
            return first, self._answers.up_to(b"end", seconds)
        except TimeoutError:
            self._is_gone = True
            raise RouterGone(f"routerd has not answered for {seconds:g} seconds") from None
        except EOFError:
            self._is_gone = True
            raise RouterGone("routerd has ended") from None

    def _write(self, data: bytes) -> None:
        try:
            self._input.write(data)
            self._input.flush()
        except (OSError, ValueError) as error:
            self._is_gone = True
            raise RouterGone("routerd has ended") from error

    def ask_list(self, line: str) -> list[str] | None:
        """The lines of a list without its end; None if it was refused."""
        said = self.ask_bytes(line)
        return None if said is None else said.decode("utf-8", "replace").splitlines()

    def ask_bytes(self, line: str) -> bytes | None:
        """The same as it came, each line with its line feed: a list may have thousands."""
        first, more = self._asked(line, self._patience)
        if more is None:
            return b"" if first == b"end" else None
        return first + b"\n" + more

    def quit(self, seconds: float = SECONDS_TO_END) -> Ended:
        """Ends it, if it hasn't ended, and waits for it. One that doesn't end by itself, or doesn't
        answer whoever waits for that, is killed, and that is logged."""
        if self.unanswered() or self.is_silent():
            seconds = min(seconds, SECONDS_TO_END_SILENT)
        if not self._one_at_a_time.acquire(timeout=seconds):
            log.error("routerd hasn't answered for %d seconds: it is killed", seconds)
            self._ran.kill()
            self._one_at_a_time.acquire()
        try:
            was_gone, self._is_gone = self._is_gone, True
            try:
                if not was_gone:
                    self._input.write(b"quit\n")
                self._input.close()
            except (OSError, ValueError):
                pass  # it has ended already
            try:
                status = self._ran.wait(seconds)
            except subprocess.TimeoutExpired:
                log.error("routerd didn't end within %d seconds of `quit`: it is killed", seconds)
                self._ran.kill()
                status = self._ran.wait()
        finally:
            self._one_at_a_time.release()
        for each in self._readers:
            each.join(5)
        lines = [each.decode("utf-8", "replace") for each in self._answers.rest()]
        counters = tuple(each for each in lines if each.startswith("counter "))
        self._output.close()
        self._errors.close()
        return Ended(status, counters, self._answers.last.decode("utf-8", "replace"))
