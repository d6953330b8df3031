"""Parts of `try-network` side by side: each is played by a process of its own, so that namespaces,
folders and signals are its own too, and what it says is printed once it has ended."""
from __future__ import annotations

import os
import re
import signal
import statistics
import subprocess
import sys
import tempfile
import time
from collections.abc import Callable, Iterator
from contextlib import contextmanager
from dataclasses import dataclass, field

from tests.network import Looks

SAID = re.compile(r"(yes|NO )  (.*)")
"""A look, as `Looks.look` prints it."""
TOTAL = re.compile(r"\d+ looks as they must be, \d+ not, .*")
LOOKS_EACH = 0.1
"""Seconds between two looks at who has ended."""
LEFT = 120.0
"""Seconds for a part that is ended to remove all that it made."""


@contextmanager
def undisturbed() -> Iterator[None]:
    """No signal of a terminal or of `kill` comes between."""
    numbers = (signal.SIGINT, signal.SIGTERM, signal.SIGHUP)
    before = {each: signal.signal(each, signal.SIG_IGN) for each in numbers}
    try:
        yield
    finally:
        for number, handler in before.items():
            signal.signal(number, handler)


class Playing:
    """A part that is being played. It's in a session of its own, so that a Ctrl-C comes to this
    process alone, and is ended where this process is killed (setpriv(1))."""

    def __init__(self, number: int, part: str, words: list[str]) -> None:
        self.number, self.part = number, part
        self._said = tempfile.TemporaryFile()
        self._process = subprocess.Popen(
            ["setpriv", "--pdeathsig", "TERM", *words],
            stdin=subprocess.DEVNULL,
            stdout=self._said,
            stderr=subprocess.STDOUT,
            start_new_session=True,
        )

    def has_ended(self) -> bool:
        return self._process.poll() is not None

    def tell(self, looks: Looks) -> None:
        """Prints what it has said, and counts its looks."""
        self._said.seek(0)
        lines = self._said.read().decode(errors="replace").splitlines()
        self._said.close()
        print(*(each for each in lines if not TOTAL.fullmatch(each)), sep="\n", flush=True)
        found = [each for line in lines if (each := SAID.match(line))]
        bad = [each[2] for each in found if each[1] != "yes"]
        looks.good += len(found) - len(bad)
        looks.bad += bad
        status = self._process.returncode
        if status != (1 if bad else 0):
            looks.look(f"{self.part} is played to its end", False, f"status {status}")

    def end(self) -> None:
        if not self.has_ended():
            self._process.terminate()

    def wait(self) -> None:
        """Until it has removed what it made."""
        try:
            self._process.wait(LEFT)
        except subprocess.TimeoutExpired:
            self._process.kill()
            self._process.wait()
        self._said.close()


@dataclass
class Round:
    """All parts once: how many of them haven't ended."""

    left: int
    looks: Looks = field(default_factory=Looks)
    began: float = 0.0
    loads: list[float] = field(default_factory=list)

    def total(self) -> str:
        seconds = time.monotonic() - self.began
        return total(self.looks, seconds, self.loads)


def total(looks: Looks, seconds: float, loads: list[float]) -> str:
    """What is said at the end of a round."""
    load = f"at a mean load of {statistics.mean(loads):.1f}"
    said = f"{looks.good} looks as they must be, {len(looks.bad)} not, in {seconds:.0f} s {load}"
    return "; ".join([said, *looks.bad])


def taken(waiting: list[tuple[int, str]], running: list[Playing]) -> tuple[int, str] | None:
    """Takes what is begun next, a round's number and a part: the first one that isn't being played
    for an earlier round, beside which it would share what few parts do, such as the processor time
    of real-time classes; None where there is none."""
    busy = {each.part for each in running}
    found = next((each for each in waiting if each[1] not in busy), None)
    if found:
        waiting.remove(found)
    return found


def played(parts: list[str], words: Callable[[str], list[str]], lanes: int, times: int) -> bool:
    """Plays the parts `times` times, always `lanes` of them at once: where no part of a round
    waits, those of the next begin. Whether all looks of all rounds were good."""
    waiting = [(number, part) for number in range(times) for part in parts]
    rounds = [Round(len(parts)) for _ in range(times)]
    running: list[Playing] = []
    told = in_a_row = 0
    try:
        while running or waiting:
            while len(running) < lanes and (begun := taken(waiting, running)):
                number, part = begun
                rounds[number].began = rounds[number].began or time.monotonic()
                running.append(Playing(number, part, words(part)))
            time.sleep(LOOKS_EACH)
            for each in [each for each in running if each.has_ended()]:
                running.remove(each)
                its = rounds[each.number]
                each.tell(its.looks)
                its.loads.append(os.getloadavg()[0])
                its.left -= 1
            while told < times and not rounds[told].left:
                in_a_row = 0 if rounds[told].looks.bad else in_a_row + 1
                print(rounds[told].total(), flush=True)
                told += 1
                if times > 1:
                    print(f"round {told} of {times}: {in_a_row} in a row without a NO", flush=True)
    finally:
        with undisturbed():
            for each in running:
                each.end()
            for each in running:
                each.wait()
    return not any(each.looks.bad for each in rounds)
