"""Whether `routerd` takes what happens: packets, the passing of time, commands. If memory is
refused to it, it refuses all of these, and says so only to whoever gives it a line of the console,
while its lists may be answered as before. So it is given a line that changes nothing.
"""
from __future__ import annotations

import logging
import re
import time
from collections.abc import Callable, Collection
from dataclasses import dataclass, replace
from ipaddress import IPv4Network

from leafrunt_host.meanings import MEANINGS, OUT_OF_MEMORY
from leafrunt_host.clock import TOLD, moment_text
from leafrunt_host.kernel import Json
from leafrunt_host.observing import Limiter

log = logging.getLogger("leafrunt.box")
NOBODYS = IPv4Network("255.255.255.255/32")
"""The limited broadcast address (RFC 919), which is nobody's to announce: to withdraw it is an
event that changes nothing."""
ASKED_EACH = 5.0
"""Seconds between two such lines, as long as they are taken."""
NO_LIST = "out of memory"
"""What `routerd` answers if it has no memory for a list."""
REFUSED = re.compile(r"refused [467]")
"""Answers that say so: if the clock was set back, for want of memory, at the last event."""


@dataclass(frozen=True)
class Refusal:
    """`routerd` refuses what happens: its answer, since when, and until when; None: it does still.
    Moments are in seconds since 1970."""

    answer: str
    since: float
    until: float | None = None

    @property
    def is_of_memory(self) -> bool:
        return MEANINGS.get(self.answer) == OUT_OF_MEMORY

    @property
    def is_of_clock(self) -> bool:
        """Of the clock's steps `status` says more."""
        return self.answer == "refused 4"

    def news(self) -> str:
        """What happens, and what to do."""
        what = "its lists" if self.answer == NO_LIST else "packets, timers and commands"
        meaning = MEANINGS.get(self.answer)
        return f"routerd refuses {what} ({self.answer})" + (f": {meaning}" if meaning else "")

    def remark(self, now: float) -> str | None:
        """What `status` says of it; None if nothing is to be said any more."""
        if self.until is None:
            began = moment_text(self.since)
            return f"{self.news()}. Neighbors and routes are shown as they were at {began}"
        if not self.is_of_memory or now - self.until >= TOLD:
            return None
        seconds, ended = self.until - self.since, moment_text(self.until)
        return f"routerd was out of memory for {seconds:.0f} s, until {ended}; it goes on by itself"

    def document(self) -> Json:
        """The same for a program."""
        reason = MEANINGS.get(self.answer)
        return {"answer": self.answer, "reason": reason, "since": self.since, "until": self.until}


class Refusals:
    """Gives `routerd` the line, and notes what becomes of it."""

    def __init__(self, clock: Callable[[], float] = time.time) -> None:
        self._clock, self._limiter = clock, Limiter()
        self._due = float("-inf")
        self._began = 0.0
        self.last: Refusal | None = None

    @property
    def is_lasting(self) -> bool:
        """Whether `routerd` refuses what happens, as far as is known."""
        return self.last is not None and self.last.until is None

    def look(
        self,
        ask: Callable[[str], list[str]],
        announced: Collection[IPv4Network],
        is_list_refused: bool,
        now: float,
    ) -> None:
        """Gives it the line if that is due, or if a list was refused; `now` is by the clock that
        nobody sets."""
        if now < self._due and not self.is_lasting and not is_list_refused:
            return
        self._due = now + ASKED_EACH
        answer = "" if NOBODYS in announced else ask(f"withdraw {NOBODYS}")[0]
        if not REFUSED.fullmatch(answer):
            answer = NO_LIST if is_list_refused else ""
        self._note(answer, now)

    def seconds(self, now: float) -> float:
        """For how long memory has been refused to it; 0 if it isn't."""
        last = self.last
        return now - self._began if last and last.until is None and last.is_of_memory else 0.0

    def _note(self, answer: str, now: float) -> None:
        if answer and not self.is_lasting:
            self._began, self.last = now, Refusal(answer, self._clock())
            self._tell(logging.ERROR, self.last.news(), now)
        elif answer and self.last and self.last.answer != answer:
            self.last = replace(self.last, answer=answer)
            self._tell(logging.ERROR, self.last.news(), now)
        elif not answer and self.last and self.last.until is None:
            seconds = now - self._began
            self.last = replace(self.last, until=self.last.since + seconds)
            said = f"routerd refuses nothing any more, after {seconds:.0f} s"
            self._tell(logging.INFO, said, now)

    def _tell(self, level: int, said: str, now: float) -> None:
        for each in self._limiter.passing("routerd", [said], now):
            log.log(level, "%s", each)
