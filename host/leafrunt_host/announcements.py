"""The external destinations that this router announces, by who asks for them: what was added at the
console, what the configuration has, and what is redistributed from the kernel. One of them is
brought to `routerd` for each address, and all of them again to one that was started anew.
"""
from __future__ import annotations

import logging
import re
import threading
import time
from collections.abc import Callable, Iterable, Mapping
from ipaddress import IPv4Network
from types import MappingProxyType
from typing import NamedTuple

from leafrunt_host.destinations import MOST_EXTERNALS, Announcement, Owner
from leafrunt_host.meanings import CLASHES, MEANINGS, NO_PLACE
from leafrunt_host.observing import Limiter

log = logging.getLogger("leafrunt.announcements")
ADDED = re.compile(r"add (\S+) (\d+) ([12]) (\d+)")
TAKEN = ("originated", "withheld")
"""What `routerd` answers if it has taken an announcement."""
TRIED_AGAIN = 5.0
"""Seconds after which what `routerd` refused is given again."""
TRIED_SOON = 1.0
"""The same if it took others of that turn: it may have room again soon, as LSAs that were flushed
are acknowledged."""
LEAST_INTERVAL = 5.0
"""Seconds between two `add`s of a redistributed destination, as of MinLSInterval (RFC 2328, B): one
that comes and goes is withdrawn at once, and announced again after that."""
PUBLISHED_EACH = 200
"""Lines to `routerd` after which others see what it has taken."""
MOST_GIVEN = 16_384
"""How many `routerd` is given, those included that its program at `price` withholds."""
MOST_TOLD = 4
"""How many destinations that aren't announced are named."""


class Announced(NamedTuple):
    """An announcement that `routerd` has taken, with its answer: `originated` or `withheld`."""

    announcement: Announcement
    answer: str
    owner: Owner = Owner.CONSOLE


class Wanted(NamedTuple):
    """An announcement, and who asks for it."""

    announcement: Announcement
    owner: Owner


Publish = Callable[[dict[IPv4Network, Announced], tuple[str, ...]], None]
"""Is given what `routerd` has taken, and a line for what it hasn't; each value is a new one."""


class Announcements:
    """What each owner asks for, and what `routerd` has of it; for any number of threads.

    A line at the console counts above all: what was added there is announced so, and what was
    withdrawn there isn't announced for other owners either, until it's added there again.
    """

    def __init__(self, ask: Callable[[str], list[str]], publish: Publish) -> None:
        """`ask` gives `routerd` a line."""
        self._ask, self._publish = ask, publish
        self.changed: Callable[[], None] = lambda: None
        """Is called when `give` has something to do."""
        self.trouble = ""
        """What keeps the owners from asking, for the log and `status`; empty if nothing does."""
        self._lock = threading.Lock()
        self._wanted: dict[Owner, dict[IPv4Network, Announcement]] = {each: {} for each in Owner}
        self._withdrawn: set[IPv4Network] = set()
        """By hand, though others ask for them."""
        self._given: dict[IPv4Network, Announced] = {}
        self._again: set[IPv4Network] = set()
        """Those that are given again, though `routerd` has them."""
        self._chosen: dict[IPv4Network, Wanted] | None = None
        """What `routerd` is to have, as far as there is room; None until it's looked at anew."""
        self._clashing: list[tuple[Wanted, Wanted]] = []
        """Those whose address the other one has."""
        self._left_out: list[Wanted] = []
        self._refused: dict[IPv4Network, str] = {}
        self._waiting = 0
        """How many weren't given, since `routerd` refused one before them."""
        self._added: dict[IPv4Network, float] = {}
        self._said: tuple[str, ...] = ()
        self._limiter = Limiter()

    # -- what is asked for

    def want(self, all_of: Mapping[Owner, Iterable[Announcement]]) -> None:
        """From now on these owners ask for these announcements, and for no others. That is brought
        to `routerd` soon."""
        self.take(all_of)
        self.changed()

    def take(self, all_of: Mapping[Owner, Iterable[Announcement]]) -> None:
        """The same, for whoever calls `give` then."""
        with self._lock:
            for owner, announcements in all_of.items():
                wanted = {each.prefix: each for each in announcements}
                if wanted != self._wanted[owner]:
                    self._wanted[owner], self._chosen = wanted, None

    def by_hand(self, line: str) -> str:
        """`routerd`'s answer to a line `add` or `withdraw` of the console, as it is."""
        with self._lock:
            answer = self._ask(line)[0]
            added = ADDED.fullmatch(line)
            if added and answer in TAKEN:
                prefix = IPv4Network(added[1])
                one = Announcement(prefix, int(added[2]), int(added[3]), int(added[4]))
                self._wanted[Owner.CONSOLE][prefix] = one
                self._withdrawn.discard(prefix)
                self._note(Wanted(one, Owner.CONSOLE), answer)
                self._chosen = None
            elif answer == "withdrawn":
                self._withdrawn_by_hand(IPv4Network(line.split(" ")[1]))
            self._publish(dict(self._given), self._said)
        self.changed()
        return answer

    def _withdrawn_by_hand(self, prefix: IPv4Network) -> None:
        self._wanted[Owner.CONSOLE].pop(prefix, None)
        self._given.pop(prefix, None)
        if any(prefix in each for each in self._wanted.values()):
            self._withdrawn.add(prefix)
        self._chosen = None

    def started_anew(self, given: Mapping[IPv4Network, Announced] = MappingProxyType({})) -> None:
        """`routerd` was: it has these, and `give` brings all others."""
        with self._lock:
            self._given, self._chosen = dict(given), None
            self._again.clear()
            self._added.clear()
        self.changed()

    def ask_again(self) -> None:
        """The programs at `price` and `tag` are others: `give` lets them decide again on all that
        wasn't added by hand."""
        with self._lock:
            given = self._given.items()
            self._again |= {prefix for prefix, it in given if it.owner is not Owner.CONSOLE}
        self.changed()

    # -- what `routerd` has

    def give(self, now: float) -> float | None:
        """Brings `routerd` what is asked for, as far as it takes it. After how many seconds there
        is something to give again; None if there is nothing. `RouterGone` if it has ended."""
        with self._lock:
            self._refused, self._waiting = {}, 0
            added = self._added.items()
            self._added = {each: at for each, at in added if now - at < LEAST_INTERVAL}
            to_do = self._to_do()
        later = []
        for at, prefix in enumerate(to_do, 1):
            with self._lock:
                pause = self._bring(prefix, now)
                if at % PUBLISHED_EACH == 0:
                    self._tell()
            if pause is not None:
                later.append(pause)
            if self._refused.get(prefix, CLASHES) != CLASHES:
                self._waiting = len(to_do) - at
                later.append(TRIED_SOON if at > 1 else TRIED_AGAIN)
                break
        with self._lock:
            if self._left_out and self._room() > len(self._choice()):
                self._chosen = None
                later.append(0.0)
            self._tell()
        return min(later, default=None)

    def _to_do(self) -> list[IPv4Network]:
        """What isn't as it is to be: first what is to go."""
        chosen = self._choice()
        gone = [prefix for prefix in self._given if prefix not in chosen]
        return gone + [each for each in chosen if not self._is_right(each, chosen[each])]

    def _is_right(self, prefix: IPv4Network, wanted: Wanted) -> bool:
        given = self._given.get(prefix)
        is_there = given is not None and prefix not in self._again
        return is_there and (given.announcement, given.owner) == wanted

    def _bring(self, prefix: IPv4Network, now: float) -> float | None:
        """Brings one destination to `routerd`; after how many seconds it is to be tried again."""
        wanted, given = self._choice().get(prefix), self._given.get(prefix)
        if wanted is None:
            return self._withdraw(prefix) if given else None
        if given and given.announcement == wanted.announcement and prefix not in self._again:
            self._note(wanted, given.answer)
            return None
        pause = self._added.get(prefix, now - LEAST_INTERVAL) + LEAST_INTERVAL - now
        if wanted.owner.is_redistributed and pause > 0:
            return pause
        answer = self._ask(wanted.announcement.line())[0]
        if answer not in TAKEN:
            self._refused[prefix] = answer
            return TRIED_AGAIN
        self._added[prefix] = now
        self._again.discard(prefix)
        self._note(wanted, answer)
        return None

    def _withdraw(self, prefix: IPv4Network) -> float | None:
        answer = self._ask(f"withdraw {prefix}")[0]
        if answer != "withdrawn":
            self._refused[prefix] = answer
            return TRIED_AGAIN
        del self._given[prefix]
        self._again.discard(prefix)
        return None

    def _note(self, wanted: Wanted, answer: str) -> None:
        announcement, owner = wanted
        self._given[announcement.prefix] = Announced(announcement, answer, owner)

    # -- the choice

    def _choice(self) -> dict[IPv4Network, Wanted]:
        """What `routerd` is to have: of each address one, and no more than it takes. What it has
        stays before what came later."""
        if self._chosen is None:
            ones = self._one_of_each_address()
            room = self._room()
            if len(ones) > room:
                ones.sort(key=self._rank)
            self._left_out = ones[room:]
            self._chosen = {each.announcement.prefix: each for each in ones[:room]}
        return self._chosen

    def _room(self) -> int:
        """How many `routerd` may have: what it withholds takes no place of an LSA."""
        withheld = sum(each.answer == "withheld" for each in self._given.values())
        return min(MOST_EXTERNALS + withheld, MOST_GIVEN)

    def _one_of_each_address(self) -> list[Wanted]:
        found: dict[int, Wanted] = {}
        self._clashing = []
        for owner, announcements in self._wanted.items():
            for prefix, each in announcements.items():
                if owner is not Owner.CONSOLE and prefix in self._withdrawn:
                    continue
                one = Wanted(each, owner)
                other = found.setdefault(int(prefix.network_address), one)
                if other is one or other.announcement.prefix == prefix:
                    continue
                if owner is other.owner and prefix.prefixlen < other.announcement.prefix.prefixlen:
                    found[int(prefix.network_address)], one, other = one, other, one
                self._clashing.append((one, other))
        return list(found.values())

    def _rank(self, it: Wanted) -> tuple[bool, int, int]:
        prefix = it.announcement.prefix
        is_new = it.owner.is_redistributed and prefix not in self._given
        return is_new, it.owner, int(prefix.network_address)

    # -- what is told

    def _tell(self) -> None:
        """Publishes what `routerd` has taken, and logs what is new of what it hasn't."""
        said = tuple(self._lines())
        new = [each for each in said if each not in self._said]
        for line in self._limiter.passing("announcements", new, time.monotonic()) if new else ():
            log.warning("%s", line)
        if self._said and not said:
            log.info("all destinations are announced")
        self._said = said
        self._publish(dict(self._given), said)

    def _lines(self) -> list[str]:
        """What isn't announced, and why: some by their names, and how many more."""
        self._choice()
        lines = [self.trouble] if self.trouble else []
        for prefix, answer in list(self._refused.items())[:MOST_TOLD]:
            meaning = f": {MEANINGS[answer]}" if answer in MEANINGS else ""
            lines.append(f"{prefix} isn't announced: {answer}{meaning}")
        for one, other in self._clashing[:MOST_TOLD]:
            lines.append(
                f"{one.announcement.prefix} ({one.owner}) isn't announced: "
                f"{other.announcement.prefix} ({other.owner}) has its address"
            )
        for each in self._left_out[:MOST_TOLD]:
            lines.append(f"{each.announcement.prefix} ({each.owner}) isn't announced: {NO_PLACE}")
        more = self._waiting + sum(
            max(0, len(each) - MOST_TOLD)
            for each in (self._refused, self._clashing, self._left_out)
        )
        return lines + ([f"{more} more destinations aren't announced"] if more else [])
