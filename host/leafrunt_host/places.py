"""The places of `routerd`'s link-state database: those that are filled, by what it acknowledged and
sent, and the LSAs that it was given a moment ago. It refuses an Update that would bring more.

No link's LSAs keep those of another out. Where there are several links, one may fill 15 of 16 of
the places that are free or its own, so one alone can bring a whole area. Of what is free for a
link, each has a part for LSAs that `routerd` hasn't acknowledged yet: it discards those with a
wrong checksum (RFC 2328, 13 (1)), of which any number may come. What it doesn't acknowledge within
seconds takes no place any more.
"""
from __future__ import annotations

from collections.abc import Iterable
from enum import Enum, auto
from itertools import takewhile
from typing import NamedTuple
from weakref import WeakSet

from leafrunt_host.lsas import MAX_AGE, LsType
from leafrunt_host.packets import LSA_HEADER_LENGTH

MOST_LSAS = 16_384
KEPT_FREE = 64
"""Of these for what this router originates itself."""
NO_EXTERNALS = 1_024
"""Of these for LSAs of the area."""
KEPT_FOR_OTHERS = 16
"""One of so many places that are free or a link's own is for those of other links."""
SECONDS_GIVEN = 10.0
"""`routerd` acknowledges an LSA within a second or two (13.5), or not at all."""
SWEPT_EACH = 1.0
AGE, KEY = slice(0, 2), slice(3, 12)
FLUSHED = MAX_AGE.to_bytes(2, "big")
Key = bytes
"""LS type, Link State ID and advertising router, as in an LSA's header."""


class Vacancy(Enum):
    """Whether an LSA has a place: now, once others have been acknowledged, or not at all."""

    FREE = auto()
    LATER = auto()
    NONE = auto()


class Share:
    """How many places one link's LSAs have filled, and how many of its were given to `routerd` and
    not acknowledged yet."""

    def __init__(self) -> None:
        self.filled = self.given = 0


class _Place(NamedTuple):
    share: Share
    moment: float
    """When the LSA came last, or was given."""


class Places:
    """Of all links together. One thread's alone."""

    def __init__(self, most: int = MOST_LSAS - KEPT_FREE, no_externals: int = 0) -> None:
        """`no_externals` of these places no AS-external-LSA takes: without a router-LSA on the way
        no destination is reached."""
        self._most, self._most_externals = most, most - no_externals
        self._filled: dict[Key, _Place] = {}
        self._given: dict[Key, _Place] = {}
        self._links: WeakSet[object] = WeakSet()
        self._own = Share()
        self._swept = float("-inf")

    def __len__(self) -> int:
        return len(self._filled)

    def share(self, link: object) -> Share:
        """A new link's, which counts as one until it is gone."""
        self._links.add(link)
        return Share()

    def has(self, key: Key) -> bool:
        """Whether `routerd` has that LSA, or was given it."""
        return key in self._filled or key in self._given

    def free(self, mine: Share, is_external: bool = True) -> int:
        """How many places a link's LSAs may still fill."""
        free = (self._most_externals if is_external else self._most) - len(self._filled)
        others = (mine.filled + free) // KEPT_FOR_OTHERS if len(self._links) > 1 else 0
        return max(0, free - others)

    def room(self, key: Key, mine: Share, now: float) -> Vacancy:
        """Whether an LSA of that link has a place."""
        if self.has(key):
            return Vacancy.FREE
        room = self._room(key, mine)
        if room is not Vacancy.FREE and self.sweep(now):
            room = self._room(key, mine)
        return room

    def _room(self, key: Key, mine: Share) -> Vacancy:
        free, links = self.free(mine, key[0] == LsType.EXTERNAL), len(self._links)
        if not free:
            return Vacancy.NONE
        is_within = mine.given < max(1, free if links == 1 else free // (2 * links))
        return Vacancy.FREE if is_within or len(self._given) < free // 2 else Vacancy.LATER

    def give(self, lsa: bytes, mine: Share, now: float) -> None:
        """Notes an LSA of that link that `routerd` is given."""
        key = lsa[KEY]
        if lsa[AGE] != FLUSHED and not self.has(key):
            self._given[key] = _Place(mine, now)
            mine.given += 1

    def acknowledged(self, headers: Iterable[bytes], mine: Share, now: float) -> None:
        """Notes LSAs that `routerd` acknowledges at that link."""
        for each in headers:
            self._is(each, mine, now)

    def sent(self, lsas: Iterable[bytes], now: float) -> None:
        """Notes what `routerd` sends: what it floods, originates or flushes."""
        for each in lsas:
            self._is(each[:LSA_HEADER_LENGTH], self._own, now)

    def _is(self, header: bytes, mine: Share, now: float) -> None:
        """`routerd` has the LSA with this header, or, at MaxAge, has it no more."""
        key = header[KEY]
        given = self._given.pop(key, None)
        if given:
            given.share.given -= 1
        before = self._filled.pop(key, None)
        share = before.share if before else given.share if given else mine
        if before:
            share.filled -= 1
        if header[AGE] != FLUSHED:
            self._filled[key] = _Place(share, now)
            share.filled += 1

    def sweep(self, now: float) -> bool:
        """Forgets LSAs that `routerd` hasn't acknowledged in time, and those that weren't refreshed
        and so have reached MaxAge (14); whether some may have gone."""
        if now - self._swept < SWEPT_EACH:
            return False
        self._swept, before = now, len(self._given) + len(self._filled)
        for key in older_than(now - SECONDS_GIVEN, self._given):
            self._given.pop(key).share.given -= 1
        for key in older_than(now - MAX_AGE, self._filled):
            self._filled.pop(key).share.filled -= 1
        return len(self._given) + len(self._filled) < before


def older_than(moment: float, places: dict[Key, _Place]) -> list[Key]:
    """The keys from before a moment, of places that stand in their order."""
    old = takewhile(lambda each: each[1].moment < moment, places.items())
    return [key for key, _ in old]
