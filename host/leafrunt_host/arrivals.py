"""LSAs that come before `routerd` can take them: they would come again after the neighbor's
RxmtInterval, and wait here for less than that, of several instances the newest one.

A router-LSA that comes within MinLSArrival of its last instance `routerd` discards (RFC 2328, 13,
step 5a), when others have gone by it for seconds: it waits for a second at most. An own LSA that
comes back flushed waits for MinLSInterval (`own_lsas`).
"""
from __future__ import annotations

from collections.abc import Iterator
from dataclasses import replace
from typing import NamedTuple

from leafrunt_host.lsas import INSTANCE, LsType, is_whole
from leafrunt_host.packets import Packet

MIN_LS_ARRIVAL = 1.0
MOST, MOST_KEPT = 1_024, 4_096
"""Router-LSAs of which notes are kept, and of those that wait; and others that do."""
KEY = slice(3, 12)
Instance = tuple[int, ...]
"""Sequence number and checksum."""


def instance_of(lsa: bytes) -> Instance:
    return INSTANCE.unpack_from(lsa, 12)


def alone(update: Packet, lsa: bytes) -> Packet:
    """An Update with this LSA of it."""
    return replace(update, body=(1).to_bytes(4, "big") + lsa)


class _Given(NamedTuple):
    instance: Instance
    moment: float


class _Waiting(NamedTuple):
    number: int
    update: Packet
    lsa: bytes


class Arrivals:
    """What `routerd` was given when, of all links. The bridge's thread alone."""

    def __init__(self) -> None:
        self._given: dict[bytes, _Given] = {}
        self._waiting: dict[bytes, _Waiting] = {}
        self._kept: dict[bytes, tuple[float, _Waiting]] = {}
        """Until when others wait."""

    @property
    def is_waiting(self) -> bool:
        """Whether a router-LSA does."""
        return bool(self._waiting)

    def __bool__(self) -> bool:
        return bool(self._waiting or self._kept)

    def keep(self, number: int, update: Packet, lsa: bytes, until: float) -> None:
        """An LSA that `routerd` is to be given at that moment; of several instances the newest."""
        key, (_, before) = lsa[KEY], self._kept.get(lsa[KEY], (0.0, None))
        is_newer = before is None or instance_of(before.lsa) < instance_of(lsa)
        if is_newer and is_whole(lsa) and (before or len(self._kept) < MOST_KEPT):
            self._kept[key] = until, _Waiting(number, alone(update, lsa), lsa)

    def waits(self, number: int, update: Packet, lsa: bytes, now: float) -> bool:
        """Whether an LSA of an Update at that interface has to wait. One that hasn't is given to
        `routerd` now. A wrong checksum keeps no other instance waiting: `routerd` discards it."""
        if lsa[3] != LsType.ROUTER or not is_whole(lsa):
            return False
        key, instance = lsa[KEY], instance_of(lsa)
        given = self._given.get(key)
        if given and instance <= given.instance:
            return False
        if given is None or now - given.moment >= MIN_LS_ARRIVAL:
            self._give(key, instance, now)
            return False
        waiting = self._waiting.get(key)
        if waiting is None and len(self._waiting) >= MOST:
            return False
        if waiting is None or instance_of(waiting.lsa) < instance:
            self._waiting[key] = _Waiting(number, alone(update, lsa), lsa)
        return True

    def _give(self, key: bytes, instance: Instance, now: float) -> None:
        self._waiting.pop(key, None)
        self._given.pop(key, None)
        while len(self._given) >= MOST:
            del self._given[next(iter(self._given))]
        self._given[key] = _Given(instance, now)

    def due(self, now: float) -> Iterator[tuple[int, Packet]]:
        """What has waited, each by its interface's number, in an Update of the neighbor's."""
        for key, (number, update, lsa) in list(self._waiting.items()):
            given = self._given.get(key)
            if given is None or now - given.moment >= MIN_LS_ARRIVAL:
                self._give(key, instance_of(lsa), now)
                yield number, update
        for key, (until, waiting) in list(self._kept.items()):
            if now >= until:
                del self._kept[key]
                yield waiting.number, waiting.update
