"""This router's own LSAs that come back at MaxAge: what was flushed before is kept by a neighbor
until nobody waits for it (RFC 2328, 14), and by FRR for a minute, and answers each instance that
this router originates meanwhile and that isn't newer.

Then this router has to go one past its number (13.4). `routerd` does so if it may originate at
once. Within MinLSInterval of its last instance it has to wait: what came is removed meanwhile,
since it is at MaxAge, its number is forgotten, and the next instance begins where the last one
did, without an end. So what comes within that time waits until that is over (`arrivals`).
"""
from __future__ import annotations

from collections.abc import Iterable

from leafrunt_host.lsas import MAX_AGE, LsType, is_newer, is_whole
from leafrunt_host.places import AGE, FLUSHED, KEY, Key
from leafrunt_host.withheld import INSTANCE

MIN_LS_INTERVAL = 5.0
SECONDS_REPLACED = 10.0
"""For so long `routerd` may take to originate its own anew: a flush is acknowledged first."""
SECONDS_CALCULATED = 1.0
"""After that `table` has the routes again."""
ORIGIN = slice(8, 12)
"""The advertising router in an LSA's header."""


class OwnLsas:
    """The last instances that `routerd` has originated, and when. One thread's alone."""

    def __init__(self, begun: float = float("-inf")) -> None:
        """`routerd` was started then: what it originated at its start isn't sent before somebody
        asks for it."""
        self._begun = begun
        self._sent: dict[Key, tuple[bytes, float]] = {}
        self._foreign = b""
        """The instance that stands in its place, which `routerd` floods before it flushes it."""
        self._doubtful_until = float("-inf")

    def is_in_doubt(self, now: float) -> bool:
        """Whether `table` may lack routes since the own router-LSA isn't this router's. Any thread
        may ask."""
        return now < self._doubtful_until

    def came(self, router_id: bytes, lsa: bytes, now: float) -> None:
        """Notes an LSA of a neighbor's Update."""
        if lsa[KEY] != bytes([LsType.ROUTER]) + 2 * router_id or self._foreign:
            return
        instance, _ = self._sent.get(lsa[KEY], (b"", 0.0))
        age = int.from_bytes(lsa[AGE], "big")
        is_new = not instance or is_newer(lsa, bytes(12) + instance, min(age, MAX_AGE), 0)
        if is_new and is_whole(lsa):
            self._foreign, self._doubtful_until = lsa[INSTANCE], now + SECONDS_REPLACED

    def sent(self, router_id: bytes, lsas: Iterable[bytes], now: float) -> None:
        """Notes what `routerd` sends: a new instance, or that one is flushed."""
        for lsa in lsas:
            if lsa[ORIGIN] != router_id:
                continue
            key, instance = lsa[KEY], lsa[INSTANCE]
            if lsa[AGE] == FLUSHED:
                self._sent.pop(key, None)
            elif key not in self._sent or self._sent[key][0] != instance:
                self._sent[key] = instance, now
                if key[0] == LsType.ROUTER and self._foreign not in (b"", instance):
                    self._foreign, self._doubtful_until = b"", now + SECONDS_CALCULATED

    def early_until(self, router_id: bytes, lsa: bytes) -> float:
        """Until when an LSA of a neighbor's Update is one that `routerd` would have to wait for."""
        if lsa[AGE] != FLUSHED or lsa[ORIGIN] != router_id:
            return float("-inf")
        _, moment = self._sent.get(lsa[KEY], (b"", self._begun))
        return moment + MIN_LS_INTERVAL
