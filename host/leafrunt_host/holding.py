"""A router-LSA of this router that brings a link is held back until the kernel has the routes that
come with it. Others turn to this router by it, some within milliseconds: what they send then is
passed on.

A link that goes is told at once, and nothing is held for longer than a moment.
"""
from __future__ import annotations

import time
from collections.abc import Callable
from contextlib import suppress
from dataclasses import dataclass, field

from leafrunt_host.lsas import LinkType, LsType, links_of
from leafrunt_host.packets import HEADER, Malformed, PacketType, lsas_of
from leafrunt_host.waker import Waker
from leafrunt_host.places import AGE, FLUSHED
from leafrunt_host.withheld import INSTANCE

LONGEST = 2.0
"""Seconds for which it is held at most, whatever the kernel does."""
MOST = 256
"""Datagrams that are held; with one more all go on."""
ROUTER_ID, TYPE = slice(4, 8), slice(1, 2)
"""In an OSPF packet's header (RFC 2328, A.3.1)."""
UPDATE = bytes([PacketType.LINK_STATE_UPDATE])
Links = frozenset[bytes]
Held = tuple[int, bytes]
"""A datagram of `routerd`, and the number of its interface."""


def own_router_lsa_in(data: bytes) -> bytes | None:
    """The router-LSA of its sender in an OSPF packet, if that is an Update that has one."""
    if data[TYPE] != UPDATE or 2 * data[ROUTER_ID] not in data:
        return None  # (such an LSA has it twice in a row)
    with suppress(Malformed):
        for lsa in lsas_of(data[HEADER.size :]):
            if lsa[3] == LsType.ROUTER and lsa[8:12] == data[ROUTER_ID]:
                return lsa
    return None


def links_to_routers(lsa: bytes) -> Links:
    """The links of a router-LSA to other routers, without their costs."""
    return frozenset(each[:9] for each in links_of(lsa) if each[8] == LinkType.POINT_TO_POINT)


@dataclass
class _Said:
    """What a router-LSA says of links."""

    instance: bytes = b""
    links: Links = field(default_factory=frozenset)


class Holding:
    """What is held. `looked` and `keeps` are called by the thread that keeps the kernel's table,
    all else by the bridge's, which waits at `fileno`."""

    def __init__(
        self, wake: Callable[[], None], clock: Callable[[], float] = time.monotonic
    ) -> None:
        """`wake` has the kernel's table looked at soon."""
        self._wake, self._clock = wake, clock
        self._waker = Waker()
        self._is_kept = False
        self._looked = float("-inf")
        self._passed, self._last = _Said(), _Said()
        self._held: list[Held] = []
        self._begun = self._since = 0.0
        """When the first of them came, and the first of the last instance."""

    def fileno(self) -> int:
        return self._waker.fileno()

    # -- of the kernel's table

    def keeps(self, is_kept: bool) -> None:
        """Whether the kernel's table is kept: else nothing has to be waited for."""
        self._is_kept = is_kept
        self._waker.wake()

    def looked(self, began: float) -> None:
        """The kernel has all routes that there were at that moment."""
        self._looked = began
        if self._held:
            self._waker.wake()

    # -- of the bridge

    def holds(self, number: int, data: bytes) -> bool:
        """Whether a datagram of `routerd` is held back; `released` has it later."""
        lsa = own_router_lsa_in(data)
        if lsa is None or lsa[INSTANCE] == self._passed.instance:
            return False
        said = _Said(lsa[INSTANCE], links_to_routers(lsa))
        if lsa[AGE] == FLUSHED or not self._is_kept or not said.links > self._passed.links:
            # (what is held is older, and `routerd` sends it again if a neighbor lacks it)
            self._passed, self._held = said, []
            return False
        if not self._held or said.instance != self._last.instance:
            self._since = self._clock()
            self._begun = self._begun if self._held else self._since
            self._wake()
        self._last = said
        self._held.append((number, data))
        return True

    def go_on(self) -> None:
        """Something came that may change the routes: it is looked at too."""
        if self._held:
            self._since = self._clock()
            self._wake()

    def is_over(self, is_waiting: bool = False) -> bool:
        """Whether something was held for long enough; `is_waiting` says that something else is to
        come before."""
        if not self._held:
            return False
        is_late = len(self._held) > MOST or self._clock() - self._begun > LONGEST
        return is_late or not self._is_kept or (self._looked > self._since and not is_waiting)

    def clear(self) -> None:
        """The wait is over."""
        self._waker.clear()

    def released(self) -> list[Held]:
        """All that is held: it goes on now."""
        held, self._held = self._held, []
        self._passed = self._last if held else self._passed
        return held
