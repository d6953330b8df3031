"""Another router has this router's Router ID: seen by router-LSAs of this ID, from the wire, that name
addresses or networks that this router never had.

One alone may be this router's own of before its start, which a neighbor kept (RFC 2328, 13.4): two
instances within a while are another router's. Both fight for the one LSA, and routes come and go.
"""
from __future__ import annotations

import logging
from collections.abc import Collection
from ipaddress import IPv4Address, IPv4Interface

from leafrunt_host.exchange import Side
from leafrunt_host.lsas import MAX_AGE, LinkType, LsType, is_whole, links_of
from leafrunt_host.packets import Malformed, Packet, PacketType, lsas_of

log = logging.getLogger("leafrunt.bridge")
SECONDS = 60.0
"""For so long after the last one it is told of."""
LEAST = 2
MOST_NAMED = 4
INSTANCE = slice(12, 18)
KIND, DATA = 8, slice(4, 8)
"""In a link of a router-LSA (A.4.2)."""


def places_in(lsa: bytes) -> set[bytes]:
    """The own addresses of a router's links to others, and its stub networks with their masks
    (12.4.1)."""
    links = list(links_of(lsa))
    return {each[:8] if each[KIND] == LinkType.STUB else each[DATA] for each in links}


def place_text(place: bytes) -> str:
    """One of them in words."""
    if len(place) == 4:
        return f"the address {IPv4Address(place)}"
    return f"the network {IPv4Address(place[:4])}/{int.from_bytes(place[4:], 'big').bit_count()}"


class Namesakes:
    """One thread's alone, but for `remark`."""

    def __init__(self, router_id: IPv4Address, addresses: Collection[IPv4Interface]) -> None:
        self._router_id = router_id
        self._key = bytes([LsType.ROUTER]) + 2 * router_id.packed
        networks = [each.network for each in addresses]
        self._own = {each.ip.packed for each in addresses}
        self._own |= {each.network_address.packed + each.netmask.packed for each in networks}
        self._seen: dict[bytes, float] = {}
        """The last instances that aren't this router's, and when each came."""
        self._named: tuple[str, ...] = ()
        self._told = float("-inf")

    def watch(self, side: Side, packet: Packet, now: float) -> None:
        """Takes note of a packet that passes."""
        if packet.type != PacketType.LINK_STATE_UPDATE or self._key not in packet.body:
            return
        try:
            lsas = [each for each in lsas_of(packet.body) if each[3:12] == self._key]
        except Malformed:
            return
        for each in lsas:
            if side is Side.ROUTER:
                self._of_router(each)
            else:
                self._of_wire(each, now)

    def _of_router(self, lsa: bytes) -> None:
        """(`routerd` floods another's instance on before it originates its own anew.)"""
        if lsa[INSTANCE] not in self._seen:
            self._own |= places_in(lsa)

    def _of_wire(self, lsa: bytes, now: float) -> None:
        others = places_in(lsa) - self._own
        is_gone = int.from_bytes(lsa[:2], "big") >= MAX_AGE
        if not others or is_gone or lsa[INSTANCE] in self._seen or not is_whole(lsa):
            return
        recent = {each: at for each, at in self._seen.items() if now - at < SECONDS}
        self._seen = {**dict(list(recent.items())[-MOST_NAMED:]), lsa[INSTANCE]: now}
        self._named = tuple(map(place_text, sorted(others, key=lambda it: (len(it), it))[:MOST_NAMED]))
        said = self.remark(now)
        if said and now - self._told >= SECONDS:
            self._told = now
            log.error("%s", said)

    def remark(self, now: float) -> str | None:
        """What is to be said of it; None if there is none."""
        recent = [at for at in self._seen.values() if now - at < SECONDS]
        if len(recent) < LEAST:
            return None
        return (
            f"another router has this Router ID, {self._router_id}: its router-LSA came with "
            f"{', '.join(self._named)}, which this router doesn't have. Routes come and go at every "
            "router until one of both gets another Router ID"
        )
