"""How a box leaves the network without a loss: the neighbors turn away while the kernel forwards.

A last instance of the router-LSA has no link to another router (RFC 2328, 12.4.1). So no router
of the area has a way through this one, whatever its neighbors still say of their links, and none
has to wait for MinLSInterval to say so. The kernel's routes stay until all have calculated their
routes anew; then the neighbors are told by Hellos, and the routes go.

It isn't flushed (14.1): a router may keep the flushed instance for a minute, as FRR does, and
answers with it what a box originates that is started again meanwhile.
"""
from __future__ import annotations

import threading
import time
from ipaddress import IPv4Address

from leafrunt_host.bridge import Bridge
from leafrunt_host.lsas import (
    HEADER,
    INSTANCE,
    LINKS,
    MAX_AGE,
    LinkType,
    LsType,
    links_of,
    sealed,
)
from leafrunt_host.status import Known
from leafrunt_host.topology import Topology

TIMES = 3
BETWEEN = 0.6
"""Seconds between two of them: one alone may be lost, and a router doesn't take an LSA within a
second of the last one (MinLSArrival)."""
SECONDS_TO_TURN = 3.0
"""For which the kernel's routes stay. BIRD calculates within a second; FRR at once, and after
several changes within some seconds more slowly."""
AT_INSTANCE, MAX_SEQUENCE = 12, 0x7FFF_FFFF


def without_links(lsa: bytes) -> bytes:
    """The next instance of a router-LSA, with its links to stub networks alone. After
    MaxSequenceNumber there is none: then the same one with the age MaxAge, which its checksum
    doesn't cover (12.1.7)."""
    sequence, _ = INSTANCE.unpack_from(lsa, AT_INSTANCE)
    if sequence == MAX_SEQUENCE:
        return MAX_AGE.to_bytes(2, "big") + lsa[2:]
    stubs = [each for each in links_of(lsa) if each[8] == LinkType.STUB]
    body = lsa[HEADER.size : LINKS - 2] + len(stubs).to_bytes(2, "big") + b"".join(stubs)
    length = (HEADER.size + len(body)).to_bytes(2, "big")
    head = bytes(2) + lsa[2:AT_INSTANCE] + (sequence + 1).to_bytes(4, "big", signed=True)
    return sealed(head + bytes(2) + length + body)


def own_router_lsa(topology: Topology, router_id: IPv4Address) -> list[bytes]:
    """This router's router-LSA; none if it isn't known."""
    return [
        entry.data
        for header, entry in topology.entries()
        if header.key.type == LsType.ROUTER and header.key.router == router_id
    ]


def is_between(known: Known) -> bool:
    """Whether others may send packets through this router: it forwards, and has two neighbors."""
    full = [each for each in known.neighbors.values() if each.state == "Full"]
    return known.configuration.kernel and len(full) > 1


def turn_away(
    known: Known, bridge: Bridge, topology: Topology, hurried: threading.Event
) -> float:
    """Lets the network turn away, and waits until it has; the seconds that it took. `routerd` must
    have ended. Once `hurried` is set nothing is waited for any more."""
    began = time.monotonic()
    lsas = [without_links(each) for each in own_router_lsa(topology, known.configuration.router_id)]
    for _ in range(TIMES):
        bridge.flood(lsas)
        if not is_between(known) or hurried.wait(BETWEEN):
            return time.monotonic() - began
    hurried.wait(max(0.0, began + SECONDS_TO_TURN - time.monotonic()))
    return time.monotonic() - began
