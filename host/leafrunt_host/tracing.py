"""What the log has at the level debug: each OSPF packet at an interface, in a bounded number of
lines."""
from __future__ import annotations

import logging
from ipaddress import IPv4Address

from leafrunt_host.observing import Limiter
from leafrunt_host.packets import (
    LSA_HEADER_LENGTH,
    Description,
    Flags,
    Hello,
    Packet,
    PacketType,
)

log = logging.getLogger("leafrunt.packets")
MOST_LINES, SECONDS = 50, 1.0
"""This many lines of an interface within this many seconds: how many more there were is told."""
REQUEST_LENGTH = 12
TITLES = {
    PacketType.HELLO: "Hello",
    PacketType.DATABASE_DESCRIPTION: "Database Description",
    PacketType.LINK_STATE_REQUEST: "Link State Request",
    PacketType.LINK_STATE_UPDATE: "Link State Update",
    PacketType.LINK_STATE_ACKNOWLEDGMENT: "Link State Acknowledgment",
}


def described(packet: Packet) -> str:
    """A packet that was read before, in words: its kind, and how much it has."""
    title, body = TITLES[packet.type], packet.body
    match packet.type:
        case PacketType.HELLO:
            named = ", ".join(map(str, Hello.decode(body).neighbors[:4])) or "nobody"
            return f"{title} that names {named}"
        case PacketType.DATABASE_DESCRIPTION:
            said = Description.decode(body)
            flags = "".join(f"{each.name} " for each in Flags if said.has(each)).lower()
            return f"{title}, {flags}sequence {said.sequence}, {len(said.headers)} LSA headers"
        case PacketType.LINK_STATE_REQUEST:
            return f"{title}, {len(body) // REQUEST_LENGTH} LSAs"
        case PacketType.LINK_STATE_UPDATE:
            return f"{title}, {int.from_bytes(body[:4], 'big')} LSAs"
        case PacketType.LINK_STATE_ACKNOWLEDGMENT:
            return f"{title}, {len(body) // LSA_HEADER_LENGTH} LSA headers"


class Tracer:
    """Tells of the packets of one interface."""

    def __init__(self, name: str) -> None:
        self._name = name
        self._limiter = Limiter(MOST_LINES, SECONDS)

    def received(self, packet: Packet, source: IPv4Address, now: float) -> None:
        """A packet that was taken."""
        if log.isEnabledFor(logging.DEBUG):
            self._tell(f"{packet.router_id} ({source}): received {described(packet)}", now)

    def sent(self, packet: Packet, now: float) -> None:
        """A packet of `routerd`."""
        if log.isEnabledFor(logging.DEBUG):
            self._tell(f"sent {described(packet)}", now)

    def refused(self, source: IPv4Address, why: object, now: float) -> None:
        """A packet that doesn't count."""
        if log.isEnabledFor(logging.DEBUG):
            self._tell(f"{source}: refused a packet: {why}", now)

    def _tell(self, said: str, now: float) -> None:
        for line in self._limiter.passing(self._name, [f"{self._name}: {said}"], now):
            log.debug("%s", line)
