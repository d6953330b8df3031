"""A neighbor's part, played to a `routerd` that is begun beside the one that runs: so it comes to
Full, with the whole database, before it takes that one's place, and no neighbor notices anything.

The proxy says what the neighbor would say (RFC 2328, 10.5 to 10.8 and 13): Hellos that name this
router, Database Descriptions of the LSAs that the neighbor has, but for this router's own, and the
LSAs that are asked for. It acknowledges the instances that it has described and no others: those
`routerd` sends again until the neighbor itself has them.
"""
from __future__ import annotations

from collections import deque
from collections.abc import Iterable, Mapping
from ipaddress import IPv4Address

from leafrunt_host.exchange import ROUTER_ROOM, WRAP
from leafrunt_host.owed import instance_of
from leafrunt_host.packets import (
    LSA_HEADER_LENGTH,
    REQUEST_LENGTH,
    ROUTER_MTU,
    Description,
    Flags,
    Hello,
    Packet,
    PacketType,
    chunks,
    cut,
    lsas_of,
)

KEY, ORIGIN = slice(3, 12), slice(8, 12)
FIRST_SEQUENCE = 1 << 20
Key = bytes
"""LS type, Link State ID and advertising router, as in an LSA's header."""


class Proxy:
    """What is answered to each packet of `routerd` at one interface."""

    def __init__(self, hello: Packet, lsas: Mapping[Key, bytes], own: IPv4Address) -> None:
        """The neighbor's last Hello; its LSAs with their ages of now; this router's Router ID."""
        self._hello, self._lsas, self._own = hello, lsas, own
        self._headers = deque(
            each[:LSA_HEADER_LENGTH] for each in lsas.values() if each[ORIGIN] != own.packed
        )
        self._rest: deque[bytes] = deque()
        self._said: Description | None = None
        """Its last Description."""
        self._is_master = hello.router_id > own

    @property
    def router_id(self) -> IPv4Address:
        return self._hello.router_id

    def heard(self, packet: Packet) -> list[bytes]:
        """The datagrams that the neighbor would answer with."""
        match packet.type:
            case PacketType.HELLO:
                return [self._hello.encode()]
            case PacketType.DATABASE_DESCRIPTION:
                return self._described(Description.decode(packet.body))
            case PacketType.LINK_STATE_REQUEST:
                keys = [each[KEY] for each in chunks(packet.body, REQUEST_LENGTH)]
                return self.update(self._lsas[each] for each in keys if each in self._lsas)
            case PacketType.LINK_STATE_UPDATE:
                return self._acknowledged(lsas_of(packet.body))
        return []

    def update(self, lsas: Iterable[bytes]) -> list[bytes]:
        """These LSAs, as Updates of the neighbor."""
        found = list(lsas)
        if not found:
            return []
        body = len(found).to_bytes(4, "big") + b"".join(found)
        return self._packets(PacketType.LINK_STATE_UPDATE, body)

    def _acknowledged(self, lsas: list[bytes]) -> list[bytes]:
        known = [each[:LSA_HEADER_LENGTH] for each in lsas if self.has_described(each)]
        return self._packets(PacketType.LINK_STATE_ACKNOWLEDGMENT, b"".join(known)) if known else []

    def has_described(self, lsa: bytes) -> bool:
        """Whether it's an instance that it acknowledges."""
        described = self._lsas.get(lsa[KEY], b"")
        is_it = instance_of(described) == instance_of(lsa) if described else False
        return is_it and lsa[ORIGIN] != self._own.packed

    def _packets(self, kind: PacketType, body: bytes) -> list[bytes]:
        packet = Packet(kind, self._hello.router_id, self._hello.area, body)
        return [each.encode() for each in cut(packet, ROUTER_MTU)]

    # -- the Database Exchange (10.6, 10.8)

    def _described(self, came: Description) -> list[bytes]:
        if came.has(Flags.I):
            self._rest = self._headers.copy()
            if self._is_master:
                return self._describes(Flags.I | Flags.M | Flags.MS, FIRST_SEQUENCE)
            return self._describes(Flags(0), came.sequence, self._next())
        said = self._said
        if said is None or came.has(Flags.MS) is self._is_master:
            return []
        if self._is_master:
            return self._asks(came, said)
        if came.sequence == said.sequence:
            return self._describes(said.flags, said.sequence, said.headers)
        return self._describes(Flags(0), came.sequence, self._next())

    def _asks(self, came: Description, said: Description) -> list[bytes]:
        """The master's next question, until both have said all."""
        if came.sequence != said.sequence or not (said.has(Flags.M) or came.has(Flags.M)):
            return []
        return self._describes(Flags.MS, (said.sequence + 1) % WRAP, self._next())

    def _next(self) -> tuple[bytes, ...]:
        count = min(ROUTER_ROOM, len(self._rest))
        return tuple(self._rest.popleft() for _ in range(count))

    def _describes(
        self, flags: Flags, sequence: int, headers: tuple[bytes, ...] = ()
    ) -> list[bytes]:
        options = Hello.decode(self._hello.body).options
        said = Description(ROUTER_MTU, options, flags, sequence, headers)
        self._said = said if said.has(Flags.I) else said.with_more(bool(self._rest))
        return self._packets(PacketType.DATABASE_DESCRIPTION, self._said.encode())
