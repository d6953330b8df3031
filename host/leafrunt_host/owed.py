"""What two neighbors owe each other, counted by what passes between them (RFC 2328): LSAs that
one has sent and the other hasn't acknowledged (13.5, 13.7), and LSAs that one has asked for and
the other hasn't sent (10.9). Once nobody owes anything they are at rest: each has what the other
one has, but for what docs/use/OPERATING.md, "Neighbors that differ", says.
"""
from __future__ import annotations

from collections.abc import Iterable
from dataclasses import dataclass, field
from typing import NamedTuple

from leafrunt_host.exchange import Side
from leafrunt_host.lsas import INSTANCE, MAX_AGE
from leafrunt_host.packets import (
    LSA_HEADER_LENGTH,
    REQUEST_LENGTH,
    Description,
    Flags,
    Packet,
    PacketType,
    chunks,
    lsas_of,
)

KEY = slice(3, 12)
FLUSHED = MAX_AGE.to_bytes(2, "big")
SECONDS_AGAIN = 60.0
"""A neighbor that hasn't sent an LSA again for so long waits for no acknowledgment: `routerd` never
acknowledges one with a wrong checksum."""
MOST = 20_000
"""LSAs that are kept account of each way: the oldest ones are forgotten."""
Instance = tuple[int, int, bool]


def instance_of(header: bytes) -> Instance:
    """The older of two instances of an LSA is the smaller one: by sequence number, checksum, and
    whether it is flushed (RFC 2328, 13.1)."""
    sequence, checksum = INSTANCE.unpack_from(header, 12)
    return sequence, checksum, header[:2] == FLUSHED


@dataclass
class _End:
    """What one of the two waits for, by the keys of LSAs."""

    unacknowledged: dict[bytes, Instance] = field(default_factory=dict)
    """The instances that it has sent."""
    sent: dict[bytes, float] = field(default_factory=dict)
    """When each of them was sent last."""
    asked: set[bytes] = field(default_factory=set)

    @property
    def count(self) -> int:
        return len(self.unacknowledged) + len(self.asked)

    def clear(self) -> None:
        self.unacknowledged.clear()
        self.sent.clear()
        self.asked.clear()

    def forget(self, before: float) -> None:
        """What wasn't sent again since that moment isn't waited for."""
        if self.unacknowledged:
            self.sent = {
                key: moment
                for key, moment in self.sent.items()
                if moment >= before and key in self.unacknowledged
            }
            kept = self.unacknowledged.items()
            self.unacknowledged = {key: its for key, its in kept if key in self.sent}


class Debts(NamedTuple):
    """How many acknowledgments and LSAs each owes the other."""

    acknowledgments_of_neighbor: int
    lsas_of_neighbor: int
    acknowledgments_of_router: int
    lsas_of_router: int

    def __str__(self) -> str:
        said = []
        names = ("it owes", *self[:2]), ("this router owes it", *self[2:])
        for who, acknowledgments, lsas in names:
            parts = [
                f"{count} {what}{'' if count == 1 else 's'}"
                for count, what in ((acknowledgments, "acknowledgment"), (lsas, "requested LSA"))
                if count
            ]
            said += [f"{who} {' and '.join(parts)}"] if parts else []
        return ", ".join(said)


class Owed:
    """Of one link."""

    def __init__(self) -> None:
        self._ends = {Side.ROUTER: _End(), Side.WIRE: _End()}
        self._waited: float | None = None

    def passed(self, side: Side, packet: Packet, now: float) -> None:
        """A packet that one of them has sent."""
        was_waiting = self.is_waiting
        self._note(side, packet, now)
        if was_waiting or self.is_waiting:
            self._waited = now

    def _note(self, side: Side, packet: Packet, now: float) -> None:
        mine, other = self._ends[side], self._ends[side.other]
        if packet.type == PacketType.LINK_STATE_UPDATE:
            _sent(mine, other, lsas_of(packet.body), now)
        elif packet.type == PacketType.HELLO and side is Side.ROUTER:
            other.forget(now - SECONDS_AGAIN)
        elif packet.type == PacketType.LINK_STATE_ACKNOWLEDGMENT:
            for header in chunks(packet.body, LSA_HEADER_LENGTH):
                sent = other.unacknowledged.get(header[KEY])
                if sent and len(header) == LSA_HEADER_LENGTH and sent == instance_of(header):
                    del other.unacknowledged[header[KEY]]
        elif packet.type == PacketType.LINK_STATE_REQUEST:
            if len(mine.asked) < MOST:
                mine.asked |= {each[KEY] for each in chunks(packet.body, REQUEST_LENGTH)}
        elif packet.type == PacketType.DATABASE_DESCRIPTION:
            if Description.decode(packet.body).has(Flags.I):
                self.clear()

    def acknowledged(self, headers: Iterable[bytes], now: float) -> None:
        """The box has acknowledged these in `routerd`'s place."""
        for header in headers:
            self._ends[Side.WIRE].unacknowledged.pop(header[KEY], None)
        self._waited = now

    def clear(self) -> None:
        """The adjacency is gone, or begins anew (10.3): the lists are empty."""
        for each in self._ends.values():
            each.clear()

    @property
    def is_waiting(self) -> bool:
        return any(each.unacknowledged or each.asked for each in self._ends.values())

    @property
    def debts(self) -> Debts:
        router, neighbor = self._ends[Side.ROUTER], self._ends[Side.WIRE]
        return Debts(
            *(len(router.unacknowledged), len(router.asked)),
            *(len(neighbor.unacknowledged), len(neighbor.asked)),
        )

    @property
    def by_neighbor(self) -> set[bytes]:
        """The keys of the LSAs that the router has sent and the neighbor hasn't acknowledged."""
        return set(self._ends[Side.ROUTER].unacknowledged)

    @property
    def waited(self) -> float | None:
        """When one of them owed something last."""
        return self._waited


def _sent(mine: _End, other: _End, lsas: Iterable[bytes], now: float) -> None:
    """An Update: its LSAs are to be acknowledged, but for those that were asked for (13, 10.7); and
    they acknowledge those that the other end has sent (13, step 7a)."""
    for lsa in lsas:
        key, instance = lsa[KEY], instance_of(lsa)
        theirs = other.unacknowledged.get(key)
        if theirs is not None and instance >= theirs:
            del other.unacknowledged[key]
        if key in other.asked:
            other.asked.discard(key)
        elif theirs != instance:
            if len(mine.unacknowledged) >= MOST:
                oldest = next(iter(mine.unacknowledged))
                del mine.unacknowledged[oldest], mine.sent[oldest]
            mine.unacknowledged[key], mine.sent[key] = instance, now
