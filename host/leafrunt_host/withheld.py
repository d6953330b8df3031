"""LSAs that `routerd` can't have, and a box must not wait for: those that it doesn't read
(docs/reference/PACKETS.md, "Refusals of `read`"), those above its limit of LSAs, and those that it doesn't
take for a reason that isn't known here.

Other routers may hold such an LSA and describe it. `routerd` would ask for it again and again, and
stay in Loading, with no route. So it is acknowledged to the neighbor and never passed on, and its
header is left out of the neighbor's Descriptions. If `routerd` asks for one already, the Database
Exchange is begun anew.
"""
from __future__ import annotations

import struct
from collections.abc import Iterable, Iterator
from dataclasses import dataclass
from ipaddress import IPv4Address
from itertools import takewhile

from leafrunt_host.lsas import MAX_AGE, LsType, is_whole
from leafrunt_host.packets import (
    HEADER,
    LSA_HEADER_LENGTH,
    REQUEST_LENGTH,
    ROUTER_MTU,
    Packet,
    PacketType,
    chunks,
    lsas_of,
)
from leafrunt_host.places import AGE, FLUSHED, KEY, MOST_LSAS, Key, Places, Vacancy

LONGEST_LSA = ROUTER_MTU - HEADER.size - 4
"""What has room in an Update that `routerd` reads."""
ROOM_AGAIN = 512
"""This many LSAs must have room before those that were withheld are asked for."""
SECONDS_BETWEEN = 5.0
"""Between two exchanges that are begun anew on one link at least."""
STUCK_AFTER = 3.5
"""Seconds for which `routerd` has asked in vain: meanwhile the other LSAs come."""
LONG_ASKED = 10.0
"""Seconds after which it is told what `routerd` asks for, and within which it asks again."""
GIVEN_IN_VAIN = 5
"""`routerd` was given an LSA so often, and asks for it again: it doesn't take it."""
MOST_ABOVE = 65_536
"""Of those above the limit this many are known, whatever a neighbor sends."""
LIMIT_TOLD_EACH = 60.0
"""Seconds after which the log says again that there are some."""
MOST_KEPT = 1024
"""LSAs that aren't read of which a link keeps notes."""
MOST_TOLD = 4
RESERVED = 0x8000_0000
"""12.1.6: no LSA has this sequence number."""
HEAD = struct.Struct(">HBB4s4sIHH")
ROUTER_LINK = struct.Struct(">8xBBH")
INSTANCE = slice(12, 18)


def header_fault(header: bytes) -> str | None:
    """Why `routerd` doesn't read an LSA with this header, as half a sentence; None if it may."""
    age, _, kind, _, _, sequence, _, length = HEAD.unpack_from(header)
    if not LsType.ROUTER <= kind <= LsType.EXTERNAL:
        return f"its type {kind} is none of area 0.0.0.0's usual ones"
    if age > MAX_AGE:
        return f"its age {age} is above MaxAge, {MAX_AGE}"
    if sequence == RESERVED:
        return "its sequence number 0x80000000 is reserved (RFC 2328, 12.1.6)"
    if length > LONGEST_LSA:
        links = (length - LSA_HEADER_LENGTH - 4) // ROUTER_LINK.size
        lost = f": none of this router's {links} links counts" * (kind == LsType.ROUTER)
        return f"it has {length} bytes, and at most {LONGEST_LSA} are read{lost}"
    return None


def body_fault(lsa: bytes) -> str | None:
    """The same of an LSA's body."""
    body = lsa[LSA_HEADER_LENGTH:]
    kind, length = lsa[3], len(body)
    if kind == LsType.EXTERNAL:
        if length < 16 or (length - 16) % 12:
            return f"its body of {length} bytes isn't filled"
        return None if body[4] in (0, 0x80) else f"the first byte of its metric is {body[4]:#04x}"
    if kind == LsType.ROUTER:
        return router_fault(body)
    if kind == LsType.NETWORK:
        return None if length >= 4 and not length % 4 else f"its body of {length} bytes isn't filled"
    if length < 8 or length % 4:
        return f"its body of {length} bytes isn't filled"
    return None if not body[4] else f"the byte before its metric is {body[4]:#04x}"


def router_fault(body: bytes) -> str | None:
    """The same of a router-LSA's body."""
    if len(body) < 4:
        return f"its body of {len(body)} bytes isn't filled"
    if body[1]:
        return f"its reserved byte is {body[1]:#04x}"
    at = 4
    for _ in range(int.from_bytes(body[2:4], "big")):
        if at + ROUTER_LINK.size > len(body):
            return f"its body of {len(body)} bytes has no room for its links"
        kind, metrics, _ = ROUTER_LINK.unpack_from(body, at)
        if not 1 <= kind <= 4:
            return f"a link of it has the type {kind}"
        at += ROUTER_LINK.size + 4 * metrics
    return None if at == len(body) else f"its body of {len(body)} bytes isn't filled"


def fault(lsa: bytes) -> str | None:
    """Why `routerd` doesn't read this LSA, whose checksum holds; None if it does, or if the
    checksum doesn't hold, so that every router discards it."""
    said = header_fault(lsa) or body_fault(lsa)
    return said if said and is_whole(lsa) else None


def name_of(key: Key) -> str:
    """An LSA in words."""
    try:
        kind = LsType(key[0]).title
    except ValueError:
        kind = f"type {key[0]}"
    return f"{kind} {IPv4Address(key[1:5])} of {IPv4Address(key[5:9])}"


@dataclass
class _Unread:
    """An instance of an LSA that isn't read, why, when it came last, and whether it was flushed
    since."""

    instance: bytes
    why: str
    moment: float
    is_gone: bool = False


class Withheld:
    """What is withheld on one link."""

    def __init__(self, places: Places) -> None:
        self._places, self._share = places, places.share(self)
        self._unread: dict[Key, _Unread] = {}
        self._above: set[Key] = set()
        """Those that have no place."""
        self._limit_told = float("-inf")
        self._promised: set[Key] = set()
        """Those that were described in this exchange, and haven't come: they have a place left."""
        self._asked: dict[Key, float] = {}
        """Those that `routerd`'s last Request asks for, and since when."""
        self._given: dict[Key, tuple[int, bytes]] = {}
        """How often each of those was given to it, and which instance."""
        self._begun = self._described = self._last_asked = float("-inf")
        """When an exchange was begun anew, when the neighbor's last Description came, and when
        `routerd` asked for an LSA."""
        self.news: list[str] = []
        """What the log has to be told."""

    # -- from the neighbor

    def updated(self, lsas: list[bytes], now: float) -> tuple[list[bytes], list[bytes]]:
        """Of an Update's LSAs those that are passed on, and the headers of those that are
        acknowledged in place of `routerd`. What may have a place later is neither: the neighbor
        sends it again."""
        passed: list[bytes] = []
        withheld: list[bytes] = []
        for lsa in lsas:
            room = Vacancy.NONE if self._is_unread(lsa, now) else self._room(lsa, now)
            if room is Vacancy.FREE:
                self._give(lsa, now)
                passed.append(lsa)
            elif room is Vacancy.NONE:
                withheld.append(lsa[:LSA_HEADER_LENGTH])
        return passed, withheld

    def _is_unread(self, lsa: bytes, now: float) -> bool:
        key, why = lsa[KEY], fault(lsa)
        if why:
            self._note(key, lsa[INSTANCE], why, now, lsa[AGE] == FLUSHED)
            return True
        if self._is_known(lsa, now):
            return True
        self._unread.pop(key, None)
        return False

    def _is_known(self, header: bytes, now: float) -> bool:
        """Whether this instance isn't read."""
        known = self._unread.get(header[KEY]) if self._unread else None
        if known is None or known.instance != header[INSTANCE]:
            return False
        self._note(header[KEY], known.instance, known.why, now, known.is_gone)
        return True

    def _give(self, lsa: bytes, now: float) -> None:
        key = lsa[KEY]
        self._places.give(lsa, self._share, now)
        self._promised.discard(key)
        if key in self._asked:
            count, _ = self._given.get(key, (0, b""))
            self._given[key] = count + 1, lsa[INSTANCE]

    def described(self, headers: Iterable[bytes], now: float) -> tuple[bytes, ...]:
        """The headers of a Description without those of LSAs that `routerd` can't have."""
        self._described = now
        return tuple(each for each in headers if self._is_described(each, now))

    def _is_described(self, header: bytes, now: float) -> bool:
        key, why = header[KEY], header_fault(header)
        if why:
            self._note(key, header[INSTANCE], why, now)
            return False
        if self._is_known(header, now):
            return False
        if header[AGE] == FLUSHED or self._places.has(key) or self._promises(key):
            self._above.discard(key)
            return True
        self._is_above(key, now)
        return False

    def _promises(self, key: Key) -> bool:
        """Whether there is a place left for an LSA that is described. Of those before, only what
        hasn't come by another link needs one."""
        free = self._places.free(self._share, key[0] == LsType.EXTERNAL) - self._share.given
        if key not in self._promised and len(self._promised) >= free:
            self._promised = {each for each in self._promised if not self._places.has(each)}
            if len(self._promised) >= free:
                return False
        self._promised.add(key)
        return True

    def _room(self, lsa: bytes, now: float) -> Vacancy:
        key = lsa[KEY]
        room = Vacancy.FREE if lsa[AGE] == FLUSHED else self._places.room(key, self._share, now)
        if room is Vacancy.NONE:
            self._is_above(key, now)
        else:
            self._above.discard(key)
        return room

    def _is_above(self, key: Key, now: float) -> None:
        if not self._above and now - self._limit_told >= LIMIT_TOLD_EACH:
            self._limit_told = now
            self.news.append(self._limit_said())
        if len(self._above) < MOST_ABOVE:
            self._above.add(key)

    def _note(
        self, key: Key, instance: bytes, why: str, now: float, is_gone: bool = False
    ) -> None:
        before = self._unread.pop(key, None)
        if before is None and not is_gone:
            self.news.append(f"the LSA {name_of(key)} is withheld: {why}")
        while len(self._unread) >= MOST_KEPT:
            del self._unread[next(iter(self._unread))]
        self._unread[key] = _Unread(instance, why, now, is_gone)

    def _forget(self, now: float) -> None:
        """What wasn't refreshed has reached MaxAge, and nobody has it (14)."""
        old = takewhile(lambda each: now - each[1].moment > MAX_AGE, self._unread.items())
        for key, _ in list(old):
            del self._unread[key]

    # -- from `routerd`

    def begun(self, now: float) -> None:
        """An exchange begins: what the last one promised, and didn't bring, isn't there; what is
        withheld is described again, unless it is gone."""
        self._described = now
        self._above.clear()
        self._promised.clear()
        self._asked.clear()
        self._given.clear()

    def sent(self, packet: Packet, now: float) -> None:
        """Notes what `routerd` has, as it says at this link."""
        if packet.type == PacketType.LINK_STATE_UPDATE:
            self._places.sent(lsas_of(packet.body), now)
        elif packet.type == PacketType.LINK_STATE_ACKNOWLEDGMENT:
            headers = chunks(packet.body, LSA_HEADER_LENGTH)
            self._places.acknowledged(headers, self._share, now)

    def is_stuck(self, request: bytes, now: float) -> bool:
        """Whether `routerd` asks for an LSA that it will never have, so that the exchange has to
        begin anew without that. (A Request's LS types have four bytes: A.3.4.)"""
        keys = [each[3:12] for each in chunks(request, REQUEST_LENGTH)]
        self._last_asked = now
        self._asked = {each: self._asked.get(each, now) for each in keys}
        self._given = {each: it for each, it in self._given.items() if each in self._asked}
        for key, (count, instance) in self._given.items():
            if count >= GIVEN_IN_VAIN:
                self._note(key, instance, "routerd doesn't take it, and why isn't known here", now)
        waits = (
            now - self._asked[each] for each in keys if each in self._unread or each in self._above
        )
        return max(waits, default=0.0) >= STUCK_AFTER and self._may_begin(now)

    def has_room_again(self, now: float) -> bool:
        """Whether LSAs that were withheld have room now, so that the exchange has to begin anew.
        One that is under way comes to its end first: on a busy machine thousands of headers take
        longer than what is between two that are begun."""
        self._places.sweep(now)
        self._forget(now)
        if not self._above or now - self._described < SECONDS_BETWEEN:
            return False
        return self._places.free(self._share) >= ROOM_AGAIN and self._may_begin(now)

    def _may_begin(self, now: float) -> bool:
        if now - self._begun < SECONDS_BETWEEN:
            return False
        self._begun = now
        return True

    # -- for the operator

    def _limit_said(self) -> str:
        return (
            f"the network has more than {MOST_LSAS} LSAs: this router can't have them all, so "
            "routes are missing. Withdraw external destinations where they are announced"
        )

    @property
    def is_withholding(self) -> bool:
        return bool(self._above) or any(not it.is_gone for it in self._unread.values())

    def remarks(self, now: float) -> Iterator[str]:
        """What is withheld, and what `routerd` waits for, for `status`."""
        told = [(key, it.why) for key, it in self._unread.items() if not it.is_gone]
        for key, why in told[:MOST_TOLD]:
            yield f"the LSA {name_of(key)} is withheld: {why}"
        if len(told) > MOST_TOLD:
            yield f"{len(told) - MOST_TOLD} more LSAs are withheld, since routerd doesn't read them"
        if self._above:
            more = " or more" * (len(self._above) >= MOST_ABOVE)
            brought = f"{self._share.filled} of the {len(self._places)} there came by this link"
            yield f"{self._limit_said()} ({len(self._above)} LSAs{more} are withheld; {brought})"
        asked = [each for each, since in self._asked.items() if now - since >= LONG_ASKED]
        if asked and now - self._last_asked < LONG_ASKED:
            said = f"{len(asked)} LSA{'s' * (len(asked) > 1)} for more than {LONG_ASKED:.0f} s"
            names = ", ".join(map(name_of, asked[:MOST_TOLD]))
            more = " and more" * (len(asked) > MOST_TOLD)
            yield f"routerd has asked for {said}, and hasn't got them: {names}{more}"
