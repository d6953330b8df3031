"""Routers in a row, what is under way between them, and whether each says only what it may.

A router's first interface leads to the router before it and its second one to the router behind it, but that the first router's first
interface leads to the second one. All that was sent is in one list, in the order in which it was sent, and comes in that order unless an act
says otherwise.

What is watched at each router, from its packets and from whether its neighbors are Full (sections 13.3, 13.5 to 13.7):

- it takes each event;
- an instance that it acknowledges, or sends in an Update and isn't its own, was received or originated by it, before or after a restart;
- what was flooded to a neighbor that has been Full since, and that this neighbor hasn't acknowledged, goes out again within RxmtInterval;
- what that neighbor acknowledged isn't sent again at a Tick.

What a router has on its retransmission lists isn't looked at: an entry is followed only as long as the packets show that no other instance
may have replaced it.
"""
from __future__ import annotations

from functools import lru_cache
from typing import NamedTuple

from packets import ACKNOWLEDGMENT, HEADER_LENGTH, MAX_AGE, UPDATE, Key, instance_of
from routers import FULL, Router, Shown

MOST_ROUTERS, INTERFACES = 3, (1, 2)
HELLO, DEAD, RETRANSMIT = TIMES = 2, 10, 2
DESTINATIONS = 4
MOST_PACKETS = 10_000
"""More than are sent in a second."""

COMES, LOST, TWICE, EXCHANGED = FATES = "CLTX"
"""What happens to the next packet: it comes, is lost, comes twice, or comes after the one behind it."""

ENDS = {(0, 1): (1, 1), (1, 1): (0, 1), (1, 2): (2, 1), (2, 1): (1, 2)}
"""Where each interface leads that leads somewhere."""


class Wrong(Exception):
    """A router says what it may not say, or refuses an event."""


class Named(NamedTuple):
    """An instance of an LSA, by its name and whether it is flushed: none gets that old here otherwise."""

    key: Key
    sequence: int
    checksum: int
    is_flushed: bool


@lru_cache(maxsize=100_000)
def named_in(packet: bytes) -> tuple[int, tuple[Named, ...]]:
    """The type of a packet, and the instances that it has as an Update or an Acknowledgment: they fill it to its end."""
    kind, at, found = packet[1], 24, []
    if kind not in (UPDATE, ACKNOWLEDGMENT):
        return kind, ()
    at += 4 * (kind == UPDATE)
    while at + HEADER_LENGTH <= len(packet):
        it = instance_of(packet[at:at + HEADER_LENGTH])
        found.append(Named(it.key, it.sequence, it.checksum, it.age == MAX_AGE))
        at += int.from_bytes(packet[at + 18:at + 20], "big") if kind == UPDATE else HEADER_LENGTH
    if at != len(packet):
        raise Wrong(f"LSAs end at byte {at} of a packet of {len(packet)}")
    return kind, tuple(found)


class Entry:
    """An instance that was flooded at an interface, when it last went out there, and whether the neighbor has acknowledged it."""

    def __init__(self, instance: Named, sent: int):
        self.instance, self.sent, self.is_acknowledged = instance, sent, False


class Watched:
    """What is known of a router by its packets."""

    def __init__(self, place: int):
        self.identity = place + 1
        self.known: set[Named] = set()
        self.flooded: dict[tuple[int, Key], Entry] = {}
        self.acknowledged = 0

    def hears(self, interface: int, packet: bytes) -> None:
        """A packet comes in."""
        kind, instances = named_in(packet)
        for it in instances:
            if kind == UPDATE:
                self.known.add(it)
            for number in INTERFACES:
                entry = self.flooded.get((number, it.key))
                if entry is None:
                    continue
                if entry.instance == it:
                    entry.is_acknowledged |= number == interface
                elif kind == UPDATE:
                    # it may have replaced the other one on the list
                    del self.flooded[number, it.key]

    def tells(self, interface: int, moment: int, packet: bytes, is_tick: bool, is_reply: bool) -> None:
        """A packet goes out: at a Tick, in reply to a packet of the same interface, or otherwise."""
        kind, instances = named_in(packet)
        for it in instances:
            if kind == UPDATE and it.key[2] == self.identity:
                self.known.add(it)
            elif it not in self.known:
                raise Wrong(f"it {'sends' if kind == UPDATE else 'acknowledges'} {it}, which it hasn't received")
            self.acknowledged += kind == ACKNOWLEDGMENT
            if kind == UPDATE and not is_reply:
                self._floods(interface, moment, it, is_tick)

    def _floods(self, interface: int, moment: int, instance: Named, is_tick: bool) -> None:
        entry = self.flooded.get((interface, instance.key))
        if entry is None or entry.instance != instance:
            self.flooded[interface, instance.key] = Entry(instance, moment)
            return
        if is_tick and entry.is_acknowledged:
            raise Wrong(f"it sends {instance} again, which was acknowledged")
        entry.is_acknowledged, entry.sent = False, moment

    def looks(self, moment: int, full: set[int], is_tick: bool) -> None:
        """After an event: the neighbors at these interfaces are Full."""
        for place in [place for place in self.flooded if place[0] not in full]:
            del self.flooded[place]
        late = [it for it in self.flooded.values() if not it.is_acknowledged and it.sent + RETRANSMIT <= moment]
        if is_tick and late:
            raise Wrong(f"it doesn't send {late[0].instance} again")


class Row:
    """Two or three routers in a row, and what is under way."""

    def __init__(self, routers: list[Router], count: int):
        self.routers, self.count = routers[:count], count
        self.watched = [Watched(place) for place in range(count)]
        self.shown: list[Shown | None] = [None] * count
        self.moment, self.at = 0, 0
        self.packets: list[tuple[int, int, bytes]] = []
        for place in range(count):
            self.restart(place)

    def restart(self, place: int) -> None:
        """The router begins, or begins anew."""
        addresses = " ".join(f"10.0.{number}.{place + 1}/24" for number in INTERFACES)
        times = " ".join(map(str, TIMES))
        self.shown[place] = self._ask(place, f"router 0.0.0.{place + 1} {self.moment} {times} {addresses}")

    def _ask(self, place: int, line: str, asked: str = "neighbors\n") -> Shown:
        return self.routers[place].ask(line, asked, 1)

    def happens(self, place: int, words: str, came: tuple[int, bytes] | None = None) -> None:
        """An event happens at a router, and what it sends is under way."""
        watched, is_tick = self.watched[place], words == "tick"
        try:
            if came:
                watched.hears(*came)
            shown = self.shown[place] = self._ask(place, f"{self.moment} {words}")
            for number, packet in shown.outs:
                watched.tells(number, self.moment, packet, is_tick, came is not None and came[0] == number)
            watched.looks(self.moment, {number for number, (_, state) in shown.neighbors.items() if state == FULL}, is_tick)
        except Wrong as error:
            raise Wrong(f"router {place + 1} at {self.moment}, {words[:40]}: {error}") from error
        for number, packet in shown.outs:
            to, at = ENDS.get((place, number), (self.count, 0))
            if to < self.count:
                self.packets.append((to, at, packet))

    def comes(self, index: int) -> None:
        """The packet of this number comes, once more or for the first time, if there is one."""
        if 0 <= index < len(self.packets):
            place, at, packet = self.packets[index]
            self.happens(place, f"packet {at} {packet.hex()}", (at, packet))

    def again(self, back: int) -> None:
        """A packet comes that was sent this many packets ago."""
        self.comes(len(self.packets) - back)

    def _goes_on(self) -> None:
        self.at = min(len(self.packets), self.at + 1)

    def next(self, fate: str) -> None:
        """What happens to the next packet."""
        if fate == EXCHANGED:
            self.comes(self.at + 1)
        if fate == TWICE:
            self.comes(self.at)
        if fate != LOST:
            self.comes(self.at)
        self._goes_on()
        if fate == EXCHANGED:
            self._goes_on()

    def tick(self, place: int) -> None:
        self.happens(place, "tick")

    def passes(self, seconds: int) -> None:
        """This many seconds pass at once."""
        self.moment += seconds
        for place in range(self.count):
            self.tick(place)

    def seconds(self, count: int, fates: str) -> None:
        """This many seconds pass one by one, and in each all that is under way meets these fates, from the first one on and repeatedly."""
        for _ in range(count):
            self.passes(1)
            met = 0
            while self.at < len(self.packets):
                if met == MOST_PACKETS:
                    raise Wrong(f"more than {MOST_PACKETS} packets at {self.moment}")
                self.next(fates[met % len(fates)])
                met += 1

    def announce(self, place: int, number: int) -> None:
        self.happens(place, f"announce {prefix(number)} 20")

    def withdraw(self, place: int, number: int) -> None:
        self.happens(place, f"withdraw {prefix(number)}")

    def down(self, place: int, interface: int) -> None:
        self.happens(place, f"down {interface}")

    def neighbors(self) -> str:
        """Which neighbors routers have, as words."""
        ends = [(one, other, self.shown[one[0]].neighbors.get(one[1])) for one, other in ENDS.items() if max(one[0], other[0]) < self.count]
        if all(found == (f"0.0.0.{other[0] + 1}", FULL) for _, other, found in ends):
            return "all are Full"
        if all(found is None for _, _, found in ends):
            return "all are Down"
        return "; ".join(f"{one[0] + 1} by {one[1]}: {found}" for one, _, found in ends)

    def databases(self) -> str:
        """How many LSAs each router holds, and whether all hold the same: by key, length, sequence number and checksum."""
        held = []
        for place in range(self.count):
            found = self._ask(place, "database", "").database
            held.append({(it.key, it.sequence, it.checksum, len(it.text)) for it in found.values()})
        return f"{'the same' if all(it == held[0] for it in held) else 'unlike'}, {', '.join(str(len(it)) for it in held)}"

    def way(self, place: int, number: int) -> str:
        """By which interface a router sends packets for the destination of this number, once all candidates are let in."""
        rows = self._ask(place, f"{self.moment} install all\ntable", "").rows
        return next((words[-1] for words in rows if words[0] == prefix(number)), "none")


def prefix(number: int) -> str:
    """The destination of this number."""
    return f"20.0.{number}.0/24"
