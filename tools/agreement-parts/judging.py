"""Judges each link at rest by the law on Full neighbors, from what goes over the wires and what routers show alone.

A link is at rest if each end is Full with the other, and neither owes anything. A key is judged already if both are Full and
neither owes that of the key: then both ends hold the same instance, by sequence number and checksum, with the same text, and both at MaxAge
or none; or one holds none, and the other's copy is at MaxAge. If that isn't so, one of these took effect at an end in its present
conversation, which begins when it enters ExStart:

description          a Description came in that was sent in another conversation, and the conversation went on
update               an Update brought the key and was taken, though since it was sent an end lost its copy
past update          the same, though since it was sent its sender has given its conversation up
acknowledgment       an acknowledgment took the key off the retransmission list, though since it was made (when the LSA that it names came
                     in) an end got a copy where it had none. An Update that brings the same instance acknowledges, too
past acknowledgment  the same, though since it was made its sender has given its conversation up
before MaxAge        an Update brought the key at MaxAge, or acknowledged it so, and the sender's own copy wasn't there yet: InfTransDelay
                     added the last second
clocks               an instance that was requested came to MaxAge on the request list
two bodies            the originator said two things under one sequence number and checksum (and the texts alone differ)

What is owed isn't shown but as a count: acknowledgments, and requested LSAs. Both lists are followed here by the rules of sections 10.6 and
13, from what goes out and comes in, and compared with the count after each event: if they differ, nothing is judged, and `Miscounted`
is raised.
"""
from __future__ import annotations

import itertools
from collections.abc import Iterator
from dataclasses import dataclass, field
from typing import NamedTuple

from packets import ACKNOWLEDGMENT, DESCRIPTION, MAX_AGE, UPDATE, Instance, Key, Said, compare, number_of, of_key, said_by
from routers import DOWN, EXCHANGE, EX_START, FULL, INIT, LOADING, Shown

EXCEPTIONS = ("description", "update", "past update", "acknowledgment", "past acknowledgment", "before MaxAge", "clocks", "two bodies")
ALL_FLAGS = 7
INF_TRANS_DELAY = 1

End = tuple[int, int]
"""A router's place and the number of its interface, from 1 on."""


NO_KEY: Key = (0, 0, 0)
"""Stands for what is wrong with a link as a whole: its ends are Full in other conversations."""


class Miscounted(Exception):
    """What is owed by what was seen isn't what the router says."""


class Packet(NamedTuple):
    """A packet under way, with what is known of its making."""

    text: bytes
    said: Said
    sent: int
    conversation: int
    bound: int
    made: dict[Key, tuple[int, int]]
    early: frozenset[Key]


class Difference(NamedTuple):
    """What two ends of a link that is at rest hold of a key, and what took effect."""

    link: tuple[End, End]
    key: Key
    held: tuple[Instance | None, Instance | None]
    names: frozenset[str]
    was_lost: bool

    def __str__(self) -> str:
        if self.key == NO_KEY:
            return f"routers {self.link[0][0] + 1} and {self.link[1][0] + 1} are Full, each in another conversation"
        ends = zip((place for place, _ in self.link), self.held)
        return f"{of_key(self.key)}: " + ", ".join(f"router {place + 1} holds {self._told(held)}" for place, held in ends)

    def _told(self, held: Instance | None) -> str:
        return "none" if held is None else f"#{number_of(held)}{' at MaxAge' if held.is_at_max_age else ''}"


@dataclass
class Seen:
    """What is known of a router's neighbor at an interface. A conversation is a number that no other one has; 0 is none. `was` and
    `earlier` are the state and the conversation before the last event."""

    state: int = DOWN
    was: int = DOWN
    neighbor: str = ""
    conversation: int = 0
    earlier: int = 0
    opening: int = -1
    bound: int = 0
    is_mistaken: bool = False
    owed: set[Key] = field(default_factory=set)
    count: int = 0
    names: dict[Key, set[str]] = field(default_factory=dict)
    requested: dict[Key, tuple[Instance, int]] = field(default_factory=dict)
    made: dict[Key, tuple[int, int]] = field(default_factory=dict)

    def name(self, key: Key, name: str) -> None:
        self.names.setdefault(key, set()).add(name)

    def ends(self, conversation: int) -> None:
        """The conversation ends, and another one, or none, begins. Acknowledgments that wait outlive it."""
        self.conversation, self.bound, self.is_mistaken = conversation, 0, False
        self.owed, self.names, self.requested = set(), {}, {}


@dataclass
class Known:
    """What is known of a router."""

    identity: str
    ends: dict[int, Seen]
    moment: int = 0
    database: dict[Key, Instance] = field(default_factory=dict)
    lost: dict[Key, int] = field(default_factory=dict)
    got: dict[Key, int] = field(default_factory=dict)
    began: int = 0
    is_first_life: bool = True

    def last_loss(self, key: Key) -> int:
        return max(self.began, self.lost.get(key, 0))


class Event(NamedTuple):
    """What happened at a router: a packet that came in at an interface, or none; and whether it was a Tick."""

    place: int
    moment: int
    interface: int
    packet: Packet | None
    is_tick: bool
    before: dict[Key, Instance]
    """What it held before, at the age that this has at the event's moment."""
    changed: frozenset[Key]
    """Of what it got, lost or installed a copy, or had one come to MaxAge. A copy that stays ages by the clock alone."""
    shown: Shown
    outs: list[tuple[int, bytes, Said]]


def changed(known: dict[Key, Instance], before: dict[Key, Instance], after: dict[Key, Instance]) -> frozenset[Key]:
    """Of what a copy was got, lost or installed, or came to MaxAge: `before` is `known` as old as it is by now."""
    aged_out = [key for key, held in before.items() if held.age == MAX_AGE and known[key].age < MAX_AGE] if before is not known else []
    if before == after and not aged_out:
        return frozenset()
    others = [key for key in before.keys() | after.keys() if key not in before or key not in after or is_other(before[key], after[key])]
    return frozenset(aged_out + others)


def is_other(one: Instance, other: Instance) -> bool:
    return (one.sequence, one.checksum, one.age) != (other.sequence, other.checksum, other.age)


class Judge:
    """Watches the routers of a network with these links, and judges links at rest."""

    def __init__(self, links: list[tuple[End, End]]):
        self.links = links
        self.peers = {one: other for link in links for one, other in (link, link[::-1])}
        self.conversations = itertools.count(1)
        self.number = 0
        self.texts: dict[tuple[Key, tuple[int, int]], set[bytes]] = {}
        places = 1 + max(place for place, _ in self.peers)
        self.routers = [self._unknown(place) for place in range(places)]

    def _unknown(self, place: int) -> Known:
        return Known(f"0.0.0.{place + 1}", {number: Seen() for at, number in sorted(self.peers) if at == place})

    def begins(self, place: int, moment: int, shown: Shown) -> None:
        """The router begins, or begins anew: it has lost all."""
        self.number += 1
        is_first = not self.routers[place].began
        known = self.routers[place] = self._unknown(place)
        known.is_first_life = is_first
        known.moment, known.began, known.database = moment, self.number, shown.database
        self._note_texts(place, shown.database.values())

    def happens(
        self, place: int, moment: int, shown: Shown, interface: int = 0, packet: Packet | None = None, is_tick: bool = False
    ) -> list[tuple[int, Packet]]:
        """Takes note of an event, and answers the packets that go out, each with the interface."""
        self.number += 1
        known = self.routers[place]
        passed = moment - known.moment
        before = {key: held.after(passed) for key, held in known.database.items()} if passed else known.database
        outs = [(number, text, said_by(text)) for number, text in shown.outs]
        others = changed(known.database, before, shown.database)
        event = Event(place, moment, interface, packet, is_tick, before, others, shown, outs)
        entered = [number for number in known.ends if self._converses(event, number)]
        if packet is not None:
            self._takes(event, entered)
        for number in known.ends:
            self._owes(event, number, number in entered)
        self._remembers(event)
        for number, seen in known.ends.items():
            self._counts(event, number, seen)
        return [(number, self._packet(event, number, text, said)) for number, text, said in outs]

    def _converses(self, event: Event, number: int) -> bool:
        """Follows the conversation at an interface. Returns whether Exchange is entered."""
        seen = self.routers[event.place].ends[number]
        before = seen.was = seen.state
        seen.earlier = seen.conversation
        seen.neighbor, seen.state = event.shown.neighbors.get(number, ("", DOWN))
        for at, _text, said in event.outs:
            if at == number and said.description and said.description.flags == ALL_FLAGS and not said.instances:
                if before != EX_START or said.description.number != seen.opening:
                    seen.ends(next(self.conversations))
                    seen.opening, before = said.description.number, EX_START
        if seen.state in (DOWN, INIT) and seen.conversation:
            seen.ends(0)
        return before < EXCHANGE <= seen.state

    def _takes(self, event: Event, entered: list[int]) -> None:
        """What the packet that came in is taken for."""
        seen, kind = self.routers[event.place].ends[event.interface], event.packet.said.kind
        if kind == DESCRIPTION and seen.state >= EXCHANGE:
            self._takes_description(event, seen, event.interface in entered)
        elif kind == UPDATE and seen.was >= EXCHANGE:
            self._takes_update(event, seen)

    def _takes_description(self, event: Event, seen: Seen, is_entered: bool) -> None:
        packet, is_initial = event.packet, event.packet.said.description.is_initial
        if is_entered:
            seen.bound = packet.conversation
        elif packet.conversation != seen.bound:
            seen.is_mistaken = True
        if not is_initial and packet.bound != seen.conversation:
            seen.is_mistaken = True
        for told in packet.said.instances:
            held = event.before.get(told.key)
            if seen.state in (EXCHANGE, LOADING) and (held is None or compare(told, held) > 0):
                seen.requested[told.key] = told, event.moment

    def _is_installed(self, event: Event, brought: Instance) -> bool:
        """An instance that an Update brought was put into the database, though it may have left it in the same event. One at MaxAge is only
        acknowledged if none is held, unless a neighbor is in Exchange or Loading (section 13, step 4)."""
        held, key = event.before.get(brought.key), brought.key
        if held is not None and compare(brought, held) <= 0:
            return False
        has_exchanged = any(it.was in (EXCHANGE, LOADING) for it in self.routers[event.place].ends.values())
        return key in event.changed or held is None and key not in event.shown.database and has_exchanged

    def _takes_update(self, event: Event, seen: Seen) -> None:
        packet = event.packet
        for brought in packet.said.instances:
            if self._is_installed(event, brought):
                seen.made[brought.key] = self.number, seen.earlier
                if seen.state >= EXCHANGE:
                    self._name_update(event, seen, brought.key)

    def _other(self, place: int, number: int) -> tuple[Known, Seen]:
        peer, at = self.peers[place, number]
        return self.routers[peer], self.routers[peer].ends[at]

    def _name_update(self, event: Event, seen: Seen, key: Key) -> None:
        (known, (peer, end)), packet = (self.routers[event.place], self._other(event.place, event.interface)), event.packet
        if packet.sent < max(known.last_loss(key), peer.last_loss(key)):
            seen.name(key, "update")
        if packet.conversation != end.conversation:
            seen.name(key, "past update")
        if key in packet.early:
            seen.name(key, "before MaxAge")

    def _name_acknowledgment(self, event: Event, seen: Seen, key: Key) -> None:
        (known, (peer, end)), packet = (self.routers[event.place], self._other(event.place, event.interface)), event.packet
        made, conversation = packet.made.get(key, (packet.sent, packet.conversation))
        if made < max(known.got.get(key, 0), peer.got.get(key, 0)):
            seen.name(key, "acknowledgment")
        if conversation != end.conversation:
            seen.name(key, "past acknowledgment")
        if key in packet.early:
            seen.name(key, "before MaxAge")

    def _acknowledged(self, event: Event, number: int) -> Iterator[Key]:
        """The keys of which the packet names the very instance that the router held. If it is at MaxAge, and this acknowledgment is the
        last one owed, it leaves in the same event."""
        if event.packet is None or event.interface != number or event.packet.said.kind not in (UPDATE, ACKNOWLEDGMENT):
            return
        for told in event.packet.said.instances:
            held = event.before.get(told.key)
            stayed_or_left = told.key not in event.changed or told.key not in event.shown.database
            if held is not None and stayed_or_left and compare(told, held) == 0:
                yield told.key

    def _owes(self, event: Event, number: int, is_entered: bool) -> None:
        """Follows which keys the neighbor has still to acknowledge (sections 13.3, 13.5 and 13.7)."""
        seen = self.routers[event.place].ends[number]
        if seen.state < EXCHANGE:
            seen.owed = set()
        else:
            if is_entered:
                seen.owed = {key for key, held in event.before.items() if held.is_at_max_age}
            for key in self._acknowledged(event, number):
                if key in seen.owed:
                    seen.owed.remove(key)
                    self._name_acknowledgment(event, seen, key)
            self._floods(event, number, seen)

    def _counts(self, event: Event, number: int, seen: Seen) -> None:
        """Compares what the neighbor owes with what the router says."""
        seen.count = event.shown.owed.get(number, 0)
        if len(seen.owed) + len(seen.requested) != seen.count:
            where = f"event {self.number} at router {event.place + 1}, interface {number}"
            owed = f"{len(seen.owed)} acknowledgments and {len(seen.requested)} LSAs"
            raise Miscounted(f"{where}: {owed} owed, and it says {seen.count}")

    def _floods(self, event: Event, number: int, seen: Seen) -> None:
        """A copy that is new is owed where it goes out in an Update, and nowhere else. The one before it, which answers an older instance,
        may have gone out there, too, under the same name but for the age."""
        if not event.changed:
            return
        updates = (said for at, _, said in event.outs if at == number and said.kind == UPDATE)
        sent = {(it.key, it.name, it.age) for said in updates for it in said.instances}
        for key in event.changed:
            held = event.shown.database.get(key)
            if held is not None and (key, held.name, held.after(INF_TRANS_DELAY).age) in sent:
                seen.owed.add(key)
            else:
                seen.owed.discard(key)

    def _remembers(self, event: Event) -> None:
        """What the router got and lost, and what it holds now."""
        known, after = self.routers[event.place], event.shown.database
        brought = () if event.packet is None or event.packet.said.kind != UPDATE else [it.key for it in event.packet.said.instances]
        for key in [*event.changed, *brought]:
            if key not in after:
                known.lost[key] = self.number
            elif key not in event.before:
                known.got[key] = self.number
        self._note_texts(event.place, (it for key, it in after.items() if key in event.changed))
        for seen in known.ends.values():
            if seen.requested:
                self._ages(seen, event.moment, after)
        known.moment, known.database = event.moment, after

    def _note_texts(self, place: int, instances) -> None:
        for it in instances:
            if it.key[2] == place + 1:
                self.texts.setdefault((it.key, it.name), set()).add(it.text)

    def _ages(self, seen: Seen, moment: int, held: dict[Key, Instance]) -> None:
        """Names what came to MaxAge on the request list."""
        for key, (told, since) in list(seen.requested.items()):
            now, copy = told.after(moment - since), held.get(key)
            if now.is_at_max_age and not told.is_at_max_age:
                seen.name(key, "clocks")
            if seen.state == FULL or copy is not None and compare(now, copy) <= 0:
                del seen.requested[key]

    def _packet(self, event: Event, number: int, text: bytes, said: Said) -> Packet:
        seen, made, early = self.routers[event.place].ends[number], {}, frozenset()
        if said.kind == ACKNOWLEDGMENT and event.is_tick:
            made = {it.key: self._made(seen, it.key) for it in said.instances}
        if said.kind == UPDATE:
            held = event.shown.database
            last = (it.key for it in said.instances if it.is_at_max_age and it.key in held)
            early = frozenset(key for key in last if not held[key].is_at_max_age)
        bound = 0 if said.description and said.description.is_initial else seen.bound
        return Packet(text, said, self.number, seen.conversation, bound, made, early)

    def _made(self, seen: Seen, key: Key) -> tuple[int, int]:
        if key not in seen.made:
            raise Miscounted(f"event {self.number}: an acknowledgment of an LSA that didn't come in")
        return seen.made.pop(key)

    def is_full(self, link: tuple[End, End]) -> bool:
        """Each end is Full with the other."""
        (one, at), (other, there) = link
        left, right = self.routers[one].ends[at], self.routers[other].ends[there]
        are_neighbors = (left.neighbor, right.neighbor) == (self.routers[other].identity, self.routers[one].identity)
        return left.state == right.state == FULL and are_neighbors

    def is_at_rest(self, link: tuple[End, End]) -> bool:
        """And nothing is owed."""
        (one, at), (other, there) = link
        return self.is_full(link) and self.routers[one].ends[at].count == self.routers[other].ends[there].count == 0

    def differences(self, link: tuple[End, End]) -> Iterator[Difference]:
        """What the ends of a link hold unlike that are Full with each other, of the keys that neither owes, with what took effect."""
        (one, at), (other, there) = link
        left, right = self.routers[one], self.routers[other]
        ends = left.ends[at], right.ends[there]
        is_mistaken = ends[0].is_mistaken or ends[1].is_mistaken
        if not is_mistaken and (ends[0].bound, ends[1].bound) != (ends[1].conversation, ends[0].conversation):
            yield Difference(link, NO_KEY, (None, None), frozenset(), False)
        for key in sorted((left.database.keys() | right.database.keys()) - ends[0].owed - ends[1].owed):
            held = left.database.get(key), right.database.get(key)
            if not agree(*held):
                names = set().union(*(end.names.get(key, ()) for end in ends), ["description"] if is_mistaken else [])
                if None not in held and held[0].name == held[1].name and held[0].text != held[1].text:
                    names = {"two bodies"} if {held[0].text, held[1].text} <= self.texts.get((key, held[0].name), set()) else set()
                was_lost = any(key in it.lost or not it.is_first_life for it in (left, right))
                yield Difference(link, key, held, frozenset(names), was_lost)


def agree(one: Instance | None, other: Instance | None) -> bool:
    """The law's words on two copies of a key."""
    if one is None or other is None:
        held = other if one is None else one
        return held is None or held.is_at_max_age
    return one.name == other.name and one.text == other.text and one.is_at_max_age == other.is_at_max_age
