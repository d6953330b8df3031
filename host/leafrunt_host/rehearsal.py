"""A `routerd` is begun beside the one that runs, and comes to where that one is: Full with all
neighbors, by their proxies, with their LSAs, its programs and its destinations. It is then ready to
take that one's place.

Its own LSAs have to follow those that the one before originated: it is given those as if a
neighbor still had them, and so originates its own with higher sequence numbers, and flushes what it
doesn't originate any more (RFC 2328, 13.4). Two instances of its router-LSA are five seconds apart
(MinLSInterval), so all of this takes some six.

Of the others' it is given those once all neighbors are Full that one of them hasn't acknowledged to
the running one: so it owes them too (13.3), and sends them until they are acknowledged.
"""
from __future__ import annotations

import selectors
import threading
import time
from collections.abc import Callable, Container, Iterable, Mapping
from contextlib import suppress
from dataclasses import replace
from ipaddress import IPv4Address

from leafrunt_host.lsas import MAX_AGE, LinkType, LsType, RouterBody, body_of
from leafrunt_host.owed import Owed, instance_of
from leafrunt_host.packets import (
    ROUTER_MTU,
    Hello,
    Malformed,
    Packet,
    PacketType,
    cut,
    lsas_of,
    read,
)
from leafrunt_host.proxy import KEY, ORIGIN, Key, Proxy
from leafrunt_host.router import RouterGone
from leafrunt_host.starting import Fresh
from leafrunt_host.status import neighbors_of
from leafrunt_host.statuses import Stopped
from leafrunt_host.topology import Topology

SECONDS_TO_FULL, SECONDS_TO_ORIGINATE, SECONDS_TO_FIND, SECONDS_TO_OWE = 40.0, 30.0, 60.0, 20.0
"""At most: a busy machine with thousands of LSAs takes long."""
TURN = 0.05
LOOKED_EACH = 0.2
MOST_NAMED = 4
CAUGHT_UP_EACH = 1.5
"""Seconds: above MinLSArrival."""
LARGEST = 65_535
OLDEST = MAX_AGE - 1
PAUSE_AFTER, PAUSE = 8, 0.005
"""Datagrams at once, and seconds after them: its socket's buffer holds no more."""


def of_now(topology: Topology, flushed: Container[Key] = ()) -> dict[Key, bytes]:
    """The LSAs with their ages of now, and those of these keys that are flushed, as if they were to
    run out at once."""
    entries, now = topology.all_entries()
    return {
        key: min(entry.age_at(now), OLDEST).to_bytes(2, "big") + entry.data[2:]
        for key, entry in entries
        if entry.age_at(now) < MAX_AGE or key in flushed
    }


def prefixes_of(lines: Iterable[str]) -> set[str]:
    """The destinations of `table`."""
    return {each.partition(" ")[0] for each in lines}


class Rehearsal:
    """One such `routerd`, and the proxies at its interfaces. `Stopped` if it doesn't come to where
    it has to."""

    def __init__(
        self,
        fresh: Fresh,
        hellos: Mapping[int, Packet],
        topology: Topology,
        own: IPv4Address,
        ending: threading.Event,
        owed: Mapping[int, Owed],
    ) -> None:
        """`hellos` are the neighbors' last ones, by the numbers of its interfaces, and `owed` what
        the running one and they owe each other."""
        self._fresh, self._topology, self._own, self._ending = fresh, topology, own, ending
        self._owed = {number: owed[number] for number in hellos}
        late = set[Key]().union(*self._owed_by_neighbors().values())
        lsas = of_now(topology, late)
        late.update(*self._owed_by_neighbors().values())
        self._given = {
            key: each
            for key, each in lsas.items()
            if key not in late or each[ORIGIN] == own.packed
        }
        self._proxies = {
            number: Proxy(hello, self._given, own) for number, hello in hellos.items()
        }
        self._given_at: dict[Key, int] = {}
        """At which interface it was given an LSA, which it owes to the others' neighbors."""
        self.sent: dict[int, dict[Key, bytes]] = {number: {} for number in fresh.udp}
        """LSAs that it has sent and no proxy acknowledges, by its interfaces."""
        self._hellos: dict[int, bytes] = {}
        self._router_lsa = b""
        self._caught_up_at = time.monotonic()
        self._last: dict[int, list[bytes]] = {}
        """What it was given when it caught up last, by its interfaces."""
        self._waiting = selectors.DefaultSelector()
        for number, udp in fresh.udp.items():
            self._waiting.register(udp, selectors.EVENT_READ, number)

    def come_to_full(self) -> None:
        """Until all neighbors are."""
        if not self._until(self._is_full, SECONDS_TO_FULL):
            raise Stopped(f"the new routerd isn't Full within {SECONDS_TO_FULL:.0f} s")

    def originate(self) -> None:
        """Until its own router-LSA says so, and follows the one before."""
        if not self._proxies:
            return
        own = [each for each in self._given.values() if each[ORIGIN] == self._own.packed]
        first = next(iter(self._proxies))
        for each in self.sent.values():
            each.clear()
        self.catch_up()
        self._give(first, self._proxies[first].update(own))
        if not self._until(self._is_originated, SECONDS_TO_ORIGINATE):
            raise Stopped(
                f"the new routerd hasn't originated its LSAs within {SECONDS_TO_ORIGINATE:.0f} s"
            )

    def find(self, prefixes: Callable[[], set[str]]) -> None:
        """Until it has routes to all destinations that the running one has, which may change."""
        missing = set[str]()

        def has_all() -> bool:
            nonlocal missing
            missing = prefixes() - prefixes_of(self._ask("table"))
            return not missing or self._caught_up_in_vain()

        if not self._until(has_all, SECONDS_TO_FIND):
            first = ", ".join(sorted(missing)[:MOST_NAMED])
            raise Stopped(
                f"the new routerd doesn't find {len(missing)} of the routes that the running one has: {first}"
            )

    def owe(self) -> None:
        """Until it owes each neighbor what that hasn't acknowledged."""
        if not self._until(lambda: not self.unowed() or self._caught_up_in_vain(), SECONDS_TO_OWE):
            raise Stopped(f"a neighbor hasn't acknowledged {len(self.unowed())} LSAs: try again")

    def unowed(self) -> list[Key]:
        """What a neighbor hasn't acknowledged and isn't owed by the new one, since it got that from
        this neighbor itself: no other neighbor had it."""
        return [
            key
            for number, owed in self._owed_by_neighbors().items()
            for key in owed
            if key[-4:] != self._own.packed and self._given_at.get(key, number) == number
        ]

    def _caught_up_in_vain(self) -> bool:
        """False, after it was given what has changed since the last time, if that is due."""
        if time.monotonic() - self._caught_up_at >= CAUGHT_UP_EACH:
            self.catch_up()
        return False

    def catch_up(self) -> None:
        """Gives it what has changed since, or wasn't acknowledged then; what is gone, it flushes.
        Nothing of this is acknowledged: it sends it to all other neighbors, until they have it."""
        self._caught_up_at = time.monotonic()
        if not self._proxies:
            return
        owed, before = self._owed_by_neighbors(), self._given
        now = of_now(self._topology, set[Key]().union(*owed.values()) - before.keys())
        changed = [
            each
            for key, each in now.items()
            if each[ORIGIN] != self._own.packed
            and (key not in before or before[key][12:18] != each[12:18])
        ]
        flushed = MAX_AGE.to_bytes(2, "big")
        gone = [
            flushed + each[2:]
            for key, each in before.items()
            if key not in now and each[ORIGIN] != self._own.packed
        ]
        self._given, given = now, dict[int, list[bytes]]()
        for each in changed + gone:
            given.setdefault(self._source_of(each[KEY], owed), []).append(each)
        self._last = {number: self._proxies[number].update(lsas) for number, lsas in given.items()}
        self.give_again()

    def _owed_by_neighbors(self) -> dict[int, set[Key]]:
        """What they haven't acknowledged to the running one, by the interfaces."""
        return {number: each.by_neighbor for number, each in self._owed.items()}

    def _source_of(self, key: Key, owed: Mapping[int, set[Key]]) -> int:
        """The interface at which it is given: of a neighbor that has it, if there is one."""
        has = (number for number in owed if key not in owed[number])
        self._given_at[key] = next(has, next(iter(owed)))
        return self._given_at[key]

    def give_again(self) -> None:
        """The same once more, some seconds after the last time: it takes no LSA within a second of
        the last one (MinLSArrival), and a neighbor would send it again."""
        for number, datagrams in self._last.items():
            self._give(number, datagrams)

    def close(self) -> None:
        """The sockets stay as they are."""
        self._waiting.close()

    @property
    def numbers(self) -> set[int]:
        """The interfaces whose neighbor is played by a proxy."""
        return set(self._proxies)

    def last_packets(self, full: Container[int]) -> dict[int, list[bytes]]:
        """What is to be sent on the wire first: LSAs of its own and those that the neighbor hasn't
        acknowledged, in Updates, and then a Hello, which names the neighbors that are Full."""
        owed = self._owed_by_neighbors()
        return {
            number: [
                *self._updates(number, owed.get(number, ())),
                self._naming(number) if number in full else hello,
            ]
            for number, hello in self._hellos.items()
        }

    def _updates(self, number: int, owed: Container[Key]) -> list[bytes]:
        sent = self.sent[number].items()
        lsas = [each for key, each in sent if each[ORIGIN] == self._own.packed or key in owed]
        body, hello = len(lsas).to_bytes(4, "big") + b"".join(lsas), read(self._hellos[number])
        update = replace(hello, type=PacketType.LINK_STATE_UPDATE, body=body)
        return [each.encode() for each in cut(update, ROUTER_MTU)] if lsas else []

    def _naming(self, number: int) -> bytes:
        """Its last Hello there, which may be older than the neighbor's first: without its name the
        neighbor would go to Init (RFC 2328, 10.5, 1-WayReceived)."""
        packet, neighbor = read(self._hellos[number]), self._proxies[number].router_id
        hello = Hello.decode(packet.body)
        if neighbor in hello.neighbors:
            return self._hellos[number]
        named = replace(hello, neighbors=(*hello.neighbors, neighbor))
        return replace(packet, body=named.encode()).encode()

    # -- its packets

    def _until(self, holds: Callable[[], bool], seconds: float) -> bool:
        """Plays on until that holds; whether it does in time."""
        until, looked = time.monotonic() + seconds, 0.0
        while time.monotonic() < until:
            if self._ending.is_set():
                raise Stopped("the box is ending")
            for key, _ in self._waiting.select(TURN):
                self._drain(key.data)
            if time.monotonic() - looked >= LOOKED_EACH:
                looked = time.monotonic()
                if holds():
                    return True
        return False

    def _drain(self, number: int) -> None:
        try:
            while True:
                self._took(number, self._fresh.udp[number].recv(LARGEST))
        except BlockingIOError:
            pass
        except OSError:
            # (the word of a datagram that nobody took: its socket may not be open yet)
            pass

    def _took(self, number: int, data: bytes) -> None:
        with suppress(Malformed):
            packet = read(data)
            if packet.type == PacketType.HELLO:
                self._hellos[number] = data
            proxy = self._proxies.get(number)
            if packet.type == PacketType.LINK_STATE_UPDATE:
                self._note(number, lsas_of(packet.body), proxy)
            self._give(number, proxy.heard(packet) if proxy else [])

    def _note(self, number: int, lsas: list[bytes], proxy: Proxy | None) -> None:
        """Keeps what it has originated itself, and what the neighbor may lack."""
        for each in lsas:
            is_own = each[ORIGIN] == self._own.packed
            if is_own or (proxy and not proxy.has_described(each)):
                self.sent[number][each[KEY]] = each
            if is_own and each[3] == LsType.ROUTER:
                self._router_lsa = each

    def _give(self, number: int, datagrams: list[bytes]) -> None:
        for at, each in enumerate(datagrams, 1):
            with suppress(OSError):
                self._fresh.udp[number].send(each)
            if at % PAUSE_AFTER == 0:
                time.sleep(PAUSE)

    # -- how far it is

    def _is_full(self) -> bool:
        found = neighbors_of(self._ask("neighbors"))
        return all(number in found and found[number].state == "Full" for number in self._proxies)

    def _ask(self, line: str) -> list[str]:
        try:
            return self._fresh.router.ask_list(line) or []
        except RouterGone as why:
            raise Stopped(f"the new routerd: {why}") from why

    def _is_originated(self) -> bool:
        """Whether its router-LSA is newer than the one before, and has all neighbors."""
        body = body_of(self._router_lsa)
        if not isinstance(body, RouterBody):
            return False
        before = self._given.get(self._router_lsa[KEY])
        if before and instance_of(self._router_lsa) <= instance_of(before):
            return False
        links = {each.id for each in body.links if each.type == LinkType.POINT_TO_POINT}
        return links >= {each.router_id for each in self._proxies.values()}
