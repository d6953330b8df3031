"""A neighbor's proxy, and how far a `routerd` has to come before it takes another one's place."""
from __future__ import annotations

import socket
import threading
import time
import unittest
from dataclasses import replace
from ipaddress import IPv4Address
from types import SimpleNamespace
from unittest import mock

from leafrunt_host import rehearsal
from leafrunt_host.exchange import ROUTER_ROOM, Side
from leafrunt_host.lsas import MAX_AGE, is_whole
from leafrunt_host.owed import Owed
from leafrunt_host.packets import (
    Description,
    Flags,
    Hello,
    Packet,
    PacketType,
    lsas_of,
    read,
)
from leafrunt_host.proxy import KEY, Proxy
from leafrunt_host.rehearsal import Rehearsal
from leafrunt_host.router import RouterGone
from leafrunt_host.statuses import Stopped
from leafrunt_host.topology import Topology
from tests.test_bridge import plain
from tests.test_topology import FIRST, external, router_lsa

LOW, OWN, HIGH = (IPv4Address(each) for each in ("1.1.1.1", "2.0.0.0", "3.3.3.3"))
AREA = IPv4Address(0)
OPTIONS = 2
MANY = 1000
P2P, STUB = 1, 3


def hello_of(router_id: IPv4Address) -> Packet:
    """A Hello that names this router."""
    body = replace(Hello.decode(plain("BIRD Hello").body), neighbors=(OWN,)).encode()
    return Packet(PacketType.HELLO, router_id, AREA, body)


def externals(count: int) -> dict[bytes, bytes]:
    found = (external(f"100.{at >> 8}.{at & 255}.0/24", str(HIGH)) for at in range(count))
    return {each[KEY]: each for each in found}


def of_router(kind: PacketType, body: bytes) -> Packet:
    return Packet(kind, OWN, AREA, body)


def update_of(*lsas: bytes) -> Packet:
    return of_router(PacketType.LINK_STATE_UPDATE, len(lsas).to_bytes(4, "big") + b"".join(lsas))


class Proxies(unittest.TestCase):
    def setUp(self) -> None:
        own = external("203.0.113.0/24", str(OWN))
        self.lsas = {**externals(MANY), own[KEY]: own}
        self.own = own

    def described(self, proxy: Proxy, said: Description) -> list[Description]:
        """The answers to a Description of `routerd`."""
        packet = of_router(PacketType.DATABASE_DESCRIPTION, said.encode())
        answers = [read(each) for each in proxy.heard(packet)]
        self.assertTrue(all(each.router_id == proxy.router_id for each in answers))
        return [Description.decode(each.body) for each in answers]

    def test_hellos(self) -> None:
        proxy = Proxy(hello_of(HIGH), {}, OWN)
        (answer,) = proxy.heard(of_router(PacketType.HELLO, plain("BIRD Hello").body))
        self.assertEqual(read(answer), hello_of(HIGH))

    def test_routerd_is_the_master(self) -> None:
        """It asks, and asks once more where an answer was lost; what it says of its own is taken."""
        proxy, number = Proxy(hello_of(LOW), self.lsas, OWN), 77
        said = Description(8192, OPTIONS, Flags.I | Flags.M | Flags.MS, number)
        headers: list[bytes] = []
        for _ in range(10):
            (answer,) = self.described(proxy, said)
            self.assertEqual(self.described(proxy, said), [answer])
            self.assertEqual((answer.sequence, answer.has(Flags.MS)), (number, False))
            self.assertLessEqual(len(answer.headers), ROUTER_ROOM)
            headers += answer.headers
            if not answer.has(Flags.M):
                break
            number += 1
            said = Description(8192, OPTIONS, Flags.MS | Flags.M, number, (self.own[:20],))
        self.assertEqual(len(headers), MANY)
        self.assertEqual(set(headers), {each[:20] for each in externals(MANY).values()})

    def test_the_neighbor_is_the_master(self) -> None:
        proxy = Proxy(hello_of(HIGH), self.lsas, OWN)
        opening = Description(8192, OPTIONS, Flags.I | Flags.M | Flags.MS, 5)
        (question,) = self.described(proxy, opening)
        self.assertEqual(question.flags, Flags.I | Flags.M | Flags.MS)
        headers: list[bytes] = []
        for at in range(10):
            more = Flags.M if at < 2 else Flags(0)
            own = Description(8192, OPTIONS, more, question.sequence, (self.own[:20],))
            answers = self.described(proxy, own)
            if not answers:
                break
            self.assertEqual(self.described(proxy, own), [])
            (asked,) = answers
            self.assertEqual((asked.sequence, asked.has(Flags.MS)), (question.sequence + 1, True))
            question, headers = asked, headers + list(asked.headers)
        self.assertEqual(len(headers), MANY)

    def test_what_is_out_of_order(self) -> None:
        for who in (LOW, HIGH):
            proxy = Proxy(hello_of(who), self.lsas, OWN)
            for flags in (Flags(0), Flags.MS, Flags.M):
                self.assertEqual(self.described(proxy, Description(8192, 2, flags, 9)), [])

    def test_requests(self) -> None:
        """What there is, in packets that `routerd` takes."""
        proxy = Proxy(hello_of(HIGH), self.lsas, OWN)
        keys = [*externals(MANY), b"\5" + bytes(8)]
        body = b"".join(bytes(3) + each for each in keys)
        answers = proxy.heard(of_router(PacketType.LINK_STATE_REQUEST, body))
        self.assertLessEqual(max(map(len, answers)), 8192)
        lsas = [lsa for each in answers for lsa in lsas_of(read(each).body)]
        self.assertEqual(lsas, list(externals(MANY).values()))
        self.assertEqual(proxy.heard(of_router(PacketType.LINK_STATE_REQUEST, bytes(12))), [])

    def test_acknowledgments(self) -> None:
        """Of what it has described; this router's own and all else has to come to the neighbor
        itself."""
        proxy = Proxy(hello_of(HIGH), self.lsas, OWN)
        other = next(iter(self.lsas.values()))
        newer = external("100.0.0.0/24", str(HIGH), sequence=FIRST + 1)
        flushed = MAX_AGE.to_bytes(2, "big") + other[2:]
        unknown = external("198.51.100.0/24", str(HIGH))
        (answer,) = proxy.heard(update_of(self.own, other, newer, flushed, unknown))
        packet = read(answer)
        self.assertEqual(packet.type, PacketType.LINK_STATE_ACKNOWLEDGMENT)
        self.assertEqual(packet.body, other[:20])
        for each in (self.own, newer, flushed, unknown):
            self.assertEqual(proxy.heard(update_of(each)), [])
        self.assertEqual(proxy.heard(of_router(PacketType.LINK_STATE_ACKNOWLEDGMENT, b"")), [])


class StandInRouter:
    def __init__(self) -> None:
        self.neighbors = ["neighbor 1 3.3.3.3 Full", "neighbor 2 1.1.1.1 Full"]
        self.table = ["10.0.1.0/24 intra 10 via 0"]
        self.is_gone = False

    def ask_list(self, line: str) -> list[str]:
        if self.is_gone:
            raise RouterGone("routerd has ended")
        return self.neighbors if line == "neighbors" else self.table


class Rehearsals(unittest.TestCase):
    def setUp(self) -> None:
        self.topology, self.router, self.ending = Topology(), StandInRouter(), threading.Event()
        self.udp, self.routers = {}, {}
        for number in (1, 2):
            pair = socket.socketpair(socket.AF_UNIX, socket.SOCK_DGRAM)
            for each in pair:
                each.setblocking(False)
                self.addCleanup(each.close)
            self.udp[number], self.routers[number] = pair
        self.first = router_lsa(str(OWN), (P2P, str(HIGH), "10.0.1.1", 10), sequence=FIRST + 6)
        self.other = external("100.0.0.0/24", str(HIGH))
        self.watch(self.first, self.other)
        self.owed = {number: Owed() for number in (1, 2)}
        patched = mock.patch.multiple(
            rehearsal,
            SECONDS_TO_FULL=0.4,
            SECONDS_TO_ORIGINATE=0.4,
            SECONDS_TO_FIND=0.4,
            SECONDS_TO_OWE=0.4,
            LOOKED_EACH=0.01,
            TURN=0.01,
        )
        patched.start()
        self.addCleanup(patched.stop)

    def watch(self, *lsas: bytes) -> None:
        self.topology.watch(Side.ROUTER, update_of(*lsas), time.monotonic())

    def begin(self, *numbers: int) -> Rehearsal:
        fresh = SimpleNamespace(router=self.router, udp=self.udp)
        hellos = {number: hello_of({1: HIGH, 2: LOW}[number]) for number in numbers}
        it = Rehearsal(fresh, hellos, self.topology, OWN, self.ending, self.owed)
        self.addCleanup(it.close)
        return it

    def got(self, number: int) -> list[bytes]:
        """The LSAs that `routerd` was given at an interface."""
        found: list[bytes] = []
        try:
            while True:
                packet = read(self.routers[number].recv(65535))
                if packet.type == PacketType.LINK_STATE_UPDATE:
                    found += lsas_of(packet.body)
        except BlockingIOError:
            return found

    def test_full(self) -> None:
        it = self.begin(1, 2)
        it.come_to_full()
        self.router.neighbors[1] = "neighbor 2 1.1.1.1 Loading"
        with self.assertRaisesRegex(Stopped, "isn't Full"):
            it.come_to_full()
        self.begin(1).come_to_full()
        self.router.neighbors = []
        self.begin().come_to_full()

    def test_its_router_lsa(self) -> None:
        """It has to be newer than the one before, and to have all neighbors."""
        links = (P2P, str(HIGH), "10.0.1.1", 20), (P2P, str(LOW), "10.0.2.1", 20)
        for lsa, is_good in (
            (router_lsa(str(OWN), *links, sequence=FIRST + 7), True),
            (router_lsa(str(OWN), *links, sequence=FIRST + 5), False),
            (router_lsa(str(OWN), *links), False),
            (router_lsa(str(OWN), links[0], sequence=FIRST + 7), False),
            (router_lsa(str(OWN), (STUB, *links[0][1:]), links[1], sequence=FIRST + 7), False),
            (router_lsa(str(HIGH), *links, sequence=FIRST + 7), False),
        ):
            it = self.begin(1, 2)
            self.routers[1].send(b"no packet")
            self.routers[1].send(update_of(lsa).encode())
            if is_good:
                it.originate()
                self.assertEqual(it.sent[1], {lsa[KEY]: lsa})
                continue
            with self.assertRaisesRegex(Stopped, "hasn't originated"):
                it.originate()
        self.begin().originate()

    def test_it_is_given_its_own(self) -> None:
        """Those that the one before has originated, at one interface."""
        it = self.begin(1, 2)
        with self.assertRaises(Stopped):
            it.originate()
        given = self.got(1) + self.got(2)
        self.assertEqual([each[2:] for each in given], [self.first[2:]])

    def test_routes(self) -> None:
        it = self.begin(1)
        it.find(lambda: {"10.0.1.0/24"})
        with self.assertRaisesRegex(Stopped, "find 1 of the routes .*: 10.0.2.0/24"):
            it.find(lambda: {"10.0.1.0/24", "10.0.2.0/24"})

    def test_routes_that_come_meanwhile(self) -> None:
        """It is given the LSAs of those too."""
        it = self.begin(1)
        new = external("100.0.1.0/24", str(HIGH))
        self.watch(new)

        def wanted() -> set[str]:
            if any(each[2:] == new[2:] for each in self.got(1)):
                self.router.table.append("100.0.1.0/24 ext2 20 via 1")
            return {"100.0.1.0/24"}

        with mock.patch.object(rehearsal, "CAUGHT_UP_EACH", 0.05):
            it.find(wanted)

    def test_what_changes_meanwhile(self) -> None:
        it = self.begin(1, 2)
        newer = external("100.0.0.0/24", str(HIGH), metric=30, sequence=FIRST + 1)
        new = external("100.0.1.0/24", str(HIGH))
        self.watch(newer, new, router_lsa(str(OWN), sequence=FIRST + 9))
        it.catch_up()
        self.assertEqual({each[2:] for each in self.got(1)}, {newer[2:], new[2:]})
        self.assertEqual(self.got(2), [])
        it.give_again()
        self.assertEqual({each[2:] for each in self.got(1)}, {newer[2:], new[2:]})
        it.catch_up()
        self.assertEqual(self.got(1), [])
        it = self.begin(1)
        it.give_again()
        self.watch(MAX_AGE.to_bytes(2, "big") + newer[2:])
        it.catch_up()
        (gone,) = self.got(1)
        self.assertEqual((gone[:2], gone[2:]), (MAX_AGE.to_bytes(2, "big"), newer[2:]))
        self.assertTrue(is_whole(gone))
        self.begin().catch_up()

    def lacks(self, number: int, *lsas: bytes) -> None:
        """The running one has sent these there, and they aren't acknowledged."""
        self.watch(*lsas)
        self.owed[number].passed(Side.ROUTER, update_of(*lsas), time.monotonic())

    def has(self, number: int, *lsas: bytes) -> None:
        body = b"".join(each[:20] for each in lsas)
        packet = Packet(PacketType.LINK_STATE_ACKNOWLEDGMENT, HIGH, AREA, body)
        self.owed[number].passed(Side.WIRE, packet, time.monotonic())

    def described(self, it: Rehearsal, number: int) -> list[bytes]:
        """The headers in a proxy's first Description, of which it is the slave or the master."""
        opening = Description(8192, OPTIONS, Flags.I | Flags.M | Flags.MS, 5)
        packet = of_router(PacketType.DATABASE_DESCRIPTION, opening.encode())
        (answer,) = it._proxies[number].heard(packet)
        said = Description.decode(read(answer).body)
        if said.has(Flags.I):
            more = Description(8192, OPTIONS, Flags.M, said.sequence)
            (answer,) = it._proxies[number].heard(replace(packet, body=more.encode()))
            said = Description.decode(read(answer).body)
        return [each[2:] for each in said.headers]

    def test_what_a_neighbor_lacks(self) -> None:
        """Nobody describes it; once all are Full it is given where the neighbor has it, so that it
        owes it to the other."""
        late = external("100.0.1.0/24", str(HIGH))
        self.lacks(1, late)
        it = self.begin(1, 2)
        for number in (1, 2):
            self.assertEqual(self.described(it, number), [self.other[2:20]])
        self.assertEqual(it.unowed(), [late[KEY]])
        it.catch_up()
        self.assertEqual((self.got(1), [each[2:] for each in self.got(2)]), ([], [late[2:]]))
        it.owe()
        it.catch_up()
        self.assertEqual(self.got(1) + self.got(2), [])

    def test_what_a_neighbor_has_not_flushed(self) -> None:
        """It flushes what it had, and what others have flushed before its start it lets run out."""
        flushed = MAX_AGE.to_bytes(2, "big")
        gone, own = external("100.0.1.0/24", str(HIGH)), external("203.0.113.0/24", str(OWN))
        self.watch(gone, own)
        self.lacks(1, flushed + gone[2:], flushed + own[2:])
        it = self.begin(1, 2)
        with self.assertRaises(Stopped):
            it.originate()
        given = self.got(1) + self.got(2)
        last = rehearsal.OLDEST.to_bytes(2, "big")
        wanted = {last + gone[2:], last + own[2:]}
        self.assertEqual({each for each in given if each[:2] == last}, wanted)
        self.lacks(1, flushed + self.other[2:])
        it.catch_up()
        self.assertEqual(self.got(1), [])
        self.assertIn(flushed + self.other[2:], self.got(2))

    def test_what_comes_while_it_is_waited(self) -> None:
        """It is given that too, and owes it: else nothing would come to an end while LSAs come."""
        it, late = self.begin(1, 2), external("100.0.1.0/24", str(HIGH))
        self.lacks(1, late)
        with mock.patch.object(rehearsal, "CAUGHT_UP_EACH", 0.05):
            it.owe()
        self.assertEqual((self.got(1), [each[2:] for each in self.got(2)]), ([], [late[2:]]))

    def test_what_both_neighbors_lack(self) -> None:
        """It is waited for: the one that is given it isn't owed it."""
        late = external("100.0.1.0/24", "4.4.4.4")
        self.lacks(1, late)
        self.lacks(2, late)
        it = self.begin(1, 2)
        it.catch_up()
        with self.assertRaisesRegex(Stopped, "a neighbor hasn't acknowledged 1 LSAs: try again"):
            it.owe()
        self.has(1, late)
        it.owe()

    def test_what_goes_to_the_wire(self) -> None:
        """Its last Updates of its own, and then a Hello, where it has sent one."""
        it = self.begin(1)
        hello = of_router(PacketType.HELLO, plain("BIRD Hello").body).encode()
        own = update_of(external("203.0.113.0/24", str(OWN))).encode()
        for each in (own, update_of(self.other).encode(), hello):
            self.routers[1].send(each)
        it.come_to_full()
        it.find(lambda: {"10.0.1.0/24"})
        with self.assertRaises(Stopped):
            it.find(lambda: {"10.9.9.0/24"})
        self.assertEqual(it.last_packets(()), {1: [own, hello]})
        for _ in range(3):
            it._took(1, own)
        self.assertEqual(it.last_packets(()), {1: [own, hello]})
        self.owed[1].passed(Side.ROUTER, update_of(self.other), 0.0)
        self.assertEqual(it.last_packets(()), {1: [own, hello]})
        late = external("100.0.1.0/24", str(HIGH))
        for is_owed in (False, True):
            if is_owed:
                self.lacks(1, late)
            it._took(1, update_of(late).encode())
            lsas = [lsa for each in it.last_packets(())[1][:-1] for lsa in lsas_of(read(each).body)]
            self.assertEqual(late in lsas, is_owed)

    def test_its_last_hello_names_who_is_full(self) -> None:
        """Where HelloInterval is longer than all of this, its last one is its first, which names
        nobody."""
        it, first = self.begin(1, 2), Hello.decode(plain("BIRD Hello").body)
        for number, names in ((1, ()), (2, (LOW,))):
            body = replace(first, neighbors=names).encode()
            self.routers[number].send(of_router(PacketType.HELLO, body).encode())
        it.come_to_full()
        it.find(lambda: {"10.0.1.0/24"})
        for full, wanted in (({1, 2}, [(HIGH,), (LOW,)]), ({2}, [(), (LOW,)])):
            last = it.last_packets(full)
            hellos = [Hello.decode(read(last[each][-1]).body) for each in (1, 2)]
            self.assertEqual([each.neighbors for each in hellos], wanted)
            others = [replace(each, neighbors=first.neighbors) for each in hellos]
            self.assertEqual(others, [first, first])

    def test_ends(self) -> None:
        """Of the box, and of the new `routerd`."""
        it = self.begin(1)
        self.router.is_gone = True
        with self.assertRaisesRegex(Stopped, "the new routerd: routerd has ended"):
            it.come_to_full()
        self.ending.set()
        with self.assertRaisesRegex(Stopped, "the box is ending"):
            it.come_to_full()


if __name__ == "__main__":
    unittest.main()
