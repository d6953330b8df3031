"""What two neighbors owe each other, by what passes between them."""
from __future__ import annotations

import logging
import struct
import unittest
from dataclasses import replace

from leafrunt_host.exchange import Side
from leafrunt_host.interfaces import KernelState
from leafrunt_host.link import Link
from leafrunt_host.owed import MOST, Debts, Owed
from leafrunt_host.packets import Packet, PacketType, read
from tests.test_bridge import THERE, link, own, own_hello, plain
from tests.test_topology import EXTERNAL, external
from tests.test_withheld import UNREAD, changed, description, update

OTHER = external("198.51.100.0/24", "2.2.2.2")
LATER = changed(EXTERNAL, 12, 0x80, 0, 0, 9)
NOTHING = Debts(0, 0, 0, 0)


def of(kind: PacketType, body: bytes) -> Packet:
    return replace(plain("BIRD Update"), type=kind, body=body)


def updates(*lsas: bytes) -> Packet:
    return read(update(*lsas))


def acknowledgment(*lsas: bytes) -> Packet:
    body = b"".join(each[:20] for each in lsas)
    return of(PacketType.LINK_STATE_ACKNOWLEDGMENT, body)


def request(*lsas: bytes) -> Packet:
    body = b"".join(struct.pack(">I", each[3]) + each[4:12] for each in lsas)
    return of(PacketType.LINK_STATE_REQUEST, body)


class Debt(unittest.TestCase):
    def setUp(self) -> None:
        self.owed, self.now = Owed(), 0.0

    def after(self, side: Side, *packets: Packet) -> Debts:
        for each in packets:
            self.now += 1
            self.owed.passed(side, each, self.now)
        return self.owed.debts

    def test_acknowledgments(self) -> None:
        """By an Acknowledgment of the same instance; by the other's own Update of it, or of one that
        is newer."""
        for side, owes in ((Side.ROUTER, (2, 0, 0, 0)), (Side.WIRE, (0, 0, 2, 0))):
            with self.subTest(side):
                self.setUp()
                self.assertEqual(self.after(side, updates(EXTERNAL, OTHER)), Debts(*owes))
                self.assertEqual(self.after(side.other, acknowledgment(LATER)), Debts(*owes))
                left = self.after(side.other, acknowledgment(OTHER))
                self.assertEqual(sum(left), 1)
                self.assertEqual(self.after(side.other, acknowledgment(EXTERNAL)), NOTHING)
                self.after(side, updates(EXTERNAL))
                self.assertEqual(self.after(side.other, updates(EXTERNAL)), NOTHING)
                self.after(side, updates(EXTERNAL))
                answered = self.after(side.other, updates(LATER))
                self.assertEqual(answered[0 if side is Side.WIRE else 2], 1)
                self.assertEqual(sum(answered), 1)
                left = self.after(side, updates(EXTERNAL), acknowledgment(LATER))
                self.assertEqual(left[0], owes[0] // 2)

    def test_flushed(self) -> None:
        """An acknowledgment of the instance before it was flushed isn't one of that (13.1)."""
        flushed = b"\x0e\x10" + EXTERNAL[2:]
        self.after(Side.ROUTER, updates(EXTERNAL), updates(flushed))
        self.assertEqual(self.after(Side.WIRE, acknowledgment(EXTERNAL))[0], 1)
        self.assertEqual(self.owed.by_neighbor, {EXTERNAL[3:12]})
        self.assertEqual(self.after(Side.WIRE, acknowledgment(flushed)), NOTHING)

    def test_requests(self) -> None:
        """What was asked for isn't to be acknowledged."""
        self.assertEqual(self.after(Side.ROUTER, request(EXTERNAL, OTHER)), Debts(0, 2, 0, 0))
        self.assertEqual(self.after(Side.WIRE, updates(EXTERNAL)), Debts(0, 1, 0, 0))
        self.assertEqual(self.after(Side.WIRE, request(EXTERNAL)), Debts(0, 1, 0, 1))
        self.assertEqual(self.after(Side.ROUTER, updates(LATER)), Debts(0, 1, 0, 0))
        self.assertEqual(self.after(Side.WIRE, updates(OTHER, OTHER)), Debts(0, 0, 1, 0))

    def test_a_link_that_is_lost(self) -> None:
        """The adjacency goes with it (10.3): nobody owes anything."""
        one = link()
        one.from_router(own_hello(), 0)
        one.from_wire(plain("BIRD Hello").encode(), THERE, 1)
        one.from_router(own(updates(EXTERNAL)), 2)
        self.assertEqual(one.owed.debts[0], 1)
        one.kernel_is(KernelState(), 3)
        self.assertEqual(one.owed.debts, NOTHING)

    def test_when(self) -> None:
        """The moment after which nobody owed anything."""
        self.assertIsNone(self.owed.waited)
        self.after(Side.ROUTER, updates(EXTERNAL))
        self.assertTrue(self.owed.is_waiting)
        self.after(Side.WIRE, acknowledgment(EXTERNAL))
        self.assertEqual((self.owed.is_waiting, self.owed.waited), (False, 2.0))
        self.after(Side.WIRE, acknowledgment(EXTERNAL), plain("BIRD Hello"))
        self.assertEqual(self.owed.waited, 2.0)

    def test_another_exchange(self) -> None:
        self.after(Side.ROUTER, updates(EXTERNAL), request(OTHER))
        for flags, wanted in ((0, Debts(1, 1, 0, 0)), (7, NOTHING)):
            packet = read(description(flags=flags))  # type: ignore[arg-type]
            self.assertEqual(self.after(Side.WIRE, packet), wanted)

    def test_bounds(self) -> None:
        for at in range(0, MOST + 500, 500):
            lsas = [
                EXTERNAL[:4] + (at + each).to_bytes(4, "big") + EXTERNAL[8:] for each in range(500)
            ]
            self.after(Side.WIRE, updates(*lsas))
        self.assertEqual(self.owed.debts.acknowledgments_of_router, MOST)

    def test_words(self) -> None:
        for debts, wanted in (
            (Debts(1, 0, 0, 0), "it owes 1 acknowledgment"),
            (Debts(0, 2, 0, 1), "it owes 2 requested LSAs, this router owes it 1 requested LSA"),
            (
                Debts(3, 1, 2, 0),
                "it owes 3 acknowledgments and 1 requested LSA, "
                "this router owes it 2 acknowledgments",
            ),
            (NOTHING, ""),
        ):
            self.assertEqual(str(debts), wanted)


class OfALink(unittest.TestCase):
    def setUp(self) -> None:
        self.link: Link = link()
        self.link.from_router(own_hello(), 0)
        logging.disable(logging.WARNING)
        self.addCleanup(logging.disable, logging.NOTSET)

    def test_both_ways(self) -> None:
        self.link.from_wire(update(EXTERNAL), THERE, 1)
        self.assertEqual(self.link.owed.debts, Debts(0, 0, 1, 0))
        self.link.from_router(own(acknowledgment(EXTERNAL)), 2)
        self.link.from_router(own(updates(OTHER)), 3)
        self.assertEqual(self.link.owed.debts, Debts(1, 0, 0, 0))
        self.link.from_wire(acknowledgment(OTHER).encode(), THERE, 4)
        self.assertEqual((self.link.owed.debts, self.link.owed.waited), (NOTHING, 4))

    def test_what_the_box_acknowledges(self) -> None:
        """In `routerd`'s place: an LSA that isn't read."""
        self.link.from_wire(update(UNREAD["its type 9 is none"]), THERE, 1)
        self.assertEqual(self.link.owed.debts, NOTHING)

    def test_strangers(self) -> None:
        self.link.from_wire(replace(updates(EXTERNAL), router_id=THERE).encode(), THERE, 1)
        self.assertEqual(self.link.owed.debts, NOTHING)


if __name__ == "__main__":
    unittest.main()
