"""LSAs that `routerd` can't have: which they are, and that no box waits for them."""
import logging
import struct
import unittest
from dataclasses import replace
from ipaddress import IPv4Address
from unittest import mock

from leafrunt_host.commands import FIT
from leafrunt_host.link import WITHHELD, Link
from leafrunt_host.packets import Description, Flags, Packet, PacketType, lsas_of, read
from leafrunt_host.places import MOST_LSAS, Places
from leafrunt_host.withheld import (
    GIVEN_IN_VAIN,
    MAX_AGE,
    ROOM_AGAIN,
    SECONDS_BETWEEN,
    STUCK_AFTER,
    Withheld,
    fault,
    header_fault,
)
from tests.test_bridge import THERE, link, own, own_hello, plain
from tests.test_topology import EXTERNAL, SUMMARY, router_lsa, sealed

ROUTER = router_lsa("1.1.1.1", (1, "2.2.2.2", "10.0.1.1", 10), (3, "10.0.1.0", "255.255.255.0", 5))
NETWORK = sealed(EXTERNAL[:3] + b"\2" + EXTERNAL[4:18] + b"\0\x1c" + bytes([255] * 4 + [9] * 4))
OTHER = sealed(SUMMARY[:4] + bytes([192, 0, 2, 0]) + SUMMARY[8:])
TWO = IPv4Address("2.2.2.2")


def changed(lsa: bytes, at: int, *values: int) -> bytes:
    """The LSA with other bytes from a place on, and the checksum that belongs to them."""
    return sealed(lsa[:at] + bytes(values) + lsa[at + len(values) :])


def longer(lsa: bytes, more: int) -> bytes:
    """The LSA with this many bytes of zeros at its end."""
    length = (len(lsa) + more).to_bytes(2, "big")
    return sealed(lsa[:18] + length + lsa[20:] + bytes(more))


UNREAD = {
    "its reserved byte is 0x01": changed(ROUTER, 21, 1),
    "its sequence number 0x80000000 is reserved": changed(EXTERNAL, 12, 0x80, 0, 0, 0),
    "its body of 20 bytes isn't filled": longer(EXTERNAL, 4),
    "the first byte of its metric is 0x81": changed(EXTERNAL, 24, 0x81),
    "a link of it has the type 5": changed(ROUTER, 24 + 8, 5),
    "its age 3700 is above MaxAge": (3700).to_bytes(2, "big") + EXTERNAL[2:],
    "its type 9 is none": changed(EXTERNAL, 3, 9),
    "has no room for its links": changed(ROUTER, 22, 0, 3),
    "its body of 32 bytes isn't filled": longer(ROUTER, 4),
    "the byte before its metric is 0x07": changed(SUMMARY, 24, 7),
    "its body of 9 bytes isn't filled": longer(SUMMARY, 1),
    "its body of 10 bytes isn't filled": longer(NETWORK, 2),
    "it has 8165 bytes, and at most 8164 are read": longer(EXTERNAL, 8165 - len(EXTERNAL)),
}
"""By the reason: the LSAs that peers take, and others."""


def update(*lsas: bytes) -> bytes:
    """An Update of the neighbor."""
    body = len(lsas).to_bytes(4, "big") + b"".join(lsas)
    return replace(plain("BIRD Update"), body=body).encode()


def description(*headers: bytes, flags: Flags = Flags(0), sequence: int = 1) -> bytes:
    body = Description(1500, 2, flags, sequence, headers).encode()
    return replace(plain("BIRD Description"), body=body).encode()


def request(*lsas: bytes) -> bytes:
    """A Request of `routerd`."""
    keys = b"".join(struct.pack(">I", each[3]) + each[4:12] for each in lsas)
    return own(replace(plain("BIRD Update"), type=PacketType.LINK_STATE_REQUEST, body=keys))


def acknowledgment(*lsas: bytes) -> bytes:
    """One of `routerd`."""
    kind, headers = PacketType.LINK_STATE_ACKNOWLEDGMENT, b"".join(each[:20] for each in lsas)
    return own(replace(plain("BIRD Update"), type=kind, body=headers))


class Faults(unittest.TestCase):
    def test_what_is_read(self) -> None:
        flushed = MAX_AGE.to_bytes(2, "big") + EXTERNAL[2:]
        several = longer(EXTERNAL, 12)
        for lsa in (ROUTER, NETWORK, SUMMARY, EXTERNAL, flushed, several, changed(EXTERNAL, 24, 0)):
            with self.subTest(lsa.hex()):
                self.assertIsNone(fault(lsa))

    def test_what_is_not_read(self) -> None:
        for why, lsa in UNREAD.items():
            with self.subTest(why):
                self.assertIn(why, str(fault(lsa)))

    def test_a_hub_of_more_links_than_are_read(self) -> None:
        """It is told how many of them don't count, by the header too."""
        links = [(3, f"10.{at >> 8}.{at & 255}.0", "255.255.255.0", 1) for at in range(679)]
        self.assertIsNone(fault(router_lsa("1.1.1.1", *links[1:])))
        why = "it has 8172 bytes, and at most 8164 are read: none of this router's 679 links counts"
        lsa = router_lsa("1.1.1.1", *links)
        self.assertEqual((fault(lsa), header_fault(lsa[:20])), (why, why))
        self.assertIn(f"no router has more than {len(links) - 1} links", FIT)
        self.assertIn(f"up to {MOST_LSAS} LSAs", FIT)

    def test_a_wrong_checksum(self) -> None:
        """Every router discards such an LSA, without an acknowledgment (13, step 1)."""
        for lsa in UNREAD.values():
            if not header_fault(lsa):
                self.assertIsNone(fault(lsa[:-1] + bytes([lsa[-1] ^ 1])))


class Links(unittest.TestCase):
    def setUp(self) -> None:
        self.places = Places(1000)
        self.link = Link(link().interface, link().authentication._numbers, places=self.places)
        self.link.from_router(own_hello(), 0)
        self.sequence = 0
        logging.disable(logging.WARNING)
        self.addCleanup(logging.disable, logging.NOTSET)

    def came(self, data: bytes, now: float = 0.0) -> tuple[list[Packet], list[Packet]]:
        """What is sent to `routerd`, and on the wire."""
        sent = self.link.from_wire(data, THERE, now)
        return [read(each) for each in sent.to_router], [read(each) for each in sent.to_wire]

    def test_they_are_acknowledged_and_not_passed_on(self) -> None:
        for why, lsa in UNREAD.items():
            with self.subTest(why):
                to_router, to_wire = self.came(update(lsa, OTHER))
                self.assertEqual([lsas_of(each.body) for each in to_router], [[OTHER]])
                (said,) = to_wire
                kind = PacketType.LINK_STATE_ACKNOWLEDGMENT
                self.assertEqual((said.type, said.body), (kind, lsa[:20]))
                self.assertEqual(self.came(update(lsa))[0], [])
        self.assertEqual(self.link.counters[WITHHELD], 2 * len(UNREAD))
        said = self.link.reports(0)[0].reasons
        self.assertEqual(len([each for each in said if "is withheld" in each]), 4)
        self.assertTrue(any("more LSAs are withheld" in each for each in said))

    def test_strangers(self) -> None:
        """What another router than the neighbor sends isn't acknowledged, and counts for nothing:
        `routerd` discards it."""
        lsa = UNREAD["a link of it has the type 5"]
        forged = replace(read(update(lsa)), router_id=IPv4Address("4.4.4.4")).encode()
        to_router, to_wire = self.came(forged)
        self.assertEqual((len(to_router), to_wire, len(self.places)), (1, [], 0))

    def test_headers(self) -> None:
        """Those that tell by themselves, and those of instances that came, are left out of
        Descriptions; a later instance isn't."""
        bad = UNREAD["the first byte of its metric is 0x81"]
        reserved = changed(UNREAD["its sequence number 0x80000000 is reserved"], 4, 192, 0, 2, 9)
        later = changed(bad, 12, 0x80, 0, 0, 9)
        asked = Flags.I | Flags.M | Flags.MS

        def described() -> list[bytes]:
            self.sequence += 10
            opening = description(flags=asked, sequence=self.sequence)
            self.link.from_router(own(read(opening)), 1)
            headers = (reserved[:20], bad[:20], later[:20], SUMMARY[:20])
            (packet,), _ = self.came(description(*headers, sequence=self.sequence))
            return list(Description.decode(packet.body).headers)

        self.assertEqual(described(), [bad[:20], later[:20], SUMMARY[:20]])
        self.came(update(bad))
        self.assertEqual(described(), [later[:20], SUMMARY[:20]])
        self.came(update(later))
        self.assertEqual(described(), [bad[:20], SUMMARY[:20]])
        good = changed(EXTERNAL, 12, 0x80, 0, 0, 10)
        self.assertEqual(len(self.came(update(good))[0]), 1)
        self.assertEqual(described(), [bad[:20], later[:20], SUMMARY[:20]])

    def test_routerd_waits_for_one(self) -> None:
        """It gets a Description out of order once the others have had their time, and so begins
        the exchange anew, without that header."""
        bad = UNREAD["its reserved byte is 0x01"]
        self.came(description(bad[:20], SUMMARY[:20]))
        asks = request(bad, SUMMARY)
        self.assertEqual(len(self.link.from_router(asks, 1).to_wire), 1)
        self.came(update(bad, SUMMARY), 1.1)
        self.assertEqual(len(self.link.from_router(request(bad), 2).to_wire), 1)
        sent = self.link.from_router(request(bad), 1 + STUCK_AFTER)
        self.assertEqual(sent.to_wire, [])
        (out_of_order,) = map(read, sent.to_router)
        self.assertEqual((out_of_order.type, out_of_order.router_id), (2, TWO))
        self.assertNotEqual(Description.decode(out_of_order.body).sequence, 1)
        opening = description(flags=Flags.I | Flags.M | Flags.MS, sequence=77)
        (opened,) = self.link.from_router(own(read(opening)), 5).to_wire
        self.assertEqual(Description.decode(read(opened).body).sequence, 77)
        self.assertEqual(len(self.link.from_router(request(bad), 6).to_wire), 1)

    def test_one_that_is_asked_for_and_comes(self) -> None:
        """A Request that is repeated, since packets were lost, begins nothing anew."""
        for now in range(0, 100, 2):
            sent = self.link.from_router(request(SUMMARY), now)
            self.assertEqual((len(sent.to_wire), sent.to_router), (1, []))

    def test_one_that_does_not_come(self) -> None:
        """`status` names what `routerd` asks for again and again, while it does."""
        for now in range(0, 14, 2):
            self.link.from_router(request(SUMMARY, OTHER), now)
        said = str(self.link.reports(13)[0])
        self.assertIn("routerd has asked for 2 LSAs for more than 10 s, and hasn't got them: ", said)
        self.assertIn("summary 198.51.100.0 of 2.2.2.2", said)
        self.assertNotIn("has asked for", str(self.link.reports(40)[0]))

    def test_one_that_routerd_does_not_take(self) -> None:
        """For a reason that isn't known here: it was given again and again."""
        for now in range(GIVEN_IN_VAIN):
            self.link.from_router(request(SUMMARY), now)
            self.assertEqual(len(self.came(update(SUMMARY), now + 0.5)[0]), 1)
        self.came(description(flags=Flags(0)))
        sent = self.link.from_router(request(SUMMARY), 60)
        self.assertEqual((sent.to_wire, len(sent.to_router)), ([], 1))
        self.assertIn("routerd doesn't take it", str(self.link.reports(60)[0]))
        (packet,), _ = self.came(description(SUMMARY[:20]))
        self.assertEqual(Description.decode(packet.body).headers, ())

    def test_links_share_their_limit(self) -> None:
        """It is `routerd`'s, of all links together."""
        places = Places(1)
        links = [
            Link(link().interface, link().authentication._numbers, places=places) for _ in range(2)
        ]
        for each, lsa in zip(links, (SUMMARY, OTHER)):
            each.from_router(own_hello(), 0)
            each.from_wire(update(lsa), THERE, 0)
            each.from_router(acknowledgment(lsa), 0)
        self.assertEqual([each.counters[WITHHELD] for each in links], [0, 1])

    def test_what_is_flushed_is_told_of_no_longer(self) -> None:
        bad = UNREAD["its reserved byte is 0x01"]
        self.came(update(bad))
        self.assertIn("is withheld", str(self.link.reports(1)[0]))
        _, acknowledged = self.came(update(MAX_AGE.to_bytes(2, "big") + bad[2:]))
        self.assertEqual(len(acknowledged), 1)
        self.assertFalse(any("is withheld" in str(each) for each in self.link.reports(1)))


def external(number: int, age: int = 1) -> bytes:
    """An AS-external-LSA of its own Link State ID."""
    net = IPv4Address(0x0A000000 + 256 * number).packed
    return sealed(age.to_bytes(2, "big") + EXTERNAL[2:4] + net + EXTERNAL[8:])


class Limits(unittest.TestCase):
    def setUp(self) -> None:
        self.places = Places(ROOM_AGAIN + 10)
        self.withheld = Withheld(self.places)

    def brought(self, lsas: list[bytes], now: float) -> tuple[int, int]:
        """How many of an Update's LSAs are passed on, which `routerd` then acknowledges, and how
        many are withheld."""
        passed, withheld = self.withheld.updated(lsas, now)
        self.withheld.sent(read(acknowledgment(*passed)), now)
        return len(passed), len(withheld)

    def test_above_the_limit(self) -> None:
        most = ROOM_AGAIN + 10
        lsas = [external(number) for number in range(most + 5)]
        self.assertEqual(self.brought(lsas[:most], 0), (most, 0))
        self.assertEqual(self.brought(lsas[most:], 0), (0, 5))
        self.assertEqual(self.brought(lsas[:7], 1), (7, 0))
        self.assertIn("more than 16384 LSAs", self.withheld.news[0])
        self.assertEqual(len(self.withheld.news), 1)
        (said,) = self.withheld.remarks(3)
        self.assertIn("(5 LSAs are withheld; 522 of the 522 there came by this link)", said)
        self.assertEqual(len(self.withheld.described([each[:20] for each in lsas], 2)), most)

    def test_the_way_back(self) -> None:
        """Once there is room, the exchange begins anew, so that the neighbor describes what was
        withheld; not again and again."""
        most = ROOM_AGAIN + 10
        self.brought([external(number) for number in range(most)], 0)
        self.brought([external(number) for number in range(most, most + 5)], 0)
        self.assertFalse(self.withheld.has_room_again(10))
        self.brought([external(number, MAX_AGE) for number in range(most - 10)], 20)
        self.assertTrue(self.withheld.has_room_again(30))
        self.assertFalse(self.withheld.has_room_again(30 + SECONDS_BETWEEN / 2))
        self.assertTrue(self.withheld.has_room_again(30 + SECONDS_BETWEEN))
        headers = [external(number)[:20] for number in range(most, most + 5)]
        self.assertEqual(len(self.withheld.described(headers, 50)), 5)
        self.assertEqual((list(self.withheld.remarks(99)), self.withheld.has_room_again(99)), ([], False))

    def test_an_exchange_comes_to_its_end(self) -> None:
        """However long it takes: what is withheld may be described by its last packet."""
        most = ROOM_AGAIN + 10
        self.brought([external(number) for number in range(most)], 0)
        self.brought([external(number) for number in range(most, most + 5)], 0)
        self.withheld.begun(20)
        self.withheld.described([external(most)[:20]], 20)
        self.brought([external(number, MAX_AGE) for number in range(most - 10)], 20)
        for now in range(22, 52):
            self.assertFalse(self.withheld.has_room_again(now))
            self.withheld.described([external(most - 1 - now % 10)[:20]], now)
        self.assertTrue(self.withheld.has_room_again(51 + SECONDS_BETWEEN))

    def test_those_withheld_are_gone(self) -> None:
        """A neighbor that was started anew describes them no more, and flushes none of them."""
        most = ROOM_AGAIN + 10
        self.brought([external(number) for number in range(most)], 0)
        self.brought([external(number) for number in range(most, most + 5)], 0)
        self.withheld.begun(20)
        self.withheld.described([external(number)[:20] for number in range(10)], 20)
        self.brought([external(number, MAX_AGE) for number in range(10, most)], 21)
        self.assertEqual(list(self.withheld.remarks(99)), [])
        self.assertFalse(self.withheld.has_room_again(99))

    def test_those_withheld_are_described_again(self) -> None:
        """They are told of still, and the log says it no more than once a minute."""
        most = ROOM_AGAIN + 10
        lsas = [external(number) for number in range(most + 5)]
        self.brought(lsas[:most], 0)
        self.brought(lsas[most:], 0)
        for now in range(5, 50, 5):
            self.withheld.begun(now)
            self.withheld.described([each[:20] for each in lsas], now)
            (said,) = self.withheld.remarks(now)
            self.assertIn("(5 LSAs are withheld; 522 of the 522 there came by this link)", said)
        self.assertEqual(len(self.withheld.news), 1)

    def test_a_flood(self) -> None:
        """What is known of what is withheld has a bound, and so has what was promised."""
        most = ROOM_AGAIN + 10
        with mock.patch("leafrunt_host.withheld.MOST_ABOVE", 1000):
            for at in range(10):
                lsas = [external(1000 * at + number) for number in range(1000)]
                for first in range(0, 1000, 100):
                    self.brought(lsas[first : first + 100], 0)
                self.withheld.described([each[:20] for each in lsas], 0)
            (said,) = self.withheld.remarks(1)
        sizes = [len(self.withheld._above), len(self.withheld._promised), len(self.places)]
        self.assertEqual((sizes[0], sizes[1]), (1000, 0))
        self.assertIn(sizes[2], range(most - 100, most + 1))
        self.assertIn("(1000 LSAs or more are withheld; ", said)

    def test_a_flood_of_what_is_flushed(self) -> None:
        """Headers at MaxAge promise nothing that has a place; of others there are no more than
        places are free, and the next exchange forgets them."""
        for number in range(2 * ROOM_AGAIN):
            lsas = external(2 * number, MAX_AGE), external(2 * number + 1)
            self.withheld.described([each[:20] for each in lsas], 0)
        self.assertEqual(len(self.withheld._promised), ROOM_AGAIN + 10)
        self.withheld.begun(1)
        self.assertEqual(len(self.withheld.described([external(1)[:20]], 1)), 1)

    def test_those_withheld_are_flushed(self) -> None:
        most = ROOM_AGAIN + 10
        self.brought([external(number) for number in range(most)], 0)
        self.brought([external(number) for number in range(most, most + 5)], 0)
        self.brought([external(number, MAX_AGE) for number in range(most, most + 5)], 1)
        self.assertEqual(list(self.withheld.remarks(99)), [])

    def test_what_was_only_described(self) -> None:
        """It takes no place, and keeps no other link's LSAs out."""
        self.withheld.described([external(number)[:20] for number in range(ROOM_AGAIN + 10)], 0)
        self.assertEqual(self.withheld.described([external(9999)[:20]], 0), ())
        self.assertEqual(len(self.places), 0)
        other = Withheld(self.places)
        self.assertEqual(len(other.updated([external(8888)], 0)[0]), 1)

    def test_what_was_described_and_comes_by_another_link(self) -> None:
        """It needs no second place."""
        other = Withheld(self.places)
        lsas = [external(number) for number in range(400)]
        self.withheld.described([each[:20] for each in lsas], 0)
        for first in range(0, 400, 100):
            passed, _ = other.updated(lsas[first : first + 100], 0)
            other.sent(read(acknowledgment(*passed)), 0)
        more = [external(number)[:20] for number in range(500, 580)]
        self.assertEqual(len(self.withheld.described(more, 1)), 80)

    def test_what_ran_out(self) -> None:
        """An LSA that nobody refreshes is gone from each database after an hour."""
        most = ROOM_AGAIN + 10
        self.brought([external(number) for number in range(most)], 0)
        self.assertEqual(self.brought([external(most)], MAX_AGE - 1), (0, 1))
        self.assertEqual(self.brought([external(most)], MAX_AGE + 1), (1, 0))

    def test_the_limit_costs_little(self) -> None:
        """The places aren't looked through for each LSA above it."""
        most = ROOM_AGAIN + 10
        self.brought([external(number) for number in range(most)], 0)
        with mock.patch("leafrunt_host.places.older_than", return_value=[]) as looked:
            for number in range(100):
                self.brought([external(most + number)], 1 + number / 1000)
        self.assertLessEqual(looked.call_count, 2)

    def test_what_the_router_originates(self) -> None:
        self.places.sent([external(1), external(2)], 0)
        self.assertEqual(len(self.places), 2)
        self.places.sent([external(1, MAX_AGE)], 1)
        self.assertEqual(len(self.places), 1)


if __name__ == "__main__":
    unittest.main()
