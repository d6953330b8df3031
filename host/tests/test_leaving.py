"""A box that leaves: what it floods, and how long the kernel's routes stay."""
from __future__ import annotations

import random
import threading
import time
import unittest
from dataclasses import replace
from ipaddress import IPv4Address
from pathlib import Path
from unittest import mock

from leafrunt_host import leaving
from leafrunt_host.authentication import Algorithm, Authentication, Key, SequenceNumbers
from leafrunt_host.exchange import Side
from leafrunt_host.leaving import (
    MAX_SEQUENCE,
    SECONDS_TO_TURN,
    TIMES,
    own_router_lsa,
    turn_away,
    without_links,
)
from leafrunt_host.lsas import (
    MAX_AGE,
    LinkType,
    RouterBody,
    RouterLink,
    body_of,
    header_of,
    is_whole,
    sealed,
)
from leafrunt_host.packets import Packet, PacketType, lsas_of, read
from leafrunt_host.status import neighbors_of
from leafrunt_host.topology import Topology
from tests.test_bridge import KEY, THERE, link, own_hello, plain
from tests.test_desk import known
from tests.test_topology import EXTERNAL, router_lsa
from tests.test_withheld import longer

TWO = IPv4Address("2.2.2.2")
FULL = ["neighbor 1 2.2.2.2 Full", "neighbor 2 3.3.3.3 Full"]


def with_update(topology: Topology) -> bytes:
    """A database that has two LSAs of 2.2.2.2, one of them its router-LSA, which is returned."""
    links = (1, "1.1.1.1", "10.0.1.2", 10), (3, "10.0.1.0", "255.255.255.0", 5)
    lsas = [router_lsa("2.2.2.2", *links, flags=2), EXTERNAL]
    body = len(lsas).to_bytes(4, "big") + b"".join(lsas)
    topology.watch(Side.ROUTER, replace(plain("BIRD Update"), body=body), time.monotonic())
    return lsas[0]


def of_kind(lsa: bytes, kind: LinkType) -> list[RouterLink]:
    body = body_of(lsa)
    assert isinstance(body, RouterBody)
    return [each for each in body.links if each.type == kind]


class Bridge:
    """What is flooded, and when."""

    def __init__(self) -> None:
        self.flooded: list[list[bytes]] = []

    def flood(self, lsas: list[bytes]) -> None:
        self.flooded.append(lsas)


class Leaving(unittest.TestCase):
    def setUp(self) -> None:
        self.topology, self.bridge = Topology(), Bridge()
        self.lsa = with_update(self.topology)

    def turned(self, *neighbors: str, kernel: bool = True, hurried: bool = False) -> float:
        """The seconds that it took, of which one is a thousandth here."""
        it = known(kernel=kernel)
        it.configuration = mock.Mock(router_id=TWO, kernel=kernel)
        it.neighbors = neighbors_of(list(neighbors))
        event = threading.Event()
        if hurried:
            event.set()
        with mock.patch.multiple(leaving, BETWEEN=0.05, SECONDS_TO_TURN=0.3):
            return turn_away(it, self.bridge, self.topology, event)

    def test_its_own_router_lsa_loses_its_links(self) -> None:
        """The next instance, with its stub networks alone; no other LSA. It isn't flushed: this
        router would begin with the first number again, and FRR keeps a flushed one for a minute."""
        self.assertEqual(own_router_lsa(self.topology, IPv4Address("9.9.9.9")), [])
        self.turned(*FULL)
        self.assertEqual(len(self.bridge.flooded), TIMES)
        before, stubs = header_of(self.lsa), of_kind(self.lsa, LinkType.STUB)
        self.assertTrue(of_kind(self.lsa, LinkType.POINT_TO_POINT))
        for (lsa,) in self.bridge.flooded:
            after = header_of(lsa)
            self.assertEqual((after.age, after.sequence), (0, before.sequence + 1))
            self.assertEqual((after.key, after.options), (before.key, before.options))
            self.assertEqual(body_of(lsa), RouterBody(self.lsa[20], tuple(stubs)))
            self.assertTrue(is_whole(lsa))

    def test_links_of_a_router_lsa(self) -> None:
        """With TOS metrics, without any, with nothing but links that go; the last number."""
        tos = sealed(
            longer(router_lsa("2.2.2.2", (3, "10.0.1.0", "255.255.255.0", 5)), 4)[:33]
            + b"\1\0\5"
            + b"\2\0\0\7"
        )
        self.assertEqual(without_links(tos)[20:], tos[20:])
        bare = without_links(router_lsa("2.2.2.2", (1, "1.1.1.1", "10.0.1.2", 10), flags=2))
        self.assertEqual((bare[20:], is_whole(bare)), (b"\2\0\0\0", True))
        last = router_lsa("2.2.2.2", (1, "1.1.1.1", "10.0.1.2", 10), sequence=MAX_SEQUENCE)
        self.assertEqual(without_links(last), MAX_AGE.to_bytes(2, "big") + last[2:])

    def test_checksums(self) -> None:
        """Of any bytes the LSA that is made holds."""
        some = random.Random(1)
        for length in (20, 24, 36, 64, 333, 8164):
            for _ in range(40):
                size = length.to_bytes(2, "big")
                data = bytearray(some.randbytes(18) + size + some.randbytes(length - 20))
                self.assertTrue(is_whole(sealed(bytes(data))), data.hex())

    def test_how_long_the_routes_stay(self) -> None:
        """Only where others may send by this router; a second signal ends the wait."""
        self.assertGreaterEqual(self.turned(*FULL), 0.3)
        for neighbors, kernel, hurried in (
            (FULL, True, True),
            (FULL, False, False),
            (FULL[:1], True, False),
            ([FULL[0], "neighbor 2 3.3.3.3 Init"], True, False),
            ([], True, False),
        ):
            self.bridge.flooded.clear()
            with self.subTest(neighbors=neighbors, kernel=kernel, hurried=hurried):
                self.assertLess(self.turned(*neighbors, kernel=kernel, hurried=hurried), 0.3)
                self.assertEqual(len(self.bridge.flooded), 1)
        self.assertLess(TIMES * leaving.BETWEEN, SECONDS_TO_TURN)

    def test_systemd_ends_the_box_alone(self) -> None:
        """Without that it sends SIGTERM to `routerd` too, and the box ends with status 3."""
        unit = Path(__file__).resolve().parent.parent / "leafrunt@.service"
        self.assertIn("KillMode=mixed", unit.read_text().splitlines())

    def test_an_update_of_the_link(self) -> None:
        one = link(KEY)
        self.assertEqual(one.update([self.lsa]).to_wire, [])
        one.from_router(own_hello(), 0)
        self.assertEqual(one.update([]).to_wire, [])
        (sent,) = one.update([self.lsa]).to_wire
        packet = Authentication((KEY,), SequenceNumbers()).judged(sent, THERE, 0)
        assert isinstance(packet, Packet)
        self.assertEqual(packet.type, PacketType.LINK_STATE_UPDATE)
        self.assertEqual((packet.router_id, lsas_of(packet.body)), (IPv4Address("1.1.1.1"), [self.lsa]))


if __name__ == "__main__":
    unittest.main()
