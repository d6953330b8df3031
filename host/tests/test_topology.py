import struct
import unittest
from ipaddress import IPv4Address, IPv4Network
from itertools import accumulate
from unittest import mock

from leafrunt_host.area import Area, Ways, area_of, network, router
from leafrunt_host.area_map import Destination, map_lines
from leafrunt_host.exchange import Side
from leafrunt_host.kernel import KernelRoute, Way, route_to
from leafrunt_host.lsas import (
    MAX_AGE,
    LsHeader,
    body_of,
    header_of,
    is_newer,
    is_whole,
    network_of,
)
from leafrunt_host.packets import Packet, PacketType
from leafrunt_host.rtnetlink import NextHop, Route
from leafrunt_host.topology import (
    Entry,
    Topology,
    database_lines,
    is_of,
    meant_by,
    whole_lines,
)

EXTERNAL = bytes.fromhex(
    "00000205cb0071000101010180000001542900 24ffffff00800000140000000000000000"
)
"""203.0.113.0/24 of 1.1.1.1, type 2, metric 20: its checksum is one that other routers take."""
SUMMARY = bytes.fromhex("00000203c633640002020202 80000001925f001cffffff0000000005")
"""198.51.100.0/24 of 2.2.2.2, metric 5."""
FIRST = -0x7FFFFFFF


def sealed(data: bytes) -> bytes:
    """The LSA with its check bytes: the ones of 1 to 255 that make both sums 0 modulo 255 (RFC 905,
    annex B)."""
    blank = data[:16] + b"\0\0" + data[18:]
    covered = blank[2:]
    first, second, after = sum(covered), sum(accumulate(covered)), len(covered) - 15
    for one in range(1, 256):
        two = (-first - one) % 255 or 255
        if (second + (after + 1) * one + after * two) % 255 == 0:
            break
    return blank[:16] + bytes([one, two]) + blank[18:]


def lsa(
    kind: int, identity: str, of: str, body: bytes, sequence: int = FIRST, age: int = 0
) -> bytes:
    head = struct.pack(
        ">HBB4s4siHH",
        age,
        2,
        kind,
        IPv4Address(identity).packed,
        IPv4Address(of).packed,
        sequence,
        0,
        20 + len(body),
    )
    return sealed(head + body)


def router_lsa(of: str, *links: tuple[int, str, str, int], flags: int = 0, **fields: int) -> bytes:
    body = struct.pack(">BBH", flags, 0, len(links))
    for kind, identity, data, metric in links:
        body += (
            IPv4Address(identity).packed
            + IPv4Address(data).packed
            + struct.pack(">BBH", kind, 0, metric)
        )
    return lsa(1, of, of, body, **fields)


def external(
    prefix: str,
    of: str,
    metric: int = 20,
    kind: int = 2,
    forwarding: str = "0.0.0.0",
    **fields: int,
) -> bytes:
    net = IPv4Network(prefix)
    body = net.netmask.packed + struct.pack(">I", (0x80000000 if kind == 2 else 0) | metric)
    return lsa(
        5, str(net.network_address), of, body + IPv4Address(forwarding).packed + bytes(4), **fields
    )


def update(*lsas: bytes) -> Packet:
    body = len(lsas).to_bytes(4, "big") + b"".join(lsas)
    return Packet(PacketType.LINK_STATE_UPDATE, IPv4Address("9.9.9.9"), IPv4Address(0), body)


def acknowledgment(*lsas: bytes) -> Packet:
    body = b"".join(each[:20] for each in lsas)
    return Packet(
        PacketType.LINK_STATE_ACKNOWLEDGMENT, IPv4Address("1.1.1.1"), IPv4Address(0), body
    )


def of(topology: Topology, text: str) -> list[tuple[LsHeader, Entry]]:
    """The LSAs that are meant so."""
    return [each for each in topology.entries() if is_of(meant_by(text), *each)]


class Lsas(unittest.TestCase):
    def test_checksums(self) -> None:
        self.assertTrue(is_whole(EXTERNAL))
        self.assertTrue(is_whole(SUMMARY))
        self.assertTrue(is_whole(router_lsa("1.1.1.1", (3, "10.0.1.0", "255.255.255.0", 10))))
        for place in range(2, len(EXTERNAL)):
            changed = bytearray(EXTERNAL)
            changed[place] ^= 4
            with self.subTest(place):
                self.assertFalse(is_whole(bytes(changed)))
        self.assertFalse(is_whole(EXTERNAL[:-1]))
        self.assertFalse(is_whole(EXTERNAL[:16] + b"\0\0" + EXTERNAL[18:]))
        self.assertIsNone(header_of(EXTERNAL[:19]))
        self.assertIsNone(header_of(EXTERNAL[:3] + b"\x0a" + EXTERNAL[4:]))

    def test_newer(self) -> None:
        """RFC 2328, 13.1."""

        def one(sequence: int = 1, checksum: int = 1, age: int = 0) -> tuple[bytes, int]:
            return bytes(12) + struct.pack(">iHH", sequence, checksum, 24), age

        for newer, older in (
            (one(0x7FFFFFFF), one(FIRST)),
            (one(2, 1, 3600), one(1, 9)),
            (one(1, 2), one(1, 1)),
            (one(1, 1, 3600), one(1, 1, 3599)),
            (one(1, 1, 99), one(1, 1, 1000)),
        ):
            self.assertTrue(is_newer(newer[0], older[0], newer[1], older[1]))
            self.assertFalse(is_newer(older[0], newer[0], older[1], newer[1]))
        self.assertFalse(is_newer(one()[0], one()[0], 100, 1000))

    def test_bodies_that_are_too_short(self) -> None:
        whole = router_lsa("1.1.1.1", (1, "2.2.2.2", "10.0.1.1", 10))
        for data in (
            whole[:-1],
            EXTERNAL[:30],
            SUMMARY[:22],
            lsa(2, "10.0.1.1", "1.1.1.1", b"\xff\xff"),
        ):
            with self.subTest(data):
                self.assertIsNone(body_of(data))

    def test_networks(self) -> None:
        address = IPv4Address("10.1.2.3")
        for mask, net in (
            ("255.255.255.0", "10.1.2.0/24"),
            ("0.0.0.0", "0.0.0.0/0"),
            ("255.255.255.255", "10.1.2.3/32"),
        ):
            self.assertEqual(network_of(address, IPv4Address(mask)), IPv4Network(net))
        for mask in ("0.0.0.255", "255.0.255.0", "127.255.255.255"):
            self.assertIsNone(network_of(address, IPv4Address(mask)))


class Databases(unittest.TestCase):
    def setUp(self) -> None:
        self.now = 100.0
        self.topology = Topology(lambda: self.now)

    def instances(self) -> list[tuple[str, int, int]]:
        return [
            (str(header.key.id), header.sequence - FIRST + 1, header.age)
            for header, _ in self.topology.entries()
        ]

    def wire(self, *lsas: bytes, is_acknowledged: bool = True) -> None:
        self.topology.watch(Side.WIRE, update(*lsas), self.now)
        if is_acknowledged:
            self.topology.watch(Side.ROUTER, acknowledgment(*lsas), self.now)

    def sent(self, *lsas: bytes) -> None:
        self.topology.watch(Side.ROUTER, update(*lsas), self.now)

    def test_from_the_wire_it_counts_once_it_is_acknowledged(self) -> None:
        self.wire(EXTERNAL, is_acknowledged=False)
        self.assertEqual(self.instances(), [])
        self.topology.watch(Side.WIRE, acknowledgment(EXTERNAL), self.now)
        self.assertEqual(self.instances(), [])
        self.topology.watch(Side.ROUTER, acknowledgment(EXTERNAL), self.now)
        self.assertEqual(self.instances(), [("203.0.113.0", 1, 0)])

    def test_what_routerd_sends_counts(self) -> None:
        self.sent(EXTERNAL, SUMMARY)
        self.assertEqual(self.instances(), [("198.51.100.0", 1, 0), ("203.0.113.0", 1, 0)])

    def test_damaged_lsas_and_unknown_kinds_do_not(self) -> None:
        self.sent(EXTERNAL[:-1] + b"\1", EXTERNAL[:3] + b"\x0b" + EXTERNAL[4:])
        self.topology.watch(
            Side.ROUTER,
            Packet(PacketType.LINK_STATE_UPDATE, IPv4Address(1), IPv4Address(0), b"\0\0\0\1"),
            0,
        )
        self.assertEqual(self.instances(), [])

    def test_by_network(self) -> None:
        """Of two destinations with one address one has host bits in its Link State ID (RFC 2328,
        appendix E)."""
        body = external("198.51.100.0/24", "2.2.2.2")
        self.sent(lsa(5, "198.51.100.255", "2.2.2.2", body[20:]))
        self.sent(external("198.51.100.0/25", "2.2.2.2"), SUMMARY)
        self.sent(router_lsa("2.2.2.2", (3, "198.51.100.0", "255.255.255.0", 1)))
        found = [(header.key.type, str(header.key.id)) for header, _ in of(self.topology, "198.51.100.0/24")]
        self.assertIn((5, "198.51.100.255"), found)
        self.assertIn((1, "2.2.2.2"), found)
        self.assertNotIn((5, "198.51.100.0"), found)
        self.assertEqual(of(self.topology, "198.51.0.0/16"), [])
        for wrong in ("198.51.100.1/24", "x", "1.2.3"):
            self.assertRaises(ValueError, meant_by, wrong)

    def test_ages(self) -> None:
        self.sent(external("10.0.0.0/8", "1.1.1.1", age=30))
        self.now += 70.5
        self.assertEqual(self.instances(), [("10.0.0.0", 1, 100)])
        self.now += 3500
        self.assertEqual(self.instances(), [])

    def test_the_newer_stays(self) -> None:
        self.sent(external("10.0.0.0/8", "1.1.1.1", sequence=FIRST + 4))
        self.sent(external("10.0.0.0/8", "1.1.1.1", sequence=FIRST + 3))
        self.assertEqual(self.instances(), [("10.0.0.0", 5, 0)])
        self.wire(external("10.0.0.0/8", "1.1.1.1", sequence=FIRST + 5))
        self.assertEqual(self.instances(), [("10.0.0.0", 6, 0)])

    def test_flushed_and_begun_anew(self) -> None:
        """RFC 2328, 12.1.6: after a flush the first sequence number comes again."""
        self.sent(external("10.0.0.0/8", "1.1.1.1", sequence=FIRST + 4))
        self.wire(external("10.0.0.0/8", "1.1.1.1", sequence=FIRST + 4, age=MAX_AGE))
        self.assertEqual(self.instances(), [])
        self.sent(external("10.0.0.0/8", "1.1.1.1", sequence=FIRST + 4))
        self.assertEqual(self.instances(), [])  # sent just before the flush, read after it
        self.now += 2
        self.sent(external("10.0.0.0/8", "1.1.1.1"))
        self.assertEqual(self.instances(), [("10.0.0.0", 1, 0)])

    def test_what_waits_is_bounded(self) -> None:
        one, two = external("10.0.0.0/8", "2.2.2.2"), external("11.0.0.0/8", "2.2.2.2")
        self.wire(one, is_acknowledged=False)
        self.now += 61
        self.wire(two)
        self.topology.watch(Side.ROUTER, acknowledgment(one), self.now)
        self.assertEqual(self.instances(), [("11.0.0.0", 1, 0)])

    def test_bytes_that_wait(self) -> None:
        """Few LSAs may have many: of those that nobody acknowledges the oldest go."""
        lsas = [lsa(1, f"2.2.2.{number}", "2.2.2.2", bytes(30_000)) for number in range(9)]
        with mock.patch("leafrunt_host.topology.MOST_BYTES", 100_000):
            for each in lsas:
                self.wire(each, is_acknowledged=False)
                self.instances()
                waiting = self.topology._waiting.values()
                self.assertLessEqual(sum(len(entry.data) for entry in waiting), 100_000)
            self.topology.watch(Side.ROUTER, acknowledgment(*lsas), self.now)
        self.assertEqual(len(self.instances()), 3)
        self.assertEqual(self.topology._waiting_bytes, 0)

    def test_bytes_that_are_not_read_yet(self) -> None:
        packet = update(lsa(1, "2.2.2.2", "2.2.2.2", bytes(30_000)))
        with mock.patch("leafrunt_host.topology.MOST_BYTES", 100_000):
            with self.topology._one_at_a_time:
                for _ in range(9):
                    self.topology.watch(Side.WIRE, packet, self.now)
                self.assertGreaterEqual(self.topology.left_out, 5)
            self.instances()
            self.topology.watch(Side.ROUTER, packet, self.now)
        self.assertEqual(len(self.instances()), 1)

    def test_what_was_left_out_comes_again(self) -> None:
        """Within an hour: then the database is whole again, and a reload may go by it."""
        with mock.patch("leafrunt_host.topology.MOST_UNREAD", 0):
            for count in (1, 2):
                self.topology.watch(Side.ROUTER, update(EXTERNAL), self.now)
                self.assertEqual(self.topology.left_out, count)
                self.now += 3000
        self.now += 3000
        self.assertEqual(self.topology.left_out, 0)
        self.assertEqual(len(database_lines(self.topology)), 1)

    def test_what_is_flushed_is_forgotten(self) -> None:
        """`routerd` acknowledges what is flushed, and keeps it no longer (RFC 2328, 13, step 4): a
        neighbor may flush LSAs of ever other names."""
        with mock.patch("leafrunt_host.topology.MOST_ENTRIES", 100):
            self.topology = Topology(lambda: self.now)
            self.sent(EXTERNAL)
            for number in range(400):
                self.now += 0.25
                self.wire(external(f"10.{number >> 8}.{number & 255}.0/24", "2.2.2.2", age=MAX_AGE))
            self.assertEqual(self.instances(), [("203.0.113.0", 1, 100)])
            self.assertLessEqual(len(self.topology._entries), 101)

    def test_many_that_count(self) -> None:
        """What is there stays, however much that is."""
        with mock.patch("leafrunt_host.topology.MOST_ENTRIES", 100):
            self.topology = Topology(lambda: self.now)
            self.sent(*(external(f"10.0.{number}.0/24", "2.2.2.2") for number in range(250)))
            self.assertEqual(len(self.instances()), 250)

    def test_lines(self) -> None:
        self.sent(
            EXTERNAL,
            router_lsa(
                "1.1.1.1",
                (1, "2.2.2.2", "10.0.1.1", 10),
                (3, "10.0.1.0", "255.255.255.0", 10),
                flags=2,
            ),
        )
        lines = database_lines(self.topology)
        self.assertEqual(len(lines), 3)
        self.assertEqual(
            lines[2].split(), ["external", "203.0.113.0", "1.1.1.1", "80000001", "0", "5429"]
        )
        self.assertEqual(
            whole_lines(of(self.topology, "203.0.113.0"))[2:],
            ["  mask 255.255.255.0, type 2, metric 20, forwarding address 0.0.0.0, tag 0"],
        )
        self.assertEqual(
            whole_lines(of(self.topology, "1.1.1.1"))[2:],
            [
                "  flags: AS boundary router",
                "  link to the router 2.2.2.2, own address 10.0.1.1, metric 10",
                "  stub network 10.0.1.0, mask 255.255.255.0, metric 10",
            ],
        )
        self.assertEqual(of(self.topology, "9.9.9.9"), [])


MASK = "255.255.255.0"
ONE, TWO, THREE, FOUR = (IPv4Address(f"{n}.{n}.{n}.{n}") for n in range(1, 5))


def area(*lsas: bytes) -> Area:
    return area_of((header_of(each).key, body_of(each)) for each in lsas)


SQUARE = [
    # 1 to 2 and 1 to 3, both of them to 4, which has 192.0.2.0/24 and announces 203.0.113.0/24
    router_lsa(
        "1.1.1.1",
        (1, "2.2.2.2", "10.0.12.1", 5),
        (3, "10.0.12.0", MASK, 5),
        (1, "3.3.3.3", "10.0.13.1", 5),
        (3, "10.0.13.0", MASK, 5),
    ),
    router_lsa(
        "2.2.2.2",
        (1, "1.1.1.1", "10.0.12.2", 7),
        (1, "4.4.4.4", "10.0.24.2", 5),
        (3, "10.0.24.0", MASK, 5),
    ),
    router_lsa("3.3.3.3", (1, "1.1.1.1", "10.0.13.3", 5), (1, "4.4.4.4", "10.0.34.3", 5)),
    router_lsa(
        "4.4.4.4",
        (1, "2.2.2.2", "10.0.24.4", 5),
        (1, "3.3.3.3", "10.0.34.4", 5),
        (3, "192.0.2.0", MASK, 10),
        flags=2,
    ),
    external("203.0.113.0/24", "4.4.4.4"),
]


class WaysTest(unittest.TestCase):
    def test_equal_ways(self) -> None:
        ways = Ways(area(*SQUARE), ONE)
        self.assertEqual(
            {str(vertex.id): cost for vertex, cost in ways.cost.items()},
            {"1.1.1.1": 0, "2.2.2.2": 5, "3.3.3.3": 5, "4.4.4.4": 10},
        )
        self.assertEqual(len(ways.steps_to([router(FOUR)])), 4)
        self.assertEqual(ways.ends_for(IPv4Network("192.0.2.0/24")), [router(FOUR)])
        self.assertEqual(ways.ends_for(IPv4Network("203.0.113.0/24")), [router(FOUR)])
        self.assertEqual(ways.ends_for(IPv4Network("198.51.100.0/24")), [])

    def test_a_link_without_one_back_does_not_count(self) -> None:
        alone = [*SQUARE[:3], router_lsa("4.4.4.4", (3, "192.0.2.0", MASK, 10))]
        self.assertNotIn(router(FOUR), Ways(area(*alone), ONE).cost)

    def test_a_router_lsa_under_another_name(self) -> None:
        """Whoever announces one with a router's name as its Link State ID changes nothing of it."""
        forged = lsa(1, "2.2.2.2", "3.3.3.3", bytes(4))
        there = router_lsa("2.2.2.2", (3, "192.0.2.0", MASK, 5))
        for lsas in ((there, forged), (forged, there)):
            self.assertEqual(len(list(area(*lsas).stubs(TWO))), 1)
        self.assertEqual(area(forged).routers, {})

    def test_a_transit_network(self) -> None:
        one = router_lsa("1.1.1.1", (2, "10.0.0.2", "10.0.0.1", 3))
        two = router_lsa("2.2.2.2", (2, "10.0.0.2", "10.0.0.2", 3))
        three = router_lsa("3.3.3.3")
        net = lsa(
            2,
            "10.0.0.2",
            "2.2.2.2",
            IPv4Address(MASK).packed + ONE.packed + TWO.packed + THREE.packed,
        )
        ways = Ways(area(one, two, three, net), ONE)
        self.assertEqual(
            ways.cost, {router(ONE): 0, network(IPv4Address("10.0.0.2")): 3, router(TWO): 3}
        )
        self.assertEqual(
            ways.ends_for(IPv4Network("10.0.0.0/24")), [network(IPv4Address("10.0.0.2"))]
        )

    def test_externals_by_kind_metric_and_distance(self) -> None:
        prefix = "203.0.113.0/24"
        near, far = Ways(area(*SQUARE[:4]), ONE), IPv4Network(prefix)
        self.assertEqual(near.ends_for(far), [])
        for more, end in (
            ([external(prefix, "4.4.4.4", 20), external(prefix, "4.4.4.4", 20)], FOUR),
            ([external(prefix, "4.4.4.4", 30, kind=1), external(prefix, "4.4.4.4", 1)], FOUR),
            ([external(prefix, "2.2.2.2", 1)], None),  # not flagged as a boundary router
            ([external(prefix, "4.4.4.4", 20, forwarding="10.0.12.9")], ONE),
            ([external(prefix, "4.4.4.4", 20, forwarding="10.9.9.9")], None),
            ([external(prefix, "4.4.4.4", 0xFFFFFF)], None),
        ):
            with self.subTest(end=end):
                found = Ways(area(*SQUARE[:4], *more), ONE).ends_for(far)
                self.assertEqual(set(found), {router(end)} if end else set())


class Maps(unittest.TestCase):
    def test_the_square(self) -> None:
        lines = map_lines(area(*SQUARE), ONE)
        self.assertEqual(lines[0], "digraph area {")
        self.assertEqual(lines[-1], "}")
        self.assertIn('  "1.1.1.1" -> "3.3.3.3" [label="10.0.13.0/24\\ncost 5"];', lines)
        self.assertIn(
            '  "1.1.1.1" -> "2.2.2.2" [label="10.0.12.0/24", taillabel="5", headlabel="7"];', lines
        )
        self.assertIn('  "3.3.3.3" -> "4.4.4.4" [label="cost 5"];', lines)
        self.assertIn(
            '  "announced by 4.4.4.4" [shape=note, label="203.0.113.0/24 E2 metric 20\\l"];', lines
        )
        self.assertFalse([line for line in lines if "#c00000" in line])

    def test_the_way_that_the_kernel_takes(self) -> None:
        """The kernel sends by 10.0.13.1 alone, though both ways cost the same."""
        to = Destination(IPv4Network("203.0.113.0/24"), (IPv4Address("10.0.13.1"),), "by eth2")
        lines = map_lines(area(*SQUARE), ONE, to)
        marked = [line.split(" [")[0].strip() for line in lines if "#c00000" in line]
        self.assertEqual(
            marked,
            ['"1.1.1.1"', '"3.3.3.3"', '"4.4.4.4"', '"1.1.1.1" -> "3.3.3.3"', '"3.3.3.3" -> "4.4.4.4"',
             '"announced by 4.4.4.4"', '"4.4.4.4" -> "announced by 4.4.4.4"'],
        )  # fmt: skip
        self.assertIn("by eth2", lines[4])

    def test_against_the_order_of_the_routers(self) -> None:
        to = Destination(IPv4Network("10.0.12.0/24"), (IPv4Address("10.0.24.4"),), "")
        lines = map_lines(area(*SQUARE), FOUR, to)
        self.assertTrue(
            any(
                line.startswith('  "2.2.2.2" -> "4.4.4.4"') and "dir=back" in line
                for line in lines
            )
        )

    def test_many_externals(self) -> None:
        many = [external(f"10.{n}.0.0/16", "4.4.4.4") for n in range(30)]
        (line,) = [
            line for line in map_lines(area(*SQUARE[:4], *many), ONE) if "shape=note" in line
        ]
        self.assertIn("10.5.0.0/16 E2 metric 20\\land 24 more\\l", line)

    def test_one_without_links_and_one_that_nothing_is_known_of(self) -> None:
        self.assertEqual(len(map_lines(area(), ONE)), 6)
        to = Destination(IPv4Network("10.0.0.0/8"), (IPv4Address("10.0.12.1"),), "")
        self.assertEqual(len(map_lines(area(), ONE, to)), 6)
        lines = map_lines(
            area(router_lsa("1.1.1.1", (1, "2.2.2.2", "10.0.12.1", 5)), router_lsa("2.2.2.2")), ONE
        )
        self.assertTrue(any("style=dashed, dir=forward" in line for line in lines))


class KernelRoutes(unittest.TestCase):
    def test_the_longest_and_then_the_least_metric(self) -> None:
        names = {1: "eth1", 2: "eth2", 9: "eth9"}
        routes = [
            Route(bytes(5), 4, 0, 0, ((bytes([10, 0, 0, 9]), 9),)),
            Route(bytes([10, 0, 0, 0, 8]), 89, 89, 0, ((bytes([10, 0, 1, 2]), 1),)),
            Route(bytes([10, 0, 0, 0, 8]), 12, 20, 0, ((bytes([10, 0, 2, 2]), 2),)),
            Route(bytes([10, 0, 1, 0, 24]), 2, 0, 0, ((b"", 1),)),
            Route(bytes([10, 9, 0, 0, 16]), 4, 0, 0, ()),
        ]

        def to(text: str, next_hops: dict[int, NextHop] | None = None) -> KernelRoute | None:
            return route_to(IPv4Network(text), routes, names, next_hops or {})

        way = Way("eth2", IPv4Address("10.0.2.2"))
        ten, link = IPv4Network("10.0.0.0/8"), IPv4Network("10.0.1.0/24")
        self.assertEqual(to("10.7.0.0/16"), KernelRoute(ten, (way,)))
        self.assertEqual(to("10.0.0.0/16"), KernelRoute(ten, (way,)))
        self.assertEqual(to("10.0.1.128/25"), KernelRoute(link, (Way("eth1", None),)))
        self.assertEqual(to("10.9.1.0/24"), KernelRoute(IPv4Network("10.9.0.0/16"), ()))
        own = Route(bytes([192, 0, 2, 1, 32]), 89, 89, 7, ())
        routes.append(own)
        members = {1: NextHop(1, 1, bytes([10, 0, 1, 2])), 2: NextHop(2, 2, bytes([10, 0, 2, 2]))}
        found = to("192.0.2.1", {**members, 7: NextHop(7, members=(1, 2))})
        assert found
        self.assertEqual(found.ways, (Way("eth1", IPv4Address("10.0.1.2")), way))
        routes.clear()
        self.assertIsNone(to("192.0.2.1"))


class News(unittest.TestCase):
    def test_what_is_new(self) -> None:
        """An LSA that is known, and comes again or as a later instance that says the same, isn't."""
        came: list[int] = []
        topology = Topology(clock=lambda: 0.0, news=lambda: came.append(1))
        later = sealed(EXTERNAL[:12] + bytes.fromhex("80000009") + EXTERNAL[16:])
        other = sealed(later[:12] + bytes.fromhex("8000000a") + later[16:27] + b"\7" + later[28:])
        for side in Side:
            for data, news in (
                (EXTERNAL, side is Side.WIRE),
                (EXTERNAL, False),
                (later, False),
                (other, True),
                (other[:0] + (3600).to_bytes(2, "big") + other[2:], True),
                (EXTERNAL, True),
            ):
                came.clear()
                head = (1).to_bytes(4, "big") + data
                update = Packet(PacketType.LINK_STATE_UPDATE, IPv4Address(9), IPv4Address(0), head)
                topology.watch(side, update, 0.0)
                acknowledged = Packet(
                    PacketType.LINK_STATE_ACKNOWLEDGMENT, IPv4Address(1), IPv4Address(0), data[:20]
                )
                topology.watch(Side.ROUTER, acknowledged, 1.0)
                topology.entries()
                with self.subTest(side=side, data=data.hex()):
                    self.assertEqual(bool(came), news)

    def test_the_own_router_lsa(self) -> None:
        """It is, though it says what the one of before the start said: with it come the routes."""
        came: list[int] = []
        topology = Topology(clock=lambda: 0.0, news=lambda: came.append(1))
        own, other = router_lsa("0.0.0.9"), router_lsa("0.0.0.8")
        for side, data, news in (
            (Side.ROUTER, own, True),
            (Side.ROUTER, other, True),
            (Side.ROUTER, own, True),
            (Side.ROUTER, other, False),
            (Side.WIRE, own, False),
        ):
            came.clear()
            head = (1).to_bytes(4, "big") + data
            update = Packet(PacketType.LINK_STATE_UPDATE, IPv4Address(9), IPv4Address(0), head)
            topology.watch(side, update, 0.0)
            topology.entries()
            self.assertEqual(bool(came), news)


if __name__ == "__main__":
    unittest.main()
