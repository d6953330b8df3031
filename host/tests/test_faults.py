"""Other routers' faults (faults.py) at the box: nothing raises, what an operator asks for is
answered, and the neighbor's good packets pass afterwards. What `routerd` does with them is tried by
`tools/fuzz datagrams`, which begins with them."""
import logging
import unittest
from ipaddress import IPv4Address, IPv4Network

from leafrunt_host.area import area_of
from leafrunt_host.area_map import map_lines
from leafrunt_host.authentication import Key, SequenceNumbers
from leafrunt_host.inbox import Inbox
from leafrunt_host.interfaces import KernelState
from leafrunt_host.link import Link
from leafrunt_host.lsas import MAX_AGE, RouterBody
from leafrunt_host.offers import Offers, announced_length, found_around, offered
from leafrunt_host.packet_filter import ip_packet
from leafrunt_host.packets import ROUTER_MTU, Description, PacketType, lsas_of, read
from leafrunt_host.topology import Topology, database_lines, whole_lines
from tests import captured, faults
from tests.faults import NEIGHBOR
from tests.test_bridge import ADDRESS, KEY, OWN, THERE, link, own_hello
from tests.test_topology import acknowledgment, external

HELLO = bytes.fromhex(captured.BIRD_HELLO_PLAIN)
TOGETHER = 7
"""Packets that come before `routerd` takes one."""


class Played:
    """A link whose neighbor is 2.2.2.2, with what is noted of its packets."""

    def __init__(self, *keys: Key) -> None:
        self.topology = Topology(clock=lambda: 1.0)
        self.link = Link(link(*keys).interface, SequenceNumbers(), watch=self.topology.watch)
        self.link.from_router(own_hello(), 0)

    def arrived(self, *packets: bytes) -> list[bytes]:
        """What `routerd` is given for packets that wait together."""
        inbox, given = Inbox(), []
        for data in packets:
            for each in self.link.arrived(ip_packet(THERE, data), 1.0).to_router:
                inbox.put(each)
        while (taken := inbox.take()) is not None:
            inbox.seen(0)
            given.append(taken)
        return given

    def acknowledged(self, lsas: list[bytes]) -> None:
        """As `routerd` does it with LSAs that it has installed."""
        self.link.from_router(acknowledgment(*lsas).encode(), 1.0)

    def why(self, identity: IPv4Address) -> list[str]:
        """What `leafrunt why` goes by, for prefixes of that address."""
        entries, now = self.topology.all_entries()
        announced_length(entries, identity)
        nets = {IPv4Network((identity, length), strict=False) for length in (0, 8, 24, 32)}
        offers = [Offers(found_around(entries, each, now), OWN, each).all() for each in nets]
        offered(entries, now, OWN, RouterBody(0, ()))
        return [it.why_not for each in offers for it in each]

    def looked_at(self) -> list[str]:
        """All that shows LSAs, as a client of the console asks for it."""
        self.link.status(1.0)
        lines = database_lines(self.topology)
        entries = self.topology.entries()
        for identity in {header.key.id for header, _ in entries}:
            lines += whole_lines([each for each in entries if each[0].key.id == identity])
            lines += self.why(identity)
        lines += map_lines(area_of((header.key, entry.body) for header, entry in entries), OWN)
        return lines


class Formatting(logging.Handler):
    """Makes each line of the log, as a handler that shows it does, and keeps the errors."""

    def __init__(self) -> None:
        super().__init__(logging.DEBUG)
        self.errors: list[str] = []

    def emit(self, record: logging.LogRecord) -> None:
        text = record.getMessage()
        if record.levelno >= logging.ERROR:
            self.errors.append(text)


class Faults(unittest.TestCase):
    def setUp(self) -> None:
        """The log at its most talkative: FRR and BIRD broke there too."""
        log, self.log = logging.getLogger("leafrunt"), Formatting()
        before = log.level, log.propagate, log.handlers
        log.level, log.propagate, log.handlers = logging.DEBUG, False, [self.log]

        def restore() -> None:
            log.level, log.propagate, log.handlers = before

        self.addCleanup(restore)

    def test_nothing_breaks(self) -> None:
        """In the neighbor's name, and in that of somebody else, whose packets the bridge reads less
        of."""
        for name, make in faults.FAULTS.items():
            for router in (NEIGHBOR, IPv4Address("4.4.4.4")):
                with self.subTest(name, router=router):
                    it, packets = Played(), [faults.named(each, router) for each in make()]
                    for at in range(0, len(packets), TOGETHER):
                        self.taken(it, packets[at : at + TOGETHER])
                    it.looked_at()
                    it.link.from_router(own_hello(), 1)
                    self.assertEqual(it.arrived(HELLO), [HELLO])
                    self.assertEqual(it.link.next_hop(NEIGHBOR), THERE)
                    self.assertEqual(self.log.errors, [])

    def taken(self, it: Played, packets: list[bytes]) -> None:
        """As `routerd` takes them."""
        for each in it.arrived(*packets):
            self.assertEqual(len(each), int.from_bytes(each[2:4], "big"))
            if each[1] == PacketType.LINK_STATE_UPDATE:
                it.acknowledged(self.lsas_of(each))

    def test_with_a_key_none_is_taken(self) -> None:
        it = Played(KEY)
        for make in faults.FAULTS.values():
            self.assertEqual(it.arrived(*make()), [])
        self.assertEqual(self.log.errors, [])

    @staticmethod
    def lsas_of(data: bytes) -> list[bytes]:
        """What `routerd` would find in it; nothing where it isn't filled."""
        try:
            return lsas_of(read(data).body)
        except ValueError:
            return []

    def test_lsas_of_no_use_reach_no_router(self) -> None:
        """Opaque ones are acknowledged here; of a network-LSA that isn't filled the same."""
        for make in (faults.segment_routing, faults.extended_links, faults.lengths_that_wrap):
            with self.subTest(make.__name__):
                it = Played()
                given = [each for data in make() for each in it.arrived(data)]
                self.assertEqual(given, [])
        it = Played()
        for data in faults.malformed_networks():
            for each in it.arrived(data):
                self.assertEqual([len(lsa) % 4 for lsa in self.lsas_of(each)], [0])
                self.assertGreaterEqual(len(each), 24 + 4 + 24)

    def test_masks_that_have_holes(self) -> None:
        """BIRD ab164971891c: such an LSA is kept, and is no network anywhere."""
        for data in faults.malformed_prefixes():
            it = Played()
            for each in it.arrived(data):
                it.acknowledged(self.lsas_of(each))
            self.assertIn("external", " ".join(it.looked_at()))
            area = area_of((header.key, entry.body) for header, entry in it.topology.entries())
            found = {prefix for prefix, _ in area.stubs(NEIGHBOR)}
            self.assertEqual((found, area.announced), (set(), {}))

    def test_a_changed_mtu(self) -> None:
        """BIRD 0ac9cb2c1f65, Quagga 0.98.3: any MTU of the kernel, while Descriptions come."""
        it = Played()
        for mtu in (0, 68, 92, 575, 1_500, 9_000, 65_535, 65_536, 2**31 - 1):
            state = KernelState(3, True, mtu, frozenset({ADDRESS.ip}))
            it.link.kernel_is(state, 1.0)
            for data in faults.other_mtus():
                for each in it.arrived(data):
                    self.assertEqual(Description.decode(read(each).body).mtu, ROUTER_MTU)
            self.assertEqual(it.arrived(HELLO), [HELLO])

    def test_flushed_and_back(self) -> None:
        """BIRD 8bd718b3ba34: what is withdrawn is gone from all lists."""
        it, prefix = Played(), "203.0.113.0/24"
        for sequence in range(1, 40):
            age = MAX_AGE if sequence % 2 else 0
            made = external(prefix, "2.2.2.2", sequence=sequence, age=age)
            it.arrived(faults.update(made))
            it.acknowledged([made])
            self.assertEqual("203.0.113.0" in " ".join(it.looked_at()), not age)

    def test_lists_of_nothing(self) -> None:
        """BIRD 56d8b1e7f625, 10c2e1e0125d: asked for before anything came."""
        it = Played()
        self.assertEqual(len(database_lines(it.topology)), 1)
        it.looked_at()


if __name__ == "__main__":
    unittest.main()
