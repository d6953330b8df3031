"""External destinations by a forwarding address in a network of the router's own."""
from __future__ import annotations

import time
import unittest
from dataclasses import replace
from types import SimpleNamespace

from leafrunt_host.exchange import Side
from leafrunt_host.forwarding_addresses import hops_by_address
from leafrunt_host.lsas import MAX_AGE
from leafrunt_host.packets import Packet
from leafrunt_host.topology import Entry, Topology
from tests.test_reloading import configuration, settings
from tests.test_topology import external, update

FAR = "14.0.0.0/24"
GATEWAY = "192.168.50.254"


class ByAddress(unittest.TestCase):
    def setUp(self) -> None:
        lan, other = settings("lan", "192.168.50.1/24"), settings("eth2", "10.0.2.1/24")
        self.topology = Topology()
        self.known = SimpleNamespace(configuration=configuration(lan, other), links={})

    def watch(self, packet: Packet) -> None:
        self.topology.watch(Side.ROUTER, packet, time.monotonic())

    def hops(self, line: str = f"{FAR} ext2 20 via 0") -> dict[str, list[str]]:
        lines = {line.split()[0].encode(): line.encode()}
        found = hops_by_address(self.known, self.topology, lines)  # type: ignore[arg-type]
        return {each.decode(): sorted(map(str, hops)) for each, hops in found.items()}

    def test_the_one_that_the_table_has(self) -> None:
        """The address in the LSA; another prefix, type or metric isn't meant, nor an address that is
        no other router's."""
        self.assertEqual(self.hops(), {})
        self.watch(
            update(
                external(FAR, "2.2.2.2", forwarding=GATEWAY),
                external(FAR, "3.3.3.3", forwarding="192.168.50.253", metric=30),
                external(FAR, "4.4.4.4", forwarding="192.168.50.252", kind=1),
                external(FAR, "5.5.5.5", forwarding="192.168.50.1"),
                external(FAR, "6.6.6.6", forwarding="10.9.9.9"),
                external(FAR, "7.7.7.7"),
                external(FAR, "1.1.1.1", forwarding="192.168.50.251"),
                external("14.0.1.0/24", "2.2.2.2", forwarding="192.168.50.250"),
            )
        )
        self.assertEqual(self.hops(), {FAR: [f"via {GATEWAY} dev lan"]})
        self.assertEqual(self.hops(f"{FAR} ext1 30 via 0"), {FAR: ["via 192.168.50.252 dev lan"]})
        self.assertEqual(self.hops("14.0.0.0/16 ext2 20 via 0"), {})

    def test_several(self) -> None:
        """Those with the least cost to the address (RFC 2328, 16.4, step 6)."""
        ones = [("2.2.2.2", GATEWAY), ("3.3.3.3", "192.168.50.253"), ("4.4.4.4", "10.0.2.9")]
        self.watch(update(*(external(FAR, of, forwarding=to) for of, to in ones)))
        lan, other = self.known.configuration.interfaces
        self.assertEqual(len(self.hops()[FAR]), 3)
        self.known.configuration = configuration(lan, replace(other, cost=11))
        ways = {FAR: ["via 192.168.50.253 dev lan", f"via {GATEWAY} dev lan"]}
        self.assertEqual(self.hops(), ways)
        self.known.links = {1: SimpleNamespace(is_usable=False)}
        self.assertEqual(self.hops(), {FAR: ["via 10.0.2.9 dev eth2"]})

    def test_what_others_may_write(self) -> None:
        """A mask that is none; host bits in the Link State ID (appendix E); one that is flushed."""
        one = external(FAR, "2.2.2.2", forwarding=GATEWAY)
        self.watch(update(MAX_AGE.to_bytes(2, "big") + one[2:]))
        self.assertEqual(self.hops(), {})
        for data, is_one in (
            (one, True),
            (one[:7] + b"\xff" + one[8:], True),
            (one[:20] + b"\xff\0\xff\0" + one[24:], False),
            (one[:24], False),
        ):
            entry = Entry(data, 0, 0.0)
            self.topology = SimpleNamespace(all_entries=lambda: ([(data[3:12], entry)], 0.0))
            self.assertEqual(self.hops(), {FAR: [f"via {GATEWAY} dev lan"]} if is_one else {})


if __name__ == "__main__":
    unittest.main()
