"""IP packets at the box's interfaces, one without keys and one with, and datagrams of a router behind them: all that the bridge does with
them, without sockets. Nothing may raise, and afterwards a good packet passes."""
import random
import traceback
from collections.abc import Iterator
from ipaddress import IPv4Address, IPv4Network

import packets
from family import Broken, Errors, Family, changed
from leafrunt_host.area import area_of
from leafrunt_host.area_map import map_lines
from leafrunt_host.authentication import SequenceNumbers, sign
from leafrunt_host.inbox import Inbox
from leafrunt_host.link import Link, Sent
from leafrunt_host.lsas import RouterBody
from leafrunt_host.offers import Offers, announced_length, found_around, offered
from leafrunt_host.packet_filter import ip_packet
from leafrunt_host.places import Places
from leafrunt_host.topology import Topology, database_lines, whole_lines
from tests import captured, test_bridge

THERE, OWN = test_bridge.THERE, test_bridge.OWN
PLAIN, SIGNED, ROUTER = range(3)
"""Where an input comes in: its first byte."""
HELLO = bytes.fromhex(captured.BIRD_HELLO_PLAIN)
LOOKED_EACH = 500
SECONDS_EACH = 0.01


class Wire(Family):
    name = "wire"
    round = 20_000

    def inputs(self, rng: random.Random) -> Iterator[bytes]:
        number = 0
        for data in packets.packets(rng):
            number += 1
            side = rng.choice((PLAIN, PLAIN, PLAIN, SIGNED, ROUTER))
            if side == ROUTER:
                yield bytes([ROUTER]) + packets.sealed_packet(data, OWN.packed)
                continue
            if side == SIGNED and len(data) >= packets.HEADER and rng.random() < 0.9:
                data = sign(data, test_bridge.KEY, number)
                data = changed(rng, data) if rng.random() < 0.2 else data
            packet = ip_packet(THERE, data[:65_515])
            if rng.random() < 0.1:
                packet = packets.damaged(rng, packet)
            yield bytes([side]) + packet

    def begin(self) -> None:
        self.errors, self.now, self.count = Errors(), 0.0, 0
        self.topology, self.places = Topology(clock=lambda: self.now), Places(no_externals=1000)
        self.links = {side: self.link(side) for side in (PLAIN, SIGNED)}
        for each in self.links.values():
            each.from_router(test_bridge.own_hello(), 0)

    def link(self, side: int) -> Link:
        interface = test_bridge.link(*[test_bridge.KEY] * (side == SIGNED)).interface
        return Link(interface, SequenceNumbers(), watch=self.topology.watch, places=self.places)

    def play(self, data: bytes) -> None:
        self.now += SECONDS_EACH
        self.count += 1
        side, rest = data[0] % 3, data[1:]
        try:
            if side == ROUTER:
                for each in self.links.values():
                    each.from_router(rest, self.now)
            else:
                self.taken(self.links[side].arrived(rest, self.now))
            if self.count % LOOKED_EACH == 0:
                self.look()
        except Exception as error:
            raise Broken(said(error)) from error
        self.errors.check()

    def taken(self, sent: Sent) -> None:
        """As the bridge hands it on."""
        inbox = Inbox()
        for each in sent.to_router:
            inbox.put(each)
        while inbox.take() is not None:
            pass

    def why(self, addresses: list[IPv4Address]) -> None:
        """What `leafrunt why` goes by, for destinations of these addresses."""
        found, now = self.topology.all_entries()
        for each in addresses:
            length = announced_length(found, each)
            net = IPv4Network((each, min(length or 0, 32)), strict=False)
            Offers(found_around(found, net, now), OWN, net).all()
        offered(found, now, OWN, RouterBody(0, ()))

    def look(self) -> None:
        """All that an operator asks for."""
        for each in self.links.values():
            each.status(self.now)
        database_lines(self.topology)
        entries = self.topology.entries()
        whole_lines(entries[:20])
        self.why([header.key.id for header, _ in entries[:4]])
        map_lines(area_of((header.key, entry.body) for header, entry in entries), OWN)

    def settle(self) -> None:
        try:
            self.look()
            for each in self.links.values():
                each.from_router(test_bridge.own_hello(), self.now)
            passed = self.links[PLAIN].arrived(ip_packet(THERE, HELLO), self.now).to_router
            signed = sign(HELLO, test_bridge.KEY, 0xFFFFFFFF)
            passed += self.links[SIGNED].arrived(ip_packet(THERE, signed), self.now).to_router
        except Exception as error:
            raise Broken(said(error)) from error
        self.errors.check()
        if len(passed) != 2:
            raise Broken(f"of two good Hellos {len(passed)} pass")
        if {each.next_hop(IPv4Address("2.2.2.2")) for each in self.links.values()} != {THERE}:
            raise Broken("the neighbor's address isn't that of its Hellos")


def said(error: Exception) -> str:
    """An error, with the last line of this program that it came by."""
    at = traceback.extract_tb(error.__traceback__)[-1]
    return f"{type(error).__name__}: {error} ({at.filename.rpartition('/')[2]}, line {at.lineno})"
