"""LSAs that a box can't have, and that its neighbors hold: see `try-network`."""
from __future__ import annotations

import signal
import sys
import time

from tests.network import (
    COMES_UP,
    DEAD_INTERVAL,
    HOST,
    Bird,
    Box,
    End,
    Frr,
    Looks,
    Network,
    Side,
    Try,
    is_full,
    is_said,
    prefixes,
    run,
    within,
)

FLOOD = """
import socket, sys
sys.path.insert(0, sys.argv[1])
from ipaddress import IPv4Address
from leafrunt_host.packets import Packet, PacketType
from tests.test_topology import sealed
from tests.test_withheld import UNREAD
raw = socket.socket(socket.AF_INET, socket.SOCK_RAW, 89)
raw.setsockopt(socket.SOL_SOCKET, socket.SO_BINDTODEVICE, b"eth1")
for number, lsa in enumerate(UNREAD.values()):
    if len(lsa) > 1400 or lsa[3] > 5:
        continue
    of, net = bytes([7, 7, 7, number]), bytes([192, 0, number, 0])
    lsa = sealed(lsa[:4] + (net if lsa[3] == 5 else of) + of + lsa[12:])
    body = (1).to_bytes(4, "big") + lsa
    update = Packet(PacketType.LINK_STATE_UPDATE, IPv4Address("9.9.9.9"), IPv4Address(0), body)
    raw.sendto(update.encode(), ("224.0.0.5", 0))
"""
"""Sends as 9.9.9.9, a neighbor, each kind of LSA that `routerd` doesn't read, of routers 7.7.7.N."""


class Row:
    """A box 9.9.9.9, another router 2.2.2.2 in the middle, and the box that is tried, 1.1.1.1."""

    def __init__(self, given: Try, kind: type[Bird] | type[Frr]) -> None:
        self.network = network = Network()
        own, middle, far = (network.namespace(each) for each in ("own", "middle", "far"))
        network.link(End(own, "eth1", "10.0.1.1/24"), End(middle, "eth1", "10.0.1.2/24"))
        network.link(End(far, "eth1", "10.0.2.9/24"), End(middle, "eth2", "10.0.2.2/24"))
        network.link(End(middle, "d0", "172.16.2.1/24"), End(middle, "d1", "172.31.0.1/32"))
        sides = [Side("eth1"), Side("eth2"), Side("d0", is_passive=True)]
        self.middle = kind(network, middle, "2.2.2.2", sides)
        self.box = Box(network, given.routerd, own, "tried", "1.1.1.1", [Side("eth1")])
        self.far = Box(network, given.routerd, far, "far", "9.9.9.9", [Side("eth1")])

    def has_routes(self) -> bool:
        return "172.16.2.0/24" in self.box.kernel_routes()

    def held(self) -> int:
        """How many LSAs of routers 7.7.7.N the router in the middle holds."""
        return sum(each.router.startswith("7.7.7.") for each in self.middle.database())

    def close(self) -> None:
        self.box.stop()
        self.far.stop()
        self.middle.stop()
        self.network.close()


def unread(given: Try) -> None:
    """LSAs that BIRD or FRR takes and `routerd` doesn't read: a box that starts is Full all the
    same, with routes, and says which they are."""
    for kind in (Bird, Frr):
        row = Row(given, kind)
        try:
            poisoned(row, given.looks, kind.__name__)
        finally:
            row.close()


def poisoned(row: Row, looks: Looks, who: str) -> None:
    row.middle.start()
    row.far.start()
    within(COMES_UP, lambda: is_full(row.middle, "9.9.9.9"))
    run("ip", "netns", "exec", row.far.namespace, sys.executable, "-c", FLOOD, HOST)
    within(10, lambda: row.held() >= 2)
    looks.look(f"{who} takes LSAs that routerd doesn't read", row.held(), f"{row.held()} of them")
    row.box.start()
    looks.timed(f"behind {who} a box is Full", COMES_UP, lambda: is_full(row.box, "2.2.2.2"))
    looks.timed("with its routes", 20, row.has_routes)
    looks.look("it says which LSAs are withheld", is_said(row.box, "is withheld: "))
    time.sleep(10)
    looks.look("and never that it is at rest", not is_said(row.box, "at rest"))
    lines = [each for each in row.box.log_lines() if "Full ->" in each]
    looks.look("it stays Full", is_full(row.box, "2.2.2.2") and not lines, "; ".join(lines))
    row.box.stop()


def counted(row: Row) -> str:
    """How many destinations of each kind there are, and where."""
    found = {
        "in the kernel": list(row.box.kernel_routes()),
        "in routerd's table": row.box.ask("table"),
        "in the box's database": [each.id for each in row.box.database()],
        "in BIRD's": [each.id for each in row.middle.database()],
    }
    counts = {
        place: tuple(sum(each.startswith(kind) for each in names) for kind in ("50.", "51."))
        for place, names in found.items()
    }
    return "; ".join(f"{place} {old} and {new}" for place, (old, new) in counts.items())


def full(given: Try) -> None:
    """20,000 external destinations, which are more LSAs than `routerd` holds: a box is Full, says
    what is wrong, and has all routes again once there are few enough."""
    row, looks = Row(given, Bird), given.looks
    try:
        assert isinstance(row.middle, Bird)
        row.middle.externals = prefixes(50, 10_000) + prefixes(51, 10_000)
        row.middle.start()
        row.box.start()
        looks.timed("20,000 LSAs: Full", 60, lambda: is_full(row.box, "2.2.2.2"))
        most = 15_000
        looks.timed("routes for most", 60, lambda: len(row.box.kernel_routes()) > most, 1)
        looks.look("it says what is wrong", is_said(row.box, "the network has more than 16384 LSAs"))
        looks.look("and never that it is at rest", not is_said(row.box, "at rest"))
        row.middle.externals = prefixes(51, 10_000)
        row.middle.configure()

        def has_all() -> bool:
            routes = row.box.kernel_routes()
            return all(each in routes for each in row.middle.externals) and len(routes) < most

        if not looks.timed("10,000 are withdrawn: all routes, by itself", 90, has_all, 1):
            print(f"     {counted(row)}")
        looks.look("nothing is wrong any more", not is_said(row.box, "the network has more"))
        # (the last of them come in an exchange that is under way: its end is waited for)
        if not looks.timed("Full", COMES_UP, lambda: is_full(row.box, "2.2.2.2")):
            print(f"     {'; '.join(each for each in row.box.log_lines() if ' -> ' in each)}")
        started_with_fewer(row, looks, most)
    finally:
        row.close()


def started_with_fewer(row: Row, looks: Looks, most: int) -> None:
    """BIRD is killed, and flushes nothing of what the box has withheld."""
    assert isinstance(row.middle, Bird)
    row.middle.externals = prefixes(50, 10_000) + prefixes(51, 10_000)
    row.middle.configure()
    looks.timed("20,000 again", 90, lambda: len(row.box.kernel_routes()) > most, 1)
    row.middle.stop(signal.SIGKILL)
    within(2 * DEAD_INTERVAL, lambda: not is_full(row.box, "2.2.2.2"))
    row.middle.externals = prefixes(51, 100)
    row.middle.start()
    looks.timed("BIRD is killed and has 100 now: Full", 60, lambda: is_full(row.box, "2.2.2.2"))
    is_fewer = within(90, lambda: 100 < len(row.box.kernel_routes()) < 200, 1)
    looks.look("only those are in the kernel", is_fewer is not None)
    what = "nothing is wrong any more, and nothing owed"
    looks.timed(what, 180, lambda: is_said(row.box, "at rest since"), 1)
    looks.look("and no limit is told of", not is_said(row.box, "the network has more"))
    before = len(row.box.log_lines())
    time.sleep(15)
    fell = [each for each in row.box.log_lines()[before:] if "Full ->" in each]
    looks.look("it stays Full", is_full(row.box, "2.2.2.2") and not fell, "; ".join(fell))
