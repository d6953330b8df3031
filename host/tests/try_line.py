"""The looks at a box between BIRD and FRR: many LSAs at each end, and what an operator may
meet. See `try-network`."""
from __future__ import annotations

import re
import sys
import time
from dataclasses import replace
from datetime import datetime, timedelta
from pathlib import Path

from tests.network import (
    HOST,
    MD5,
    SHA,
    TIMERS,
    Announce,
    Bird,
    Box,
    End,
    Frr,
    Looks,
    Secret,
    Side,
    Try,
    is_full,
    is_said,
    output,
    prefixes,
    run,
    within,
)

MIN_LS_INTERVAL = 5
"""Seconds (RFC 2328, B)."""


class Line:
    """BIRD 2.2.2.2 - a box - FRR 3.3.3.3, each link with an MTU, direct or by wires that lose
    packets."""

    def __init__(
        self,
        given: Try,
        router_id: str = "1.1.1.1",
        mtu: int = 1500,
        has_keys: bool = False,
        is_wired: bool = False,
        dead: int | None = None,
    ) -> None:
        self.network, dead = given.network, dead or TIMERS.dead
        bird, box, frr = (self.network.namespace(each) for each in ("bird", "box", "frr"))
        link = self.network.wired if is_wired else self.network.link
        link(End(box, "to-bird", "10.0.1.1/24"), End(bird, "eth1", "10.0.1.2/24"), mtu)
        link(End(box, "to-frr", "10.0.2.1/24"), End(frr, "eth1", "10.0.2.2/24"), mtu)
        if is_wired:
            self.network.start_wires()
        for name, address in ((bird, "172.16.1.1/24"), (frr, "172.16.2.1/24")):
            self.network.link(End(name, "d0", address), End(name, "d1", "172.31.0.1/32"))
        to_bird, to_frr = ((SHA,), (MD5,)) if has_keys else ((), ())
        self.bird = Bird(
            self.network,
            bird,
            "2.2.2.2",
            [Side("eth1", to_bird, dead=dead), Side("d0", is_passive=True)],
        )
        self.frr = Frr(
            self.network,
            frr,
            "3.3.3.3",
            [Side("eth1", to_frr, dead=dead), Side("d0", is_passive=True)],
        )
        self.frr.gateway = "172.16.2.9"
        sides = [Side("to-bird", to_bird, dead=dead), Side("to-frr", to_frr, dead=dead)]
        self.box = Box(self.network, given.routerd, box, "box", router_id, sides)
        self._started = 0.0

    def give(self, count: int) -> None:
        """So many externals for each of the three."""
        self.bird.externals, self.frr.externals = prefixes(100, count), prefixes(101, count)
        self.box.announced = [Announce(each) for each in prefixes(102, count)]

    def start(self) -> None:
        """Starts the box, and once it has announced all, the others."""
        self.box.start()
        self.is_started()
        self.bird.start()
        self.frr.start()
        self._started = time.time()

    def full_after(self) -> float | None:
        """How many seconds after all were started the box logged its second neighbor as Full; None
        before. On a busy machine it takes seconds to ask BIRD and FRR."""
        moments = {}
        for line in self.box.log_lines():
            found = re.fullmatch(r"(\S+ \S+) info: (\S+): \S+ \S+ -> Full", line)
            if found:
                moments[found[2]] = datetime.fromisoformat(found[1]).timestamp()
        return max(0.0, max(moments.values()) - self._started) if len(moments) == 2 else None

    def is_started(self) -> bool:
        return within(60, lambda: self.box.ask("neighbors")) is not None

    def is_up(self) -> bool:
        ours = is_full(self.box, "2.2.2.2", "3.3.3.3")
        own = self.box.router_id
        return ours and is_full(self.bird, own) and is_full(self.frr, own)

    def is_equal(self, count: int) -> bool:
        """Whether all three have the same LSAs, these externals and a router-LSA of each."""
        wanted = self.bird.database()
        externals = sum(each.type == 5 for each in wanted)
        is_whole = externals == 3 * count and len(wanted) == 3 * count + 3
        return is_whole and self.box.database() == wanted and self.frr.database() == wanted

    def has_routes(self, count: int) -> bool:
        return len(self.box.kernel_routes()) >= 2 * count

    def fragments(self) -> int:
        """IP packets of the box that were cut into fragments."""
        text = output("ip", "netns", "exec", self.box.namespace, "cat", "/proc/net/snmp")
        names, values = (line.split() for line in text.splitlines() if line.startswith("Ip:"))
        return int(values[names.index("FragOKs")])

    def stop(self) -> None:
        self.box.stop()
        self.bird.stop()
        self.frr.stop()


def descriptions(given: Try) -> None:
    """3,000 LSAs at each of the three, in all eight ways."""
    count = 3_000
    for mtu in (1500, 9000):
        for router_id, role in (("1.1.1.1", "slave"), ("9.9.9.9", "master")):
            for has_keys in (False, True):
                with_keys = "with digests" if has_keys else "without digests"
                what = f"{count} LSAs at each of three, MTU {mtu}, `routerd` {role}, {with_keys}"
                given.anew(lambda: described(given, what, router_id, mtu, has_keys, count))


def described(given: Try, what: str, router_id: str, mtu: int, has_keys: bool, count: int) -> None:
    it = Line(given, router_id, mtu, has_keys)
    it.give(count)
    it.start()
    looks = given.looks
    within(60, lambda: it.full_after() is not None)
    took = it.full_after()
    measured = "never" if took is None else f"after {took:.0f} s, by the box's log"
    good = took is not None and took <= 10
    looks.look(f"{what}: both neighbors Full within 10 s", good, measured)
    looks.timed("and so BIRD and FRR say", 60, it.is_up)
    looks.timed(
        f"the same {3 * count + 3} LSAs, with equal sequence numbers, at all three",
        60,
        lambda: it.is_equal(count),
        0.5,
    )
    looks.timed(
        "the externals of both are in the kernel's table", 60, lambda: it.has_routes(count)
    )
    looks.look("no IP packet was cut into fragments", it.fragments() == 0, f"{it.fragments()}")
    it.stop()


def losing(given: Try) -> None:
    """3,000 LSAs at each of the three over links that lose a fifth of all packets; RouterDeadInterval
    20, since of four Hellos in a row all are lost too often."""
    for mtu, router_id, role in ((1500, "1.1.1.1", "slave"), (9000, "9.9.9.9", "master")):
        given.anew(lambda: lossy(given, mtu, router_id, role))


def lossy(given: Try, mtu: int, router_id: str, role: str) -> None:
    it, count, looks = Line(given, router_id, mtu, True, True, 20), 3_000, given.looks
    it.give(count)
    it.network.wire("loss", 20)
    it.start()
    what = f"{count} LSAs at each of three, 20 % loss, MTU {mtu}, `routerd` {role}, with digests"
    looks.timed(f"{what}: both neighbors Full", 300, it.is_up, 0.5)
    looks.timed("the same LSAs at all three", 120, lambda: it.is_equal(count), 1)
    it.stop()


def limits(given: Try) -> None:
    """LSAs above the MTU, an MTU and an address that change, settings of the kernel, forged
    packets, routes of others."""
    it, looks = Line(given), given.looks
    own = it.box.namespace
    run("ip", "netns", "exec", own, "sysctl", "-qw", "net.ipv4.ip_forward=0")
    run("ip", "netns", "exec", own, "sysctl", "-qw", "net.ipv4.conf.to-frr.rp_filter=1")
    run("ip", "-n", own, "route", "add", "172.16.1.0/24", "via", "10.0.2.2", "metric", 89)
    run(
        "ip",
        "-n",
        own,
        "route",
        "add",
        "192.0.2.0/24",
        "via",
        "10.0.2.2",
        "metric",
        7,
        "proto",
        89,
    )
    it.bird.stub_networks = [f"198.18.{each}.0/24" for each in range(200)]
    it.start()
    looks.timed("Full with both", TIMERS.comes_up, it.is_up)
    settings(it, looks)
    long_lsas(it, looks)
    too_long_lsa(it, looks)
    routes_of_others(it, looks)
    changed_mtu(it, looks)
    changed_address(it, looks)
    forged(it, looks)
    it.box.stop()
    kept = output("ip", "-n", own, "route", "show", "192.0.2.0/24") and output(
        "ip", "-n", own, "route", "show", "172.16.1.0/24"
    )
    looks.look("at the end routes of others are there still", kept)
    it.stop()


def settings(it: Line, looks: Looks) -> None:
    looks.look("ip_forward off is told", is_said(it.box, "net.ipv4.ip_forward is 0"))
    looks.look("rp_filter strict is told", is_said(it.box, "to-frr: rp_filter is 1"))
    for name, value in (("ip_forward", 1), ("conf.to-frr.rp_filter", 0)):
        run("ip", "netns", "exec", it.box.namespace, "sysctl", "-qw", f"net.ipv4.{name}={value}")


def has_stubs(it: Line, count: int) -> bool:
    """Whether this many of BIRD's stub networks are in the kernel's table of the box."""
    return sum(each.startswith("198.") for each in it.box.kernel_routes()) == count


def frr_has_stubs(it: Line, count: int) -> bool:
    """Whether this many of them are in FRR's table."""
    lines = it.frr.says("show ip route ospf").splitlines()
    return sum(" 198." in line and " via " in line for line in lines) == count


def long_lsas(it: Line, looks: Looks) -> None:
    """BIRD's router-LSA of 200 networks has 2,448 bytes, that of 500 has 6,048."""
    what = "an LSA of 2,448 bytes at MTU 1500 comes in, in fragments"
    looks.timed(what, 20, lambda: has_stubs(it, 200))
    looks.timed("and goes on to FRR, in fragments", 20, lambda: frr_has_stubs(it, 200), 1)
    it.bird.stub_networks = [f"198.{18 + each // 256}.{each % 256}.0/24" for each in range(500)]
    it.bird.configure()
    looks.timed("one of 6,048 bytes too", 30, lambda: has_stubs(it, 500))


def routes_of_others(it: Line, looks: Looks) -> None:
    """The one has our prefix and metric, the other our protocol and another metric."""
    table = output("ip", "-n", it.box.namespace, "route", "show", "172.16.1.0/24")
    is_there = "10.0.2.2" in table and "proto 89" not in table
    looks.look("a route of another with our prefix and metric stays", is_there)
    told = [line for line in it.box.log_lines() if "File exists" in line]
    looks.look("that is logged once", len(told) == 1, f"{len(told)} lines")


def too_long_lsa(it: Line, looks: Looks) -> None:
    """BIRD's router-LSA of 700 networks has over 8,400 bytes, 12 for each network and link of its
    own: `routerd` reads packets up to 8,192."""
    networks = [f"198.{18 + each // 256}.{each % 256}.0/24" for each in range(700)]
    it.bird.stub_networks = networks
    it.bird.configure()
    said = "is withheld: it has 84", "bytes, and at most 8164 are read"
    looks.timed("one of 8,4.. bytes is left out, and told", 20, lambda: is_said(it.box, *said))
    it.bird.stub_networks = networks[:400]
    it.bird.configure()
    looks.timed("a shorter instance of it comes in", 30, lambda: has_stubs(it, 400))
    looks.look("the adjacencies stay Full", it.is_up())


def changed_mtu(it: Line, looks: Looks) -> None:
    for name, interface in ((it.box.namespace, "to-bird"), (it.bird.namespace, "eth1")):
        run("ip", "-n", name, "link", "set", interface, "mtu", 1400)
    it.bird.stop()
    looks.timed("an MTU that changes is told", 5, lambda: is_said(it.box, "its MTU is 1400 now"))
    it.bird.start()
    looks.timed("and followed: Full at MTU 1400", TIMERS.comes_up, it.is_up)


def changed_address(it: Line, looks: Looks) -> None:
    own = it.box.namespace
    run("ip", "-n", own, "addr", "del", "10.0.1.1/24", "dev", "to-bird")
    run("ip", "-n", own, "addr", "add", "10.0.9.1/24", "dev", "to-bird")
    looks.timed(
        "an address that goes away is told",
        5,
        lambda: is_said(it.box, "its address 10.0.1.1 is gone (it has 10.0.9.1)"),
    )
    looks.timed("the neighbor counts as gone at once", 4, lambda: not is_full(it.box, "2.2.2.2"))
    looks.timed("its routes leave the kernel's table", 4, lambda: len(it.box.kernel_routes()) < 10)
    run("ip", "-n", own, "addr", "add", "10.0.1.1/24", "dev", "to-bird")
    run("ip", "-n", own, "addr", "del", "10.0.9.1/24", "dev", "to-bird")
    looks.timed("it's back: Full again", TIMERS.comes_up, it.is_up)


FORGE = """
import socket, struct, sys
sys.path.insert(0, sys.argv[1])
from ipaddress import IPv4Address
from leafrunt_host.packets import Hello, Packet, PacketType
raw = socket.socket(socket.AF_INET, socket.SOCK_RAW, 89)
raw.setsockopt(socket.SOL_SOCKET, socket.SO_BINDTODEVICE, b"eth1")
nobody = IPv4Address(0)
body = Hello(IPv4Address("255.255.255.0"), 3, 2, 1, 8, nobody, nobody, ()).encode()
for number in range(20_000):
    packet = Packet(PacketType.HELLO, IPv4Address(0x0B000000 + number), nobody, body).encode()
    raw.sendto(packet if number % 2 else packet[:16] + b"x" * 20, ("224.0.0.5", 0))
"""


def forged(it: Line, looks: Looks) -> None:
    """20,000 packets of 20,000 Router IDs from BIRD's side, half of them no OSPF packets."""

    def memory() -> int:
        process = str(it.box.process.pid if it.box.process else 0)
        text = Path("/proc", process, "status").read_text()
        return int(next(line for line in text.splitlines() if line.startswith("VmRSS")).split()[1])

    lines, before = len(it.box.log_lines()), memory()
    run("ip", "netns", "exec", it.bird.namespace, sys.executable, "-c", FORGE, HOST)
    time.sleep(TIMERS.dead + 2)
    new, more = len(it.box.log_lines()) - lines, memory() - before
    looks.look(
        "20,000 forged packets of other Router IDs: few lines in the log", new <= 30, f"{new}"
    )
    looks.look("no memory is kept for them", more < 4_000, f"{more} kB more")
    looks.look("the adjacencies stay Full", it.is_up())
    text = it.box.status()
    looks.look(
        "`leafrunt status` is short still",
        len(text.splitlines()) < 60,
        f"{len(text.splitlines())} lines",
    )


def peers(given: Try) -> None:
    """A link whose ends have addresses of no common network, each with the other's as its peer."""
    network, looks = given.network, given.looks
    own, far = network.namespace("box"), network.namespace("bird")
    one = End(own, "eth1", "192.0.2.1 peer 198.51.100.7/32")
    network.link(one, End(far, "eth1", "198.51.100.7 peer 192.0.2.1/32"))
    network.link(End(far, "d0", "172.16.1.1/24"), End(far, "d1", "172.31.0.1/32"))
    side = Side("eth1", (SHA,))
    bird = Bird(network, far, "2.2.2.2", [side, Side("d0", is_passive=True)])
    box = Box(network, given.routerd, own, "box", "1.1.1.1", [side])
    box.start()
    bird.start()
    looks.timed("Full", TIMERS.comes_up, lambda: is_full(box, "2.2.2.2") and is_full(bird, "1.1.1.1"))
    wanted = {"172.16.1.0/24": ["198.51.100.7"]}

    def has() -> bool:
        routes = box.kernel_routes()
        return {each: routes.get(each) for each in wanted} == wanted

    looks.timed("BIRD's network is in the kernel's table, by the peer's address", 20, has)
    said = [each for each in box.status().splitlines() if "198.51.100.7" in each]
    looks.look(
        "nothing is to be said of it", len(said) == 1, "; ".join(each.strip() for each in said)
    )
    box.stop()
    bird.stop()


def rollover(given: Try) -> None:
    """Key 5 is used for some seconds more, then key 6; both ends know both."""
    it, looks = Line(given), given.looks
    change = datetime.now().astimezone() + timedelta(seconds=TIMERS.comes_up - 10)
    old, new = replace(SHA, ends=change), Secret(6, "hmac sha512", "the next one", begins=change)
    side = Side("eth1", (old, new))
    it.bird.sides[0] = side
    it.box.sides[0] = replace(side, name="to-bird")
    it.start()
    looks.timed("two keys with lifetimes at both ends: Full", TIMERS.comes_up, it.is_up)
    while datetime.now().astimezone() < change + timedelta(seconds=2 * TIMERS.dead):
        time.sleep(1)
    refused = [line for line in it.box.log_lines() if "refused" in line or "digest" in line]
    looks.look(
        "Full all the same after the change of keys", it.is_up(), f"{len(refused)} refusals"
    )
    it.stop()


def links(given: Try) -> None:
    """Two links to one router: equal ways, a link that goes down, an interface that is made
    anew."""
    network, looks = given.network, given.looks
    own, far = network.namespace("box"), network.namespace("frr")
    ends = {
        name: (End(own, name, f"10.0.{at}.1/24"), End(far, name, f"10.0.{at}.2/24"))
        for at, name in enumerate(("eth1", "eth2"), 1)
    }
    for one, other in ends.values():
        network.link(one, other)
    network.link(End(far, "d0", "172.16.2.1/24"), End(far, "d1", "172.31.0.1/32"))
    sides = [Side(name, (MD5,)) for name in ends]
    frr = Frr(network, far, "3.3.3.3", [*sides, Side("d0", is_passive=True)])
    box = Box(network, given.routerd, own, "box", "1.1.1.1", sides)
    box.start()
    frr.start()

    def has(*hops: str) -> bool:
        return sorted(box.kernel_routes().get("172.16.2.0/24", [])) == list(hops)

    both, seen = ("10.0.1.2", "10.0.2.2"), network.work / "notices"
    looks.timed("FRR's network has two next hops", TIMERS.comes_up, lambda: has(*both))
    network.start(own, ["ip", "monitor", "route"], seen)
    run("ip", "-n", own, "link", "set", "eth2", "down")
    looks.timed("one link down here: one next hop", 4, lambda: has(both[0]))
    looks.timed("who follows the kernel's notices sees it", 4, lambda: is_one_way(seen.read_text()))
    run("ip", "-n", own, "link", "set", "eth2", "up")
    looks.timed("up again: two", TIMERS.comes_up, lambda: has(*both))
    run("ip", "-n", far, "link", "set", "eth2", "down")
    looks.timed("one link down there: one next hop", 4, lambda: has(both[0]))
    run("ip", "-n", far, "link", "set", "eth2", "up")
    looks.timed("up again: two", TIMERS.comes_up, lambda: has(*both))
    before, gone = len(box.log_lines()), "eth2: the kernel has no"
    run("ip", "-n", own, "link", "del", "eth2")
    looks.timed(
        "an interface is taken away: told in the log",
        4,
        lambda: any(gone in each for each in box.log_lines()[before:]),
    )
    looks.look("and by `leafrunt status`", is_said(box, gone))
    looks.timed("and one next hop", 4, lambda: has(both[0]))
    network.link(*ends["eth2"])
    looks.timed("it is made again: two", TIMERS.comes_up, lambda: has(*both))
    status = box.stop()
    looks.look("the end", status == 0 and has(), f"status {status}")
    frr.stop()


OUTAGE, SETTLED = 30, 30
"""Seconds without a link, less than RouterDeadInterval at the default, and seconds after it in which
the adjacency may not begin anew."""


def outage(given: Try) -> None:
    """A link that is lost for less than RouterDeadInterval and comes back: it has no neighbor
    meanwhile, and the adjacency comes once, soon after it."""
    network, looks = given.network, given.looks
    own, far = network.namespace("box"), network.namespace("bird")
    network.link(End(own, "eth1", "10.0.1.1/24"), End(far, "eth1", "10.0.1.2/24"))
    side = Side("eth1", (SHA,))
    bird = Bird(network, far, "2.2.2.2", [side])
    box = Box(network, given.routerd, own, "box", "1.1.1.1", [side])
    box.start()
    bird.start()

    def is_up() -> bool:
        return is_full(box, "2.2.2.2") and is_full(bird, "1.1.1.1")

    looks.timed("Full", TIMERS.comes_up, is_up)
    before = len(box.log_lines())
    run("ip", "-n", far, "link", "set", "eth1", "down")
    looks.timed("a link is lost: `status` has no neighbor there", 3, lambda: neighbor_of(box) is None)
    time.sleep(OUTAGE)
    run("ip", "-n", far, "link", "set", "eth1", "up")
    looks.timed(f"it is back after {OUTAGE} s: Full", TIMERS.hello + 5, is_up)
    time.sleep(SETTLED)
    said = [each for each in box.log_lines()[before:] if "-> Full" in each or "Full ->" in each]
    looks.look("the adjacency went once and came once", len(said) == 2, "; ".join(said))
    box.stop()
    bird.stop()


def neighbor_of(box: Box) -> object:
    """What the status has of the neighbor at its interface."""
    (interface,) = box.reported()["interfaces"] or [{"neighbor": "no status"}]
    return interface["neighbor"]


def is_one_way(notices: str) -> bool:
    """Whether the last one of FRR's network has a next hop and no list of them."""
    last = [each for each in notices.splitlines() if "172.16.2.0/24" in each][-1:]
    return "via 10.0.1.2" in "".join(last)


def again(given: Try) -> None:
    """A destination is withdrawn, and announced again while FRR keeps what was flushed."""
    it, looks, prefix = Line(given), given.looks, "203.0.113.0/24"
    it.box.sides = [replace(each, retransmit=MIN_LS_INTERVAL) for each in it.box.sides]

    def are_there() -> list[bool]:
        names = (it.bird.namespace, it.frr.namespace)
        return [prefix in output("ip", "-n", each, "-4", "route", "show", prefix) for each in names]

    it.start()
    looks.timed("a box between BIRD and FRR: Full", TIMERS.comes_up, it.is_up)
    it.box.ask(f"add {prefix} 20 2 0")
    looks.timed("a destination is announced: both have it", 20, lambda: all(are_there()))
    time.sleep(6)
    it.box.ask(f"withdraw {prefix}")
    looks.timed("withdrawn: neither has it", 20, lambda: not any(are_there()))
    time.sleep(6)
    it.box.ask(f"add {prefix} 20 2 0")
    looks.timed("announced again: FRR has it", MIN_LS_INTERVAL + 2, lambda: are_there()[1])
    # (FRR's flushed one goes to BIRD first, RFC 2328, 13.4: within MinLSArrival of that BIRD takes no
    # other, and gets it after RxmtInterval)
    looks.timed("and both have it", MIN_LS_INTERVAL + 2, lambda: all(are_there()))
    looks.look("and keep it", within(15, lambda: not all(are_there()), 0.5) is None)
    it.stop()
