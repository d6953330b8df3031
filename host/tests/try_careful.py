"""Somebody on a link who has no key, or no more than a neighbor has. See `try-network`."""
from __future__ import annotations

import subprocess
import sys
import time
from collections.abc import Callable
from dataclasses import replace

from tests.network import (
    COMES_UP,
    HOST,
    MD5,
    SHA,
    Bfd,
    Bird,
    Box,
    End,
    Frr,
    Secret,
    Side,
    Try,
    is_full,
    output,
    prefixes,
    run,
    within,
)

BEHIND = "172.16.2.0/24"
"""A network behind 2.2.2.2."""
NEIGHBOR, ATTACKER = "10.0.1.2", "10.0.1.66"
FLOOD_MARTIANS = """
import socket, sys
from dataclasses import replace
from ipaddress import IPv4Address, IPv4Network
sys.path.insert(0, sys.argv[1])
from leafrunt_host.packets import Packet, PacketType
from tests.attack import NEIGHBOR, NOBODY
from tests.test_topology import external
raw = socket.socket(socket.AF_INET, socket.SOCK_RAW, 89)
raw.setsockopt(socket.SOL_SOCKET, socket.SO_BINDTODEVICE, b"eth1")
raw.setsockopt(socket.IPPROTO_IP, socket.IP_MULTICAST_LOOP, 0)
lsas = [external(each, str(NEIGHBOR)) for each in sys.argv[2:]]
body = len(lsas).to_bytes(4, "big") + b"".join(lsas)
raw.sendto(Packet(PacketType.LINK_STATE_UPDATE, NEIGHBOR, NOBODY, body).encode(), ("224.0.0.5", 0))
print(len(lsas), "LSAs")
"""


class Shared:
    """1.1.1.1 and its neighbor 2.2.2.2 on a link with keys, where somebody without them is too."""

    def __init__(
        self, given: Try, kind: str, length: int = 24, key: Secret = SHA, bfd: Bfd | None = None
    ) -> None:
        self.network = network = given.network
        own, far, self.by = (network.namespace(each) for each in ("own", "far", "by"))
        ends = (End(own, "eth1", f"10.0.1.1/{length}"), End(far, "eth1", f"{NEIGHBOR}/{length}"))
        number = network.bridged(*ends)
        network.join(number, End(self.by, "eth1", f"{ATTACKER}/24"))
        network.link(End(far, "eth2", "172.16.2.1/24"), End(self.by, "eth2", "172.16.2.9/24"))
        side = Side("eth1", (key,), bfd=bfd)
        self.neighbor = Bird(network, far, "2.2.2.2", [side, Side("eth2", is_passive=True)])
        makes: dict[str, Callable[..., Box | Bird | Frr]] = {"BIRD": Bird, "FRR": Frr}
        self.tried: Box | Bird | Frr
        if kind == "a box":
            self.tried = Box(network, given.routerd, own, "tried", "1.1.1.1", [side])
        else:
            self.tried = makes[kind](network, own, "1.1.1.1", [side])
            self.tried.folder = network.work / "tried"
            self.tried.folder.mkdir()

    def start(self) -> bool:
        self.tried.start()
        self.neighbor.start()
        return within(COMES_UP, lambda: is_full(self.tried, "2.2.2.2") and self.hop()) is not None

    def stop(self) -> None:
        self.tried.stop()
        self.neighbor.stop()

    def hop(self) -> str:
        """The next hop to the network behind the neighbor, in the kernel's table."""
        words = output("ip", "-n", self.tried.namespace, "route", "show", BEHIND).split()
        return words[words.index("via") + 1] if "via" in words else ""

    def again(self, source: str, seconds: float) -> subprocess.Popen[str]:
        """Somebody begins to repeat the neighbor's packets from that source."""
        words = [sys.executable, str(HOST / "tests" / "attack.py"), "again", source, f"{seconds}"]
        log = self.network.work / "attack"
        return self.network.start(self.by, words, log, stdout=subprocess.PIPE)

    def strays(self, source: str, seconds: float) -> tuple[int, int, str]:
        """How many looks at the kernel's table there were meanwhile, at how many the next hop
        wasn't the neighbor, and what was sent."""
        attack, looks, strays = self.again(source, seconds), 0, 0
        while attack.poll() is None:
            looks, strays = looks + 1, strays + (self.hop() != NEIGHBOR)
            time.sleep(0.1)
        return looks, strays, attack.communicate()[0].strip()


class Edge:
    """1.1.1.1 between 2.2.2.2, on a link without keys, and 3.3.3.3, on one with keys."""

    def __init__(self, given: Try, is_box: bool) -> None:
        self.network = network = given.network
        names = own, edge, core = [network.namespace(each) for each in ("own", "edge", "core")]
        for at, far in ((1, edge), (2, core)):
            network.link(
                End(own, f"eth{at}", f"10.0.{at}.1/24"), End(far, "eth1", f"10.0.{at}.2/24")
            )
        sides = [Side("eth1"), Side("eth2", (SHA,))]
        self.tried: Box | Bird
        if is_box:
            self.tried = Box(network, given.routerd, own, "tried", "1.1.1.1", sides)
        else:
            self.tried = Bird(network, own, "1.1.1.1", sides)
            self.tried.folder = network.work / "tried"
            self.tried.folder.mkdir()
        self.edge = Bird(network, edge, "2.2.2.2", [Side("eth1")])
        self.core = Bird(network, core, "3.3.3.3", [Side("eth1", (SHA,))])
        for each in (self.edge, self.core):
            each.folder = network.work / each.router_id
            each.folder.mkdir()
        self.names = names

    def start(self) -> bool:
        for each in (self.tried, self.edge, self.core):
            each.start()
        return within(COMES_UP, lambda: is_full(self.tried, "2.2.2.2", "3.3.3.3")) is not None

    def stop(self) -> None:
        for each in (self.tried, self.edge, self.core):
            each.stop()

    def comes(self, by: Bird, first: int) -> float | None:
        """After how many seconds fifty new destinations of a neighbor are in the kernel's table."""
        by.externals = [*by.externals, *prefixes(first, 50)]
        by.configure()

        def has_them() -> bool:
            lines = output("ip", "-n", self.tried.namespace, "-4", "route", "show").splitlines()
            return sum(each.startswith(f"{first}.64.") for each in lines) == 50

        return within(20, has_them)


def discarded(given: Try) -> None:
    """16,770 LSAs with wrong checksums come by a link without keys: meanwhile, and after it, new
    destinations come by that link and by one with keys. BIRD beside it."""
    for is_box in (True, False):
        given.anew(lambda: full_of_nothing(given, is_box))


def full_of_nothing(given: Try, is_box: bool) -> None:
    it, looks, who = Edge(given, is_box), given.looks, "a box" if is_box else "BIRD"
    looks.look(f"{who}: Full with both", it.start())
    words = [sys.executable, str(HOST / "tests" / "attack.py"), "discarded", "224.0.0.5", "30"]
    log = it.network.work / "attack"
    attack = it.network.start(it.names[1], [*words, "126"], log, stdout=subprocess.PIPE)
    time.sleep(5)  # (each of them was sent once by then)
    for when, edge, core in (("meanwhile", 60, 61), ("after it", 62, 63)):
        took = {"with keys": it.comes(it.core, core), "without": it.comes(it.edge, edge)}
        measured = ", ".join(f"{link}: {took[link] or -1:.1f} s" for link in took)
        if is_box:
            what = f"{when} fifty new destinations come by each link"
            looks.look(what, all(took.values()), measured)
        else:
            print(f"     BIRD, {when}: {measured}")
        if when == "meanwhile":
            print(f"     {attack.communicate()[0].strip()}")
    it.stop()


def forged(given: Try) -> None:
    """Somebody on a link without keys sends the box's own router-LSA with the last sequence number,
    0x7fffffff: the kernel keeps the box's own routes meanwhile. BIRD beside it. And destinations
    that nobody has stay out of the kernel."""
    for is_box in (True, False):
        given.anew(lambda: own_lsa_forged(given, is_box))
    given.anew(lambda: martians(given))


def own_lsa_forged(given: Try, is_box: bool) -> None:
    it, looks, who = Edge(given, is_box), given.looks, "a box" if is_box else "BIRD"
    looks.look(f"{who}: Full with both", it.start())
    looks.look("with routes", it.comes(it.core, 60) is not None)
    words = [sys.executable, str(HOST / "tests" / "attack.py"), "own", "224.0.0.5", "1.2", "1"]
    log = it.network.work / "attack"
    attack = it.network.start(it.names[1], words, log, stdout=subprocess.PIPE)
    count, without, began = 0, 0, time.monotonic()
    while time.monotonic() - began < 20:
        lines = output("ip", "-n", it.tried.namespace, "-4", "route", "show").splitlines()
        is_away = sum(each.startswith("60.") for each in lines) < 50
        count, without = count + 1, without + is_away
        time.sleep(0.1)
    measured = f"{without} of {count} looks without all routes, {attack.communicate()[0].strip()}"
    if is_box:
        looks.look("a forged own router-LSA: the kernel keeps the routes", not without, measured)
    else:
        print(f"     BIRD: {measured}")
    looks.look("and Full with both after it", is_full(it.tried, "2.2.2.2", "3.3.3.3"))
    it.stop()


def martians(given: Try) -> None:
    it, looks = Edge(given, True), given.looks
    nobodys = ["127.5.0.0/16", "0.5.0.0/16", "224.1.0.0/16", "255.255.255.255/32"]
    it.edge.externals = ["198.51.100.0/24"]
    run("ip", "-n", it.names[1], "link", "set", "lo", "up")
    looks.look("a box: Full with both", it.start())
    words = [sys.executable, "-c", FLOOD_MARTIANS, HOST, *nobodys]
    print(f"     {run('ip', 'netns', 'exec', it.names[1], *words).strip()}")
    assert isinstance(it.tried, Box)
    box = it.tried

    def has_all() -> bool:
        table = {line.partition(" ")[0] for line in box.says("table")}
        return table.issuperset(nobodys)

    looks.timed("routerd has them all", 10, has_all)
    there = within(10, lambda: "198.51.100.0/24" in box.kernel_routes())
    looks.look("the kernel has the usual one", there is not None)
    found = [each for each in nobodys if each in box.kernel_routes()]
    looks.look("and none of those that nobody has", not found, ", ".join(found))
    it.stop()


def sources(given: Try) -> None:
    """On a link with keys somebody without them repeats each packet of the neighbor from another
    source, also one that no host has, and with BFD: no next hop moves. BIRD and FRR beside it."""
    for kind, length, source, bfd in (
        ("a box", 24, ATTACKER, None),
        ("a box", 30, "10.0.1.0", None),
        ("a box", 30, "10.0.1.3", None),
        ("a box", 24, ATTACKER, Bfd()),
        ("BIRD", 24, ATTACKER, None),
        ("FRR", 24, ATTACKER, None),
    ):
        given.anew(lambda: repeated(given, kind, length, source, bfd))
    given.anew(lambda: begun_anew(given))


def begun_anew(given: Try) -> None:
    """FRR begins its numbers with its clock when its interface comes up again: below the last ones,
    where it has sent more than a packet a second."""
    network, looks = given.network, given.looks
    own, far = network.namespace("own"), network.namespace("far")
    network.link(End(own, "eth1", "10.0.1.1/24"), End(far, "eth1", "10.0.1.2/24"))
    box = Box(network, given.routerd, own, "box", "1.1.1.1", [Side("eth1", (MD5,))])
    frr = Frr(network, far, "2.2.2.2", [Side("eth1", (MD5,))])
    network.link(End(far, "eth2", "172.16.2.1/24"), End(own, "eth2", "172.16.3.9/24"))
    frr.gateway, frr.externals = "172.16.2.9", prefixes(60, 3000)
    box.start()
    frr.start()
    looks.timed("FRR with 3,000 destinations: Full", COMES_UP, lambda: is_full(box, "2.2.2.2"))
    within(30, lambda: len(box.kernel_routes()) >= 3000, 1)
    for at in range(3):
        run("ip", "-n", far, "link", "set", "eth1", "down")
        within(10, lambda: not is_full(box, "2.2.2.2"))
        time.sleep(1)
        run("ip", "-n", far, "link", "set", "eth1", "up")
        what = f"its interface goes down and up, {at + 1}: Full"
        looks.timed(what, 12, lambda: is_full(box, "2.2.2.2"))
    told = [each for each in box.log_lines() if "replayed packet" in each]
    looks.look("no packet of FRR's is refused", not told, "; ".join(told))
    box.stop()
    frr.stop()


def repeated(given: Try, kind: str, length: int, source: str, bfd: Bfd | None) -> None:
    looks, key = given.looks, MD5 if kind == "FRR" else SHA
    it = Shared(given, kind, length, key, bfd)
    by = f"{key.algorithm}{', BFD' * bool(bfd)}"
    what = f"{kind} with {by} at a /{length}, repeated from {source}"
    looks.look(f"{what}: Full, with a route, before", it.start())
    count, strays, sent = it.strays(source, 12)
    measured = f"{strays} of {count} looks, {sent}"
    if kind != "a box":
        print(f"     {what}: the next hop wasn't the neighbor at {measured}")
    else:
        looks.look("the neighbor stays the next hop", count and not strays, measured)
        status = "\n".join(it.tried.status().splitlines()) if isinstance(it.tried, Box) else ""
        is_told = "another source" in status or "strange source" in status
        looks.look("and Full; `leafrunt status` tells", is_full(it.tried, "2.2.2.2") and is_told)
    it.stop()
