"""BFD between a box and BIRD or FRR: silent losses, forged packets, keys, and a process that is
killed. See `try-network`."""
from __future__ import annotations

import math
import os
import re
import signal
import statistics
import subprocess
import sys
import time
from collections.abc import Callable
from dataclasses import dataclass, field, replace
from datetime import datetime

from tests.network import (
    HOST,
    TIMERS,
    Bfd,
    Bird,
    Box,
    End,
    Frr,
    Network,
    Secret,
    Side,
    Try,
    Waiting,
    is_full,
    is_said,
    line_of,
    output,
    run,
    within,
)
from tests.try_load import PROBE

NETWORK, TARGET = "172.16.1.0/24", "172.16.1.9"
"""What is behind 2.2.2.2."""
TIMES = 3
MOST = 1.2
"""Seconds from a silent loss to the kernel's table."""
SETTLED = 11
"""Seconds without a change after which a router-LSA need not wait: that of the last change may itself
have waited five, and two of one router are five apart (RFC 2328, MinLSInterval)."""
MOST_DISTURBED = 4
"""How often an outage is tried once more, since another session fell by the other end's silence."""
TOLD = 0.2
"""Seconds of such waiting that are told of."""
DETECTION = 0.9
"""Seconds: the detection time of `Bfd()`."""
HEARD = "udp dst port 3784 and not src port 50000"
"""For tcpdump: the packets of sessions, without those that are forged here."""
FALL = re.compile(r"(\S+ \S+) info: (eth\d): BFD with (\S+): Up -> Down: (.*)")
MOVED = re.compile(r"Full -> |-> Full")
"""In a box's log: an adjacency that came or went."""
KEYED = Secret(7, "keyed sha1", "a secret")
METICULOUS = Secret(7, "meticulous keyed sha1", "a secret")
FORGED = """
import socket, sys
sys.path.insert(0, sys.argv[1])
from leafrunt_host.bfd_packets import ControlPacket, State
source, ttl = sys.argv[2], int(sys.argv[3])
with socket.socket(socket.AF_INET, socket.SOCK_DGRAM) as one:
    one.setsockopt(socket.IPPROTO_IP, socket.IP_TTL, ttl)
    one.bind((source, 50000))
    for _ in range(20):
        one.sendto(ControlPacket(State.DOWN, 3, 99, 0, 300000, 300000).encode(), ("10.0.1.1", 3784))
"""
"""Sends what a neighbor would that has just been started: its session is Down."""
FLOOD = """
import socket, sys, time
sys.path.insert(0, sys.argv[1])
from leafrunt_host.bfd_packets import BfdKey, Bits, ControlPacket, KeyType, State
key = BfdKey(7, KeyType.METICULOUS_KEYED_SHA1, b"none of theirs")
packet = ControlPacket(State.DOWN, 3, 99, 0, 300000, 300000, bits=Bits.AUTHENTICATION)
data, sent, began = key.signed(packet, 1), 0, time.monotonic()
with socket.socket(socket.AF_INET, socket.SOCK_DGRAM) as one:
    one.setsockopt(socket.IPPROTO_IP, socket.IP_TTL, 255)
    one.bind(("10.0.1.2", 50000))
    while (passed := time.monotonic() - began) < float(sys.argv[2]):
        while sent < passed * float(sys.argv[3]):
            one.sendto(data, ("10.0.1.1", 3784))
            sent += 1
        time.sleep(0.001)
print(sent)
"""
"""The same, again and again, with a digest by another key."""
LOCKED = """
import fcntl, socket, struct, time
def waited():
    return int(open("/proc/self/schedstat").read().split()[1]) / 1e9
queue_of_lo = struct.pack("16si20x", b"lo", 1000)
with socket.socket(socket.AF_INET, socket.SOCK_DGRAM) as one:
    while True:
        began, before = time.monotonic(), waited()
        fcntl.ioctl(one, 0x8943, queue_of_lo)
        took = time.monotonic() - began - (waited() - before)
        if took > 0.02:
            print(f"{began:.4f} {began + took:.4f}", flush=True)
        time.sleep(0.02)
"""
"""Sets the length of a queue to what it is (SIOCSIFTXQLEN, netdevice(7)), again and again, and says
when that took long for another reason than that it had no processor."""
RATE, SECONDS_OF_FLOOD = 40_000, 8
WASTE = "while True: pass"
LOAD, SECONDS_OF_LOAD = 8, 600

Router = Box | Bird | Frr
MAKES: dict[str, Callable[..., Router]] = {"BIRD": Bird, "FRR": Frr}


def router_of(
    kind: str, given: Try, network: Network, name: str, at: int, sides: list[Side]
) -> Router:
    """A box, BIRD or FRR in that namespace, 1.1.1.1 or 2.2.2.2."""
    router_id = f"{at}.{at}.{at}.{at}"
    if kind == "a box":
        return Box(network, given.routerd, name, f"box{at}", router_id, sides)
    made = MAKES[kind](network, name, router_id, sides)
    if at == 1:
        made.folder = network.work / "tried"
        made.folder.mkdir()
    return made


class Heard:
    """BFD's packets at an interface of the box, with the kernel's moments: they show whether a session
    fell by the box's fault, or since the other end got no processor for so long."""

    def __init__(self, network: Network, namespace: str, interface: str) -> None:
        self._file = network.work / f"heard-{interface}"
        words = ["tcpdump", "-tt", "-nlU", "-i", interface, HEARD]
        with open(self._file, "w", encoding="utf-8") as it:
            network.start(namespace, words, network.work / "heard", stdout=it.fileno())

    def _of(self, source: str) -> list[tuple[float, str]]:
        lines = (each.split(maxsplit=3) for each in self._file.read_text().splitlines())
        return [
            (float(words[0]), words[3])
            for words in lines
            if len(words) == 4 and words[2].startswith(f"{source}.")
        ]

    def fell(self, source: str, second: float) -> float:
        """When that address says first, from about a second of the log on, that its session isn't
        Up; infinite where it doesn't."""
        found = (at for at, said in self._of(source) if at > second - 0.5 and "State Up" not in said)
        return next(found, math.inf)

    def silence(self, source: str, until: float, seconds: float, is_up: bool = False) -> float:
        """The longest time without a packet of that address in the seconds before a moment; with
        `is_up` those that say that its session is Down don't count."""
        since, but = until - seconds, "State Down"
        said = [(at, text) for at, text in self._of(source) if since < at < until]
        moments = [at for at, text in said if not (is_up and but in text)]
        pairs = zip([until - seconds, *moments], [*moments, until])
        return max(to - at for at, to in pairs)


def falls_of(lines: list[str], heards: dict[str, Heard]) -> tuple[list[str], list[str]]:
    """The sessions that fell, by lines of a box's log: those where the other end was heard in time,
    or this one wasn't; and those by the other end's silence alone."""
    of_box, of_other = list[str](), list[str]()
    found = list(filter(None, map(FALL.match, lines)))
    time.sleep(1 if found else 0)  # (tcpdump writes what it has)
    for each in found:
        second, heard = datetime.fromisoformat(each[1]).timestamp(), heards[each[2]]
        own = "10.0.1.1" if each[2] == "eth1" else "10.0.2.1"
        is_expired = "expired" in each[4]
        until = min(heard.fell(own if is_expired else each[3], second), time.time())
        # (A session that the other end has begun anew says Down, with sequence numbers of its own:
        # where there is a key that keeps no session Up: RFC 5880, 6.7.4.)
        theirs = heard.silence(each[3], until, 2 * DETECTION, is_up=True)
        ours = heard.silence(own, until, 2 * DETECTION)
        is_others = theirs >= DETECTION if is_expired else ours < DETECTION
        said = f"{theirs:.2f} s without the neighbor's packets, {ours:.2f} s without its own"
        (of_other if is_others else of_box).append(f"{each[0]} ({said})")
    return of_box, of_other


class Locked:
    """How long the kernel kept any change of links and routes waiting: one lock is held for it,
    which all network namespaces of the machine share (rtnl_lock, Linux, net/core/rtnetlink.c), so
    those of other parts of a try too."""

    def __init__(self, network: Network, namespace: str) -> None:
        self._file = network.work / "locked"
        with open(self._file, "w", encoding="utf-8") as it:
            words = [sys.executable, "-c", LOCKED]
            network.start(namespace, words, network.work / "heard", stdout=it.fileno())

    def between(self, first: float, last: float) -> float:
        """Seconds between two moments of the clock that nobody sets."""
        waits = (line.split() for line in self._file.read_text().splitlines())
        spans = [(float(words[0]), float(words[1])) for words in waits if len(words) == 2]
        return sum(max(0.0, min(to, last) - max(at, first)) for at, to in spans)


class Watched:
    """The router that is tried, 1.1.1.1, has two links with BFD to 2.2.2.2, by bridges that may
    fall silent; the first is the better one."""

    def __init__(
        self,
        given: Try,
        tried: str,
        neighbor: str,
        key: Secret | None = None,
        their_bfd: Bfd | None = Bfd(),
    ) -> None:
        self.network = network = Network()
        self.own, self.far = network.namespace("own"), network.namespace("far")
        self.bridges = [
            network.bridged(
                End(self.own, f"eth{at}", f"10.0.{at}.1/24"),
                End(self.far, f"eth{at}", f"10.0.{at}.2/24"),
            )
            for at in (1, 2)
        ]
        network.link(End(self.far, "d0", "172.16.1.1/24"), End(self.far, "d1", "172.31.0.1/32"))
        bfd = Bfd(key=key)
        sides = [Side("eth1", bfd=bfd), Side("eth2", cost=20, bfd=bfd)]
        self.tried = router_of(tried, given, network, self.own, 1, sides)
        theirs = their_bfd and replace(their_bfd, key=their_bfd.key or key)
        sides = [replace(each, bfd=theirs) for each in sides]
        sides.append(Side("d0", is_passive=True))
        self.neighbor = router_of(neighbor, given, network, self.far, 2, sides)
        names = ("eth1", "eth2") if tried == "a box" else ()
        self.heard = {each: Heard(network, self.own, each) for each in names}
        self.locked = Locked(network, self.own)

    def start(self) -> None:
        self.neighbor.start()
        self.tried.start()

    def by(self, number: int) -> bool:
        """Whether the kernel sends packets to the neighbor's network by this link."""
        return f"dev eth{number} " in output("ip", "-n", self.own, "route", "get", TARGET)

    def is_adjacent(self) -> bool:
        """Whether both ends are Full, and packets go by the better link."""
        is_well = is_full(self.tried, "2.2.2.2") and is_full(self.neighbor, "1.1.1.1")
        return is_well and self.by(1)

    def is_up(self) -> bool:
        """Whether all is well: both adjacencies and both sessions."""
        return self.is_adjacent() and self.sessions() == ["Up", "Up"]

    def sessions(self) -> list[str]:
        """The states of 1.1.1.1's sessions."""
        if isinstance(self.tried, Box):
            interfaces = self.tried.reported()["interfaces"]
            return [each["bfd"]["state"] for each in interfaces if each["bfd"]]
        if isinstance(self.tried, Bird):
            lines = self.tried.says("show", "bfd", "sessions").splitlines()
            return [each.split()[2] for each in lines if " eth" in each]
        peers = self.tried.says("show bfd peers")
        return [each.capitalize() for each in re.findall(r"Status: (\w+)", peers)]

    def settles(self) -> int:
        """Waits until no adjacency of a box's has come or gone for so long that its next router-LSA
        need not wait; which line of its log comes next then. (On a busy machine FRR may begin an
        adjacency anew some seconds after it was Full.)"""
        until, since = time.monotonic() + 2 * TIMERS.comes_up, 0
        while time.monotonic() < until:
            since = len(self.box_log()) if self.heard else 0
            time.sleep(SETTLED)
            if not self.heard or not any(map(MOVED.search, self.box_log()[since:])):
                break
        return since

    def outage(self, fail: Callable[[], None] | None = None) -> float:
        """Seconds from the first link's silence, or another failure, until packets go by the
        second, without what the router's programs waited for a processor, and the kernel's lock
        was others'."""
        words = ["ip", "netns", "exec", self.own, sys.executable, "-c", PROBE]
        words += [f"{time.monotonic() + 20}", TARGET]
        probe = subprocess.Popen(words, stdout=subprocess.PIPE, text=True)
        assert probe.stdout
        probe.stdout.readline()
        waiting = Waiting(self.tried.programs())
        (fail or (lambda: self.network.silence(self.bridges[0])))()
        began = time.monotonic()
        moment = float(probe.communicate()[0].split()[1])
        if not moment:
            return math.inf
        kept, locked = waiting.seconds(), self.locked.between(began, moment)
        if kept + locked > TOLD:
            said = f"{kept:.2f} s waited for a processor, and {locked:.2f} s for the kernel's lock"
            print(f"     {said}, of {moment - began:.2f} s", flush=True)
        return moment - began - kept - locked

    def box_log(self) -> list[str]:
        assert isinstance(self.tried, Box)
        return self.tried.log_lines()

    def changes(self, since: int = 0) -> list[str]:
        """What the box's log has of adjacencies that weren't Full any more, from that line on."""
        return [each for each in self.box_log()[since:] if "2.2.2.2 Full ->" in each]

    def holds(self, since: int) -> tuple[bool, str]:
        """Whether nothing has changed at either end since that line of the log, but by the other end's
        silence, after which all is well again; what has."""
        of_box, of_other = falls_of(self.box_log()[since:], self.heard)
        is_well = self.is_up() or (of_other and within(TIMERS.comes_up, self.is_up) is not None)
        changes = [] if of_other else self.changes(since)
        return bool(is_well and not of_box and not changes), "; ".join([*of_box, *of_other, *changes])

    def process(self) -> int:
        """The last process of BFD's."""
        return int(re.findall(r"BFD: process (\d+)", "\n".join(self.box_log()))[-1])

    def close(self) -> None:
        self.tried.stop()
        self.neighbor.stop()
        self.network.close()


def with_pair(
    given: Try,
    act: Callable[[Watched], None],
    neighbor: str,
    key: Secret | None = None,
    their_bfd: Bfd | None = Bfd(),
) -> None:
    """A part of a part with a box, in a network of its own."""
    it = Watched(given, "a box", neighbor, key, their_bfd)
    try:
        it.start()
        act(it)
    finally:
        it.close()


def bfd(given: Try) -> None:
    """A link falls silent: how soon the kernel's table has it, at a box and beside it at BIRD and
    FRR; then a link that is silent in one direction."""
    outages(given)
    with_pair(given, lambda it: one_way(given, it), "BIRD")


def bfd_outage(given: Try) -> None:
    """A link falls silent once, at a box beside BIRD."""
    with_pair(given, lambda it: told_outages(given, it, "a box beside BIRD", 1), "BIRD")


def bfd_holds(given: Try) -> None:
    """What must cut no adjacency: wrong keys, a neighbor without BFD, forged packets, a process that
    is killed, AdminDown."""
    other = Bfd(key=Secret(7, METICULOUS.algorithm, "another secret"))
    with_pair(given, lambda it: wrong_key(given, it), "BIRD", METICULOUS, other)
    with_pair(given, lambda it: without(given, it), "FRR", None, None)
    with_pair(given, lambda it: forged(given, it), "BIRD")
    with_pair(given, lambda it: flooded(given, it), "BIRD", METICULOUS)
    with_pair(given, lambda it: killed(given, it), "BIRD", KEYED)
    with_pair(given, lambda it: killed(given, it), "FRR")
    with_pair(given, lambda it: admin_down(given, it), "FRR")


def outages(given: Try) -> None:
    for tried, neighbor, key in (
        ("a box", "BIRD", None),
        ("a box", "BIRD", METICULOUS),
        ("a box", "BIRD", KEYED),
        ("a box", "FRR", None),
        ("BIRD", "BIRD", None),
        ("FRR", "FRR", None),
    ):
        it = Watched(given, tried, neighbor, key)
        try:
            it.start()
            told_outages(given, it, f"{tried} beside {neighbor}, {named(key)}")
        finally:
            it.close()


def named(key: Secret | None) -> str:
    return key.algorithm if key else "no key"


def told_outages(given: Try, it: Watched, who: str, times: int = TIMES) -> None:
    looks = given.looks
    if not looks.timed(f"{who}: Full, and both sessions Up", TIMERS.comes_up, it.is_up):
        return
    bridge = it.bridges[0]
    seconds = [
        undisturbed(it, lambda: it.network.silence(bridge), lambda: it.network.silence(bridge, False))
        for _ in range(times)
    ]
    said = f"{statistics.median(seconds):.2f} s, {min(seconds):.2f} to {max(seconds):.2f} s"
    what = f"{who}: a silent loss is in the kernel's table"
    if isinstance(it.tried, Box):
        looks.look(f"{what} within {MOST} s, {times} times", max(seconds) <= MOST, said)
    else:
        print(f"     beside it: {what}: {said}", flush=True)


def undisturbed(it: Watched, fail: Callable[[], None], mend: Callable[[], None]) -> float:
    """Seconds from the failure of the first link until packets go by the second; infinite where all
    isn't well again after it. It's tried once more where another session fell by the neighbor's own
    silence before that: then two router-LSAs of the neighbor's come within MinLSInterval. (FRR
    ends the session once more after the link is mended, since its adjacency went by the first
    end.)"""
    for _ in range(MOST_DISTURBED):
        since = it.settles()
        seconds = it.outage(fail)
        lines = it.box_log()[since:] if it.heard else []
        if it.heard and MOST < seconds:
            print(*(f"     the box: {each}" for each in lines[-20:]), sep="\n", flush=True)
        mend()
        if within(TIMERS.comes_up, it.is_up) is None:
            return math.inf
        of_box, _ = falls_of(it.box_log()[since:] if it.heard else [], it.heard)
        _, of_other = falls_of(lines, it.heard)
        if len(of_other) <= 1 and not of_box:
            return seconds
        print(f"     disturbed, {seconds:.2f} s: {'; '.join(of_box + of_other)}", flush=True)
        if of_box:
            return math.inf
    return math.inf


def one_way(given: Try, it: Watched) -> None:
    """The first link fails in one direction alone: one end is told by the other."""
    looks, bridge = given.looks, it.bridges[0]
    looks.timed("Full, and both sessions Up", TIMERS.comes_up, it.is_up)
    for end, what in enumerate(("from the neighbor", "to the neighbor")):
        seconds = undisturbed(
            it,
            lambda: it.network.deafen(bridge, end),
            lambda: it.network.deafen(bridge, end, False),
        )
        what = f"packets {what} alone are lost: in the kernel's table within {MOST} s"
        looks.look(what, seconds <= MOST, f"{seconds:.2f} s")


def wrong_key(given: Try, it: Watched) -> None:
    looks = given.looks
    assert isinstance(it.tried, Box)
    looks.timed("a neighbor with another key of BFD's: Full", TIMERS.comes_up, it.is_adjacent)
    looks.timed("`leafrunt status` says why", 10, lambda: is_said(it.tried, "wrong digest"))
    time.sleep(5)
    states = it.sessions()
    is_left = it.is_adjacent() and not it.changes() and states == ["Down", "Down"]
    looks.look("it stays Full, without a session", is_left, line_of(it.tried, "wrong digest"))


def without(given: Try, it: Watched) -> None:
    looks = given.looks
    looks.timed("a neighbor without BFD: Full", TIMERS.comes_up, it.is_adjacent)
    time.sleep(10)
    is_left = it.is_adjacent() and not it.changes() and it.sessions() == ["Down", "Down"]
    looks.look("it stays Full, without a session", is_left)


def forged(given: Try, it: Watched) -> None:
    """From the neighbor's machine: what would be true of the neighbor's own address and TTL."""
    looks = given.looks
    looks.timed("Full, and both sessions Up", TIMERS.comes_up, it.is_up)
    run("ip", "-n", it.far, "addr", "add", "10.0.1.9/24", "dev", "eth1")
    for source, ttl, what in (
        ("10.0.1.9", 255, "another source"),
        ("10.0.1.2", 254, "TTL 254"),
        ("10.0.1.2", 1, "TTL 1"),
    ):
        since = len(it.box_log())
        run("ip", "netns", "exec", it.far, sys.executable, "-c", FORGED, HOST, source, ttl)
        time.sleep(1.5)
        looks.look(f"forged packets, {what}: they change nothing", *it.holds(since))
    since = len(it.box_log())
    run("ip", "netns", "exec", it.far, sys.executable, "-c", FORGED, HOST, "10.0.1.2", 255)
    what = "the same with the neighbor's own address and TTL: heard"
    looks.timed(what, 3, lambda: it.changes(since), 0.05)


def flooded(given: Try, it: Watched) -> None:
    """In the neighbor's name, from its machine, by somebody who doesn't see its packets."""
    looks = given.looks
    looks.timed("Full, and both sessions Up", TIMERS.comes_up, it.is_up)
    words = ["ip", "netns", "exec", it.far, sys.executable, "-c", FLOOD]
    since = len(it.box_log())
    sent = run(*words, HOST, SECONDS_OF_FLOOD, RATE).strip()
    what = f"a flood of {sent} packets with wrong digests in {SECONDS_OF_FLOOD} s: no session falls"
    looks.look(what, *it.holds(since))


def killed(given: Try, it: Watched) -> None:
    """Twice: neither end notices it, before nor after the second."""
    looks, who = given.looks, type(it.neighbor).__name__
    looks.timed(f"{who}: Full, and both sessions Up", TIMERS.comes_up, it.is_up)
    since = len(it.box_log())
    for pause in (3, 1):
        first = it.process()
        os.kill(first, signal.SIGKILL)
        looks.timed("the process is killed: another runs", 10, lambda: it.process() != first)
        time.sleep(pause)
    looks.look("killed twice: nothing has changed at either end", *it.holds(since))


def admin_down(given: Try, it: Watched) -> None:
    """FRR's `shutdown`; BIRD has nothing that sends AdminDown."""
    looks = given.looks
    looks.timed("Full, and both sessions Up", TIMERS.comes_up, it.is_up)
    assert isinstance(it.neighbor, Frr)
    before = len(it.changes())
    words = ("configure terminal", "bfd", "peer 10.0.1.1 interface eth1", "shutdown")
    said = [each for word in words for each in ("-c", word)]
    output("vtysh", "--vty_socket", str(it.neighbor.folder), *said)
    looks.timed("FRR ends a session: it's Down", 5, lambda: it.sessions() == ["Down", "Up"])
    time.sleep(5)
    changes = it.changes()[before:]
    looks.look("and the adjacency stays", it.is_adjacent() and not changes, "; ".join(changes))


@dataclass
class Load:
    """Processes that keep the machine's load at `LOAD`, beside what else runs there."""

    network: Network
    namespace: str
    running: list[subprocess.Popen[str]] = field(default_factory=list)
    seen: list[float] = field(default_factory=list)

    def look(self) -> None:
        """Starts or ends some."""
        load = os.getloadavg()[0]
        self.seen.append(load)
        wanted = min(LOAD, max(0, math.ceil(LOAD - (load - len(self.running)))))
        while len(self.running) > wanted:
            self.network.stop(self.running.pop())
        while len(self.running) < wanted:
            words = [sys.executable, "-c", WASTE]
            log = self.network.work / "waste"
            self.running.append(self.network.start(self.namespace, words, log))


class Between:
    """A box between BIRD, 2.2.2.2, and FRR, 3.3.3.3, which have a link of their own; each of the
    three links has BFD."""

    def __init__(self, given: Try) -> None:
        network = given.network
        names = [network.namespace(each) for each in ("box", "bird", "frr")]
        for number, (at, to) in enumerate(((0, 1), (0, 2), (1, 2)), 1):
            network.link(
                End(names[at], f"eth{number}", f"10.0.{number}.1/24"),
                End(names[to], f"eth{number}", f"10.0.{number}.2/24"),
            )
        one, two, three = (Side(f"eth{number}", bfd=Bfd()) for number in (1, 2, 3))
        self.box = Box(network, given.routerd, names[0], "box", "1.1.1.1", [one, two])
        self.bird = Bird(network, names[1], "2.2.2.2", [one, three])
        self.frr = Frr(network, names[2], "3.3.3.3", [two, three])
        self.load = Load(network, names[0])
        self.heard = {each: Heard(network, names[0], each) for each in ("eth1", "eth2")}

    def start(self) -> None:
        for each in (self.box, self.bird, self.frr):
            each.start()

    def reports(self) -> list[dict[str, object]]:
        interfaces = self.box.reported()["interfaces"]
        return [each["bfd"] for each in interfaces if each["bfd"]]

    def is_up(self) -> bool:
        states = [each["state"] for each in self.reports()]
        return states == ["Up", "Up"] and len(self.of_bird()) == 2

    def of_bird(self) -> list[str]:
        """BIRD's sessions that are Up, each with its interface and since when."""
        lines = self.bird.says("show", "bfd", "sessions").splitlines()
        return [" ".join(each.split()[1:4]) for each in lines if " Up " in each]

    def stop(self) -> None:
        for each in (self.box, self.bird, self.frr):
            each.stop()


def bfd_load(given: Try) -> None:
    """Ten minutes at a load of 8: no session of a box falls; beside it one of BIRD's with FRR."""
    it, looks = Between(given), given.looks
    it.start()
    looks.timed("all sessions are Up", TIMERS.comes_up, it.is_up)
    time.sleep(5)
    before, end = it.of_bird(), time.monotonic() + SECONDS_OF_LOAD
    while time.monotonic() < end:
        it.load.look()
        time.sleep(10)
    of_box, of_other = falls_of(it.box.log_lines(), it.heard)
    is_well = it.is_up() or (of_other and within(TIMERS.comes_up, it.is_up) is not None)
    late = max(each["late_seconds"] for each in it.reports()) * 1000  # type: ignore[type-var]
    said = f"mean load {statistics.mean(it.load.seen):.1f}, {late:.1f} ms late at most; "
    what = f"{SECONDS_OF_LOAD} s: no session of the box's falls by its fault"
    looks.look(what, is_well and not of_box, said + "; ".join([*of_box, *of_other]))
    is_same = it.of_bird() == before
    print(f"     beside it: BIRD's sessions stay Up: {'yes' if is_same else 'no'}", flush=True)
    it.stop()
