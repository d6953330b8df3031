"""The looks at a ring of three boxes, BIRD and FRR: see `try-network`."""
from __future__ import annotations

import signal
import subprocess
import sys
import time
from collections.abc import Callable, Iterable
from dataclasses import replace
from pathlib import Path

from tests.network import (
    COMES_UP,
    DEAD_INTERVAL,
    HELLO_INTERVAL,
    HOST,
    MD5,
    NOT_FULL,
    SHA,
    Bird,
    Box,
    End,
    Frr,
    Looks,
    Side,
    Try,
    is_full,
    is_said,
    line_of,
    output,
    prefixes,
    run,
    within,
)


class Ring:
    """1.1.1.1 - BIRD 2.2.2.2 - 3.3.3.3 - 4.4.4.4 - FRR 5.5.5.5 - 1.1.1.1, and a host behind each.

    Wire 1 is between 1.1.1.1 and BIRD, and so on around; router K has 172.16.K.1, its host
    172.16.K.2.
    """

    IDS = ("1.1.1.1", "2.2.2.2", "3.3.3.3", "4.4.4.4", "5.5.5.5")
    KEYS = (SHA, SHA, SHA, MD5, MD5)

    def __init__(self, given: Try, hello: int = HELLO_INTERVAL, dead: int = DEAD_INTERVAL) -> None:
        self.network, self._hello, self._dead = given.network, hello, dead
        self.names = [self.network.namespace(f"r{number}") for number in range(1, 6)]
        self.hosts = [self.network.namespace(f"h{number}", False) for number in range(1, 6)]
        for at in range(5):
            after = (at + 1) % 5
            one = End(self.names[at], "right", f"10.0.{at + 1}.1/24")
            other = End(self.names[after], "left", f"10.0.{at + 1}.2/24")
            self.network.wired(one, other)
            near = End(self.names[at], "hosts", f"172.16.{at + 1}.1/24")
            self.network.link(near, End(self.hosts[at], "eth0", f"172.16.{at + 1}.2/24"))
            run("ip", "-n", self.hosts[at], "route", "add", "default", "via", near.ip)
        self.network.start_wires()
        self.boxes = {at: self._box(given.routerd, at) for at in (0, 2, 3)}
        self.bird = Bird(self.network, self.names[1], self.IDS[1], self._sides(1))
        self.frr = Frr(self.network, self.names[4], self.IDS[4], self._sides(4))

    def _sides(self, at: int) -> list[Side]:
        left, right = self.KEYS[(at - 1) % 5], self.KEYS[at]
        return [
            Side("left", (left,), self._hello, self._dead),
            Side("right", (right,), self._hello, self._dead),
            Side("hosts", is_passive=True),
        ]

    def _box(self, routerd: Path, at: int) -> Box:
        name = f"box{at + 1}"
        return Box(self.network, routerd, self.names[at], name, self.IDS[at], self._sides(at))

    @property
    def routers(self) -> list[Box | Bird | Frr]:
        one, three, four = self.boxes.values()
        return [one, self.bird, three, four, self.frr]

    def start(self) -> None:
        for each in self.routers:
            each.start()

    def stop(self) -> None:
        for each in self.routers:
            each.stop()

    def is_up(self) -> bool:
        """Whether every router is Full with both of its neighbors."""
        return all(
            is_full(each, self.IDS[at - 1], self.IDS[(at + 1) % 5])
            for at, each in enumerate(self.routers)
        )

    def not_up(self) -> str:
        return "; ".join(
            f"{self.IDS[at]}: {each.neighbors()}" for at, each in enumerate(self.routers)
        )

    def silent_pairs(self, seconds: float, among: Iterable[int] = range(5)) -> list[str]:
        """The pairs of hosts of which the one never answers the other within that time."""
        members = list(among)
        pings = []
        for at in members:
            others = [f"172.16.{each + 1}.2" for each in members if each != at]
            words = [sys.executable, str(HOST / "tests" / "ping.py"), f"{seconds}"]
            words += [f"172.16.{at + 1}.2", *others]
            name = self.hosts[at]
            pings.append(
                subprocess.Popen(
                    ["ip", "netns", "exec", name, *words], stdout=subprocess.PIPE, text=True
                )
            )
        return [line for each in pings for line in each.communicate()[0].splitlines()]

    def is_equal(self) -> bool:
        """Whether all databases have the same LSAs with equal sequence numbers."""
        wanted = self.bird.database()
        return bool(wanted) and all(each.database() == wanted for each in self.routers)

    def unequal(self) -> str:
        """How the databases differ from BIRD's."""
        wanted, said = self.bird.database(), []
        for router_id, each in zip(self.IDS, self.routers):
            has = each.database()
            if has != wanted:
                few = [str(lsa) for lsa in sorted(has ^ wanted)[:2]]
                said.append(
                    f"{router_id}: {len(has - wanted)} more, {len(wanted - has)} fewer: {few}"
                )
        return "; ".join(said)

    def is_connected(self, seconds: float = 2, among: Iterable[int] = range(5)) -> bool:
        return not self.silent_pairs(seconds, among)


def ring(given: Try) -> None:
    """A ring of three boxes, BIRD and FRR: routes, a cut link, and the end of a box."""
    it, looks = Ring(given), given.looks
    it.start()
    ring_up(it, looks)
    for each in (ring_databases, ring_map, ring_cut, ring_ended, ring_killed):
        each(it, looks)
    it.stop()


def in_a_ring(given: Try, act: Callable[[Ring, Looks], None], seconds: float) -> None:
    """What is done once the ring is up, which takes this many seconds at most."""
    it = Ring(given)
    it.start()
    given.looks.timed("the ring is up", seconds, it.is_up)
    act(it, given.looks)
    it.stop()


def externals(given: Try) -> None:
    """10,000 externals of BIRD come and leave."""
    in_a_ring(given, ring_externals, 2 * COMES_UP)


def replays(given: Try) -> None:
    """Packets of BIRD are sent again by somebody else."""
    in_a_ring(given, ring_replays, COMES_UP)


def refusals(given: Try) -> None:
    """BIRD's interface differs in one thing at a time."""
    in_a_ring(given, ring_refusals, COMES_UP)


def ring_up(it: Ring, looks: Looks) -> None:
    what = "ring: every router is Full with its neighbors, HMAC-SHA-256 at BIRD, MD5 at FRR"
    if not looks.timed(what, COMES_UP, it.is_up):
        print(f"     {it.not_up()}")
    looks.timed("every host pings every other (20 pairs)", 20, it.is_connected)


def ring_databases(it: Ring, looks: Looks) -> None:
    what = "`leafrunt database` of each box has just what BIRD's `show ospf lsadb` has"
    took = within(20, it.is_equal)
    looks.look(what, took is not None, f"{len(it.bird.database())} LSAs, equal sequence numbers")


def ring_map(it: Ring, looks: Looks) -> None:
    """`leafrunt map --to` against the way of the kernel's `ip route get`."""
    for box in it.boxes.values():
        found = []
        for number in range(1, 6):
            if number != int(box.router_id[0]):
                said = marked_next(box, f"172.16.{number}.0/24")
                found.append(said == kernel_next(box, f"172.16.{number}.2"))
        what = f"`leafrunt map --to` of {box.router_id} marks the way of `ip route get`"
        looks.look(what, all(found) and len(found) == 4, f"{sum(found)} of 4 prefixes")


def kernel_next(box: Box, address: str) -> str:
    """The interface by which the kernel sends to an address."""
    words = output("ip", "-n", box.namespace, "route", "get", address).split()
    return words[words.index("dev") + 1] if "dev" in words else ""


def marked_next(box: Box, prefix: str) -> str:
    """The own interface whose link is marked in the map with a way to the prefix: at every box of
    the ring, its neighbors' Router IDs tell which."""
    own = box.router_id
    before, after = Ring.IDS[Ring.IDS.index(own) - 1], Ring.IDS[(Ring.IDS.index(own) + 1) % 5]
    for line in box.command("map", "--to", prefix).splitlines():
        if "->" in line and "penwidth" in line and f'"{own}"' in line:
            is_from = line.split("->")[0].strip() == f'"{own}"'
            is_out = "dir=forward" in line if is_from else "dir=back" in line
            for neighbor, interface in ((before, "left"), (after, "right")):
                if f'"{neighbor}"' in line and is_out:
                    return interface
    return ""


def uses_third_wire(it: Ring) -> bool:
    """Whether the kernels of 3.3.3.3 and 4.4.4.4 send to each other's hosts by the link between
    them: Full comes seconds before, as router-LSAs are five seconds apart."""
    there, back = kernel_next(it.boxes[2], "172.16.4.2"), kernel_next(it.boxes[3], "172.16.3.2")
    return (there, back) == ("right", "left")


def ring_cut(it: Ring, looks: Looks) -> None:
    """The link between two boxes: once with its carrier, once without a sign."""
    for what, cut, mend, most in (
        (
            "a link is cut: all hosts ping each other within RouterDeadInterval, 8 s",
            lambda: it.network.carrier(3, False),
            lambda: it.network.carrier(3, True),
            DEAD_INTERVAL,
        ),
        (
            "a link is cut and keeps its carriers: within RouterDeadInterval and 3 s",
            lambda: it.network.wire("cut", 3),
            lambda: it.network.wire("mend", 3),
            DEAD_INTERVAL + 3,
        ),
    ):
        looks.timed("both of its ends send by it", COMES_UP, lambda: uses_third_wire(it))
        cut()
        looks.timed(what, most, lambda: it.is_connected(0.4))
        mend()
        looks.timed("and mended: Full again", COMES_UP, it.is_up)


def droppers(it: Ring) -> list[tuple[str, Bird | Frr]]:
    """The two neighbors of 1.1.1.1."""
    return [("BIRD", it.bird), ("FRR", it.frr)]


def ring_ended(it: Ring, looks: Looks) -> None:
    box = it.boxes[0]
    start = time.monotonic()
    box.send_signal(signal.SIGTERM)
    for name, router in droppers(it):
        left = max(0.0, start + 5 - time.monotonic())
        took = within(left, lambda: router.neighbors().get(box.router_id) in NOT_FULL, 0.05)
        measured = f"{'seen' if took is not None else 'not'} after {time.monotonic() - start:.1f} s"
        looks.look(
            f"a box is ended by SIGTERM: {name} drops it within 5 s", took is not None, measured
        )
    status = box.wait()
    measured = f"status {status}, after {time.monotonic() - start:.1f} s"
    looks.look("it ends with status 0", status == 0, measured)
    left = len(box.kernel_routes())
    looks.look("none of its routes is left in the kernel's table", not left, f"{left} are")
    looks.timed("the other hosts ping each other", 10, lambda: it.is_connected(0.4, range(1, 5)))
    box.start()
    looks.timed("started again: Full", COMES_UP, it.is_up)
    looks.timed("and every host pings every other", 20, it.is_connected)


def ring_killed(it: Ring, looks: Looks) -> None:
    box = it.boxes[0]
    box.stop(signal.SIGKILL)
    start = time.monotonic()
    for name, router in droppers(it):
        within(20, lambda: router.neighbors().get(box.router_id) in NOT_FULL, 0.1)
        took = time.monotonic() - start
        what = f"a box is killed: {name} drops it within RouterDeadInterval, 8 s"
        looks.look(what, took <= DEAD_INTERVAL + 1, f"after {took:.1f} s")
    running = within(5, lambda: not box.runs())
    looks.look("`routerd` ends with it", running is not None)
    others = within(10, lambda: it.is_connected(0.4, range(1, 5)))
    looks.look("the other hosts ping each other", others is not None)
    box.start()
    looks.timed("started again: Full", COMES_UP, it.is_up)
    looks.timed("and every host pings every other", 20, it.is_connected)


def ring_externals(it: Ring, looks: Looks) -> None:
    count = 10_000
    it.bird.externals = prefixes(100, count)
    it.bird.configure()

    def have(wanted: int) -> bool:
        return all(
            sum(each.startswith("100.") for each in box.kernel_routes()) == wanted
            for box in it.boxes.values()
        )

    looks.timed(
        f"{count} externals of BIRD are in the kernel's table of each box",
        120,
        lambda: have(count),
        0.5,
    )
    took = within(90, it.is_equal, 1)
    what = "`leafrunt database` of each box has just what `show ospf lsadb` has"
    if not looks.look(what, took is not None, f"{len(it.bird.database())} LSAs"):
        print(f"     {it.unequal()}")
    stays_full(it, looks)
    it.bird.externals = []
    it.bird.configure()
    looks.timed("and they leave it", 120, lambda: have(0), 0.5)
    stays_full(it, looks)


def stays_full(it: Ring, looks: Looks) -> None:
    """Where they don't, the logs say what came before."""
    if not looks.look("all adjacencies stay Full", it.is_up()):
        print(f"     {it.not_up()}")
        for box in it.boxes.values():
            lines = box.log_lines()
            print(*(f"     {box.router_id}: {each}" for each in lines[-12:]), sep="\n")
            print(f"     {box.router_id}: {box.ask('interfaces')}")
        for name, log in (("BIRD", it.bird.folder / "log"), ("FRR", it.frr.folder / "ospfd.log")):
            lines = log.read_text(errors="replace").splitlines()
            print(*(f"     {name}: {each[:200]}" for each in lines[-8:]), sep="\n")


def ring_replays(it: Ring, looks: Looks) -> None:
    """Packets of BIRD that were sent before are sent again to 1.1.1.1."""
    box, hello = it.boxes[0], 1
    first = it.network.wire("first", 1, 1, hello)
    said = "replayed packet: sequence number below the last one"

    def is_refused(frame: str) -> bool:
        send_again(it, frame)
        return is_said(box, said)

    looks.timed("an old Hello of BIRD is replayed: told", 10, lambda: is_refused(first))
    print(f"     {line_of(box, said)}")
    looks.look("and the adjacency stays Full", is_full(box, "2.2.2.2"))
    box.stop(signal.SIGKILL)
    box.start()
    within(COMES_UP, lambda: box.ask("neighbors"))
    looks.timed(
        "the same right after the box was killed and started again", 10, lambda: is_refused(first)
    )
    looks.timed("and the adjacency comes to Full", COMES_UP, lambda: is_full(box, "2.2.2.2"))
    earlier = it.network.wire("last", 1, 1, hello)
    time.sleep(DEAD_INTERVAL)
    it.bird.stop(signal.SIGKILL)
    start = time.monotonic()

    def is_dropped() -> bool:
        send_again(it, earlier)
        return not is_full(box, "2.2.2.2")

    what = "BIRD is killed, and a Hello of eight seconds before is replayed: dropped all the same"
    looks.timed(what, DEAD_INTERVAL + 2, is_dropped)
    looks.look("`leafrunt status` says why", is_said(box, said))
    print(f"     {line_of(box, said)}")
    while time.monotonic() - start < 2 * DEAD_INTERVAL:
        send_again(it, earlier)
        time.sleep(0.5)
    state = box.neighbors().get("2.2.2.2")
    looks.look("replayed on: no adjacency comes of it", state in NOT_FULL, f"{state or 'Down'}")
    it.bird.start()
    looks.timed("BIRD is started again: Full", COMES_UP, it.is_up)


def send_again(it: Ring, frame: str) -> None:
    """Sends a frame that BIRD sent to 1.1.1.1 once more."""
    it.network.wire("send", 1, 0, frame)
    time.sleep(0.1)


def ring_refusals(it: Ring, looks: Looks) -> None:
    """BIRD's interface to 1.1.1.1 differs in one thing at a time."""
    box, right_sides = it.boxes[0], it.bird.sides
    left = right_sides[0]
    other = replace(SHA, secret="another secret")
    for what, side, said in (
        ("a wrong key", replace(left, keys=(other,)), "wrong digest: key 5, hmac sha256"),
        ("an unknown key", replace(left, keys=(replace(SHA, id=6),)), "unknown key: key 6"),
        (
            "another algorithm",
            replace(left, keys=(replace(SHA, algorithm="hmac sha1"),)),
            "digest of another length",
        ),
        ("no key", replace(left, keys=()), "not authenticated by a digest"),
        ("another HelloInterval", replace(left, hello=3), "HelloInterval 3 there and 2 here"),
        (
            "another RouterDeadInterval",
            replace(left, dead=12),
            "RouterDeadInterval 12 there and 8 here",
        ),
    ):
        it.bird.sides = [side, *right_sides[1:]]
        it.bird.configure()
        told(box, looks, what, said)
    it.bird.sides = right_sides
    it.bird.configure()
    looks.timed("all as it was: Full", COMES_UP, it.is_up)
    for mtu, said in (
        (1400, "MTU 1400 there and 1500 here: it discards"),
        (1600, "MTU 1600 there and 1500 here: this router discards"),
    ):
        it.bird.stop()
        run("ip", "-n", it.bird.namespace, "link", "set", "left", "mtu", mtu)
        it.bird.start()
        told(box, looks, f"another MTU, {mtu}", said)
    it.bird.stop()
    run("ip", "-n", it.bird.namespace, "link", "set", "left", "mtu", 1500)
    it.bird.start()
    looks.timed("all as it was: Full", COMES_UP, it.is_up)


def told(box: Box, looks: Looks, what: str, said: str) -> None:
    """No adjacency with BIRD, and a reason."""
    looks.timed(
        f"{what}: no adjacency, and `leafrunt status` says why",
        2 * DEAD_INTERVAL + 4,
        lambda: not is_full(box, "2.2.2.2") and is_said(box, said),
    )
    print(f"     {line_of(box, said)}")


def loss(given: Try) -> None:
    """Every link of the ring loses a fifth of all packets."""
    it, looks = Ring(given), given.looks
    it.network.wire("loss", 20)
    it.start()
    if not looks.timed("every router is Full with its neighbors all the same", 120, it.is_up):
        print(f"     {it.not_up()}")
    looks.timed("and all databases are equal", 60, it.is_equal)
    it.network.wire("loss", 0)
    looks.timed("without the loss every host pings every other", 30, it.is_connected)
    it.stop()
