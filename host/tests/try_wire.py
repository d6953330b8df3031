"""What comes in from the wire and from beyond it, and interfaces that come and go. See
`try-network`."""
from __future__ import annotations

import re
import statistics
import subprocess
import sys
import time
from pathlib import Path

from tests.network import (
    COMES_UP,
    HOST,
    SHA,
    Announce,
    Bird,
    Box,
    CannotTry,
    End,
    Secret,
    Side,
    Try,
    Waiting,
    is_full,
    output,
    run,
    within,
)
from tests.try_prompt import Noticed

EXTERNAL = "203.0.113.0/24"
"""What the neighbor announces."""
FORGED = "66.66.66.0/24"
"""What attack.py announces."""
ROUTER_IDS = ("1.1.1.1", "2.2.2.2")
SENT_EACH = 20
"""Packets a second of an attack that isn't a flood."""
MOST_FLOODS = 3
"""How often a flood is tried in which the box waits for a processor for half of the time."""


class Pair:
    """1.1.1.1 at 10.0.1.1 and its neighbor 2.2.2.2, by eth1 each or an interface of that name here;
    behind the neighbor is a host, 10.9.9.9."""

    def __init__(
        self, given: Try, is_box: bool = True, keys: tuple[Secret, ...] = (), name: str = "eth1"
    ) -> None:
        self.network = network = given.network
        self.own, self.next, self.far = (network.namespace(each) for each in ("own", "next", "far"))
        self.ends = End(self.own, name, "10.0.1.1/24"), End(self.next, "eth1", "10.0.1.2/24")
        network.link(*self.ends)
        network.link(End(self.next, "eth2", "10.9.9.1/24"), End(self.far, "eth1", "10.9.9.9/24"))
        run("ip", "-n", self.far, "route", "add", "default", "via", "10.9.9.1")
        run("ip", "-n", self.own, "route", "add", "10.9.9.9/32", "via", "10.0.1.2")
        side, behind = Side("eth1", keys), Side("eth2", is_passive=True)
        names = (self.own, self.next)
        sides = ([Side(name, keys)], [side, behind])
        routers = [
            Box(network, given.routerd, names[at], f"box{at + 1}", ROUTER_IDS[at], sides[at])
            if (at == 0) == is_box
            else Bird(network, names[at], ROUTER_IDS[at], sides[at])
            for at in (0, 1)
        ]
        self.tried, self.neighbor = routers
        if isinstance(self.neighbor, Bird):
            self.neighbor.externals = [EXTERNAL]
        else:
            self.neighbor.announced = [Announce(EXTERNAL)]

    def start(self) -> None:
        self.tried.start()
        self.neighbor.start()

    def stop(self) -> None:
        self.tried.stop()
        self.neighbor.stop()

    def is_up(self) -> bool:
        return is_full(self.tried, ROUTER_IDS[1]) and is_full(self.neighbor, ROUTER_IDS[0])

    def routes(self) -> str:
        """The kernel's routes at 1.1.1.1 that came by OSPF."""
        lines = output("ip", "-n", self.own, "-4", "route", "show").splitlines()
        return "; ".join(each for each in lines if "proto 89" in each or "proto bird" in each)

    def attack(
        self, kind: str, source: str, destination: str, seconds: float, rate: float = SENT_EACH
    ) -> subprocess.Popen[str]:
        """Somebody in a namespace begins to send: see attack.py."""
        words = [sys.executable, str(HOST / "tests" / "attack.py"), kind, destination]
        words += [f"{seconds}", f"{rate}"]
        log = self.network.work / "attack"
        return self.network.start(source, words, log, stdout=subprocess.PIPE)


def far(given: Try) -> None:
    """Packets that aren't the neighbor's, from two hops away and from the neighbor's machine, sent
    to the router itself: at a box, and at BIRD."""
    for is_box in (True, False):
        given.anew(lambda: attacked_from_afar(given, is_box))


def attacked_from_afar(given: Try, is_box: bool) -> None:
    it, looks = Pair(given, is_box), given.looks
    who = "a box" if is_box else "BIRD"
    it.start()
    looks.timed(f"{who} and its neighbor: Full", COMES_UP, it.is_up)
    looks.timed("with the neighbor's routes", 20, lambda: EXTERNAL in it.routes())
    routes = it.routes()
    for kind, what in (
        ("hello", "Hellos of the neighbor's Router ID"),
        ("silent", "its Hellos that name nobody"),
        ("update", "Updates with an LSA of its own"),
    ):
        for source, where in ((it.far, "two hops away"), (it.next, "the link, by unicast")):
            if source == it.next and not is_box:
                continue  # (BIRD takes those of the link, by whatever address)
            attack = it.attack(kind, source, "10.0.1.1", 4)
            seen = []
            while attack.poll() is None:
                seen += [it.routes() != routes or not is_full(it.tried, ROUTER_IDS[1])]
                time.sleep(0.2)
            sent = attack.communicate()[0].strip()
            is_same = bool(seen) and not any(seen)
            looks.look(f"{who}: {what} from {where} change nothing", is_same, sent)
            it.network.stop(attack)
            within(COMES_UP, lambda: it.is_up() and it.routes() == routes)
    if isinstance(it.tried, Box):
        told = [each.strip() for each in it.tried.status().splitlines() if "strange" in each]
        looks.look("`leafrunt status` tells of them", told, "; ".join(told))
    it.stop()


def users(given: Try) -> None:
    """Another user of the machine, with HMAC-SHA-256 on the link: sends to every UDP port, and has
    bound names before the box starts."""
    it, looks = Pair(given, keys=(SHA,)), given.looks
    attack = [sys.executable, str(HOST / "tests" / "attack.py")]
    names = ["leafrunt interface eth1", "leafrunt kernel's routing table"]
    log = it.network.work / "attack"
    squatter = it.network.start(it.own, [*attack, "squat", *names], log, stdout=subprocess.PIPE)
    assert squatter.stdout
    squatter.stdout.readline()
    it.start()
    looks.timed("nobody has bound abstract sockets: Full all the same", COMES_UP, it.is_up)
    looks.timed("with the neighbor's routes", 20, lambda: EXTERNAL in it.routes())
    said = run("ip", "netns", "exec", it.own, *attack, "udp").strip()
    reached = within(3, lambda: FORGED in it.routes())
    looks.look("nobody sends to each UDP port: no route comes of it", reached is None, said)
    routerd = routerd_of(it.tried)
    status = Path(f"/proc/{routerd}/status").read_text(encoding="ascii")
    number = int(re.findall(r"Uid:\t(\d+)", status)[0])
    is_poor = re.search(r"CapEff:\t0+\n", status) and "NoNewPrivs:\t1" in status
    what = "`routerd` is a user of its own, without capabilities and new privileges"
    looks.look(what, is_poor and number not in (0, 65534), f"user {number}")
    it.network.stop(squatter)
    it.stop()


def flood(given: Try) -> None:
    """Floods from the link for 16 seconds, RouterDeadInterval 8: Hellos of made-up Router IDs, and
    packets of the neighbor's own with wrong digests; at a box, and beside it at BIRD."""
    for is_box in (True, False):
        given.anew(lambda: flooded(given, is_box, "hellos", (), 30_000))
        given.anew(lambda: flooded(given, is_box, "digests", (SHA,), 40_000))


def flooded(
    given: Try, is_box: bool, kind: str, keys: tuple[Secret, ...], rate: float, seconds: float = 16
) -> None:
    it, looks, who = Pair(given, is_box, keys), given.looks, "a box" if is_box else "BIRD"
    it.start()
    looks.timed(f"{who} and its neighbor: Full", COMES_UP, it.is_up)
    what = {"hellos": "Hellos of made-up Router IDs", "digests": "its packets with wrong digests"}
    said = f"{who} stays Full under a flood of {what[kind]}"
    for _ in range(MOST_FLOODS):
        stays, seen, kept = outlived(it, kind, rate, seconds)
        if stays or kept < seconds / 2 or not is_box:
            break
        print(f"     disturbed: {seen}", flush=True)
        within(COMES_UP, it.is_up)
    if is_box:
        looks.look(said, stays, seen)
    else:
        print(f"     beside it: {said}: {'yes' if stays else 'no'}: {seen}")
    it.stop()


def outlived(it: Pair, kind: str, rate: float, seconds: float) -> tuple[bool, str, float]:
    """Whether the neighbor stays Full under a flood, what was seen, and how long the router's
    programs waited for a processor meanwhile. (Without one nobody looks at a packet, and what has
    no room is lost, the neighbor's Hellos among it.)"""
    box = it.tried if isinstance(it.tried, Box) else None
    waiting, lines = Waiting(it.tried.programs()), len(box.log_lines()) if box else 0
    attack = it.attack(kind, it.next, "224.0.0.5", seconds, rate)
    sent = attack.communicate()[0].strip()
    it.network.stop(attack)
    kept, is_up = waiting.seconds(), it.is_up()
    log = box.log_lines()[lines:] if box else []
    changes = [each for each in log if "2.2.2.2 Full ->" in each]
    seen = [sent, f"{kept:.1f} s waited for a processor", *changes]
    return is_up and not changes, "; ".join(seen), kept


def faults(given: Try) -> None:
    """Packets by which FRR and BIRD once broke (faults.py), in the neighbor's name."""
    it, looks = Pair(given), given.looks
    it.start()
    looks.timed("a box and its neighbor: Full", COMES_UP, it.is_up)
    looks.timed("with the neighbor's routes", 20, lambda: EXTERNAL in it.routes())
    before = routerd_of(it.tried)
    attack = it.attack("faults", it.next, "224.0.0.5", 12, 250)
    sent = attack.communicate()[0].strip()
    it.network.stop(attack)
    is_there = before is not None and routerd_of(it.tried) == before
    looks.look("packets by which other routers broke: both programs run on", is_there, sent)
    lines = it.tried.log_lines() if isinstance(it.tried, Box) else []
    mistakes = [each for each in lines if "mistake" in each or " error: " in each]
    looks.look("no mistake is logged", not mistakes, "; ".join(mistakes[:2]))
    looks.timed("Full again", 2 * COMES_UP, it.is_up)
    # (what was sent in the neighbor's name it hears of, and sets right, in a new exchange alone)
    for state in ("down", "up"):
        run("ip", "-n", it.next, "link", "set", "eth1", state)
        within(20, lambda: not it.is_up() or state == "up")
    looks.timed("the link was lost and is back: Full", 2 * COMES_UP, it.is_up)
    looks.timed("with the neighbor's routes again", 60, lambda: EXTERNAL in it.routes())
    it.stop()


def routerd_of(router: Box | Bird) -> int | None:
    """The process of a box's `routerd`, as `status` says it."""
    status = router.status() if isinstance(router, Box) else ""
    found = re.findall(r"routerd is process (\d+)", status)
    return int(found[0]) if found else None


def comeback(given: Try) -> None:
    """An interface that is made again with its index, that was in another namespace, that was
    renamed; a link that is lost twice within a HelloInterval."""
    given.anew(lambda: come_back(given))
    given.anew(lambda: lost_again(given))


def names(given: Try) -> None:
    """Interfaces of names that the kernel allows and few have: `check` and the kernel's table take
    each."""
    for name in ("wan!0", "e,1", "lan~1", "#"):
        given.anew(lambda: named(given, name))


def named(given: Try, name: str) -> None:
    looks = given.looks
    try:
        it = Pair(given, name=name)
    except CannotTry as why:
        print(f"     the system takes no interface of the name {name!r}: {why}")
        return
    it.start()
    looks.timed(f"an interface of the name {name!r}: Full", COMES_UP, it.is_up)
    looks.timed("and the neighbor's route is in the kernel", 10, lambda: EXTERNAL in it.routes())
    it.stop()


def come_back(given: Try) -> None:
    it, looks = Pair(given), given.looks
    it.network.namespace("away")
    it.start()
    looks.timed("Full", COMES_UP, it.is_up)
    index = index_of(it)
    for what, away, back in (
        ("made again with its index", lambda: deleted(it), lambda: made_again(it, index)),
        ("moved to another namespace and back", lambda: moved(it), lambda: moved_back(it)),
        (
            "renamed, and again",
            lambda: renamed(it, "eth1", "gone"),
            lambda: renamed(it, "gone", "eth1"),
        ),
    ):
        for pause in (0.0, 3.0):
            away()
            time.sleep(pause)
            back()
            same = "the same index" if index_of(it) == index else f"index {index_of(it)}"
            within(12, lambda: not it.is_up(), 0.1)
            what_then = f"an interface is {what} after {pause:g} s ({same}): Full"
            looks.timed(what_then, COMES_UP, it.is_up)
    it.stop()


def index_of(it: Pair) -> int:
    return int(output("ip", "-n", it.own, "-o", "link", "show", "eth1").split(":")[0] or 0)


def deleted(it: Pair) -> None:
    run("ip", "-n", it.own, "link", "del", "eth1")


def made_again(it: Pair, index: int) -> None:
    words = ("link", "add", "eth1", "index", index, "type", "veth", "peer", "name", "eth1")
    run("ip", "-n", it.own, *words, "netns", it.next)
    for end in it.ends:
        addressed(end)


def addressed(end: End) -> None:
    run("ip", "-n", end.namespace, "addr", "replace", end.address, "dev", end.interface)
    run("ip", "-n", end.namespace, "link", "set", end.interface, "up")


def moved(it: Pair) -> None:
    run("ip", "-n", it.own, "link", "set", "eth1", "netns", it.network.name("away"))


def moved_back(it: Pair) -> None:
    run("ip", "-n", it.network.name("away"), "link", "set", "eth1", "netns", it.own)
    addressed(it.ends[0])


def renamed(it: Pair, name: str, other: str) -> None:
    run("ip", "-n", it.own, "link", "set", name, "down")
    run("ip", "-n", it.own, "link", "set", name, "name", other)
    run("ip", "-n", it.own, "link", "set", other, "up")


def lost_again(given: Try) -> None:
    """With HelloInterval 10: it's lost again before the neighbor's next Hello. The kernel tells of a
    carrier at most once a second (Linux, net/core/link_watch.c), so it counts from its notice."""
    it, looks = Pair(given), given.looks
    for each in (it.tried, it.neighbor):
        each.sides[0] = Side("eth1", hello=10, dead=40)
    it.start()
    looks.timed("HelloInterval 10: Full", 60, it.is_up)
    took, noticed = [], Noticed(it.network, it.own, "eth1", "10.0.1.2")
    for _ in range(4):
        before = len(it.tried.log_lines())
        run("ip", "-n", it.next, "link", "set", "eth1", "down")

        def is_told() -> bool:
            # (its log: to ask by the console takes seconds on a busy machine)
            return any("2.2.2.2 Full ->" in each for each in it.tried.log_lines()[before:])

        def is_full_again() -> bool:
            # (its log too: a look by the console may see what the box hasn't looked at yet)
            return any("-> Full" in each for each in it.tried.log_lines()[before:])

        is_late = within(10, is_told, 0.02) is None
        told = float("inf") if is_late else time.time()
        down = [at for at, said in noticed.notices() if "eth1" in said and "NO-CARRIER" in said]
        took.append(told - down[-1] if down else float("inf"))
        run("ip", "-n", it.next, "link", "set", "eth1", "up")
        within(60, is_full_again, 0.1)
    said = ", ".join(f"{each:.2f} s" for each in took)
    looks.look("a link is lost four times: told each time, and not by a timer", max(took) < 10, said)
    looks.look("within 1 s (median)", statistics.median(took) <= 1, said)
    noticed.end()
    it.stop()
