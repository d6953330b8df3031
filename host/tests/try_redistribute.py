"""What of the kernel's a router announces, beside BIRD in the same network: addresses, routes and a
default route that come and go, thousands of them, and programs that decide on them. See
`try-network`."""
from __future__ import annotations

import time
from collections.abc import Callable
from dataclasses import dataclass
from pathlib import Path

from tests.network import (
    COMES_UP,
    HOST,
    Bird,
    Box,
    End,
    Network,
    Side,
    Try,
    is_full,
    is_said,
    output,
    prefixes,
    run,
    within,
    within_own,
)

FOLLOWS = 5
"""Seconds within which a change is in the neighbor's kernel: the box waits 0.1, and the neighbor may
wait a second before it calculates its routes."""
AGAIN = 5 + FOLLOWS
"""The same of what was announced already within MinLSInterval."""
MANY, MOST = 10_000, 4096
READ_AGAIN = 30
"""Seconds that are waited for what a second reading of thousands of the kernel's routes brings."""
SLOWLY = 180
"""Seconds that are waited for thousands, of which each LSA is acknowledged, on a busy machine."""
PRICE = """hook price
rank 0
r2 = *u32 r1 8
r0 = *u32 r1 12
if r2 <= 28 goto END
r0 = 16777215
END:
exit
state END rank 0
with r0 number 0 4294967295 0 0
"""
"""Withholds what is longer than /28."""
SECTION = """
[redistribute.connected]
[redistribute.static]
metric = 30
deny = ["10.66.0.0/16 le 32"]
allow = ["10.0.0.0/8 ge 24 le 32"]
[redistribute.kernel]
protocols = ["bgp", "77"]
[redistribute.default]
type = 1
metric = 5
tag = 77
"""


class LearningBird(Bird):
    """A BIRD that announces what its kernel has."""

    def __init__(self, network: Network, namespace: str, router_id: str, side: Side) -> None:
        super().__init__(network, namespace, router_id, [side])
        self.folder = network.work / "bird-learning"
        self.folder.mkdir()

    def configure(self) -> None:
        (side,) = self.sides
        (self.folder / "conf").write_text(
            f'log "{self.folder}/log" all; router id {self.router_id}; protocol device {{ }}\n'
            "protocol kernel { learn; ipv4 { import all; export none; }; }\n"
            "protocol direct { ipv4; }\n"
            "protocol ospf v2 { ipv4 { import all; export where source != RTS_OSPF; };\n"
            f"{self.area} {{ {self._interface(side)} }}; }}\n"
        )


@dataclass
class Announcing:
    """A router whose kernel's routes are announced: its namespace, how it's called, and the second
    byte of its prefixes."""

    router: Box | Bird
    name: str
    number: int

    def ip(self, *words: object) -> None:
        run("ip", "-n", self.router.namespace, *words)

    @property
    def is_box(self) -> bool:
        return isinstance(self.router, Box)


class Scene:
    """A box, 1.1.1.1, and a BIRD, 3.3.3.3, at a BIRD, 2.2.2.2, which has what they announce; each
    has a network without OSPF at eth2."""

    def __init__(self, given: Try, more: str = SECTION) -> None:
        self.network, self.looks = given.network, given.looks
        names = [given.network.namespace(each) for each in ("own", "beside", "near", "far")]
        self.own, beside, self.near, far = names
        link = given.network.link
        link(End(self.own, "eth1", "10.0.1.1/24"), End(self.near, "eth1", "10.0.1.2/24"))
        link(End(beside, "eth1", "10.0.3.1/24"), End(self.near, "eth2", "10.0.3.2/24"))
        link(End(self.own, "eth2", "10.11.0.1/24"), End(far, "eth1", "10.11.0.2/24"))
        link(End(beside, "eth2", "10.13.0.1/24"), End(far, "eth2", "10.13.0.2/24"))
        self.far = far
        self.box = Box(given.network, given.routerd, self.own, "box", "1.1.1.1", [Side("eth1")])
        self.box.more = more
        bird = LearningBird(given.network, beside, "3.3.3.3", Side("eth1"))
        self.neighbor = Bird(given.network, self.near, "2.2.2.2", [Side("eth1"), Side("eth2")])
        self.both = [Announcing(self.box, "a box", 11), Announcing(bird, "BIRD", 13)]

    def start(self) -> None:
        for each in (self.neighbor, *(it.router for it in self.both)):
            each.start()
        ids = ("1.1.1.1", "3.3.3.3")
        self.looks.timed("all are Full", COMES_UP, lambda: is_full(self.neighbor, *ids))

    def stop(self) -> None:
        for each in (*(it.router for it in self.both), self.neighbor):
            each.stop()

    def there(self) -> set[str]:
        """What the neighbor's kernel has by OSPF."""
        lines = output("ip", "-n", self.near, "-4", "route", "show", "proto", "bird").splitlines()
        words = (line.split() for line in lines)
        kinds = ("blackhole", "unreachable", "prohibit")
        return {its[1] if its[0] in kinds else its[0] for its in words if its}

    def follows(
        self, it: Announcing, what: str, prefix: str, is_there: bool = True, seconds: float = FOLLOWS
    ) -> None:
        """Looks until the neighbor's kernel has the route, or hasn't; BIRD's time is shown beside
        it. What the programs on the way waited for a processor is the machine's, and not theirs."""
        programs = [*it.router.programs(), *self.neighbor.programs()]
        is_so, measured = within_own(
            seconds, lambda: (prefix in self.there()) is is_there, programs, 0.05
        )
        said = f"{it.name}: {what}: {'there' if is_there else 'gone'}"
        if it.is_box:
            self.looks.look(said, is_so, measured)
        else:
            print(f"     beside it: {said}: {measured}", flush=True)

    def of(self, prefix: str) -> str:
        """What the neighbor's BIRD says of a route: its type, metrics and tag."""
        return " ".join(self.neighbor.says("show", "route", prefix, "all").split())


def redistribute(given: Try) -> None:
    """Connected, static and named protocols' routes and a default route come and go, in the kernel
    of a box and of BIRD; odd routes; what is added by hand; programs at price and tag."""
    it = Scene(given)
    objects = assembled(given)
    it.start()
    for each in it.both:
        connected(it, each)
        routes(it, each)
    odd_routes(it)
    by_hand(it)
    decided(it, objects)
    reloaded(it)
    it.stop()


def assembled(given: Try) -> list[Path]:
    """The objects of a program at price, and of one at tag."""
    price, tag = given.network.work / "price.s", HOST.parent / "examples" / "tag_by_length.s"
    price.write_text(PRICE)
    found = []
    for source in (price, tag):
        target = given.network.work / f"{source.stem}.o"
        run(given.routerd, "asm", source, target)
        found.append(target)
    return found


def connected(it: Scene, one: Announcing) -> None:
    prefix = f"10.{one.number}.0.0/24"
    # (all have become Full a moment ago, and the router-LSAs that lead there may wait five seconds)
    it.follows(one, "the network of an address", prefix, seconds=AGAIN)
    run("ip", "-n", it.far, "link", "set", "eth1" if one.is_box else "eth2", "down")
    it.follows(one, "the link is down", prefix, False)
    run("ip", "-n", it.far, "link", "set", "eth1" if one.is_box else "eth2", "up")
    it.follows(one, "the link is up", prefix, seconds=AGAIN)
    one.ip("addr", "add", f"192.0.{one.number}.1/32", "dev", "lo")
    it.follows(one, "an address of the loopback interface", f"192.0.{one.number}.1")


def routes(it: Scene, one: Announcing) -> None:
    way = ("via", f"10.{one.number}.0.2")
    for what, prefix, words in (
        ("a static route", f"10.{one.number}.1.0/24", ("proto", "static")),
        ("a route of `ip route add`", f"10.{one.number}.2.0/24", ()),
        ("a route of bgp", f"10.{one.number}.3.0/24", ("proto", "bgp")),
        ("a default route", "default", ("proto", "dhcp", "metric", "100")),
    ):
        one.ip("route", "add", prefix, *way, *words)
        it.follows(one, what, prefix)
        if one.is_box and prefix == "default":
            said = it.of("0.0.0.0/0")
            is_so = all(each in said for each in ("OSPF-E1", "metric1: 15", "tag: 0x0000004d"))
            it.looks.look("with the section's type, metric and tag", is_so, said[-120:])
        one.ip("route", "del", prefix, *way, *words)
        it.follows(one, what, prefix, False)
    if one.is_box:
        one.ip("route", "add", "10.11.4.0/24", *way, "proto", "zebra")
        one.ip("route", "add", "10.66.1.0/24", *way)
        one.ip("route", "add", "10.77.0.0/16", *way)
        time.sleep(2)
        announced = {each.split()[0] for each in it.box.ask("announced")}
        wrong = {"10.11.4.0/24", "10.66.1.0/24", "10.77.0.0/16", "10.0.1.0/24"} & announced
        what = "neither another protocol's route, what the filters keep out nor OSPF's own networks"
        it.looks.look(what, not wrong, " ".join(wrong))


def odd_routes(it: Scene) -> None:
    """Routes of each kind that `ip route` makes."""
    box, via = it.both[0], ("via", "10.11.0.2")
    box.ip("nexthop", "add", "id", 7, *via, "dev", "eth2")
    box.ip("nexthop", "add", "id", 8, "group", 7)
    kinds: list[tuple[str, tuple[object, ...]]] = [
        ("10.20.1.0/24", ("blackhole", "10.20.1.0/24")),
        ("10.20.2.0/24", ("unreachable", "10.20.2.0/24", "metric", 9)),
        ("10.20.3.0/24", ("10.20.3.0/24", "nhid", 8)),
        ("10.20.5.0/24", ("10.20.5.0/24", "nexthop", *via, "nexthop", "via", "10.11.0.3")),
        ("10.20.6.0/24", ("10.20.6.0/24", "dev", "eth2", "scope", "link", "src", "10.11.0.1")),
        ("10.20.7.1", ("10.20.7.1/32", *via)),
    ]
    for _, words in kinds:
        box.ip("route", "add", *words)
    box.ip("route", "add", "10.20.2.0/24", *via, "metric", 10)
    for words in (("throw", "10.20.8.0/24"), ("10.20.9.0/24", *via, "tos", "0x10")):
        box.ip("route", "add", *words)
    wanted = {prefix for prefix, _ in kinds}
    took = within(AGAIN, lambda: wanted <= it.there())
    missing = " ".join(sorted(wanted - it.there()))
    it.looks.look("odd routes of a box: there", took is not None, missing or f"after {took:.2f} s")
    never = {"10.20.8.0/24", "10.20.9.0/24"} & it.there()
    it.looks.look("neither `throw` nor one for a type of service", not never, " ".join(never))
    box.ip("route", "del", "unreachable", "10.20.2.0/24", "metric", 9)
    time.sleep(1)
    is_there = "10.20.2.0/24" in it.there()
    it.looks.look("one of two routes of a prefix goes: it stays announced", is_there)
    box.ip("nexthop", "del", "id", 7)
    it.follows(box, "the next hop object of a route is deleted", "10.20.3.0/24", False)


def by_hand(it: Scene) -> None:
    """What is added at the console goes before what is redistributed."""
    looks, prefix = it.looks, "10.20.6.0/24"
    looks.look("metric and type of the section", "metric2: 30" in it.of(prefix), it.of(prefix)[-90:])
    said = it.box.ask(f"add {prefix} 7 1 99")
    looks.timed("added by hand: that counts", AGAIN, lambda: "tag: 0x00000063" in it.of(prefix))
    it.box.ask(f"withdraw {prefix}")
    it.follows(it.both[0], f"({said[0]}) withdrawn by hand", prefix, False)
    it.both[0].ip("route", "add", prefix, "via", "10.11.0.2", "metric", 3)
    time.sleep(1)
    looks.look("and stays so where the kernel's routes change", prefix not in it.there())


def decided(it: Scene, objects: list[Path]) -> None:
    """Programs at price and tag decide on what is redistributed."""
    box = it.both[0]
    for each in objects:
        it.looks.look(f"attach {each.name}", it.box.ask(f"attach {each}")[0].startswith("attached"))
    for prefix in ("10.30.1.0/28", "10.30.2.0/29"):
        box.ip("route", "add", prefix, "via", "10.11.0.2")
    it.follows(box, "a prefix that the program at price lets pass", "10.30.1.0/28")
    tag = "tag: 0x0000001c" in it.of("10.30.1.0/28")
    it.looks.look("its tag is that of the program at tag", tag, it.of("10.30.1.0/28")[-90:])
    time.sleep(1)
    withheld = "10.30.2.0/29 30 2 0 withheld static" in it.box.ask("announced")
    is_out = "10.30.2.0/29" not in it.there()
    it.looks.look("one that it withholds isn't announced", withheld and is_out)


def reloaded(it: Scene) -> None:
    """A section that isn't there any more, and one that is there again."""
    box = it.both[0]
    before, it.box.more = it.box.more, "[redistribute.connected]\n"
    for more, is_there in ((it.box.more, False), (before, True)):
        it.box.more = more
        it.box.configure()
        it.box.command("reload")
        it.follows(box, "a static route after a reload", "10.30.1.0/28", is_there, AGAIN)
        what = "and a connected network, which stays announced"
        it.looks.look(what, "10.11.0.0/24" in it.there())


def thousands(given: Try) -> None:
    """10,000 static routes at once at a box, and at BIRD beside it: 4,096 are announced, the others
    told; room comes; 4,096 of them flap for ten seconds."""
    it = Scene(given, "[redistribute.static]\n")
    it.start()
    for each in it.both:
        loaded(it, each)
    flapping(it)
    it.stop()


def batch(it: Announcing, lines: list[str]) -> None:
    text = "\n".join(lines) + "\n"
    run("ip", "-n", it.router.namespace, "-force", "-batch", "-", lines=text)


def loaded(it: Scene, one: Announcing) -> None:
    all_of_them = prefixes(100 + one.number, MANY)
    most = MOST if one.is_box else MANY
    first = f"{100 + one.number}."

    def count() -> int:
        return sum(each.startswith(first) for each in it.there())

    batch(one, [f"route add {each} via 10.{one.number}.0.2" for each in all_of_them])
    what = f"{MANY} static routes: {most} in the neighbor's kernel"
    show(it, one, what, SLOWLY, lambda: count() >= most)
    if not one.is_box:
        return
    time.sleep(2)
    told = f"{MANY - MOST - 4} more destinations aren't announced"
    # (the box may have read the kernel's list while `ip` was adding to it, and tells of fewer then)
    took = within(READ_AGAIN, lambda: is_said(it.box, told))
    is_told = took is not None and count() == MOST
    it.looks.look(f"{MOST} of them, and what doesn't fit is told", is_told)
    lines = it.box.status().splitlines()
    print("     " + "\n     ".join(each for each in lines if "announced" in each))
    batch(one, [f"route del {each} via 10.11.0.2" for each in all_of_them[: MANY - MOST + 1]])
    left = set(all_of_them[MANY - MOST + 1 :])
    what = f"{len(left)} are left: all of those"
    show(it, one, what, SLOWLY, lambda: count() == len(left) and left <= it.there())
    it.looks.timed("and nothing is told", 10, lambda: "announced:" not in it.box.status())


def show(it: Scene, one: Announcing, what: str, seconds: float, is_so: Callable[[], bool]) -> None:
    took = within(seconds, is_so)
    measured = f"not within {seconds:g} s" if took is None else f"after {took:.1f} s"
    if one.is_box:
        it.looks.look(f"{one.name}: {what}", took is not None, measured)
    else:
        print(f"     beside it: {one.name}: {what}: {measured}", flush=True)


def flapping(it: Scene) -> None:
    """Routes that come and go as quickly as `ip` makes them."""
    box, looks = it.both[0], it.looks
    its = prefixes(111, MANY)[MANY - MOST + 1 :]
    gone = [f"route del {each} via 10.11.0.2" for each in its]
    back = [f"route add {each} via 10.11.0.2" for each in its]
    log, began, times, states = len(it.box.log_lines()), time.monotonic(), 0, []
    while time.monotonic() - began < 10:
        batch(box, gone)
        batch(box, back)
        times += 1
        states.append(it.box.neighbors().get("2.2.2.2"))
    measured = f"{times} times in {time.monotonic() - began:.0f} s"
    is_up = set(states) == {"Full"} and is_full(it.neighbor, "1.1.1.1")
    looks.look(f"{len(its)} routes flap: the adjacency stays Full", is_up, measured)
    lines = len(it.box.log_lines()) - log
    looks.look("the log has no more than 40 lines of it", lines <= 40, str(lines))
    show(it, box, "and then all are there again", SLOWLY, lambda: set(its) <= it.there())
