"""A router in the middle is started, ended and changed, beside BIRD and FRR in the same place: how
many packets through it are lost. See `try-network`."""
from __future__ import annotations

import os
import signal
import subprocess
import sys
import threading
import time
from collections.abc import Callable, Iterable
from dataclasses import replace
from pathlib import Path
from typing import Any

from tests.deleted import Deleted
from tests.network import (
    HOST,
    SHA,
    TIMERS,
    Announce,
    Bird,
    Box,
    CannotTry,
    End,
    Frr,
    Network,
    Secret,
    Side,
    Try,
    is_full,
    output,
    prefixes,
    run,
    started_below,
    within,
)

NAMES = {"left": "2.2.2.2", "other": "4.4.4.4", "right": "3.3.3.3", "lan": "5.5.5.5"}
"""Routers around the router that is tried, 3.1.1.1: packets go by it from left to right, or by the
other way."""
OWN = "3.1.1.1"
"""One neighbor has a lower Router ID, and one a higher one."""
FROM, TO, BEHIND = "172.16.2.2", "172.16.3.2", "172.16.3.0/24"
SETTLED = 4.0
"""Seconds after which no router changes its routes any more."""


class Losses:
    """Echo requests every 5 ms from a host to another, until `end`."""

    def __init__(self, network: Network, namespace: str) -> None:
        words = [sys.executable, str(HOST / "tests" / "losses.py"), FROM, TO]
        self._network = network
        log = network.work / "losses"
        self._ran = network.start(namespace, words, log, subprocess.PIPE, subprocess.PIPE)
        self._line()
        self._start = time.monotonic()

    def _line(self) -> str:
        assert self._ran.stdout
        return self._ran.stdout.readline()

    def end(self) -> tuple[int, str]:
        """How many were lost, and when and how many at a time, in words."""
        lost, sent, gaps = self.counted()
        said = f"{lost} of {sent} packets ({lost * 5} ms)"
        few = ", ".join(f"{count} at {at:.2f} s" for at, count in gaps[:6])
        return lost, f"{said}: {few}" if gaps else said

    def counted(self) -> tuple[int, int, list[tuple[float, int]]]:
        """How many were lost and sent, and after how many seconds how many at a time were lost."""
        assert self._ran.stdin
        self._ran.stdin.close()
        gaps, line = list[tuple[float, int]](), self._line()
        while line and not line.startswith("sent "):
            at, count = line.split()
            gaps.append((float(at), int(count)))
            line = self._line()
        words = line.split()
        self._ran.stdin = None
        self._network.stop(self._ran)
        if len(words) != 4:
            raise CannotTry("the packets weren't counted")
        return int(words[3]), int(words[1]), gaps


class Transit:
    """A host - 2.2.2.2 - 3.1.1.1 - 3.3.3.3 - a host, and a longer way by 4.4.4.4 where `is_only`
    isn't set; and 5.5.5.5 at an interface of 3.1.1.1 that is passive."""

    def __init__(
        self,
        given: Try,
        kind: str,
        is_only: bool = False,
        keys: tuple[Secret, ...] = (),
        around: type[Bird] | type[Frr] | type[Box] = Bird,
    ) -> None:
        self.network = network = Network()
        self.kind, self._around, self._routerd = kind, around, given.routerd
        names = ["tried", "left", "right", "lan", *([] if is_only else ["other"]), "h1", "h2"]
        self.spaces = {each: network.namespace(each, each[0] != "h") for each in names}
        self._link("left", "right", "tried", "left", "10.0.1")
        self._link("tried", "right", "right", "left", "10.0.2")
        self._link("tried", "lan", "lan", "tried", "10.0.5")
        sides = {
            "left": [Side("right", keys)],
            "right": [Side("left", keys)],
            "lan": [Side("tried")],
        }
        if not is_only:
            self._link("left", "other", "other", "left", "10.0.3")
            self._link("other", "right", "right", "other", "10.0.4")
            sides["left"].append(Side("other", cost=100))
            sides["right"].append(Side("other", cost=100))
            sides["other"] = [Side("left", cost=100), Side("right", cost=100)]
        for name, host, number in (("left", "h1", 2), ("right", "h2", 3)):
            near = End(self.spaces[name], "hosts", f"172.16.{number}.1/24")
            network.link(near, End(self.spaces[host], "eth0", f"172.16.{number}.2/24"))
            run("ip", "-n", self.spaces[host], "route", "add", "default", "via", near.ip)
            sides[name].append(Side("hosts", is_passive=True))
        self.others = {name: self._other(name, sides[name]) for name in sides}
        self.sides = [Side("left", keys), Side("right", keys), Side("lan", is_passive=True)]
        self.tried = self._tried()

    def _link(self, one: str, its: str, other: str, others: str, network: str) -> None:
        ends = End(self.spaces[one], its, f"{network}.1/24"), End(
            self.spaces[other], others, f"{network}.2/24"
        )
        self.network.link(*ends)

    def _other(self, name: str, sides: Iterable[Side]) -> Bird | Frr | Box:
        if self._around is Box:
            return Box(self.network, self._routerd, self.spaces[name], name, NAMES[name], sides)
        other = self._around(self.network, self.spaces[name], NAMES[name], sides)
        other.folder = self.network.work / name
        other.folder.mkdir()
        return other

    @property
    def birds(self) -> dict[str, Bird]:
        """The others, where they are BIRDs."""
        return {name: each for name, each in self.others.items() if isinstance(each, Bird)}

    def _tried(self) -> Box | Bird | Frr:
        sides, space = self.sides, self.spaces["tried"]
        if self.kind == "a box":
            return Box(self.network, self._routerd, space, "tried", OWN, sides)
        if self.kind == "FRR":
            return Frr(self.network, space, OWN, sides)
        return Bird(self.network, space, OWN, sides)

    def start(self) -> None:
        for each in self.others.values():
            each.start()
        if "other" in self.others:
            within(TIMERS.comes_up, lambda: self.is_connected("other"))
        self.tried.start()

    def losses(self) -> Losses:
        return Losses(self.network, self.spaces["h1"])

    def way(self, name: str, to: str) -> str:
        """The interface by which a router's kernel sends there."""
        words = output("ip", "-n", self.spaces[name], "route", "get", to).split()
        return words[words.index("dev") + 1] if "dev" in words else ""

    def is_connected(self, way: str) -> bool:
        """Whether the packets go that way, both ways."""
        back = {"right": "left", "other": "other"}[way]
        return (self.way("left", TO), self.way("right", FROM)) == (way, back)

    def is_by_tried(self) -> bool:
        return self.is_connected("right")

    def lost_in(self, act: Callable[[], object], seconds: float) -> tuple[int, str]:
        """What is lost from before an act until this many seconds after it."""
        losses = self.losses()
        time.sleep(0.5)
        act()
        time.sleep(seconds)
        return losses.end()


def transit(given: Try) -> None:
    """A router that others send by is ended and started again while there is another way, between
    BIRDs and between FRRs, which calculate their routes at once: how many packets are lost, counted
    every 5 ms, with a box, BIRD and FRR in its place; and a box between boxes."""
    names, all_kinds = {Bird: "BIRDs", Frr: "FRRs", Box: "boxes"}, ("a box", "BIRD", "FRR")
    kinds = {Bird: all_kinds, Frr: all_kinds, Box: all_kinds[:1]}
    for around, kind in [(each, kind) for each in kinds for kind in kinds[each]]:
        it = Transit(given, kind, around=around)
        given.network = it.network
        try:
            ended_and_started(it, given, f"{kind} between two {names[around]}")
        finally:
            it.network.close()


def ended_and_started(it: Transit, given: Try, who: str) -> None:
    looks, is_box = given.looks, isinstance(it.tried, Box)
    it.start()
    looks.timed(f"{who}: the packets go by it", TIMERS.comes_up, it.is_by_tried)
    time.sleep(SETTLED)

    def told(what: str, lost: int, said: str) -> None:
        if is_box:
            looks.look(f"{who}: {what}: nothing is lost", not lost, said)
        else:
            print(f"     {who}: {what}: {said}", flush=True)

    told("ended in order", *it.lost_in(it.tried.stop, SETTLED))

    def start_again() -> None:
        it.tried.start()
        within(TIMERS.comes_up, it.is_by_tried, 0.1)

    told("started again", *it.lost_in(start_again, SETTLED))


TAKES_OVER = 4.8
"""Seconds that a new `routerd` lives at least before it takes over: its own router-LSA follows the
first one after five (RFC 2328, MinLSInterval)."""
NEXT = Secret(6, "hmac sha256", "the next secret")
EXTERNAL, BY_HAND, BY_SIGNAL = "203.0.113.0/24", "192.0.2.0/24", "198.51.100.0/24"
LONG = "198.18.0.16/28"
"""What a program at `veto` keeps out."""
NUMBER = 100
"""Of another table of the kernel."""


def changed(it: Transit, sides: list[Side], externals: tuple[str, ...] = ()) -> bool:
    """Whether the router that is tried has taken another configuration over while it runs."""
    it.tried.sides = it.sides = sides
    if isinstance(it.tried, Box):
        it.tried.announced = [Announce(each) for each in externals]
        it.tried.configure()
        return bool(it.tried.command("reload"))
    it.tried.externals = list(externals)
    it.tried.configure()
    return True


def reload_box(given: Try) -> None:
    """The configuration of a box that others send by is changed while it runs: how many packets are
    lost, counted every 5 ms."""
    reload(given, ("a box",))


def reload(given: Try, kinds: tuple[str, ...] = ("a box", "BIRD")) -> None:
    """The configuration of a router that others send by is changed while it runs: how many packets
    are lost, counted every 5 ms, with a box and with BIRD in its place, and no other way."""
    for kind in kinds:
        it = Transit(given, kind, is_only=True, keys=(SHA,))
        given.network = it.network
        try:
            it.start()
            given.looks.timed(f"{kind}: the packets go by it", TIMERS.comes_up, it.is_by_tried)
            time.sleep(SETTLED)
            of_box = (kernel_left_alone,) if kind == "a box" else ()
            with ByHand(it, given):
                for change in (
                    destination_comes,
                    keys_change,
                    programs_change,
                    signal_comes,
                    kernel_changes,
                    *of_box,
                    passive_or_not,
                    costs_change,
                    wrong_file,
                    intervals_change,
                    interface_comes,
                    address_changes,
                    many_changes,
                ):
                    change(it, given)
            hindered(it, given)
        finally:
            it.network.close()


def nothing_lost(it: Transit, given: Try, what: str, act: Callable[[], None]) -> None:
    """Nothing is lost while that is done, and no adjacency that isn't meant changes."""
    states = [is_full(it.tried, NAMES[each]) for each in ("left", "right")]
    lost, said = it.lost_in(act, SETTLED)
    states += [is_full(it.tried, NAMES[each]) for each in ("left", "right")]
    fell = ""
    if isinstance(it.tried, Box):
        fell = "; ".join(each for each in it.tried.log_lines() if "Full -> " in each and "lan:" not in each)
    good = not lost and all(states) and not fell
    given.looks.look(f"{it.kind}: {what}: nothing is lost, all stay Full", good, f"{said} {fell}")


def destination_comes(it: Transit, given: Try) -> None:
    def comes() -> None:
        changed(it, it.sides, (EXTERNAL,))
        given.looks.timed(f"{it.kind}: another destination", 10, lambda: EXTERNAL in at_left(it))

    nothing_lost(it, given, "another destination is announced", comes)


def signal_comes(it: Transit, given: Try) -> None:
    """The same by SIGHUP, with another destination."""

    def comes() -> None:
        if isinstance(it.tried, Box):
            it.tried.announced = [Announce(each) for each in (EXTERNAL, BY_SIGNAL)]
            it.tried.configure()
        elif isinstance(it.tried, Bird):
            it.tried.externals = [EXTERNAL, BY_SIGNAL]
            it.tried.write()
        it.tried.send_signal(signal.SIGHUP)
        what = f"{it.kind}: SIGHUP: another destination"
        given.looks.timed(what, 10, lambda: BY_SIGNAL in at_left(it))

    nothing_lost(it, given, "SIGHUP has it read its configuration", comes)


def at_left(it: Transit) -> str:
    return output("ip", "-n", it.spaces["left"], "-4", "route", "show")


def at_both_ends(it: Transit, **new: Any) -> None:
    """Gives the two links these settings, here and then at the neighbors."""
    own = [replace(each, **new) for each in it.sides[:2]]
    changed(it, [*own, *it.sides[2:]], (EXTERNAL,))
    for name in ("left", "right"):
        bird = it.birds[name]
        bird.sides = [replace(each, **new) if each.keys else each for each in bird.sides]
        bird.configure()


def keys_change(it: Transit, given: Try) -> None:
    """The three steps of a rollover, at each router of the links."""

    def changes() -> None:
        for keys in ((SHA, NEXT), (NEXT, SHA), (NEXT,)):
            at_both_ends(it, keys=keys)
            time.sleep(5)

    nothing_lost(it, given, "both keys are replaced in three steps", changes)


class ByHand:
    """What is announced and attached at a box's console before other changes is there after them."""

    def __init__(self, it: Transit, given: Try) -> None:
        self._it, self._looks = it, given.looks
        self._object = HOST.parent / "examples/first/count_types.o"

    def __enter__(self) -> None:
        if isinstance(self._it.tried, Box):
            said = [self._it.tried.ask(f"add {BY_HAND} 20 2 0")[0]]
            said += self._it.tried.ask(f"attach {self._object}")[:1]
            what = "a box: a destination and a program come by hand"
            is_there = within(10, lambda: BY_HAND in at_left(self._it))
            self._looks.look(what, is_there is not None, "; ".join(said))
            self._deleted = Deleted(self._it.network, self._it.spaces["left"])

    def __exit__(self, *_: object) -> None:
        box = self._it.tried
        if not isinstance(box, Box):
            return
        gone = [each for each in self._deleted.end() if BY_HAND in each]
        is_announced = f"{BY_HAND} 20 2 0 originated console" in box.ask("announced")
        what = "a box: after all that the destination is announced still, at any time"
        self._looks.look(what, is_announced and not gone, "; ".join(gone))
        programs = [each for each in box.ask("programs") if str(self._object) in each]
        self._looks.look("a box: and the program is attached", programs, "; ".join(programs))


def programs_change(it: Transit, given: Try) -> None:
    """A program at `veto` comes and goes; at BIRD a filter at its import."""
    veto = it.network.work / "no_long_prefixes.o"
    run(given.routerd, "asm", HOST.parent / "examples/no_long_prefixes.s", veto)
    it.birds["right"].externals = [LONG]
    it.birds["right"].configure()
    given.looks.timed(f"{it.kind}: a prefix of /28 comes", 20, lambda: LONG in at_tried(it))

    def changes() -> None:
        for is_kept in (False, True):
            if isinstance(it.tried, Box):
                it.tried.more = "" if is_kept else f'[[program]]\nobject = "{veto}"\n'
            elif isinstance(it.tried, Bird):
                it.tried.imported = "all" if is_kept else "where net.len <= 24"
            changed(it, it.sides, (EXTERNAL,))
            what = f"{it.kind}: it is {'there' if is_kept else 'vetoed'}"
            given.looks.timed(what, 10, lambda: (LONG in at_tried(it)) is is_kept)

    nothing_lost(it, given, "a program comes that vetoes it, and goes", changes)


def at_tried(it: Transit) -> str:
    return output("ip", "-n", it.spaces["tried"], "-4", "route", "show", "table", "all")


def kernel_changes(it: Transit, given: Try) -> None:
    """Another limit of next hops, another table, to which a rule leads, and back; at BIRD the table
    alone."""
    space, router = it.spaces["tried"], it.tried
    run("ip", "-n", space, "rule", "add", "lookup", NUMBER, "pref", 40_000)

    def is_in(table: str) -> bool:
        routes = output("ip", "-n", space, "-4", "route", "show", BEHIND, "table", table)
        return bool(routes)

    def changes() -> None:
        for more, table in (
            ("[kernel]\necmp = 1\n", "main"),
            (f"[kernel]\ntable = {NUMBER}\n", str(NUMBER)),
            ("", "main"),
        ):
            if isinstance(router, Box):
                router.more = more
            elif isinstance(router, Bird):
                router.table = "" if table == "main" else table
            changed(it, it.sides, (EXTERNAL,))
            other = {"main": str(NUMBER), str(NUMBER): "main"}[table]
            what = f"{it.kind}: its routes are in table {table} alone"
            given.looks.timed(what, 10, lambda: is_in(table) and not is_in(other))

    if isinstance(router, Box):
        nothing_lost(it, given, "[kernel] has another limit, then another table", changes)
    else:
        _, said = it.lost_in(changes, SETTLED)
        print(f"     beside it: {it.kind}: another table, and back: {said}", flush=True)


def kernel_left_alone(it: Transit, given: Try) -> None:
    """The kernel loses its routes, as it was asked, and no adjacency falls."""
    box, looks = it.tried, given.looks
    assert isinstance(box, Box)
    before = len(box.log_lines())
    for said, is_kept in (("kernel = false", False), ("", True)):
        box.top = said
        changed(it, it.sides, (EXTERNAL,))
        what = f"a box: {said or 'kernel = true'}: its routes {'come' if is_kept else 'go'}"
        looks.timed(what, 10, lambda: bool(box.kernel_routes()) is is_kept)
    time.sleep(SETTLED)
    fell = [each for each in box.log_lines()[before:] if "Full -> " in each]
    looks.look("a box: no adjacency falls by that", not fell, "; ".join(fell))


def wrong_file(it: Transit, given: Try) -> None:
    """Another cost, another destination, and a mistake below them."""
    box, looks = it.tried, given.looks

    def shown() -> list[str]:
        assert isinstance(box, Box)
        costs = [each.partition(" hello ")[0] for each in box.ask("interfaces")]
        return [*costs, *box.ask("announced"), *box.ask("programs")]

    def comes() -> None:
        sides = [replace(each, cost=77) for each in it.sides]
        if isinstance(box, Box):
            before, box.more = shown(), "[kernel]\ntable = 0\n"
            box.sides, box.announced = sides, [Announce(EXTERNAL), Announce("198.51.100.0/24")]
            box.configure()
            status, _, said = box.answers("reload")
            box.more, box.sides = "", it.sides
            is_told = status == 1 and "kernel, table: found 0; allowed: a whole number" in said
            looks.look("a box: a wrong file is refused, with why", is_told, said.strip())
            looks.look("a box: and changes nothing", before == shown())
        elif isinstance(box, Bird):
            box.area = "area nowhere"
            box.sides = sides
            said = " ".join(box.configure().split())
            box.area, box.sides = "area 0", it.sides
            print(f"     beside it: BIRD: {said}", flush=True)

    nothing_lost(it, given, "a wrong file", comes)
    changed(it, it.sides, (EXTERNAL,))


def passive_or_not(it: Transit, given: Try) -> None:
    for is_passive in (False, True):
        what = "passive" if is_passive else "active"

        def changes() -> None:
            lan = replace(it.sides[2], is_passive=is_passive)
            changed(it, [*it.sides[:2], lan], (EXTERNAL,))
            given.looks.timed(
                f"{it.kind}: its interface is {what}",
                TIMERS.comes_up,
                lambda: is_full(it.birds["lan"], OWN) is not is_passive,
            )

        nothing_lost(it, given, f"a third interface becomes {what}", changes)


def costs_change(it: Transit, given: Try) -> None:
    def changes() -> None:
        changed(it, [replace(each, cost=30) for each in it.sides], (EXTERNAL,))
        given.looks.timed(
            f"{it.kind}: the right router has the cost", 20, lambda: "metric 30" in of_own(it)
        )

    nothing_lost(it, given, "the costs of all interfaces are changed", changes)


def of_own(it: Transit) -> str:
    """What the right router knows of the one that is tried."""
    return it.birds["right"].says("show", "ospf", "state", "all")


def intervals_change(it: Transit, given: Try) -> None:
    """HelloInterval by one, RouterDeadInterval by four, here and then at the neighbors."""
    hello, dead = TIMERS.hello + 1, TIMERS.dead + 4

    def changes() -> None:
        at_both_ends(it, hello=hello, dead=dead)
        time.sleep(dead + 1)

    nothing_lost(it, given, "HelloInterval and RouterDeadInterval are changed at both ends", changes)


def interface_comes(it: Transit, given: Try) -> None:
    lan = it.sides[2]
    for sides, what in ((it.sides[:2], "goes"), ([lan, *it.sides[:2]], "comes")):

        def changes() -> None:
            changed(it, sides, (EXTERNAL,))
            given.looks.timed(
                f"{it.kind}: its network {what}",
                20,
                lambda: ("10.0.5.0/24" in at_left(it)) is (what == "comes"),
            )

        nothing_lost(it, given, f"an interface {what}", changes)


def address_changes(it: Transit, given: Try) -> None:
    """Of the interface that is passive: nobody else announces its old network."""
    tried = it.spaces["tried"]
    for old, new in (("10.0.5", "10.0.6"), ("10.0.6", "10.0.5")):

        def changes() -> None:
            run("ip", "-n", tried, "addr", "add", f"{new}.1/24", "dev", "lan")
            run("ip", "-n", tried, "addr", "del", f"{old}.1/24", "dev", "lan")
            is_taken = changed(it, it.sides, (EXTERNAL,))
            given.looks.look(f"{it.kind}: it takes {new}.1 in place of {old}.1", is_taken)
            given.looks.timed(
                f"{it.kind}: its old network goes, the new one comes",
                20,
                lambda: f"{old}.0/24" not in at_left(it) and f"{new}.0/24" in at_left(it),
            )

        nothing_lost(it, given, "an interface's address changes", changes)


def many_changes(it: Transit, given: Try) -> None:
    """Another cost five times in a row, with 1,000 destinations and 2,000 of a neighbor's."""
    own, others = prefixes(110, 1000), prefixes(100, 2000)
    it.birds["right"].externals = others
    it.birds["right"].configure()
    changed(it, it.sides, tuple(own))
    given.looks.timed(f"{it.kind}: all are known", 60, lambda: has_all(it, own, others))

    def changes() -> None:
        for cost in range(10, 15):
            if not changed(it, [replace(each, cost=cost) for each in it.sides], tuple(own)):
                given.looks.look(f"{it.kind}: cost {cost}", False)

    nothing_lost(it, given, "five costs in a row, with 3,000 externals", changes)
    given.looks.timed(f"{it.kind}: all are known still", 60, lambda: has_all(it, own, others))


def has_all(it: Transit, own: list[str], others: list[str]) -> bool:
    found = at_left(it).split()
    return len({*own, *others} & set(found)) == len(own) + len(others)


def age_of(process: str) -> float:
    """Seconds since a process was started (proc(5), the file `stat`, starttime)."""
    fields = Path("/proc", process, "stat").read_text().rpartition(")")[2].split()
    ticks = os.sysconf("SC_CLK_TCK")
    return time.clock_gettime(time.CLOCK_BOOTTIME) - int(fields[19]) / ticks


def hindered(it: Transit, given: Try) -> None:
    """What may come between while another `routerd` gets ready: it is killed, or more are asked
    for."""
    box, looks = it.tried, given.looks
    if not isinstance(box, Box):
        return

    def begin(cost: int) -> threading.Thread:
        sides = [replace(each, cost=cost) for each in it.sides]
        thread = threading.Thread(target=changed, args=(it, sides))
        thread.start()
        within(10, lambda: len(started_below(box.folder.parent / "run" / box.name)) > 1)
        return thread

    def is_killed(seconds: float) -> bool:
        """Whether it was killed so long after its start before it had taken over."""
        before = set(started_below(box.folder.parent / "run" / box.name))
        thread = begin(40 + int(seconds))
        time.sleep(seconds)
        found = []
        for each in set(started_below(box.folder.parent / "run" / box.name)) - before:
            # (its age is looked at while it stands still: else it might take over meanwhile)
            os.kill(int(each), signal.SIGSTOP)
            is_young = age_of(each) < TAKES_OVER
            os.kill(int(each), signal.SIGKILL if is_young else signal.SIGCONT)
            found += [each] if is_young else []
        thread.join()
        return bool(found)

    def killed() -> None:
        sides = it.sides
        for seconds in (0.1, 2, 4):
            for part in (1, 2, 4, 8):
                if is_killed(seconds / part):
                    break
                changed(it, sides)  # (this process was late, and it has taken over)
            else:
                looks.look(f"a box: it is killed after {seconds} s", False)

    nothing_lost(it, given, "the new routerd is killed, three times", killed)
    looks.look("a box: its costs are as before", "cost 14" in " ".join(box.ask("interfaces")))

    def stormed() -> None:
        thread = begin(50)
        for _ in range(100):
            box.send_signal(signal.SIGHUP)
            time.sleep(0.02)
        box.command("reload")
        thread.join()
        within(20, lambda: "cost 50" in " ".join(box.ask("interfaces")))

    nothing_lost(it, given, "100 SIGHUPs and another reload come meanwhile", stormed)
    looks.look("a box: its costs are the new ones", "cost 50" in " ".join(box.ask("interfaces")))
    begin(60)
    status = box.stop()
    looks.look("a box: SIGTERM comes meanwhile: it ends with status 0", status == 0, f"{status}")
