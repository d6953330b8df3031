"""What takes long, with the default timers, HelloInterval 10 and RouterDeadInterval 40: kills at
random moments, and a soak in real time. See `try-network`."""
from __future__ import annotations

import contextlib
import os
import random
import re
import signal
import subprocess
import sys
import time
from collections.abc import Callable, Iterator
from dataclasses import dataclass, field, replace
from datetime import datetime
from pathlib import Path

from tests.network import (
    HOST,
    MD5,
    SHA,
    Bfd,
    Bird,
    Box,
    End,
    Frr,
    Looks,
    Network,
    Side,
    Try,
    family,
    is_full,
    output,
    prefixes,
    run,
    within,
)
from tests.try_ring import Ring
from tests.try_transit import Losses

HELLO, DEAD = 10, 40
SECONDS_OF_KILLS = 900
RECOVERS = 120
"""Seconds within which all is as before, whatever was killed: RouterDeadInterval of a neighbor, its
Hello, a retransmission, and a busy machine."""
REST = 20
"""Seconds between two acts at most."""
EXTERNALS = prefixes(60, 200)
MINUTES_OF_SOAK = 70
CAUSED = 60
"""Seconds for which routes may change, and packets may be lost, after what was done."""
SETTLED = 120
"""Seconds until the ring is as it stays: then what its programs take is looked at first."""
MOST_GROWTH = 4 << 10
"""KiB of resident memory that a program of a box may have more at the end."""


class Victim:
    """The box, 1.1.1.1, between BIRD 2.2.2.2, with HMAC-SHA-256, and FRR 3.3.3.3, with MD5; BFD at
    both links."""

    def __init__(self, given: Try) -> None:
        self.network = network = given.network
        own, far, near, self.behind = (
            network.namespace(each) for each in ("own", "far", "near", "behind")
        )
        self.ends = {
            "eth1": (End(own, "eth1", "10.0.1.1/24"), End(far, "eth1", "10.0.1.2/24")),
            "eth2": (End(own, "eth2", "10.0.2.1/24"), End(near, "eth2", "10.0.2.2/24")),
        }
        for ends in self.ends.values():
            network.link(*ends)
        one = Side("eth1", (SHA,), HELLO, DEAD, bfd=Bfd())
        two = Side("eth2", (MD5,), HELLO, DEAD, bfd=Bfd())
        self.box = Box(network, given.routerd, own, "box", "1.1.1.1", [one, two])
        self.bird = Bird(network, far, "2.2.2.2", [one])
        self.frr = Frr(network, near, "3.3.3.3", [two])
        self.bird.externals = EXTERNALS
        self.starts = 0

    def start(self) -> None:
        for each in (self.box, self.bird, self.frr):
            each.start()

    def is_well(self) -> bool:
        """Whether all is as it was; a box that has ended is started again, as by systemd."""
        process = self.box.process
        if process is not None and process.poll() is not None:
            self.box.stop()
            self.box.after_its_end()
            self.box.start()
            self.starts += 1
            return False
        routes = self.box.kernel_routes()
        return (
            is_full(self.box, "2.2.2.2", "3.3.3.3")
            and all(routes.get(each) == ["10.0.1.2"] for each in EXTERNALS)
            and is_full(self.bird, "1.1.1.1")
            and is_full(self.frr, "1.1.1.1")
        )

    def pids(self, name: str) -> list[int]:
        """The box's processes of that name; of all, where it's empty."""
        found = []
        for each in family(self.box.process):
            with contextlib.suppress(OSError):
                if name in Path("/proc", each, "comm").read_text(encoding="utf-8"):
                    found.append(int(each))
        return found

    def send(self, number: int, *pids: int) -> None:
        for each in pids:
            with contextlib.suppress(OSError):
                os.kill(each, number)


Act = Callable[[Victim, random.Random], None]


def kill(*names: str) -> Act:
    def act(it: Victim, source: random.Random) -> None:
        it.send(signal.SIGKILL, *(pid for name in names for pid in it.pids(name)[:1]))

    return act


def stand_still(name: str) -> Act:
    def act(it: Victim, source: random.Random) -> None:
        stopped = it.pids(name)[:1]
        it.send(signal.SIGSTOP, *stopped)
        time.sleep(source.uniform(0.1, 12))
        it.send(signal.SIGCONT, *stopped)

    return act


def reload(kills: str = "") -> Act:
    """The cost of a link changes; in the midst of that any process of that name is killed."""

    def act(it: Victim, source: random.Random) -> None:
        first, *others = it.box.sides
        it.box.sides = [replace(first, cost=source.randrange(1, 50)), *others]
        it.box.configure()
        words = [sys.executable, str(HOST / "leafrunt"), "reload", "--box", it.box.name]
        words += ["--run-directory", str(it.network.work / "run")]
        with subprocess.Popen(words, stdout=subprocess.DEVNULL, stderr=subprocess.DEVNULL) as ran:
            if kills:
                time.sleep(source.uniform(0, 8))
                found = it.pids(kills)
                it.send(signal.SIGKILL, *([source.choice(found)] if found else []))
            ran.wait(120)

    return act


def signals(it: Victim, source: random.Random) -> None:
    for _ in range(5):
        it.box.send_signal(signal.SIGHUP)
        time.sleep(source.uniform(0, 0.2))


def lose_carrier(it: Victim, source: random.Random) -> None:
    _, far = it.ends[source.choice(["eth1", "eth2"])]
    run("ip", "-n", far.namespace, "link", "set", far.interface, "down")
    time.sleep(source.uniform(0.1, 10))
    run("ip", "-n", far.namespace, "link", "set", far.interface, "up")


def make_anew(it: Victim, source: random.Random) -> None:
    own, far = it.ends[source.choice(["eth1", "eth2"])]
    run("ip", "-n", own.namespace, "link", "del", own.interface)
    time.sleep(source.uniform(0.1, 10))
    it.network.link(own, far)


ACTS: dict[str, Act] = {
    "leafrunt is killed": kill("python3"),
    "routerd is killed": kill("routerd"),
    "BFD is killed": kill("leafrunt-bfd"),
    "leafrunt and routerd are killed": kill("routerd", "python3"),
    "leafrunt stands still": stand_still("python3"),
    "routerd stands still": stand_still("routerd"),
    "a reload": reload(),
    "a reload, and a routerd is killed": reload("routerd"),
    "a reload, and leafrunt is killed": reload("python3"),
    "a reload, and BFD is killed": reload("leafrunt-bfd"),
    "five SIGHUPs": signals,
    "a link loses its carrier": lose_carrier,
    "an interface is made anew": make_anew,
}


def kills(given: Try) -> None:
    """For fifteen minutes processes of a box are killed at random moments, with keys, BFD, reloads,
    links that go and come, at the default timers: all recovers, and nothing is left."""
    killed(given, SECONDS_OF_KILLS)


def killed(given: Try, seconds: float, seed: int | None = None) -> None:
    it, looks = Victim(given), given.looks
    seed = random.randrange(1 << 32) if seed is None else seed
    source, took = random.Random(seed), dict[str, list[float]]()
    print(f"     seed {seed}", flush=True)
    it.start()
    looks.timed("Full with both, and all routes", RECOVERS, it.is_well)
    until = time.monotonic() + seconds
    while time.monotonic() < until:
        time.sleep(source.uniform(0, REST))
        what = source.choice(list(ACTS))
        ACTS[what](it, source)
        recovered = within(RECOVERS, it.is_well, 0.5)
        if recovered is None:
            looks.look(f"{what}: all is as before within {RECOVERS} s", False, it.box.status())
            break
        took.setdefault(what, []).append(recovered)
    for what, times in sorted(took.items()):
        print(f"     {what}: {len(times)} times, at most {max(times):.1f} s", flush=True)
    count = sum(map(len, took.values()))
    looks.look("each time all is as before", count, f"{count} acts, {it.starts} starts")
    nothing_left(it, looks)
    it.bird.stop()
    it.frr.stop()


def nothing_left(it: Victim, looks: Looks) -> None:
    looks.look("it ends in order", it.box.stop() == 0)
    looks.look("no process of it is left", not it.box.runs())
    routes = output("ip", "-n", it.box.namespace, "route", "show", "proto", "89").splitlines()
    looks.look("no route", not routes, "; ".join(routes[:3]))
    objects = output("ip", "-n", it.box.namespace, "nexthop", "show").splitlines()
    looks.look("no next hop object", not objects, "; ".join(objects[:3]))
    mistakes = [each for each in it.box.log_lines() if "Traceback" in each or "mistake in" in each]
    looks.look("no mistake in its log", not mistakes, "; ".join(mistakes[:3]))


@dataclass
class Cause:
    """What was done in a soak, when, in seconds of `time.time()`, and whether it may cost packets."""

    what: str
    began: float
    may_lose: bool = True

    def is_of(self, moment: float) -> bool:
        return self.began - 1 <= moment <= self.began + CAUSED


class Routes:
    """The kernel's own words on a router's routes, with their moments."""

    FORM = re.compile(r"\[(\S+)\] (.*proto (?:89|bird|ospf|zebra).*)")

    def __init__(self, network: Network, namespace: str) -> None:
        self._file = network.work / f"routes-{namespace}"
        with open(self._file, "w", encoding="utf-8") as it:
            words = ["ip", "-4", "-ts", "monitor", "route", "nexthop"]
            network.start(namespace, words, network.work / "monitor", stdout=it.fileno())

    def changes(self) -> Iterator[tuple[float, str]]:
        for line in self._file.read_text(encoding="utf-8").splitlines():
            found = self.FORM.match(line)
            if found:
                yield datetime.fromisoformat(found[1]).timestamp(), found[2].strip()


@dataclass
class Taken:
    """What a box's programs take: KiB of resident memory, and open files, by their names."""

    memory: dict[str, int] = field(default_factory=dict)
    files: dict[str, int] = field(default_factory=dict)

    @classmethod
    def by(cls, box: Box) -> Taken:
        found = cls()
        for at, each in enumerate(family(box.process)):
            with contextlib.suppress(OSError, AttributeError, IndexError):
                status = Path("/proc", each, "status").read_text(encoding="utf-8")
                name = f"{re.findall(r'Name:.(.*)', status)[0]}"
                name += f" {at}" if name in found.memory else ""
                found.memory[name] = int(re.findall(r"VmRSS:\s+(\d+)", status)[0])
                found.files[name] = len(os.listdir(f"/proc/{each}/fd"))
        return found


def soak(given: Try) -> None:
    """70 minutes in real time at the default timers, so LSRefreshTime and MaxAge are crossed: a
    ring of three boxes, BIRD and FRR, in which a link fails, a cost is reloaded and FRR is killed.
    No route changes without a cause, nothing grows, and each lost packet is told."""
    soaked(given, MINUTES_OF_SOAK)


def soaked(given: Try, minutes: float) -> None:
    it, looks = Ring(given, HELLO, DEAD), given.looks
    it.start()
    if not looks.timed("the ring is up", 240, lambda: it.is_up() and it.is_connected()):
        print(f"     {it.not_up()}")
    time.sleep(SETTLED)
    before = {at: Taken.by(box) for at, box in it.boxes.items()}
    routes = {at: Routes(it.network, it.names[at]) for at in it.boxes}
    losses, began, causes = Losses(it.network, it.hosts[1]), time.time(), list[Cause]()
    for share, act in ((1 / 7, fail), (2 / 7, cost_changes), (4 / 7, neighbor_is_killed)):
        time.sleep(max(0.0, began + 60 * minutes * share - time.time()))
        causes += act(it)
    time.sleep(max(0.0, began + 60 * minutes - time.time()))
    _, sent, gaps = losses.counted()
    told_losses(looks, sent, [(began + at, count) for at, count in gaps], causes)
    for at, each in routes.items():
        changes = list(each.changes())
        looks.look(f"{it.IDS[at]}: its routes were followed", changes, f"{len(changes)} changes")
        strange = [said for said in changes if not any(it.is_of(said[0]) for it in causes)]
        few = "; ".join(f"{moment - began:.0f} s: {line}" for moment, line in strange[:4])
        looks.look(f"{it.IDS[at]}: no route changed without a cause", not strange, few)
    for at, box in it.boxes.items():
        grown(looks, it.IDS[at], before[at], Taken.by(box))
    looks.look("all databases are equal", within(60, it.is_equal) is not None, it.unequal())
    it.stop()


def fail(it: Ring) -> list[Cause]:
    """The link between BIRD and 3.3.3.3, by which the packets go, loses its carrier for 30 s."""
    causes = [Cause("a link fails", time.time())]
    it.network.carrier(2, False)
    time.sleep(30)
    it.network.carrier(2, True)
    return [*causes, Cause("it is back", time.time())]


def cost_changes(it: Ring) -> list[Cause]:
    """A reload of a cost at 3.3.3.3, on the packets' way, costs none."""
    box = it.boxes[2]
    box.sides = [replace(each, cost=11) if each.name == "left" else each for each in box.sides]
    box.configure()
    cause = Cause("a cost is reloaded", time.time(), may_lose=False)
    print(f"     reload: {box.command('reload').strip()}", flush=True)
    return [cause, Cause("that was taken over", time.time(), may_lose=False)]


def neighbor_is_killed(it: Ring) -> list[Cause]:
    """FRR, which isn't on the way, is killed, and started again behind RouterDeadInterval."""
    causes = [Cause("FRR is killed", time.time(), may_lose=False)]
    it.frr.stop(signal.SIGKILL)
    time.sleep(DEAD + HELLO)
    it.frr.start()
    return [*causes, Cause("FRR is started again", time.time(), may_lose=False)]


def told_losses(
    looks: Looks, sent: int, gaps: list[tuple[float, int]], causes: list[Cause]
) -> None:
    """Each gap with what it comes from."""
    strange = 0
    for moment, count in gaps:
        cause = next((each for each in causes if each.is_of(moment) and each.may_lose), None)
        strange += 0 if cause else count
        print(f"     {count} packets lost: {cause.what if cause else 'no cause'}", flush=True)
    measured = f"{strange} of {sent}"
    looks.look("no packet is lost without a cause", sent and not strange, measured)


def grown(looks: Looks, name: str, before: Taken, after: Taken) -> None:
    said = [
        f"{each} {before.memory[each]} -> {after.memory[each]} KiB, "
        f"{before.files[each]} -> {after.files[each]} files"
        for each in before.memory
        if each in after.memory
    ]
    both = before.memory.keys() & after.memory.keys()
    more = [after.memory[each] - before.memory[each] for each in both]
    files = [after.files[each] - before.files[each] for each in both]
    is_flat = bool(more) and max(more) <= MOST_GROWTH and max(files) <= 2
    looks.look(f"{name}: nothing grows", is_flat, "; ".join(said))
