"""10,000 external destinations: what they cost a box, and how long packets to them are lost where
a link fails, beside BIRD. See `try-network`."""
from __future__ import annotations

import math
import random
import statistics
import struct
import subprocess
import sys
import threading
import time
from collections.abc import Callable
from contextlib import closing, suppress
from pathlib import Path

from leafrunt_host.places import KEY, Places
from leafrunt_host.withheld import fault
from tests.network import (
    COMES_UP,
    Box,
    CannotTry,
    Try,
    Waiting,
    is_full,
    output,
    prefixes,
    run,
    within,
)
from tests.pty_terminal import Terminal
from tests.test_topology import lsa
from tests.two_links import TwoLinks

COUNT, TIMES = 10_000, 3
MOST_TIMES = 9
"""Outages of each router that are compared, at most."""
BIRDS_TICK = 1.0
"""Seconds: BIRD calculates its table so often at most, so an outage takes up to so much longer by
when in its second the link fails."""
PROBE = """
import socket, sys, time
away, targets, lost, told = {}, sys.argv[2:], 0.0, 0.0
def said(name):
    return open("/sys/class/net/eth1/" + name).read().strip()
print("ready", flush=True)
while time.monotonic() < float(sys.argv[1]) and len(away) < len(targets):
    if not lost and said("carrier") != "1":
        lost = time.monotonic()
    if not told and said("operstate") != "up":
        told = time.monotonic()
    for each in targets:
        with socket.socket(socket.AF_INET, socket.SOCK_DGRAM) as one:
            try:
                one.connect((each, 9))
                by = one.getsockname()[0]
            except OSError:
                by = ""
        if by == "10.0.2.1":
            away.setdefault(each, time.monotonic())
    time.sleep(0.001)
print(f"{told or lost:.4f}", *(f"{away.get(each, 0.0):.4f}" for each in targets))
"""
"""When the kernel tells that the first link has no carrier (where others have lost theirs a moment
ago, in whatever namespace, up to a second late: Linux, net/core/link_watch.c), or, where somebody
acts before that, since he looks by himself (BIRD does each second), when the carrier was lost; and
by when the kernel sends packets to each target from 10.0.2.1, the second link's address."""


class Slowness:
    """How many times more of a processor work takes now than at its best here: on a busy machine,
    whose processors share what each of them has, up to twice. The same little work, of a kind with
    a box's, is done again and again."""

    EACH = 0.02

    def __init__(self) -> None:
        body = bytes([255, 255, 255, 0]) + struct.pack(">I4sI", 0x80000014, bytes(4), 0)
        self._lsas = [lsa(5, f"50.0.{at}.0", "2.2.2.2", body) for at in range(250)]
        self._spent: list[tuple[float, float]] = []
        """In milliseconds, with the moments."""
        self._ending = threading.Event()
        self._thread = threading.Thread(target=self._work, daemon=True)

    def __enter__(self) -> Slowness:
        self._thread.start()
        return self

    def __exit__(self, *_: object) -> None:
        self._ending.set()
        self._thread.join()

    def _work(self) -> None:
        while not self._ending.wait(self.EACH):
            began, places = time.thread_time(), Places()
            mine = places.share(self)
            for each in self._lsas:
                fault(each)
                places.room(each[KEY], mine, 0.0)
                places.give(each, mine, 0.0)
            self._spent.append((time.monotonic(), 1000 * (time.thread_time() - began)))

    def of(self, first: float, last: float) -> float:
        """Between two moments."""
        best = min(spent for _, spent in self._spent)
        return statistics.median(spent for at, spent in self._spent if first <= at <= last) / best


class Two(TwoLinks):
    """2.2.2.2 announces the destinations."""

    def __init__(self, given: Try, is_box: bool) -> None:
        who = "box" if is_box else "bird"
        super().__init__(given, is_box, who, f"{who}-far")
        self.destinations = prefixes(50, COUNT)

    def routes(self) -> int:
        """How many of the destinations are in the kernel's table."""
        table = output("ip", "-n", self.own, "-4", "route", "show").splitlines()
        return sum(each.startswith("50.") for each in table)

    def by(self, number: int) -> bool:
        """Whether all are there, the last one by this link."""
        way = output("ip", "-n", self.own, "route", "get", self.target(-1))
        return f"dev eth{number} " in way and self.routes() == COUNT

    def target(self, at: int) -> str:
        """An address of a destination."""
        return self.destinations[at].replace("0/24", "9")

    def start(self) -> None:
        self.bird.start()
        self.tried.start()
        within(COMES_UP, lambda: is_full(self.tried, "2.2.2.2"))

    def processor(self) -> float:
        """What the box's own process has taken of a processor, in milliseconds."""
        assert isinstance(self.tried, Box) and self.tried.process
        nanoseconds = 0
        for each in Path(f"/proc/{self.tried.process.pid}/task").glob("*/schedstat"):
            with suppress(OSError):  # (a thread that has ended meanwhile)
                nanoseconds += int(each.read_text().split()[0])
        return nanoseconds / 1e6

    def outage(self) -> float:
        """Seconds from the kernel's word that the first link has lost its carrier (PROBE) until
        packets go by the second, the median of first, middle and last destination; without what
        the router's programs waited for a processor, of which the two that are compared don't get
        the same. It fails at any moment of BIRD's second: what is done between two outages waits
        for BIRD, and so keeps in step with it."""
        targets = [self.target(at) for at in (0, COUNT // 2, -1)]
        words = ["ip", "netns", "exec", self.own, sys.executable, "-c", PROBE]
        words += [f"{time.monotonic() + 20}", *targets]
        probe = subprocess.Popen(words, stdout=subprocess.PIPE, text=True)
        # (that runs already: to start it takes long on a busy machine)
        words = ["ip", "-n", self.far, "-batch", "-"]
        cut = subprocess.Popen(words, stdin=subprocess.PIPE, text=True)
        assert probe.stdout
        probe.stdout.readline()
        time.sleep(1 + random.uniform(0, BIRDS_TICK))
        waiting = Waiting(self.tried.programs())
        cut.communicate("link set eth1 down\n")
        lost, *away = (float(each) for each in probe.communicate()[0].split())
        kept = waiting.seconds()
        return statistics.median(away) - lost - kept if lost and all(away) else math.inf


def load(given: Try) -> None:
    """10,000 destinations come, rest, one changes, and their link loses its carrier: at a box, and
    beside it at BIRD, one after the other, so that both are tried at the same load."""
    with closing(Two(given, True)) as box, closing(Two(given, False)) as bird:
        box.start()
        box.bird.externals, bird.bird.externals = box.destinations, bird.destinations
        costs(box, given)
        bird.start()
        for it in (box, bird):
            it.bird.configure()
            within(60, lambda: it.by(1), 0.5)
        outages = [(outage(box), outage(bird)) for _ in range(TIMES)]
        while is_longer(outages) and len(outages) < MOST_TIMES:
            outages += [(outage(box), outage(bird)) for _ in range(2)]
    of_box, of_bird = medians(outages)
    taken_of = f"medians of {len(outages)}, by their own fault"
    said = f"{of_box:.2f} s, and at BIRD {of_bird:.2f} s ({taken_of})"
    what = "a link with all of them fails: no longer away than at BIRD"
    given.looks.look(what, of_box <= of_bird, said)


def medians(outages: list[tuple[float, float]]) -> list[float]:
    return [statistics.median(each) for each in zip(*outages)]


def is_longer(outages: list[tuple[float, float]]) -> bool:
    """Whether the box's are longer by their median: then more of both are tried, since on a busy
    machine one may take three times as long as another."""
    of_box, of_bird = medians(outages)
    return of_box > of_bird


def outage(it: Two) -> float:
    """How long they are away; then all is as before."""
    time.sleep(7)  # two router-LSAs are five seconds apart
    seconds = it.outage()
    within(30, lambda: it.by(2), 0.5)
    run("ip", "-n", it.far, "link", "set", "eth1", "up")
    within(COMES_UP, lambda: it.by(1), 0.5)
    return seconds


def watched(it: Two, slowness: Slowness) -> float:
    """What the box takes of a processor while `leafrunt watch` asks it, in milliseconds a second."""
    view = Terminal(it.network.work / "run", "--box", "tried")
    try:
        if not view.shows(f"routes: {COUNT + 2}"):
            raise CannotTry(f"watch shows no routes: {'; '.join(view.screen())}")
        return taken(it, slowness, lambda: view.read(20)) / 20
    finally:
        view.close()


def taken(it: Two, slowness: Slowness, act: Callable[[], object]) -> float:
    """What the box takes of a processor at its best here while that is done, in milliseconds."""
    before, began = it.processor(), time.monotonic()
    act()
    return (it.processor() - before) / slowness.of(began, time.monotonic())


def costs(it: Two, given: Try) -> None:
    """What the box's own process takes of a processor, `routerd`'s apart."""
    with Slowness() as slowness:
        comes(it, given, slowness)
        time.sleep(10)
        rests(it, given, slowness)
    it.bird.externals = it.destinations


def comes(it: Two, given: Try, slowness: Slowness) -> None:
    loads = []
    for at in range(TIMES):
        if at:
            it.bird.externals = []
            it.bird.configure()
            within(60, lambda: not it.routes(), 0.5)
            time.sleep(7)  # until all that was flushed is acknowledged
            it.bird.externals = it.destinations
        before, began = it.processor(), time.monotonic()
        it.bird.configure()
        took = within(60, lambda: it.by(1), 0.5)
        time.sleep(3)
        times = slowness.of(began, time.monotonic())
        loads.append(((it.processor() - before) / times, times))
    least, times = min(loads)
    said = f"{least:.0f} ms, the least of {TIMES}, and {times:.2f} times that on this busy machine"
    what = f"{COUNT} destinations come: at most 400 ms of processor for each link"
    given.looks.look(what, least <= 800, f"{said}; in the kernel after {took or -1:.1f} s")


def rests(it: Two, given: Try, slowness: Slowness) -> None:
    looks, changes = given.looks, []
    rest = taken(it, slowness, lambda: time.sleep(20)) / 20
    looks.look("at rest at most 1 % of a core", rest <= 10, f"{rest / 10:.2f} %")
    more = watched(it, slowness) - rest
    looks.look("watched each second at most 1 % more", more <= 10, f"{more / 10:.2f} %")

    def changed() -> None:
        it.bird.configure()
        time.sleep(1.5)

    for number in range(4):
        extra = ["50.255.0.0/24"] if number % 2 == 0 else []
        it.bird.externals = it.destinations + extra
        changes.append(taken(it, slowness, changed) - 1.5 * rest)
    spent = statistics.median(changes)
    looks.look("one more or fewer: at most 10 ms above that", spent <= 10, f"{spent:.1f} ms")
