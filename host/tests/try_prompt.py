"""How soon the kernel's table has a link's loss, and what a neighbor announces: by the kernel's own
notices, and beside it BIRD. See `try-network`."""
from __future__ import annotations

import re
import statistics
import subprocess
import time
from datetime import datetime
from pathlib import Path

from tests.network import COMES_UP, Network, Try, is_full, output, run, within
from tests.two_links import TwoLinks

EXTERNAL, OTHER = "203.0.113.0/24", "198.51.100.0/24"
TIMES = 5
BETWEEN = 6.0
"""Seconds: two router-LSAs, and two instances of another LSA, are five apart."""
STAMP = re.compile(r"\[(\S+)\] ?(.*)")
UPDATE = "ip proto 89 and ip[21] = 4"
"""For tcpdump: Updates (RFC 2328, A.3.1)."""


class Noticed:
    """What happens in a namespace, each with its moment in seconds since 1970: the kernel's notices of
    links and routes, and the neighbor's Updates at an interface."""

    def __init__(self, network: Network, namespace: str, interface: str, source: str) -> None:
        self._network = network
        self.files = [network.work / name for name in ("notices", "updates")]
        filtered = f"{UPDATE} and src {source}"
        self._ran = [
            self._start(namespace, self.files[0], "ip", "-ts", "monitor", "link", "route", "nexthop"),
            self._start(namespace, self.files[1], "tcpdump", "-tt", "-nlU", "-i", interface, filtered),
        ]
        time.sleep(1)

    def _start(self, namespace: str, file: Path, *words: str) -> subprocess.Popen[str]:
        with open(file, "w", encoding="utf-8") as it:
            log = self._network.work / "noticed"
            return self._network.start(namespace, list(words), log, stdout=it.fileno())

    def notices(self) -> list[tuple[float, str]]:
        found = []
        for line in self.files[0].read_text().splitlines():
            read = STAMP.match(line)
            if read:
                found.append((datetime.fromisoformat(read[1]).timestamp(), read[2]))
        return found

    def updates(self) -> list[float]:
        lines = (each.split() for each in self.files[1].read_text().splitlines())
        return [float(words[0]) for words in lines if words and words[0][:1].isdigit()]

    def end(self) -> None:
        for each in self._ran:
            self._network.stop(each)


class Prompt(TwoLinks):
    """2.2.2.2 announces one destination, and then another."""

    def __init__(self, given: Try, is_box: bool) -> None:
        super().__init__(given, is_box, "own", "far")
        self.bird.externals = [EXTERNAL]

    def by(self, number: int) -> bool:
        """Whether packets go by this link."""
        way = output("ip", "-n", self.own, "route", "get", "203.0.113.9")
        return f"dev eth{number} " in way

    def start(self) -> None:
        self.bird.start()
        self.tried.start()
        within(COMES_UP, lambda: is_full(self.tried, "2.2.2.2") and self.by(1))
        time.sleep(BETWEEN)

    def lost(self, noticed: Noticed) -> float:
        """Seconds from the kernel's notice that a link has lost its carrier to the route's by the
        other link."""
        before = len(noticed.notices())
        run("ip", "-n", self.far, "link", "set", "eth1", "down")
        within(20, lambda: self.by(2), 0.05)
        time.sleep(0.3)
        notices = noticed.notices()[before:]
        down = [at for at, said in notices if "eth1" in said and "NO-CARRIER" in said]
        moved = [at for at, said in notices if EXTERNAL in said and "Deleted" not in said]
        run("ip", "-n", self.far, "link", "set", "eth1", "up")
        within(COMES_UP, lambda: self.by(1))
        time.sleep(BETWEEN)
        return moved[0] - down[0] if moved and down else float("inf")

    def announced(self, noticed: Noticed) -> float:
        """Seconds from a neighbor's Update with another destination to the route to it."""
        before = len(noticed.updates())
        self.bird.externals = [EXTERNAL, OTHER]
        self.bird.configure()
        within(20, lambda: OTHER in output("ip", "-n", self.own, "route", "show", OTHER), 0.05)
        time.sleep(0.3)
        updates = noticed.updates()[before:]
        there = [at for at, said in noticed.notices() if said.startswith(OTHER)]
        self.bird.externals = [EXTERNAL]
        self.bird.configure()
        time.sleep(BETWEEN)
        return there[-1] - updates[0] if there and updates else float("inf")


def prompt(given: Try) -> None:
    """How soon the kernel's table has the loss of a link's carrier, and what a neighbor announces: at a
    box, and beside it at BIRD."""
    found: dict[bool, tuple[float, float]] = {}
    for is_box in (True, False):
        it = Prompt(given, is_box)
        try:
            it.start()
            noticed = Noticed(it.network, it.own, "eth1", "10.0.1.2")
            lost = statistics.median(it.lost(noticed) for _ in range(TIMES))
            announced = statistics.median(it.announced(noticed) for _ in range(TIMES))
            noticed.end()
            found[is_box] = lost, announced
        finally:
            it.close()
    for what, most, box, bird in zip(
        ("a carrier loss is in the kernel's table within 0.1 s", "a neighbor's change within 0.3 s"),
        (0.1, 0.3),
        *(found[is_box] for is_box in (True, False)),
    ):
        said = f"{box:.3f} s, BIRD {bird:.3f} s (medians of {TIMES})"
        given.looks.look(f"{what}, or no later than by BIRD", box <= max(most, bird), said)
