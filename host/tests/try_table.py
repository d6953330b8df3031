"""Other tables of the kernel than the main one, VRFs, and a limit of next hops; beside BIRD. See
`try-network`."""
from __future__ import annotations

import signal
import time

from tests.deleted import Deleted
from tests.network import (
    COMES_UP,
    Bird,
    Box,
    CannotTry,
    End,
    Frr,
    Network,
    Side,
    Try,
    is_full,
    line_of,
    output,
    run,
    within,
)

EXTERNAL = "203.0.113.0/24"
"""What the neighbor announces."""
NUMBER = 100
SLOW = 300
"""Seconds that are waited for in a VRF: most machines that have one for this are emulated."""


class TableBird(Bird):
    """A BIRD whose routes go to another table."""

    def __init__(self, network: Network, namespace: str, router_id: str, sides: list[Side]) -> None:
        super().__init__(network, namespace, router_id, sides)
        self.folder = network.work / "bird-table"
        self.folder.mkdir()

    def configure(self) -> None:
        interfaces = "\n".join(self._interface(side) for side in self.sides)
        (self.folder / "conf").write_text(
            f'log "{self.folder}/log" all; router id {self.router_id}; protocol device {{ }}\n'
            f"protocol kernel {{ kernel table {NUMBER}; ipv4 {{ export all; import none; }}; }}\n"
            "protocol ospf v2 { ecmp on limit 1; ipv4 { import all; };\n"
            f"{self.area} {{ {interfaces} }}; }}\n"
        )


def routes(namespace: str, number: int | str, prefix: str = EXTERNAL) -> list[str]:
    """The next hops of the routes of OSPF to a prefix in a table."""
    words = ("ip", "-n", namespace, "-4", "route", "show", prefix, "table", number)
    lines = [each.split() for each in output(*words).splitlines()]
    hops = []
    for line in lines:
        hops += [line[at + 1] for at, each in enumerate(line) if each == "via"]
    return sorted(hops)


def table(given: Try) -> None:
    """A box whose routes go to table 100, with one next hop of two, beside another box of the same
    machine that keeps the main table, and beside BIRD; it's killed, started again and ended."""
    network, looks = given.network, given.looks
    own, beside, near = (network.namespace(each) for each in ("own", "beside", "near"))
    for at in (1, 2, 3):
        ends = End(own, f"eth{at}", f"10.0.{at}.1/24"), End(near, f"eth{at}", f"10.0.{at}.2/24")
        network.link(*ends)
    for at in (4, 5):
        end = End(beside, f"eth{at - 3}", f"10.0.{at}.1/24")
        network.link(end, End(near, f"eth{at}", f"10.0.{at}.2/24"))
    neighbor = Bird(network, near, "2.2.2.2", [Side(f"eth{at}") for at in range(1, 6)])
    neighbor.externals = [EXTERNAL]
    two = [Side("eth1"), Side("eth2")]
    box = Box(network, given.routerd, own, "far", "1.1.1.1", two)
    box.more = f"[kernel]\ntable = {NUMBER}\necmp = 1\n[redistribute.static]\n"
    main = Box(network, given.routerd, own, "main", "4.4.4.4", [Side("eth3")])
    bird = TableBird(network, beside, "3.3.3.3", two)
    for each in (neighbor, box, main, bird):
        each.start()
    ids = ("1.1.1.1", "4.4.4.4", "3.3.3.3")
    looks.timed("all are Full", COMES_UP, lambda: is_full(neighbor, *ids))
    found(given, box, main, beside)
    taken_from_there(given, box, neighbor)
    killed(given, box, main)
    by_systemd(given, box, main)
    box.stop()
    left = output("ip", "-n", own, "-4", "route", "show", "table", NUMBER, "proto", 89)
    looks.look("ended: its table has none of its routes", not left, left.strip())
    looks.look("and the other box's are there", routes(own, "main") == ["10.0.3.2"])
    for each in (main, bird, neighbor):
        each.stop()


def found(given: Try, box: Box, main: Box, beside: str) -> None:
    looks, own = given.looks, box.namespace
    looks.timed(
        f"one of two next hops in table {NUMBER}, that of the lower address",
        20,
        lambda: routes(own, NUMBER) == ["10.0.1.2"],
    )
    took = within(20, lambda: len(routes(beside, NUMBER)) == 1)
    seen = "not within 20 s" if took is None else f"after {took:.1f} s"
    print(f"     beside it: BIRD, with `kernel table` and `ecmp on limit 1`: {seen}")
    looks.timed("the other box's is in the main table", 20, lambda: routes(own, "main") == ["10.0.3.2"])
    said = line_of(box, "kernel:")
    is_told = "in table 100" in said and "with more than 1 next hop:" in said
    looks.look("`leafrunt status` says which table, and that a route has more", is_told, said)
    run("ip", "-n", own, "link", "set", "eth1", "down")
    looks.timed("its link is lost: the other next hop", 5, lambda: routes(own, NUMBER) == ["10.0.2.2"])
    run("ip", "-n", own, "link", "set", "eth1", "up")
    looks.timed("and back", COMES_UP, lambda: routes(own, NUMBER) == ["10.0.1.2"])


def taken_from_there(given: Try, box: Box, neighbor: Bird) -> None:
    """Static routes are redistributed from the box's own table."""
    via = ("via", "10.0.2.2", "proto", "static")
    run("ip", "-n", box.namespace, "route", "add", "198.51.100.0/24", *via, "table", NUMBER)
    run("ip", "-n", box.namespace, "route", "add", "198.51.101.0/24", *via)

    def has(prefix: str) -> bool:
        return bool(output("ip", "-n", neighbor.namespace, "route", "show", prefix).strip())

    given.looks.timed("a static route of its table is announced", 5, lambda: has("198.51.100.0/24"))
    given.looks.look("one of the main table isn't", not has("198.51.101.0/24"))


def killed(given: Try, box: Box, main: Box) -> None:
    looks, own = given.looks, box.namespace
    box.send_signal(signal.SIGKILL)
    box.wait()
    time.sleep(1)
    looks.look("killed: its routes stay", routes(own, NUMBER) == ["10.0.1.2"])
    looks.look("and so do the other box's", routes(own, "main") == ["10.0.3.2"])
    box.start()
    up = "started again: its neighbors are Full, and it keeps the table"
    looks.timed(up, COMES_UP, lambda: "in table 100" in box.status() and is_full(box, "2.2.2.2"))
    looks.timed("with its route", 20, lambda: routes(own, NUMBER) == ["10.0.1.2"])
    looks.look("the other box's is as it was", routes(own, "main") == ["10.0.3.2"])


def by_systemd(given: Try, box: Box, main: Box) -> None:
    """What the unit's `ExecStopPost` does where a box couldn't start, and where it was killed: the
    other box of the machine loses no route by it."""
    looks, network, own = given.looks, given.network, box.namespace
    rival = Box(network, given.routerd, own, "rival", "5.5.5.5", [Side("eth3")])
    deleted = Deleted(network, own)
    rival.start()
    looks.look("a third box, of the main table too, is refused", rival.wait() == 1)
    rival.after_its_end()
    gone = deleted.end()
    looks.look("and its unit takes no route away", not gone, "; ".join(gone[:2]))
    one = ["10.0.1.2"]
    looks.timed("(one of two next hops in table 100)", 20, lambda: routes(own, NUMBER) == one)
    deleted = Deleted(network, own)
    box.send_signal(signal.SIGKILL)
    box.wait()
    box.after_its_end()
    looks.look("killed by systemd: its routes are gone", not routes(own, NUMBER))
    gone = [each for each in deleted.end() if "id 890" in each]
    is_there = routes(own, "main") == ["10.0.3.2"]
    looks.look("and the other box's are untouched", is_there and not gone, "; ".join(gone[:2]))
    box.start()
    looks.timed("started again: with its route", 40, lambda: routes(own, NUMBER) == one)


def passive(given: Try) -> None:
    """`passive` above the sections, at a box and by `passive-interface default` at FRR: only an
    interface that says otherwise sends packets, and has a neighbor."""
    network, looks = given.network, given.looks
    own, beside, near = (network.namespace(each) for each in ("own", "beside", "near"))
    for first, name in ((1, own), (3, beside)):
        for at in (1, 2):
            end = End(name, f"eth{at}", f"10.0.{first + at - 1}.1/24")
            number = first + at - 1
            network.link(end, End(near, f"eth{number}", f"10.0.{number}.2/24"))
    neighbor = Bird(network, near, "2.2.2.2", [Side(f"eth{at}") for at in range(1, 5)])
    sides = [Side("eth1", is_passive=False), Side("eth2")]
    box = Box(network, given.routerd, own, "box", "1.1.1.1", sides)
    box.top = "passive = true"
    frr = Frr(network, beside, "3.3.3.3", [Side("eth1"), Side("eth2")])
    frr.more = ["passive-interface default", "no passive-interface eth1"]
    heard = {at: Heard(network, near, f"eth{at}", f"10.0.{at}.1") for at in range(1, 5)}
    for each in (neighbor, box, frr):
        each.start()
    looks.timed("both are Full", COMES_UP, lambda: is_full(neighbor, "1.1.1.1", "3.3.3.3"))
    time.sleep(5)
    counts = {at: each.end() for at, each in heard.items()}
    said = f"{counts[1]} and {counts[2]}"
    looks.look("a box: packets at the interface that says so alone", counts[1] and not counts[2], said)
    print(f"     beside it: FRR: {counts[3]} and {counts[4]}", flush=True)
    stub = [each.split() for each in box.command("database", "1.1.1.1").splitlines()]
    is_there = any("10.0.2.0" in each for line in stub for each in line)
    looks.look("the other's network is in its router-LSA", is_there)
    for it in (box, frr, neighbor):
        it.stop()


class Heard:
    """How many OSPF packets come from an address to an interface."""

    def __init__(self, network: Network, namespace: str, interface: str, source: str) -> None:
        self._network, self._file = network, network.work / f"heard-{interface}"
        words = ["tcpdump", "-nlU", "-i", interface, f"ip proto 89 and src {source}"]
        with open(self._file, "w", encoding="utf-8") as it:
            log = network.work / "tcpdump"
            self._ran = network.start(namespace, words, log, stdout=it.fileno())

    def end(self) -> int:
        self._network.stop(self._ran)
        return self._file.read_text().count("OSPFv2")


def vrf(given: Try) -> None:
    """A box in a VRF: its routes go to that one's table, connected networks come from it, and the
    VRF is deleted and made again while the box runs."""
    network, looks = given.network, given.looks
    own, near = network.namespace("own"), network.namespace("near")
    device = ("ip", "-n", own, "link", "add", "red", "type", "vrf", "table", NUMBER)
    try:
        run(*device)
    except CannotTry as why:
        print(f"     not tried, as this kernel has no VRFs: {why}")
        return
    for at in (1, 2):
        ends = End(own, f"eth{at}", f"10.0.{at}.1/24"), End(near, f"eth{at}", f"10.0.{at}.2/24")
        network.link(*ends)
    neighbor = Bird(network, near, "2.2.2.2", [Side("eth1")])
    neighbor.externals = [EXTERNAL]
    box = Box(network, given.routerd, own, "box", "1.1.1.1", [Side("eth1")])
    box.more = '[kernel]\nvrf = "red"\n[redistribute.connected]\n'
    outside(given, box)
    enslaved(own)
    run("ip", "-n", own, "addr", "add", "192.0.2.1/32", "dev", "lo")
    for each in (neighbor, box):
        each.start()
    if not looks.timed("Full", SLOW, lambda: is_full(neighbor, "1.1.1.1")):
        print(*(f"     {each}" for each in box.log_lines()[-12:]), sep="\n", flush=True)
    looks.timed("the route is in its table", SLOW, lambda: routes(own, NUMBER) == ["10.0.1.2"])
    looks.look("and not in the main one", not routes(own, "main"))

    def announced() -> set[str]:
        return {each.split()[0] for each in box.ask("announced")} - {"end"}

    looks.timed("connected networks of the VRF alone", SLOW, lambda: announced() == {"10.0.2.0/24"})
    deleted(given, box, neighbor, device)
    for it in (box, neighbor):
        it.stop()
    looks.look("ended: its table has no route", not routes(own, NUMBER))


def outside(given: Try, box: Box) -> None:
    box.start()
    status = box.wait(SLOW)
    said = "; ".join(box.log_lines()[-2:])
    is_told = status == 1 and "kernel, vrf" in said
    what = "an interface that isn't in the VRF is refused"
    given.looks.look(what, is_told, f"{status}: {said}")


def enslaved(namespace: str) -> None:
    """The VRF is up and has both interfaces."""
    run("ip", "-n", namespace, "link", "set", "red", "up")
    for each in ("eth1", "eth2"):
        run("ip", "-n", namespace, "link", "set", each, "master", "red")


def deleted(given: Try, box: Box, neighbor: Bird, device: tuple[object, ...]) -> None:
    looks, own = given.looks, box.namespace
    run("ip", "-n", own, "link", "del", "red")
    looks.timed("the VRF is deleted: told", SLOW, lambda: "is gone" in line_of(box, "kernel:"))
    print(f"     {line_of(box, 'kernel:')}")
    run(*device)
    enslaved(own)
    looks.timed("made again: Full", SLOW, lambda: is_full(neighbor, "1.1.1.1"))
    looks.timed("and the route is in its table", SLOW, lambda: routes(own, NUMBER) == ["10.0.1.2"])
    looks.timed("nothing is told", SLOW, lambda: line_of(box, "kernel:").endswith("in the VRF red"))
