"""What a box says of itself to programs and on a terminal, beside BIRD and the kernel. See
`try-network`."""
from __future__ import annotations

import json
import re
import subprocess

from leafrunt_host.kernel import Json
from tests import schemas
from tests.network import (
    COMES_UP,
    HELLO_INTERVAL,
    HOST,
    LSA_TITLES,
    Box,
    CannotTry,
    Looks,
    Lsa,
    Try,
    is_said,
    prefixes,
    run,
    within,
)
from tests.pty_terminal import SEQUENCE, Terminal
from tests.test_metrics import PROMETHEUS, Prometheus, Server
from tests.try_wire import ROUTER_IDS, Pair

COUNT = 300
COUNTS = HOST.parent / "examples/first/count_types.o"
"""A program that counts Hellos by counter 1."""
LIBRARY = "import prometheus_client"
LISTS = ("table", "neighbors", "interfaces", "announced", "programs", "counters", "database")


def watching(given: Try) -> None:
    """The lists in JSON, metrics and the terminal view of a box, beside what BIRD and the kernel
    have."""
    it, looks = Pair(given), given.looks
    box, bird = it.tried, it.neighbor
    assert isinstance(box, Box) and not isinstance(bird, Box)
    bird.externals = prefixes(50, COUNT)
    box.more = f'[counters]\nmartians = 200\nhellos = 1\n[[program]]\nobject = "{COUNTS}"\n'
    it.start()
    looks.timed("Full", COMES_UP, it.is_up)
    looks.timed("all routes in the kernel", 30, lambda: len(box.kernel_routes()) > COUNT)
    looks.timed("at rest: nobody owes anything", 20, lambda: is_said(box, "at rest since "))
    lists(it, box, looks)
    levels(box, looks)
    it.attack("hello", it.far, "10.0.1.1", 3).wait(30)  # (packets that don't count)
    metrics(box, looks)
    terminal(it, box, looks)
    it.stop()


def levels(box: Box, looks: Looks) -> None:
    """By a reload, as BIRD's `debug` and FRR's `debug ospf packet` are set while it runs."""

    def has_packets(first: int) -> bool:
        return any(": sent Hello that names 2.2.2.2" in each for each in box.log_lines()[first:])

    for level, is_told in (("debug", True), ("warning", False)):
        box.top = f'log_level = "{level}"'
        box.configure()
        box.command("reload")
        first = len(box.log_lines())
        took = within(3 * HELLO_INTERVAL, lambda: has_packets(first))
        what = f"log_level {level}: the log has {'each packet' if is_told else 'no packet'}"
        looks.look(what, (took is not None) is is_told)


def document(box: Box, kind: str, looks: Looks) -> Json:
    """A list in JSON, which has to be by its schema."""
    text = box.command(kind, "--json")
    read: Json = json.loads(text) if text else {}
    faults = schemas.faults(schemas.schema(kind), read)
    looks.look(f"{kind} --json is by its schema", not faults, "; ".join(faults[:3]))
    return read


def lists(it: Pair, box: Box, looks: Looks) -> None:
    """Each list, and the same by BIRD and the kernel."""
    status = document(box, "status", looks)
    documents = {kind: document(box, kind, looks) for kind in LISTS}
    found = {each["prefix"] for each in documents["table"]["routes"] if each["next_hops"]}
    looks.look("the table has the kernel's routes", found == set(box.kernel_routes()))
    lsas = documents["database"]["lsas"]
    names = ("link_state_id", "advertising_router", "sequence_number")
    own = {Lsa(LSA_TITLES[each["type"]], *(each[name] for name in names)) for each in lsas}
    looks.look("the database is BIRD's", own == it.neighbor.database(), f"{len(own)} LSAs")
    looks.look("the status counts them", sum(status["lsas"].values()) == len(own))
    (neighbor,) = documents["neighbors"]["neighbors"]
    said = [neighbor[name] for name in ("interface", "router_id", "state", "address")]
    looks.look("the neighbor", said == ["eth1", ROUTER_IDS[1], "Full", "10.0.1.2"], str(said))


def metrics(box: Box, looks: Looks) -> None:
    """The metrics, as Debian's Prometheus reads them."""
    python = "/usr/bin/python3"
    has_library = subprocess.run([python, "-c", LIBRARY], capture_output=True, check=False)
    if has_library.returncode or not PROMETHEUS:
        raise CannotTry("apt-get install python3-prometheus-client prometheus")
    words = [python, HOST / "leafrunt", "metrics", "--box", box.name]
    text = run(*words, "--run-directory", box.network.work / "run")
    with Server(text) as server, Prometheus(server.port) as it:
        for query, value in (
            ('leafrunt_neighbor_state{state="Full"}', "1"),
            ('leafrunt_lsas{type="external"}', str(COUNT)),
            ('leafrunt_routes{path_type="ext2"}', str(COUNT)),
            ("leafrunt_kernel_refusals", "0"),
            ("leafrunt_routerd_refuses", "0"),
            ('leafrunt_program_counts_total{name="martians"}', "0"),
            ('leafrunt_program_counts_total{name="hellos"} > bool 0', "1"),
            ("leafrunt_packets_received_total > bool 0", "1"),
            ("leafrunt_packets_sent_total > bool 0", "1"),
            ('leafrunt_packets_refused_total{reason=~"strange .* address"} > bool 0', "1"),
        ):
            said = it.value(query)
            looks.look(f"Prometheus: {query}", said == value, said)


def hellos_shown(view: Terminal) -> list[int]:
    """The values of the counter named `hellos` that were shown, once there are two or for a while:
    each must be above the one before."""
    found: list[int] = []
    for _ in range(100):
        view.read(0.2)
        text = SEQUENCE.sub("", view.text)
        found = [int(each) for each in re.findall(r"counter 1 +hellos +(\d+) ", text)]
        if len(set(found)) > 1:
            break
    return list(dict.fromkeys(found))


def terminal(it: Pair, box: Box, looks: Looks) -> None:
    """The terminal follows a route that comes, and a link that fails."""
    view = Terminal(box.network.work / "run", "--box", box.name)
    try:
        view.size(40, 120)
        looks.look("watch shows the neighbor", view.shows(f"{ROUTER_IDS[1]}          Full"))
        values = hellos_shown(view)
        is_counted = len(values) > 1 and values == sorted(values)
        looks.look("watch shows a program's counter grow", is_counted, f"{values}")
        it.neighbor.externals = [*it.neighbor.externals, "198.51.100.0/24"]
        it.neighbor.configure()
        looks.look("watch shows a route that comes", view.shows("+ 198.51.100.0/24 ext2"))
        run("ip", "-n", it.next, "link", "set", "eth1", "down")
        gone = f"eth1: {ROUTER_IDS[1]} Full -> {ROUTER_IDS[1]} Init"
        is_shown = view.shows(gone)
        said = "" if is_shown else "; ".join(view.screen())
        looks.look("watch shows a link that fails", is_shown, said)
        looks.look("watch shows the routes that went", view.shows(f"{COUNT + 2} removed"))
        view.types(b"q")
        looks.look("q leaves", view.ended() == 0)
    finally:
        view.close()
