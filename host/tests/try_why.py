"""`leafrunt why`: causes for which a route is missing, each played and asked for. See `try-network`."""
from __future__ import annotations

import os
import resource
import signal
import time
from pathlib import Path

from tests.network import (
    COMES_UP,
    Announce,
    Bird,
    Box,
    End,
    Frr,
    Network,
    Side,
    Try,
    is_full,
    is_said,
    line_of,
    prefixes,
    run,
    within,
)

PLAIN, LONG, BOTH = "203.0.113.0/24", "198.51.101.128/25", "192.168.3.0/24"
OWN, ENDLESS, GONE = "198.51.100.0/24", "203.0.118.0/24", "203.0.119.0/24"
FORWARDED = "203.0.120.0/24"
INFINITE = (
    f"{ENDLESS} unreachable {{ ospf_metric2 = 16777215; }}; "
    f"route {FORWARDED} via 10.0.2.3; route {GONE}"
)
"""A destination that is announced with LSInfinity, in BIRD's words, and after it one with a forwarding
address and another one."""
VETO = "hook veto\nrank 0\nr2 = *u32 r1 8\nr0 = 0\nif r2 <= 24 goto END\nr0 = 1\nEND:\nexit\nstate END rank 0\nwith r0 number 0 1 0 0\n"
"""Keeps prefixes longer than 24 out."""
COUNTING = "hook veto\nrank 0\nr1 = 7\ncall 2\nr0 = 0\nexit\n"
"""Lets all in, and reads a counter before."""
SECONDS = 0.3
"""Within which an answer is there, for 10,000 destinations."""


def assembled(given: Try, name: str, text: str) -> Path:
    """An object of a program."""
    source, path = (given.network.work / f"{name}.{each}" for each in ("s", "o"))
    source.write_text(text)
    run(given.routerd, "asm", source, path)
    return path


def asked(given: Try, box: Box, what: str, destination: str, *texts: str) -> None:
    """Whether `leafrunt why` says all of that; and the whole answer."""
    answer: list[str] = []

    def is_said() -> bool:
        answer[:] = box.says(f"why {destination}")
        whole = "\n".join(answer)
        return all(each in whole for each in texts)

    took = within(5, is_said)
    given.looks.look(f"why, {what}: `leafrunt why {destination}`", took is not None)
    for each in answer[:-1]:
        print(f"     | {each}", flush=True)


def why(given: Try) -> None:
    """A box, BIRD behind it and FRR behind that: the reasons for which a destination is missing, one
    after the other, as `leafrunt why` names them."""
    network, looks = given.network, given.looks
    own, near, far = (network.namespace(each) for each in ("own", "near", "far"))
    network.link(End(own, "eth1", "10.0.1.1/24"), End(near, "eth1", "10.0.1.2/24"))
    network.link(End(near, "eth2", "10.0.2.2/24"), End(far, "eth1", "10.0.2.3/24"))
    network.link(End(own, "eth2", "192.168.1.1/24"), End(far, "eth3", "192.168.1.9/24"))
    network.link(End(far, "eth2", "192.168.3.1/24"), End(near, "eth3", "192.168.3.9/24"))
    bird = Bird(network, near, "2.2.2.2", [Side("eth1"), Side("eth2")])
    bird.externals = [PLAIN, LONG, BOTH, OWN, INFINITE]
    frr = Frr(network, far, "3.3.3.3", [Side("eth1"), Side("eth2", is_passive=True)])
    box = Box(network, given.routerd, own, "why", "1.1.1.1", [Side("eth1"), Side("eth2", is_passive=True)])
    box.announced = [Announce(OWN)]
    for each in (frr, bird, box):
        each.start()
    looks.timed("all are Full", COMES_UP, lambda: is_full(bird, "1.1.1.1", "3.3.3.3"))
    looks.timed("with their routes", 20, lambda: {PLAIN, LONG, BOTH} <= box.kernel_routes().keys())
    there(given, box)
    programs(given, box)
    of_the_kernel(given, box)
    of_lsas(given, box, bird)
    broken(given, box, bird, frr)
    for router in (box, bird, frr):
        router.stop()


def there(given: Try, box: Box) -> None:
    """What is as it should be, and what the box leaves out on purpose."""
    asked(given, box, "it is there", PLAIN, f"kernel: {PLAIN} via 10.0.1.2 dev eth1", "ext2 10000 via", "the best")
    asked(given, box, "an address", "203.0.113.77", f"kernel: {PLAIN} via 10.0.1.2 dev eth1", "the best")
    asked(given, box, "a better one", BOTH, "intra 30", "stub network, metric 10: the best", "a better one is above")
    asked(given, box, "it announces that itself", OWN, "on purpose: this box announces", "configuration")
    asked(given, box, "its own network", "192.168.1.0/24", "on purpose: a network of this box's own")
    asked(given, box, "nobody announces it", "203.0.112.0/24", "no LSA of the", "packets are dropped")
    asked(given, box, "an address of nobody", "203.0.112.1", "no LSA of the")
    asked(given, box, "a forwarding address", FORWARDED, "forwarding address 10.0.2.3: the best", "via 10.0.1.2")
    asked(given, box, "LSInfinity", ENDLESS, "its metric is LSInfinity", "not in its table")


def programs(given: Try, box: Box) -> None:
    veto = assembled(given, "no_long_prefixes", VETO)
    began = time.monotonic()
    box.says(f"attach {veto}")
    took = within(5, lambda: LONG not in box.kernel_routes(), each=0.01)
    gone = time.monotonic() - began
    given.looks.look("a veto attached at the console is in the kernel within 0.2 s and a look", took is not None and gone < 0.3, f"{gone:.2f} s")
    asked(
        *(given, box, "a program", LONG, f"program: veto {veto} (attached at the console by root"),
        *("keeps it out", "not installed, used 5 of 5", "if r2 <= 24 goto +1: no (r2 = 25)"),
    )
    veto.unlink()
    asked(given, box, "a program whose file is gone", LONG, "what was attached is asked", "keeps it out")
    began = time.monotonic()
    box.says("detach veto")
    took = within(5, lambda: LONG in box.kernel_routes(), each=0.01)
    back = time.monotonic() - began
    given.looks.look("and detached", took is not None and back < 0.3, f"{back:.2f} s")
    box.says(f"attach {assembled(given, 'counting', COUNTING)}")
    asked(given, box, "a program that goes by a counter", LONG, "it goes by counters", "lets it in")
    box.says("detach veto")


def of_the_kernel(given: Try, box: Box) -> None:
    """Another program has a route of this prefix and metric."""
    own = box.namespace
    box.says(f"attach {assembled(given, 'again', VETO)}")
    within(5, lambda: LONG not in box.kernel_routes())
    run("ip", "-n", own, "route", "add", LONG, "dev", "eth2", "proto", "static", "metric", 89)
    box.says("detach veto")
    asked(
        *(given, box, "another program's route", LONG, "another program's: proto static, metric 89"),
        "the kernel refuses the box's",
    )
    run("ip", "-n", own, "route", "del", LONG, "dev", "eth2", "proto", "static", "metric", 89)
    run("ip", "-n", own, "route", "add", "203.0.0.0/16", "via", "10.0.1.2")
    asked(given, box, "a shorter one is taken", "203.0.112.0/24", "packets take the shorter 203.0.0.0/16")
    run("ip", "-n", own, "route", "del", "203.0.0.0/16")


def processor_seconds(box: Box) -> float:
    """What its programs have had of a processor (proc(5), the file `schedstat`)."""
    files = (file for each in box.programs() for file in Path("/proc", each).glob("task/*/schedstat"))
    return sum(int(each.read_text().split()[0]) for each in files) / 1e9


def of_lsas(given: Try, box: Box, bird: Bird) -> None:
    bird.externals.remove(LONG)
    bird.configure()
    within(10, lambda: LONG not in box.kernel_routes())
    asked(given, box, "it was withdrawn", LONG, "of 2.2.2.2: withdrawn at ", "(flushed at MaxAge)")
    many = prefixes(100, 10_000)
    bird.externals += many
    bird.configure()
    last = many[-1]
    given.looks.timed("10,000 more destinations", 120, lambda: last in box.kernel_routes())
    time.sleep(2)
    answers, ran, commands = [], [], []
    for _ in range(5):
        began, before = time.monotonic(), resource.getrusage(resource.RUSAGE_CHILDREN)
        worked = processor_seconds(box)
        box.says(f"why {many[5000]}")
        answers.append(time.monotonic() - began)
        ran.append(processor_seconds(box) - worked)
        box.command("why", many[5000])
        after = resource.getrusage(resource.RUSAGE_CHILDREN)
        commands.append(after.ru_utime + after.ru_stime - before.ru_utime - before.ru_stime)
    took = min(ran) + min(commands)
    said = (
        f"{min(ran):.2f} s of the box, which answered after {min(answers):.2f} s at best, and "
        f"{min(commands):.2f} s of the command"
    )
    what = f"`leafrunt why` takes {SECONDS:g} s of processor with 10,000 destinations"
    given.looks.look(what, took <= SECONDS, said)
    bird.externals = [PLAIN, BOTH, OWN]
    bird.configure()
    within(60, lambda: last not in box.kernel_routes())


def broken(given: Try, box: Box, bird: Bird, frr: Frr) -> None:
    """FRR is killed behind BIRD; then the box's own adjacency is lost."""
    stub = "192.168.3.0/24"
    bird.externals.remove(BOTH)
    bird.configure()
    frr.stop(signal.SIGKILL)
    lists = "3.3.3.3 lists a link to 2.2.2.2, and 2.2.2.2 lists none to 3.3.3.3"
    within(30, lambda: stub not in box.kernel_routes())
    asked(given, box, "one end lists the link", stub, f"no way to 3.3.3.3: {lists}")
    bird.sides[0] = Side("eth1", hello=3)
    bird.configure()
    within(30, lambda: PLAIN not in box.kernel_routes())
    asked(
        *(given, box, "no adjacency", PLAIN, "lists none to 2.2.2.2", "eth1: no neighbor"),
        *("HelloInterval 3 there and 2 here", "what lies behind it isn't known"),
    )
    bird.sides[0] = Side("eth1")
    bird.configure()
    within(COMES_UP, lambda: PLAIN in box.kernel_routes())


def silent(given: Try) -> None:
    """`routerd` stands still: each command says so within a second, the log after five; nothing is lost
    where it goes on in time, and else the box ends in order, behind RouterDeadInterval."""
    network, looks = given.network, given.looks
    own, near = (network.namespace(each) for each in ("own", "near"))
    network.link(End(own, "eth1", "10.0.1.1/24"), End(near, "eth1", "10.0.1.2/24"))
    slow = Side("eth1", hello=10, dead=40)
    bird = Bird(network, near, "2.2.2.2", [slow])
    bird.externals = [PLAIN]
    box = Box(network, given.routerd, own, "silent", "1.1.1.1", [slow])
    for each in (bird, box):
        each.start()
    looks.timed("Full at HelloInterval 10, with its route", 60, lambda: PLAIN in box.kernel_routes())
    time.sleep(6)  # (until it is at rest)
    healthy, said, _ = box.answers("status", "--check")
    looks.look("`leafrunt status --check` finds nothing worse than a warning", healthy < 2, said.splitlines()[0])
    stand_still(given, box, 20)
    looks.look("after 20 s at RouterDeadInterval 40 the neighbor is Full", is_full(bird, "1.1.1.1"))
    looks.look("and the route is there", PLAIN in box.kernel_routes())
    lost = [each for each in box.log_lines() if "Full ->" in each]
    looks.look("the log has no loss", not lost, "; ".join(lost))
    looks.timed("the log says that it answers again", 5, lambda: "routerd answers again" in box.log.read_text())
    os.kill(routerd_of(box), signal.SIGSTOP)
    began = time.monotonic()
    status = box.wait(80)
    took = time.monotonic() - began
    looks.look("one that stands still is ended behind 40 s, status 3", status == 3 and 38 < took < 60, f"{status}, after {took:.0f} s")
    looks.look("its routes are gone", not box.kernel_routes())
    bird.stop()


def routerd_of(box: Box) -> int:
    return int(box.says("status")[0].rpartition(" ")[2])


def stand_still(given: Try, box: Box, seconds: float) -> None:
    looks, routerd, began = given.looks, routerd_of(box), time.monotonic()
    os.kill(routerd, signal.SIGSTOP)
    try:
        time.sleep(1.6)
        asked(given, box, "routerd hangs", PLAIN, "routerd hasn't answered `", f"kernel: {PLAIN} via")
        for line in ("status", "status json", f"why {PLAIN}", "table", "neighbors", "counters", "add 10.0.0.0/8 1 2 0"):
            before = time.monotonic()
            said = "\n".join(box.says(line))
            took = time.monotonic() - before
            looks.look(f"`{line}` says so within a second", "routerd hasn't answered" in said and took < 1, f"{took:.2f} s: {said[:60]!r}")
        health, said, _ = box.answers("status", "--check")
        looks.look("`leafrunt status --check`: 2", health == 2, said.splitlines()[0] if said else "")
        looks.timed("the log says so after 5 s", 8, lambda: "s: it is waited for" in box.log.read_text())
        time.sleep(max(0.0, began + seconds - time.monotonic()))
    finally:
        os.kill(routerd, signal.SIGCONT)
    time.sleep(2)


class FarBird(Bird):
    """Another BIRD, in a folder of its own."""

    def __init__(self, network: Network, namespace: str, router_id: str, sides: list[Side]) -> None:
        super().__init__(network, namespace, router_id, sides)
        self.folder = network.work / "bird-far"
        self.folder.mkdir()


def namesake(given: Try) -> None:
    """A BIRD three hops away has the box's Router ID: it is named with its address, and the box's own
    routes stay in the kernel."""
    network, looks = given.network, given.looks
    own, near, next_, far = (network.namespace(each) for each in ("own", "near", "next", "far"))
    network.link(End(own, "eth1", "10.0.1.1/24"), End(near, "eth1", "10.0.1.2/24"))
    network.link(End(near, "eth2", "10.0.2.2/24"), End(next_, "eth1", "10.0.2.3/24"))
    network.link(End(next_, "eth2", "10.0.3.3/24"), End(far, "eth1", "10.0.3.4/24"))
    network.link(End(own, "eth2", "192.168.1.1/24"), End(far, "eth2", "192.168.1.9/24"))
    bird = Bird(network, near, "2.2.2.2", [Side("eth1"), Side("eth2")])
    bird.externals = [PLAIN]
    frr = Frr(network, next_, "3.3.3.3", [Side("eth1"), Side("eth2")])
    other = FarBird(network, far, "1.1.1.1", [Side("eth1")])
    other.externals = [BOTH]
    lan = Side("eth2", is_passive=True)
    box = Box(network, given.routerd, own, "same", "1.1.1.1", [Side("eth1"), lan])
    box.announced = [Announce(OWN)]
    for each in (bird, frr, box):
        each.start()
    looks.timed("all are Full, with their routes", COMES_UP, lambda: PLAIN in box.kernel_routes())
    time.sleep(8)
    other.start()
    text = "another router has this Router ID, 1.1.1.1: its router-LSA came with the "
    looks.timed("`leafrunt status` names it with its address within 30 s", 30, lambda: is_said(box, text))
    looks.look("and so does the log", text in box.log.read_text())
    where = line_of(box, text)
    looks.look("with where it is", "10.0.3." in where, where)
    looks.look("it isn't at rest", not is_said(box, "at rest since"))
    missing = 0
    for _ in range(90):
        missing += not {PLAIN, "10.0.2.0/24"} <= box.kernel_routes().keys()
        time.sleep(0.5)
    looks.look("the box's own routes are away at none of 90 looks", missing == 0, f"{missing}")
    for router in (other, box, frr, bird):
        router.stop()
