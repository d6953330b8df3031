"""A `routerd` that gets no more memory for a time. See `try-network`."""
from __future__ import annotations

import json
import re
import resource
import subprocess
import time
from pathlib import Path

from tests.network import (
    COMES_UP,
    DEAD_INTERVAL,
    Bird,
    Box,
    End,
    Side,
    Try,
    is_full,
    is_said,
    line_of,
    prefixes,
    within,
    within_own,
)
from tests.schemas import faults, schema
from tests.try_wire import routerd_of

BEFORE, MORE = prefixes(50, 1000), prefixes(51, 3000)
HEADROOM = 600_000
"""Bytes of address space above what `routerd` has: less than these LSAs take."""
WHOLE = 1 << 30
"""What a box gives it (isolation.py)."""
WHAT = r"(packets, timers and commands \(refused 6\)|its lists \(out of memory\))"
SAID = re.compile(rf"routerd refuses {WHAT}: routerd is out of memory: give the machine more")
"""What is refused first goes by what is left of the headroom: a list of routes wants more than most
events, and of these an Update more than what the box asks by."""
SENT_AGAIN = 2 * COMES_UP
"""Seconds in which the neighbor has sent all again that wasn't acknowledged: where the adjacency
wasn't lost, BIRD sends some 100 of 3,000 LSAs each RxmtInterval, which is 2 here."""
SECONDS_SHORT = DEAD_INTERVAL + 2
"""The neighbor is lost by then; after a minute the box would end."""


def limit(process: int, size: int) -> None:
    """Bounds a process's address space, as its own user: root too may need a capability for
    others' (prlimit(2))."""
    status = Path(f"/proc/{process}/status").read_text(encoding="ascii")
    user, group = (int(re.findall(rf"{name}:\t(\d+)", status)[0]) for name in ("Uid", "Gid"))
    words = ["prlimit", f"--pid={process}", f"--as={size}:"]
    subprocess.run(words, user=user, group=group, extra_groups=[], check=True)


def address_space(process: int) -> int:
    pages = Path(f"/proc/{process}/statm").read_text(encoding="ascii").split()[0]
    return int(pages) * resource.getpagesize()


def memory(given: Try) -> None:
    """The address space of a box's `routerd` is bounded while thousands of LSAs come, and isn't
    any more: its status, its log, and how it comes back by itself."""
    network, looks = given.network, given.looks
    own, far = (network.namespace(each) for each in ("own", "far"))
    network.link(End(own, "eth1", "10.0.1.1/24"), End(far, "eth1", "10.0.1.2/24"))
    bird = Bird(network, far, "2.2.2.2", [Side("eth1")])
    box = Box(network, given.routerd, own, "tried", "1.1.1.1", [Side("eth1")])
    bird.externals = BEFORE
    bird.start()
    box.start()
    looks.timed("Full", COMES_UP, lambda: is_full(box, "2.2.2.2"))
    looks.timed("1,000 routes", 20, lambda: len(box.kernel_routes()) == len(BEFORE))
    time.sleep(6)  # until what it still has to say of that is said
    process = routerd_of(box) or 0
    limit(process, address_space(process) + HEADROOM)
    bird.externals = BEFORE + MORE
    bird.configure()
    programs = [*box.programs(), *bird.programs()]
    is_told, after = within_own(15, lambda: SAID.search("\n".join(box.says("status"))), programs)
    what = "memory is refused to routerd: the status says so, and what to do"
    looks.look(what, is_told, f"{after}: {line_of(box, 'routerd refuses')}")
    status = json.loads(box.command("status", "--json"))
    refusal, is_valid = status["routerd"].get("refusal"), not faults(schema("status"), status)
    is_lasting = refusal is not None and refusal["until"] is None
    looks.look("and the one for programs, by its schema", is_lasting and is_valid, f"{refusal}")
    time.sleep(SECONDS_SHORT)
    said = [found[0] for each in box.log_lines() if (found := SAID.search(each))]
    looks.look("and the log, each once", 1 <= len(said) == len(set(said)), "; ".join(said))
    looks.look("routerd runs on", routerd_of(box) == process)
    limit(process, WHOLE)
    over = within(10, lambda: is_said(box, "routerd was out of memory for"))
    looks.look("there is memory: that is told", over is not None, line_of(box, "was out of"))
    every = len(BEFORE) + len(MORE)
    what = "all 4,000 routes, by itself"
    looks.timed(what, SENT_AGAIN, lambda: len(box.kernel_routes()) == every)
    looks.timed("at rest", 20, lambda: is_said(box, "at rest since"))
    ended = [each for each in box.log_lines() if "routerd refuses nothing any more" in each]
    looks.look("the log says that it's over", len(ended) == 1, "; ".join(ended))
    looks.look("it was no other routerd", routerd_of(box) == process)
    box.stop()
    bird.stop()
