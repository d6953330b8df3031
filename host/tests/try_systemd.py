#!/usr/bin/env python3
"""A box as a unit of systemd, in a machine or container that `try-systemd` boots: it was started at
boot, before its interfaces are there."""
from __future__ import annotations

import subprocess
import sys
import time
from pathlib import Path

sys.path.insert(0, str(Path(__file__).resolve().parent.parent))
from tests.network import CannotTry, Looks, output, run  # noqa: E402

UNIT, CONFIGURATION = "leafrunt@north", Path("/etc/leafrunt/north.toml")
OTHER = "leafrunt@none"
SLOW = 600
"""Seconds that are waited for: the machine may be an emulated one, on a busy machine."""
EXTERNAL = "203.0.113.0/24"
CAPABILITIES = sum(1 << each for each in (5, 6, 7, 12, 13, 21, 23))
"""CAP_KILL, CAP_SETGID, CAP_SETUID, CAP_NET_ADMIN, CAP_NET_RAW, CAP_SYS_ADMIN, CAP_SYS_NICE."""


def systemctl(*words: str) -> None:
    """`CannotTry` where it fails."""
    run("systemctl", *words, UNIT, seconds=SLOW)


def shown(name: str) -> str:
    """A property of the unit."""
    return output("systemctl", "show", UNIT, "-p", name, "--value").strip()


def is_running() -> bool:
    return shown("ActiveState") == "active"


def is_full() -> bool:
    return "2.2.2.2 (10.0.1.2) Full" in output("leafrunt", "status", "--box", "north", seconds=60)


def own_routes() -> str:
    return output("ip", "route", "show", "proto", "89")


def south_has(prefix: str) -> bool:
    return prefix in output("ip", "-n", "south", "route", "show")


def fields(process: int | str) -> dict[str, str]:
    """What /proc says of a process."""
    lines = Path(f"/proc/{process}/status").read_text().splitlines()
    return {key: rest.strip() for key, _, rest in (each.partition(":") for each in lines)}


def joined() -> None:
    """The links of docs/use/HOST.md, and the southern machine as a namespace with a box."""
    run("sysctl", "-qw", "net.ipv4.ip_forward=1") if Path("/usr/sbin/sysctl").exists() else None
    for name in ("south", "hosts"):
        run("ip", "netns", "add", name)
    run(*"ip link add eth1 type veth peer name eth1 netns south".split())
    run(*"ip link add eth2 type veth peer name eth2 netns hosts".split())
    run(*"ip -n south link add eth2 type veth peer name eth3 netns hosts".split())
    for words in (
        "addr add 10.0.1.1/24 dev eth1",
        "addr add 192.168.1.1/24 dev eth2",
        "link set eth1 up",
        "link set eth2 up",
        "-n south addr add 10.0.1.2/24 dev eth1",
        "-n south addr add 192.168.2.1/24 dev eth2",
        "-n south link set lo up",
        "-n south link set eth1 up",
        "-n south link set eth2 up",
        "-n hosts link set eth2 up",
        "-n hosts link set eth3 up",
    ):
        run("ip", *words.split())
    up = "leafrunt up /etc/leafrunt/south.toml --run-directory /tmp/run --state-directory /tmp/state"
    words = ["systemd-run", "-q", "--unit", "south", "ip", "netns", "exec", "south", *up.split()]
    run(*words)


def start(looks: Looks) -> None:
    looks.look("at boot it fails for lack of its interfaces", shown("ActiveState") != "active")
    joined()
    is_active = looks.timed("it starts once they are there, by itself", SLOW, is_running, 2)
    if not is_active or not looks.timed("Full", SLOW, is_full, 2):
        return
    looks.timed("the kernel has the route", SLOW, lambda: "192.168.2.0/24" in own_routes())
    own = fields(shown("MainPID"))
    bound = int(own["CapBnd"], 16)
    looks.look("it has seven capabilities", bound == CAPABILITIES, own["CapBnd"])
    (router,) = output("pidof", "routerd").split()[:1] or [""]
    its = fields(router) if router else {}
    users = {each for each in its.get("Uid", "0").split()}
    is_poor = int(its.get("CapEff", "1"), 16) == 0 and "0" not in users
    looks.look("routerd has none, and is no root", is_poor)
    journal = output("journalctl", "-u", UNIT, "-p", "info", "-o", "cat")
    looks.look("the journal has its lines", "-> Full" in journal)
    warned = output("journalctl", "-u", UNIT, "-p", "warning", "-o", "cat")
    looks.look("each with its priority", "-> Full" not in warned)


def reload(looks: Looks) -> None:
    since = output("leafrunt", "status", "--box", "north")
    text = CONFIGURATION.read_text()
    CONFIGURATION.write_text(f'{text}\n[[announce]]\nprefix = "{EXTERNAL}"\n')
    systemctl("reload")
    looks.timed("after a reload south has another destination", SLOW, lambda: south_has(EXTERNAL))
    line = next(each for each in since.splitlines() if "Full" in each)
    looks.look("the adjacency is the same", line in output("leafrunt", "status", "--box", "north"))
    CONFIGURATION.write_text(f"{text}\nnothing = 1\n")
    failed = False
    try:
        systemctl("reload")
    except CannotTry:
        failed = True
    looks.look("a wrong file is refused, and the box goes on", failed and is_full())
    CONFIGURATION.write_text(text)


def beside(looks: Looks) -> None:
    """Another unit fails at each start, again and again."""
    with subprocess.Popen(["ip", "monitor", "route"], stdout=subprocess.PIPE, text=True) as monitor:
        run("systemctl", "start", "--no-block", OTHER, seconds=SLOW)

        def has_failed() -> bool:
            return int(output("systemctl", "show", OTHER, "-p", "NRestarts", "--value") or 0) > 1

        looks.timed("another unit without a configuration is tried again", SLOW, has_failed, 2)
        run("systemctl", "stop", OTHER, seconds=SLOW)
        monitor.terminate()
        said = monitor.communicate()[0]
    gone = [each for each in said.splitlines() if "Deleted" in each]
    is_there = "192.168.2.0/24" in own_routes()
    looks.look("no route of the first box is gone by that", is_there and not gone, "; ".join(gone))


def killed(looks: Looks) -> None:
    before = shown("MainPID")
    systemctl("kill", "-s", "KILL", "--kill-whom", "main")
    looks.timed("killed: its routes are removed", SLOW, lambda: not own_routes(), 0.05)
    looks.timed("it is started again", SLOW, is_running)
    looks.look("by another process", shown("MainPID") not in (before, "0"))
    looks.timed("Full again", SLOW, is_full)
    looks.timed("with its route", SLOW, lambda: "192.168.2.0/24" in own_routes())
    systemctl("restart")
    looks.timed("restarted: Full", SLOW, is_full)


def stopped(looks: Looks) -> None:
    start = time.monotonic()
    systemctl("stop")
    said = f"after {time.monotonic() - start:.1f} s"
    looks.look("it stops in order", shown("Result") == "success", said)
    looks.look("its routes are gone", not own_routes(), own_routes())
    looks.timed("south has turned away", SLOW, lambda: not south_has("192.168.1.0/24"))
    left = [each for each in output("ps", "ax").splitlines() if "north.toml" in each]
    looks.look("no process is left", not left, "; ".join(left))


def main() -> int:
    looks = Looks()
    try:
        for each in (start, reload, beside, killed, stopped):
            each(looks)
            if looks.bad:
                break
    except CannotTry as why:
        looks.look(f"it can't be tried on: {why}", False)
    if looks.bad:
        print(output("systemctl", "status", "--no-pager", "-l", UNIT, "south"))
        print(output("journalctl", "--no-pager", "-o", "short-monotonic")[-6000:])
    print(f"{looks.good} looks as they must be, {len(looks.bad)} not", flush=True)
    return 1 if looks.bad else 0


if __name__ == "__main__":
    sys.exit(main())
