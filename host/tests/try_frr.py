"""What FRR's own tests look at, with a box in a router's place beside FRR. See `try-network`."""
from __future__ import annotations

import re

from tests.network import TIMERS, Box, End, Frr, Side, Try, is_full, output, run

FAR, GATEWAY = "14.0.0.0/24", "192.168.50.254"
"""A destination of FRR's, and its next hop in a network that is also the box's."""
LINKS = 8
STATIC = "203.0.113.0/24"
MIN_LS_INTERVAL = 5
"""Seconds (RFC 2328, B)."""


def forwarding(given: Try) -> None:
    """FRR announces a destination by a router in a LAN that it shares with the box: that is the
    LSA's forwarding address, and the box's kernel sends there itself (RFC 2328, 16.4)."""
    network, looks = given.network, given.looks
    own, frr_space = network.namespace("box"), network.namespace("frr")
    network.link(End(own, "eth1", "10.0.1.1/24"), End(frr_space, "eth1", "10.0.1.2/24"))
    network.bridged(
        End(own, "lan", "192.168.50.1/24"), End(frr_space, "lan", "192.168.50.2/24")
    )
    sides = [Side("eth1"), Side("lan", is_passive=True)]
    frr = Frr(network, frr_space, "2.2.2.2", sides)
    frr.externals, frr.gateway = [FAR], GATEWAY
    box = Box(network, given.routerd, own, "box", "1.1.1.1", sides)
    box.start()
    frr.start()
    looks.timed("Full", TIMERS.comes_up, lambda: is_full(box, "2.2.2.2"))

    def has(*hops: str) -> bool:
        return box.kernel_routes().get(FAR, []) == list(hops)

    looks.timed("the kernel sends by the forwarding address", 10, lambda: has(GATEWAY))
    way = output("ip", "-n", own, "route", "get", "14.0.0.5")
    looks.look("and into the LAN", f"via {GATEWAY} dev lan" in way, way.strip())
    run("ip", "-n", frr_space, "route", "replace", FAR, "via", "192.168.50.253")
    looks.timed("another next hop there: the kernel's too", 15, lambda: has("192.168.50.253"))
    run("ip", "-n", frr_space, "route", "del", FAR)
    looks.timed("gone there: gone here", 15, has)
    box.stop()
    frr.stop()


def ecmp(given: Try) -> None:
    """Eight links to FRR, as in its ospf_ecmp tests: as many next hops as there are links, while
    these go one by one, at either end, and come back."""
    network, looks = given.network, given.looks
    own, far = network.namespace("box"), network.namespace("frr")
    names = [f"eth{each}" for each in range(1, LINKS + 1)]
    for at, name in enumerate(names, 1):
        network.link(End(own, name, f"10.0.{at}.1/24"), End(far, name, f"10.0.{at}.2/24"))
    network.link(End(far, "d0", "172.16.2.1/24"), End(far, "d1", "172.31.0.1/32"))
    sides = [Side(name) for name in names]
    frr = Frr(network, far, "2.2.2.2", [*sides, Side("d0", is_passive=True)])
    box = Box(network, given.routerd, own, "box", "1.1.1.1", sides)
    box.start()
    frr.start()

    def has(*ats: int) -> bool:
        hops = [f"10.0.{each}.2" for each in ats]
        return sorted(box.kernel_routes().get("172.16.2.0/24", [])) == hops

    every = range(1, LINKS + 1)
    looks.timed(f"FRR's network has {LINKS} next hops", TIMERS.comes_up, lambda: has(*every))
    for at in every[:-1]:
        where = (own, far)[at % 2]
        run("ip", "-n", where, "link", "set", f"eth{at}", "down")
        left = range(at + 1, LINKS + 1)
        looks.timed(f"link {at} is down: {len(left)} next hops", 4, lambda: has(*left))
    for at in every[:-1]:
        run("ip", "-n", (own, far)[at % 2], "link", "set", f"eth{at}", "up")
    looks.timed(f"all are up again: {LINKS} next hops", TIMERS.comes_up, lambda: has(*every))
    box.stop()
    frr.stop()


def attributes(given: Try) -> None:
    """What a box says of a static route that it redistributes, as in FRR's ospf_routemaps and
    ospf_asbr_summary tests: metric, type and tag, changed by reloads; filters; withdrawals."""
    network, looks = given.network, given.looks
    own, far = network.namespace("box"), network.namespace("frr")
    network.link(End(own, "eth1", "10.0.1.1/24"), End(far, "eth1", "10.0.1.2/24"))
    network.link(End(own, "d0", "172.16.1.1/24"), End(own, "d1", "172.31.0.1/32"))
    frr = Frr(network, far, "2.2.2.2", [Side("eth1", retransmit=MIN_LS_INTERVAL)])
    box = Box(network, given.routerd, own, "box", "1.1.1.1", list(frr.sides))
    box.more = "[redistribute.static]\n"
    run("ip", "-n", own, "route", "add", STATIC, "via", "172.16.1.9")
    box.start()
    frr.start()
    looks.timed("Full", TIMERS.comes_up, lambda: is_full(box, "2.2.2.2"))

    def said() -> tuple[str, ...]:
        text = frr.says(f"show ip ospf database external {STATIC.partition('/')[0]}")
        words = ("Metric Type: ", "Metric: ", "External Route Tag: ", "LS age: ")
        found = (re.search(f"{word}(\\d+)", text) for word in words)
        return tuple(each[1] for each in found if each)

    def is_said(*wanted: str) -> bool:
        return said()[: len(wanted)] == wanted and "3600" not in said()

    looks.timed("it is announced by metric 20, type 2", 10, lambda: is_said("2", "20", "0"))
    for settings, wanted in (
        ("metric = 77\n", ("2", "77", "0")),
        ("metric = 77\ntype = 1\n", ("1", "77", "0")),
        ("metric = 77\ntype = 1\ntag = 4294967295\n", ("1", "77", "4294967295")),
        ("tag = 9\n", ("2", "20", "9")),
    ):
        box.more = f"[redistribute.static]\n{settings}"
        box.configure()
        box.command("reload")
        what = f"{', '.join(settings.split(chr(10))[:-1])}: FRR has that"
        looks.timed(what, MIN_LS_INTERVAL + 2, lambda: is_said(*wanted))

    def routes() -> str:
        return output("ip", "-n", far, "route", "show", STATIC)

    box.more = f'[redistribute.static]\ndeny = ["{STATIC}"]\n'
    box.configure()
    box.command("reload")
    looks.timed("it is denied: gone", MIN_LS_INTERVAL + 2, lambda: not routes())
    box.more = "[redistribute.static]\n"
    box.configure()
    box.command("reload")
    # (FRR keeps what was flushed, and the box goes one past its number after MinLSInterval)
    looks.timed("allowed: there", 2 * MIN_LS_INTERVAL + 2, routes)
    run("ip", "-n", own, "route", "del", STATIC)
    looks.timed("the static route goes: gone", MIN_LS_INTERVAL + 2, lambda: not routes())
    box.stop()
    frr.stop()
