"""Interfaces that aren't there yet when a box starts. See `try-network`."""
from __future__ import annotations

import time

from tests.network import COMES_UP, Bird, Box, End, Side, Try, is_full, is_said, run, within


def coming(given: Try) -> None:
    """A box starts with the one interface that is there; a tunnel that comes later, and others by a
    pattern of names, are taken as they come, and the neighbor of before notices nothing. Then it
    starts without any."""
    network, looks = given.network, given.looks
    own, near, far = (network.namespace(each) for each in ("own", "near", "far"))
    network.link(End(own, "eth1", "10.0.1.1/24"), End(near, "eth1", "10.0.1.2/24"))
    box = Box(network, given.routerd, own, "box", "1.1.1.1", [Side("eth1"), Side("tun9")])
    box.more = '[[interface]]\nname = "wg*"\nhello_interval = 2\ndead_interval = 8\n'
    bird = Bird(network, near, "2.2.2.2", [Side("eth1")])
    other = Bird(network, far, "3.3.3.3", [Side("tun9"), Side("wg0"), Side("wg1")])
    other.folder = network.work / "other"
    other.folder.mkdir()
    for each in (box, bird, other):
        each.start()
    looks.timed("one of two interfaces is there: Full", COMES_UP, lambda: is_full(box, "2.2.2.2"))
    lacks = "tun9: the kernel doesn't have it"
    looks.look("`leafrunt status` says what it lacks", is_said(box, lacks))
    network.link(End(own, "tun9", "10.0.9.1/24"), End(far, "tun9", "10.0.9.2/24"))
    looks.timed("a tunnel comes: Full", COMES_UP, lambda: is_full(box, "2.2.2.2", "3.3.3.3"))
    for at in (0, 1):
        net = f"10.0.{20 + at}"
        network.link(End(own, f"wg{at}", f"{net}.1/24"), End(far, f"wg{at}", f"{net}.2/24"))

    def interfaces() -> set[str]:
        full = (each for each in box.reported()["interfaces"] if each.get("neighbor"))
        return {each["name"] for each in full if each["neighbor"]["state"] == "Full"}

    all_four = {"eth1", "tun9", "wg0", "wg1"}
    looks.timed("two more come by their pattern: Full", 60, lambda: interfaces() == all_four, 1)
    fell = [each for each in box.log_lines() if "2.2.2.2 Full ->" in each]
    looks.look("the neighbor of before stayed Full", not fell, "; ".join(fell))
    run("ip", "-n", own, "link", "del", "tun9")
    time.sleep(3)
    network.link(End(own, "tun9", "10.0.9.1/24"), End(far, "tun9", "10.0.9.2/24"))
    looks.timed("the tunnel goes and comes: Full", 60, lambda: interfaces() == all_four, 1)
    box.stop()
    run("ip", "-n", own, "link", "del", "eth1")
    for each in ("tun9", "wg0", "wg1"):
        run("ip", "-n", own, "link", "del", each)
    box.start()
    said = "none of the interfaces is there: the first one is waited for"
    waits = within(10, lambda: any(said in each for each in box.log_lines()))
    looks.look("without any interface it waits", waits is not None and box.process)
    network.link(End(own, "tun9", "10.0.9.1/24"), End(far, "tun9", "10.0.9.2/24"))
    looks.timed("for the first one that comes: Full", COMES_UP, lambda: is_full(box, "3.3.3.3"))
    for each in (box, bird, other):
        each.stop()
