"""Mistakes that operators make: after how many seconds a box's status or log names the cause, beside
BIRD and FRR with the same mistake at the other end. See `try-network`."""
from __future__ import annotations

import os
import re
import signal
import subprocess
import sys
import time
from collections.abc import Callable
from dataclasses import dataclass, field, replace
from pathlib import Path

from tests.network import (
    COMES_UP,
    HOST,
    Bird,
    Box,
    End,
    Frr,
    Network,
    Secret,
    Side,
    Try,
    is_full,
    run,
    within,
)
from tests.try_why import VETO, assembled, routerd_of

SEEN_WITHIN = 12.0
"""A Hello comes each two seconds, and RouterDeadInterval is eight."""
KEY = Secret(1, "keyed md5", "right")
OTHER_SECRET, OTHER_ID = Secret(1, "keyed md5", "wrong"), Secret(2, "keyed md5", "right")
ANY = r"(?i)mismatch|mtu|authenticat|checksum|auth|password"


class Peer(Bird):
    """The BIRD that is mistaken, with a link to each of the three."""

    def __init__(self, network: Network, namespace: str, router_id: str, sides: list[Side]) -> None:
        super().__init__(network, namespace, router_id, sides)
        self.kind = "pointopoint"

    def _interface(self, side: Side) -> str:
        return super()._interface(side).replace("pointopoint", self.kind)


class Beside(Bird):
    """BIRD with a mistaken peer."""

    def __init__(self, network: Network, namespace: str, router_id: str, sides: list[Side]) -> None:
        super().__init__(network, namespace, router_id, sides)
        self.folder = network.work / "bird-beside"
        self.folder.mkdir()


@dataclass
class OnTheWire:
    """A mistake at the peer's end: how it is made, and by which words each names it."""

    what: str
    make: Callable[[Scene], None]
    box: str
    others: str = ANY


@dataclass
class Scene:
    """A box, BIRD and FRR, each with a link to the peer."""

    given: Try
    peer: Peer
    box: Box
    bird: Beside
    frr: Frr
    began: dict[str, int] = field(default_factory=dict)
    """How long each log was when the mistake was made."""

    def sides(self, **fields: object) -> None:
        """The peer's interfaces are so from now on."""
        self.peer.sides = [replace(each, **fields) for each in self.peer.sides]
        self.peer.configure()

    def logs(self) -> dict[str, Path]:
        return {"BIRD": self.bird.folder / "log", "FRR": self.frr.folder / "ospfd.log"}

    def mark(self) -> None:
        files = {**self.logs(), "box": self.box.log}
        self.began = {name: size_of(path) for name, path in files.items()}

    def new(self, name: str) -> str:
        path = {**self.logs(), "box": self.box.log}[name]
        with open(path, "rb") as it:
            it.seek(self.began[name])
            return it.read().decode(errors="replace")

    def said(self) -> str:
        """What an operator of the box sees."""
        return "\n".join(self.box.says("status")) + self.new("box")


def size_of(path: Path) -> int:
    return path.stat().st_size if path.exists() else 0


def mtu(scene: Scene, value: int) -> None:
    """Of the peer's ends; a link that was lost begins its exchange anew."""
    for at in (1, 2, 3):
        run("ip", "-n", scene.peer.namespace, "link", "set", f"eth{at}", "mtu", value)
    scene.peer.says("restart", "ospf1")


def readdress(scene: Scene, before: str, after: str) -> None:
    for at in (1, 2, 3):
        name = scene.peer.namespace
        run("ip", "-n", name, "addr", "add", f"{after.format(at)}", "dev", f"eth{at}")
        run("ip", "-n", name, "addr", "del", f"{before.format(at)}", "dev", f"eth{at}")


def rename(scene: Scene, value: str) -> None:
    """The peer gets another Router ID."""
    scene.peer.router_id = value
    scene.peer.configure()


def kind(scene: Scene, value: str) -> None:
    scene.peer.kind = value
    scene.peer.configure()


def area(scene: Scene, value: str) -> None:
    scene.peer.area = value
    scene.peer.configure()


PLAIN = [
    OnTheWire("MTU 1400 at the peer", lambda it: mtu(it, 1400), "MTU 1400 there and 1500 here"),
    OnTheWire("area 1 at the peer", lambda it: area(it, "area 1"), "area 0.0.0.1 there and 0.0.0.0 here"),
    OnTheWire("HelloInterval 3", lambda it: it.sides(hello=3), "HelloInterval 3 there and 2 here"),
    OnTheWire("RouterDeadInterval 12", lambda it: it.sides(dead=12), "RouterDeadInterval 12 there and 8 here"),
    OnTheWire("a key at the peer alone", lambda it: it.sides(keys=(KEY,)), "authenticated, and no key is configured here"),
    OnTheWire("a broadcast interface at the peer", lambda it: kind(it, "broadcast"), "it elects a Designated Router", r"(?i)designated|broadcast|network type"),
    OnTheWire("the box's own Router ID at the peer", lambda it: rename(it, "1.1.1.1"), "its Router ID 1.1.1.1 is this router's own", r"(?i)router.?id"),
    OnTheWire("the peer is passive", lambda it: it.sides(is_passive=True), r"no Hello for|last heard \d+ s ago", r"(?i)inactivity|dead timer|expired"),
    OnTheWire("an address of another subnet", lambda it: readdress(it, "10.0.{}.2/24", "10.101.{}.2/24"), "strange source address: 10.101.1.2", r"(?i)subnet|source|network mask|address"),
]
UNDO: dict[str, Callable[[Scene], None]] = {
    "MTU 1400 at the peer": lambda it: mtu(it, 1500),
    "area 1 at the peer": lambda it: area(it, "area 0"),
    "HelloInterval 3": lambda it: it.sides(hello=2),
    "RouterDeadInterval 12": lambda it: it.sides(dead=8),
    "a key at the peer alone": lambda it: it.sides(keys=()),
    "a broadcast interface at the peer": lambda it: kind(it, "pointopoint"),
    "the box's own Router ID at the peer": lambda it: rename(it, "9.9.9.9"),
    "the peer is passive": lambda it: it.sides(is_passive=None),
    "an address of another subnet": lambda it: readdress(it, "10.101.{}.2/24", "10.0.{}.2/24"),
}
KEYED = [
    OnTheWire("another secret at the peer", lambda it: it.sides(keys=(OTHER_SECRET,)), "wrong digest: key 1, keyed md5"),
    OnTheWire("another key ID at the peer", lambda it: it.sides(keys=(OTHER_ID,)), "unknown key: key 2, known here: 1"),
    OnTheWire("no key at the peer", lambda it: it.sides(keys=()), "not authenticated by a digest"),
]


def scene_of(given: Try, keys: tuple[Secret, ...] = ()) -> Scene:
    network, more = given.network, "-keys" if keys else ""
    names = (f"{each}{more}" for each in ("peer", "own", "beside", "far"))
    peer, own, beside, far = map(network.namespace, names)
    for at, name in enumerate((own, beside, far), 1):
        network.link(End(name, "eth1", f"10.0.{at}.1/24"), End(peer, f"eth{at}", f"10.0.{at}.2/24"))
    side = Side("eth1", keys)
    ours = Peer(network, peer, "9.9.9.9", [Side(f"eth{at}", keys) for at in (1, 2, 3)])
    box = Box(network, given.routerd, own, "box", "1.1.1.1", [side])
    bird = Beside(network, beside, "2.2.2.2", [side])
    frr = Frr(network, far, "3.3.3.3", [side])
    scene = Scene(given, ours, box, bird, frr)
    for each in (ours, box, bird, frr):
        each.start()
    ids = ("1.1.1.1", "2.2.2.2", "3.3.3.3")
    given.looks.timed("all are Full", COMES_UP, lambda: is_full(ours, *ids))
    return scene


def wire_row(scene: Scene, it: OnTheWire) -> None:
    """The mistake is made, and each is looked at until it names the cause."""
    scene.mark()
    it.make(scene)
    began, seen = time.monotonic(), dict[str, float]()
    while time.monotonic() - began < SEEN_WITHIN and len(seen) < 3:
        if "box" not in seen and re.search(it.box, scene.said()):
            seen["box"] = time.monotonic() - began
        for name in ("BIRD", "FRR"):
            if name not in seen and re.search(it.others, scene.new(name)):
                seen[name] = time.monotonic() - began
        time.sleep(0.1)
    words = {name: f"{seen[name]:.1f} s" if name in seen else "silent" for name in ("box", "BIRD", "FRR")}
    said = ", ".join(f"{name} {text}" for name, text in words.items())
    first = all(seen.get("box", 99) <= seen.get(name, 99) + 3 for name in ("BIRD", "FRR"))
    scene.given.looks.look(f"{it.what}: the cause is named", "box" in seen and first, said)


def mistakes(given: Try) -> None:
    """The mistakes of operators: on the wire beside BIRD and FRR, each with the seconds until its status
    or log names the cause; and those at a box alone."""
    scene = scene_of(given)
    for each in PLAIN:
        wire_row(scene, each)
        UNDO[each.what](scene)
    given.looks.timed("all is right: Full again", 60, lambda: is_full(scene.peer, "1.1.1.1"))
    at_the_box(scene)
    for router in (scene.box, scene.peer, scene.bird, scene.frr):
        router.stop()
    given.anew(lambda: keyed(given))


def keyed(given: Try) -> None:
    scene = scene_of(given, (KEY,))
    for each in KEYED:
        wire_row(scene, each)
        scene.sides(keys=(KEY,))
        time.sleep(3)
    for router in (scene.box, scene.peer, scene.bird, scene.frr):
        router.stop()


def named(scene: Scene, what: str, make: Callable[[], object], *texts: str, seconds: float = SEEN_WITHIN) -> None:
    """A mistake at the box: whether status or log names it, and after how long."""
    scene.mark()
    make()
    began = time.monotonic()
    took = within(seconds, lambda: all(each in scene.said() for each in texts))
    measured = f"not within {seconds:g} s" if took is None else f"box {time.monotonic() - began:.1f} s"
    scene.given.looks.look(f"{what}: the cause is named", took is not None, measured)


def at_the_box(scene: Scene) -> None:
    given, box = scene.given, scene.box
    own = box.namespace

    def ip(*words: str) -> Callable[[], object]:
        return lambda: run("ip", "-n", own, *words)

    named(scene, "the interface is down", ip("link", "set", "eth1", "down"), "down: no carrier, or taken down")
    ip("link", "set", "eth1", "up")()
    named(scene, "its address is removed", ip("addr", "del", "10.0.1.1/24", "dev", "eth1"), "its address 10.0.1.1 is gone")
    ip("addr", "add", "10.0.1.1/24", "dev", "eth1")()
    def renamed(before: str, after: str) -> None:
        for words in ((before, "down"), (before, "name", after), (after, "up")):
            ip("link", "set", *words)()

    gone = "the kernel has no interface of this name"
    named(scene, "the interface is renamed", lambda: renamed("eth1", "other0"), gone)
    renamed("other0", "eth1")
    two = "this box wouldn't start now"
    named(scene, "a second address", ip("addr", "add", "10.99.0.1/24", "dev", "eth1"), two, seconds=75)
    ip("addr", "del", "10.99.0.1/24", "dev", "eth1")()
    again(scene)
    forward = ("netns", "exec", own, "sysctl", "-qw", "net.ipv4.ip_forward={}")
    named(scene, "ip_forward is 0", lambda: run("ip", *forward[:-1], "net.ipv4.ip_forward=0"), "net.ipv4.ip_forward is 0")
    run("ip", *forward[:-1], "net.ipv4.ip_forward=1")
    within(COMES_UP, lambda: is_full(box, "9.9.9.9"))
    all_out = assembled(given, "all_out", "hook veto\nrank 0\nr0 = 1\nexit\n")
    scene.peer.externals = ["203.0.113.0/24"]
    scene.peer.configure()
    within(20, lambda: "203.0.113.0/24" in box.kernel_routes())
    out = "the program at veto keeps all routes out"
    named(scene, "a veto keeps all out", lambda: box.says(f"attach {all_out}"), out, "console: attach", "(by root")
    box.says("detach veto")
    files(scene)
    named(scene, "routerd is killed", lambda: os.kill(routerd_of(box), signal.SIGKILL), "killed by signal 9")


def again(scene: Scene) -> None:
    """A second instance, of the same name."""
    box = scene.box
    words = ("up", str(box.folder / f"{box.name}.toml"), "--run-directory", str(scene.given.network.work / "run"))
    ran = subprocess.run(
        ["ip", "netns", "exec", box.namespace, sys.executable, str(HOST / "leafrunt"), *words],
        capture_output=True,
        text=True,
        timeout=60,
        check=False,
    )
    said = " ".join(ran.stderr.split())
    good = ran.returncode == 1 and "runs already" in said
    scene.given.looks.look("a second instance: it is refused with the reason", good, said[-110:])


def files(scene: Scene) -> None:
    """Mistakes in the file: a reload and a check name them, and status keeps a refused reload."""
    given, box = scene.given, scene.box
    path = box.folder / f"{box.name}.toml"
    right = path.read_text()
    veto = assembled(given, "wrong_hook", VETO.replace("hook veto", "hook price"))
    elf = given.network.work / "elf.o"
    elf.write_bytes(b"\x7fELF" + bytes(60))
    short = given.network.work / "short.o"
    short.write_bytes(veto.read_bytes()[:40])
    rows = {
        "a cost of 0": (right.replace("cost = 10", "cost = 0"), "cost: found 0; allowed"),
        "dead below hello": (right.replace("dead_interval = 8", "dead_interval = 1"), "dead_interval: found 1"),
        "an unknown key": (right + "[kernle]\ntable = 1\n", "kernle"),
        "no quote": (right.replace('name = "eth1"', "name = eth1"), "line"),
        "another Router ID": (right.replace("1.1.1.1", "1.1.1.7", 1), "needs a new start"),
        "a program for another hook": (right + f'[[program]]\nobject = "{veto}"\nhook = "veto"\n', "for the hook price"),
        "an ELF file as a program": (right + f'[[program]]\nobject = "{elf}"\n', "hooktool build"),
        "a truncated program": (right + f'[[program]]\nobject = "{short}"\n', "shorter than its header says"),
        "a destination twice": (right + 2 * '[[announce]]\nprefix = "203.0.113.0/24"\n', "in an earlier [[announce]]"),
        "host bits": (right + '[[announce]]\nprefix = "203.0.113.7/24"\n', "203.0.113.7/24"),
        "a martian announced": (right + '[[announce]]\nprefix = "127.0.0.0/8"\n', "127.0.0.0/8"),
        "no file": (None, "No such file"),
    }
    for what, (text, words) in rows.items():
        path.unlink(missing_ok=True)
        if text is not None:
            path.write_text(text)
        began = time.monotonic()
        status, _, errors = box.answers("reload")
        took = time.monotonic() - began
        good = status in (1, 3) and words in errors
        given.looks.look(f"{what}: reload names it", good, f"box {took:.1f} s: {' '.join(errors.split())[-110:]}")
    kept = [each for each in box.says("status") if "the last reload was refused at" in each]
    given.looks.look("status keeps the refused reload", kept, "; ".join(kept)[:110])
    path.write_text(right)
    box.says("reload")
    gone = not [each for each in box.says("status") if "was refused at" in each]
    given.looks.look("until one succeeds", gone)
    path.write_text(right.replace("cost = 10", "cost = 20"))
    dry = box.command("reload", "--dry-run")
    given.looks.look("reload --dry-run says what would change", "cost 20 in place of 10" in dry, dry.splitlines()[0])
    path.write_text(right.replace("hello_interval = 2", "hello_interval = 2\ntransmit_delay = 2"))
    box.command("reload", "--confirm", "4s")
    text = "nobody confirmed the reload"
    given.looks.timed("reload --confirm 4s is taken back", 60, lambda: text in "\n".join(box.says("status")))
    given.looks.look("and the neighbor is Full", is_full(box, "9.9.9.9"))
    path.write_text(right)
    box.log.rename(box.log.with_suffix(".1"))
    box.says("detach veto")
    new = within(5, lambda: box.log.exists() and "console: detach veto" in box.log.read_text())
    given.looks.look("a rotated log is made anew", new is not None)
