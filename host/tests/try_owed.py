"""A box's configuration is changed while a neighbor still owes acknowledgments: what that neighbor
lacks it gets all the same. See `try-network`."""
from __future__ import annotations

import threading
import time
from dataclasses import dataclass, replace

from tests.network import (
    COMES_UP,
    SHA,
    Bfd,
    Bird,
    Box,
    End,
    Lsa,
    Secret,
    Side,
    Try,
    is_full,
    prefixes,
    within,
)

NEAR, OWN, FAR = "2.2.2.2", "1.1.1.1", "3.3.3.3"
CHANGES = 8
"""How often a tenth of the destinations are others, where they change meanwhile."""
RETRANSMITS = 5
"""RxmtInterval in seconds, as it is where nothing is said of it (RFC 2328, C.3)."""
FOREVER = Bfd(300, 50)
"""BFD whose session outlasts the losses here."""


@dataclass(frozen=True)
class Scene:
    """A link to the far BIRD that loses this share of all packets, so many destinations of the near
    one, and how soon the far one has all. (`routerd` sends one Update again each RxmtInterval.)"""

    about: str
    hello: int
    dead: int
    loss: int
    count: int
    seconds: int
    keys: tuple[Secret, ...] = ()
    bfd: Bfd | None = None
    has_churn: bool = False


SCENES = (
    Scene("20 % are lost", 2, 20, 20, 3_000, 40),
    Scene("40 % are lost, keys, BFD, changes", 10, 100, 40, 400, 120, (SHA,), FOREVER, True),
)


class Owing:
    """BIRD 2.2.2.2 - a box - BIRD 3.3.3.3, behind a wire."""

    def __init__(self, given: Try, scene: Scene) -> None:
        self.network, self.looks, self.scene = given.network, given.looks, scene
        near, own, far = (self.network.namespace(each) for each in ("near", "box", "far"))
        self.network.link(End(own, "near", "10.0.1.1/24"), End(near, "eth1", "10.0.1.2/24"))
        self.wire = self.network.wired(
            End(own, "far", "10.0.2.1/24"), End(far, "eth1", "10.0.2.2/24")
        )
        self.network.start_wires()
        side = Side("eth1", scene.keys, scene.hello, scene.dead, retransmit=RETRANSMITS)
        watched = replace(side, bfd=scene.bfd)
        self.near, self.far = Bird(self.network, near, NEAR, [side]), self._far(far, watched)
        sides = [replace(side, name="near"), replace(watched, name="far")]
        self.box = Box(self.network, given.routerd, own, "box", OWN, sides)

    def _far(self, namespace: str, side: Side) -> Bird:
        far = Bird(self.network, namespace, FAR, [side])
        far.folder = self.network.work / "far"
        far.folder.mkdir()
        return far

    def start(self) -> None:
        self.box.start()
        self.near.start()
        self.far.start()
        most = COMES_UP + 3 * self.scene.hello
        self.looks.timed(f"{self.scene.about}: Full", most, self.is_up)

    def is_up(self) -> bool:
        return is_full(self.box, NEAR, FAR) and is_full(self.far, OWN)

    def announce(self, externals: list[str]) -> None:
        self.near.externals = externals
        self.near.configure()

    def reload(self) -> bool:
        """Whether a change of the cost was taken over."""
        self.box.sides = [replace(each, cost=each.cost + 1) for each in self.box.sides]
        self.box.configure()
        status, _, said = self.box.answers("reload")
        return self.looks.look("a cost is changed by `leafrunt reload`", not status, said.strip())

    def externals_at(self, router: Bird | Box) -> set[Lsa]:
        return {each for each in router.database() if each.type == 5}

    def is_equal(self) -> bool:
        """Whether the far BIRD has the externals that there are, and no others."""
        wanted = self.externals_at(self.near)
        return self.externals_at(self.far) == wanted == self.externals_at(self.box)

    def stays_full(self) -> None:
        fell = [each for each in self.box.log_lines() if "Full -> " in each]
        self.looks.look("no adjacency fell", not fell and self.is_up(), "; ".join(fell))


def owed(given: Try) -> None:
    """A reload right after a box has destinations, up to 3,000, that a neighbor behind a lossy link
    hasn't acknowledged; and while nothing passes to it, with destinations that come and go."""
    for scene in SCENES:
        given.anew(lambda: lossy(given, scene))
    scene = Scene("nothing passes meanwhile", 10, 40, 0, 5, 4 * RETRANSMITS, (SHA,))
    given.anew(lambda: cut(given, scene))


def lossy(given: Try, scene: Scene) -> None:
    it, churn = Owing(given, scene), scene.count // 10
    it.start()
    it.network.wire("loss", scene.loss)
    it.announce(prefixes(100, scene.count))
    what = f"{scene.about}: the box has {scene.count} destinations"
    it.looks.timed(what, 30, lambda: len(it.externals_at(it.box)) == scene.count, 0.05)
    lacks = scene.count - len(it.externals_at(it.far))
    is_over = threading.Event()

    def change() -> None:
        for at in range(CHANGES if scene.has_churn else 0):
            it.announce(it.near.externals[churn:] + prefixes(110 + at, churn))
            if is_over.wait(1.5):
                break

    changes = threading.Thread(target=change)
    changes.start()
    it.reload()
    is_over.set()
    changes.join()
    what = f"{lacks} of them lacked: the far router has all that there are"
    it.looks.timed(what, scene.seconds, it.is_equal, 0.5)
    it.stays_full()


def cut(given: Try, scene: Scene) -> None:
    """Destinations of a neighbor and of the box itself come and go unheard before a reload."""
    it = Owing(given, scene)
    it.start()
    it.announce(prefixes(100, 4))
    it.box.ask("add 203.0.113.0/24 20 2 0")
    it.looks.timed("all have five destinations", 20, lambda: len(it.externals_at(it.far)) == 5)
    time.sleep(2 * RETRANSMITS)
    it.network.wire("cut", it.wire)
    it.announce(prefixes(100, 5)[1:])
    it.box.ask("withdraw 203.0.113.0/24")
    it.box.ask("add 198.51.100.0/24 20 2 0")
    within(20, lambda: networks_at(it, it.box) >= {"100.64.4", "198.51.100"})
    it.reload()
    it.network.wire("mend", it.wire)
    what = "they changed while nothing passed: the far router has what there is"
    it.looks.timed(what, scene.seconds, lambda: it.externals_at(it.far) == it.externals_at(it.box))
    found = networks_at(it, it.far)
    right = {f"100.64.{each}" for each in range(1, 5)} | {"198.51.100"}
    it.looks.look("which is right", found == right, ", ".join(sorted(found ^ right)))
    it.stays_full()


def networks_at(it: Owing, router: Bird | Box) -> set[str]:
    """The destinations, without what a Link State ID may have as its last byte (RFC 2328,
    appendix E)."""
    return {each.id.rpartition(".")[0] for each in it.externals_at(router)}
