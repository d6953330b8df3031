"""Keeps what a running box knows of its neighbors, and the kernel's table, equal to what `routerd`
says: in a thread of its own, which is woken when something happens."""
from __future__ import annotations

import logging
import re
import select
import threading
import time
from collections.abc import Callable
from ipaddress import IPv4Address, IPv4Network

from leafrunt_host.bfd import Neighbor as BfdNeighbor
from leafrunt_host.bfd import Sessions
from leafrunt_host.clock import Clock
from leafrunt_host.exchange import Side
from leafrunt_host.forwarding import ByAddress, CannotKeep, Hop, KernelTable
from leafrunt_host.holding import Holding
from leafrunt_host.journal import where_it_failed
from leafrunt_host.meanings import OUT_OF_MEMORY
from leafrunt_host.own_lsas import SECONDS_REPLACED
from leafrunt_host.packets import HELLO, Packet, PacketType
from leafrunt_host.refusals import Refusals
from leafrunt_host.router import Router, RouterGone
from leafrunt_host.status import Kept, Known, neighbors_of, originated
from leafrunt_host.statuses import Stopped
from leafrunt_host.waker import Waker
from leafrunt_host.work_queue import WorkQueue

log = logging.getLogger("leafrunt.box")
EACH = 0.5
"""Seconds between two looks at the neighbors, whose states timers change too."""
AFTER = (0.02, 0.03, 0.05, 0.1, 0.15, 1.0)
"""After something happened the table is looked at this many seconds later, one after the other
until it has changed: `routerd` doesn't say when it has dealt with it."""
AGAIN = 4
"""Which of these steps comes after the table has changed: it may have changed in part."""
SELDOM = 5.0
"""Seconds between two looks when nothing happens."""
REST, LONGEST_REST = 5, 0.25
"""After a look that found another table the keeper rests this many times what it took, and this
many seconds at most."""
SECONDS_SHORT = 60.0
"""After `routerd` has been out of memory for so long the box ends, so that it is started anew."""
SECONDS_ABSENT = 0.1
"""A route leaves the kernel once `table` has lacked it for so long. `routerd` takes an event first,
then asks its programs and calculates what comes of it: between these `table` lacks every route
that the event touched, some 10 ms long with 10,000 of them."""
OWN_NETWORK = re.compile(rb" intra \d+ via 0\n")
"""How a line of `table` ends that is of a network of the router itself."""
TWO_WAY = ("ExStart", "Exchange", "Loading", "Full")
"""The states of a neighbor that hears this router (RFC 2328, 10.1): on a point-to-point link none
stays in 2-Way."""
SECONDS_OF_STEP = 5.0
"""After a step of the clock so long adjacencies are lost by it."""
MOST_STEPS = 3
"""Steps of the clock that are told of."""
SECONDS_TO_SERVE = 150.0
"""How long a look may take that is under way: `routerd` answers within 120 s."""
SECONDS_TO_STOP = 3.0
"""How long the end waits for a look that is under way."""


class NeighborWaker(Waker):
    """Ends the keeper's wait, from any thread, and as neighbors come and go."""

    def __init__(self) -> None:
        super().__init__()
        self._hellos: dict[IPv4Address, bytes] = {}

    def watch(self, side: Side, packet: Packet) -> None:
        """A Hello that names others than the one before tells of a neighbor that comes or goes."""
        if side is not Side.WIRE or packet.type != PacketType.HELLO:
            return
        named = packet.body[HELLO.size :]
        if self._hellos.get(packet.router_id) != named:
            if len(self._hellos) >= 64:
                self._hellos.clear()
            self._hellos[packet.router_id] = named
            self.wake()


class Pace:
    """When the table is looked at next, by moments of one clock."""

    def __init__(self, now: float) -> None:
        self.due = now
        self._step = len(AFTER)
        self._rested = now

    def woken(self, now: float) -> None:
        """Something happened."""
        self._step = 0
        self.due = min(self.due, max(now + AFTER[0], self._rested))

    def looked(
        self, now: float, taken: float, is_changed: bool, is_lacking: bool = False
    ) -> None:
        """A look that took this many seconds has ended, and the table was another or was not; if it
        lacks routes that the kernel has, `routerd` most likely calculates them."""
        self._step = AGAIN if is_changed else self._step + 1
        pause = AFTER[self._step] if self._step < len(AFTER) else SELDOM
        rest = min(REST * taken, LONGEST_REST) if is_changed else 0.0
        if is_lacking:
            pause, rest = SECONDS_ABSENT / 2, 0.0
        self._rested = now + rest
        self.due = max(now + pause, self._rested)


class Keeper:
    """The log tells what changed of the neighbors, and the kernel's table is kept equal."""

    def __init__(
        self,
        known: Known,
        router: Router,
        kernel: KernelTable | None,
        waker: Waker,
        give_up: Callable[[], None] = lambda: None,
        holding: Holding | None = None,
        by_address: ByAddress = lambda _: {},
    ) -> None:
        """`holding` is told what the kernel has."""
        self._known, self._router = known, router
        self._give_up = give_up
        self._refusals, self._has_given_up = Refusals(), False
        self._refused: set[str] = set()
        """The lists that `routerd` has refused when it was asked last."""
        self._kernel, self._waker, self._holding = kernel, waker, holding
        self._by_address = by_address
        self._work = WorkQueue()
        self._ending, self._is_kept = threading.Event(), threading.Event()
        self._thread = threading.Thread(target=self._keep, name="keeper", daemon=True)
        self._pace = Pace(time.monotonic())
        self._table, self._lines = b"", list[bytes]()
        self._own_networks = 0
        self._neighbors: list[str] = []
        self._own: frozenset[IPv4Network] = frozenset()
        self._announced: object = None
        self._said: str | None = None
        self._clock = Clock()

    @property
    def kernel(self) -> KernelTable | None:
        """The table that is kept equal."""
        return self._kernel

    def start(self) -> None:
        self._tell_holding(self._kernel)
        self._thread.start()

    def _tell_holding(self, kernel: KernelTable | None) -> None:
        if self._holding:
            self._holding.keeps(kernel is not None)

    def stop(self) -> None:
        """Ends it; one that waits for an answer is left behind."""
        self._ending.set()
        self._waker.wake()
        if self._thread.is_alive():
            self._thread.join(SECONDS_TO_STOP)
        if self._thread.is_alive():
            log.warning("the look at the kernel's table doesn't end: the box ends without it")

    def keep(self, kernel: KernelTable | None) -> KernelTable | None:
        """From now on this is the kernel's table that is kept equal; the one that was before, which
        nobody changes any more."""

        def change() -> KernelTable | None:
            before, self._kernel = self._kernel, kernel
            self._is_kept.clear()
            self._refused.clear()
            self._tell_holding(kernel)
            self._known.kept, self._said = Kept(), None
            self._pace.woken(time.monotonic())
            return before

        return self._work.do(change)

    def has_kept(self, seconds: float) -> bool:
        """Waits until the kernel's table has what it is to have, for at most `seconds`, and says
        whether it has."""
        return self._is_kept.wait(seconds)

    def serve(
        self, router: Router, changed: Callable[[], None], seconds: float = SECONDS_TO_SERVE
    ) -> None:
        """From now on it is another `routerd` that is asked; between two looks, which that is told.
        `Stopped` if none ends within `seconds`, and then nothing is changed."""

        def change() -> None:
            changed()
            self._router, self._neighbors, self._table = router, [], b""
            self._pace.woken(time.monotonic())

        self._work.do(change, seconds)

    def _keep(self) -> None:
        try:
            while not self._ending.is_set():
                self._keep_on()
        finally:
            self._tell_holding(None)
            self._work.close()

    def _keep_on(self) -> None:
        """Keeps one kernel's table, or none, until it is to be another."""
        waiting, kernel = select.poll(), self._kernel
        for each in filter(None, (self._waker, self._work, kernel)):
            waiting.register(each.fileno(), select.POLLIN)
        looked = 0.0
        while not self._ending.is_set() and self._kernel is kernel:
            now = time.monotonic()
            until = min(self._pace.due if self._kernel else now + EACH, looked + EACH)
            if waiting.poll(max(0.0, until - now) * 1000) and not self._ending.is_set():
                self._waker.clear()
                self._work.run()
                if self._kernel:
                    self._kernel.notice()
                self._pace.woken(time.monotonic())
                self._ending.wait(AFTER[0])
                if self._kernel and time.monotonic() < min(self._pace.due, looked + EACH):
                    continue  # (it rests: a storm wakes it more often than it may look)
            if self._ending.is_set():
                break
            looked = time.monotonic()
            if not self._looked(looked):
                # (the box is about to end, or another `routerd` to be served)
                self._pace.looked(looked, 0.0, is_changed=False)

    def _looked(self, now: float) -> bool:
        """Looks once; whether there is a `routerd` to look at still."""
        try:
            self._try_look(now)
            self._look_at_refusals(now)
        except RouterGone:
            return False
        self._known.looked = time.monotonic()
        return True

    def _try_look(self, now: float) -> None:
        try:
            self._look(now)
            self._say(None)
        except (CannotKeep, Stopped, ValueError) as error:
            self._say(str(error))
        except RouterGone:
            raise
        except Exception as error:  # told, and tried again
            self._say(where_it_failed(error))

    def _look_at_refusals(self, now: float) -> None:
        """Whether `routerd` takes what happens. If it has no memory, and gets none for long, the
        box ends."""
        refusals = self._refusals
        refusals.look(self._router.ask, self._known.announced, bool(self._refused), now)
        self._known.refusal = refusals.last
        if refusals.seconds(now) >= SECONDS_SHORT and not self._has_given_up:
            self._has_given_up = True
            self._give_up()

    def _say(self, error: str | None) -> None:
        """Logs what keeps the kernel's table from being kept, once, and that it is over. (Want of
        memory is told as such.)"""
        if error and error not in (self._said, OUT_OF_MEMORY):
            log.error("%s", error)
        if self._said and not error:
            log.info("kernel: the table is kept again")
        self._said = error
        self._known.kept.error = error

    def _look_at_clock(self) -> None:
        step = self._clock.look()
        if step:
            log.warning("%s", step.news())
            self._known.steps = (*self._known.steps, step)[-MOST_STEPS:]

    def _look(self, now: float) -> None:
        self._look_at_clock()
        if self._look_at_neighbors(now):
            self._pace.woken(now - AFTER[0])
        if self._known.sessions:
            self._follow_sessions(self._known.sessions)
        if self._kernel and now >= self._pace.due:
            self._keep_kernel(self._kernel)
            if self._holding:
                self._holding.looked(now)

    def _look_at_neighbors(self, now: float) -> bool:
        """Logs what changed of the neighbors, and says whether something did."""
        known = self._known
        neighbors = self._router.ask_list("neighbors")
        self._note("neighbors", neighbors is None)
        if neighbors is None or neighbors == self._neighbors:
            return False
        self._neighbors = neighbors
        known.neighbors = neighbors_of(neighbors)
        for level, line in known.adjacencies.look(neighbors, self._names(), now, self._why):
            log.log(level, "%s", line)
        for each in known.adjacencies.changes():
            known.history.note("neighbor", each.name, each.before, each.after, each.why)
        return True

    def _names(self) -> dict[int, str]:
        """The interfaces by their numbers."""
        known = self._known
        names = {at: each.name for at, each in enumerate(known.configuration.interfaces, 1)}
        return names | {number: link.interface.name for number, link in known.links.items()}

    def _why(self, number: int, router_id: IPv4Address) -> str:
        """Why a neighbor isn't Full any more, as far as that is seen here."""
        known = self._known
        if (step := known.steps[-1:]) and time.monotonic() - step[0].at < SECONDS_OF_STEP:
            return step[0].news()
        session = known.sessions.report(number) if known.sessions else None
        if session and session["state"] != "Up":
            return f"BFD: {session['state']}, {session['diagnostic']}"
        link = known.links.get(number)
        return link.why_lost(router_id, time.monotonic()) if link else "the interface is gone"

    def _note(self, name: str, is_refused: bool) -> None:
        """What became of a list that `routerd` was asked for."""
        if is_refused:
            self._refused.add(name)
        else:
            self._refused.discard(name)

    def _follow_sessions(self, sessions: Sessions) -> None:
        """Says which neighbors there are, to those that BFD watches."""
        for number in list(sessions.settings):
            neighbor, link = self._known.neighbors.get(number), self._known.links.get(number)
            if link is None or not sessions.is_at(number, link.interface.name):
                continue  # (a reload is about to give it another number)
            address = link.next_hop(neighbor.router_id) if neighbor else None
            who = BfdNeighbor(address, link.index) if address else None
            state = neighbor.state if neighbor else "Down"
            sessions.follow(number, who, state in TWO_WAY)
            if state != "Full":
                sessions.is_known(number)

    def _keep_kernel(self, kernel: KernelTable) -> None:
        began, is_changed, is_lacking = time.monotonic(), True, False
        try:
            is_changed = self._kept(kernel)
            is_lacking = self._known.kept.absent > 0
        finally:
            now = time.monotonic()
            self._pace.looked(now, now - began, is_changed, is_lacking)

    def _kept(self, kernel: KernelTable) -> bool:
        """Brings the table to the kernel; whether it was another than the last one."""
        table = self._router.ask_bytes("table")
        self._note("table", table is None)
        if table is None:
            raise Stopped(OUT_OF_MEMORY)
        is_changed = table != self._table
        if is_changed:
            self._table, self._lines = table, table.splitlines()
            self._own_networks = len(OWN_NETWORK.findall(table))
        hops, own = self._hops(), self._own_destinations()
        outcome = kernel.keep(self._lines, hops, own, self._patience(), self._by_address)
        self._is_kept.set()
        for each in outcome.news:
            log.warning("kernel: %s", each)
        self._known.kept = Kept(
            outcome.routes,
            outcome.refused,
            outcome.without_hop,
            limited=outcome.limited,
            absent=outcome.absent,
            table=len(self._lines),
            own=self._own_networks,
        )
        change = kernel.table_change()
        if change:
            self._known.note_table(time.time(), change)
            self._known.history.routes(change.gone, change.come, self._names())
        return is_changed

    def _patience(self) -> float:
        """For how many seconds a route stays that `table` lacks."""
        now, links = time.monotonic(), self._known.links.values()
        is_in_doubt = any(each.is_table_in_doubt(now) for each in links)
        return SECONDS_REPLACED + SECONDS_ABSENT if is_in_doubt else SECONDS_ABSENT

    def _own_destinations(self) -> frozenset[IPv4Network]:
        """What this router announces, made anew only if that changed."""
        if self._announced is not self._known.announced:
            self._announced = self._known.announced
            self._own = originated(self._known)
        return self._own

    def _hops(self) -> dict[int, Hop]:
        """The next hop at each interface that is up and whose neighbor is Full, and wasn't lost a
        moment ago."""
        found, sessions = {}, self._known.sessions
        for number, neighbor in self._known.neighbors.items():
            link = self._known.links.get(number)
            if link is None or neighbor.state != "Full" or not link.is_usable:
                continue
            address = link.next_hop(neighbor.router_id)
            if address and not (sessions and sessions.is_cut(number)):
                found[number] = Hop(address, link.interface.name)
        return found
