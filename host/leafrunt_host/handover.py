"""Another `routerd` takes the place of the one that runs, and nobody notices: what only a new one
reads, such as a cost, is changed so while packets are forwarded as before."""
from __future__ import annotations

import logging
import threading
from collections.abc import Callable, Iterator
from contextlib import contextmanager
from dataclasses import dataclass, replace
from functools import partial
from ipaddress import IPv4Network

from leafrunt_host import bfd_session
from leafrunt_host.announcements import TAKEN, Announced, Announcements
from leafrunt_host.bridge import CannotOpen
from leafrunt_host.configuration import Configuration
from leafrunt_host.desk import Desk
from leafrunt_host.isolation import CannotIsolate
from leafrunt_host.journal import where_it_failed
from leafrunt_host.keeper import Keeper
from leafrunt_host.link import Interface, Link
from leafrunt_host.packets import Hello, Packet
from leafrunt_host.programs import Attached, attached
from leafrunt_host.rehearsal import Rehearsal, prefixes_of
from leafrunt_host.router import Router, RouterGone
from leafrunt_host.sockets import Place
from leafrunt_host.starting import Fresh, Parts, Starter, interface_of
from leafrunt_host.status import Known
from leafrunt_host.statuses import Stopped
from leafrunt_host.topology import Topology

log = logging.getLogger("leafrunt.reload")
SECONDS_TO_GIVE_AGAIN = 2.5
"""After the new one has taken over."""
SECONDS_FOR_A_LOOK = 10.0
"""How long the keeper's look at the old one is waited for; then that one is ended first."""


def bfd_of(configuration: Configuration) -> dict[int, bfd_session.Settings]:
    """The interfaces that ask for BFD, by their numbers."""
    return {at: each.bfd for at, each in enumerate(configuration.interfaces, 1) if each.bfd}


def follow_numbers(known: Known, configuration: Configuration) -> None:
    """BFD's sessions as the configuration has them, with the numbers of its interfaces."""
    if known.sessions:
        places: dict[int, Place] = dict(enumerate(configuration.interfaces, 1))
        known.sessions.take_over(bfd_of(configuration), places)


@dataclass
class Kept:
    """An interface of both: its numbers before and after, and its link."""

    before: int
    after: int
    link: Link


@dataclass(frozen=True)
class Prepared:
    """What the new one has: programs by their hooks, each with its bound, and destinations."""

    programs: dict[str, Attached]
    given: dict[IPv4Network, Announced]


@dataclass
class Handover:
    """Begins the new one beside the old one, brings it to where that is, and lets it take over."""

    starter: Starter
    parts: Parts
    known: Known
    keeper: Keeper
    announcements: Announcements
    desk: Desk
    topology: Topology
    ending: threading.Event
    quit: Callable[[Router], None]
    """Ends the old one."""
    give_up: Callable[[str], None]
    """Ends the box, and says why."""

    def run(self, new: Configuration, programs: Callable[[], dict[str, str]]) -> None:
        """`programs` says which are to be attached, by their hooks; nobody else attaches any
        meanwhile. `Stopped` if the new one can't be had, or doesn't come to where the old one is:
        then nothing is changed. Once it serves the wire there is no way back: what fails then ends
        the box."""
        with self.desk.changing:
            self._run(new, programs())

    def _run(self, new: Configuration, programs: dict[str, str]) -> None:
        if self.topology.left_out:
            raise Stopped("the database isn't known whole (`leafrunt database` says so)")
        log.info("another routerd is begun beside the one that runs")
        stopped = len(self.known.stopped)
        try:
            fresh = self.starter.begin_beside(new, self.known.told)
        except (CannotOpen, CannotIsolate) as why:
            raise Stopped(str(why)) from why
        old = self.parts.router
        try:
            prepared = self._taken_over(fresh, new, programs)
        except (CannotOpen, RouterGone) as why:
            fresh.close()
            raise Stopped(str(why)) from why
        except BaseException:
            if self.parts.router is old:
                fresh.close()
            else:
                self.quit(old)
            raise
        # it has taken over
        know = partial(self._know, fresh, new, prepared, stopped)
        with self._no_way_back():
            is_kept = self._is_kept(fresh.router, know)
            self.desk.serve(fresh.router)
            # (with the old one ends who waits for an answer of it)
            self.quit(old)
            if not is_kept:
                self.keeper.serve(fresh.router, know)
            self.announcements.started_anew(prepared.given)
        log.info("routerd is process %d now", fresh.router.pid)

    def _is_kept(self, router: Router, know: Callable[[], None]) -> bool:
        """Has the keeper look at the new one; whether the look at the old one ended in time."""
        try:
            self.keeper.serve(router, know, SECONDS_FOR_A_LOOK)
        except Stopped:
            return False
        return True

    @contextmanager
    def _no_way_back(self) -> Iterator[None]:
        """What fails here leaves neither `routerd` served whole, so the box ends, if it isn't about
        to; but for `CannotOpen`, with which the bridge has changed nothing."""
        try:
            yield
        except CannotOpen:
            raise
        except Exception as error:
            if not self.ending.is_set():
                why = str(error) if isinstance(error, Stopped) else where_it_failed(error)
                self.give_up(f"another routerd has taken over in part ({why})")
            raise

    def _taken_over(self, fresh: Fresh, new: Configuration, programs: dict[str, str]) -> Prepared:
        """Once it has come to where the old one is."""
        kept = self._kept(new)
        owed = {each.after: each.link.owed for each in kept}
        rehearsal = Rehearsal(
            fresh, self._hellos(kept, new), self.topology, new.router_id, self.ending, owed
        )
        try:
            rehearsal.come_to_full()
            prepared = self._prepared(fresh.router, programs)
            rehearsal.originate()
            if self._is_to_find_all(new, programs):
                old = self.parts.router
                rehearsal.find(lambda: prefixes_of(old.ask_list("table") or []))
            rehearsal.owe()
            self.parts.bridge.work.do(lambda: self._swap(fresh, new, kept, rehearsal))
        finally:
            rehearsal.close()
        again = threading.Timer(SECONDS_TO_GIVE_AGAIN, rehearsal.give_again)
        again.daemon = True
        again.start()
        return prepared

    def _kept(self, new: Configuration) -> list[Kept]:
        """The interfaces that go on as they are for their neighbors."""
        before = {
            (each.name, each.address): number
            for number, each in enumerate(self.known.configuration.interfaces, 1)
            if number in self.parts.links
        }
        found = []
        for number, each in enumerate(new.interfaces, 1):
            at = before.get((each.name, each.address))
            if at is not None and not each.passive:
                found.append(Kept(at, number, self.parts.links[at]))
        return found

    def _hellos(self, kept: list[Kept], new: Configuration) -> dict[int, Packet]:
        """The last Hellos of Full neighbors, by the numbers that their interfaces get, with the
        intervals that these get: the neighbor may get them within RouterDeadInterval too."""
        found = {}
        for each in kept:
            neighbor, hello = self.known.neighbors.get(each.before), each.link.hello
            if neighbor and hello and neighbor.state == "Full" and each.link.is_usable:
                to = new.interfaces[each.after - 1]
                body = replace(
                    Hello.decode(hello.body),
                    hello_interval=to.hello_interval,
                    dead_interval=to.dead_interval,
                )
                found[each.after] = replace(hello, body=body.encode())
        return found

    def _prepared(self, router: Router, programs: dict[str, str]) -> Prepared:
        """Attaches the programs and announces all destinations."""
        found: dict[str, Attached] = {}
        given: dict[IPv4Network, Announced] = {}
        for path in programs.values():
            answer = router.ask(f"attach {path}")[0]
            its = attached(answer, path)
            if not its:
                raise Stopped(f"{path}: {answer}")
            for hook, it in its.items():
                before = self.known.programs.get(hook)
                is_same = before and before.object == path
                found[hook] = it._replace(by=before.by, at=before.at) if before and is_same else it
        for prefix, one in dict(self.known.announced).items():
            answer = router.ask(one.announcement.line())[0]
            if answer in TAKEN:
                given[prefix] = one._replace(answer=answer)
        return Prepared(found, given)

    def _is_to_find_all(self, new: Configuration, programs: dict[str, str]) -> bool:
        """Whether it has to have the same destinations: the same networks, neighbors, programs."""
        ends = [
            [(each.name, each.address, each.passive) for each in one.interfaces]
            for one in (self.known.configuration, new)
        ]
        before = {hook: it.object for hook, it in self.known.programs.items()}
        return ends[0] == ends[1] and programs == before and bool(self.known.neighbors)

    def _swap(
        self, fresh: Fresh, new: Configuration, kept: list[Kept], rehearsal: Rehearsal
    ) -> None:
        """In the bridge's thread. A neighbor that was lost meanwhile is lost to the new one too."""
        full = self._hellos(kept, new).keys()
        if fresh.router.status() is not None:
            raise Stopped("the new routerd has ended meanwhile")
        if full - rehearsal.numbers:
            raise Stopped("a neighbor has become Full meanwhile: try again")
        interfaces = {
            number: interface_of(number, each, fresh.ports[number - 1])
            for number, each in enumerate(new.interfaces, 1)
            if not each.passive
        }
        links: dict[int, Link] = {each.after: each.link for each in kept}
        made = {
            number: self.parts.link_of(interface)
            for number, interface in interfaces.items()
            if number not in links
        }
        pairs: list[tuple[Link, Interface]] = [
            (each.link, interfaces[each.after]) for each in kept
        ]
        self.parts.bridge.settle()
        rehearsal.catch_up()
        if unowed := rehearsal.unowed():
            raise Stopped(f"a neighbor hasn't acknowledged {len(unowed)} LSAs: try again")
        with self._no_way_back():
            self.parts.bridge.hand_over(pairs, list(made.values()), fresh.udp, fresh.listed)
            for each in self.parts.sinks.values():
                each.close()
            self.parts.router, self.parts.links = fresh.router, links | made
            self.parts.sinks, self.parts.ports = fresh.sinks, fresh.ports
            follow_numbers(self.known, new)
            self.parts.bridge.send_of_router(rehearsal.last_packets(full))
            for number in rehearsal.numbers - full:
                self.parts.bridge.neighbor_lost(number)

    def _know(
        self, fresh: Fresh, new: Configuration, prepared: Prepared, stopped: int
    ) -> None:
        """In the keeper's thread. So many lines tell of workers of the one before."""
        self.known.stopped = self.known.stopped[stopped:]
        self.known.programs = prepared.programs
        self.known.links, self.known.routerd = self.parts.links, fresh.router.pid
        self.known.configuration = new
