"""A changed configuration is taken over while the box runs, as BIRD's `configure` and FRR's
`frr-reload.py` do: `leafrunt reload`, and SIGHUP.

All of it is read and checked first: if anything is wrong, nothing is changed. What differs from the
configuration of before is changed, and nothing else, so what was done at the console stays.
"""
from __future__ import annotations

import logging
import re
import socket
import threading
import time
from collections.abc import Callable
from contextlib import ExitStack
from dataclasses import dataclass, field, replace
from pathlib import Path

from leafrunt_host.announcements import Announcements
from leafrunt_host.announcer import Announcer
from leafrunt_host.bridge import CannotOpen
from leafrunt_host.clock import moment_text
from leafrunt_host.configuration import Configuration, InterfaceSettings, Program
from leafrunt_host.desk import Desk
from leafrunt_host.destinations import Owner
from leafrunt_host.differences import (
    another_router,
    for_bridge,
    for_routerd,
    in_order_of,
    of_bridge,
    would_change,
)
from leafrunt_host.forwarding import CannotKeep, KernelTable
from leafrunt_host.handover import Handover, bfd_of, follow_numbers
from leafrunt_host.journal import set_level
from leafrunt_host.keeper import Keeper
from leafrunt_host.kernel_settings import KernelSettings
from leafrunt_host.link import Link
from leafrunt_host.redistributor import Redistributor, redistributor_of
from leafrunt_host.rooms import Room
from leafrunt_host.router import RouterGone
from leafrunt_host.sockets import LOOPBACK
from leafrunt_host.starting import Parts, interface_of
from leafrunt_host.status import Known
from leafrunt_host.statuses import Status, Stopped

log = logging.getLogger("leafrunt.reload")
SAME = "nothing differs"
NEEDS_START = "needs a new start: `leafrunt down`, then `leafrunt up`"
KEEP = "`leafrunt reload --keep` keeps it"
NOT_CONFIRMED = (
    "nobody confirmed the reload, so the configuration before it stands again since {}; the file has "
    "another one"
)
SECONDS_TO_FILL = 10.0
"""How long a table may take to get its first routes."""
TAKEN = re.compile(r": (attached|detached) \w+|, stays$")
"""What is said of a program if it is as it is to be."""


def claims_of(configuration: Configuration) -> list[str]:
    """What no other box of this network namespace may have."""
    active = [each.name for each in configuration.interfaces if not each.passive]
    table = configuration.table.claims if configuration.kernel else []
    return [f"interface {name}" for name in active] + table


def redistributed(configuration: Configuration) -> tuple[object, ...] | None:
    """What is redistributed, and from which table."""
    redistribution = configuration.redistribution
    return (redistribution, configuration.table) if redistribution else None


def kept(configuration: Configuration) -> KernelSettings | None:
    """The kernel's table that is kept."""
    return configuration.table if configuration.kernel else None


@dataclass
class Reloader:
    """What a reload reads and changes."""

    read: Callable[[Path], Configuration]
    room: Room
    parts: Parts
    known: Known
    keeper: Keeper
    announcements: Announcements
    announcer: Announcer
    desk: Desk
    handover: Handover
    _one_at_a_time: threading.Lock = field(default_factory=threading.Lock)
    _before: Configuration | None = None
    """The configuration before a reload that waits to be confirmed."""
    _taking_back: threading.Timer | None = None

    def reload(self, waits: bool = False) -> list[str]:
        """A line for each thing that was done. `Mistaken` or `Stopped` if the configuration is
        wrong, or can't be taken over now: then all is as it was. Another reload that is under way
        is waited for, or this one is refused."""
        if self._before:
            raise Stopped(f"a reload waits to be confirmed: {KEEP}", Status.REFUSED)
        if not self._one_at_a_time.acquire(blocking=waits):
            raise Stopped("another reload is under way: try again", Status.REFUSED)
        try:
            said = self._taken_over(self.read(self.known.configuration.path))
            self.known.not_reloaded = None
        except (CannotOpen, CannotKeep) as why:
            raise self._refused(Stopped(f"nothing is changed: {why}")) from why
        except Stopped as why:
            raise self._refused(why) from why.__cause__
        finally:
            self._one_at_a_time.release()
        for each in said:
            log.info("%s", each)
        self._remember(said)
        return said

    def _remember(self, said: list[str]) -> None:
        """Among what changed, if something did."""
        if said != [SAME]:
            more = f" and {len(said) - 1} more" if len(said) > 1 else ""
            self.known.history.note("box", "reload", None, f"{said[0]}{more}")

    def dry_run(self) -> list[str]:
        """What a reload would do now, a line for each thing; nothing is changed. `Stopped` where one
        would be refused."""
        old = self.known.configuration
        new = in_order_of(self.read(old.path), old)
        obstacles = list(another_router(old, new))
        if obstacles:
            raise Stopped("\n".join(f"{each}: {NEEDS_START}" for each in obstacles), Status.REFUSED)
        before = self.room.claimed
        self.room.claim(claims_of(new))
        self.room.give_back(self.room.claimed - before)
        return list(would_change(old, new, self.known.by_hand)) or [SAME]

    def reload_until_confirmed(self, seconds: float) -> list[str]:
        """Reloads, and takes that back after so long unless `keep` comes before (BIRD: `configure
        timeout`)."""
        before = self.known.configuration
        said = self.reload()
        if self.known.configuration == before:
            return said
        self._before = before
        self._taking_back = threading.Timer(seconds, self._take_back)
        self._taking_back.daemon = True
        self._taking_back.start()
        until = moment_text(time.time() + seconds)
        self.known.unconfirmed = f"the last reload is taken back at {until}: {KEEP}"
        return [*said, self.known.unconfirmed]

    def keep(self) -> list[str]:
        """The reload that waits to be confirmed stays."""
        with self._one_at_a_time:
            if self._before is None or self._taking_back is None:
                raise Stopped("no reload waits to be confirmed", Status.REFUSED)
            self._taking_back.cancel()
            self._before = self.known.unconfirmed = None
        return ["the reload is confirmed"]

    def _take_back(self) -> None:
        """Nobody confirmed it: the configuration before stands again."""
        said = NOT_CONFIRMED.format(moment_text(time.time()))
        with self._one_at_a_time:
            before, self._before = self._before, None
            if before is None:
                return
            try:
                taken = self._taken_over(before)
                for each in taken:
                    log.info("%s", each)
                self._remember(taken)
            except (CannotOpen, CannotKeep, RouterGone, Stopped) as why:
                said = f"nobody confirmed the reload, and it can't be taken back: {why}"
            self.known.unconfirmed = None
        self.known.not_reloaded = said
        log.warning("%s", said)

    def _refused(self, why: Stopped) -> Stopped:
        """It stays in the log and in `status` until another reload is done."""
        first, *more = str(why).splitlines() or [""]
        several = f" (and {len(more)} more: `leafrunt check`)" if more else ""
        self.known.not_reloaded = (
            f"the last reload was refused at {moment_text(time.time())}: {first}{several}"
        )
        log.warning("not reloaded: %s%s", first, several)
        return why

    def _taken_over(self, new: Configuration) -> list[str]:
        old = self.known.configuration
        if not new.interfaces:
            raise Stopped("none of its interfaces is there", Status.REFUSED)
        new = in_order_of(new, old)
        obstacles = list(another_router(old, new))
        if obstacles:
            raise Stopped("\n".join(f"{each}: {NEEDS_START}" for each in obstacles), Status.REFUSED)
        anew = list(for_routerd(old, new))
        with ExitStack() as undone:
            before = self.room.claimed
            self.room.claim(claims_of(new))
            undone.callback(lambda: self.room.give_back(self.room.claimed - before))
            redistributor = self._other_redistributor(old, new, undone)
            table = self._other_table(old, new, undone)
            said = self._handed_over(old, new) if anew else self._interfaces(old, new, undone)
            undone.pop_all()
        self.known.configuration = replace(new, programs=new.programs if anew else old.programs)
        if anew or bfd_of(old) != bfd_of(new):
            self._in_bridge(lambda: follow_numbers(self.known, self.known.configuration))
        said += self._kernel(old, new, table)
        if redistributed(old) != redistributed(new):
            self.announcer.redistribute(redistributor)
            said.append("redistribution: as it is configured now")
        self.room.give_back(self.room.claimed.difference(claims_of(new)))
        said += self._announced(old, new)
        said += ["counters: other names"] * (old.counters != new.counters)
        said += [f"{each}: is awaited" for each in new.awaited if each not in old.awaited]
        if old.log_level != new.log_level:
            set_level(new.log_level)
            said.append(f"log_level: {new.log_level}")
        said += [] if anew else self._programs(old, new)
        return anew + said or [SAME]

    def _handed_over(self, old: Configuration, new: Configuration) -> list[str]:
        """Another `routerd` takes over; what of the rest it has read with that."""
        before = {each.hook: each for each in old.programs}
        after = {each.hook: each for each in new.programs}
        said: list[str] = []

        def programs() -> dict[str, str]:
            found = {hook: it.object for hook, it in self.known.programs.items()}
            for hook in sorted(before | after):
                program = after.get(hook)
                if program == before.get(hook) or hook in self.known.by_hand:
                    continue
                found.pop(hook, None)
                if program:
                    found[hook] = str(program.object)
                said.append(f"{hook}: {program.object if program else 'no program'}")
            return found

        self.handover.run(new, programs)
        earlier = {each.name: each for each in old.interfaces}
        both = [(earlier[each.name], each) for each in new.interfaces if each.name in earlier]
        return [each for pair in both for each in for_bridge(*pair)] + said

    @staticmethod
    def _other_redistributor(
        old: Configuration, new: Configuration, undone: ExitStack
    ) -> Redistributor | None:
        """What follows the kernel, if something else is to be redistributed."""
        if redistributed(old) == redistributed(new):
            return None
        made = redistributor_of(new.redistribution, new.table)
        undone.callback(lambda: made.close() if made else None)
        return made

    # -- the kernel's table

    def _other_table(
        self, old: Configuration, new: Configuration, undone: ExitStack
    ) -> KernelTable | None:
        """If the kernel's table is to be kept, or to be left alone, it is so from now on; the one
        that was kept before."""
        if kept(old) == kept(new):
            return None
        kernel = KernelTable(settings=new.table) if new.kernel else None
        undone.callback(lambda: kernel.close() if kernel else None)
        before = self.keeper.keep(kernel)
        undone.callback(self.keeper.keep, before)
        return before

    def _kernel(
        self, old: Configuration, new: Configuration, table: KernelTable | None
    ) -> list[str]:
        """Takes the routes away that nobody keeps any more: from a table once the one in its place
        has them."""
        if kept(old) == kept(new):
            return []
        if table is None:
            return [f"kernel: {new.table} is kept from now on"]
        if new.kernel and old.table.table == new.table.table:
            table.close()
            return [f"kernel: {new.table} is kept by other settings from now on"]
        said = f"kernel: {old.table} is left alone from now on"
        if new.kernel and not self.keeper.has_kept(SECONDS_TO_FILL):
            log.warning("%s doesn't have the routes yet", new.table)
        try:
            return [f"{said} ({table.clear().routes} routes removed)"]
        except CannotKeep as why:
            return [f"{said}, and has its routes still: {why}"]
        finally:
            table.close()

    # -- interfaces

    def _interfaces(
        self, old: Configuration, new: Configuration, undone: ExitStack
    ) -> list[str]:
        """Those that get active first, since that may fail."""
        pairs = list(enumerate(zip(old.interfaces, new.interfaces, strict=True), 1))
        for number, (before, after) in pairs:
            if before.passive and not after.passive:
                self._activate(number, after)
                undone.callback(self._silence, number)
        for number, (before, after) in pairs:
            if after.passive and not before.passive:
                self._silence(number)
            elif not after.passive and of_bridge(before) != of_bridge(after):
                link = self.parts.links[number]
                interface = interface_of(number, after, self.parts.ports[number - 1])
                self._in_bridge(lambda: self.parts.bridge.change(link, interface))
        return [each for _, pair in pairs for each in for_bridge(*pair)]

    def _in_bridge(self, work: Callable[[], None]) -> None:
        self.parts.bridge.work.do(work)

    def _activate(self, number: int, settings: InterfaceSettings) -> None:
        """A passive interface gets a link, at the socket that nobody has read until now."""
        ports = self.parts.ports[number - 1]
        link = self.parts.link_of(interface_of(number, settings, ports))
        udp = self.parts.sinks[number]
        begin_to_read(udp, ports[0])
        self._in_bridge(lambda: self.parts.bridge.open(link, udp))
        del self.parts.sinks[number]
        self._links_are({**self.parts.links, number: link})

    def _silence(self, number: int) -> None:
        """An active interface loses its link."""
        link = self.parts.links[number]
        self._links_are({at: each for at, each in self.parts.links.items() if at != number})

        def shut() -> None:
            self.parts.sinks[number] = self.parts.bridge.shut(link)

        self._in_bridge(shut)

    def _links_are(self, links: dict[int, Link]) -> None:
        self.parts.links = self.known.links = links

    # -- destinations and programs

    def _announced(self, old: Configuration, new: Configuration) -> list[str]:
        before, after = set(old.announcements), set(new.announcements)
        if before == after:
            return []
        self.announcements.want({Owner.CONFIGURATION: new.announcements})
        gone = {each.prefix for each in before} - {each.prefix for each in after}
        return [f"destinations: {len(after - before)} new or changed, {len(gone)} withdrawn"]

    def _programs(self, old: Configuration, new: Configuration) -> list[str]:
        """Those that differ, but for hooks whose program was attached at the console."""
        before = {each.hook: each for each in old.programs}
        after = {each.hook: each for each in new.programs}
        differ = [each for each in sorted(before | after) if before.get(each) != after.get(each)]
        answers = {each: self._program(each, after.get(each)) for each in differ}
        refused = [each for each, said in answers.items() if not TAKEN.search(said)]
        taken = after | {each: before[each] for each in refused if each in before}
        taken = {each: it for each, it in taken.items() if each in before or each not in refused}
        self.known.configuration = replace(new, programs=tuple(taken.values()))
        if differ:
            self.announcements.ask_again()
        if refused:
            said = "\n".join([*(answers[each] for each in refused), "the rest was taken over"])
            raise Stopped(said)
        return list(answers.values())

    def _program(self, hook: str, program: Program | None) -> str:
        if hook in self.known.by_hand:
            path = self.known.programs[hook].object
            return f"{hook}: {path}, which was attached by hand, stays"
        line = f"attach {program.object}" if program else f"detach {hook}"
        said = self.desk.passed_on(line)[0]
        return f"{program.object if program else hook}: {said}"


def begin_to_read(udp: socket.socket, router: int) -> None:
    """A socket at which `routerd`'s datagrams were dropped: from now on they are read, and only
    those of its port."""
    udp.connect((LOOPBACK, router))
    udp.setblocking(False)
    try:
        while True:
            udp.recv(1)
    except OSError:
        pass  # nothing is left
