"""`routerd` and the bridge for all interfaces of a configuration: how both are begun."""
from __future__ import annotations

import errno
import logging
import socket
import time
from collections.abc import Callable
from contextlib import ExitStack, nullcontext
from dataclasses import dataclass
from functools import partial
from pathlib import Path

from leafrunt_host.arrivals import Arrivals
from leafrunt_host.authentication import NeighborNumbers, SequenceNumbers
from leafrunt_host.bridge import Bridge, CannotOpen
from leafrunt_host.configuration import Configuration, InterfaceSettings
from leafrunt_host.holding import Holding
from leafrunt_host.isolation import OF_USERS, World
from leafrunt_host.link import Interface, Link, Watch
from leafrunt_host.own_lsas import OwnLsas
from leafrunt_host.places import NO_EXTERNALS, Places
from leafrunt_host.rooms import Room
from leafrunt_host.router import LEAST_PATIENCE, Router, RouterGone
from leafrunt_host.sockets import LOOPBACK, udp_socket
from leafrunt_host.statuses import Stopped

log = logging.getLogger("leafrunt.box")
SECONDS_TO_START = 20
TRIES = 3
"""A port that was free may be another's when it's bound; then others are taken."""

Ports = list[tuple[int, int]]
"""By interface the UDP ports that `routerd` receives at and sends to."""


def free_ports(count: int) -> list[int]:
    """This many UDP ports of 127.0.0.1 that nobody has now."""
    sockets = [socket.socket(socket.AF_INET, socket.SOCK_DGRAM) for _ in range(count)]
    try:
        for one in sockets:
            one.bind((LOOPBACK, 0))
        return [one.getsockname()[1] for one in sockets]
    finally:
        for one in sockets:
            one.close()


def ports_of(world: World, configuration: Configuration) -> Ports:
    """Two for each interface."""
    taken = world.do(lambda: free_ports(2 * len(configuration.interfaces)))
    return list(zip(taken[::2], taken[1::2], strict=True))


def sink(port: int) -> socket.socket:
    """Takes the datagrams of a passive interface, which nobody reads: its network is announced, and
    no Hello is sent."""
    one = socket.socket(socket.AF_INET, socket.SOCK_DGRAM)
    one.setsockopt(socket.SOL_SOCKET, socket.SO_RCVBUF, 1)
    try:
        one.bind((LOOPBACK, port))
    except OSError as error:
        one.close()
        raise CannotOpen(f"UDP port {port} of {LOOPBACK} can't be had: {error.strerror}") from error
    return one


def patience_of(configuration: Configuration) -> float:
    """For how long `routerd` may answer nothing: after RouterDeadInterval neighbors drop it."""
    dead = [each.dead_interval for each in configuration.interfaces if not each.passive]
    return max(LEAST_PATIENCE, min(dead, default=0.0))


def interface_of(number: int, each: InterfaceSettings, ports: tuple[int, int]) -> Interface:
    """An interface of the configuration as the bridge has it."""
    return Interface(
        number,
        each.name,
        each.address,
        each.mtu,
        *ports,
        each.keys,
        each.dead_interval,
        each.network,
        each.peer,
    )


@dataclass
class Parts:
    """What was begun: `routerd`, the bridge, its links by their interfaces' numbers, and the sockets
    of the passive ones. `link_of` makes a link of another interface."""

    router: Router
    bridge: Bridge
    links: dict[int, Link]
    sinks: dict[int, socket.socket]
    ports: Ports
    link_of: Callable[[Interface], Link]


@dataclass
class Fresh:
    """A `routerd` that is begun beside the one that runs, with a socket for each of its interfaces,
    and where the kernel lists its own."""

    router: Router
    udp: dict[int, socket.socket]
    sinks: dict[int, socket.socket]
    ports: Ports
    listed: Path

    def close(self) -> None:
        """Ends it, if it isn't to take the other's place."""
        self.router.quit()
        for each in (*self.udp.values(), *self.sinks.values()):
            each.close()


class Starter:
    """Begins both, as often as it's asked to."""

    def __init__(
        self,
        room: Room,
        numbers: SequenceNumbers,
        neighbor_numbers: NeighborNumbers,
        watch: Watch,
        holding: Holding | None = None,
        news: Callable[[], None] = lambda: None,
    ) -> None:
        """`watch` is called with each packet that passes, `holding` says which have to wait, and
        `news` is called when an interface goes down or comes up."""
        self._room, self._watch, self._holding, self._news = room, watch, holding, news
        self._numbers, self._neighbor_numbers = numbers, neighbor_numbers

    def begin(self, configuration: Configuration, told: Callable[[str], None]) -> Parts:
        """Opens the bridge and starts `routerd`, whose lines on standard error are told. If either
        has no luck with the ports, both are tried with others."""
        for tried in range(1, TRIES + 1):
            world = World(configuration.account)
            try:
                return self._begun(world, configuration, told)
            except CannotOpen as why:
                if tried == TRIES or errno_of(why) != errno.EADDRINUSE:
                    raise
                log.warning("%s: other ports are tried", why)
            finally:
                world.close()
        raise AssertionError("the last try answers or raises")

    def begin_beside(
        self, configuration: Configuration, told: Callable[[str], None]
    ) -> Fresh:
        """Starts `routerd` alone, beside one that runs. `CannotOpen`, `CannotIsolate` or `Stopped`
        if it can't be had."""
        world = World(configuration.account)
        try:
            return self._begun_beside(world, configuration, told)
        finally:
            world.close()

    def _begun_beside(
        self, world: World, configuration: Configuration, told: Callable[[str], None]
    ) -> Fresh:
        ports = ports_of(world, configuration)
        udp: dict[int, socket.socket] = {}
        sinks: dict[int, socket.socket] = {}
        with ExitStack() as undone:
            for number, each in enumerate(configuration.interfaces, 1):
                port, peer = ports[number - 1]
                if each.passive:
                    sinks[number] = undone.enter_context(world.do(partial(sink, peer)))
                else:
                    udp[number] = undone.enter_context(world.do(partial(udp_socket, peer, port)))
            router = self._started(world, configuration, ports, told)
            undone.pop_all()
        return Fresh(router, udp, sinks, ports, world.sockets_of(router.pid))

    def _begun(
        self, world: World, configuration: Configuration, told: Callable[[str], None]
    ) -> Parts:
        ports, arrivals = ports_of(world, configuration), Arrivals()
        shared = Places(no_externals=NO_EXTERNALS), OwnLsas(time.monotonic()), arrivals

        def link_of(interface: Interface) -> Link:
            numbers = self._numbers, self._neighbor_numbers
            return Link(interface, *numbers, self._watch, *shared)

        links: dict[int, Link] = {}
        sinks: dict[int, socket.socket] = {}
        with ExitStack() as undone:
            for number, each in enumerate(configuration.interfaces, 1):
                own = ports[number - 1]
                if each.passive:
                    sinks[number] = undone.enter_context(world.do(partial(sink, own[1])))
                else:
                    links[number] = link_of(interface_of(number, each, own))
            bridge = Bridge(
                list(links.values()),
                world=world,
                holding=self._holding,
                arrivals=arrivals,
                news=self._news,
            )
            undone.callback(bridge.end)
            router = self._started(world, configuration, ports, told)
            bridge.sockets_listed = world.sockets_of(router.pid)
            undone.pop_all()
        return Parts(router, bridge, links, sinks, ports, link_of)

    def _started(
        self,
        world: World,
        configuration: Configuration,
        ports: Ports,
        told: Callable[[str], None],
    ) -> Router:
        """`routerd`, once it answers."""
        room, program = self._room, configuration.routerd
        try:
            path = room.lend(room.configuration.name, configuration.text(ports).encode("ascii"))
        except OSError as error:
            raise Stopped(f"cannot write {room.configuration}: {error.strerror}") from error
        try:
            lends = room.lent_object if world.account else nullcontext
            router = Router(program, path, told, world, lends, patience_of(configuration))
        except OSError as error:
            needs = ""
            if error.errno == errno.EPERM and world.account:
                needs = f" (to run it as the user {world.account.name}, {OF_USERS} are needed)"
            raise Stopped(f"{program} can't be run: {error.strerror}{needs}") from error
        try:
            if router.ask("neighbors", SECONDS_TO_START)[-1] == "end":
                return router
            why = "what it says isn't what routerd says"
        except RouterGone as error:
            why = str(error)
        ended = router.quit(1)
        said = f": {ended.said}" if ended.said else ""
        refused = CannotOpen(f"{program} didn't start ({why}, {ended.words}){said}")
        if ended.said.startswith("cannot bind"):
            raise refused from OSError(errno.EADDRINUSE, ended.said)
        raise refused


def errno_of(error: BaseException) -> int | None:
    """The number of the system's error behind another."""
    cause = error.__cause__
    return cause.errno if isinstance(cause, OSError) else None
