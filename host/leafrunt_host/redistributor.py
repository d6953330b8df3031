"""Follows what the kernel has to redistribute: the addresses of its interfaces, and its routes.

A notice of the kernel says that something changed, and then all of it is read: a link that goes
down takes its routes along without a notice of each, and notices may be lost. Messages that say
what they said before aren't read again, so thousands of routes cost little more than their copies.
"""
from __future__ import annotations

import socket
from collections.abc import Iterable, Iterator

from leafrunt_host.destinations import Announcement, Owner
from leafrunt_host.kernel import members_of
from leafrunt_host.kernel_settings import KernelSettings
from leafrunt_host.packet_filter import NONE, Bpf, Compare, Step, assembled
from leafrunt_host.redistribution import PROTOCOL, Redistribution
from leafrunt_host.rtnetlink import (
    DELETE_NEXT_HOP,
    DELETE_ROUTE,
    HEADER,
    LOAD_HALF,
    MAIN,
    NEW_NEXT_HOP,
    NEW_ROUTE,
    OF_ALL,
    REPLACE,
    UNICAST,
    CannotAsk,
    Kernel,
    Link,
    NextHop,
    Route,
    notice_socket,
    noticed_table,
    route_of,
    swapped,
)
from leafrunt_host.sockets import attach, resize
from leafrunt_host.statuses import Stopped

ROOM = 64 << 10
"""Bytes of notices that may wait: what they say is read from the kernel's lists."""
MOST_NOTICES = 10_000
MOST_COMPARED = 200
"""Protocol numbers that a filter compares: the kernel's jumps are no longer than 255."""
TAKEN = "taken"

Asked = tuple[Owner, Announcement]


def notices_filter(redistribution: Redistribution, table: int) -> bytes:
    """A classic BPF program for a socket of notices: of routes it takes those that may count, or
    have taken the place of one, of which nothing else tells; of next hops those that aren't the
    box's own; and all of links and addresses."""
    numbers = NEW_ROUTE, DELETE_ROUTE, NEW_NEXT_HOP, DELETE_NEXT_HOP
    new_route, delete_route, new_hop, delete_hop = (swapped(each, 2) for each in numbers)
    steps: list[Step] = [
        (LOAD_HALF, 4),
        Compare(new_route, then=5),
        Compare(delete_route, then=4),
        Compare(new_hop, then=1),
        Compare(delete_hop, otherwise=TAKEN),
        (Bpf.LOAD_BYTE, HEADER.size + 2),
        Compare(PROTOCOL, then=NONE, otherwise=TAKEN),
    ]
    steps += [(Bpf.LOAD_BYTE, HEADER.size + 4), Compare(noticed_table(table), otherwise=NONE)]
    steps += [(Bpf.LOAD_BYTE, HEADER.size + 5), Compare(PROTOCOL, then=NONE)]
    protocols = sorted(redistribution.of_routes)
    if len(protocols) > MOST_COMPARED:
        return assembled(steps, {TAKEN: Bpf.ALL, NONE: 0})
    steps += [Compare(each, then=TAKEN) for each in protocols]
    if protocols:
        replaces = swapped(REPLACE, 2)
        steps += [(LOAD_HALF, 6), (Bpf.AND, replaces), Compare(replaces, then=TAKEN)]
    if redistribution.is_default_asked:
        steps += [(Bpf.LOAD_BYTE, HEADER.size + 1), Compare(0, then=TAKEN)]
    return assembled(steps, {NONE: 0, TAKEN: Bpf.ALL})


class Changes:
    """Whether something changed in the kernel that may count."""

    def __init__(self, program: bytes, one: socket.socket | None = None) -> None:
        def those_that_count(new: socket.socket) -> None:
            attach(new, program)
            resize(new, ROOM)

        self._socket = one or notice_socket(OF_ALL, those_that_count)
        self._socket.setblocking(False)

    def fileno(self) -> int:
        return self._socket.fileno()

    def are_there(self) -> bool:
        """Whether a notice came since the last question, or one was lost."""
        is_there = False
        for _ in range(MOST_NOTICES):
            try:
                self._socket.recv(1)
            except BlockingIOError:
                break
            except OSError:
                pass  # more came than there was room for
            is_there = True
        return is_there

    def close(self) -> None:
        self._socket.close()


class Redistributor:
    """What is redistributed, as the kernel has it now. `CannotAsk` if the kernel can't be asked,
    and from `asked_for` if it doesn't answer."""

    def __init__(
        self,
        redistribution: Redistribution,
        table: int = MAIN,
        vrf: str = "",
        kernel: Kernel | None = None,
        changes: Changes | None = None,
    ) -> None:
        """Routes of this table, and addresses of the interfaces of this VRF; without one of those
        that are in none."""
        self._redistribution, self._vrf = redistribution, vrf
        self._kernel = kernel or Kernel(PROTOCOL, table=table)
        self._changes = changes or Changes(notices_filter(redistribution, table))
        self._table = table
        self._is_to_read = True
        self._read: dict[bytes, tuple[Asked, Route] | None] = {}
        """The messages of routes that were read last, and what is announced for each."""

    def fileno(self) -> int:
        """Of a socket that can be read when something changed."""
        return self._changes.fileno()

    def is_changed(self) -> bool:
        """Whether something may have changed since `asked_for` last answered."""
        self._is_to_read |= self._changes.are_there()
        return self._is_to_read

    def asked_for(self) -> dict[Owner, list[Announcement]]:
        """All that is to be announced, by the owners that redistribute."""
        self._is_to_read = True
        links = {each.index: each for each in self._kernel.links()}
        found: dict[Owner, list[Announcement]] = {
            each: [] for each in Owner if each.is_redistributed
        }
        for owner, announcement in [*self._of_addresses(links), *self._of_routes(links)]:
            found[owner].append(announcement)
        self._is_to_read = False
        return found

    def close(self) -> None:
        self._changes.close()
        self._kernel.close()

    def _of_addresses(self, links: dict[int, Link]) -> Iterator[Asked]:
        if Owner.CONNECTED not in self._redistribution.owners:
            return
        members = members_of(links.values(), self._vrf)
        for each in self._kernel.addresses():
            if each.index in members and links[each.index].is_up:
                asked = self._redistribution.of_address(each.peer or each.address.network)
                if asked:
                    yield asked

    def _of_routes(self, links: dict[int, Link]) -> Iterator[Asked]:
        always = self._redistribution.always()
        if always:
            yield always
        before, self._read = self._read, {}
        for body in self._bodies():
            self._read[body] = before[body] if body in before else self._asked(body)
        counting = [each for each in self._read.values() if each]
        next_hops = self._next_hops(route for _, route in counting)
        for asked, route in counting:
            if is_live(route, links, next_hops):
                yield asked

    def _bodies(self) -> Iterator[bytes]:
        """The messages of the routes that may count."""
        if self._redistribution.is_default_asked:
            yield from self._kernel.route_bodies()
            return
        for protocol in sorted(self._redistribution.of_routes):
            yield from self._kernel.route_bodies(protocol)

    def _asked(self, body: bytes) -> tuple[Asked, Route] | None:
        route = route_of(body, self._table)
        asked = self._redistribution.of_route(route) if route else None
        return (asked, route) if asked and route else None

    def _next_hops(self, routes: Iterable[Route]) -> dict[int, NextHop]:
        """The next hop objects, if a route names one alone (net.ipv4.nexthop_compat_mode)."""
        if not any(each.next_hop and not each.paths for each in routes):
            return {}
        return {each.id: each for each in self._kernel.next_hops(is_own=False)}


def is_live(route: Route, links: dict[int, Link], next_hops: dict[int, NextHop]) -> bool:
    """Whether the route has a path that isn't dead, by an interface that is up; what discards
    packets needs none."""
    if route.type != UNICAST:
        return True
    ways = set(route.live)
    if not route.paths and route.next_hop in next_hops:
        it = next_hops[route.next_hop]
        members = [next_hops[each] for each in it.members if each in next_hops] or [it]
        ways = {each.index for each in members}
    return any(index in links and links[index].is_up for index in ways)


def redistributor_of(
    redistribution: Redistribution, table: KernelSettings
) -> Redistributor | None:
    """What follows the kernel for what is redistributed; None if nothing is. `Stopped` if the
    kernel can't be asked."""
    if not redistribution:
        return None
    try:
        return Redistributor(redistribution, table.table, table.vrf)
    except CannotAsk as error:
        raise Stopped(str(error)) from error
