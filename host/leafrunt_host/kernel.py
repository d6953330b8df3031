"""What the kernel says of its interfaces, and of the way that it takes to a destination."""
from __future__ import annotations

from collections.abc import Callable, Iterable, Mapping
from contextlib import closing
from dataclasses import dataclass, replace
from ipaddress import IPv4Address, IPv4Interface, IPv4Network
from typing import Any

from leafrunt_host.rtnetlink import (
    ATTRIBUTE,
    MAIN,
    ROUTE,
    RTA_DST,
    Address,
    CannotAsk,
    Kernel,
    Link,
    NextHop,
    Route,
    number,
    route_of,
)
from leafrunt_host.statuses import Stopped

DST_AT = ROUTE.size + len(number(0, 0))
"""Linux says a route's destination right after the number of its table."""
DST_KIND, DST = slice(DST_AT, DST_AT + ATTRIBUTE.size), slice(DST_AT + 4, DST_AT + 8)
DST_HEAD = ATTRIBUTE.pack(8, RTA_DST)
Json = dict[str, Any]
"""An object of JSON."""


@dataclass(frozen=True)
class KernelInterface:
    """An interface as the kernel has it, with its IPv4 addresses, those of the loopback network
    left out."""

    name: str
    mtu: int
    addresses: tuple[IPv4Interface, ...]
    secondary: tuple[IPv4Interface, ...] = ()
    peers: tuple[tuple[IPv4Interface, IPv4Network], ...] = ()
    """The addresses that have a peer (ip-address(8)), each with the network that the peer is in."""
    vrf: str = ""
    """The name of the VRF device that it is enslaved to, or that it is itself."""
    vrf_table: int = 0
    """Of a VRF device the number of its table; 0 if it is none."""


@dataclass(frozen=True)
class Way:
    """A next hop of the kernel's: the address, None if the destination is on the link itself."""

    interface: str
    address: IPv4Address | None


@dataclass(frozen=True)
class KernelRoute:
    """The route that the kernel takes to a destination."""

    prefix: IPv4Network
    ways: tuple[Way, ...]


def interfaces_of(links: Iterable[Link], addresses: Iterable[Address]) -> dict[str, KernelInterface]:
    """The interfaces with their addresses, by their names."""
    known = [each for each in addresses if not each.address.ip.is_loopback]
    links, found = list(links), {}
    for link in links:
        own = [each for each in known if each.index == link.index]
        main = tuple(each.address for each in own if not each.is_secondary)
        secondary = tuple(each.address for each in own if each.is_secondary)
        peers = tuple((each.address, each.peer) for each in own if each.peer)
        it = KernelInterface(link.name, link.mtu, main, secondary, peers, vrf_of(link, links))
        found[link.name] = replace(it, vrf_table=link.vrf_table)
    return found


def vrf_of(link: Link, links: Iterable[Link]) -> str:
    """The name of the VRF device that an interface is enslaved to, or that it is itself; empty if
    there is none."""
    devices = (each for each in links if each.vrf_table)
    return next((each.name for each in devices if each.index in (link.master, link.index)), "")


def members_of(links: Iterable[Link], vrf: str) -> set[int]:
    """The indexes of the interfaces in a VRF, its own device too; without one of those that are in
    none."""
    links = list(links)
    its = (each for each in links if each.vrf_table and vrf in ("", each.name))
    devices = {each.index for each in its}
    inside = {each.index for each in links if each.master in devices or each.index in devices}
    return inside if vrf else {each.index for each in links} - inside


def kernel_interfaces() -> dict[str, KernelInterface]:
    """All interfaces of the network namespace that this process is in, by their names."""
    try:
        with closing(Kernel()) as kernel:
            return interfaces_of(kernel.links(), kernel.addresses())
    except CannotAsk as error:
        raise Stopped(str(error)) from error


def network_of(prefix: bytes) -> IPv4Network:
    return IPv4Network((prefix[:4], prefix[4]))


def ways_of(route: Route, names: Mapping[int, str], next_hops: Mapping[int, NextHop]) -> list[Way]:
    """A route's ways; if the kernel names its next hop object alone, that's."""
    paths = list(route.paths)
    if not paths and route.next_hop in next_hops:
        it = next_hops[route.next_hop]
        members = [next_hops[each] for each in it.members if each in next_hops] or [it]
        paths = [(each.gateway, each.index) for each in members]
    return [
        Way(names[index], IPv4Address(gateway) if len(gateway) == 4 else None)
        for gateway, index in paths
        if index in names
    ]


def route_to(
    destination: IPv4Network,
    routes: Iterable[Route],
    names: Mapping[int, str],
    next_hops: Mapping[int, NextHop],
) -> KernelRoute | None:
    """The route that is taken to all of the destination: the longest prefix, then the least
    metric."""
    found = []
    for each in routes:
        prefix = network_of(each.prefix)
        if destination.subnet_of(prefix):
            found.append((-prefix.prefixlen, each.metric, prefix, each))
    if not found:
        return None
    *_, prefix, route = min(found, key=lambda each: each[:2])
    return KernelRoute(prefix, tuple(ways_of(route, names, next_hops)))


@dataclass(frozen=True)
class Holding:
    """A route of the kernel to all of a destination, and whose it is."""

    route: KernelRoute
    protocol: int
    metric: int
    type: int


def may_hold(destination: IPv4Network) -> Callable[[bytes], bool]:
    """Whether the body of a route's message may be one to all of the destination, by a look at
    where the kernel has the prefix: of ten thousand most needn't be read."""
    base, length = int(destination.network_address), destination.prefixlen

    def may(body: bytes) -> bool:
        its = body[1]
        if its > length:
            return False
        if its == 0 or body[DST_KIND] != DST_HEAD:
            return True
        return not (int.from_bytes(body[DST], "big") ^ base) >> (32 - its)

    return may


def routes_to(destination: IPv4Network, table: int = MAIN) -> list[Holding]:
    """The routes of a table to all of the destination, the one that the kernel takes first."""
    may = may_hold(destination)
    try:
        with closing(Kernel(table=table)) as kernel:
            bodies = [each for each in kernel.route_bodies() if may(each)]
            names = {each.index: each.name for each in kernel.links()}
            next_hops = {each.id: each for each in kernel.next_hops(is_own=False)}
    except CannotAsk as error:
        raise Stopped(str(error)) from error
    found = []
    for each in (read for body in bodies if (read := route_of(body, table))):
        prefix = network_of(each.prefix)
        if destination.subnet_of(prefix):
            ways = tuple(ways_of(each, names, next_hops))
            it = Holding(KernelRoute(prefix, ways), each.protocol, each.metric, each.type)
            found.append((-prefix.prefixlen, each.metric, it))
    return [it for _, _, it in sorted(found, key=lambda each: each[:2])]


def kernel_route(destination: IPv4Network, table: int = MAIN) -> KernelRoute | None:
    """The route of a table that the kernel takes to all of the destination."""
    try:
        with closing(Kernel(table=table)) as kernel:
            names = {each.index: each.name for each in kernel.links()}
            next_hops = {each.id: each for each in kernel.next_hops(is_own=False)}
            return route_to(destination, kernel.routes(), names, next_hops)
    except CannotAsk as error:
        raise Stopped(str(error)) from error
