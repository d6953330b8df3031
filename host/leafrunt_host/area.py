"""The area as a graph: routers and networks, the links that count, and least ways through it (RFC
2328, 16.1), for a picture.

This isn't what the router forwards by: that is `routerd`'s table. It tells a reader of the picture
where the next routers send a packet on.
"""
from __future__ import annotations

import heapq
from collections.abc import Iterable, Iterator
from dataclasses import dataclass, field
from enum import Enum
from ipaddress import IPv4Address, IPv4Network

from leafrunt_host.lsas import (
    LS_INFINITY,
    Body,
    ExternalBody,
    LinkType,
    LsKey,
    LsType,
    NetworkBody,
    RouterBody,
    RouterFlags,
    RouterLink,
    SummaryBody,
    network_of,
)

NOBODY = IPv4Address(0)
Rank = tuple[int, ...]
"""What offers of ways to a prefix are compared by: the less, the better."""


class Kind(Enum):
    ROUTER = "router"
    NETWORK = "network"


@dataclass(frozen=True, order=True)
class Vertex:
    """A router by its Router ID, or a transit network by its Designated Router's address."""

    kind: str
    id: IPv4Address


def router(identity: IPv4Address) -> Vertex:
    return Vertex(Kind.ROUTER.value, identity)


def network(identity: IPv4Address) -> Vertex:
    return Vertex(Kind.NETWORK.value, identity)


@dataclass(frozen=True)
class Step:
    """A way from one vertex to the next: by a router's link, or from a network (None)."""

    start: Vertex
    link: RouterLink | None
    end: Vertex

    @property
    def cost(self) -> int:
        return self.link.metric if self.link else 0


@dataclass(frozen=True)
class Announced:
    """A prefix from outside of the area, as a router announces it."""

    prefix: IPv4Network
    kind: LsType
    type: int
    metric: int
    forwarding: IPv4Address


@dataclass
class Area:
    """What the LSAs say, by router and by network."""

    routers: dict[IPv4Address, RouterBody] = field(default_factory=dict)
    networks: dict[IPv4Address, NetworkBody] = field(default_factory=dict)
    announced: dict[IPv4Address, list[Announced]] = field(default_factory=dict)

    def stubs(self, of: IPv4Address) -> Iterator[tuple[IPv4Network, int]]:
        """A router's stub networks with their costs."""
        for link in self.routers[of].links:
            found = network_of(link.id, link.data) if link.type == LinkType.STUB else None
            if found:
                yield found, link.metric

    def neighbor_links(self, of: IPv4Address, to: IPv4Address) -> list[RouterLink]:
        """A router's point-to-point links to another, in the order of their addresses."""
        body = self.routers.get(of)
        links = body.links if body else ()
        found = [link for link in links if link.type == LinkType.POINT_TO_POINT and link.id == to]
        return sorted(found, key=lambda link: link.data)

    def steps(self, start: Vertex) -> Iterator[Step]:
        """Where one can go on from a vertex: a link counts only if the other end links back."""
        if start.kind == Kind.NETWORK.value:
            for each in self.networks[start.id].routers:
                if self._has_transit(each, start.id):
                    yield Step(start, None, router(each))
            return
        for link in self.routers[start.id].links:
            if link.type == LinkType.POINT_TO_POINT and self.neighbor_links(link.id, start.id):
                yield Step(start, link, router(link.id))
            if link.type == LinkType.TRANSIT and start.id in self._attached(link.id):
                yield Step(start, link, network(link.id))

    def _attached(self, to: IPv4Address) -> tuple[IPv4Address, ...]:
        return self.networks[to].routers if to in self.networks else ()

    def _has_transit(self, of: IPv4Address, to: IPv4Address) -> bool:
        links = self.routers[of].links if of in self.routers else ()
        return any(link.type == LinkType.TRANSIT and link.id == to for link in links)


def area_of(lsas: Iterable[tuple[LsKey, Body | None]]) -> Area:
    """The area that these LSAs describe."""
    area = Area()
    for key, body in lsas:
        match body:
            case RouterBody() if key.id == key.router:
                # (a router's links are those under its own name: RFC 2328, 12.4.1)
                area.routers[key.id] = body
            case NetworkBody():
                area.networks[key.id] = body
            case SummaryBody() if key.type == LsType.SUMMARY:
                _announce(area, key, body.mask, 0, body.metric, NOBODY)
            case ExternalBody():
                _announce(area, key, body.mask, body.type, body.metric, body.forwarding)
    return area


def _announce(
    area: Area, key: LsKey, mask: IPv4Address, kind: int, metric: int, forwarding: IPv4Address
) -> None:
    prefix = network_of(key.id, mask)
    if prefix is not None and metric < LS_INFINITY:
        one = Announced(prefix, LsType(key.type), kind, metric, forwarding)
        area.announced.setdefault(key.router, []).append(one)


class Ways:
    """The least ways from a router to all that it reaches."""

    def __init__(self, area: Area, root: IPv4Address) -> None:
        self._area, self.root = area, root
        self.cost: dict[Vertex, int] = {}
        self._last: dict[Vertex, list[Step]] = {}
        if root in area.routers:
            self._walk(router(root))

    def _walk(self, root: Vertex) -> None:
        """Dijkstra's algorithm, which keeps each of several equal ways."""
        least, waiting = {root: 0}, [(0, root)]
        while waiting:
            cost, vertex = heapq.heappop(waiting)
            if vertex in self.cost:
                continue
            self.cost[vertex] = cost
            for step in self._area.steps(vertex):
                through = cost + step.cost
                if step.end in self.cost and through != self.cost[step.end]:
                    continue
                known = least.get(step.end)
                if known is None or through < known:
                    least[step.end], self._last[step.end] = through, [step]
                    heapq.heappush(waiting, (through, step.end))
                elif through == known:
                    self._last[step.end].append(step)

    def steps_to(self, ends: Iterable[Vertex]) -> set[Step]:
        """All steps of all least ways to these."""
        found: set[Step] = set()
        waiting, seen = list(ends), set()
        while waiting:
            vertex = waiting.pop()
            if vertex in seen or vertex == router(self.root):
                continue
            seen.add(vertex)
            for step in self._last.get(vertex, []):
                found.add(step)
                waiting.append(step.start)
        return found

    def ends_for(self, prefix: IPv4Network) -> list[Vertex]:
        """Where ways to a prefix leave the area's routers: intra-area before inter-area, then
        external of type 1, of type 2 (RFC 2328, 11)."""
        return self._intra(prefix)[1] or self._outside(prefix)

    def _intra(self, prefix: IPv4Network) -> tuple[Rank, list[Vertex]]:
        offers: list[tuple[Rank, Vertex]] = []
        for vertex, cost in self.cost.items():
            if vertex.kind == Kind.ROUTER.value:
                offers += [
                    ((cost + metric,), vertex)
                    for stub, metric in self._area.stubs(vertex.id)
                    if stub == prefix
                ]
            elif network_of(vertex.id, self._area.networks[vertex.id].mask) == prefix:
                offers.append(((cost,), vertex))
        return _least(offers)

    def _outside(self, prefix: IPv4Network) -> list[Vertex]:
        offers: list[tuple[Rank, Vertex]] = []
        for vertex, cost in self.cost.items():
            if vertex.kind != Kind.ROUTER.value:
                continue
            for one in self._area.announced.get(vertex.id, []):
                flag = RouterFlags.B if one.kind == LsType.SUMMARY else RouterFlags.E
                if one.prefix == prefix and self._area.routers[vertex.id].flags & flag:
                    offers += self._offers(one, vertex, cost)
        return _least(offers)[1]

    def _offers(
        self, one: Announced, originator: Vertex, cost: int
    ) -> Iterator[tuple[Rank, Vertex]]:
        ends = [originator]
        if one.forwarding != NOBODY:
            way, ends = self.toward(one.forwarding)
            cost = sum(way)
        rank = (one.type, one.metric, cost) if one.type == 2 else (one.type, cost + one.metric)
        return ((rank, end) for end in ends)

    def toward(self, address: IPv4Address) -> tuple[Rank, list[Vertex]]:
        """The way to a forwarding address, by the longest network of the area that has it (RFC
        2328, 16.4)."""
        known = {
            stub
            for vertex in self.cost
            if vertex.kind == Kind.ROUTER.value
            for stub, _ in self._area.stubs(vertex.id)
        }
        for vertex in self.cost:
            if vertex.kind == Kind.NETWORK.value:
                known.add(
                    network_of(vertex.id, self._area.networks[vertex.id].mask)
                    or IPv4Network("0.0.0.0/32")
                )
        holding = [each for each in known if address in each]
        return self._intra(max(holding, key=lambda each: each.prefixlen)) if holding else ((), [])


def _least(offers: Iterable[tuple[Rank, Vertex]]) -> tuple[Rank, list[Vertex]]:
    """The least rank of all offers, and those that have it."""
    offers = list(offers)
    least = min((rank for rank, _ in offers), default=())
    return least, [vertex for rank, vertex in offers if rank == least]
