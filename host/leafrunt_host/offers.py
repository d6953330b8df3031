"""What the LSAs of a database offer for one destination, and why each of them counts or doesn't (RFC
2328, 16): for a reader. What a router forwards by is `routerd`'s table."""
from __future__ import annotations

from collections.abc import Iterable, Iterator
from dataclasses import dataclass, field
from ipaddress import IPv4Address, IPv4Network

from leafrunt_host.area import NOBODY, Area, Rank, Vertex, Ways, area_of, network, router
from leafrunt_host.lsas import (
    LS_INFINITY,
    MAX_AGE,
    ExternalBody,
    LinkType,
    LsHeader,
    LsType,
    NetworkBody,
    RouterBody,
    RouterFlags,
    SummaryBody,
    body_of,
    network_of,
)
from leafrunt_host.topology import Entry

OF_AREA = (LsType.ROUTER, LsType.NETWORK, LsType.ASBR_SUMMARY)
OF_DESTINATIONS = (LsType.SUMMARY, LsType.EXTERNAL)
SHORTEST = 24
"""Bytes of an LSA that has a mask after its header."""
FLAGS = {LsType.SUMMARY: RouterFlags.B, LsType.EXTERNAL: RouterFlags.E}
"""What a router has to say of itself so that its LSAs of a type count."""
METRIC, INFINITY = slice(25, 28), LS_INFINITY.to_bytes(3, "big")
MOST_NEAR = 4
MOST_BROKEN = 3
NOT_USED = "not used: "


@dataclass(frozen=True)
class Offer:
    """What one LSA says of the destination."""

    lsa: LsHeader
    says: str
    kind: str
    """As `table` calls it: intra, inter, ext1 or ext2."""
    rank: Rank | None = None
    """What offers are compared by: the less, the better; None if it counts for nothing."""
    cost: int = 0
    tag: int = 0
    distance: int = 0
    ends: tuple[Vertex, ...] = ()
    why_not: str = ""


@dataclass
class Found:
    """The LSAs that have to do with a destination."""

    area: Area = field(default_factory=Area)
    here: list[tuple[LsHeader, Entry]] = field(default_factory=list)
    """Those of the area, and those of the destination itself."""
    gone: list[tuple[LsHeader, Entry]] = field(default_factory=list)
    """Of the destination, and flushed, or ran out."""
    near: list[tuple[IPv4Network, LsHeader]] = field(default_factory=list)
    """Of longer and shorter prefixes."""


def router_key(of: IPv4Address) -> bytes:
    """The key of a router's own router-LSA."""
    return bytes([LsType.ROUTER]) + 2 * of.packed


def value(address: bytes) -> int:
    return int.from_bytes(address, "big")


def announced_length(entries: Iterable[tuple[bytes, Entry]], address: IPv4Address) -> int | None:
    """The longest prefix that an LSA announces, or did within the hour, that has an address."""
    wanted, longest = int(address), None
    for key, entry in entries:
        for base, mask in networks_in(key, entry.data):
            if not (base ^ wanted) & mask:
                length = mask.bit_count()
                longest = length if longest is None else max(longest, length)
    return longest


def networks_in(key: bytes, data: bytes) -> Iterator[tuple[int, int]]:
    """The networks that an LSA announces: addresses and masks as numbers."""
    if key[0] in OF_DESTINATIONS and len(data) >= SHORTEST:
        yield value(key[1:5]), value(data[20:24])
    elif key[0] in (LsType.ROUTER, LsType.NETWORK):
        body = body_of(data)
        if isinstance(body, NetworkBody):
            yield value(key[1:5]), int(body.mask)
        elif isinstance(body, RouterBody):
            for link in body.links:
                if link.type == LinkType.STUB:
                    yield int(link.id), int(link.data)


def found_around(
    entries: Iterable[tuple[bytes, Entry]], prefix: IPv4Network, now: float
) -> Found:
    """Looks at each LSA once; of ten thousand external ones only those that matter are read."""
    base, mask = int(prefix.network_address), int(prefix.netmask)
    found = Found()
    for key, entry in entries:
        if key[0] in OF_AREA:
            if entry.age_at(now) < MAX_AGE:
                found.here.append((entry.header_at(now), entry))
            continue
        if len(entry.data) < SHORTEST:
            continue
        its = value(entry.data[20:24])
        if (value(key[1:5]) ^ base) & its & mask:
            continue
        is_here = entry.age_at(now) < MAX_AGE
        if its == mask:
            (found.here if is_here else found.gone).append((entry.header_at(now), entry))
        elif is_here and len(found.near) < MOST_NEAR and its:
            other = network_of(IPv4Address(key[1:5]), IPv4Address(its))
            found.near += [(other, entry.header_at(now))] if other else []
    found.here.sort(key=lambda each: each[0].key)
    found.area = area_of((header.key, entry.body) for header, entry in found.here)
    return found


def offered(
    entries: Iterable[tuple[bytes, Entry]], now: float, root: IPv4Address, own: RouterBody
) -> int:
    """To how many destinations LSAs offer a way that counts, from the router that has these links
    on: those of its own links aren't among them."""
    alive = [each for each in entries if each[1].age_at(now) < MAX_AGE]
    of_area = [(it.header_at(now).key, it.body) for key, it in alive if key[0] in OF_AREA]
    area = area_of(of_area)
    area.routers[root] = own
    ways, own_key = Ways(area, root), root.packed
    reached = {each.id for each in ways.cost if each.kind == router(root).kind}
    flags = {each.packed: area.routers[each].flags for each in reached if each in area.routers}
    found = set()
    for key, entry in alive:
        by, data, flag = key[5:9], entry.data, FLAGS.get(key[0], 0)
        if key[0] in OF_DESTINATIONS and by != own_key and flags.get(by, 0) & flag:
            if data[METRIC] != INFINITY and len(data) >= SHORTEST:
                mask = value(data[20:24])
                found.add((value(key[1:5]) & mask, mask))
        elif key[0] in (LsType.ROUTER, LsType.NETWORK) and by in flags and by != own_key:
            found.update((base & mask, mask) for base, mask in networks_in(key, data))
    return len(found - {(int(link.id), int(link.data)) for link in own.links if link.type == LinkType.STUB})


class Offers:
    """The offers for a destination, by the ways of an area from one router on."""

    def __init__(self, found: Found, root: IPv4Address, prefix: IPv4Network) -> None:
        self._found, self._area, self._root, self._prefix = found, found.area, root, prefix
        self.ways = Ways(found.area, root)

    def all(self) -> list[Offer]:
        """Those that count first, the best one at the front."""
        offers = [each for header, entry in self._found.here for each in self._of(header, entry)]
        return sorted(offers, key=lambda each: (each.rank is None, each.rank or ()))

    def _of(self, header: LsHeader, entry: Entry) -> Iterator[Offer]:
        match entry.body:
            case RouterBody(_, links):
                for link in links:
                    if link.type == LinkType.STUB and self._is_it(link.id, link.data):
                        says = f"stub network, metric {link.metric}"
                        yield self._intra(header, says, router(header.key.router), link.metric)
            case NetworkBody(mask, _) if self._is_it(header.key.id, mask):
                yield self._intra(header, "transit network", network(header.key.id), 0)
            case SummaryBody(mask, metric) if header.key.type == LsType.SUMMARY:
                yield self._inter(header, metric)
            case ExternalBody() as body:
                yield self._external(header, body)

    def _is_it(self, identity: IPv4Address, mask: IPv4Address) -> bool:
        return network_of(identity, mask) == self._prefix

    def _intra(self, header: LsHeader, says: str, vertex: Vertex, metric: int) -> Offer:
        if vertex not in self.ways.cost:
            return Offer(header, says, "intra", why_not=self.unreached(header.key.router))
        cost = self.ways.cost[vertex] + metric
        return Offer(header, says, "intra", (0, cost), cost, ends=(vertex,))

    def _inter(self, header: LsHeader, metric: int) -> Offer:
        by, says = header.key.router, f"inter-area, metric {metric}"
        why_not = self._why_no_way(by, RouterFlags.B, "area border router", "B", metric)
        if why_not:
            return Offer(header, says, "inter", why_not=why_not)
        cost = self.ways.cost[router(by)] + metric
        return Offer(header, says, "inter", (1, cost), cost, ends=(router(by),))

    def _external(self, header: LsHeader, body: ExternalBody) -> Offer:
        kind, by = f"ext{body.type}", header.key.router
        says = f"type {body.type}, metric {body.metric}, tag {body.tag}"
        if body.forwarding != NOBODY:
            says += f", forwarding address {body.forwarding}"
        if by == self._root:
            return Offer(header, says, kind, why_not="this router's own")
        far = self._of_another_area(by)
        why_not = self._why_no_way(by, RouterFlags.E, "AS boundary router", "E", body.metric, far)
        distance, ends = far or (self.ways.cost.get(router(by), 0), (router(by),))
        if not why_not and body.forwarding != NOBODY:
            rank, found = self.ways.toward(body.forwarding)
            distance, ends = sum(rank), tuple(found)
            if not found:
                at = f"{body.forwarding}/32"
                why_not = (
                    f"{NOT_USED}no network of the area has its forwarding address {body.forwarding} "
                    f"(`leafrunt why {at}`)"
                )
        if why_not:
            return Offer(header, says, kind, why_not=why_not)
        if body.type == 1:
            cost = distance + body.metric
            return Offer(header, says, kind, (2, cost), cost, body.tag, 0, ends)
        rank = (3, body.metric, distance)
        return Offer(header, says, kind, rank, body.metric, body.tag, distance, ends)

    def _of_another_area(self, of: IPv4Address) -> tuple[int, tuple[Vertex, ...]] | None:
        """The least way to an AS boundary router of another area, by the area border routers that
        announce it (16.4, step 3)."""
        if of in self._area.routers:
            return None
        offers = [
            (self.ways.cost[router(header.key.router)] + entry.body.metric, header.key.router)
            for header, entry in self._found.here
            if header.key.type == LsType.ASBR_SUMMARY and header.key.id == of
            if router(header.key.router) in self.ways.cost
            if isinstance(entry.body, SummaryBody) and entry.body.metric < LS_INFINITY
        ]
        least = min(offers, default=None)
        return (least[0], (router(least[1]),)) if least else None

    def _why_no_way(
        self,
        by: IPv4Address,
        flag: int,
        title: str,
        letter: str,
        metric: int,
        far: object = None,
    ) -> str:
        """Why what a router announces from outside of the area isn't a way; empty if it is one."""
        if metric >= LS_INFINITY:
            return f"{NOT_USED}its metric is LSInfinity (RFC 2328, B): a destination that isn't reached"
        if far:
            return ""
        if router(by) not in self.ways.cost:
            return self.unreached(by)
        if not self._area.routers[by].flags & flag:
            return f"{NOT_USED}the router-LSA of {by} doesn't say that it is an {title} (bit {letter})"
        return ""

    # -- why a router isn't reached

    def unreached(self, of: IPv4Address) -> str:
        """Why there is no way to a router."""
        if self._root not in self._area.routers:
            return f"{NOT_USED}this router has no router-LSA yet"
        if of not in self._area.routers:
            return f"{NOT_USED}there is no router-LSA of {of}"
        broken = list(self._broken(of))[:MOST_BROKEN]
        return f"{NOT_USED}no way to {of}: {'; '.join(broken) or 'no link leads from here to it'}"

    def _broken(self, of: IPv4Address) -> Iterator[str]:
        """The links, at the rim of what is reached, that one end alone lists (16.1, step 2b)."""
        reached = {each.id for each in self.ways.cost if each.kind == router(of).kind}
        for one in sorted(self._part_of(of, reached)):
            for other in sorted(reached):
                there = bool(self._area.neighbor_links(other, one))
                back = bool(self._area.neighbor_links(one, other))
                if there and not back:
                    yield f"{other} lists a link to {one}, and {one} lists none to {other}"
                if back and not there:
                    yield f"{one} lists a link to {other}, and {other} lists none to {one}"

    def _part_of(self, of: IPv4Address, reached: set[IPv4Address]) -> set[IPv4Address]:
        """The routers that are joined to this one, and aren't reached."""
        part: set[IPv4Address] = set()
        waiting = [of]
        while waiting:
            one = waiting.pop()
            if one in part or one in reached or one not in self._area.routers:
                continue
            part.add(one)
            links = self._area.routers[one].links
            linked = (each.id for each in links if each.type == LinkType.POINT_TO_POINT)
            waiting += [each for each in linked if self._area.neighbor_links(each, one)]
        return part

    def first_hops(self, ends: Iterable[Vertex]) -> list[IPv4Address]:
        """The own addresses of the links by which the least ways to these begin."""
        steps = self.ways.steps_to(ends)
        return sorted({each.link.data for each in steps if each.start == router(self._root) and each.link})
