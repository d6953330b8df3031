"""What of the kernel's a box announces as external destinations: the section `[redistribute]` of
its configuration, and what that says of one destination or route."""
from __future__ import annotations

import re
from collections.abc import Iterable
from dataclasses import dataclass
from ipaddress import IPv4Network
from pathlib import Path
from typing import NamedTuple

from leafrunt_host.destinations import LARGEST_METRIC, Announcement, Owner
from leafrunt_host.rtnetlink import BLACKHOLE, PROHIBIT, UNICAST, UNREACHABLE, Route
from leafrunt_host.tables import Table, shown

PROTOCOL = 89
"""The box's own routes' number. In /etc/iproute2/rt_protos no routing daemon has it: BIRD has 12,
zebra 11 and 186 to 197."""
NOT_OTHERS = {0: "unspec", 1: "redirect", 2: "kernel", PROTOCOL: "the box's own"}
"""Protocol numbers that aren't redistributed: redirects are for this host alone, and what the
kernel makes by itself are the networks of addresses."""
PROTOCOLS = {
    **{"boot": 3, "static": 4, "gated": 8, "ra": 9, "mrt": 10, "zebra": 11, "bird": 12},
    **{"dnrouted": 13, "xorp": 14, "ntk": 15, "dhcp": 16, "mrouted": 17, "keepalived": 18},
    **{"babel": 42, "openr": 99, "bgp": 186, "isis": 187, "ospf": 188, "rip": 189, "eigrp": 192},
}
"""As iproute2 has them; /etc/iproute2/rt_protos may name more."""
STATIC = (PROTOCOLS["static"], PROTOCOLS["boot"])
"""What `ip route add` makes, with `proto static` or without."""
NAMES = Path("/etc/iproute2/rt_protos")
LONGEST_NAMES = 1 << 16
MOST_RANGES = 1024
"""Entries of a filter."""
TYPES = (UNICAST, BLACKHOLE, UNREACHABLE, PROHIBIT)
"""Types of routes that are announced: a router may announce what it discards, as an aggregate."""
RANGE = re.compile(r"([0-9./]{9,18})(?: ge ([0-9]{1,2}))?(?: le ([0-9]{1,2}))?")
FORM = '"A.B.C.D/L", with `ge N`, `le N` or both after it: L <= N <= 32'
NOT_ANNOUNCED = ("0.0.0.0/8", "127.0.0.0/8", "169.254.0.0/16", "224.0.0.0/3")
"""Never announced, nor what is in them: this network, loopback, link-local, multicast and what is
reserved (RFC 1122, 3.2.1.3; RFC 3927; RFC 1112)."""
FILTERS = ("allow", "deny")
DEFAULT = IPv4Network("0.0.0.0/0")


class PrefixRange(NamedTuple):
    """An entry of a filter: the prefixes in this one with a length in this range."""

    address: int
    length: int
    shortest: int
    longest: int

    @classmethod
    def of(cls, text: str) -> PrefixRange:
        """`ValueError` if the text is none."""
        found = RANGE.fullmatch(text)
        if not found:
            raise ValueError(text)
        prefix = IPv4Network(found[1])
        least = int(found[2]) if found[2] else prefix.prefixlen
        most = int(found[3]) if found[3] else 32 if found[2] else prefix.prefixlen
        if not prefix.prefixlen <= least <= most <= 32 or "/" not in found[1]:
            raise ValueError(text)
        return cls(int(prefix.network_address), prefix.prefixlen, least, most)

    def has(self, prefix: IPv4Network) -> bool:
        if not self.shortest <= prefix.prefixlen <= self.longest:
            return False
        return (int(prefix.network_address) ^ self.address) >> (32 - self.length) == 0


MARTIANS = tuple(PrefixRange.of(f"{each} le 32") for each in NOT_ANNOUNCED)


@dataclass(frozen=True)
class Source:
    """One table of the section: which destinations it takes, and how they are announced. `deny`
    goes before `allow`, and an empty `allow` takes all."""

    metric: int = 20
    type: int = 2
    tag: int = 0
    allow: tuple[PrefixRange, ...] = ()
    deny: tuple[PrefixRange, ...] = ()

    def takes(self, prefix: IPv4Network) -> bool:
        if any(each.has(prefix) for each in self.deny):
            return False
        return not self.allow or any(each.has(prefix) for each in self.allow)

    def announcement(self, prefix: IPv4Network) -> Announcement:
        return Announcement(prefix, self.metric, self.type, self.tag)


@dataclass(frozen=True)
class Redistribution:
    """The section. A source that isn't there takes nothing."""

    sources: tuple[tuple[Owner, Source], ...] = ()
    """In the owners' order: of several that take a destination the first one announces it."""
    protocols: frozenset[int] = frozenset()
    """Of the kernel's routes that the source `kernel` takes."""
    is_default_always: bool = False
    """Whether the default route is announced whatever the kernel has."""
    own: frozenset[IPv4Network] = frozenset()
    """The networks that the router-LSA has: never redistributed."""

    def __bool__(self) -> bool:
        return bool(self.sources)

    @property
    def owners(self) -> frozenset[Owner]:
        return frozenset(owner for owner, _ in self.sources)

    @property
    def is_default_asked(self) -> bool:
        """Whether the kernel's default routes count."""
        return Owner.DEFAULT in self.owners and not self.is_default_always

    @property
    def of_routes(self) -> frozenset[int]:
        """The protocol numbers of the routes that count, default routes apart."""
        static = STATIC if Owner.STATIC in self.owners else ()
        return self.protocols.union(static)

    def of_address(self, prefix: IPv4Network) -> tuple[Owner, Announcement] | None:
        """How the network of an address is announced; None if it isn't."""
        return self._by(prefix, {Owner.CONNECTED}) if self._may_be(prefix) else None

    def of_route(self, route: Route) -> tuple[Owner, Announcement] | None:
        """The same of a route."""
        if route.tos or route.type not in TYPES or route.protocol in NOT_OTHERS:
            return None
        prefix = IPv4Network((route.prefix[:4], route.prefix[4]))
        if not prefix.prefixlen:
            return self._by(prefix, {Owner.DEFAULT})
        owners = {Owner.KERNEL} if route.protocol in self.protocols else set()
        if route.protocol in STATIC:
            owners.add(Owner.STATIC)
        return self._by(prefix, owners) if self._may_be(prefix) else None

    def _may_be(self, prefix: IPv4Network) -> bool:
        is_martian = any(each.has(prefix) for each in MARTIANS)
        return prefix.prefixlen > 0 and not is_martian and prefix not in self.own

    def _by(
        self, prefix: IPv4Network, owners: Iterable[Owner]
    ) -> tuple[Owner, Announcement] | None:
        for owner, source in self.sources:
            if owner in owners and source.takes(prefix):
                return owner, source.announcement(prefix)
        return None

    def always(self) -> tuple[Owner, Announcement] | None:
        """The default route, if it's announced whatever the kernel has."""
        return self._by(DEFAULT, {Owner.DEFAULT}) if self.is_default_always else None


# -- reading the section


def redistribution_of(
    top: Table, own: Iterable[IPv4Network] = (), names: Path = NAMES
) -> Redistribution:
    """Reads `[redistribute]`, of which each table may be left out. Mistakes are noted."""
    section = top.table("redistribute")
    sources, protocols, is_always = [], frozenset[int](), False
    for owner in filter(lambda each: each.is_redistributed, Owner):
        is_there, table = section.has(str(owner)), section.table(str(owner))
        if not is_there:
            continue
        if owner is Owner.KERNEL:
            protocols = protocols_of(table, named_protocols(names))
        if owner is Owner.DEFAULT:
            is_always = table.truth("always", False)
        filters = () if owner is Owner.DEFAULT else FILTERS
        sources.append((owner, source_of(table, filters)))
        table.end()
    section.end()
    return Redistribution(tuple(sources), protocols, is_always, frozenset(own))


def source_of(table: Table, filters: Iterable[str] = ()) -> Source:
    """How the destinations of a table are announced, and by these filters which they are."""
    metric = table.whole("metric", 0, LARGEST_METRIC, 20)
    kind = table.whole("type", 1, 2, 2)
    tag = table.whole("tag", 0, 0xFFFFFFFF, 0)
    return Source(metric, kind, tag, **{each: ranges_of(table, each) for each in filters})


def ranges_of(table: Table, key: str) -> tuple[PrefixRange, ...]:
    """A filter. Each entry that is none is noted."""
    ranges = []
    texts = table.texts(key, f"a list of prefixes, each {FORM}") or []
    if len(texts) > MOST_RANGES:
        table.note(key, f"a list of {len(texts)}", f"at most {MOST_RANGES} prefixes")
    for text in texts[:MOST_RANGES]:
        try:
            ranges.append(PrefixRange.of(text))
        except ValueError:
            table.note(key, shown(text), FORM)
    return tuple(ranges)


def protocols_of(table: Table, names: dict[str, int]) -> frozenset[int]:
    """The protocols whose routes are taken, by their names or numbers."""
    allowed = (
        "a list of names of protocols (in /etc/iproute2/rt_protos), or of their numbers in "
        f"quotes, 3 to 255 but {PROTOCOL}, which is the box's own"
    )
    numbers = set()
    texts = table.texts("protocols", allowed)
    if texts == []:
        table.note("protocols", "nothing", allowed)
    for text in texts or []:
        is_number = text.isascii() and text.isdigit() and len(text) <= 3
        number = int(text) if is_number else names.get(text, -1)
        if number in NOT_OTHERS or not 0 <= number <= 255:
            why = f", {NOT_OTHERS[number]}" if number in NOT_OTHERS and is_number else ""
            table.note("protocols", f"{shown(text)}{why}", allowed)
        numbers.add(number)
    return frozenset(numbers)


def named_protocols(names: Path = NAMES) -> dict[str, int]:
    """The names of protocol numbers, those of this machine too."""
    found = dict(PROTOCOLS)
    try:
        with open(names, encoding="utf-8", errors="replace") as it:
            lines = it.read(LONGEST_NAMES).splitlines()
    except OSError:
        return found
    for line in lines:
        words = line.partition("#")[0].split()
        if len(words) == 2 and words[0].isascii() and words[0].isdigit():
            found[words[1]] = int(words[0])
    return found
