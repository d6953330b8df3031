"""The next hops of external destinations whose forwarding address lies in a network of this
router's own: `table` has them `via 0`, and packets to them go to that address itself (RFC 2328,
11.1, 16.4).
"""
from __future__ import annotations

from collections.abc import Iterator, Mapping
from contextlib import suppress
from ipaddress import IPv4Address, IPv4Network
from typing import NamedTuple

from leafrunt_host.forwarding import Hop, Hops, Prefix
from leafrunt_host.lsas import MAX_AGE, ExternalBody, LsType
from leafrunt_host.status import Known
from leafrunt_host.topology import Topology


class _Way(NamedTuple):
    """What an LSA offers: as `table` says its type and metric, and the cost to the address."""

    network: IPv4Network
    said: tuple[str, int]
    cost: int
    hop: Hop


def hops_by_address(
    known: Known, topology: Topology, lines: Mapping[Prefix, bytes]
) -> Mapping[Prefix, Hops]:
    """By `table`'s lines of these destinations: those of the LSAs that it took, of several the ones
    with the least cost to the forwarding address (16.4, step 6)."""
    said: dict[IPv4Network, tuple[str, int]] = {}
    for prefix, line in lines.items():
        _, kind, metric, *_ = line.decode().split(" ")
        said[IPv4Network(prefix.decode())] = kind, int(metric)
    ways = [each for each in _ways(known, topology, said) if each.said == said.get(each.network)]
    least = dict[IPv4Network, int]()
    for each in ways:
        least[each.network] = min(each.cost, least.get(each.network, each.cost))
    found: dict[Prefix, Hops] = {}
    for each in ways:
        if each.cost == least[each.network]:
            prefix = str(each.network).encode()
            found[prefix] = found.get(prefix, frozenset()) | {each.hop}
    return found


def _ways(
    known: Known, topology: Topology, networks: Mapping[IPv4Network, object]
) -> Iterator[_Way]:
    """Those of other routers' LSAs; a Link State ID may have host bits (RFC 2328, appendix E)."""
    ends = [(each.network_address, each.broadcast_address) for each in networks]
    ids, own = {each.packed for both in ends for each in both}, known.configuration.router_id
    entries, now = topology.all_entries()
    for key, entry in entries:
        is_asked = key[0] == LsType.EXTERNAL and key[1:5] in ids and key[5:] != own.packed
        body = entry.body if is_asked and entry.age_at(now) < MAX_AGE else None
        if isinstance(body, ExternalBody) and int(body.forwarding):
            with suppress(ValueError):  # (a mask that is none)
                network = IPv4Network((IPv4Address(key[1:5]), str(body.mask)), strict=False)
                yield from _by_own_network(known, network, body)


def _by_own_network(known: Known, network: IPv4Network, body: ExternalBody) -> Iterator[_Way]:
    for number, each in enumerate(known.configuration.interfaces, 1):
        link, address = known.links.get(number), body.forwarding
        is_there = address in each.address.network and address != each.address.ip
        if is_there and (link is None or link.is_usable):
            metric = body.metric + (each.cost if body.type == 1 else 0)
            hop = Hop(address, each.name)
            yield _Way(network, (f"ext{body.type}", metric), each.cost, hop)
