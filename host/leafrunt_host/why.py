"""`leafrunt why`: why a destination is, or isn't, in the kernel's table, from the kernel backwards to
the LSAs: as values that JSON has, and as lines for a reader.

`routerd` is asked for its table and counters alone, and nothing is changed. What is calculated anew
here, the ways through the area and the answer of a program, is said to be so.
"""
from __future__ import annotations

import time
from collections.abc import Callable, Iterator
from dataclasses import dataclass
from ipaddress import IPv4Address, IPv4Network

from leafrunt_host.area import Vertex
from leafrunt_host.documents import ROUTE, counter_values, document, hops_by
from leafrunt_host.forwarding import is_martian
from leafrunt_host.kernel import Holding, Json, routes_to
from leafrunt_host.lines_of_c import Lines
from leafrunt_host.lsas import MAX_AGE, LinkType, LsHeader, LsType, RouterBody, RouterLink
from leafrunt_host.offers import Found, Offer, Offers, announced_length, found_around
from leafrunt_host.programs import has_changed
from leafrunt_host.redistribution import PROTOCOL, PROTOCOLS
from leafrunt_host.rtnetlink import BLACKHOLE, PROHIBIT, UNREACHABLE
from leafrunt_host.status import Known, interface_status, since_1970
from leafrunt_host.statuses import Stopped
from leafrunt_host.topology import Entry, Topology
from leafrunt_host.veto_trial import Question, Trial, leans_on

OF_KERNEL = {1: "redirect", 2: "kernel", PROTOCOL: "leafrunt"} | {
    number: name for name, number in PROTOCOLS.items()
}
DISCARDS = {BLACKHOLE: "blackhole", UNREACHABLE: "unreachable", PROHIBIT: "prohibit"}
MOST_NEAR = 4
MOST_CHANGES = 4
OWN = "0"
"""`via 0` are the router's own networks."""


@dataclass(frozen=True)
class Heard:
    """What `routerd` says: its table by prefixes, and its counters; why it says nothing."""

    table: dict[str, str]
    counters: list[str]
    silence: str = ""


def prefix_asked(text: str, heard: Heard, topology: Topology) -> IPv4Network:
    """The destination that is meant: of an address the longest prefix that the table or an LSA
    has. `ValueError` if the text is neither."""
    if "/" in text:
        return IPv4Network(text)
    address = IPv4Address(text)
    entries, _ = topology.all_entries()
    of_lsas = announced_length(entries, address)
    for length in range(32, -1, -1):
        it = IPv4Network((address, length), strict=False)
        if length == of_lsas or str(it) in heard.table:
            return it
    return IPv4Network(address)


class Why:
    """The answer for one destination."""

    def __init__(self, known: Known, topology: Topology, heard: Heard, prefix: IPv4Network) -> None:
        self._known, self._topology, self._heard, self._prefix = known, topology, heard, prefix
        entries, self._now = topology.all_entries()
        self._count = len(entries)
        self._found: Found = found_around(entries, prefix, self._now)
        root, routers = known.configuration.router_id, self._found.area.routers
        routers[root] = own_links(known, routers.get(root))
        self._offers = Offers(self._found, root, prefix)
        self._all = self._offers.all()
        self._line = heard.table.get(str(prefix))
        now = time.monotonic()
        self._interfaces = [
            interface_status(known, number, each)
            for number, each in enumerate(known.configuration.interfaces, 1)
        ]
        self._remarks_at = now

    def document(self) -> Json:
        """The whole, from the kernel backwards."""
        return document(
            "why",
            self._known.configuration.name,
            prefix=str(self._prefix),
            kernel=self._kernel(),
            table=self._table(),
            announced_by=[self._offer(each) for each in self._all],
            withdrawn=list(map(self._gone, *zip(*self._found.gone))) if self._found.gone else [],
            lsas=self._count,
            near=self._near(),
            program=self._program(),
            remarks=list(self._remarks()),
            changes=self._changes(),
        )

    def _changes(self) -> list[Json]:
        """The latest first."""
        found = self._known.history.last(self._prefix, most=MOST_CHANGES)
        return [
            {"at": it.at, "before": it.before, "after": it.after, "cause": it.cause}
            for it in reversed(found)
        ]

    # -- the kernel

    def _kernel(self) -> Json:
        known = self._known
        said: Json = {"kept": known.configuration.kernel, "route": None, "shorter": None}
        said |= {"refused": [], "left_out": None, "error": known.kept.error}
        try:
            routes = routes_to(self._prefix, known.configuration.table.table)
        except Stopped as why:
            routes, said["error"] = [], str(why)
        here = [each for each in routes if each.route.prefix == self._prefix]
        if here:
            said["route"] = kernel_document(here[0])
        elif routes:
            said["shorter"] = kernel_document(routes[0])
        its = f"{self._prefix} "
        said["refused"] = [each for each in known.kept.refused if each.startswith(its)]
        is_ours = any(each.protocol == PROTOCOL for each in here)
        if not is_ours and not said["refused"]:
            said["left_out"] = self._why_left_out()
        return said

    def _why_left_out(self) -> str | None:
        """Why what `routerd`'s table has isn't given to the kernel."""
        known, prefix = self._known, self._prefix
        own, line = known.announced.get(prefix), self._line or ""
        if is_martian(str(prefix).encode()):
            return "on purpose: no route leads to this network, loopback or multicast (RFC 1812, 5.3.7)"
        if own and own.answer == "originated" and (not line or line.startswith("ext")):
            return f"on purpose: this box announces {prefix} itself (asked for by: {own.owner})"
        if own and own.answer != "originated":
            return f"this box has it to announce (asked for by: {own.owner}), and the program at price withholds it"
        if self._line is None:
            return None
        if line.startswith("intra") and line.endswith(f" via {OWN}"):
            return "on purpose: a network of this box's own interfaces, which the kernel has by itself"
        if not known.configuration.kernel:
            return "on purpose: `kernel = false`"
        if str(prefix).encode() in known.kept.without_hop:
            return "the neighbor that it leads by isn't Full, or its address isn't known"
        return "the box is about to give it to the kernel: ask again"

    # -- routerd

    def _table(self) -> Json:
        said: Json = {"routes": len(self._heard.table), "silence": self._heard.silence or None}
        read = ROUTE.fullmatch(f"{self._prefix} {self._line}") if self._line else None
        if read is None:
            return {**said, "route": None}
        by_number = {str(each["number"]): each for each in self._interfaces}
        hops = hops_by(by_number, read[4])
        route = {"path_type": read[2], "cost": int(read[3]), "next_hops": hops}
        return {**said, "route": route}

    # -- LSAs

    def _offer(self, it: Offer) -> Json:
        best = self._all[0].rank
        why_not = it.why_not
        if not why_not and it.rank != best:
            why_not = "not used: a better one is above"
        return {
            **lsa_document(it.lsa),
            "says": it.says,
            "path_type": it.kind,
            "cost": None if it.rank is None else it.cost,
            "is_best": it.rank is not None and it.rank == best,
            "why_not": why_not or None,
        }

    def _gone(self, header: LsHeader, entry: Entry) -> Json:
        is_flushed = entry.age >= MAX_AGE
        at = since_1970(entry.moment + (0 if is_flushed else MAX_AGE - entry.age))
        return {**lsa_document(header), "is_flushed": is_flushed, "at": at}

    def _near(self) -> list[Json]:
        """What is announced of longer and shorter prefixes, if nobody announces this one."""
        if self._all:
            return []
        found = {str(net): str(header.key.router) for net, header in self._found.near}
        for text in self._heard.table:
            if len(found) >= MOST_NEAR:
                break
            net = IPv4Network(text)
            if net.prefixlen and net != self._prefix and net.overlaps(self._prefix):
                found.setdefault(text, "")
        return [{"prefix": each, "advertising_router": by or None} for each, by in found.items()]

    # -- a program

    def _program(self) -> Json | None:
        """The program at veto, if the route that it would be asked about isn't in the table, or the
        program is by it."""
        it = self._known.programs.get("veto")
        best = [each for each in self._all if each.rank is not None and each.rank == self._all[0].rank]
        if it is None or not best:
            return None
        one = best[0]
        ends = [end for each in best for end in each.ends]
        question = Question(self._prefix, one.kind, one.cost, one.tag, one.distance, self._hops(ends))
        account = self._known.configuration.account
        trial = Trial(it, question, self._known.configuration.routerd, account)
        verdict = trial.verdict(self._rows(), list(counter_values(self._heard.counters).items()))
        leans, lines = leans_on(it.data), Lines(it)
        return {
            "hook": "veto",
            "object": it.object,
            "bound_instructions": it.bound,
            "attached_by": it.origin,
            "attached_at": it.at,
            "has_changed": has_changed(it),
            "question": {
                "prefix": str(question.prefix),
                "path_type": question.kind,
                "cost": question.cost,
                "external_route_tag": question.tag,
                "distance": question.distance,
                "next_hops": len(question.next_hops),
                "first_next_hop": self._name(question.next_hops[0]) if question.next_hops else None,
            },
            "answer": verdict.said,
            "lets_in": verdict.lets_in,
            "leans_on": leans,
            "tests": [
                {
                    "slot": each.slot,
                    "instruction": each.instruction,
                    "holds": each.is_taken,
                    "registers": each.values,
                    "line": lines.at(each.slot) or None,
                }
                for each in verdict.tests
            ],
        }

    def _rows(self) -> dict[str, int]:
        return {prefix: int(line.split(" ")[1]) for prefix, line in self._heard.table.items()}

    def _hops(self, ends: list[Vertex]) -> tuple[int, ...]:
        """The numbers of the interfaces by which the ways to these begin."""
        numbers = {
            each.address.ip: number
            for number, each in enumerate(self._known.configuration.interfaces, 1)
        }
        found = self._offers.first_hops(ends)
        return tuple(sorted(numbers[each] for each in found if each in numbers))

    def _name(self, number: int) -> str:
        return self._known.configuration.interfaces[number - 1].name

    # -- what may be why

    def _remarks(self) -> Iterator[str]:
        """What is wrong here, if the destination isn't reached as its LSAs say."""
        if self._topology.left_out:
            count = self._topology.left_out
            yield f"{count} packets came too fast to be read here: this answer may lack some LSAs"
        if self._line is not None:
            if not any(each.rank is not None for each in self._all) and not self._heard.silence:
                yield "routerd goes by LSAs that came a moment ago, and aren't seen here yet: ask again"
            return
        for each in self._interfaces:
            yield from interface_remarks(each)


def own_links(known: Known, said: RouterBody | None) -> RouterBody:
    """This router's links as its neighbors are now, beside the stub networks of its router-LSA:
    nobody is sent that while there is no neighbor."""
    links = [each for each in (said.links if said else ()) if each.type != LinkType.POINT_TO_POINT]
    for number, neighbor in known.neighbors.items():
        if neighbor.state == "Full" and number <= len(known.configuration.interfaces):
            it = known.configuration.interfaces[number - 1]
            kind, own = LinkType.POINT_TO_POINT, it.address.ip
            links.append(RouterLink(kind, neighbor.router_id, own, it.cost))
    return RouterBody(said.flags if said else 0, tuple(links))


def interface_remarks(each: Json) -> Iterator[str]:
    """Why an interface has no Full neighbor, and what is withheld there."""
    neighbor = each["neighbor"]
    reasons = [reason for remark in each["remarks"] for reason in remark["reasons"]]
    if not each["passive"] and (neighbor is None or neighbor["state"] != "Full"):
        who = f"{neighbor['router_id']} {neighbor['state']}" if neighbor else "no neighbor"
        why = f": {'; '.join(reasons)}" if reasons else ""
        yield f"{each['name']}: {who}{why}: what lies behind it isn't known"
    else:
        yield from (f"{each['name']}: {reason}" for reason in reasons if "withheld" in reason)


def lsa_document(header: LsHeader) -> Json:
    return {
        "type": LsType(header.key.type).title,
        "link_state_id": str(header.key.id),
        "advertising_router": str(header.key.router),
        "age_seconds": header.age,
    }


def kernel_document(it: Holding) -> Json:
    ways = [
        {"interface": each.interface, "address": str(each.address) if each.address else None}
        for each in it.route.ways
    ]
    return {
        "prefix": str(it.route.prefix),
        "protocol": OF_KERNEL.get(it.protocol, str(it.protocol)),
        "metric": it.metric,
        "discards": DISCARDS.get(it.type),
        "next_hops": ways,
    }


def heard_of(ask: Callable[[str], list[str]]) -> Heard:
    """`routerd`'s table and counters, by what it answers to these lines."""
    table = {}
    for line in ask("table"):
        prefix, space, rest = line.partition(" ")
        if space:
            table[prefix] = rest
    return Heard(table, ask("counters"))
