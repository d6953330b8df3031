"""The area as a Graphviz graph: `leafrunt map | dot -Tsvg >area.svg`."""
from __future__ import annotations

from collections.abc import Iterator
from dataclasses import dataclass, field
from ipaddress import IPv4Address, IPv4Network

from leafrunt_host.area import Announced, Area, Step, Vertex, Ways, network, router
from leafrunt_host.lsas import LinkType, RouterLink, network_of

MOST_SHOWN = 6
"""This many of the prefixes that one router announces are written out; the others are counted."""
MARKED = 'color="#c00000", fontcolor="#c00000", penwidth=2.5'
HEAD = [
    "digraph area {",
    '  graph [fontname="sans-serif", labelloc=t, ranksep=0.6, nodesep=0.4];',
    '  node [fontname="sans-serif", fontsize=11];',
    '  edge [fontname="sans-serif", fontsize=9, dir=none];',
]


@dataclass(frozen=True)
class Destination:
    """What `--to` asks for: the kernel's route, and where it leaves this router."""

    prefix: IPv4Network
    own_addresses: tuple[IPv4Address, ...]
    """The addresses of the own interfaces that the kernel sends by."""
    said: str


@dataclass
class Marked:
    """What is on the way."""

    steps: set[Step] = field(default_factory=set)
    ends: set[Vertex] = field(default_factory=set)
    prefix: IPv4Network | None = None

    def has_link(self, start: IPv4Address, link: RouterLink | None) -> bool:
        return any(step.start == router(start) and step.link == link for step in self.steps)


def marked_way(area: Area, own: IPv4Address, to: Destination) -> Marked:
    """The way that a packet takes: the first step as the kernel's route says, then as each next
    router's least ways go."""
    marked = Marked(prefix=to.prefix)
    for step in area.steps(router(own)) if own in area.routers else ():
        if step.link is None or step.link.data not in to.own_addresses:
            continue
        marked.steps.add(step)
        beyond = Ways(area, step.end.id)
        ends = beyond.ends_for(to.prefix)
        marked.ends.update(ends)
        marked.steps.update(beyond.steps_to(ends))
    if not marked.steps and own in area.routers:
        marked.ends.update(
            each for each in Ways(area, own).ends_for(to.prefix) if each == router(own)
        )
    return marked


def map_lines(area: Area, own: IPv4Address, to: Destination | None = None) -> list[str]:
    """The graph, a line each: routers as boxes, networks as ellipses, what is announced from
    outside as notes."""
    marked = marked_way(area, own, to) if to else Marked()
    title = f"area 0.0.0.0, as {own} knows it" + (f"\\n{to.said}" if to else "")
    lines = [*HEAD, f'  label="{title}";']
    lines += router_lines(area, own, marked)
    drawn: set[IPv4Network] = set()
    lines += point_to_point_lines(area, marked, drawn)
    lines += transit_lines(area, marked)
    lines += stub_lines(area, marked, drawn)
    lines += announced_lines(area, marked)
    return [*lines, "}"]


def router_lines(area: Area, own: IPv4Address, marked: Marked) -> Iterator[str]:
    on_way = {vertex for step in marked.steps for vertex in (step.start, step.end)} | marked.ends
    for each in sorted(area.routers):
        filled = ', style=filled, fillcolor="#dde8f6"' if each == own else ""
        mark = f", {MARKED}" if router(each) in on_way else ""
        label = f"{each}\\nthis router" if each == own else f"{each}"
        yield f'  "{each}" [shape=box, label="{label}"{filled}{mark}];'


def is_one_network(
    area: Area, one: IPv4Address, other: IPv4Address, ends: tuple[IPv4Address, ...]
) -> IPv4Network | None:
    """The stub network of either end that has both addresses of a link: it's the link's own
    network."""
    for end in ends:
        for stub, _ in area.stubs(end):
            if stub.prefixlen and one in stub and other in stub:
                return stub
    return None


def pairs(
    area: Area, one: IPv4Address, other: IPv4Address
) -> Iterator[tuple[RouterLink | None, RouterLink | None]]:
    """The links between two routers, each with the one that leads back: that of the same network,
    else the next in order."""
    there, back = area.neighbor_links(one, other), area.neighbor_links(other, one)
    alone = []
    for link in there:
        same = next(
            (each for each in back if is_one_network(area, link.data, each.data, (one, other))),
            None,
        )
        if same:
            back.remove(same)
            yield link, same
        else:
            alone.append(link)
    for at in range(max(len(alone), len(back))):
        yield alone[at] if at < len(alone) else None, back[at] if at < len(back) else None


def point_to_point_lines(area: Area, marked: Marked, drawn: set[IPv4Network]) -> Iterator[str]:
    """A line between two routers for each link; `drawn` gets the networks of the links, which need
    no node of their own."""
    ids = sorted(area.routers)
    linked = {
        (one, link.id)
        for one in ids
        for link in area.routers[one].links
        if link.type == LinkType.POINT_TO_POINT
    }
    for one, other in sorted({(min(pair), max(pair)) for pair in linked}):
        for there, back in pairs(area, one, other):
            net = (
                is_one_network(area, there.data, back.data, (one, other))
                if there and back
                else None
            )
            if net:
                drawn.add(net)
            yield link_line(one, other, there, back, net, marked)


def link_line(
    one: IPv4Address,
    other: IPv4Address,
    there: RouterLink | None,
    back: RouterLink | None,
    net: IPv4Network | None,
    marked: Marked,
) -> str:
    """One link: its network and its cost, at each end if the two differ; an arrow if it is on the
    way; dashed if nothing leads back, so that it doesn't count."""
    costs = [each.metric for each in (there, back) if each]
    words = [f"{net}"] if net else []
    ends = ""
    if len(set(costs)) == 1:
        words.append(f"cost {costs[0]}")
    else:
        ends = f', taillabel="{costs[0]}", headlabel="{costs[1]}"'
    style = ""
    if there and marked.has_link(one, there):
        style = f", dir=forward, {MARKED}"
    elif back and marked.has_link(other, back):
        style = f", dir=back, {MARKED}"
    elif there is None or back is None:
        style = f", style=dashed, dir={'forward' if there else 'back'}"
    label = "\\n".join(words)
    return f'  "{one}" -> "{other}" [label="{label}"{ends}{style}];'


def transit_lines(area: Area, marked: Marked) -> Iterator[str]:
    """Networks with several routers, and their routers' links to them."""
    for identity, body in sorted(area.networks.items()):
        net = network_of(identity, body.mask)
        on_way = network(identity) in marked.ends or any(
            network(identity) in (step.start, step.end) for step in marked.steps
        )
        mark = f", {MARKED}" if on_way else ""
        yield f'  "network {identity}" [shape=ellipse, label="{net or identity}"{mark}];'
        for each in sorted(area.routers):
            for link in area.routers[each].links:
                if link.type != LinkType.TRANSIT or link.id != identity:
                    continue
                style = "" if each in body.routers else ", style=dashed"
                if marked.has_link(each, link):
                    style += f", dir=forward, {MARKED}"
                elif Step(network(identity), None, router(each)) in marked.steps:
                    style += f", dir=back, {MARKED}"
                yield f'  "{each}" -> "network {identity}" [label="cost {link.metric}"{style}];'


def stub_lines(area: Area, marked: Marked, drawn: set[IPv4Network]) -> Iterator[str]:
    """Networks that lead to no other router, apart from those that are drawn as links."""
    named: set[IPv4Network] = set()
    for each in sorted(area.routers):
        for stub, metric in area.stubs(each):
            if stub in drawn:
                continue
            is_end = stub == marked.prefix and router(each) in marked.ends
            if stub not in named:
                named.add(stub)
                mark = f", {MARKED}" if stub == marked.prefix and marked.ends else ""
                yield f'  "{stub}" [shape=ellipse, label="{stub}"{mark}];'
            style = f", dir=forward, {MARKED}" if is_end else ""
            yield f'  "{each}" -> "{stub}" [label="cost {metric}"{style}];'


def announced_lines(area: Area, marked: Marked) -> Iterator[str]:
    """What a router announces from outside of the area: one note for each router."""
    for each, ones in sorted(area.announced.items()):
        is_end = router(each) in marked.ends and any(one.prefix == marked.prefix for one in ones)
        first = sorted(ones, key=lambda one: (one.prefix != marked.prefix, one.prefix))
        shown = [announced_text(one) for one in first[:MOST_SHOWN]]
        if len(first) > MOST_SHOWN:
            shown.append(f"and {len(first) - MOST_SHOWN} more")
        text = "\\l".join(shown) + "\\l"
        mark = f", {MARKED}" if is_end else ""
        yield f'  "announced by {each}" [shape=note, label="{text}"{mark}];'
        style = f"dir=forward, {MARKED}" if is_end else "style=dotted"
        yield f'  "{each}" -> "announced by {each}" [{style}];'


def announced_text(one: Announced) -> str:
    """As BIRD and FRR write it: E1 and E2 are externals of type 1 and 2, IA what another area has."""
    return f"{one.prefix} {f'E{one.type}' if one.type else 'IA'} metric {one.metric}"
