"""`leafrunt metrics`: what a box is doing, as OpenMetrics text (openmetrics.io), which Prometheus
and others read. The text is made by Debian's python3-prometheus-client.

All families are gauges and counters: Prometheus' older text format, which node_exporter's textfile
collector reads, has no other kinds.
"""
from __future__ import annotations

import sys
from collections import Counter
from collections.abc import Iterable, Iterator
from dataclasses import dataclass, field
from importlib import import_module
from typing import TYPE_CHECKING, Any

from leafrunt_host import documents
from leafrunt_host.client import Client, list_of
from leafrunt_host.journal import one_line
from leafrunt_host.listing import box_status, understood
from leafrunt_host.statuses import Stopped

if TYPE_CHECKING:
    from leafrunt_host.kernel import Json

PACKAGE = "python3-prometheus-client"
FORMATS = {
    "openmetrics": "prometheus_client.openmetrics.exposition",
    "prometheus": "prometheus_client.exposition",
}
"""The formats, and which module of the library writes each; the first is the usual one."""
STATES = ("Down", "Init", "ExStart", "Exchange", "Loading", "Full")
"""Of a neighbor of `routerd` (RFC 2328, 10.1)."""
BFD_STATES = ("AdminDown", "Down", "Init", "Up")
PATH_TYPES = ("intra", "inter", "ext1", "ext2")
GAUGE, COUNTER = "gauge", "counter"
PACKETS = {
    "in": ("leafrunt_packets_received", "OSPF packets that were taken."),
    "out": ("leafrunt_packets_sent", "OSPF packets of routerd."),
    "withheld LSAs": ("leafrunt_lsas_withheld", "LSAs of the neighbor that routerd can't have."),
}
"""Counters of an interface that have no reason in their name."""
REASONS = (
    ("refused", "leafrunt_packets_refused", "OSPF packets that don't count, by the reason."),
    ("dropped", "leafrunt_packets_dropped", "OSPF packets that weren't handed on, by the reason."),
    ("", "leafrunt_interface_faults", "Other faults at an interface, by what failed."),
)
"""What counters begin with whose name goes on with the reason."""


@dataclass
class Family:
    """A family of OpenMetrics: a name without the ending of a counter's samples, what it says, and
    its values by their labels."""

    name: str
    kind: str
    about: str
    unit: str = ""
    values: list[tuple[dict[str, str], float]] = field(default_factory=list)

    def add(self, value: float, **labels: object) -> None:
        """A value; no label acts on a terminal."""
        said = {name: one_line(str(each)) for name, each in labels.items()}
        self.values.append((said, float(value)))


def gauge(name: str, about: str, unit: str = "") -> Family:
    return Family(name, GAUGE, about, unit)


def of_one(family: Family, value: float, **labels: object) -> Family:
    """The family with one value."""
    family.add(value, **labels)
    return family


def families_of_box(status: Json) -> Iterator[Family]:
    """What the status says of the box as a whole."""
    box = status["box"]
    about = "The box and its Router ID."
    yield of_one(gauge("leafrunt_box_info", about), 1, box=box, router_id=status["router_id"])
    about = "When the box was started, in seconds since 1970."
    yield of_one(gauge("leafrunt_start_time_seconds", about, "seconds"), status["since"], box=box)
    about = "Warnings of leafrunt status."
    yield of_one(gauge("leafrunt_warnings", about), len(status["warnings"]), box=box)
    about = "Workers of routerd that stopped: their interfaces are served no longer."
    stopped = len(status["routerd"]["stopped"])
    yield of_one(gauge("leafrunt_routerd_stopped_workers", about), stopped, box=box)
    about = "1 where routerd refuses packets, timers and commands now, as for want of memory."
    refusal = status["routerd"]["refusal"]
    refuses = refusal is not None and refusal["until"] is None
    yield of_one(gauge("leafrunt_routerd_refuses", about), refuses, box=box)
    lsas = gauge("leafrunt_lsas", "LSAs in the link-state database, by their type.")
    for kind, count in status["lsas"].items():
        lsas.add(count, box=box, type=kind)
    yield lsas


def families_of_kernel(status: Json) -> Iterator[Family]:
    """What became of the kernel's table, if the box updates it."""
    box, kernel = status["box"], status["kernel"]
    if not kernel["kept"]:
        return
    about = "Routes of the box in the kernel's table."
    yield of_one(gauge("leafrunt_kernel_routes", about), kernel["routes"], box=box)
    about = "Routes and next hops that the kernel refuses now."
    yield of_one(gauge("leafrunt_kernel_refusals", about), len(kernel["refused"]), box=box)
    about = "Destinations that no next hop is known for."
    without = len(kernel["without_next_hop"])
    yield of_one(gauge("leafrunt_kernel_routes_without_next_hop", about), without, box=box)
    about = "Routes with more next hops than they may have."
    yield of_one(gauge("leafrunt_kernel_routes_limited", about), kernel["limited"], box=box)
    about = "1 where the kernel's table isn't kept now, by an error."
    failed = kernel["error"] is not None
    yield of_one(gauge("leafrunt_kernel_table_failed", about), failed, box=box)


def families_of_neighbors(status: Json) -> Iterator[Family]:
    """The neighbor at each interface that isn't passive: its state is 1, and the others 0."""
    box = status["box"]
    states = gauge("leafrunt_neighbor_state", "1 at the state of the interface's neighbor.")
    who = gauge("leafrunt_neighbor_info", "The neighbor at the interface that isn't Down.")
    about = "When the neighbor was first seen in its state, in seconds since 1970."
    began = gauge("leafrunt_neighbor_state_start_time_seconds", about, "seconds")
    for each in status["interfaces"]:
        if each["passive"]:
            continue
        neighbor = each["neighbor"] or {"state": STATES[0]}
        labels = {"box": box, "interface": each["name"]}
        for state in STATES:
            states.add(state == neighbor["state"], **labels, state=state)
        if "router_id" in neighbor:
            address = neighbor["address"] or ""
            who.add(1, **labels, router_id=neighbor["router_id"], address=address)
            if neighbor["since"] is not None:
                began.add(neighbor["since"], **labels)
    yield from (states, who, began)


def families_of_sessions(status: Json) -> Iterator[Family]:
    """The BFD session at each interface that has one: its state is 1, and the others 0."""
    states = gauge("leafrunt_bfd_state", "1 at the state of the interface's BFD session.")
    about = "BFD packets of the neighbor that don't count, by the reason."
    discarded = Family("leafrunt_bfd_packets_discarded", COUNTER, about)
    for each in status["interfaces"]:
        if each["bfd"]:
            labels = {"box": status["box"], "interface": each["name"]}
            for state in BFD_STATES:
                states.add(state == each["bfd"]["state"], **labels, state=state)
            for reason, count in each["bfd"]["discarded"].items():
                discarded.add(count, **labels, reason=reason)
    yield from (states, discarded)


def families_of_packets(status: Json) -> Iterator[Family]:
    """What was counted at the interfaces."""
    found = {name: Family(name, COUNTER, about) for name, about in PACKETS.values()}
    found |= {name: Family(name, COUNTER, about) for _, name, about in REASONS}
    for each in status["interfaces"]:
        labels = {"box": status["box"], "interface": each["name"]}
        counters = {name: 0 for name in PACKETS if not each["passive"]} | each["counters"]
        for said, count in counters.items():
            if said in PACKETS:
                found[PACKETS[said][0]].add(count, **labels)
                continue
            start, name, _ = next(it for it in REASONS if said.startswith(it[0]))
            reason = said.removeprefix(start).lstrip(": ").removeprefix("by ")
            found[name].add(count, **labels, reason=reason)
    yield from found.values()


def families_of_lists(
    status: Json, table: Iterable[str], counters: Iterable[str]
) -> Iterator[Family]:
    """What `routerd` says: the lines of `table` and of `counters`."""
    box = status["box"]
    routes = gauge("leafrunt_routes", "Routes of the routing table, by their path type.")
    kinds = Counter(each[2] for each in documents.read_each(documents.ROUTE, table))
    for kind in PATH_TYPES:
        routes.add(kinds[kind], box=box, path_type=kind)
    about = "The programs' counters that have a name in the configuration, or are above 0."
    family = Family("leafrunt_program_counts", COUNTER, about)
    for each in documents.counters_of(status, counters)["counters"]:
        family.add(each["value"], box=box, counter=each["counter"], name=each["name"] or "")
    yield from (routes, family)


def families_of(status: Json, table: Iterable[str], counters: Iterable[str]) -> list[Family]:
    """All families that have a value."""
    found = [
        *families_of_box(status),
        *families_of_neighbors(status),
        *families_of_sessions(status),
        *families_of_lists(status, table, counters),
        *families_of_kernel(status),
        *families_of_packets(status),
    ]
    return [each for each in found if each.values]


class Families:
    """Families as the library collects them."""

    def __init__(self, families: Iterable[Family]) -> None:
        self._families = list(families)

    def collect(self) -> Iterator[Any]:
        from prometheus_client.core import Metric

        for each in self._families:
            metric = Metric(each.name, each.about, each.kind, each.unit)
            ending = "_total" if each.kind == COUNTER else ""
            for labels, value in each.values:
                metric.add_sample(each.name + ending, labels, value)
            yield metric


def text_of(families: Iterable[Family], form: str) -> str:
    """The families in one of the formats. `Stopped` if the library isn't there."""
    try:
        made: bytes = import_module(FORMATS[form]).generate_latest(Families(families))
    except ImportError as error:
        raise Stopped(
            f"{sys.executable} has no module prometheus_client: apt-get install {PACKAGE}"
        ) from error
    return made.decode("utf-8")


def metrics_of(client: Client, form: str) -> str:
    """What `leafrunt metrics` prints."""
    status = box_status(client)
    table, counters = list_of(client.ask("table")), list_of(client.ask("counters"))
    with understood(client.box):
        return text_of(families_of(status, table, counters), form)
