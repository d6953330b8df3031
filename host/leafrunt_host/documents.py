"""The documents of `--json`: one object each, which begins with the name of its schema and the
box's (host/schemas has a JSON Schema of each). Within a version of a schema fields may come, and
none goes or gets another meaning.

Lists of `routerd` and of the box are read from the console's lines; whatever is no such line is an
error, and never part of a document.
"""
from __future__ import annotations

import re
from collections.abc import Callable, Iterable
from typing import TYPE_CHECKING

from leafrunt_host.lsas import (
    Body,
    ExternalBody,
    LinkType,
    LsHeader,
    LsType,
    NetworkBody,
    RouterBody,
    RouterFlags,
    RouterLink,
    SummaryBody,
)
from leafrunt_host.statuses import Stopped
from leafrunt_host.tables import shown

if TYPE_CHECKING:
    from leafrunt_host.kernel import Json
    from leafrunt_host.topology import Entry

VERSIONS = {
    "status": 1,
    "table": 1,
    "neighbors": 1,
    "interfaces": 1,
    "announced": 1,
    "programs": 1,
    "counters": 1,
    "database": 1,
    "why": 1,
    "changes": 1,
}
PREFIX = r"\d{1,3}(?:\.\d{1,3}){3}/\d{1,2}"
ROUTE = re.compile(
    rf"({PREFIX}) (intra|inter|ext1|ext2) (\d{{1,20}}) via (\d{{1,2}}(?:,\d{{1,2}})*)", re.ASCII
)
NEIGHBOR = re.compile(r"neighbor (\d{1,2}) (\d{1,3}(?:\.\d{1,3}){3}) (\w+)", re.ASCII)
COUNTER = re.compile(r"counter (\d{1,3}) (\d{1,20})", re.ASCII)
ANNOUNCED = re.compile(
    rf"({PREFIX}) (\d{{1,8}}) ([12]) (\d{{1,10}}) (originated|withheld) (\w+)", re.ASCII
)
PROGRAM = re.compile(r"(\w+) bound (\d{1,20}) (.+)", re.ASCII)
INTERFACE_FIELDS = (
    "number",
    "name",
    "address",
    "mtu",
    "cost",
    "hello_interval_seconds",
    "dead_interval_seconds",
    "retransmit_interval_seconds",
    "transmit_delay_seconds",
    "key_ids",
    "passive",
    "counters",
)
"""What a status says of an interface that isn't of its neighbor."""
OTHER_VERSION = (
    "the box {} was started by another version of leafrunt, and says its status in another form: "
    "start it anew"
)


def schema_of(kind: str) -> str:
    """The name of a document's schema, with its version."""
    return f"leafrunt/{kind}/{VERSIONS[kind]}"


def document(kind: str, box: str, **fields: object) -> Json:
    return {"schema": schema_of(kind), "box": box, **fields}


def status_read(box: str, status: object) -> Json:
    """A box's status, in the form that this version of leafrunt reads."""
    if isinstance(status, dict) and status.get("schema") == schema_of("status"):
        return status
    raise Stopped(OTHER_VERSION.format(box))


def read_each(form: re.Pattern[str], lines: Iterable[str]) -> Iterable[re.Match[str]]:
    """The lines of a list by their form. `Stopped` if one has another."""
    for line in lines:
        found = form.fullmatch(line)
        if found is None:
            raise Stopped(f"the box says a line that leafrunt doesn't know: {shown(line)}")
        yield found


def interfaces_by_number(status: Json) -> dict[str, Json]:
    """The interfaces of a status, by their numbers as lines have them."""
    return {str(each["number"]): each for each in status["interfaces"]}


def interface_at(interfaces: dict[str, Json], number: str) -> Json:
    if number not in interfaces:
        raise Stopped(f"the box speaks of interface {shown(number)}, which it doesn't have")
    return interfaces[number]


def hops_by(interfaces: dict[str, Json], via: str) -> list[Json]:
    """The next hops of a route; none if it is the router's own network (`via 0`)."""
    hops = []
    for number in via.split(","):
        if number != "0":
            each = interface_at(interfaces, number)
            neighbor = each["neighbor"]
            address = neighbor["address"] if neighbor else None
            hops.append({"interface": each["name"], "address": address})
    return hops


def table_of(status: Json, lines: Iterable[str]) -> Json:
    """The routing table, by the lines of `table`."""
    interfaces, routes = interfaces_by_number(status), []
    hops: dict[str, list[Json]] = {}
    for prefix, path_type, cost, via in (each.groups() for each in read_each(ROUTE, lines)):
        if via not in hops:
            hops[via] = hops_by(interfaces, via)
        route = {"prefix": prefix, "path_type": path_type, "cost": int(cost)}
        routes.append({**route, "next_hops": hops[via]})
    return document("table", status["box"], routes=routes)


def neighbors_of(status: Json, lines: Iterable[str]) -> Json:
    """The neighbors that aren't Down, by the lines of `neighbors`; what `routerd` doesn't say of
    them is the status'."""
    interfaces, found = interfaces_by_number(status), []
    for number, router_id, state in (each.groups() for each in read_each(NEIGHBOR, lines)):
        interface = interface_at(interfaces, number)
        known = interface["neighbor"] or {}
        is_same = known.get("router_id") == router_id
        found.append(
            {
                "interface": interface["name"],
                "interface_number": int(number),
                "router_id": router_id,
                "state": state,
                "address": known["address"] if is_same else None,
                "since": known["since"] if is_same and known["state"] == state else None,
            }
        )
    return document("neighbors", status["box"], neighbors=found)


def interfaces_of(status: Json) -> Json:
    interfaces = [{name: each[name] for name in INTERFACE_FIELDS} for each in status["interfaces"]]
    return document("interfaces", status["box"], interfaces=interfaces)


def counter_values(lines: Iterable[str]) -> dict[int, int]:
    """The programs' counters that are above 0, by the lines of `counters`."""
    return {int(each[1]): int(each[2]) for each in read_each(COUNTER, lines)}


def counters_of(status: Json, lines: Iterable[str]) -> Json:
    """The programs' counters that are above 0, and those that have a name in the configuration."""
    values = counter_values(lines)
    names = {number: name for name, number in status["counter_names"].items()}
    counters = [
        {"counter": each, "name": names.get(each), "value": values.get(each, 0)}
        for each in sorted(values.keys() | names.keys())
    ]
    return document("counters", status["box"], counters=counters)


def announced_of(status: Json, lines: Iterable[str]) -> Json:
    """The external destinations of this router, by the lines of `announced`."""
    announced = [
        {
            "prefix": prefix,
            "metric": int(metric),
            "metric_type": int(kind),
            "external_route_tag": int(tag),
            "state": state,
            "owner": owner,
        }
        for prefix, metric, kind, tag, state, owner in (
            each.groups() for each in read_each(ANNOUNCED, lines)
        )
    ]
    return document("announced", status["box"], announced=announced)


def programs_of(status: Json, lines: Iterable[str]) -> Json:
    """The programs at the hooks, by the lines of `programs`."""
    programs = [
        {"hook": each[1], "bound_instructions": int(each[2]), "object": each[3]}
        for each in read_each(PROGRAM, lines)
    ]
    return document("programs", status["box"], programs=programs)


# -- the database: made by the box, which has the LSAs


def database_of(
    box: str, entries: Iterable[tuple[LsHeader, Entry]], left_out: int, is_whole: bool
) -> Json:
    """The LSAs, with their bodies if they are asked for whole."""
    lsas = [lsa_of(header, entry, is_whole) for header, entry in entries]
    return document("database", box, lsas=lsas, packets_left_out=left_out)


def lsa_of(header: LsHeader, entry: Entry, is_whole: bool) -> Json:
    """An LSA's header, in the words of RFC 2328, A.4.1, and its body if that is asked for."""
    key = header.key
    said: Json = {
        "type": LsType(key.type).title,
        "link_state_id": str(key.id),
        "advertising_router": str(key.router),
        "sequence_number": f"{header.sequence & 0xFFFFFFFF:08x}",
        "age_seconds": header.age,
        "checksum": f"{header.checksum:04x}",
        "options": header.options,
        "length": header.length,
    }
    return {**said, "body": body_of(entry.body)} if is_whole else said


def body_of(body: Body | None) -> Json | None:
    """The body of an LSA, in the words of RFC 2328, A.4.2 to A.4.5; None if it can't be read."""
    match body:
        case RouterBody(flags, links):
            return {
                "area_border_router": bool(flags & RouterFlags.B),
                "as_boundary_router": bool(flags & RouterFlags.E),
                "virtual_link_endpoint": bool(flags & RouterFlags.V),
                "links": [link_of(each) for each in links],
            }
        case NetworkBody(mask, routers):
            return {"network_mask": str(mask), "attached_routers": list(map(str, routers))}
        case SummaryBody(mask, metric):
            return {"network_mask": str(mask), "metric": metric}
        case ExternalBody(mask, kind, metric, forwarding, tag):
            return {
                "network_mask": str(mask),
                "metric_type": kind,
                "metric": metric,
                "forwarding_address": str(forwarding),
                "external_route_tag": tag,
            }
    return None


def link_of(link: RouterLink) -> Json:
    known = {each.value: each.name.lower().replace("_", "-") for each in LinkType}
    return {
        "type": known.get(link.type, str(link.type)),
        "link_id": str(link.id),
        "link_data": str(link.data),
        "metric": link.metric,
    }


DOCUMENTS: dict[str, Callable[[Json, Iterable[str]], Json]] = {
    "table": table_of,
    "neighbors": neighbors_of,
    "interfaces": lambda status, _lines: interfaces_of(status),
    "announced": announced_of,
    "programs": programs_of,
    "counters": counters_of,
}
"""The document of each list, made of the box's status and the lines of the console."""
