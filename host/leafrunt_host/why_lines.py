"""The document of `leafrunt why` as lines for a reader."""
from __future__ import annotations

from collections.abc import Iterator

from leafrunt_host.clock import moment_text
from leafrunt_host.kernel import Json
from leafrunt_host.veto_trial import value_text

OWN_PROTOCOL = "leafrunt"


def why_lines(why: Json) -> list[str]:
    return [
        *kernel_lines(why),
        *table_lines(why),
        *lsa_lines(why),
        *program_lines(why["program"]),
        *(f"  {each}" for each in why["remarks"]),
        *change_lines(why["changes"]),
    ]


def hops_text(hops: list[Json]) -> str:
    """Next hops as `ip route` says them."""
    said = [
        f"via {each['address']} dev {each['interface']}" if each["address"] else f"dev {each['interface']}"
        for each in hops
    ]
    return ", ".join(said) or "without a path"


def route_text(route: Json) -> str:
    said = f"{route['prefix']} {route['discards'] or hops_text(route['next_hops'])}"
    if route["protocol"] == OWN_PROTOCOL:
        return said
    whose = "the kernel's own" if route["protocol"] == "kernel" else "another program's"
    return f"{said} ({whose}: proto {route['protocol']}, metric {route['metric']})"


def kernel_lines(why: Json) -> Iterator[str]:
    kernel, prefix = why["kernel"], why["prefix"]
    if kernel["error"]:
        yield f"kernel: {kernel['error']}"
    if kernel["route"]:
        yield f"kernel: {route_text(kernel['route'])}"
    elif kernel["shorter"]:
        yield f"kernel: no route to {prefix}: packets take the shorter {route_text(kernel['shorter'])}"
    elif not kernel["error"]:
        yield f"kernel: no route to {prefix}, and no shorter one: packets are dropped"
    for each in kernel["refused"]:
        yield f"  the kernel refuses the box's: {each}"
    if kernel["left_out"]:
        yield f"  left out of the kernel: {kernel['left_out']}"


def table_lines(why: Json) -> Iterator[str]:
    table, prefix = why["table"], why["prefix"]
    if table["silence"]:
        yield table["silence"]
    elif table["route"]:
        it = table["route"]
        hops = hops_text(it["next_hops"]) if it["next_hops"] else "a network of this router's own"
        yield f"routerd: in its table: {prefix} {it['path_type']} {it['cost']} {hops}"
    else:
        count = table["routes"]
        yield f"routerd: not in its table of {count} route{'' if count == 1 else 's'}"


def lsa_text(lsa: Json) -> str:
    return f"{lsa['type']}-LSA {lsa['link_state_id']} of {lsa['advertising_router']}"


def lsa_lines(why: Json) -> Iterator[str]:
    for each in why["announced_by"]:
        said = each["why_not"] or "the best"
        yield f"  {lsa_text(each)} (age {each['age_seconds']}): {each['says']}: {said}"
    for each in why["withdrawn"]:
        at = moment_text(each["at"])
        how = "withdrawn" if each["is_flushed"] else "ran out, an hour after its last refresh,"
        flushed = " (flushed at MaxAge)" if each["is_flushed"] else ""
        yield f"  {lsa_text(each)}: {how} at {at}{flushed}"
    if not why["announced_by"] and not why["withdrawn"]:
        yield f"  no LSA of the {why['lsas']} here announces {why['prefix']}"
    for each in why["near"]:
        by = f", announced by {each['advertising_router']}" if each["advertising_router"] else ", in the table"
        yield f"  near: {each['prefix']}{by}"


def program_lines(program: Json | None) -> Iterator[str]:
    if program is None:
        return
    asked = {True: "lets it in", False: "keeps it out", None: "said nothing of use"}
    yield (
        f"program: {program['hook']} {program['object']} (attached {program['attached_by']} at "
        f"{moment_text(program['attached_at'])}, bound {program['bound_instructions']}) "
        f"{asked[program['lets_in']]}, asked again now: {program['answer']}"
    )
    if program["has_changed"]:
        yield "  its file has changed since, or is gone: what was attached is asked"
    if program["leans_on"]:
        yield f"  it goes by {', '.join(program['leans_on'])}: its answer may have been another then"
    it = program["question"]
    said = f"prefix {it['prefix']}, {it['path_type']}, cost {it['cost']}, tag {it['external_route_tag']}"
    hops = f"next hops {it['next_hops']}" + (f", first {it['first_next_hop']}" if it["first_next_hop"] else "")
    yield f"  asked: {said}, distance {it['distance']}, {hops}"
    for each in program["tests"]:
        values = ", ".join(f"{name} = {value_text(n)}" for name, n in each["registers"].items())
        holds = "yes" if each["holds"] else "no"
        line = f"   {each['line']}" if each["line"] else ""
        yield f"  slot {each['slot']}: {each['instruction']}: {holds} ({values}){line}"


def change_lines(changes: list[Json]) -> Iterator[str]:
    for each in changes:
        cause = f" ({each['cause']})" if each["cause"] else ""
        before, after = each["before"] or "no route", each["after"] or "no route"
        yield f"changed at {moment_text(each['at'])}: {before} -> {after}{cause}"
