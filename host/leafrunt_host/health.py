"""`leafrunt status --check`: whether a box is well, by its status, for Nagios and its like: a line for
each complaint, and 0, 1 or 2 (monitoring-plugins.org, "Plugin Return Codes")."""
from __future__ import annotations

from collections.abc import Iterator
from enum import IntEnum
from typing import TYPE_CHECKING

if TYPE_CHECKING:
    from leafrunt_host.kernel import Json


class Health(IntEnum):
    OK = 0
    WARNING = 1
    CRITICAL = 2


Complaint = tuple[Health, str]


def complaints(status: Json) -> list[Complaint]:
    """What is wrong, the worst first."""
    return sorted([*of_box(status), *of_kernel(status["kernel"]), *of_interfaces(status)], reverse=True)


def of_box(status: Json) -> Iterator[Complaint]:
    routerd, veto = status["routerd"], status["veto"]
    worst = {routerd["unanswered"]} - {None}
    table = status["table"] or {"routes": 0}
    if veto and veto["offered"] and not veto["let_in"] and table["routes"]:
        worst.add("the program at veto keeps all routes out")
    for each in sorted(worst):
        yield Health.CRITICAL, each
    if routerd["refusal"] and routerd["refusal"]["until"] is None:
        said = routerd["refusal"]["reason"] or routerd["refusal"]["answer"]
        yield Health.CRITICAL, f"routerd refuses what happens: {said}"
    for each in routerd["stopped"]:
        yield Health.CRITICAL, f"routerd: {each}"
    for each in status["warnings"]:
        if not any(each.startswith(one) for one in worst):
            yield Health.WARNING, each


def of_kernel(kernel: Json) -> Iterator[Complaint]:
    if kernel["error"]:
        yield Health.CRITICAL, f"the kernel's table isn't kept: {kernel['error']}"
    for each in kernel["refused"]:
        yield Health.WARNING, f"the kernel refuses {each}"
    if kernel["without_next_hop"]:
        count = len(kernel["without_next_hop"])
        yield Health.WARNING, f"{count} routes without a known next hop"


def of_interfaces(status: Json) -> Iterator[Complaint]:
    active = [each for each in status["interfaces"] if not each["passive"]]
    full = [each for each in active if each["neighbor"] and each["neighbor"]["state"] == "Full"]
    if active and not full:
        yield Health.CRITICAL, "no neighbor is Full"
    for each in active:
        reasons = [reason for remark in each["remarks"] for reason in remark["reasons"]]
        neighbor = each["neighbor"]
        if each not in full:
            state = f"{neighbor['router_id']} is {neighbor['state']}" if neighbor else "no neighbor"
            why = f": {'; '.join(reasons)}" if reasons else ""
            yield Health.WARNING, f"{each['name']}: {state}{why}"
        else:
            yield from ((Health.WARNING, f"{each['name']}: {reason}") for reason in reasons)


def checked(status: Json) -> tuple[Health, list[str]]:
    """The whole in one word, and a line for each complaint."""
    found = complaints(status)
    worst = max((health for health, _ in found), default=Health.OK)
    full = sum(
        1
        for each in status["interfaces"]
        if each["neighbor"] and each["neighbor"]["state"] == "Full"
    )
    said = f"{full} neighbors are Full, {status['kernel']['routes']} routes in the kernel"
    head = found[0][1] if found else said
    more = f" (and {len(found) - 1} more)" if len(found) > 1 else ""
    lines = [f"{health.name}: {text}" for health, text in found]
    return worst, [f"LEAFRUNT {worst.name}: box {status['box']}: {head}{more}", *lines]
