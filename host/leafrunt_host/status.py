"""What `leafrunt status` says: the same for a program, as JSON, and for a reader, as lines."""
from __future__ import annotations

import re
import time
from collections.abc import Callable, Iterable, Mapping
from dataclasses import dataclass, field, replace
from ipaddress import IPv4Address, IPv4Network

from leafrunt_host.announcements import Announced
from leafrunt_host.bfd import Sessions
from leafrunt_host.bfd_packets import Diagnostic, diagnostic_text
from leafrunt_host.clock import Step, moment_text
from leafrunt_host.configuration import Configuration, InterfaceSettings
from leafrunt_host.documents import schema_of
from leafrunt_host.forwarding import host_warnings
from leafrunt_host.history import History
from leafrunt_host.kernel import Json
from leafrunt_host.link import Link
from leafrunt_host.namesakes import Namesakes
from leafrunt_host.observing import Adjacencies
from leafrunt_host.owed import Debts
from leafrunt_host.programs import Attached
from leafrunt_host.refusals import Refusal
from leafrunt_host.rtnetlink import MAIN
from leafrunt_host.table_changes import MOST_KEPT, TableChange, change_document

NO_DIAGNOSTIC = diagnostic_text(Diagnostic.NONE)
SECONDS_TO_LOOK = 10.0
"""After so long a look of the keeper's hangs."""
NEIGHBOR = re.compile(r"neighbor (\d+) (\S+) (\w+)")
SILENT = "{}: what is said here is from before"
ALL_OUT = "the program at veto keeps all routes out: LSAs offer {}, and it lets none in"
UNKEPT = "after a restart neighbors with keys may refuse this router for their RouterDeadInterval"
PATTERN = "*?["
"""What makes a pattern of an interface's name (fnmatch(3)): there may be none of these."""
MOST_STOPPED = 64
"""Lines of `routerd` that are kept: one for each interface that it stops to serve."""


@dataclass(frozen=True)
class Neighbor:
    """A line of `neighbors`."""

    number: int
    router_id: IPv4Address
    state: str


def neighbors_of(lines: list[str]) -> dict[int, Neighbor]:
    """The neighbors by the numbers of their interfaces. A line that is none is left out."""
    found = {}
    for line in lines:
        read = NEIGHBOR.fullmatch(line)
        if read:
            found[int(read[1])] = Neighbor(int(read[1]), IPv4Address(read[2]), read[3])
    return found


@dataclass
class Kept:
    """What became of the kernel's table at the last look."""

    routes: int = 0
    refused: tuple[str, ...] = ()
    without_hop: tuple[bytes, ...] = ()
    error: str | None = None
    limited: int = 0
    """How many routes have more next hops than they may."""
    absent: int = 0
    """How many routes are kept for a moment though `routerd`'s table lacks them."""
    table: int = 0
    """How many routes `routerd`'s table has."""
    own: int = 0
    """How many of these are the router's own networks."""


@dataclass
class Known:
    """What a running box knows of itself; its threads change it, so each value is replaced whole."""

    configuration: Configuration
    links: dict[int, Link]
    adjacencies: Adjacencies
    routerd: int
    started: float = field(default_factory=time.time)
    neighbors: dict[int, Neighbor] = field(default_factory=dict)
    announced: dict[IPv4Network, Announced] = field(default_factory=dict)
    """The destinations that `routerd` has taken."""
    programs: dict[str, Attached] = field(default_factory=dict)
    """Those at the hooks."""
    kept: Kept = field(default_factory=Kept)
    stopped: tuple[str, ...] = ()
    """Interfaces that `routerd` serves no longer."""
    not_announced: tuple[str, ...] = ()
    """What isn't announced of what is asked for, and why: some lines."""
    refusal: Refusal | None = None
    """The last time that `routerd` refused what happens, or that it does."""
    steps: tuple[Step, ...] = ()
    """The last steps of the machine's clock."""
    history: History = field(default_factory=lambda: History(None))
    """What changed."""
    namesakes: Namesakes | None = None
    sessions: Sessions | None = None
    """BFD's, if an interface asks for it."""
    table_changes: tuple[tuple[float, TableChange], ...] = ()
    """What changed last of `routerd`'s table, and when."""
    state_faults: Callable[[], Iterable[str]] = tuple
    """Why numbers of authentication aren't kept over a restart."""
    unconfirmed: str | None = None
    """Until when a reload waits to be confirmed."""
    not_reloaded: str | None = None
    """Why the last reload was refused, and when; None once another one is done."""
    file_fault: str | None = None
    """Why a box wouldn't start with the configuration's file as it is now."""
    looked: float | None = None
    """When the keeper's last look ended, by the clock that nobody sets."""

    @property
    def by_hand(self) -> frozenset[str]:
        """The hooks of programs that were attached at the console."""
        return frozenset(hook for hook, it in self.programs.items() if it.by)

    def told(self, line: str) -> None:
        """A line of `routerd` on its standard error."""
        if "stopped" in line and len(self.stopped) < MOST_STOPPED:
            self.stopped = (*self.stopped, line)

    def note_table(self, moment: float, change: TableChange) -> None:
        it = replace(change, gone={}, come={})
        self.table_changes = (*self.table_changes, (moment, it))[-MOST_KEPT:]

    def publish(
        self, announced: dict[IPv4Network, Announced], not_announced: tuple[str, ...]
    ) -> None:
        self.announced, self.not_announced = announced, not_announced


def originated(known: Known) -> frozenset[IPv4Network]:
    """The destinations that this router announces: those that a price withholds aren't."""
    announced = known.announced.items()
    return frozenset(prefix for prefix, it in announced if it.answer == "originated")


def warnings_of(configuration: Configuration) -> list[str]:
    """What isn't wrong with the configuration or with the kernel's settings, as they are now, and
    yet should be known."""
    names = [each.name for each in configuration.interfaces]
    return [*configuration.advice, *host_warnings(names)]


def remarks_of(known: Known, now: float) -> list[str]:
    """What is wrong with the box as a whole, beside its interfaces."""
    steps = known.steps
    later = [sum(each.seconds for each in steps[at + 1 :]) for at in range(len(steps))]
    said = [each for step, more in zip(steps, later) if (each := step.remark(now, more))]
    refused = known.refusal.remark(time.time()) if known.refusal else None
    if refused and known.refusal and not (said and known.refusal.is_of_clock):
        said.insert(0, refused)
    said += filter(None, [known.namesakes.remark(now) if known.namesakes else None])
    said += known.not_announced
    said += [f"{each}: {UNKEPT}" for each in known.state_faults()]
    faults = (known.unconfirmed, known.not_reloaded, known.file_fault)
    said += [each for each in faults if each]
    if known.looked is not None and now - known.looked > SECONDS_TO_LOOK:
        said.append(
            f"no look at `routerd` and the kernel's table has ended for {now - known.looked:.0f} s: "
            "one of them doesn't answer"
        )
    return said


def since(known: Known, neighbor: Neighbor) -> float | None:
    """The moment, in seconds since 1970, from which on a neighbor has been in its state; None if it
    has come to that just now."""
    began = known.adjacencies.since(neighbor.number, neighbor.router_id, neighbor.state)
    return None if began is None else since_1970(began)


def interface_status(known: Known, number: int, each: InterfaceSettings) -> Json:
    """What is said of one interface."""
    said: Json = {
        "number": number,
        "name": each.name,
        "address": str(each.address),
        "mtu": each.mtu,
        "cost": each.cost,
        "hello_interval_seconds": each.hello_interval,
        "dead_interval_seconds": each.dead_interval,
        "retransmit_interval_seconds": each.retransmit_interval,
        "transmit_delay_seconds": each.transmit_delay,
        "key_ids": [key.id for key in each.keys],
        "passive": each.passive,
        "neighbor": None,
        "bfd": known.sessions.report(number) if known.sessions else None,
        "remarks": [],
        "counters": {},
    }
    link = known.links.get(number)
    if link is None:
        return said
    neighbor = known.neighbors.get(number)
    if neighbor and link.is_usable:
        address, began = link.next_hop(neighbor.router_id), since(known, neighbor)
        said["neighbor"] = {
            "router_id": str(neighbor.router_id),
            "address": str(address) if address else None,
            "state": neighbor.state,
            "since": began,
            "owed": link.owed.debts._asdict(),
        }
    said["remarks"] = [
        {
            "router_id": str(report.router_id) if report.router_id else None,
            "address": str(report.source) if report.source else None,
            "heard_ago": report.heard_ago,
            "reasons": list(report.reasons),
        }
        for report in link.reports(time.monotonic())
    ]
    said["counters"] = dict(link.counters)
    return said


def is_whole(known: Known) -> bool:
    """Whether each interface that isn't passive has a Full neighbor, and the kernel all routes."""
    active = {
        number
        for number, each in enumerate(known.configuration.interfaces, 1)
        if not each.passive
    }
    full = {each.number for each in known.neighbors.values() if each.state == "Full"}
    kept, awaited = known.kept, known.configuration.awaited
    is_kept = not (kept.error or kept.refused or kept.without_hop)
    is_there = active <= full and all(set(each) & set(PATTERN) for each in awaited)
    return is_there and is_kept and not any(it.withholds for it in known.links.values())


def at_rest_since(known: Known) -> float | None:
    """The moment, in seconds since 1970, from which on all neighbors have been Full, owed nothing
    and were owed nothing; None if one isn't, or does, or an interface has none, or `routerd` refuses
    what happens, or something of it doesn't come to the kernel."""
    if (known.refusal and known.refusal.until is None) or not is_whole(known):
        return None
    if known.namesakes and known.namesakes.remark(time.monotonic()):
        return None
    began = []
    for neighbor in known.neighbors.values():
        link, full = known.links.get(neighbor.number), since(known, neighbor)
        if neighbor.state != "Full" or link is None or full is None or link.owed.is_waiting:
            return None
        waited = link.owed.waited
        began.append(full if waited is None else max(full, since_1970(waited)))
    return max(began, default=None)


def since_1970(moment: float) -> float:
    """A moment of the clock that nobody sets, in seconds since 1970."""
    return time.time() - (time.monotonic() - moment)


def table_status(known: Known) -> Json:
    """What is said of `routerd`'s table, which is looked at if the kernel's is kept."""
    changes = [change_document(*each) for each in known.table_changes]
    return {"routes": known.kept.table, "changes": changes}


def program_documents(known: Known) -> list[Json]:
    """The programs at the hooks."""
    return [
        {
            "hook": hook,
            "object": it.object,
            "bound_instructions": it.bound,
            "attached_by": it.origin,
            "attached_at": it.at,
        }
        for hook, it in sorted(known.programs.items())
    ]


def status_of(
    known: Known,
    lsas: Mapping[str, int] | None = None,
    silence: str | None = None,
    offered: int | None = None,
) -> Json:
    """The whole, as values that JSON has; `lsas` says how many LSAs of each type there are,
    `silence` that `routerd` doesn't answer, and `offered` to how many destinations LSAs offer a
    way, if a program decides on these."""
    configuration = known.configuration
    kept = known.kept
    let_in = kept.table - kept.own
    all_out = kept.table > 0 and bool(offered) and let_in <= 0
    head = [SILENT.format(silence)] if silence else []
    head += [ALL_OUT.format(offered)] if all_out else []
    return {
        "schema": schema_of("status"),
        "box": configuration.name,
        "router_id": str(configuration.router_id),
        "since": known.started,
        "routerd": {
            "pid": known.routerd,
            "stopped": list(known.stopped),
            "refusal": known.refusal.document() if known.refusal else None,
            "unanswered": silence,
        },
        "kernel": {
            "kept": configuration.kernel,
            "routes": kept.routes,
            "refused": list(kept.refused),
            "without_next_hop": [each.decode() for each in kept.without_hop],
            "table": configuration.table.table,
            "vrf": configuration.table.vrf or None,
            "ecmp": configuration.table.ecmp,
            "limited": kept.limited,
            "error": kept.error,
        },
        "table": table_status(known) if configuration.kernel else None,
        "veto": None if offered is None else {"offered": offered, "let_in": max(0, let_in)},
        "programs": program_documents(known),
        "lsas": dict(lsas or {}),
        "at_rest_since": None if head else at_rest_since(known),
        "counter_names": dict(configuration.counters),
        "warnings": [
            *head,
            *remarks_of(known, time.monotonic()),
            *warnings_of(configuration),
        ],
        "interfaces": [
            interface_status(known, number, each)
            for number, each in enumerate(configuration.interfaces, 1)
        ],
    }


def kernel_line(kernel: Json) -> str:
    if not kernel["kept"]:
        return "kernel: its table is left alone (kernel = false)"
    if kernel["error"]:
        return f"kernel: its table isn't kept: {kernel['error']}"
    said = f"kernel: {kernel['routes']} route{'' if kernel['routes'] == 1 else 's'}"
    if kernel["vrf"]:
        said += f" in the VRF {kernel['vrf']}"
    elif kernel["table"] != MAIN:
        said += f" in table {kernel['table']}"
    if kernel["refused"]:
        said += f", {len(kernel['refused'])} refused: {kernel['refused'][0]}"
    if kernel["without_next_hop"]:
        said += f", {len(kernel['without_next_hop'])} without a known next hop"
    if kernel["limited"]:
        most = f"{kernel['ecmp']} next hop{'' if kernel['ecmp'] == 1 else 's'}"
        said += f", {kernel['limited']} with more than {most}: the others are left out"
    return said


def remark_lines(name: str, remarks: list[Json]) -> list[str]:
    """Why a neighbor isn't heard, a line for each that was seen; nothing of those with which all is
    well."""
    lines = []
    for each in remarks:
        who = " ".join(
            filter(None, [each["router_id"], f"({each['address']})" if each["address"] else None])
        )
        if each["reasons"]:
            lines.append(f"  {name}:{f' {who}:' if who else ''} {'; '.join(each['reasons'])}")
    return lines


def bfd_lines(name: str, session: Json | None) -> list[str]:
    """How the BFD session of an interface is."""
    if session is None:
        return []
    said = f"  {name}: BFD with {session['neighbor']} {session['state']}"
    said += f" since {moment_text(session['since'])}"
    if session["detection_time_seconds"]:
        said += f", detection time {session['detection_time_seconds']:g} s"
    if session["diagnostic"] != NO_DIAGNOSTIC:
        said += f", last: {session['diagnostic']}"
    if session["state"] != "Up":
        counted = ", ".join(f"{why} {count}" for why, count in session["discarded"].items())
        said += f"; discarded: {counted}" if counted else ""
    return [f"{said}; {session['error']}" if session["error"] else said]


def interface_lines(each: Json) -> list[str]:
    head = f"{each['name']}: {each['address']}, MTU {each['mtu']}"
    if each["passive"]:
        return [f"{head}: passive"]
    neighbor = each["neighbor"]
    if neighbor is None:
        return [f"{head}: no neighbor", *remark_lines(each["name"], each["remarks"])]
    at = f" ({neighbor['address']})" if neighbor["address"] else ""
    began = f" since {moment_text(neighbor['since'])}" if neighbor["since"] else ""
    state = f"{neighbor['router_id']}{at} {neighbor['state']}{began}"
    session = bfd_lines(each["name"], each["bfd"])
    if owed := str(Debts(**neighbor["owed"])):
        session.append(f"  {each['name']}: {owed}")
    return [f"{head}: {state}", *session, *remark_lines(each["name"], each["remarks"])]


def program_line(program: Json) -> str:
    return (
        f"program at {program['hook']}: {program['object']}, attached {program['attached_by']} at "
        f"{moment_text(program['attached_at'])}, bound {program['bound_instructions']}"
    )


def status_lines(status: Json) -> list[str]:
    """The same for a reader."""
    began = moment_text(status["since"])
    lines = [
        f"box {status['box']}: router {status['router_id']}, since {began}, routerd is process {status['routerd']['pid']}"
    ]
    lines += [f"routerd: {each}" for each in status["routerd"]["stopped"]]
    lines.append(kernel_line(status["kernel"]))
    lines += map(program_line, status["programs"])
    if status["veto"]:
        it = status["veto"]
        lines.append(f"veto: LSAs offer {it['offered']} routes, and it lets {it['let_in']} in")
    lines += [f"warning: {each}" for each in status["warnings"]]
    for each in status["interfaces"]:
        lines += interface_lines(each)
    if status["at_rest_since"]:
        began = moment_text(status["at_rest_since"])
        lines.append(f"at rest since {began}: all neighbors are Full, and nobody owes an LSA")
    return lines
