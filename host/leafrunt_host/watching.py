"""`leafrunt watch`: a box's neighbors, routes and counters, looked at again and again."""
from __future__ import annotations

import sys
import threading
import time
from collections import deque
from collections.abc import Iterator, Mapping
from contextlib import closing
from dataclasses import dataclass, field

from leafrunt_host import documents
from leafrunt_host.client import Client, list_of
from leafrunt_host.clock import moment_text
from leafrunt_host.journal import one_line, where_it_failed
from leafrunt_host.kernel import Json
from leafrunt_host.listing import box_status, understood
from leafrunt_host.metrics import REASONS
from leafrunt_host.status import bfd_lines, kernel_line
from leafrunt_host.statuses import Status, Stopped
from leafrunt_host.terminal import Row, Screen, why_no_screen

MOST_EVENTS, MOST_WARNINGS = 8, 4
MOST_SHOWN = 2
"""Changes of which routes are shown."""
NEWS_SECONDS = 10.0
"""For so long a line is bold after what it says has changed."""
DAY, HOUR, MINUTE = 86_400, 3_600, 60
HEADING = "INTERFACE        NEIGHBOR         STATE     FOR          IN/S   OUT/S  REFUSED  DROPPED"
LEAVING = ("q", "Q", "\x03", "\x04")


@dataclass(frozen=True)
class Look:
    """What a box said at one moment: its status, the programs' counters by their numbers, and the
    moment by the clock that nobody sets."""

    status: Json
    counters: Mapping[int, int]
    moment: float


def look_at(client: Client) -> Look:
    """Asks a box. `Stopped` if it doesn't answer."""
    status = box_status(client)
    counters = list_of(client.ask("counters"))
    with understood(client.box):
        return Look(status, documents.counter_values(counters), time.monotonic())


@dataclass
class Watched:
    """What was seen of a box so far: the last two looks, and what changed of the neighbors."""

    now: Look
    before: Look | None = None
    events: deque[tuple[float, str]] = field(default_factory=lambda: deque(maxlen=MOST_EVENTS))

    def take(self, look: Look) -> None:
        """The next look."""
        self.before, self.now = self.now, look
        moment = time.time()
        self.events.extend((moment, each) for each in changes(self.before.status, look.status))

    def rate(self, before: int | None, now: int) -> str:
        """How many there were each second between the last two looks."""
        if before is None or self.before is None:
            return "-"
        seconds = self.now.moment - self.before.moment
        # fewer than before: the box was started anew
        return f"{max(0, now - before) / seconds:.1f}" if seconds > 0 else "-"

    def interface_before(self, number: int) -> Json | None:
        known = self.before.status["interfaces"] if self.before else []
        return next((each for each in known if each["number"] == number), None)


def changes(before: Json, after: Json) -> Iterator[str]:
    """What changed of the neighbors from one status to the next."""
    earlier = {each["name"]: said_of(each["neighbor"]) for each in before["interfaces"]}
    for each in after["interfaces"]:
        was, now = earlier.get(each["name"], "Down"), said_of(each["neighbor"])
        if was != now:
            yield f"{each['name']}: {was} -> {now}"


def said_of(neighbor: Json | None) -> str:
    return f"{neighbor['router_id']} {neighbor['state']}" if neighbor else "Down"


def duration(seconds: float) -> str:
    """As operators read it: days if there are any, then hours, minutes and seconds."""
    whole = max(0, int(seconds))
    days, rest = divmod(whole, DAY)
    clock = f"{rest // HOUR:02}:{rest % HOUR // MINUTE:02}:{rest % MINUTE:02}"
    return f"{days}d {clock}" if days else clock


def sum_of(counters: Mapping[str, int], start: str) -> int:
    return sum(count for name, count in counters.items() if name.startswith(start))


def interface_row(watched: Watched, each: Json, now: float) -> Row:
    """An interface's neighbor, since when it is so, and its packets."""
    neighbor, counters = each["neighbor"], each["counters"]
    if each["passive"]:
        return Row(f"{each['name']:<16} passive")
    known = watched.interface_before(each["number"])
    earlier = known["counters"] if known else {}
    rates = [
        watched.rate(earlier.get(what, 0) if known else None, counters.get(what, 0))
        for what in ("in", "out")
    ]
    refused, dropped = (sum_of(counters, start) for start, _, _ in REASONS[:2])
    who, state = (neighbor["router_id"], neighbor["state"]) if neighbor else ("-", "Down")
    since = neighbor["since"] if neighbor else None
    passed = duration(now - since) if since else "-"
    text = (
        f"{each['name']:<16} {who:<16} {state:<9} {passed:<12}"
        f" {rates[0]:>7} {rates[1]:>7} {refused:>8} {dropped:>8}"
    )
    return Row(text, since is not None and now - since < NEWS_SECONDS)


def remark_rows(each: Json) -> Iterator[Row]:
    """What is to be said of an interface: its BFD session, and why no neighbor is heard."""
    yield from map(Row, bfd_lines(each["name"], each["bfd"]))
    for remark in each["remarks"]:
        if remark["reasons"]:
            who = f"{remark['router_id']}: " if remark["router_id"] else ""
            yield Row(f"  {each['name']}: {who}{'; '.join(remark['reasons'])}")


def count_rows(status: Json) -> Iterator[Row]:
    """How many routes and LSAs there are."""
    table = status["table"]
    if table is None:
        yield Row("routes: not followed, since the kernel's table is left alone")
    else:
        yield Row(f"routes: {table['routes']}; {kernel_line(status['kernel'])}")
    lsas = ", ".join(f"{count} {kind}" for kind, count in status["lsas"].items() if count)
    yield Row(f"LSAs: {lsas or 'none'}")


def change_rows(status: Json, now: float) -> Iterator[Row]:
    """What changed last of the routes, the latest first."""
    table = status["table"]
    for number, change in enumerate(reversed(table["changes"] if table else [])):
        kinds = ("added", "removed", "changed")
        counts = [f"{change[each]} {each}" for each in kinds if change[each]]
        is_new = now - change["at"] < NEWS_SECONDS
        yield Row(f"  {moment_text(change['at'])}: {', '.join(counts)}", is_new)
        for route in change["shown"] if number < MOST_SHOWN else ():
            yield Row(f"    {route_text(route)}", is_new)


def route_text(route: Json) -> str:
    """What became of a route."""
    prefix, before, after = route["prefix"], route["before"], route["after"]
    if before is None:
        return f"+ {prefix} {after}"
    return f"- {prefix} {before}" if after is None else f"~ {prefix} {after} (was {before})"


def counter_rows(watched: Watched) -> Iterator[Row]:
    """The programs' counters, those with a name even if they are 0."""
    names = {number: name for name, number in watched.now.status["counter_names"].items()}
    before = watched.before.counters if watched.before else {}
    for number in sorted(watched.now.counters.keys() | names.keys()):
        value, title = watched.now.counters.get(number, 0), names.get(number, "")
        rate = watched.rate(before.get(number, 0) if watched.before else None, value)
        text = f"  counter {number:<3} {title:<32} {value:>20} {rate:>9}/s"
        yield Row(text, rate not in ("-", "0.0"))


def event_rows(watched: Watched, now: float) -> Iterator[Row]:
    """What changed of the neighbors while this was watched, the latest first."""
    for at, said in reversed(watched.events):
        yield Row(f"  {moment_text(at)}: {said}", now - at < NEWS_SECONDS)


def rows_of(watched: Watched, now: float) -> list[Row]:
    """What is shown; `now` is in seconds since 1970."""
    status = watched.now.status
    box = f"box {status['box']}: router {status['router_id']}"
    up, process = duration(now - status["since"]), status["routerd"]["pid"]
    rows = [Row(f"{box}, up {up}, routerd is process {process}   {moment_text(now)}", True)]
    warnings = [*status["routerd"]["stopped"], *status["warnings"]]
    rows += [Row(f"warning: {each}") for each in warnings[:MOST_WARNINGS]]
    if len(warnings) > MOST_WARNINGS:
        rows.append(Row(f"warning: {len(warnings) - MOST_WARNINGS} more: `leafrunt status`"))
    rows += [Row(""), Row(HEADING, True)]
    for each in status["interfaces"]:
        rows += [interface_row(watched, each, now), *remark_rows(each)]
    rows += [Row(""), *count_rows(status)]
    for title, part in (
        ("counters of programs:", counter_rows(watched)),
        ("neighbors that changed:", event_rows(watched, now)),
        ("routes that changed:", change_rows(status, now)),
    ):
        if found := list(part):
            rows += [Row(""), Row(title), *found]
    return rows


class Asker:
    """Asks a box in a thread of its own, so that keys count while it doesn't answer."""

    def __init__(self, client: Client, interval: float, screen: Screen) -> None:
        self._client, self._interval, self._screen = client, interval, screen
        self._ending = threading.Event()
        self._looks: deque[Look | Stopped] = deque()
        self._thread = threading.Thread(target=self._ask, name="asker", daemon=True)
        self._thread.start()

    def _ask(self) -> None:
        while not self._ending.wait(self._interval):
            try:
                look: Look | Stopped = look_at(self._client)
            except Stopped as why:
                look = why
            except Exception as error:
                look = Stopped(where_it_failed(error))
            if self._ending.is_set():
                return
            self._looks.append(look)
            self._screen.wake()
            if isinstance(look, Stopped):
                return

    def looks(self) -> Iterator[Look]:
        """What came since the last time. `Stopped` if the box doesn't answer any more."""
        while self._looks:
            look = self._looks.popleft()
            if isinstance(look, Stopped):
                raise look
            yield look

    def end(self) -> None:
        """Asks no more, and leaves the box."""
        self._ending.set()
        self._client.close()
        self._thread.join()


def followed(client: Client, first: Look, interval: float, screen: Screen) -> None:
    """Paints each look, until somebody leaves."""
    watched, asker = Watched(first), Asker(client, interval, screen)
    try:
        while True:
            with understood(client.box):
                for look in asker.looks():
                    watched.take(look)
                rows = rows_of(watched, time.time())
            silent = time.monotonic() - watched.now.moment
            if silent > 3 * interval + 1:
                rows.insert(1, Row(f"no answer for {silent:.0f} s", is_bold=True))
            screen.paint([*rows, Row(""), Row("q: leave")])
            typed = screen.key(1.0)
            if typed is None or any(each in LEAVING for each in typed):
                return
    finally:
        asker.end()


def watch(client: Client, interval: float, is_once: bool) -> Status:
    """The command. `Stopped` if there is no terminal, or the box doesn't answer any more."""
    why = None if is_once else why_no_screen()
    if why:
        raise Stopped(f"{why}: `leafrunt watch --once` prints what it would show", Status.USAGE)
    first = look_at(client)
    with understood(client.box):
        rows = rows_of(Watched(first), time.time())
    if is_once:
        print(*(one_line(each.text) for each in rows), sep="\n")
        return Status.DONE
    with closing(Screen(sys.stdin.fileno(), sys.stdout.fileno())) as screen, screen.in_use():
        try:
            followed(client, first, interval, screen)
        except KeyboardInterrupt:
            pass  # Ctrl-C leaves
    return Status.DONE
