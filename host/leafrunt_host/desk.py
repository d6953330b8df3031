"""What a line of the console is answered: `routerd`'s own lines are passed on, the box's are
answered from what it knows."""
from __future__ import annotations

import json
import logging
import re
import threading
import time
from collections.abc import Callable
from functools import partial
from ipaddress import IPv4Network

from leafrunt_host.announcements import Announcements
from leafrunt_host.area import area_of
from leafrunt_host.area_map import Destination, map_lines
from leafrunt_host.bridge import Bridge
from leafrunt_host.capture import Capture
from leafrunt_host.documents import database_of, document
from leafrunt_host.history import change_line, change_of, moment_of, prefix_of
from leafrunt_host.journal import Kept, where_it_failed
from leafrunt_host.kernel import KernelRoute, kernel_route
from leafrunt_host.lsas import LsHeader, RouterBody
from leafrunt_host.observing import Limiter
from leafrunt_host.offers import offered, router_key
from leafrunt_host.programs import attached
from leafrunt_host.router import LISTS, Router, RouterGone, RouterSilent
from leafrunt_host.server import Answer, Asked
from leafrunt_host.status import Known, neighbors_of, status_lines, status_of
from leafrunt_host.statuses import FAILED, REFUSED, Status, Stopped
from leafrunt_host.topology import (
    Entry,
    Topology,
    database_lines,
    is_of,
    meant_by,
    none_of,
    whole_lines,
)
from leafrunt_host.why import Heard, Why, heard_of, own_links, prefix_asked
from leafrunt_host.why_lines import why_lines

log = logging.getLogger("leafrunt.console")
LOG_LINES = 40
OF_PROGRAMS = ("attach", "detach")
OF_ANNOUNCEMENTS = ("add", "withdraw")
CHANGING = (*OF_PROGRAMS, *OF_ANNOUNCEMENTS, "capture", "reload", "down")
"""What lines that change something begin with: the log has them."""
CONFIRMED_WITHIN = re.compile(r"[1-9]\d{0,4}", re.ASCII)
SECONDS_FOR_A_LIST = 3.0
"""How long a list of `routerd` may take: it may be long, and the machine busy."""
MOST_LOGGED = 100
"""Lines of a minute with the same first word that it has."""


class Refused(Exception):
    """A word of the box's own can't be answered; the text says why."""


class Desk:
    """Answers lines, for any number of clients at once."""

    def __init__(
        self,
        known: Known,
        router: Router,
        announcements: Announcements,
        bridge: Bridge,
        topology: Topology,
        log: Kept,
        end: Callable[[], None],
        wake: Callable[[], None] = lambda: None,
    ) -> None:
        """`wake` has `routerd`'s table looked at soon."""
        self._known, self._router, self._bridge = known, router, bridge
        self._announcements = announcements
        self._topology, self._log, self._end, self._wake = topology, log, end, wake
        self._limits = {word: Limiter(MOST_LOGGED) for word in CHANGING}
        self.changing = threading.Lock()
        """Is held while a program is attached or detached, or a capture begins or ends."""
        self._capture: Capture | None = None
        self.reloads: dict[str, Callable[[], list[str]]] = {}
        self.reload_until_confirmed: Callable[[float], list[str]] = lambda _seconds: []
        """Take the configuration over as it is now, or say what would be done, by the words after
        `reload`, and say what they did; `Stopped` if it is left as it was."""
        self._own: dict[str, Callable[[str], list[str]]] = {
            "status": self._status,
            "interfaces": self._interfaces,
            "announced": self._announced,
            "programs": self._programs,
            "database": self._database,
            "map": self._map,
            "log": self._last_of_log,
            "why": self._why,
            "changes": self._changes,
        }

    def serve(self, router: Router) -> None:
        """From now on lines are for another `routerd`."""
        self._router = router

    def answer(self, asked: Asked) -> Answer:
        """The answer to a line: of a list the last line is `end`, as `routerd`'s are."""
        answer = self._answer(asked)
        limit = self._limits.get(asked.line.partition(" ")[0])
        if limit:
            said = answer.lines[-2] if answer.lines[-1:] == ["end"] else answer.lines[0]
            line = f"console: {asked.line}: {said} (by {asked.by})"
            for each in limit.passing("console", [line], time.monotonic()):
                log.info("%s", each)
        return answer

    def _answer(self, asked: Asked) -> Answer:
        word, _, rest = asked.line.partition(" ")
        try:
            if word in self._own:
                return Answer([*self._own[word](rest), "end"])
            if word == "capture":
                return Answer([self._captured(rest, asked)])
            if word == "reload":
                return Answer(self._reloaded(rest))
            if asked.line == "down":
                self._end()
                return Answer(["ending"], stays=True)
            self._router.look()
            if word in LISTS:
                ask = partial(self._router.ask, asked.line)
                return Answer(self._router.soon(ask, SECONDS_FOR_A_LIST))
            return Answer(self.passed_on(asked.line, asked.by))
        except (Refused, Stopped) as why:
            return Answer([f"refused: {why}"])
        except RouterGone as why:
            return Answer([f"refused: {why}: the box is ending"])
        except RouterSilent as why:
            return Answer([f"refused: {why} (`leafrunt status` says what is known)"])
        except Exception as error:
            # a mistake in this program: the client gets an answer all the same
            log.error("console: %.80r: %s", asked.line, where_it_failed(error))
            return Answer([f"refused: {where_it_failed(error)}"])

    def _reloaded(self, rest: str) -> list[str]:
        """A line for each thing that was done, or for each that is wrong."""
        if rest not in self.reloads:
            word, _, seconds = rest.partition(" ")
            if word != "confirm" or not CONFIRMED_WITHIN.fullmatch(seconds):
                raise Refused(
                    "after `reload` comes nothing, `dry-run`, `confirm` with 1 to 86400 seconds, or `keep`"
                )
        try:
            if rest in self.reloads:
                return [*self.reloads[rest](), "end"]
            return [*self.reload_until_confirmed(float(seconds)), "end"]
        except Stopped as why:
            word = REFUSED if why.status == Status.REFUSED else FAILED
            return [f"{word}{each}" for each in str(why).splitlines()]

    def passed_on(self, line: str, by: str = "") -> list[str]:
        """`routerd`'s answer, as it is. What it changes is noted, in the order in which `routerd`
        was asked, and who did it at a console; and the kernel's table follows at once."""
        word = line.partition(" ")[0]
        if word == "quit":
            return ["unknown"]
        if word in OF_ANNOUNCEMENTS:
            answer = [self._announcements.by_hand(line)]
            self._wake()
            return answer
        if word not in OF_PROGRAMS:
            return self._router.ask(line)
        with self.changing:
            answer = self._router.ask(line)
            self._note(line, answer[0], by)
            self._wake()
            return answer

    def _note(self, line: str, answer: str, by: str) -> None:
        before = self._known.programs
        self._known.programs = {**before, **attached(answer, line.partition(" ")[2], by)}
        if answer.startswith("detached "):
            hook = answer.partition(" ")[2]
            self._known.programs = {
                each: said for each, said in self._known.programs.items() if each != hook
            }
        for hook in before.keys() | self._known.programs.keys():
            one, other = before.get(hook), self._known.programs.get(hook)
            if one is not other:
                was, is_now = one.object if one else None, other.object if other else None
                self._known.history.note("program", hook, was, is_now, f"by {by or 'the configuration'}")

    # -- words of the box's own

    def _status(self, rest: str) -> list[str]:
        if rest not in ("", "json"):
            raise Refused("after `status` comes nothing, or `json`")
        silence = None
        try:
            neighbors = self._router.soon(partial(self._router.ask_list, "neighbors"))
            if neighbors is not None:
                self._known.neighbors = neighbors_of(neighbors)
        except RouterSilent as why:
            silence = str(why)
        status = status_of(self._known, self._topology.counts(), silence, self._offered())
        return [json.dumps(status)] if rest else status_lines(status)

    def _offered(self) -> int | None:
        """To how many destinations LSAs offer a way, if a program decides on them."""
        known = self._known
        if "veto" not in known.programs or not known.configuration.kernel:
            return None
        root, (entries, now) = known.configuration.router_id, self._topology.all_entries()
        said = next((it.body for key, it in entries if key == router_key(root)), None)
        own = own_links(known, said if isinstance(said, RouterBody) else None)
        return offered(entries, now, root, own)

    def _interfaces(self, rest: str) -> list[str]:
        none_after("interfaces", rest)
        lines = []
        for number, each in enumerate(self._known.configuration.interfaces, 1):
            link = self._known.links.get(number)
            counted = (
                "".join(f", {what} {count}" for what, count in sorted(link.counters.items()))
                if link
                else ""
            )
            keys = f" keys {','.join(str(key.id) for key in each.keys)}" if each.keys else ""
            lines.append(
                f"interface {number} {each.name} {each.address} mtu {each.mtu} cost {each.cost} "
                f"hello {each.hello_interval} dead {each.dead_interval} rxmt {each.retransmit_interval} "
                f"delay {each.transmit_delay}{keys}{' passive' if each.passive else ''}{counted}"
            )
        return lines

    def _announced(self, rest: str) -> list[str]:
        none_after("announced", rest)
        announced = self._known.announced
        return [
            f"{it.announcement.line().removeprefix('add ')} {it.answer} {it.owner}"
            for _, it in sorted(announced.items())
        ]

    def _programs(self, rest: str) -> list[str]:
        none_after("programs", rest)
        return [
            f"{hook} bound {it.bound} {it.object}"
            for hook, it in sorted(self._known.programs.items())
        ]

    def _database(self, rest: str) -> list[str]:
        words = rest.split(" ") if rest else []
        is_json = words[:1] == ["json"]
        try:
            (meant,) = map(meant_by, words[is_json:]) if words[is_json:] else (None,)
        except ValueError:
            raise Refused(
                "after `database` comes `json` or nothing, and then a Link State ID, A.B.C.D, or a "
                "destination, A.B.C.D/L, or nothing"
            ) from None
        if not is_json and meant is None:
            return database_lines(self._topology)
        entries = self._topology.entries()
        if meant is not None:
            entries = [each for each in entries if is_of(meant, *each)]
            if not entries:
                raise Refused(none_of(meant))
        if is_json:
            return [self._database_json(entries, is_whole=meant is not None)]
        return whole_lines(entries)

    def _database_json(self, entries: list[tuple[LsHeader, Entry]], is_whole: bool) -> str:
        name, left_out = self._known.configuration.name, self._topology.left_out
        return json.dumps(database_of(name, entries, left_out, is_whole))

    def _map(self, rest: str) -> list[str]:
        area = area_of((header.key, entry.body) for header, entry in self._topology.entries())
        if not rest:
            return map_lines(area, self._known.configuration.router_id)
        try:
            prefix = IPv4Network(rest)
        except ValueError:
            raise Refused(
                "after `map` comes nothing, or a destination: A.B.C.D/L whose other bits are 0, or A.B.C.D"
            ) from None
        route = kernel_route(prefix, self._known.configuration.table.table)
        if route is None:
            raise Refused(f"the kernel has no route to {prefix}")
        return map_lines(area, self._known.configuration.router_id, self._destination(route))

    def _destination(self, route: KernelRoute) -> Destination:
        """The kernel's route, by the addresses of the interfaces that it leaves by."""
        addresses = {each.name: each.address.ip for each in self._known.configuration.interfaces}
        ways = [
            f"via {each.address} dev {each.interface}" if each.address else f"dev {each.interface}"
            for each in route.ways
        ]
        said = f"the kernel's route to {route.prefix}: {' and '.join(ways) or 'none of its interfaces'}"
        foreign = [each.interface for each in route.ways if each.interface not in addresses]
        if foreign:
            said += f" ({', '.join(foreign)} isn't this router's)"
        own = tuple(
            addresses[each.interface]
            for each in route.ways
            if each.interface in addresses and each.address
        )
        return Destination(route.prefix, own, said)

    def _why(self, rest: str) -> list[str]:
        is_json = rest.startswith("json ")
        text = rest.removeprefix("json ")
        heard = self._heard()
        try:
            prefix = prefix_asked(text, heard, self._topology)
        except ValueError:
            raise Refused(
                "after `why` comes a destination: A.B.C.D/L whose other bits are 0, or an address"
            ) from None
        said = Why(self._known, self._topology, heard, prefix).document()
        return [json.dumps(said)] if is_json else why_lines(said)

    def _changes(self, rest: str) -> list[str]:
        """After the word: `json`, a destination, and `since` with a moment in seconds since 1970; each
        may be left out."""
        words = rest.split()
        is_json, prefix, since = words[:1] == ["json"], None, float("-inf")
        words = words[is_json:]
        try:
            if words[-2:-1] == ["since"]:
                since, words = moment_of(words[-1].replace("_", " "), time.time()), words[:-2]
            if words:
                (text,) = words
                prefix = prefix_of(text)
        except ValueError:
            raise Refused(
                "after `changes` comes a destination, A.B.C.D/L, or nothing, and then `since` and a "
                "moment: 02:14, 2026-12-01_02:14, 90m or 2h ago; or nothing"
            ) from None
        found = self._known.history.last(prefix, since)
        if not is_json:
            return list(map(change_line, found))
        said = list(map(change_of, found))
        return [json.dumps(document("changes", self._known.configuration.name, changes=said))]

    def _heard(self) -> Heard:
        """What `routerd` says of its routes, if it says it soon."""
        router = self._router
        try:
            return router.soon(lambda: heard_of(lambda line: router.ask_list(line) or []))
        except RouterSilent as why:
            return Heard({}, [], str(why))

    def _last_of_log(self, rest: str) -> list[str]:
        if rest and not (rest.isascii() and rest.isdigit() and len(rest) <= 6):
            raise Refused("after `log` comes nothing, or how many lines")
        return self._log.last(int(rest) if rest else LOG_LINES)

    def _captured(self, rest: str, asked: Asked) -> str:
        if rest == "off":
            return self.end_capture() or "refused: there is no capture"
        if not rest:
            raise Refused("after `capture` comes a new file's path, or `off`")
        if asked.descriptor is None:
            raise Refused("no file came with the line: `leafrunt console` makes it")
        descriptor, asked.descriptor = asked.descriptor, None
        with self.changing:
            try:
                capture = Capture(descriptor, rest)
            except ValueError as error:
                raise Refused(f"{rest}: {error}") from None
            if self._capture:
                capture.end()
                raise Refused(
                    f"a capture to {self._capture.name} is under way: `capture off` ends it"
                )
            self._capture = capture
            self._bridge.tap = lambda _interface, packet: capture.take(packet)
        return f"capturing to {rest}"

    def end_capture(self) -> str | None:
        """Ends the capture that is under way, and says how many packets it has."""
        with self.changing:
            capture, self._capture, self._bridge.tap = self._capture, None, None
        return capture.end() if capture else None


def none_after(word: str, rest: str) -> None:
    if rest:
        raise Refused(f"after `{word}` comes nothing")
