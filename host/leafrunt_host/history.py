"""What changed of routes, neighbors and programs, when, and what came just before it: bounded, and kept
over a restart of the box, for whoever asks in the morning (`leafrunt changes`)."""
from __future__ import annotations

import json
import logging
import socket
import threading
import time
from collections import deque
from collections.abc import Iterable, Mapping
from ipaddress import IPv4Address, IPv4Network
from pathlib import Path
from typing import NamedTuple

from leafrunt_host.clock import moment_text
from leafrunt_host.kernel import Json
from leafrunt_host.lsas import MAX_AGE, LsType
from leafrunt_host.packets import LSA_HEADER_LENGTH
from leafrunt_host.table_changes import RouteChange, route_changes
from leafrunt_host.written import replace_file

log = logging.getLogger("leafrunt.box")
MOST_ROUTES, MOST_OTHERS = 10_000, 2_000
LARGEST_FILE = 16 << 20
LONGEST_TEXT = 300
SECONDS_TO_SAVE = 5.0
SECONDS_TO_END = 2.0
SECONDS_BEFORE = 10.0
"""What came so long before a change may be its cause."""
MOST_CAUSES = 20_000
KINDS = ("route", "neighbor", "program", "box")
TITLES = {int(each): each.title for each in LsType}


class Change(NamedTuple):
    """One change: at which moment, of what kind, of which destination, neighbor or hook; what was
    before and after, None if nothing was; and what came just before it."""

    at: float
    kind: str
    name: str
    before: str | None
    after: str | None
    cause: str = ""


def change_read(line: str) -> Change | None:
    """A change as the file has it; None if it is none."""
    try:
        at, kind, *texts = json.loads(line)
        name, before, after, cause = texts
    except (ValueError, TypeError, RecursionError):
        return None
    is_moment = isinstance(at, (int, float)) and not isinstance(at, bool)
    texts_are = all(isinstance(each, str) for each in (name, cause))
    both_are = all(each is None or isinstance(each, str) for each in (before, after))
    if not is_moment or kind not in KINDS or not texts_are or not both_are:
        return None
    short = (each[:LONGEST_TEXT] if each else each for each in (name, before, after, cause))
    return Change(float(at), kind, *short)


class Causes:
    """What may be the cause of a change of routes: the LSAs that came last, and the last thing that
    concerns all routes. Any thread may tell of one."""

    def __init__(self) -> None:
        self._by_prefix: dict[tuple[int, int], tuple[float, bytes]] = {}
        self._last: tuple[float, str] = (float("-inf"), "")

    def lsa(self, data: bytes) -> None:
        """An LSA came that says something new."""
        now = time.monotonic()
        if data[3] in (LsType.EXTERNAL, LsType.SUMMARY) and len(data) >= 24:
            mask = int.from_bytes(data[20:24], "big")
            if len(self._by_prefix) >= MOST_CAUSES:
                self._by_prefix = {}
            self._by_prefix[int.from_bytes(data[4:8], "big") & mask, mask] = now, data
        else:
            self._last = now, lsa_text(data)

    def event(self, text: str) -> None:
        """Something happened that may change any route."""
        self._last = time.monotonic(), text

    def of_all(self) -> str:
        """What concerned all routes last, if that was a moment ago."""
        at, text = self._last
        return text if time.monotonic() - at <= SECONDS_BEFORE else ""

    def of(self, prefix: str, of_all: str) -> str:
        """What came just before a change of this destination."""
        address, _, length = prefix.partition("/")
        mask = 0xFFFF_FFFF << (32 - int(length)) & 0xFFFF_FFFF
        key = int.from_bytes(socket.inet_aton(address), "big"), mask
        at, data = self._by_prefix.get(key, (float("-inf"), b""))
        return lsa_text(data) if time.monotonic() - at <= SECONDS_BEFORE else of_all


def is_of_area(change: RouteChange) -> bool:
    """Whether a way of the area came or went, which no LSA of the destination itself announces."""
    return any((each or "").startswith("intra ") for each in (change.before, change.after))


def lsa_text(data: bytes) -> str:
    """An LSA that came, in words."""
    if len(data) < LSA_HEADER_LENGTH or data[3] not in TITLES:
        return "an LSA"
    how = "withdrawn" if int.from_bytes(data[:2], "big") >= MAX_AGE else "came"
    identity, router = socket.inet_ntoa(data[4:8]), socket.inet_ntoa(data[8:12])
    return f"{TITLES[data[3]]}-LSA {identity} of {router} {how}"


def named(line: str | None, names: Mapping[int, str]) -> str | None:
    """What a line of `table` says after the prefix, with names of interfaces for their numbers."""
    if line is None:
        return None
    said, via, numbers = line.partition(" via ")
    if numbers == "0":
        where = "" if said.startswith("intra ") else "by a forwarding address in "
        return f"{said}, {where}this router's own network"
    hops = (names.get(int(each), each) if each.isdigit() else each for each in numbers.split(","))
    return f"{said} via {','.join(hops)}" if via else said


class History:
    """The last changes. Any thread may add one; a thread of its own writes the file."""

    def __init__(self, path: Path | None) -> None:
        """No file, no memory of an earlier run."""
        self.causes = Causes()
        self._path = path
        self._routes: deque[Change] = deque(maxlen=MOST_ROUTES)
        self._others: deque[Change] = deque(maxlen=MOST_OTHERS)
        self._adding = threading.Lock()
        self._changed, self._ending = threading.Event(), threading.Event()
        self._is_told = False
        self._add(self._read())
        self._changed.clear()
        self._thread = threading.Thread(target=self._save_all, name="history", daemon=True)
        if path is not None:
            self._thread.start()

    def _read(self) -> list[Change]:
        """What an earlier run left; what is damaged is left out."""
        try:
            if self._path is None or self._path.stat().st_size > LARGEST_FILE:
                return []
            lines = self._path.read_text(encoding="utf-8", errors="replace").splitlines()
        except OSError:
            return []
        return [each for line in lines if (each := change_read(line))]

    def _add(self, changes: Iterable[Change]) -> None:
        with self._adding:
            for each in changes:
                (self._routes if each.kind == "route" else self._others).append(each)
        self._changed.set()

    # -- what changes

    def routes(
        self, gone: Mapping[bytes, bytes], come: Mapping[bytes, bytes], names: Mapping[int, str]
    ) -> None:
        """Lines of `table` that are gone and that came, by their prefixes."""
        now, of_all, causes = time.time(), self.causes.of_all(), self.causes
        self._add(
            Change(
                *(now, "route", each.prefix, named(each.before, names), named(each.after, names)),
                of_all if is_of_area(each) else causes.of(each.prefix, of_all),
            )
            for each in route_changes(gone, come)
        )

    def note(
        self, kind: str, name: str, before: str | None, after: str | None, cause: str = ""
    ) -> None:
        """Another change, which may be the cause of those of routes."""
        self._add([Change(time.time(), kind, name, before, after, cause[:LONGEST_TEXT])])
        said = f"{name}: {before or 'nothing'} -> {after or 'nothing'}"
        self.causes.event(f"{said} ({cause})"[:LONGEST_TEXT] if cause else said)

    # -- what is asked

    def last(
        self, prefix: IPv4Network | None = None, since: float = float("-inf"), most: int = MOST_ROUTES
    ) -> list[Change]:
        """The last ones, the oldest first; of a destination its own alone."""
        with self._adding:
            routes, others = list(self._routes), list(self._others)
        if prefix is not None:
            routes, others = [each for each in routes if each.name == str(prefix)], []
        found = sorted((each for each in (*routes, *others) if each.at >= since), key=lambda it: it.at)
        return found[-most:]

    # -- the file

    def _save_all(self) -> None:
        while not self._ending.is_set():
            self._changed.wait()
            self._ending.wait(SECONDS_TO_SAVE)
            self._save()

    def _save(self) -> None:
        if self._path is None or not self._changed.is_set():
            return
        self._changed.clear()
        text = "".join(json.dumps(each) + "\n" for each in self.last(most=MOST_ROUTES + MOST_OTHERS))
        try:
            replace_file(self._path, text, is_synced=False)
            self._is_told = False
        except OSError as error:
            if not self._is_told:
                log.warning("%s: changes aren't kept over a restart: %s", self._path, error.strerror)
            self._is_told = True

    def close(self) -> None:
        """Writes what came; a disk that stands still isn't waited for long."""
        self._ending.set()
        self._changed.set()
        if self._thread.is_alive():
            self._thread.join(SECONDS_TO_END)


def change_line(it: Change) -> str:
    """A change for a reader."""
    cause = f" ({it.cause})" if it.cause else ""
    nothing = "no route" if it.kind == "route" else "nothing"
    return f"{moment_text(it.at)} {it.kind} {it.name}: {it.before or nothing} -> {it.after or nothing}{cause}"


def change_of(it: Change) -> Json:
    """A change, as JSON has it."""
    return it._asdict()


def moment_of(text: str, now: float) -> float:
    """A moment as an operator gives it: `02:14`, the last one; `2026-12-01 02:14[:30]`; `90m`, `2h` or
    `1d` ago. `ValueError` if it is none."""
    units = {"s": 1, "m": 60, "h": 3600, "d": 86_400}
    if text[-1:] in units and text[:-1].isascii() and text[:-1].isdigit() and len(text) < 10:
        return now - int(text[:-1]) * units[text[-1]]
    for form in ("%Y-%m-%d %H:%M:%S", "%Y-%m-%d %H:%M", "%Y-%m-%dT%H:%M:%S", "%Y-%m-%d"):
        try:
            return time.mktime(time.strptime(text, form))
        except (ValueError, OverflowError):
            continue
    day = time.strftime("%Y-%m-%d ", time.localtime(now))
    at = time.mktime(time.strptime(day + text, "%Y-%m-%d %H:%M:%S" if text.count(":") == 2 else "%Y-%m-%d %H:%M"))
    return at if at <= now else at - 86_400


def prefix_of(text: str) -> IPv4Network:
    """A destination, or an address as one of length 32."""
    return IPv4Network(text) if "/" in text else IPv4Network(IPv4Address(text))
