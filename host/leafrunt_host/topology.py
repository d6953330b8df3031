"""The link-state database as the packets that passed through the bridge show it.

Each LSA that a neighbor is given or gives passes through the bridge whole, so once a neighbor is
Full nothing is missing here. What comes from the wire counts once `routerd` acknowledged it (RFC
2328, 13.5), and what `routerd` sends counts at once: so this is its database, and nothing that it
refused.
"""
from __future__ import annotations

import logging
import queue
import threading
import time
from collections import Counter, OrderedDict
from collections.abc import Callable
from dataclasses import replace
from ipaddress import IPv4Address, IPv4Network
from typing import NamedTuple

from leafrunt_host.exchange import Side
from leafrunt_host.journal import where_it_failed
from leafrunt_host.lsas import (
    MAX_AGE,
    Body,
    ExternalBody,
    LinkType,
    LsHeader,
    LsType,
    NetworkBody,
    RouterBody,
    RouterFlags,
    RouterLink,
    SummaryBody,
    body_of,
    header_of,
    is_newer,
    is_whole,
    network_of,
)
from leafrunt_host.packets import LSA_HEADER_LENGTH, Malformed, Packet, PacketType, chunks, lsas_of

log = logging.getLogger("leafrunt.topology")
KINDS = frozenset(map(int, LsType))
MOST_WAITING = 50_000
MOST_BYTES = 64 << 20
"""Of LSAs that wait, and of packets that may wait to be read: one may have 64 KiB."""
SECONDS_WAITING = 60
MOST_ENTRIES = 32_768
"""LSAs, twice what `routerd` has at most: beyond these, those that are gone are looked for."""
MOST_UNREAD = 8_192
"""Packets that may wait to be read. Beyond that they are left out and counted, since the bridge may
not wait for this."""
SECONDS_TO_READ = 5
SECONDS_UNSETTLED = 0.5
"""Packets of two interfaces may be read here in another order than `routerd` sent them in, this
long at most."""
KEY, INSTANCE = slice(3, 12), slice(3, 18)
"""Of an LSA's header: type, Link State ID and advertising router; and sequence number and checksum
after them (RFC 2328, A.4.1)."""


class Entry(NamedTuple):
    """An LSA, the age that it had when it was seen, and when that was."""

    data: bytes
    age: int
    moment: float

    def age_at(self, now: float) -> int:
        return min(MAX_AGE, self.age + int(now - self.moment))

    def header_at(self, now: float) -> LsHeader:
        """The header with the age that the LSA has by now."""
        header = header_of(self.data)
        assert header is not None  # it was looked at before it was kept
        return replace(header, age=self.age_at(now))

    @property
    def body(self) -> Body | None:
        return body_of(self.data)


def age_of(data: bytes) -> int:
    return min(MAX_AGE, int.from_bytes(data[:2], "big"))


def is_router_lsa_of(router_id: bytes, lsa: bytes) -> bool:
    """Whether it's that router's own. One that says what the last one said may bring routes too:
    after a start, `routerd` goes by its own, and others by the one of before."""
    return lsa[3] == LsType.ROUTER and lsa[8:12] == router_id


class Topology:
    """The database. The bridge hands it packets, a thread of its own reads them, and others ask, in
    threads of theirs."""

    def __init__(
        self,
        clock: Callable[[], float] = time.monotonic,
        news: Callable[[], None] = lambda: None,
    ) -> None:
        self._clock = clock
        self._news = news
        """Is called when an LSA comes, from either side, that says something new: a refresh of one
        that is known doesn't."""
        self.changed: Callable[[bytes], None] = lambda _lsa: None
        """Is called with each of these."""
        self._one_at_a_time = threading.Lock()
        self._entries: dict[bytes, Entry] = {}
        self._most = MOST_ENTRIES
        self._waiting: OrderedDict[bytes, Entry] = OrderedDict()
        self._waiting_bytes = self._put_bytes = self._read_bytes = 0
        """Of those that wait, and of the packets that were put by the bridge, and read here."""
        self._unread: queue.SimpleQueue[
            tuple[Side, Packet, float] | threading.Event
        ] = queue.SimpleQueue()
        self._left_out, self._left_out_at = 0, float("-inf")
        threading.Thread(target=self._read, name="topology", daemon=True).start()

    def watch(self, side: Side, packet: Packet, now: float) -> None:
        """Takes note of a packet that the bridge took: from the wire, or from `routerd`."""
        is_update = packet.type == PacketType.LINK_STATE_UPDATE
        if not is_update and (
            side is Side.WIRE or packet.type != PacketType.LINK_STATE_ACKNOWLEDGMENT
        ):
            return
        unread = self._put_bytes - self._read_bytes
        if self._unread.qsize() >= MOST_UNREAD or unread + packet.length > MOST_BYTES:
            self._left_out, self._left_out_at = self.left_out + 1, self._clock()
        else:
            self._put_bytes += packet.length
            self._unread.put((side, packet, now))

    @property
    def left_out(self) -> int:
        """Packets that were left out and may still be lacking: what they had comes again, or runs
        out, within an hour (RFC 2328, 14)."""
        return self._left_out if self._clock() - self._left_out_at <= MAX_AGE else 0

    def _read(self) -> None:
        """Reads the packets, in their order."""
        while True:
            given = self._unread.get()
            if isinstance(given, threading.Event):
                given.set()
                continue
            try:
                with self._one_at_a_time:
                    self._read_one(*given)
            except Exception as error:
                # a mistake in this program: the next packet is read all the same
                log.error("database: %s", where_it_failed(error))
            self._read_bytes += given[1].length

    def _read_one(self, side: Side, packet: Packet, now: float) -> None:
        if packet.type == PacketType.LINK_STATE_UPDATE:
            self._updated(side, packet, now)
        else:
            for header in chunks(packet.body, LSA_HEADER_LENGTH):
                self._acknowledged(header, now)

    def _updated(self, side: Side, packet: Packet, now: float) -> None:
        try:
            lsas = lsas_of(packet.body)
        except Malformed:
            return
        own = packet.router_id.packed if side is Side.ROUTER else b""
        new = [data for data in lsas if self._is_new(data, now)]
        for data in new:
            self.changed(data)
        if new or any(is_router_lsa_of(own, data) for data in lsas):
            self._news()
        for data in lsas:
            if data[3] not in KINDS:
                continue
            entry = Entry(data, age_of(data), now)
            if side is Side.ROUTER:
                self._put(entry, now)
            else:
                self._wait(entry)
        self._let_go(now)

    def _is_new(self, data: bytes, now: float) -> bool:
        """Whether the LSA isn't known yet, says something else, or ends or begins anew."""
        before = self._entries.get(data[KEY])
        if before is None or data[LSA_HEADER_LENGTH:] != before.data[LSA_HEADER_LENGTH:]:
            return True
        return (age_of(data) == MAX_AGE) != (before.age_at(now) == MAX_AGE)

    def _wait(self, entry: Entry) -> None:
        """An LSA from the wire waits until `routerd` acknowledges it, which takes it a second, or
        refuses it in silence. One that is known, and comes by another way, needn't."""
        before = self._entries.get(entry.data[KEY])
        if before and before.data[2:] == entry.data[2:] and MAX_AGE not in (before.age, entry.age):
            return
        instance = entry.data[INSTANCE]
        self._waits_no_more(instance)
        self._waiting[instance] = entry
        self._waiting_bytes += len(entry.data)

    def _waits_no_more(self, instance: bytes) -> Entry | None:
        """Takes it out, if it waits."""
        entry = self._waiting.pop(instance, None)
        self._waiting_bytes -= len(entry.data) if entry else 0
        return entry

    def _let_go(self, now: float) -> None:
        """Of what wasn't acknowledged the oldest goes."""
        while self._waiting:
            instance, oldest = next(iter(self._waiting.items()))
            is_full = len(self._waiting) > MOST_WAITING or self._waiting_bytes > MOST_BYTES
            if not is_full and now - oldest.moment < SECONDS_WAITING:
                break
            self._waits_no_more(instance)

    def _acknowledged(self, header: bytes, now: float) -> None:
        """An acknowledgment of `routerd` has the header that it received, age and all (13.5)."""
        entry = self._waits_no_more(header[INSTANCE])
        if entry:
            self._put(entry._replace(age=age_of(header)), now)

    def _put(self, entry: Entry, now: float) -> None:
        """An older instance than the one here comes late, or, if that one was flushed, begins anew
        (12.1.6, 14.1)."""
        before = self._entries.get(entry.data[KEY])
        is_known = before is not None and before.data[2:] == entry.data[2:]
        if not is_known and not is_whole(entry.data):
            return
        ages = (before.age_at(now), entry.age_at(now)) if before else (0, 0)
        if before and is_newer(before.data, entry.data, *ages):
            is_flushed = before.age_at(now) == MAX_AGE
            if not is_flushed or now - before.moment < SECONDS_UNSETTLED:
                return
        self._entries[entry.data[KEY]] = entry
        if len(self._entries) > self._most:
            self._forget_gone(now)

    def _forget_gone(self, now: float) -> None:
        """Removes what ran out or was flushed: a neighbor may flush LSAs of ever other names, each
        of which `routerd` acknowledges and doesn't keep (13, step 4)."""
        self._entries = {
            key: entry
            for key, entry in self._entries.items()
            if entry.age_at(now) < MAX_AGE or now - entry.moment < SECONDS_UNSETTLED
        }
        self._most = max(MOST_ENTRIES, 2 * len(self._entries))

    def counts(self) -> dict[str, int]:
        """How many LSAs there are of each type, by its name."""
        now = self._clock()
        with self._one_at_a_time:
            entries = self._entries.items()
            kinds = Counter([key[0] for key, (_, age, at) in entries if age + now - at < MAX_AGE])
        return {each.title: kinds[each] for each in LsType}

    def entries(self) -> list[tuple[LsHeader, Entry]]:
        """The LSAs with their headers of now, in the order of their keys; those that are flushed or
        ran out aren't in it. What the bridge has handed over by now is read first."""
        found, now = self.all_entries()
        found.sort()
        return [(entry.header_at(now), entry) for _, entry in found if entry.age_at(now) < MAX_AGE]

    def all_entries(self) -> tuple[list[tuple[bytes, Entry]], float]:
        """The LSAs by their keys, and the moment; also those that were flushed or ran out within the
        hour."""
        is_read = threading.Event()
        self._unread.put(is_read)
        is_read.wait(SECONDS_TO_READ)
        now = self._clock()
        with self._one_at_a_time:
            for key, entry in list(self._entries.items()):
                if now - entry.moment > MAX_AGE and entry.age_at(now) == MAX_AGE:
                    del self._entries[key]
            return list(self._entries.items()), now


HEADING = (
    f"{'Type':<12} {'Link State ID':<15} {'Router':<15} {'Sequence':<8} {'Age':>4} {'Checksum':>8}"
)


def database_line(header: LsHeader) -> str:
    """A line of `leafrunt database`, with the columns that BIRD's `show ospf lsadb` has."""
    key, sequence, checksum = header.key, header.sequence & 0xFFFFFFFF, f"{header.checksum:04x}"
    title = LsType(key.type).title
    return f"{title:<12} {key.id!s:<15} {key.router!s:<15} {sequence:08x} {header.age:>4} {checksum:>8}"


def database_lines(topology: Topology) -> list[str]:
    """All LSAs, a line each, below a heading."""
    lines = [HEADING, *(database_line(header) for header, _ in topology.entries())]
    if topology.left_out:
        lines.append(
            f"({topology.left_out} packets came too fast to be read here: what they had is missing until it is sent again)"
        )
    return lines


def meant_by(text: str) -> IPv4Address | IPv4Network:
    """A Link State ID, or a destination. `ValueError` if it is neither."""
    return IPv4Network(text) if "/" in text else IPv4Address(text)


def is_of(meant: IPv4Address | IPv4Network, header: LsHeader, entry: Entry) -> bool:
    """Whether an LSA has that Link State ID, or is of that destination, whose host bits its ID may
    have set (RFC 2328, appendix E)."""
    if isinstance(meant, IPv4Address):
        return header.key.id == meant
    match entry.body:
        case ExternalBody(mask) | NetworkBody(mask):
            return network_of(header.key.id, mask) == meant
        case SummaryBody(mask) if header.key.type == LsType.SUMMARY:
            return network_of(header.key.id, mask) == meant
        case RouterBody(_, links):
            stubs = (each for each in links if each.type == LinkType.STUB)
            return any(network_of(each.id, each.data) == meant for each in stubs)
    return False


def none_of(meant: IPv4Address | IPv4Network) -> str:
    """That no LSA is meant."""
    if isinstance(meant, IPv4Network):
        return f"no LSA announces {meant} (`why {meant}` says more)"
    return f"no LSA has the Link State ID {meant} (A.B.C.D/L finds those of a destination)"


def whole_lines(found: list[tuple[LsHeader, Entry]]) -> list[str]:
    """These LSAs, each with what its body says."""
    lines = [HEADING]
    for header, entry in found:
        lines += [database_line(header), *(f"  {each}" for each in body_lines(header, entry.body))]
    return lines


def body_lines(header: LsHeader, body: Body | None) -> list[str]:
    """What an LSA's body says, in words."""
    match body:
        case RouterBody(flags, links):
            titles = {
                RouterFlags.B: "area border router",
                RouterFlags.E: "AS boundary router",
                RouterFlags.V: "virtual link",
            }
            said = [title for flag, title in titles.items() if flags & flag]
            return [f"flags: {', '.join(said) or 'none'}", *map(link_line, links)]
        case NetworkBody(mask, routers):
            return [f"mask {mask}", *(f"attached router {each}" for each in routers)]
        case SummaryBody(mask, metric):
            return [f"mask {mask}, metric {metric}"]
        case ExternalBody(mask, kind, metric, forwarding, tag):
            return [
                f"mask {mask}, type {kind}, metric {metric}, forwarding address {forwarding}, tag {tag}"
            ]
    return [f"a body of {header.length - LSA_HEADER_LENGTH} bytes that can't be read"]


def link_line(link: RouterLink) -> str:
    """A link of a router-LSA in words."""
    match link.type:
        case LinkType.POINT_TO_POINT:
            return f"link to the router {link.id}, own address {link.data}, metric {link.metric}"
        case LinkType.TRANSIT:
            return (
                f"link to the network of {link.id}, own address {link.data}, metric {link.metric}"
            )
        case LinkType.STUB:
            return f"stub network {link.id}, mask {link.data}, metric {link.metric}"
        case LinkType.VIRTUAL:
            return f"virtual link to the router {link.id}, own address {link.data}, metric {link.metric}"
    return f"link of type {link.type} to {link.id}, data {link.data}, metric {link.metric}"
