"""The kernel's interfaces, addresses, next hops and IPv4 routes, by rtnetlink(7): asked for,
changed, and told of when others change them.

A change is one message of some 50 bytes; hundreds go to the kernel at a time, which answers the
refused ones alone, with its own words. Nothing here waits longer than `SECONDS`.
"""
from __future__ import annotations

import os
import socket
import struct
import sys
import time
from array import array
from collections.abc import Callable, Container, Iterable, Iterator
from dataclasses import dataclass
from enum import Flag, auto
from ipaddress import IPv4Interface, IPv4Network
from itertools import count
from typing import NamedTuple

SECONDS = 5.0
"""How long an answer of the kernel is waited for."""
AT_ONCE = 200
"""Changes in one message to the kernel: its answers have to find room in the receive buffer."""
LARGEST = 1 << 18
RECEIVE_BUFFER = 4 << 20
TRIES = 3
"""How often a list is asked for anew that changed while it was given."""
MOST_NOTICES = 10_000
"""How many notices are read at a time; what is left counts the next time."""

# <linux/netlink.h>, <linux/rtnetlink.h>, <linux/nexthop.h>, <linux/if_link.h>, <linux/filter.h>
ERROR, DONE = 2, 3
NEW_LINK, DELETE_LINK, GET_LINK = 16, 17, 18
NEW_ADDRESS, DELETE_ADDRESS, GET_ADDRESS = 20, 21, 22
NEW_ROUTE, DELETE_ROUTE, GET_ROUTE = 24, 25, 26
NEW_NEXT_HOP, DELETE_NEXT_HOP, GET_NEXT_HOP = 104, 105, 106
REQUEST, ACKNOWLEDGE, INTERRUPTED, DUMP = 0x1, 0x4, 0x10, 0x300
REPLACE, EXCLUSIVE, CREATE, HAS_WORDS = 0x100, 0x200, 0x400, 0x200
OF_LINKS = 0x1 | 0x10
"""Notices of links and IPv4 addresses."""
OF_ALL = OF_LINKS | 0x40 | 0x8000_0000
"""Those, and notices of IPv4 routes and next hops."""
IFLA_IFNAME, IFLA_MTU, IFLA_MASTER, IFLA_LINKINFO = 3, 4, 10, 18
IFLA_EXT_MASK, SKIP_STATISTICS = 29, 8
IFLA_INFO_KIND, IFLA_INFO_DATA, IFLA_VRF_TABLE = 1, 2, 1
IFA_ADDRESS, IFA_LOCAL, IFA_FLAGS, IFA_F_SECONDARY = 1, 2, 8, 0x1
RTA_DST, RTA_OIF, RTA_GATEWAY, RTA_PRIORITY = 1, 4, 5, 6
RTA_MULTIPATH, RTA_TABLE, RTA_NH_ID = 9, 15, 30
NHA_ID, NHA_GROUP, NHA_BLACKHOLE, NHA_OIF, NHA_GATEWAY = 1, 2, 4, 5, 6
NLMSGERR_ATTR_MSG = 1
MAIN, UNICAST, UNIVERSE, ONLINK = 254, 1, 0, 4
BLACKHOLE, UNREACHABLE, PROHIBIT = 6, 7, 8
COMPAT = 252
DEAD, LINK_DOWN = 1, 16
NO_ENTRY = 2
SOL_NETLINK, CAP_ACK, EXT_ACK, STRICT_CHECK = 270, 10, 11, 12
SO_ATTACH_FILTER, SO_RCVBUFFORCE = 26, 33
IFF_UP, IFF_RUNNING = 0x1, 0x40

HEADER = struct.Struct("=IHHII")
LINK = struct.Struct("=BxHiII")
ADDRESS = struct.Struct("=BBBBi")
ROUTE = struct.Struct("=BBBBBBBBI")
NEXT_HOP = struct.Struct("=BBBxI")
ID = struct.Struct("=2xHI")
MEMBER = struct.Struct("=IBxH")
PATH = struct.Struct("=HBBi")
ATTRIBUTE = struct.Struct("=HH")
INSTRUCTION = struct.Struct("=HBBI")


class CannotAsk(Exception):
    """The kernel doesn't answer, or not in this form; the text is a sentence, and the number that
    of the kernel's error, or 0."""

    def __init__(self, text: str, number: int = 0) -> None:
        super().__init__(text)
        self.number = number


class Link(NamedTuple):
    """An interface of the kernel."""

    index: int
    name: str
    mtu: int
    is_up: bool
    """Whether it is up and has a carrier."""
    master: int = 0
    """The index of the interface that it's enslaved to; 0 if it is to none."""
    vrf_table: int = 0
    """Of a VRF device the number of its table; 0 if it is none."""


class Address(NamedTuple):
    """An IPv4 address of an interface."""

    index: int
    address: IPv4Interface
    is_secondary: bool
    peer: IPv4Network | None = None
    """The network that the peer is in, if the address has one (ip-address(8))."""


class NextHop(NamedTuple):
    """A next hop object: a gateway at an interface, or a group of others by their numbers."""

    id: int
    index: int = 0
    gateway: bytes = b""
    members: tuple[int, ...] = ()
    is_discard: bool = False
    """Whether it drops what goes by it."""


class Route(NamedTuple):
    """A route: its prefix (the four bytes of the address, then the length), the number of its next
    hop object, 0 if it has none, and its paths: the gateway, empty if the destination is on the
    link or the gateway no IPv4 address, and the interface's index."""

    prefix: bytes
    protocol: int
    metric: int
    next_hop: int
    paths: tuple[tuple[bytes, int], ...]
    type: int = UNICAST
    tos: int = 0
    live: tuple[int, ...] = ()
    """The indexes of the interfaces of those paths that aren't dead."""


class SetNextHop(NamedTuple):
    """Makes a next hop object, which must not be there yet."""

    next_hop: NextHop


class ReplaceNextHop(NamedTuple):
    """Makes another of a next hop object, for all routes that go by it."""

    next_hop: NextHop


class DeleteNextHop(NamedTuple):
    """Removes a next hop object, and with it all routes that go by it."""

    id: int


class AddRoute(NamedTuple):
    """Makes a route; refused if one has its prefix and metric."""

    prefix: bytes
    next_hop: int


class ReplaceRoute(NamedTuple):
    """Makes a route that is there go by another next hop object."""

    prefix: bytes
    next_hop: int


class DeleteRoute(NamedTuple):
    """Removes a route."""

    prefix: bytes


Change = SetNextHop | ReplaceNextHop | DeleteNextHop | AddRoute | ReplaceRoute | DeleteRoute


class Refusal(NamedTuple):
    """Why the kernel refused a change: the error's number, and words."""

    number: int
    words: str


class News(Flag):
    """What others changed."""

    NOTHING = 0
    LINKS = auto()
    NEXT_HOPS = auto()
    ROUTES = auto()
    ALL = LINKS | NEXT_HOPS | ROUTES


# -- messages as bytes


@dataclass(frozen=True)
class Message:
    """One message of the kernel."""

    kind: int
    flags: int
    sequence: int
    port: int
    body: bytes


def messages(data: bytes) -> Iterator[Message]:
    """The messages in what came; what is no message ends them."""
    at = 0
    while at + HEADER.size <= len(data):
        length, kind, flags, sequence, port = HEADER.unpack_from(data, at)
        if not HEADER.size <= length <= len(data) - at:
            return
        yield Message(kind, flags, sequence, port, data[at + HEADER.size : at + length])
        at += (length + 3) & ~3


def attributes(data: bytes, at: int = 0) -> dict[int, bytes]:
    """The attributes of a message from a place on, by their numbers."""
    found = {}
    while at + 4 <= len(data):
        length, kind = ATTRIBUTE.unpack_from(data, at)
        if not 4 <= length <= len(data) - at:
            break
        found[kind & 0x3FFF] = data[at + 4 : at + length]
        at += (length + 3) & ~3
    return found


def number_of(data: bytes | None) -> int:
    """A number of the kernel's; 0 if there is none."""
    return int.from_bytes(data or b"", sys.byteorder)


def attribute(kind: int, data: bytes) -> bytes:
    return ATTRIBUTE.pack(4 + len(data), kind) + data + bytes(-len(data) % 4)


def number(kind: int, value: int) -> bytes:
    return struct.pack("=HHI", 8, kind, value)


def link_of(body: bytes) -> Link:
    """An interface, from the body of a message of it."""
    _, _, index, flags, _ = LINK.unpack_from(body)
    said = attributes(body, LINK.size)
    name = said.get(IFLA_IFNAME, b"").rstrip(b"\0").decode("utf-8", "surrogateescape")
    is_up = flags & (IFF_UP | IFF_RUNNING) == IFF_UP | IFF_RUNNING
    master, kind = number_of(said.get(IFLA_MASTER)), attributes(said.get(IFLA_LINKINFO, b""))
    vrf_table = 0
    if kind.get(IFLA_INFO_KIND, b"").rstrip(b"\0") == b"vrf":
        vrf_table = number_of(attributes(kind.get(IFLA_INFO_DATA, b"")).get(IFLA_VRF_TABLE))
    return Link(index, name, number_of(said.get(IFLA_MTU)), is_up, master, vrf_table)


def address_of(body: bytes) -> Address | None:
    """An address, from the body of a message of it; None if it is none of IPv4."""
    family, length, flags, _, index = ADDRESS.unpack_from(body)
    said = attributes(body, ADDRESS.size)
    local = said.get(IFA_LOCAL, b"")
    if family != socket.AF_INET or len(local) != 4:
        return None
    flags |= number_of(said.get(IFA_FLAGS))
    address, there = IPv4Interface((local, length)), said.get(IFA_ADDRESS, local)
    peer = None if there == local else IPv4Interface((there, length)).network
    return Address(index, address, bool(flags & IFA_F_SECONDARY), peer)


def route_of(body: bytes, table: int = MAIN) -> Route | None:
    """A route, from the body of a message of it; None if it is none of IPv4 in that table."""
    family, length, _, tos, its_table, protocol, _, kind, flags = ROUTE.unpack_from(body)
    said = attributes(body, ROUTE.size)
    if family != socket.AF_INET:
        return None
    if (number_of(said.get(RTA_TABLE)) or its_table) != table:
        return None
    paths = list(paths_of(said, flags))
    prefix = said.get(RTA_DST, bytes(4)) + bytes([length])
    metric, next_hop = number_of(said.get(RTA_PRIORITY)), number_of(said.get(RTA_NH_ID))
    both = tuple((gateway, index) for gateway, index, _ in paths)
    live = tuple(index for _, index, its in paths if not its & (DEAD | LINK_DOWN))
    return Route(prefix, protocol, metric, next_hop, both, kind, tos, live)


def paths_of(said: dict[int, bytes], flags: int = 0) -> Iterator[tuple[bytes, int, int]]:
    """The paths among a route's attributes, with their flags; those of a single one are the
    route's."""
    if RTA_OIF in said:
        yield said.get(RTA_GATEWAY, b""), number_of(said[RTA_OIF]), flags
    several, at = said.get(RTA_MULTIPATH, b""), 0
    while at + PATH.size <= len(several):
        length, its_flags, _, index = PATH.unpack_from(several, at)
        if not PATH.size <= length <= len(several) - at:
            return
        of_path = attributes(several[at : at + length], PATH.size)
        yield of_path.get(RTA_GATEWAY, b""), index, its_flags
        at += (length + 3) & ~3


def next_hop_of(body: bytes) -> NextHop:
    """A next hop object, from the body of a message of it."""
    said = attributes(body, NEXT_HOP.size)
    members = tuple(each[0] for each in MEMBER.iter_unpack(said.get(NHA_GROUP, b"")))
    index, gateway = number_of(said.get(NHA_OIF)), said.get(NHA_GATEWAY, b"")
    identity, is_discard = number_of(said.get(NHA_ID)), NHA_BLACKHOLE in said
    return NextHop(identity, index, gateway, members, is_discard)


def id_of(body: bytes) -> int:
    """The number of a next hop object, from the body of a message of it: the kernel says it
    first."""
    if len(body) >= NEXT_HOP.size + ID.size:
        kind, it = ID.unpack_from(body, NEXT_HOP.size)
        if kind == NHA_ID:
            return int(it)
    return next_hop_of(body).id


def next_hop_body(it: NextHop, protocol: int) -> bytes:
    """`onlink`: a neighbor may have an address out of the interface's network on a point-to-point
    link."""
    if it.members:
        group = b"".join(MEMBER.pack(each, 0, 0) for each in it.members)
        head = NEXT_HOP.pack(0, 0, protocol, 0)
        return head + number(NHA_ID, it.id) + attribute(NHA_GROUP, group)
    head = NEXT_HOP.pack(socket.AF_INET, 0, protocol, ONLINK)
    said = number(NHA_ID, it.id) + number(NHA_OIF, it.index)
    return head + said + attribute(NHA_GATEWAY, it.gateway)


ROUTE_BODY = struct.Struct("=BBBBBBBBI HH4s HHI HHI")


def in_table(table: int) -> tuple[int, bytes]:
    """A table's number, as a message says it: in a byte, or in an attribute."""
    return (table, b"") if table < 256 else (0, number(RTA_TABLE, table))


def route_body(prefix: bytes, next_hop: int, protocol: int, metric: int, table: int) -> bytes:
    """The body of a message that makes, or without a next hop removes, a route."""
    its_byte, attribute_of_table = in_table(table)
    body = ROUTE_BODY.pack(
        *(socket.AF_INET, prefix[4], 0, 0, its_byte, protocol, UNIVERSE, UNICAST, 0),
        *(8, RTA_DST, prefix[:4], 8, RTA_PRIORITY, metric, 8, RTA_NH_ID, next_hop),
    )[: None if next_hop else -8]
    return body + attribute_of_table if attribute_of_table else body


def request(
    change: Change, protocol: int, metric: int, table: int = MAIN
) -> tuple[int, int, bytes]:
    """Kind, flags and body of the message for a change."""
    match change:
        case AddRoute(prefix, next_hop):
            body = route_body(prefix, next_hop, protocol, metric, table)
            return NEW_ROUTE, CREATE | EXCLUSIVE, body
        case ReplaceRoute(prefix, next_hop):
            return NEW_ROUTE, REPLACE, route_body(prefix, next_hop, protocol, metric, table)
        case DeleteRoute(prefix):
            return DELETE_ROUTE, 0, route_body(prefix, 0, protocol, metric, table)
        case SetNextHop(it):
            return NEW_NEXT_HOP, CREATE | EXCLUSIVE, next_hop_body(it, protocol)
        case ReplaceNextHop(it):
            return NEW_NEXT_HOP, REPLACE, next_hop_body(it, protocol)
        case DeleteNextHop(identity):
            return DELETE_NEXT_HOP, 0, NEXT_HOP.pack(0, 0, 0, 0) + number(NHA_ID, identity)
    raise TypeError(change)


def refusal_of(message: Message) -> Refusal | None:
    """What an answer, or the end of a list, says; None if the change was made, or the list is
    whole."""
    (answer,) = struct.unpack_from("=i", message.body)
    if answer >= 0:
        return None
    words = os.strerror(-answer)
    if message.flags & HAS_WORDS:
        of_error = HEADER.size if message.kind == ERROR else 0
        said = attributes(message.body, 4 + of_error).get(NLMSGERR_ATTR_MSG)
        words = said.rstrip(b"\0").decode("utf-8", "replace") if said else words
    return Refusal(-answer, words)


# -- sockets


def netlink(groups: int = 0) -> socket.socket:
    """A socket to the kernel of the network namespace that this thread is in. It's connected, so
    that the kernel refuses what other programs send to it."""
    one = socket.socket(socket.AF_NETLINK, socket.SOCK_RAW, socket.NETLINK_ROUTE)
    try:
        one.bind((0, groups))
        one.connect((0, 0))
        try:
            one.setsockopt(socket.SOL_SOCKET, SO_RCVBUFFORCE, RECEIVE_BUFFER)
        except PermissionError:
            one.setsockopt(socket.SOL_SOCKET, socket.SO_RCVBUF, RECEIVE_BUFFER)
        for option in (CAP_ACK, EXT_ACK, STRICT_CHECK):
            one.setsockopt(SOL_NETLINK, option, 1)
        return one
    except OSError:
        one.close()
        raise


class Kernel:
    """Questions and changes. The routes and next hops that it makes have one protocol number and
    one metric, and are in one table. `CannotAsk` from each call that the kernel doesn't answer."""

    def __init__(
        self,
        protocol: int = 0,
        metric: int = 0,
        one: socket.socket | None = None,
        table: int = MAIN,
    ):
        self.protocol, self.metric, self.table = protocol, metric, table
        try:
            self._socket = one or netlink()
        except OSError as error:
            raise CannotAsk(f"no netlink socket: {error.strerror}") from error
        self._socket.settimeout(SECONDS)
        self._sequence = 0
        self.patience = 0.0
        """Seconds for which a list that changes each time is asked for again, after `TRIES`."""

    @property
    def port(self) -> int:
        """What the kernel's notices call the one that made a change."""
        port: int = self._socket.getsockname()[0]
        return port

    def close(self) -> None:
        self._socket.close()

    def links(self) -> list[Link]:
        head = LINK.pack(0, 0, 0, 0, 0) + number(IFLA_EXT_MASK, SKIP_STATISTICS)
        return [link_of(each) for each in self._list(GET_LINK, head)]

    def addresses(self) -> list[Address]:
        bodies = self._list(GET_ADDRESS, ADDRESS.pack(socket.AF_INET, 0, 0, 0, 0))
        return [each for each in map(address_of, bodies) if each]

    def routes(self, protocol: int = 0) -> list[Route]:
        """The routes of the table, of one protocol number if one is given."""
        bodies = self.route_bodies(protocol)
        return [each for body in bodies if (each := route_of(body, self.table))]

    def route_bodies(self, protocol: int = 0) -> list[bytes]:
        """The same as the bodies of messages. A table without routes isn't there."""
        its_byte, attribute_of_table = in_table(self.table)
        head = ROUTE.pack(socket.AF_INET, 0, 0, 0, its_byte, protocol, 0, 0, 0)
        try:
            return self._list(GET_ROUTE, head + attribute_of_table)
        except CannotAsk as error:
            if error.number == NO_ENTRY:
                return []
            raise

    def own_routes(self) -> list[Route]:
        return [each for each in self.routes(self.protocol) if each.metric == self.metric]

    def next_hops(self, is_own: bool = True, also: Container[int] = ()) -> list[NextHop]:
        """The next hop objects, by default those of the own protocol number, and those that have
        these numbers."""
        bodies = self._list(GET_NEXT_HOP, NEXT_HOP.pack(0, 0, 0, 0))
        is_all, own = not is_own, self.protocol
        found = (each for each in bodies if is_all or each[2] == own or id_of(each) in also)
        return [next_hop_of(each) for each in found]

    def change(self, changes: list[Change]) -> list[Refusal | None]:
        """Makes the changes in their order; to each why it was refused. A refused one keeps none
        of the others."""
        answers: list[Refusal | None] = []
        for at in range(0, len(changes), AT_ONCE):
            answers += self._changed(changes[at : at + AT_ONCE])
        return answers

    def _changed(self, changes: list[Change]) -> list[Refusal | None]:
        first, data = self._sequence + 1, []
        for at, each in enumerate(changes, 1):
            kind, flags, body = request(each, self.protocol, self.metric, self.table)
            flags |= REQUEST | (ACKNOWLEDGE if at == len(changes) else 0)
            length = HEADER.size + len(body)
            data.append(HEADER.pack(length, kind, flags, self._sequence + at, 0) + body)
        self._sequence += len(changes)
        self._send(b"".join(data))
        answers: list[Refusal | None] = [None] * len(changes)
        while True:
            for message in self._received():
                at = message.sequence - first
                if message.kind == ERROR and 0 <= at < len(changes):
                    answers[at] = refusal_of(message)
                    if at == len(changes) - 1:
                        return answers

    def _list(self, kind: int, head: bytes) -> list[bytes]:
        """The bodies of all messages of a list, which is asked for again if it changed in the
        meantime. If it does so each time it's refused: it may lack what is there."""
        until = time.monotonic() + self.patience
        for tried in count(1):
            self._sequence += 1
            length = HEADER.size + len(head)
            asked = HEADER.pack(length, kind, REQUEST | DUMP, self._sequence, 0)
            self._send(asked + head)
            bodies, is_whole = self._listed()
            if is_whole:
                break
            if tried >= TRIES and time.monotonic() >= until:
                raise CannotAsk("the kernel's list changes each time that it's asked for")
        return bodies

    def _listed(self) -> tuple[list[bytes], bool]:
        bodies, is_whole = [], True
        while True:
            for message in self._received():
                if message.sequence != self._sequence:
                    continue
                is_whole = is_whole and not message.flags & INTERRUPTED
                refusal = refusal_of(message) if message.kind in (DONE, ERROR) else None
                if refusal:
                    words = f"the kernel can't be asked: {refusal.words}"
                    raise CannotAsk(words, refusal.number)
                if message.kind == ERROR:
                    raise CannotAsk("the kernel can't be asked: an answer of no use")
                if message.kind == DONE:
                    return bodies, is_whole
                bodies.append(message.body)

    def _send(self, data: bytes) -> None:
        try:
            self._socket.send(data)
        except OSError as error:
            raise CannotAsk(f"the kernel can't be told: {error.strerror or error}") from error

    def _received(self) -> Iterable[Message]:
        try:
            return list(messages(self._socket.recv(LARGEST)))
        except TimeoutError as error:
            raise CannotAsk(f"the kernel hasn't answered for {SECONDS:g} seconds") from error
        except OSError as error:
            raise CannotAsk(f"the kernel's answer is lost: {error.strerror}") from error


# -- notices

LOAD_WORD, LOAD_HALF, LOAD_BYTE, IF_EQUAL, RETURN = 0x20, 0x28, 0x30, 0x15, 0x06
LOAD_NUMBER, LOAD_INDEX, INDEX, LOAD_WORD_AT, LOAD_BYTE_AT = 0x00, 0x01, 0x07, 0x40, 0x50
HIGHEST_BYTE = 3 if sys.byteorder == "little" else 0
"""Of a number of four bytes, where it's in a message."""
NO_IDS = range(1)
"""No next hop object has the number 0."""
ATTRIBUTE_AT = 0xFFFF_F00C
"""The place of the first attribute of the kind in the index register, from the place in the
accumulator on; 0 if there is none (SKF_AD_NLATTR)."""


def swapped(value: int, width: int) -> int:
    """A number as a filter sees it, which takes each for one of network order."""
    return int.from_bytes(value.to_bytes(width, sys.byteorder), "big")


def filter_of_others(
    port: int, protocol: int, table: int = MAIN, metric: int = 0, ids: range = NO_IDS
) -> list[tuple[int, int, int, int]]:
    """A classic BPF program for a socket of notices: it takes none of the port's own changes; of
    the table's routes those of the protocol number or of the metric, as another program's with that
    may have taken the place of one; and of next hops those of these numbers, whatever their
    protocol, as whoever replaces one gives it another, and some beside them: a number's highest
    byte is looked at."""
    kinds = [NEW_ROUTE, DELETE_ROUTE, NEW_NEXT_HOP, DELETE_NEXT_HOP]
    new_route, delete_route, new_next_hop, delete_next_hop = (swapped(each, 2) for each in kinds)
    return [
        (LOAD_WORD, 0, 0, 12),
        (IF_EQUAL, 23, 0, swapped(port, 4)),
        (LOAD_HALF, 0, 0, 4),
        (IF_EQUAL, 3, 0, new_route),
        (IF_EQUAL, 2, 0, delete_route),
        (IF_EQUAL, 11, 0, new_next_hop),
        (IF_EQUAL, 10, 17, delete_next_hop),
        (LOAD_BYTE, 0, 0, HEADER.size + 4),
        (IF_EQUAL, 0, 16, noticed_table(table)),
        (LOAD_BYTE, 0, 0, HEADER.size + 5),
        (IF_EQUAL, 13, 0, protocol),
        (LOAD_NUMBER, 0, 0, HEADER.size + ROUTE.size),
        (LOAD_INDEX, 0, 0, RTA_PRIORITY),
        (LOAD_WORD, 0, 0, ATTRIBUTE_AT),
        (INDEX, 0, 0, 0),
        (LOAD_WORD_AT, 0, 0, ATTRIBUTE.size),
        (IF_EQUAL, 7, 8, swapped(metric, 4)),
        (LOAD_NUMBER, 0, 0, HEADER.size + NEXT_HOP.size),
        (LOAD_INDEX, 0, 0, NHA_ID),
        (LOAD_WORD, 0, 0, ATTRIBUTE_AT),
        (INDEX, 0, 0, 0),
        (LOAD_BYTE_AT, 0, 0, ATTRIBUTE.size + HIGHEST_BYTE),
        (IF_EQUAL, 1, 0, ids[0] >> 24),
        (IF_EQUAL, 0, 1, ids[-1] >> 24),
        (RETURN, 0, 0, 0xFFFF_FFFF),
        (RETURN, 0, 0, 0),
    ]


def noticed_table(table: int) -> int:
    """The byte of a notice that says a table's number; all large ones have the same."""
    return table if table < 256 else COMPAT


def attach_filter(one: socket.socket, program: list[tuple[int, int, int, int]]) -> None:
    """Lets the kernel drop what the program doesn't take, before it comes to the socket."""
    code = array("B", b"".join(INSTRUCTION.pack(*each) for each in program))
    address, _ = code.buffer_info()
    one.setsockopt(socket.SOL_SOCKET, SO_ATTACH_FILTER, struct.pack("HP", len(program), address))


def notice_socket(groups: int, prepare: Callable[[socket.socket], None]) -> socket.socket:
    """A socket for the kernel's notices of these groups, prepared so; `CannotAsk` without one."""
    one: socket.socket | None = None
    try:
        one = netlink(groups)
        prepare(one)
    except OSError as error:
        if one is not None:
            one.close()
        words = f"no socket for the kernel's notices: {error.strerror}"
        raise CannotAsk(words) from error
    return one


OF_KIND = {
    NEW_LINK: News.LINKS,
    DELETE_LINK: News.LINKS,
    NEW_ADDRESS: News.LINKS,
    DELETE_ADDRESS: News.LINKS,
    NEW_ROUTE: News.ROUTES,
    DELETE_ROUTE: News.ROUTES,
    NEW_NEXT_HOP: News.NEXT_HOPS,
    DELETE_NEXT_HOP: News.NEXT_HOPS,
}


class Notices:
    """What others than this port change of links and addresses, of a table's routes of the protocol
    number or the metric, and of next hops of these numbers."""

    def __init__(
        self,
        port: int = 0,
        protocol: int = 0,
        one: socket.socket | None = None,
        groups: int = OF_ALL,
        table: int = MAIN,
        metric: int = 0,
        ids: range = NO_IDS,
    ) -> None:
        self._port, self._ids = port or -1, ids

        def others(new: socket.socket) -> None:
            if groups != OF_LINKS:
                attach_filter(new, filter_of_others(port, protocol, table, metric, ids))

        self._socket = one or notice_socket(groups, others)
        self._socket.setblocking(False)

    def fileno(self) -> int:
        return self._socket.fileno()

    def read(self) -> News:
        """What changed since the last question. If more came than the kernel keeps for this socket,
        all may have."""
        news = News.NOTHING
        for _ in range(MOST_NOTICES):
            try:
                data = self._socket.recv(LARGEST)
            except BlockingIOError:
                break
            except OSError:
                news = News.ALL
                continue
            for message in messages(data):
                if message.port != self._port:
                    news |= self._news_of(message)
        return news

    def _news_of(self, message: Message) -> News:
        news = OF_KIND.get(message.kind, News.NOTHING)
        if news is News.NEXT_HOPS and id_of(message.body) not in self._ids:
            return News.NOTHING
        return news

    def close(self) -> None:
        self._socket.close()
