"""LSAs as bytes (RFC 2328, 12.1 and A.4), read as far as an operator wants to see them."""
from __future__ import annotations

import struct
from collections.abc import Iterator
from dataclasses import dataclass
from enum import IntEnum
from ipaddress import IPv4Address, IPv4Network, NetmaskValueError
from itertools import accumulate

HEADER = struct.Struct(">HBB4s4siHH")
INSTANCE = struct.Struct(">iH")
"""Sequence number and checksum, from byte 12 on: of two instances the one with the larger pair is
newer, unless they are equal."""
ROUTER_LINK = struct.Struct(">4s4sBBH")
LINKS = HEADER.size + 4
"""Where the links of a router-LSA begin."""
MAX_AGE = 3600
MAX_AGE_DIFF = 900
LS_INFINITY = 0xFFFFFF


class LsType(IntEnum):
    """RFC 2328, A.4.1: the kinds that `routerd` keeps."""

    ROUTER = 1
    NETWORK = 2
    SUMMARY = 3
    ASBR_SUMMARY = 4
    EXTERNAL = 5

    @property
    def title(self) -> str:
        return self.name.lower().replace("_", "-")


class LinkType(IntEnum):
    """RFC 2328, A.4.2."""

    POINT_TO_POINT = 1
    TRANSIT = 2
    STUB = 3
    VIRTUAL = 4


class RouterFlags(IntEnum):
    """RFC 2328, A.4.2: an area border router, an AS boundary router, an end of a virtual link."""

    B = 1
    E = 2
    V = 4


@dataclass(frozen=True, order=True)
class LsKey:
    """What names an LSA (RFC 2328, 12.1)."""

    type: int
    id: IPv4Address
    router: IPv4Address


@dataclass(frozen=True)
class LsHeader:
    """The 20 bytes before each LSA's body; the sequence number is a signed one."""

    key: LsKey
    age: int
    options: int
    sequence: int
    checksum: int
    length: int


def header_of(data: bytes) -> LsHeader | None:
    """The header of an LSA of a kind that `routerd` keeps; None for others, and for fewer than 20
    bytes."""
    if len(data) < HEADER.size:
        return None
    age, options, kind, identity, router, sequence, checksum, length = HEADER.unpack_from(data)
    if kind not in LsType.__members__.values():
        return None
    key = LsKey(kind, IPv4Address(identity), IPv4Address(router))
    return LsHeader(key, min(age, MAX_AGE), options, sequence, checksum, length)


def is_whole(data: bytes) -> bool:
    """Whether an LSA's length field is its length, and its checksum holds: over all but the age the
    sum of the bytes and that of its partial sums are 0 modulo 255 (RFC 2328, 12.1.7; RFC 905, annex
    B)."""
    if (
        len(data) < HEADER.size
        or data[18:20] != len(data).to_bytes(2, "big")
        or data[16:18] == b"\0\0"
    ):
        return False
    covered = data[2:]
    return sum(covered) % 255 == 0 and sum(accumulate(covered)) % 255 == 0


def sealed(data: bytes) -> bytes:
    """The LSA with the checksum that belongs to it: two bytes of 1 to 255 that make both sums 0
    modulo 255."""
    blank = data[:16] + b"\0\0" + data[18:]
    covered = blank[2:]
    after = len(covered) - 15
    first, second = sum(covered), sum(accumulate(covered))
    # (of the two bytes, the first counts once more than the second in the sum of partial sums)
    one = (after * first - second) % 255 or 255
    other = (-first - one) % 255 or 255
    return blank[:16] + bytes([one, other]) + blank[18:]


def is_newer(one: bytes, other: bytes, its_age: int, others_age: int) -> bool:
    """Whether one of two instances of an LSA, with their ages now, is newer than the other (RFC
    2328, 13.1)."""
    instance, others = INSTANCE.unpack_from(one, 12), INSTANCE.unpack_from(other, 12)
    if instance != others:
        return instance > others
    if (its_age == MAX_AGE) != (others_age == MAX_AGE):
        return its_age == MAX_AGE
    return others_age - its_age > MAX_AGE_DIFF


@dataclass(frozen=True)
class RouterLink:
    """A link of a router-LSA. By its kind `id` is the neighbor's Router ID, the Designated Router's
    address or the network's, and `data` the own address or the network's mask."""

    type: int
    id: IPv4Address
    data: IPv4Address
    metric: int


@dataclass(frozen=True)
class RouterBody:
    flags: int
    links: tuple[RouterLink, ...]


@dataclass(frozen=True)
class NetworkBody:
    mask: IPv4Address
    routers: tuple[IPv4Address, ...]


@dataclass(frozen=True)
class SummaryBody:
    mask: IPv4Address
    metric: int


@dataclass(frozen=True)
class ExternalBody:
    mask: IPv4Address
    type: int
    metric: int
    forwarding: IPv4Address
    tag: int


Body = RouterBody | NetworkBody | SummaryBody | ExternalBody


def body_of(data: bytes) -> Body | None:
    """The body of an LSA; None if it is too short for what it announces. TOS metrics are left out
    (RFC 2328, A.4)."""
    body = data[HEADER.size :]
    try:
        match data[3]:
            case LsType.ROUTER:
                return RouterBody(body[0], tuple(router_links(body)))
            case LsType.NETWORK:
                routers = tuple(IPv4Address(body[at : at + 4]) for at in range(4, len(body), 4))
                return NetworkBody(IPv4Address(body[:4]), routers)
            case LsType.SUMMARY | LsType.ASBR_SUMMARY:
                return SummaryBody(IPv4Address(body[:4]), int.from_bytes(body[5:8], "big"))
            case LsType.EXTERNAL:
                kind = 2 if body[4] & 0x80 else 1
                forwarding, tag = IPv4Address(body[8:12]), int.from_bytes(body[12:16], "big")
                return ExternalBody(
                    IPv4Address(body[:4]), kind, int.from_bytes(body[5:8], "big"), forwarding, tag
                )
    except (IndexError, struct.error, ValueError):
        return None
    return None


def links_of(lsa: bytes) -> Iterator[bytes]:
    """The links of a router-LSA as bytes, each with its TOS metrics."""
    at = LINKS
    while at + ROUTER_LINK.size <= len(lsa):
        after = at + ROUTER_LINK.size + 4 * lsa[at + 9]
        yield lsa[at:after]
        at = after


def router_links(body: bytes) -> Iterator[RouterLink]:
    """The links of a router-LSA's body, each with its TOS metrics after it."""
    at = 4
    for _ in range(int.from_bytes(body[2:4], "big")):
        identity, data, kind, metrics, metric = ROUTER_LINK.unpack_from(body, at)
        yield RouterLink(kind, IPv4Address(identity), IPv4Address(data), metric)
        at += ROUTER_LINK.size + 4 * metrics


def network_of(address: IPv4Address, mask: IPv4Address) -> IPv4Network | None:
    """The network of an address under a mask; None if the mask's ones aren't in front."""
    try:
        length = IPv4Network(f"0.0.0.0/{mask}").prefixlen
    except (NetmaskValueError, ValueError):
        return None
    if int(IPv4Network(f"0.0.0.0/{length}").netmask) != int(mask):
        return None  # a mask of zeros in front, which Python takes for a host mask
    return IPv4Network((address, length), strict=False)
