"""Which packets count at an interface (RFC 2328, 8.1 and 8.2).

A packet counts only if it was sent to AllSPFRouters, as each one is on a point-to-point link, from
an address that a host of the link's network may have (RFC 1812, 4.2.3.1: neither the network's own
nor its broadcast address, which would become a next hop), with the interface's AuType. So nobody who
isn't on the link is heard: no router passes on what is sent to AllSPFRouters. If the neighbor's address is configured,
packets count from that alone, and those too that it sent to this interface's own address.

The same rule stands here twice: as a classic BPF program for the kernel (socket(7),
SO_ATTACH_FILTER), which drops the rest before it costs this process anything, and in Python, for
what comes through.
"""
from __future__ import annotations

import struct
from collections.abc import Iterable
from dataclasses import dataclass
from enum import Enum
from functools import cached_property
from ipaddress import IPv4Address, IPv4Network
from typing import NamedTuple

from leafrunt_host.authentication import Refusal, Refused
from leafrunt_host.packets import IP_HEADER_LENGTH, VERSION, AuType, checksum

OSPF = 89
INTERNETWORK_CONTROL = 0xC0
ALL_SPF_ROUTERS = IPv4Address("224.0.0.5")
LONGEST_PACKET = 65_535
IP_HEADER = struct.Struct(">B8xB2xII")
"""Of an IPv4 header (RFC 791, 3.1): version and length, protocol, source, destination."""


NONE = "none"
"""The return of packets that nobody wants."""


class Queue(Enum):
    """The kinds of packets that wait in a socket each, so that a flood of one kind keeps no other
    waiting."""

    NEIGHBOR = "neighbor"
    """What counts, with the neighbor's Router ID."""
    OTHERS = "others"
    """What counts, with any other Router ID."""
    STRAYS = "strays"
    """What doesn't count: a few are looked at, to tell why nobody is heard."""


class Bpf:
    """Classic BPF (<linux/filter.h>): the codes that are needed here, and a program's bytes. A load
    from beyond the packet's end drops the packet."""

    LOAD_WORD, LOAD_BYTE = 0x20, 0x30
    """Into the accumulator, from a place in the packet."""
    LOAD_HALF_AT, LOAD_BYTE_AT, LOAD_WORD_AT = 0x48, 0x50, 0x40
    """The same, from a place after that in the index register."""
    INDEX_IP_HEADER = 0xB1
    """The length of the IP header whose first byte is at a place, into the index register."""
    AND, EQUALS, RETURN = 0x54, 0x15, 0x06
    INSTRUCTION = struct.Struct("=HBBI")
    ALL = 0x40000
    """How many bytes of a packet that is taken are kept: more than it can have."""


@dataclass(frozen=True)
class Compare:
    """A comparison of the accumulator in a filter: where it goes on if it holds, and if it doesn't:
    at the return of that name, or after this many further steps."""

    number: int
    then: str | int = 0
    otherwise: str | int = 0


Step = tuple[int, int] | Compare


def assembled(steps: list[Step], returns: dict[str, int]) -> bytes:
    """The program: the steps, and below them a return for each name, of its number of bytes."""
    names = list(returns)

    def skipped(at: int, to: str | int) -> int:
        return to if isinstance(to, int) else len(steps) + names.index(to) - at - 1

    text = b""
    for at, step in enumerate(steps):
        if isinstance(step, Compare):
            ways = skipped(at, step.then), skipped(at, step.otherwise)
            text += Bpf.INSTRUCTION.pack(Bpf.EQUALS, *ways, step.number)
        else:
            text += Bpf.INSTRUCTION.pack(step[0], 0, 0, step[1])
    return text + b"".join(
        Bpf.INSTRUCTION.pack(Bpf.RETURN, 0, 0, count) for count in returns.values()
    )


class Arrived(NamedTuple):
    """An IPv4 packet of protocol 89: its addresses as numbers, and what it carries."""

    source: int
    destination: int
    payload: bytes


def arrived(packet: bytes) -> Arrived | None:
    """Reads an IPv4 packet of protocol 89; None if it isn't one."""
    if len(packet) < IP_HEADER_LENGTH:
        return None
    version, protocol, source, destination = IP_HEADER.unpack_from(packet)
    header = (version & 15) * 4
    is_whole = version >> 4 == 4 and IP_HEADER_LENGTH <= header <= len(packet)
    if not is_whole or protocol != OSPF:
        return None
    return Arrived(source, destination, packet[header:])


def ip_packet(source: IPv4Address, payload: bytes) -> bytes:
    """An OSPF packet to AllSPFRouters with the IP header that the kernel gives it (RFC 2328,
    A.1), for a file of packets; its identification is 0, and it isn't cut into fragments."""
    header = struct.pack(
        ">BBHHHBBH4s4s",
        0x45,
        INTERNETWORK_CONTROL,
        min(IP_HEADER_LENGTH + len(payload), LONGEST_PACKET),
        0,
        0,
        1,
        OSPF,
        0,
        source.packed,
        ALL_SPF_ROUTERS.packed,
    )
    return header[:10] + checksum(header).to_bytes(2, "big") + header[12:] + payload


@dataclass(frozen=True)
class PacketFilter:
    """What counts at one interface: the own address; the network that the neighbor's address has to
    be of, None if the own one is in none (RFC 2328, 8.2: an unnumbered link); the neighbor's
    address, if it's configured."""

    own: IPv4Address
    network: IPv4Network | None
    peer: IPv4Address | None = None
    autype: AuType = AuType.NULL

    @cached_property
    def _own(self) -> int:
        return int(self.own)

    @cached_property
    def destinations(self) -> tuple[int, ...]:
        """The addresses that packets may be sent to."""
        return (int(ALL_SPF_ROUTERS), *((self._own,) if self.peer else ()))

    @cached_property
    def sources(self) -> tuple[int, int]:
        """A source counts if the bits of the first, a mask, are those of the second."""
        network = IPv4Network(self.peer) if self.peer else self.network
        return (int(network.netmask), int(network.network_address)) if network else (0, 0)

    @cached_property
    def nobodys(self) -> tuple[int, ...]:
        """The addresses that no neighbor has: a network of one or two has none (RFC 3021)."""
        within = IPv4Network(self.peer) if self.peer else self.network or IPv4Network("0.0.0.0/0")
        ends = (int(within.network_address), int(within.broadcast_address))
        return ends if within.prefixlen < 31 else ()

    def is_own(self, came: Arrived) -> bool:
        """Whether this router sent it (RFC 2328, 8.2)."""
        return came.source == self._own

    def program(self, queue: Queue, neighbors: Iterable[int] = ()) -> bytes:
        """The filter of the socket of that kind, if the neighbor has one of these Router IDs."""
        (mask, network), stray = self.sources, Queue.STRAYS.value
        steps: list[Step] = [
            (Bpf.LOAD_BYTE, 0),
            (Bpf.AND, 0xF0),
            Compare(0x40, otherwise=NONE),
            (Bpf.LOAD_BYTE, 9),
            Compare(OSPF, otherwise=NONE),
            (Bpf.LOAD_WORD, 12),
            Compare(self._own, then=NONE),
            *(Compare(each, then=stray) for each in self.nobodys),
            (Bpf.AND, mask),
            Compare(network, otherwise=stray),
            (Bpf.LOAD_WORD, 16),
            *(Compare(each, then=1) for each in self.destinations[1:]),
            Compare(self.destinations[0], otherwise=stray),
            (Bpf.INDEX_IP_HEADER, 0),
            (Bpf.LOAD_BYTE_AT, 0),
            Compare(VERSION, otherwise=stray),
            (Bpf.LOAD_HALF_AT, 14),
            Compare(self.autype, otherwise=stray),
            (Bpf.LOAD_WORD_AT, 4),
            *(Compare(each, then=Queue.NEIGHBOR.value) for each in neighbors),
        ]
        ends = (Queue.OTHERS, Queue.NEIGHBOR, Queue.STRAYS)
        returns = {each.value: Bpf.ALL if each is queue else 0 for each in ends}
        return assembled(steps, {**returns, NONE: 0})

    def refusal(self, came: Arrived) -> Refused | None:
        """Why a packet doesn't count by its addresses; None if it does. AuType is looked at
        with the authentication."""
        mask, network = self.sources
        if came.source & mask != network:
            where = f"{self.peer}" if self.peer else f"in {self.network}"
            return Refused(Refusal.SOURCE, f"{IPv4Address(came.source)} isn't {where}")
        if came.source in self.nobodys:
            where = f"an address that no host has in {self.network or 'any network'}"
            return Refused(Refusal.SOURCE, f"{IPv4Address(came.source)} is {where}")
        if came.destination not in self.destinations:
            detail = f"{IPv4Address(came.destination)} in place of {ALL_SPF_ROUTERS}"
            return Refused(Refusal.DESTINATION, detail)
        return None
