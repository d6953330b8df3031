"""The sockets of an interface: raw ones for OSPF over IP, and one for `routerd`'s datagrams."""
from __future__ import annotations

import socket
import struct
from array import array
from ipaddress import IPv4Interface
from typing import Protocol

from leafrunt_host.packet_filter import (
    ALL_SPF_ROUTERS,
    INTERNETWORK_CONTROL,
    OSPF,
    Bpf,
    Queue,
)

LOOPBACK = "127.0.0.1"
RECEIVE_BUFFER = 4 << 20
RECEIVE_BUFFERS = {Queue.NEIGHBOR: RECEIVE_BUFFER, Queue.OTHERS: 512 << 10, Queue.STRAYS: 32 << 10}
"""Room for what comes while this process waits for a processor; little for what may be dropped."""

# Numbers of Linux that Python has no names for.
SO_ATTACH_FILTER = 26  # <asm-generic/socket.h>
SO_RCVBUFFORCE = 33  # the same: beyond net.core.rmem_max, with CAP_NET_ADMIN


class Place(Protocol):
    """What has to be known of an interface."""

    @property
    def name(self) -> str: ...

    @property
    def address(self) -> IPv4Interface: ...


def attach(one: socket.socket, program: bytes, option: int = SO_ATTACH_FILTER) -> None:
    """Gives a socket a classic BPF program, in place of the one that it has (socket(7)): a filter,
    or what another option says."""
    text = array("B", program)
    place, _ = text.buffer_info()
    sock_fprog = struct.pack("HP", len(program) // Bpf.INSTRUCTION.size, place)
    one.setsockopt(socket.SOL_SOCKET, option, sock_fprog)


def raw_socket(interface: Place, queue: Queue, program: bytes) -> socket.socket:
    """A socket for protocol 89 on one interface, joined to AllSPFRouters (RFC 2328, A.1), that gets
    what its filter lets through."""
    raw = socket.socket(socket.AF_INET, socket.SOCK_RAW, OSPF)
    try:
        attach(raw, program)
        raw.setsockopt(socket.SOL_SOCKET, socket.SO_BINDTODEVICE, interface.name.encode() + b"\0")
        index = socket.if_nametoindex(interface.name)
        member = struct.pack("=4s4si", ALL_SPF_ROUTERS.packed, interface.address.ip.packed, index)
        raw.setsockopt(socket.IPPROTO_IP, socket.IP_ADD_MEMBERSHIP, member)
        out = struct.pack("=4s4si", bytes(4), interface.address.ip.packed, index)
        raw.setsockopt(socket.IPPROTO_IP, socket.IP_MULTICAST_IF, out)
        raw.setsockopt(socket.IPPROTO_IP, socket.IP_MULTICAST_TTL, 1)
        raw.setsockopt(socket.IPPROTO_IP, socket.IP_MULTICAST_LOOP, 0)
        raw.setsockopt(socket.IPPROTO_IP, socket.IP_TOS, INTERNETWORK_CONTROL)
        resize(raw, RECEIVE_BUFFERS[queue])
        raw.setblocking(False)
        return raw
    except OSError:
        raw.close()
        raise


def udp_socket(port: int, router: int) -> socket.socket:
    """The socket that `routerd`'s datagrams of one interface come to; it takes those of
    `routerd`'s own port alone, so that no other program of this host is signed for."""
    udp = socket.socket(socket.AF_INET, socket.SOCK_DGRAM)
    try:
        resize(udp, RECEIVE_BUFFER)
        udp.bind((LOOPBACK, port))
        udp.connect((LOOPBACK, router))
        udp.setblocking(False)
        return udp
    except OSError:
        udp.close()
        raise


def resize(one: socket.socket, size: int) -> None:
    """Gives a socket room for this many bytes that come in, or as much as may be had."""
    try:
        one.setsockopt(socket.SOL_SOCKET, SO_RCVBUFFORCE, size)
    except PermissionError:
        one.setsockopt(socket.SOL_SOCKET, socket.SO_RCVBUF, size)
