"""The sockets of a BFD session (RFC 5881): UDP, over one hop."""
from __future__ import annotations

import random
import socket
from ipaddress import IPv4Address

from leafrunt_host.packet_filter import Bpf, Compare, Step, assembled
from leafrunt_host.sockets import INTERNETWORK_CONTROL, Place, attach, resize

CONTROL_PORT = 3784
FIRST_PORT, LAST_PORT = 49152, 65535
"""Of those a session's packets come from one (RFC 5881, 4)."""
TTL = 255
"""RFC 5881, 5: no router has passed on a packet that has it."""
RECEIVE_BUFFER = 64 << 10
TRIES = 64
NETWORK_HEADER = -0x100000 & 0xFFFFFFFF
"""In a filter: of the IP header, while the packet begins with its UDP header (SKF_NET_OFF)."""
UDP_HEADER_LENGTH = 8
YOUR_DISCRIMINATOR = 8
"""Where it begins in a packet (RFC 5880, 4.1)."""
NONE, ALL = "none", "all"
OWN, OTHER = "own", "other"

# Numbers of Linux that some versions of Python have no names for.
IP_RECVTTL = 12  # <linux/in.h>
SO_ATTACH_REUSEPORT_CBPF = 51  # <asm-generic/socket.h>


def control_filter(neighbor: IPv4Address, discriminator: int) -> bytes:
    """Lets through what comes from the neighbor, over no router, with this Your Discriminator; the
    kernel drops the rest before it costs a process anything."""
    steps: list[Step] = [
        (Bpf.LOAD_WORD, NETWORK_HEADER + 12),
        Compare(int(neighbor), otherwise=NONE),
        (Bpf.LOAD_BYTE, NETWORK_HEADER + 8),
        Compare(TTL, otherwise=NONE),
        (Bpf.LOAD_WORD, UDP_HEADER_LENGTH + YOUR_DISCRIMINATOR),
        Compare(discriminator, otherwise=NONE),
    ]
    return assembled(steps, {ALL: Bpf.ALL, NONE: 0})


def choice(discriminator: int) -> bytes:
    """Which of a session's two sockets a packet goes to: the first is for its own discriminator."""
    steps: list[Step] = [
        (Bpf.LOAD_WORD, YOUR_DISCRIMINATOR),
        Compare(discriminator, otherwise=OTHER),
    ]
    return assembled(steps, {OWN: 0, OTHER: 1})


def bound_socket(place: Place) -> socket.socket:
    """A socket of one interface."""
    one = socket.socket(socket.AF_INET, socket.SOCK_DGRAM)
    try:
        one.setsockopt(socket.SOL_SOCKET, socket.SO_BINDTODEVICE, place.name.encode() + b"\0")
        one.setblocking(False)
    except OSError:
        one.close()
        raise
    return one


def hearing_sockets(
    place: Place, neighbor: IPv4Address, discriminator: int
) -> list[socket.socket]:
    """What a session's packets come to: those with its discriminator, which nobody knows who
    doesn't see its packets, to the first; those with none, as of a neighbor that is started or
    hears nothing, to the second. So a flood of the latter keeps none of the former waiting.
    `OSError` if they can't be had."""
    opened: list[socket.socket] = []
    try:
        for number in (discriminator, 0):
            opened.append(hearing_socket(place, control_filter(neighbor, number)))
        attach(opened[0], choice(discriminator), SO_ATTACH_REUSEPORT_CBPF)
    except OSError:
        for each in opened:
            each.close()
        raise
    return opened


def hearing_socket(place: Place, program: bytes) -> socket.socket:
    """One of them."""
    one = bound_socket(place)
    try:
        attach(one, program)
        one.setsockopt(socket.SOL_SOCKET, socket.SO_REUSEPORT, 1)
        one.setsockopt(socket.IPPROTO_IP, IP_RECVTTL, 1)
        resize(one, RECEIVE_BUFFER)
        one.bind((str(place.address.ip), CONTROL_PORT))
    except OSError:
        one.close()
        raise
    return one


def sending_socket(place: Place) -> socket.socket:
    """What a session's packets go by, past routing tables. `OSError` if it can't be had."""
    one = bound_socket(place)
    try:
        one.setsockopt(socket.IPPROTO_IP, socket.IP_TTL, TTL)
        one.setsockopt(socket.IPPROTO_IP, socket.IP_TOS, INTERNETWORK_CONTROL)
        one.setsockopt(socket.SOL_SOCKET, socket.SO_DONTROUTE, 1)
        for tried in range(1, TRIES + 1):
            try:
                one.bind((str(place.address.ip), random.randint(FIRST_PORT, LAST_PORT)))
                break
            except OSError:
                if tried == TRIES:
                    raise
    except OSError:
        one.close()
        raise
    return one
