"""What waits for `routerd` at one interface.

A neighbor may flood thousands of LSAs at once, more than the receive buffer of `routerd`'s socket
holds (the system's usual one, 208 KiB): what the kernel drops there comes again after the
neighbor's RxmtInterval alone, and a Hello that is dropped may cost the adjacency. So datagrams
wait here while too many of them wait there. Hellos go first, and Updates that wait are put
together into larger ones, which `routerd` takes in one step each.
"""
from __future__ import annotations

from collections import deque
from pathlib import Path

from leafrunt_host.packets import HEADER, ROUTER_MTU, PacketType, merged

MOST_WAITING = 8 << 20
"""Bytes that wait for one interface at most; what comes then is dropped and counted."""
RECORD = 128
"""Bytes that are counted for each datagram beside its own."""
MOST_HELLOS = 64
"""Hellos that may go first; who sends more of them has no advantage of it."""
MOST_AHEAD = 64 << 10
"""Bytes of the kernel's memory that may wait in `routerd`'s socket before more is given to it."""
LOOKED_AGAIN = 0.01
"""Seconds until the socket is looked at again."""
UDP_SOCKETS = Path("/proc/net/udp")
LOOPBACK = ("0100007F", "7F000001")
"""127.0.0.1 there, by the order of this machine's bytes."""


def kernel_memory(length: int) -> int:
    """About how much of the kernel's memory a datagram takes: its length and the kernel's own
    record of it, rounded up to a power of two."""
    return 1024 + (1 << max(length + 512, 512).bit_length())


def waiting_at(ports: set[int], sockets: Path = UDP_SOCKETS) -> dict[int, int]:
    """Bytes of the kernel's memory that wait at the UDP sockets of these ports (proc(5)); a port
    without a socket isn't in it."""
    found: dict[int, int] = {}
    try:
        lines = sockets.read_text(encoding="ascii").splitlines()[1:]
    except (OSError, UnicodeDecodeError):
        return found
    for line in lines:
        words = line.split()
        address, port = words[1].split(":")
        if address in LOOPBACK and int(port, 16) in ports:
            found[int(port, 16)] = int(words[4].split(":")[1], 16)
    return found


class Inbox:
    """The datagrams that wait, and how much was given since `routerd`'s socket was looked at."""

    def __init__(self) -> None:
        self._hellos: deque[bytes] = deque()
        self._others: deque[bytes] = deque()
        self._ahead = self._bytes = 0

    def __len__(self) -> int:
        return len(self._hellos) + len(self._others)

    def put(self, data: bytes) -> bool:
        """Whether there's room for it."""
        if self._bytes + len(data) + RECORD > MOST_WAITING:
            return False
        self._bytes += len(data) + RECORD
        is_hello = len(data) >= HEADER.size and data[1] == PacketType.HELLO
        goes_first = is_hello and len(self._hellos) < MOST_HELLOS
        (self._hellos if goes_first else self._others).append(data)
        return True

    @property
    def is_blocked(self) -> bool:
        """Whether `routerd`'s socket is to be looked at before more is given to it."""
        return self._ahead >= MOST_AHEAD

    def seen(self, waiting: int) -> None:
        """How much waits at `routerd`'s socket now."""
        self._ahead = waiting

    def take(self) -> bytes | None:
        """The next datagram; None if there is none, or `routerd` has enough."""
        if self.is_blocked or not self:
            return None
        data = self._next(self._hellos) if self._hellos else self._merged()
        self._ahead += kernel_memory(len(data))
        return data

    def _next(self, line: deque[bytes]) -> bytes:
        data = line.popleft()
        self._bytes -= len(data) + RECORD
        return data

    def _merged(self) -> bytes:
        """The next one, an Update together with those that follow as far as they fit."""
        data = self._next(self._others)
        while self._others:
            more = merged(data, self._others[0], ROUTER_MTU)
            if more is None:
                break
            self._next(self._others)
            data = more
        return data
