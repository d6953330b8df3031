#!/usr/bin/env python3
"""Counts packets that are lost: `losses.py FROM TO` sends an echo request (RFC 792) every 5 ms until
its standard input ends, and then prints a line for each gap: when its first unanswered request was
sent, in seconds since the start, and how many were unanswered one after the other. The last line is
`sent N lost M`."""
from __future__ import annotations

import os
import select
import socket
import struct
import sys
from itertools import groupby
from pathlib import Path
from time import monotonic

sys.path.insert(0, str(Path(__file__).resolve().parent))
from ping import ECHO_REPLY, ECHO_REQUEST, internet_checksum  # noqa: E402

EACH = 0.005
LAST = 1.5
"""Seconds for the last answers."""


def request(number: int) -> bytes:
    """An echo request whose number has 32 bits, in its data too."""
    data = struct.pack(">I", number) + bytes(44)
    head = struct.pack(">BBHHH", ECHO_REQUEST, 0, 0, os.getpid() & 0xFFFF, number & 0xFFFF)
    return head[:2] + struct.pack(">H", internet_checksum(head + data)) + head[4:] + data


def answered(raw: socket.socket) -> set[int]:
    """The numbers of the answers that have come."""
    found = set()
    try:
        while True:
            data = raw.recv(2048)
            at = (data[0] & 15) * 4
            kind, _, _, own = struct.unpack_from(">BBHH", data, at)
            if (kind, own) == (ECHO_REPLY, os.getpid() & 0xFFFF):
                found.add(struct.unpack_from(">I", data, at + 8)[0])
    except BlockingIOError:
        return found


def main(source: str, to: str) -> int:
    raw = socket.socket(socket.AF_INET, socket.SOCK_RAW, socket.IPPROTO_ICMP)
    raw.setsockopt(socket.SOL_SOCKET, socket.SO_RCVBUF, 4 << 20)
    raw.bind((source, 0))
    raw.setblocking(False)
    start, is_ending, good = monotonic(), False, set[int]()
    sent: list[float] = []
    print("begun", flush=True)
    while not is_ending:
        due = start + len(sent) * EACH
        ready, _, _ = select.select([raw, sys.stdin], [], [], max(0.0, due - monotonic()))
        is_ending = sys.stdin in ready
        good |= answered(raw)
        if monotonic() >= due:
            try:
                raw.sendto(request(len(sent)), (to, 0))
            except OSError:
                pass  # counted as lost
            sent.append(monotonic() - start)
    until = monotonic() + LAST
    while (left := until - monotonic()) > 0 and len(good) < len(sent):
        select.select([raw], [], [], left)
        good |= answered(raw)
    for is_lost, numbers in groupby(range(len(sent)), lambda each: each not in good):
        gap = list(numbers)
        if is_lost:
            print(f"{sent[gap[0]]:.3f} {len(gap)}")
    print(f"sent {len(sent)} lost {len(sent) - len(good)}")
    return 0


if __name__ == "__main__":
    sys.exit(main(*sys.argv[1:3]))
