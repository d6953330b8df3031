#!/usr/bin/env python3
"""The wires of a test network: passes Ethernet frames on between pairs of interfaces of the
network namespace that it runs in, and loses, stops, keeps and repeats them as it is told.

wire.py ONE:OTHER.. the pairs of interfaces, wires 1, 2, 3 and so on

Lines on standard input, each answered with `ok` or a line of hex:

loss PERCENT               this share of all frames is lost from now on, on every wire
    cut NUMBER, mend NUMBER    nothing passes that wire, and again
    last NUMBER SIDE TYPE      the last OSPF packet of that type that came from that side, 0 or 1
    first NUMBER SIDE TYPE     the first one
    send NUMBER SIDE HEX       that frame goes to that side
"""
from __future__ import annotations

import random
import selectors
import socket
import sys
from dataclasses import dataclass, field

ETH_P_ALL, ETH_P_IP = 0x0003, b"\x08\x00"
PACKET_OUTGOING = 4
OSPF = 89
AT_ONCE = 64
LARGEST = 65_536


@dataclass
class Wire:
    """Two ends, and the first and last OSPF packets of each side by type."""

    ends: tuple[socket.socket, socket.socket]
    is_cut: bool = False
    first: dict[tuple[int, int], bytes] = field(default_factory=dict)
    last: dict[tuple[int, int], bytes] = field(default_factory=dict)

    def keep(self, side: int, frame: bytes) -> None:
        kind = ospf_type(frame)
        if kind is not None:
            self.first.setdefault((side, kind), frame)
            self.last[side, kind] = frame


def ospf_type(frame: bytes) -> int | None:
    """The type of the OSPF packet in a frame; None where there is none, or a later fragment."""
    if len(frame) < 36 or frame[12:14] != ETH_P_IP or frame[23] != OSPF:
        return None
    at = 14 + (frame[14] & 15) * 4
    is_later_fragment = int.from_bytes(frame[20:22], "big") & 0x1FFF
    return frame[at + 1] if not is_later_fragment and at + 1 < len(frame) else None


def end_at(name: str) -> socket.socket:
    one = socket.socket(socket.AF_PACKET, socket.SOCK_RAW, 0)
    one.setsockopt(socket.SOL_SOCKET, 33, 8 << 20)  # SO_RCVBUFFORCE
    one.bind((name, ETH_P_ALL))
    one.setblocking(False)
    return one


class Wires:
    def __init__(self, pairs: list[str]) -> None:
        self.wires = [
            Wire((end_at(one), end_at(other))) for one, other in (p.split(":") for p in pairs)
        ]
        self.loss = 0.0
        self.random = random.Random(1)
        self.waiting = selectors.DefaultSelector()
        for wire in self.wires:
            for side in (0, 1):
                self.waiting.register(wire.ends[side], selectors.EVENT_READ, (wire, side))
        self.waiting.register(sys.stdin, selectors.EVENT_READ, None)

    def run(self) -> None:
        """Until standard input ends."""
        print("ok", flush=True)
        while True:
            for key, _events in self.waiting.select():
                if key.data is None:
                    line = sys.stdin.readline()
                    if not line:
                        return
                    print(self.obey(line.split()), flush=True)
                else:
                    self.pass_on(*key.data)

    def pass_on(self, wire: Wire, side: int) -> None:
        for _ in range(AT_ONCE):
            try:
                frame, address = wire.ends[side].recvfrom(LARGEST)
            except OSError:
                return
            if address[2] == PACKET_OUTGOING:
                continue
            wire.keep(side, frame)
            if not wire.is_cut and self.random.random() >= self.loss:
                send(wire.ends[1 - side], frame)

    def obey(self, words: list[str]) -> str:
        verb, rest = words[0], words[1:]
        if verb == "loss":
            self.loss = int(rest[0]) / 100
            return "ok"
        wire = self.wires[int(rest[0]) - 1]
        if verb in ("cut", "mend"):
            wire.is_cut = verb == "cut"
        elif verb == "send":
            send(wire.ends[int(rest[1])], bytes.fromhex(rest[2]))
        elif verb in ("first", "last"):
            kept = wire.first if verb == "first" else wire.last
            return kept.get((int(rest[1]), int(rest[2])), b"").hex() or "none"
        return "ok"


def send(end: socket.socket, frame: bytes) -> None:
    """Sends, or loses what can't be sent now."""
    try:
        end.send(frame)
    except OSError:
        pass


if __name__ == "__main__":
    try:
        Wires(sys.argv[1:]).run()
    except KeyboardInterrupt:
        pass
