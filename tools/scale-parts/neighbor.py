"""The neighbor of tools/scale: a router with a grid of others behind it, and what these announce."""
import ctypes
import random
import socket
import threading
import time

import ospf

ROOT, NEIGHBOR = "1.1.1.1", "9.9.9.9"
HELLO_INTERVAL, DEAD_INTERVAL = 1, 8
ROOM = 8000
"""The bytes of LSAs in an Update."""
NEW_NETWORK = 0x40000000
IP_HEADER = 20


def grid(side: int, externals: int, networks: int = 0) -> tuple[dict[str, list], dict[str, list], dict[str, list]]:
    """Returns the links of each router; of each external prefix its originator, type and metric; and of this many of
    the grid's links, which are transit networks, by the designated router's address the routers, that one first."""
    chance = random.Random(1)
    names = {(x, y): ospf.dotted(0x0A800000 + x * side + y + 1) for x in range(side) for y in range(side)}
    routers: dict[str, list] = {it: [] for it in names.values()}
    transit: dict[str, list] = {}
    count, links = 0, 2 * side * (side - 1)
    for (x, y), one in names.items():
        for dx, dy in ((1, 0), (0, 1)):
            if other := names.get((x + dx, y + dy)):
                cost, link = chance.randint(1, 20), 0xAC000000 + ((x * side + y) * 2 + dx) * 4
                here, there = ospf.dotted(link + 1), ospf.dotted(link + 2)
                count += 1
                # (spread evenly over the links)
                is_transit = count * networks // links > (count - 1) * networks // links
                if is_transit:
                    transit[here] = [one, other]
                routers[one].append([here, here, 2, cost] if is_transit else [other, here, 1, cost])
                routers[other].append([here, there, 2, cost] if is_transit else [one, there, 1, cost])
    for count, each in enumerate(routers.values()):
        each.append([ospf.dotted(0x0B000000 + count), "255.255.255.255", 3, 1])
    first = names[0, 0]
    routers[first].append([NEIGHBOR, "172.31.0.1", 1, 3])
    own = [[ROOT, "10.0.1.2", 1, 10], ["10.0.1.0", "255.255.255.0", 3, 10], [first, "172.31.0.2", 1, 3]]
    behind = sorted(routers)
    announced = {prefix(count): [chance.choice(behind), 1 + count % 2, chance.randint(1, 1000)] for count in range(externals)}
    return routers | {NEIGHBOR: own}, announced, transit


def prefix(count: int) -> str:
    return ospf.dotted(0x64400000 + count * 256)


class Datagrams:
    """Packets in UDP datagrams over loopback, as routerd has them."""

    def __init__(self, listen: int, send: int) -> None:
        self.socket, self.to = socket.socket(socket.AF_INET, socket.SOCK_DGRAM), ("127.0.0.1", send)
        self.socket.setsockopt(socket.SOL_SOCKET, socket.SO_RCVBUF, 1 << 22)
        self.socket.bind(("127.0.0.1", listen))
        self.socket.settimeout(0.1)

    def put(self, packet: bytes) -> None:
        self.socket.sendto(packet, self.to)

    def take(self) -> bytes:
        return self.socket.recv(65536)


class Wire(Datagrams):
    """Packets over IP (protocol 89) at an interface of a network namespace."""

    def __init__(self, namespace: str, interface: str) -> None:
        self.to = ("224.0.0.5", 0)
        libc = ctypes.CDLL(None, use_errno=True)
        with open("/proc/thread-self/ns/net") as back, open(f"/run/netns/{namespace}") as there:
            if libc.setns(there.fileno(), NEW_NETWORK):
                raise OSError(ctypes.get_errno(), f"cannot enter the namespace {namespace}")
            try:
                self.open(interface)
            finally:
                libc.setns(back.fileno(), NEW_NETWORK)

    def open(self, interface: str) -> None:
        self.socket = socket.socket(socket.AF_INET, socket.SOCK_RAW, 89)
        index = socket.if_nametoindex(interface).to_bytes(4, "little")
        self.socket.setsockopt(socket.SOL_SOCKET, socket.SO_BINDTODEVICE, interface.encode())
        self.socket.setsockopt(socket.IPPROTO_IP, socket.IP_ADD_MEMBERSHIP, socket.inet_aton("224.0.0.5") + bytes(4) + index)
        self.socket.setsockopt(socket.IPPROTO_IP, socket.IP_MULTICAST_IF, bytes(8) + index)
        self.socket.setsockopt(socket.IPPROTO_IP, socket.IP_MULTICAST_LOOP, 0)
        self.socket.setsockopt(socket.IPPROTO_IP, socket.IP_MULTICAST_TTL, 1)
        self.socket.setsockopt(socket.SOL_SOCKET, socket.SO_RCVBUF, 1 << 22)
        self.socket.settimeout(0.1)

    def take(self) -> bytes:
        return self.socket.recv(65536)[IP_HEADER:]


class Neighbor:
    """Brings a router to Full as the master of the exchange, and floods changes to it."""

    def __init__(self, way: Datagrams, routers: dict[str, list], externals: dict[str, list], networks: dict[str, list],
                 dead: int = DEAD_INTERVAL) -> None:
        self.way, self.routers, self.externals, self.networks, self.dead = way, routers, externals, networks, dead
        self.sequences: dict[str, int] = {}
        self.lsas: dict[tuple[int, str, str], bytes] = {}
        for name in routers:
            self.router(name)
        for name in externals:
            self.external(name)
        for address in networks:
            self.network(address)
        self.rest: list[bytes] = []
        self.said: tuple[int, int, list[bytes]] | None = None
        self.last, self.done, self.stop = 0.0, False, False
        self.thread = threading.Thread(target=self.run, daemon=True)

    def next(self, name: str) -> int:
        self.sequences[name] = self.sequences.get(name, 0x80000000) + 1
        return self.sequences[name]

    def router(self, name: str) -> bytes:
        made = self.lsas[1, name, name] = ospf.router_lsa(name, self.next(name), self.routers[name])
        return made

    def external(self, name: str) -> bytes:
        by, kind, metric = self.externals[name]
        made = self.lsas[5, name, by] = ospf.external_lsa(by, name, self.next(name), kind, metric)
        return made

    def network(self, address: str) -> bytes:
        routers = self.networks[address]
        made = self.lsas[2, address, routers[0]] = ospf.network_lsa(routers[0], address, self.next(address), routers)
        return made

    def update(self, lsas: list[bytes]) -> None:
        together: list[bytes] = []
        for each in [*lsas, None]:
            if together and (each is None or sum(map(len, together)) + len(each) > ROOM):
                self.way.put(ospf.update(NEIGHBOR, together))
                together = []
            together += [each] if each else []

    def describe(self, flags: int, number: int, headers: list[bytes]) -> None:
        self.said, self.last = (flags, number, headers), time.monotonic()
        self.way.put(ospf.description(NEIGHBOR, *self.said))

    def run(self) -> None:
        due = 0.0
        while not self.stop:
            if time.monotonic() >= due:
                due = time.monotonic() + HELLO_INTERVAL
                self.way.put(ospf.hello(NEIGHBOR, HELLO_INTERVAL, self.dead, [ROOT]))
                if self.said and not self.done and time.monotonic() - self.last > 3:
                    self.describe(*self.said)
            try:
                self.handle(self.way.take())
            except TimeoutError:
                continue

    def handle(self, packet: bytes) -> None:
        kind = ospf.type_of(packet)
        if kind == ospf.DESCRIPTION:
            self.exchange(packet[27], ospf.word(packet, 28))
        elif kind == ospf.REQUEST:
            self.update([self.lsas[key] for key in ospf.keys_of(packet) if key in self.lsas])
        elif kind == ospf.UPDATE:
            self.way.put(ospf.acknowledgment(NEIGHBOR, ospf.headers_of(packet)))

    def exchange(self, flags: int, number: int) -> None:
        """Handles a Description by its flags I, M, MS and its number (RFC 2328, 10.6)."""
        if flags == 7:
            self.done, self.rest = False, [self.lsas[key][: ospf.HEADER] for key in sorted(self.lsas)]
            self.describe(7, 77, [])
        elif self.said and not self.done and flags in (0, 2) and number == self.said[1]:
            if self.said[0] == 1 and flags == 0:
                self.done = True
                return
            now, self.rest = self.rest[:380], self.rest[380:]
            self.describe(3 if self.rest else 1, number + 1, now)
