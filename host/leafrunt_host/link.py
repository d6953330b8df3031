"""One interface of a box without its sockets: the packets of the wire and the datagrams of
`routerd`, bytes in, bytes out. Its status may be asked for from any thread; all else is the
bridge's thread alone.
"""
from __future__ import annotations

import logging
import time
from collections import Counter
from collections.abc import Callable
from dataclasses import dataclass, field, replace
from ipaddress import IPv4Address, IPv4Interface, IPv4Network
from threading import Lock

from leafrunt_host.arrivals import Arrivals
from leafrunt_host.authentication import (
    Authentication,
    Key,
    NeighborNumbers,
    Refusal,
    Refused,
    SequenceNumbers,
)
from leafrunt_host.exchange import WRAP, Exchange, Passed, Side
from leafrunt_host.interfaces import KernelState
from leafrunt_host.journal import where_it_failed
from leafrunt_host.lsas import LsType
from leafrunt_host.observing import Limiter, Observer, Report
from leafrunt_host.owed import Owed
from leafrunt_host.own_lsas import OwnLsas
from leafrunt_host.packet_filter import PacketFilter, arrived
from leafrunt_host.packets import (
    IP_HEADER_LENGTH,
    ROUTER_MTU,
    AuType,
    Description,
    Flags,
    Malformed,
    Packet,
    PacketType,
    address_of,
    cut,
    farewell,
    headers_that_fit,
    lsas_of,
    read,
)
from leafrunt_host.places import AGE, FLUSHED, Places
from leafrunt_host.tracing import Tracer
from leafrunt_host.withheld import Withheld

log = logging.getLogger("leafrunt.bridge")
NOBODY = IPv4Address(0)
MOST_NEIGHBORS = 16
"""Router IDs that the kernel's filter may name; an interface has one neighbor."""
WITHHELD = "withheld LSAs"
EARLY = "LSAs that came too early"
FAILED = "dropped by a mistake in this program"
WRONG_DIGEST = Refused(Refusal.WRONG_DIGEST)
FORGED = f"refused {WRONG_DIGEST}"
Watch = Callable[[Side, Packet, float], None]
"""Is called with each packet of the neighbor that was taken, and each of `routerd`'s: the side that
it came from, and the moment."""


@dataclass(frozen=True)
class Interface:
    """An interface of `routerd`'s configuration, and the kernel's that it stands for: the MTU
    as it was at the start, the UDP ports of 127.0.0.1 that `routerd` receives at and sends to."""

    number: int
    name: str
    address: IPv4Interface
    mtu: int
    port: int
    peer: int
    keys: tuple[Key, ...] = ()
    dead_interval: float = 40.0
    network: IPv4Network | None = None
    """What the neighbor's address is in; None if it may be any."""
    neighbor: IPv4Address | None = None
    """The neighbor's address, if it's configured."""

    def filter(self) -> PacketFilter:
        """Which packets count here."""
        autype = AuType.CRYPTOGRAPHIC if self.keys else AuType.NULL
        return PacketFilter(self.address.ip, self.network, self.neighbor, autype)


@dataclass
class Sent:
    """What is to be sent after bytes came: OSPF packets without IP header to the wire,
    datagrams to `routerd`."""

    to_wire: list[bytes] = field(default_factory=list)
    to_router: list[bytes] = field(default_factory=list)


def mtu_field(mtu: int) -> int:
    """The MTU as a Database Description can say it, in 16 bits (RFC 2328, A.3.3)."""
    return min(mtu, 0xFFFF)


def with_description(like: Packet, description: Description, mtu: int) -> Packet:
    """A Description with the header of another and this MTU."""
    return replace(like, body=replace(description, mtu=mtu).encode())


class Link:
    """One interface as values: what comes, at which moment, and what is sent for it."""

    def __init__(
        self,
        interface: Interface,
        numbers: SequenceNumbers,
        neighbor_numbers: NeighborNumbers | None = None,
        watch: Watch | None = None,
        places: Places | None = None,
        own_lsas: OwnLsas | None = None,
        arrivals: Arrivals | None = None,
    ) -> None:
        self.interface = interface
        self.authentication = Authentication(
            interface.keys, numbers, interface.dead_interval, interface.name, neighbor_numbers
        )
        self.observer = Observer(interface.name, mtu_field(interface.mtu))
        self.counters: Counter[str] = Counter()
        self.filter = interface.filter()
        self._watch = watch
        self._withheld = Withheld(Places() if places is None else places)
        self._own_lsas = OwnLsas() if own_lsas is None else own_lsas
        self._arrivals = Arrivals() if arrivals is None else arrivals
        self.owed = Owed()
        self._limiter = Limiter()
        self._tracer = Tracer(interface.name)
        self._lock = Lock()
        self._kernel: KernelState | None = None
        self.is_usable = True
        """Whether the kernel's interface is up and still has the address."""
        self._mtu = mtu_field(interface.mtu)
        self._exchange = Exchange(headers_that_fit(self._limit))
        self._next_hops: dict[IPv4Address, IPv4Address] = {}
        self._hello: Packet | None = None
        """The neighbor's last Hello, to be given to `routerd` without names each time that the
        link is lost."""
        self._first: IPv4Address | None = None
        """Whose Hello came first since `routerd`'s last one."""
        self._remarks: tuple[str, ...] = ()
        self.neighbors: tuple[int, ...] = ()
        """Those that `routerd`'s last Hello with names named: their packets go before others."""
        self._own_like = self._neighbor_like = Packet(
            PacketType.DATABASE_DESCRIPTION, NOBODY, NOBODY, b""
        )

    @property
    def _limit(self) -> int:
        """The largest packet that the wire takes with its digest, by the MTU as it is now."""
        return self._mtu - IP_HEADER_LENGTH - self.authentication.overhead

    def take_over(self, interface: Interface) -> None:
        """Goes by other keys, by another address of the neighbor or another MTU of the start, from
        the next packet on. All else of the interface is as it was, and so is what is known of the
        neighbor."""
        with self._lock:
            if interface.keys != self.interface.keys:
                self.authentication = self.authentication.with_keys(interface.keys)
            self.interface, self.filter = interface, interface.filter()
            self.authentication.dead_interval = interface.dead_interval
            self._exchange.wire_room = headers_that_fit(self._limit)
            self.is_usable = self._is_usable()

    @property
    def hello(self) -> Packet | None:
        """The neighbor's last Hello."""
        return self._hello

    def is_table_in_doubt(self, now: float) -> bool:
        """See `OwnLsas.is_in_doubt`: of all links together."""
        return self._own_lsas.is_in_doubt(now)

    def next_hop(self, router_id: IPv4Address) -> IPv4Address | None:
        """Where that neighbor's Hellos come from that authentication let pass (RFC 2328, 10.5):
        a next hop may come from no other packet."""
        with self._lock:
            return self._next_hops.get(router_id)

    def why_lost(self, router_id: IPv4Address, now: float) -> str:
        """Why a neighbor isn't Full any more."""
        with self._lock:
            if not self.is_usable:
                return "; ".join(self._of_kernel()) or "the interface can't be used"
            return self.observer.why_lost(router_id, now)

    def reports(self, now: float) -> list[Report]:
        """What is to be said of the interface, then of each Router ID that was seen at it."""
        with self._lock:
            own = [*self._of_kernel(), *self.authentication.remarks(), *self._of_counters(now)]
            head = [Report(self.interface.name, reasons=tuple(own))] if own else []
            return head + self.observer.reports(now)

    def status(self, now: float) -> list[str]:
        """The reports as lines."""
        return [str(each) for each in self.reports(now)]

    def _of_kernel(self) -> list[str]:
        state, address = self._kernel, self.interface.address
        if state is None:
            return []
        if not state.index:
            return ["the kernel has no interface of this name"]
        said = [] if state.is_up else ["down: no carrier, or taken down"]
        if address.ip not in state.addresses:
            has = ", ".join(map(str, sorted(state.addresses))) or "none"
            said.append(
                f"its address {address.ip} is gone (it has {has}), so nothing is sent or taken: "
                "give the address back, or start the router again"
            )
        if state.mtu != self.interface.mtu:
            said.append(f"its MTU is {state.mtu} now, and was {self.interface.mtu} at the start")
        return said

    @property
    def withholds(self) -> bool:
        """Whether there are LSAs that `routerd` can't have."""
        with self._lock:
            return self._withheld.is_withholding

    def _of_counters(self, now: float) -> list[str]:
        said = list(self._withheld.remarks(now))
        if self.counters[FAILED]:
            said.append(
                f"{self.counters[FAILED]} packets were dropped by a mistake in this program: "
                "the log says which"
            )
        return said

    def failed(self, error: Exception, now: float) -> None:
        """A packet was dropped, since this program has a mistake: that's counted and logged."""
        with self._lock:
            self.counters[FAILED] += 1
            said = f"{self.interface.name}: a packet is dropped: {where_it_failed(error)}"
            self._tell([said], now, logging.ERROR)

    def arrived(self, packet: bytes, now: float) -> Sent:
        """An IP packet of protocol 89 that came in. Of those that this router sent itself nothing
        is said."""
        came = arrived(packet)
        if came is None or self.filter.is_own(came):
            return Sent()
        refused = self.filter.refusal(came)
        source = address_of(came.source)
        if refused is None:
            return self.from_wire(came.payload, source, now)
        with self._lock:
            self._refused(came.payload, source, refused, now)
        return Sent()

    def is_forged_again(self, packet: bytes, now: float) -> bool:
        """Whether an IP packet that counts has a wrong digest, as another one of its Router ID had:
        then it's counted and refused. There may be floods of them, which would keep the neighbor's
        own packets waiting, and are to take little more than their digests do."""
        data = packet[(packet[0] & 15) * 4 :] if packet else b""
        forger = self.observer.forger(data[4:8], now)
        if forger is None or not self.authentication.is_forged(data):
            return False
        source = address_of(packet[12:16])
        with self._lock:
            self.counters[FORGED] += 1
            forger.count, forger.moment, forger.source = forger.count + 1, now, source
            self._tracer.refused(source, WRONG_DIGEST, now)
        return True

    def _refused(self, data: bytes, source: IPv4Address, why: Refused, now: float) -> None:
        self.counters[f"refused {why.refusal.value}"] += 1
        self._tracer.refused(source, why, now)
        self._tell(self.observer.refused(data, source, why, now), now, logging.WARNING)

    def from_wire(self, data: bytes, source: IPv4Address, now: float) -> Sent:
        """An OSPF packet that came in by IP, to an address and from one that count."""
        with self._lock:
            packet = self.authentication.judged(data, source, now)
            if isinstance(packet, Refused):
                self._refused(data, source, packet, now)
                return Sent()
            try:
                self._tell(self.observer.from_wire(packet, source, now), now, logging.WARNING)
                return self._taken(packet, source, now)
            except Malformed as why:
                self.counters["refused malformed"] += 1
                self._tracer.refused(source, why, now)
            return Sent()

    def _taken(self, packet: Packet, source: IPv4Address, now: float) -> Sent:
        if self._is_neighbor(packet.router_id):
            self.owed.passed(Side.WIRE, packet, now)
        if packet.type == PacketType.DATABASE_DESCRIPTION:
            sent = self._described(packet, now)
        elif packet.type == PacketType.LINK_STATE_UPDATE and self._is_neighbor(packet.router_id):
            packet, sent = self._updated(packet, now)
        else:
            sent = Sent(to_router=[part.encode() for part in cut(packet, ROUTER_MTU)])
        if packet.type == PacketType.HELLO:
            self._heard_hello(packet, source, now)
        self.counters["in"] += 1
        self._tracer.received(packet, source, now)
        if self._watch and self._is_neighbor(packet.router_id):
            self._watch(Side.WIRE, packet, now)
        return sent

    def _heard_hello(self, packet: Packet, source: IPv4Address, now: float) -> None:
        """Keeps the address and the last Hello of those that may be the neighbor."""
        observer = self.observer
        if not observer.agrees(packet):
            return
        for each in [each for each in self._next_hops if each not in observer.taken]:
            del self._next_hops[each]
        if packet.router_id in observer.taken:
            before = self._next_hops.get(packet.router_id, source)
            self._next_hops[packet.router_id] = source
            if before != source and self._is_neighbor(packet.router_id):
                moved = f"{packet.router_id} sends from {source} now, and not from {before}"
                said = f"{self.interface.name}: {moved}: packets go there"
                self._tell([said], now, logging.WARNING)
        self._first = self._first or packet.router_id
        if self._is_neighbor(packet.router_id):
            self._hello = packet

    def _is_neighbor(self, router_id: IPv4Address) -> bool:
        """Whether it's the one that `routerd` has as its neighbor: that its Hellos name, or, if
        they name nobody yet, whose Hello it took first."""
        named = self.observer.named
        return router_id in named if named else router_id == self._first

    def _updated(self, packet: Packet, now: float) -> tuple[Packet, Sent]:
        """A neighbor's Update, without the LSAs that `routerd` can't have: those are acknowledged
        here (RFC 2328, 13.5); and without those that come too early, which aren't."""
        lsas = lsas_of(packet.body)
        known, headers = self._withheld.updated(lsas, now)
        passed = self._in_time(packet, known, now)
        if len(passed) < len(lsas):
            packet = replace(packet, body=len(passed).to_bytes(4, "big") + b"".join(passed))
        if headers:
            self.counters[WITHHELD] += len(headers)
        sent = Sent()
        if passed:
            sent.to_router = [part.encode() for part in cut(packet, ROUTER_MTU)]
        if headers and self.observer.own:
            self.owed.acknowledged(headers, now)
            own, kind = self.observer.own, PacketType.LINK_STATE_ACKNOWLEDGMENT
            said = Packet(kind, own.router_id, own.area, b"".join(headers))
            sent.to_wire = [self._wire(part) for part in cut(said, self._limit)]
        self._tell_withheld(now)
        return packet, sent

    def _in_time(self, packet: Packet, lsas: list[bytes], now: float) -> list[bytes]:
        """Those that `routerd` is given now."""
        if all(each[3] != LsType.ROUTER and each[AGE] != FLUSHED for each in lsas):
            return lsas
        own, number = self.observer.own, self.interface.number
        router_id = own.router_id.packed if own else b""
        found = []
        for each in lsas:
            self._own_lsas.came(router_id, each, now)
            until = self._own_lsas.early_until(router_id, each)
            if until > now:
                self._arrivals.keep(number, packet, each, until)
            elif not self._arrivals.waits(number, packet, each, now):
                found.append(each)
        if len(found) < len(lsas):
            self.counters[EARLY] += len(lsas) - len(found)
        return found

    def come_again(self, update: Packet, now: float) -> Sent:
        """A neighbor's Update that has waited."""
        with self._lock:
            if not self._is_neighbor(update.router_id):
                return Sent()
            packet, sent = self._updated(update, now)
            if self._watch and sent.to_router:
                self._watch(Side.WIRE, packet, now)
            return sent

    def _tell_withheld(self, now: float) -> None:
        news, self._withheld.news = self._withheld.news, []
        self._tell([f"{self.interface.name}: {each}" for each in news], now, logging.WARNING)

    def _begin_anew(self) -> Sent:
        """Gives `routerd` a Description that is out of order, so that it, and then the neighbor,
        begins the Database Exchange anew (RFC 2328, 10.6, SeqNumberMismatch)."""
        self._exchange = Exchange(headers_that_fit(self._limit))
        if not self._neighbor_like.body:
            return Sent()
        last = Description.decode(self._neighbor_like.body)
        wrong = replace(last, flags=Flags(0), headers=(), sequence=(last.sequence + 2) % WRAP)
        return Sent(to_router=[with_description(self._neighbor_like, wrong, ROUTER_MTU).encode()])

    def _described(self, packet: Packet, now: float) -> Sent:
        """A neighbor's Description: it's discarded if its MTU is above this interface's (RFC
        2328, 10.6), here, as `routerd` sees 8192 in each. One of another router than the
        neighbor, which `routerd` discards too, would end the exchange under way."""
        description = Description.decode(packet.body)
        if not self._is_neighbor(packet.router_id):
            self.counters["refused Description of another router"] += 1
            return Sent()
        if description.mtu > self._mtu:
            self.counters["refused MTU"] += 1
            return Sent()
        self._neighbor_like = packet
        if description.has(Flags.I):
            self._withheld.begun(now)
        headers = self._withheld.described(description.headers, now)
        self._tell_withheld(now)
        return self._exchanged(
            self._exchange.came(Side.WIRE, replace(description, headers=headers))
        )

    def _exchanged(self, passed: Passed) -> Sent:
        """Writes Descriptions: as this router's on the wire, as the neighbor's to `routerd`."""
        to_wire = [with_description(self._own_like, each, self._mtu) for each in passed.to_wire]
        to_router = [
            with_description(self._neighbor_like, each, ROUTER_MTU) for each in passed.to_router
        ]
        return Sent([self._wire(each) for each in to_wire], [each.encode() for each in to_router])

    def from_router(self, data: bytes, now: float) -> Sent:
        """A datagram of `routerd`."""
        with self._lock:
            try:
                return self._from_router(read(data), now)
            except Malformed as why:
                self.counters["refused of the router"] += 1
                self._tell([f"{self.interface.name}: a datagram of the router: {why}"], now)
                return Sent()

    def _from_router(self, packet: Packet, now: float) -> Sent:
        self.owed.passed(Side.ROUTER, packet, now)
        if packet.type == PacketType.DATABASE_DESCRIPTION:
            sent = self._describes(packet)
        elif self._is_to_begin_anew(packet, now):
            sent = self._begin_anew()
        else:
            sent = Sent(to_wire=[self._wire(part) for part in cut(packet, self._limit)])
        self.observer.from_router(packet)
        self.counters["out"] += 1
        self._tracer.sent(packet, now)
        if packet.type == PacketType.HELLO:
            self._first = None
            named = self.observer.named[:MOST_NEIGHBORS]
            self.neighbors = tuple(map(int, named)) or self.neighbors
            self._tell_keys(now)
        if self._watch:
            self._watch(Side.ROUTER, packet, now)
        return sent

    def _is_to_begin_anew(self, packet: Packet, now: float) -> bool:
        """Takes note of what `routerd` has and asks for; whether it waits for what it can't have,
        or has room again for what was withheld, which is looked at with each Hello."""
        self._withheld.sent(packet, now)
        if packet.type == PacketType.LINK_STATE_UPDATE:
            self._own_lsas.sent(packet.router_id.packed, lsas_of(packet.body), now)
        if packet.type == PacketType.LINK_STATE_REQUEST:
            is_stuck = self._withheld.is_stuck(packet.body, now)
            self._tell_withheld(now)
            return is_stuck
        return packet.type == PacketType.HELLO and self._withheld.has_room_again(now)

    def _tell_keys(self, now: float) -> None:
        remarks = tuple(self.authentication.remarks())
        if remarks != self._remarks:
            self._tell([f"{self.interface.name}: {each}" for each in remarks], now)
        self._remarks = remarks

    def _describes(self, packet: Packet) -> Sent:
        """A Description of `routerd`: a step of the bridge's own exchange."""
        description = Description.decode(packet.body)
        self._own_like = packet
        return self._exchanged(self._exchange.came(Side.ROUTER, description))

    def _is_usable(self) -> bool:
        state = self._kernel
        return state is None or (state.is_up and self.interface.address.ip in state.addresses)

    def kernel_is(self, state: KernelState, now: float) -> Sent:
        """What the kernel says of the interface: a new MTU counts from now on. If it went
        down, or lost its address, `routerd` hears the neighbor's last Hello naming nobody, so
        that it goes to 1-Way at once and not after RouterDeadInterval (RFC 2328, 10.5)."""
        with self._lock:
            if self._kernel == state:
                return Sent()
            was_usable, self._kernel = self.is_usable, state
            self.is_usable = self._is_usable()
            said = self._of_kernel() or ([] if was_usable else ["up"])
            self._tell([f"{self.interface.name}: {each}" for each in said], now)
            if state.index and mtu_field(state.mtu) != self._mtu:
                self._mtu = mtu_field(state.mtu)
                self.observer.set_mtu(self._mtu)
                self._exchange.wire_room = headers_that_fit(self._limit)
            if self.is_usable or not was_usable:
                return Sent()
            self.authentication.link_lost()
            return self._one_way()

    @property
    def index(self) -> int:
        """The kernel's index of the interface, 0 if it isn't known or there is none."""
        return self._kernel.index if self._kernel else 0

    def neighbor_lost(self) -> Sent:
        """The neighbor can't be reached: `routerd` is told as of an interface that went down."""
        with self._lock:
            return self._one_way()

    def _one_way(self) -> Sent:
        """The neighbor's last Hello, naming nobody."""
        lost = self._hello
        self.owed.clear()
        is_told = lost is not None and self._is_neighbor(lost.router_id)
        return Sent(to_router=[farewell(lost).encode()] if lost and is_told else [])

    def end(self) -> Sent:
        """The last packet: a Hello that names nobody, so that the neighbor doesn't wait for
        RouterDeadInterval."""
        with self._lock:
            hello = self.observer.last_hello
            return Sent(to_wire=[self._wire(farewell(hello))] if hello else [])

    def update(self, lsas: list[bytes]) -> Sent:
        """These LSAs to the neighbor, as Updates of this router; nothing before `routerd`'s first
        Hello, nor if there are none."""
        with self._lock:
            own = self.observer.own
            if own is None or not lsas:
                return Sent()
            body = len(lsas).to_bytes(4, "big") + b"".join(lsas)
            packet = Packet(PacketType.LINK_STATE_UPDATE, own.router_id, own.area, body)
            return Sent(to_wire=[self._wire(part) for part in cut(packet, self._limit)])

    def _wire(self, packet: Packet) -> bytes:
        return self.authentication.to_wire(packet)

    def _tell(self, lines: list[str], now: float, level: int = logging.INFO) -> None:
        for line in self._limiter.passing(self.interface.name, lines, now) if lines else ():
            log.log(level, "%s", line)
