"""A BFD session (RFC 5880, 6.8) as values: bytes that come at a moment, moments that pass, and what
is to be sent. Asynchronous mode, active role; no echo function, and no demand mode of this side's.

Variables have the standard's names: `bfd.SessionState` is `session_state`. Intervals are whole
microseconds, as on the wire; moments are seconds of one clock.
"""
from __future__ import annotations

import json
import random
from collections import Counter
from collections.abc import Callable
from dataclasses import asdict, dataclass

from leafrunt_host.bfd_packets import (
    LARGEST_NUMBER,
    BfdKey,
    Bits,
    ControlPacket,
    Diagnostic,
    Discarded,
    KeyType,
    State,
    Why,
    decode,
    number_of,
)

MICROSECONDS = 1_000_000
SLOW = 1_000_000
"""The least `bfd.DesiredMinTxInterval` of a session that isn't Up (RFC 5880, 6.8.3)."""
NEVER = float("inf")


@dataclass(frozen=True)
class Settings:
    """What is wanted of a session: the least intervals, in microseconds, the Detect Mult, 1 to 255,
    and keys, of which the first signs and each verifies."""

    transmit_interval: int = 300_000
    receive_interval: int = 300_000
    detect_mult: int = 3
    keys: tuple[BfdKey, ...] = ()


@dataclass
class Variables:
    """RFC 5880, 6.8.1, and of the last packet what its rules use without a name."""

    local_discr: int
    detect_mult: int
    desired_min_tx_interval: int
    required_min_rx_interval: int
    xmit_auth_seq: int
    session_state: State = State.DOWN
    remote_session_state: State = State.DOWN
    remote_discr: int = 0
    local_diag: int = Diagnostic.NONE
    remote_min_rx_interval: int = 1
    remote_demand_mode: bool = False
    rcv_auth_seq: int = 0
    auth_seq_known: bool = False
    remote_detect_mult: int = 0
    remote_min_tx_interval: int = 0
    remote_diag: int = Diagnostic.NONE


def kept(variables: Variables) -> bytes:
    """The variables as a line, for a process that goes on with the session."""
    return json.dumps(asdict(variables)).encode() + b"\n"


def kept_of(data: bytes) -> Variables:
    """The same back. `ValueError` if it's no such line."""
    try:
        said = json.loads(data.partition(b"\n")[0])
        for each in ("session_state", "remote_session_state"):
            said[each] = State(said[each])
        if not all(isinstance(each, int) and 0 <= each <= LARGEST_NUMBER for each in said.values()):
            raise ValueError("a number that is none of 32 bits")
        return Variables(**said)
    except (TypeError, KeyError) as error:
        raise ValueError("no variables of a session") from error


@dataclass(frozen=True)
class Change:
    """The session's state was another before."""

    before: State
    after: State
    diagnostic: int
    is_lost: bool
    """Whether the path to the neighbor failed: it was Up, and its end isn't the neighbor's wish
    (RFC 5882, 3.2 and 4.2)."""


def is_after(number: int, last: int, most: int, least: int) -> bool:
    """Whether a number is `least` to `most` above the last one, in a circle of 32 bits."""
    return least <= (number - last) & LARGEST_NUMBER <= most


class Session:
    """One session with one neighbor. `act` is to be called at the moment `due`, and after each
    `received`."""

    def __init__(
        self,
        settings: Settings,
        local_discr: int,
        now: float,
        chance: Callable[[], float] = random.random,
    ) -> None:
        """`chance` answers numbers from 0 to 1, for jitter and the first sequence number."""
        self._settings, self._chance = settings, chance
        self._keys = {each.id: each for each in settings.keys}
        self.variables = Variables(
            local_discr,
            settings.detect_mult,
            max(settings.transmit_interval, SLOW),
            settings.receive_interval,
            int(chance() * LARGEST_NUMBER),
        )
        self.discarded: Counter[Why] = Counter()
        self.changes: list[Change] = []
        """For whoever asks, who takes them out."""
        self._heard: float | None = None
        """When the last packet was taken; None once it's forgotten."""
        self._sent, self._jitter = now, 0.0
        self._is_prompt, self._is_polling, self._owes_final = False, False, False
        self._before: tuple[int, int] | None = None
        """The intervals sent and received, until the neighbor knows others."""

    def resume(self, variables: Variables, now: float) -> None:
        """Goes on with a session that another process held until a moment ago, which the neighbor
        doesn't notice. A Poll Sequence may have been under way, so one is begun. `ValueError` if
        they are another session's."""
        if variables.local_discr != self.variables.local_discr:
            raise ValueError("another session's variables")
        self.variables, self._heard = variables, now
        self.change(self._settings)

    def change(self, settings: Settings) -> None:
        """Goes on with other settings. Intervals are changed by a Poll Sequence (6.8.3): before its
        end nothing is counted on that the neighbor may not know yet."""
        them = self.variables
        sent, received = them.desired_min_tx_interval, them.required_min_rx_interval
        if self._before:
            # (the neighbor may know none of the last changes)
            sent, received = min(sent, self._before[0]), max(received, self._before[1])
        self._before = sent, received
        self._settings, self._keys = settings, {each.id: each for each in settings.keys}
        them.detect_mult = settings.detect_mult
        them.required_min_rx_interval = settings.receive_interval
        them.desired_min_tx_interval = self._wanted_interval()
        self._is_prompt = self._is_polling = True

    def _wanted_interval(self) -> int:
        """Of `bfd.DesiredMinTxInterval` in this state."""
        wanted = self._settings.transmit_interval
        return wanted if self.variables.session_state is State.UP else max(wanted, SLOW)

    # -- times

    @property
    def transmit_interval(self) -> int:
        """Between two packets at most (6.8.2 and 6.8.7)."""
        them = self.variables
        wanted = them.desired_min_tx_interval
        if self._before:
            wanted = min(wanted, self._before[0])
        return max(wanted, them.remote_min_rx_interval)

    @property
    def detection_time(self) -> int:
        """6.8.4; 0 before the first packet."""
        them = self.variables
        agreed = max(them.required_min_rx_interval, them.remote_min_tx_interval)
        if self._before:
            agreed = max(agreed, self._before[1])
        return them.remote_detect_mult * agreed

    @property
    def _is_silent(self) -> bool:
        """Whether no packet is sent by time alone (6.8.7): the neighbor wants none."""
        them = self.variables
        is_demand = (
            them.remote_demand_mode and them.session_state == them.remote_session_state == State.UP
        )
        return them.remote_min_rx_interval == 0 or (is_demand and not self._is_polling)

    def _next_packet(self) -> float:
        if self._is_prompt or self._owes_final:
            return self._sent
        if self._is_silent:
            return NEVER
        return self._sent + self.transmit_interval * self._jitter / MICROSECONDS

    def _expiry(self) -> float:
        """When the detection time ends next; after it, when the sequence number is forgotten
        (6.8.1: twice that time)."""
        if self._heard is None:
            return NEVER
        times = 1 if self.variables.remote_discr else 2
        return self._heard + times * self.detection_time / MICROSECONDS

    def is_over(self, now: float) -> bool:
        """Whether a detection time has ended by then, as far as packets were taken."""
        return now >= self._expiry()

    @property
    def due(self) -> float:
        """The next moment at which there is something to do."""
        return min(self._next_packet(), self._expiry())

    # -- what comes

    def received(self, data: bytes, now: float) -> None:
        """A datagram of the neighbor's, by the rules of 6.8.6; one that is discarded is counted."""
        try:
            packet, section = decode(data)
            self._checked(packet)
            self._authenticated(packet, data, section)
        except Discarded as why:
            self.discarded[why.why] += 1
            return
        self._heard = now
        self._noted(packet)
        self._turned(packet.state)
        if Bits.POLL in packet.bits:
            self._owes_final = True

    def _checked(self, packet: ControlPacket) -> None:
        if packet.your_discriminator not in (0, self.variables.local_discr):
            raise Discarded(Why.NO_SESSION)
        has_section = Bits.AUTHENTICATION in packet.bits
        if has_section and not self._keys:
            raise Discarded(Why.WANTED_NONE)
        if self._keys and not has_section:
            raise Discarded(Why.WANTED_SHA1)

    def _authenticated(self, packet: ControlPacket, data: bytes, section: bytes) -> None:
        """6.7.4; the number after the digest alone, else a forged packet could lock the neighbor
        out."""
        if not self._keys:
            return
        key, number = number_of(data, section, self._keys)
        them = self.variables
        least = 1 if key.type is KeyType.METICULOUS_KEYED_SHA1 else 0
        most = 3 * packet.detect_mult
        if them.auth_seq_known and not is_after(number, them.rcv_auth_seq, most, least):
            raise Discarded(Why.SEQUENCE)
        them.auth_seq_known, them.rcv_auth_seq = True, number

    def _noted(self, packet: ControlPacket) -> None:
        them = self.variables
        them.remote_discr = packet.my_discriminator
        them.remote_session_state = packet.state
        them.remote_demand_mode = Bits.DEMAND in packet.bits
        them.remote_min_rx_interval = packet.required_min_rx_interval
        them.remote_min_tx_interval = packet.desired_min_tx_interval
        them.remote_detect_mult = packet.detect_mult
        them.remote_diag = packet.diagnostic
        if Bits.FINAL in packet.bits:
            self._is_polling, self._before = False, None

    def _turned(self, remote: State) -> None:
        """The state machine of 6.8.6: what the neighbor's state makes of this one's."""
        mine = self.variables.session_state
        if remote is State.ADMIN_DOWN:
            if mine is not State.DOWN:
                self._become(State.DOWN, Diagnostic.NEIGHBOR_DOWN)
        elif mine is State.DOWN:
            if remote is State.DOWN:
                self._become(State.INIT, Diagnostic.NONE)
            elif remote is State.INIT:
                self._become(State.UP, Diagnostic.NONE)
        elif mine is State.INIT:
            if remote in (State.INIT, State.UP):
                self._become(State.UP, Diagnostic.NONE)
        elif remote is State.DOWN:
            self._become(State.DOWN, Diagnostic.NEIGHBOR_DOWN)

    def _become(self, state: State, diagnostic: Diagnostic) -> None:
        """Changes the state. A diagnostic says why it went down last, so coming up leaves it."""
        them, before = self.variables, self.variables.session_state
        them.session_state = state
        if state is State.DOWN:
            them.local_diag = diagnostic
        by_wish = them.remote_session_state is State.ADMIN_DOWN
        is_lost = before is State.UP and state is State.DOWN and not by_wish
        self.changes.append(Change(before, state, them.local_diag, is_lost))
        self._is_prompt, self._before = True, None
        interval = self._wanted_interval()
        if interval != them.desired_min_tx_interval:
            them.desired_min_tx_interval = interval
            self._is_polling = True

    # -- moments that pass

    def act(self, now: float) -> list[bytes]:
        """Does what is due, and says what is to be sent."""
        if self.is_over(now):
            self._expired(now)
        if now < self._next_packet():
            return []
        self._is_prompt = False
        is_final, self._owes_final = self._owes_final, False
        self._sent = now
        span = 0.15 if self.variables.detect_mult == 1 else 0.25
        self._jitter = 0.75 + span * self._chance()
        return [self._next(is_final)]

    def _expired(self, now: float) -> None:
        """6.8.4 and 6.8.1: a detection time without a packet, or twice that."""
        them = self.variables
        if them.session_state in (State.INIT, State.UP):
            self._become(State.DOWN, Diagnostic.TIME_EXPIRED)
        them.remote_discr, them.remote_min_rx_interval = 0, 1
        if self.is_over(now):
            them.auth_seq_known, self._heard = False, None

    # -- what is sent

    def _next(self, is_final: bool) -> bytes:
        them = self.variables
        bits = Bits.FINAL if is_final else Bits.POLL if self._is_polling else Bits.NONE
        data = self._encoded(them.session_state, them.local_diag, bits)
        them.xmit_auth_seq = (them.xmit_auth_seq + 1) & LARGEST_NUMBER
        return data

    def farewell(self) -> bytes:
        """The packet by which this side would say that it ends the session, and not the path
        (6.8.16). Nothing changes by asking."""
        return self._encoded(State.ADMIN_DOWN, Diagnostic.ADMINISTRATIVELY_DOWN, Bits.NONE)

    def _encoded(self, state: State, diagnostic: int, bits: Bits) -> bytes:
        them = self.variables
        key = self._settings.keys[0] if self._settings.keys else None
        packet = ControlPacket(
            state,
            them.detect_mult,
            them.local_discr,
            them.remote_discr,
            them.desired_min_tx_interval,
            them.required_min_rx_interval,
            0,
            diagnostic,
            bits | Bits.AUTHENTICATION if key else bits,
        )
        return key.signed(packet, them.xmit_auth_seq) if key else packet.encode()
