"""BFD Control packets (RFC 5880, 4.1) and their authentication by keyed SHA1 (4.4 and 6.7.4), over
bytes. Intervals are whole microseconds, as on the wire.
"""
from __future__ import annotations

import hashlib
import hmac
import struct
from dataclasses import dataclass
from enum import Enum, Flag, IntEnum

VERSION = 1
HEADER = struct.Struct(">BBBBIIIII")
SHA1_SECTION = struct.Struct(">BBBBI20s")
"""Auth Type, Auth Len, Auth Key ID, Reserved, Sequence Number, Auth Key/Hash (4.4)."""
SHA1_KEY_LENGTH = 20
LEAST_AUTHENTICATED = HEADER.size + 2
LARGEST_NUMBER = 0xFFFFFFFF


class State(IntEnum):
    """Of a session; the names are those of `status`."""

    ADMIN_DOWN = 0
    DOWN = 1
    INIT = 2
    UP = 3

    def __str__(self) -> str:
        return ("AdminDown", "Down", "Init", "Up")[self]


class Diagnostic(IntEnum):
    """Why a session changed last (RFC 5880, 4.1)."""

    NONE = 0
    TIME_EXPIRED = 1
    ECHO_FAILED = 2
    NEIGHBOR_DOWN = 3
    FORWARDING_RESET = 4
    PATH_DOWN = 5
    CONCATENATED_PATH_DOWN = 6
    ADMINISTRATIVELY_DOWN = 7
    REVERSE_CONCATENATED_PATH_DOWN = 8


DIAGNOSTICS = (
    "no diagnostic",
    "control detection time expired",
    "echo function failed",
    "neighbor signaled session down",
    "forwarding plane reset",
    "path down",
    "concatenated path down",
    "administratively down",
    "reverse concatenated path down",
)


def diagnostic_text(code: int) -> str:
    """The RFC's words for a diagnostic; its number if it has none."""
    return DIAGNOSTICS[code] if code < len(DIAGNOSTICS) else f"diagnostic {code}"


class Bits(Flag):
    """The flags of a packet's second byte."""

    NONE = 0
    MULTIPOINT = 1
    DEMAND = 2
    AUTHENTICATION = 4
    CONTROL_PLANE_INDEPENDENT = 8
    FINAL = 16
    POLL = 32


class Why(Enum):
    """Why a packet is discarded (RFC 5880, 6.8.6 and 6.7.4; RFC 5881, 5), for counters."""

    TTL = "TTL below 255"
    SOURCE = "strange source address"
    SHORT = "too short"
    VERSION = "another version than 1"
    LENGTH = "wrong length"
    MULTIPLIER = "Detect Mult 0"
    MULTIPOINT = "Multipoint bit"
    NO_SENDER = "My Discriminator 0"
    NO_SESSION = "Your Discriminator of no session"
    STATE = "Your Discriminator 0 in another state than Down"
    WANTED_NONE = "authenticated, and no key is configured here"
    WANTED_SHA1 = "not authenticated, and a key is configured here"
    SECTION = "no authentication section of the key's type and length"
    UNKNOWN_KEY = "unknown key"
    DIGEST = "wrong digest"
    SEQUENCE = "sequence number out of range"


class Discarded(ValueError):
    """A packet that isn't taken."""

    def __init__(self, why: Why) -> None:
        super().__init__(why.value)
        self.why = why


@dataclass(frozen=True)
class ControlPacket:
    """The fields of the mandatory section."""

    state: State
    detect_mult: int
    my_discriminator: int
    your_discriminator: int
    desired_min_tx_interval: int
    required_min_rx_interval: int
    required_min_echo_rx_interval: int = 0
    diagnostic: int = 0
    bits: Bits = Bits.NONE

    def encode(self, section: int = 0) -> bytes:
        """Its bytes, with the length of an authentication section that is to follow."""
        return HEADER.pack(
            VERSION << 5 | self.diagnostic,
            self.state << 6 | self.bits.value,
            self.detect_mult,
            HEADER.size + section,
            self.my_discriminator,
            self.your_discriminator,
            self.desired_min_tx_interval,
            self.required_min_rx_interval,
            self.required_min_echo_rx_interval,
        )


def decode(data: bytes) -> tuple[ControlPacket, bytes]:
    """The packet that a datagram has, and its authentication section, empty if it has none.
    `Discarded`, by the rules of RFC 5880, 6.8.6 in their order, up to the discriminators."""
    if len(data) < HEADER.size:
        raise Discarded(Why.SHORT)
    first, second, multiplier, length, mine, yours, transmit, receive, echo = HEADER.unpack_from(
        data
    )
    if first >> 5 != VERSION:
        raise Discarded(Why.VERSION)
    bits = Bits(second & 0x3F)
    is_authenticated = Bits.AUTHENTICATION in bits
    if not (LEAST_AUTHENTICATED if is_authenticated else HEADER.size) <= length <= len(data):
        raise Discarded(Why.LENGTH)
    if multiplier == 0:
        raise Discarded(Why.MULTIPLIER)
    if Bits.MULTIPOINT in bits:
        raise Discarded(Why.MULTIPOINT)
    if mine == 0:
        raise Discarded(Why.NO_SENDER)
    state = State(second >> 6)
    if yours == 0 and state not in (State.DOWN, State.ADMIN_DOWN):
        raise Discarded(Why.STATE)
    packet = ControlPacket(
        state, multiplier, mine, yours, transmit, receive, echo, first & 0x1F, bits
    )
    return packet, data[HEADER.size : length] if is_authenticated else b""


class KeyType(Enum):
    """Auth Type of RFC 5880, 4.1; the names as BIRD writes them."""

    KEYED_SHA1 = "keyed sha1"
    METICULOUS_KEYED_SHA1 = "meticulous keyed sha1"

    @property
    def number(self) -> int:
        return 5 if self is KeyType.METICULOUS_KEYED_SHA1 else 4


@dataclass(frozen=True)
class BfdKey:
    """A key of a session (RFC 5880, 6.7): its ID, 0 to 255, its type, and a secret of 1 to 20
    bytes, which `repr` doesn't show. `ValueError` if it's none."""

    id: int
    type: KeyType
    secret: bytes

    def __post_init__(self) -> None:
        if not 0 <= self.id <= 255 or not 1 <= len(self.secret) <= SHA1_KEY_LENGTH:
            raise ValueError("no key with an ID of 0 to 255 and a secret of 1 to 20 bytes")

    def __repr__(self) -> str:
        return f"BfdKey(id={self.id}, type={self.type})"

    def signed(self, packet: ControlPacket, number: int) -> bytes:
        """The packet's bytes with its digest; it has the bit AUTHENTICATION."""
        head = packet.encode(SHA1_SECTION.size)
        padded = self.secret.ljust(SHA1_KEY_LENGTH, b"\0")
        text = head + SHA1_SECTION.pack(
            self.type.number, SHA1_SECTION.size, self.id, 0, number, padded
        )
        return text[:-SHA1_KEY_LENGTH] + hashlib.sha1(text).digest()

    def verified(self, data: bytes) -> int:
        """The sequence number of a packet's bytes, up to its length, whose section names this key.
        `Discarded` if its digest isn't by it."""
        padded = self.secret.ljust(SHA1_KEY_LENGTH, b"\0")
        wanted = hashlib.sha1(data[:-SHA1_KEY_LENGTH] + padded).digest()
        if not hmac.compare_digest(wanted, data[-SHA1_KEY_LENGTH:]):
            raise Discarded(Why.DIGEST)
        number: int = SHA1_SECTION.unpack(data[-SHA1_SECTION.size :])[4]
        return number


def number_of(data: bytes, section: bytes, keys: dict[int, BfdKey]) -> tuple[BfdKey, int]:
    """The key and the sequence number of an authenticated packet (RFC 5880, 6.7.4). `Discarded` if
    no key's digest is there."""
    if len(section) != SHA1_SECTION.size or section[1] != SHA1_SECTION.size:
        raise Discarded(Why.SECTION)
    key = keys.get(section[2])
    if key is None:
        raise Discarded(Why.UNKNOWN_KEY)
    if section[0] != key.type.number:
        raise Discarded(Why.SECTION)
    return key, key.verified(data[: HEADER.size + len(section)])
