"""What a packet of OSPF says of LSAs, read from its bytes (RFC 2328, appendix A)."""
from __future__ import annotations

import struct
from functools import lru_cache
from typing import NamedTuple

MAX_AGE = 3600
MAX_AGE_DIFF = 900
HELLO, DESCRIPTION, REQUEST, UPDATE, ACKNOWLEDGMENT = range(1, 6)
HEADER_LENGTH = 20

Key = tuple[int, int, int]
"""LS type, Link State ID and Advertising Router."""


class Instance(NamedTuple):
    """An instance of an LSA: what its header says, with its age, and its text behind the age."""

    key: Key
    sequence: int
    checksum: int
    age: int
    text: bytes

    @property
    def name(self) -> tuple[int, int]:
        return self.sequence, self.checksum

    @property
    def is_at_max_age(self) -> bool:
        return self.age >= MAX_AGE

    def after(self, seconds: int) -> Instance:
        """The same this many seconds later."""
        return Instance(self.key, self.sequence, self.checksum, min(MAX_AGE, self.age + seconds), self.text) if seconds else self


def compare(one: Instance, other: Instance) -> int:
    """Above 0 if the one is newer (section 13.1), 0 if they are the same."""
    if one.name != other.name:
        return 1 if one.name > other.name else -1
    if one.is_at_max_age != other.is_at_max_age:
        return 1 if one.is_at_max_age else -1
    if abs(one.age - other.age) > MAX_AGE_DIFF:
        return 1 if one.age < other.age else -1
    return 0


@lru_cache(maxsize=100_000)
def instance_of(lsa: bytes) -> Instance:
    """The instance of an LSA's bytes, or of a header's."""
    age, _options, kind, link_state_id, router, sequence, checksum, _length = struct.unpack_from("!HBBIIiHH", lsa)
    return Instance((kind, link_state_id, router), sequence, checksum, age, lsa[2:])


@lru_cache(maxsize=100_000)
def instance_in(digits: str) -> Instance:
    """The same of hex digits."""
    return instance_of(bytes.fromhex(digits))


class Description(NamedTuple):
    """A Database Description (A.3.3)."""

    flags: int
    number: int

    @property
    def is_initial(self) -> bool:
        return bool(self.flags & 4)


class Said(NamedTuple):
    """What a packet says: its type, its LSAs or headers, and what it is as a Description."""

    kind: int
    instances: tuple[Instance, ...]
    description: Description | None


def _headers(body: bytes) -> tuple[Instance, ...]:
    return tuple(instance_of(body[at:at + HEADER_LENGTH]) for at in range(0, len(body), HEADER_LENGTH))


def _updated(body: bytes) -> tuple[Instance, ...]:
    found, at = [], 4
    for _ in range(int.from_bytes(body[:4], "big")):
        length = int.from_bytes(body[at + 18:at + 20], "big")
        found.append(instance_of(body[at:at + length]))
        at += length
    return tuple(found)


def said_by(packet: bytes) -> Said:
    """Reads a packet."""
    kind, body = packet[1], packet[24:int.from_bytes(packet[2:4], "big")]
    if kind == DESCRIPTION:
        return Said(kind, _headers(body[8:]), Description(body[3] & 7, int.from_bytes(body[4:8], "big")))
    if kind == UPDATE:
        return Said(kind, _updated(body), None)
    if kind == ACKNOWLEDGMENT:
        return Said(kind, _headers(body), None)
    return Said(kind, (), None)


NAMES = {HELLO: "Hello", DESCRIPTION: "Description", REQUEST: "Request", UPDATE: "Update", ACKNOWLEDGMENT: "Acknowledgment"}


def told(packet: bytes) -> str:
    """A packet in a line, for people."""
    said = said_by(packet)
    words = [NAMES.get(said.kind, "packet")]
    if said.description is not None:
        flags = "".join(mark for mark, bit in (("I", 4), ("M", 2), ("S", 1)) if said.description.flags & bit)
        words += [flags or "-", str(said.description.number)]
    return ", ".join([" ".join(words)] + [of_instance(it) for it in said.instances])


def of_key(key: Key) -> str:
    """A key for people: a router's own LSA, or a destination and who announces it."""
    kind, link_state_id, router = key
    if kind == 1:
        return f"router-LSA of {router}"
    return f"10.{link_state_id >> 16 & 0xff}.{link_state_id >> 8 & 0xff}.0/24 of {router}"


def of_instance(it: Instance) -> str:
    """An instance for people: its key, its number (the first one's is 1), and whether it is at MaxAge."""
    return f"{of_key(it.key)} #{number_of(it)}{' at MaxAge' if it.is_at_max_age else ''}"


def number_of(it: Instance) -> int:
    return it.sequence + 0x80000000
