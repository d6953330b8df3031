"""Sets of numbers of 64 bits: an interval, and bits that are known. Each narrows the other."""
from __future__ import annotations

import dataclasses
from typing import Callable

MOST = (1 << 64) - 1
WORD = (1 << 32) - 1
SIGN = 1 << 63


@dataclasses.dataclass(frozen=True)
class Range:
    """The numbers n with lo <= n <= hi whose bits under `known` are `bits`."""

    lo: int
    hi: int
    known: int = 0
    bits: int = 0

    @property
    def single(self) -> int | None:
        return self.lo if self.lo == self.hi else None

    def within(self, lo: int, hi: int) -> bool:
        return lo <= self.lo and self.hi <= hi

    def low_zeros(self) -> int:
        """Returns how many of the lowest bits are known to be 0."""
        maybe = ~(self.known & ~self.bits) & MOST
        return (maybe & -maybe).bit_length() - 1 if maybe else 64


def made(lo: int, hi: int, known: int = 0, bits: int = 0) -> Range | None:
    """Returns the set with all that its parts say of each other. None if it is empty."""
    for _ in range(2):
        # the bits above the highest one in which the ends differ are the same in between
        same = MOST & ~((1 << (lo ^ hi).bit_length()) - 1)
        if (lo ^ bits) & same & known:
            return None
        known, bits = known | same, bits | lo & same
        lo, hi = max(lo, bits), min(hi, bits | ~known & MOST)
        if lo > hi:
            return None
    return Range(lo, hi, known, bits)


def only(number: int) -> Range:
    return Range(number & MOST, number & MOST, MOST, number & MOST)


ANY = Range(0, MOST)


def up_to(hi: int) -> Range:
    return made(0, hi) or ANY


def both(one: Range, other: Range) -> Range | None:
    """Returns the numbers that are in both. None if there are none."""
    if (one.bits ^ other.bits) & one.known & other.known:
        return None
    lo, hi = max(one.lo, other.lo), min(one.hi, other.hi)
    return made(lo, hi, one.known | other.known, one.bits | other.bits) if lo <= hi else None


def either(one: Range, other: Range) -> Range:
    """Returns the numbers that are in one of the two, and perhaps more."""
    known = one.known & other.known & ~(one.bits ^ other.bits)
    lo, hi = min(one.lo, other.lo), max(one.hi, other.hi)
    return made(lo, hi, known, one.bits & known) or ANY


def low_bits_of_sum(one: Range, other: Range) -> tuple[int, int]:
    """Returns which low bits are known of both, as a mask, and how many these are."""
    unknown = ~(one.known & other.known) & MOST
    count = (unknown & -unknown).bit_length() - 1 if unknown else 64
    return (1 << count) - 1, count


def added(one: Range, other: Range) -> Range:
    low, _ = low_bits_of_sum(one, other)
    bits = one.bits + other.bits & low
    if one.hi + other.hi <= MOST:
        return made(one.lo + other.lo, one.hi + other.hi, low, bits) or ANY
    if one.lo + other.lo > MOST:
        return made(one.lo + other.lo - MOST - 1, one.hi + other.hi - MOST - 1, low, bits) or ANY
    return made(0, MOST, low, bits) or ANY


def subtracted(one: Range, other: Range) -> Range:
    low, _ = low_bits_of_sum(one, other)
    bits = one.bits - other.bits & low
    if one.lo >= other.hi:
        return made(one.lo - other.hi, one.hi - other.lo, low, bits) or ANY
    if one.hi < other.lo:
        return made(one.lo - other.hi + MOST + 1, one.hi - other.lo + MOST + 1, low, bits) or ANY
    return made(0, MOST, low, bits) or ANY


def multiplied(one: Range, other: Range) -> Range:
    zeros = min(64, one.low_zeros() + other.low_zeros())
    known = (1 << zeros) - 1
    if one.hi * other.hi <= MOST:
        return made(one.lo * other.lo, one.hi * other.hi, known, 0) or ANY
    return made(0, MOST, known, 0) or ANY


def divided(one: Range, other: Range) -> Range:
    if other.single == 0:
        return only(0)
    lo = one.lo // other.hi if other.lo else 0
    return made(lo, one.hi // max(1, other.lo)) or ANY


def remainder(one: Range, other: Range) -> Range:
    if other.lo and one.hi < other.lo:
        return one
    if other.lo:
        return made(0, min(one.hi, other.hi - 1)) or ANY
    return made(0, one.hi) or ANY


def with_and(one: Range, other: Range) -> Range:
    zeros = one.known & ~one.bits | other.known & ~other.bits
    ones = one.bits & other.bits
    return made(0, min(one.hi, other.hi), (zeros | ones) & MOST, ones) or ANY


def with_or(one: Range, other: Range) -> Range:
    ones = one.bits | other.bits
    zeros = one.known & ~one.bits & other.known & ~other.bits
    return made(max(one.lo, other.lo), MOST, (ones | zeros) & MOST, ones) or ANY


def with_xor(one: Range, other: Range) -> Range:
    known = one.known & other.known
    return made(0, MOST, known, (one.bits ^ other.bits) & known) or ANY


def shifted_left(one: Range, other: Range) -> Range:
    if other.single is None:
        return ANY
    by = other.single & 63
    known, bits = (one.known << by | (1 << by) - 1) & MOST, one.bits << by & MOST
    if one.hi << by <= MOST:
        return made(one.lo << by, one.hi << by, known, bits) or ANY
    return made(0, MOST, known, bits) or ANY


def shifted_right(one: Range, other: Range) -> Range:
    if other.single is None:
        return made(0, one.hi) or ANY
    by = other.single & 63
    known = one.known >> by | MOST & ~(MOST >> by)
    return made(one.lo >> by, one.hi >> by, known, one.bits >> by) or ANY


def shifted_signed(one: Range, other: Range) -> Range:
    if one.hi < SIGN:
        return shifted_right(one, other)
    return ANY


def low_word(one: Range) -> Range:
    """Returns the low 32 bits."""
    if one.hi <= WORD:
        return one
    lo, hi = (one.lo & WORD, one.hi & WORD) if one.lo >> 32 == one.hi >> 32 else (0, WORD)
    known = one.known & WORD | MOST & ~WORD
    return made(lo, hi, known, one.bits & WORD) or up_to(WORD)


def of_sign(one: Range, bits: int) -> Range:
    """Returns the number of 64 bits whose low ones, with their sign, these are."""
    return one if one.hi < 1 << (bits - 1) else ANY


OPERATIONS: dict[str, Callable[[Range, Range], Range]] = {
    "+": added, "-": subtracted, "*": multiplied, "/": divided, "%": remainder, "&": with_and,
    "|": with_or, "^": with_xor, "<<": shifted_left, ">>": shifted_right, "s>>": shifted_signed,
}
