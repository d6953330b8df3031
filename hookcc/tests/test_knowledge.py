"""What hookcc finds of numbers and turns by itself, and the guards that say so to the verifier."""
from __future__ import annotations

import random
import struct
import unittest

from leafrunt_hookcc import ranges
from leafrunt_hookcc.guards import Program
from leafrunt_hookcc.instructions import decoded, encoded
from leafrunt_hookcc.knowledge import Knowledge
from leafrunt_hookcc.turns import Walk, most_turns
from leafrunt_hookcc.values import Term

MASK = (1 << 64) - 1
SIGN = 1 << 63


def slot(opcode: int, target: int = 0, source: int = 0, offset: int = 0, number: int = 0) -> bytes:
    return struct.pack("<BBhi", opcode, target | source << 4, offset, number)


EXIT = slot(0x95)
FIELD = slot(0x61, 6, 1, 12)


def machine(how: str, one: int, other: int) -> int:
    """Returns what the machine makes of two numbers (RFC 9669, 4.1)."""
    found = {"+": one + other, "-": one - other, "*": one * other, "&": one & other,
             "/": one // other if other else 0, "%": one % other if other else one,
             "|": one | other, "^": one ^ other, "<<": one << (other & 63),
             ">>": one >> (other & 63), "s>>": (one - (one >> 63 << 64)) >> (other & 63)}
    return found[how] & MASK


class Ranges(unittest.TestCase):
    def sets(self, rng: random.Random) -> tuple[ranges.Range, list[int]]:
        """Returns a set, and some of its numbers."""
        top = rng.choice([4, 100, 1 << 16, 1 << 32, MASK])
        lo = rng.randrange(top)
        found = ranges.made(lo, rng.randrange(lo, top + 1)) or ranges.ANY
        if rng.random() < 0.4:
            mask = rng.randrange(256)
            found = ranges.with_and(found, ranges.only(mask))
            ones = [it & mask for it in range(256)]
            return found, [it for it in ones if found.lo <= it <= found.hi][:9]
        return found, [found.lo, found.hi, *(rng.randint(found.lo, found.hi) for _ in range(5))]

    def test_each_operation_has_each_result(self) -> None:
        rng = random.Random(7)
        for _ in range(250):
            one, ones = self.sets(rng)
            other, others = self.sets(rng)
            for how, made in ranges.OPERATIONS.items():
                found = made(one, other)
                for a in ones:
                    for b in others:
                        value = machine(how, a, b)
                        self.assertTrue(found.lo <= value <= found.hi, (how, a, b, found))
                        self.assertEqual(value & found.known, found.bits, (how, a, b, found))

    def test_the_bits_of_a_range_narrow_an_or(self) -> None:
        found = ranges.with_or(ranges.up_to(23), ranges.only(64))
        self.assertEqual((found.lo, found.hi), (64, 95))


class Followed(unittest.TestCase):
    def limit(self, code: bytes, register: int) -> tuple[int, int]:
        """Returns between which ends a register is before the last instruction."""
        known = Knowledge(decoded(code))
        state = known.states[len(known.code) - 1]
        value = state.held[register]
        assert isinstance(value, Term)
        found = state.range_of(value)
        return found.lo, found.hi

    def test_a_copy_is_narrowed_with_its_number(self) -> None:
        # r0 = r6; if r6 > 30 goto +1; exit
        code = FIELD + slot(0xBF, 0, 6) + slot(0x25, 6, 0, 1, 30) + EXIT + slot(0xB7, 0) + EXIT
        known = Knowledge(decoded(code))
        value = known.states[3].held[0]
        assert isinstance(value, Term)
        self.assertEqual(known.states[3].range_of(value).hi, 30)

    def test_a_number_one_more_than_the_one_that_was_tested(self) -> None:
        # r0 = r6 + 1; if r6 > 30 goto (a loop of nothing); exit
        code = (FIELD + slot(0xBF, 0, 6) + slot(0x07, 0, 0, 0, 1) + slot(0x25, 6, 0, -4, 30)
                + EXIT)
        self.assertEqual(self.limit(code, 0), (1, 31))

    def test_a_word_of_the_stack_keeps_what_is_known(self) -> None:
        # r6 &= 15; *(r10 - 8) = r6; call 3; r0 = *(r10 - 8)
        code = (FIELD + slot(0x57, 6, 0, 0, 15) + slot(0x7B, 10, 6, -8) + slot(0xB7, 1)
                + slot(0x85, 0, 0, 0, 3) + slot(0x79, 0, 10, -8) + EXIT)
        self.assertEqual(self.limit(code, 0), (0, 15))

    def test_another_store_takes_it_away(self) -> None:
        code = (FIELD + slot(0x57, 6, 0, 0, 15) + slot(0x7B, 10, 6, -8) + slot(0x7B, 10, 1, -12)
                + slot(0x79, 0, 10, -8) + EXIT)
        self.assertEqual(self.limit(code, 0), (0, MASK))

    def test_what_was_before_a_turn_is_another_number(self) -> None:
        # r7 = 0; r8 = 0; L: r7 = r8; r8 = counter 0 & 63; if r8 != 5 goto L; r0 = r7
        code = (FIELD + slot(0xB7, 7) + slot(0xB7, 8) + slot(0xBF, 7, 8) + slot(0xB7, 1)
                + slot(0x85, 0, 0, 0, 2) + slot(0xBF, 8, 0) + slot(0x57, 8, 0, 0, 63)
                + slot(0x55, 8, 0, -6, 5) + slot(0xBF, 0, 7) + EXIT)
        self.assertEqual(self.limit(code, 0), (0, 63))


class Turns(unittest.TestCase):
    def test_a_number_that_is_shifted(self) -> None:
        # L: r6 >>= 1; if r6 != 0 goto L
        code = FIELD + slot(0x77, 6, 0, 0, 1) + slot(0x55, 6, 0, -2, 0) + slot(0xB7, 0) + EXIT
        self.assertEqual(most_turns(decoded(code)), 31)

    def test_a_search_by_halving(self) -> None:
        # r7 = 0; r8 = 64
        # L: r2 = (r7 + r8) / 2; by a test of r6: r7 = r2 + 1 or r8 = r2; if r7 < r8 goto L
        code = (FIELD + slot(0xB7, 7) + slot(0xB7, 8, 0, 0, 64) + slot(0xBF, 2, 7)
                + slot(0x0F, 2, 8) + slot(0x77, 2, 0, 0, 1) + slot(0x2D, 6, 2, 3)
                + slot(0xBF, 8, 2) + slot(0xAD, 7, 8, -6) + slot(0x05, 0, 0, 3)
                + slot(0xBF, 7, 2) + slot(0x07, 7, 0, 0, 1) + slot(0xAD, 7, 8, -10)
                + slot(0xB7, 0) + EXIT)
        self.assertEqual(most_turns(decoded(code)), 6)

    def test_a_search_by_halving_whose_ways_meet(self) -> None:
        # L: r2 = (r7 + r8) / 2; if r6 > r2 goto M; r8 = r2; goto N; M: r7 = r2 + 1
        # N: if r7 < r8 goto L
        code = (FIELD + slot(0xB7, 7) + slot(0xB7, 8, 0, 0, 64) + slot(0xBF, 2, 7)
                + slot(0x0F, 2, 8) + slot(0x77, 2, 0, 0, 1) + slot(0x2D, 6, 2, 2)
                + slot(0xBF, 8, 2) + slot(0x05, 0, 0, 2) + slot(0xBF, 7, 2)
                + slot(0x07, 7, 0, 0, 1) + slot(0xAD, 7, 8, -9) + slot(0xB7, 0) + EXIT)
        self.assertEqual(most_turns(decoded(code)), 6)

    def test_a_test_that_comes_again_says_the_same(self) -> None:
        # r7 = 1; if r6 > r2 goto +1; r7 = 2; if r6 > r2 goto +1; r7 += 8: 1 or 10, never 9
        code = (FIELD + slot(0x61, 2, 1, 16) + slot(0xB7, 7, 0, 0, 1) + slot(0x2D, 6, 2, 1)
                + slot(0xB7, 7, 0, 0, 2) + slot(0x2D, 6, 2, 1) + slot(0x07, 7, 0, 0, 8)
                + slot(0x15, 7, 0, -1, 9) + slot(0xB7, 0) + EXIT)
        self.assertEqual(Walk(decoded(code), True).most_turns(), 0)

    def test_what_nothing_ends(self) -> None:
        code = FIELD + slot(0x55, 6, 0, -1, 0) + slot(0xB7, 0) + EXIT
        self.assertIsNone(most_turns(decoded(code)))


class Guards(unittest.TestCase):
    def test_code_comes_back_as_it_was(self) -> None:
        code = FIELD + slot(0x18, 2, 6, 0, 1) + slot(0) + slot(0x55, 6, 0, -4, 0) + EXIT
        self.assertEqual(encoded(decoded(code)), code)

    def test_an_argument_is_guarded(self) -> None:
        # r1 = r6; if r6 > 30 goto end; r2 = 1; call 1
        code = (FIELD + slot(0xBF, 1, 6) + slot(0x25, 6, 0, 2, 30) + slot(0xB7, 2, 0, 0, 1)
                + slot(0x85, 0, 0, 0, 1) + slot(0xB7, 0) + EXIT)
        program = Program(code, "count")
        self.assertTrue(program.add(4, 10))
        made = decoded(program.bytes())
        guards = [it for it in made if it.opcode == 0x25 and (it.target, it.number) == (1, 255)]
        self.assertEqual(len(guards), 1)
        self.assertFalse(program.add(4, 10) and program.add(5, 10))

    def test_what_isnt_known_is_not_guarded(self) -> None:
        code = (FIELD + slot(0xBF, 1, 6) + slot(0xB7, 2, 0, 0, 1) + slot(0x85, 0, 0, 0, 1)
                + slot(0xB7, 0) + EXIT)
        self.assertFalse(Program(code, "count").add(3, 10))


if __name__ == "__main__":
    unittest.main()
