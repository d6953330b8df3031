"""What one instruction makes of what is known, and where it leads."""
from __future__ import annotations

import operator
from typing import Any, Callable

from . import ranges
from .instructions import (ADD, ALU, ALU64, AND, ARSH, CALL, DIV, END, EXIT, JEQ, JGE, JGT, JLE,
                           JLT, JMP32, JNE, JSET, JSGE, JSGT, JSLE, JSLT, LDX, LSH, MOD, MOV, MUL,
                           NEG, OR, RSH, ST, STX, SUB, WIDE, XOR, Cannot, Code, Instruction,
                           ways_of)
from .ranges import ANY, MOST, Range, WORD, up_to
from .values import TEST, Pointer, State, Term, Terms, Value

FRAME = 512
MAP = 6
"""The source of a wide instruction that loads a map's address."""
HOWS = {ADD: "+", SUB: "-", MUL: "*", DIV: "/", OR: "|", AND: "&", LSH: "<<", RSH: ">>", MOD: "%",
        XOR: "^", ARSH: "s>>"}
OPPOSITE = {JEQ: JNE, JNE: JEQ, JGT: JLE, JLE: JGT, JGE: JLT, JLT: JGE, JSGT: JSLE, JSLE: JSGT,
            JSGE: JSLT, JSLT: JSGE}
UNSIGNED = {JSGT: JGT, JSGE: JGE, JSLT: JLT, JSLE: JLE}
MOST_DEPTH = 12
MOST_STEPS = 4
"""How many additions to a pointer are remembered."""
ORDERS: dict[int, Callable[[Any, Any], bool]] = {
    JEQ: operator.eq, JNE: operator.ne, JGT: operator.gt, JGE: operator.ge, JLT: operator.lt,
    JLE: operator.le}
SIGN_MODE, ATOMIC_MODE = 0x80, 0xC0
NAMED_RESULTS = {3: "packet", 4: "row"}
Fresh = Callable[[int, str], Term]


class Steps:
    """The instructions of a program, one at a time. `fresh` names a number of which only the range
    is known, by the instruction."""

    def __init__(self, code: Code, terms: Terms, fresh: Fresh) -> None:
        self.code, self.terms, self.fresh = code, terms, fresh
        self.ways = ways_of(code)

    def entry(self) -> State:
        return State({1: Pointer("context", self.terms.constant(0)),
                      10: Pointer("stack", self.terms.constant(FRAME))}, {})

    def unknown(self, at: int, state: State, limit: Range, what: str = "value") -> Term:
        term = self.fresh(at, what)
        state.known[term] = limit
        return term

    def value(self, at: int, state: State, register: int) -> Value:
        found = state.held.get(register)
        return found if found is not None else self.unknown(at, state, ANY, f"r{register}")

    def number(self, at: int, state: State, register: int) -> Term:
        """Returns what a register holds as a number."""
        found = self.value(at, state, register)
        return found if isinstance(found, Term) else self.unknown(at, state, ANY, f"r{register}")

    def behind(self, at: int, state: State) -> list[tuple[int, State]]:
        """Returns where the instruction leads to, with what is known there. It changes the
        state."""
        one = self.code[at]
        if one.is_branch:
            return self.branch(at, one, state)
        if one.is_arithmetic:
            state.held[one.target] = self.kept(at, state, self.arithmetic(at, one, state))
        elif one.group == LDX:
            state.held[one.target] = self.load(at, one, state)
        elif one.group in (ST, STX):
            self.store(at, one, state)
        elif one.opcode == WIDE:
            wide = self.terms.constant(one.number & WORD | (one.high & WORD) << 32)
            is_map = one.source == MAP
            state.held[one.target] = Pointer(f"map {one.number}", self.terms.constant(one.high)) \
                if is_map else wide
        elif one.opcode == CALL:
            self.call(at, one, state)
        elif not one.is_jump and one.opcode != EXIT:
            raise Cannot(f"opcode {one.opcode}")
        return [(to, state) for to in self.ways[at]]

    def kept(self, at: int, state: State, value: Value) -> Value:
        """Returns the value with its range written down. What it was made of is forgotten where
        that goes back too far."""
        if isinstance(value, Pointer):
            term = self.kept(at, state, value.at)
            return Pointer(value.kind, term, value.steps) if isinstance(term, Term) else value
        if not value.of:
            return value
        state.known[value] = state.range_of(value)
        return value if value.depth <= MOST_DEPTH else self.unknown(at, state, state.known[value])

    # ---- arithmetic

    def arithmetic(self, at: int, one: Instruction, state: State) -> Value:
        is_short = one.group == ALU
        if one.how == END:
            return self.swapped(at, one, state)
        other: Value = (self.value(at, state, one.source) if one.by_register
                        else self.terms.constant(one.number & (WORD if is_short else MOST)))
        if one.how == MOV:
            return self.moved(at, one, state, other, is_short)
        old = self.value(at, state, one.target)
        if isinstance(old, Pointer) or isinstance(other, Pointer):
            return self.pointed(at, one, state, old, other)
        if is_short:
            old = self.terms.low(old, state.range_of(old))
            other = self.terms.low(other, state.range_of(other))
        if one.how == NEG:
            old, other = self.terms.constant(0), old
            return self.short(self.terms.made("-", old, other), state, is_short)
        return self.result(at, one, state, old, other)

    def short(self, term: Term, state: State, is_short: bool) -> Term:
        return self.terms.low(term, state.range_of(term)) if is_short else term

    def result(self, at: int, one: Instruction, state: State, old: Term, other: Term) -> Term:
        """Returns the result of an operation on numbers."""
        is_short, how = one.group == ALU, one.how
        half = 1 << (31 if is_short else 63)
        is_signed = how == ARSH or how in (DIV, MOD) and one.offset == 1
        if is_signed and (state.range_of(old).hi >= half or state.range_of(other).hi >= half):
            if not (how == ARSH and old.how == "<<"):
                return self.unknown(at, state, up_to(WORD) if is_short else ANY)
        name = ">>" if how == ARSH and state.range_of(old).hi < half else HOWS[how]
        if how in (LSH, RSH, ARSH):
            single = state.range_of(other).single
            other = self.terms.constant(single & (31 if is_short else 63)) if single is not None \
                else other
        made = self.terms.made(name, old, other)
        if is_short and how in (ADD, SUB) and not one.by_register:
            signed = one.number if how == ADD else -one.number
            if state.range_of(old).lo + signed >= 0 and state.range_of(old).hi + signed <= WORD:
                return self.terms.made("+", old, self.terms.constant(signed))
        return self.short(made, state, is_short)

    def moved(self, at: int, one: Instruction, state: State, value: Value, is_short: bool) -> Value:
        if isinstance(value, Pointer):
            return value if not is_short and not one.offset else self.unknown(at, state, ANY)
        if one.offset:
            low = state.range_of(value).hi < 1 << (one.offset - 1)
            term = value if low else self.unknown(at, state, ANY)
            return self.short(term, state, is_short)
        return self.short(value, state, is_short)

    def swapped(self, at: int, one: Instruction, state: State) -> Term:
        old = self.number(at, state, one.target)
        if one.group == ALU and not one.by_register:
            # (the low byte is first on this machine)
            return old if one.number == 64 else self.terms.made(
                "&", old, self.terms.constant((1 << one.number) - 1))
        return self.terms.get("swap", (old,), (one.opcode, one.number))

    def pointed(self, at: int, one: Instruction, state: State, old: Value, other: Value) -> Value:
        """Returns the sum or difference of pointers and numbers."""
        if one.group == ALU64 and one.how in (ADD, SUB):
            if isinstance(old, Pointer) and isinstance(other, Term):
                more = ((at, one.source),) if one.by_register else ()
                made = self.terms.made(HOWS[one.how], old.at, other)
                return Pointer(old.kind, made, (old.steps + more)[-MOST_STEPS:])
            if isinstance(old, Term) and isinstance(other, Pointer) and one.how == ADD:
                made = self.terms.made("+", other.at, old)
                return Pointer(other.kind, made, (*other.steps, (at, one.target))[-MOST_STEPS:])
            if isinstance(old, Pointer) and isinstance(other, Pointer) and old.kind == other.kind:
                return self.terms.made("-", old.at, other.at)
        return self.unknown(at, state, ANY)

    # ---- memory and helpers

    def load(self, at: int, one: Instruction, state: State) -> Value:
        base = self.value(at, state, one.source)
        limit = ANY if one.opcode & 0xE0 == SIGN_MODE else up_to((1 << 8 * one.width) - 1)
        if not isinstance(base, Pointer) or limit is ANY and one.width < 8:
            return self.unknown(at, state, limit)
        place = state.range_of(base.at).single
        if place is None:
            return self.unknown(at, state, limit)
        first = (place + one.offset) & MOST
        if base.kind == "context":
            return self.terms.get("context", (), (first, one.width))
        if base.kind == "stack" and (first, one.width) in state.held:
            return state.held[first, one.width]
        return self.unknown(at, state, limit)

    def store(self, at: int, one: Instruction, state: State) -> None:
        if one.opcode & 0xE0 == ATOMIC_MODE:
            raise Cannot("an atomic operation")
        base = self.value(at, state, one.target)
        if isinstance(base, Pointer) and base.kind != "stack":
            return
        place = state.range_of(base.at).single if isinstance(base, Pointer) else None
        if place is None:
            state.forget_stack(0, FRAME)
            return
        first, width = (place + one.offset) & MOST, one.width
        state.forget_stack(first, width)
        value: Value = (self.value(at, state, one.source) if one.group == STX
                        else self.terms.constant(one.number & ((1 << 8 * width) - 1)))
        if isinstance(value, Pointer):
            if width == 8:
                state.held[first, width] = value
        elif width == 8 or state.range_of(value).hi < 1 << 8 * width:
            state.held[first, width] = value
        elif width == 4:
            state.held[first, width] = self.terms.low(value, state.range_of(value))

    def call(self, at: int, one: Instruction, state: State) -> None:
        first, second = (self.number(at, state, it) for it in (1, 2))
        for register in range(6):
            state.held.pop(register, None)
        name = NAMED_RESULTS.get(one.number)
        if name:
            state.held[0] = self.terms.get(name, (first,) if one.number == 3 else (first, second))
        else:
            state.held[0] = self.unknown(at, state, up_to(1) if one.number == 1 else ANY, "r0")

    # ---- tests

    def branch(self, at: int, one: Instruction, state: State) -> list[tuple[int, State]]:
        first = self.value(at, state, one.target)
        other = (self.value(at, state, one.source) if one.by_register else
                 self.terms.constant(one.number & (WORD if one.group == JMP32 else MOST)))
        to, next_one = self.ways[at][0], self.ways[at][-1]
        if isinstance(first, Pointer) or isinstance(other, Pointer):
            is_null = isinstance(other, Term) and state.range_of(other).single == 0
            ways = {JEQ: [next_one], JNE: [to]}.get(one.how) if is_null else None
            return [(it, state) for it in (ways or [to, next_one])]
        if one.group == JMP32:
            first = self.terms.low(first, state.range_of(first))
            other = self.terms.low(other, state.range_of(other))
        # (what the same test said before, of the same numbers)
        how = min(one.how, OPPOSITE.get(one.how, one.how))
        test = self.terms.get(TEST, (first, other), (how, one.group))
        decided = plainly(one, first, other)
        if decided is None and test in state.known:
            decided = (state.known[test].lo == 1) == (how == one.how)
        if decided is not None:
            return [(to if decided else next_one, state)]
        taken, left = state, state.copy()
        taken.known[test] = ranges.only(int(how == one.how))
        left.known[test] = ranges.only(int(how != one.how))
        found = []
        if narrowed(taken, one, one.how, first, other):
            found.append((to, taken))
        if one.how not in OPPOSITE:
            is_left = unset(left, first, other)
        else:
            is_left = narrowed(left, one, OPPOSITE[one.how], first, other)
        return [*found, (next_one, left)] if is_left else found


def plainly(one: Instruction, first: Term, other: Term) -> bool | None:
    """Returns whether a test of two constants holds. None of others."""
    if first.how != "constant" or other.how != "constant" or one.how not in ORDERS:
        return None
    return ORDERS[one.how](first.key, other.key)


def unset(state: State, first: Term, other: Term) -> bool:
    """Narrows by `first & other == 0`."""
    mask = state.range_of(other).single
    if mask is None:
        return True
    return state.narrow(first, Range(0, MOST, mask, 0))


def narrowed(state: State, one: Instruction, how: int, first: Term, other: Term) -> bool:
    """Narrows by a test that holds. False if it can't hold."""
    a, b = state.range_of(first), state.range_of(other)
    half = 1 << (31 if one.group == JMP32 else 63)
    if how == JSET:
        mask = b.single
        is_bit = mask is not None and mask & (mask - 1) == 0 and mask != 0
        if is_bit and mask is not None:
            return state.narrow(first, Range(0, MOST, mask, mask))
        return a.hi != 0
    if how in UNSIGNED:
        if a.hi < half and b.hi < half:
            return narrowed(state, one, UNSIGNED[how], first, other)
        return by_sign(state, how, first, b, half)
    if how == JEQ:
        return state.narrow(first, b) and state.narrow(other, a)
    if how == JNE:
        return without(state, first, a, b) and without(state, other, b, a)
    if how in (JGT, JGE):
        more = 1 if how == JGT else 0
        return at_least(state, first, b.lo + more) and at_most(state, other, a.hi - more)
    more = 1 if how == JLT else 0
    return at_most(state, first, b.hi - more) and at_least(state, other, a.lo + more)


def at_least(state: State, term: Term, lo: int) -> bool:
    limit = ranges.made(lo, MOST) if lo <= MOST else None
    return limit is not None and state.narrow(term, limit)


def at_most(state: State, term: Term, hi: int) -> bool:
    return hi >= 0 and state.narrow(term, up_to(hi))


def without(state: State, term: Term, a: Range, b: Range) -> bool:
    """Narrows a by not being b."""
    if b.single is None:
        return True
    if a.single == b.single:
        return False
    lo, hi = a.lo + (a.lo == b.single), a.hi - (a.hi == b.single)
    limit = ranges.made(lo, hi) if lo <= hi else None
    return limit is not None and state.narrow(term, limit)


def by_sign(state: State, how: int, first: Term, b: Range, half: int) -> bool:
    """Narrows by an order of signed numbers, where one may be below 0."""
    number = b.single
    if number is None:
        return True
    signed = number - 2 * half if number >= half else number
    if how in (JSGT, JSGE) and signed + (how == JSGT) >= 0:
        limit = ranges.made(signed + (how == JSGT), half - 1)
        return limit is not None and state.narrow(first, limit)
    if how in (JSLT, JSLE) and signed - (how == JSLT) < 0:
        limit = ranges.made(half, signed - (how == JSLT) + 2 * half)
        return limit is not None and state.narrow(first, limit)
    return True
