"""Guards: tests that are never taken, which say to the verifier what it can't find by itself.

hookcc follows copies of a number and words of the stack, which the verifier doesn't. Where it finds
that a number lies within what is allowed, `if r1 > 255 goto END` is put before its use.
"""
from __future__ import annotations

import dataclasses

from .instructions import (ADD, ALU64, AND, CALL, EXIT, JA, JEQ, JGT, JLT, JMP, JNE, LDX, MOV,
                           ST, STX, Cannot, Code, Instruction, decoded, encoded, live_before,
                           put_before)
from .knowledge import Knowledge
from .ranges import Range
from .values import Pointer, State, Term

MOST_GUARDS = 40
MOST_NUMBER = (1 << 31) - 1
# the greatest allowed arguments of helpers, by their number and register
ARGUMENTS = {(1, 1): 255, (1, 2): (1 << 24) - 1, (2, 1): 255}
SIZES = {"map 0": 2048, "map 1": 512}
KINDS, BOUNDS, ALIGN, ARGUMENT = 6, 7, 8, 10
LSINFINITY = 0xFFFFFF


@dataclasses.dataclass
class Change:
    """Instructions in front of another one, which may go away itself."""

    place: Instruction
    new: list[Instruction]
    is_instead: bool = False


class Program:
    """A program's code, to which guards are added."""

    def __init__(self, code: bytes, hook: str) -> None:
        self.code: Code = decoded(code)
        self.hook = hook
        self.known: Knowledge | None = None
        self.count = 0
        self.end: Instruction | None = None
        self.tried: set[tuple[int, int]] = set()
        """The instructions, by where clang has them, and the rules that were looked at."""

    def knowledge(self) -> Knowledge:
        if self.known is None:
            self.known = Knowledge(self.code)
        return self.known

    def bytes(self) -> bytes:
        return encoded(self.code)

    def at_slot(self, slot: int) -> int | None:
        """Returns the index of the instruction at a slot of the code as it is now."""
        at = 0
        for index, one in enumerate(self.code):
            if at == slot:
                return index
            at += one.slots
        return None

    def origin(self) -> list[int]:
        """Returns for each slot as it is now where clang has it, or -1."""
        return [it for one in self.code for it in [one.slot] * one.slots]

    def exit(self) -> Instruction:
        """Returns where guards lead: an answer that does nothing, at the end of the code."""
        if self.end is None:
            answer = LSINFINITY if self.hook == "price" else 0
            self.end = Instruction(ALU64 | MOV, 0, 0, 0, answer)
            self.code += [self.end, Instruction(EXIT)]
        return self.end

    def apply(self, change: Change) -> None:
        """Makes a change. Cannot if there are too many."""
        self.count += 1
        if self.count > MOST_GUARDS:
            raise Cannot("it would take too many guards")
        put_before(self.code, change.place, change.new)
        if change.is_instead:
            self.code.remove(change.place)
        self.known = None

    def add(self, slot: int, rule: int) -> bool:
        """Adds what is missing at a slot that breaks a rule. False if nothing is found."""
        at = self.at_slot(slot)
        state = self.knowledge().states.get(at) if at is not None else None
        if at is None or state is None:
            return False
        one = self.code[at]
        if (id(one), rule) in self.tried:
            return False
        self.tried.add((id(one), rule))
        changes = []
        if rule == ARGUMENT and one.opcode == CALL:
            changes = self.arguments(one, state)
        elif rule in (BOUNDS, ALIGN) and one.group in (LDX, ST, STX):
            changes = self.bounds(one, state, rule)
        elif rule == KINDS:
            changes = self.kinds(at, one, state)
        for change in changes:
            self.apply(change)
        return bool(changes)

    def guard(self, register: int, limit: Range, lo: int, hi: int) -> list[Instruction]:
        """Returns the tests that a number lies between two ends, so far as there are any."""
        found = []
        if lo > 0:
            found.append(Instruction(JMP | JLT, register, 0, 0, lo, to=self.exit()))
        if hi <= MOST_NUMBER:
            found.append(Instruction(JMP | JGT, register, 0, 0, hi, to=self.exit()))
        return found if limit.within(lo, hi) and hi <= MOST_NUMBER else []

    def arguments(self, one: Instruction, state: State) -> list[Change]:
        found = []
        for register in (1, 2):
            most = ARGUMENTS.get((one.number, register))
            value = state.held.get(register)
            if most is not None and isinstance(value, Term):
                limit = state.range_of(value)
                new = self.guard(register, limit, 0, most) if limit.single is None else []
                found += [Change(one, new)] if new else []
        return found

    def bounds(self, one: Instruction, state: State, rule: int) -> list[Change]:
        """Returns guards of the number that was added to a map's address last."""
        pointer = state.held.get(one.source if one.group == LDX else one.target)
        if not isinstance(pointer, Pointer) or pointer.kind not in SIZES:
            return []
        place = state.range_of(pointer.at)
        far = (place.hi + one.offset) % (1 << 64)
        if far + one.width > SIZES[pointer.kind] or (place.lo + one.offset) % (1 << 64) > far:
            return []
        found = [self.step_guard(at, register, rule) for at, register in pointer.steps]
        return [it for it in found if it is not None]

    def step_guard(self, at: int, register: int, rule: int) -> Change | None:
        """Returns a guard of a number before it is added to an address."""
        before = self.knowledge().states[at]
        value = before.held.get(register)
        if not isinstance(value, Term):
            return None
        limit = before.range_of(value)
        zeros = limit.low_zeros()
        if rule == ALIGN:
            new = [Instruction(ALU64 | AND, register, 0, 0, -(1 << min(zeros, 3)))] if zeros else []
        else:
            new = self.guard(register, limit, limit.lo, limit.hi)
        return Change(self.code[at], new) if new else None

    def kinds(self, at: int, one: Instruction, state: State) -> list[Change]:
        """Returns what takes the place of number += pointer, and of a pointer's test against 0."""
        first, other = state.held.get(one.target), state.held.get(one.source)
        if one.opcode == ALU64 | ADD | 8 and isinstance(first, Term) and isinstance(other, Pointer):
            return self.turned(at, one)
        if one.group == JMP and one.how in (JEQ, JNE) and isinstance(first, Pointer) \
                and not one.by_register and one.number == 0:
            is_taken = one.how == JNE
            new = [Instruction(JMP | JA, to=one.to)] if is_taken else \
                [Instruction(ALU64 | MOV | 8, one.target, one.target)]
            return [Change(one, new, True)]
        return []

    def turned(self, at: int, one: Instruction) -> list[Change]:
        """Returns pointer += number for number += pointer, by a register that is free."""
        behind = live_before(self.code)[at + 1]
        number, pointer = one.target, one.source
        if pointer not in behind and pointer != 10:
            new = [Instruction(ALU64 | ADD | 8, pointer, number),
                   Instruction(ALU64 | MOV | 8, number, pointer)]
            return [Change(one, new, True)]
        free = [it for it in range(10) if it not in behind and it not in (number, pointer)]
        if not free:
            return []
        new = [Instruction(ALU64 | MOV | 8, free[0], number),
               Instruction(ALU64 | MOV | 8, number, pointer),
               Instruction(ALU64 | ADD | 8, number, free[0])]
        return [Change(one, new, True)]

    def keeps_context(self, slot: int) -> bool:
        """Reports whether a slot loads a context's address from the stack."""
        at = self.at_slot(slot)
        state = self.knowledge().states.get(at) if at is not None else None
        if at is None or state is None or self.code[at].group != LDX:
            return False
        one = self.code[at]
        base = state.held.get(one.source)
        place = state.range_of(base.at).single if isinstance(base, Pointer) else None
        if place is None:
            return False
        value = state.held.get(((place + one.offset) % (1 << 64), one.width))
        return isinstance(value, Pointer) and value.kind == "context"
