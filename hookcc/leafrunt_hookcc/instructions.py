"""Code as instructions (RFC 9669) that can be put between others: jumps name where they lead."""
from __future__ import annotations

import dataclasses
import struct

SLOT = struct.Struct("<BBhi")
WIDE, CALL, EXIT = 0x18, 0x85, 0x95
# operations of arithmetic, by the high four bits
ADD, SUB, MUL, DIV, OR, AND, LSH, RSH, NEG, MOD, XOR, MOV, ARSH, END = range(0, 0xE0, 0x10)
JA, JEQ, JGT, JGE, JSET, JNE, JSGT, JSGE = range(0, 0x80, 0x10)
JLT, JLE, JSLT, JSLE = range(0xA0, 0xE0, 0x10)
LD, LDX, ST, STX, ALU, JMP, JMP32, ALU64 = range(8)
REGISTERS = range(10)


class Cannot(Exception):
    """Code can't be changed in this way."""


@dataclasses.dataclass(eq=False)
class Instruction:
    """An instruction. A jump's target is an instruction, a wide one has a second number."""

    opcode: int
    target: int = 0
    source: int = 0
    offset: int = 0
    number: int = 0
    high: int = 0
    to: Instruction | None = None
    slot: int = -1
    """Where clang has it; -1 of what was put in."""

    @property
    def group(self) -> int:
        return self.opcode & 7

    @property
    def how(self) -> int:
        return self.opcode & 0xF0

    @property
    def by_register(self) -> bool:
        return bool(self.opcode & 8)

    @property
    def is_arithmetic(self) -> bool:
        return self.group in (ALU, ALU64)

    @property
    def is_jump(self) -> bool:
        return self.group in (JMP, JMP32) and self.opcode not in (CALL, EXIT)

    @property
    def is_branch(self) -> bool:
        return self.is_jump and self.how != JA

    @property
    def goes_on(self) -> bool:
        """Whether the next instruction may come next."""
        return self.opcode != EXIT and not (self.is_jump and self.how == JA)

    @property
    def slots(self) -> int:
        return 2 if self.opcode == WIDE else 1

    @property
    def width(self) -> int:
        """The bytes of a load or store."""
        return {0x00: 4, 0x08: 2, 0x10: 1, 0x18: 8}[self.opcode & 0x18]

    def set_register(self) -> int | None:
        """Returns the register that it sets, but those of a call."""
        if self.is_arithmetic or self.group == LDX or self.opcode == WIDE:
            return self.target
        return None

    def used(self) -> set[int]:
        """Returns the registers that it reads."""
        if self.opcode == CALL:
            return {1: {1, 2}, 2: {1}, 3: {1}, 4: {1, 2}}.get(self.number, {1, 2, 3, 4, 5})
        if self.opcode == EXIT:
            return {0}
        if self.opcode == WIDE or self.is_jump and self.how == JA:
            return set()
        if self.is_arithmetic:
            both = set() if self.how == MOV else {self.target}
            return both | ({self.source} if self.by_register and self.how != END else set())
        if self.is_jump:
            return {self.target} | ({self.source} if self.by_register else set())
        if self.group == LDX:
            return {self.source}
        return {self.target} | ({self.source} if self.group == STX else set())

    def gone(self) -> set[int]:
        """Returns the registers that hold nothing of before behind it."""
        if self.opcode == CALL:
            return {0, 1, 2, 3, 4, 5}
        found = self.set_register()
        return set() if found is None else {found}


Code = list[Instruction]


def decoded(data: bytes) -> Code:
    """Returns the code of these bytes. Cannot if it is none."""
    code: Code = []
    at_slot: dict[int, Instruction] = {}
    far: list[tuple[Instruction, int]] = []
    at = 0
    while at < len(data) // 8:
        opcode, registers, offset, number = SLOT.unpack_from(data, 8 * at)
        one = Instruction(opcode, registers & 15, registers >> 4, offset, number, slot=at)
        if one.opcode == WIDE and 8 * at + 16 <= len(data):
            one.high = SLOT.unpack_from(data, 8 * at + 8)[3]
        elif one.is_jump:
            far.append((one, at + 1 + (number if opcode == JMP32 else offset)))
        at_slot[at] = one
        code.append(one)
        at += one.slots
    for one, slot in far:
        if slot not in at_slot:
            raise Cannot(f"slot {slot} has no instruction")
        one.to = at_slot[slot]
    return code


def slots_of(code: Code) -> dict[int, int]:
    """Returns the slot of each instruction, by its identity."""
    found, at = {}, 0
    for one in code:
        found[id(one)] = at
        at += one.slots
    return found


def encoded(code: Code) -> bytes:
    """Returns the bytes of code. Cannot if a jump goes too far."""
    places, made = slots_of(code), bytearray()
    for one in code:
        offset, number = one.offset, one.number
        if one.to is not None:
            distance = places[id(one.to)] - places[id(one)] - 1
            offset, number = (0, distance) if one.opcode == JMP32 else (distance, number)
            if not -(1 << 15) <= offset < 1 << 15:
                raise Cannot("a jump would go too far")
        made += SLOT.pack(one.opcode, one.target | one.source << 4, offset, number)
        if one.opcode == WIDE:
            made += SLOT.pack(0, 0, 0, one.high)
    return bytes(made)


def put_before(code: Code, place: Instruction, new: Code) -> None:
    """Puts instructions before another one: what leads there leads to them."""
    ours = {id(it) for it in new}
    for one in code:
        if one.to is place and id(one) not in ours:
            one.to = new[0]
    at = code.index(place)
    for each in new:
        each.slot = place.slot if each.slot < 0 else each.slot
    code[at:at] = new


def ways_of(code: Code) -> list[list[int]]:
    """Returns for each instruction which may come next, a jump's target first."""
    indices = {id(one): at for at, one in enumerate(code)}
    found = []
    for at, one in enumerate(code):
        to = [indices[id(one.to)]] if one.to is not None else []
        found.append(to + ([at + 1] if one.goes_on and at + 1 < len(code) else []))
    return found


def live_before(code: Code) -> list[frozenset[int]]:
    """Returns the registers that may still be read, before each instruction."""
    ways, live = ways_of(code), [frozenset[int]()] * len(code)
    is_new = True
    while is_new:
        is_new = False
        for at in range(len(code) - 1, -1, -1):
            behind = frozenset(it for to in ways[at] for it in live[to])
            now = (behind - code[at].gone()) | code[at].used()
            if now != live[at]:
                live[at], is_new = frozenset(now), True
    return live
