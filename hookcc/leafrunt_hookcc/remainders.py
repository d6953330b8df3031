"""Remainders: clang writes x - x / n * n, of which no verifier finds that it is below n.

`x %= n` is the same (RFC 9669, 4.1), and the verifier knows its range.
"""
from __future__ import annotations

import dataclasses

from .assembly import Line, register

NAMED = {"/=", "*=", "-="}


@dataclasses.dataclass(frozen=True)
class Value:
    """What a register stands for: a number, what was there before, or a step of other values."""

    kind: str
    word: str = ""
    of: tuple[Value, ...] = ()


Known = dict[int, Value]


def step(how: str, is_short: bool, one: Value, other: Value) -> Value:
    return Value("short step" if is_short else "step", how, (one, other))


def value_of(known: Known, word: str, is_short: bool) -> Value:
    """Returns what a word stands for, in its low 32 bits if only those are used."""
    number = register(word)
    if number is None:
        return Value("number", word)
    value = known.setdefault(number, Value("before", str(number)))
    is_low = not is_short or value.kind in ("low", "short step")
    return value if is_low else Value("low", "", (value,))


def word_of(known: Known, value: Value, is_short: bool) -> str | None:
    """Returns a word that stands for the value now, or None."""
    if value.kind == "number":
        return value.word
    for number in list(known):
        if value_of(known, f"r{number}", is_short) == value:
            return f"{'w' if is_short else 'r'}{number}"
    return None


def divisor_in(known: Known, parts: dict[str, str], is_short: bool) -> str | None:
    """Returns the word for n if the instruction takes x / n * n from x, or None."""
    value = value_of(known, parts["target"], is_short)
    product = value_of(known, parts["value"], is_short)
    kind = "short step" if is_short else "step"
    if parts["how"] != "-=" or (product.kind, product.word) != (kind, "*="):
        return None
    quotient, divisor = product.of
    if quotient != step("/=", is_short, value, divisor) or divisor == Value("number", "0"):
        return None
    return word_of(known, divisor, is_short)


def set_by(known: Known, parts: dict[str, str], at: int) -> Value:
    """Returns what the target stands for behind the instruction."""
    is_short = parts["target"][0] == "w"
    if parts["how"] == "=" and register(parts["value"]) is not None:
        return value_of(known, parts["value"], is_short)
    if parts["how"] in NAMED:
        one = value_of(known, parts["target"], is_short)
        return step(parts["how"], is_short, one, value_of(known, parts["value"], is_short))
    return Value("at", str(at))


def remainder(target: str, divisor: str) -> str:
    """Returns the line of target %= divisor, in bytes: clang 14 reads no such text."""
    is_short, source = target[0] == "w", register(divisor)
    opcode = 0x90 | (4 if is_short else 7) | (0 if source is None else 8)
    number = int(divisor, 0) % (1 << 32) if source is None else 0
    registers = int(target[1:]) | (source or 0) << 4
    parts = [opcode, registers, 0, 0, *number.to_bytes(4, "little")]
    return f"\t.byte {', '.join(map(hex, parts))}\t# {target} %= {divisor}"


def with_remainders(lines: list[Line]) -> None:
    """Puts a remainder in the place of the last step of such three. All else holds what it held."""
    known: Known = {}
    for at, line in enumerate(lines):
        if line.label or line.form in ("jump", "branch", "exit", "other"):
            known = {}
        elif line.form == "call":
            known = {number: value for number, value in known.items() if number > 5}
        elif line.form == "set":
            divisor = divisor_in(known, line.parts, line.parts["target"][0] == "w")
            behind = set_by(known, line.parts, at)
            if divisor is not None:
                line.text = remainder(line.parts["target"], divisor)
            known[int(line.parts["target"][1:])] = behind
        elif "target" in line.parts:
            known[int(line.parts["target"][1:])] = Value("at", str(at))
