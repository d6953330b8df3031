"""Which constant tables a register may point into, and at what distance from a row's beginning."""
from __future__ import annotations

import dataclasses
import math

from .assembly import Line, register
from .tables import Data

WORD = 1 << 32


@dataclasses.dataclass(frozen=True)
class Place:
    """Names of tables, whether it may be anything else, and value = residue modulo modulus.

    Of a single number the modulus is 0. Sums are those of integers: where they wrap, C has no
    address.
    """

    names: frozenset[str] = frozenset()
    is_other: bool = True
    modulus: int = 1
    residue: int = 0

    def at(self, modulus: int, residue: int) -> Place:
        """Returns the same tables at other distances."""
        return dataclasses.replace(self, modulus=modulus,
                                   residue=residue % modulus if modulus else residue)


OTHER = Place()
Key = int | tuple[str, int]
Known = dict[Key, Place]


def single(number: int) -> Place:
    return OTHER.at(0, number)


def joined_places(one: Place, other: Place) -> Place:
    modulus = math.gcd(one.modulus, other.modulus, abs(one.residue - other.residue))
    place = Place(one.names | other.names, one.is_other or other.is_other)
    return place.at(modulus, one.residue)


def joined(one: Known, other: Known) -> Known:
    """Returns what is known where two ways meet."""
    keys = one.keys() | other.keys()
    return {key: joined_places(one.get(key, OTHER), other.get(key, OTHER)) for key in keys}


def power_of_two(modulus: int) -> int:
    """Returns the greatest power of two that divides the modulus: how many values the low bits
    that are known have."""
    return modulus & -modulus if modulus else 1 << 64


def low_word(place: Place) -> Place:
    """Returns what is known of the low 32 bits."""
    if place.modulus == 0:
        return single(place.residue % WORD)
    return OTHER.at(min(power_of_two(place.modulus), WORD), place.residue)


def summed(one: Place, other: Place, sign: int) -> Place:
    """Returns a sum, or a difference: a table's address and a number point into the table."""
    if one.names and other.names or sign < 0 and other.names:
        return OTHER
    pointer = one if one.names else other
    modulus = math.gcd(one.modulus, other.modulus)
    return (pointer if pointer.names else OTHER).at(modulus, one.residue + sign * other.residue)


def scaled(place: Place, factor: int) -> Place:
    return OTHER.at(place.modulus * factor, place.residue * factor)


def with_bits(place: Place, bits: int) -> Place:
    """Returns what is known of place | bits."""
    low = power_of_two(place.modulus)
    residue = place.residue % low
    if place.names or not 0 <= bits < low or residue & bits:
        return OTHER
    return OTHER.at(low if place.modulus else 0, residue + bits)


def masked(place: Place, mask: int) -> Place:
    """Returns what is known of place & mask."""
    if place.modulus == 0:
        return single(place.residue & mask)
    low = power_of_two(place.modulus)
    return OTHER.at(max(low, power_of_two(mask)), place.residue & mask & (low - 1))


def stepped(how: str, old: Place, new: Place) -> Place:
    """Returns what an operation leaves in its target."""
    number = new.residue if new.modulus == 0 and not new.names else None
    if how == "=":
        return new
    if how in ("+=", "-="):
        return summed(old, new, 1 if how == "+=" else -1)
    if number is None or old.names:
        return OTHER
    if how == "*=" and number > 0:
        return scaled(old, number)
    if how == "<<=" and 0 <= number < 64:
        return scaled(old, 1 << number)
    if how == "|=":
        return with_bits(old, number)
    if how == "&=" and number > 0:
        return masked(old, number)
    return OTHER


def value_of(known: Known, word: str) -> Place:
    """Returns what is known of a register or of a number."""
    number = register(word)
    if number is not None:
        return known.get(number, OTHER)
    try:
        return single(int(word.removesuffix(" ll"), 0))
    except ValueError:
        return OTHER


def loaded(data: Data, known: Known, parts: dict[str, str], line: Line) -> Place:
    """Returns what a load of 64 bits may find."""
    if parts["bits"] != "64":
        return OTHER
    if parts["base"] == "r10":
        return known.get(("stack", line.offset()), OTHER)
    base = known.get(int(parts["base"][1:]), OTHER)
    return Place(*data.targets(base.names)) if base.names else OTHER


def after(data: Data, before: Known, line: Line) -> Known:
    """Returns what is known behind the line."""
    known, parts = dict(before), line.parts
    if line.form == "call":
        return {key: it for key, it in known.items() if isinstance(key, tuple) or key > 5}
    if line.form == "store" and parts["base"] == "r10":
        is_whole = parts["bits"] == "64"
        known[("stack", line.offset())] = value_of(known, parts["value"]) if is_whole else OTHER
    if "target" not in parts:
        return known
    target, is_short = int(parts["target"][1:]), parts["target"][0] == "w"
    value = OTHER
    if line.form == "wide" and parts["symbol"] in data.names:
        more = int(parts["more"] or 0)
        value = Place(frozenset([parts["symbol"]]), False).at(0, data.names[parts["symbol"]] + more)
    elif line.form == "load":
        value = loaded(data, known, parts, line)
    elif line.form == "set":
        value = stepped(parts["how"], known.get(target, OTHER), value_of(known, parts["value"]))
    known[target] = low_word(value) if is_short else value
    return known


def ways_from(lines: list[Line], labels: dict[str, int], at: int) -> list[int]:
    """Returns the lines that may come next."""
    line = lines[at]
    ways = [labels[line.parts["to"]]] if line.form in ("jump", "branch") else []
    is_last = line.form in ("jump", "exit") or at + 1 == len(lines)
    return ways if is_last else [*ways, at + 1]


def labels_of(lines: list[Line]) -> dict[str, int]:
    return {line.label: at for at, line in enumerate(lines) if line.label}


def known_at(data: Data, lines: list[Line]) -> dict[int, Known]:
    """Returns what is known before each line of a function that some way leads to."""
    labels = labels_of(lines)
    found: dict[int, Known] = {0: {}}
    todo = [0]
    while todo:
        at = todo.pop()
        behind = after(data, found[at], lines[at])
        for to in ways_from(lines, labels, at):
            new = joined(found[to], behind) if to in found else behind
            if found.get(to) != new:
                found[to] = new
                todo.append(to)
    return found
