"""Loads from constant tables as searches in code: tests of the address, as a switch would have."""
from __future__ import annotations

import collections
import dataclasses
import re
from typing import Iterator

from .addresses import OTHER, Known, Place, known_at, labels_of, ways_from
from .assembly import Line, reads, register, target_of
from .tables import Cannot, Data

MOST_SLOTS = 4096
WORD = 1 << 32
Runs = list[tuple[int, int]]


@dataclasses.dataclass
class Load:
    """A load from tables: the line, where its base may point, and which bytes it takes."""

    at: int
    base: str
    target: str
    place: Place
    offset: int
    width: int
    is_signed: bool
    made_at: frozenset[int] = frozenset()
    """The lines that may have set the base."""


@dataclasses.dataclass
class Layout:
    """What is told of a search: its tables, how many rows and values they have, and its slots."""

    names: str
    rows: int
    values: int
    slots: int

    def __str__(self) -> str:
        return f"{self.names}: {self.values} values, {self.slots} slots"


class Labels:
    """Names for the targets of jumps, each used once in a file."""

    def __init__(self) -> None:
        self.count = 0

    def new(self) -> str:
        self.count += 1
        return f".Ltable_{self.count}"


def rows_of(data: Data, place: Place, offset: int, width: int) -> Iterator[int]:
    """Yields each address that the base may have, so that these bytes lie within a table."""
    for name in sorted(place.names, key=lambda it: data.names[it]):
        first = data.names[name]
        step = place.modulus or 1 << 32
        at = first - offset
        at += (place.residue - at) % step
        while at + offset + width <= first + data.sizes[name]:
            if (at + offset - first) % min(width, 8) == 0 or width not in (1, 2, 4, 8):
                yield at
            at += step


def signed(value: int, bits: int) -> int:
    """Returns the number of 64 bits that has the sign of this one."""
    return (value - (1 << bits) if value >> (bits - 1) else value) % (1 << 64)


def runs_of(data: Data, place: Place, offset: int, width: int, is_signed: bool) -> Runs:
    """Returns from which address of the base on these bytes have which value."""
    found: Runs = []
    for at in rows_of(data, place, offset, width):
        value = data.value(at + offset, width)
        value = signed(value, 8 * width) if is_signed else value
        if not found or found[-1][1] != value:
            found.append((at, value))
    if not found:
        raise Cannot("no row of a table has all that is loaded")
    return found


def move(target: int, value: int) -> str:
    """Returns the line that sets a register to a number of 64 bits."""
    if value < WORD:
        return f"\tw{target} = {value if value < 1 << 31 else value - WORD}"
    if value >= (1 << 64) - (1 << 31):
        return f"\tr{target} = {value - (1 << 64)}"
    return f"\tr{target} = {value} ll"


class Tree:
    """The lines that set a register by where the base points. A value that comes again and again
    is written once, and jumped to."""

    def __init__(self, labels: Labels, runs: Runs, base: str, target: int) -> None:
        self.labels, self.base, self.target = labels, base, target
        self.behind = labels.new()
        self.counts = collections.Counter(value for _, value in runs)
        self.leaves: dict[int, str] = {}
        self.lines = [*self.halves(runs), f"{self.behind}:"]

    def leaf(self, value: int) -> list[str]:
        if value in self.leaves:
            return [f"\tgoto {self.leaves[value]}"]
        told = []
        if self.counts[value] > 1:
            self.leaves[value] = self.labels.new()
            told = [f"{self.leaves[value]}:"]
        return [*told, move(self.target, value), f"\tgoto {self.behind}"]

    def halves(self, runs: Runs) -> list[str]:
        if len(runs) == 1:
            return self.leaf(runs[0][1])
        middle, other = len(runs) // 2, self.labels.new()
        low = self.halves(runs[:middle])
        test = f"\tif {self.base} > {runs[middle][0] - 1} goto {other}"
        return [test, *low, f"{other}:", *self.halves(runs[middle:])]


def slots_of(lines: list[str]) -> int:
    return sum(Line(it).slots() for it in lines)


def tidied(lines: list[str]) -> list[str]:
    """Returns the lines without a jump to the label right behind it."""
    return [it for it, behind in zip(lines, [*lines[1:], ""])
            if not it.startswith("\tgoto ") or behind != f"{it[6:]}:"]


def told_of(data: Data, place: Place, load: Load, runs: Runs, lines: list[str]) -> Layout:
    rows = sum(1 for _ in rows_of(data, place, load.offset, load.width))
    names = ", ".join(sorted(place.names))
    return Layout(names, rows, len(runs), slots_of(lines))


def search(data: Data, labels: Labels, load: Load) -> tuple[list[str], Layout]:
    """Returns the lines in the place of a load."""
    runs = runs_of(data, load.place, load.offset, load.width, load.is_signed)
    lines = tidied(Tree(labels, runs, load.base, int(load.target[1:])).lines)
    return lines, told_of(data, load.place, load, runs, lines)


def loads_of(data: Data, lines: list[Line], known: dict[int, Known]) -> list[Load]:
    """Returns the loads from tables. Cannot if an address may be used in another way."""
    found = []
    for at, line in enumerate(lines):
        base = register(line.parts.get("base", ""))
        place = known.get(at, {}).get(base, OTHER) if base is not None else OTHER
        if not place.names:
            continue
        if place.is_other or line.form != "load":
            raise Cannot("an address that may be none of a table's")
        parts = line.parts
        found.append(Load(at, parts["base"], parts["target"], place, line.offset(),
                          int(parts["bits"]) // 8, parts["sign"] == "s"))
    return found


Definitions = dict[int, dict[int, frozenset[int]]]


def definitions_at(lines: list[Line]) -> Definitions:
    """Returns which lines may have set each register last, before each line."""
    labels = labels_of(lines)
    found: Definitions = {0: {}}
    todo = [0]
    while todo:
        at = todo.pop()
        behind = dict(found[at])
        target = target_of(lines[at])
        if lines[at].form == "call":
            behind.update({number: frozenset([at]) for number in range(6)})
        elif target is not None:
            behind[target] = frozenset([at])
        for to in ways_from(lines, labels, at):
            old = found.get(to)
            new = behind if old is None else {
                it: old.get(it, frozenset()) | behind.get(it, frozenset())
                for it in old.keys() | behind.keys()}
            if old != new:
                found[to] = new
                todo.append(to)
    return found


def is_used(line: Line, number: int) -> bool:
    """Reports whether a line may use a register otherwise than as the base of a load."""
    if line.form == "load" and line.parts["base"] == f"r{number}":
        return False
    if line.form == "call":
        return number in (1, 2)
    if line.form == "exit":
        return number == 0
    return bool(line.form) and reads(line, number)


def rows_at_once(lines: list[Line], loads: list[Load],
                 defined: Definitions) -> dict[int, list[Load]]:
    """Returns loads that take parts of the same eight bytes, by the line that sets their base.

    That line may serve no other use.
    """
    groups: dict[int, list[Load]] = collections.defaultdict(list)
    for load in loads:
        load.made_at = defined[load.at].get(int(load.base[1:]), frozenset())
        if len(load.made_at) == 1:
            groups[next(iter(load.made_at))].append(load)
    found = {}
    for made_at, group in groups.items():
        number = int(group[0].base[1:])
        first = min(it.offset for it in group)
        span = max(it.offset + it.width for it in group) - first
        ours = {it.at for it in group}
        others = (at for at, known in defined.items()
                  if made_at in known.get(number, ()) and at not in ours
                  and (is_used(lines[at], number) or lines[at].parts.get("base") == f"r{number}"))
        if len(group) > 1 and span <= 8 and next(others, None) is None:
            found[made_at] = group
    return found


def part_of(load: Load, first: int, span: int) -> list[str]:
    """Returns the lines that take a load's bytes from the base, which has `span` of them."""
    base, target = load.base[1:], load.target[1:]
    low, bits = 8 * (load.offset - first), 8 * load.width
    if load.is_signed:
        return [f"\tr{target} = r{base}", f"\tr{target} <<= {64 - low - bits}",
                f"\tr{target} s>>= {64 - bits}"]
    if low == 0 and bits == 32:
        return [f"\tw{target} = w{base}"]
    made = [f"\tr{target} = r{base}"] if base != target else []
    made += [f"\tr{target} >>= {low}"] if low else []
    made += [f"\tr{target} &= {(1 << bits) - 1}"] if low + bits < 8 * span and bits < 32 else []
    if low + bits < 8 * span and bits == 32:
        made += [f"\tw{target} = w{target}"]
    return made


class Function:
    """A function's lines, and what takes the places of loads from tables."""

    def __init__(self, data: Data, labels: Labels, lines: list[Line]) -> None:
        self.data, self.labels, self.lines = data, labels, lines
        self.layouts: list[Layout] = []
        self.instead: dict[int, list[str]] = {}
        self.behind: dict[int, list[str]] = {}

    def write(self) -> None:
        """Finds the searches. Cannot if an address may be used in another way."""
        loads = loads_of(self.data, self.lines, known_at(self.data, self.lines))
        alone = {load.at: search(self.data, self.labels, load) for load in loads}
        if loads:
            for at, group in rows_at_once(self.lines, loads, definitions_at(self.lines)).items():
                self.write_row(at, group, alone)
        for at, (lines, layout) in alone.items():
            self.instead[at] = lines
            self.layouts.append(layout)

    def write_row(self, at: int, group: list[Load],
                  alone: dict[int, tuple[list[str], Layout]]) -> None:
        """Takes a whole row at once where that needs fewer slots."""
        first = min(it.offset for it in group)
        span = max(it.offset + it.width for it in group) - first
        base = int(group[0].base[1:])
        whole = dataclasses.replace(group[0], offset=first, width=span, is_signed=False)
        try:
            runs = runs_of(self.data, whole.place, first, span, False)
        except Cannot:
            return
        lines = tidied(Tree(self.labels, runs, whole.base, base).lines)
        parts = {it.at: part_of(it, first, span) for it in group}
        size = slots_of(lines) + sum(slots_of(it) for it in parts.values())
        if size >= sum(slots_of(alone[it.at][0]) for it in group):
            return
        self.behind[at] = lines
        self.layouts.append(told_of(self.data, whole.place, whole, runs, lines))
        for load in group:
            self.instead[load.at] = parts[load.at]
            del alone[load.at]

    def rewritten(self) -> list[Line]:
        """Returns the lines with searches in the places of loads. Cannot if they take too many."""
        self.write()
        made: list[Line] = []
        for at, line in enumerate(self.lines):
            if at in self.instead:
                made += map(Line, self.instead[at])
            elif line.form == "wide" and line.parts["symbol"] in self.data.names:
                number = self.data.names[line.parts["symbol"]] + int(line.parts["more"] or 0)
                made.append(Line(f"\t{line.parts['target']} = {number}"))
            else:
                made.append(line)
            made += map(Line, self.behind.get(at, []))
        self.look_at_size(sum(it.slots() for it in made))
        return made

    def look_at_size(self, slots: int) -> None:
        """Fails if the function is longer than code may be, by the rows of its largest table."""
        if slots <= MOST_SLOTS or not self.layouts:
            return
        largest = max(self.layouts, key=lambda it: it.slots)
        ours = [it for it in self.layouts if it.names == largest.names]
        taken = sum(it.slots for it in ours)
        fit = max(0, largest.rows * (MOST_SLOTS - slots + taken) // taken)
        places = f"{len(ours)} places" if len(ours) > 1 else "one place"
        raise Cannot(f"{largest.names} has {largest.rows} rows, which {places} of the program "
                     f"search: {slots} slots of {MOST_SLOTS}. At most {fit} rows fit")


@dataclasses.dataclass
class Searches:
    """What is told of a file's tables: how each search is laid out, and which functions can't have
    theirs."""

    layouts: list[str] = dataclasses.field(default_factory=list)
    refused: dict[str, str] = dataclasses.field(default_factory=dict)


def with_searches(lines: list[Line], told: Searches) -> list[Line]:
    """Returns the lines with tests in the places of loads from tables. A function that uses a table
    in another way stays as it is."""
    data, labels = Data(lines), Labels()
    made: list[Line] = []
    functions = {found[1] for line in lines
                 if (found := re.match(r"\s+\.type\s+(\w+),@function", line.text))}
    at = 0
    while at < len(lines):
        size = 1
        part = [lines[at]]
        name = lines[at].label or ""
        if name in functions:
            ends = (n for n, it in enumerate(lines[at:])
                    if (it.label or "").startswith(".Lfunc_end"))
            size = next(ends, len(lines) - at)
            function = Function(data, labels, lines[at:at + size])
            part = function.lines
            try:
                part = function.rewritten()
                told.layouts += [f"{name}: {it}" for it in function.layouts]
            except Cannot as why:
                told.refused[name] = str(why)
            except (KeyError, ValueError):
                pass
        made += part
        at += size
    return made
