"""What registers and words of the stack hold: numbers as terms, so that copies and what was made of
a number are narrowed with it, and pointers."""
from __future__ import annotations

import dataclasses
from typing import Callable, Iterable

from . import ranges
from .ranges import ANY, MOST, OPERATIONS, Range, WORD

LIMITS: dict[str, Callable[[object], Range]] = {
    "context": lambda it: ranges.up_to((1 << 8 * it[1]) - 1) if isinstance(it, tuple) else ANY,
    "packet": lambda _: ranges.up_to(256),
    "row": lambda _: ranges.up_to(1 << 32),
    "swap": lambda it: ranges.up_to((1 << it[1]) - 1) if isinstance(it, tuple) else ANY,
}
"""What is known of a number by where it comes from, and stays the same through a run."""
TEST = "test"
DEPTH = 5
"""How many steps back a range is looked for in what a number was made of."""


class Term:
    """A number: a constant, one of which only the range is known, or a result of others."""

    __slots__ = ("how", "of", "key", "depth")

    def __init__(self, how: str, of: tuple[Term, ...], key: object) -> None:
        self.how, self.of, self.key = how, of, key
        self.depth: int = 1 + max((it.depth for it in of), default=0)


class Terms:
    """Terms by what they are: two that are the same are one object."""

    def __init__(self) -> None:
        self.held: dict[object, Term] = {}
        self.count = 0

    def get(self, how: str, of: tuple[Term, ...] = (), key: object = None) -> Term:
        name = (how, *map(id, of), key)
        found = self.held.get(name)
        if found is None:
            found = self.held[name] = Term(how, of, key)
        return found

    def constant(self, number: int) -> Term:
        return self.get("constant", (), number & MOST)

    def fresh(self) -> Term:
        self.count += 1
        return self.get("fresh", (), self.count)

    def low(self, term: Term, known: Range) -> Term:
        """Returns the low 32 bits of a number of this range."""
        if known.hi <= WORD:
            return term
        if term.how == "constant" and isinstance(term.key, int):
            return self.constant(term.key & WORD)
        return self.get("low", (term,))

    def made(self, how: str, one: Term, other: Term) -> Term:
        """Returns the result of an operation on 64 bits."""
        if isinstance(one.key, int) and isinstance(other.key, int) \
                and one.how == other.how == "constant":
            single = OPERATIONS[how](ranges.only(one.key), ranges.only(other.key)).single
            if single is not None:
                return self.constant(single)
        if other.how == "constant" and other.key == 0 and how in "+-|^<<>>":
            return one
        if how == "-" and other.how == "constant" and isinstance(other.key, int):
            return self.made("+", one, self.constant(-other.key))
        if how == "+" and one.how == "+" and other.how == one.of[1].how == "constant":
            return self.made("+", one.of[0], self.sum_of(one.of[1], other))
        if how in (">>", "s>>") and one.how == "<<" and one.of[1] is other and other.key == 32:
            low, sign = ("low", None), ("sign", 32)
            name, key = low if how == ">>" else sign
            return self.get(name, one.of[:1], key)
        if how == "&" and other.how == "constant" and other.key == WORD:
            return self.get("low", (one,))
        return self.get(how, (one, other))

    def sum_of(self, one: Term, other: Term) -> Term:
        return self.constant(int(str(one.key)) + int(str(other.key)))


@dataclasses.dataclass(frozen=True)
class Pointer:
    """A pointer to the context, the stack or a map, at a distance from its beginning. `steps` are
    the instructions and registers by which numbers came to it."""

    kind: str
    at: Term
    steps: tuple[tuple[int, int], ...] = ()


Value = Term | Pointer
Place = int | tuple[int, int]
"""A register, or bytes of the stack: the first one and how many."""


class State:
    """What is known at a place of the code."""

    __slots__ = ("held", "known")

    def __init__(self, held: dict[Place, Value], known: dict[Term, Range]) -> None:
        self.held, self.known = held, known

    def copy(self) -> State:
        return State(dict(self.held), dict(self.known))

    def range_of(self, term: Term, depth: int = DEPTH) -> Range:
        """Returns the numbers that a term may be."""
        if term.how == "constant" and isinstance(term.key, int):
            return ranges.only(term.key)
        told = self.known.get(term, ANY)
        if term.how in LIMITS:
            told = ranges.both(told, LIMITS[term.how](term.key)) or told
        if not term.of or depth == 0:
            return told
        return ranges.both(told, self.result(term, depth - 1)) or told

    def result(self, term: Term, depth: int) -> Range:
        """Returns the range of a result, by those of what it is made of."""
        first = self.range_of(term.of[0], depth)
        if term.how == "low":
            return ranges.low_word(first)
        if term.how == "sign" and isinstance(term.key, int):
            return ranges.of_sign(first, term.key)
        if term.how in OPERATIONS:
            return OPERATIONS[term.how](first, self.range_of(term.of[1], depth))
        return ANY

    def narrow(self, term: Term, to: Range, depth: int = DEPTH) -> bool:
        """Takes into account that a number is within a range. False if that can't be."""
        if term.how == "constant":
            return ranges.both(self.range_of(term), to) is not None
        now = ranges.both(self.range_of(term), to)
        if now is None:
            return False
        self.known[term] = now
        return depth == 0 or self.narrow_source(term, now, depth - 1)

    def narrow_source(self, term: Term, to: Range, depth: int) -> bool:
        """Narrows what a term was made of."""
        if term.how == "low":
            if self.range_of(term.of[0]).hi <= WORD:
                return self.narrow(term.of[0], to, depth)
            return True
        if len(term.of) != 2 or term.of[1].how != "constant" or not isinstance(term.of[1].key, int):
            return True
        first, number = term.of[0], term.of[1].key
        if term.how == "+":
            lo, hi = (to.lo - number) & MOST, (to.hi - number) & MOST
            back = ranges.made(lo, hi) if lo <= hi else None
            return back is None or self.narrow(first, back, depth)
        if term.how in ("<<", "*"):
            factor = number if term.how == "*" else 1 << (number & 63)
            if factor and self.range_of(first).hi * factor <= MOST:
                back = ranges.made(-(-to.lo // factor), to.hi // factor) \
                    if -(-to.lo // factor) <= to.hi // factor else None
                return back is not None and self.narrow(first, back, depth)
        if term.how == ">>":
            by = number & 63
            back = ranges.made(to.lo << by, min(MOST, (to.hi << by) + (1 << by) - 1))
            return back is None or self.narrow(first, back, depth)
        return True

    def forget_stack(self, first: int, width: int) -> None:
        """Takes away what was known of bytes of the stack."""
        for place in [it for it in self.held if isinstance(it, tuple)]:
            if place[0] < first + width and first < place[0] + place[1]:
                del self.held[place]

    def keep_live(self, live: Iterable[int]) -> None:
        """Takes away registers that aren't read, and ranges of what nothing holds."""
        wanted = set(live)
        self.held = {place: it for place, it in self.held.items()
                     if isinstance(place, tuple) or place in wanted}
        reached: set[Term] = set()
        todo = [it if isinstance(it, Term) else it.at for it in self.held.values()]
        while todo:
            term = todo.pop()
            if term not in reached:
                reached.add(term)
                todo += term.of
        self.known = {term: it for term, it in self.known.items()
                      if term in reached or term.how == TEST and reached.issuperset(term.of)}


class Join:
    """What holds in both of two states. A number that differs gets a name; two that are equal in
    both get the same one."""

    def __init__(self, one: State, other: State, name: Callable[[Place], Term],
                 wider: Callable[[Range, Range], Range]) -> None:
        self.one, self.other, self.name, self.wider = one, other, name, wider
        self.renewed: set[Term] = set()
        """Names that stand for another number from here on."""
        self.named: dict[tuple[Term, Term], Term] = {}
        self.names: dict[Place, Term] = {}

    def is_old(self, term: Term) -> bool:
        """Reports whether a term speaks of what a name stood for before."""
        todo, seen = [term], set()
        while todo:
            each = todo.pop()
            if each in self.renewed:
                return True
            if each not in seen:
                seen.add(each)
                todo += each.of
        return False

    def term_for(self, place: Place, first: Term, second: Term) -> Term:
        if first is second and not self.is_old(first):
            return first
        if (first, second) not in self.named:
            if place not in self.names:
                self.names[place] = self.name(place)
            self.named[first, second] = self.names[place]
        return self.named[first, second]

    def value_for(self, place: Place, first: Value, second: Value) -> Value | None:
        if isinstance(first, Term) and isinstance(second, Term):
            return self.term_for(place, first, second)
        if isinstance(first, Pointer) and isinstance(second, Pointer) and first.kind == second.kind:
            steps = first.steps if first.steps == second.steps else ()
            return Pointer(first.kind, self.term_for(place, first.at, second.at), steps)
        return None

    def held(self) -> dict[Place, Value]:
        """Returns what each place holds, once no name stands for two numbers."""
        places = sorted(self.one.held.keys() & self.other.held.keys(), key=str)
        while True:
            self.named = {}
            found = {it: self.value_for(it, self.one.held[it], self.other.held[it])
                     for it in places}
            names = set(self.named.values())
            if names <= self.renewed:
                return {it: value for it, value in found.items() if value is not None}
            self.renewed |= names

    def state(self) -> State:
        held = self.held()
        shared = self.one.known.keys() & self.other.known.keys()
        known = {term: ranges.either(self.one.known[term], self.other.known[term])
                 for term in shared if not self.is_old(term)}
        known = {term: it for term, it in known.items() if term.how != TEST or it.lo == it.hi}
        for (first, second), term in self.named.items():
            known[term] = self.wider(self.one.range_of(first), self.other.range_of(second))
        return State(held, known)
