"""How often a program jumps back at most in one run, by following it turn by turn.

Numbers that are known exactly aren't joined with others, so a search by halving ends: each pair of
its ends is followed by itself.
"""
from __future__ import annotations

import heapq
from typing import Iterable

from . import ranges
from .instructions import Code, live_before
from .ranges import Range
from .steps import Steps
from .values import Join, State, Term, Terms

MOST_STEPS = {False: 6_000, True: 35_000}
"""How many instructions are followed: with numbers joined, and with each by itself."""
MOST_APART = 600
"""How many states of one instruction and turn are followed apart."""
MOST_REPEATS = 3
"""How many turns in a row bring nothing new, before a loop counts as endless."""
MOST_TURNS = 400
"""How many turns are followed with each number by itself."""
BUDGET = 1_000_000

Key = tuple[tuple[str, int], ...]
Shape = tuple[tuple[str, str, int, int], ...]


def shape_of(state: State) -> Shape:
    """Returns what each place may hold."""
    found = []
    for place, value in state.held.items():
        kind, term = ("", value) if isinstance(value, Term) else (value.kind, value.at)
        limit = state.range_of(term)
        found.append((str(place), kind, limit.lo, limit.hi))
    return tuple(sorted(found))


class Walk:
    """A program's states by turn and instruction, in the order in which they may come."""

    def __init__(self, code: Code, is_exact: bool) -> None:
        self.code, self.is_exact = code, is_exact
        self.terms = Terms()
        self.steps = Steps(code, self.terms, lambda at, what: self.terms.fresh())
        self.live = [[*it, 10] for it in live_before(code)]
        self.joins = {to for to, count in self.counted().items() if count > 1}
        back = [(to, at) for at, ways in enumerate(self.steps.ways) for to in ways if to <= at]
        self.heads = {to for to, _ in back}
        self.inside = {it for to, at in back for it in range(to, at + 1)}
        self.waiting: dict[tuple[int, int], dict[Key, State]] = {}
        self.order: list[tuple[int, int]] = []
        self.most = min(BUDGET // max(1, len(code)), MOST_TURNS if is_exact else BUDGET)
        self.seen: dict[int, set[Shape]] = {}
        self.repeats: dict[int, int] = {}
        self.is_split = False
        """Whether states met in which other numbers are known exactly."""

    def counted(self) -> dict[int, int]:
        """Returns on how many ways each instruction is reached."""
        found: dict[int, int] = {}
        for ways in self.steps.ways:
            for to in ways:
                found[to] = found.get(to, 0) + 1
        return found

    def key(self, state: State) -> Key:
        """Returns the numbers of a state that are known exactly."""
        found = []
        for place, value in state.held.items():
            if isinstance(value, Term):
                single = state.range_of(value).single
                if single is not None:
                    found.append((str(place), single))
        return tuple(sorted(found))

    def add(self, turn: int, at: int, state: State) -> None:
        """Takes a state that is to be followed."""
        if at in self.joins:
            state.keep_live(self.live[at])
        there = self.waiting.get((turn, at))
        if there is None:
            there = self.waiting[turn, at] = {}
            heapq.heappush(self.order, (turn, at))
        key = self.key(state)
        if not self.is_exact or len(there) >= MOST_APART:
            self.is_split |= at in self.inside and bool(there) and key not in there
            key = next(iter(there), key)
        if key in there:
            state = Join(there[key], state, lambda place: self.terms.fresh(), wider).state()
        there[key] = state

    def most_turns(self) -> int | None:
        """Returns the greatest number of jumps back, or None if no end is found."""
        self.add(0, 0, self.steps.entry())
        most, left = 0, MOST_STEPS[self.is_exact]
        while self.order:
            turn, at = heapq.heappop(self.order)
            most = max(most, turn)
            states = self.waiting.pop((turn, at)).values()
            if turn > self.most or self.comes_back(at, states):
                return None
            for state in states:
                left -= self.follow(turn, at, state)
            if left < 0:
                return None
        return most

    def comes_back(self, at: int, states: Iterable[State]) -> bool:
        """Reports whether jumps back lead to what was known in earlier turns, again and again."""
        if at not in self.heads:
            return False
        shapes = {shape_of(it) for it in states}
        seen = self.seen.setdefault(at, set())
        self.repeats[at] = self.repeats.get(at, 0) + 1 if shapes <= seen else 0
        seen |= shapes
        return self.repeats[at] > MOST_REPEATS

    def follow(self, turn: int, at: int, state: State) -> int:
        """Follows a state to where it meets others. Returns how many instructions these are."""
        count = 0
        while True:
            count += 1
            ways = self.steps.behind(at, state)
            if len(ways) != 1 or ways[0][0] in self.joins or ways[0][0] <= at:
                break
            at, state = ways[0]
        for to, behind in ways:
            self.add(turn + (to <= at), to, behind)
        return count


def wider(one: Range, other: Range) -> Range:
    return ranges.either(one, other)


def most_turns(code: Code) -> int | None:
    """Returns how often code jumps back at most in one run, or None if no end is found."""
    joined = Walk(code, False)
    found = joined.most_turns()
    if found is None and joined.is_split:
        return Walk(code, True).most_turns()
    return found
