"""What holds at each instruction of a program, whenever a run gets there."""
from __future__ import annotations

import heapq

from . import ranges
from .instructions import Cannot, Code, live_before
from .ranges import MOST, Range
from .steps import Steps
from .values import Join, Place, State, Term, Terms

PATIENCE = 3
"""How often an instruction's state grows before its ranges are widened."""
MOST_VISITS = 40
"""How often it grows at most; above that nothing is known."""


def thresholds_of(code: Code) -> list[int]:
    """Returns where widened ranges stop: the numbers that tests name, and those of whole bits."""
    found = {0, MOST} | {(1 << it) - 1 for it in range(1, 64)}
    for one in code:
        if one.is_branch and not one.by_register:
            found |= {(one.number + it) & MOST for it in (-1, 0, 1)}
    return sorted(found)


class Knowledge:
    """The states before each instruction, found by going round until nothing grows."""

    def __init__(self, code: Code) -> None:
        self.code, self.terms = code, Terms()
        self.steps = Steps(code, self.terms, lambda at, what: self.terms.get("var", (), (at, what)))
        self.live = live_before(code)
        self.limits = thresholds_of(code)
        self.visits = [0] * len(code)
        self.states: dict[int, State] = {0: self.steps.entry()}
        self.go_round()

    def go_round(self) -> None:
        todo = [0]
        while todo:
            at = heapq.heappop(todo)
            for to, state in self.steps.behind(at, self.states[at].copy()):
                if self.take(to, state) and to not in todo:
                    heapq.heappush(todo, to)

    def take(self, at: int, new: State) -> bool:
        """Adds what is known on one way to an instruction. Returns whether anything is new."""
        new.keep_live([*self.live[at], 10])
        old = self.states.get(at)
        if old is None:
            self.states[at] = new
            return True
        join = Join(old, new, lambda place: self.name(at, place),
                    lambda one, other: self.wider(at, one, other)).state()
        join.keep_live([*self.live[at], 10])
        if same(join, old):
            return False
        self.visits[at] += 1
        if self.visits[at] > MOST_VISITS:
            raise Cannot("its loops are too long to follow")
        self.states[at] = join
        return True

    def name(self, at: int, place: Place) -> Term:
        return self.terms.get("phi", (), (at, place))

    def wider(self, at: int, one: Range, other: Range) -> Range:
        """Returns a range that has both, which grows in few steps."""
        both = ranges.either(one, other)
        if self.visits[at] < PATIENCE or both == one:
            return both
        if self.visits[at] > MOST_VISITS - 10:
            return ranges.ANY
        lo = max(it for it in self.limits if it <= both.lo) if both.lo < one.lo else both.lo
        hi = min(it for it in self.limits if it >= both.hi) if both.hi > one.hi else both.hi
        return ranges.made(lo, hi, both.known, both.bits) or ranges.ANY


def same(one: State, other: State) -> bool:
    return one.held == other.held and one.known == other.known
