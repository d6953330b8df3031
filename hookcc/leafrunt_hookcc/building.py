"""From a program in C to the objects of its functions: tries one after the other, until one is
accepted."""
from __future__ import annotations

import dataclasses
import os
import pathlib
from typing import Iterator

from . import elf, hints, source
from .clang import Compilation, Fault, Made, Way
from .contexts import wrong
from .guards import Program
from .instructions import Cannot, Code, ways_of
from .lines import Places, places_of, written
from .outcome import Outcome, object_path
from .turns import most_turns
from .verdicts import Hooktool, Verdict
from .ways import Try, others

EMPTY, RANK = 5, 12
NO_FUNCTION = ": it has no function"
MOST_ROUNDS = 48
MOST_ENDLESS = 2
"""After how many compilations without an end of its loops no other one is tried."""


@dataclasses.dataclass
class Settings:
    """What is asked for besides the program: words for hooktool, and how much is tried."""

    hook: str | None = None
    fuel: str | None = None
    fuel_answer: str | None = None
    is_plain: bool = False
    """Whether functions stay as clang makes them: one try, without guards."""

    def words(self) -> list[str]:
        rows = (("--hook", self.hook), *self.fuel_rows())
        return [word for name, value in rows if value is not None for word in (name, value)]

    def fuel_rows(self) -> list[tuple[str, str | None]]:
        return [("--fuel", self.fuel), ("--fuel-answer", self.fuel_answer)]

    def fuel_words(self) -> list[str]:
        rows = self.fuel_rows()
        return [word for name, value in rows if value is not None for word in (name, value)]


class Attempt:
    """One compilation of a file: its functions, and the line of C of each of their slots."""

    def __init__(self, made: Made, hooktool: Hooktool, settings: Settings) -> None:
        self.made, self.hooktool, self.settings = made, hooktool, settings
        text = pathlib.Path(os.fspath(made.elf) + ".s").read_text(errors="replace")
        self.places: dict[str, Places] = places_of(text)
        self.room = made.elf.with_suffix(".objects")
        self.room.mkdir(exist_ok=True)
        self.endless: set[str] = set()
        """The functions of whose loops no end was found."""
        self.functions = {it.name: it for it in elf.functions_of(made.elf.read_bytes())}

    def verdicts(self) -> list[Verdict]:
        """Returns what hooktool says of all functions as they are."""
        found = self.hooktool.built(self.made.elf, self.room, self.settings.words())
        for each in found:
            each.lines = [it.replace(os.fspath(self.made.elf), self.made.program)
                          for it in each.lines]
        return found

    def outcome(self, verdict: Verdict) -> Outcome:
        places = self.places.get(verdict.name, {})
        found = Outcome(verdict.hook, verdict.name, verdict, places=places)
        if verdict.is_accepted:
            found.made = (self.room / f"{verdict.name}.o").read_bytes()
        return found

    def code_of(self, name: str) -> bytes | None:
        """Returns a function's code, if nothing is to be put into it."""
        function = self.functions.get(name)
        is_whole = function is not None and not function.relocated
        return function.code if function is not None and is_whole else None

    def keeps_context(self, outcome: Outcome) -> bool:
        """Reports whether a program is refused where it loads its context from the stack."""
        refusal = outcome.verdict.refusal if outcome.verdict else None
        code = self.code_of(outcome.name)
        try:
            return refusal is not None and code is not None and refusal[1] == EMPTY \
                and Program(code, outcome.hook).keeps_context(refusal[0])
        except Cannot:
            return False

    def guarded(self, before: Outcome) -> Outcome:
        """Returns what comes of a refused program with guards, and with its turns counted."""
        code = self.code_of(before.name)
        return before if code is None else Guarding(self, before, code).outcome()

    def other(self, before: Outcome) -> Outcome | None:
        """Returns what comes of the function in this compilation, or None if it can't be tried."""
        code = self.code_of(before.name)
        if code is None or before.name in self.made.tables.refused:
            return None
        try:
            return Guarding(self, Outcome(before.hook, before.name), code).begun()
        except Cannot:
            return None


class Guarding:
    """A program that is refused, and what is added to it."""

    def __init__(self, attempt: Attempt, before: Outcome, code: bytes) -> None:
        self.attempt, self.best = attempt, before
        self.program = Program(code, before.hook)
        self.words = attempt.settings.fuel_words()
        self.turns: int | None = None

    def begun(self) -> Outcome:
        """Returns what comes of a program that hooktool hasn't seen yet."""
        is_endless = has_loops(self.program.code) and "--fuel" not in self.words \
            and not self.count_turns()
        if is_endless:
            # (by hooktool's own search an endless loop takes long)
            self.words = ["--fuel", "1", *self.words]
        self.best = self.tried()
        if is_endless and self.is_counted():
            self.attempt.endless.add(self.best.name)
            raise Cannot("its loops have no end that is known")
        return self.best if self.best.is_accepted else self.outcome()

    def is_counted(self) -> bool:
        """Reports whether turns are counted in the object, or it isn't accepted."""
        slots = int.from_bytes(self.best.made[12:16], "little")
        return not self.best.is_accepted or slots != len(self.program.bytes()) // 8

    def count_turns(self) -> bool:
        """Finds how often the program jumps back at most. False if no end is found."""
        self.turns = most_turns(self.program.code)
        if self.turns is None:
            return False
        self.words = ["--fuel", str(max(1, self.turns)), *self.words]
        return True

    def outcome(self) -> Outcome:
        now = self.best
        for _ in range(MOST_ROUNDS):
            refusal = now.verdict.refusal if now.verdict else None
            try:
                if refusal is None or not self.changed(*refusal):
                    break
                now = self.tried()
            except Cannot:
                break
            if now.progress() > self.best.progress():
                self.best = now
            if now.is_accepted:
                break
        self.best.keeps_context = self.keeps_context()
        return self.best

    def keeps_context(self) -> bool:
        """Reports whether the best try is refused where it loads its context from the stack."""
        refusal = self.best.verdict.refusal if self.best.verdict else None
        try:
            is_empty = refusal is not None and refusal[1] == EMPTY
            return is_empty and refusal is not None and self.program.keeps_context(refusal[0])
        except Cannot:
            return False

    def changed(self, slot: int, rule: int) -> bool:
        """Adds what the refusal asks for. False if nothing is found."""
        if rule != RANK:
            return self.program.add(slot, rule)
        return "--fuel" not in self.words and self.count_turns()

    def tried(self) -> Outcome:
        """Returns what hooktool says of the program as it is now."""
        before, room = self.best, self.attempt.room
        code, made = room / f"{before.name}.code", room / f"{before.name}.o"
        code.write_bytes(self.program.bytes())
        verdict = self.attempt.hooktool.annotated(before.hook, code, made, self.words)
        verdict.name = before.name
        base = self.attempt.places.get(before.name, {})
        places = {at: base[slot] for at, slot in enumerate(self.program.origin()) if slot in base}
        found = Outcome(before.hook, before.name, verdict, places=places, way=self.told())
        if verdict.is_accepted:
            found.made = made.read_bytes()
            found.later = 1 if self.turns is not None or verdict.turns is not None else 0
        elif verdict.refusal:
            verdict.lines.insert(0, f"section {before.hook}, function {before.name}: not accepted")
        return found

    def told(self) -> str:
        """Returns what was done, for a reader."""
        count = self.program.count
        parts = [f"{count} guard{'s' if count > 1 else ''}"] if count else []
        parts += [f"turns counted, at most {self.turns}"] if self.turns is not None else []
        return ", ".join(parts)


def has_loops(code: Code) -> bool:
    return any(to <= at for at, ways in enumerate(ways_of(code)) for to in ways)


class Builder:
    """A program in C, its compilations, and what came of each of its functions."""

    def __init__(self, compilation: Compilation, way: Way, hooktool: Hooktool,
                 settings: Settings) -> None:
        self.compilation, self.way, self.hooktool = compilation, way, hooktool
        self.settings = settings
        self.first = compilation.compiled(way)
        self.attempts: dict[str, Attempt | None] = {}

    def function(self, name: str) -> source.Function | None:
        return source.named(self.compilation.text, name)

    def outcomes(self) -> list[Outcome]:
        """Returns what came of each function, in the order in which hooktool names them."""
        attempt = Attempt(self.first, self.hooktool, self.settings)
        verdicts = attempt.verdicts()
        programs = {it.name: it.hook for it in verdicts if it.name}
        strange = wrong(self.compilation, self.way, programs)
        found = []
        for verdict in verdicts:
            if self.first.refused and NO_FUNCTION in verdict.text:
                continue
            outcome = attempt.outcome(verdict)
            outcome.why = strange.get(verdict.name, self.first.tables.refused.get(verdict.name, ""))
            found.append(outcome if outcome.is_accepted or verdict.name in strange
                         else self.best_of(attempt, outcome))
        found += [Outcome(self.hook_of(name), name, why=f"clang refuses it: {why}")
                  for name, why in self.first.refused.items()]
        for outcome in found:
            self.add_hint(outcome)
        return found

    def best_of(self, attempt: Attempt, outcome: Outcome) -> Outcome:
        """Returns what comes of a function in the way that takes it furthest."""
        may_help = outcome.why or outcome.verdict and outcome.verdict.refusal
        if self.settings.is_plain or not may_help:
            outcome.keeps_context = attempt.keeps_context(outcome)
            return outcome
        best = outcome if outcome.why else attempt.guarded(outcome)
        if best.is_accepted:
            return best
        endless = 0
        for each, told in self.further():
            now = each.other(outcome)
            endless += outcome.name in each.endless
            if now is not None and now.progress() > best.progress():
                best = now
                best.way = "; ".join(filter(None, [told, now.way]))
            if best.is_accepted or endless == MOST_ENDLESS:
                break
        return best

    def further(self) -> Iterator[tuple[Attempt, str]]:
        """Yields the other compilations of the file, each made once."""
        for number, each in enumerate(others(self.compilation, self.way)):
            if each.told not in self.attempts:
                self.attempts[each.told] = self.attempted(each, f"way{number}")
            attempt = self.attempts[each.told]
            if attempt is not None:
                yield attempt, each.told

    def attempted(self, each: Try, name: str) -> Attempt | None:
        try:
            return Attempt(each.compilation.compiled(each.way, name), self.hooktool, self.settings)
        except Fault:
            return None

    def hook_of(self, name: str) -> str:
        """Returns the hook in whose section a function of the text is."""
        function = self.function(name)
        return source.hook_in(function.head) if function else ""

    def add_hint(self, outcome: Outcome) -> None:
        if outcome.is_accepted or outcome.why or not outcome.verdict or not outcome.verdict.refusal:
            return
        rule = outcome.verdict.refusal[1]
        outcome.hint = hints.hint_for(rule, outcome.keeps_context, self.function(outcome.name),
                                      outcome.hook)


def store(outcome: Outcome, folder: str) -> None:
    """Writes an object, and beside it which line of C each slot comes from."""
    path = object_path(folder, outcome.name)
    slots = int.from_bytes(outcome.made[12:16], "little")
    put(path, outcome.made)
    told = written(outcome.places, outcome.later, slots, outcome.made)
    put(f"{path[:-2]}.lines", told.encode(errors="surrogateescape"))


def put(path: str, data: bytes) -> None:
    """Writes a file under another name, and then renames it."""
    part = f"{path}.part"
    with open(part, "wb") as it:
        it.write(data)
    os.replace(part, path)
