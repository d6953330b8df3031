"""What came of each function of a program, and how that is told."""
from __future__ import annotations

import dataclasses
import json
import os
import re
from typing import Any

from .lines import Place, Places
from .verdicts import COUNTED, Verdict

SLOT = re.compile(r"section \S+, function \w+, slot (\d+): |refused slot (\d+) rule"
                  r"|the loop at slot (\d+) has no rank")


@dataclasses.dataclass
class Outcome:
    """A function: its object's bytes if it is accepted, else why it isn't."""

    hook: str
    name: str
    verdict: Verdict | None = None
    why: str = ""
    """Why it isn't accepted, where hooktool isn't asked."""
    places: Places = dataclasses.field(default_factory=dict)
    hint: str = ""
    way: str = ""
    """What hookcc did for it beyond compiling it."""
    made: bytes = b""
    later: int = 0
    """How much later the object has each slot than `places`."""
    keeps_context: bool = False
    """Whether it is refused where it loads its context from the stack."""

    def __post_init__(self) -> None:
        if self.verdict and self.verdict.turns is not None:
            self.later = 1

    @property
    def is_accepted(self) -> bool:
        return self.verdict is not None and self.verdict.is_accepted and not self.why

    def progress(self) -> tuple[int, int]:
        """How far it came."""
        return (0, 0) if self.why or self.verdict is None else self.verdict.progress()

    def place(self) -> Place | None:
        """Returns the line of C at which it is refused."""
        if self.verdict is None or self.verdict.refusal is None:
            return None
        return self.places.get(self.verdict.refusal[0])

    def told(self, path: str) -> list[str]:
        """Returns the lines for a reader. Its object is written to the path."""
        if self.why:
            return [f"section {self.hook}, function {self.name}: not accepted: {self.why}"]
        if self.verdict is None:
            return []
        if self.is_accepted:
            counted = self.verdict.turns
            tail = f", turns counted, at most {counted}" if counted is not None else ""
            first = f"{path}: {self.hook}, accepted bound {self.verdict.bound}{tail}"
            notes = [f"  hookcc: {self.way}"] if self.way else []
            return [first, *notes, *self.verdict.lines[1:]]
        return self.refused()

    def refused(self) -> list[str]:
        """Returns a refusal with the line of C below its slots, and what to write instead."""
        found, later = [], 0
        for line in self.verdict.lines if self.verdict else []:
            later = 1 if COUNTED in line else later
            found.append(line)
            slot = SLOT.match(line)
            at = int(next(filter(None, slot.groups()))) - later if slot else -1
            if at in self.places:
                found.append(f"  {self.name}, {self.places[at]}")
            if self.hint and line.startswith("refused slot "):
                found.append(f"  in C: {self.hint}")
        return found

    def as_json(self, path: str) -> dict[str, Any]:
        """Returns the same for programs."""
        told: dict[str, Any] = {"function": self.name, "hook": self.hook,
                                "accepted": self.is_accepted}
        if self.is_accepted and self.verdict:
            told.update(object=path, bound=self.verdict.bound, turns=self.verdict.turns,
                        way=self.way or None, notes=self.verdict.notes)
            return told
        told.update(why=self.why or None, said=self.verdict.lines if self.verdict else [],
                    hint=self.hint or None)
        if self.verdict and self.verdict.refusal:
            told["slot"], told["rule"] = self.verdict.refusal
        if place := self.place():
            told.update(file=place.path, line=place.line, text=place.text())
        return told


def with_lines(said: str, places: dict[str, Places]) -> str:
    """Returns an explanation of hooktool's with each line of C above its slots."""
    told, here, later, last = [], Places(), 0, None
    for line in said.splitlines():
        if named := re.match(r"section \S+, function (\w+)", line):
            here, later, last = places.get(named[1], {}), 0, None
        later = 1 if COUNTED in line else later
        slot = re.match(r"slot (\d+): ", line)
        place = here.get(int(slot[1]) - later) if slot else None
        if place and place != last:
            told.append(str(place))
            last = place
        told.append(line)
    return "".join(f"{it}\n" for it in told)


def as_text(outcomes: list[Outcome], paths: list[str]) -> str:
    return "".join(f"{line}\n" for it, path in zip(outcomes, paths) for line in it.told(path))


def as_json(outcomes: list[Outcome], paths: list[str]) -> str:
    return json.dumps([it.as_json(path) for it, path in zip(outcomes, paths)], indent=1) + "\n"


def as_tap(outcomes: list[Outcome], paths: list[str]) -> str:
    """Returns the Test Anything Protocol: a point for each function."""
    told = ["TAP version 13", f"1..{len(outcomes)}"]
    for at, (it, path) in enumerate(zip(outcomes, paths), 1):
        verdict = "ok" if it.is_accepted else "not ok"
        told.append(f"{verdict} {at} - {it.hook or '-'} {it.name or '-'}")
        told += [f"# {line}" for line in it.told(path)]
    return "".join(f"{it}\n" for it in told)


FORMS = {"text": as_text, "json": as_json, "tap": as_tap}


def object_path(folder: str, name: str) -> str:
    return os.path.join(folder, f"{name}.o")
