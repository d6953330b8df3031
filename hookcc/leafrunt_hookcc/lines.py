"""Which line of C each slot comes from, by clang's assembly text, and the file that says so."""
from __future__ import annotations

import dataclasses
import hashlib
import os
import re

from .assembly import BYTES, Line, sections

FILE = re.compile(r'\s+\.file\s+(\d+) "((?:\\.|[^"\\])*)"(?: "((?:\\.|[^"\\])*)")?')
LOC = re.compile(r"\s+\.loc\s+(\d+) (\d+)")
FUNCTION = re.compile(r"\s+\.type\s+(\w+),@function")


@dataclasses.dataclass(frozen=True)
class Place:
    """A line of a file of C."""

    path: str
    line: int

    def text(self) -> str:
        """Returns the line itself, without the spaces around it. Nothing if it can't be read."""
        try:
            with open(self.path, errors="replace") as it:
                return next((text.strip() for at, text in enumerate(it, 1) if at == self.line), "")
        except OSError:
            return ""

    def __str__(self) -> str:
        return f"{os.path.relpath(self.path)}:{self.line}: {self.text()}".rstrip(": ")


Places = dict[int, Place]


def size_of(line: Line) -> int:
    """Returns how many slots a line makes."""
    if BYTES.match(line.text):
        return (line.text.split("#")[0].count(",") + 1) // 8
    return line.slots()


def places_of(text: str) -> dict[str, Places]:
    """Returns the line of C of each slot, by functions."""
    found: dict[str, Places] = {}
    lines = [Line(it) for it in text.split("\n")]
    functions = {it[1] for line in lines if (it := FUNCTION.match(line.text))}
    files: dict[str, str] = {}
    name, slot, now = "", 0, None
    for at, _ in sections(lines):
        line = lines[at]
        if line.label in functions:
            name, slot, now = line.label or "", 0, None
            found[name] = {}
        elif (line.label or "").startswith(".Lfunc_end"):
            name = ""
        elif said := FILE.match(line.text):
            files[said[1]] = os.path.join(said[2], said[3]) if said[3] else said[2]
        elif said := LOC.match(line.text):
            now = Place(files.get(said[1], "?"), int(said[2])) if said[2] != "0" else now
        elif name:
            for each in range(slot, slot + size_of(line)):
                found[name].update({each: now} if now else {})
            slot += size_of(line)
    return found


def written(places: Places, later: int, slots: int, made: bytes) -> str:
    """Returns the text of the file beside an object (docs/reference/FORMATS.md, "Lines of C")."""
    paths = sorted({it.path for it in places.values()})
    told = ["lines 1", f"object {hashlib.sha256(made).hexdigest()}"]
    told += [f"file {at} {os.path.abspath(it)}" for at, it in enumerate(paths, 1)]
    last: Place | None = None
    for slot in range(slots):
        now = places.get(slot - later)
        if now == last:
            continue
        last = now
        told.append(f"slot {slot} {paths.index(now.path) + 1} {now.line} {now.text()}".rstrip()
                    if now else f"slot {slot} 0 0")
    return "".join(f"{it}\n" for it in told)
