"""What the constant tables and texts of a program in C hold, each at an address of its own."""
from __future__ import annotations

import re

from .assembly import Line, sections

FIRST = 1 << 16
NUMBERS = {".byte": 1, ".short": 2, ".long": 4, ".quad": 8}
ESCAPES = {"n": 10, "t": 9, "r": 13, "b": 8, "f": 12}


class Cannot(Exception):
    """A function's tables can't be written as tests."""


def bytes_of(text: str) -> bytes:
    """Returns the bytes of a quoted string."""
    found = bytearray()
    for octal, escape, plain in re.findall(r"\\([0-7]{1,3})|\\(.)|([^\\])", text):
        found.append(int(octal, 8) if octal else ESCAPES.get(escape, ord(escape or plain)))
    return bytes(found)


class Data:
    """What the read-only sections hold."""

    def __init__(self, lines: list[Line]) -> None:
        self.held = bytearray()
        self.names: dict[str, int] = {}
        self.sizes: dict[str, int] = {}
        self.pointers: dict[int, str] = {}
        self.last = ""
        for at, section in sections(lines):
            if section.startswith(".rodata"):
                self.read(lines[at])

    def read(self, line: Line) -> None:
        """Takes a line of a read-only section."""
        if line.label:
            self.held += bytes(-len(self.held) % 8 + 8)
            self.last = line.label
            self.names[line.label] = FIRST + len(self.held)
            return
        words = line.text.split("#")[0] if '"' not in line.text else line.text
        said = re.match(r"\s+(\.\w+)\s+(.*?)\s*$", words)
        if said:
            self.take(*said.groups())

    def take(self, how: str, value: str) -> None:
        """Takes what a directive puts behind the last name."""
        text = re.match(r'"(.*)"', value)
        if how in NUMBERS:
            self.number(NUMBERS[how], value)
        elif how == ".zero":
            self.held += bytes(int(value))
        elif how in (".ascii", ".asciz") and text:
            self.held += bytes_of(text[1]) + bytes(how == ".asciz")
        if self.last:
            # (a constant of clang's own has no .size)
            self.sizes[self.last] = FIRST + len(self.held) - self.names[self.last]

    def number(self, width: int, value: str) -> None:
        """Takes a number, or the address of another name."""
        if re.fullmatch(r"-?(0x[0-9a-f]+|\d+)", value):
            self.held += (int(value, 0) % (1 << 8 * width)).to_bytes(width, "little")
            return
        self.pointers[FIRST + len(self.held)] = value
        self.held += bytes(width)

    def targets(self, names: frozenset[str]) -> tuple[frozenset[str], bool]:
        """Returns the names whose addresses these tables hold, and whether there is anything
        else."""
        places = [at for name in names
                  for at in range(self.names[name], self.names[name] + self.sizes[name], 8)]
        found = {self.pointers[at].split("+")[0] for at in places if at in self.pointers}
        return frozenset(found), any(at not in self.pointers for at in places)

    def value(self, at: int, width: int) -> int:
        """Returns the number in this many bytes at an address."""
        if at in self.pointers and width == 8:
            name, _, more = self.pointers[at].partition("+")
            if name not in self.names:
                raise Cannot(f"{name} is in no table")
            return self.names[name] + int(more or 0)
        if any(at - 7 <= it < at + width for it in self.pointers):
            raise Cannot("a part of an address is loaded")
        return int.from_bytes(self.held[at - FIRST:at - FIRST + width], "little")
