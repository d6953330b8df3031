"""Which line of C each slot of an object comes from: a file beside it, NAME.lines for NAME.o, that whoever
made the object wrote (docs/reference/FORMATS.md, "Lines of C"). It counts for that object alone."""
from __future__ import annotations

import os
from bisect import bisect_right
from hashlib import sha256

from leafrunt_host.programs import Attached, data_of

VERSION = "lines 1"
MOST_LINES = 20_000
LONGEST_TEXT = 200


def path_beside(path: str) -> str:
    return f"{path.removesuffix('.o')}.lines"


class Lines:
    """The lines of one object; none if there is no such file, or if it is another object's."""

    def __init__(self, program: Attached) -> None:
        self._slots: list[int] = []
        self._places: list[str] = []
        text = data_of(path_beside(program.object)).decode("utf-8", "replace")
        lines = text.split("\n")[:MOST_LINES]
        if lines[:2] == [VERSION, f"object {sha256(program.data).hexdigest()}"]:
            self._read(lines[2:])

    def _read(self, lines: list[str]) -> None:
        """(A slot's line holds for those after it too, up to the next one that has its own.)"""
        files: dict[str, str] = {}
        for line in lines:
            word, _, rest = line.partition(" ")
            if word == "file":
                number, _, path = rest.partition(" ")
                files[number] = os.path.basename(path)
            if word != "slot":
                continue
            slot, number, at, *text = [*rest.split(" ", 3), "", ""][:4]
            if slot.isascii() and slot.isdigit() and len(slot) < 6:
                said = f"{files[number]}:{at}: {' '.join(text)}" if number in files else ""
                self._slots.append(int(slot))
                self._places.append(said[:LONGEST_TEXT])

    def at(self, slot: int) -> str:
        """File, number and text of a slot's line; empty if it has none."""
        index = bisect_right(self._slots, slot)
        return self._places[index - 1] if index else ""
