"""Routers as processes of `simulation play -`, each in the place of one after the other."""
from __future__ import annotations

import os
import pathlib
import subprocess
from typing import NamedTuple

from packets import Instance, Key, instance_in

DOWN, INIT, EX_START, EXCHANGE, LOADING, FULL = range(6)
STATES = {"Init": INIT, "ExStart": EX_START, "Exchange": EXCHANGE, "Loading": LOADING, "Full": FULL}
SHOWN = "neighbors\nowed\ndatabase\n"


class Gone(Exception):
    """A router ended, or said what none says."""


class Shown(NamedTuple):
    """What went out at an event, and what a router shows after it."""

    outs: list[tuple[int, bytes]]
    neighbors: dict[int, tuple[str, int]]
    owed: dict[int, int]
    database: dict[Key, Instance]
    rows: list[list[str]] = []


class Router:
    """A process that plays one router after the other."""

    def __init__(self, program: pathlib.Path):
        self.process = subprocess.Popen([program, "play", "-"], stdin=subprocess.PIPE, stdout=subprocess.PIPE, bufsize=0)
        self.rest = b""
        # until the first `router` line
        self._write("interfaces 1\n")

    def close(self) -> None:
        self.process.stdin.close()
        self.process.wait()
        self.process.stdout.close()

    def _write(self, text: str) -> None:
        try:
            os.write(self.process.stdin.fileno(), text.encode())
        except OSError as error:
            raise Gone(f"a router takes no line: {error}") from error

    def _lines(self, ends: int) -> list[str]:
        """Reads up to this `end`."""
        got = self.rest
        while got.count(b"end\n") < ends:
            more = os.read(self.process.stdout.fileno(), 1 << 16)
            if not more:
                raise Gone(f"a router ended: {got.decode(errors='replace')}")
            got += more
        self.rest = b""
        return got.decode().split("\n")

    def begin(self, line: str) -> Shown:
        """A router of this line takes the place of the one that is there."""
        return self.ask(line)

    def ask(self, line: str, asked: str = SHOWN, ends: int = 2) -> Shown:
        """Plays a line, and reads what the router shows after it: what was asked, of this many lists that end with `end`."""
        self._write(f"{line}\n{asked}")
        shown = Shown([], {}, {}, {}, [])
        for words in (each.split(" ") for each in self._lines(ends)):
            take(shown, words)
        return shown


def take(shown: Shown, words: list[str]) -> None:
    """Takes a line of an answer."""
    if words[0] == "lsa":
        found = instance_in(words[1])
        shown.database[found.key] = found
    elif words[0] == "neighbor":
        shown.neighbors[int(words[1])] = words[2], STATES[words[3]]
    elif words[0] == "owed":
        shown.owed[int(words[1])] = int(words[2])
    elif len(words) == 4 and words[1] == "sends":
        shown.outs.append((int(words[2]), bytes.fromhex(words[3])))
    elif len(words) == 5 and words[3] == "via":
        shown.rows.append(words)
    elif words[0] not in ("end", ""):
        raise Gone(f"a router says {' '.join(words)}")
