"""The programs at `routerd`'s hooks, as this box attached them."""
from __future__ import annotations

import os
import re
import stat
import time
from typing import NamedTuple

ANSWER = re.compile(r"attached (\w+) bound (\d+)")
LONGEST_KEPT = 2 << 20
"""Bytes of an object that are kept: one of the largest number of slots and statements has less."""


class Attached(NamedTuple):
    """A program at a hook: its file and its bound; who attached it at the console, nobody if the
    configuration has it; when, in seconds since 1970; and what the file had in it then."""

    object: str
    bound: int
    by: str = ""
    at: float = 0.0
    data: bytes = b""

    @property
    def origin(self) -> str:
        """Who attached it, in words."""
        return f"at the console by {self.by}" if self.by else "by the configuration"


def attached(answer: str, path: str, by: str = "") -> dict[str, Attached]:
    """The program by its hook, if `routerd` answers that it is attached."""
    read = ANSWER.fullmatch(answer)
    if read is None:
        return {}
    return {read[1]: Attached(path, int(read[2]), by, time.time(), data_of(path))}


def data_of(path: str) -> bytes:
    """What a regular file has in it; nothing if it can't be read, or is too long."""
    try:
        with open(os.open(path, os.O_RDONLY | os.O_NONBLOCK | os.O_CLOEXEC), "rb") as it:
            is_file = stat.S_ISREG(os.fstat(it.fileno()).st_mode)
            data = it.read(LONGEST_KEPT + 1) if is_file else b""
    except OSError:
        return b""
    return data if len(data) <= LONGEST_KEPT else b""


def has_changed(it: Attached) -> bool:
    """Whether the file has something else in it by now, or isn't there any more."""
    return bool(it.data) and data_of(it.object) != it.data
