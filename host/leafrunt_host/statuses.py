"""How a command ends: its status, which is as `routerd`'s, and what it says if that isn't 0."""
from __future__ import annotations

from enum import IntEnum


class Status(IntEnum):
    """The statuses of `routerd`, which the commands of `leafrunt` have too."""

    DONE = 0
    REFUSED = 1
    USAGE = 2
    FAILED = 3
    """A file, a socket, a program or a stream failed."""
    MEMORY = 4

REFUSED, FAILED = "refused: ", "failed: "
"""What each line of a box's answer begins with if it can't do what it is asked: as it may not be
done, or as something else failed."""


class Stopped(Exception):
    """A command can't go on: what is told, as whole sentences or lines, and the status."""

    def __init__(self, text: str, status: Status = Status.FAILED) -> None:
        super().__init__(text)
        self.status = status
