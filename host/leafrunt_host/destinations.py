"""An external destination that a router announces, and who may ask for it."""
from __future__ import annotations

from dataclasses import dataclass
from enum import IntEnum
from ipaddress import IPv4Network

MOST_EXTERNALS = 4096
LARGEST_METRIC = 16_777_214


@dataclass(frozen=True)
class Announcement:
    """A destination that the router announces as an external one (RFC 2328, 12.4.4)."""

    prefix: IPv4Network
    metric: int
    type: int
    tag: int

    def line(self) -> str:
        """The line of `routerd`'s console that announces it."""
        return f"add {self.prefix} {self.metric} {self.type} {self.tag}"


class Owner(IntEnum):
    """Who asks for an announcement. Of those of one address the first owner's is announced, and of
    one owner's the one with the shortest prefix."""

    CONSOLE = 0
    CONFIGURATION = 1
    DEFAULT = 2
    CONNECTED = 3
    STATIC = 4
    KERNEL = 5

    @property
    def is_redistributed(self) -> bool:
        return self >= Owner.DEFAULT

    def __str__(self) -> str:
        return self.name.lower()
