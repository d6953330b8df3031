"""What changed in `routerd`'s table from one look to the next, for whoever watches a box."""
from __future__ import annotations

from collections.abc import Iterator, Mapping
from dataclasses import dataclass, field
from itertools import chain, islice
from typing import NamedTuple

from leafrunt_host.kernel import Json

MOST_SHOWN = 4
"""Routes of a change that are shown one by one."""
MOST_KEPT = 8
"""Changes that are kept."""


class RouteChange(NamedTuple):
    """A route's line without its prefix, before and after; None if there was or is none."""

    prefix: str
    before: str | None
    after: str | None


@dataclass(frozen=True)
class TableChange:
    """How many routes came, went, and are others now, and some of them."""

    added: int
    removed: int
    changed: int
    shown: tuple[RouteChange, ...]
    gone: Mapping[bytes, bytes] = field(default_factory=dict, compare=False, repr=False)
    come: Mapping[bytes, bytes] = field(default_factory=dict, compare=False, repr=False)
    """All lines that the table has no longer, and that it has now, by their prefixes."""


def table_change(gone: Mapping[bytes, bytes], come: Mapping[bytes, bytes]) -> TableChange:
    """By the lines that the table has no longer, and those that it has now, each by its prefix."""
    both = len(gone.keys() & come.keys())
    shown = tuple(islice(route_changes(gone, come), MOST_SHOWN))
    return TableChange(len(come) - both, len(gone) - both, both, shown, gone, come)


def route_changes(
    gone: Mapping[bytes, bytes], come: Mapping[bytes, bytes]
) -> Iterator[RouteChange]:
    for prefix in chain(come, (each for each in gone if each not in come)):
        before, after = (said_of(lines.get(prefix)) for lines in (gone, come))
        yield RouteChange(prefix.decode(), before, after)


def said_of(line: bytes | None) -> str | None:
    """What a line of `table` says after the prefix."""
    return None if line is None else line.partition(b" ")[2].decode()


def change_document(moment: float, change: TableChange) -> Json:
    """A change, as `leafrunt status --json` has it."""
    return {
        "at": moment,
        "added": change.added,
        "removed": change.removed,
        "changed": change.changed,
        "shown": [each._asdict() for each in change.shown],
    }
