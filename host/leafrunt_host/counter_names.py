"""Names of the programs' counters, which a configuration gives them in `[counters]`."""
from __future__ import annotations

import re

from leafrunt_host.tables import Table, shown

COUNTERS = 256
"""Programs have counters 0 to 255 (docs/reference/MACHINE.md)."""
NAME = re.compile(r"[a-zA-Z_][a-zA-Z0-9_]{0,63}", re.ASCII)
"""What a label of OpenMetrics may be called."""


def counter_names(table: Table) -> dict[str, int]:
    """The counters' numbers by their names. What isn't allowed is noted in the table."""
    found: dict[str, int] = {}
    for name in table.keys():
        if not NAME.fullmatch(name):
            allowed = "1 to 64 letters, digits and `_`, first no digit"
            table.note(shown(name), "this name", allowed)
            continue
        number = table.whole(name, 0, COUNTERS - 1)
        if table.is_wrong(name):
            continue
        other = next((each for each, its in found.items() if its == number), None)
        if other is not None:
            table.note(name, f"{number}, as {other} has", "each counter's number once")
        else:
            found[name] = number
    return found
