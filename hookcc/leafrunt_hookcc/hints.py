"""What to write in C instead of what the verifier refuses, by the rule."""
from __future__ import annotations

import re

from . import source

CONTEXTS = {"count": "datagram", "tag": "destination", "price": "destination", "veto": "route"}
PARAMETER = re.compile(r"\bstruct\s+(\w+)\s*\*\s*(?:const\s+)?(\w+)\s*\)")
TYPED = re.compile(r"\bSEC_\w+\s*\(\s*\w+\s*,\s*(\w+)\s*\)")
HINTS = {
    5: "write it first (= { 0 }); a value that clang keeps on the stack over a call may also be "
       "loaded again behind the call",
    6: "an array on the stack has to be indexed by constants (#pragma clang loop unroll(full)); "
       "use cells for others",
    7: "write KEEP(i) & 63 for a cell, & 255 for a counter: clang takes a mask away that it finds "
       "needless",
    8: "a cell or counter is a word of 8 bytes: read it as u64",
    10: "write KEEP(k) & 255 for a counter, KEEP(n) & 0xffffff for an amount",
    12: "give the loop an end that the code names, as i < n && i < 64, or write DOWN(i, n) or "
        "EACH(i, n) of leafrunt.h with an n that has one, as n & 63",
}


def parameter_of(function: source.Function | None, hook: str) -> tuple[str, str]:
    """Returns the struct and the name of a program's parameter."""
    head = function.head if function else ""
    if found := PARAMETER.search(head):
        return found[1], found[2]
    typed = TYPED.search(head)
    return CONTEXTS.get(hook, "route"), typed[1] if typed else "r"


def copy_line(function: source.Function | None, hook: str) -> str:
    """Returns the line that copies a program's context."""
    struct, name = parameter_of(function, hook)
    return f"struct {struct} c = *{name};"


def hint_for(rule: int, keeps_context: bool, function: source.Function | None, hook: str) -> str:
    """Returns what to write instead, or nothing."""
    if rule == 5 and keeps_context:
        _, name = parameter_of(function, hook)
        return (f"clang keeps {name}, the context, on the stack over a call, where it is lost at "
                f"the next jump: write {copy_line(function, hook)} first, and c. for {name}-> "
                "after it")
    return HINTS.get(rule, "")
