"""What answers of `routerd` mean, and what to do: beside its numbers, and docs/use/CHEATSHEET.md."""
from __future__ import annotations

import re
from functools import cache
from ipaddress import IPv4Network

OUT_OF_MEMORY = (
    "routerd is out of memory: give the machine more, or the box's control group (MemoryMax=), "
    "its address space (`ulimit -v`)"
)
NO_PLACE = "there would be more than 4,096 own destinations"
CLASHES = "refused 3"
MEANINGS = {
    "unknown": "no line of the console, or not in its form: `help` lists them",
    CLASHES: "another destination has its address with another prefix length: withdraw that",
    "refused 4": "the machine's clock was set back: start the box again",
    "refused 5": f"{NO_PLACE}, or 16,384 LSAs: withdraw others",
    "refused 6": OUT_OF_MEMORY,
    "out of memory": OUT_OF_MEMORY,
    "refused 7": "it has handled 2^63 events: start the box again",
    "refused 8": "the programs were being changed at that moment: ask again",
    "hook refusal 3": "no access to the programs could be made: start the box again",
    "cannot read PATH": "no such file, no regular one, above 16 MiB, or one that this user may not read",
    "object refusal 1": "it is shorter than its header says: build it again",
    "object refusal 2": "it doesn't begin as an object does: give the .o of hookcc, not of clang",
    "object refusal 3": "another version: build it with this hooktool",
    "object refusal 4": "no hook: count, tag, price or veto",
    "object refusal 5": "its statements aren't in order: build it again",
    "object refusal 6": "a field that no object has, as one of big-endian code",
    "object refusal 7": "it is longer than its header says: build it again",
    "code refusal 1 slot S": "no whole slots of 8 bytes",
    "code refusal 2 slot S": "an opcode that isn't known, as of an atomic operation",
    "code refusal 3 slot S": "a register above 10",
    "code refusal 4 slot S": "a field that the instruction doesn't use: a call of a function, or big-endian code",
    "code refusal 5 slot S": "it ends inside an instruction",
    "code refusal 6 slot S": "more than 4096 slots",
    "refused slot S rule 1": "a jump or a statement to where no instruction begins",
    "refused slot S rule 2": "a run could leave the code at its end",
    "refused slot S rule 3": "nothing comes here, and no statement stands here",
    "refused slot S rule 4": "a jump to a slot without a statement",
    "refused slot S rule 5": "a register or stack byte is read that may be empty: write it first",
    "refused slot S rule 6": "a pointer used as a number, or a number as a pointer",
    "refused slot S rule 7": "a load or store may lie outside of its region: `i & 63` for a cell, `& 255` for a counter",
    "refused slot S rule 8": "cells and counters are read and written as whole words of 8 bytes",
    "refused slot S rule 9": "no helper of this number at this hook",
    "refused slot S rule 10": "a counter above 255, or an amount of 2^24 or more: `k & 255`, `n & 0xffffff`",
    "refused slot S rule 11": "what is known there isn't within the statement",
    "refused slot S rule 12": "a loop without a number that falls: bound its turns, as `i < n && i < 64`",
    "refused slot S rule 13": "more than 1,000,000 instructions: fewer turns",
    "refused slot S rule 14": "the answer may be a pointer",
    "refused slot S rule 15": "r10 is written",
}
"""By the answer, in which PATH and S stand for any."""


@cache
def forms() -> list[tuple[re.Pattern[str], str]]:
    any_of = {"PATH": ".+", "S": r"\d+"}
    return [
        (re.compile(re.sub(r"\b(PATH|S)\b", lambda it: any_of[it[1]], re.escape(form))), meaning)
        for form, meaning in MEANINGS.items()
    ]


def meaning_of(answer: str) -> str:
    """What an answer means and what to do; nothing if it says that itself."""
    return next((meaning for form, meaning in forms() if form.fullmatch(answer)), "")


def hint(line: str, answer: str) -> str:
    """What the answer to a line means."""
    word, _, rest = line.partition(" ")
    if answer == "unknown" and word in ("add", "withdraw") and (wrong := wrong_prefix(rest)):
        return wrong
    said = meaning_of(answer)
    return f"{said}; `hooktool explain` shows it" if said and answer.startswith("refused slot ") else said


def wrong_prefix(rest: str) -> str:
    """Why the first word after `add` is no prefix, or nothing."""
    text = rest.split(" ", 1)[0]
    try:
        meant = IPv4Network(text, strict=False)
    except ValueError:
        return f"{text!r} is no prefix, A.B.C.D/L"
    if "/" not in text:
        return f"a prefix has a length: {text}/32"
    return "" if str(meant) == text else f"the bits of {text} behind its length aren't 0: {meant}"
