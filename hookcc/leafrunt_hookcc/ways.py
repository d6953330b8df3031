"""Other ways to compile a program, for functions that are refused as they are."""
from __future__ import annotations

import dataclasses
from typing import Iterator

from . import source
from .clang import Compilation, Way
from .hints import PARAMETER, TYPED, parameter_of

HELPERS = ("counter_add", "counter_read", "packet_byte", "table_cost")
WITHHELD = "r9"
LEVELS = (("2", "v3"), ("2", "v2"), ("1", "v3"), ("s", "v3"), ("z", "v3"))


@dataclasses.dataclass
class Try:
    """A compilation: what is compiled how, and what is told of it."""

    compilation: Compilation
    way: Way
    told: str


def withholding(way: Way) -> Way:
    """Returns a way that keeps no number in a register over a call, so that turns can be counted
    in it."""
    macros = tuple(f'-D{it}(...)=({{ u64 hookcc_is = ({it})(__VA_ARGS__); '
                   f'__asm__ volatile("" ::: "{WITHHELD}"); hookcc_is; }})' for it in HELPERS)
    return dataclasses.replace(way, words=(*way.words, *macros))


def with_copies(text: str) -> str:
    """Returns the text, each program of which copies its context first."""
    for each in reversed(list(source.functions_of(text))):
        hook = source.hook_in(each.head)
        if not hook or not (PARAMETER.search(each.head) or TYPED.search(each.head)):
            continue
        struct, name = parameter_of(each, hook)
        opened = each.begin + len(each.head) + 1
        copy = f" struct {struct} hookcc_copy = *{name}; {name} = &hookcc_copy;"
        text = text[:opened] + copy + text[opened:]
    return text


def others(compilation: Compilation, way: Way) -> Iterator[Try]:
    """Yields further ways to compile a file, the likeliest first."""
    copied = Compilation(compilation.program, with_copies(compilation.text), compilation.room)
    yield Try(copied, way, "its context is copied first")
    yield Try(compilation, withholding(way), f"{WITHHELD} is left free")
    yield Try(copied, withholding(way), f"its context is copied first, {WITHHELD} is left free")
    if "-fno-unroll-loops" not in way.words:
        flat = dataclasses.replace(way, words=(*way.words, "-fno-unroll-loops"))
        yield Try(compilation, flat, "compiled with -fno-unroll-loops")
    for level, cpu in LEVELS:
        if (level, cpu) != (way.level, way.cpu):
            other = dataclasses.replace(way, level=level, cpu=cpu)
            yield Try(compilation, other, f"compiled with -O{level} --cpu {cpu}")
            yield Try(copied, withholding(other), f"compiled with -O{level} --cpu {cpu}, its "
                      f"context is copied first, {WITHHELD} is left free")
