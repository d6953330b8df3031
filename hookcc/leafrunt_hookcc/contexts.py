"""Whether each program takes the context of its hook, by clang's own types."""
from __future__ import annotations

import re

from .clang import Compilation, Way, ran
from .hints import CONTEXTS

WRONG = re.compile(r"incompatible pointer types passing '(?:const )?struct (\w+) \*' to parameter "
                   r"of type '(?:const )?struct (\w+) \*'")


def question(name: str, hook: str) -> str:
    """Returns a declaration that calls the program with its hook's context."""
    return (f"static inline __attribute__((unused)) void hookcc_{name}("
            f"const struct {CONTEXTS[hook]} *it) {{ (void){name}(it); }}\n")


def wrong(compilation: Compilation, way: Way, programs: dict[str, str]) -> dict[str, str]:
    """Returns what is wrong with programs that take another hook's context, by their names."""
    asked = {name: hook for name, hook in programs.items() if hook in CONTEXTS}
    told: dict[str, str] = {}
    if not asked:
        return told
    names = list(asked)
    text = compilation.source_text(compilation.text)
    text += "".join(f'\n#line {at} "hookcc"\n{question(name, asked[name])}'
                    for at, name in enumerate(names, 1))
    words = compilation.words(way, "-fsyntax-only", "-ferror-limit=0", "-Wno-everything",
                              "-Werror=incompatible-pointer-types", "-")
    said = ran(words, text).stderr
    for line in said.splitlines():
        place = re.match(r"hookcc:(\d+):", line)
        found = WRONG.search(line)
        if place and found and int(place[1]) <= len(names):
            name = names[int(place[1]) - 1]
            told[name] = (f"its context is struct {found[1]}, and it takes struct {found[2]}: "
                          f"write const struct {found[1]} *, or "
                          f"SEC_{asked[name].upper()}({name}, ..)")
    return told
