"""A program's text in C, as far as its functions are to be found in it."""
from __future__ import annotations

import dataclasses
import re
from typing import Iterator

# what isn't code: comments, texts, characters, and lines of the preprocessor
NO_CODE = re.compile(
    r"//[^\n]*|/\*.*?(?:\*/|\Z)|\"(?:\\.|[^\"\\\n])*\"?|'(?:\\.|[^'\\\n])*'?"
    r"|(?m:^[ \t]*#(?:[^\n\\]|\\\n|\\.)*)", re.S)
SEC = re.compile(r"\bSEC(?:_\w+)?\s*\(")


def blank(text: str) -> str:
    """Returns as many lines of spaces."""
    return re.sub(r"[^\n]", " ", text)


def code_of(text: str) -> str:
    """Returns the text with spaces for all that isn't code. Each place stays as it is."""
    return NO_CODE.sub(lambda found: blank(found[0]), text)


@dataclasses.dataclass(frozen=True)
class Function:
    """Where a function's definition stands: its first and last character, and its head."""

    begin: int
    end: int
    head: str

    def has(self, name: str) -> bool:
        head = code_of(self.head)
        return re.search(rf"\b{re.escape(name)}\b", head) is not None


def functions_of(text: str) -> Iterator[Function]:
    """Yields each definition of a function."""
    code, depth, begin, opened = code_of(text), 0, 0, 0
    for at, each in enumerate(code):
        if each == "{":
            opened = at if depth == 0 else opened
            depth += 1
        elif each == "}" and depth:
            depth -= 1
            if depth == 0 and code[begin:opened].rstrip().endswith(")"):
                first = opened - len(code[begin:opened].lstrip())
                yield Function(first, at + 1, text[first:opened])
                begin = at + 1
        elif each == ";" and depth == 0:
            begin = at + 1


def without(text: str, function: Function) -> str:
    """Returns the text without a function. Each other line stays where it is."""
    return text[:function.begin] + blank(text[function.begin:function.end]) + text[function.end:]


def line_at(text: str, place: int) -> int:
    """Returns the number of a place's line, from 1 on."""
    return text.count("\n", 0, place) + 1


def at_line(text: str, number: int) -> Function | None:
    """Returns the function that a line belongs to."""
    for each in functions_of(text):
        if line_at(text, each.begin) <= number <= line_at(text, each.end - 1):
            return each
    return None


def named(text: str, name: str) -> Function | None:
    """Returns the function of a name."""
    return next((each for each in functions_of(text) if each.has(name)), None)


def hook_in(head: str) -> str:
    """Returns the hook that a function's head names."""
    found = re.search(r"\bSEC_(\w+)\s*\(|\bsection\s*\(\s*\"(\w+)\"|\bSEC\s*\(\s*\"(\w+)\"", head)
    return next(filter(None, found.groups()), "").lower() if found else ""
