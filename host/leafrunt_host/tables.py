"""Reading the tables of a TOML file key by key, so that each mistake is told with its key, what was
found and what is allowed."""
from __future__ import annotations

import json
import re
from collections.abc import Callable, Iterable
from dataclasses import dataclass
from datetime import datetime
from typing import Any, TypeGuard, TypeVar

T = TypeVar("T")
LONGEST_SHOWN = 60
LARGEST_SHOWN = 10**20
PLACE = re.compile(r"^(.*) \(at (line \d+, column \d+|end of document)\)$")
TOML = "TOML 1.0, as toml.io describes it"
HINTS = {
    "Invalid value": "texts stand in double quotes, addresses too; true, false and numbers don't",
    "Expected newline": "texts stand in double quotes, addresses too",
    "Expected ']]'": "two brackets at both ends, as [[interface]]",
    "Expected '='": "a key, = and its value on one line",
    "Illegal character": "a double quote at both ends of a text, on one line",
    "Cannot overwrite": "each key once",
}
"""What to write instead, by how `tomllib` begins."""


@dataclass(frozen=True)
class Mistake:
    """What is wrong with a file: where in it, what was found there, and what is allowed."""

    file: str
    where: str
    found: str
    allowed: str

    def __str__(self) -> str:
        return f"{self.file}: {self.where}: found {self.found}; allowed: {self.allowed}"


def is_whole(value: object) -> TypeGuard[int]:
    """Whether it is a whole number: to Python true and false are some too."""
    return type(value) is int


def shown(value: object) -> str:
    """A value as a line of a terminal can show it: nothing of it acts on the terminal, and it isn't
    long."""
    if isinstance(value, str):
        text = json.dumps(value)
        return (
            text
            if len(text) <= LONGEST_SHOWN
            else f'{text[:LONGEST_SHOWN]}.." ({len(value)} characters)'
        )
    if isinstance(value, bool):
        return "true" if value else "false"
    if isinstance(value, int):
        return str(value) if abs(value) < LARGEST_SHOWN else "a number of more than 20 digits"
    if isinstance(value, dict):
        return "a table"
    if isinstance(value, list):
        return f"a list of {len(value)}"
    return str(value)


def mistake_of_toml(file: str, error: Exception) -> Mistake:
    """What is told of a text that is no TOML. What stands there isn't shown: it may be a secret."""
    if isinstance(error, RecursionError):
        return Mistake(
            file,
            "the file",
            "lists or tables too deep within each other",
            "at most some hundred levels",
        )
    import tomllib  # (a client reads no file)

    if not isinstance(error, tomllib.TOMLDecodeError):
        return Mistake(
            file, "the file", "a value that is too long", "numbers of at most 4300 digits"
        )
    place = PLACE.match(str(error))
    where, what = (place[2], place[1]) if place else ("the file", str(error))
    hint = next((f"{meant}; " for start, meant in HINTS.items() if what.startswith(start)), "")
    return Mistake(file, where, f"no TOML ({what})", f"{hint}{TOML}")


def toml_of(file: str, data: bytes, mistakes: list[Mistake]) -> dict[str, object]:
    """The tables of a file; a mistake, and no tables, if it is no TOML."""
    import tomllib

    try:
        return tomllib.loads(data.decode("utf-8"))
    except UnicodeDecodeError as error:
        line = data[: error.start].count(b"\n") + 1
        mistakes.append(
            Mistake(file, f"line {line}", f"the byte {data[error.start]:#04x}", "text in UTF-8")
        )
    except (ValueError, RecursionError) as error:
        mistakes.append(mistake_of_toml(file, error))
    return {}


class Table:
    """One table of a file.

    Each read of a key gives its value. If it is a mistake, that is noted, and reading goes on with
    the default, or with None if the kind of value has none. `end` notes the keys that nobody asked
    for.
    """

    def __init__(
        self, file: str, where: str, items: dict[str, object], mistakes: list[Mistake]
    ) -> None:
        self._file, self._where, self._items, self._mistakes = file, where, items, mistakes
        self._asked: list[str] = []
        self._wrong: set[str] = set()

    @property
    def is_sound(self) -> bool:
        """Whether no mistake has been noted in this table."""
        return not self._wrong

    @property
    def where(self) -> str:
        """Where in the file it stands."""
        return self._where

    def spoil(self, key: str) -> None:
        """A mistake was noted in what stands at this key."""
        self._wrong.add(key)

    def is_wrong(self, key: str) -> bool:
        """Whether a mistake has been noted at this key."""
        return key in self._wrong

    def note(self, key: str, found: str, allowed: str) -> None:
        """Notes a mistake at a key."""
        where = ", ".join(each for each in (self._where, key) if each)
        self._mistakes.append(Mistake(self._file, where, found, allowed))
        self._wrong.add(key)

    def has(self, key: str) -> bool:
        self._ask(key)
        return key in self._items

    def _ask(self, key: str) -> None:
        """Notes that this table may have the key."""
        if key not in self._asked:
            self._asked.append(key)

    def _value(
        self, key: str, allowed: str, default: object, is_right: Callable[[Any], bool]
    ) -> object:
        self._ask(key)
        if key not in self._items:
            if default is None:
                self.note(key, "nothing", allowed)
            return default
        value = self._items[key]
        if not is_right(value):
            self.note(key, shown(value), allowed)
            return None
        return value

    def whole(self, key: str, least: int, most: int, default: int | None = None) -> int:
        """A whole number in a range."""
        allowed = f"a whole number from {least} to {most}"
        value = self._value(
            key, allowed, default, lambda each: is_whole(each) and least <= each <= most
        )
        return value if is_whole(value) else least if default is None else default

    def truth(self, key: str, default: bool) -> bool:
        value = self._value(key, "true or false", default, lambda each: isinstance(each, bool))
        return value if isinstance(value, bool) else default

    def text(self, key: str, allowed: str, default: str | None = None) -> str | None:
        """A text that isn't empty."""
        value = self._value(
            key, allowed, default, lambda each: isinstance(each, str) and each != ""
        )
        return value if isinstance(value, str) else None

    def one_of(self, key: str, words: Iterable[str], default: str | None = None) -> str | None:
        words = list(words)
        value = self._value(
            key, f"one of {', '.join(map(shown, words))}", default, lambda each: each in words
        )
        return value if isinstance(value, str) else None

    def secret(self, key: str, most: int, allowed: str) -> bytes | None:
        """A text of 1 to `most` bytes that isn't shown."""
        self._ask(key)
        value = self._items.get(key)
        data = value.encode() if isinstance(value, str) else b""
        if 1 <= len(data) <= most:
            return data
        found = (
            "nothing"
            if key not in self._items
            else f"{len(data)} bytes"
            if isinstance(value, str)
            else "no text"
        )
        self.note(key, found, allowed)
        return None

    def parsed(
        self, key: str, allowed: str, parse: Callable[[str], T], default: str | None = None
    ) -> T | None:
        """A text that `parse` takes; one that it answers with a ValueError is a mistake."""
        text = self.text(key, allowed, default)
        if text is None:
            return None
        try:
            return parse(text)
        except ValueError:
            self.note(key, shown(text), allowed)
            return None

    def moment(self, key: str) -> float | None:
        """A moment in seconds since 1970; None if the key isn't there."""
        self._ask(key)
        value = self._items.get(key)
        if value is None:
            return None
        if not isinstance(value, datetime) or value.tzinfo is None:
            self.note(
                key, shown(value), "a date and time with its offset, such as 2027-01-01T00:00:00Z"
            )
            return None
        return value.timestamp()

    def texts(self, key: str, allowed: str) -> list[str] | None:
        """A list of different texts, empty if the key isn't there."""
        value = self._value(key, allowed, [], lambda each: isinstance(each, list))
        texts: list[str] = []
        for each in value if isinstance(value, list) else []:
            if not isinstance(each, str) or each in texts:
                again = " twice" if isinstance(each, str) else ""
                self.note(key, f"{shown(each)}{again}", allowed)
                return None
            texts.append(each)
        return None if value is None else texts

    def switch(self, key: str, title: str) -> Table | None:
        """A table, or `true` for one in which nothing is said; None for `false`, and if the key
        isn't there. `title` says where it stands."""
        allowed = f"true, false or a table [{key}]"
        value = self._value(key, allowed, False, lambda each: isinstance(each, bool | dict))
        if isinstance(value, dict):
            return Table(self._file, title, value, self._mistakes)
        return Table(self._file, title, {}, self._mistakes) if value is True else None

    def tables(self, key: str, title: Callable[[int, dict[str, Any]], str]) -> list[Table] | None:
        """The tables of a list, `[[key]]` in the file, empty if there is none; `title` says where
        one of them stands."""
        allowed = f"tables, each begun with [[{key}]]"
        value = self._value(key, allowed, [], lambda each: isinstance(each, list))
        if not isinstance(value, list):
            return None
        for each in value:
            if not isinstance(each, dict):
                self.note(key, shown(each), allowed)
                return None
        return [
            Table(self._file, title(at, each), each, self._mistakes)
            for at, each in enumerate(value, 1)
        ]

    def table(self, key: str) -> Table:
        """The table of this name, `[key]` in the file, empty if there is none; of one in a
        table `[table.key]`."""
        where = ".".join(filter(None, (self._where, key)))
        value = self._value(
            key, f"a table, begun with [{where}]", {}, lambda each: isinstance(each, dict)
        )
        return Table(self._file, where, value if isinstance(value, dict) else {}, self._mistakes)

    def has_table(self, key: str) -> bool:
        """Whether the value of a key is a table."""
        return isinstance(self._items.get(key), dict)

    def keys(self) -> list[str]:
        """All keys of the table, in their order."""
        return list(self._items)

    def end(self) -> None:
        """Notes the keys that were never asked for."""
        import difflib

        for key in self._items:
            if key not in self._asked:
                close = difflib.get_close_matches(key, self._asked, 1, 0.7)
                meant = f" ({close[0]}, maybe)" if close else ""
                self.note(
                    key if key.isidentifier() else shown(key),
                    "an unknown key",
                    f"{', '.join(self._asked)}{meant}",
                )
