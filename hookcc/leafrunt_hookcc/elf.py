"""The code of each function in clang's ELF file (System V ABI, chapter 4), of 64 bits and its low
byte first."""
from __future__ import annotations

import dataclasses
import struct

from .clang import Fault

HEADER = struct.Struct("<16sHHIQQQIHHHHHH")
SECTION = struct.Struct("<IIQQQQIIQQ")
SYMBOL = struct.Struct("<IBBHQQ")
RELOCATION = struct.Struct("<QQ")
SYMBOLS, RELOCATIONS = 2, (4, 9)
FUNCTION, EMPTY = 2, 8


@dataclasses.dataclass(frozen=True)
class Section:
    name: str
    kind: int
    data: bytes
    link: int
    info: int
    entry: int


@dataclasses.dataclass(frozen=True)
class Function:
    """A function's section, name and code, and the slots in which a linker would put something."""

    section: str
    name: str
    code: bytes
    relocated: frozenset[int]


def text_at(data: bytes, at: int) -> str:
    return data[at:data.index(b"\0", at)].decode(errors="replace")


def held_by(data: bytes, row: tuple[int, ...]) -> bytes:
    """Returns what a section has in the file."""
    return b"" if row[1] == EMPTY else data[row[4]:row[4] + row[5]]


def sections_of(data: bytes) -> list[Section]:
    header = HEADER.unpack_from(data)
    rows = [SECTION.unpack_from(data, header[6] + at * header[11]) for at in range(header[12])]
    names = data[rows[header[13]][4]:][:rows[header[13]][5]]
    return [Section(text_at(names, row[0]), row[1], held_by(data, row), row[6], row[7], row[9])
            for row in rows]


def relocated(sections: list[Section], number: int) -> set[int]:
    """Returns the bytes of a section in which a linker would put something."""
    found = set()
    for each in sections:
        if each.kind in RELOCATIONS and each.info == number:
            for at in range(0, len(each.data) // each.entry * each.entry, each.entry):
                found.add(RELOCATION.unpack_from(each.data, at)[0])
    return found


def functions_of(data: bytes) -> list[Function]:
    """Returns the functions. A fault if it is no such file."""
    try:
        sections = sections_of(data)
        found = []
        for table in (it for it in sections if it.kind == SYMBOLS):
            names = sections[table.link].data
            for at in range(0, len(table.data), SYMBOL.size):
                name, info, _, section, value, size = SYMBOL.unpack_from(table.data, at)
                if info & 15 != FUNCTION or not 0 < section < len(sections) or not size:
                    continue
                places = relocated(sections, section)
                slots = frozenset((it - value) // 8 for it in places if value <= it < value + size)
                code = sections[section].data[value:value + size]
                found.append(Function(sections[section].name, text_at(names, name), code, slots))
        return found
    except (struct.error, ValueError, IndexError) as error:
        raise Fault(f"clang's file is no ELF file of BPF: {error}", 3) from error
