"""clang's assembly text for BPF, as far as the passes beside this file look at it."""
from __future__ import annotations

import re
from typing import Iterator

CODE = re.compile(r"\s+([^.#\s@][^#]*?)\s*(?:#.*)?$")
BYTES = re.compile(r"\s+\.byte\s")
MAP = re.compile(r"\s+\.byte\s+0x18, map_into_r(\d),")
LABEL = re.compile(r"([\w.$]+):")
SECTION = re.compile(r"\s+\.(?:section\s+(?P<named>[\w.]+)|(?P<plain>text|data|bss)\b)")
WIDE = r"(?P<target>r\d+) = (?P<symbol>[A-Za-z_.$][\w.$]*)(?P<more>[+-]\d+)? ll$"
LOAD = (r"(?P<target>[rw]\d+) = \*\((?P<sign>[us])(?P<bits>\d+) \*\)"
        r"\((?P<base>r\d+) (?P<offset>[+-] \d+)\)$")
STORE = (r"\*\(u(?P<bits>\d+) \*\)\((?P<base>r\d+) (?P<offset>[+-] \d+)\)"
         r" = (?P<value>\S+)$")
# what an instruction does, with r1 or w1 as its target
FORMS = {
    "wide": re.compile(WIDE),
    "load": re.compile(LOAD),
    "store": re.compile(STORE),
    "jump": re.compile(r"gotol? (?P<to>\S+)$"),
    "branch": re.compile(r"if .* goto (?P<to>\S+)$"),
    "call": re.compile(r"call "),
    "exit": re.compile(r"exit$"),
    "set": re.compile(r"(?P<target>[rw]\d+) (?P<how>\S*=) (?P<value>.+)$"),
}


class Line:
    """A line of the text: an instruction with its form and parts, a label, or anything else."""

    def __init__(self, text: str) -> None:
        self.text, self.form = text, ""
        self.parts: dict[str, str] = {}
        self.label: str | None = None
        if found := LABEL.match(text):
            self.label = found[1]
        elif found := MAP.match(text):
            self.form, self.parts = "map", {"target": f"r{found[1]}"}
        elif found := CODE.match(text):
            self.read(found[1])

    def read(self, code: str) -> None:
        """Finds the form and the parts of an instruction."""
        # clang writes r0 = w2, and reads that as w0 = w2 alone.
        if short := re.fullmatch(r"r(\d+) = (w\d+)", code):
            code = f"w{short[1]} = {short[2]}"
            self.text = f"\t{code}"
        self.form = "other"
        for form, shape in FORMS.items():
            if said := shape.match(code):
                self.form, self.parts = form, said.groupdict(default="")
                break

    def offset(self) -> int:
        """Returns the distance of a load or store from its base."""
        return int(self.parts["offset"].replace(" ", ""))

    def slots(self) -> int:
        """Returns how many slots of code the line takes, at most."""
        if not self.form:
            return 1 if BYTES.match(self.text) else 0
        is_wide = self.form in ("wide", "map") or re.search(r" ll\s*(#.*)?$", self.text)
        return 2 if is_wide else 1


def register(name: str) -> int | None:
    """Returns the number of r1 or w1, or None if a word isn't one."""
    return int(name[1:]) if re.fullmatch(r"[rw]\d+", name) else None


def target_of(line: Line) -> int | None:
    """Returns the number of the register that an instruction sets, but a call's."""
    return register(line.parts.get("target", ""))


def reads(line: Line, number: int) -> bool:
    """Reports whether an instruction reads the register, which a call may do."""
    if line.form in ("call", "exit", "other"):
        return True
    text = line.text.split("#")[0]
    if line.form == "set" and line.parts["how"] == "=":
        text = line.parts["value"]
    elif line.form == "load":
        text = line.parts["base"]
    elif line.form in ("wide", "map"):
        return False
    return re.search(rf"\b[rw]{number}\b", text) is not None


def sections(lines: list[Line]) -> Iterator[tuple[int, str]]:
    """Yields each line's number with the name of its section."""
    name = ".text"
    for at, line in enumerate(lines):
        if found := SECTION.match(line.text):
            name = found["named"] or f".{found['plain']}"
        yield at, name
