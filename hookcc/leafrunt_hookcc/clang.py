"""From C to an ELF file by clang, with its assembly text rewritten between."""
from __future__ import annotations

import dataclasses
import os
import pathlib
import re
import shutil
import subprocess

from . import source
from .assembly import Line
from .remainders import with_remainders
from .searches import Searches, with_searches

# What comes to each compilation. Loops stay as they are written: with addresses that clang counts
# up in place of an index the verifier finds no bounds.
TARGET = ["-target", "bpf"]
OPTIONS = ["-g", *TARGET, "-fno-crash-diagnostics", "-mllvm", "-disable-lsr"]
KNOWN = ("clang", "clang-22", "clang-19", "clang-16", "clang-15", "clang-14")
MOST_FUNCTIONS = 64
"""How many functions of a file clang may refuse, one after the other."""
SECONDS = 300
ERROR = re.compile(r"^(?P<file>[^:\n]+):(?P<line>\d+):(?P<column>\d+): "
                   r"(?:fatal )?error: (?P<why>.*)$", re.M)
PASS_ON = re.compile(r"[Oo]n function '@(\w+)'")
WITHIN = re.compile(r"[Ii]n function:? (\w+)\b")
SYMBOL = re.compile(r"^([A-Za-z_]\w*) = (\w+)$", re.M)
WARNED = re.compile(r"^\d+ warnings? generated\.\n", re.M)
BACKEND = re.compile(r"^(?:Error(?: at line (?P<line>\d+))?: |fatal error: error in backend: "
                     r"|error: )(?P<why>.*)$", re.M)


class Fault(Exception):
    """Nothing can be compiled. The status is what the program ends with."""

    def __init__(self, why: str, status: int) -> None:
        super().__init__(why)
        self.status = status


@dataclasses.dataclass
class Way:
    """How a file is compiled: clang, its level and cpu, and further words."""

    clang: str
    level: str = "2"
    cpu: str = "v3"
    words: tuple[str, ...] = ()

    def options(self) -> list[str]:
        return [f"-O{self.level}", *OPTIONS, f"-mcpu={self.cpu}", *self.words]


@dataclasses.dataclass
class Made:
    """What came of a compilation: what clang said of the file, which functions it refuses and why,
    and what is told of tables."""

    elf: pathlib.Path
    program: str = ""
    said: str = ""
    refused: dict[str, str] = dataclasses.field(default_factory=dict)
    tables: Searches = dataclasses.field(default_factory=Searches)


def found(asked: str | None) -> str:
    """Returns clang's path: of the one asked for by name, number or path, or the first there is."""
    for name in (KNOWN if asked is None else (asked, f"clang-{asked}")):
        if path := shutil.which(name):
            return path
    raise Fault(f"{asked or 'clang'} is not here: Debian has it in the package clang "
                "(apt-get install clang); --clang PATH names another one", 3)


def ran(words: list[str], text: str | None = None) -> subprocess.CompletedProcess[str]:
    """Runs clang. What it says is kept."""
    try:
        return subprocess.run(words, input=text or "", capture_output=True, text=True,
                              errors="replace", check=False, timeout=SECONDS)
    except subprocess.TimeoutExpired as error:
        raise Fault(f"{words[0]} takes more than {SECONDS} seconds", 3) from error
    except OSError as error:
        raise Fault(f"cannot run {words[0]}: {error.strerror}", 3) from error


def passed(text: str, told: Searches) -> str:
    """Returns the assembly text with remainders, and without loads from constant tables."""
    # (clang 22 writes .set so, and reads that as an instruction)
    text = SYMBOL.sub(r"\t.set \1, \2", text)
    lines = [Line(it) for it in text.split("\n")]
    with_remainders(lines)
    return "\n".join(it.text for it in with_searches(lines, told))


def one_line(said: str, name: str = "") -> str:
    """Returns the line of clang's that says what is wrong with a program of this name."""
    if error := ERROR.search(said):
        return error[0]
    if found := BACKEND.search(said):
        # (a node of clang's own graph says nothing to an author)
        why = re.sub(r" for DAG: .*?(?=Please|$)", ". ", found["why"]).strip()
        return f"{name}:{found['line']}: {why}" if found["line"] else why
    return next((it for it in said.splitlines() if it.strip()), "it ends without a word")


def culprit(said: str, text: str, name: str) -> source.Function | None:
    """Returns the function that clang refuses, by what it says."""
    if error := ERROR.search(said):
        if os.path.basename(error["file"]) == os.path.basename(name):
            return source.at_line(text, int(error["line"]))
        return None
    for form in (PASS_ON, WITHIN):
        if told := form.search(said):
            return source.named(text, told[1])
    return None


def name_of(function: source.Function) -> str:
    """Returns a function's name, by its head."""
    head = source.SEC.sub(" SEC(", function.head)
    typed = re.search(r"\bSEC_\w+\s*\(\s*(\w+)", function.head)
    names = re.findall(r"\b(\w+)\s*\(", re.sub(r"\b(?:SEC|__attribute__)\s*\(", " (", head))
    return typed[1] if typed else names[-1] if names else "?"


class Compilation:
    """A file of C, which loses each function that clang refuses."""

    def __init__(self, program: pathlib.Path, text: str, room: pathlib.Path) -> None:
        self.program, self.text, self.room = program, text, room

    def words(self, way: Way, *more: str) -> list[str]:
        folder = os.fspath(self.program.parent)
        return [way.clang, *way.options(), "-iquote", folder, "-x", "c", *more]

    def source_text(self, text: str) -> str:
        name = os.fspath(self.program).replace("\\", "\\\\").replace('"', '\\"')
        return f'#line 1 "{name}"\n{text}'

    def assembly(self, way: Way, made: Made) -> str | None:
        """Returns clang's assembly text. None if it refuses more than single functions."""
        text, target = self.text, os.fspath(made.elf) + ".s"
        for _ in range(MOST_FUNCTIONS):
            done = ran(self.words(way, "-S", "-", "-o", target), self.source_text(text))
            made.said = done.stderr
            if done.returncode == 0:
                return pathlib.Path(target).read_text(errors="replace")
            function = culprit(done.stderr, text, os.fspath(self.program))
            if function is None:
                return None
            name = name_of(function)
            made.refused.setdefault(name, one_line(done.stderr, os.fspath(self.program)))
            text = source.without(text, function)
        return None

    def compiled(self, way: Way, name: str = "program") -> Made:
        """Compiles the file. A fault, with what clang says, if it refuses more than functions."""
        made = Made(self.room / f"{name}.elf", os.fspath(self.program))
        before = self.assembly(way, made)
        if before is None:
            raise Fault(made.said.rstrip() or "clang ends without a word", 1)
        made.said = WARNED.sub("", made.said)
        text = pathlib.Path(os.fspath(made.elf) + ".s")
        text.write_text(passed(before, made.tables))
        done = ran([way.clang, *TARGET, f"-mcpu={way.cpu}", "-c", os.fspath(text), "-o",
                    os.fspath(made.elf)])
        if done.returncode:
            raise Fault(f"clang's code isn't assembled: {one_line(done.stderr)}", 3)
        return made
