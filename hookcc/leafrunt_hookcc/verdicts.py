"""What hooktool says of each function of an ELF file."""
from __future__ import annotations

import dataclasses
import os
import pathlib
import re
import shutil
import subprocess

from .clang import Fault

SECONDS = 600
ACCEPTED = re.compile(r"(?:(?P<path>.*/)?(?P<name>\w+)\.o: (?P<hook>\w+), )?"
                      r"accepted bound (?P<bound>\d+)"
                      r"(?:, turns counted, at most (?P<turns>\d+))?$")
REFUSED = re.compile(r"section (?P<hook>\S+), function (?P<name>\w+)(?:, slot (?P<slot>\d+))?: ")
RULE = re.compile(r"^refused slot (\d+) rule (\d+) ", re.M)
COUNTED = "its turns are counted, so each slot is one later"
UNCOUNTED = "no turns can be counted"
NO_REGISTER = "the program uses each of r6 to r9"


@dataclasses.dataclass
class Verdict:
    """What is said of one function: the lines, and what of them a program needs."""

    hook: str
    name: str
    lines: list[str]
    bound: int | None = None
    turns: int | None = None

    @property
    def is_accepted(self) -> bool:
        return self.bound is not None

    @property
    def text(self) -> str:
        return "\n".join(self.lines)

    @property
    def refusal(self) -> tuple[int, int] | None:
        """The slot and the rule, if the verifier refuses it. The slot is that of clang's code."""
        found = RULE.search(self.text)
        return (int(found[1]) - self.later, int(found[2])) if found else None

    @property
    def later(self) -> int:
        """How much later each slot is than in clang's code."""
        return 1 if COUNTED in self.text else 0

    @property
    def notes(self) -> list[str]:
        return [it.strip() for it in self.lines[1:]] if self.is_accepted else []

    def needs_register(self) -> bool:
        return NO_REGISTER in self.text

    def progress(self) -> tuple[int, int]:
        """How far a try came: a loop without a rank says less than a later fault of the code."""
        if self.is_accepted:
            return (3, 0)
        if self.refusal is None:
            return (0, 0)
        slot, rule = self.refusal
        return (1 if rule in (5, 12) else 2, slot)


def read(said: str) -> list[Verdict]:
    """Returns what hooktool says by functions; lines that are of none have an empty name."""
    found: list[Verdict] = []
    for line in said.splitlines():
        if it := ACCEPTED.match(line):
            turns = int(it["turns"]) if it["turns"] else None
            names = (it["hook"] or "", it["name"] or "")
            found.append(Verdict(*names, [line], int(it["bound"]), turns))
        elif it := REFUSED.match(line):
            same = next((v for v in found if v.name == it["name"] and not v.is_accepted), None)
            if same and it["slot"]:
                same.lines.append(line)
            else:
                found.append(Verdict(it["hook"], it["name"], [line]))
        elif line.startswith("section ") or not found:
            found.append(Verdict("", "", [line]))
        else:
            found[-1].lines.append(line)
    return found


class Hooktool:
    """The program hooktool."""

    def __init__(self) -> None:
        asked = os.environ.get("HOOKTOOL", "hooktool")
        path = shutil.which(asked)
        if path is None:
            raise Fault(f"{asked} is not here: HOOKTOOL=.. says where it is", 3)
        self.path = path

    def said(self, *words: str) -> tuple[int, str]:
        """Returns hooktool's status and what it says on standard output."""
        try:
            done = subprocess.run([self.path, *words], stdin=subprocess.DEVNULL, text=True,
                                  capture_output=True, errors="replace", check=False,
                                  timeout=SECONDS)
        except subprocess.TimeoutExpired as error:
            raise Fault(f"hooktool takes more than {SECONDS} seconds", 3) from error
        except OSError as error:
            raise Fault(f"cannot run hooktool: {error.strerror}", 3) from error
        if UNCOUNTED in done.stderr:
            return 1, done.stderr
        if done.returncode not in (0, 1):
            why = (done.stderr or done.stdout).strip() or f"hooktool ended with {done.returncode}"
            raise Fault(why, done.returncode if done.returncode in (2, 3, 4) else 3)
        return done.returncode, done.stdout or done.stderr

    def built(self, elf: pathlib.Path, folder: pathlib.Path, words: list[str]) -> list[Verdict]:
        """Has an object made of each program of an ELF file."""
        return read(self.said("build", os.fspath(elf), os.fspath(folder), *words)[1])

    def annotated(self, hook: str, code: pathlib.Path, made: pathlib.Path,
                  words: list[str]) -> Verdict:
        """Has an object made of bare code."""
        status, said = self.said("annotate", hook, os.fspath(code), os.fspath(made), *words)
        lines = said.splitlines()
        found = ACCEPTED.match(lines[0]) if lines and status == 0 else None
        if found is None:
            return Verdict(hook, "", lines)
        turns = int(found["turns"]) if found["turns"] else None
        return Verdict(hook, "", lines, int(found["bound"]), turns)
