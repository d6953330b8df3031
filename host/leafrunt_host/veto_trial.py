"""The program at `veto` is asked once more about a route: by `hooktool`, whose interpreter is proved to
be the machine (docs/use/HOOKTOOL.md, "try"), or else by `routerd run`.

The way of the run is found by copies of the object that each stop at one test: there the
interpreter says what the registers hold.
"""
from __future__ import annotations

import re
import shutil
import struct
import subprocess
import tempfile
import time
from collections.abc import Iterator
from dataclasses import dataclass
from ipaddress import IPv4Address, IPv4Network
from pathlib import Path

from leafrunt_host.confined import ADDRESS_SPACE
from leafrunt_host.isolation import ENVIRONMENT, PLACES, Account
from leafrunt_host.programs import Attached

SECONDS = 3.0
MOST_TESTS = 16
"""Tests of one way that are looked at."""
SECONDS_FOR_TESTS = 0.5
MOST_ROWS = 4096
MOST_SHOWN = 400
HEADER, SLOT = 16, struct.Struct("<BBhi")
KINDS = {"intra": 1, "inter": 2, "ext1": 3, "ext2": 4}
WIDE, CALL, EXIT, JUMP_CLASSES = 0x18, 0x85, 0x95, (5, 6)
NO_TESTS = (0, 8, 9)
"""Of the jumps: always, CALL and EXIT."""
STOP = SLOT.pack(CALL, 0, 0, 0x7FFF_FFFF)
"""No helper has this number, so a run ends here (docs/reference/MACHINE.md, trap 7)."""
MOMENT = range(24, 32)
"""Where the context has the moment."""
STOPPED = re.compile(r"trap 7 Helper at slot (\d+): ")
REGISTER = re.compile(r"  (r\d+): (\d+)")
ANSWER = re.compile(r"answer (\d+) used (\d+)")
LARGEST_COUNTED = 16_777_215
COMPARED = {
    1: lambda one, other, _: one == other,
    2: lambda one, other, _: one > other,
    3: lambda one, other, _: one >= other,
    4: lambda one, other, _: bool(one & other),
    5: lambda one, other, _: one != other,
    6: lambda one, other, bits: signed(one, bits) > signed(other, bits),
    7: lambda one, other, bits: signed(one, bits) >= signed(other, bits),
    10: lambda one, other, _: one < other,
    11: lambda one, other, _: one <= other,
    12: lambda one, other, bits: signed(one, bits) < signed(other, bits),
    13: lambda one, other, bits: signed(one, bits) <= signed(other, bits),
}
"""The tests of RFC 9669, 4.3, by their codes."""


@dataclass(frozen=True)
class Question:
    """What the program is asked: a route, and the numbers of the interfaces that it leaves by."""

    prefix: IPv4Network
    kind: str
    cost: int
    tag: int
    distance: int
    next_hops: tuple[int, ...]

    def words(self) -> list[str]:
        """As `hooktool try` takes them."""
        said = {
            "prefix": self.prefix,
            "kind": self.kind,
            "cost": self.cost,
            "tag": self.tag,
            "distance": self.distance,
            "interface": self.next_hops[0] if self.next_hops else 0,
            "next-hops": max(1, len(self.next_hops)),
            "moment": int(time.time()),
        }
        return [f"--{name}={value}" for name, value in said.items()]

    def context(self) -> str:
        """As `routerd run` takes it (docs/reference/FORMATS.md, "Contexts")."""
        where = int(self.prefix.network_address), self.prefix.prefixlen
        hops = len(self.next_hops), self.next_hops[0] if self.next_hops else 0
        form = struct.Struct("<IIIIIIQIII20x")
        numbers = (4, *where, self.cost, self.tag, KINDS[self.kind], int(time.time()))
        return form.pack(*numbers, self.distance, *hops).hex()


@dataclass(frozen=True)
class Test:
    """A test on the way of a run."""

    slot: int
    instruction: str
    is_taken: bool
    values: dict[str, int]


@dataclass(frozen=True)
class Verdict:
    """What the program said; `lets_in` is None if it wasn't brought to an answer."""

    said: str
    lets_in: bool | None = None
    tests: tuple[Test, ...] = ()


def signed(value: int, bits: int) -> int:
    return value - (1 << bits) if value >> (bits - 1) else value


def slots_of(data: bytes) -> list[tuple[int, int, int, int]]:
    """The code of an object: opcode, registers, offset and number of each slot."""
    count = int.from_bytes(data[12:16], "little")
    code = data[HEADER : HEADER + 8 * min(count, (len(data) - HEADER) // 8)]
    return list(SLOT.iter_unpack(code))


def starts_of(slots: list[tuple[int, int, int, int]]) -> Iterator[int]:
    """The slots at which an instruction begins."""
    at = 0
    while at < len(slots):
        yield at
        at += 2 if slots[at][0] == WIDE else 1


def leans_on(data: bytes) -> list[str]:
    """What a run goes by that may have been otherwise when the route was decided on."""
    slots = slots_of(data)
    found = set()
    for at in starts_of(slots):
        opcode, registers, offset, number = slots[at]
        if opcode == CALL and number in (1, 2):
            found.add("counters")
        if opcode == CALL and number == 4:
            found.add("the routing table")
        if opcode == WIDE and registers >> 4:
            found.add("cells" if slots[at][3] == 1 else "counters")
        if opcode & 7 == 1 and offset in MOMENT and registers >> 4 != 10:
            found.add("the moment")
    return sorted(found)


class Trial:
    """Runs of one object on one question, in a folder that is removed."""

    def __init__(
        self, program: Attached, question: Question, routerd: Path, account: Account | None
    ) -> None:
        """The programs run as whom `routerd` does."""
        self._data, self._question, self._routerd = program.data, question, routerd
        self._account = account
        beside = [str(routerd.parent), *PLACES.split(":")]
        self._hooktool = shutil.which("hooktool", path=":".join(beside))
        self._bounds = shutil.which("prlimit", path=PLACES)

    def verdict(self, rows: dict[str, int], counters: list[tuple[int, int]]) -> Verdict:
        """What it says now, with these rows of the routing table and these counters."""
        if not self._data:
            return Verdict("the object couldn't be kept when it was attached")
        with tempfile.TemporaryDirectory(prefix="leafrunt-why-") as folder:
            place = Path(folder)
            place.chmod(0o755)
            if self._hooktool is None:
                return self._by_routerd(place)
            return self._by_hooktool(place, rows, counters)

    def _ran(self, *words: str) -> str:
        """What a program prints; empty if it doesn't end in time, or can't be run."""
        bounded = [self._bounds, f"--as={ADDRESS_SPACE}", "--"] if self._bounds else []
        who = self._account
        try:
            ran = subprocess.run(
                [*bounded, *words],
                capture_output=True,
                timeout=SECONDS,
                check=False,
                env=ENVIRONMENT,
                stdin=subprocess.DEVNULL,
                user=who.user if who else None,
                group=who.group if who else None,
                extra_groups=[] if who else None,
            )
        except (OSError, subprocess.TimeoutExpired):
            return ""
        return ran.stdout.decode("utf-8", "replace")

    def _written(self, place: Path, data: bytes) -> str:
        path = place / "object"
        path.write_bytes(data)
        path.chmod(0o644)
        return str(path)

    def _by_routerd(self, place: Path) -> Verdict:
        path = self._written(place, self._data)
        said = self._ran(str(self._routerd), "run", path, self._question.context(), "-").strip()
        read = ANSWER.fullmatch(said)
        return Verdict(said[:MOST_SHOWN] or "it wasn't run", read[1] == "0" if read else None)

    def _by_hooktool(
        self, place: Path, rows: dict[str, int], counters: list[tuple[int, int]]
    ) -> Verdict:
        path, leans = self._written(place, self._data), leans_on(self._data)
        more = [f"--counter={at}={min(n, LARGEST_COUNTED)}" for at, n in counters if n]
        if "the routing table" in leans:
            more += [f"--row={each}={cost}" for each, cost in list(rows.items())[:MOST_ROWS]]
        words = [self._hooktool or "", "try", path, *self._question.words(), *more]
        lines = self._ran(*words).splitlines()
        said = lines[0] if lines else "it wasn't run"
        lets_in = {"installed": True, "not installed": False}.get(said.partition(",")[0])
        tests = tuple(self._tests(words)) if lets_in is not None else ()
        return Verdict(said[:MOST_SHOWN], lets_in, tests)

    # -- the way of the run

    def _tests(self, words: list[str]) -> Iterator[Test]:
        """The tests that the run came to, each as it was at the first time."""
        path = Path(words[2])
        instructions = self._instructions(words[2])
        slots, until = slots_of(self._data), time.monotonic() + SECONDS_FOR_TESTS
        tests = [at for at in starts_of(slots) if is_test(slots[at][0])]
        for at in tests[:MOST_TESTS]:
            if time.monotonic() > until:
                return
            place = HEADER + 8 * at
            path.write_bytes(self._data[:place] + STOP + self._data[place + 8 :])
            said = self._ran(*words)
            stopped = STOPPED.match(said)
            if stopped and int(stopped[1]) == at:
                held = {each[1]: int(each[2]) for each in REGISTER.finditer(said)}
                yield test_at(at, slots[at], instructions.get(at, ""), held)

    def _instructions(self, path: str) -> dict[int, str]:
        """The text of each instruction, by its slot."""
        listing = self._ran(str(self._routerd), "list", path).splitlines()
        lines = [each for each in listing[2:] if not each.startswith(("state ", "with "))]
        return dict(zip(starts_of(slots_of(self._data)), lines))


def is_test(opcode: int) -> bool:
    return opcode & 7 in JUMP_CLASSES and opcode >> 4 not in NO_TESTS


def test_at(at: int, slot: tuple[int, int, int, int], text: str, held: dict[str, int]) -> Test:
    """A test with what the registers held that it compares."""
    opcode, registers, _, number = slot
    bits = 64 if opcode & 7 == 5 else 32
    mask = (1 << bits) - 1
    names = [f"r{registers & 15}"] + ([f"r{registers >> 4}"] if opcode & 8 else [])
    values = {each: held[each] & mask for each in names if each in held}
    one = values.get(names[0], 0)
    other = values.get(names[1], 0) if opcode & 8 else number & mask
    compare = COMPARED.get(opcode >> 4)
    return Test(at, text, bool(compare and compare(one, other, bits)), values)


def value_text(value: int) -> str:
    """A number, and the address that it would be."""
    return f"{value} = {IPv4Address(value)}" if 1 << 24 <= value < 1 << 32 else str(value)
