"""Random functions in C at hookcc, for two clangs: what is accepted answers as the same C does on this machine."""
import os
import pathlib
import random
import shutil
import subprocess
import tempfile
from collections.abc import Iterator

from family import Broken, CannotTry, Family, TOOLS, tool

try_loops = tool("try-loops")
HOOKCC = TOOLS.parent / "hookcc/hookcc"
CLANGS = (("clang", "v3", "2"), ("clang", "v2", "s"), ("clang-19", "v4", "2"))
SECONDS = 600
HEAD = '#ifdef PEER\n#include "peer.h"\n#else\n#include "leafrunt.h"\n#endif\n'
FIELDS = {"tag": ("prefix", "length", "metric", "tag", "type"), "count": ("interface", "length", "type", "router")}
STRUCTS = {"tag": "destination", "count": "datagram"}
NAMES = "abcd"
BINARY = ("+", "-", "*", "&", "|", "^")


class Text:
    """A random program at a hook, with loops, a table, remainders, a switch and both helpers."""

    def __init__(self, rng: random.Random) -> None:
        self.rng, self.hook = rng, rng.choice(("tag", "count"))
        self.depth, self.loops = 0, 0
        self.size = rng.choice((3, 8, 16, 40))

    def number(self) -> str:
        return str(self.rng.choice((0, 1, 2, 3, 7, 8, 21, 31, 63, 64, 255, 1000, 65535, self.rng.randrange(1 << 32))))

    def atom(self) -> str:
        rng = self.rng
        kinds = [rng.choice(NAMES), self.number(), f"it->{rng.choice(FIELDS[self.hook])}", f"rows[{rng.choice(NAMES)} % {self.size}].one",
                 f"rows[{rng.choice(NAMES)} % {self.size}].two", f"cells()[{rng.choice(NAMES)} & 63]"]
        if self.hook == "count":
            kinds += [f"packet_byte({rng.choice(NAMES)} & 127)"] * 2
        else:
            kinds.append(f"table_cost((u32){rng.choice(NAMES)}, {rng.choice(NAMES)} & 31)")
        return rng.choice(kinds)

    def expression(self, depth: int = 2) -> str:
        rng = self.rng
        if depth == 0 or rng.random() < 0.3:
            return self.atom()
        one, other = self.expression(depth - 1), self.expression(depth - 1)
        kind = rng.randrange(9)
        if kind < 4:
            return f"({one} {rng.choice(BINARY)} {other})"
        if kind < 5:
            return f"({one} {rng.choice(('<<', '>>'))} ({other} & {rng.choice((7, 31))}))"
        if kind < 6:
            return f"((u64){one} {rng.choice(('%', '/'))} {rng.choice((3, 10, 21, 24, 60))})"
        if kind < 7:
            return f"({one} % ({other} | 1))"
        if kind < 8:
            return f"(u32)({one} {rng.choice(BINARY)} {other})"
        return f"({self.test()} ? {one} : {other})"

    def test(self) -> str:
        return f"({self.expression(1)}) {self.rng.choice(('<', '>', '==', '!=', '<=', '>='))} ({self.expression(1)})"

    def counted(self) -> str:
        """A counter that is bounded by a test or a mask, and an amount."""
        name, rng = self.rng.choice(NAMES), self.rng
        if rng.random() < 0.5:
            return f"if ({name} < {rng.choice((64, 200, 256))}) counter_add({name}{rng.choice(('', ' | 3', ' ^ 5'))} & 255, {self.atom()} & 0xffff);"
        return f"if ({name} > {rng.choice((3, 9))} && {name} <= 73) counter_add({name} - 3, {self.expression(1)} & 0xffff);"

    def loop(self) -> str:
        rng, i = self.rng, f"i{self.loops}"
        self.loops += 1
        body = self.block(rng.randrange(1, 3), i)
        kind = rng.randrange(5)
        if kind == 0:
            return f"for (u64 {i} = 0; {i} < {rng.choice(NAMES)} && {i} < {rng.choice((5, 20))}; {i}++) {{ {body} }}"
        if kind == 1:
            return f"for (u32 {i} = {rng.randrange(1, 12)}; {i} > 0; {i}--) {{ {body} }}"
        if kind == 2:
            return f"for (u64 {i} = (u32){self.expression(1)}; {i}; {i} >>= {rng.randrange(1, 4)}) {{ {body} }}"
        if kind == 3:
            return f"{{ u32 {i} = 0, to{i} = {self.size}; while ({i} < to{i}) {{ u32 mid = ({i} + to{i}) / 2; if (rows[mid].one <= " \
                   f"{rng.choice(NAMES)}) {i} = mid + 1; else to{i} = mid; }} {rng.choice(NAMES)} += {i}; }}"
        return f"for (int {i} = 0; {i} < {rng.randrange(2, 30)}; {i} += {rng.randrange(1, 4)}) {{ {body} }}"

    def statement(self, loop: str = "") -> str:
        rng, name = self.rng, self.rng.choice(NAMES)
        kind = rng.randrange(12)
        if kind < 5:
            return f"{name} {rng.choice(('=', '+=', '^=', '-='))} {self.expression()};"
        if kind < 6:
            return f"if ({self.test()}) {{ {self.block(2, loop)} }} else {{ {self.block(1, loop)} }}"
        if kind < 7:
            cases = "".join(f"case {at}: {name} = {self.expression(1)}; break; " for at in range(rng.randrange(2, 6)))
            return f"switch ({self.atom()} & 7) {{ {cases}default: {name} ^= {self.atom()}; }}"
        if kind < 8:
            return f"cells()[{name} & 63] = {self.expression(1)};"
        if kind < 10:
            return self.counted()
        if kind < 11 and loop:
            return f"if ({self.test()}) {rng.choice(('break', 'continue'))};"
        return self.loop() if self.loops < 3 and self.depth < 2 else f"{name} = ~{name};"

    def block(self, count: int, loop: str = "") -> str:
        self.depth += 1
        found = " ".join(self.statement(loop) for _ in range(count))
        self.depth -= 1
        return found

    def program(self) -> str:
        rng = self.rng
        rows = ", ".join(f"{{ {rng.randrange(1 << 32)}u, {rng.randrange(33)} }}" for _ in range(self.size))
        first = FIELDS[self.hook][0]
        body = "\n\t".join(self.statement() for _ in range(rng.randrange(2, 7)))
        return (f"{HEAD}static const struct {{ u32 one, two; }} rows[{self.size}] = {{ {rows} }};\n"
                f'SEC("{self.hook}") u64 f(const struct {STRUCTS[self.hook]} *it)\n{{\n'
                f"\tu64 a = it->{first}, b = it->length, c = 1, d = 0;\n\t{body}\n"
                f"\tcounter_add(a & 255, b & 0xffff);\n\treturn (u32)(a ^ b ^ c ^ d);\n}}\n")


class Compiled(Family):
    name = "c"
    round = 50

    def inputs(self, rng: random.Random) -> Iterator[bytes]:
        while True:
            yield Text(random.Random(rng.randbytes(8))).program().encode()

    def begin(self) -> None:
        self.ways = [it for it in CLANGS if shutil.which(it[0])]
        if not self.ways:
            raise CannotTry("there is no clang: Debian has it in the package clang")
        self.hooktool = str(self.program("hooktool"))

    def play(self, data: bytes) -> None:
        with tempfile.TemporaryDirectory(dir=self.room) as folder:
            room = pathlib.Path(folder)
            source = room / "it.c"
            source.write_bytes(data)
            hook = "count" if b'SEC("count")' in data else "tag"
            peer = try_loops.Peer(source, folder)
            for number, way in enumerate(self.ways):
                self.compare(peer, hook, source, room / str(number), way)

    def compare(self, peer: object, hook: str, source: pathlib.Path, folder: pathlib.Path, way: tuple[str, str, str]) -> None:
        """Compiles the program in one way, and compares each answer if it is accepted."""
        folder.mkdir()
        clang, cpu, level = way
        words = [HOOKCC, source, folder, "--clang", clang, "--cpu", cpu, f"-O{level}", "-fno-strict-aliasing", "-Wno-everything"]
        try:
            done = subprocess.run(words, env={**os.environ, "HOOKTOOL": self.hooktool}, capture_output=True, text=True, timeout=SECONDS, check=False)
        except subprocess.TimeoutExpired as error:
            raise Broken(f"hookcc ({' '.join(way)}) takes more than {SECONDS} s") from error
        if done.returncode not in (0, 1) or "Traceback" in done.stderr:
            raise Broken(f"hookcc ({' '.join(way)}) ended with {done.returncode}: {done.stderr.strip()[-300:]}")
        if done.returncode:
            return
        for asked, context, packet, question in try_loops.contexts():
            if asked != hook:
                continue
            wanted = peer.answer("f", hook, context, packet)
            found = try_loops.tried(self.hooktool, f"{folder}/f.o", hook, question)
            if found != wanted:
                raise Broken(f"{' '.join(way)}, {' '.join(question)}: {found}, not {wanted}")
