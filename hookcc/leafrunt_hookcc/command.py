"""The command line of hookcc."""
from __future__ import annotations

import argparse
import os
import pathlib
import re
import shutil
import signal
import subprocess
import sys
import tempfile

from .building import Builder, Settings, store
from .clang import Compilation, Fault, Way, found
from .lines import places_of
from .outcome import FORMS, object_path, with_lines
from .verdicts import Hooktool

MOST_BYTES = 1 << 24
HEADERS = (os.path.join(os.path.dirname(__file__), "../../examples/c"), "/usr/include/leafrunt")
"""Where leafrunt.h is: in a clone, and in the package."""
PASSED_ON = (
    ("-I", "FOLDER", "where headers are"), ("-D", "NAME[=TEXT]", "a macro"),
    ("-U", "NAME", "no such macro"), ("-W", "WARNING", "as -Wall, which is on"),
    ("-f", "WORD", "as -fwrapv"), ("-std", "STANDARD", "as -std=c11"),
    ("-include", "FILE", "a file before the program"))
"""What goes to clang as it is."""
USAGE = """usage: hookcc PROGRAM.c [FOLDER] [OPTION ..]

Makes loadable objects of a program in C: clang, and then hooktool.

For each function in the section of a hook, as SEC("veto") has it, FOLDER/FUNCTION.o is written, and
FUNCTION.lines beside it, which says from which line of C each slot comes. FOLDER is `.` unless
said. Without SEC the first line of the file may name the hook, as `hook: price` in a comment does,
and the second one what --fuel lets it turn, as `fuel: 64`.
"""
EPILOG = """
environment: CLANG and HOOKTOOL say where the two are, else they are sought on PATH.

status: 0 each function was accepted; 1 one wasn't, or clang refuses the file; 2 the words are
wrong; 3 a file can't be read or written, or clang or hooktool isn't there; 4 memory was refused.
"""


def parser() -> argparse.ArgumentParser:
    words = argparse.ArgumentParser(
        prog="hookcc", usage=argparse.SUPPRESS, description=USAGE, epilog=EPILOG,
        formatter_class=argparse.RawDescriptionHelpFormatter, allow_abbrev=False)
    words.add_argument("program", type=pathlib.Path, metavar="PROGRAM.c")
    words.add_argument("folder", nargs="?", default=".", metavar="FOLDER")
    words.add_argument("--hook", choices=["count", "tag", "price", "veto"],
                       help="the hook of functions without SEC")
    words.add_argument("--fuel", metavar="N", help="count the turns of loops that nothing ends")
    words.add_argument("--fuel-answer", metavar="N", help="the answer instead of one turn more")
    words.add_argument("--clang", metavar="CLANG", default=os.environ.get("CLANG"),
                       help="a path, a name as clang-19, or a number as 19")
    words.add_argument("--cpu", choices=["v1", "v2", "v3", "v4"], default="v3",
                       help="clang's -mcpu (v3; clang 19 and later have v4)")
    for name, meta, told in PASSED_ON:
        words.add_argument(name, action="append", default=[], metavar=meta, help=told)
    words.add_argument("-O", dest="level", choices=["0", "1", "2", "3", "s", "z"], default="2",
                       help="clang's level (-O2)")
    words.add_argument("--plain", action="store_true",
                       help="one try: no guard, no second compilation")
    words.add_argument("--explain", action="store_true",
                       help="tell what the verifier knows at each line, and write nothing")
    words.add_argument("--explain-layout", action="store_true",
                       help="tell on standard error how each constant table is written")
    words.add_argument("--json", dest="form", action="store_const", const="json", default="text",
                       help="print an array of JSON, an object for each function")
    words.add_argument("--tap", dest="form", action="store_const", const="tap",
                       help="print the Test Anything Protocol, a point for each function")
    return words


def said_in(text: str) -> dict[str, str]:
    """Returns what the first two lines of a program name."""
    lines = (text.split("\n") + ["", ""])[:2]
    found = {}
    if hook := re.search(r"\bhook: (\w+)", lines[0]):
        found["hook"] = hook[1]
    if fuel := re.search(r"\bfuel: (\d+)", lines[1]):
        found["fuel"] = fuel[1]
    return found


def text_of(path: pathlib.Path) -> str:
    """Returns the program, or a fault if it can't be read."""
    try:
        if not path.is_file():
            raise Fault(f"cannot read {path}: it is no regular file", 3)
        with open(path, "rb") as it:
            data = it.read(MOST_BYTES + 1)
    except OSError as error:
        raise Fault(f"cannot read {path}: {error.strerror}", 3) from error
    if len(data) > MOST_BYTES:
        raise Fault(f"cannot read {path}: it has more than {MOST_BYTES} bytes", 3)
    return data.decode(errors="surrogateescape")


def way_of(asked: argparse.Namespace) -> Way:
    """Returns how the file is to be compiled."""
    here = [os.path.realpath(it) for it in HEADERS if os.path.exists(f"{it}/leafrunt.h")]
    words = ["-Wall", *(f"-I{it}" for it in [*asked.I, *here])]
    words += [f"-D{it}" for it in asked.D] + [f"-U{it}" for it in asked.U]
    words += [f"-W{it}" for it in asked.W] + [f"-f{it}" for it in asked.f]
    words += [f"-std={it.lstrip('=')}" for it in asked.std]
    words += [word for it in asked.include for word in ("-include", it)]
    return Way(found(asked.clang), asked.level, asked.cpu, tuple(words))


def in_section(hook: str, elf: pathlib.Path) -> None:
    """Puts the functions that are in no hook's section into this one's: `hooktool explain` takes no
    hook."""
    objcopy = shutil.which("llvm-objcopy")
    if objcopy is None:
        raise Fault("llvm-objcopy is not here: Debian has it in the package llvm; or write SEC "
                    "before the program", 3)
    subprocess.run([objcopy, "--rename-section", f".text={hook}", os.fspath(elf)], check=False)


def explained(builder: Builder, hooktool: Hooktool, hook: str | None) -> int:
    """Tells what the verifier knows at each slot, with the lines of C above them."""
    elf = builder.first.elf
    places = places_of(pathlib.Path(f"{elf}.s").read_text(errors="replace"))
    if hook:
        in_section(hook, elf)
    status, said = hooktool.said("explain", os.fspath(elf))
    sys.stdout.write(with_lines(said, places))
    return status


def ran(asked: argparse.Namespace, room: pathlib.Path) -> int:
    """Builds the program, and returns the status."""
    text = text_of(asked.program)
    told = said_in(text)
    settings = Settings(asked.hook or told.get("hook"), asked.fuel or told.get("fuel"),
                        asked.fuel_answer, asked.plain)
    way = way_of(asked)
    hooktool = Hooktool()
    builder = Builder(Compilation(asked.program, text, room), way, hooktool, settings)
    sys.stderr.write(builder.first.said)
    if asked.explain_layout:
        sys.stderr.write("".join(f"hookcc: {it}\n" for it in builder.first.tables.layouts))
    if asked.explain:
        return explained(builder, hooktool, settings.hook)
    outcomes = builder.outcomes()
    paths = [object_path(asked.folder, it.name) for it in outcomes]
    for outcome, path in zip(outcomes, paths):
        if outcome.is_accepted:
            try:
                store(outcome, asked.folder)
            except OSError as error:
                raise Fault(f"cannot write {path}: {error.strerror}", 3) from error
    sys.stdout.write(FORMS[asked.form](outcomes, paths))
    return 0 if outcomes and all(it.is_accepted for it in outcomes) else 1


def ended(number: int, _frame: object) -> None:
    raise KeyboardInterrupt(number)


def main() -> int:
    asked = parser().parse_args()
    # (what was started ends with it, and its temporary folder goes)
    for number in (signal.SIGTERM, signal.SIGHUP):
        signal.signal(number, ended)
    try:
        with tempfile.TemporaryDirectory(prefix="hookcc-") as room:
            return ran(asked, pathlib.Path(room))
    except Fault as why:
        print(f"hookcc: {why}" if why.status != 1 else str(why), file=sys.stderr)
        return why.status
    except BrokenPipeError:
        return 3
    except KeyboardInterrupt as why:
        return 128 + int(why.args[0] if why.args else signal.SIGINT)
