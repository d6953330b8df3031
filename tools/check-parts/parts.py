"""The list of what ./check plays: its parts, what each needs, and the files that can break it."""
import fnmatch
import pathlib
import re
import shutil
import sys
from dataclasses import dataclass

HERE = pathlib.Path(__file__).resolve().parent
TOP = HERE.parent.parent
sys.path.append(str(TOP / "tools"))
import kit  # noqa: E402

PROGRAMS = ("routerd", "hooktool", "simulation")
# Where quick-build puts a program, and where `rt ci` does.
UNPROVED, PROVED = "build/unproved/{0}", "crates/{0}/out/{0}"


@dataclass(frozen=True)
class Part:
    """What is played by one command.

    `breaks`: patterns of the files that can break it. `seconds`: about how long it takes alone. `after`: parts that have to pass
    before it, if they are played. `lacks`: why it can't be played here, or nothing. `tests`: the folder of tests that it runs, all
    modules or these.
    """

    name: str
    about: str
    words: tuple[str, ...]
    breaks: tuple[str, ...]
    seconds: int
    after: tuple[str, ...] = ()
    lacks: str = ""
    tests: str = ""
    modules: tuple[str, ...] = ()


def crates_below(program: str) -> set[str]:
    """Returns the crates of which a program is made, by crates.txt."""
    uses = dict(re.findall(r"(?m)^(\w+)[^:#\n]*:([^#\n]*)", (TOP / "crates.txt").read_text(encoding="utf-8")))
    found, left = set(), [program]
    while left:
        crate = left.pop()
        if crate in uses and crate not in found:
            found.add(crate)
            left += uses[crate].split()
    return found


def sources_of(program: str) -> tuple[str, ...]:
    """Returns patterns of the files of which a program is made."""
    return ("crates.txt", *(f"crates/{crate}/{part}/*" for crate in sorted(crates_below(program)) for part in ("src", "specs")))


def before_programs() -> list[Part]:
    """Returns the parts that need no program."""
    no_kit = "" if shutil.which("rt") else "the command `rt` of the Rattle kit isn't on PATH"
    tests = (sys.executable, str(HERE / "unittests.py"))
    of_tools = ("tools/*", "trials/areas.rows", "demo", "check", ".ci/*", "crates.txt", "crates/*.edit", "crates/*/src/*", "crates/*/specs/*",
                "debian/*", "host/leafrunt@.service", "host/leafrunt_host/configuration.py", "VERSION", "CHANGELOG.md",
                "docs/work/ARCHITECTURE.md")
    return [
        Part("rooms", "the lists of crates", ("tools/check-rooms",), ("crates.txt", "crates/*", "docs/proof/rooms/*"), 1),
        Part("types", "the names of public types", ("tools/check-types",), ("crates.txt", "crates/*/src/*"), 1),
        Part("names", "the names in the pages", ("tools/check-names",), ("*",), 5),
        Part("host", "the tests of the box", tests, ("host/*", "debian/*"), 90, tests="host/tests"),
        Part("hookcc", "the tests of hookcc", tests, ("hookcc/*", "examples/c/leafrunt.h"), 30, tests="hookcc/tests"),
        Part("tools", "the tests of the tools", tests, of_tools, 70, tests="tools/tests",
             modules=tuple(sorted(it.stem for it in TOP.glob("tools/tests/test_*.py") if it.stem != "test_fuzz"))),
        Part("fuzz", "the tests of tools/fuzz, with the router that was compiled", tests, ("tools/fuzz*", "tools/tests/test_fuzz.py", *sources_of("routerd")), 60,
             tests="tools/tests", modules=("test_fuzz",), after=("build-routerd",)),
        Part("private", "what only one crate may make doesn't compile elsewhere", ("tools/try-private",),
             ("crates/*/src/*", "crates/*/mutants/*", "tools/try-private"), 45, lacks=no_kit),
        Part("lints", "Python compiles without a warning, Rattle is in its layout", (sys.executable, "-W", "error", str(HERE / "lints.py")),
             ("host/*", "hookcc/*", "tools/*", "demo", "check", ".ci/*", "examples/c/try", "crates/*.rt", "crates/*.antt"), 6),
    ]


def builds(is_for_network: bool) -> list[Part]:
    """Returns the parts that compile programs without proof; a router of the network is optimized, as 10,000 LSAs are too many for another."""
    lacks = kit.lacking(kit.BUILD)
    level = {"routerd": ("--optimize", "2")} if is_for_network else {}
    return [
        Part(f"build-{it}", f"{it} compiles, without proof", ("tools/quick-build", it, *level.get(it, ())),
             (*sources_of(it), "tools/quick-build", "tools/kit/*"), 100, lacks=lacks)
        for it in PROGRAMS
    ]


def over_programs(place: str) -> list[Part]:
    """Returns the parts that play the programs that are at this place."""
    routerd, hooktool = (place.format(it) for it in PROGRAMS[:2])
    made = tuple(file for it in PROGRAMS for file in sources_of(it))
    rows = ("tools/run-trials", *(("--bin", str(pathlib.Path(routerd).parent)) if place == UNPROVED else ()))
    return [
        Part("answers", "the answers that the pages quote, with the examples in C", ("tools/check-answers", routerd, hooktool),
             ("README.md", "docs/*", "examples/*", "demo", "tools/check-answers", "hookcc/*", *made), 60, after=("build-routerd", "build-hooktool")),
        Part("rows", "the worked rows of trials/", rows,
             ("trials/*", "tools/run-trials", "tools/try-agreement", "tools/try-networks", "tools/agreement-parts/*", *made), 60,
             after=tuple(f"build-{it}" for it in PROGRAMS)),
    ]


def everything(is_for_network: bool = False) -> list[Part]:
    """Returns all parts but the network, in the order in which they begin: first those that take seconds, then the long ones."""
    quick, others = before_programs()[:3], before_programs()[3:]
    return [*quick, *builds(is_for_network), *others, *over_programs(UNPROVED)]


def broken_by(paths: list[str], parts: list[Part]) -> list[Part]:
    """Returns the parts that these files can break, with what has to be built for them."""
    chosen = [it for it in parts if any(fnmatch.fnmatchcase(path, pattern) for path in paths for pattern in it.breaks)]
    needed = {before for it in chosen for before in it.after}
    return [it for it in parts if it in chosen or it.name in needed]
