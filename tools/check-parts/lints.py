#!/usr/bin/env python3
"""Compiles each Python file without a warning, has bash read .ci/run, and compares Rattle files with their layout.

usage: python3 -W error tools/check-parts/lints.py [FILE..]

Of these files, or of all. Names each fault, and says at the end how many files there were. Status: 0 none, 1 a fault.
"""
import pathlib
import shutil
import subprocess
import sys

TOP = pathlib.Path(__file__).resolve().parent.parent.parent
PLACES = ("host/**/*", "hookcc/**/*", "tools/**/*", "examples/c/*", "crates/**/*", "demo", "check", ".ci/run")
NOT_OURS = ("out", "build", "__pycache__")


def kind_of(file: pathlib.Path) -> str:
    """Returns what reads a file: python, bash or rattle, or nothing."""
    if file.suffix in (".rt", ".antt"):
        return "rattle"
    if file.suffix == ".py":
        return "python"
    if file.suffix:
        return ""
    with open(file, "rb") as it:
        first = it.readline(80)
    return next((it for it in ("python", "bash") if first.startswith(b"#!") and it.encode() in first), "")


def python(file: pathlib.Path) -> str:
    """Returns what is wrong with a Python file, or nothing."""
    try:
        compile(file.read_text(encoding="utf-8"), str(file), "exec", dont_inherit=True)
    except (SyntaxError, SyntaxWarning, DeprecationWarning, UnicodeDecodeError, ValueError) as error:
        return f"{file.relative_to(TOP)}: {error!r}"
    return ""


def said_by(*words) -> str:
    """Returns what a command says that fails, or nothing."""
    ran = subprocess.run(words, cwd=TOP, stdin=subprocess.DEVNULL, capture_output=True, text=True, errors="replace")
    return (ran.stdout + ran.stderr).strip() or f"{words[0]}: status {ran.returncode}" if ran.returncode else ""


def main() -> int:
    given = [pathlib.Path(it).resolve() for it in sys.argv[1:]] or [it for place in PLACES for it in TOP.glob(place)]
    files = sorted({it for it in given if it.is_file() and not set(it.relative_to(TOP).parts) & set(NOT_OURS)})
    kinds = {it: kind_of(it) for it in files}
    faults = [python(it) for it, kind in kinds.items() if kind == "python"]
    faults += [said_by("bash", "-n", str(it)) for it, kind in kinds.items() if kind == "bash"]
    rattle = [str(it) for it, kind in kinds.items() if kind == "rattle"]
    has_rattle = shutil.which("rattle") is not None
    for at in range(0, len(rattle) if has_rattle else 0, 500):
        faults.append(said_by("rattle", "fmt", "--check", *rattle[at : at + 500]))
    faults = [it for it in faults if it]
    print(*faults, sep="\n", end="\n" if faults else "")
    left_out = "" if has_rattle or not rattle else f"; {len(rattle)} of Rattle left out: there is no command `rattle`"
    print(f"lints: {len([it for it in kinds.values() if it])} files, {len(faults)} faults{left_out}")
    return 1 if faults else 0


if __name__ == "__main__":
    sys.exit(main())
