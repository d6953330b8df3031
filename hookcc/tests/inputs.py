"""What several tests use: stand-ins for clang and hooktool, and programs that are there."""
from __future__ import annotations

import os
import pathlib
import shutil
import stat

TOP = pathlib.Path(__file__).resolve().parents[2]
HOOKCC = TOP / "hookcc/hookcc"
HEADER = '#include "leafrunt.h"\n'
BUILT = ("crates/hooktool/out/hooktool", "build/unproved/hooktool")


def hooktool_path() -> str | None:
    """Returns where hooktool is, if it is built."""
    found = [os.environ.get("HOOKTOOL", ""), *(str(TOP / it) for it in BUILT)]
    return next((it for it in found if it and shutil.which(it)), shutil.which("hooktool"))


def has_clang(*names: str) -> bool:
    return all(shutil.which(it) for it in names or ("clang",))


def stand_in(path: pathlib.Path, text: str) -> str:
    """Makes a shell script, and returns where it is."""
    path.write_text(f"#!/bin/sh\n{text}")
    path.chmod(path.stat().st_mode | stat.S_IXUSR)
    return str(path)
