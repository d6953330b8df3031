"""Which Leafrunt this is, and what is known of its proof: `leafrunt --version`."""
from __future__ import annotations

import argparse
from pathlib import Path

HOST = Path(__file__).resolve().parent.parent
"""The folder of the host program: host/ of a clone, or where a package has it."""
GIT_SECONDS = 10
UNKNOWN = "unknown"


def rows_of(file: Path) -> dict[str, str]:
    """The rows `name: value` of a file; none if it can't be read."""
    try:
        lines = file.read_text(encoding="utf-8").splitlines()
    except (OSError, UnicodeDecodeError):
        return {}
    return dict(line.split(": ", 1) for line in lines if ": " in line)


def said_by_git(clone: Path, *words: str) -> str | None:
    """What git says of a clone; None if it says nothing."""
    import subprocess  # (`--help` needs none of it)

    command = ["git", "-C", str(clone), *words]
    try:
        ran = subprocess.run(
            command, stdin=subprocess.DEVNULL, capture_output=True, text=True, timeout=GIT_SECONDS
        )
    except (OSError, subprocess.TimeoutExpired):
        return None
    return ran.stdout.strip() if ran.returncode == 0 else None


def commit_of(clone: Path) -> str:
    """The commit of a clone, marked if its files were changed since."""
    commit = said_by_git(clone, "rev-parse", "--short=12", "HEAD")
    if not commit:
        return UNKNOWN
    changed = said_by_git(clone, "status", "--porcelain", "--untracked-files=no")
    return commit if changed == "" else f"{commit}+changes"


def rows_of_clone(clone: Path) -> dict[str, str]:
    """What a clone knows of itself: the file VERSION, git, and what the gate left."""
    gate, commit = rows_of(clone / "build/gate"), commit_of(clone)
    last = gate.get("last line", "not run in this clone (.ci/run)")
    if gate and gate.get("commit") != commit:
        last += f" (of commit {gate.get('commit', UNKNOWN)})"
    try:
        version = (clone / "VERSION").read_text(encoding="utf-8").strip()
    except (OSError, UnicodeDecodeError):
        version = UNKNOWN
    return {
        "version": version,
        "commit": commit,
        "kit": gate.get("kit", UNKNOWN),
        "gate": last,
    }


def version_text(host: Path = HOST) -> str:
    """What `--version` prints: the version, and a row for each thing that is known."""
    rows = rows_of(host / "version")
    if not rows and (host.parent / "crates.txt").exists():
        rows = rows_of_clone(host.parent)
    version = rows.pop("version", f"{UNKNOWN}: this copy is neither of a package nor in a clone")
    return "\n".join([f"leafrunt {version}", *(f"{name}: {it}" for name, it in rows.items())])


class Version(argparse.Action):
    """Prints the version, and ends."""

    def __call__(self, parser: argparse.ArgumentParser, *_: object) -> None:
        print(version_text())
        parser.exit()
