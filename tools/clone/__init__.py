"""What this folder is a copy of: the repository's files and its commit, with and without git.

A clone of another owner counts as any other one (git refuses it by itself). In a tarball, or without git, the files are those that git
wouldn't ignore, and the commit is unknown.
"""
import os
import pathlib
import shutil
import subprocess
import tempfile

TOP = pathlib.Path(__file__).resolve().parent.parent.parent
# What .gitignore leaves out, by folders' names, and by paths.
NOT_OURS, MADE = ("out", "__pycache__", ".git"), ("build", "examples/c/build")
UNKNOWN = "unknown"


def git(*words: object) -> list[str] | None:
    """Returns the lines that git prints of this clone, or nothing if it can't say it."""
    if shutil.which("git") is None or not (TOP / ".git").exists():
        return None
    how = {"stdin": subprocess.DEVNULL, "capture_output": True, "text": True, "errors": "surrogateescape"}
    ran = subprocess.run(["git", "-c", f"safe.directory={TOP}", "-c", "core.quotePath=off", "-C", TOP, *words], **how)
    return None if ran.returncode else ran.stdout.splitlines()


def files() -> list[str]:
    """Returns the files that the repository has, or would have once all is added."""
    known = git("ls-files", "--cached", "--others", "--exclude-standard")
    if known is not None:
        return known
    found = []
    for at, folders, names in os.walk(TOP):
        here = os.path.relpath(at, TOP)
        folders[:] = [it for it in folders if it not in NOT_OURS and os.path.normpath(f"{here}/{it}") not in MADE]
        found += [os.path.normpath(f"{here}/{it}") for it in names]
    return sorted(found)


def copied_to(folder: object, *words: str) -> str:
    """Clones this clone into a folder, with these words for `git clone`. Returns why that can't be, or nothing."""
    if git("rev-parse", "HEAD") is None:
        return "this folder is no clone of the repository (a tarball has no .git)"
    with tempfile.NamedTemporaryFile("w", suffix=".gitconfig") as file:
        # (git's other process, which reads this clone, takes it from no command line)
        print(f"[safe]\n\tdirectory = {TOP}\n\tdirectory = {TOP}/.git", file=file, flush=True)
        how = {"env": {**os.environ, "GIT_CONFIG_GLOBAL": file.name}, "stdin": subprocess.DEVNULL, "capture_output": True, "text": True}
        ran = subprocess.run(["git", "clone", "-q", *words, TOP, folder], **how)
    return ran.stderr.strip() or f"git clone: status {ran.returncode}" if ran.returncode else ""


def commit() -> str:
    """Returns the commit, with a mark if files of it were changed since."""
    last, changed = git("rev-parse", "--short=12", "HEAD"), git("status", "--porcelain", "--untracked-files=no")
    return last[0] + ("+changes" if changed else "") if last and changed is not None else UNKNOWN
