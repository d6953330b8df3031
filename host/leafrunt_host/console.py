"""`leafrunt console`: lines from a terminal or a pipe to a box, and its answers."""
from __future__ import annotations

import io
import os
import re
import sys
from collections.abc import Iterable
from pathlib import Path
from types import ModuleType
from typing import TextIO

from leafrunt_host.client import REFUSED, Client
from leafrunt_host.meanings import hint
from leafrunt_host.statuses import Status
from leafrunt_host.words import first_words, help_lines

HISTORY = ".leafrunt_history"
MOST_HISTORY = 1000
HOOKS = ["count", "tag", "price", "veto"]
LEAVING = ("quit", "exit")
FAILURES = {
    Status.FAILED: re.compile(r"cannot |failed: "),
    Status.MEMORY: re.compile(r"out of memory$"),
    Status.REFUSED: re.compile(r"refused|unknown$|(object|code) refusal "),
}
"""How answers begin by which a line isn't done (docs/use/OPERATING.md, docs/reference/FORMATS.md)."""


def asked(client: Client, line: str) -> list[str]:
    """The answer to a line. A path is this process's to find: it is passed on from the root, and a
    file to capture to is opened here."""
    word, _, rest = line.partition(" ")
    if line in ("help", "?"):
        return help_lines()
    if word == "attach" and rest and not rest.startswith("/"):
        return client.ask(f"attach {os.path.abspath(rest)}")
    if word == "capture" and rest and rest != "off":
        return captured(client, rest)
    return client.ask(line)


def captured(client: Client, name: str) -> list[str]:
    """Starts a capture to a new file, which this process's user may write."""
    path = os.path.abspath(name)
    try:
        descriptor = os.open(path, os.O_WRONLY | os.O_CREAT | os.O_EXCL | os.O_CLOEXEC, 0o600)
    except OSError as error:
        return [f"{REFUSED}cannot make {path}: {error.strerror}"]
    try:
        answer = client.ask(f"capture {path}", descriptor)
    finally:
        os.close(descriptor)
    if answer and answer[0].startswith(REFUSED):
        os.unlink(path)
    return answer


def console(client: Client, lines: Iterable[str], output: TextIO) -> Status:
    """Answers each line, until one leaves or ends the box, or there is none any more. The status is
    that of the first one that is refused or fails."""
    worst = Status.DONE
    for line in lines:
        line = line.rstrip("\n")
        if line in LEAVING:
            break
        if not line.strip():
            continue
        answer = asked(client, line)
        print(*answer, sep="\n", file=output, flush=True)
        if len(answer) == 1 and (meant := hint(line, answer[0])):
            # (beside the answer: whoever reads standard output gets what `routerd` says alone)
            print(f"({meant})", file=sys.stderr, flush=True)
        worst = worst or status_of(answer)
        if line == "down":
            print(*client.answer(), sep="\n", file=output, flush=True)
            break
    return worst


def status_of(answer: list[str]) -> Status:
    """How the command ends whose line is answered so, as `routerd`'s own do."""
    said = answer[0] if answer else ""
    return next((status for status, form in FAILURES.items() if form.match(said)), Status.DONE)


def typed_lines(prompt: str) -> Iterable[str]:
    """The lines of a terminal, with history, completion and editing."""
    import readline

    history = Path(os.path.expanduser("~")) / HISTORY
    try:
        readline.read_history_file(history)
    except OSError:
        pass  # there is none yet, or it isn't ours
    readline.set_history_length(MOST_HISTORY)
    readline.set_completer_delims(" ")
    readline.set_completer(completion)
    readline.parse_and_bind("tab: complete")
    try:
        while True:
            try:
                yield input(prompt).strip()
            except KeyboardInterrupt:
                print()
            except EOFError:
                print()
                return
    finally:
        save_history(readline, history)


def save_history(readline: ModuleType, history: Path) -> None:
    """Keeps the lines for the next time, for their owner alone."""
    try:
        os.close(os.open(history, os.O_WRONLY | os.O_CREAT | os.O_NOFOLLOW | os.O_CLOEXEC, 0o600))
        readline.write_history_file(history)
    except OSError:
        pass  # a home that can't be written keeps no history


def completion(text: str, state: int) -> str | None:
    """What a word may become, one after the other: a command, a hook, a path."""
    import readline

    before = readline.get_line_buffer()[: readline.get_begidx()].split()
    choices = completions(before, text)
    return choices[state] if state < len(choices) else None


def completions(before: list[str], text: str) -> list[str]:
    """What the last word of a line, of which `text` is typed, may become."""
    if not before:
        return [each for each in first_words() if each.startswith(text)]
    if len(before) > 1:
        return []
    if before[0] == "detach":
        return [each for each in HOOKS if each.startswith(text)]
    if before[0] == "capture":
        return [each for each in ["off"] if each.startswith(text)] + paths(text)
    return paths(text) if before[0] == "attach" else []


def paths(text: str) -> list[str]:
    """The paths that begin like this; a folder's ends with a slash."""
    folder, _, start = text.rpartition("/")
    at = f"{folder}/" if "/" in text else ""
    try:
        found = sorted(each for each in os.listdir(at or ".") if each.startswith(start))
    except OSError:
        return []
    return [f"{at}{each}{'/' if os.path.isdir(at + each) else ''}" for each in found]


def run(client: Client, commands: list[str]) -> Status:
    """The command `console`: these lines, or those of standard input."""
    if commands:
        return console(client, commands, sys.stdout)
    if isinstance(sys.stdin, io.TextIOWrapper):
        # (bytes that are no text are no command either, which the box says)
        sys.stdin.reconfigure(errors="replace")
    if sys.stdin.isatty():
        print(f"box {client.box}: `help` lists what can be asked, `quit` leaves")
        console(client, typed_lines(f"{client.box}> "), sys.stdout)
        return Status.DONE
    return console(client, sys.stdin, sys.stdout)
