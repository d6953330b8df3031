"""The commands that list what a box has: the console's lines, or with `--json` a document."""
from __future__ import annotations

import argparse
import json
from collections.abc import Iterator
from contextlib import contextmanager
from typing import TYPE_CHECKING

from leafrunt_host.client import Client, list_of, own_answer
from leafrunt_host.statuses import Stopped
from leafrunt_host.tables import shown

if TYPE_CHECKING:
    from leafrunt_host.kernel import Json


def json_answer(client: Client, line: str) -> Json:
    """A box's answer in JSON, which is one line. `Stopped` if it is no object of JSON."""
    from leafrunt_host import documents  # (only who asks for JSON waits for it)

    lines = own_answer(client.ask(line))
    try:
        read = json.loads("".join(lines))
    except (ValueError, RecursionError):
        read = None
    if not isinstance(read, dict):
        raise Stopped(documents.OTHER_VERSION.format(client.box))
    return read


def box_status(client: Client) -> Json:
    """A box's status."""
    from leafrunt_host import documents

    return documents.status_read(client.box, json_answer(client, "status json"))


UNEXPECTED = (ArithmeticError, AttributeError, LookupError, OSError, TypeError, ValueError)
"""What comes of a value that nobody expects; an `OSError` of a moment that the system can't tell."""


@contextmanager
def understood(box: str) -> Iterator[None]:
    """A box that says something in a form that nobody expects is an error like any other."""
    try:
        yield
    except UNEXPECTED as error:
        said = f"the box {box} says something that leafrunt doesn't know"
        raise Stopped(f"{said} ({type(error).__name__}: {shown(str(error))})") from error


def document_of(client: Client, kind: str, rest: list[str]) -> Json:
    """The document of a list; `rest` is what the command was given after its name."""
    from leafrunt_host.documents import DOCUMENTS

    if kind not in DOCUMENTS:
        return json_answer(client, " ".join([kind, "json", *rest]))
    lines = list_of(client.ask(kind))
    with understood(client.box):
        return DOCUMENTS[kind](box_status(client), lines)


def listed(client: Client, words: argparse.Namespace) -> list[str]:
    """What a command prints that lists something: the words of the command line say what."""
    kind = str(words.command)
    rest = [str(words.id)] if kind == "database" and words.id else []
    rest += [words.destination] if kind == "why" else []
    if kind == "changes":
        rest += [str(words.prefix)] if words.prefix else []
        rest += ["since", words.since.replace(" ", "_")] if words.since else []
    if words.json:
        return [json.dumps(document_of(client, kind, rest), indent=2)]
    return list_of(client.ask(" ".join([kind, *rest])))
