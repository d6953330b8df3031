"""The JSON Schemas of host/schemas, and a reader of the few keywords that they use (JSON Schema,
draft 2020-12): so that documents are checked by them wherever the tests run."""
from __future__ import annotations

import json
import re
from collections.abc import Iterator
from pathlib import Path
from typing import Any

FOLDER = Path(__file__).resolve().parents[1] / "schemas"
TYPES: dict[str, type | tuple[type, ...]] = {
    "object": dict,
    "array": list,
    "string": str,
    "integer": int,
    "number": (int, float),
    "boolean": bool,
    "null": type(None),
}
TOLD = {"$schema", "$id", "$defs", "title", "description"}
CHECKED = {
    "$ref",
    "anyOf",
    "type",
    "const",
    "enum",
    "pattern",
    "minimum",
    "maximum",
    "properties",
    "required",
    "additionalProperties",
    "items",
}


def schema(kind: str) -> dict[str, Any]:
    """The schema of a document."""
    read: dict[str, Any] = json.loads((FOLDER / f"{kind}.json").read_text(encoding="utf-8"))
    return read


def is_of(value: object, name: str) -> bool:
    """Whether a value has a type of JSON: to Python true is a number too."""
    if isinstance(value, bool):
        return name == "boolean"
    return isinstance(value, TYPES[name])


def faults(whole: dict[str, Any], value: Any) -> list[str]:
    """What of a document isn't as its schema has it. A field that no schema names is a fault too:
    whoever reads the schema doesn't know of it."""
    return list(_faults(whole, whole, value, "it"))


def _faults(whole: dict[str, Any], part: dict[str, Any], value: Any, at: str) -> Iterator[str]:
    if unknown := set(part) - TOLD - CHECKED:
        raise ValueError(f"this reader of schemas doesn't know {sorted(unknown)}")
    if "$ref" in part:
        name = part["$ref"].removeprefix("#/$defs/")
        yield from _faults(whole, whole["$defs"][name], value, at)
    if "anyOf" in part and all(list(_faults(whole, each, value, at)) for each in part["anyOf"]):
        yield f"{at}: none of the forms: {value!r}"
    types = part.get("type", list(TYPES))
    if not any(is_of(value, each) for each in ([types] if isinstance(types, str) else types)):
        yield f"{at}: not {types}: {value!r}"
    elif isinstance(value, dict):
        yield from _faults_of_object(whole, part, value, at)
    elif isinstance(value, list):
        for number, each in enumerate(value):
            yield from _faults(whole, part.get("items", {}), each, f"{at}[{number}]")
    else:
        yield from _faults_of_one(part, value, at)


def _faults_of_one(part: dict[str, Any], value: Any, at: str) -> Iterator[str]:
    if "const" in part and value != part["const"]:
        yield f"{at}: not {part['const']!r}: {value!r}"
    if "enum" in part and value not in part["enum"]:
        yield f"{at}: none of {part['enum']}: {value!r}"
    if "pattern" in part and isinstance(value, str) and not re.search(part["pattern"], value):
        yield f"{at}: not by {part['pattern']}: {value!r}"
    if isinstance(value, (int, float)):
        if not part.get("minimum", value) <= value <= part.get("maximum", value):
            yield f"{at}: out of range: {value}"


def _faults_of_object(
    whole: dict[str, Any], part: dict[str, Any], value: dict[str, Any], at: str
) -> Iterator[str]:
    named = part.get("properties", {})
    for name in part.get("required", []):
        if name not in value:
            yield f"{at}: no {name}"
    for name, each in value.items():
        its = named.get(name, part.get("additionalProperties"))
        if its is None and "properties" in part:
            yield f"{at}: {name} is in no schema"
        else:
            yield from _faults(whole, its or {}, each, f"{at}.{name}")
