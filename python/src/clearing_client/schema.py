"""Checks a document against a JSON schema: the words of the standard that the schema of a case uses, and no others."""
from __future__ import annotations

import re
from typing import Callable, Dict, Iterator, Mapping, NamedTuple, Sequence

PASSED_OVER = ("$schema", "title", "description", "definitions", "required", "additionalProperties")
"""Words that say nothing of a value, or that are read with `properties`."""


class SchemaFault(NamedTuple):
    """What is wrong in a document: the key, such as `clearing.unit` or `resources[0].path`, and what."""

    key: str
    what: str

    def __str__(self) -> str:
        return f"{self.key}: {self.what}" if self.key else self.what


Schema = Mapping[str, object]


def schema_in(schema: Schema, key: str) -> Schema:
    """What a schema has under a key: a schema, or several by their names; nothing where it has none."""
    value = schema.get(key)
    return value if isinstance(value, dict) else {}


def faults_of(document: object, schema: Schema) -> Iterator[SchemaFault]:
    """What is wrong in a document, in its order."""
    return _faults(document, schema, schema, "")


def _faults(value: object, schema: Schema, whole: Schema, key: str) -> Iterator[SchemaFault]:
    if "$ref" in schema:
        schema = schema_in(schema_in(whole, "definitions"), str(schema["$ref"]).removeprefix("#/definitions/"))
    for word, expected in schema.items():
        if word not in PASSED_OVER and word not in WORDS and word not in ("properties", "items"):
            raise ValueError(f"the schema has the word {word}, which is not read here")
        if word in WORDS:
            what = WORDS[word](value, expected)
            if what:
                yield SchemaFault(key, what)
                return
    if isinstance(value, dict):
        yield from _faults_of_object(value, schema, whole, key)
    if isinstance(value, list) and "items" in schema:
        for place, one in enumerate(value):
            yield from _faults(one, schema_in(schema, "items"), whole, f"{key}[{place}]")


def _faults_of_object(value: Schema, schema: Schema, whole: Schema, key: str) -> Iterator[SchemaFault]:
    for name in listed(schema.get("required", [])):
        if name not in value:
            yield SchemaFault(key, f"it has no key {name}")
    known, others = schema_in(schema, "properties"), schema.get("additionalProperties", True)
    for name, one in value.items():
        if name in known:
            yield from _faults(one, schema_in(known, name), whole, f"{key}.{name}" if key else name)
        elif isinstance(others, dict):
            yield from _faults(one, others, whole, f"{key}.{name}" if key else name)


TYPES: Dict[object, Callable[[object], bool]] = {
    "object": lambda value: isinstance(value, dict),
    "array": lambda value: isinstance(value, list),
    "string": lambda value: isinstance(value, str),
    "integer": lambda value: isinstance(value, int) and not isinstance(value, bool),
}


def number_of(value: object) -> int:
    """A whole number of a schema."""
    if not isinstance(value, int):
        raise ValueError(f"the schema has {shown(value)} in place of a whole number")
    return value


def listed(value: object) -> Sequence[str]:
    """A list of texts of a schema."""
    if not isinstance(value, list):
        raise ValueError(f"the schema has {shown(value)} in place of a list")
    return value


def _type(value: object, kind: object) -> str:
    return "" if TYPES[kind](value) else f"{shown(value)} is not of the type {kind}"


def _enum(value: object, values: object) -> str:
    return "" if value in listed(values) else f"{shown(value)} is not one of {', '.join(listed(values))}"


def _pattern(value: object, pattern: object) -> str:
    form = str(pattern).replace("$", r"\Z")
    is_it = not isinstance(value, str) or re.search(form, value, re.ASCII)
    return "" if is_it else f"{shown(value)} is not of the form {pattern}"


def _minimum(value: object, least: object) -> str:
    is_below = isinstance(value, int) and not isinstance(value, bool) and value < number_of(least)
    return f"{shown(value)} is below {least}" if is_below else ""


def _maximum(value: object, most: object) -> str:
    is_above = isinstance(value, int) and not isinstance(value, bool) and value > number_of(most)
    return f"{shown(value)} is above {most}" if is_above else ""


def _min_items(value: object, least: object) -> str:
    is_short = isinstance(value, list) and len(value) < number_of(least)
    return f"it has fewer than {least} in it" if is_short else ""


WORDS: Dict[str, Callable[[object, object], str]] = {
    "type": _type,
    "enum": _enum,
    "pattern": _pattern,
    "minimum": _minimum,
    "maximum": _maximum,
    "minItems": _min_items,
}


def shown(value: object) -> str:
    """The beginning of a value, as it stands in a message."""
    text = repr(value)
    return text if len(text) <= 80 else f"{text[:80]}..."
