"""The document of a scenarios file, and what is wrong with its shape."""
from __future__ import annotations

import difflib
import re
from typing import Dict, Iterator, List, Mapping, Tuple

from ..evidence import bounds
from .field_hints import MOST_HINTS

# What is wrong with a document that is not parsed at all, and a hint.
BEYOND = {
    "toml": (f"it has a value within more than {bounds.MOST_DEEP} others, or a key of more parts", ""),
    "shape": (
        f"it has more than {bounds.MOST_OTHERS:,} tables or points that no scenario has",
        "the document has [[scenario]] and [[scenario.loss]] alone",
    ),
}


class DocumentError(Exception):
    """Why a file is no document of scenarios: the line, what is wrong, a hint, and the kind of the fault."""

    def __init__(self, line: int, what: str, hint: str, kind: str) -> None:
        super().__init__(what)
        self.line, self.what, self.hint, self.kind = line, what, hint, kind


def document_of(data: bytes) -> Dict[str, object]:
    """The document of a scenarios file."""
    import tomllib

    try:
        text = data.decode("utf-8")
    except UnicodeDecodeError as error:
        hint = "save the file as UTF-8"
        line = data.count(b"\n", 0, error.start) + 1
        raise DocumentError(line, f"it is not UTF-8 at byte {error.start:,}", hint, "toml") from error
    beyond = bounds.fault_of(text.removeprefix("\ufeff"))
    if beyond:
        raise DocumentError(1, *BEYOND[beyond], beyond)
    try:
        document: Dict[str, object] = tomllib.loads(text.removeprefix("\ufeff"))
    except (tomllib.TOMLDecodeError, RecursionError, ValueError) as error:
        place = re.search(r"at line ([0-9]+)", str(error))
        line = int(place[1]) if place else text.count("\n") + ("at end" in str(error))
        hint = toml_hint(text.split("\n")[line - 1 : line])
        raise DocumentError(line, f"it is not TOML: {error}", hint, "toml") from error
    if any(not -(2**63) <= number < 2**63 for number in numbers_in(document)):
        raise DocumentError(1, "it is not TOML: it has a whole number of more than 64 bits", "", "toml")
    return document


def toml_hint(lines: List[str]) -> str:
    """What to do about a line that is not TOML."""
    line = lines[0] if lines else ""
    if re.search("[\u201c\u201d\u201e\u00ab\u00bb]", line):
        return 'quotes are straight: "'
    if re.search(r"=\s*[0-9.,']+[,'][0-9]", line):
        return "write the number without separators between thousands"
    if re.search(r"=\s*[^\s\"'\[{0-9+-]", line):
        return "a text stands between quotes"
    return ""


def numbers_in(document: object) -> Iterator[int]:
    """The whole numbers in a document."""
    waiting = [document]
    while waiting:
        value = waiting.pop()
        if isinstance(value, dict):
            waiting.extend(value.values())
        elif isinstance(value, list):
            waiting.extend(value)
        elif isinstance(value, int) and not isinstance(value, bool):
            yield value


def is_whole(value: object) -> bool:
    """Whether a value is a whole number."""
    return isinstance(value, int) and not isinstance(value, bool)


def lines_of_scenarios(data: bytes, count: int) -> List[int]:
    """The line of each scenario, 0 where that cannot be told."""
    lines = data.removeprefix(b"\xef\xbb\xbf").split(b"\n")
    heads = [at for at, line in enumerate(lines, 1) if re.match(rb"[ \t]*\[\[[ \t]*scenario[ \t]*\]\]", line)]
    return heads if len(heads) == count else [0] * count


def shape_faults(scenario: object) -> Iterator[Tuple[str, str, str]]:
    """What is wrong with the shape of a scenario: the field, what it is, and a hint."""
    if not isinstance(scenario, dict):
        yield "", "the scenario is no table", "write [[scenario]] and its keys below"
        return
    yield from key_faults(scenario, "the scenario", {"name": str, "cut": int, "loss": list}, ["name"])
    losses = scenario.get("loss", [])
    for loss in losses if isinstance(losses, list) else []:
        if isinstance(loss, dict):
            yield from key_faults(loss, "a loss", {"bank": str, "amount": int}, ["bank", "amount"])
        else:
            yield "loss", "a loss is no table", "write [[scenario.loss]], and bank and amount below"


def key_faults(
    table: Mapping[str, object], what: str, kinds: Dict[str, type], required: List[str]
) -> Iterator[Tuple[str, str, str]]:
    """Keys that a table may not have, lacks, or has with another kind of value."""
    for at, key in enumerate(table):
        if key not in kinds:
            close = difflib.get_close_matches(key.casefold()[:100], kinds, 1) if at < MOST_HINTS else []
            hint = f"is it {close[0]}?" if close else f"its keys are {', '.join(kinds)}"
            yield key, f"{what} has a key {key!r}", hint
    for key in required:
        if key not in table:
            yield key, f"{what} has no {key}", ""
    words = {
        str: "a text between quotes",
        int: "a whole number, without quotes or a point",
        list: "an array of tables, [[scenario.loss]]",
    }
    for key, kind in kinds.items():
        value = table.get(key)
        if key in table and not (is_whole(value) if kind is int else isinstance(value, kind)):
            yield key, f"{key} is not {words[kind]}", ""
