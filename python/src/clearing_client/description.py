"""The description of a case, `datapackage.json`: how it is read, and how it is written by the Data Package standard,
version 2."""
from __future__ import annotations

import csv
import dataclasses
import datetime
import hashlib
import importlib.resources
import io
import json
import os
import re
import time
from typing import Dict, List, Mapping, NamedTuple, Optional, Tuple

from .errors import CaseError
from .fields import long_fields
from .format import MAX_CASH, MAX_CLAIM, MAX_OUTSIDE, RULES
from .schema import faults_of

NAME = "datapackage.json"
PROFILE = "https://datapackage.org/profiles/2.0/datapackage.json"
MOST_BYTES = 8_388_608
MOST_DEEP = 64
STANDARD = ("$schema", "name", "title", "description", "created", "version", "contributors", "sources", "resources")
KEYS = (*STANDARD, "clearing")
OURS = ("asOf", "test", "currency", "unit", "limits", "keep", "import", "from")
STEPS = ("read", "leftOut", "summed", "rounded", "converted")
"""What the import of sheets tells of, each in lines."""
LABEL_COLUMNS = ("bank", "short", "full", "group", "country")


Document = Dict[str, object]
"""An object of JSON. What is read of a document that meets the schema has the types that this says; what is not there
is empty."""


def text_in(part: Mapping[str, object], key: str) -> str:
    """A text of a document."""
    value = part.get(key)
    return value if isinstance(value, str) else ""


def text_or_none(part: Mapping[str, object], key: str) -> Optional[str]:
    """A text of a document, None where it is not there."""
    value = part.get(key)
    return value if isinstance(value, str) else None


def texts_in(part: Mapping[str, object], key: str) -> Tuple[str, ...]:
    """A list of texts of a document."""
    value = part.get(key)
    return tuple(value) if isinstance(value, (list, tuple)) else ()


def object_in(part: Mapping[str, object], key: str) -> Document:
    """An object of a document."""
    value = part.get(key)
    return value if isinstance(value, dict) else {}


def objects_in(part: Mapping[str, object], key: str) -> List[Document]:
    """A list of objects of a document."""
    value = part.get(key)
    return list(value) if isinstance(value, (list, tuple)) else []


@dataclasses.dataclass(frozen=True)
class ImportLine:
    """What an import read, left out, summed, rounded or converted: what it is, how many, their sum in the currency of
    the sheet as a decimal number, and where. What is not known is None or empty."""

    what: str
    count: Optional[int] = None
    sum: Optional[str] = None
    where: str = ""

    def as_json(self) -> Document:
        """The line without what is not known."""
        return {key: value for key, value in dataclasses.asdict(self).items() if value not in (None, "")}


class ImportSummary(NamedTuple):
    """How the files of a case were made from sheets: the words of the command, without paths outside the folder, and
    what was read, left out, summed, rounded and converted."""

    command: Tuple[str, ...] = ()
    read: Tuple[ImportLine, ...] = ()
    left_out: Tuple[ImportLine, ...] = ()
    summed: Tuple[ImportLine, ...] = ()
    rounded: Tuple[ImportLine, ...] = ()
    converted: Tuple[ImportLine, ...] = ()

    def as_json(self) -> Document:
        """The summary as it stands in the description."""
        steps = (self.read, self.left_out, self.summed, self.rounded, self.converted)
        lines_of = {key: [line.as_json() for line in lines] for key, lines in zip(STEPS, steps)}
        return {"command": list(self.command), **lines_of}


class Origin(NamedTuple):
    """The case that another was made of: its title, the checksums of its files by their names, and the changes, a line
    each."""

    title: str = ""
    hashes: Mapping[str, str] = {}
    changes: Tuple[str, ...] = ()

    def as_json(self) -> Document:
        """The origin as it stands in the description."""
        return {"title": self.title, "hashes": dict(self.hashes), "changes": list(self.changes)}


def import_of(part: Mapping[str, object]) -> ImportSummary:
    """The summary of an import from what stands in a description that meets the schema."""
    steps = [tuple(map(import_line_of, objects_in(part, step))) for step in STEPS]
    return ImportSummary(texts_in(part, "command"), *steps)


def import_line_of(part: Mapping[str, object]) -> ImportLine:
    """A line of an import from what stands in a description that meets the schema."""
    count = part.get("count")
    number = count if isinstance(count, int) else None
    return ImportLine(text_in(part, "what"), number, text_or_none(part, "sum"), text_in(part, "where"))


def origin_of(part: Mapping[str, object]) -> Origin:
    """The origin from what stands in a description that meets the schema."""
    hashes = {name: str(digest) for name, digest in object_in(part, "hashes").items()}
    return Origin(text_in(part, "title"), hashes, texts_in(part, "changes"))


# Reading


def schema() -> Document:
    """The JSON schema of a description, as it is published with the package."""
    text = importlib.resources.files(__package__).joinpath("case.schema.json").read_text(encoding="utf-8")
    schema: Document = json.loads(text)
    return schema


def parse(data: bytes, folder: str) -> Document:
    """The description of a case in a folder from the bytes of its file. Fails with `CaseError` where it does not meet
    the schema."""
    if len(data) > MOST_BYTES:
        raise CaseError(folder, "", f"{NAME} is longer than {MOST_BYTES:,} bytes")
    check_depth(data, folder)
    try:
        document = json.loads(data.decode("utf-8-sig"), object_pairs_hook=without_twins, parse_constant=no_number)
    except ValueError as fault:
        raise CaseError(folder, "", f"{NAME} is not JSON in UTF-8: {fault}") from fault
    return check(document, folder)


def check(document: object, folder: str) -> Document:
    """A description that meets the schema. Fails with `CaseError` where one does not: its first fault, with the key."""
    for fault in faults_of(document, schema()):
        raise CaseError(folder, fault.key, fault.what)
    if not isinstance(document, dict):
        raise CaseError(folder, "", f"{NAME} is no object")
    as_of = object_in(document, "clearing").get("asOf")
    if as_of is not None:
        date_of(str(as_of), folder)
    paths_of(document, folder)
    return document


def check_depth(data: bytes, folder: str) -> None:
    """Refuses a document that nests deeper than any description, before it is read."""
    depth = most = 0
    for token in re.finditer(rb'"(?:[^"\\]|\\.)*"|[\[{]|[\]}]', data, re.DOTALL):
        sign = token[0]
        if sign in (b"[", b"{"):
            depth, most = depth + 1, max(most, depth + 1)
        elif sign in (b"]", b"}"):
            depth -= 1
        if most > MOST_DEEP:
            raise CaseError(folder, "", f"{NAME} nests deeper than {MOST_DEEP}")


def without_twins(pairs: List[Tuple[str, object]]) -> Document:
    """An object none of whose keys stands twice."""
    values: Document = {}
    for key, value in pairs:
        if key in values:
            raise ValueError(f"the key {key[:80]!r} stands twice")
        values[key] = value
    return values


def no_number(word: str) -> None:
    """Refuses what JSON has not."""
    raise ValueError(f"{word} is not a number")


def date_of(text: str, folder: str = "") -> datetime.date:
    """A date of the form YYYY-MM-DD."""
    try:
        return datetime.date.fromisoformat(text)
    except ValueError as fault:
        raise CaseError(folder, "clearing.asOf", f"{text[:80]!r} is no date YYYY-MM-DD: {fault}") from fault


def paths_of(document: Mapping[str, object], folder: str) -> Dict[str, Document]:
    """The resources of a description by their paths. Fails at a path that leads out of the folder, and at two of one
    path."""
    resources: Dict[str, Document] = {}
    for place, resource in enumerate(objects_in(document, "resources")):
        path = resource.get("path")
        if not isinstance(path, str):
            continue
        if not is_inside(path):
            raise CaseError(folder, f"resources[{place}].path", f"{path[:80]!r} is not a path below the folder")
        if path in resources:
            raise CaseError(folder, f"resources[{place}].path", f"{path[:80]!r} is described twice")
        resources[path] = resource
    return resources


def is_inside(path: str) -> bool:
    """Whether a path is one below the folder, by its words alone: relative, without `..`, no address, no control
    character."""
    parts = path.split("/")
    is_plain = all(part not in ("", ".", "..") for part in parts)
    return is_plain and "\\" not in path and ":" not in parts[0] and not any(ord(letter) < 32 for letter in path)


def unknown_keys(document: Mapping[str, object]) -> List[str]:
    """The keys under `clearing` that are none of ours."""
    ours = object_in(document, "clearing")
    unknown = [f"clearing.{key}" for key in ours if key not in OURS]
    inner = {"import": ("command", *STEPS), "from": ("title", "hashes", "changes")}
    for name, keys in inner.items():
        unknown += [f"clearing.{name}.{key}" for key in object_in(ours, name) if key not in keys]
    return unknown


# Writing


def text_of(document: Mapping[str, object]) -> str:
    """A description as a file: keys in a fixed order, two spaces, a line end."""
    ordered = {key: document[key] for key in KEYS if key in document}
    ordered.update({key: value for key, value in document.items() if key not in ordered})
    ours = document.get("clearing")
    if isinstance(ours, dict):
        known = {key: ours[key] for key in OURS if key in ours}
        ordered["clearing"] = {**known, **{key: ours[key] for key in ours if key not in OURS}}
    return json.dumps(ordered, ensure_ascii=False, indent=2) + "\n"


def hash_of(data: bytes) -> str:
    """The checksum of a file, as the standard writes it."""
    return f"sha256:{hashlib.sha256(data).hexdigest()}"


MOMENT = "SOURCE_DATE_EPOCH"
"""The environment variable that says the moment in place of the clock, so that what is made can be made again."""


def seconds() -> int:
    """This moment in seconds since 1970, or that of the environment variable where it has something in it. Fails where
    that is no number of seconds."""
    epoch = os.environ.get(MOMENT)
    if not epoch:
        return int(time.time())
    if not (epoch.isascii() and epoch.isdigit() and len(epoch) <= 11):
        raise CaseError("", MOMENT, f"{epoch[:80]!r} is not a number of whole seconds since 1970")
    return int(epoch)


def now() -> str:
    """This moment in UTC."""
    return datetime.datetime.fromtimestamp(seconds(), datetime.timezone.utc).strftime("%Y-%m-%dT%H:%M:%SZ")


def name_of(title: str) -> str:
    """A title as a name of the standard: small letters, digits and dashes."""
    return re.sub(r"[^a-z0-9]+", "-", title.lower()).strip("-")[:60] or "case"


MEDIA = {
    "csv": "text/csv",
    "toml": "application/toml",
    "json": "application/json",
    "ods": "application/vnd.oasis.opendocument.spreadsheet",
    "xlsx": "application/vnd.openxmlformats-officedocument.spreadsheetml.sheet",
}


def resource_of(path: str, data: bytes) -> Document:
    """A file of a case as a resource of its description."""
    name, _, ending = path.rpartition("/")[2].rpartition(".")
    resource: Document = {"name": name if "/" not in path else re.sub(r"[\s/]+", "-", path), "path": path}
    if ending == "csv":
        resource["type"] = "table"
    resource["format"] = ending
    if ending in MEDIA:
        resource["mediatype"] = MEDIA[ending]
    if ending in ("csv", "toml", "json"):
        resource["encoding"] = "utf-8"
    resource.update(bytes=len(data), hash=hash_of(data))
    table = table_schema(path, data)
    if table:
        resource["schema"] = table
    return resource


def table_schema(path: str, data: bytes) -> Optional[Document]:
    """The table schema of one of the files by its header, or nothing where it has none of the headers."""
    header = header_of(data)
    fields = FIELDS.get(path)
    if fields is None or not header or any(column not in fields for column in header) or len(set(header)) < len(header):
        return None
    schema_of_table: Document = {"fields": [field_of(column, fields[column]) for column in header]}
    if path == "banks.csv":
        schema_of_table["primaryKey"] = ["name"]
    if path == "labels.csv":
        schema_of_table["primaryKey"] = ["bank"]
    keys = [column for column in ("debtor", "creditor", "bank") if column in header]
    if keys:
        banks = {"resource": "banks", "fields": ["name"]}
        schema_of_table["foreignKeys"] = [{"fields": [key], "reference": banks} for key in keys]
    return schema_of_table


def header_of(data: bytes) -> List[str]:
    """The first record of a file, without blanks at the ends of its fields."""
    text = data[:4096].decode("utf-8-sig", "replace").replace("\r", "\n")
    with long_fields(len(text)):
        return [field.strip(" \t") for field in next(iter(csv.reader(io.StringIO(text))), [])]


NAME_RULES = {"required": True, "minLength": 1, "maxLength": 64}
FIELDS: Dict[str, Dict[str, str]] = {
    "banks.csv": {"name": "key", "cash": "cash", "rule": "rule", "outside": "outside"},
    "debts.csv": {"debtor": "name", "creditor": "name", "class": "class", "claim": "claim"},
    "labels.csv": {"bank": "key", "short": "text", "full": "text", "group": "text", "country": "text"},
}
"""The columns of the files, each with what it is."""
RANGES = {"cash": (0, MAX_CASH), "outside": (0, MAX_OUTSIDE), "class": (1, 9), "claim": (0, MAX_CLAIM)}
"""The least and the most that a number of the files may be, by both limits."""


def field_of(column: str, kind: str) -> Document:
    """A column as a field of a table schema."""
    if kind == "text":
        return {"name": column, "type": "string"}
    if kind in ("key", "name"):
        unique = {"unique": True} if kind == "key" else {}
        return {"name": column, "type": "string", "constraints": {**NAME_RULES, **unique}}
    if kind == "rule":
        return {"name": column, "type": "string", "constraints": {"required": True, "enum": list(RULES)}}
    least, most = RANGES[kind]
    return {"name": column, "type": "integer", "constraints": {"required": True, "minimum": least, "maximum": most}}
