"""The records of a file as the program reads them, each with the line on which it begins."""
from __future__ import annotations

import re
from dataclasses import dataclass
from typing import Iterator, List, Tuple


@dataclass
class Record:
    """A record of a file: the line on which it begins, its row, and its fields without spaces and tabs at their
    ends."""

    line: int
    row: int
    fields: List[bytes]


PLAIN = re.compile(rb"[^,\r\n]*")
LINE_ENDS = re.compile(rb"[\r\n]*")
LINE_END = re.compile(rb"\r\n|\r|\n")


def quoted_field(data: bytes, at: int) -> Tuple[bytes, int]:
    """The field that begins with a quote just before a place, and the place behind it. Two quotes are one; what follows
    a closing quote belongs to the field as it stands."""
    parts: List[bytes] = []
    while True:
        quote = data.find(b'"', at)
        if quote < 0:
            return b"".join(parts) + data[at:], len(data)
        parts.append(data[at:quote])
        if data[quote + 1 : quote + 2] != b'"':
            rest = plain_field(data, quote + 1)
            return b"".join(parts) + rest, quote + 1 + len(rest)
        parts.append(b'"')
        at = quote + 2


def plain_field(data: bytes, at: int) -> bytes:
    """The field without quotes that begins at a place."""
    match = PLAIN.match(data, at)
    return match[0] if match else b""


def records_of(data: bytes) -> Iterator[Record]:
    """The records of a file: fields between commas, lines that end with LF, CR LF or CR, none for a line with no
    byte."""
    at = counted = 3 if data.startswith(b"\xef\xbb\xbf") else 0
    line, row = 1, 0
    while True:
        ends = LINE_ENDS.match(data, at)
        at = ends.end() if ends else at
        if at == len(data):
            return
        line += len(LINE_END.findall(data, counted, at))
        counted = at
        fields = []
        while True:
            if data[at : at + 1] == b'"':
                field, at = quoted_field(data, at + 1)
            else:
                field = plain_field(data, at)
                at += len(field)
            fields.append(field.strip(b" \t"))
            if data[at : at + 1] != b",":
                break
            at += 1
        yield Record(line, row, fields)
        row += 1


def is_closing(record: Record) -> bool:
    """Whether a record closes a journal, where it is the last."""
    return (
        len(record.fields) == 2
        and record.fields[0] == b"rounds"
        and 1 <= len(record.fields[1]) <= 20
        and record.fields[1].isdigit()
    )
