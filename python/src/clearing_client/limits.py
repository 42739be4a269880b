"""How much a network may have: the standard limits, and the wide ones that `--limits wide` takes. Whatever repeats a
limit takes it from here."""
from __future__ import annotations

import itertools
import os
from typing import Dict, List, Mapping, NamedTuple, Optional

STANDARD, WIDE = "standard", "wide"


class Limits(NamedTuple):
    """How many banks, debts, units owed together, and raises of a journal there may be, and bytes of each file."""

    banks: int
    debts: int
    owed: int
    raises: int
    bytes: Mapping[str, int]


def sizes_of(network: int, journal: int) -> Dict[str, int]:
    """How many bytes each file may have. Scenarios have one limit."""
    return {"banks": network, "debts": network, "scenarios": 8_388_608, "journal": journal}


LIMITS: Dict[str, Limits] = {
    STANDARD: Limits(1_000, 20_000, 10_000_000, 10_000_000, sizes_of(8_388_608, 1_600_000_000)),
    WIDE: Limits(10_000, 1_000_000, 25_000_000, 25_000_000, sizes_of(167_772_160, 4_000_000_000)),
}
"""The limits by the words of the option `--limits`."""

MOST = LIMITS[WIDE]
"""No file is longer by any limits."""


def words_of(limits: Optional[str]) -> List[str]:
    """The words of a command line for some limits: none for the standard ones, which the program takes without."""
    return [] if limits in (None, STANDARD) else ["--limits", str(limits)]


def needed(banks: bytes, debts: bytes) -> str:
    """The limits that two files need: the standard ones where these are enough, else the wide ones."""
    return WIDE if beyond(banks, debts) else STANDARD


def beyond(banks: bytes, debts: bytes) -> Optional[str]:
    """What passes the standard limits, in words behind `as it has`, or nothing. What is no network passes none of them,
    for the program to refuse."""
    limits = LIMITS[STANDARD]
    for file, data, most in (("banks", banks, limits.banks), ("debts", debts, limits.debts)):
        if len(data) > limits.bytes[file]:
            return f"a {file} file of more than {limits.bytes[file]:,} bytes"
        if has_more(data, most):
            return f"more than {most:,} {file}"
    return f"claims of more than {limits.owed:,} units" if owed_in(debts) > limits.owed else None


def long_file(**names: str) -> Optional[str]:
    """The file that is longer than the standard limits have it, in words, without reading it; or nothing."""
    for file, name in names.items():
        most = LIMITS[STANDARD].bytes[file]
        if os.path.getsize(name) > most:
            return f"a {file} file of more than {most:,} bytes"
    return None


def of_counts(banks: int, debts: int, owed: int) -> str:
    """The limits that a network of so many banks and debts needs, whose claims come to so much."""
    limits = LIMITS[STANDARD]
    return STANDARD if banks <= limits.banks and debts <= limits.debts and owed <= limits.owed else WIDE


def has_more(data: bytes, most: int) -> bool:
    """Whether a file has more than so many records below its header."""
    if data.count(b"\n") + data.count(b"\r") <= most:
        return False
    records = (line for line in data.splitlines() if line.strip(b', \t"'))
    return next(itertools.islice(records, most + 1, None), None) is not None


def owed_in(debts: bytes) -> int:
    """What all claims of a debts file come to, as far as they are numbers."""
    fields = (line.rpartition(b",")[2].strip(b' \t"') for line in debts.splitlines()[1:])
    return sum(int(field) for field in fields if len(field) <= 20 and field.isdigit())
