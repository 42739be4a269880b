"""Full names of banks: what --labels reads, a file `code,name`, and what a bank is called then."""
import argparse
import collections
import csv
import io
from typing import Dict, Iterable, Mapping, Optional

from clearing_client.fields import long_fields
from clearing_client.steady import MARK

from . import files
from .runner import ToolError, shown

HEADER = ["code", "name"]


class FullNames:
    """The full names of some banks. Called with a name it gives the full one alone, as people have it; where two
    banks have the same, the name of the files stands behind it. `marked` has the banks that one unit decides: a mark
    stands behind what they are called."""

    def __init__(self, full: Optional[Mapping[str, str]] = None, marked: Iterable[str] = ()) -> None:
        self.full: Dict[str, str] = {code: name for code, name in (full or {}).items() if name and name != code}
        times = collections.Counter(self.full.values())
        self.twice = {name for name, number in times.items() if number > 1}
        self.marked = set(marked)

    def __call__(self, name: str) -> str:
        return self.without_mark(name) + (f" {MARK}" if name in self.marked else "")

    def without_mark(self, name: str) -> str:
        """What a bank is called."""
        full = self.full.get(name)
        if full is None:
            return name
        return f"{full} ({name})" if full in self.twice else full

    def of(self, name: str) -> str:
        """The full name of a bank alone, or nothing."""
        return self.full.get(name, "")

    def check(self, names: Iterable[str], status: int = 1) -> "FullNames":
        """Fails with this status where a bank has the name that another one has with its full name."""
        names = set(names)
        for name in names & self.full.keys():
            if self.without_mark(name) in names:
                raise ToolError(f"with its full name the bank {shown(name)!r} is called as another bank is", status)
        return self


def add_labels(parser: argparse.ArgumentParser) -> None:
    """The word --labels of a tool that shows banks."""
    parser.add_argument(
        "--labels", metavar="FILE", help="a CSV file code,name: full names, shown in place of the names of the files"
    )


def read_labels(name: Optional[str], status: int = 1) -> FullNames:
    """The full names of a file `code,name`; none where no file is named. Codes are not looked at. Fails with this
    status where it is no such file."""
    if name is None:
        return FullNames()
    try:
        text = files.text_of(name)
        with long_fields(len(text)):
            rows = list(csv.reader(io.StringIO(text, newline=""), strict=True))
    except csv.Error as fault:
        raise ToolError(f"{name}: {fault}", status) from fault
    rows = [[field.strip(" \t") for field in row] for row in rows if row]
    if not rows or rows[0] != HEADER:
        raise ToolError(f"{name}: the first row is not {','.join(HEADER)}", status)
    full: Dict[str, str] = {}
    for at, row in enumerate(rows[1:], 1):
        if len(row) != 2:
            raise ToolError(f"{name} row {at}: {len(row)} fields in place of 2", status)
        if row[0] in full:
            raise ToolError(f"{name} row {at}: {shown(row[0])!r} has a full name already", status)
        full[row[0]] = row[1]
    return FullNames(full)


def text_of(full: FullNames) -> str:
    """The file of some full names."""
    text = io.StringIO()
    csv.writer(text, lineterminator="\n").writerows([HEADER, *full.full.items()])
    return text.getvalue()
