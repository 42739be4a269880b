"""The journal of a run as the steps of the player. It may have millions of raises; what is held of each is four
numbers."""
import array
import csv
from typing import Dict, Iterator, List, Mapping, Tuple, Union

from clearing_client.fields import long_fields

from .. import files
from ..runner import ToolError, StrPath
from ..texts import lines_in


MOST_FRAMES = 2000
MOST_CHANGES = 200_000
Key = Tuple[str, str, str]
Frame = List[Union[int, List[int]]]
"""The first and last line of a step, its first and last stamp, how many raises it has, and what is then paid on the
debts that are raised: a debt's place and an amount in turn."""


class Raises:
    """The raises of a journal, in order: the line, the stamp, the debt's place, and what it is raised to."""

    def __init__(self) -> None:
        self.lines, self.debts = array.array("L"), array.array("L")
        self.stamps, self.amounts = array.array("Q"), array.array("Q")

    def __len__(self) -> int:
        return len(self.lines)

    def add(self, line: int, stamp: int, debt: int, to: int) -> None:
        """Adds a raise."""
        self.lines.append(line)
        self.stamps.append(stamp)
        self.debts.append(debt)
        self.amounts.append(to)

    def rounds(self) -> List[int]:
        """The places at which another stamp begins, and the end."""
        stamps = self.stamps
        return [at for at in range(len(stamps)) if at == 0 or stamps[at] != stamps[at - 1]] + [len(stamps)]


def rows_in(path: StrPath) -> Iterator[Tuple[int, List[str]]]:
    """The records of a journal with their lines, as they are read. A name has no control character, so that LF, CR
    LF and CR alone end a line."""
    rows = csv.reader(part for line in lines_in(path) for part in line.split("\r"))
    with long_fields(files.MOST_BYTES):
        for fields in rows:
            yield rows.line_num, fields


def read_journal(path: StrPath, place: Mapping[Key, int]) -> Raises:
    """The raises of a journal that the program read; `place` tells a debt's place by its debtor, creditor and class."""
    raises = Raises()
    for number, fields in rows_in(path):
        if len(fields) != 5:
            continue
        stamp, debtor, creditor, rank, to = [field.strip(" \t") for field in fields]
        if stamp == "stamp" or not (stamp or to):
            continue
        debt = place.get((debtor, creditor, rank))
        if debt is None:
            raise ToolError(f"{path}: line {number}: no debt of these two banks and this class")
        raises.add(number, int(stamp), debt, int(to))
    return raises


def groups_of(raises: Raises) -> List[Tuple[int, int]]:
    """The first and the end of each step: a raise each, or above some thousand the raises of one or more stamps."""
    if len(raises) <= MOST_FRAMES:
        return [(at, at + 1) for at in range(len(raises))]
    starts = raises.rounds()
    many = max(1, -(-(len(starts) - 1) // MOST_FRAMES))
    while True:
        ends = [*starts[:-1:many], len(raises)]
        groups = list(zip(ends, ends[1:]))
        if many >= len(starts) or sum(len(set(raises.debts[first:end])) for first, end in groups) <= MOST_CHANGES:
            return groups
        many *= 2


def frames_of(raises: Raises) -> List[Frame]:
    """The steps of the player."""
    frames: List[Frame] = []
    for first, end in groups_of(raises):
        last: Dict[int, int] = dict(zip(raises.debts[first:end], raises.amounts[first:end]))
        pairs = [part for pair in last.items() for part in pair]
        lines, stamps = raises.lines, raises.stamps
        frames.append([lines[first], lines[end - 1], stamps[first], stamps[end - 1], end - first, pairs])
    return frames
