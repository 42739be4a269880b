"""Claims in whole units that keep totals: what all methods that make a network of totals stand on."""
from collections import deque
from typing import Callable, Dict, List, NamedTuple, Optional, Sequence, Tuple

from ..generated import Pcg32

Pair = Tuple[int, int]
"""The places of debtor and creditor."""
Claims = Dict[Pair, int]


class Cut(NamedTuple):
    """What was left out of a network so that it has no more claims than it may: how many, how many units they are, and
    the largest."""

    number: int
    units: int
    largest: int


class Draw:
    """Numbers from 0 to below 1 by the generator that also draws the networks of `clearing gen`."""

    def __init__(self, seed: int) -> None:
        self.generator = Pcg32(seed, 0)

    def random(self) -> float:
        """The next number."""
        return self.generator.word() / 2**32


class Totals:
    """What each bank owes and is owed in whole units, both of one sum, beside the claims that are known, by the places
    of debtor and creditor."""

    def __init__(self, names: List[str], owes: List[int], owed: List[int]) -> None:
        self.names, self.owes, self.owed = names, owes, owed
        self.fixed: Claims = {}
        self.sum, self.size = sum(owes), len(names)

    def is_open(self, debtor: int, creditor: int) -> bool:
        """Whether a claim is left to be made."""
        return debtor != creditor and (debtor, creditor) not in self.fixed

    def fixed_above_zero(self) -> Claims:
        """The known claims that are there."""
        return {pair: claim for pair, claim in self.fixed.items() if claim}

    def left(self) -> Tuple[List[int], List[int]]:
        """What each bank owes and is owed beside the known claims."""
        owes, owed = list(self.owes), list(self.owed)
        for (debtor, creditor), claim in self.fixed.items():
            owes[debtor] -= claim
            owed[creditor] -= claim
        return owes, owed


class Step(NamedTuple):
    """A step of a path: a claim of a row that rises, and the column whose claim on that row gives way, but for the
    first row."""

    row: int
    column: int
    back: Optional[int]


class Completion:
    """Claims to which what is left of the totals is added, by rows and by columns. `near` has the open columns of each
    row, where they are few."""

    def __init__(
        self,
        owes: Sequence[int],
        owed: Sequence[int],
        is_open: Callable[[int, int], bool],
        claims: Claims,
        near: Optional[Sequence[Sequence[int]]] = None,
    ) -> None:
        self.owes, self.owed, self.is_open = list(owes), list(owed), is_open
        self.near = near or [range(len(self.owed))] * len(self.owes)
        self.rows: List[Dict[int, int]] = [{} for _ in self.owes]
        self.columns: List[Dict[int, int]] = [{} for _ in self.owed]
        for (row, column), claim in claims.items():
            self.move(row, column, claim)

    def move(self, row: int, column: int, change: int) -> None:
        """Changes a claim, which goes where it is 0 then."""
        claim = self.rows[row].get(column, 0) + change
        if claim:
            self.rows[row][column] = self.columns[column][row] = claim
        else:
            del self.rows[row][column], self.columns[column][row]

    def add_largest(self) -> None:
        """Adds what is left, the largest first, as far as it goes without a claim that gives way."""
        owes, owed = self.owes, self.owed
        order = sorted((at for at in range(len(owed)) if owed[at]), key=lambda at: -owed[at])
        for row in sorted(range(len(owes)), key=lambda at: -owes[at]):
            for column in order:
                if not owes[row]:
                    break
                part = min(owes[row], owed[column])
                if part and self.is_open(row, column):
                    self.move(row, column, part)
                    owes[row] -= part
                    owed[column] -= part
            order = [column for column in order if owed[column]]

    def add_along_paths(self, start: int) -> bool:
        """Brings what a row has left to columns that lack it, along paths of claims that give way. Says whether all of
        it could go."""
        while self.owes[start]:
            path = self.path_from(start)
            if path is None:
                return False
            end = path[0].column
            giving = [self.rows[row][back] for row, _, back in path if back is not None]
            part = min([self.owes[start], self.owed[end], *giving])
            for row, column, back in path:
                self.move(row, column, part)
                if back is not None:
                    self.move(row, back, -part)
            self.owes[start] -= part
            self.owed[end] -= part
        return True

    def path_from(self, start: int) -> Optional[List[Step]]:
        """A shortest path from a row to a column that lacks something, its last step first; or None."""
        before_row: Dict[int, Optional[int]] = {start: None}
        before_column: Dict[int, int] = {}
        edge = deque([start])
        while edge:
            row = edge.popleft()
            for column in self.near[row]:
                if column in before_column or not self.is_open(row, column):
                    continue
                before_column[column] = row
                if self.owed[column]:
                    return path_to(column, before_row, before_column)
                for other in self.columns[column]:
                    if other not in before_row and self.is_open(other, column):
                        before_row[other] = column
                        edge.append(other)
        return None

    def claims(self) -> Claims:
        """All claims by their pairs."""
        return {(row, column): claim for row, line in enumerate(self.rows) for column, claim in line.items()}


def path_to(end: int, before_row: Dict[int, Optional[int]], before_column: Dict[int, int]) -> List[Step]:
    """The path to a column, its last step first, by what came before each row and each column."""
    path: List[Step] = []
    at: Optional[int] = end
    while at is not None:
        row = before_column[at]
        path.append(Step(row, at, before_row[row]))
        at = before_row[row]
    return path


def complete(
    owes: Sequence[int],
    owed: Sequence[int],
    is_open: Callable[[int, int], bool],
    claims: Claims,
    near: Optional[Sequence[Sequence[int]]] = None,
) -> bool:
    """Adds to claims what is left of the totals: the largest first, and then along paths of claims that give way. Says
    whether the totals are met; where no network has them, they are not. `near` has the open columns of each row, where
    they are few."""
    completion = Completion(owes, owed, is_open, claims, near)
    completion.add_largest()
    met = all(completion.add_along_paths(row) for row in range(len(owes)) if completion.owes[row])
    claims.clear()
    claims.update(completion.claims())
    return met


def some_network(totals: Totals) -> Optional[Claims]:
    """Claims beside the known ones that keep the totals, or None where there are none."""
    claims: Claims = {}
    return claims if complete(*totals.left(), totals.is_open, claims) else None
