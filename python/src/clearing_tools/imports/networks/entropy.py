"""The network of maximum entropy of some totals, in whole units with every total kept. It wants numpy."""
from __future__ import annotations

from collections import deque
from typing import TYPE_CHECKING, List, Optional, Tuple

import numpy

from ...runner import Progress
from .claims import Claims, Cut, Pair, Totals, complete, some_network

if TYPE_CHECKING:
    from numpy.typing import NDArray

    Reals = NDArray[numpy.float64]
    Units = NDArray[numpy.int64]
    Cells = NDArray[numpy.bool_]
    """Which cells of a matrix are meant, such as those that are open."""

# How often claims are fitted to the totals at most: all of them, and those that are left of too many.
FITTING, FITTING_ANEW = 10_000, 200


def fitted(totals: Totals, support: Cells, most: int = FITTING) -> Reals:
    """The real matrix of maximum entropy on the cells of a support, by iterative proportional fitting."""
    owes, owed = (numpy.array(side, dtype=float) for side in totals.left())
    matrix: Reals = numpy.multiply(numpy.outer(owes, owed), support, dtype=numpy.float64)
    progress = Progress("round of the fit", most)
    for _ in range(most):
        for axis, want in ((1, owes), (0, owed)):
            have = matrix.sum(axis=axis)
            scale = numpy.divide(want, have, out=numpy.zeros_like(want), where=have > 0)
            matrix *= scale[:, None] if axis else scale[None, :]
        progress.one_more()
        if numpy.abs(matrix.sum(axis=1) - owes).max(initial=0) <= 1e-7:
            break
    progress.end()
    return matrix


def support_of(totals: Totals) -> Cells:
    """The cells that are open."""
    support: Cells = ~numpy.eye(totals.size, dtype=bool)
    for debtor, creditor in totals.fixed:
        support[debtor, creditor] = False
    return support


def whole(matrix: Reals, totals: Totals, support: Cells) -> Claims:
    """Claims in whole units with exactly the totals: each cell rounded down, and up where most was cut off, one in each
    row and column of those that are cut off alike; where units are left a cell that is rounded up gives way to others.
    Each claim so is its cell rounded down or up, as is always possible (the rounding of Cox 1987), but where the fit is
    not close."""
    cells = numpy.floor(matrix + 1e-6).astype(numpy.int64)
    owes, owed = (numpy.array(side) for side in totals.left())
    rows, columns = owes - cells.sum(axis=1), owed - cells.sum(axis=0)
    take_back(cells, rows, columns)
    cut = numpy.where(support, matrix - cells, -1.0)
    raised = numpy.zeros(cells.shape, dtype=bool)
    places = numpy.arange(totals.size)
    beside = (places[None, :] - places[:, None]) % max(totals.size, 1)
    for flat in numpy.lexsort((beside.ravel(), -numpy.round(cut, 6).ravel())):
        row, column = divmod(int(flat), totals.size)
        if rows[row] > 0 and columns[column] > 0 and cut[row, column] > 1e-6:
            raised[row, column] = True
            rows[row] -= 1
            columns[column] -= 1
    give_way(cut > 1e-6, raised, rows, columns)
    cells += raised
    claims = {(int(r), int(c)): int(cells[r, c]) for r, c in zip(*numpy.nonzero(cells))}
    near = [numpy.flatnonzero(line).tolist() for line in support]
    open_ = support.tolist()
    complete(rows.tolist(), columns.tolist(), lambda row, column: bool(open_[row][column]), claims, near)
    return claims


def give_way(can_rise: Cells, raised: Cells, rows: Units, columns: Units) -> None:
    """Raises cells by one, each once, for the rows and columns that still lack units: along paths on which cells rise
    and raised cells fall back in turn."""
    for start in map(int, numpy.flatnonzero(rows > 0)):
        while rows[start] > 0 and (path := path_of(start, can_rise, raised, columns)):
            for at, (row, column) in enumerate(path):
                raised[row, column] = at % 2 == 0
            rows[start] -= 1
            columns[path[0][1]] -= 1


def path_of(start: int, can_rise: Cells, raised: Cells, columns: Units) -> List[Pair]:
    """The cells of a shortest path from a column that lacks a unit back to a row, or nothing: each second of them is
    raised."""
    from_row, from_column = numpy.full(len(columns), -1), numpy.full(len(columns), -1)
    edge, seen = deque([start]), numpy.zeros(len(columns), dtype=bool)
    seen[start] = True
    while edge:
        row = edge.popleft()
        fresh = numpy.flatnonzero(can_rise[row] & ~raised[row] & (from_row < 0))
        from_row[fresh] = row
        for column in map(int, fresh):
            if columns[column] > 0:
                path = [(row, column)]
                while row != start:
                    path.append((row, int(from_column[row])))
                    row = int(from_row[from_column[row]])
                    path.append((row, path[-1][1]))
                return path
            for other in map(int, numpy.flatnonzero(raised[:, column] & ~seen)):
                seen[other] = True
                from_column[other] = column
                edge.append(other)
    return []


def take_back(cells: Units, rows: Units, columns: Units) -> None:
    """Takes units from rows and columns that have too many."""
    for row in numpy.flatnonzero(rows < 0):
        while rows[row] < 0:
            column = int(cells[row].argmax())
            cells[row, column] -= 1
            rows[row] += 1
            columns[column] += 1
    for column in numpy.flatnonzero(columns < 0):
        while columns[column] < 0:
            row = int(cells[:, column].argmax())
            cells[row, column] -= 1
            rows[row] += 1
            columns[column] += 1


def even(totals: Totals, most: int) -> Tuple[Claims, Optional[Cut]]:
    """The claims of the network of maximum entropy in whole units, and what was cut: the count, the sum and the largest
    of the claims that were left out so that no more than `most` are there. Beside claims by which the totals can be
    kept, the largest stay, and are fitted anew."""
    support = support_of(totals)
    claims = whole(fitted(totals, support), totals, support)
    if len(claims) + len(totals.fixed) <= most:
        return claims, None
    claims_kept = some_network(totals) or {}
    for pair in sorted(claims, key=lambda pair: (-claims[pair], pair)):
        if len(claims_kept) + len(totals.fixed) >= most:
            break
        claims_kept.setdefault(pair, 0)
    support[:] = False
    for debtor, creditor in claims_kept:
        support[debtor, creditor] = True
    lost = [claim for pair, claim in claims.items() if pair not in claims_kept]
    fitted_anew = whole(fitted(totals, support, FITTING_ANEW), totals, support)
    return fitted_anew, Cut(len(lost), sum(lost), max(lost, default=0))
