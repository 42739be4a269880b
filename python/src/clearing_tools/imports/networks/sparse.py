"""Networks of few claims of some totals, in whole units with every total kept. They are drawn from a generator of their
own, by whole numbers and the four operations alone, so that a number makes the same networks for good."""
from bisect import bisect_right
from itertools import accumulate
from typing import List, Sequence

from ...runner import Progress
from .claims import Claims, Draw, Pair, Totals, complete


def sparse(totals: Totals, draw: Draw) -> Claims:
    """One run of loading pairs of banks until nothing is left: a pair is drawn the more likely the more what one has
    left differs from the other, and loads all that both have left."""
    owes, owed = totals.left()
    claims: Claims = {}
    misses = 0
    debtors = [at for at in range(totals.size) if owes[at]]
    creditors = sorted((at for at in range(totals.size) if owed[at]), key=lambda at: owed[at])
    while debtors and creditors and misses < 200:
        debtor, creditor = drawn_pair(debtors, creditors, owes, owed, draw)
        if not totals.is_open(debtor, creditor):
            misses += 1
            continue
        misses, load = 0, min(owes[debtor], owed[creditor])
        claims[debtor, creditor] = claims.get((debtor, creditor), 0) + load
        owes[debtor] -= load
        owed[creditor] -= load
        if not owes[debtor]:
            debtors.remove(debtor)
        creditors.remove(creditor)
        if owed[creditor]:
            creditors.insert(bisect_right([owed[at] for at in creditors], owed[creditor]), creditor)
    complete(owes, owed, totals.is_open, claims)
    return claims


def drawn_pair(debtors: List[int], creditors: List[int], owes: List[int], owed: List[int], draw: Draw) -> Pair:
    """A pair of a debtor and a creditor, as likely as what one has left is a multiple of what the other has; creditors
    are in the order of what they have."""
    sizes = [owed[at] for at in creditors]
    inverse = [0.0, *accumulate(1 / size for size in sizes)]
    sums = [0, *accumulate(sizes)]
    likely = []
    for debtor in debtors:
        at, size = bisect_right(sizes, owes[debtor]), owes[debtor]
        likely.append(size * inverse[at] + (sums[-1] - sums[at]) / size)
    debtor = debtors[place_in(likely, draw)]
    size = owes[debtor]
    return debtor, creditors[place_in([size / other if other <= size else other / size for other in sizes], draw)]


def place_in(weights: Sequence[float], draw: Draw) -> int:
    """A place drawn by weights."""
    sums = list(accumulate(weights))
    return min(bisect_right(sums, draw.random() * sums[-1]), len(sums) - 1)


def sparsest(totals: Totals, tries: int, draw: Draw) -> Claims:
    """The one of fewest claims of so many runs."""
    progress = Progress("run", tries)
    best = sparse(totals, draw)
    progress.one_more()
    for _ in range(tries - 1):
        claims = sparse(totals, draw)
        best = claims if len(claims) < len(best) else best
        progress.one_more()
    progress.end()
    return best
