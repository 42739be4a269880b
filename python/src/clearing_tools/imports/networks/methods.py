"""The networks of some totals, by the method that is asked for: of maximum entropy, sparse, or drawn at random. All in
whole units, with every total kept."""
import importlib
from typing import List, NamedTuple, Optional

from ...runner import lacking
from ..sheet_options import TotalsOptions
from .chain import Settling, sampled
from .claims import Claims, Cut, Draw, Totals
from .sparse import sparsest

MAX_STEPS = 2_000_000


def need_numpy() -> None:
    """Fails where numpy is not there, which maximum entropy wants."""
    try:
        # A folder that numpy has left behind is imported, and has no arrays.
        getattr(importlib.import_module("numpy"), "ndarray")
    except (ImportError, AttributeError) as fault:
        raise lacking("numpy", "all") from fault


class Networks(NamedTuple):
    """The networks that are asked for, each the claims by the places of debtor and creditor; what was cut of the only
    one; and how the chain of samples came to rest."""

    claims: List[Claims]
    cut: Optional[Cut] = None
    settling: Optional[Settling] = None


def networks_of(totals: Totals, args: TotalsOptions, most: int) -> Networks:
    """The networks of the method that is asked for, with so many claims at most where that matters."""
    draw, samples = Draw(args.seed), args.samples or 1
    if args.method == "entropy":
        from .entropy import even  # which has numpy imported

        claims, cut = even(totals, most)
        return Networks([{**totals.fixed_above_zero(), **claims}], cut)
    if args.method == "sparse":
        tries = args.tries or min(20, max(1, 40_000_000 // max(totals.size, 1) ** 3))
        sparse_ones = [sparsest(totals, tries, draw) for _ in range(samples)]
        return Networks([{**totals.fixed_above_zero(), **claims} for claims in sparse_ones])
    steps = args.steps or min(200 * totals.size * totals.size, MAX_STEPS)
    networks, settling = sampled(totals, density_of(totals, args.density, most), steps, samples, draw)
    return Networks([{**totals.fixed_above_zero(), **claims} for claims in networks], None, settling)


def density_of(totals: Totals, density: Optional[float], most: int) -> float:
    """How likely a claim is: as it is said, or 0.3, or less where that would come near the most debts."""
    return density or min(0.3, 0.8 * most / max(totals.size * (totals.size - 1), 1))
