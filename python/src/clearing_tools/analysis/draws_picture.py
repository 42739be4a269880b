"""The picture of draws: how often so many banks default and so much is unpaid, and which banks default most often."""
from __future__ import annotations

from collections import Counter
from types import ModuleType
from typing import TYPE_CHECKING, Callable, Dict, List, NamedTuple, Sequence

from ..drawing import style
from ..drawing.tokens import LIGHT
from ..money import Money

if TYPE_CHECKING:
    from matplotlib.axes import Axes
    from matplotlib.figure import Figure

MOST_NAMED = 15
"""So many banks are named in a picture at most."""


class Often(NamedTuple):
    """What a bank is called, in how many draws it defaults, and in how many by its own fundamentals."""

    called: str
    defaults: int
    fundamental: int


def quantile(numbers: Sequence[int], percent: int) -> int:
    """The least number that at least so many of a hundred do not pass; the numbers are in order."""
    return numbers[max(0, -(-len(numbers) * percent // 100) - 1)]


def draw_picture(
    pyplot: ModuleType, defaults: List[int], unpaid: List[int], often: Sequence[Often], seed: int, money: Money
) -> Figure:
    """Two histograms, with the quantiles of 5, 50 and 95 of a hundred, and the banks that default most often."""
    figure, (by_count, by_amount, by_bank) = pyplot.subplots(1, 3, figsize=(16, 4.6), layout="constrained")
    width = max(1, -(-(max(defaults) - min(defaults) + 1) // 60))
    starts = range(min(defaults), max(defaults) + 1, width)
    counts = Counter((number - min(defaults)) // width for number in defaults)
    middles, heights = [start + (width - 1) / 2 for start in starts], [counts[at] for at in range(len(starts))]
    by_count.bar(middles, heights, width=0.9 * width, color=LIGHT["contagion"])
    by_count.xaxis.get_major_locator().set_params(integer=True)
    by_count.xaxis.set_major_formatter(lambda number, _: f"{number:,.0f}")
    by_count.set_xlim(min(defaults) - 1, max(defaults) + width)
    by_count.set_xlabel("banks in default")
    scale = money.short_scale_of(unpaid)
    bins = min(30, max(unpaid) - min(unpaid) + 1)
    by_amount.hist(unpaid, bins=bins, color=LIGHT["fundamental"], rwidth=0.9)
    by_amount.xaxis.get_major_locator().set_params(nbins=5)
    by_amount.xaxis.set_major_formatter(lambda units, _: scale.number(round(units)))
    by_amount.set_xlabel(f"unpaid in the network, {scale.words or 'in the currency'}")
    for axes, numbers in ((by_count, defaults), (by_amount, unpaid)):
        mark_quantiles(axes, numbers)
        axes.set_ylabel("draws")
        axes.spines[["top", "right"]].set_visible(False)
    draw_often(by_bank, often, len(defaults))
    title = f"{len(defaults):,} draws from the seed {seed}; lines: the quantiles of 5, 50 and 95 of a hundred"
    figure.suptitle(title, fontsize=10)
    return figure


def mark_quantiles(axes: Axes, numbers: List[int]) -> None:
    """Lines at the quantiles of 5, 50 and 95 of a hundred."""
    lines: Dict[int, List[str]] = {}
    for percent in (5, 50, 95):
        lines.setdefault(quantile(sorted(numbers), percent), []).append(str(percent))
    for at, percents in lines.items():
        axes.axvline(at, color=LIGHT["ink"], linewidth=0.8, linestyle="-" if "50" in percents else ":")
        text = ", ".join(percents) + "%"
        axes.text(at, 1.0, text, transform=axes.get_xaxis_transform(), ha="center", va="bottom", fontsize=7)


def draw_often(axes: Axes, often: Sequence[Often], draws: int) -> None:
    """A bar for each of the banks that default most often: in how many of the draws, and in how many by its own
    fundamentals."""
    shown = often[:MOST_NAMED]
    places = range(len(shown))
    axes.barh(places, [bank.defaults for bank in shown], color=LIGHT["contagion"], label="by contagion")
    alone = [bank.fundamental for bank in shown]
    axes.barh(places, alone, color=LIGHT["fundamental"], label="by own fundamentals")
    axes.set_yticks(places, [style.in_short(bank.called, 3.2, 8) for bank in shown], fontsize=8)
    axes.invert_yaxis()
    axes.set_xlim(0, draws)
    axes.xaxis.get_major_locator().set_params(nbins=5, integer=True)
    axes.xaxis.set_major_formatter(lambda number, _: f"{number:,.0f}")
    more = f"; {len(often) - len(shown):,} banks more" if len(often) > len(shown) else ""
    axes.set_xlabel(f"draws in which a bank defaults{more}")
    axes.spines[["top", "right"]].set_visible(False)
    if shown:
        axes.legend(loc="lower left", bbox_to_anchor=(-0.01, 0.99), ncol=2, frameon=False, fontsize=8)


def often_of(
    names: Sequence[str], short: Sequence[int], fundamental: Sequence[int], called: Callable[[str], str]
) -> List[Often]:
    """The banks that default in some draw, those that do most often first."""
    banks = map(Often, map(called, names), short, fundamental)
    return sorted((one for one in banks if one.defaults), key=lambda one: -one.defaults)
