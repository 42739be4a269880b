"""The map of which banks default in which scenarios: a row for each scenario, a column for each bank that does."""
from types import ModuleType
from typing import TYPE_CHECKING, Callable, Dict, List, Sequence, Tuple

from .. import labels
from ..stress_text import Scenario
from ..texts import Bank, due_of, given_by, shortfall_of
from . import style
from .tokens import LIGHT

if TYPE_CHECKING:
    from matplotlib.figure import Figure

WIDE, TALL, BELOW = 0.68, 0.42, 1.0  # inches: of a cell, and of what stands below all
MOST_LEFT, MOST_ABOVE = 2.6, 1.5  # inches of a scenario's name, in two lines, and of a bank's, which leans
GAP, LEAST_WIDE = 0.4, 7.0  # inches between names and cells, and of the whole at least
LEAN, LEAN_UP, LEAN_ASIDE = 60, 0.87, 0.5  # degrees, and what of a leaning name goes up and aside
NAMES, NUMBERS = 9, 8  # the sizes of letters, in points
CELL = (0.04, 0.05, 0.92, 0.9)  # of a cell its ground: from the left and from above, its width and height
STRIP = (0.1, 0.7, 0.8, 0.16)  # likewise the strip of what is paid and unpaid
LEAST_STRIP = 0.03  # of a strip, what is unpaid at least


def columns_of(scenarios: Sequence[Scenario]) -> List[str]:
    """The banks that default in some scenario, those that do most often first, and then by what they leave unpaid."""
    weight: Dict[str, Tuple[int, int]] = {}
    for name in scenarios[0].banks:
        standings = [scenario.banks[name] for scenario in scenarios]
        defaults = defaults_in(standings)
        if defaults:
            weight[name] = (-defaults, -sum(map(shortfall_of, standings)))
    return sorted(weight, key=weight.__getitem__)


def title_of(scenarios: Sequence[Scenario], columns: Sequence[str], shown: Sequence[str]) -> str:
    """The message of the map."""
    banks, one = len(scenarios[0].banks), len(columns) == 1
    left_out = f"; the first {len(shown)} are shown" if len(shown) < len(columns) else ""
    times = labels.count(len(scenarios), "scenario")
    return (
        f"{len(columns):,} of {labels.count(banks, 'bank')} {'defaults' if one else 'default'} in at least"
        f" one of {times}{left_out}"
    )


def defaults_in(standings: Sequence[Bank]) -> int:
    """How many of some banks are in default."""
    return sum(bank.state != "sound" for bank in standings)


class Map:
    """The figure, in inches: room for the names at the left and above, a cell for each scenario and bank, margins,
    and a legend."""

    def __init__(
        self,
        pyplot: ModuleType,
        scenarios: Sequence[Scenario],
        shown: Sequence[str],
        message: str,
        say: Callable[[str], str] = str,
    ) -> None:
        self.pyplot, self.scenarios, self.shown, self.called = pyplot, scenarios, shown, say
        self.left = style.column_for([scenario.name for scenario in scenarios], NAMES, MOST_LEFT)
        self.above = style.column_for([say(name) for name in shown], NAMES, MOST_ABOVE)
        self.columns = max(len(shown), 1)
        self.figure, self.axes = pyplot.subplots(figsize=self.size(message))
        self.lay()
        style.title(self.figure, message)

    def size(self, message: str) -> Tuple[float, float]:
        """How wide and tall the figure is."""
        aside = max(1.1, self.above * LEAN_ASIDE)
        wide = max(self.left + GAP + WIDE * self.columns + aside, LEAST_WIDE)
        head = 0.24 * len(style.lines_for(message, wide - 0.3, 12, True)) + 0.3
        return wide, head + self.above * LEAN_UP + 0.3 + TALL * len(self.scenarios) + BELOW

    def lay(self) -> None:
        """The axes within the figure: a unit for each cell."""
        wide, tall = self.figure.get_size_inches()
        rows, left = len(self.scenarios), (self.left + GAP) / wide
        right, top = left + WIDE * self.columns / wide, (BELOW + TALL * rows) / tall
        self.figure.subplots_adjust(left=left, right=right, bottom=BELOW / tall, top=top)
        self.axes.set(xlim=(0, self.columns), ylim=(rows, 0), xticks=[])
        self.axes.tick_params(length=0)
        self.axes.spines[:].set_visible(False)

    def box(self, x: float, y: float, size: Tuple[float, float], ground: str, edge: str) -> None:
        """A box within the axes, by the names of its colours."""
        colours = {"facecolor": LIGHT[ground], "edgecolor": LIGHT[edge]}
        self.axes.add_patch(self.pyplot.Rectangle((x, y), *size, linewidth=0.6, **colours))

    def cell(self, column: int, row: int, bank: Bank) -> None:
        """What a bank leaves unpaid in a scenario: a strip of the accent, above it the number and the mark of its
        label."""
        x, y, wide, tall = CELL
        self.box(column + x, row + y, (wide, tall), "panel" if bank.state == "sound" else "paper", "rule")
        self.strip(column, row, bank)
        if bank.state != "sound":
            due, unpaid = due_of(bank), shortfall_of(bank)
            self.axes.plot([column + 0.17], [row + 0.36], **style.mark_of(bank.state, 6))
            how = {"ha": "right", "va": "center", "fontsize": NUMBERS, "color": LIGHT["ink"]}
            self.axes.text(column + 0.93, row + 0.38, labels.percent(unpaid, due), **how)

    def strip(self, column: int, row: int, bank: Bank) -> None:
        """What of all that a bank owes is unpaid; nothing of one that owes nothing."""
        x, y, wide, tall = STRIP
        due, paid = due_of(bank), given_by(bank)
        if not due:
            return
        self.box(column + x, row + y, (wide, tall), "paid-fill", "paid-fill")
        if paid < due:
            share = max((due - paid) / due, LEAST_STRIP)
            self.box(column + x, row + y, (wide * share, tall), "unpaid", "unpaid")

    def scenario_names(self) -> None:
        """The names of the scenarios, and the defaults of each in the margin."""
        names = [style.name_of(scenario.name, self.left + 0.1, NAMES) for scenario in self.scenarios]
        self.axes.set_yticks([row + 0.5 for row in range(len(names))], names, fontsize=NAMES)
        for row, scenario in enumerate(self.scenarios):
            self.sum_at(self.columns + 0.15, row + 0.5, defaults_in(list(scenario.banks.values())))

    def bank_names(self) -> None:
        """The names of the banks, which lean, and the defaults of each in the margin."""
        rows = len(self.scenarios)
        how = {"fontsize": NAMES, "color": LIGHT["ink"], "va": "baseline", "ha": "left", "rotation": LEAN}
        for column, name in enumerate(self.shown):
            standings = [scenario.banks[name] for scenario in self.scenarios]
            self.sum_at(column + 0.5, rows + 0.35, defaults_in(standings), ha="center")
            short = style.in_short(self.called(name), self.above + 0.05)
            self.axes.text(column + 0.4, -0.15, short, rotation_mode="anchor", **how)
        words = {"va": "center", "fontsize": NUMBERS, "color": LIGHT["ink-2"]}
        self.axes.text(self.columns + 0.15, rows + 0.35, "defaults", **words)

    def sum_at(self, x: float, y: float, count: int, ha: str = "left") -> None:
        """A number of defaults in a margin."""
        self.axes.text(x, y, count, va="center", ha=ha, fontsize=NAMES, color=LIGHT["ink"])

    def legend(self) -> None:
        """What marks and strips mean."""
        line, box = self.pyplot.Line2D, self.pyplot.Rectangle
        marks = [line([], [], linestyle="", **style.mark_of(state, 7)) for state in ("fundamental", "contagion")]
        boxes = [box((0, 0), 1, 1, facecolor=LIGHT[ground]) for ground in ("unpaid", "paid-fill")]
        words = ["label own fundamentals", "label contagion", "unpaid: the number", "paid"]
        wide, tall = self.figure.get_size_inches()
        place = 0.05 / wide, 0.02 / tall
        self.figure.legend(
            marks + boxes, words, loc="lower left", bbox_to_anchor=place, ncol=2, frameon=False, fontsize=9
        )


def draw(
    pyplot: ModuleType, scenarios: Sequence[Scenario], most: int, say: Callable[[str], str] = str
) -> "Figure":
    """The map, with at most so many banks; `say` gives what a bank of a name is called."""
    columns = columns_of(scenarios)
    shown = columns[:most]
    stress_map = Map(pyplot, scenarios, shown, title_of(scenarios, columns, shown), say)
    for row, scenario in enumerate(scenarios):
        for column, name in enumerate(shown):
            stress_map.cell(column, row, scenario.banks[name])
    stress_map.scenario_names()
    stress_map.bank_names()
    stress_map.legend()
    return stress_map.figure
