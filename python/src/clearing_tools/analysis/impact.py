"""Tells who would hurt whom: what each bank keeps less where one has lost all its cash.

In:   FOLDER, a case, or --banks FILE and --debts FILE, as `clearing` reads them
Out:  CSV on standard output, or in --ranking FILE: `bank,cash,own,others,defaults`, a line for each bank, those first
      that hurt others most. Where the bank loses all its cash, it keeps so much less itself (`own`), the others keep so
      much less together (`others`), and so many others that were sound are in default (`defaults`, which
      `clearing impact` calls `falls`). What a bank keeps is its equity and what it pays outside.
      --matrix FILE     `bank,of,lost`: where `bank` loses all its cash, `of` keeps so much less; a line for each pair
                        where that is not 0
      --defaults FILE   `bank,of,state`: where `bank` loses all its cash, `of`, which was sound, is in that state
      --picture FILE    a heat map of the matrix, the banks that hurt others most first (--most of them, 40). The kind
                        of picture is the ending: .svg, .png or .pdf. It wants matplotlib.
      Of a case with a description the banks that one unit decides are told in a line on standard error.

No bank keeps more then, and what all keep less is exactly the cash that was lost: no unit is lost twice
(cascade::laws::ruin_of_a_bank_costs_its_cash). So own and others come to the cash. The answers are those of
`clearing impact`. In which state a bank is that falls, its claims tell: another bank than the one that is ruined falls
by contagion.

The environment variable CLEARING names the program, the repository's where it is not set.

Ends with 0; 1 where the program fails or a picture cannot be written; 2 where the words are not understood, an output
would be written over an input, or matplotlib is missing; 3 where a file cannot be read; 4 where one is refused; 5
where the output cannot be written; 130 at an interrupt.

Example:
    clearing-impact --banks banks.csv --debts debts.csv --matrix impact.csv --picture impact.svg >ranking.csv
"""
from __future__ import annotations

from types import ModuleType
from typing import TYPE_CHECKING, Dict, Iterable, List, NamedTuple, Set, Tuple

from clearing_client.records import Harm, Ruin
from clearing_client.results import Impact

from .. import cases, cli
from ..drawing import style
from ..drawing.tokens import LIGHT
from ..exports import workbook
from ..fullnames import FullNames
from ..runner import ProgramRuns, command
from . import queries

if TYPE_CHECKING:
    from matplotlib.axes import Axes
    from matplotlib.figure import Figure
    from matplotlib.image import AxesImage


def ranking_of(banks: Iterable[Ruin]) -> List[Ruin]:
    """A record for each bank, the hardest first."""
    return sorted(banks, key=lambda bank: (-bank.others, -bank.falls))


def fallen_of(network: queries.Network, pairs: Iterable[Harm]) -> List[Tuple[str, str, str]]:
    """Who is in default then, and its state. A bank that keeps its cash could still pay if its debtors did. One that
    lost all of it is in default by its own fundamentals, unless what is owed to it would cover what it owes."""
    spare, cash = queries.spare_of(network), dict(zip(network.names, network.cash))
    ruined = {bank for bank, units in spare.items() if units < cash[bank]}
    return [
        (pair.bank, pair.of, "fundamental" if pair.of == pair.bank and pair.bank in ruined else "contagion")
        for pair in pairs
        if pair.falls
    ]


class Heat(NamedTuple):
    """A heat map: the banks of its rows, each of which is ruined, and their cash; the banks of its columns, which keep
    less then; how much less, by the two banks; who is then in default, and was not before; and the message."""

    rows: List[str]
    cash: Dict[str, int]
    columns: List[str]
    lost: Dict[str, Dict[str, int]]
    fallen: Set[Tuple[str, str]]
    message: str

    def share(self, bank: str, of: str) -> float:
        """How much less a bank keeps where another is ruined, as a share of the cash that is gone."""
        return self.lost[bank].get(of, 0) / self.cash[bank]


def heat_of(impact: Impact, ranking: List[Ruin], most: int) -> Heat:
    """A row for each bank that is ruined, a column for each that keeps less then, in the order of the ranking."""
    shown = [record for record in ranking if record.cash][:most]
    lost: Dict[str, Dict[str, int]] = {record.bank: {} for record in shown}
    fallen: Set[Tuple[str, str]] = set()
    for bank, of, units, falls in impact.pairs:
        if bank in lost and units:
            lost[bank][of] = units
        if bank in lost and falls:
            fallen.add((bank, of))
    place = {name: at for at, name in enumerate(impact.banks.column("bank"))}
    weight: Dict[str, int] = {}
    for bank, row in lost.items():
        for of, units in row.items():
            weight[of] = weight.get(of, 0) + (units if of != bank else 0)
    # The columns are those that keep most less by the rows, in the order of the rows.
    rank = {record.bank: at for at, record in enumerate(ranking)}
    columns = sorted(sorted(weight, key=lambda of: (-weight[of], place[of]))[:most], key=lambda of: rank[of])
    count = sum(1 for record in ranking if record.cash)
    left_out = f", the {len(shown)} that hurt others most" if len(shown) < count else ""
    message = f"Where a bank (row) loses all its cash, who keeps less (column){left_out}"
    rows, cash = [record.bank for record in shown], {record.bank: record.cash for record in shown}
    return Heat(rows, cash, columns, lost, fallen, message)


def draw(pyplot: ModuleType, heat: Heat, names: FullNames) -> Figure:
    """The heat map with the names of its banks, which are cut where they are long, and the message above it."""
    rows, columns = heat.rows, heat.columns
    left, below = (style.column_for([names(bank) for bank in banks], 7, 2.0) for banks in (rows, columns))
    wide = max(left + 0.4 + 0.2 * max(len(columns), 6) + 1.5, 6.0)
    head = 0.24 * len(style.lines_for(heat.message, wide - 0.3, 12, True)) + 0.4
    tall = head + 0.2 * max(len(rows), 6) + below + 0.4
    figure, axes = pyplot.subplots(figsize=(wide, tall))
    right = left + 0.4 + 0.2 * max(len(columns), 6)
    bottom = (below + 0.3) / tall
    figure.subplots_adjust(left=(left + 0.4) / wide, right=right / wide, bottom=bottom, top=1 - head / tall)
    style.title(figure, heat.message, "A dot: then in default, and not before.")
    if rows:
        image = fill(pyplot, axes, heat)
        bar = figure.add_axes([(right + 0.2) / wide, bottom, 0.12 / wide, 1 - (head + below + 0.3) / tall])
        title = "share of the cash that is gone"
        figure.colorbar(image, cax=bar, label=title, format=lambda share, _: f"{100 * share:.0f}%")
    of_rows = [style.in_short(names(bank), left + 0.05, 7) for bank in rows]
    of_columns = [style.in_short(names(bank), below + 0.05, 7) for bank in columns]
    axes.set_yticks(range(len(rows)), of_rows, fontsize=7)
    axes.set_xticks(range(len(columns)), of_columns, rotation=90, fontsize=7)
    return figure


def fill(pyplot: ModuleType, axes: Axes, heat: Heat) -> AxesImage:
    """Draws a square for each pair, and a dot where a bank is then in default; gives the squares."""
    cells = [[heat.share(bank, of) for of in heat.columns] for bank in heat.rows]
    shades = [LIGHT["paid-fill"], LIGHT["ink"]]
    colours = pyplot.matplotlib.colors.LinearSegmentedColormap.from_list("unpaid", shades)
    colours.set_under(LIGHT["panel"])
    image = axes.imshow(cells, cmap=colours, vmin=1e-12, vmax=1, aspect="auto", interpolation="nearest")
    pairs = ((x, y, bank, of) for y, bank in enumerate(heat.rows) for x, of in enumerate(heat.columns))
    dots = [(x, y) for x, y, bank, of in pairs if (bank, of) in heat.fallen]
    if dots:
        axes.scatter(*zip(*dots), s=14, color=LIGHT["contagion"], edgecolors=LIGHT["paper"], linewidths=0.7)
    return image


@command()
def main() -> None:
    """The command."""
    parser = cli.case_parser(__doc__)
    parser.add_argument("--ranking", metavar="FILE", help="the ranking, standard output where it is not given")
    parser.add_argument("--matrix", metavar="FILE", help="the matrix to write, in long form")
    parser.add_argument("--defaults", metavar="FILE", help="who is then in default, to write")
    parser.add_argument("--picture", metavar="FILE", help="the heat map to write")
    args = cli.parse_most(parser, "banks the heat map shows", 40)
    taken = cases.take_case(parser, args)
    cli.keep_inputs(cases.inputs_of(taken.case), [args.ranking, args.matrix, args.defaults, args.picture])
    pyplot = style.pyplot_of() if args.picture else None
    runs, files = ProgramRuns(), cli.words_of(taken)
    impact = queries.answer_of(runs, ["impact", *files], Impact)
    ranking, names = ranking_of(impact.banks), cases.marked_names_of(taken.case)
    if args.matrix:
        workbook.write_table(("bank", "of", "lost"), (pair[:3] for pair in impact.pairs if pair.lost), args.matrix)
    if args.defaults:
        fallen = fallen_of(queries.network_of(runs, files), impact.pairs)
        workbook.write_table(("bank", "of", "state"), fallen, args.defaults)
    if pyplot:
        style.save(draw(pyplot, heat_of(impact, ranking, args.most), names), args.picture, folders=False)
    workbook.write_table(("bank", "cash", "own", "others", "defaults"), ranking, args.ranking)
