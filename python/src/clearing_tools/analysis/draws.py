"""Draws scenarios at random, and tells how many banks default and how many units are left unpaid.

In:   FOLDER, a case, or --banks FILE and --debts FILE, as `clearing` reads them
      --moments FILE   what may be lost, as CSV: `of,mean,deviation` and a line for each bank that may lose, or for the
                       word `cut`, a cut of all cash per mille (a bank of that name cannot be given). Columns behind,
                       each named as a line is, have the correlations: all of them, symmetric, 1 on the diagonal.
                       Without them losses are independent. Draws are normal, rounded to whole units and kept between 0
                       and 1,000 for the cut, and at least 0 and at most the bank's cash for a loss.
      --past FILE      in its place losses that came about, as CSV: a header of a word, then banks or `cut`, and a line
                       for each time, with its name first. A draw takes a line at random, so that what was lost together
                       is lost together.
      --relative       losses of banks are per mille of their cash, and not units
      --draws N        how many scenarios are drawn, 1 to 100,000 (1,000)
      --seed S         the number that the draws are made from (1): the same number gives the same draws
Out:  CSV on standard output, or in --output FILE, three tables with empty lines between:
      `of,least,q1,q5,q25,median,q75,q95,q99,greatest,mean` for the defaults, those by a bank's own fundamentals, the
      units unpaid in the network, those unpaid outside, and the cash lost; a quantile q is the least number that at
      least q of a hundred draws do not pass; `defaults,draws`, in how many draws so many banks default; and
      `bank,fundamental,contagion`, in how many draws each bank does.
      --each FILE      `draw,cut,lost,defaults,fundamental,unpaid,outside_unpaid`, a line for each draw
      --picture FILE   histograms of defaults and of what is unpaid, and the banks that default most often, by their
                       full names where the case has them; amounts are in its currency. The kind of picture is the
                       ending: .svg, .png or .pdf. It wants matplotlib.
      The banks of a case that one unit decides are told on standard error, and marked in the picture.

Each draw is a scenario of `clearing outcomes`, a hundred of them a run, so that each answer is that of the least
payments of the network that the scenario leaves (clear_top, the row of `outcomes`). What the draws say of chance is
worth what the numbers given are worth.

The environment variable CLEARING names the program, the repository's where it is not set.

Ends with 0; 1 where the program fails or a picture cannot be written; 2 where the words are not understood, an output
would be written over an input, or matplotlib is missing; 3 where a file cannot be read; 4 where one is refused; 5 where
the output cannot be written; 130 at an interrupt.

Example:
    clearing-draws --banks banks.csv --debts debts.csv --moments moments.csv --draws 2000 --picture draws.svg >draws.csv
"""
from __future__ import annotations

import argparse
import operator
import random
from collections import Counter
from decimal import Decimal
from typing import Dict, Iterable, List, NamedTuple, Sequence, Tuple, Union

from clearing_client.records import ScenarioSums

from .. import cases, cli
from ..drawing import style
from ..exports import workbook
from ..runner import ProgramRuns, command, work_folder
from . import queries
from .draws_picture import draw_picture, often_of, quantile
from .losses import Draw, Moments, Past, draw_of

QUANTILES = {"q1": 1, "q5": 5, "q25": 25, "median": 50, "q75": 75, "q95": 95, "q99": 99}


class Answers(NamedTuple):
    """What the program says of some draws: the sums of each draw by the draw, and for each bank in how many draws it
    defaults, and in how many by its own doing."""

    sums: Dict[Draw, ScenarioSums]
    defaults: List[int]
    fundamental: List[int]


def answers_of(runs: ProgramRuns, files: List[str], network: queries.Network, draws: List[Draw]) -> Answers:
    """What the program says of draws. What is drawn twice is asked for once, so that the scenarios of a run are drawn
    equally often."""
    often = Counter(draws)
    different = list(often)
    texts = [
        queries.scenario_text(draw.cut, [(network.names[place], loss) for place, loss in draw.losses])
        for draw in different
    ]
    groups: List[List[int]] = []
    for times in sorted(set(often.values())):
        groups += queries.scenario_groups([at for at, draw in enumerate(different) if often[draw] == times], texts)
    with work_folder() as folder:
        outcomes = queries.outcomes(runs, folder, files, texts, groups)
    sums: Dict[Draw, ScenarioSums] = {}
    causes = [[0] * len(network.names) for _ in range(2)]
    for group, outcome in zip(groups, outcomes):
        sums.update(zip((different[at] for at in group), outcome.scenarios))
        times = often[different[group[0]]]
        for counts, column in zip(causes, ("defaults", "fundamental")):
            counts[:] = map(operator.add, counts, (times * count for count in outcome.banks.column(column)))
    return Answers(sums, *causes)


def summary(name: str, numbers: List[int]) -> Sequence[object]:
    """The quantiles of some numbers, with the least, the greatest and the mean."""
    numbers = sorted(numbers)
    mean = Decimal(f"{sum(numbers) / len(numbers):.3f}")
    return (name, numbers[0], *(quantile(numbers, percent) for percent in QUANTILES.values()), numbers[-1], mean)


def parse_args() -> Tuple[argparse.Namespace, cases.Taken]:
    """The words of the tool, and the case that they mean."""
    parser = cli.case_parser(__doc__)
    losses = parser.add_mutually_exclusive_group(required=True)
    losses.add_argument("--moments", metavar="FILE", help="means, deviations and correlations of losses")
    losses.add_argument("--past", metavar="FILE", help="losses that came about")
    parser.add_argument("--relative", action="store_true", help="losses are per mille of a bank's cash")
    parser.add_argument(
        "--draws", metavar="N", type=cli.number_in(1, 100_000), default=1000, help="how many scenarios are drawn (1000)"
    )
    parser.add_argument(
        "--seed", metavar="S", type=cli.number_in(0, 2**64 - 1), default=1, help="what the draws are made from (1)"
    )
    parser.add_argument("--output", metavar="FILE", help="the tables, standard output where it is not given")
    parser.add_argument("--each", metavar="FILE", help="a line for each draw, to write")
    parser.add_argument("--picture", metavar="FILE", help="the histograms to write")
    args = parser.parse_args()
    return args, cases.take_case(parser, args)


def drawn(args: argparse.Namespace, network: queries.Network) -> List[Draw]:
    """The draws that are asked for."""
    places = {name: place for place, name in enumerate(network.names)}
    source: Union[Moments, Past] = Moments(args.moments, places) if args.moments else Past(args.past, places)
    chance = random.Random(args.seed)
    return [draw_of(network, places, source.names, source.draw(chance), args.relative) for _ in range(args.draws)]


def columns_of(network: queries.Network, answers: Iterable[ScenarioSums]) -> Dict[str, List[int]]:
    """The sums of each draw, by columns."""
    each = list(answers)
    owed = sum(claim for *_, claim in network.debts)
    return {
        "defaults": [sums.defaults for sums in each],
        "fundamental": [sums.fundamental for sums in each],
        "unpaid": [owed - sums.paid for sums in each],
        "outside_unpaid": [sum(network.outside) - sums.outside_paid for sums in each],
        "lost": [sum(network.cash) - sums.cash for sums in each],
    }


def write_each(draws: Sequence[Draw], columns: Dict[str, List[int]], output: str) -> None:
    """Writes a line for each draw."""
    names = ("lost", "defaults", "fundamental", "unpaid", "outside_unpaid")
    lines = zip(range(1, len(draws) + 1), (draw.cut for draw in draws), *(columns[name] for name in names))
    workbook.write_table(("draw", "cut", *names), lines, output)


def tables_of(network: queries.Network, answers: Answers, columns: Dict[str, List[int]]) -> workbook.Tables:
    """The tables of all draws: how sums are spread, how often so many banks default, and how often each bank does."""
    contagion = map(operator.sub, answers.defaults, answers.fundamental)
    sums = (summary(name, numbers) for name, numbers in columns.items())
    return {
        "sums": [("of", "least", *QUANTILES, "greatest", "mean"), *sums],
        "counts": [("defaults", "draws"), *sorted(Counter(columns["defaults"]).items())],
        "banks": [("bank", "fundamental", "contagion"), *zip(network.names, answers.fundamental, contagion)],
    }


@command()
def main() -> None:
    """The command."""
    args, taken = parse_args()
    cli.keep_inputs([*cases.inputs_of(taken.case), args.moments, args.past], [args.output, args.each, args.picture])
    pyplot = style.pyplot_of() if args.picture else None
    runs, files = ProgramRuns(), cli.words_of(taken)
    network = queries.network_of(runs, files)
    draws = drawn(args, network)
    answers = answers_of(runs, files, network, draws)
    columns = columns_of(network, (answers.sums[draw] for draw in draws))
    if args.each:
        write_each(draws, columns, args.each)
    called = cases.marked_names_of(taken.case)
    if pyplot:
        often = often_of(network.names, answers.defaults, answers.fundamental, called)
        money = cases.money_of(taken.case)
        picture = draw_picture(pyplot, columns["defaults"], columns["unpaid"], often, args.seed, money)
        style.save(picture, args.picture, folders=False)
    workbook.write_tables(tables_of(network, answers, columns), args.output)
