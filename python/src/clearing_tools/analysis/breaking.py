"""Finds for each bank the least cut of all cash at which it is no longer sound.

In:   FOLDER, a case, or --banks FILE and --debts FILE, as `clearing` reads them
      --loss BANK      asks for the least loss of this bank alone, in units, in place of a cut of all cash
Out:  CSV on standard output, or in --output FILE: `bank,cut,state`, a line for each bank in file order. The cut is per
      mille, and the state is that in which the bank is at this cut: `fundamental` or `contagion`. Where no cut breaks
      the bank the cut is 1001 and the state `sound`. With --loss the header is `bank,loss,state`, and where not even
      all the cash of BANK breaks a bank, the loss is that cash and one more. 0 is a bank that is in default as things
      are.
      --picture FILE   a curve: how many banks are in default at each cut or loss, by how they stand at it, with the
                       names of the banks beside it where they are few: full names, where the case has them. The kind of
                       picture is the ending: .svg, .png or .pdf. It wants matplotlib.
      The banks of a case that one unit decides are told on standard error, and marked in the picture.

A smaller shock hurts nobody (stress::laws::milder_shock_hurts_nobody). So each bank has one such number, and it is
sound exactly below it (stress::laws::sound_exactly_below_the_breaking_cut). The cuts are those of `clearing breaking`.
A loss is found by `clearing stress`, a hundred scenarios a run, each round of which parts what is left for each bank;
answers against the law are an error then.

The environment variable CLEARING names the program, the repository's where it is not set.

Ends with 0; 1 where the program fails, an answer is against the law or a picture cannot be written; 2 where the words
are not understood, an output would be written over an input, or matplotlib is missing; 3 where a file cannot be read; 4
where one is refused; 5 where the output cannot be written; 130 at an interrupt.

Example:
    clearing-breaking --banks banks.csv --debts debts.csv --picture breaking.svg >breaking.csv
"""
from __future__ import annotations

from types import ModuleType
from typing import TYPE_CHECKING, Callable, Container, Iterable, Iterator, List, NamedTuple, Sequence, Set, Tuple

from clearing_client.case import Case
from clearing_client.format import MAX_CUT, MAX_SCENARIOS
from clearing_client.records import Standing
from clearing_client.results import Breaking
from clearing_client.table import Table

from .. import cases, cli
from ..drawing import style
from ..drawing.tokens import LIGHT
from ..exports import workbook
from ..runner import ProgramRuns, ToolError, command, processors, work_folder
from . import queries

if TYPE_CHECKING:
    from matplotlib.axes import Axes
    from matplotlib.figure import Figure

MOST_NAMED = 30
"""So many banks are named in a picture at most."""


def states_in(standings: Table[Standing]) -> List[str]:
    """The states of all banks."""
    states: List[str] = standings.column("state")
    return states


class Ranges:
    """For each bank the greatest shock at which it is known to be sound, and the least at which it is known not to
    be."""

    def __init__(self, banks: int, most: int) -> None:
        self.low, self.high, self.state = [-1] * banks, [most + 1] * banks, ["sound"] * banks

    def open(self) -> List[Tuple[int, int]]:
        """The pairs with shocks in between, each once."""
        return sorted({(low, high) for low, high in zip(self.low, self.high) if high - low > 1})

    def points(self, count: int) -> List[int]:
        """About so many shocks that part what is open evenly."""
        pairs = self.open()
        points: Set[int] = set()
        each = max(1, count // max(1, len(pairs)))
        for low, high in pairs:
            parts = min(each + 1, high - low)
            points.update(low + (high - low) * part // parts for part in range(1, parts))
        return sorted(points)

    def take(self, shock: int, states: List[str]) -> None:
        """Takes how the banks stand at a shock."""
        for bank, state in enumerate(states):
            if state == "sound":
                self.low[bank] = max(self.low[bank], shock)
            elif shock < self.high[bank]:
                self.high[bank], self.state[bank] = shock, state
            if self.low[bank] >= self.high[bank]:
                raise ToolError(
                    f"the program says that a bank is sound at {self.low[bank]} and not at {self.high[bank]}, a "
                    "smaller shock: "
                    "this is against stress::laws::milder_shock_hurts_nobody"
                )


def find(
    runs: ProgramRuns,
    folder: str,
    files: List[str],
    banks: int,
    most: int,
    text_of: Callable[[int], bytes],
) -> Ranges:
    """The ranges, closed, where `text_of` makes the scenario of a shock. In a round about as many shocks are tried as
    all processors have in one file of scenarios each."""
    ranges = Ranges(banks, most)
    while points := ranges.points(MAX_SCENARIOS * processors()):
        texts = [text_of(shock) for shock in points]
        for shock, states in zip(points, queries.stress(runs, folder, files, texts, states_in)):
            ranges.take(shock, states)
    return ranges


def losses_of(runs: ProgramRuns, files: List[str], network: queries.Network, bank: int) -> Tuple[List[int], List[str]]:
    """For each bank the least loss of one of them at which it is not sound, and its state then."""
    text_of = lambda loss: queries.scenario_text(0, [(network.names[bank], loss)])  # noqa: E731
    with work_folder() as folder:
        ranges = find(runs, folder, files, len(network.names), network.cash[bank], text_of)
    return ranges.high, ranges.state


def depths_of(network: queries.Network, most: int, hit: Container[int]) -> Iterator[int]:
    """The least shocks from which on banks are in default by their own fundamentals: their cash and all that is owed to
    them does not cover what they owe. From the banks that are hit so many parts of their cash go, of the most that
    there are, rounded down."""
    for place, units in enumerate(queries.spare_of(network).values()):
        cash = network.cash[place]
        if units < 0:
            yield 0
        elif place in hit and units < cash:
            yield -(-(units + 1) * most // cash)


class Fall(NamedTuple):
    """A bank that is in default from a shock on, and what it is called."""

    shock: int
    called: str


class Curve:
    """How many banks are in default at each shock, by how they stand at it: the banks that fall, in the order in which
    they do, and the shocks from which on banks are in default by their own fundamentals. `called` is what each bank is
    called."""

    def __init__(self, cuts: Sequence[int], depths: Iterable[int], most: int, called: Sequence[str]) -> None:
        self.falls = sorted(Fall(shock, name) for shock, name in zip(cuts, called) if shock <= most)
        self.depths, self.banks = sorted(depths), len(cuts)
        last = max([fall.shock for fall in self.falls] + self.depths, default=most)
        # The axis ends soon behind the last change.
        self.right = min(max(last * 1.06, 1), 1.01 * max(most, 1))

    @property
    def has_names(self) -> bool:
        """Whether the banks are few enough to be named beside the curve."""
        return 0 < len(self.falls) <= MOST_NAMED

    @property
    def title(self) -> str:
        """The message of the picture."""
        already = sum(fall.shock == 0 for fall in self.falls)
        return f"{len(self.falls)} of {self.banks} banks are in default at some point, {already} of them as things are"

    def draw(self, pyplot: ModuleType, words: str) -> Figure:
        """The picture, with these words at the axis of the shocks."""
        tall = max(4.6, 1.4 + 0.2 * len(self.falls)) if self.has_names else 4.6
        figure, axes = pyplot.subplots(figsize=(10 if self.has_names else 9, tall), layout="constrained")
        self.fill(axes)
        axes.set_title(self.title, fontsize=11, loc="left", pad=26)
        axes.set_xlim(0, self.right)
        axes.set_ylim(0, max(1, len(self.falls)) * 1.08)
        self.name_banks(axes)
        axes.xaxis.set_major_formatter(lambda units, _: f"{units:,.0f}")
        axes.set_xlabel(words)
        # Above the axes, where no curve runs.
        axes.legend(loc="lower left", bbox_to_anchor=(-0.01, 0.99), ncol=2, frameon=False, fontsize=9)
        axes.spines[["top", "right"]].set_visible(False)
        return figure

    def fill(self, axes: Axes) -> None:
        """The curve, filled by how the banks stand."""
        steps = sorted({0, self.right, *(fall.shock for fall in self.falls), *self.depths})
        alone = [sum(shock <= step for shock in self.depths) for step in steps]
        fallen = [sum(fall.shock <= step for fall in self.falls) for step in steps]
        for state, below, above in (("fundamental", [0] * len(steps), alone), ("contagion", alone, fallen)):
            label = f"{state} at it"
            axes.fill_between(steps, below, above, step="post", color=LIGHT[state], label=label, linewidth=0)
        axes.step(steps, fallen, where="post", color=LIGHT["ink"], linewidth=0.8)

    def name_banks(self, axes: Axes) -> None:
        """The axis of banks: their names where they are few."""
        if self.has_names:
            names = [style.in_short(fall.called, 3.2, 8) for fall in self.falls]
            axes.set_yticks([at + 0.5 for at in range(len(self.falls))], names, fontsize=8)
            axes.tick_params(axis="y", length=0)
            axes.set_ylabel("banks in default, in the order in which they fall")
        else:
            axes.yaxis.get_major_locator().set_params(integer=True)
            axes.set_ylabel("banks in default")


class Breaks(NamedTuple):
    """What breaks each bank: the kind of shock, the most that there is of it, and what an axis of it says; the banks,
    the least shock that breaks each and its state then; and the places of the banks whose cash goes."""

    kind: str
    most: int
    words: str
    names: List[str]
    shocks: List[int]
    states: List[str]
    hit: Container[int]


def by_cut(runs: ProgramRuns, files: List[str]) -> Breaks:
    """The least cuts of all cash, by `clearing breaking`."""
    cuts = queries.answer_of(runs, ["breaking", *files], Breaking).cuts
    names, shocks, states = map(cuts.column, ("bank", "cut", "state"))
    return Breaks("cut", MAX_CUT, "cut of all cash, per mille", names, shocks, states, range(len(names)))


def by_loss(runs: ProgramRuns, files: List[str], network: queries.Network, name: str, case: Case) -> Breaks:
    """The least losses of a bank alone. Fails with 4 where no bank has the name."""
    if name not in network.names:
        like = {each.strip().casefold(): each for each in network.names}.get(name.strip().casefold())
        raise ToolError(f"no bank has the name {name!r}" + (f"; is it {like!r}?" if like else ""), 4)
    bank = network.names.index(name)
    words = f"loss of {style.in_short(cases.names_of(case)(name))}, in units"
    return Breaks("loss", network.cash[bank], words, network.names, *losses_of(runs, files, network, bank), [bank])


@command()
def main() -> None:
    """The command."""
    parser = cli.case_parser(__doc__)
    parser.add_argument("--loss", metavar="BANK", help="ask for the least loss of this bank alone")
    parser.add_argument("--output", metavar="FILE", help="the CSV, standard output where it is not given")
    parser.add_argument("--picture", metavar="FILE", help="the picture to write")
    args = parser.parse_args()
    taken = cases.take_case(parser, args)
    cli.keep_inputs(cases.inputs_of(taken.case), [args.output, args.picture])
    pyplot = style.pyplot_of() if args.picture else None
    runs, files = ProgramRuns(), cli.words_of(taken)
    network = queries.network_of(runs, files) if pyplot or args.loss is not None else None
    if network and args.loss is not None:
        breaks = by_loss(runs, files, network, args.loss, taken.case)
    else:
        breaks = by_cut(runs, files)
    called = cases.marked_names_of(taken.case)
    if pyplot and network:
        depths = depths_of(network, breaks.most, breaks.hit)
        curve = Curve(breaks.shocks, depths, breaks.most, list(map(called, breaks.names)))
        style.save(curve.draw(pyplot, breaks.words), args.picture, folders=False)
    records = zip(breaks.names, breaks.shocks, breaks.states)
    workbook.write_table(("bank", breaks.kind, "state"), records, args.output)
