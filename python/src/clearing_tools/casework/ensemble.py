"""What tasks say over many networks, as tables and as a picture."""
import argparse
from types import ModuleType
from typing import TYPE_CHECKING, Dict, List, Sequence

from clearing_client.ensemble import TASKS, Ensemble, Share, ensemble
from clearing_client.steady import MARK, NOTE

from .. import cases, cli
from ..drawing import style
from ..drawing.tokens import LIGHT
from ..exports.workbook import write_tables
from ..fullnames import FullNames
from .answers import answer_or_end, full_of, keep_apart, read_all
from .side_by_side import plain

if TYPE_CHECKING:
    from matplotlib.figure import Figure


def add_ensemble(parser: argparse.ArgumentParser) -> None:
    """The words of ensemble."""
    parser.add_argument(
        "cases", metavar="FOLDER", nargs="+", help="the cases, such as those that from_totals --samples makes"
    )
    parser.add_argument(
        "--task", action="append", choices=list(TASKS), help="what is asked (defaults); may be repeated"
    )
    parser.add_argument(
        "--default-keeps", metavar="K", type=cli.number_in(0, 1000), help="what default keeps, per mille, for costs"
    )
    parser.add_argument(
        "--output", metavar="FILE", help="the tables, standard output where it is not given; .xlsx is a workbook"
    )
    parser.add_argument("--picture", metavar="FILE", help="in how many networks each bank defaults, to draw")
    parser.add_argument(
        "--most",
        metavar="N",
        type=cli.number_in(1, 1000),
        default=40,
        help="how many banks the picture shows at most (40)",
    )


def ask_many(args: argparse.Namespace) -> int:
    """Writes what tasks say over many networks."""
    pyplot = style.pyplot_of() if args.picture else None
    several = read_all(args.cases)
    keep_apart(several, [args.output, args.picture])
    answer = answer_or_end(lambda: ensemble(several, args.task or "defaults", args.default_keeps))
    names = cases.names_of_all(several)
    if pyplot:
        style.save(draw(pyplot, answer, names, args.most), args.picture, folders=False)
    write_tables(tables_of(answer, names), args.output)
    return 0


def tables_of(answer: Ensemble, names: FullNames) -> Dict[str, List[Sequence[object]]]:
    """The tables of many networks: who defaults in how many, and how numbers are spread."""
    full = ["full"] if names.full else []
    tables: Dict[str, List[Sequence[object]]] = {}
    if answer.shares:
        rows = [
            [one.task, one.bank, *full_of(one.bank, names), *one[2:], one.sentence(names(one.bank))]
            for one in answer.shares
        ]
        head = ["task", "bank", *full, "defaults", "fundamental", "networks", "unsteady", "sentence"]
        tables["shares"] = [head, *rows]
    rows = [
        [one.task, one.bank, *full_of(one.bank, names), one.number, one.networks, *map(plain, one[4:])]
        for one in answer.spreads
    ]
    head = ["task", "bank", *full, "number", "networks", "least", "lower", "median", "upper", "greatest"]
    return {**tables, "spreads": [head, *rows]}


def draw(pyplot: ModuleType, answer: Ensemble, names: FullNames, most: int) -> "Figure":
    """A bar for each bank that defaults in some network: in how many of them, and in how many by its own fundamentals,
    by the first task that has states."""
    first = answer.shares[0].task if answer.shares else ""
    defaulting: List[Share] = [share for share in answer.shares if share.task == first and share.defaults]
    shown = defaulting[:most]
    figure, axes = pyplot.subplots(figsize=(8, 1.8 + 0.26 * max(len(shown), 3)), layout="constrained")
    places = range(len(shown))
    fallen, alone = [share.defaults for share in shown], [share.fundamental for share in shown]
    axes.barh(places, fallen, color=LIGHT["contagion"], label="by contagion")
    axes.barh(places, alone, color=LIGHT["fundamental"], label="by own fundamentals")
    axes.set_yticks(places, [tick_of(share, names) for share in shown], fontsize=8)
    axes.invert_yaxis()
    networks = max((share.networks for share in answer.shares), default=0)
    axes.set_xlim(0, max(networks, 1))
    axes.xaxis.get_major_locator().set_params(integer=True)
    left_out = len(defaulting) - len(shown)
    title = f"In how many of {networks:,} networks a bank defaults" + (f"; {left_out:,} banks more" if left_out else "")
    if any(share.unsteady for share in shown):
        title += f"\n{MARK} {NOTE} in some of them"
    axes.set_title(title, fontsize=10, loc="left", pad=24 if shown else 6)
    axes.spines[["top", "right"]].set_visible(False)
    if shown:
        # Above the axes, where no bar is.
        axes.legend(frameon=False, fontsize=8, loc="lower left", bbox_to_anchor=(-0.01, 0.99), ncol=2)
    return figure


def tick_of(share: Share, names: FullNames) -> str:
    """What a bank is called at its bar, with a mark where one unit decides in some network."""
    return style.in_short(names(share.bank), 3.2, 8) + (f" {MARK}" if share.unsteady else "")
