"""Makes networks for `clearing` from what each bank owes and is owed in all, where nothing else is known.

In:  TOTALS, a file of comma-separated records in UTF-8, or a workbook (.xlsx, .ods; --sheet NAME where it has several
     sheets), with the names of the banks in its first column and the columns `assets` and `liabilities`, what other
     banks of the file owe the bank and what it owes them, `cash`, and, where they are there, `outside`, what is owed to
     others, and `rule`. --assets, --liabilities, --cash, --outside and --rule-column give them other names, which then
     must be there; capitals and spaces matter only between two columns. A column that looks like what is owed outside
     is asked for, until --outside NAME or --no-outside. No bank has more of assets and liabilities than all
     others can owe it and be owed by it. Where the sums of the two differ, a bank `rest of the world` (--rest NAME)
     stands for those who are not in the file, and is told; it has the cash that it owes. --no-rest refuses such sums.
     --known FILE (debtor, creditor, amount) has claims that are known and stay, a claim of 0 too; the others are made.
Out: in --out FOLDER the files banks.csv and debts.csv; with --samples N the folders 1 to N with two files each. All are
     written or none, and none over a file that is read. --label FILE has a code for each name that the program refuses.
     What was read, rounded and made is told on standard error, or in --summary FILE as a table.

--method says which of the networks that have these totals:
  entropy   claims as even as the totals allow, each bank owing each: maximum entropy, by iterative proportional fitting
            (the usual one; it understates contagion, see Upper 2011). Of more than --most claims (1,000,000, or 20,000
            by --limits standard) so many stay: some by which the totals can be kept, at most two for each bank, then
            the largest; they are fitted anew to the same totals, and what was left out is told
  sparse    few claims: minimum density, in the manner of Anand, Craig and von Peter (2015): pairs of banks are drawn,
            the more likely the more what one has left differs from the other, and load all that both have left; of
            --tries runs (20, fewer for more than 120 banks) the one of fewest claims
  sample    networks at random, by a sampler over cycles of claims as that of Gandy and Veraart (2017), in whole units:
            each claim is there with the probability --density (0.3, or less, so that at most about four fifths of the
            most debts come: 16,000, or 800,000 by --limits wide or of more than 1,000 banks), and its size is
            geometric. --steps (200 for each pair of banks, 2,000,000 at most) are made before the first sample and a
            tenth of them before each other; it is told where the chain has not come to rest before the first
--seed S (1) is the number from which `sparse` and `sample` draw; the same seed makes the same networks for good.

In every network the claims of each bank come exactly to its totals in whole units. Amounts are read and rounded, lines
of totals are refused, and units are chosen as by clearing-from-matrix. Where rounding takes the sums apart, the totals
that were nearest to a half go the other way, and that is told.

`entropy` needs numpy (Debian's package python3-numpy).

Ends with 0, or with 1 and every fault that was found, each in a line, or with 2 where the words are not understood or
what is needed is not there.
"""
import argparse
import os
from fractions import Fraction
from typing import Dict, List, NamedTuple, Optional, Sequence, Tuple

from clearing_client.format import MAX_CLAIM, MAX_SEED
from clearing_client.limits import LIMITS, MOST, STANDARD, Limits, of_counts
from clearing_client.texts import DEBTS

from .. import cli, files
from ..runner import command
from . import made_case, options
from .amounts import Amount, shown
from .faults import Faults
from .groups import plain
from .left_out import add_rates
from .networks.claims import Claims, Totals, some_network
from .networks.methods import Networks, need_numpy, networks_of
from .sheet_options import TotalsOptions
from .summary import Summary
from .tables import Cells, Listing, Table, need_column
from .totals_table import TotalsTable
from .totals_units import WholeTotals, most_claims, units_for
from .units import Network, codes_of, tell_limits, units_of

MAX_SAMPLES = 1000
REST = "rest of the world"


class KnownClaim(NamedTuple):
    """A claim that is known: its amount, and the table and the row that it stands in."""

    amount: Amount
    table: Listing
    row: int


Known = Dict[Tuple[str, str], KnownClaim]
"""Claims by the names of debtor and creditor."""


def density_in(word: str) -> float:
    """A number between 0 and 1."""
    try:
        density = float(word)
    except ValueError:
        density = 0.0
    if not 0 < density < 1:
        raise argparse.ArgumentTypeError(f"{word!r} is not between 0 and 1")
    return density


def add_own(parser: argparse.ArgumentParser) -> None:
    """The words of this tool alone."""
    add = parser.add_argument
    add("file", metavar="TOTALS", help="the table of totals")
    add("--out", metavar="FOLDER", help="the folder to write to")
    add("--method", choices=["entropy", "sparse", "sample"], default="entropy", help="which network (entropy)")
    add("--samples", type=cli.number_in(1, MAX_SAMPLES), metavar="N", help="so many networks, each in a folder")
    add("--seed", type=cli.number_in(0, MAX_SEED), default=1, help="the number to draw from (1)")
    add("--tries", type=cli.number_in(1, 10_000), help="runs of sparse (20, fewer for many banks)")
    add("--density", type=density_in, help="how likely sample takes a claim to be (0.3, less for many banks)")
    add("--steps", type=cli.number_in(1, 10**9), help="steps of sample before the first network")
    add("--known", metavar="FILE", help="a list of claims that are known and stay (debtor, creditor, amount)")
    add(
        "--most",
        dest="most_claims",
        metavar="MOST",
        type=cli.number_in(1, MOST.debts),
        help=f"so many claims of entropy, the largest ({MOST.debts:,}; "
        f"{LIMITS[STANDARD].debts:,} by --limits standard)",
    )
    add(
        "--rest",
        default=REST,
        metavar="NAME",
        help=f"the bank for those who are not in the file, where sums differ ({REST})",
    )
    add("--no-rest", action="store_true", help="refuse sums that differ")
    add_rates(parser)
    add("--assets", default="assets", metavar="NAME", help="the column of what a bank is owed by banks")
    add("--liabilities", default="liabilities", metavar="NAME", help="the column of what a bank owes to banks")


def build_parser() -> cli.Parser:
    """The parser of this tool."""
    return options.parser_of(__doc__, add_own, two_files=False)


def parse_args(argv: Optional[Sequence[str]] = None) -> TotalsOptions:
    """The words of a command line, or some others."""
    parser = build_parser()
    args = options.parse_args(TotalsOptions, parser, argv)
    if args.samples and args.method == "entropy":
        parser.error("there is one network of maximum entropy; --samples is for sparse and sample")
    if args.most_claims and args.most_claims > args.most.debts:
        parser.error(f"--most {args.most_claims} is more than the standard limits have, {LIMITS[STANDARD].debts:,}")
    return args


# Claims that are known


def read_known(args: TotalsOptions, faults: Faults) -> Known:
    """The known claims by debtor and creditor."""
    if not args.known:
        return {}
    table = Listing(args.known, plain(args), faults)
    for column in ("debtor", "creditor", "amount"):
        need_column(faults, table, column, column)
    faults.end_if_any()
    cells = Cells(args.amounts(), faults)
    known: Known = {}
    for row in table.rows:
        pair = str(table.cell(row, "debtor")), str(table.cell(row, "creditor"))
        if pair in known:
            faults.at_row(table, row, f"what {pair[0]} owes {pair[1]} is also in row {known[pair].row}")
        known[pair] = KnownClaim(cells.amount(table, row, "amount"), table, row)
    return known


def known_places(known: Known, names: List[str], unit: Fraction, faults: Faults) -> Claims:
    """The known claims in whole units, by the places of debtor and creditor."""
    places, fixed = {name: at for at, name in enumerate(names)}, {}
    for (debtor, creditor), (amount, table, row) in known.items():
        for name in (debtor, creditor):
            if name not in places:
                faults.at_row(table, row, f"there is no bank {name} in the totals")
        if debtor == creditor:
            faults.at_row(table, row, f"{debtor} is its own creditor")
        if not faults.found:
            fixed[places[debtor], places[creditor]] = units_of(amount, unit)
    faults.end_if_any()
    return fixed


# Networks


def networks_in_units(sheet: TotalsTable, known: Known) -> Tuple[WholeTotals, Networks]:
    """The networks in the unit that is named, or the smallest that keeps all limits; with the totals in it."""
    args, most = sheet.args, most_claims(sheet)
    if args.method == "entropy":
        need_numpy()
    for unit in units_for(sheet, most):
        whole = WholeTotals.of(sheet, unit)
        totals = whole.totals
        totals.fixed = known_places(known, totals.names, unit, sheet.faults)
        if any(left < 0 for side in totals.left() for left in side) or some_network(totals) is None:
            more = " with the known claims" if known else ""
            what = f"in units of {shown(unit)} no network has these totals{more}"
            sheet.faults.add_general(sheet.table, what)
            sheet.faults.end_if_any()
        networks = networks_of(totals, args, most)
        largest = max(max(claims.values(), default=0) for claims in networks.claims)
        if args.unit is not None or largest <= MAX_CLAIM:
            return whole, networks
    raise AssertionError("a unit is large enough in the end")


def check_network(claims: Claims, where: str, faults: Faults, table: Table, limits: Limits) -> None:
    """Refuses a network beyond the limits."""
    if len(claims) > limits.debts:
        what = f"{where}{len(claims):,} debts, {len(claims) - limits.debts:,} more than the most, {limits.debts:,}"
        hint = "take --method sparse, or sample with a smaller --density and more --steps"
        faults.add_general(table, f"{what}; {hint}")
    most = max(claims.values(), default=0)
    if most > MAX_CLAIM:
        what = f"{where}a claim of {most:,} units, {most - MAX_CLAIM:,} more than the most, {MAX_CLAIM:,}"
        faults.add_general(table, f"{what}; take a larger --unit, or --unit auto")


def check_exact(claims: Claims, totals: Totals) -> None:
    """Each network has its totals: a fault here is one of this tool."""
    for place, want in ((0, totals.owes), (1, totals.owed)):
        have = [0] * totals.size
        for pair, claim in claims.items():
            have[pair[place]] += claim
            assert claim > 0 and pair[0] != pair[1]
        assert have == want, "the totals are not kept"


# Files


def tell_networks(whole: WholeTotals, networks: Networks, known: Known, summary: Summary) -> None:
    """Tells what was done to come to the networks."""
    for line in whole.lines() + ([networks.settling.line()] if networks.settling else []):
        summary.tell(*line)
    if known:
        summary.tell("claims that are known, and stay", len(known), sum(claim.amount for claim in known.values()))
    if networks.cut:
        detail = f"the largest {shown(networks.cut.largest * whole.unit)}; the others are fitted to the same totals"
        lost = networks.cut.units * whole.unit
        summary.tell("claims left out by --most", networks.cut.number, lost, detail, step="leftOut")


class NetworkFiles:
    """The two files of each network, by the name of its folder: its number, or nothing for one alone."""

    def __init__(self, sheet: TotalsTable, network: Network, unit: Fraction) -> None:
        self.sheet, self.network, self.unit = sheet, network, unit
        self.texts: List[Tuple[str, Tuple[str, str]]] = []

    @classmethod
    def of(cls, sheet: TotalsTable, whole: WholeTotals, networks: Networks) -> "NetworkFiles":
        """Those of some networks, each of which is checked and told."""
        args = sheet.args
        codes = codes_of([bank.name for bank in sheet.banks]) if args.has_codes else {}
        labels = options.labels_in(sheet.banks, sheet.table, args.label_column)
        network = Network(sheet.banks, [], bool(sheet.columns.outside), sheet.table, codes, labels)
        made = cls(sheet, network, whole.unit)
        for number, claims in enumerate(networks.claims, 1):
            check_exact(claims, whole.totals)
            where = f"network {number} has " if args.samples else ""
            check_network(claims, where, sheet.faults, sheet.table, args.most)
            made.add(str(number) if args.samples else "", claims, whole.totals.sum)
        sheet.faults.end_if_any()
        return made

    def add(self, number: str, claims: Claims, units: int) -> None:
        """Adds the files of a network whose claims come to so many units, and tells it."""
        self.texts.append((number, self.texts_of(claims)))
        folder = os.path.join(self.sheet.args.out or self.sheet.args.case or "", number).removesuffix("/")
        detail = f"{units:,} units, the largest {max(claims.values(), default=0):,}, in {folder}"
        self.sheet.summary.tell("debts made", len(claims), units * self.unit, detail)

    def texts_of(self, claims: Claims) -> Tuple[str, str]:
        """The banks file and the debts file of a network."""
        names = [self.network.named(bank.name) for bank in self.network.banks]
        rank = self.sheet.args.rank
        debts = [[names[row], names[column], rank, claim] for (row, column), claim in sorted(claims.items())]
        return self.network.banks_text(self.unit), files.csv_text([DEBTS.split(","), *debts])

    def outputs(self) -> options.Outputs:
        """The files to write: those of the networks, of cases of them, and of the labels."""
        args, network = self.sheet.args, self.network
        outputs: options.Outputs = []
        for number, texts in self.texts:
            if args.out:
                names = (os.path.join(args.out, number, name) for name in ("banks.csv", "debts.csv"))
                outputs += zip(names, texts)
            if args.case:
                labels = made_case.labels_of(network, network.table, args.of_case.columns)
                folder = os.path.join(args.case, number).removesuffix("/")
                case = made_case.CaseOfSheets(folder, texts, self.unit, labels, args.of_case, "from_totals")
                outputs += case.files([args.file, args.known], self.sheet.summary).items()
        if args.label:
            outputs.append((args.label, network.labels_text()))
        return outputs


def convert(args: TotalsOptions) -> options.Conversion:
    """The files that the words ask for, each with its text, what is read, and the summary."""
    faults, summary = Faults(), Summary()
    sheet = TotalsTable.read(args, faults, summary)
    known = read_known(args, faults)
    faults.end_if_any()
    whole, networks = networks_in_units(sheet, known)
    tell_networks(whole, networks, known, summary)
    network_files = NetworkFiles.of(sheet, whole, networks)
    needed = of_counts(len(sheet.banks), max(map(len, networks.claims)), whole.totals.sum)
    tell_limits(summary, args.limits, needed)
    inputs = [args.file, args.known, args.rates_file]
    return options.Conversion(network_files.outputs(), inputs, summary)


@command("from_totals")
def main() -> None:
    """The command of this tool."""
    args = parse_args()
    options.write(convert(args), args)
