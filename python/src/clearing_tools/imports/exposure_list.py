"""Makes the two files of `clearing` from a list of exposures and a table of banks.

In:  LIST, a file of comma-separated records in UTF-8, or a workbook (.xlsx, .ods; --sheet NAME where it has several
     sheets), with the names of its columns in the header: `debtor`, `creditor`, `amount`, and, where it is there,
     `class` (1 to 9; --class where it is not). --debtor, --creditor, --amount and --class-column give them other
     names, such as borrower, lender and exposure. --table FILE (--table-sheet NAME) has the banks, with their names in
     its first column and the columns `cash`, and, where they are there, `outside`, what is owed to others, and `rule`
     (--cash, --outside, which may be repeated and adds up, and --rule-column give them other names). A column that an
     option names must be there; capitals and spaces in these names matter only between two columns. A column of the
     table that looks like what is owed outside is asked for, until --outside NAME or --no-outside. Columns that are not
     looked at are named. A byte order mark, CR LF, semicolons or tabs between the fields, and UTF-16 are read as they
     are. A stray quote is refused with its row.
Out: --banks FILE and --debts FILE, which `clearing` reads: the banks of the table in its order, and the debts in the
     order of the list, none where the amount is 0. Both are written or none, and never over a file that is read.
     --label FILE has a code for each name that the program refuses, with the full name. What was read, left out,
     summed, rounded and made is told on standard error, or in --summary FILE as a table.

Which lines count. --where COLUMN=VALUE takes the lines that have this value alone; repeated, one of the values of each
column. Lines that are the same in every column are refused, until --duplicates once takes them once, or --duplicates
sum adds them up. Several lines of one debtor, creditor and class are refused, or one debt of their sum with --sum,
unless they differ in a column that is not looked at: then until --ignore COLUMN, --where or --rate says what is meant.
A bank that the table does not have is refused, and so is a line of totals: --drop NAME leaves out the lines that name
it, once their amounts are those of the others.

What cells stand for. --rate COLUMN=FILE (currency, rate) converts amounts: what a unit of each currency is worth. A
column with several currencies is asked for. --class-of COLUMN=FILE (instrument, class) gives classes. --groups FILE
(bank, group) makes the banks of a group one: debts within it are left out, cash, outside and all else add up.

Rows are counted as the sheet does, from 1 and the empty ones too. Amounts may have decimals, separators between
thousands, an exponent, and a currency that is the same in all of them. An empty cell and a dash are 0. A number such as
30.445, whose sign could be either, is refused, unless --decimal or --thousands says which it is. A number of a workbook
is itself, to the 15 digits that spreadsheets show; dates, errors and formulas without a value are refused.

An amount divided by --unit (1 where it is not given) must be a whole number of units, or is rounded to the nearest, a
half to even, with --round. --unit auto takes the smallest unit that keeps all limits, of 1, 2 and 5 times the powers of
ten, and rounds. Where a network breaks a limit, it is said which, and by how much.

openpyxl (Debian's package python3-openpyxl) is needed for .xlsx, and odf (python3-odf) for .ods.

Ends with 0, or with 1 and every fault that was found, each in a line, or with 2 where the words are not understood.
"""
import argparse
import contextlib
import gc
from typing import Iterator, List, Optional, Sequence, Tuple

from .. import cli
from ..runner import command
from . import options
from .exposure_debts import ExposureDebts
from .exposure_drop import ExposureDropping
from .exposure_sheets import ExposureSheets
from .faults import Faults
from .groups import add_groups, read_groups
from .left_out import RATES
from .sheet_options import ListOptions
from .summary import Summary, tell_read
from .tables import Listing
from .units import Network, grouped


def add_own(parser: argparse.ArgumentParser) -> None:
    """The words of this tool alone."""
    add = parser.add_argument
    add("file", metavar="LIST", help="the list of exposures")
    options.add_table(parser, "the table of banks", is_needed=True)
    add("--debtor", default="debtor", metavar="NAME", help="the column of who owes")
    add("--creditor", default="creditor", metavar="NAME", help="the column of who is owed")
    add("--amount", default="amount", metavar="NAME", help="the column of amounts")
    add("--class-column", metavar="NAME", help="the column of classes (class, or none)")
    classes = "a table of what a column has, and the class of each"
    add("--class-of", type=options.pair_in, metavar="COLUMN=FILE", help=classes)
    alike = "several lines of one debtor, creditor and class are one debt of their sum"
    add("--sum", dest="is_summed", action="store_true", help=alike)
    add("--duplicates", choices=["sum", "once"], help="lines that are the same in every column add up, or count once")
    alike = "lines that differ here are summed all the same; may be repeated"
    add("--ignore", action="append", default=[], metavar="COLUMN", help=alike)
    chosen = "take these lines alone; may be repeated"
    add("--where", action="append", default=[], type=options.pair_in, metavar="COLUMN=VALUE", help=chosen)
    add("--rate", type=options.pair_in, metavar="COLUMN=FILE", help=RATES)
    add_groups(parser)


def network_of(
    args: ListOptions, faults: Faults, summary: Summary
) -> Tuple[Network, Listing, List[Optional[str]]]:
    """The network of a list, and its sheet."""
    sheets = ExposureSheets.read(args, faults, summary)
    tell_read(summary, [sheets.list, sheets.table], args)
    sheets.tell_unlooked()
    dropping = ExposureDropping(sheets)
    dropping.drop()
    dropping.take_where()
    network = network_in(sheets)
    groups = read_groups(args, faults)
    if groups:
        network = grouped(network, groups, faults, sheets.list, summary)
    pairs = [pair for pair in (sheets.columns.class_of, sheets.columns.rate) if pair]
    read = [args.file, args.table, args.groups, *(file for _, file in pairs)]
    return network, sheets.list, read


def network_in(sheets: ExposureSheets) -> Network:
    """The network of a list and its table, of which nothing is to be dropped any more."""
    args, summary, table = sheets.args, sheets.summary, sheets.table
    debts = ExposureDebts(sheets).debts()
    banks = options.banks_of(table, list(table.rows), sheets.bank_columns, args, sheets.cells, summary)
    sheets.faults.end_if_any()
    network = Network(banks, debts, bool(sheets.bank_columns.outside), table)
    summary.tell("debts in the sheet", sum(1 for debt in debts if debt.amount), network.owed())
    network.labels = options.labels_in(banks, table, args.label_column)
    return network


@contextlib.contextmanager
def without_search() -> Iterator[None]:
    """Python looks for no objects that refer to one another while it lasts. A list of a million lines makes many
    objects and none of these, and the search takes as long as all else."""
    was_on = gc.isenabled()
    gc.disable()
    try:
        yield
    finally:
        if was_on:
            gc.enable()


def convert(args: ListOptions) -> options.Conversion:
    """The files that the words ask for, each with its text, what is read, and the summary."""
    faults, summary = Faults(), Summary()
    with without_search():
        network, table, read = network_of(args, faults, summary)
        outputs = options.outputs_of(network, table, args, faults, summary, "from_list", read)
        return options.Conversion(outputs, read, summary)


def build_parser() -> cli.Parser:
    """The parser of this tool."""
    return options.parser_of(__doc__, add_own)


def parse_args(argv: Optional[Sequence[str]] = None) -> ListOptions:
    """The words of a command line, or some others."""
    return options.parse_args(ListOptions, build_parser(), argv)


@command("from_list")
def main() -> None:
    """The command of this tool."""
    args = parse_args()
    options.write(convert(args), args)
