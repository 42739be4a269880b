"""Makes the two files of `clearing` from a matrix of liabilities and a column of cash.

In:  MATRIX, a file of comma-separated records in UTF-8, or a workbook (.xlsx, .ods; --sheet NAME where it has several
     sheets), with names of banks in its header and its first column (the first cell is not looked at): the bank of a
     row owes the bank of a column the amount where they meet, as in the matrix L of R's package systemicrisk;
     --columns-owe takes the transpose, a matrix of exposures in which the bank of a row has lent to the bank of a
     column. Rows and columns name the same banks, columns in any order. The diagonal is 0. Three columns are not
     banks: `cash` (systemicrisk: ea), and, where they are there, `outside`, what is owed to others (systemicrisk: el),
     and `rule`. They stand beside the matrix, or in a file of their own with the names in its first column (--table
     FILE, --table-sheet NAME), where balance sheets are kept so. A bank of that file that is in no line of the matrix
     is a bank too, and a bank that has a row or a column alone owes or is owed nothing. --cash, --outside (repeated,
     they add up) and --rule-column give the columns other names, which then must be there; capitals and spaces matter
     only between two columns. A column that looks like what is owed outside is asked for, until --outside NAME or
     --no-outside. Other columns of the table are not looked at, and named. A byte order mark, CR LF, semicolons
     or tabs between the fields, and UTF-16 are read as they are. A stray quote is refused with its row.
Out: --banks FILE and --debts FILE, which `clearing` reads: banks in the order of the rows, debts row by row in the
     order of the banks, all of one class, none where the amount is 0. Both are written or none, and never over a
     file that is read. --label FILE has a code for each name that the program refuses, with the full name. What was
     read, left out, rounded and made is told on standard error, or in --summary FILE as a table.

Rows are counted as the sheet does, from 1 and the empty ones too. Amounts may have decimals, separators between
thousands, an exponent, and a currency that is the same in all of them. An empty cell and a dash are 0. A number such as
30.445, whose sign could be either, is refused, unless --decimal or --thousands says which it is. A number of a workbook
is itself, to the 15 digits that spreadsheets show; dates, errors and formulas without a value are refused. A row or a
column of totals is refused, by its name or its numbers: --drop NAME leaves it out ('' where it has none), once its
numbers are those of the others.

An amount divided by --unit (1 where it is not given) must be a whole number of units, or is rounded to the nearest, a
half to even, with --round. --unit auto takes the smallest unit that keeps all limits, of 1, 2 and 5 times the powers of
ten, and rounds. Where a network breaks a limit, it is said which, and by how much.

--groups FILE (bank, group) makes the banks of a group one: debts within it are left out, all else adds up.

openpyxl (Debian's package python3-openpyxl) is needed for .xlsx, and odf (python3-odf) for .ods.

Ends with 0, or with 1 and every fault that was found, each in a line, or with 2 where the words are not understood.
"""
import argparse
from typing import Optional, Sequence, Tuple

from .. import cli
from ..runner import command
from . import options
from .faults import Faults
from .groups import add_groups, read_groups
from .left_out import add_rates
from .matrix_debts import MatrixDebts
from .matrix_drop import MatrixDropping
from .matrix_sheets import MatrixSheets
from .sheet_options import MatrixOptions
from .summary import Summary, tell_read
from .tables import Cells, Table
from .units import Network, grouped


def add_own(parser: argparse.ArgumentParser) -> None:
    """The words of this tool alone."""
    add = parser.add_argument
    add("file", metavar="MATRIX", help="the matrix of liabilities")
    options.add_table(parser, "a file with the columns that are not banks")
    add("--columns-owe", action="store_true", help="the bank of a column owes the bank of a row")
    add_rates(parser)
    add_groups(parser)


def network_of(args: MatrixOptions, faults: Faults, summary: Summary) -> Tuple[Network, Table]:
    """The network of a matrix, and its sheet."""
    sheets = MatrixSheets.read(args, faults, summary)
    tell_read(summary, sheets.sheets, args)
    totals = MatrixDropping(sheets).drop()
    sheets.check_columns(totals)
    faults.end_if_any()
    sheets.tell_others()
    network = network_in(sheets)
    groups = read_groups(args, faults)
    if groups:
        network = grouped(network, groups, faults, sheets.matrix, summary)
    return network, sheets.matrix


def network_in(sheets: MatrixSheets) -> Network:
    """The network of the sheets of a matrix, of which nothing is to be dropped any more."""
    args, faults, summary = sheets.args, sheets.faults, sheets.summary
    cells = Cells(args.amounts(is_signed=args.takes_negative), faults, sheets.rates.convert)
    names, matrix = sheets.names(), MatrixDebts(sheets, cells)
    debts = matrix.debts(names)
    banks = options.banks_of(sheets.table, names, sheets.columns, args, cells, summary)
    faults.end_if_any()
    network = Network(banks, debts, bool(sheets.columns.outside), sheets.table)
    matrix.tell_left()
    sheets.rates.tell(summary)
    summary.tell("debts in the sheet", len(debts), network.owed())
    network.labels = options.labels_in(banks, sheets.table, args.label_column)
    return network


def convert(args: MatrixOptions) -> options.Conversion:
    """The files that the words ask for, each with its text, what is read, and the summary."""
    faults, summary = Faults(), Summary()
    network, table = network_of(args, faults, summary)
    read = [args.file, args.table, args.groups, args.rates_file]
    outputs = options.outputs_of(network, table, args, faults, summary, "from_matrix", read)
    return options.Conversion(outputs, read, summary)


def build_parser() -> cli.Parser:
    """The parser of this tool."""
    return options.parser_of(__doc__, add_own)


def parse_args(argv: Optional[Sequence[str]] = None) -> MatrixOptions:
    """The words of a command line, or some others."""
    return options.parse_args(MatrixOptions, build_parser(), argv)


@command("from_matrix")
def main() -> None:
    """The command of this tool."""
    args = parse_args()
    options.write(convert(args), args)
