"""The words of a command line that all tools for sheets take, what they write, and the banks of a table."""
import argparse
import codecs
import io
import os
import sys
from fractions import Fraction
from typing import Callable, Dict, Iterable, List, Mapping, NamedTuple, Optional, Sequence, Tuple, Type, Union

from clearing_client import description
from clearing_client.format import RULES, is_name
from clearing_client.limits import LIMITS, WIDE

from .. import cases, cli, files
from ..runner import ToolError
from . import left_out, made_case
from .amounts import Amount, AmountError, Amounts, is_null, shown
from .columns import Columns
from .faults import Faults, Located
from .sheet_options import Kind, SheetOptions, TwoFileOptions, options_of
from .summary import Summary
from .tables import Cells, Table
from .units import Bank, Network, Units, codes_of, not_whole

Outputs = List[Tuple[str, Union[str, bytes]]]
"""The files to write, each with its content."""


class Conversion(NamedTuple):
    """What a sheet becomes: the files to write, each with its content, those that were read, and the summary."""

    outputs: Outputs
    inputs: List[Optional[str]]
    summary: Summary


NAME_HINT = "is not a name: 1 to 64 bytes, no comma, quote or control character; with --label FILE it gets a code"


def unit_in(word: str) -> Optional[Fraction]:
    """What a unit of account is worth, or nothing where it is `auto`."""
    if word == "auto":
        return None
    try:
        unit = Amounts(decimal=".").read(word)
    except AmountError:
        unit = None
    if not unit:
        raise argparse.ArgumentTypeError(f"{word!r} is not a number above 0, nor auto")
    return Fraction(unit)


def delimiter_in(word: str) -> str:
    """What stands between two fields."""
    word = "\t" if word in ("tab", "\\t") else word
    if len(word) != 1 or word in '"\r\n':
        raise argparse.ArgumentTypeError("a delimiter is one character, and neither a quote nor a line end")
    return word


def encoding_in(word: str) -> str:
    """The name of an encoding of texts."""
    try:
        # What makes bytes of bytes, such as zlib, is no encoding of a text.
        "a".encode(word)
        return codecs.lookup(word).name
    except (LookupError, ValueError):
        raise argparse.ArgumentTypeError(f"{word!r} is no encoding") from None


def count_in(word: str) -> int:
    """A number of rows."""
    if not (word.isascii() and word.isdigit() and len(word) < 6):
        raise argparse.ArgumentTypeError(f"{word!r} is not a number of rows")
    return int(word)


def pair_in(word: str) -> str:
    """A column and a file or a value, with a sign of equality between them."""
    if "=" not in word.strip("="):
        raise argparse.ArgumentTypeError(f"{word!r} is not of the form COLUMN=..")
    return word


def add_table(parser: argparse.ArgumentParser, what: str, is_needed: bool = False) -> None:
    """The words of a tool that reads a table of banks beside its sheet."""
    add = parser.add_argument
    add("--table", required=is_needed, metavar="FILE", help=what)
    add("--table-sheet", metavar="NAME", help="the sheet of the table's workbook")
    above = "rows above the header of the table that are passed over (0)"
    add("--table-skip", type=count_in, default=0, metavar="N", help=above)


def add_words(parser: argparse.ArgumentParser) -> None:
    """The words that all tools for sheets take."""
    add = parser.add_argument
    add("--sheet", metavar="NAME", help="the sheet of a workbook (the only one that has something in it)")
    add("--cash", default="cash", metavar="NAME", help="the column of cash")
    outside = "a column of what is owed to others (outside, or none); several add up"
    add("--outside", action="append", metavar="NAME", help=outside)
    add("--no-outside", action="store_true", help="no column is of what is owed to others")
    add("--rule-column", metavar="NAME", help="the column of rules (rule, or none)")
    add("--rule", default="webster", choices=RULES, help="the rule where there is no such column (webster)")
    add("--class", dest="rank", type=int, default=1, choices=range(1, 10), help="the class of all debts (1)")
    add("--unit", type=unit_in, default=Fraction(1), help="what a unit of account is worth in the sheet (1), or auto")
    add("--round", dest="is_rounded", action="store_true", help="round to whole units")
    cases.add_limits(parser)
    add("--decimal", choices=[".", ","], help="the sign before decimals")
    add("--thousands", choices=[".", ",", "'", " "], help="the sign between thousands")
    dropped = "leave out the line of totals of this name; may be repeated"
    add("--drop", action="append", default=[], metavar="NAME", help=dropped)
    left_out.add_left_out(parser)
    bank = "a bank, though it looks like a line of totals; may be repeated"
    add("--keep", action="append", default=[], metavar="NAME", help=bank)
    fields = "what stands between two fields (a comma, else a semicolon or a tab), or tab"
    add("--delimiter", type=delimiter_in, help=fields)
    add("--encoding", type=encoding_in, default="utf-8", help="the encoding of the sheets (utf-8)")
    add("--skip", type=count_in, default=0, metavar="N", help="rows above the header that are passed over (0)")
    add("--label", metavar="FILE", help="the file of labels to write: a code for each name that the program refuses")
    add("--label-column", metavar="NAME", help="the column of full names, which are the labels of the names")
    add("--summary", metavar="FILE", help="the summary as a table, in place of standard error")


def parser_of(
    doc: Optional[str], add_own: Callable[[argparse.ArgumentParser], None], two_files: bool = True
) -> cli.Parser:
    """The parser of a tool that makes the two files of a sheet: its own words, the files to write, and what all such
    tools take."""
    parser = cli.parser_of(doc)
    add_own(parser)
    if two_files:
        parser.add_argument("--banks", metavar="FILE", help="the banks file to write")
        parser.add_argument("--debts", metavar="FILE", help="the debts file to write")
    add_words(parser)
    made_case.add_case_words(parser)
    return parser


def parse_args(kind: Type[Kind], parser: argparse.ArgumentParser, argv: Optional[Sequence[str]] = None) -> Kind:
    """What a command line says, or some other words. Ends with 2 where they do not go together."""
    args = options_of(kind, parser.parse_args(argv), made_case.line_of(argv))
    missing = args.missing()
    if missing:
        parser.error(f"the following arguments are required: {', '.join(missing)}")
    made_case.check_case_words(parser, args)
    if args.case:
        cases.check_moment()
    if args.decimal and args.decimal == args.thousands:
        parser.error("--decimal and --thousands are one sign")
    if args.no_outside and args.outside:
        parser.error("--no-outside and --outside are both said")
    if args.label_column and not args.has_codes:
        parser.error("--label-column is for --label or --case")
    check_names(parser, args.written())
    return args


WORKBOOKS = (".xlsx", ".xlsm", ".xls", ".ods")


def check_names(parser: argparse.ArgumentParser, written: Mapping[str, Optional[str]]) -> None:
    """Ends with 2 where a file to write has the name of a workbook: what is written is CSV."""
    for option, name in written.items():
        if name is not None and name.lower().endswith(WORKBOOKS):
            parser.error(f"--{option} {name}: what is written is CSV, and this is the name of a workbook")


def banks_of(
    table: Table, names: Iterable[str], columns: Columns, args: SheetOptions, cells: Cells, summary: Summary
) -> List[Bank]:
    """The banks of some names, with their columns of a table."""
    banks, empty = [], 0
    for name in names:
        if not is_name(name) and not (args.has_codes and name):
            cells.faults.at_row(table, table.rows.get(name), f"{name!r} {NAME_HINT}", kind="name")
        if name not in table.rows:
            cells.faults.add_general(table, f"no row for the bank {name}", kind="no row")
            continue
        rule = rule_of(table, name, columns.rule, args.rule, cells.faults)
        if is_empty(table, name, columns.cash):
            empty += 1
            check_empty(table, name, columns.cash, args, cells.faults)
        cash = whole(table, name, columns.cash, args, cells)
        outside = sum(whole(table, name, column, args, cells) for column in columns.outside)
        banks.append(Bank(name, cash, rule, outside))
    if empty:
        summary.tell("empty cells of cash, read as 0", empty, 0)
    return banks


def rule_of(table: Table, name: str, column: Optional[str], usual: str, faults: Faults) -> str:
    """The rule of a bank, by the column of rules where there is one."""
    if column is None or column not in table:
        return usual
    rule = table.cell(name, column)
    if rule not in RULES:
        faults.at_cell(table, table.rows[name], column, f"{rule!r} is not one of {', '.join(RULES)}", kind="rule")
    return rule or usual


def is_empty(table: Table, name: str, column: str) -> bool:
    """Whether the cash of a bank is an empty cell, or says that there is nothing."""
    text = str(table.cell(name, column)).strip() if column in table else "0"
    return not text or is_null(text)


def check_empty(table: Table, name: str, column: str, args: SheetOptions, faults: Faults) -> None:
    """Refuses an empty cell of cash until --empty 0."""
    if not args.is_empty_zero and not str(table.cell(name, column)).strip():
        what = f"the cash of {name} is an empty cell; write it, or say --empty 0 to read empty cells of cash as 0"
        faults.at_cell(table, table.rows[name], column, what, kind="empty cash")


def whole(table: Table, name: str, column: str, args: SheetOptions, cells: Cells) -> Amount:
    """An amount of a bank, which is to be a whole number of units unless amounts are rounded."""
    amount = cells.amount(table, name, column)
    if amount < 0:
        what = f"{shown(amount)} is below 0, and no cash or debt of a bank"
        cells.faults.at_cell(table, table.rows[name], column, what, kind="below 0")
        return 0
    if args.unit is not None and not args.is_rounded and (Fraction(amount) / args.unit).denominator != 1:
        cells.faults.at_cell(table, table.rows[name], column, not_whole(amount), kind="whole")
    return amount


def labels_in(banks: Iterable[Bank], table: Table, column: Optional[str]) -> Dict[str, str]:
    """The full names of the banks, where a column has them."""
    if not column:
        return {}
    names = {bank.name for bank in banks}
    return {name: str(text) for name, text in table.column(column).items() if text and name in names}


def outputs_of(
    network: Network,
    table: Located,
    args: TwoFileOptions,
    faults: Faults,
    summary: Summary,
    tool: str,
    read: Sequence[Optional[str]],
) -> Outputs:
    """The files of a network, each with its content."""
    if args.has_codes:
        network.codes = codes_of([bank.name for bank in network.banks])
        if network.codes:
            some = ", ".join(f"{code} for {name}" for name, code in list(network.codes.items())[:3])
            summary.tell("codes in place of names", len(network.codes), None, some)
    units = Units.of(network, args, faults, table)
    faults.end_if_any()
    units.tell(summary)
    texts = units.banks_text(), units.debts_text()
    outputs: Outputs = [(args.banks, texts[0]), (args.debts, texts[1])] if args.banks and args.debts else []
    outputs += [(args.label, network.labels_text())] if args.label else []
    if args.case:
        labels = made_case.labels_of(network, network.table, args.of_case.columns)
        case = made_case.CaseOfSheets(args.case, texts, units.unit, labels, args.of_case, tool)
        outputs += case.files(read, summary).items()
    return outputs


def write(conversion: Conversion, args: SheetOptions) -> None:
    """Writes the files, all or none, and then tells what was done: on standard error, or in the file of the summary."""
    outputs, inputs, summary = conversion
    most = LIMITS[args.limits or WIDE].bytes["banks"]
    # With --samples there is a case for each network.
    folders = {os.path.dirname(name) for name, _ in outputs if args.case and os.path.basename(name) == description.NAME}
    for name, text in outputs:
        size = len(text) if isinstance(text, bytes) else len(text.encode())
        if size > most and not any(made_case.is_sheet_of(folder, name) for folder in folders):
            raise ToolError(f"{name} would have {size:,} bytes, and the most is {most:,}")
    if args.summary:
        outputs = [*outputs, (args.summary, summary.table())]
    files.write_all(outputs, inputs)
    if args.of_case.is_replaced:
        made_case.remove_stale([name for name, _ in outputs])
    if not args.summary:
        if isinstance(sys.stderr, io.TextIOWrapper):
            sys.stderr.reconfigure(encoding="utf-8", errors="backslashreplace")
        print(summary.text(), end="", file=sys.stderr, flush=True)
