"""Makes tidy tables of a text that `clearing` printed: one comma-separated file for each table.

In:  OUTPUT, a file with what a task of `clearing` printed, or `-` for standard input. Which task, its text tells.
Out: for each table of the text the file NAME-TABLE.csv, where NAME is that of OUTPUT without its ending, or `output`;
     in the folder of OUTPUT (of standard input: the folder of the call), or in --folder. Or, with --out FILE.xlsx, one
     workbook with a sheet for each table. On standard output the names of the files, one a line.

A file has a header, then a record for each debt, bank, raise or scenario, and no line of sums, so that what reads
tables adds up to what is there. The tables are payments, standings, journal, waves, ranks, banks, debts, scenarios,
cuts, pairs and saved. The sums that the program printed, and what it printed once, such as `rounds`, are the table
`totals`: one record, and for `stress` one for each scenario. What `stress` prints has the columns `number`, the
scenario's from 1, and `scenario`, its name.

With --unit, or by the unit of --case FOLDER, amounts are units times it, as decimal numbers; classes, stamps, ranks and
counts stay.

A name may be `NA` or `null`: read the tables with pandas.read_csv(.., keep_default_na=False), or read.csv(..,
na.strings = character(0)).

Ends with 0, or with 1 and a message where a file cannot be read, is not what `clearing` prints or cannot be written, or
with 2 where the words are not understood. Then nothing is written.
"""
import contextlib
import errno
import itertools
import os
import pathlib
import sys
import tempfile
from decimal import Decimal
from typing import IO, Callable, Dict, Iterable, Iterator, List, Mapping, Sequence, Tuple, Union

from clearing_client.errors import TextError
from clearing_client.limits import MOST
from clearing_client.records import ScenarioPayment, ScenarioStanding, ScenarioTotals
from clearing_client.results import AnyTable
from clearing_client.table import words_of
from clearing_client.texts import SUMS, outcomes_in

from .. import cases, cli, files, money
from ..runner import ToolError, command
from ..texts import parsed
from .workbook import book_of, is_book

AsAmount = Callable[[int], Union[str, Decimal]]
"""What writes units as an amount."""
Content = Union[str, IO[bytes]]
Value = Union[str, int, None]
"""What stands in a column: a name, a number, or whether something is so, where that is known."""
AMOUNTS = set(
    """claim paid least greatest estate outside_paid owed equity lost cash outside to added short cancelled had allowed
    own others lost_at_least equity_at_least lost_at_greatest equity_at_greatest""".split()
)
# A journal by the wide limits and what is printed beside it are no longer, and no header is.
MOST_BYTES, MOST_LINE = MOST.bytes["journal"] + files.MOST_BYTES, 1_000_000
SHOWN: Mapping[object, str] = {True: "yes", False: "no", None: ""}


@contextlib.contextmanager
def opened(output: str) -> Iterator[Tuple[str, IO[bytes]]]:
    """What a file or standard input is called, and its bytes as they come. Fails where they cannot be read."""
    name = "standard input" if output == "-" else output
    try:
        if output == "-":
            yield name, sys.stdin.buffer
        else:
            with open(output, "rb") as file:
                yield name, file
    except (OSError, UnicodeDecodeError) as fault:
        raise ToolError(f"{name}: cannot be read: {fault}") from fault


def text_of(stream: IO[bytes], first: bytes = b"") -> str:
    """The text of what is left of a stream, behind a line that was read of it already."""
    return (first + files.bytes_in(stream, MOST_BYTES)).decode("utf-8-sig").replace("\r\n", "\n")


def tables_of(output: str, as_amount: AsAmount, undo: contextlib.ExitStack) -> Dict[str, Content]:
    """The files of the tables of a text, by their names. What `stress` printed is read one scenario at a time, and its
    tables are kept in files without a name until they are written."""
    with opened(output) as (name, stream):
        first = stream.readline(MOST_LINE)
        if len(first) == MOST_LINE:
            raise OSError(errno.EFBIG, f"its first line is longer than {MOST_LINE - 1:,} bytes")
        start = first.decode("utf-8-sig")
        if start.startswith("scenario,") and start.rstrip("\r\n") != SUMS:
            return stress_tables(name, itertools.chain([first], stream), as_amount, undo)
        text = text_of(stream, first)
    return {table: "".join(csv_lines(each, as_amount)) for table, each in parsed(name, text).tables().items()}


def stress_tables(
    name: str, stream: Iterable[bytes], as_amount: AsAmount, undo: contextlib.ExitStack
) -> Dict[str, Content]:
    """The files of the tables of what `stress` printed, each record with the number and the name of its scenario."""
    kinds = {"payments": ScenarioPayment, "standings": ScenarioStanding, "totals": ScenarioTotals}
    texts: Dict[str, IO[bytes]] = {table: undo.enter_context(tempfile.TemporaryFile()) for table in kinds}
    for table, kind in kinds.items():
        texts[table].write((",".join(words_of(kind)) + "\n").encode())
    try:
        for outcome in outcomes_in(stream):
            for table, each in outcome.tables().items():
                _, *rows = csv_lines(each, as_amount)
                texts[table].write("".join(f"{outcome.number},{outcome.name},{row}" for row in rows).encode())
    except TextError as fault:
        raise ToolError(f"{name}: {fault}") from fault
    return dict(texts)


def sheets_of(output: str, as_amount: AsAmount) -> Dict[str, List[Sequence[object]]]:
    """The tables of a text as the sheets of a workbook: the records of each by its name, the header first."""
    with opened(output) as (name, stream):
        text = text_of(stream)
    tables = parsed(name, text).tables()
    return {title: records_of(table, lambda units: Decimal(as_amount(units))) for title, table in tables.items()}


def records_of(table: AnyTable, as_amount: AsAmount) -> List[Sequence[object]]:
    """The records of a table, its header first."""
    columns = [[cell_of(name, value, as_amount) for value in table.column(name)] for name in table.columns]
    return [table.columns, *zip(*columns)]


def cell_of(name: str, value: Value, as_amount: AsAmount) -> Union[str, int, Decimal]:
    """A value of a column as a number or a text."""
    if value is None or isinstance(value, (bool, str)):
        return value if isinstance(value, str) else SHOWN[value]
    return as_amount(value) if name in AMOUNTS else value


def csv_lines(table: AnyTable, as_amount: AsAmount) -> List[str]:
    """The lines of a file of a table. No name has a comma, a quote or the end of a line."""
    return [",".join(map(str, record)) + "\n" for record in records_of(table, as_amount)]


@command("tidy")
def main() -> None:
    """The command."""
    parser = cli.parser_of(__doc__)
    parser.add_argument("output", metavar="OUTPUT", help="what `clearing` printed; `-` is standard input")
    parser.add_argument("--case", metavar="FOLDER", help="the case that the text is of, for what a unit is worth")
    money.add_unit(parser)
    parser.add_argument("--folder", help="the folder of the tables, which is made where it is not there")
    parser.add_argument("--out", metavar="FILE.xlsx", help="one workbook in place of the files")
    args = parser.parse_args()
    if args.out is not None and (args.folder is not None or not is_book(args.out)):
        parser.error("--out is a file that ends with .xlsx, in place of --folder")
    is_input = args.output == "-"
    path = pathlib.Path("output" if is_input else args.output)
    folder = path.parent if args.folder is None else pathlib.Path(args.folder)
    beside = cases.beside(args)
    as_amount = money.amount_by(beside.unit)
    with contextlib.ExitStack() as undo:
        if args.out is not None:
            tables: Dict[str, files.Content] = {args.out: book_of(sheets_of(args.output, as_amount))}
        else:
            contents = tables_of(args.output, as_amount, undo)
            tables = {str(folder / f"{path.stem}-{name}.csv"): table for name, table in contents.items()}
        files.write_all(tables, [*([] if is_input else [args.output]), *beside.inputs])
    files.put(b"".join(os.fsencode(name) + b"\n" for name in tables))
