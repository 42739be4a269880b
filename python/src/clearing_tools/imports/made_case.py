"""The case that an importer makes of sheets: the two files with unit, currency, date and names, and what the import
did."""
import argparse
import contextlib
import dataclasses
import os
import pathlib
import re
import sys
from decimal import Decimal
from fractions import Fraction
from typing import Container, Dict, Iterable, List, Mapping, Optional, Sequence, Tuple

from clearing_client import case as cases
from clearing_client import description
from clearing_client.case import Case, Label, Source
from clearing_client.errors import CaseError

from .. import files
from ..runner import ToolError
from ..way import Way
from .amounts import Amounts, AmountError, decimals_of
from .faults import Faults
from .sheet_options import LABEL_COLUMNS, CaseOptions, SheetOptions
from .summary import Summary
from .tables import Table, need_column
from .units import Network

WRITTEN = ("case", "replace", "banks", "debts", "out", "label", "summary", "keep-sources")
"""Words that say where something is written, and nothing of what."""
REFUSED = 1
LOSS = re.compile(rb"\bamount\b[\"']?\s*=")
"""The key of what a bank loses, in a file of scenarios."""
MOST_TOLD = 5
"""So many labels that go are told by name."""


def add_case_words(parser: argparse.ArgumentParser) -> None:
    """The words that make a case of what is imported, and say what belongs to it."""
    add = parser.add_argument
    add("--case", metavar="FOLDER", help="the case to write: a folder with the two files and what belongs to them")
    add(
        "--replace",
        action="store_true",
        help="write over a case that is there; its date and labels go, and all else stays that is not said anew",
    )
    add("--keep-sources", action="store_true", help="copies of the sheets in the case")
    add("--title", metavar="TEXT", help="the title of the case")
    add("--as-of", metavar="DATE", type=date_in, help="the date of the amounts, YYYY-MM-DD")
    add("--test", choices=["liquidity", "solvency"], help="what cash stands for")
    add("--currency", metavar="CODE", type=currency_in, help="the currency of the sheet, such as EUR")
    add(
        "--amounts-in",
        metavar="N",
        type=scale_in,
        help="the sheet has amounts in so many of the currency, such as 1000",
    )
    for word in LABEL_COLUMNS:
        add(
            f"--{word}-column",
            metavar="NAME",
            help=f"the column of {word} names" if word == "short" else f"the column of the {word} of a bank",
        )


def date_in(word: str) -> str:
    """A date of the form YYYY-MM-DD."""
    try:
        description.date_of(word)
    except CaseError:
        raise argparse.ArgumentTypeError(f"{word!r} is no date YYYY-MM-DD") from None
    return word


def scale_in(word: str) -> Fraction:
    """How much of the currency an amount of 1 in the sheet is: a decimal number above 0."""
    try:
        scale = Fraction(Amounts(decimal=".").read(word))
    except AmountError:
        scale = Fraction(0)
    if scale <= 0:
        raise argparse.ArgumentTypeError(f"{word!r} is not a number above 0, such as 1000")
    return scale


def currency_in(word: str) -> str:
    """A currency by its three letters."""
    if not (len(word) == 3 and word.isascii() and word.isalpha() and word.isupper()):
        raise argparse.ArgumentTypeError(f"{word!r} is not a currency of three letters, such as EUR")
    return word


def check_case_words(parser: argparse.ArgumentParser, args: SheetOptions) -> None:
    """Ends with 2 where words for a case are said without one."""
    case = args.of_case
    words = {
        "replace": case.is_replaced,
        "keep-sources": case.is_kept,
        "title": case.title,
        "as-of": case.as_of,
        "test": case.test,
        **{f"{word}-column": case.columns.get(word) for word in LABEL_COLUMNS},
        "amounts-in": case.amounts_in,
    }
    for word, value in words.items():
        if value and args.case is None:
            parser.error(f"--{word} is for --case")


def check_columns(columns: Mapping[str, str], table: Table, faults: Faults, banks: Container[str] = ()) -> None:
    """Refuses a table without a column that the words of a case name."""
    for word, column in columns.items():
        need_column(faults, table, f"{word}-column", column, banks)


def labels_of(network: Network, table: Table, columns: Mapping[str, str]) -> List[Label]:
    """A label for each bank that has a full name, a short one, a group or a country."""
    labels = []
    for bank in network.banks:
        has = {word: cell_of(table, bank.name, columns.get(word)) for word in LABEL_COLUMNS}
        name = network.codes.get(bank.name, bank.name)
        full = network.labels.get(bank.name, bank.name)
        label = Label(name, has["short"], full if full != name else "", has["group"], has["country"])
        if any(label[1:]):
            labels.append(label)
    return labels


def cell_of(table: Table, bank: str, column: Optional[str]) -> str:
    """What a bank has in a column, or nothing."""
    return str(table.cell(bank, column)) if column is not None and bank in table.rows else ""


@dataclasses.dataclass(frozen=True)
class CaseOfSheets:
    """A case that is made of sheets by a tool: its folder, the texts of the two files, the unit of account in amounts
    of the sheet, the labels of its banks, and what was said of it."""

    folder: str
    texts: Tuple[str, str]
    unit: Fraction
    labels: Sequence[Label]
    options: CaseOptions
    tool: str

    def files(self, read: Iterable[Optional[str]], summary: Summary) -> Dict[str, bytes]:
        """The files of the case by their names, the description last; with the sheets that were read, and what was
        done."""
        names = sources_of(read)
        try:
            case = self.case_of(names, replaced(self.folder, self.options.is_replaced), summary)
            is_kept = self.options.is_kept
            contents = case.files({name: files.bytes_of(path) for path, name in names.items()} if is_kept else {})
        except CaseError as fault:
            raise ToolError(f"{self.folder}: {fault}", REFUSED) from fault
        return {os.path.join(self.folder, name): data for name, data in contents.items()}

    def case_of(self, names: Mapping[str, str], before: Optional[Case], summary: Summary) -> Case:
        """The case, which keeps what belongs to the one that it is written over and not to its sheets. Its date and
        labels are those of the sheets alone; that they go is told."""
        tell_gone(summary, before, self.labels, self.options)
        options, scale = self.options, self.options.amounts_in or Fraction(1)
        unit = decimal_of(self.unit * scale)
        check_losses(before, unit)
        banks, debts = self.texts
        sheets = f"{cases.SHEETS}/" if options.is_kept else ""
        case = Case(
            cases.network_of(banks.encode(), debts.encode()),
            title=options.title or (before.title if before else ""),
            description=before.description if before else "",
            as_of=options.as_of,
            test=options.test or (before.test if before else None),
            currency=options.currency or (before.currency if before else None),
            unit=unit,
            keep=before.keep if before else None,
            labels=self.labels,
            scenarios=before.scenarios if before else None,
            contributors=before.contributors if before else (),
            version=before.version if before else None,
            sources=[Source(name, f"{sheets}{name}" if sheets else "", hash_of(path)) for path, name in names.items()],
            summary=summary.of_case(command_of(self.tool, options.line, names, options.is_kept), scale),
        )
        case.others = before.others if before else {}
        return case


def check_losses(before: Optional[Case], unit: Decimal) -> None:
    """Refuses another unit for a case whose scenarios stay: their losses are units, and would be worth something
    else."""
    if before and before.scenarios and LOSS.search(before.scenarios) and before.unit != unit:
        place = before.paths["scenarios"]
        raise ToolError(
            f"{place} has losses in units of {before.unit:,f}, and a unit is {unit:,f} now; remove it, and make it anew"
            " by clearing-case scenarios",
            REFUSED,
        )


def tell_gone(summary: Summary, before: Optional[Case], labels: Sequence[Label], options: CaseOptions) -> None:
    """Tells what goes with a case that is written over: its date, and labels, where nothing is in their place."""
    if before is None:
        return
    if before.as_of and not options.as_of:
        summary.tell("the date of the case before, not kept", detail=before.as_of.isoformat(), step="leftOut")
    gone = set(before.labels) - {label.bank for label in labels}
    some = [bank for bank in before.labels if bank in gone]
    if some:
        more = f" and {len(some) - MOST_TOLD:,} more" if len(some) > MOST_TOLD else ""
        detail = f"{', '.join(some[:MOST_TOLD])}{more}"
        summary.tell("labels of the case before, not kept", len(some), detail=detail, step="leftOut")


def replaced(folder: str, is_replaced: bool) -> Optional[Case]:
    """The case that stands in a folder and is written over, or nothing. Fails where it may not be."""
    if not os.path.lexists(folder):
        return None
    try:
        cases.check_replaceable(pathlib.Path(folder), folder, is_replaced)
        return Case.read(folder) if any(os.scandir(folder)) else None
    except CaseError as fault:
        more = "; say --replace" if not is_replaced else ""
        raise ToolError(f"{fault}{more}", REFUSED) from fault


def remove_stale(written: Sequence[str]) -> None:
    """Removes the files of cases that were written over which the new ones have not. Folders are gone into by their
    descriptors and no link is followed, so that nothing goes that does not stand in the folder of a case itself."""
    names = set(written)
    for place in [name for name in written if os.path.basename(name) == description.NAME]:
        folder = os.path.dirname(place)
        with contextlib.suppress(OSError), contextlib.closing(Way(place)) as way:
            for name in cases.FILES.values():
                if os.path.join(folder, name) not in names:
                    files.remove(name, way.folder)
            remove_sheets(way.folder, {os.path.basename(name) for name in names if is_sheet_of(folder, name)})


def is_sheet_of(folder: str, name: str) -> bool:
    """Whether a name is that of a copy of a sheet in the folder of a case."""
    return os.path.dirname(name) == os.path.join(folder, cases.SHEETS)


def remove_sheets(folder: int, kept: Container[str]) -> None:
    """Removes the copies of sheets of a case that are not kept, and their folder where nothing is left in it. The
    folder of the case is given by its descriptor."""
    sheets = os.open(cases.SHEETS, os.O_RDONLY | os.O_DIRECTORY | os.O_NOFOLLOW, dir_fd=folder)
    try:
        for name in os.listdir(sheets):
            if name not in kept:
                files.remove(name, sheets)
    finally:
        os.close(sheets)
    os.rmdir(cases.SHEETS, dir_fd=folder)


def decimal_of(unit: Fraction) -> Decimal:
    """A unit as an exact decimal."""
    places = decimals_of(unit)
    return Decimal(f"{int(unit * 10**places)}E-{places}")


def hash_of(path: str) -> str:
    """The checksum of a sheet."""
    return description.hash_of(files.bytes_of(path))


def sources_of(read: Iterable[Optional[str]]) -> Dict[str, str]:
    """The sheets that were read, each with a name of its own."""
    names: Dict[str, str] = {}
    for path in dict.fromkeys(path for path in read if path):
        name = "".join(
            letter if letter.isprintable() and letter not in "\\/:" else "_" for letter in os.path.basename(path)
        )
        while name in names.values() or name in ("", ".", ".."):
            name = f"{len(names) + 1}-{name}"
        names[path] = name
    return names


def command_of(tool: str, line: Sequence[str], names: Mapping[str, str], is_kept: bool) -> List[str]:
    """The words of a command without those that say where to write, and with the sheets by their names in the case."""
    line_kept, skip = [f"{tool}.py"], False
    for word in line:
        if skip:
            skip = False
            continue
        option, sign, _ = word.partition("=")
        if option.startswith("--") and option[2:] in WRITTEN:
            skip = not sign and option[2:] not in ("replace", "keep-sources")
            continue
        line_kept.append(by_name(word, names, f"{cases.SHEETS}/" if is_kept else ""))
    return line_kept


def by_name(word: str, names: Mapping[str, str], before: str) -> str:
    """A word with the name of a sheet in place of its path."""
    for path, name in names.items():
        if word == path:
            return before + name
        if word.endswith(f"={path}"):
            return word[: -len(path)] + before + name
    return word


def line_of(words: Optional[Sequence[str]]) -> List[str]:
    """The words of a command line, or some others."""
    return list(sys.argv[1:] if words is None else words)
