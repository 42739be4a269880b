"""The case of a command line: a folder, or the two files, with what options say over it."""
import argparse
import os
import sys
from decimal import Decimal
from typing import List, NamedTuple, Optional, Sequence

from clearing_client import description
from clearing_client.case import Case
from clearing_client.errors import CaseError, ClearingError, UnreadableError
from clearing_client.inputs import read_file
from clearing_client.limits import LIMITS, STANDARD, WIDE, beyond, long_file
from clearing_client.network import Network
from clearing_client.steady import WHY, unsteady

from .fullnames import FullNames, read_labels
from .money import Money
from .runner import ToolError, say, shown

UNREADABLE, REFUSED = 3, 4
MOST_TOLD = 10
"""So many banks of a kind are told by name."""


def add_case(parser: argparse.ArgumentParser) -> None:
    """The words of a tool that takes a network: a folder, or the two files, which decide over those of the folder."""
    parser.add_argument(
        "case", metavar="FOLDER", nargs="?", help="the case: a folder with the two files and what belongs to them"
    )
    parser.add_argument("--banks", metavar="FILE", help="the banks file, where no folder is given")
    parser.add_argument("--debts", metavar="FILE", help="the debts file, where no folder is given")
    add_limits(parser)


def add_limits(parser: argparse.ArgumentParser) -> None:
    """The word --limits of a tool that has networks read."""
    parser.add_argument(
        "--limits",
        choices=list(LIMITS),
        help="the limits of the network; wide where it is not said and the network passes the standard ones",
    )


class Taken(NamedTuple):
    """What the words of a tool mean: a case, and what is said over it."""

    case: Case
    banks: str
    """The banks file."""
    debts: str
    """The debts file."""
    scenarios: Optional[str]
    """The scenarios file, where there is one."""
    limits: str
    """The limits by which the files are read."""
    unit: Optional[Decimal]
    """What a unit of account is worth, where that is said or is not 1 of the currency."""

    @property
    def money(self) -> Money:
        """How amounts are printed for people."""
        return Money(self.unit, self.case.currency)


def take_case(parser: argparse.ArgumentParser, args: argparse.Namespace) -> Taken:
    """The case that the words of a tool mean. What else is said beside a folder decides over it: --banks, --debts,
    --scenarios, --labels, --unit, --currency, --title and --default-keeps, as far as the tool has these words.

    Ends with 2 where there is neither a folder nor the two files, and fails with 3 where a file cannot be read, and
    with 4 where the folder is refused. What is to be told of the folder is told on standard error."""
    missing = [option for option, name in (("--banks", args.banks), ("--debts", args.debts)) if name is None]
    if args.case is None and missing:
        parser.error(f"the following arguments are required: {', '.join(missing)}")
    case = read_case(args.case) if args.case is not None else Case.of_files(args.banks, args.debts)
    tell(case)
    words = vars(args)
    for file in ("banks", "debts", "scenarios"):
        if words.get(file) is not None:
            case.paths[file] = words[file]
    limits = settle_limits(case, args.limits)
    unit = with_words(case, args)
    return Taken(case, case.paths["banks"], case.paths["debts"], case.paths.get("scenarios"), limits, unit)


def settle_limits(case: Case, limits: Optional[str] = None) -> str:
    """The limits by which the files of a case are read: those that were said on the command line, else by the case,
    else those that they need. The case keeps them where they were said, or are wide."""
    limits = limits or case.said_limits
    by = limits_for(limits, case.paths["banks"], case.paths["debts"])
    case.said_limits = limits or (WIDE if by == WIDE else None)
    return by


def limits_for(limits: Optional[str], banks: str, debts: str) -> str:
    """The limits by which two files are read: those that were said, else the standard ones, or the wide ones where the
    files pass these, which is told. What is no file, or cannot be read, is left to the program."""
    what = None if limits is not None else passed_by(banks, debts)
    if what is None:
        return limits or STANDARD
    say(read_widely(what))
    return WIDE


def passed_by(banks: str, debts: str) -> Optional[str]:
    """What two files have that passes the standard limits, in words, or nothing. So it is where one is no file, or
    cannot be read."""
    if not (os.path.isfile(banks) and os.path.isfile(debts)):
        return None
    try:
        return long_file(banks=banks, debts=debts) or beyond(read_file(banks), read_file(debts))
    except (UnreadableError, OSError):
        return None


def read_widely(what: str) -> str:
    """What is told where a network is read by the wide limits, and nobody said so."""
    return f"the network is read by the wide limits, as it has {what}; --limits wide says so"


def add_beside(parser: argparse.ArgumentParser) -> None:
    """The word --case of a tool that reads what the program printed."""
    parser.add_argument("--case", metavar="FOLDER", help="the case that the texts are of: names, unit and currency")


class Beside(NamedTuple):
    """What is said beside a text that the program printed: a case, where one is named, and what is said over it."""

    case: Optional[Case]
    banks: Optional[str]
    """The banks file, where one is named or the case has it."""
    unit: Optional[Decimal]
    currency: Optional[str]

    @property
    def inputs(self) -> List[str]:
        """The files that the case was read from."""
        return inputs_of(self.case) if self.case else []

    @property
    def money(self) -> Money:
        """How amounts are printed for people."""
        return Money(self.unit, self.currency)


def beside(args: argparse.Namespace) -> Beside:
    """What --case, --banks, --unit and --currency say beside what a tool reads, as far as it has these words. The case
    says what the others are where they are not said."""
    words = vars(args)
    banks: Optional[str] = words.get("banks")
    if args.case is None:
        return Beside(None, banks, words.get("unit"), words.get("currency"))
    case = read_case(args.case)
    tell(case)
    unit = with_words(case, args)
    return Beside(case, banks if banks is not None else case.paths["banks"], unit, case.currency)


def read_case(folder: str) -> Case:
    """The case of a folder. Fails with 3 where a file cannot be read, and with 4 where the folder is refused."""
    try:
        return Case.read(folder)
    except UnreadableError as fault:
        raise ToolError(str(fault), UNREADABLE) from fault
    except CaseError as fault:
        raise ToolError(str(fault), REFUSED) from fault


def check_moment() -> None:
    """Fails with 2 where the environment names no moment at which something is made: before anything runs."""
    try:
        description.seconds()
    except CaseError as fault:
        raise ToolError(str(fault), 2) from fault


def tell(case: Case) -> None:
    """Tells what is to be told of a folder, a line each."""
    for note in case.notes:
        print(shown(f"case: {note}"), file=sys.stderr)


def with_words(case: Case, args: argparse.Namespace) -> Optional[Decimal]:
    """Sets in a case what is said over it. Gives what a unit of account is worth, as it is printed: as it was said,
    else by the case, or nothing where that is 1."""
    words = vars(args)
    unit: Optional[Decimal] = words.get("unit")
    case.unit = case.unit if unit is None else unit
    if words.get("currency") is not None:
        case.currency = words["currency"]
    if words.get("title") is not None:
        case.title = words["title"]
    if words.get("default_keeps") is not None:
        case.keep = words["default_keeps"]
    if words.get("labels") is not None:
        names = read_labels(words["labels"])
        case.labels = {bank: case.label(bank)._replace(full=full) for bank, full in names.full.items()}
        case.paths["labels"] = words["labels"]
    return unit if unit is not None or case.unit == 1 else case.unit


def inputs_of(case: Case) -> List[str]:
    """The files that a case was read from, over which nothing is written."""
    return [
        *case.paths.values(),
        *([str(case.folder / "datapackage.json")] if case.folder and case.is_described else []),
    ]


def names_of(case: Case) -> FullNames:
    """The full names of a case, where it has any."""
    return FullNames({bank: label.full for bank, label in case.labels.items() if label.full})


def names_of_all(several: Sequence[Case]) -> FullNames:
    """The full names of several cases. The last case that has one for a bank decides."""
    return FullNames({bank: full for case in several for bank, full in names_of(case).full.items()})


def money_of(case: Case) -> Money:
    """How the amounts of a case are printed: in units of account where it says neither a unit nor a currency."""
    return Money(case.unit if case.unit != 1 else None, case.currency)


def marked_names_of(case: Case) -> FullNames:
    """The full names of a case, where it has any, with a mark behind those that one unit decides."""
    return FullNames(names_of(case).full, tell_unsteady(case))


def names_for(args: argparse.Namespace, case: Optional[Case]) -> FullNames:
    """What banks are called in a picture: by --labels, or by the case that --case names beside what is read."""
    return marked_names_of(case) if case else read_labels(args.labels)


def tell_unsteady(case: Case) -> List[str]:
    """The banks of a folder with a description that one unit decides; they are told in a line on standard error. A case
    of the two files alone is not asked about."""
    if not case.is_described:
        return []
    try:
        banks = unsteady(Network(case.paths["banks"], case.paths["debts"], limits=case.said_limits))
    except ClearingError as fault:
        raise ToolError(str(fault), fault.status if fault.status in (UNREADABLE, REFUSED) else 1) from fault
    if banks:
        names = names_of(case)
        more = f" and {len(banks) - MOST_TOLD:,} more" if len(banks) > MOST_TOLD else ""
        print(
            shown(f"case: {', '.join(map(names, banks[:MOST_TOLD]))}{more}: {WHY[0].lower()}{WHY[1:]}"), file=sys.stderr
        )
    return banks
