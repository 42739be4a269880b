"""Whether an answer stands where the case is changed in one point."""
import argparse
from typing import List

from clearing_client.stands import Stands, stands
from clearing_client.steady import NOTE

from .. import cases
from ..exports.workbook import write_tables
from ..fullnames import FullNames
from .answers import answer_or_end, full_of, keep_apart, read_all


def add_stands(parser: argparse.ArgumentParser) -> None:
    """The words of stands."""
    parser.add_argument("case", metavar="FOLDER", help="the case")
    parser.add_argument("--all", action="store_true", help="the banks that stand in all variations too")
    parser.add_argument(
        "--output", metavar="FILE", help="the table, standard output where it is not given; .xlsx is a workbook"
    )


def ask_stands(args: argparse.Namespace) -> int:
    """Writes which banks are elsewhere in a variation."""
    (case,) = read_all([args.case])
    keep_apart([case], [args.output])
    answer = answer_or_end(lambda: stands(case))
    names = cases.names_of(case)
    banks = list(answer.banks) if args.all else answer.changed
    head = ["bank", *(["full"] if names.full else []), *answer.variations, "note"]
    write_tables({"banks": [head, *(stands_record(answer, bank, names) for bank in banks)]}, args.output)
    return 0


def stands_record(answer: Stands, bank: str, names: FullNames) -> List[str]:
    """A bank in each variation, what changes marked by an asterisk; and whether its figures are of the size of a
    unit."""
    places = answer.banks[bank]
    here = places[answer.variations[0]]
    cells = [places[name].words() + ("" if places[name] == here else " *") for name in answer.variations]
    note = NOTE if bank in answer.unsteady else ""
    return [bank, *full_of(bank, names), *cells, note]
