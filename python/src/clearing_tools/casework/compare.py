"""Two cases side by side, as a table and as a page."""
import argparse
from typing import List

from clearing_client.compare import Difference, compare
from clearing_client.steady import NOTE, unsteady

from .. import cases, files
from ..exports.workbook import write_tables
from ..fullnames import FullNames
from . import side_by_side
from .answers import answer_or_end, keep_apart, read_all
from .side_by_side import WHAT, plain


def add_compare(parser: argparse.ArgumentParser) -> None:
    """The words of compare."""
    parser.add_argument("before", metavar="FOLDER", help="the case before")
    parser.add_argument("after", metavar="FOLDER", help="the case after")
    parser.add_argument(
        "--output", metavar="FILE", help="the table, standard output where it is not given; .xlsx is a workbook"
    )
    parser.add_argument("--page", metavar="FILE", help="the same as a page of HTML, to write")


def compare_cases(args: argparse.Namespace) -> int:
    """Writes two cases side by side."""
    both = read_all([args.before, args.after])
    keep_apart(both, [args.output, args.page])
    comparison = answer_or_end(lambda: compare(*both))
    one_unit = set(answer_or_end(lambda: [*unsteady(both[0]), *unsteady(both[1])]))
    names = cases.names_of_all(both)
    records = [[*record_of(bank, names), NOTE if bank.bank in one_unit else ""] for bank in comparison.banks]
    if args.page:
        inputs = [name for case in both for name in cases.inputs_of(case)]
        files.put(side_by_side.page_of(comparison, names, one_unit), args.page, inputs, status=5)
    write_tables({"banks": [header_of(names), *records]}, args.output)
    return 0


def header_of(names: FullNames) -> List[str]:
    """The columns of two cases side by side."""
    amounts = [f"{what}_{when}" for what in WHAT for when in ("before", "after", "more")]
    return ["bank", *(["full"] if names.full else []), "change", "state_before", "state_after", *amounts, "note"]


def record_of(bank: Difference, names: FullNames) -> List[object]:
    """A bank of two cases as a record."""
    record: List[object] = [
        bank.bank,
        *([names.of(bank.bank)] if names.full else []),
        bank.change,
        bank.state_before,
        bank.state_after,
    ]
    for what in WHAT:
        values = (getattr(bank, f"{what}_before"), getattr(bank, f"{what}_after"), bank.more(what))
        record += ["" if value is None else plain(value) for value in values]
    return record
