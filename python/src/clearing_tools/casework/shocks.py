"""Scenarios from a sheet: a scenario a column, or a row, and a bank a row, or a column, with what each bank loses, as
an amount or as a share of its cash."""
import argparse
import os
import pathlib
import re
from fractions import Fraction
from typing import Dict, Iterator, List, NamedTuple

from clearing_client import description
from clearing_client.case import FILES, Case
from clearing_client.format import MAX_LOSS, MAX_SCENARIOS, is_name
from clearing_client.scenarios import Scenario, Scenarios

from .. import cases, files, labels
from ..imports import options, tables
from ..imports.amounts import Amounts, AmountError, shown
from ..imports.faults import HEADER, Faults
from ..imports.made_case import scale_in
from ..imports.reading import Form
from ..imports.summary import Summary, scale_told
from ..imports.tables import Table
from ..runner import ToolError
from ..texts import read_accounts
from .folder import files_in

PERCENT = re.compile(r"(.*?)\s*%")


class Loss(NamedTuple):
    """What a bank loses in a scenario, in the currency or as a share of its cash, and where it stands."""

    scenario: str
    bank: str
    amount: Fraction
    row: int
    column: str


def add_scenarios(parser: argparse.ArgumentParser) -> None:
    """The words of scenarios."""
    add = parser.add_argument
    add("case", metavar="FOLDER", help="the case, which gets the scenarios")
    add("scenario_sheet", metavar="SHEET", help="the sheet: names of banks in its first column, a scenario a column")
    add("--rows", action="store_true", help="a scenario a row, and a bank a column")
    add("--share", action="store_true", help="losses are shares of cash, such as 0.25 or 25%%, and not amounts")
    add(
        "--amounts-in",
        metavar="N",
        type=scale_in,
        help="losses are in so many of the currency, such as 1000 (1, or asked for by what the case was made of)",
    )
    add("--replace", action="store_true", help="write over the scenarios that are there")
    add(
        "--ignore",
        action="append",
        default=[],
        metavar="COLUMN",
        help="a column that is not looked at; may be repeated",
    )
    add("--sheet", metavar="NAME", help="the sheet of a workbook")
    add("--decimal", choices=[".", ","], help="the sign before decimals")
    add("--thousands", choices=[".", ",", "'", " "], help="the sign between thousands")
    add("--delimiter", type=options.delimiter_in, help="what stands between two fields, or tab")
    add("--encoding", type=options.encoding_in, default="utf-8", help="the encoding of the sheet (utf-8)")
    add(
        "--skip",
        type=options.count_in,
        default=0,
        metavar="N",
        help="rows above the header that are passed over (0)",
    )


def take_scenarios(args: argparse.Namespace) -> int:
    """Makes the scenarios of a case of a sheet, and describes the case anew."""
    cases.check_moment()
    case = cases.read_case(args.case)
    cases.tell(case)
    if "scenarios" in case.paths and not args.replace:
        raise ToolError(f"{case.paths['scenarios']} is there; say --replace to write over it")
    faults, summary = Faults(), Summary()
    table = Table(args.scenario_sheet, Form(args.encoding, args.delimiter, args.skip, args.sheet), faults)
    faults.end_if_any()
    scenarios = scenarios_of(table, case, args, faults, summary)
    faults.end_if_any()
    case.scenarios = scenarios.to_toml(plain=True).encode()
    place = pathlib.Path(args.case)
    contents = {os.fspath(place / FILES["scenarios"]): case.scenarios}
    if case.is_described:
        there = {name: data for name, data in files_in(case, place).items() if name != FILES["scenarios"]}
        text = case.description_of({**there, FILES["scenarios"]: case.scenarios})
        contents[os.fspath(place / description.NAME)] = text.encode()
    files.write_all(contents, [args.scenario_sheet])
    files.put(summary.text(), status=5)
    return 0


def scenarios_of(table: Table, case: Case, args: argparse.Namespace, faults: Faults, summary: Summary) -> Scenarios:
    """The scenarios of a sheet, in its order."""
    check_scale(table, case, args, faults)
    cash = {bank: account.cash for bank, account in read_accounts(case.paths["banks"])[1].items()}
    columns = columns_in(table, args, faults)
    losses = list(losses_of(table, columns, args, faults))
    check_banks(table, losses, cash, case, faults, args)
    names = names_in(table, columns, args, faults)
    faults.end_if_any()
    whole = WholeLosses(names, Fraction(case.unit) / (args.amounts_in or 1))
    for loss in losses:
        exact = loss.amount * cash[loss.bank] if args.share else loss.amount / whole.worth
        if round(exact) > MAX_LOSS:
            what = f"a loss of {round(exact):,} units, more than the most, {MAX_LOSS:,}"
            faults.at_cell(table, loss.row, loss.column, what)
        whole.take(loss, exact, cash[loss.bank])
    whole.tell(summary, table)
    return Scenarios([Scenario(name, losses=whole.units[name]) for name in names])


def check_scale(table: Table, case: Case, args: argparse.Namespace, faults: Faults) -> None:
    """Refuses losses of which nobody said what they are in, where the sheets of the case are not in single amounts."""
    scale = scale_told(case.summary)
    if scale and args.amounts_in is None and not args.share:
        number = scale.split()[0].replace(",", "")
        say = f"say --amounts-in {number} if this one is too, else --amounts-in 1"
        faults.add_general(table, f"the sheets of {case.folder} are in {scale}: {say}")


def columns_in(table: Table, args: argparse.Namespace, faults: Faults) -> List[str]:
    """The columns of a sheet that are looked at. One that has fields and no name is refused, and so is an --ignore of a
    column that is not there."""
    for column in args.ignore:
        tables.need_column(faults, table, "ignore", column)
    columns = [column for column in table.header if column not in args.ignore]
    if "" in columns:
        columns.remove("")
        if any(table.column("").values()):
            faults.at_header(table, "without a name", "fields stand below it; name it, or say --ignore ''")
    return columns


def names_in(table: Table, columns: List[str], args: argparse.Namespace, faults: Faults) -> List[str]:
    """The names of the scenarios of a sheet. Those that are none are refused, and so are too many."""
    names = list(table.rows) if args.rows else columns
    for name in names:
        if not is_name(name):
            what = f"{name!r} is no name of a scenario: 1 to 64 bytes, no comma, quote or control character"
            faults.at_row(table, table.rows[name] if args.rows else HEADER, what, kind="name")
    if len(names) > MAX_SCENARIOS:
        what = f"{len(names):,} scenarios, {len(names) - MAX_SCENARIOS:,} more than the most, {MAX_SCENARIOS:,}"
        faults.add_general(table, what)
    return names


class WholeLosses:
    """Losses in whole units, which are worth so much of the amounts of a sheet each: by scenario and bank, and what was
    rounded."""

    def __init__(self, names: List[str], worth: Fraction) -> None:
        self.worth = worth
        self.units: Dict[str, Dict[str, int]] = {name: {} for name in names}
        self.off: List[Fraction] = []  # by how much each was rounded, in the amounts of the sheet
        self.above = 0  # how many are above the cash of their bank

    def take(self, loss: Loss, exact: Fraction, cash: int) -> None:
        """Takes a loss of so many units, rounded to a whole number, at a bank with so much cash."""
        whole = round(exact)
        if whole != exact:
            self.off.append(abs(whole - exact) * self.worth)
        self.above += whole > cash
        if whole:
            self.units[loss.scenario][loss.bank] = whole

    def tell(self, summary: Summary, table: Table) -> None:
        """Tells what was made, and what was rounded, in the amounts of the sheet."""
        count = sum(map(len, self.units.values()))
        total = sum(sum(losses.values()) for losses in self.units.values())
        summary.tell("rows read", len(table.rows), None, table.label)
        in_all = f"{shown(total * self.worth)} in all, in units of {shown(self.worth)}: {total:,}"
        summary.tell("scenarios made", len(self.units), None, f"{labels.count(count, 'loss', 'losses')}; {in_all}")
        empty = [name for name, losses in self.units.items() if not losses]
        if empty:
            summary.tell("scenarios without a loss", len(empty), None, ", ".join(empty[:5]))
        if self.off:
            by = f"by {shown(sum(self.off))} together, the largest by {shown(max(self.off))}"
            summary.tell("losses rounded", len(self.off), None, by)
        if self.above:
            summary.tell("losses above the cash of the bank, which then loses it all", self.above)


def losses_of(table: Table, columns: List[str], args: argparse.Namespace, faults: Faults) -> Iterator[Loss]:
    """The losses in some columns of a sheet that are not 0."""
    reader = Amounts(args.decimal or ("." if args.share and not args.thousands else None), args.thousands)
    for name, row in table.rows.items():
        for column in columns:
            amount = amount_of(table, name, column, reader, args.share, faults)
            if amount:
                scenario, bank = (name, column) if args.rows else (column, name)
                yield Loss(scenario, bank, amount, row, column)


def amount_of(table: Table, name: str, column: str, reader: Amounts, is_share: bool, faults: Faults) -> Fraction:
    """The amount in a cell, or the share of cash, 0 where it is none."""
    cell = table.cell(name, column)
    percent = PERCENT.fullmatch(str(cell)) if is_share else None
    try:
        value = getattr(cell, "value", None)
        if is_share and value is not None:
            # A number of a workbook, be it shown in per cent or not.
            amount = Fraction(value)
        else:
            amount = Fraction(reader.read(percent[1] if percent else cell)) / (100 if percent else 1)
    except AmountError as unread:
        faults.at_cell(table, table.rows[name], column, unread, kind=unread.kind)
        return Fraction(0)
    if is_share and not 0 <= amount <= 1:
        what = f"{shown(amount)} is no share of cash from 0 to 1; per cent have the sign %"
        faults.at_cell(table, table.rows[name], column, what, kind="share")
        return Fraction(0)
    return amount


def check_banks(
    table: Table, losses: List[Loss], cash: Dict[str, int], case: Case, faults: Faults, args: argparse.Namespace
) -> None:
    """Refuses losses of banks that the case does not have."""
    for loss in losses:
        if loss.bank not in cash:
            hint = "" if not args.rows else f"; say --ignore {tables.quoted(loss.column)} if it is no bank"
            faults.at_cell(table, loss.row, loss.column, f"{case.folder} has no bank {loss.bank}{hint}", kind="no bank")
