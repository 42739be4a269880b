"""Tables that say what a cell stands for: the group of a bank, the class of an instrument, the rate of a currency."""
import argparse
from typing import Dict, Tuple

from .amounts import Amount, AmountError, Amounts
from .faults import Faults
from .reading import Form
from .sheet_options import SheetOptions, TwoFileOptions
from .tables import Table, need_column

RANKS = frozenset("123456789")
"""The classes as they stand in a cell."""


def add_groups(parser: argparse.ArgumentParser) -> None:
    """The word of a tool that takes groups of banks."""
    parser.add_argument(
        "--groups", metavar="FILE", help="a table of banks and their groups (bank, group), which become one bank each"
    )


def plain(args: SheetOptions) -> Form:
    """How a small table is read: in the encoding of the sheet, with its header above all."""
    return Form(args.form.encoding)


def pairs_of(name: str, args: SheetOptions, faults: Faults, column: str) -> Tuple[Table, Dict[str, str]]:
    """What a table says of each name of its first column, in the column of this name, or else in its only other one."""
    table = Table(name, plain(args), faults)
    if column not in table and len(table.header) == 1:
        column = table.header[0]
    if column not in table:
        need_column(faults, table, column, column)
        return table, {}
    return table, table.column(column)


def read_groups(args: TwoFileOptions, faults: Faults) -> Dict[str, str]:
    """The group of each bank that has one."""
    if not args.groups:
        return {}
    _, groups = pairs_of(args.groups, args, faults, "group")
    faults.end_if_any()
    return {bank: str(group) for bank, group in groups.items() if group}


def read_classes(name: str, args: SheetOptions, faults: Faults) -> Dict[str, int]:
    """The class of each instrument."""
    table, texts = pairs_of(name, args, faults, "class")
    for key, text in texts.items():
        if text not in RANKS:
            faults.at_cell(table, table.rows[key], "class", f"{text!r} is not a class from 1 to 9")
    faults.end_if_any()
    return {key: int(text) for key, text in texts.items()}


def read_rates(name: str, args: SheetOptions, faults: Faults) -> Dict[str, Amount]:
    """What a unit of each currency is worth in the currency of the network."""
    table, texts = pairs_of(name, args, faults, "rate")
    rates: Dict[str, Amount] = {}
    amounts = Amounts(args.decimal, args.thousands)
    for key, text in texts.items():
        try:
            rates[key] = amounts.read(text)
        except AmountError as unread:
            faults.at_cell(table, table.rows[key], "rate", unread)
            continue
        if not rates[key]:
            faults.at_cell(table, table.rows[key], "rate", f"the rate of {key} is 0")
    faults.end_if_any()
    return rates
