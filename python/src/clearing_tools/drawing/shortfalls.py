"""Draws what each bank in default leaves unpaid.

In:   DEFAULTS     what `clearing defaults` prints
      --payments   what `clearing clear` prints for the same files
      --bounds     what `clearing bounds` prints for the same files: banks in gridlock then have a mark of their own
      --banks      the banks file: what banks owe outside is then drawn whole, else as far as it is paid
      --labels     a file `code,name`: the full names of banks, shown in place of the names of the files
      --case       the case that the texts are of: its banks file, its labels, its unit and its currency; the banks that
                   one unit decides have a mark
Out:  a bar for each bank in default, the longest shortfall first: what it pays of all it owes, in grey, and what it
      leaves unpaid, in the accent. With --payments two bars: what it has, cash and receipts, and below it what it
      owes, outside first and then class by class, paid and unpaid. The mark beside a name is the bank's state. --unit
      and --currency say what a unit of account is worth. The kind of picture is the ending of OUTPUT: .svg, .png or
      .pdf.

Example:
    clearing defaults --banks banks.csv --debts debts.csv >defaults.csv
    clearing clear --banks banks.csv --debts debts.csv >payments.csv
    clearing-shortfalls defaults.csv shortfalls.svg --payments payments.csv

Ends with 0, with 1 where a file cannot be read or written or is not such a text, and with 2 where the command line is
not understood or matplotlib is missing.
"""
import argparse

from .. import cases, cli, texts
from ..fullnames import add_labels
from ..money import add_money
from ..runner import command
from . import style
from .shortfalls_picture import Picture


def parse_args() -> argparse.Namespace:
    """The words of the tool."""
    parser = cli.parser_with(__doc__)
    parser.add_argument("defaults", metavar="DEFAULTS", help="what `clearing defaults` prints")
    parser.add_argument("output", metavar="OUTPUT", help="the picture to write")
    parser.add_argument("--payments", metavar="FILE", help="what `clearing clear` prints")
    parser.add_argument("--bounds", metavar="FILE", help="what `clearing bounds` prints")
    parser.add_argument("--banks", metavar="FILE", help="the banks file, for what banks owe outside")
    parser.add_argument("--most", metavar="N", type=int, default=40, help="how many banks are shown at most (40)")
    add_labels(parser)
    cases.add_beside(parser)
    add_money(parser)
    args = parser.parse_args()
    if args.most < 1:
        parser.error("--most is at least 1")
    return args


@command("shortfalls.py")
def main() -> None:
    args = parse_args()
    pyplot = style.pyplot_of()
    style.check_kind(args.output)
    beside = cases.beside(args)
    banks = texts.read_banks(args.defaults, texts.read_outside(beside.banks) if beside.banks else None)
    if args.bounds:
        banks = texts.with_gridlock(banks, texts.read_gridlock(args.bounds))
    debts = texts.read_payments(args.payments) if args.payments else None
    if debts is not None:
        texts.check_same_network(debts, banks, args.payments, args.defaults)
    full = cases.names_for(args, beside.case).check(bank.name for bank in banks)
    figure = Picture(pyplot, banks, debts, beside.money, args.most, full).draw()
    inputs = [args.defaults, args.payments, args.bounds, beside.banks, args.labels]
    style.save(figure, args.output, [*inputs, *beside.inputs])
