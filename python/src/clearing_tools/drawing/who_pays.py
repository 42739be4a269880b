"""Draws who owes whom, what is paid of it, and who defaults.

In:   PAYMENTS   what `clearing clear` prints: debtor,creditor,class,claim,paid (with `--show both` the journal is
      passed over)
      DEFAULTS   what `clearing defaults` prints for the same files
      --bounds   what `clearing bounds` prints for the same files: banks in gridlock then have a shape of their own
      --banks    the banks file: what banks owe outside is then drawn whole, else as far as it is paid
      --labels   a file `code,name`: the full names of banks, shown in place of the names of the files
      --case     the case that the texts are of: its banks file, its labels, its unit and its currency; the banks that
                 one unit decides have a mark
Out:  an SVG picture on standard output, or in the file of --output: a ring of up to 40 banks, above that a matrix of
      debtors by creditors; --form chooses one. --only-unpaid leaves out the debts that are paid in full, --around
      BANK all debts but those of one bank; banks without a debt left are left out then. --unit and --currency say
      what a unit is worth.

What stays unpaid has the accent, what is paid is thin and grey. The shape of a bank and the colour of its edge are
its state. In the ring banks stand in the order of the file; a debt is as wide as what stays unpaid of it, and the area
of a bank is what it leaves unpaid. In the matrix each square is what stays unpaid from one bank to another: those with
most by name, all others in blocks.

Example:
    clearing clear --banks banks.csv --debts debts.csv >payments.csv
    clearing defaults --banks banks.csv --debts debts.csv >defaults.csv
    clearing-who-pays payments.csv defaults.csv --output picture.svg

Ends with 0, with 1 where a file cannot be read or written or is not such a text, and with 2 where the command line is
not understood.
"""
import argparse
from typing import Callable, List, Sequence, Tuple

from clearing_client.records import Payment

from .. import cases, cli, files, labels, texts
from ..fullnames import add_labels
from ..money import Money, add_money
from ..runner import ToolError, command
from ..texts import Bank, Flow
from . import network
from .drawn import Drawn


def chosen(debts: Sequence[Payment], banks: List[Bank], args: argparse.Namespace) -> Tuple[List[Payment], List[Bank]]:
    """The debts and banks that are drawn."""
    debts = list(debts)
    if args.around is not None:
        if args.around not in {bank.name for bank in banks}:
            raise ToolError(f"{args.defaults}: it has no bank {args.around!r}")
        debts = [debt for debt in debts if args.around in (debt.debtor, debt.creditor)]
    if args.only_unpaid:
        debts = [debt for debt in debts if debt.paid < debt.claim]
    if args.around is not None or args.only_unpaid:
        named = {args.around} | {debt.debtor for debt in debts} | {debt.creditor for debt in debts}
        in_default = args.only_unpaid and args.around is None
        banks = [bank for bank in banks if bank.name in named or (in_default and bank.state != "sound")]
    return debts, banks


def flows_shown(debts: Sequence[Payment], banks: Sequence[Bank], args: argparse.Namespace) -> List[Flow]:
    """The flows that are drawn."""
    flows = texts.flows_of(debts, banks)
    outside = [
        flow
        for flow in flows
        if flow.creditor is None
        and (args.around in (None, flow.debtor))
        and not (args.only_unpaid and flow.paid == flow.claim)
    ]
    return [flow for flow in flows if flow.creditor is not None] + outside


def caption(
    banks: Sequence[Bank], args: argparse.Namespace, money: Money, called: Callable[[str], str]
) -> Tuple[str, str]:
    """The title and the line below it."""
    title, below = labels.headline(banks, money, called)
    shown = " and ".join(
        (["not paid in full"] if args.only_unpaid else [])
        + ([f"of {labels.apart(args.around)}"] if args.around is not None else [])
    )
    return title, f"{below}{f' Shown: debts {shown}.' if shown else ''} {money.about()}"


def draw(args: argparse.Namespace, beside: cases.Beside) -> str:
    """The picture."""
    money = beside.money
    debts: Sequence[Payment] = texts.read_payments(args.payments)
    outside = texts.read_outside(beside.banks) if beside.banks else None
    banks = texts.read_banks(args.defaults, outside)
    texts.check_same_network(debts, banks, args.payments, args.defaults)
    if args.bounds:
        banks = texts.with_gridlock(banks, texts.read_gridlock(args.bounds))
    if not banks:
        raise ToolError(f"{args.defaults}: it has no bank")
    full = cases.names_for(args, beside.case).check(bank.name for bank in banks)
    title, below = caption(banks, args, money, full)
    debts, banks = chosen(debts, banks, args)
    if not banks:
        return network.picture(
            Drawn("", [0, 0, 0, 0], [], [], {}, {}), title, f"{below} There is no such debt."
        )
    drawn = network.drawing_of(flows_shown(debts, banks, args), banks, money, args.form, say=full)
    return network.picture(drawn, title, below)


def parse_args() -> argparse.Namespace:
    """The words of the tool."""
    parser = cli.parser_with(__doc__)
    parser.add_argument("payments", metavar="PAYMENTS", help="what `clearing clear` prints")
    parser.add_argument("defaults", metavar="DEFAULTS", help="what `clearing defaults` prints")
    parser.add_argument("--bounds", metavar="FILE", help="what `clearing bounds` prints")
    parser.add_argument("--banks", metavar="FILE", help="the banks file, for what banks owe outside")
    parser.add_argument("--form", choices=("graph", "matrix"), help="a ring (graph) up to 40 banks, else a matrix")
    parser.add_argument("--only-unpaid", action="store_true", help="the debts that are not paid in full")
    parser.add_argument("--around", metavar="BANK", help="the debts of one bank")
    add_labels(parser)
    cases.add_beside(parser)
    add_money(parser)
    parser.add_argument("--output", metavar="FILE", help="standard output where it is not given")
    return parser.parse_args()


@command("who_pays.py")
def main() -> None:
    args = parse_args()
    beside = cases.beside(args)
    inputs = [args.payments, args.defaults, args.bounds, beside.banks, args.labels]
    files.put(draw(args, beside), args.output, [*inputs, *beside.inputs])
