"""Tells what it takes to save each bank in default, and whom that saves too.

In:   FOLDER, a case, or --banks FILE and --debts FILE, as `clearing` reads them
Out:  CSV on standard output, or in --output FILE: `bank,added,also_saved,still_short`, a line for each bank in default.
      With the least sum that saves it (`added`, in units) so many other banks are saved too, and so many are still in
      default. The rescue that saves the most banks per unit comes first, itself counted.
      --saved FILE     `bank,of`: with that sum at `bank`, `of` is saved too
      Of a case with a description the banks that one unit decides are told in a line on standard error.

The sum is the least, and any greater one saves the bank too (rescue::laws::there_is_a_least_sum,
rescue::laws::greater_sum_saves_too). More cash hurts nobody (cascade::laws::more_cash_hurts_nobody), so that no bank
falls by it. The answers are those of `clearing rescues`.

The environment variable CLEARING names the program, the repository's where it is not set.

Ends with 0; 1 where the program fails; 2 where the words are not understood or an output would be written
over an input; 3 where a file cannot be read; 4 where one is refused; 5 where the output cannot be written; 130 at an
interrupt.

Example:
    clearing-rescues --banks banks.csv --debts debts.csv >rescues.csv
"""
from __future__ import annotations

import fractions

from clearing_client.results import Rescues

from .. import cases, cli
from ..exports import workbook
from ..runner import ProgramRuns, command
from . import queries


@command()
def main() -> None:
    """The command."""
    parser = cli.case_parser(__doc__)
    parser.add_argument("--output", metavar="FILE", help="the CSV, standard output where it is not given")
    parser.add_argument("--saved", metavar="FILE", help="who is saved by whose rescue, to write")
    args = parser.parse_args()
    taken = cases.take_case(parser, args)
    cli.keep_inputs(cases.inputs_of(taken.case), [args.output, args.saved])
    runs = ProgramRuns()
    rescues = queries.answer_of(runs, ["rescues", *cli.words_of(taken)], Rescues)
    ranking = sorted(rescues.banks, key=lambda bank: fractions.Fraction(-1 - bank.also_saved, bank.added))
    if args.saved:
        rank = {bank.bank: at for at, bank in enumerate(ranking)}
        saved = sorted(list(rescues.saved), key=lambda pair: rank[pair.bank])
        workbook.write_table(("bank", "of"), saved, args.saved)
    records = ((bank.bank, bank.added, bank.also_saved, bank.still_short) for bank in ranking)
    workbook.write_table(("bank", "added", "also_saved", "still_short"), records, args.output)
    cases.tell_unsteady(taken.case)
