"""Draws which banks default in which scenarios, and how much they leave unpaid.

In:   STRESS     what `clearing stress` prints
      --banks    the banks file: what is left unpaid then has what banks owe outside, too
      --labels   a file `code,name`: the full names of banks, shown in place of the names of the files
      --case     the case that the texts are of: its banks file, its labels, its unit and its currency; the banks that
                 one unit decides have a mark
Out:  a map with a row for each scenario, in file order, and a column for each bank that defaults in one of them,
      those that default most often first. A cell has the share of all it owes that the bank leaves unpaid, as a
      number and as a strip; a square marks the label own fundamentals, a diamond the label contagion. The margins
      count the defaults of each scenario and of each bank. The kind of picture is the ending of OUTPUT: .svg, .png or
      .pdf.

Example:
    clearing stress --banks banks.csv --debts debts.csv --scenarios scenarios.toml >stress.txt
    clearing-stress-map stress.txt stress.svg

Ends with 0, with 1 where a file cannot be read or written or is not such a text, and with 2 where the command line is
not understood or matplotlib is missing.
"""
from .. import cases, cli, texts
from ..fullnames import add_labels
from ..runner import command
from ..stress_text import read_stress
from . import style
from .stress_picture import draw


@command("stress_map.py")
def main() -> None:
    parser = cli.parser_with(__doc__)
    parser.add_argument("stress", metavar="STRESS", help="what `clearing stress` prints")
    parser.add_argument("output", metavar="OUTPUT", help="the picture to write")
    parser.add_argument("--banks", metavar="FILE", help="the banks file, for what banks owe outside")
    add_labels(parser)
    cases.add_beside(parser)
    args = cli.parse_most(parser, "banks are shown", 30)
    pyplot = style.pyplot_of()
    style.check_kind(args.output)
    beside = cases.beside(args)
    outside = texts.read_outside(beside.banks) if beside.banks else None
    scenarios = read_stress(args.stress, outside)
    full = cases.names_for(args, beside.case).check(scenarios[0].banks)
    inputs = [args.stress, beside.banks, args.labels, *beside.inputs]
    style.save(draw(pyplot, scenarios, args.most, full), args.output, inputs)
