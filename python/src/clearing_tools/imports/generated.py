"""Writes the two files of the network that `clearing gen` makes from a number.

In:  --seed S --size N --tries T, the words of the task `gen`, with the same limits: a seed of 0 to
     18,446,744,073,709,551,615, 1 to 1,000 banks, 0 to 20,000 tries at a debt.
Out: --banks FILE and --debts FILE, the banks file (version 1) and the debts file of that network, in the form in
     which `clearing check` prints them. Both are written or none. Nothing on standard output.

The network is `generated` of the crate `net_gen`: it comes from the successive 32-bit words of the generator PCG32
(O'Neill 2014), stream 0. For each bank, a name, N and its number from 0; cash, a word mod 2000; a rule, a word mod 6 in
the order of docs/FORMATS.md. For each try, a debtor and a creditor, each a word mod the number of banks; a class, 1 and
a word mod 3; a claim, 1 and a word mod 500. A try counts where debtor and creditor differ and no debt has the same two
and class. `clearing gen` prints seven sums of it; `check` and `defaults` on the two files give the same.

Ends with 0, or with 1 where a file cannot be written, or with 2 where the words are not understood.
"""
from typing import Dict, List, Tuple

from clearing_client.format import MAX_SEED, MAX_SIZE, MAX_TRIES, RULES
from clearing_client.texts import BANKS_1, DEBTS

from .. import cli, files
from ..runner import command


class Pcg32:
    """PCG XSH RR 64/32 (O'Neill 2014), started as its reference code starts it."""

    MULTIPLIER = 6364136223846793005

    def __init__(self, seed: int, stream: int) -> None:
        self.increment = (2 * stream + 1) % 2**64
        self.state = (seed + self.increment) % 2**64
        self.step()

    def step(self) -> None:
        """Goes on to the next state."""
        self.state = (self.state * self.MULTIPLIER + self.increment) % 2**64

    def word(self) -> int:
        """The next word of 32 bits."""
        old = self.state
        self.step()
        mixed = (((old >> 18) ^ old) >> 27) % 2**32
        turn = old >> 59
        return (mixed >> turn | mixed << (32 - turn)) % 2**32


def generate(seed: int, size: int, tries: int) -> Tuple[List[Tuple[str, int, str]], List[Tuple[str, str, int, int]]]:
    """The banks, each (name, cash, rule), and the debts, each (debtor, creditor, class, claim) with names."""
    words = Pcg32(seed, 0)
    banks = []
    for number in range(size):
        cash = words.word() % 2000
        rule = RULES[words.word() % len(RULES)]
        banks.append((f"N{number}", cash, rule))
    debts: Dict[Tuple[str, str, int], int] = {}
    for _ in range(tries):
        debtor = words.word() % size
        creditor = words.word() % size
        rank = 1 + words.word() % 3
        claim = 1 + words.word() % 500
        if debtor != creditor:
            debts.setdefault((f"N{debtor}", f"N{creditor}", rank), claim)
    return banks, [key + (claim,) for key, claim in debts.items()]


@command("gen_files")
def main() -> None:
    """The command."""
    parser = cli.parser_of(__doc__)
    parser.add_argument(
        "--seed", required=True, type=cli.number_in(0, MAX_SEED), help="the number the network is made from"
    )
    parser.add_argument("--size", required=True, type=cli.number_in(1, MAX_SIZE), help="how many banks are made")
    parser.add_argument("--tries", required=True, type=cli.number_in(0, MAX_TRIES), help="how many debts are tried")
    parser.add_argument("--banks", required=True, metavar="FILE", help="the banks file to write")
    parser.add_argument("--debts", required=True, metavar="FILE", help="the debts file to write")
    args = parser.parse_args()
    banks, debts = generate(args.seed, args.size, args.tries)
    files.write_all(
        [(args.banks, f"{BANKS_1}\n{files.csv_text(banks)}"), (args.debts, f"{DEBTS}\n{files.csv_text(debts)}")]
    )
