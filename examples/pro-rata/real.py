"""Clears the two files of a folder in real numbers, pro rata: the greatest payments and the least.

Usage: python3 real.py FOLDER [--one-class]

A bank in default pays each debt of a class the same share of its claim, whatever its rule; its outside claim comes first.
With --one-class all debts have one class, as Eisenberg and Noe (2001) have them.

Goes down from all debts paid in full to the greatest payments, and up from nothing paid to the least, until no payment
moves by more than a ten millionth. Each step goes over all debts a few times. Prints of each what is paid on all debts,
in units to a tenth, and how many banks leave debts unpaid; and then the names of those that do so by the greatest
payments.
"""
import csv
import os
import pathlib
import sys


def read(folder, one_class):
    """The banks by name, and the debts: debtor, creditor, class and claim."""
    with open(folder / "banks.csv", encoding="utf-8") as file:
        banks = {row["name"]: float(row["cash"]) - float(row.get("outside") or 0) for row in csv.DictReader(file)}
    with open(folder / "debts.csv", encoding="utf-8") as file:
        rows = [row for row in csv.DictReader(file) if row["debtor"]]
    return banks, [
        (row["debtor"], row["creditor"], "1" if one_class else row["class"], float(row["claim"])) for row in rows
    ]


def owed_by(debts):
    """What each bank owes in each class, the classes in order."""
    owed = {}
    for debtor, _, rank, claim in debts:
        owed[rank, debtor] = owed.get((rank, debtor), 0) + claim
    return sorted(owed.items())


def paid_at_once(banks, debts, owed, paid):
    """What each debt is paid when each bank divides its cash and what it received of these payments."""
    left = dict(banks)
    for (_, creditor, _, _), amount in zip(debts, paid):
        left[creditor] += amount
    share = {}
    for (rank, bank), due in owed:
        given = min(due, max(left[bank], 0))
        left[bank] -= given
        share[rank, bank] = given / due if due else 0
    return [claim * share[rank, debtor] for debtor, _, rank, claim in debts]


def repeated(banks, debts, paid):
    """What is paid once it no longer moves, beginning with these payments."""
    owed, last = owed_by(debts), None
    while last is None or max(map(abs, (a - b for a, b in zip(paid, last))), default=0) > 1e-7:
        paid, last = paid_at_once(banks, debts, owed, paid), paid
    return paid


def main(folder, one_class):
    banks, debts = read(pathlib.Path(folder), one_class)
    ends = {
        "greatest": repeated(banks, debts, [claim for *_, claim in debts]),
        "least": repeated(banks, debts, [0.0 for _ in debts]),
    }
    short = {
        end: {debtor for (debtor, _, _, claim), amount in zip(debts, paid) if amount < claim - 1e-6}
        for end, paid in ends.items()
    }
    for end, paid in ends.items():
        print(f"{end}: paid {sum(paid):.1f}, banks that leave debts unpaid: {len(short[end])}")
    print(*(bank for bank in banks if bank in short["greatest"]), sep="\n")


if __name__ == "__main__":
    if len(sys.argv) < 2 or sys.argv[1].startswith("-") or sys.argv[2:] not in ([], ["--one-class"]):
        sys.exit("usage: python3 real.py FOLDER [--one-class]")
    try:
        main(sys.argv[1], "--one-class" in sys.argv[2:])
        sys.stdout.flush()
    except BrokenPipeError:
        # Who reads has read enough.
        os.dup2(os.open(os.devnull, os.O_WRONLY), sys.stdout.fileno())
