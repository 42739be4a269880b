"""What the programs in numpy begin with: cash, what each bank owes, and the shares of it that it owes to each other
bank.

All claims of a bank rank alike, whatever their class.
"""
import csv
from typing import Any, Dict, Iterator, List, Tuple

import numpy as np


def rows(name: str) -> Iterator[List[str]]:
    """The records of a file below its header, without empty lines."""
    with open(name, newline="", encoding="utf-8-sig") as file:
        next(reader := csv.reader(file))
        yield from (row for row in reader if row)


def read(banks: str, debts: str) -> Tuple[Any, Any, Any]:
    """Of two files cash and what is owed, arrays with an amount a bank, and shares, an array with a row a debtor and a
    column a creditor, all as real numbers."""
    number: Dict[str, int] = {}
    cash: List[int] = []
    for name, amount, *_ in rows(banks):
        number[name] = len(number)
        cash.append(int(amount))
    claims = np.zeros((len(cash), len(cash)))
    for debtor, creditor, _, claim in rows(debts):
        claims[number[debtor], number[creditor]] += int(claim)
    owed = claims.sum(axis=1)
    shares = np.divide(claims, owed[:, None], out=np.zeros_like(claims), where=owed[:, None] > 0)
    return np.array(cash, dtype=float), owed, shares
