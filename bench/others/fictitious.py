"""Eisenberg and Noe's fictitious default algorithm (Eisenberg and Noe 2001): real numbers, pro rata alone, one class.
For each set of banks in default a system of linear equations is solved.

    fictitious.py BANKS DEBTS
"""
import sys

import network
import numpy as np

cash, owed, shares = network.read(*sys.argv[1:])
paid = owed.copy()
failed = np.zeros(len(cash), dtype=bool)
while True:
    now = cash + paid @ shares < owed - 1e-9
    if (now == failed).all():
        break
    failed = now
    # In default a bank pays all that it has: p = cash + receipts from the sound and from those in default.
    system = np.eye(failed.sum()) - shares[np.ix_(failed, failed)].T
    fixed = cash[failed] + owed[~failed] @ shares[np.ix_(~failed, failed)]
    try:
        paid[failed] = np.linalg.solve(system, fixed)
    except np.linalg.LinAlgError:
        sys.exit("singular: the banks in default owe each other alone")
print(*paid)
