"""The payments of fictitious.py by repetition, until nothing moves by more than a millionth of a unit.

    iteration.py BANKS DEBTS
"""
import sys

import network
import numpy as np

cash, owed, shares = network.read(*sys.argv[1:])
paid = owed.copy()
while True:
    new = np.minimum(owed, cash + paid @ shares)
    if np.abs(new - paid).max(initial=0) < 1e-6:
        break
    paid = new
print(*paid)
