"""Amounts as decimal numbers, to the last digit, whatever context of such numbers a caller has."""
from decimal import Context, Decimal, Inexact, InvalidOperation

MOST_DIGITS = 100


def exact(*numbers: Decimal) -> Context:
    """A context in which sums of some numbers, and what units of them come to, are exact. It fails where a number has
    more digits than are kept."""
    digits = sum(len(number.as_tuple().digits) for number in numbers)
    return Context(prec=MOST_DIGITS + digits, traps=[Inexact, InvalidOperation])
