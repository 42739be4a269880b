"""Amounts: whole units of account, and what a unit is worth. One reader of the word --unit, and two ways to print: a
decimal number to the last digit for files, and an amount with its currency for people."""
import argparse
import contextlib
from decimal import Decimal, Inexact, InvalidOperation, localcontext
from typing import Callable, Iterable, Optional

from clearing_client.decimals import exact

from .runner import ToolError

LARGEST_POWER = 15


def unit_in(word: str) -> Decimal:
    """What a unit of account is worth, by a word of the command line: a decimal number above 0."""
    try:
        unit = Decimal(word)
    except InvalidOperation:
        unit = Decimal(0)
    if not (unit.is_finite() and unit > 0 and word.isascii()):
        raise argparse.ArgumentTypeError(f"{word!r} is not a number above 0")
    return unit


def worth(word: str) -> Decimal:
    """What a unit of account is worth in a currency, of a size that people read."""
    unit: Optional[Decimal] = None
    with contextlib.suppress(argparse.ArgumentTypeError):
        unit = unit_in(word)
    if unit is None or abs(unit.adjusted()) > LARGEST_POWER:
        raise argparse.ArgumentTypeError(f"{word!r} is not an amount above 0, such as 0.01 or 1000")
    return unit


def add_unit(parser: argparse.ArgumentParser) -> None:
    """The word --unit of a tool that prints amounts to the last digit."""
    parser.add_argument("--unit", type=unit_in, help="what a unit of account is worth")


def add_money(parser: argparse.ArgumentParser) -> None:
    """The words --unit and --currency of a tool that prints for people."""
    parser.add_argument(
        "--unit", metavar="AMOUNT", type=worth, help="what a unit of account is worth, such as 1000 or 0.01"
    )
    parser.add_argument("--currency", metavar="WORD", help="the currency that it is worth so much of, such as EUR")


def amount_by(unit: Optional[Decimal]) -> Callable[[int], str]:
    """What makes a text of a number of units: the number where no unit is given, else the amount as a decimal
    number. Fails where it has more digits than are kept."""
    if unit is None:
        return str
    worth_each = unit

    def amount(units: int) -> str:
        try:
            with localcontext(exact()):
                return f"{units * worth_each:f}"
        except Inexact:
            raise ToolError(f"amounts of the unit {unit} have more digits than are kept") from None

    return amount


class Money:
    """Amounts as text: units of account, or a currency where a unit is worth something in it."""

    def __init__(self, unit: Optional[Decimal] = None, currency: Optional[str] = None) -> None:
        # Enough digits for whatever is made of a unit here.
        self.context = exact(unit or Decimal(1))
        with localcontext(self.context):
            self.unit = unit.normalize() + 0 if unit is not None else None
        self.currency = currency
        self.places = max(0, -int(self.unit.as_tuple().exponent)) if self.unit is not None else 0

    def worth(self, units: int, size: int = 1) -> Decimal:
        """What some units are worth, to the last digit, in a size that is a power of ten."""
        with localcontext(self.context):
            return units * (self.unit or Decimal(1)) / size

    def number(self, units: int) -> str:
        """An amount alone."""
        return f"{units:,}" if self.unit is None else f"{self.worth(units):,.{self.places}f}"

    def __call__(self, units: int) -> str:
        """An amount with its currency, or the word units."""
        if self.currency:
            return f"{self.currency} {self.number(units)}"
        return f"{self.number(units)} {'unit' if units == 1 else 'units'}" if self.unit is None else self.number(units)

    def about(self) -> str:
        """What the numbers of a table are."""
        if self.unit is None:
            return f"Amounts in whole units{f' of one {self.currency}' if self.currency else ''}."
        of = f" {self.currency}" if self.currency else ""
        return f"Amounts in{of or ' the currency'}; a unit of account is{of} {self.unit:,f}."

    def in_short(self, units: int) -> str:
        """An amount with its currency in a sentence: billions with two decimals, whole millions below one billion,
        millions with one below ten, whole below one million. A number and its unit do not part."""
        value = self.worth(units).copy_abs()
        for size, word, places in SHORT:
            if value >= (FROM_BILLIONS if places else size):
                text = f"{self.worth(units, size):,.{places or int(value < TEN_MILLIONS)}f}"
                number = f"{text if places else text.removesuffix('.0')}\u00a0{word}"
                return (
                    f"{self.currency}\u00a0{number}"
                    if self.currency
                    else number + (" units" if self.unit is None else "")
                )
        return self(units).replace(" ", "\u00a0") if self.currency else self(units)

    def verb(self, units: int, one: str, many: str) -> str:
        """The form of a verb behind an amount: several units are many, and an amount of a currency is one."""
        return many if self.unit is None and not self.currency and units != 1 else one

    def scale_of(self, amounts: Iterable[int]) -> "Scale":
        """The scale of a table with these amounts: all of them whole, or in whole thousands, millions or billions."""
        most = self.most_of(amounts)
        size, word = next(((size, word) for least, size, word in SIZES if most >= least), (1, ""))
        return Scale(self, size, word, 0)

    def short_scale_of(self, amounts: Iterable[int]) -> "Scale":
        """The scale of a chart with these amounts: as a sentence has its largest."""
        most = self.most_of(amounts)
        size, word, places = next(((size, word, places) for size, word, places in SHORT if most >= size), (1, "", 0))
        return Scale(self, size, word, places)

    def most_of(self, amounts: Iterable[int]) -> Decimal:
        """What the largest of some amounts is worth."""
        most = max([abs(units) for units in amounts], default=0)
        return self.worth(most)


SHORT = ((10**9, "billion", 2), (10**6, "million", 0))
FROM_BILLIONS = 999_500_000
"""What is said in billions: it would be 1,000 whole millions."""
TEN_MILLIONS = 9_950_000
"""From here on millions are whole."""
SIZES = ((10**12, 10**9, "billion"), (10**9, 10**6, "million"), (10**6, 10**3, "thousand"))


class Scale:
    """Amounts of a table or a chart in one size, with some decimals. `words` says it, for a head."""

    def __init__(self, money: Money, size: int, size_word: str, places: int) -> None:
        self.money, self.size, self.places = money, size, places
        self.is_rounded = size > 1
        kind = money.currency or ("" if money.unit is not None else "units")
        self.words = " ".join(filter(None, (kind, size_word) if money.currency else (size_word, kind)))

    def value(self, units: int) -> float:
        """An amount in this size, for a place on an axis."""
        return float(self.money.worth(units, self.size))

    def number(self, units: int) -> str:
        """An amount in this size. One that is not 0 is never shown as 0."""
        if self.size == 1:
            return self.money.number(units)
        if not units:
            return "0"
        value = self.money.worth(units, self.size)
        least, size = Decimal(f"1e-{self.places}"), value.copy_abs()
        # Half of the least would be rounded to the even number, which is 0.
        text = f"<{least}" if size <= least / 2 else f"{size:,.{self.places}f}"
        return f"\u2212{text}" if value < 0 else text
