"""What a sheet has that is not taken, and what is said of it: banks and lines that are left out, each with its count
and sum, empty cells, negative amounts, and currencies."""
import argparse
import re
from typing import Callable, Dict, Iterable, List, Optional, Sequence, Tuple

from .amounts import Amount, AmountError, Amounts, shown
from .faults import Faults
from .groups import read_rates
from .sheet_options import SheetOptions
from .summary import Counted, Summary
from .tables import AnySheet, Key, Sheet, Table, need_column, pair_of, quoted

LEFT = {
    "self": "debts of a bank to itself, left out",
    "negative": "amounts below 0, left out",
    "empty": "lines without an amount, left out",
    "turned": "amounts below 0, owed the other way round",
    "zero": "empty amounts, read as 0",
}
"""What is done with amounts that are none of a debt, in words."""
CODES = set(
    "EUR USD GBP CHF JPY CNY INR AUD CAD NZD SEK NOK DKK PLN CZK HUF RON BGN TRY RUB BRL MXN ZAR KRW SGD HKD THB IDR "
    "MYR PHP ILS SAR AED".split()
)
"""Codes that show a column to be one of currencies, where it has two of them."""
CURRENCY = re.compile(r"currency|ccy|curr|währung|waehrung|devise|monnaie|valuta|divisa|moneda|moeda", re.IGNORECASE)
"""What a column of currencies may be called."""
RATES = "a table of currencies, and what a unit of each is worth"
"""What the help of a tool says of the word --rate."""


def add_left_out(parser: argparse.ArgumentParser) -> None:
    """The words that say what is left out, and what is done with amounts below 0 and empty cells."""
    add = parser.add_argument
    add(
        "--leave-out",
        action="append",
        default=[],
        metavar="WHAT",
        help="leave out a bank of this name with all its debts, or self, negative or empty amounts (with commas); may "
        "be repeated",
    )
    add("--turn", choices=["negative"], help="a negative amount is owed the other way round")
    add("--empty", choices=["0"], help="an empty cell of cash, and NULL, is 0")


def add_rates(parser: argparse.ArgumentParser) -> None:
    """The words of a tool whose amounts may be in several currencies, told by a column."""
    add = parser.add_argument
    add("--rate", metavar="COLUMN=FILE", help=RATES)
    add(
        "--ignore",
        action="append",
        default=[],
        metavar="COLUMN",
        help="a column of currencies that does not matter; may be repeated",
    )


class Gone:
    """What goes with a bank that is left out: what it owes, what it is owed, its cash and what it owes outside."""

    def __init__(self, name: str) -> None:
        self.name, self.owes, self.owed = name, Counted(), Counted()
        self.beside: Dict[str, Amount] = {}

    def tell(self, summary: Summary) -> None:
        """Tells all of it, and that the bank is left out where it has nothing."""
        word = f"by --leave-out {quoted(self.name)}"
        beside = "; ".join(f"{column} {shown(amount)}" for column, amount in self.beside.items() if amount)
        summary.tell(f"banks left out {word}", 1, None, beside, step="leftOut")
        self.owes.tell(summary, f"debts that it owes, left out {word}")
        self.owed.tell(summary, f"debts that it is owed, left out {word}")
        for column, amount in self.beside.items():
            if amount:
                summary.tell(f"{column} left out {word}", 1, amount, step="leftOut")


def no_total(name: str, owes: Counted, owed: Counted) -> str:
    """What is said of a name that is to be dropped and is no line of totals."""
    has = " and ".join(
        f"{what} {counted.count:,} {'debt' if counted.count == 1 else 'debts'} of {shown(counted.sum)}"
        for what, counted in (("owes", owes), ("is owed", owed))
        if counted.count
    )
    return (
        f"{name or 'the line without a name'} is no line of totals{': it ' + has if has else ''}; say --leave-out "
        f"{quoted(name)} to leave it out with them"
    )


def no_line_to_drop(name: str) -> str:
    """What is said of a name that is to be dropped and is not there."""
    return f"there is no {name} to drop"


def no_line_to_leave_out(name: str) -> str:
    """What is said of a bank that is to be left out and is not there."""
    return f"there is no {name or 'line without a name'} to leave out"


def beside_of(table: Table, name: str, columns: Iterable[str], amounts: Amounts) -> Dict[str, Amount]:
    """What a bank has in some columns of a table, as far as it can be read."""
    amounts_beside: Dict[str, Amount] = {}
    for column in columns:
        if column in table:
            try:
                amounts_beside[column] = amounts.read(table.cell(name, column))
            except AmountError:
                continue
    return amounts_beside


def sum_of_column(table: AnySheet, column: str, amounts: Amounts) -> Optional[Counted]:
    """The amounts of a column above 0, where it has some and no text."""
    counted = Counted()
    for text in table.column(column).values():
        try:
            amount = amounts.read(text)
        except AmountError:
            return None
        if amount:
            counted.add(amount)
    return counted if counted.count else None


def columns_shown(columns: Iterable[str]) -> str:
    """Some columns in a line of what was done; one may have no name."""
    return ", ".join(column or "one without a name" for column in columns)


def tell_columns(
    summary: Summary, columns: Iterable[str], table: AnySheet, new_amounts: Callable[[], Amounts], what: str
) -> None:
    """Tells the sums of columns that are not looked at, where they are of amounts."""
    for column in columns:
        counted = sum_of_column(table, column, new_amounts()) if column in table else None
        if counted is not None:
            counted.tell(summary, what, f"{columns_shown([column])} in {table.label}")


# Currencies


def currencies_in(table: AnySheet, column: str) -> List[str]:
    """The currencies of a column that has several: all of them codes, or in a column of such a name; none of another
    column."""
    there = {str(text) for text in table.column(column).values()}
    is_named = CURRENCY.fullmatch(column.strip()) is not None
    there -= set() if is_named else {""}
    is_it = len(there) > 1 and (is_named or {text.upper() for text in there} <= CODES)
    return sorted(there) if is_it else []


def is_of_currencies(table: AnySheet, column: str) -> bool:
    """Whether a column is one of currencies, be it of one alone."""
    there = {str(text) for text in table.column(column).values()} - {""}
    is_named = CURRENCY.fullmatch(column.strip()) is not None
    return bool(there) and {text.upper() for text in there} <= CODES or is_named


def ask_currencies(faults: Faults, table: AnySheet, column: str, more: str = "") -> None:
    """Asks what is meant with a column that has several currencies."""
    some = [text or "none" for text in currencies_in(table, column)]
    word = quoted(column)
    what = (
        f"amounts are in {', '.join(some[:5])}{', ..' if len(some) > 5 else ''}; say --rate {word}=FILE, {more}or "
        f"--ignore {word}"
    )
    faults.at_header(table, column, what)


class Rates:
    """What a unit of each currency is worth, for the amounts of sheets that have a column of currencies."""

    def __init__(self, faults: Faults, word: str = "", column: Optional[str] = None) -> None:
        self.faults, self.word, self.column = faults, word, column
        self.rates: Dict[str, Amount] = {}
        self.converted: Dict[str, Counted] = {}

    @classmethod
    def read(cls, args: SheetOptions, tables: Sequence[Table], faults: Faults) -> "Rates":
        """Those of --rate; none where it is not said."""
        if not args.rate:
            return cls(faults)
        column, name = pair_of(args.rate, tables)
        if not any(column in table for table in tables):
            need_column(faults, tables[0], "rate", column)
        rates = cls(faults, args.rate, column)
        rates.rates = read_rates(name, args, faults)
        return rates

    @classmethod
    def of(cls, pair: Tuple[str, str], args: SheetOptions, faults: Faults) -> "Rates":
        """Those of a file for the currencies of a column."""
        rates = cls(faults, pair[1], pair[0])
        rates.rates = read_rates(pair[1], args, faults)
        return rates

    def convert(self, table: Sheet[Key], row: Key, amount: Amount) -> Amount:
        """An amount of a row in the currency of the network."""
        if self.column is None or self.column not in table or not amount:
            return amount
        return self.worth(table, row, amount)

    def worth(self, table: Sheet[Key], row: Key, amount: Amount) -> Amount:
        """An amount of a row of a table that has the column, in the currency of the network."""
        assert self.column is not None  # as who calls has seen
        currency = str(table.cell(row, self.column))
        if currency not in self.rates:
            self.faults.at_cell(table, table.rows[row], self.column, f"{self.word} has no rate for {currency!r}")
            return 0
        self.converted.setdefault(currency, Counted()).add(amount)
        return amount * self.rates[currency]

    def tell(self, summary: Summary, what: str = "amounts") -> None:
        """Tells what was converted."""
        for currency, counted in self.converted.items():
            rate = self.rates[currency]
            counted.tell(
                summary, f"{what} in {currency}", f"at {shown(rate)}: {shown(counted.sum * rate)}", step="converted"
            )
