"""What a command line says of a sheet and of what is made of it, as a value that nothing changes."""
import argparse
from dataclasses import dataclass
from fractions import Fraction
from typing import Dict, FrozenSet, List, Mapping, NamedTuple, Optional, Sequence, Tuple, Type, TypeVar

from clearing_client.limits import LIMITS, WIDE, Limits

from .amounts import Amounts
from .reading import Form

KINDS = ("self", "negative", "empty")
"""What --leave-out names beside banks: debts of a bank to itself, amounts below 0, and lines without an amount."""
LABEL_COLUMNS = ("short", "group", "country")
"""What a case keeps of a bank beside its full name, each in a column that a word such as --short-column names."""


class LeftOut(NamedTuple):
    """What --leave-out names: kinds of amounts, and banks."""

    kinds: FrozenSet[str]
    banks: Tuple[str, ...]


@dataclass(frozen=True)
class CaseOptions:
    """What is said of the case to write."""

    is_replaced: bool
    """Whether a case that is there is written over."""
    is_kept: bool
    """Whether the case has copies of the sheets."""
    title: Optional[str]
    as_of: Optional[str]
    """The date of the amounts, as YYYY-MM-DD."""
    test: Optional[str]
    """What cash stands for: `liquidity` or `solvency`."""
    currency: Optional[str]
    amounts_in: Optional[Fraction]
    """How much of the currency an amount of 1 in the sheet is."""
    columns: Mapping[str, str]
    """The columns of `LABEL_COLUMNS` that are named."""
    line: Tuple[str, ...]
    """The words of the command line."""


@dataclass(frozen=True)
class SheetOptions:
    """What is said of any sheet. Names of columns are as they were said: `Columns` has those that were found."""

    file: str
    """The sheet."""
    form: Form
    cash: str
    outside: Tuple[str, ...]
    no_outside: bool
    rule_column: Optional[str]
    rule: str
    """The rule of a bank where there is no such column."""
    rank: int
    """The class of debts where nothing else says it."""
    unit: Optional[Fraction]
    """What a unit of account is worth; where there is none, the smallest unit is taken that keeps all limits."""
    is_rounded: bool
    """Whether amounts are rounded to whole units."""
    limits: Optional[str]
    decimal: Optional[str]
    thousands: Optional[str]
    drop: Tuple[str, ...]
    """The lines of totals to leave out."""
    keep: Tuple[str, ...]
    """The banks that look like lines of totals."""
    left_out: LeftOut
    is_turned: bool
    """Whether an amount below 0 is owed the other way round."""
    is_empty_zero: bool
    """Whether an empty cell of cash is 0."""
    rate: Optional[str]
    """A column of currencies and a table of what each is worth, as `COLUMN=FILE`."""
    ignore: Tuple[str, ...]
    label: Optional[str]
    label_column: Optional[str]
    summary: Optional[str]
    case: Optional[str]
    """The folder of the case to write, where there is one."""
    of_case: CaseOptions

    @property
    def takes_negative(self) -> bool:
        """Whether something is to be done with amounts below 0."""
        return self.is_turned or "negative" in self.left_out.kinds

    @property
    def has_codes(self) -> bool:
        """Whether names that the program refuses get codes, as there is a file of labels or a case."""
        return bool(self.label or self.case)

    @property
    def rates_file(self) -> Optional[str]:
        """The table of what each currency is worth."""
        return self.rate.partition("=")[2] if self.rate else self.rate

    @property
    def most(self) -> Limits:
        """The limits that nothing may pass."""
        return LIMITS[self.limits or WIDE]

    def amounts(self, is_signed: bool = False) -> Amounts:
        """A reader of amounts as the words say, of those below 0 too where that is asked for."""
        return Amounts(self.decimal, self.thousands, empty_words=self.is_empty_zero, is_signed=is_signed)

    def is_rate(self, column: str) -> bool:
        """Whether a column is that of the currencies that are converted."""
        return (self.rate or "").startswith(f"{column}=")

    def written(self) -> Dict[str, Optional[str]]:
        """The files to write, each by its option."""
        return {"label": self.label, "summary": self.summary, "case": self.case}

    def missing(self) -> List[str]:
        """The options that must be said and are not."""
        raise NotImplementedError


@dataclass(frozen=True)
class TwoFileOptions(SheetOptions):
    """What is said of a sheet that makes one network, in two files."""

    table: Optional[str]
    """The table of the banks, where it is another file."""
    table_form: Form
    groups: Optional[str]
    """A table of banks and their groups."""
    banks: Optional[str]
    debts: Optional[str]

    def written(self) -> Dict[str, Optional[str]]:
        """The files to write, each by its option."""
        return {"banks": self.banks, "debts": self.debts, **super().written()}

    def missing(self) -> List[str]:
        """The two files, unless a case is written in their place."""
        missing = [f"--{option}" for option in ("banks", "debts") if self.written()[option] is None]
        return [] if len(missing) == 2 and self.case else missing


@dataclass(frozen=True)
class MatrixOptions(TwoFileOptions):
    """What is said of a matrix."""

    columns_owe: bool
    """Whether the bank of a column owes the bank of a row."""


@dataclass(frozen=True)
class ListOptions(TwoFileOptions):
    """What is said of a list of exposures."""

    table: str
    debtor: str
    creditor: str
    amount: str
    class_column: Optional[str]
    class_of: Optional[str]
    """A column and a table of the class of each of its values, as `COLUMN=FILE`."""
    is_summed: bool
    """Whether lines of one debtor, creditor and class add up."""
    duplicates: Optional[str]
    """What is done with lines that are the same in every column: `sum` or `once`."""
    where: Tuple[str, ...]
    """The lines to take, each as `COLUMN=VALUE`."""


@dataclass(frozen=True)
class TotalsOptions(SheetOptions):
    """What is said of a table of totals."""

    out: Optional[str]
    method: str
    samples: Optional[int]
    """How many networks are made, each in a folder; one and no folder where it is not said."""
    seed: int
    tries: Optional[int]
    density: Optional[float]
    steps: Optional[int]
    known: Optional[str]
    """A list of claims that are known and stay."""
    most_claims: Optional[int]
    """How many claims of maximum entropy stay, where that was said."""
    rest: str
    """The bank for those who are not in the file."""
    no_rest: bool
    assets: str
    liabilities: str

    def written(self) -> Dict[str, Optional[str]]:
        """The files to write, each by its option."""
        return {"out": self.out, **super().written()}

    def missing(self) -> List[str]:
        """The folder, unless a case is written in its place."""
        return [] if self.out or self.case else ["--out"]


Kind = TypeVar("Kind", bound=SheetOptions)


def options_of(kind: Type[Kind], args: argparse.Namespace, line: Sequence[str]) -> Kind:
    """What a parser has taken of a command line, as a value of this kind: a word is a field by its name, but for those
    that are gathered here."""
    words = {name: tuple(word) if isinstance(word, list) else word for name, word in vars(args).items()}
    take = words.pop
    encoding, delimiter = take("encoding"), take("delimiter")
    words["form"] = Form(encoding, delimiter, take("skip"), take("sheet"))
    if "table_skip" in words:
        words["table_form"] = Form(encoding, delimiter, take("table_skip"), take("table_sheet"), "--table-")
    words["outside"] = take("outside") or ()
    words["left_out"] = left_out_of(take("leave_out"))
    words["is_turned"], words["is_empty_zero"] = take("turn") is not None, take("empty") is not None
    columns = {name: take(f"{name}_column") for name in LABEL_COLUMNS}
    words["of_case"] = CaseOptions(
        is_replaced=take("replace"),
        is_kept=take("keep_sources"),
        title=take("title"),
        as_of=take("as_of"),
        test=take("test"),
        currency=take("currency"),
        amounts_in=take("amounts_in"),
        columns={name: column for name, column in columns.items() if column is not None},
        line=tuple(line),
    )
    return kind(**words)


def left_out_of(words: Sequence[str]) -> LeftOut:
    """What is to be left out, by the words. A bank that is called as a kind is `name=self`."""
    kinds, banks = set(), []
    for word in words:
        parts = [part.strip() for part in word.split(",")]
        if all(part in KINDS for part in parts):
            kinds.update(parts)
        else:
            banks.append(word.removeprefix("name="))
    return LeftOut(frozenset(kinds), tuple(dict.fromkeys(banks)))
