"""How the columns of a table of banks are found: by their names, whatever the capitals or spaces in them."""
import re
from typing import Container, List, NamedTuple, Optional, Sequence, Tuple

from .faults import Faults
from .sheet_options import SheetOptions
from .tables import AnySheet, need_column, quoted

# What a column may be called that has what is owed to others than the banks, and what shows that it is no debt.
OUTSIDE = re.compile(
    r"outside|extern|other liab|other debt|deposit|non.?bank|customer|einlagen|sonstige verb|übrige "
    r"verb|dépôt|depot|autres dettes"
    r"|autres engag|third.part|dritt|kunden|client|in issue|issued|^el$",
    re.IGNORECASE,
)
NO_DEBT = re.compile(r"asset|aktiv|actif|claim|forderung|créance|receiv|held|central bank", re.IGNORECASE)


class Columns(NamedTuple):
    """The columns of a table of banks, by their names there."""

    cash: str
    outside: Tuple[str, ...]
    """Those of what is owed outside, which add up."""
    rule: Optional[str]
    """That of the rules, where there is one."""
    passed: Tuple[str, ...]
    """Those that look as if they had what is owed outside, and are passed over."""

    @property
    def amounts(self) -> List[str]:
        """The columns that have amounts."""
        return [self.cash, *self.outside]


def columns_of(
    faults: Faults,
    args: SheetOptions,
    table: AnySheet,
    cash: str,
    banks: Container[str] = (),
    others: Sequence[str] = (),
) -> Columns:
    """The columns of a table of banks, whose column of cash is found already. The others are none of what is owed
    outside."""
    outside, passed = find_outside(faults, args, table, (cash, args.rule_column, *others), banks)
    rule = find_column(faults, table, "rule-column", args.rule_column, banks, args.drop)
    return Columns(cash, outside, rule, passed)


def alike(table: AnySheet, name: str, banks: Container[str] = (), drop: Container[str] = ()) -> List[str]:
    """The columns of a name, or of that name but for capitals or spaces where it is no bank's; without those to be
    dropped."""
    plain = name.strip().casefold()
    named = [column for column in table.header if column.strip().casefold() == plain and column not in drop]
    return [column for column in named if column == name or column not in banks]


def ask_alike(faults: Faults, table: AnySheet, option: str, usual: str, columns: Sequence[str]) -> None:
    """Asks which of several columns is meant that have the usual name but for capitals or spaces."""
    for column in columns:
        if column != usual:
            what = f"its name is {usual} but for capitals or spaces; say --{option} {quoted(column)}, or rename it"
            faults.at_header(table, column, what)


def take_alike(table: AnySheet, name: str, banks: Container[str] = ()) -> str:
    """The only column of a name but for capitals or spaces; else the name itself."""
    columns = alike(table, name, banks)
    return columns[0] if len(columns) == 1 else name


def need_usual(faults: Faults, table: AnySheet, option: str, name: str, banks: Container[str] = ()) -> str:
    """The column of a name, whatever its capitals or spaces. Refuses a table without it."""
    column = take_alike(table, name, banks)
    need_column(faults, table, option, column, banks)
    return column


def find_column(
    faults: Faults,
    table: AnySheet,
    option: str,
    name: Optional[str],
    banks: Container[str] = (),
    drop: Container[str] = (),
) -> Optional[str]:
    """A column that may be missing. One that an option names must be there, else it is the only one of the usual name,
    whatever its capitals or spaces, or none. Which of several it is is asked for."""
    if name is not None:
        return need_usual(faults, table, option, name, banks)
    usual = option.split("-")[0]
    columns = alike(table, usual, banks, drop)
    if len(columns) > 1:
        ask_alike(faults, table, option, usual, columns)
    return columns[0] if columns else None


def find_outside(
    faults: Faults, args: SheetOptions, table: AnySheet, others: Container[Optional[str]], banks: Container[str] = ()
) -> Tuple[Tuple[str, ...], Tuple[str, ...]]:
    """The columns of what is owed outside: those that are named, else the only one of the name `outside`, whatever its
    capitals or spaces, or none; and those that look like it and are passed over. Without --no-outside these are asked
    for. What the others have is known."""
    if args.outside:
        for column in args.outside:
            need_column(faults, table, "outside", column, banks)
        return args.outside, ()
    usual = alike(table, "outside", banks, args.drop)
    if len(usual) > 1 and not args.no_outside:
        ask_alike(faults, table, "outside", "outside", usual)
    outside = [] if args.no_outside else usual[:1]
    known = [column for column in table.header if column in banks or column in others or column in args.drop]
    like = [] if outside else [c for c in table.header if c not in known and looks_outside(table, c)]
    if args.no_outside:
        return (), (*like, *usual)
    for column in like:
        what = f"it may be what is owed outside; say --outside {quoted(column)}, or --no-outside"
        faults.at_header(table, column, what)
    return tuple(outside), tuple(like)


def looks_outside(table: AnySheet, column: str) -> bool:
    """Whether a column looks like what is owed to others: by its name, and something stands in it."""
    return bool(OUTSIDE.search(column)) and not NO_DEBT.search(column) and any(table.column(column).values())
