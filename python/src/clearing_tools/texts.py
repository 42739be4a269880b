"""What the tools read: the program's texts, by the one parser, which is `clearing_client.texts`, and the files of a
network as records. The banks and debts of a text, and what follows from them. Amounts are whole units of account."""
import csv
import io
from typing import Collection, Dict, Iterator, List, Mapping, NamedTuple, Optional, Sequence, Set, Tuple, Type, TypeVar

from clearing_client import format as form, texts
from clearing_client.errors import TextError
from clearing_client.fields import long_fields
from clearing_client.records import Payment, Standing, Wave
from clearing_client.results import Clearing, Defaults, Result
from clearing_client.table import Table

from .files import text_of
from .runner import StrPath, ToolError

DEFAULTS_HEADERS = (texts.STANDINGS_1, texts.STANDINGS_2)
# The states, the worst last. Gridlock is contagion at the least payments alone: `clearing bounds` names such banks.
STATES = (*form.STATES, "gridlock")


class Bank(NamedTuple):
    """A bank as the program says it stands. `outside` is what it owes outside, None where that is not known."""

    name: str
    estate: int
    outside: Optional[int]
    outside_paid: int
    paid: int
    owed: int
    equity: int
    state: str


class Flow(NamedTuple):
    """What one bank owes another in all classes; a creditor of None is the world outside."""

    debtor: str
    creditor: Optional[str]
    claim: int
    paid: int


# What is read.


def lines_of(name: StrPath) -> List[str]:
    """The lines of a file. A name may have any character that is no control, so that only LF ends a line."""
    return text_of(name).removesuffix("\n").split("\n")


MOST_OF_A_LINE = 1_000_000


def lines_in(name: StrPath) -> Iterator[str]:
    """The lines of a file, as `lines_of` has them, one after another as they are read."""
    try:
        with open(name, encoding="utf-8-sig", newline="\n") as file:
            while line := file.readline(MOST_OF_A_LINE):
                if len(line) == MOST_OF_A_LINE:
                    raise ValueError(f"it has a line of more than {MOST_OF_A_LINE:,} characters")
                yield line[:-2] if line.endswith("\r\n") else line.removesuffix("\n")
    except (OSError, ValueError) as fault:
        raise ToolError(f"{name}: cannot be read: {fault}") from fault


def parsed(name: StrPath, text: str) -> Result:
    """The result that a text of the program says, which was read from a file. A text without the end of its last line
    was cut short, and is refused."""
    try:
        return texts.parse(text)
    except TextError as fault:
        raise ToolError(f"{name}: {fault}") from fault


def read_result(name: StrPath) -> Result:
    """The result that a file with a text of the program says."""
    return parsed(name, text_of(name))


R = TypeVar("R", bound=Result)


def read_headed(name: StrPath, kind: Type[R], *headers: str) -> R:
    """The result of this kind of a file whose text has one of these headers; its last line may be without its end."""
    text = text_of(name)
    if text.partition("\n")[0] not in headers:
        raise ToolError(f"{name}: line 1: not the header {headers[0]}")
    result = parsed(name, text if text.endswith("\n") else text + "\n")
    if not isinstance(result, kind):
        raise ToolError(f"{name}: line 1: not the header {headers[0]}")
    return result


def read_payments(name: StrPath) -> Table[Payment]:
    """The debts with what is paid on each, in file order."""
    return read_headed(name, Clearing, texts.PAYMENTS).payments


def read_standings(name: StrPath) -> Table[Standing]:
    """How the banks stand, in file order, without the two lines of sums at the end."""
    return read_headed(name, Defaults, *DEFAULTS_HEADERS).standings


def read_banks(name: StrPath, outside: Optional[Mapping[str, int]] = None) -> List[Bank]:
    """The banks of what `clearing defaults` prints, in file order; `outside` has what they owe outside."""
    return banks_of(name, read_standings(name), 2, outside)


def table_of(
    name: StrPath, header: str, lines: Sequence[str], first: int, outside: Optional[Mapping[str, int]] = None
) -> List[Bank]:
    """The banks of the lines of a table of defaults, the first of which has that number in the file."""
    try:
        standings = texts.records_of(Standing, lines, first, "" if header == texts.STANDINGS_2 else "outside_paid")
    except TextError as fault:
        raise ToolError(f"{name}: {fault}") from fault
    return banks_of(name, standings, first, outside)


def banks_of(
    name: StrPath, standings: Table[Standing], first: int, outside: Optional[Mapping[str, int]] = None
) -> List[Bank]:
    """Standings as banks, which know what they owe outside as far as that is to be known."""
    banks = []
    for at, bank in enumerate(standings, first):
        # A bank that pays nothing in the network and defaults may owe more outside than it pays there.
        due = None if bank.outside_paid and not bank.paid and bank.state != "sound" else bank.outside_paid
        if outside is not None:
            if bank.bank not in outside:
                raise ToolError(f"{name}: line {at}: the banks file has no bank {bank.bank!r}")
            due = outside[bank.bank]
        paid = bank.outside_paid, bank.paid
        banks.append(Bank(bank.bank, bank.estate, due, *paid, bank.owed, bank.equity, bank.state))
    return banks


def read_gridlock(name: StrPath) -> Set[str]:
    """The names of the banks in gridlock."""
    lines = lines_of(name)
    if texts.WAVES not in lines:
        raise ToolError(f"{name}: it has no line {texts.WAVES}")
    start = lines.index(texts.WAVES) + 1
    try:
        waves = texts.records_of(Wave, lines[start:], start + 1)
    except TextError as fault:
        raise ToolError(f"{name}: {fault}") from fault
    return {wave.bank for wave in waves if wave.gridlock}


def records_in(name: StrPath, *headers: str) -> Tuple[List[str], List[Tuple[int, List[str]]]]:
    """The header of a file of a network, one of those, and its records, each with its row: the header is row 0."""
    try:
        text = text_of(name)
        with long_fields(len(text)):
            reader = csv.reader(io.StringIO(text, newline=""))
            records = [[field.strip(" \t") for field in record] for record in reader]
    except csv.Error as fault:
        raise ToolError(f"{name}: {fault}") from fault
    records = [record for record in records if record]
    if not records or ",".join(records[0]) not in headers:
        raise ToolError(f"{name}: the first row is not {' or '.join(headers)}")
    rows = [(row, record) for row, record in enumerate(records[1:], 1) if any(record)]
    for row, record in rows:
        if len(record) != len(records[0]):
            raise ToolError(f"{name} row {row}: {len(record)} fields in place of {len(records[0])}")
    return records[0], rows


def number(name: StrPath, row: int, text: str) -> int:
    """The number of a field of a row."""
    if not (text.isascii() and text.isdigit() and len(text) <= 20):
        raise ToolError(f"{name} row {row}: {text[:100]!r} is not a number")
    return int(text)


class Account(NamedTuple):
    """What a banks file says of a bank: nothing is owed outside in version 1."""

    cash: int
    rule: str
    outside: int = 0


def read_accounts(name: StrPath) -> Tuple[List[str], Dict[str, Account]]:
    """The columns of a banks file behind the names, `outside` in version 2 alone, and what it says of each bank, by its
    name."""
    header, rows = records_in(name, texts.BANKS_1, texts.BANKS_2)
    accounts: Dict[str, Account] = {}
    for row, (bank, cash, rule, *outside) in rows:
        if bank in accounts:
            raise ToolError(f"{name} row {row}: a second bank of the name {bank!r}")
        accounts[bank] = Account(number(name, row, cash), rule, *(number(name, row, field) for field in outside))
    return header[1:], accounts


def read_outside(name: StrPath) -> Dict[str, int]:
    """What each bank owes outside, from a banks file of either version."""
    return {bank: account.outside for bank, account in read_accounts(name)[1].items()}


# What follows.


def check_same_network(
    payments: Sequence[Payment], banks: Sequence[Bank], payments_name: StrPath, defaults_name: StrPath
) -> None:
    """Refuses payments of banks that the table of defaults does not have."""
    known = {bank.name for bank in banks}
    for payment in payments:
        for name in (payment.debtor, payment.creditor):
            if name not in known:
                raise ToolError(f"{defaults_name}: it has no bank {name!r}, which {payments_name} has")


def with_gridlock(banks: Sequence[Bank], gridlock: Collection[str]) -> List[Bank]:
    """The banks, those of these names with the state of gridlock."""
    return [bank._replace(state="gridlock") if bank.name in gridlock else bank for bank in banks]


def due_of(bank: Bank) -> int:
    """All that a bank owes, outside first, as far as it is known."""
    return bank.owed + (bank.outside_paid if bank.outside is None else bank.outside)


def given_by(bank: Bank) -> int:
    """All that a bank pays, outside and in the network."""
    return bank.paid + bank.outside_paid


def shortfall_of(bank: Bank) -> int:
    """What a bank leaves unpaid of all it owes."""
    return due_of(bank) - given_by(bank)


def flows_of(payments: Sequence[Payment], banks: Sequence[Bank]) -> List[Flow]:
    """One flow for each pair of banks, in the order of their first debt, and last those to the world outside."""
    pairs: Dict[Tuple[str, str], Tuple[int, int]] = {}
    for debt in payments:
        claim, paid = pairs.get((debt.debtor, debt.creditor), (0, 0))
        pairs[debt.debtor, debt.creditor] = claim + debt.claim, paid + debt.paid
    flows = [Flow(*pair, *amounts) for pair, amounts in pairs.items()]
    for bank in banks:
        outside = due_of(bank) - bank.owed
        if outside:
            flows.append(Flow(bank.name, None, outside, bank.outside_paid))
    return flows
