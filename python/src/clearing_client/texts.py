"""Reads the texts that the program prints: one parser, for this package and for the tools of the repository.

A text is read whole and strictly: what the program would not print is a `TextError` with its line. A byte order mark
at the start and CR LF as line ends are passed over, since editors and spreadsheets put them there. The last line must
have its end, as a text without it was cut short and its last number may be too.
"""
from __future__ import annotations

import sys
from typing import (
    Callable,
    Dict,
    Iterable,
    Iterator,
    List,
    Optional,
    Sequence,
    Tuple,
    Type,
    TypeVar,
    get_type_hints,
)

from .errors import TextError
from .format import STATES
from .records import (
    Bank,
    BankCounts,
    Bound,
    BreakingCut,
    CheckTotals,
    CostBound,
    CostStanding,
    CostTotals,
    Debt,
    GeneratedTotals,
    Harm,
    Payment,
    Raise,
    Rank,
    Ruin,
    Saved,
    Saving,
    ScenarioSums,
    Standing,
    Totals,
    Wave,
)
from .results import (
    Bounds,
    Breaking,
    Check,
    Clearing,
    Compression,
    Converted,
    CostBounds,
    Costs,
    Defaults,
    Generated,
    Impact,
    Journal,
    Outcome,
    Outcomes,
    Rescue,
    Rescues,
    Result,
    Stress,
    Verdict,
)
from .table import Table, words_of

R = TypeVar("R", bound=Tuple[object, ...])
S = TypeVar("S", bound=Tuple[object, ...])

YES_NO = {"yes": True, "no": False}
MAX_DIGITS = 40


def header_of(record: Type[R], without: str = "") -> str:
    """The header of a table of these records, with one column left out."""
    return ",".join(name for name in words_of(record) if name != without)


BANKS_2 = header_of(Bank)
BANKS_1 = header_of(Bank, "outside")
DEBTS = header_of(Debt)
PAYMENTS = header_of(Payment)
STANDINGS_2 = header_of(Standing)
STANDINGS_1 = header_of(Standing, "outside_paid")
COSTS = header_of(CostStanding)
BOUNDS = header_of(Bound)
WAVES = header_of(Wave)
RANKS = header_of(Rank)
JOURNAL = header_of(Raise)
SUMS = header_of(ScenarioSums)
COST_BOUNDS = header_of(CostBound)
CUTS = header_of(BreakingCut)
RUINS = header_of(Ruin)
SAVINGS = header_of(Saving)


def lines_of(text: str) -> List[str]:
    """The lines of a text. A name may have any character that is no control, so that only LF ends a line."""
    text = text[1:] if text.startswith("\ufeff") else text
    if "\r" in text:
        text = text.replace("\r\n", "\n")
    if not text:
        return []
    if not text.endswith("\n"):
        raise TextError(text.count("\n") + 1, "the line has no end: the text was cut short")
    return text[:-1].split("\n")


def numbers_of(column: Sequence[str], at: int) -> List[int]:
    """The numbers of a column whose first field stands on a line."""
    together = "".join(column)
    if together and not (together.isascii() and together.isdigit()) or "" in column:
        place = next(n for n, field in enumerate(column) if not (field.isascii() and field.isdigit()))
        raise TextError(at + place, f"{column[place]!r} is not a number")
    if max(map(len, column), default=0) > MAX_DIGITS:
        raise TextError(at, f"a number of more than {MAX_DIGITS} digits")
    return list(map(int, column))


def one_of(words: Sequence[str], column: Sequence[str], at: int) -> List[str]:
    """A column that has only these words."""
    for place, field in enumerate(column):
        if field not in words:
            raise TextError(at + place, f"{field!r} is none of {', '.join(words)}")
    return list(map(sys.intern, column))


def read_column(name: str, kind: object, column: Sequence[str], at: int) -> Sequence[object]:
    """The values of a column whose first field stands on a line."""
    if kind is int:
        return numbers_of(column, at)
    if kind is bool:
        return [YES_NO[field] for field in one_of(list(YES_NO), column, at)]
    if name.startswith("state"):
        return one_of(STATES, column, at)
    return list(map(sys.intern, column))


def records_of(record: Type[R], lines: Sequence[str], at: int, without: str = "") -> Table[R]:
    """The table of lines, the first of which stands on a line; a column that they do not have is 0."""
    kinds = dict(zip(words_of(record), get_type_hints(record).values()))
    there = [name for name in kinds if name != without]
    commas = [line.count(",") for line in lines]
    if commas.count(len(there) - 1) != len(lines):
        place = next(place for place, count in enumerate(commas) if count != len(there) - 1)
        raise TextError(at + place, f"not {len(there)} fields: {lines[place][:80]}")
    fields = ",".join(lines).split(",") if lines else []
    columns: Dict[str, Sequence[object]] = {
        name: read_column(name, kinds[name], fields[place :: len(there)], at) for place, name in enumerate(there)
    }
    return Table(record, [columns.get(name, [0] * len(lines)) for name in kinds])


class Lines:
    """The lines of a text, or of a part of it that so many lines stand before, and how far they are read."""

    def __init__(self, lines: List[str], before: int = 0) -> None:
        self.lines, self.at, self.before = lines, 0, before

    @property
    def next(self) -> Optional[str]:
        """The next line; None at the end."""
        return self.lines[self.at] if self.at < len(self.lines) else None

    def fail(self, expected: str) -> TextError:
        """What is wrong where the next line is not what it should be."""
        there = "the end of the text" if self.next is None else f"the line {self.next[:80]}"
        return TextError(self.before + self.at + 1, f"not {expected}, but {there}")

    def take(self, line: str) -> None:
        """Goes on behind a line that must be the next; the empty one stands between two tables."""
        if self.next != line:
            raise self.fail(f"the line {line}" if line else "an empty line")
        self.at += 1

    def fields(self, word: str, count: int) -> List[str]:
        """The fields of the next line behind its word."""
        first, *fields = (self.next or "").split(",")
        if first != word or len(fields) != count:
            raise self.fail(f"a line with {word} and {count} field{'s' if count > 1 else ''}")
        self.at += 1
        return fields

    def numbers(self, word: str, count: int = 1) -> List[int]:
        """The numbers of the next line behind its word."""
        return [numbers_of([field], self.before + self.at)[0] for field in self.fields(word, count)]

    def end(self) -> None:
        """The text must end here."""
        if self.next is not None:
            raise self.fail("the end of the text")

    def table(self, record: Type[R], last: int = 0, without: str = "", until: Sequence[str] = ("",)) -> Table[R]:
        """A header and the lines below it, as far as a line that ends them or the end; the last few of them are
        left."""
        self.take(header_of(record, without))
        start = self.at
        stop = next((at for at in range(start, len(self.lines)) if self.lines[at] in until), len(self.lines))
        self.at = stop - last
        if self.at < start:
            raise self.fail("lines of sums below a table")
        return records_of(record, self.lines[start : self.at], self.before + start + 1, without)


def read_clearing(lines: Lines) -> Result:
    """Payments, and a journal or the standings with costs behind them."""
    payments = lines.table(Payment)
    if lines.next is None:
        return Clearing(payments)
    lines.take("")
    if lines.next == COSTS:
        standings = lines.table(CostStanding, last=2)
        sums = lines.numbers("total", 6)
        return Costs(payments, standings, CostTotals(*sums, *lines.numbers("cash")))
    return Clearing(payments, read_journal(lines))


def read_journal(lines: Lines) -> Journal:
    """A journal, with or without the line `rounds`."""
    ends = bool(lines.lines) and lines.lines[-1].startswith("rounds,")
    raises = lines.table(Raise, last=1 if ends else 0)
    return Journal(raises, lines.numbers("rounds")[0] if ends else None)


def read_standings(lines: Lines) -> Defaults:
    """Standings with their sums, with or without what is paid outside."""
    without = "" if lines.next == STANDINGS_2 else "outside_paid"
    standings = lines.table(Standing, last=2, without=without)
    sums = lines.numbers("total", 5 if without else 6)
    if without:
        sums.insert(1, 0)
    return Defaults(standings, Totals(*sums, *lines.numbers("cash")))


def read_stress(lines: Lines) -> Stress:
    """An outcome for each scenario."""
    outcomes: List[Outcome] = []
    while lines.next is not None:
        if outcomes:
            lines.take("")
        outcomes.append(read_outcome(lines, len(outcomes) + 1))
    return Stress(tuple(outcomes))


def read_outcome(lines: Lines, number: int) -> Outcome:
    """What the scenario of a number leaves."""
    if not (lines.next or "").startswith("scenario,"):
        raise lines.fail("a line with scenario")
    name = (lines.next or "").partition(",")[2]
    lines.at += 1
    payments = lines.table(Payment, until=(STANDINGS_1, STANDINGS_2))
    left = read_standings(lines)
    return Outcome(number, name, payments, left.standings, left.total)


def read_two(
    kind: Callable[[Table[R], Table[S]], Result], first: Type[R], second: Type[S]
) -> Callable[[Lines], Result]:
    """What reads a result of two tables of these records, with an empty line between."""

    def read(lines: Lines) -> Result:
        table = lines.table(first)
        lines.take("")
        return kind(table, lines.table(second))

    return read


def read_rescues(lines: Lines) -> Rescues:
    """What saves each bank in default, and whom that saves besides, of whom there are as many as the first table
    says."""
    banks = lines.table(Saving)
    lines.take("")
    saved = lines.table(Saved)
    counts = banks.column("also_saved")
    if sum(counts) != len(saved):
        raise TextError(0, f"{len(saved)} pairs in place of those that the first table counts, {sum(counts)} in all")
    names = [name for name, count in zip(banks.column("bank"), counts) for _ in range(count)]
    if saved.column("bank") != names:
        raise TextError(0, "the pairs are not those of the banks of the first table, in their order")
    return Rescues(banks, saved)


def read_banks(lines: Lines) -> Table[Bank]:
    """A banks file, of either version."""
    return lines.table(Bank, without="" if lines.next == BANKS_2 else "outside")


def read_counts(lines: Lines) -> Result:
    """The counts of `check` with both files behind them, or those of `gen`."""
    banks, debts, owed, cash = (lines.numbers(word)[0] for word in ("banks", "debts", "owed", "cash"))
    if lines.next is not None and lines.next.startswith("paid,"):
        rest = [lines.numbers(word)[0] for word in ("paid", "defaults", "equity")]
        return Generated(GeneratedTotals(banks, debts, owed, cash, *rest))
    lines.take("")
    table = read_banks(lines)
    lines.take("")
    check = Check(table, lines.table(Debt), CheckTotals(banks, debts, owed, cash))
    if (len(check.banks), len(check.debts)) != (banks, debts):
        raise TextError(0, f"{len(check.banks)} banks and {len(check.debts)} debts in place of {banks} and {debts}")
    return check


def read_bounds(lines: Lines) -> Result:
    """The least and greatest payments, and the waves, or how banks stand at both with costs of default."""
    payments = lines.table(Bound)
    lines.take("")
    if lines.next == COST_BOUNDS:
        return CostBounds(payments, lines.table(CostBound))
    return Bounds(payments, lines.table(Wave))


def read_compression(lines: Lines) -> Compression:
    """The debts that are left, the ranks and what was cancelled."""
    debts = lines.table(Debt)
    lines.take("")
    ranks = lines.table(Rank, last=1)
    return Compression(debts, ranks, lines.numbers("cancelled")[0])


def read_rescue(lines: Lines) -> Rescue:
    """The sum that saves a bank, and the payments with it."""
    bank, added = lines.fields("rescue", 2)
    short = lines.numbers("short")[0]
    lines.take("")
    return Rescue(bank, numbers_of([added], 1)[0], short, lines.table(Payment))


def read_verdict(lines: Lines) -> Verdict:
    """The verdict on a journal, and the payments where it is lawful."""
    word = (lines.next or "").partition(",")[0]
    if word == "unfinished":
        return Verdict(word, bank=lines.fields(word, 1)[0])
    if word == "lawful":
        raises = lines.numbers(word)[0]
        lines.take("")
        return Verdict(word, raises=raises, payments=lines.table(Payment))
    entry, first, second = lines.numbers(word, 3)
    if word == "falls":
        return Verdict(word, entry=entry, last=first, stamp=second)
    return Verdict(word, entry=entry, had=first, allowed=second)


READERS: Dict[str, Callable[[Lines], Result]] = {
    PAYMENTS: read_clearing,
    JOURNAL: read_journal,
    SUMS: read_two(Outcomes, ScenarioSums, BankCounts),
    CUTS: lambda lines: Breaking(lines.table(BreakingCut)),
    RUINS: read_two(Impact, Ruin, Harm),
    SAVINGS: read_rescues,
    STANDINGS_1: read_standings,
    STANDINGS_2: read_standings,
    BOUNDS: read_bounds,
    DEBTS: read_compression,
    BANKS_1: lambda lines: Converted(read_banks(lines)),
    BANKS_2: lambda lines: Converted(read_banks(lines)),
}
WORDS: Dict[str, Callable[[Lines], Result]] = {
    "scenario": read_stress,
    "banks": read_counts,
    "rescue": read_rescue,
    "lawful": read_verdict,
    "falls": read_verdict,
    "unlawful": read_verdict,
    "unfinished": read_verdict,
}


def parse(text: str) -> Result:
    """The result that a text of the program says. What kind it is, the first line tells. No text at all is refused: a
    run that failed leaves it, or `stress` without a scenario.

    >>> parse("debtor,creditor,class,claim,paid\\nA,B,1,10,7\\n").payments[0].paid
    7
    >>> parse("debtor,creditor,class,claim,paid\\nA,B,1,10,7")
    Traceback (most recent call last):
    clearing_client.errors.TextError: line 2: the line has no end: the text was cut short
    """
    lines = Lines(lines_of(text))
    first = lines.next
    if first is None:
        raise TextError(0, "there is no text: the run failed, or had no scenario")
    reader = READERS.get(first) or WORDS.get(first.partition(",")[0])
    if reader is None:
        raise TextError(1, f"no text of the program begins with {first[:80]}")
    result = reader(lines)
    lines.end()
    return result.with_source(text)


def decoded(stream: Iterable[bytes]) -> Iterator[str]:
    """The lines of a text that is read as it comes, in the same way as `lines_of` reads one that is there."""
    for at, line in enumerate(stream, 1):
        try:
            text = line.decode("utf-8-sig" if at == 1 else "utf-8")
        except UnicodeDecodeError as fault:
            raise TextError(at, "the line is not UTF-8") from fault
        if not text.endswith("\n"):
            raise TextError(at, "the line has no end: the text was cut short")
        yield text[:-2] if text.endswith("\r\n") else text[:-1]


def outcomes_in(stream: Iterable[bytes], before: int = 0) -> Iterator[Outcome]:
    """The outcomes of what `stress` prints, one after another as the lines of a stream come: no more than one is held.
    They are numbered on from so many before them. Refuses what `parse` refuses, once it comes to it.

    >>> [one.name for one in outcomes_in([])]
    []
    """
    number, at = before, 0
    part: List[str] = []
    for line in decoded(stream):
        if line:
            part.append(line)
            continue
        number += 1
        yield whole_outcome(Lines(part, at), number)
        at, part = at + len(part) + 1, []
    if at or part:
        yield whole_outcome(Lines(part, at), number + 1)


def whole_outcome(lines: Lines, number: int) -> Outcome:
    """The outcome that these lines say, all of them."""
    outcome = read_outcome(lines, number)
    lines.end()
    return outcome
