"""Checks a journal of raises, and the payments and defaults that go with it, without the program.

In:   --banks FILE --debts FILE    the network (docs/FORMATS.md)
      --journal FILE               what `clearing clear --show journal` prints, or a journal that anybody made
      --payments FILE              what `clearing clear` prints
      --defaults FILE              what `clearing defaults` prints
      --limits standard|wide       the limits by which the files are read: 1,000 banks, 20,000 debts, 10,000,000 units
                                   owed and as many raises; or 10,000 banks, 1,000,000 debts, 25,000,000 units owed
                                   and as many raises. Without it the standard ones, or the wide ones for a network
                                   that is too large for these
Out:  a line for each thing looked at: `49 raises lawful`, `nobody can pay more`, `payments same`, `defaults same`, and
      what was not checked. Where something is wrong the line says where, and the lines that would follow from it are
      left out.

Ends with 0 where all holds; 1 where payments or defaults are not those of the journal; 2 where the words are not
understood; 3 where a file cannot be read; 4 where a file is not of its format (its first fault is named as `clearing`
names it); 5 where the output cannot be written; 7 where the journal is not lawful, or somebody can still pay; 130 at
an interrupt.

It shares no code with the program or with other tools. What follows is all that it stands on. All numbers are whole
units.

  Network. Banks, each with a name, cash, a rule, and what it owes outside; and debts, each with a debtor, a creditor,
  a class of 1 to 9 and a claim. Payments say of each debt how much of its claim is paid.

  Dividing. A bank divides its cash and what it has received, less what it owes outside; nothing where that is more.
  The classes 1 to 9 come in turn: each gets what is left, and at most its claims. Within a class units are given out
  one by one. A debt that has all its claim is out. Of the others the next unit goes to the earliest, in file order,
  that none goes before. A debt of claim c that has k units goes before one of claim d that has m units, by the bank's
  rule,

      order  never                  jefferson  where c (m + 1) > d (k + 1)
      equal  where k < m            webster    where c (2 m + 1) > d (2 k + 1)
      losses where c - k > d - m    adams      where c m > d k

  Clearing. Payments clear where every bank pays on each of its debts exactly what it gets so, from what these payments
  bring it. Of all payments that clear there are the least: no others that clear pay less on any debt. They are what is
  asked for.

  Journal. Raises, one after another, from nothing paid. A raise of a debt to an amount is lawful where its stamp is
  not below that of the raise before, and the amount is above what is paid on the debt, and at most what the debt gets
  when its debtor divides what it has by then. Lawful raises never pass the least payments that clear. So where they
  end in payments that clear, where nobody can pay more, these are the least, whoever made the journal and in whatever
  order. That is a law, proved in this repository: raise_journal::laws::lawful_journals_pay_the_least (and
  clear_core::laws::standing_journal_stays_below_least).

  Standing. A bank's estate is its cash and what it received. Of it the bank pays outside what it owes there, as far as
  it goes; it pays its debts; its equity is the rest. It is sound where it pays all that it owes. If not it is in
  default by its own fundamentals where its cash and all claims on others are less than all that it owes, and else by
  contagion.
"""
import argparse
import heapq
import io
import itertools
import math
import os
import re
import sys
from typing import (
    Callable, Dict, Iterable, Iterator, List, Mapping, NamedTuple, NoReturn, Optional, Sequence, Set, Tuple, Union,
)


class Bank(NamedTuple):
    """A bank: its name, cash and rule, and what it owes outside, in units."""

    name: bytes
    cash: int
    rule: str
    outside: int


class Debt(NamedTuple):
    """A debt: its debtor and creditor by their place among the banks, its class, and its claim in units."""

    debtor: int
    creditor: int
    rank: int
    claim: int


class Network(NamedTuple):
    """Banks, and the debts between them, in file order."""

    banks: List[Bank]
    debts: List[Debt]


class Verdict(NamedTuple):
    """The verdict on a journal: lawful, falls, unlawful or unfinished, with its numbers and what is paid on each
    debt."""

    kind: str
    numbers: Tuple[int, ...]
    paid: List[int]


Raise = Tuple[int, int, int]
"""A stamp, the place of a debt, and the amount that it is raised to."""
Fields = List[bytes]

KINDS = {
    "header": 1, "fields": 2, "name": 3, "number": 4, "rule": 5, "limit": 6, "double bank": 7, "unknown bank": 8,
    "self debt": 9, "class": 10, "double debt": 11, "too many": 12, "total": 13, "file size": 14, "unknown debt": 15,
}
BANKS, BANKS_2 = b"name,cash,rule".split(b","), b"name,cash,rule,outside".split(b",")
DEBTS, JOURNAL = b"debtor,creditor,class,claim".split(b","), b"stamp,debtor,creditor,class,to".split(b",")


class Limits(NamedTuple):
    """How many banks, debts, units owed together and raises there may be, and bytes of a banks or debts file and of a
    journal."""

    banks: int
    debts: int
    owed: int
    raises: int
    size: int
    journal: int

    def most_of(self, file: str) -> int:
        """How many bytes a file has at most; no payments or defaults have more than the two files may have."""
        return self.journal if file == "journal" else self.size


STANDARD, WIDE = "standard", "wide"
LIMITS = {
    STANDARD: Limits(1_000, 20_000, 10_000_000, 10_000_000, 8_388_608, 1_600_000_000),
    WIDE: Limits(10_000, 1_000_000, 25_000_000, 25_000_000, 167_772_160, 4_000_000_000),
}


def shown(text: Union[str, bytes]) -> str:
    """A text for one line of a terminal: what is not seen there, or would change how it is seen, stands as its code."""
    text = os.fsdecode(text)
    return "".join(c if c.isprintable() else f"<U+{ord(c):04X}>" for c in text)


class Parser(argparse.ArgumentParser):
    """A parser whose messages can be read, whatever the words are that it does not understand."""

    def error(self, message: str) -> NoReturn:
        """Tells the fault and ends with 2."""
        super().error(shown(message))


class RefusedError(Exception):
    """The first fault of a file, as the program names it."""

    def __init__(self, file: str, row: int, kind: str) -> None:
        super().__init__(f"{file} row {row}: {kind} ({KINDS[kind]})")
        self.kind = kind


# Files.

PLAIN = re.compile(rb"[^,\r\n]*")
LINE_ENDS = re.compile(rb"[\r\n]*")
QUOTES = re.compile(rb'"+')
# No record has more fields than five. What stands in further ones is kept as one, without its commas and blanks.
MOST_FIELDS = 6


def quoted(data: bytes, at: int) -> Tuple[bytes, int]:
    """The field that begins with a quote at a place, and the place behind it. Between quotes two quotes are one; what
    follows the closing quote belongs to the field."""
    match = QUOTES.match(data, at)
    # An odd number of quotes at the start opens the field and leaves pairs; an even one closes it again.
    if match is not None and len(match[0]) % 2:
        match = next((each for each in QUOTES.finditer(data, match.end()) if len(each[0]) % 2), None)
    close = match.end() - 1 if match else len(data)
    rest, behind = plain(data, close + 1)
    return data[at + 1 : close].replace(b'""', b'"') + rest, behind


def plain(data: bytes, at: int) -> Tuple[bytes, int]:
    """What stands from a place up to a comma or the end of a line, and the place behind it."""
    match = PLAIN.match(data, at)
    return (match[0], match.end()) if match else (b"", at)


def behind_line_ends(data: bytes, at: int) -> int:
    """The place behind the ends of lines that stand at a place."""
    match = LINE_ENDS.match(data, at)
    return match.end() if match else at


def records(data: bytes) -> Iterator[Fields]:
    """The records of a file: lists of fields without the spaces and tabs at their ends. A line with no byte is none."""
    data = data.removeprefix(b"\xef\xbb\xbf")
    if b'"' not in data:
        for line in io.BytesIO(data.replace(b"\r", b"\n") if b"\r" in data else data):
            if line != b"\n":
                fields = [field.strip(b" \t") for field in line.removesuffix(b"\n").split(b",", MOST_FIELDS)]
                if len(fields) > MOST_FIELDS:
                    fields[-1] = fields[-1].strip(b" \t,")
                yield fields
        return
    at = behind_line_ends(data, 0)
    while at < len(data):
        fields = []
        while True:
            field, at = quoted(data, at) if data[at : at + 1] == b'"' else plain(data, at)
            field = field.strip(b" \t")
            if len(fields) <= MOST_FIELDS:
                fields.append(field)
            elif field:
                fields[-1] = field
            if data[at : at + 1] != b",":
                break
            at += 1
        yield fields
        at = behind_line_ends(data, at)


def rows(file: str, data: bytes, *headers: Fields) -> Iterator[Tuple[int, Fields]]:
    """First the header, then each record that has a field with a byte, with its row."""
    remaining = records(data)
    header = next(remaining, None)
    if header is None or header not in headers:
        raise RefusedError(file, 0, "header")
    yield 0, header
    for row, fields in enumerate(remaining, 1):
        if any(fields):
            yield row, fields


def must(holds: bool, file: str, row: int, kind: str) -> None:
    """Refuses a record of which something does not hold."""
    if not holds:
        raise RefusedError(file, row, kind)


def is_name(field: bytes) -> bool:
    """Whether a field is a name."""
    try:
        text = field.decode()
    except UnicodeDecodeError:
        return False
    return 1 <= len(field) <= 64 and not any(c in ',"' or c < " " or "\x7f" <= c <= "\x9f" for c in text)


def number(field: bytes, most: int, file: str, row: int) -> int:
    """The number of a field, up to a limit."""
    must(field.isdigit() and len(field) <= 20, file, row, "number")
    units = int(field)
    must(units <= most, file, row, "limit")
    return units


def bank_of(field: bytes, places: Mapping[bytes, int], file: str, row: int) -> int:
    """The place of the bank that a field names."""
    must(is_name(field), file, row, "name")
    must(field in places, file, row, "unknown bank")
    return places[field]


def rank_of(field: bytes, file: str, row: int) -> int:
    """The class that a field says."""
    must(len(field) == 1 and field in b"123456789", file, row, "class")
    return int(field)


def read_banks(data: bytes, by: str = STANDARD) -> List[Bank]:
    """The banks of a banks file, of either version."""
    remaining = rows("banks", data, BANKS, BANKS_2)
    width = len(next(remaining)[1])
    banks: List[Bank] = []
    names: Set[bytes] = set()
    for row, fields in remaining:
        at = "banks", row
        must(len(banks) < LIMITS[by].banks, *at, "too many")
        must(len(fields) == width, *at, "fields")
        must(is_name(fields[0]), *at, "name")
        must(fields[0] not in names, *at, "double bank")
        cash = number(fields[1], 10**12, *at)
        must(fields[2].decode("latin-1") in KEYS, *at, "rule")
        outside = number(fields[3], 10**11, *at) if width == 4 else 0
        names.add(fields[0])
        banks.append(Bank(fields[0], cash, fields[2].decode(), outside))
    return banks


def read_debts(data: bytes, banks: Sequence[Bank], by: str = STANDARD) -> List[Debt]:
    """The debts of a debts file."""
    remaining = rows("debts", data, DEBTS)
    next(remaining)
    places = {bank.name: place for place, bank in enumerate(banks)}
    debts: List[Debt] = []
    seen: Set[Tuple[int, int, int]] = set()
    owed = 0
    for row, fields in remaining:
        at = "debts", row
        must(len(debts) < LIMITS[by].debts, *at, "too many")
        must(len(fields) == 4, *at, "fields")
        debtor = bank_of(fields[0], places, *at)
        creditor = bank_of(fields[1], places, *at)
        must(debtor != creditor, *at, "self debt")
        rank = rank_of(fields[2], *at)
        claim = number(fields[3], 10**6, *at)
        must((debtor, creditor, rank) not in seen, *at, "double debt")
        owed += claim
        must(owed <= LIMITS[by].owed, *at, "total")
        seen.add((debtor, creditor, rank))
        debts.append(Debt(debtor, creditor, rank, claim))
    return debts


def check_sizes(files: Mapping[str, bytes], by: str = STANDARD) -> None:
    """The sizes of all files come before their contents."""
    for file in ("banks", "debts", "journal"):
        must(len(files.get(file, b"")) <= LIMITS[by].most_of(file), file, 0, "file size")


def read_network(banks_data: bytes, debts_data: bytes, by: str = STANDARD) -> Network:
    """The network of the two files, by some limits."""
    check_sizes({"banks": banks_data, "debts": debts_data}, by)
    banks = read_banks(banks_data, by)
    return Network(banks, read_debts(debts_data, banks, by))


def limits_needed(banks_data: bytes, debts_data: bytes) -> Tuple[str, str]:
    """The limits by which the two files are read where nobody says which: the standard ones, or the wide ones where
    those are passed; and what passes them."""
    try:
        read_network(banks_data, debts_data)
    except RefusedError as fault:
        if fault.kind in ("too many", "total", "file size"):
            return WIDE, str(fault)
    return STANDARD, ""


class Journal:
    """The raises of a journal file, (stamp, debt, to) each. At their end `rounds` is the number of its last line, or
    None."""

    def __init__(self, data: bytes, network: Network, by: str = STANDARD) -> None:
        self.data, self.network, self.by = data, network, by
        self.rounds: Optional[int] = None

    def __iter__(self) -> Iterator[Raise]:
        banks = self.network.banks
        places = {bank.name: place for place, bank in enumerate(banks)}
        debts = {
            (banks[debt.debtor].name, banks[debt.creditor].name, b"%d" % debt.rank): x
            for x, debt in enumerate(self.network.debts)
        }
        remaining = rows("journal", self.data, JOURNAL)
        next(remaining)
        held: Optional[Tuple[int, Fields]] = next(remaining, None)
        count = 0
        while held is not None:
            (row, fields), held = held, next(remaining, None)
            is_end = held is None and len(fields) == 2 and fields[0] == b"rounds"
            if is_end and fields[1].isdigit() and len(fields[1]) <= 20:
                self.rounds = int(fields[1])
                return
            must(count < LIMITS[self.by].raises, "journal", row, "too many")
            must(len(fields) == 5, "journal", row, "fields")
            stamp = number(fields[0], 2**32 - 1, "journal", row)
            x = debts.get((fields[1], fields[2], fields[3]))
            if x is None:
                bank_of(fields[1], places, "journal", row)
                bank_of(fields[2], places, "journal", row)
                rank_of(fields[3], "journal", row)
                raise RefusedError("journal", row, "unknown debt")
            yield stamp, x, number(fields[4], 10**6, "journal", row)
            count += 1


# Dividing.

# For each unit of a claim c but the first k, up to the last, a key: the unit with the smallest is given out next, of
# those with the same key that of the earliest debt. A debt that has k units goes before another exactly where the key
# of its next unit is smaller. Two fractions of claims up to 10^6 that differ do so by at least 10^-12, so that 10^12
# times each, rounded down, differ in the same way.
KEYS: Dict[str, Callable[[int, int], Iterable[int]]] = {
    "order": lambda c, k: itertools.repeat(0, c - k),
    "equal": lambda c, k: range(k, c),
    "losses": lambda c, k: range(k - c, 0),
    "jefferson": lambda c, k: ((j + 1) * 10**12 // c for j in range(k, c)),
    "webster": lambda c, k: ((2 * j + 1) * 10**12 // c for j in range(k, c)),
    "adams": lambda c, k: (j * 10**12 // c for j in range(k, c)),
}


class Division:
    """What the debts of a bank get, by their place among all debts, as it gives out more and more units.

    What is meant is that all units go out one by one, and so they do without `leaps`. With them, of many units most go
    out at once: a class that can be paid in full is, and of the next one all units with a key below some bound, as
    they come before the others. The last ones go out one by one. Both ways give the same."""

    def __init__(self, rule: str, debts: Sequence[Tuple[int, Debt]], leaps: bool = True) -> None:
        self.rule, self.debts, self.units = rule, debts, 0
        self.many: float = 5 * len(debts) if leaps else math.inf
        self.given = {x: 0 for x, _ in debts}
        self.turns = self.one_by_one()

    def one_by_one(self) -> Iterator[Tuple[int, int]]:
        """The debts that get the next units, in turn, from what is given on; each with the key of its unit."""
        return itertools.chain.from_iterable(
            heapq.merge(
                *(
                    zip(KEYS[self.rule](debt.claim, self.given[x]), itertools.repeat(x))
                    for x, debt in self.debts
                    if debt.rank == rank
                )
            )
            for rank in sorted({debt.rank for _, debt in self.debts})
        )

    def up_to(self, units: int) -> None:
        """Gives out what is missing up to so many units in all."""
        if units - self.units > self.many:
            self.leap(units)
        given = self.given
        for _, x in itertools.islice(self.turns, max(0, units - self.units)):
            given[x] += 1
        self.units = max(self.units, units)

    def leap(self, units: int) -> None:
        """Gives out at once what surely goes out before so many units have."""
        parts: Dict[Tuple[int, int], Dict[int, int]] = {}
        given: Dict[int, int] = {}
        left = units
        for x, debt in self.debts:
            # By the rule `order` a debt gets all before a later one of its class gets a unit, as if it were a class of
            # its own.
            parts.setdefault((debt.rank, x if self.rule == "order" else 0), {})[x] = debt.claim
        for _, part in sorted(parts.items()):
            claims = list(part.values())
            whole = sum(claims) <= left
            shares = claims if whole else [left] if len(claims) == 1 else BELOW[self.rule](claims, left)
            given.update(zip(part, shares))
            left -= sum(shares)
            if not (whole and left):
                break
        if units - left > self.units:
            self.given.update(given)
            self.units, self.turns = units - left, self.one_by_one()


# Of each claim of a class the number of units with a key below a bound. The bound is such that these are at most so
# many units in all, which are at least one and fewer than all claims.

def below_equal(claims: Sequence[int], units: int) -> List[int]:
    """At most so many of each claim. The number rises until what is left of the units is not one for each claim that
    can take it."""
    most = 0
    while True:
        left = units - sum(min(claim, most) for claim in claims)
        step = left // sum(claim > most for claim in claims)
        if not step:
            return [min(claim, most) for claim in claims]
        most += step


def below_losses(claims: Sequence[int], units: int) -> List[int]:
    """All but so many of each claim: what is not given out is lost in equal parts."""
    lost = sum(claims) - units
    part = max(below_equal(claims, lost))
    part += sum(min(claim, part) for claim in claims) < lost
    return [max(0, claim - part) for claim in claims]


Below = Callable[[Sequence[int], int], List[int]]


def below_divisor(first: int, step: int) -> Below:
    """For a rule whose keys are first, first + step, first + 2 step and so on, each by the claim: in proportion to the
    claims. A claim has at most (bound c - first) / step + 1 units below the bound, which is chosen so that all of them
    together come to the units."""

    def below(claims: Sequence[int], units: int) -> List[int]:
        bound = max(0, (step * (units - len(claims)) + first * len(claims)) * 10**12 // sum(claims))
        return [max(0, ((bound * claim - 1) // 10**12 - first) // step + 1) for claim in claims]

    return below


BELOW: Dict[str, Below] = {
    "equal": below_equal,
    "losses": below_losses,
    "jefferson": below_divisor(1, 1),
    "webster": below_divisor(1, 2),
    "adams": below_divisor(0, 1),
}


def divisions(network: Network, leaps: bool = True) -> List[Division]:
    """The division of each bank, of nothing yet."""
    rows_of: List[List[Tuple[int, Debt]]] = [[] for _ in network.banks]
    for x, debt in enumerate(network.debts):
        rows_of[debt.debtor].append((x, debt))
    return [Division(bank.rule, row, leaps) for bank, row in zip(network.banks, rows_of)]


# The journal.

def follow(network: Network, raises: Iterable[Raise], leaps: bool = True) -> Verdict:
    """The verdict on raises. As they are lawful, no bank has less as they go on, and its division goes on with them;
    where a bank has what it had, its division is what it was."""
    banks, debts = network
    dividing = divisions(network, leaps)
    units, paid, last, count = [bank.cash - bank.outside for bank in banks], [0] * len(debts), 0, 0
    raises = iter(raises)

    def wrong(kind: str, *numbers: int) -> Verdict:
        for _ in raises:  # a fault of the file comes before the verdict, wherever it stands
            pass
        return Verdict(kind, numbers, paid)

    for stamp, x, to in raises:
        count += 1
        if stamp < last:
            return wrong("falls", count, last, stamp)
        i, creditor, _, _ = debts[x]
        division = dividing[i]
        if division.units < units[i]:
            division.up_to(units[i])
        allowed = division.given[x]
        if to <= paid[x] or to > allowed:
            return wrong("unlawful", count, paid[x], allowed)
        units[creditor] += to - paid[x]
        paid[x], last = to, stamp
    for i, division in enumerate(dividing):
        division.up_to(units[i])
        for x, given in division.given.items():
            if paid[x] != given:
                return Verdict("unfinished", (i, x, paid[x], given), paid)
    return Verdict("lawful", (count,), paid)


# Texts.

def line(*fields: Union[bytes, str, int]) -> bytes:
    """Fields as a line."""
    return b",".join(field if isinstance(field, bytes) else str(field).encode() for field in fields) + b"\n"


def payments_text(network: Network, paid: Sequence[int]) -> bytes:
    """What `clearing clear` prints of payments."""
    text = [line(b"debtor", b"creditor", b"class", b"claim", b"paid")]
    for debt, units in zip(network.debts, paid):
        names = (network.banks[place].name for place in (debt.debtor, debt.creditor))
        text.append(line(*names, debt.rank, debt.claim, units))
    return b"".join(text)


def standings(network: Network, paid: Sequence[int]) -> Iterator[Tuple[List[int], str]]:
    """For each bank its estate, what it pays outside, pays, owes and keeps, and its state."""
    banks, debts = network
    received, pays, owes, claims = ([0] * len(banks) for _ in range(4))
    for debt, units in zip(debts, paid):
        received[debt.creditor] += units
        pays[debt.debtor] += units
        owes[debt.debtor] += debt.claim
        claims[debt.creditor] += debt.claim
    for i, bank in enumerate(banks):
        estate = bank.cash + received[i]
        outside = min(bank.outside, estate)
        if outside == bank.outside and pays[i] == owes[i]:
            state = "sound"
        else:
            state = "fundamental" if bank.cash + claims[i] < bank.outside + owes[i] else "contagion"
        yield [estate, outside, pays[i], owes[i], estate - outside - pays[i]], state


def defaults_text(network: Network, paid: Sequence[int]) -> bytes:
    """What `clearing defaults` prints of payments."""
    # What is paid outside is a column where somebody owes something there.
    columns = [0, 1, 2, 3, 4] if any(bank.outside for bank in network.banks) else [0, 2, 3, 4]
    names = ("estate", "outside_paid", "paid", "owed", "equity")
    text = [line("bank", *(names[column] for column in columns), "state")]
    totals, defaults = [0] * 5, 0
    for bank, (numbers, state) in zip(network.banks, standings(network, paid)):
        text.append(line(bank.name, *(numbers[column] for column in columns), state))
        totals = [a + b for a, b in zip(totals, numbers)]
        defaults += state != "sound"
    text.append(line("total", *(totals[column] for column in columns), defaults))
    text.append(line(b"cash", sum(bank.cash for bank in network.banks)))
    return b"".join(text)


def difference(name: str, given: bytes, made: bytes) -> str:
    """`payments same`, or the first line in which a given text is not the one that was made."""
    if given == made:
        return f"{name} same"
    there, here = given.split(b"\n"), made.split(b"\n")
    at = next((at for at, (a, b) in enumerate(zip(there, here)) if a != b), min(len(there), len(here)))
    is_there, is_here = (
        repr(lines[at][:200].decode("utf-8", "replace")) if at < len(lines) else "nothing" for lines in (there, here)
    )
    return f"{name} differ: line {at + 1} is {is_there}, and by the journal {is_here}"


def verdict_lines(network: Network, verdict: Verdict) -> List[str]:
    """The verdict in words, a line for each."""
    kind, numbers, _ = verdict
    if kind == "lawful":
        return [f"{numbers[0]} raises lawful", "nobody can pay more"]
    if kind == "falls":
        return ["raise {0} is not lawful: the stamp {2} is below {1}, that of the raise before".format(*numbers)]
    if kind == "unlawful":
        return ["raise {} is not lawful: {} is paid, and its debtor may pay {}".format(*numbers)]
    i, x, paid, units = numbers
    names = [network.banks[place].name.decode() for place in (i, network.debts[x].creditor)]
    return [f"{names[0]} can pay more: {names[1]}, class {network.debts[x].rank}, has {paid} and is to get {units}"]


def judge(files: Mapping[str, bytes], by: str = STANDARD) -> Tuple[List[str], int]:
    """What is told of the contents of these files, by their options, and the status."""
    try:
        check_sizes(files, by)
        network = read_network(files["banks"], files["debts"], by)
        journal = Journal(files["journal"], network, by)
        verdict = follow(network, journal)
    except RefusedError as fault:
        return [str(fault)], 4
    lines, status = verdict_lines(network, verdict), 0 if verdict.kind == "lawful" else 7
    if status == 0:
        for name, text_of in (("payments", payments_text), ("defaults", defaults_text)):
            if name in files:
                lines.append(difference(name, files[name], text_of(network, verdict.paid)))
                status = status if lines[-1].endswith(" same") else 1
            else:
                lines.append(f"{name}: none given")
    if journal.rounds is not None:
        lines.append(f"rounds {journal.rounds}: not checked")
    return lines, status


def content_of(option: str, name: str, by: str) -> bytes:
    """The bytes of a file, some more than the limit of a longer one."""
    content = io.BytesIO()
    with open(name, "rb") as file:
        while content.tell() <= LIMITS[by].most_of(option) and (block := file.read(1 << 20)):
            content.write(block)
    return content.getvalue()


def settled_limits(banks_data: bytes, debts_data: bytes) -> str:
    """The limits that the two files need; that they are wide is told."""
    by, why = limits_needed(banks_data, debts_data)
    if by == WIDE:
        what = f"the network is read by the wide limits, as it passes the standard ones ({why})"
        print(f"audit.py: {what}; --limits wide says so", file=sys.stderr)
    return by


def with_streams() -> None:
    """Has the three standard streams where one is closed: what is written to standard output is then a fault."""
    for number, way in ((0, os.O_RDONLY), (1, os.O_RDONLY), (2, os.O_WRONLY)):
        try:
            os.fstat(number)
        except OSError:
            os.open(os.devnull, way)  # the lowest number that is free is this one
    sys.stdout = sys.stdout or open(1, "w", closefd=False)
    sys.stderr = sys.stderr or open(2, "w", closefd=False)


def main() -> int:
    """Does what the words of the command line ask for: the status."""
    summary, _, rest = __doc__.partition("\n\n")
    parser = Parser(
        description=summary, epilog=rest, formatter_class=argparse.RawDescriptionHelpFormatter, allow_abbrev=False
    )
    for option, what in [("banks", "the banks file"), ("debts", "the debts file"), ("journal", "the journal")]:
        parser.add_argument(f"--{option}", metavar="FILE", required=True, help=what)
    parser.add_argument("--payments", metavar="FILE", help="the payments to be compared")
    parser.add_argument("--defaults", metavar="FILE", help="the table of defaults to be compared")
    parser.add_argument("--limits", choices=list(LIMITS), help="the limits of the network and the journal")
    args = vars(parser.parse_args())
    by = args.pop("limits")
    files: Dict[str, bytes] = {}
    for option, name in args.items():
        # The two files stand first, and say by which limits the others are read.
        if by is None and len(files) == 2:
            by = settled_limits(files["banks"], files["debts"])
        if name is not None:
            try:
                files[option] = content_of(option, name, by or WIDE)
            except (OSError, ValueError):
                print(f"audit.py: cannot read {shown(name)}", file=sys.stderr)
                return 3
    by = by or STANDARD
    lines, status = judge(files, by)
    if status == 4:
        print(f"audit.py: {lines[0]}", file=sys.stderr)
    else:
        try:
            sys.stdout.buffer.write("".join(shown(each) + "\n" for each in lines).encode())
            sys.stdout.flush()
        except OSError as fault:
            print(f"audit.py: cannot write the output: {fault.strerror}", file=sys.stderr)
            os.dup2(os.open(os.devnull, os.O_WRONLY), sys.stdout.fileno())
            return 5
    return status


def run() -> None:
    """The command, which ends with the status."""
    with_streams()
    try:
        sys.exit(main())
    except KeyboardInterrupt:
        sys.exit(130)


if __name__ == "__main__":
    run()
