"""A network of banks and debts, and the tasks of the program on it."""
from __future__ import annotations

import contextlib
import dataclasses
import os
import sys
import warnings
from functools import cached_property
from typing import IO, TYPE_CHECKING, Dict, Iterator, List, Mapping, Optional, Tuple, Type, TypeVar, Union, cast

from . import limits as sizes
from . import tabular
from .errors import LimitsWarning, TableError, TextError
from .inputs import (
    FILE, File, JournalLike, ScenariosLike, Third, effort, journal_bytes, line_of, raise_of, read_file, third_of,
    with_record,
)
from .program import Done, fault_of, handed_over, run, started
from .records import Bank, Debt
from .request import Request
from .results import (
    Bounds,
    Breaking,
    Check,
    Clearing,
    Compression,
    CostBounds,
    Costs,
    Defaults,
    Generated,
    Impact,
    Journal,
    Outcomes,
    Rescue,
    Rescues,
    Result,
    Stress,
    Verdict,
    graph_of,
)
from .sheets import SummaryLine, made_of
from .table import Table
from .texts import parse

if TYPE_CHECKING:
    from networkx import MultiDiGraph
    from numpy import int64
    from numpy.typing import NDArray
    from pandas import DataFrame

T = TypeVar("T", bound=Result)
Limits = Optional[str]


class Network:
    """Banks, and the debts between them.

    banks   a DataFrame or a dict of columns `name`, `cash`, `rule`, `outside`; records (dicts, `Bank`s or tuples in
            that order); a dict of each bank's cash; or the name of a banks file
    debts   a DataFrame or a dict of columns `debtor`, `creditor`, `class`, `claim`; records (dicts, `Debt`s or tuples
            in that order, or without the class); a dict from (debtor, creditor) or (debtor, creditor, class) to the
            claim; or the name of a debts file
    rule    the rule of the banks where there is no column `rule`: `webster` (in proportion over many divisions),
            `jefferson`, `adams`, `equal`, `losses` or `order`
    class_  the class of the debts where there is no column `class`
    limits  `standard` (1,000 banks, 20,000 debts, 10,000,000 units owed) or `wide` (10,000 banks, 1,000,000 debts,
            25,000,000 units owed). Without it the limits are the standard ones, or the wide ones for a network that is
            too large for these; a `LimitsWarning` says so once

    With a networkx graph in place of both: nodes with `cash` (`rule`, `outside`), edges with `claim` (`class`).

    Each task takes a `timeout` in seconds: a run that takes longer is ended, and raises `OutOfTimeError`. Each takes
    `limits` for its own run.

    Amounts are whole units of account. A float is taken where it is a whole number, and refused otherwise. Names are
    texts; an integer is taken as its digits. The order of the rows is that of the files, and decides ties. Files are
    read once, here.

    >>> net = Network({"A": 7, "B": 1, "C": 0}, {("A", "B"): 10, ("B", "C"): 9}, rule="order")
    >>> print(net.clear().payments)
    debtor  creditor  class  claim  paid
    A       B             1     10     7
    B       C             1      9     8
    """

    def __init__(
        self,
        banks: object,
        debts: object = None,
        *,
        rule: str = "webster",
        class_: int = 1,
        limits: Optional[str] = None,
    ) -> None:
        if debts is None:
            if not tabular.is_graph(banks):
                raise TypeError("a network is of banks and debts, or of one networkx graph")
            banks, debts = tabular.tables_of_graph(cast(tabular.Graph, banks))
        self._banks = read_file(banks) if isinstance(banks, FILE) else tabular.banks_csv(banks, rule)
        self._debts = read_file(debts) if isinstance(debts, FILE) else tabular.debts_csv(debts, class_)
        self._said_limits = limits

    # Of sheets, as the tools read them

    summary: Tuple[SummaryLine, ...] = ()
    """What was done to the sheet that a network is of: records of what it is, a count, an amount and a detail."""
    _said_limits: Optional[str] = None
    _is_told = False

    @classmethod
    def from_matrix(cls, matrix: object, **options: object) -> "Network":
        """The network of a matrix of liabilities: a file of comma-separated records, a workbook (.xlsx, .ods) or a
        DataFrame with the names as its index. The options are the words of `clearing-from-matrix` with `_` for `-`,
        such as `table`, `sheet`, `cash`, `outside`, `no_outside`, `unit`, `round`, `drop`, `groups`. Raises
        `SheetError` with every fault found."""
        return cls._of_sheet("matrix", matrix, options)[0]

    @classmethod
    def from_list(cls, exposures: object, **options: object) -> "Network":
        """The network of a list of exposures and a `table` of banks. The options are the words of
        `clearing-from-list`, such as `debtor`, `creditor`, `amount`, `sum`, `where={"date": "2025-12-31"}`,
        `rate={"currency": "rates.csv"}`, `duplicates`."""
        return cls._of_sheet("list", exposures, options)[0]

    @classmethod
    def from_totals(cls, totals: object, **options: object) -> Union["Network", List["Network"]]:
        """A network in which each bank owes and is owed what a table says; with `samples`, a list of them. The options
        are the words of `clearing-from-totals`, such as `method`, `seed`, `known`, `most`."""
        networks = cls._of_sheet("totals", totals, options)
        return networks if options.get("samples") else networks[0]

    @classmethod
    def from_workbook(
        cls, workbook: object, banks: str = "banks", debts: str = "debts", **options: object
    ) -> "Network":
        """The network of a workbook with a sheet of banks (name, cash, rule, outside) and one of debts (debtor,
        creditor, class, claim); the options are those of `from_list`."""
        named = {"sheet": debts, "table": workbook, "table_sheet": banks, "amount": "claim", **options}
        return cls._of_sheet("list", workbook, named)[0]

    @classmethod
    def _of_sheet(cls, kind: str, sheet: object, options: Mapping[str, object]) -> List["Network"]:
        made, nets = made_of(kind, sheet, options), []
        for banks, debts in made.files:
            net = cls.__new__(cls)
            net._banks, net._debts, net.summary = banks, debts, made.summary
            nets.append(net)
        return nets

    def __repr__(self) -> str:
        return f"<Network of {len(self._banks)} bytes of banks and {len(self._debts)} bytes of debts>"

    # The network itself

    @property
    def banks(self) -> Table[Bank]:
        """The banks as the program reads them, in order."""
        return self._checked.banks

    @property
    def debts(self) -> Table[Debt]:
        """The debts as the program reads them, in order."""
        return self._checked.debts

    @cached_property
    def _checked(self) -> Check:
        return self.check()

    @property
    def limits(self) -> str:
        """The limits by which it is read: those that were said, else the ones that it needs, `standard` or `wide`."""
        return self._said_limits or (sizes.WIDE if self._beyond else sizes.STANDARD)

    @cached_property
    def _beyond(self) -> Optional[str]:
        """What is too much for the standard limits, in words, or nothing."""
        return sizes.beyond(self._banks, self._debts)

    def _tell_limits(self) -> None:
        """Tells once that the wide limits are taken where nobody said so."""
        if self._said_limits is None and self._beyond and not self._is_told:
            self._is_told = True
            message = f"the network is read by the wide limits, as it has {self._beyond}; limits='wide' says so"
            warnings.warn(message, LimitsWarning, stacklevel=level_of_caller())

    def to_pandas(self) -> Dict[str, DataFrame]:
        """The banks and the debts, each a pandas `DataFrame`."""
        return {"banks": self.banks.to_pandas(), "debts": self.debts.to_pandas()}

    def to_networkx(self) -> MultiDiGraph:
        """The network as a networkx `MultiDiGraph`, with the class as the key of an edge."""
        columns = self.banks.columns[1:]
        return graph_of({bank.name: dict(zip(columns, bank[1:])) for bank in self.banks}, self.debts)

    def to_matrix(self) -> NDArray[int64]:
        """The claims as a numpy matrix of int64, banks by banks: what the bank of the row owes the bank of the
        column."""
        return self._checked.to_matrix()

    def write(self, banks: File, debts: File) -> None:
        """Writes the two files, byte by byte as the program is given them; both or none, and never over a file that is
        there."""
        written: List[File] = []
        try:
            for name, data in ((banks, self._banks), (debts, self._debts)):
                with open(name, "xb") as file:
                    written.append(name)
                    file.write(data)
        except BaseException:
            for name in written:
                os.unlink(name)
            raise

    def with_cash(self, cash: Mapping[str, int]) -> "Network":
        """A network in which these banks have this cash.

        >>> net = Network({"A": 7, "B": 1}, {("A", "B"): 10})
        >>> net.with_cash({"A": 10}).defaults().defaults
        []
        """
        unknown = [name for name in cash if name not in self.banks.column("name")]
        if unknown:
            raise TableError("banks", 0, "name", unknown[0], f"no bank has the name {unknown[0]!r}")
        banks = [bank._replace(cash=cash.get(bank.name, bank.cash)) for bank in self.banks]
        return self._alike(Network(banks, self.debts))

    def with_debts(self, debts: object) -> "Network":
        """A network of the same banks with other debts, such as those that `compress` leaves."""
        return self._alike(Network(self.banks, debts))

    def _alike(self, other: "Network") -> "Network":
        """Another network, by the limits that were said of this one, and told of where this one was."""
        other._said_limits, other._is_told = self._said_limits, self._is_told
        return other

    def _by_limits(self, limits: Limits) -> "Network":
        """The same network, by these limits."""
        other = Network.__new__(Network)
        other._banks, other._debts, other.summary, other._said_limits = self._banks, self._debts, self.summary, limits
        return other

    # The tasks

    def check(self, timeout: Optional[float] = None, limits: Limits = None) -> Check:
        """Reads the network and gives it back as the program understands it, with all claims and all cash together.

        >>> Network({"A": 7, "B": 1}, {("A", "B"): 10}).check().total
        CheckTotals(banks=2, debts=1, owed=10, cash=8)
        """
        return self._ask(Check, "check", timeout=timeout, limits=limits)

    def clear(
        self,
        workers: int = 4,
        sweeps: int = 1,
        journal: bool = False,
        timeout: Optional[float] = None,
        limits: Limits = None,
    ) -> Clearing:
        """The least payments that clear, by this many workers (1 to 64), each of which goes so often over its banks in
        a round; with the journal of the run, where it is asked for. The payments depend on neither number; which
        lawful journal is made does.

        >>> net = Network({"A": 7, "B": 1, "C": 0}, {("A", "B"): 10, ("B", "C"): 9})
        >>> done = net.clear(workers=1, journal=True)
        >>> done.total, done.journal.rounds
        (Sums(claim=19, paid=15), 2)
        >>> done.journal.raises[0]
        Raise(stamp=1, debtor='A', creditor='B', class_=1, to=7)
        """
        show = ["--show", "both"] if journal else []
        return self._ask(Clearing, "clear", *effort(workers, sweeps), *show, timeout=timeout, limits=limits)

    def central(self, timeout: Optional[float] = None, limits: Limits = None) -> Clearing:
        """The same payments, computed on one thread."""
        return self._ask(Clearing, "central", timeout=timeout, limits=limits)

    def defaults(
        self, workers: int = 4, sweeps: int = 1, timeout: Optional[float] = None, limits: Limits = None
    ) -> Defaults:
        """How each bank stands after clearing: who defaults, and with which label.

        >>> net = Network({"A": 7, "B": 1, "C": 0}, {("A", "B"): 10, ("B", "C"): 9})
        >>> [(bank.bank, bank.state) for bank in net.defaults().standings]
        [('A', 'fundamental'), ('B', 'contagion'), ('C', 'sound')]
        """
        return self._ask(Defaults, "defaults", *effort(workers, sweeps), timeout=timeout, limits=limits)

    def stress(
        self,
        scenarios: ScenariosLike,
        workers: int = 4,
        sweeps: int = 1,
        timeout: Optional[float] = None,
        limits: Limits = None,
    ) -> Stress:
        """What each scenario leaves: `Scenarios`, `Scenario`s, dicts of the shape of the TOML document, the name of
        a TOML file, or the `scenarios` of a case. At most 100; `map_stress` takes more.

        >>> from clearing_client import Scenario
        >>> net = Network({"A": 7, "B": 1, "C": 0}, {("A", "B"): 7, ("B", "C"): 8})
        >>> left = net.stress([Scenario("as it is"), Scenario("A loses 1", losses={"A": 1})])
        >>> [one.defaults for one in left.scenarios]
        [[], ['A', 'B']]
        """
        third, known = third_of(scenarios)
        words = effort(workers, sweeps)
        return self._ask(Stress, "stress", *words, third=third, known=known, timeout=timeout, limits=limits)

    def outcomes(self, scenarios: ScenariosLike, timeout: Optional[float] = None, limits: Limits = None) -> Outcomes:
        """What each scenario leaves in sums, given as for `stress`: the cash that is left, what is paid and paid
        outside, what banks keep, and how many default; and in how many scenarios each bank does. At most 100;
        `map_outcomes` takes more.

        >>> from clearing_client import Scenario
        >>> net = Network({"A": 7, "B": 1, "C": 0}, {("A", "B"): 7, ("B", "C"): 8})
        >>> left = net.outcomes([Scenario("as it is"), Scenario("A loses 1", losses={"A": 1})])
        >>> left.scenarios.column("defaults"), left.banks[1]
        ([0, 2], BankCounts(bank='B', defaults=1, fundamental=0))
        """
        third, known = third_of(scenarios)
        return self._ask(Outcomes, "outcomes", third=third, known=known, timeout=timeout, limits=limits)

    def bounds(
        self, workers: int = 4, sweeps: int = 1, timeout: Optional[float] = None, limits: Limits = None
    ) -> Bounds:
        """The least and the greatest payments that clear; for each bank the round in which it first falls short on the
        way down from all debts paid in full (0: never), and whether it is in gridlock.

        >>> ring = Network({"A": 0, "B": 0}, {("A", "B"): 5, ("B", "A"): 5})
        >>> ring.bounds().payments[0]
        Bound(debtor='A', creditor='B', class_=1, claim=5, least=0, greatest=5)
        >>> ring.bounds().waves[0].gridlock
        True
        """
        return self._ask(Bounds, "bounds", *effort(workers, sweeps), timeout=timeout, limits=limits)

    def rescue(
        self, bank: str, workers: int = 4, sweeps: int = 1, timeout: Optional[float] = None, limits: Limits = None
    ) -> Rescue:
        """The least cash to add so that a bank pays all it owes, and the payments with it.

        >>> Network({"A": 7, "B": 1}, {("A", "B"): 10}).rescue("A").added
        3
        """
        if bank.startswith("-") and bank in self.banks.column("name"):
            return self._rescue_renamed(bank, workers, sweeps, timeout, limits)
        words = ["--bank", bank, *effort(workers, sweeps)]
        return self._ask(Rescue, "rescue", *words, known=bank, timeout=timeout, limits=limits)

    def _rescue_renamed(
        self, bank: str, workers: int, sweeps: int, timeout: Optional[float], limits: Limits
    ) -> Rescue:
        """The command line cannot name a bank that begins with a dash: it has another name for this run."""
        there = set(self.banks.column("name"))
        other = next(name for name in (f"bank {n}" for n in range(len(there) + 1)) if name not in there)
        net, by = self._alike(read_check(with_fields(self._checked.text, bank, other))), self._by(limits)
        text = with_fields(net.rescue(other, workers, sweeps, timeout, by).text, other, bank)
        return read_as(text, Rescue).with_source(text, self, by)

    def costs(self, keep: int, timeout: Optional[float] = None, limits: Limits = None) -> Costs:
        """The payments and standings where an estate in default is worth only `keep` thousandths, 0 to 1,000.

        >>> left = Network({"A": 7, "B": 1}, {("A", "B"): 10}).costs(500)
        >>> left.standings[0].lost, left.payments[0].paid
        (4, 3)
        """
        return self._ask(Costs, "costs", "--keep", keep, timeout=timeout, limits=limits)

    def cost_bounds(self, keep: int, timeout: Optional[float] = None, limits: Limits = None) -> CostBounds:
        """The least and the greatest payments that clear where an estate in default is worth only `keep` thousandths,
        0 to 1,000, and what each bank loses and keeps, and its state, at both. The greatest are those of Rogers and
        Veraart (2013).

        >>> ring = Network({"A": 30, "B": 30}, {("A", "B"): 100, ("B", "A"): 100}, rule="order")
        >>> both = ring.cost_bounds(500)
        >>> both.payments[0].least, both.payments[0].greatest
        (29, 100)
        >>> both.standings[0].state_at_least, both.standings[0].state_at_greatest
        ('contagion', 'sound')
        """
        return self._ask(CostBounds, "cost-bounds", "--keep", keep, timeout=timeout, limits=limits)

    def breaking(self, timeout: Optional[float] = None, limits: Limits = None) -> Breaking:
        """For each bank the least cut of all cash, 0 to 1,000 per mille, at which it is not sound, and its state then;
        1,001 and `sound` where there is none.

        >>> net = Network({"A": 7, "B": 1, "C": 0}, {("A", "B"): 7, ("B", "C"): 8})
        >>> [tuple(one) for one in net.breaking().cuts]
        [('A', 143, 'fundamental'), ('B', 143, 'contagion'), ('C', 1001, 'sound')]
        """
        return self._ask(Breaking, "breaking", timeout=timeout, limits=limits)

    def impact(self, timeout: Optional[float] = None, limits: Limits = None) -> Impact:
        """For each bank what the loss of all its cash costs itself and others, and which banks fall by it.

        >>> done = Network({"A": 7, "B": 1, "C": 0}, {("A", "B"): 7, ("B", "C"): 8}).impact()
        >>> done.banks[0]
        Ruin(bank='A', cash=7, own=0, others=7, falls=1)
        >>> [pair.of for pair in done.pairs if pair.falls and pair.bank == "A"]
        ['A', 'B']
        """
        return self._ask(Impact, "impact", timeout=timeout, limits=limits)

    def rescues(self, timeout: Optional[float] = None, limits: Limits = None) -> Rescues:
        """For each bank in default the least cash to add so that it pays all it owes, and whom that saves besides.

        >>> done = Network({"A": 7, "B": 1, "C": 0}, {("A", "B"): 10, ("B", "C"): 9}).rescues()
        >>> [tuple(one) for one in done.banks], [tuple(one) for one in done.saved]
        ([('A', 3, 1, 1, 0), ('B', 1, 1, 0, 1)], [('A', 'B')])
        """
        return self._ask(Rescues, "rescues", timeout=timeout, limits=limits)

    def compress(self, timeout: Optional[float] = None, limits: Limits = None) -> Compression:
        """The debts that are left when cycles of debts of one class are cancelled.

        >>> ring = Network({"A": 0, "B": 0}, {("A", "B"): 5, ("B", "A"): 3})
        >>> left = ring.compress()
        >>> left.cancelled, left.debts.column("claim")
        (6, [2, 0])
        """
        return self._ask(Compression, "compress", timeout=timeout, limits=limits)

    def replay(self, journal: JournalLike, timeout: Optional[float] = None, limits: Limits = None) -> Verdict:
        """Judges a journal (a `Journal`, its raises, or the name of a file) and gives the payments that a lawful one
        makes.

        >>> from clearing_client import Raise
        >>> net = Network({"A": 7, "B": 1}, {("A", "B"): 10})
        >>> net.replay(net.clear(journal=True).journal).lawful
        True
        >>> verdict = net.replay([Raise(1, "A", "B", 1, 8)])
        >>> verdict.verdict, verdict.allowed, verdict.record
        ('unlawful', 7, Raise(stamp=1, debtor='A', creditor='B', class_=1, to=8))
        """
        data = read_file(journal, None) if isinstance(journal, FILE) else journal_bytes(journal)
        by = limits or (journal.limits if isinstance(journal, Journal) else None)
        verdict = self._ask(Verdict, "replay", third=("journal", data), timeout=timeout, limits=by)
        if verdict.entry is None:
            return verdict
        answer = dataclasses.replace(verdict, record=raise_of(data, verdict.entry))
        return answer.with_source(verdict.text, verdict.network, verdict.limits)

    # How the program is asked

    def __getstate__(self) -> Dict[str, object]:
        """What goes to another process: the two files, and what was said and told of limits."""
        names = ("_banks", "_debts", "_said_limits", "_is_told")
        return {name: getattr(self, name) for name in names}

    def _by(self, limits: Limits) -> str:
        """The limits of a run: those that are said for it, else the network's, which tells that they are wide."""
        if limits is None:
            self._tell_limits()
        return limits or self.limits

    @cached_property
    def _request(self) -> Request:
        """What the two files say, for a comparison with what an answer repeats of it. The program has taken them."""
        return Request(self._banks, self._debts)

    def _ask(
        self,
        kind: Type[T],
        task: str,
        *words: object,
        third: Optional[Third] = None,
        known: object = None,
        timeout: Optional[float] = None,
        limits: Limits = None,
    ) -> T:
        """Runs a task on the files, and reads its text, which must be an answer on them."""
        by = self._by(limits)
        words += tuple(sizes.words_of(by))
        with handed_over(self._files(third)) as (files, numbers):
            done = run(line_of(task, files, words), numbers, timeout)
        if done.status not in (0, 7):
            raise self._fault(done, [task, *map(str, words)], third, known)
        result = read_as(text_of(done), kind)
        self._request.check(result, known)
        return result.with_source(text_of(done), self, by)

    @contextlib.contextmanager
    def _stream(
        self,
        task: str,
        *words: object,
        third: Third,
        known: object = None,
        timeout: Optional[float] = None,
        limits: Limits = None,
    ) -> Iterator[IO[bytes]]:
        """Runs a task on the files. Its text is read as it comes; that the run failed is said where all is read."""
        words += tuple(sizes.words_of(self._by(limits)))
        with handed_over(self._files(third)) as (files, numbers):
            with started(line_of(task, files, words), numbers, timeout) as (stream, end):
                try:
                    yield stream
                except TextError:
                    while stream.read(1 << 20):
                        pass
                    if end()[0] == 0:
                        raise
                status, message = end()
        if status != 0:
            raise self._fault(Done(status, b"", message), [task, *map(str, words)], third, known)

    def _files(self, third: Optional[Third]) -> List[Third]:
        """The files of a run."""
        return [("banks", self._banks), ("debts", self._debts), *([third] if third else [])]

    def _fault(self, done: Done, words: List[str], third: Optional[Third], known: object) -> Exception:
        """The exception for a run that failed, with the record that it is about."""
        return with_record(fault_of(done, words), dict(self._files(third)), known)


def read_as(text: str, kind: Type[T]) -> T:
    """The result of a run that prints a text."""
    result = parse(text) if text or kind is not Stress else Stress(()).with_source(text)
    if not isinstance(result, kind):
        raise TextError(0, f"the program printed {type(result).__name__} in place of {kind.__name__}")
    return result


def text_of(done: Done) -> str:
    """What a run printed."""
    try:
        return done.output.decode()
    except UnicodeDecodeError as fault:
        raise TextError(0, "the program printed what is not UTF-8") from fault


def with_fields(text: str, old: str, new: str) -> str:
    """A text with a field in the place of another."""
    lines = (line.split(",") for line in text.split("\n"))
    return "\n".join(",".join(new if field == old else field for field in line) for line in lines)


def read_check(text: str) -> Network:
    """The network that `check` prints."""
    check = read_as(text, Check)
    return Network(check.banks, check.debts)


def level_of_caller() -> int:
    """How many calls above the one that asks is the first outside this package, for a warning about it."""
    frame, level = sys._getframe(1), 1
    while frame.f_back is not None and frame.f_globals.get("__name__", "").partition(".")[0] == __package__:
        frame, level = frame.f_back, level + 1
    return level


# Without a network of one's own


def generate(
    seed: int, size: int, tries: int, workers: int = 4, sweeps: int = 1, timeout: Optional[float] = None
) -> Generated:
    """The sums of a network made from a number: `size` banks (1 to 1,000), `tries` at a debt (0 to 20,000).

    >>> generate(seed=1, size=5, tries=9).total.defaults
    1
    """
    words = ["gen", "--seed", seed, "--size", size, "--tries", tries, *effort(workers, sweeps)]
    done = run([str(word) for word in words], timeout=timeout)
    if done.status:
        raise fault_of(done, [str(word) for word in words])
    generated = read_as(text_of(done), Generated)
    if generated.total.banks != size or generated.total.debts > tries:
        raise TextError(0, "the program printed an answer on another network than it was asked for")
    return generated


def read(text: Union[str, "os.PathLike[str]"]) -> Result:
    """The result that a text of the program says, from the text itself or, by a path of `pathlib`, from a file.

    >>> read("debtor,creditor,class,claim,paid\\nA,B,1,10,7\\n").total
    Sums(claim=10, paid=7)
    """
    if isinstance(text, str):
        return parse(text)
    try:
        return parse(read_file(text, None).decode("utf-8-sig"))
    except UnicodeDecodeError as fault:
        raise TextError(0, f"{os.fspath(text)} is not UTF-8") from fault
