"""What the tasks answer: a dataclass each, with tables, numbers and the program's text as it was printed.

Shapes: a table of payments has a place for each debt, in the order of the debts file; a table of standings one for each
bank, in the order of the banks file. Amounts are whole units, integers without a limit.
"""
from __future__ import annotations

from dataclasses import dataclass
from functools import cached_property
from typing import TYPE_CHECKING, Dict, List, Mapping, Optional, Tuple, Type, TypeVar, Union

from .errors import package
from .records import (
    Bank,
    BankCounts,
    Bound,
    BreakingCut,
    CheckTotals,
    CompressionTotals,
    CostBound,
    CostStanding,
    CostTotals,
    Debt,
    GeneratedTotals,
    Harm,
    JournalTotals,
    Judgement,
    Payment,
    Raise,
    Rank,
    RescueTotals,
    Ruin,
    Saved,
    Saving,
    ScenarioPayment,
    ScenarioStanding,
    ScenarioSums,
    ScenarioTotals,
    Standing,
    Sums,
    Totals,
    Wave,
)
from .table import Table

if TYPE_CHECKING:
    from networkx import DiGraph, MultiDiGraph
    from numpy import int64
    from numpy.typing import NDArray
    from pandas import DataFrame

    from .network import Network

R = TypeVar("R", bound=Tuple[object, ...])
AnyTable = Table[Tuple[object, ...]]
"""A table of records of any kind."""
S = TypeVar("S", bound="Result")


class Result:
    """What all results have."""

    text: str = ""
    """The text, as the program printed it."""
    network: "Optional[Network]" = None
    """The network that was asked; None where the result is read from a text alone."""
    limits: Optional[str] = None
    """The limits by which the network was read, `standard` or `wide`; None where the result is read from a text
    alone."""

    def tables(self) -> Dict[str, AnyTable]:
        """The tables by name, none of them with a line of sums. `totals` has these, and what the text says once, such
        as `rounds`: one record, and for `stress` one for each scenario."""
        fields = {name: getattr(self, name) for name in getattr(self, "__dataclass_fields__")}
        tables: Dict[str, AnyTable] = {name: value for name, value in fields.items() if isinstance(value, Table)}
        total = getattr(self, "total", None)
        return tables if total is None else {**tables, "totals": one(type(total), total)}

    def to_pandas(self) -> Dict[str, DataFrame]:
        """The tables by name, each a pandas `DataFrame`. A single one: `result.payments.to_pandas()`."""
        return {name: table.to_pandas() for name, table in self.tables().items()}

    def with_source(self: S, text: str, network: "Optional[Network]" = None, limits: Optional[str] = None) -> S:
        """This result, with its text, its network, and the limits by which that was read."""
        object.__setattr__(self, "text", text)
        object.__setattr__(self, "network", network)
        object.__setattr__(self, "limits", limits)
        return self


class Flows(Result):
    """A result with an amount for each debt, as a graph or a matrix."""

    def flows(self) -> AnyTable:
        """The table of debts with their amounts."""
        flows: AnyTable = getattr(self, "payments")
        return flows

    def standings_of_banks(self) -> Optional[AnyTable]:
        """The table with a record for each bank, where the result has one."""
        return getattr(self, "standings", getattr(self, "waves", None))

    def names(self) -> List[str]:
        """The banks' names in the order of the banks file; as they first stand in a text without all banks."""
        standings = self.standings_of_banks()
        if standings is not None:
            return standings.column("bank")
        if self.network is not None:
            return self.network.banks.column("name")
        flows = self.flows()
        pairs = zip(flows.column("debtor"), flows.column("creditor"))
        return list(dict.fromkeys(name for pair in pairs for name in pair))

    def to_networkx(self) -> MultiDiGraph:
        """A networkx `MultiDiGraph`: a node for each bank, with its record, and an edge for each debt from its debtor
        to its creditor, with the class as its key and `class`, `claim` and the other amounts as attributes."""
        nodes: Dict[str, Dict[str, object]] = {name: {} for name in self.names()}
        tables = [self.network.banks] if self.network is not None else []
        standings = self.standings_of_banks()
        for table in [*tables, *([standings] if standings is not None else [])]:
            for record in table:
                nodes[str(record[0])].update(zip(table.columns[1:], record[1:]))
        return graph_of(nodes, self.flows())

    def to_lists(self, column: Optional[str] = None) -> List[List[int]]:
        """The matrix of `to_matrix` as a list of rows, without numpy."""
        names, flows = self.names(), self.flows()
        return rows_of(names, flows, column or flows.columns[-1])

    def to_matrix(self, column: Optional[str] = None) -> NDArray[int64]:
        """A numpy matrix of int64, banks by banks in the order of `names()`: what the bank of the row pays the bank of
        the column, all classes together. `column` takes another amount, such as `claim`."""
        return matrix_of(self.to_lists(column))


class Standings:
    """A result that says how the banks stand."""

    standings: Union[Table[Standing], Table[CostStanding], Table[ScenarioStanding]]

    @property
    def defaults(self) -> List[str]:
        """The names of the banks in default, in file order."""
        return [record.bank for record in self.standings if record.state != "sound"]


def graph_of(nodes: Mapping[str, Mapping[str, object]], flows: AnyTable) -> MultiDiGraph:
    """A networkx graph of banks and debts."""
    graph = package("networkx", "to_networkx").MultiDiGraph()
    for name, attributes in nodes.items():
        graph.add_node(name, **attributes)
    for record in flows:
        graph.add_edge(record[0], record[1], key=record[2], **dict(zip(flows.columns[2:], record[2:])))
    return graph


def rows_of(names: List[str], flows: AnyTable, column: str) -> List[List[int]]:
    """The sums of a column over the records from a bank to another, which are the first two of its columns."""
    place = {name: at for at, name in enumerate(names)}
    rows = [[0] * len(names) for _ in names]
    first, second = flows.columns[:2]
    for one, other, amount in zip(flows.column(first), flows.column(second), flows.column(column)):
        rows[place[one]][place[other]] += amount
    return rows


def matrix_of(rows: List[List[int]]) -> NDArray[int64]:
    """Rows as a numpy matrix of int64."""
    numpy = package("numpy", "to_matrix")
    matrix: NDArray[int64] = numpy.array(rows, dtype="int64").reshape(len(rows), len(rows))
    return matrix


def one(record: Type[R], value: R) -> Table[R]:
    """A table of one record."""
    return Table.of(record, [value])


@dataclass(frozen=True)
class Check(Flows):
    """`check`: both files as the program reads them, and their sums: all claims together, and all cash together."""

    banks: Table[Bank]
    debts: Table[Debt]
    total: CheckTotals

    def flows(self) -> Table[Debt]:
        return self.debts

    def names(self) -> List[str]:
        return self.banks.column("name")


@dataclass(frozen=True)
class Converted(Result):
    """`convert`: the banks, with what they owe outside."""

    banks: Table[Bank]


@dataclass(frozen=True)
class Journal(Result):
    """The raises of payments of a run, in order, and after how many rounds it ended (None where the text does not
    say). Journals of several runs may differ; each replays to the same payments."""

    raises: Table[Raise]
    rounds: Optional[int] = None

    def tables(self) -> Dict[str, AnyTable]:
        totals = {} if self.rounds is None else {"totals": one(JournalTotals, JournalTotals(self.rounds))}
        return {"journal": self.raises, **totals}


@dataclass(frozen=True)
class Clearing(Flows):
    """`clear` and `central`: what is paid on each debt, and the journal of the run, where it was asked for."""

    payments: Table[Payment]
    journal: Optional[Journal] = None

    def with_source(self, text: str, network: "Optional[Network]" = None, limits: Optional[str] = None) -> "Clearing":
        if self.journal is not None:
            self.journal.with_source("", network, limits)
        return super().with_source(text, network, limits)

    @property
    def total(self) -> Sums:
        """What is claimed and what is paid in all."""
        return Sums(sum(self.payments.column("claim")), sum(self.payments.column("paid")))

    def tables(self) -> Dict[str, AnyTable]:
        return {"payments": self.payments, **(self.journal.tables() if self.journal is not None else {})}


@dataclass(frozen=True)
class Defaults(Standings, Result):
    """`defaults`: how each bank stands after clearing, and the sums over all."""

    standings: Table[Standing]
    total: Totals


@dataclass(frozen=True)
class Outcome(Standings, Flows):
    """What one scenario leaves: its number from 1 and name, the payments, the standings, and their sums."""

    number: int
    name: str
    payments: Table[Payment]
    standings: Table[Standing]
    total: Totals


@dataclass(frozen=True)
class Stress(Result):
    """`stress`: an outcome for each scenario, in file order. The tables have the scenarios one below the other, each
    record with the scenario's number and name."""

    scenarios: Tuple[Outcome, ...]

    def with_source(self, text: str, network: "Optional[Network]" = None, limits: Optional[str] = None) -> "Stress":
        for outcome in self.scenarios:
            outcome.with_source("", network, limits)
        return super().with_source(text, network, limits)

    @cached_property
    def payments(self) -> Table[ScenarioPayment]:
        """The payments of all scenarios."""
        return stacked(ScenarioPayment, [(one.number, one.name, one.payments) for one in self.scenarios])

    @cached_property
    def standings(self) -> Table[ScenarioStanding]:
        """The standings of all scenarios."""
        return stacked(ScenarioStanding, [(one.number, one.name, one.standings) for one in self.scenarios])

    @property
    def total(self) -> Table[ScenarioTotals]:
        """The sums of each scenario."""
        return Table.of(ScenarioTotals, [ScenarioTotals(one.number, one.name, *one.total) for one in self.scenarios])

    def tables(self) -> Dict[str, AnyTable]:
        return {"payments": self.payments, "standings": self.standings, "totals": self.total}


@dataclass(frozen=True)
class Outcomes(Result):
    """`outcomes`: scenarios in sums, a record for each in order, and for each bank in how many of them it defaults."""

    scenarios: Table[ScenarioSums]
    banks: Table[BankCounts]


def stacked(record: Type[R], parts: List[Tuple[int, str, AnyTable]]) -> Table[R]:
    """The tables of the scenarios below one another, after the scenario's number and name."""
    columns: List[List[object]] = [[number for number, _, table in parts for _ in range(len(table))]]
    columns.append([name for _, name, table in parts for _ in range(len(table))])
    rest = len(getattr(record, "_fields")) - 2
    split = [[table.column(name) for name in table.columns] for _, _, table in parts]
    columns += [[value for part in split for value in part[place]] for place in range(rest)]
    return Table(record, columns)


@dataclass(frozen=True)
class Verdict(Flows):
    """`replay`: whether a journal is a lawful and complete history.

    verdict   `lawful`; `falls` (a stamp is below the one before); `unlawful` (a raise that is not above what was paid,
              or above what its debtor's rule allows); `unfinished` (a bank does not pay what its rule gives)
    raises    how many there are, where it is lawful, with the payments that they make
    entry     the number of the raise that falls or is unlawful, from 1; `record` is that raise, where it is known
    last, stamp    the stamp before, and the one that falls
    had, allowed   what the debt had been paid, and the most that it may be
    bank      the first bank that does not pay what its rule gives
    """

    verdict: str
    raises: Optional[int] = None
    payments: Optional[Table[Payment]] = None
    entry: Optional[int] = None
    last: Optional[int] = None
    stamp: Optional[int] = None
    had: Optional[int] = None
    allowed: Optional[int] = None
    bank: Optional[str] = None
    record: Optional[Raise] = None

    @property
    def lawful(self) -> bool:
        """Whether the journal is a lawful and complete history."""
        return self.verdict == "lawful"

    def tables(self) -> Dict[str, AnyTable]:
        judgement = Judgement(
            self.verdict, self.raises, self.entry, self.last, self.stamp, self.had, self.allowed, self.bank
        )
        payments = {} if self.payments is None else {"payments": self.payments}
        return {**payments, "totals": one(Judgement, judgement)}

    def flows(self) -> Table[Payment]:
        if self.payments is None:
            raise ValueError(f"a journal that is {self.verdict} makes no payments")
        return self.payments


@dataclass(frozen=True)
class Generated(Result):
    """`gen`: the sums of a network made from a number, and of its clearing."""

    total: GeneratedTotals


@dataclass(frozen=True)
class Bounds(Flows):
    """`bounds`: the least and the greatest payments that clear, and for each bank when it falls short on the way
    down."""

    payments: Table[Bound]
    waves: Table[Wave]


@dataclass(frozen=True)
class Rescue(Flows):
    """`rescue`: the least cash to add so that a bank pays all it owes, what it still lacks with a unit less, and the
    payments with the sum added."""

    bank: str
    added: int
    short: int
    payments: Table[Payment]

    @property
    def total(self) -> RescueTotals:
        """The bank, and the two sums."""
        return RescueTotals(self.bank, self.added, self.short)


@dataclass(frozen=True)
class Compression(Flows):
    """`compress`: the debts that are left, the ranks that show that no cycle of a class is left, and what was
    cancelled."""

    debts: Table[Debt]
    ranks: Table[Rank]
    cancelled: int

    @property
    def total(self) -> CompressionTotals:
        """What was cancelled."""
        return CompressionTotals(self.cancelled)

    def flows(self) -> Table[Debt]:
        return self.debts


@dataclass(frozen=True)
class Costs(Standings, Flows):
    """`costs`: the payments and standings where an estate in default is worth only a part, and the sums."""

    payments: Table[Payment]
    standings: Table[CostStanding]
    total: CostTotals


@dataclass(frozen=True)
class CostBounds(Flows):
    """`cost-bounds`: the least and the greatest payments that clear where an estate in default is worth only a part,
    and how each bank stands at both."""

    payments: Table[Bound]
    standings: Table[CostBound]


@dataclass(frozen=True)
class Breaking(Result):
    """`breaking`: for each bank the least cut of all cash at which it is not sound, and its state then."""

    cuts: Table[BreakingCut]


@dataclass(frozen=True)
class Impact(Result):
    """`impact`: for each bank what the loss of all its cash costs, and for each two banks of which the second loses by
    it, or falls, how much and whether."""

    banks: Table[Ruin]
    pairs: Table[Harm]

    def to_networkx(self) -> DiGraph:
        """A networkx `DiGraph`: a node for each bank, with its record, and an edge for each pair from the bank that
        loses its cash to the one that keeps less, with `lost` and `falls`. An edge may lead from a bank to itself."""
        graph = package("networkx", "to_networkx").DiGraph()
        for record in self.banks:
            graph.add_node(record.bank, **dict(zip(self.banks.columns[1:], record[1:])))
        for pair in self.pairs:
            graph.add_edge(pair.bank, pair.of, lost=pair.lost, falls=pair.falls)
        return graph

    def to_lists(self) -> List[List[int]]:
        """The matrix of `to_matrix` as a list of rows, without numpy."""
        return rows_of(self.banks.column("bank"), self.pairs, "lost")

    def to_matrix(self) -> NDArray[int64]:
        """A numpy matrix of int64, banks by banks in file order: what the bank of the column keeps less where the bank
        of the row loses all its cash. Each row comes to that cash."""
        return matrix_of(self.to_lists())


@dataclass(frozen=True)
class Rescues(Result):
    """`rescues`: what it takes to save each bank in default, in file order, and whom that saves besides."""

    banks: Table[Saving]
    saved: Table[Saved]
