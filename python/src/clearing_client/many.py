"""Many networks and any number of scenarios, side by side: in processes of this machine, or by an executor of others.

The results come one after another, in the order of the networks and scenarios, so that what is held does not grow with
them: a run has a few scenarios, and few runs are begun ahead of what is taken. Where an iterator is left before its
end, what has not begun is called off.
"""
from __future__ import annotations

import contextlib
import functools
import multiprocessing
import signal
from collections import deque
from concurrent.futures import Executor, Future, ProcessPoolExecutor
from typing import Callable, Deque, Iterable, Iterator, List, NamedTuple, Optional, Tuple, TypeVar, Union

from . import tabular
from .errors import RefusedError, TextError
from .format import MAX_SCENARIOS
from .inputs import ScenariosLike, as_third, chosen_of, effort
from .network import Limits, Network
from .program import processors
from .records import BankCounts, ScenarioSums
from .results import AnyTable, Outcome, Outcomes
from .scenarios import Scenarios
from .table import Table
from .texts import outcomes_in

P = TypeVar("P")

RECORDS = 50_000
"""About how many records the outcomes of one run have, at least those of one scenario."""


class Part(NamedTuple):
    """Scenarios of one run, or a file of them; how many stand before them, and whether they are the last."""

    scenarios: Union[Scenarios, bytes]
    before: int
    last: bool


class Sums(NamedTuple):
    """Scenarios of one run in sums, and the counts of the banks over them."""

    scenarios: Table[ScenarioSums]
    banks: Table[BankCounts]


Networks = Iterable[Network]
Jobs = Optional[int]
Pool = Optional[Executor]


def map_stress(
    networks: Networks,
    scenarios: ScenariosLike,
    jobs: Jobs = None,
    workers: int = 1,
    sweeps: int = 1,
    executor: Pool = None,
    timeout: Optional[float] = None,
    limits: Limits = None,
) -> Iterator[Outcome]:
    """What the same scenarios leave of each network: an `Outcome` for each network and scenario, in the order of the
    networks, and for each of them in that of the scenarios, as they come. `network` and `number` say whose it is.

    networks   an iterable, of which no more are taken ahead than are begun
    scenarios  as for `Network.stress`, but any number of them; a file has at most 100, and is one run
    jobs       how many runs go side by side, as many as there are processors where it is not said
    executor   what runs them, an `Executor` of `concurrent.futures` or what is used like one, such as Dask's
               `client.get_executor()` or mpi4py's `MPIPoolExecutor()`; processes of this machine where it is not said.
               Its workers need this package and the program, as `find_program` finds it there. It is not shut down.
    timeout    how many seconds a run may take; one that takes longer is ended, and raises `OutOfTimeError`
    limits     `standard` or `wide` for all; where it is not said, those of each network

    The first fault is raised in the place of its outcome, and ends it.

    >>> nets = [Network({"A": cash, "B": 0}, {("A", "B"): 10}) for cash in (10, 20)]
    >>> [(one.number, one.total.defaults) for one in map_stress(nets, Scenarios.cuts([0, 100]))]
    [(1, 0), (2, 1), (1, 0), (2, 0)]
    """
    work = functools.partial(stressed, workers=workers, sweeps=sweeps, timeout=timeout)
    return outcomes_of(in_turn(work, runs_of(networks, scenarios, most_in_a_run), jobs, executor, limits), limits)


def map_outcomes(
    networks: Networks,
    scenarios: ScenariosLike,
    jobs: Jobs = None,
    executor: Pool = None,
    timeout: Optional[float] = None,
    limits: Limits = None,
) -> Iterator[Outcomes]:
    """What the same scenarios leave of each network in sums: an `Outcomes` for each network, in order, as they come.
    The words are those of `map_stress`. The program prints no payment, and each run has as many threads as it takes.

    >>> nets = [Network({"A": cash, "B": 0}, {("A", "B"): 10}) for cash in (10, 20)]
    >>> first, second = map_outcomes(nets, Scenarios.cuts([0, 100]))
    >>> print(first.scenarios)
    scenario  cash  paid  outside_paid  equity  defaults  fundamental
    cut 0       10    10             0      10         0            0
    cut 100      9     9             0       9         1            1
    >>> second.banks[0]
    BankCounts(bank='A', defaults=0, fundamental=0)
    """
    work = functools.partial(summed, timeout=timeout)
    runs = runs_of(networks, scenarios, lambda _: MAX_SCENARIOS)
    return summed_up(in_turn(work, runs, jobs, executor, limits), limits)


def runs_of(
    networks: Networks, scenarios: ScenariosLike, most: Callable[[Network], int]
) -> Iterator[Tuple[Network, Part]]:
    """The runs, each a network and so many of the scenarios at most, or a file of them as it is. The scenarios are
    read at once."""
    known = chosen_of(scenarios)
    return ((net, part) for net in networks for part in parts_of(known, most(net)))


def parts_of(scenarios: Union[Scenarios, bytes], most: int) -> Iterator[Part]:
    """The scenarios in runs of at most so many; one run where there is none, as it reads the network."""
    if isinstance(scenarios, bytes):
        yield Part(scenarios, 0, True)
        return
    for at in range(0, max(1, len(scenarios)), most):
        yield Part(scenarios[at : at + most], at, at + most >= len(scenarios))


def most_in_a_run(net: Network) -> int:
    """How many scenarios of a network have not too many records."""
    records = sum(max(data.count(b"\n"), data.count(b"\r")) for data in (net._banks, net._debts))
    return min(MAX_SCENARIOS, max(1, RECORDS // max(1, records)))


# What is done here


def in_turn(
    work: Callable[[Network, Part, str], P],
    tasks: Iterable[Tuple[Network, Part]],
    jobs: Jobs,
    executor: Pool,
    limits: Limits = None,
) -> Iterator[Tuple[Network, Part, P]]:
    """What the work makes of each task by the limits of its network, in order. Besides those at work as many may wait
    to be taken. Here is told what a network takes by itself, and not by those that work."""
    at_a_time = jobs or getattr(executor, "_max_workers", None) or processors()
    pool: Executor = own_pool(at_a_time) if executor is None else executor
    begun: "Deque[Tuple[Network, Part, Future[P]]]" = deque()
    try:
        for net, part in tasks:
            begun.append((net, part, pool.submit(work, net, part, net._by(limits))))
            if len(begun) >= 2 * at_a_time:
                yield taken(begun)
        while begun:
            yield taken(begun)
    finally:
        for _, _, left in begun:
            left.cancel()
        if executor is None:
            pool.shutdown(wait=True)


def taken(begun: "Deque[Tuple[Network, Part, Future[P]]]") -> Tuple[Network, Part, P]:
    """The first of those that have begun, with what it made."""
    net, part, run = begun.popleft()
    return net, part, run.result()


def own_pool(jobs: int) -> ProcessPoolExecutor:
    """Processes of this machine. They are forked where that can be, so that a script needs no `if __name__ ==
    "__main__"`."""
    how = "fork" if "fork" in multiprocessing.get_all_start_methods() else None
    return ProcessPoolExecutor(jobs, multiprocessing.get_context(how), initializer=end_at_interrupt)


def end_at_interrupt() -> None:
    """An interrupt from the keyboard ends a process and its run in silence; that it came, the first process says."""
    signal.signal(signal.SIGINT, signal.SIG_DFL)


def outcomes_of(done: Iterator[Tuple[Network, Part, List[Outcome]]], limits: Limits) -> Iterator[Outcome]:
    """The outcomes of the runs, each with its network."""
    for net, _, outcomes in done:
        for outcome in outcomes:
            yield outcome.with_source("", net, limits or net.limits)


def summed_up(done: Iterator[Tuple[Network, Part, Sums]], limits: Limits) -> Iterator[Outcomes]:
    """The sums of the runs of each network together."""
    parts: List[Sums] = []
    for net, part, sums in done:
        parts.append(sums)
        if part.last:
            yield together(parts, net, limits or net.limits)
            parts = []


def together(parts: List[Sums], net: Network, by: str) -> Outcomes:
    """The sums of several runs of one network, with the text that says them."""
    counts = [list(map(sum, zip(*(part.banks.column(word) for part in parts)))) for word in ("defaults", "fundamental")]
    scenarios = Table.of(ScenarioSums, [one for part in parts for one in part.scenarios])
    banks = Table(BankCounts, [parts[0].banks.column("bank"), *counts])
    return Outcomes(scenarios, banks).with_source(text_of_table(scenarios) + "\n" + text_of_table(banks), net, by)


def text_of_table(table: AnyTable) -> str:
    """A table as the program prints tables."""
    return tabular.csv_of({name: list(map(str, table.column(name))) for name in table.columns}).decode()


# What is done by a worker


@contextlib.contextmanager
def counted_on(part: Part) -> Iterator[None]:
    """A fault of the scenarios of a run counts them on from those before it."""
    try:
        yield
    except RefusedError as fault:
        row = fault.row + part.before if fault.file == "scenarios" and fault.row else fault.row
        raise RefusedError(fault.file, row, fault.kind, fault.number, fault.record) from fault


def known_of(part: Part) -> Optional[Scenarios]:
    """The scenarios of a run, where they are not a file."""
    return None if isinstance(part.scenarios, bytes) else part.scenarios


def stressed(
    net: Network, part: Part, by: str, workers: int, sweeps: int, timeout: Optional[float] = None
) -> List[Outcome]:
    """The outcomes of a run, numbered on from those before it. Parsed where it runs, as they come."""
    third, known, outcomes = as_third(part.scenarios), known_of(part), []
    words = effort(workers, sweeps)
    run = net._stream("stress", *words, third=third, known=known, timeout=timeout, limits=by)
    with counted_on(part), run as stream:
        for outcome in outcomes_in(stream, part.before):
            net._request.check(outcome)
            outcomes.append(outcome)
    if known is not None and [one.name for one in outcomes] != [one.name for one in known]:
        raise TextError(0, "the program printed an answer on other scenarios than it was asked about")
    return outcomes


def summed(net: Network, part: Part, by: str, timeout: Optional[float] = None) -> Sums:
    """The sums of a run."""
    third, known = as_third(part.scenarios), known_of(part)
    with counted_on(part):
        left = net._ask(Outcomes, "outcomes", third=third, known=known, timeout=timeout, limits=by)
    return Sums(left.scenarios, left.banks)
