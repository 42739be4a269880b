"""What the desk asks of the program: a state cleared, and what it says of one bank. At most four runs go on at once."""
import pathlib
import shutil
import tempfile
import threading
from collections import OrderedDict
from concurrent.futures import ThreadPoolExecutor
from typing import Callable, Dict, Iterable, List, Mapping, NamedTuple, Optional, Sequence, Tuple, Type, TypeVar, Union

from clearing_client import errors, program as client, texts as parser
from clearing_client.case import Case
from clearing_client.format import MAX_SCENARIOS
from clearing_client.limits import STANDARD, of_counts, words_of
from clearing_client.records import Payment
from clearing_client.results import Bounds, Check, CostBounds, Outcome, Result, Stress
from clearing_client.table import Table

from .. import cases, runner, texts
from ..analysis import queries
from ..checks.why import faults_of
from ..evidence import audit, shock
from ..money import Money
from ..runner import StrPath
from . import state as states
from .built import scenario_of
from .changes import Original
from .hints import hint_of
from .state import Base, State

T = TypeVar("T")
R = TypeVar("R")
Answer = TypeVar("Answer", bound=Result)
Mark = Tuple[object, ...]
"""A state as a key of a dict."""
AT_ONCE = 4
MOST_KEPT = 16  # states whose clearing is kept


class RefusedChangeError(Exception):
    """A change that the program refuses: its own words, what they mean, and the field of the page."""

    def __init__(self, message: str, meaning: str, field: str) -> None:
        super().__init__(message)
        self.message, self.meaning, self.field = message, meaning, field


class End(NamedTuple):
    """How the banks stand at the least or the greatest payments that clear, and what of their estates costs of default
    take; lists over the banks, in file order."""

    banks: List[texts.Bank]
    lost: List[int]


class Cleared(NamedTuple):
    """A state as the program clears it, at the least payments that clear. `keys` are those of the debts, `left` is what
    the shock leaves of the cash, `lost` what costs of default take; lists are over the banks or the debts, in file
    order."""

    keys: List[int]
    payments: Table[Payment]
    banks: List[texts.Bank]
    left: List[int]
    lost: List[int]
    greatest: Optional[End] = None  # the other end, where default costs


class DebtsFile(NamedTuple):
    """The debts of all states with these changes: their keys, the debts file, and the words for the limits that they
    need."""

    claims: Mapping[int, Optional[str]]
    added: Sequence[Optional[Tuple[str, str, str, str]]]
    keys: List[int]
    text: bytes
    limits: List[str]


class Runs(runner.ProgramRuns):
    """Runs of the program, at most four at once, and the folder in which their inputs are for so long."""

    def __init__(self, folder: str) -> None:
        super().__init__()
        self.folder, self.room = folder, threading.BoundedSemaphore(AT_ONCE)
        self.whole = threading.Lock()

    def run(self, command: Sequence[str], folder: Optional[StrPath] = None) -> Tuple[int, bytes, bytes]:
        """The status, output and messages of a command, when there is room for it."""
        with self.room:
            return super().run(command, folder)

    def alone(self, command: Sequence[str], folder: StrPath) -> Tuple[int, bytes, bytes]:
        """The same of a tool, which has runs of its own: no other goes on beside it."""
        with self.whole:
            for _ in range(AT_ONCE):
                self.room.acquire()
            try:
                return super().run(command, folder)
            finally:
                for _ in range(AT_ONCE):
                    self.room.release()

    def all(self, work: Callable[[T], R], items: Iterable[T], what: str) -> List[R]:
        """What the work gives for each item, side by side. Nothing is said on a terminal, and a fault ends no other
        run."""
        with ThreadPoolExecutor(AT_ONCE) as pool:
            return list(pool.map(work, items))

    def result(self, words: Sequence[str], kind: Type[Answer]) -> Answer:
        """The result of a task; where the program refuses, the exception of the client."""
        status, output, messages = self.run([runner.program(), *words])
        if status:
            raise client.fault_of(client.Done(status, output, messages.decode("utf-8", "replace")), words)
        try:
            answer = parser.parse(output.decode())
        except (errors.TextError, UnicodeDecodeError) as fault:
            raise runner.ToolError(f"{runner.program()} did not print what `clearing {words[0]}` does") from fault
        if not isinstance(answer, kind):
            raise runner.ToolError(f"{runner.program()} did not print what `clearing {words[0]}` does")
        return answer

    def outcome(self, job: Tuple[List[str], Type[Result]]) -> Union[Result, Exception]:
        """The result of a task, or its fault as a value."""
        try:
            return self.result(*job)
        except (errors.ClearingError, runner.ToolError) as fault:
            return fault


class Place:
    """A folder for the files of one question; it goes with it."""

    def __init__(self, runs: Runs) -> None:
        self.path = pathlib.Path(tempfile.mkdtemp(dir=runs.folder))

    def __enter__(self) -> "Place":
        return self

    def __exit__(self, *_: object) -> None:
        shutil.rmtree(self.path, ignore_errors=True)

    def put(self, name: str, content: bytes) -> str:
        """Writes a file, and gives its name."""
        path = self.path / name
        path.write_bytes(content)
        return str(path)


def base_of(runs: Runs, banks: str, debts: str, scenarios: Optional[str], limits: str = STANDARD) -> Base:
    """The network as the program reads it. Its own refusal comes first."""
    files = [f"--banks={banks}", f"--debts={debts}", *words_of(limits)]
    check = queries.answer_of(runs, ["check", *files], Check)
    chosen: Sequence[shock.Scenario] = ()
    if scenarios is not None:
        runs.answer(["stress", *files, f"--scenarios={scenarios}"])
        known = [audit.Bank(bank.name.encode(), bank.cash, bank.rule, bank.outside) for bank in check.banks]
        try:
            chosen = shock.read_scenarios(pathlib.Path(scenarios).read_bytes(), known)
        except shock.ScenarioError as fault:
            raise runner.ToolError(str(fault), fault.status) from fault
    return Base(list(check.banks), list(check.debts), chosen)


class Desk:
    """The network, and the clearings of its states that were asked for last."""

    def __init__(self, runs: Runs, base: Base, case: Case, originals: Optional[Mapping[str, Original]] = None) -> None:
        self.runs, self.base, self.case, self.originals = runs, base, case, originals or {}
        self.full, self.money = cases.names_of(case), cases.money_of(case)
        self.files_given: Dict[str, bytes] = {}  # the files of the case by their names
        self.given = len(base.scenarios)  # of the file; those behind them were built here
        self.kept: "OrderedDict[Mark, Cleared]" = OrderedDict()
        self.last_debts: Optional[DebtsFile] = None  # the last that was made: while a slider moves it stays
        self.lock = threading.Lock()

    def cleared(self, state: State, change: Optional[Mapping[str, object]] = None) -> Cleared:
        """A state as the program clears it. A fault is told at the field of the change that led there."""
        mark = mark_of(state)
        with self.lock:
            if mark in self.kept:
                self.kept.move_to_end(mark)
                return self.kept[mark]
        try:
            cleared = self.ask(state)
        except errors.ClearingError as fault:
            raise refusal(fault, state, change or {}, self.money) from fault
        with self.lock:
            self.kept[mark] = cleared
            while len(self.kept) > MOST_KEPT:
                self.kept.popitem(last=False)
        return cleared

    def ask(self, state: State) -> Cleared:
        """A state as the program clears it, asked now."""
        debts = self.debts_of(state)
        rows = [states.row_of(self.base, state, place) for place in range(len(self.base.banks))]
        left = states.left_of(self.base, state)
        with Place(self.runs) as place:
            debts_file = place.put("debts.csv", debts.text)
            banks_file = place.put("banks.csv", states.banks_csv(self.base, rows))
            words = [f"--banks={banks_file}", f"--debts={debts_file}", *debts.limits]
            shock_file = place.put("shock.toml", states.shock_toml(self.base, state))
            jobs: List[Tuple[List[str], Type[Result]]] = [(["stress", *words, f"--scenarios={shock_file}"], Stress)]
            if left is not None:
                left_file = place.put("left.csv", states.left_csv(self.base, state, left))
                after = [f"--banks={left_file}", f"--debts={debts_file}", *debts.limits]
                jobs.append((["bounds", *after], Bounds))
                if state.keep != states.AS_IT_IS.keep:
                    jobs.append((["cost-bounds", *after, f"--keep={state.keep}"], CostBounds))
            outcomes = self.runs.all(self.runs.outcome, jobs, "run")
        answers = answers_in(outcomes)
        if left is None:
            raise runner.ToolError(f"{runner.program()} takes a number that is none")
        return joined(debts.keys, [int(row[2]) for row in rows], left, answers)

    def files(self, place: Place, state: State) -> List[str]:
        """The two files of a state with what the shock leaves, as words of the program."""
        left = states.left_of(self.base, state)
        if left is None:
            raise runner.ToolError("the state has a number that is none")
        banks = place.put("banks.csv", states.left_csv(self.base, state, left))
        debts = self.debts_of(state)
        return [f"--banks={banks}", f"--debts={place.put('debts.csv', debts.text)}", *debts.limits]

    def debts_of(self, state: State) -> DebtsFile:
        """The debts of a state as a file."""
        last = self.last_debts
        if last is not None and (last.claims, last.added) == (state.claims, state.added):
            return last
        debts = list(states.debts_of(self.base, state))
        owed = sum(int(debt[-1]) for debt in debts if str(debt[-1]).isdecimal())
        by = self.case.said_limits or of_counts(len(self.base.banks), len(debts), owed)
        keys = [debt[0] for debt in debts]
        last = DebtsFile(state.claims, state.added, keys, states.debts_csv(debts), words_of(by))
        self.last_debts = last
        return last

    def add_scenario(self, form: Mapping[str, object]) -> int:
        """Takes a scenario into the list, and gives its number. The program judges it as a file of one."""
        with self.lock:
            built = scenario_of(self.base, form)
            if len(self.base.scenarios) >= MAX_SCENARIOS:
                raise states.InvalidFieldError(f"a file has {MAX_SCENARIOS} scenarios at most", "scenario-name")
            self.base = self.base._replace(scenarios=(*self.base.scenarios, built))
            return len(self.base.scenarios)


def mark_of(state: State) -> Mark:
    """A state as a key of a dict."""
    claims = tuple(sorted(state.claims.items(), key=lambda pair: pair[0]))
    return (*state[:4], tuple(sorted(state.banks.items())), claims, state.added)


def refusal(fault: errors.ClearingError, state: State, change: Mapping[str, object], money: Money) -> Exception:
    """A fault of the program, told at a field."""
    if isinstance(fault, errors.RefusedError):
        message = f"{fault.file} row {fault.row}: {fault.kind} ({fault.number})"
        meaning = "; ".join(filter(None, [fault.meaning, hint_of(change, fault.kind, money)]))
        return RefusedChangeError(message, meaning, states.field_of(change, fault.file, fault.kind))
    if isinstance(fault, errors.UsageError):
        words = ["cost-bounds", "--banks=b", "--debts=d", f"--keep={state.keep}"]
        message = "; ".join(what for _, what in faults_of(words)) or str(fault)
        return RefusedChangeError(message, hint_of(change, "", money), states.field_of(change, "", ""))
    return runner.ToolError(str(fault))


class Answers(NamedTuple):
    """What the program says of a state: of the shock, of both ends of what is left, and of these where default
    costs."""

    stress: Stress
    bounds: Bounds
    costs: Optional[CostBounds] = None


def answers_in(outcomes: Sequence[Union[Result, Exception]]) -> Answers:
    """The answers of the program, in the order of the questions. Its word on the shock comes first, then that on the
    rest."""
    answers: List[Result] = []
    for outcome in outcomes:
        if isinstance(outcome, Exception):
            raise outcome
        answers.append(outcome)
    stress, bounds, costs, *_ = [*answers, None, None]
    if not isinstance(stress, Stress) or not isinstance(bounds, Bounds):
        raise runner.ToolError(f"{runner.program()} takes a number that is none")
    return Answers(stress, bounds, costs if isinstance(costs, CostBounds) else None)


def joined(keys: List[int], outside: List[int], left: List[int], answers: Answers) -> Cleared:
    """What the program's answers are together. What the shock leaves of the cash must be so by the program's own
    standings."""
    stress, bounds, costs = answers
    after = stress.scenarios[0]
    if len(after.payments) != len(keys):
        raise runner.ToolError("the program read another number of debts than there are")
    check_left(after, left)
    if bounds.payments.column("least") != after.payments.column("paid"):
        raise runner.ToolError("`clearing bounds` says other least payments than `clearing stress`")
    if costs is None:
        banks = [
            texts.Bank(one.bank, one.estate, due, one.outside_paid, one.paid, one.owed, one.equity,
                       "gridlock" if stuck else one.state)
            for one, due, stuck in zip(after.standings, outside, bounds.waves.column("gridlock"))
        ]
        return Cleared(keys, after.payments, banks, left, [0] * len(banks))
    owed, columns = after.standings.column("owed"), ("debtor", "creditor", "class", "claim", "least")
    least, greatest = (end_at(costs, which, left, owed, outside) for which in ("least", "greatest"))
    payments = Table(Payment, [costs.payments.column(word) for word in columns])
    return Cleared(keys, payments, least.banks, left, least.lost, greatest)


def end_at(costs: CostBounds, which: str, left: Sequence[int], owed: Sequence[int], outside: Sequence[int]) -> End:
    """One end where default costs. A bank's estate is its cash and its receipts; what of it is not lost, kept or paid
    to banks is paid outside."""
    names = costs.standings.column("bank")
    paid, received = dict.fromkeys(names, 0), dict.fromkeys(names, 0)
    for debtor, creditor, units in zip(*(costs.payments.column(word) for word in ("debtor", "creditor", which))):
        paid[debtor] += units
        received[creditor] += units
    lost, equity, state = (costs.standings.column(f"{word}_at_{which}") for word in ("lost", "equity", "state"))
    banks = []
    for at, name in enumerate(names):
        estate = left[at] + received[name]
        outside_paid = estate - lost[at] - equity[at] - paid[name]
        banks.append(texts.Bank(name, estate, outside[at], outside_paid, paid[name], owed[at], equity[at], state[at]))
    return End(banks, lost)


def check_left(after: Outcome, left: Sequence[int]) -> None:
    """Fails where the program's estates less its receipts are not the cash that is said to be left."""
    receipts = dict.fromkeys(after.standings.column("bank"), 0)
    for creditor, paid in zip(after.payments.column("creditor"), after.payments.column("paid")):
        receipts[creditor] += paid
    if [estate - got for estate, got in zip(after.standings.column("estate"), receipts.values())] != list(left):
        raise runner.ToolError("what a shock leaves of the cash is not what `clearing stress` says")
