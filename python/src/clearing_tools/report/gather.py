"""What is asked of the program for a report on a case, in the order in which its commands stand among the evidence."""
import pathlib
import re
from typing import Dict, List, NamedTuple, Optional, Sequence, Type, TypeVar

from clearing_client.case import Case
from clearing_client.limits import LIMITS, MOST, STANDARD, words_of
from clearing_client.results import Bounds, Breaking, Check, Impact, Rescues, Result

from .. import cases, labels, texts
from ..runner import seen, version
from ..stress_text import read_stress
from .costs import costs_of
from .evidence import UNLAWFUL, check_same, evidence_of, inputs_of, verdict_of
from .journal import frames_of, read_journal
from .matter import Matter, in_sentence
from .original import Original, read_files
from .program import Program
from .records import Head, Scenario
from .rescues import rescues_of
from .stands import changes_of

Answer = TypeVar("Answer", bound=Result)
TESTS = {"liquidity": "liquidity test", "solvency": "solvency test"}
MAY_END = (0, UNLAWFUL)  # how `clearing replay` may end


class Beside(NamedTuple):
    """The files that are given beside a case, where they are: the journal of a run, the full names of banks, and what
    was changed against other files."""

    journal: Optional[str] = None
    labels: Optional[str] = None
    changes: Optional[str] = None


def journal_of(program: Program, names: Sequence[str], journal_file: Optional[str]) -> pathlib.Path:
    """The file of the journal that is played, judged by `clearing replay`."""
    if journal_file:
        program.ask("replay.csv", "replay", *names, "--journal", journal_file, may_end=MAY_END)
        return pathlib.Path(journal_file)
    journal = program.ask("journal.csv", "clear", *names, "--show", "journal", "--workers", "1")
    program.ask("replay.csv", "replay", *names, "--journal", "/dev/stdin", source=journal, may_end=MAY_END)
    return journal


def scenarios_of(
    program: Program, names: Sequence[str], scenarios_file: Optional[str], outside: Dict[str, int]
) -> Optional[List[Scenario]]:
    """The scenarios: the name, the banks in file order and the cash that is left; nothing where none was asked for."""
    if not scenarios_file:
        return None
    stress = program.ask("stress.csv", "stress", *names, "--scenarios", scenarios_file)
    if not stress.stat().st_size:
        return []
    scenarios = program.read("stress", lambda path: read_stress(path, outside), stress)
    # What the banks had then: a bank's estate is its cash and its receipts, and what is received is what others pay
    # in the network.
    sums = [sum(bank.estate - bank.paid for bank in scenario.banks.values()) for scenario in scenarios]
    return [Scenario(scenario.name, list(scenario.banks.values()), cash) for scenario, cash in zip(scenarios, sums)]


def lines_changed(name: Optional[str]) -> List[str]:
    """What was changed against other files, a line each; none where no file says so."""
    if name is None:
        return []
    text = pathlib.Path(name).read_bytes()[: MOST.bytes["scenarios"]].decode("utf-8", "backslashreplace")
    lines = [line for line in text.removeprefix("\ufeff").replace("\r\n", "\n").split("\n") if line.strip()]
    # What holds a name apart stays.
    apart = re.compile("([\u2068\u2069])")
    return [
        "".join(part if apart.fullmatch(part) else seen(part) for part in apart.split(line)) for line in lines
    ]


def head_of(case: Case, banks: int) -> Head:
    """What the case says of itself."""
    title = case.title or f"Clearing of {labels.count(banks, 'bank')}"
    as_of = f"{case.as_of.day} {case.as_of:%B %Y}" if case.as_of else ""
    program = f"clearing {version()}".strip()
    return Head(title, case.description, as_of, TESTS.get(case.test or "", ""), case.author, program)


class Gathering:
    """What is asked of the program for a report on a case, in the order in which its commands stand among the
    evidence."""

    def __init__(self, taken: cases.Taken, beside: Beside, folder: str) -> None:
        self.case, self.taken, self.beside = taken.case, taken, beside
        self.inputs = inputs_of(taken, beside._asdict())
        self.program = Program(folder)
        self.names = ["--banks", taken.banks, "--debts", taken.debts, *words_of(taken.limits)]
        self.known = self.result("check", Check).banks
        self.cash = {bank.name: bank.cash for bank in self.known}
        self.outside = {bank.name: bank.outside for bank in self.known}
        self.clear()
        self.play()
        self.scenarios = scenarios_of(self.program, self.names, taken.scenarios, self.outside)
        self.saved, self.impact = self.result("rescues", Rescues), self.result("impact", Impact)
        self.breaking = self.result("breaking", Breaking)
        self.costs = costs_of(self.program, self.names, self.case.keep, self.banks, sum(self.cash.values()))
        both = taken.banks, taken.debts
        original = Original(self.program, read_files(*both), both, taken.limits)
        self.rescues = rescues_of(original, self.banks, self.saved)
        self.full = cases.names_of(self.case).check(self.cash)
        self.changed = changes_of(original, self.banks, self.bounds, lambda name: in_sentence(self.full, name))
        check_same(self.inputs, inputs_of(taken, beside._asdict()))

    def result(self, task: str, kind: Type[Answer]) -> Answer:
        """The result of a task on the two files."""
        return self.program.result(task, kind, self.program.ask(f"{task}.csv", task, *self.names))

    def clear(self) -> None:
        """The payments, how the banks stand, and the greatest payments."""
        self.payments = self.program.ask("payments.csv", "clear", *self.names)
        defaults = self.program.ask("defaults.csv", "defaults", *self.names)
        self.bounds = self.result("bounds", Bounds)
        self.debts = self.program.read("clear", texts.read_payments, self.payments)
        banks = self.program.read("defaults", lambda path: texts.read_banks(path, self.outside), defaults)
        self.banks = texts.with_gridlock(banks, {wave.bank for wave in self.bounds.waves if wave.gridlock})

    def play(self) -> None:
        """The verdict on the journal, and its steps. The journal of a network beyond the standard limits is judged, and
        too long to be played."""
        journal = journal_of(self.program, self.names, self.beside.journal)
        self.verdict = verdict_of(self.program, self.payments)
        place = {(debt.debtor, debt.creditor, str(debt.class_)): at for at, debt in enumerate(self.debts)}
        is_played = self.verdict.is_lawful and len(self.debts) <= LIMITS[STANDARD].debts
        self.frames = frames_of(read_journal(journal, place)) if is_played else None

    def matter(self) -> Matter:
        """All that the report says."""
        least, greatest = (sum(self.bounds.payments.column(word)) for word in ("least", "greatest"))
        return Matter(
            head=head_of(self.case, len(self.banks)),
            money=self.taken.money,
            banks=self.banks,
            names=self.full,
            cash=self.cash,
            rules={bank.name: bank.rule for bank in self.known},
            debts=self.debts,
            more=greatest - least,
            rescues=self.rescues,
            ruins=list(self.impact.banks),
            harms=list(self.impact.pairs),
            cuts=list(self.breaking.cuts),
            costs=self.costs,
            scenarios=self.scenarios,
            changed=self.changed,
            frames=self.frames,
            changes=lines_changed(self.beside.changes),
            evidence=evidence_of(self.program, self.inputs, self.verdict),
        )
