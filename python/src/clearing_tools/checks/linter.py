"""All faults of two files and a third, in the order in which the program looks for them, and what is odd in their
names."""
from __future__ import annotations

from typing import Iterator, List

from clearing_client.limits import STANDARD

from . import names
from .findings import Fault, Findings
from .journal_checks import check_journal
from .network_checks import check_banks, check_debts
from .scenario_checks import check_scenarios

CHECKS = {"banks": check_banks, "debts": check_debts, "scenarios": check_scenarios, "journal": check_journal}


class Linter:
    """The faults of two files and a third, by some limits. Each file is looked at by what is known of those before."""

    def __init__(self, banks: bytes, debts: bytes, limits: str = STANDARD, **third: bytes) -> None:
        self.found = Findings(limits)
        files = {"banks": banks, "debts": debts, **third}
        for file in [file for file, data in files.items() if self.found.is_small(file, data)]:
            CHECKS[file](self.found, files[file])

    @property
    def faults(self) -> List[Fault]:
        """The faults, in the order in which the program looks for them."""
        return self.found.faults

    def warnings(self) -> Iterator[Fault]:
        """What is odd in names, though the program takes them."""
        for file, named in self.found.named.items():
            records = list(named.values())
            for at, what in names.oddities(list(named)):
                yield Fault(file, records[at].line, records[at].row, "name", "warning", what)
