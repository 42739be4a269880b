"""The command line of the program: its tasks, the options that each requires or allows, and what the value of each
option is. `clearing-why` judges words by it, and tools/dev/completions.py makes the completions of it."""
from __future__ import annotations

from typing import Dict, List, NamedTuple, Tuple, Union

from clearing_client.format import MAX_KEEP, MAX_SEED, MAX_SIZE, MAX_SWEEPS, MAX_TRIES, MAX_WORKERS
from clearing_client.limits import LIMITS

Value = Union[str, List[str], Tuple[int, int]]
"""What the value of an option is: the name of a `file` or a `bank`, one of some words, or a number from one to
another."""


class Option(NamedTuple):
    """An option: what it is in a few words, and its value."""

    about: str
    value: Value


class Task(NamedTuple):
    """A task: what it prints in a few words, the options that it requires, and those that it allows besides."""

    about: str
    required: List[str]
    allowed: List[str]

    @property
    def options(self) -> List[str]:
        """All options of the task, in the order of the table of options."""
        return [name for name in OPTIONS if name in self.required + self.allowed]


OPTIONS: Dict[str, Option] = {
    "banks": Option("the banks file", "file"),
    "debts": Option("the debts file", "file"),
    "scenarios": Option("the scenarios, in TOML", "file"),
    "journal": Option("the journal", "file"),
    "bank": Option("the bank to be saved", "bank"),
    "workers": Option("1 to 64", (1, MAX_WORKERS)),
    "sweeps": Option("1 to 1000", (1, MAX_SWEEPS)),
    "show": Option("what is printed", ["payments", "journal", "both"]),
    "seed": Option("the number", (0, MAX_SEED)),
    "size": Option("1 to 1000 banks", (1, MAX_SIZE)),
    "tries": Option("0 to 20000 tries at a debt", (0, MAX_TRIES)),
    "keep": Option("0 to 1000 per mille", (0, MAX_KEEP)),
    "limits": Option("the limits of the network", list(LIMITS)),
}
"""The options, in the order in which they are told."""

FILES, BY, RUN = ["banks", "debts"], ["limits"], ["workers", "sweeps"]
TASKS: Dict[str, Task] = {
    "check": Task("the counts of the network, and both files as they are printed", FILES, BY),
    "clear": Task("the least payments, the journal of the run, or both", FILES, [*RUN, "show", *BY]),
    "central": Task("the same payments, computed on one thread", FILES, BY),
    "defaults": Task("who defaults, and whether it is its own doing", FILES, RUN + BY),
    "stress": Task("the payments and defaults of each scenario", [*FILES, "scenarios"], RUN + BY),
    "replay": Task("whether a journal is lawful and complete", [*FILES, "journal"], BY),
    "gen": Task("a network made from a number", ["seed", "size", "tries"], RUN),
    "convert": Task("the banks file in its second form", FILES, BY),
    "bounds": Task("the least and the greatest payments", FILES, RUN + BY),
    "rescue": Task("the least sum of cash that saves a bank", [*FILES, "bank"], RUN + BY),
    "compress": Task("the debts with cycles cancelled", FILES, BY),
    "costs": Task("where an estate in default is worth only a part", [*FILES, "keep"], BY),
    "breaking": Task("the least cut of all cash that breaks each bank", FILES, BY),
    "impact": Task("what the loss of the cash of each bank costs it and others", FILES, BY),
    "rescues": Task("the least sum for each bank in default, and whom it saves besides", FILES, BY),
    "outcomes": Task("the sums of each scenario, and how often each bank defaults", [*FILES, "scenarios"], BY),
    "cost-bounds": Task("the least and the greatest payments where it is so", [*FILES, "keep"], BY),
}
"""The tasks, in the order in which they are told."""
