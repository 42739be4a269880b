"""What is measured: the words of the program's runs, by the names of tasks and networks."""
import os
import pathlib
import subprocess
from typing import Dict, List, NamedTuple, Optional, Sequence, Tuple

import inputs
from timing import Fault

ROOT = pathlib.Path(__file__).resolve().parents[1]
ONE = ("--workers", "1")
WIDELY = ("--limits", "wide")


class Program:
    """The words of the program's runs."""

    def __init__(self, named: Optional[str] = None) -> None:
        """The program of a name, else that of the environment variable CLEARING, else the repository's, which is built
        first, if need be. A Fault where there is none, or where it is a first look."""
        named = named or os.environ.get("CLEARING")
        if named:
            self.path = os.path.realpath(named)
            if os.path.basename(self.path) == "first-look":
                raise Fault(f"{named} is a first look, which is not proved")
        else:
            subprocess.run([ROOT / "clearing"], stdin=subprocess.DEVNULL, capture_output=True)
            self.path = str(ROOT / "crates/clear_main/out/clear_main")
        if not os.access(self.path, os.X_OK):
            raise Fault("the program is not built")

    def on(self, task: str, files: inputs.Pair, *more: str) -> List[str]:
        """A task on two files, with further words."""
        return [self.path, task, "--banks", files[0], "--debts", files[1], *more]

    def words(self, task: str, name: str, *more: str) -> List[str]:
        """A task on a network of bench/inputs.py, whose files are made first, with further words."""
        return self.on(task, inputs.made(name), *more)

    def kept(self, path: str, words: List[str]) -> str:
        """Runs the program with its output in a file, which it names."""
        with open(path, "wb") as file:
            subprocess.run(words, stdin=subprocess.DEVNULL, stdout=file, check=True)
        return path


def states_of(program: Program, name: str) -> Dict[str, str]:
    """The names of the banks of a network, in file order, each with its state."""
    done = subprocess.run(program.words("defaults", name, *ONE), capture_output=True, encoding="utf-8", check=True)
    rows = [line.split(",") for line in done.stdout.splitlines()[1:-2]]
    return {row[0]: row[-1] for row in rows}


class Tasks(NamedTuple):
    """Runs of tasks on one network: the words of each, and the states of its banks, by their names."""

    jobs: Dict[str, List[str]]
    states: Dict[str, str]


def jobs_of_tasks(program: Program, columns: Sequence[str], name: str) -> Tasks:
    """The runs of `clear` by one worker and of some tasks on a network. `rescue` saves the last bank that defaults,
    or the first bank where none does, and `replay` has the journal that `clear` prints."""
    journal = program.kept(f"{name}-journal.csv", program.words("clear", name, "--show", "journal", *ONE))
    states = states_of(program, name)
    short = [bank for bank, state in states.items() if state != "sound"]
    more: Dict[str, Tuple[str, ...]] = {
        "replay": ("--journal", journal),
        "defaults": ONE,
        "stress": ("--scenarios", inputs.cuts(), *ONE),
        "outcomes": ("--scenarios", inputs.cuts()),
        "rescue": ("--bank", short[-1] if short else next(iter(states)), *ONE),
        "costs": ("--keep", "500"),
        "cost-bounds": ("--keep", "500"),
        "bounds": ONE,
    }
    jobs = {"clear": program.words("clear", name.replace("dry-", "one-"), *ONE)}
    jobs.update({task: program.words(task, name, *more.get(task, ())) for task in columns})
    return Tasks(jobs, states)
