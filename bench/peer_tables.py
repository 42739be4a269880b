"""The table `peer` of bench/measure.py: everything beside an unverified peer, plain Rust that does the same."""
import os
import pathlib
import shutil
import subprocess
from typing import Dict, List, Tuple

import inputs
import timing
from jobs import ONE, Program
from table import Form, Options, Table
from timing import Fault, Times

PEER = pathlib.Path(__file__).resolve().parent / "peer/peer.rs"
NETWORKS = """largest-order largest-webster largest-mixed ordinary tight-order tight-mixed core-order core-mixed
    star-order star-webster ring-10-forward ring-10-reverse ring-1000-forward ring-1000-reverse""".split()
# The runs of the program that are put beside the peer's payments: a task, and words of it.
WAYS: Dict[str, Tuple[str, ...]] = {
    "clear": ("clear",),
    "1 worker": ("clear", *ONE),
    "1 w., 1000 sweeps": ("clear", *ONE, "--sweeps", "1000"),
    "central": ("central",),
}


def built(*more: str) -> str:
    """The peer, built in the current folder with further words of the compiler. A Fault where there is no compiler."""
    if not shutil.which("rustc"):
        raise Fault("rustc is not on the path")
    flags = [*more, "--edition", "2021", "-C", "opt-level=3", "-C", "codegen-units=1", "-C", "panic=abort"]
    subprocess.run(["rustc", *flags, "-o", "peer", PEER], check=True)
    return os.path.abspath("peer")


def peer(program: Program, options: Options) -> None:
    """The payments of networks, and what else is asked for: full files, journals, scenarios."""
    path = built()
    chosen = options.inputs or [*NETWORKS, "full", "both", "stress"]
    names = [name for name in chosen if name not in ("full", "both", "stress")]
    if names:
        payments(program, path, options, names)
    for kind, table in (("full", full_files), ("both", journals), ("stress", scenarios)):
        if kind in chosen:
            table(program, path, options)


def payments(program: Program, path: str, options: Options, names: List[str]) -> None:
    """The payments of networks."""
    table = Table(options, Form("the payments", "peer", [*WAYS], memory=["1 worker", "peer"], more=["same"]))
    for name in names:
        jobs = {"peer": [path, "clear", *inputs.made(name)]}
        jobs.update({way: program.words(task, name, *more) for way, (task, *more) in WAYS.items()})

        def same(best: Times, jobs: timing.Jobs = jobs) -> str:
            """Whether all runs that ended in time print what the peer prints."""
            told = {timing.same(jobs[way], jobs["peer"], options.limit) for way in WAYS if best[way]}
            return "NO" if "NO" in told else "yes" if "yes" in told else "-"

        table.row(name, jobs, more=[same])


class Beside:
    """A table of the program beside its peer."""

    def __init__(self, title: str, path: str, options: Options) -> None:
        """A table of this title, with the peer at a path."""
        self.path, self.limit = path, options.limit
        self.table = Table(options, Form(title, "peer", ["program"], memory=["program", "peer"], more=["same"]))

    def row(self, label: str, words: List[str], peer_words: List[str], compare: bool = True) -> None:
        """Adds a row: the words of the program, those of the peer after its name, and whether both are to print the
        same."""
        both = {"peer": [self.path, *peer_words], "program": words}
        more = [lambda _: timing.same(words, both["peer"], self.limit) if compare else "-"]
        self.table.row(label, both, more=more)


def full_files(program: Program, path: str, options: Options) -> None:
    """Debts files as long as a file may be."""
    table = Beside("debts files of 8,388,608 bytes, check", path, options)
    for name in inputs.FULL:
        table.row(name, program.words("check", name), ["clear", *inputs.made(name)], compare=False)


def journals(program: Program, path: str, options: Options) -> None:
    """Payments with their journal, by one worker and by four, which may leave another one each time."""
    table = Beside("payments and journal, --show both", path, options)
    for name in ("long-journal", "tight-order", "core-mixed", "largest-order"):
        for count, sweeps in (("1", "1"), ("1", "1000"), ("4", "1")):
            words = program.words("clear", name, "--workers", count, "--sweeps", sweeps, "--show", "both")
            peer_words = ["run", *inputs.made(name), count, sweeps, "both"]
            table.row(f"{name}, {count} workers, {sweeps} sweeps", words, peer_words, compare=count == "1")


def scenarios(program: Program, path: str, options: Options) -> None:
    """A journal replayed, and a hundred scenarios by one worker and by four."""
    table = Beside("a journal, a hundred scenarios", path, options)
    words = program.words("clear", "long-journal", *ONE, "--sweeps", "1000", "--show", "journal")
    journal = program.kept("journal.csv", words)
    words = program.words("replay", "long-journal", "--journal", journal)
    table.row("replay, long-journal", words, ["replay", *inputs.made("long-journal"), journal])
    for count in ("1", "4"):
        words = program.words("stress", "largest-order", "--scenarios", inputs.cuts(), "--workers", count)
        peer_words = ["stress", *inputs.made("largest-order"), str(inputs.SCENARIOS)]
        table.row(f"stress, largest-order, {count} workers", words, peer_words)
