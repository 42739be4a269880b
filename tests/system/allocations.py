"""Refuses each allocation of a run in turn, for tests/system/allocations.sh, which says what is right.

allocations.py PROGRAM BANK SIZE TRIES TASK..

Works in the current folder, which has the files of a network, scenarios and a journal, and refuse.so. BANK is the
bank to be saved; SIZE and TRIES are words of `gen`. Writes told.txt, which has the counts, and a file `interrupted`
where it was.
"""
import os
import pathlib
import signal
import sys
from typing import Dict, List

sys.dont_write_bytecode = True
from running import Runner

LIMIT = 60  # seconds of a run
FILES = ["--banks", "banks.csv", "--debts", "debts.csv"]
REFUSED = (6, b"", b"clearing: out of memory\n")


def jobs_of(task: str, bank: str, size: str, tries: str) -> List[List[str]]:
    """The jobs that are tried of a task."""
    each: Dict[str, List[List[str]]] = {
        "clear": [[], ["--show", "both", "--workers", "1"], ["--show", "both", "--workers", "2"]],
        "defaults": [["--workers", "1"], ["--workers", "2"]],
        "bounds": [["--workers", "1"], ["--workers", "2"]],
        "rescue": [[f"--bank={bank}"]],
        "costs": [["--keep", "500"]],
        "cost-bounds": [["--keep", "500"]],
        "stress": [["--scenarios", "scenarios.toml"]],
        "outcomes": [["--scenarios", "scenarios.toml"]],
        "replay": [["--journal", "journal.csv"]],
    }
    if task == "gen":
        return [["gen", "--seed", "7", "--size", size, "--tries", tries]]
    return [[task, *FILES, *more] for more in each.get(task, [[]])]


class Refusals:
    """Runs of a program in which allocations are refused, and how many of them were wrong."""

    def __init__(self, program: str) -> None:
        self.runner, self.cases, self.wrong, self.ended = Runner(program, LIMIT), 0, 0, False
        self.environment = {**os.environ, "LD_PRELOAD": os.path.abspath("refuse.so")}

    def end(self, *_: object) -> None:
        """Ends all after the run under way."""
        self.ended = True

    def fails(self, words: List[str], what: str) -> None:
        """Counts a wrong run, and tells what is wrong."""
        self.wrong += 1
        print(f"wrong: {' '.join(words)}: {what}", flush=True)

    def is_whole(self, words: List[str], out: bytes, whole: bytes) -> bool:
        """Whether an output is the whole text. With more than one worker the journal may be another one, so it is
        replayed."""
        if words[-4:] != ["--show", "both", "--workers", "2"]:
            return out == whole
        paid, _, journal = out.partition(b"\n\n")
        pathlib.Path("out-journal.csv").write_bytes(journal)
        status, replayed, _ = self.runner.run(["replay", *FILES, "--journal", "out-journal.csv"])
        return (
            paid == whole.partition(b"\n\n")[0]
            and journal.splitlines()[-1].startswith(b"rounds,")
            and status == 0
            and replayed.partition(b"\n\n")[2] == paid + b"\n"
        )

    def job(self, words: List[str]) -> None:
        """Refuses each allocation of a job in turn, alone and with all after it."""
        status, whole, told = self.runner.run(words, {**self.environment, "COUNT": "count"})
        if (status, told) != (0, b""):
            self.cases += 1
            self.fails(words, f"status {status} where nothing is refused: {told!r}")
            return
        count = int(pathlib.Path("count").read_text())
        ways: List[Dict[str, str]] = [{}, {"LASTING": "1"}]
        for lasting in ways:
            refused = without = 0
            for number in range(1, count + 1):
                if self.ended:
                    return
                got = self.runner.run(words, {**self.environment, "REFUSE": str(number), **lasting})
                self.cases += 1
                if got == REFUSED:
                    refused += 1
                elif got[0] == 0 and not got[2] and self.is_whole(words, got[1], whole):
                    without += 1
                else:
                    after = " and all after it" if lasting else ""
                    self.fails(
                        words,
                        (
                            f"allocation {number} refused{after}: status {got[0]}, {len(got[1])} bytes written;"
                            f" {got[2][:80]!r}"
                        ),
                    )
            after = ", all from one on" if lasting else ""
            print(
                (
                    f"{' '.join(words)}: {count} allocations{after}: {refused} times status 6 and no output,"
                    f" {without} times done without"
                ),
                flush=True,
            )


def main(program: str, bank: str, size: str, tries: str, *tasks: str) -> int:
    """Tries the jobs of the tasks, and tells whether one was wrong."""
    refusals = Refusals(program)
    for number in (signal.SIGINT, signal.SIGTERM):
        signal.signal(number, refusals.end)
    for task in tasks:
        for words in jobs_of(task, bank, size, tries):
            refusals.job(words)
    pathlib.Path("told.txt").write_text(f"{refusals.cases} cases, {refusals.wrong} wrong\n")
    if refusals.ended:
        pathlib.Path("interrupted").touch()
    return 1 if refusals.wrong else 0


if __name__ == "__main__":
    sys.exit(main(*sys.argv[1:]))
