"""What the tests of the tools that ask what would break a network share: networks, the commands, and how a tool runs on
a program that does something else."""
import os
import shlex
import subprocess
from typing import Any, Iterator, List, Tuple

from common import EXAMPLES, PROGRAM, Case, Word, files_of, run_of

# The smallest network with all that counts: A owes outside too, B hangs on A, C on B, and D stands alone.
SMALL_BANKS = "name,cash,rule,outside\nA,12,webster,4\nB,3,equal,0\nC,2,order,1\nD,5,adams,0\n"
SMALL_DEBTS = "debtor,creditor,class,claim\nA,B,1,6\nA,C,2,3\nB,C,1,4\nB,A,2,3\nC,A,1,2\nC,D,1,3\n"
ASKED = "breaking|impact|rescues|outcomes"
"""The tasks that the tools ask many times or for long, as a shell matches them."""


class AnalysisCase(Case):
    """A case that asks tools about networks."""

    def small(self) -> List[Word]:
        """The words for the smallest network."""
        banks, debts = self.file("small-banks.csv", SMALL_BANKS), self.file("small-debts.csv", SMALL_DEBTS)
        return ["--banks", banks, "--debts", debts]

    def short(self) -> List[Word]:
        """The same with banks in default."""
        banks = self.file("short-banks.csv", SMALL_BANKS.replace("A,12,", "A,5,"))
        return ["--banks", banks, *self.small()[2:]]

    def generated(self) -> List[Word]:
        """A network of 200 banks, some of them in default."""
        banks, debts = self.file("g-banks.csv"), self.file("g-debts.csv")
        self.made("clearing-gen-files", "--seed", 5, "--size", 200, "--tries", 500, "--banks", banks, "--debts", debts)
        return ["--banks", banks, "--debts", debts]

    def networks(self) -> Iterator[Tuple[str, List[Word]]]:
        """Networks of several kinds, each with what it is called."""
        for folder in EXAMPLES:
            if folder.name in ("twelve-banks", "core"):
                yield folder.name, files_of(folder)
        yield "small", self.small()
        yield "short", self.short()
        yield "generated", self.generated()

    def commands(self) -> List[List[Any]]:
        """Each tool with what it wants beside a network."""
        past = self.file("past.csv", "year,cut\n2001,10\n2008,600\n")
        return [
            ["clearing-breaking"],
            ["clearing-impact"],
            ["clearing-rescues"],
            ["clearing-draws", "--past", past, "--draws", "9"],
        ]

    def with_program(self, script: str, name: str, *words: Word, **more: Any) -> "subprocess.Popen[bytes]":
        """A run of a tool that goes on, where what a script of the shell does comes before what the program does; with
        what subprocess.Popen takes besides."""
        program = self.executable("program", f'{script}\nexec {shlex.quote(PROGRAM)} "$@"\n')
        running = subprocess.Popen(
            [*run_of(name), *map(str, words)],
            env={**os.environ, "CLEARING": str(program)},
            stdin=subprocess.DEVNULL,
            stdout=subprocess.PIPE,
            stderr=subprocess.PIPE,
            **more,
        )
        for stream in (running.stdout, running.stderr):
            assert stream
            self.addCleanup(stream.close)
        return running
