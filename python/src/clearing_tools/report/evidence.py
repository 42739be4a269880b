"""The evidence of a report: the files given, the commands and what they printed, each with its checksum, and the
verdict on the journal."""
import os
import pathlib
import sys
import time
from typing import Dict, List, Optional, Sequence

from clearing_client import description
from clearing_client.limits import MOST
from clearing_client.results import Verdict as Judged

from .. import cases, labels
from ..evidence import versions
from ..runner import ToolError, printed_by
from .program import Program, as_given, line_of, sum_of
from .records import Evidence, Given, Verdict

UNLAWFUL = 7  # the status of `clearing replay` on a journal that is not lawful


def inputs_of(taken: cases.Taken, others: Dict[str, Optional[str]]) -> List[Given]:
    """The files given, each with what it is, its name, size and checksum; `others` are those beside the case, by what
    they are. What is longer than any such file is left to the program to refuse."""
    names: Dict[str, Optional[str]] = {"banks": taken.banks, "debts": taken.debts, "scenarios": taken.scenarios}
    names.update(others)
    return [
        Given(what, name, os.path.getsize(name), sum_of(name))
        for what, name in names.items()
        if name and os.path.isfile(name) and os.path.getsize(name) <= max(MOST.bytes.values())
    ]


def check_same(before: Sequence[Given], after: Sequence[Given]) -> None:
    """Fails where a file was changed between two looks at it."""
    changed = [one.name for one, other in zip(before, after) if one != other]
    if changed:
        raise ToolError(f"{labels.listed(changed)} changed while the report was made; nothing is written")


def evidence_of(program: Program, inputs: Sequence[Given], verdict: Verdict) -> Evidence:
    """What another person needs to do it again: inputs, program, commands, each with its checksum."""
    executable = program.executable()
    rows = [(what, as_given(name), f"{size:,}", digest) for what, name, size, digest in inputs]
    rows += [("made for a question", path.name, f"{path.stat().st_size:,}", sum_of(path)) for path in program.made]
    return Evidence(
        files=[*rows, ("program", executable.name, f"{executable.stat().st_size:,}", sum_of(executable))],
        commit=versions.commit_of() or "none: the tools are not in a repository",
        toolchain=printed_by("rt", "version") or "none: rt is not on the path",
        commands=[(run.words, run.status, sum_of(run.output)) for run in program.commands],
        verdict=verdict,
        made=time.strftime("%Y-%m-%d %H:%M UTC", time.gmtime(description.seconds())),
        words=line_of(["clearing-report", *sys.argv[1:]]),
    )


def verdict_of(program: Program, payments: pathlib.Path) -> Verdict:
    """Whether the journal is lawful, in words, and whether it makes the same payments."""
    run = next(run for run in program.commands if " replay " in run.words)
    line, _, rest = program.result("replay", Judged, run.output).text.partition("\n")
    if run.status == UNLAWFUL:
        return Verdict(False, line, run.message)
    same = rest.removeprefix("\n") == payments.read_text(encoding="utf-8")
    words = "and makes the payments of this report" if same else "but makes other payments than this report has"
    return Verdict(same, line, words)
