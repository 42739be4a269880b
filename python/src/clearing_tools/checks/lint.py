"""Names all faults of a banks file and a debts file at once, and of scenarios or a journal, each with a hint.

In:  FOLDER, a case, or --banks FILE and --debts FILE, the two files as `clearing` reads them (docs/FORMATS.md), of any
     content; with --scenarios FILE also the scenarios of `clearing stress`, with --journal FILE the journal of
     `clearing replay`.
Out: on standard output a line for each fault, in the order in which `clearing` looks for them, and a last line with
     their number. A line has the file, the line and the row (the header is row 0), the field, the kind and number of
     the fault as `clearing` names it, what is wrong, and, where one is known, what to do.

A name that the program takes may still be there to mislead: one with signs that are not seen, such as the marks of
direction, one that a spreadsheet takes for a formula, as it begins with =, +, - or @, one with letters of several
scripts, such as a Cyrillic a among Latin letters, and two that look the same. Each has a line `warning`, behind the
faults; warnings are counted in the last line, and change no status.

It accepts exactly the files that `clearing check`, `stress` or `replay` accepts by the same limits, and the first fault
that it names is the one that `clearing` does, but for some scenarios (below); whether the raises of a journal are
lawful is for `replay` to say. What follows from a fault already named is left out where it can be: a bank whose record
is faulty counts as a bank for the debts, and below a header that says something else altogether nothing is looked at.

--scenarios needs Python 3.11 or later, whose module tomllib reads the file. Where that knows TOML 1.0 alone, what
TOML 1.1 added is refused here, though the program reads it: the escape \\x41, and a line break or a last comma within
the braces of an inline table. A file that neither accepts may have another first fault here, for the escape \\e, a time
without seconds, a number such as 1e999, or thousands of tables or points that no scenario has.

Ends with 0 where there is no fault, with 1 where there are some, with 2 where the words are not understood, with 3
where a file cannot be read, and with 5 where the output cannot be written.
"""
from __future__ import annotations

import io
import os
import sys
from typing import Mapping

from clearing_client.format import NUMBERS
from clearing_client.limits import LIMITS, STANDARD

from .. import cases, cli
from ..labels import count
from ..runner import ToolError, command
from .findings import Fault
from .linter import Linter


def line_of(fault: Fault, files: Mapping[str, str]) -> str:
    """A fault as a line, with the name of its file."""
    line = f" line {fault.line}" if fault.line else ""
    place = f"{files[fault.file]}{line} (row {fault.row})"
    field = f" {fault.field}" if fault.field else ""
    hint = f"; {fault.hint}" if fault.hint else ""
    kind = f"{fault.kind} ({NUMBERS[fault.kind]})" if fault.kind in NUMBERS else fault.kind
    return f"{place}{field}: {kind}: {fault.what}{hint}"


def content_of(file: str, name: str, limits: str = STANDARD) -> bytes:
    """The bytes of a file, or one more than the limit of a longer one."""
    try:
        with open(name, "rb") as opened:
            return opened.read(LIMITS[limits].bytes[file] + 1)
    except OSError as error:
        raise ToolError(f"cannot read {name}: {error.strerror}", 3) from error


@command("lint")
def main() -> int:
    """The command."""
    parser = cli.case_parser(__doc__)
    parser.add_argument("--scenarios", metavar="FILE", help="the scenarios file")
    parser.add_argument("--journal", metavar="FILE", help="the journal file")
    args = parser.parse_args()
    taken = cases.take_case(parser, args)
    if taken.scenarios and sys.version_info < (3, 11):
        parser.error(f"--scenarios needs Python 3.11 or later, and {sys.executable} is {sys.version.split()[0]}")
    named = {"banks": taken.banks, "debts": taken.debts, "scenarios": taken.scenarios, "journal": args.journal}
    files = {file: name for file, name in named.items() if name is not None}
    contents = {file: content_of(file, name, taken.limits) for file, name in files.items()}
    linter = Linter(limits=taken.limits, **contents)
    faults, warnings = linter.faults, list(linter.warnings())
    counts = (count(len(faults), "fault") if faults else "no fault") + (
        f", {count(len(warnings), 'warning')}" if warnings else ""
    )
    if isinstance(sys.stdout, io.TextIOWrapper):
        sys.stdout.reconfigure(encoding="utf-8", errors="backslashreplace")
    try:
        print("\n".join([line_of(fault, files) for fault in faults + warnings] + [counts]), flush=True)
    except BrokenPipeError:
        # A reader who has seen enough is no fault.
        os.dup2(os.open(os.devnull, os.O_WRONLY), sys.stdout.fileno())
    return 1 if faults else 0
