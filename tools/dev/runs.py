#!/usr/bin/env python3
"""Makes the table of what was run from docs/runs.tsv.

    tools/dev/runs.py            prints the table
    tools/dev/runs.py --write    puts it into docs/PROVED.md, in the place of the one that stands there

In:  docs/runs.tsv, to which the scripts of tests/system add a line where they are started with --record.
Out: a row for each program, the newest first: when it was run, the commit of its sources, its checksum, and for each
     script the cases that all its runs tried, and how many of them were wrong. A file that says none of a commit or a
     program knows none; runs without a commit stand together in one row, the last. Each script that can add a line has
     a column, with a dash where it has not.

Ends with 0, or with 1 and a message where the file is not in its form, or the document has no place for the table.
"""
import argparse
import pathlib
import re
import sys
from typing import Dict, List, NamedTuple, Tuple

DOCS = pathlib.Path(__file__).resolve().parents[2] / "docs"
HEADER = ["date", "commit", "program", "script", "arguments", "cases", "wrong"]
# The scripts that add lines: each has its column, so that a reader sees of which no run is recorded.
SCRIPTS = (
    "allocations.sh", "compare.sh", "edge.sh", "edits.py", "mutations.sh", "races.sh", "same_build.sh", "test.sh",
)
# A line below the head. Of programs that were run before there was this file the first digits are known, or nothing.
LINE = re.compile(r"\d{4}-\d\d-\d\d\t([0-9a-f]{40}|none)\+?\t([0-9a-f]{64}|[0-9a-f]{8}|none)\t"
                  r"\w+\.(sh|py)\t[^\t]*\t[0-9]+\t[0-9]+")
# The table in the document: what begins with its head.
PLACE = re.compile(r"^\| date \|.*\n(?:\|.*\n)+", re.MULTILINE)


Row = Dict[str, str]
"""A line of the file: what it has in each column."""


class Count(NamedTuple):
    """The cases that runs of a script tried, and how many of them were wrong."""

    tried: int = 0
    wrong: int = 0


Sums = Dict[str, Count]
"""By script what all runs of a program come to."""


def rows_of(text: str) -> List[Row]:
    """The lines of the file below its head. Ends the script where one is not in its form."""
    head, *lines = text.splitlines()
    if head.split("\t") != HEADER:
        sys.exit("runs.py: docs/runs.tsv has another head")
    for number, line in enumerate(lines, 2):
        if not LINE.fullmatch(line):
            sys.exit(f"runs.py: line {number} of docs/runs.tsv is not in its form")
    return [dict(zip(HEADER, line.split("\t"))) for line in lines]


def sums_of(rows: List[Row]) -> List[Tuple[Row, Sums]]:
    """For each program, newest first, its last row, and the sums of all its runs. Runs of which no commit is known are
    taken for those of one program, the oldest."""
    programs: Dict[str, Tuple[Row, Sums]] = {}
    for row in sorted(rows, key=lambda row: row["commit"] != "none"):
        if row["commit"] == "none":
            row = {**row, "program": "none"}
        sums = programs.pop(row["program"])[1] if row["program"] in programs else {}
        before = sums.get(row["script"], Count())
        sums[row["script"]] = Count(before.tried + int(row["cases"]), before.wrong + int(row["wrong"]))
        programs[row["program"]] = (row, sums)
    return list(programs.values())[::-1]


def cell(sums: Sums, script: str) -> str:
    """The cases of a script; a dash where it tried none."""
    tried = sums.get(script, Count()).tried
    return f"{tried:,}" if tried else "-"


def table_of(rows: List[Row]) -> str:
    """The table, as Markdown."""
    scripts = sorted({row["script"] for row in rows} | set(SCRIPTS))
    lines = ["| date | commit | program | " + " | ".join(f"`{script}`" for script in scripts) + " | wrong |"]
    lines.append("|---" * (len(scripts) + 4) + "|")
    for row, sums in sums_of(rows):
        commit, program = row["commit"][:7] + "+" * row["commit"].endswith("+"), row["program"][:8]
        named = " | ".join("-" if name == "none" else f"`{name}`" for name in (commit, program))
        wrong = sum(count.wrong for count in sums.values())
        cells = " | ".join(cell(sums, script) for script in scripts)
        lines.append(f"| {row['date']} | {named} | {cells} | {wrong:,} |")
    return "\n".join(lines) + "\n"


def main() -> None:
    """Prints the table, or puts it into the document."""
    words = argparse.ArgumentParser(description=__doc__, formatter_class=argparse.RawDescriptionHelpFormatter)
    words.add_argument("--write", action="store_true", help="put the table into docs/PROVED.md")
    table = table_of(rows_of((DOCS / "runs.tsv").read_text(encoding="utf-8")))
    if not words.parse_args().write:
        print(table, end="")
        return
    page = DOCS / "PROVED.md"
    text = page.read_text(encoding="utf-8")
    if len(PLACE.findall(text)) != 1:
        sys.exit("runs.py: docs/PROVED.md has no table of runs, or several")
    page.write_text(PLACE.sub(lambda _: table, text), encoding="utf-8")


if __name__ == "__main__":
    main()
