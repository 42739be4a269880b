"""Works with cases: folders with a network and what belongs to it.

In:  TASK, and the folder of a case, with banks.csv and debts.csv, and, where they are there, scenarios.toml,
     labels.csv, sources/ and datapackage.json, the description by the Data Package standard of Frictionless Data,
     version 2. A folder with the two files alone is a case too. Importers write one by --case FOLDER. Most tools that
     take --banks and --debts take one in their place, and others take it by --case; clearing-audit and clearing-shock,
     which stand alone, take the two files in it.
Out: on standard output, or in --output FILE, what the task says; TASK --help has the words of each task.

show       what the case is: title, date, currency, unit, sums, sources, what the import did, and its text
check      the description by its schema, the files by their checksums, and all faults of the files, as lint names them
refresh    describes the files anew, after they were changed by hand; its options change what the description says
scenarios  makes scenarios.toml of a sheet: a scenario a column (or a row, --rows), a bank a row, and what it loses, as
           an amount or as a share of its cash (--share); what was rounded is told
compare    two cases side by side: who falls and who is saved, what each bank pays, keeps and owes more or less, who
           came and who went
ensemble   what tasks say over many networks: least, quartiles and greatest, and in how many each bank defaults
stands     clears the case again with one choice changed at a time, and names the banks that are then in another state,
           or have something left where they had nothing, or nothing where they had something. The choices: a unit worth
           twice or half as much, the debts in reversed order, webster for all banks, one class for all debts, a default
           that keeps 950, 900 or 800 per mille, and the greatest payments. `*` marks what is not as in the column `as
           it is`. If twice or half the unit changes a bank, one unit decides it: rely on no figure of it

Ends with 0; 1 where `check` finds something; 2 where the words are not understood; 3 where a file cannot be read; 4
where the folder is no case; 5 where the output cannot be written.

Example:
    clearing-case show examples/twelve-banks
"""
import argparse
import os
import pathlib
import sys
from typing import Callable, List, NamedTuple

from clearing_client import description
from clearing_client.case import Case, ImportSummary
from clearing_client.errors import CaseError
from clearing_client.texts import DEBTS

from .. import cases, cli, files, money
from ..checks import lint
from ..checks.linter import Linter
from ..imports.made_case import currency_in, date_in
from ..labels import word_shown
from ..runner import ToolError, command, shown
from ..texts import number, read_accounts, records_in
from . import compare, ensemble, shocks, stands
from .folder import files_in

STEPS = {"left_out": "left out", "summed": "summed", "rounded": "rounded", "converted": "converted"}
"""The steps of an import that change what is read, in words."""


class Task(NamedTuple):
    """A task of the command: what it does in a few words, the words that it takes beside the folder, and its work."""

    what: str
    add_words: Callable[[argparse.ArgumentParser], None]
    work: Callable[[argparse.Namespace], int]


def add_folder(parser: argparse.ArgumentParser) -> None:
    """The folder of a case."""
    parser.add_argument("case", metavar="FOLDER", help="the case")


def add_description(parser: argparse.ArgumentParser) -> None:
    """What may be said of a case while it is described anew."""
    add_folder(parser)
    parser.add_argument("--title", metavar="TEXT", help="its title")
    parser.add_argument("--text", metavar="FILE", help="its text, in Markdown")
    parser.add_argument("--as-of", metavar="DATE", type=date_in, help="the date of its amounts, YYYY-MM-DD")
    parser.add_argument("--test", choices=["liquidity", "solvency"], help="what cash stands for")
    parser.add_argument("--currency", metavar="CODE", type=currency_in, help="its currency, such as EUR")
    parser.add_argument("--unit", metavar="AMOUNT", type=money.unit_in, help="what a unit of account is worth")
    parser.add_argument(
        "--default-keeps", metavar="K", type=cli.number_in(0, 1000), help="what default keeps, per mille"
    )


def say_all(lines: List[str]) -> None:
    """Prints lines, whatever stands in them."""
    files.put("".join(f"{shown(line)}\n" for line in lines), status=5)


# show


def show(args: argparse.Namespace) -> int:
    """Prints what a case is."""
    case = cases.read_case(args.case)
    cases.tell(case)
    say_all(lines_of(case))
    return 0


def lines_of(case: Case) -> List[str]:
    """What a case is, a line each."""
    facts = [
        ("title", case.title),
        ("as of", case.as_of.isoformat() if case.as_of else ""),
        ("test", case.test),
        ("default keeps", f"{case.keep} per mille" if case.keep is not None else ""),
        ("limits", case.limits if case.limits != "standard" else ""),
        ("by", ", ".join(str(one.get("title", "")) for one in case.contributors)),
        ("amounts", cases.money_of(case).about().removeprefix("Amounts ").rstrip(".")),
    ]
    lines = [f"{what}: {text}" for what, text in facts if text]
    lines += sums_of(case)
    lines += [f"source: {source.title}{f' in {source.path}' if source.path else ''}" for source in case.sources]
    if case.summary:
        lines += import_lines(case.summary)
    if case.origin:
        lines.append(f"made from: {case.origin.title or 'another case'}")
        lines += [f"change: {change}" for change in case.origin.changes]
    return lines + (["", *case.description.splitlines()] if case.description else [])


def sums_of(case: Case) -> List[str]:
    """How many banks and debts there are, and what they come to."""
    amount = cases.money_of(case)
    accounts = read_accounts(case.paths["banks"])[1].values()
    records = records_in(case.paths["debts"], DEBTS)[1]
    claims = [number(case.paths["debts"], row, fields[3]) for row, fields in records]
    outside = sum(account.outside for account in accounts)
    lines = [f"banks: {len(accounts):,}; cash {amount(sum(account.cash for account in accounts))}"]
    lines += [f"owed outside: {amount(outside)}"] if outside else []
    lines.append(f"debts: {len(claims):,}; {amount(sum(claims))}")
    if case.labels:
        full = sum(bool(label.full) for label in case.labels.values())
        lines.append(f"labels: {len(case.labels):,}; {full:,} with a full name")
    return lines


def import_lines(summary: ImportSummary) -> List[str]:
    """What the import did, a line for each change."""
    lines = [f"imported by: {' '.join(map(word_shown, summary.command))}"] if summary.command else []
    for step, word in STEPS.items():
        for line in getattr(summary, step):
            count = f"{line.count:,}" if line.count is not None else ""
            parts = [count, line.sum or "", line.where]
            lines.append(f"{word}: {line.what}: {'; '.join(part for part in parts if part)}")
    return lines


# check


def check(args: argparse.Namespace) -> int:
    """Tells what is wrong with a case."""
    case = cases.read_case(args.case)
    names = {what: name for what, name in case.paths.items() if what in ("banks", "debts", "scenarios")}
    if sys.version_info < (3, 11):
        # Whose module reads the scenarios.
        names.pop("scenarios", None)
    limits = cases.settle_limits(case)
    linter = Linter(limits=limits, **{what: lint.content_of(what, name, limits) for what, name in names.items()})
    faults = list(linter.faults)
    lines = [f"case: {note}" for note in case.notes]
    if not case.is_described:
        lines.append(f"case: it has no {description.NAME}")
    unknown = unknown_labels(case)
    lines += [f"case: labels.csv has {len(unknown):,} names of no bank, such as {unknown[0]}"] if unknown else []
    lines += [lint.line_of(fault, names) for fault in [*faults, *linter.warnings()]]
    is_sound = not faults and not case.notes and not unknown
    say_all([*lines, "the case is as it is described" if is_sound and case.is_described else f"{len(lines):,} told"])
    return 0 if is_sound else 1


def unknown_labels(case: Case) -> List[str]:
    """The names of labels that are those of no bank."""
    try:
        banks = read_accounts(case.paths["banks"])[1]
    except ToolError:
        return []
    return [name for name in case.labels if name not in banks]


# refresh


def refresh(args: argparse.Namespace) -> int:
    """Describes the files of a case anew."""
    cases.check_moment()
    case = cases.read_case(args.case)
    given = dict(title=args.title, test=args.test, currency=args.currency, unit=args.unit, keep=args.default_keeps)
    for key, value in given.items():
        if value is not None:
            setattr(case, key, value)
    if args.as_of is not None:
        case.as_of = description.date_of(args.as_of)
    if args.text is not None:
        case.description = files.text_of(args.text)
    place = pathlib.Path(args.case)
    try:
        text = case.description_of(files_in(case, place))
    except CaseError as fault:
        raise ToolError(f"{args.case}: {fault}", cases.REFUSED) from fault
    files.put(text, os.fspath(place / description.NAME), status=5)
    return 0


TASKS = {
    "show": Task("what the case is", add_folder, show),
    "check": Task("whether it is as described, and whether its files have faults", add_folder, check),
    "refresh": Task("describes its files anew", add_description, refresh),
    "scenarios": Task("scenarios of a sheet", shocks.add_scenarios, shocks.take_scenarios),
    "compare": Task("two cases side by side", compare.add_compare, compare.compare_cases),
    "ensemble": Task("what tasks say over many networks", ensemble.add_ensemble, ensemble.ask_many),
    "stands": Task("which banks change when one choice is changed", stands.add_stands, stands.ask_stands),
}


@command("case")
def main() -> int:
    """The command."""
    parser = cli.parser_of(__doc__)
    tasks = parser.add_subparsers(dest="subcommand", required=True, metavar="TASK")
    for name, task in TASKS.items():
        task.add_words(tasks.add_parser(name, help=task.what, description=task.what, allow_abbrev=False))
    args = parser.parse_args()
    return TASKS[args.subcommand].work(args)
