"""Writes a report on a network to hand over: one HTML file that any browser opens, with nothing loaded from
elsewhere, or a document.

In:   FOLDER             the case: a folder with the two files and what belongs to them; or
      --banks, --debts   the two files of the network
      --scenarios        the scenarios file: what each leaves, and what changes
      --journal          the journal of a run, judged by `clearing replay` and played in the page; without it one is
                         made by one worker
      --labels           a file `code,name`: the full names of banks, shown in place of the names of the files
      --title            the title of the case
      --unit, --currency what a unit of account is worth, such as --unit 1000 --currency EUR: amounts are in the
                         currency then
      --default-keeps    what a bank in default keeps of its estate, 0 to 1000 per mille: both ends where default
                         costs are there too
      --changes          a text that says what was changed against other files, a line each: it stands under the title
      --keep             a folder for what the program printed, under the names that the evidence has; a new one, or
                         an empty one
      --format           html (else by the ending of --out), docx or pdf: a document of the same parts, by
                         python3-docx or by Chromium
      --d3               the library d3 in one file; Debian's package node-d3 has it, and it is found there
Out:  --out              the report: the finding, the analyst's text, a summary of five sentences (six where default
                         costs), the picture of the network, charts with a message each, whether it stands, a table of
                         banks, a part for each bank (of more than 1,000 for those of which, or to which, most stays
                         unpaid), what the model leaves out, the journal to be played, and the evidence: commands,
                         statuses and checksums

The tool asks `clearing` for everything (the environment variable CLEARING names another program). Without d3 the page
is made without its script, which is said on standard error: its tables and pictures stay. The page is made by Jinja2
(Debian's python3-jinja2), and the analyst's text is read as Markdown by python3-markdown-it, where that is there. The
moment that the report names is that of the environment variable SOURCE_DATE_EPOCH where it is set.

Example:
    clearing-report --banks examples/twelve-banks/banks.csv --debts examples/twelve-banks/debts.csv \\
        --scenarios examples/twelve-banks/scenarios.toml --unit 1000 --currency EUR --out report.html

Ends with 0; 1 where the program refuses, or a file cannot be read or written or changes meanwhile; 2 where the
command line or SOURCE_DATE_EPOCH is not understood, a library is missing, or the folder of --keep is there and not
empty; 3 and 4 where the folder of a case cannot be read or is refused; 130 at an interrupt.
"""
import argparse
import os
import pathlib
import sys
from typing import Dict, Optional, Union

from clearing_client.format import MAX_KEEP

from .. import cases, cli, files
from ..drawing import web
from ..fullnames import add_labels
from ..money import add_money
from ..runner import ToolError, command, tool_name, work_folder
from . import document, page, view, word
from .browser import pdf_of
from .gather import Beside, Gathering


def library(named: Optional[str]) -> Optional[str]:
    """The library d3; nothing where it is not found, which is said, unless it was named."""
    for name in [named] if named else web.D3:
        try:
            with open(name, encoding="utf-8") as file:
                text = file.read()
        except (OSError, UnicodeDecodeError) as fault:
            if named:
                raise ToolError(f"{name}: cannot be read: {fault}") from fault
            continue
        if "</script" in text.lower():
            raise ToolError(f"{name}: has the end of a script within it, and cannot stand in a page")
        return text
    print(
        f"{tool_name()}: d3 is not there (Debian's package node-d3, or --d3 FILE): the page is made without its script,"
        " with the tables and pictures alone",
        file=sys.stderr,
    )
    return None


def build_parser() -> argparse.ArgumentParser:
    """The words of the tool."""
    parser = cli.case_parser(__doc__)
    parser.add_argument("--scenarios", metavar="FILE", help="the scenarios file")
    parser.add_argument("--journal", metavar="FILE", help="the journal of a run")
    add_labels(parser)
    parser.add_argument("--title", metavar="TEXT", help="the title of the case")
    add_money(parser)
    parser.add_argument(
        "--default-keeps",
        metavar="N",
        type=cli.number_in(0, MAX_KEEP),
        help="what a bank in default keeps of its estate, per mille",
    )
    parser.add_argument(
        "--changes", metavar="FILE", help="a text that says what was changed against other files, a line each"
    )
    parser.add_argument("--keep", metavar="FOLDER", help="a new or empty folder for what the program printed")
    parser.add_argument("--format", choices=document.FORMATS, help="html, docx or pdf, else by the ending of --out")
    parser.add_argument("--d3", metavar="FILE", help="the library d3 in one file")
    parser.add_argument("--out", metavar="FILE", required=True, help="the report to write")
    return parser


def is_taken(folder: str) -> bool:
    """Whether something is in the place of a folder to be made: a file, or a folder that is not empty."""
    return os.path.lexists(folder) and not (os.path.isdir(folder) and not os.listdir(folder))


def beside_of(args: argparse.Namespace) -> Beside:
    """The files that a command line names beside the case."""
    return Beside(args.journal, args.labels, args.changes)


def report_of(taken: cases.Taken, args: argparse.Namespace, folder: str) -> Union[str, bytes]:
    """The report in its format."""
    kind = document.format_of(args.format, args.out)
    templates = page.templates()
    if kind == "docx":
        word.check_docx()
    script = library(args.d3) if kind == "html" else None
    matter = Gathering(taken, beside_of(args), folder).matter()
    if kind == "docx":
        return word.docx_of(matter)
    text = page.page_of(view.View(matter, script), templates)
    return text if kind == "html" else pdf_of(text)


def written_of(taken: cases.Taken, args: argparse.Namespace) -> Dict[str, Union[str, bytes]]:
    """What is written: the report, and what the program printed, where it is to be kept."""
    with work_folder() as folder:
        written: Dict[str, Union[str, bytes]] = {args.out: report_of(taken, args, folder)}
        if args.keep:
            for path in sorted(pathlib.Path(folder).iterdir()):
                written[os.path.join(args.keep, path.name)] = path.read_bytes()
        return written


@command("report.py")
def main() -> None:
    parser = build_parser()
    args = parser.parse_args()
    cases.check_moment()
    taken = cases.take_case(parser, args)
    inputs = [*cases.inputs_of(taken.case), *filter(None, beside_of(args))]
    try:
        files.check_apart([args.out], inputs)
        if args.keep and is_taken(args.keep):
            raise ToolError(f"{args.keep} is there and no empty folder; name another with --keep", 2)
        files.write_all(written_of(taken, args), inputs)
    except (OSError, ValueError) as fault:
        raise ToolError(str(fault)) from fault
