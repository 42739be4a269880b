"""Makes a folder of evidence for what `clearing` says of a network, and checks one on any machine.

    clearing-evidence make FOLDER --banks FILE --debts FILE [--scenarios FILE] [--bank NAME] [--changes FILE]
    clearing-evidence make FOLDER --case CASE [--scenarios FILE] [--bank NAME] [--changes FILE]
    clearing-evidence make FOLDER --source COMMAND [--scenarios FILE] [--bank NAME] [--changes FILE]
    clearing-evidence check FOLDER

In:   for `make` the two files, a file of scenarios and the name of a bank, as `clearing` takes them; for `check` the
      folder
Out:  for `make` the folder, and a line with the checksum of its checksums; for `check` a line for each thing looked at

`make` writes a new folder, whole or not at all: the inputs as they were (inputs/); for the network as it is (as-is/),
and for each scenario (scenario-1/ ...) with the banks file that it leaves, a journal, the payments and the defaults;
with --bank the rescue of that bank, the network with the sum that saves it (rescue/) and with a unit less
(unit-less/), and the same of each; stress.csv with what `clearing stress` prints, which is compared with all that;
commands.tsv with the words and the status of each run, and the limits in them where they are wide (--limits, or where
the network needs them); versions.txt; and SHA256SUMS over all files. With --source in place of the two files, source/
has the sheets of that command of clearing-from-matrix, clearing-from-list or clearing-from-totals (without where it
writes), the command and the summary, and the two files are what it makes. With --case the inputs are those of a case,
with labels.csv and its description, and source/ has its sheets where it keeps them; a case whose files are not those
that were described is refused. --changes keeps a text that says what was changed before, as inputs/changes.txt, of
which nothing is computed. One worker makes each journal, so that the same program makes the same bytes again.

`check` asks for the folder, Python and nothing else. It reads each file once, into a copy of its own. The folder must
have exactly the files that `make` writes for its inputs, and nothing else. It compares the checksums, commands.tsv and
README.txt, makes the banks file of each scenario and of the rescue anew, and the two files where their sheets are
there, and follows each journal by clearing-audit, which shares no code with the program. Where a built program is at
hand (CLEARING, or that of the wheel, the installation or the repository) it replays the journals too, and runs each
command again. It prints a line for each, and at the end what was checked and what was not.

Ends with 0 where all is well. `make` ends with 1 where the program fails, or where two of its answers do not agree; 2
where the words are not understood or FOLDER is there already; 3 where a file cannot be read; 4 where a file is
refused; 5 where FOLDER cannot be written. `check` ends with the first of these that does not hold: 3 the folder can be
read, and has what belongs to it and nothing else; 4 the checksums; 5 the banks files; 6 the journals; 7 the payments
and defaults; 8 what the program here prints. Both end with 2 where the words are not understood and with 130 at an
interrupt.
"""
import argparse

from .. import runner
from . import audit
from .checking import check


def parsed() -> argparse.Namespace:
    """The words of the command line."""
    summary, _, rest = __doc__.partition("\n\n")
    layout = argparse.RawDescriptionHelpFormatter
    name = runner.tool_name()
    parser = audit.Parser(prog=name, description=summary, epilog=rest, formatter_class=layout, allow_abbrev=False)
    tasks = parser.add_subparsers(dest="task", required=True, metavar="make|check")
    make = tasks.add_parser("make", help="makes a new folder", allow_abbrev=False)
    make.add_argument("folder", metavar="FOLDER", help="the folder to make")
    make.add_argument("--case", metavar="FOLDER", help="the case: its files, what banks are called, and its sheets")
    make.add_argument("--banks", metavar="FILE", help="the banks file")
    make.add_argument("--debts", metavar="FILE", help="the debts file")
    make.add_argument("--source", metavar="COMMAND", help="the command that makes the two files of sheets")
    make.add_argument("--scenarios", metavar="FILE", help="the scenarios file")
    make.add_argument("--bank", metavar="NAME", help="a bank to be saved")
    make.add_argument("--changes", metavar="FILE", help="a text that says what was changed against other files")
    make.add_argument("--limits", choices=list(audit.LIMITS), help="the limits of the network")
    tasks.add_parser("check", help="checks a folder", allow_abbrev=False).add_argument("folder", metavar="FOLDER")
    args = parser.parse_args()
    is_whole = args.task == "check" or args.case is not None and args.source is None
    if not is_whole and (args.banks is None, args.debts is None) != ((args.source is not None),) * 2:
        make.error("--banks and --debts are needed, or --source in their place")
    return args


@runner.command("evidence.sh")
def main() -> int:
    """The command."""
    args = parsed()
    if args.task == "check":
        return check(args)
    # A check imports nothing of what reads cases.
    from .making import make

    return make(args)
