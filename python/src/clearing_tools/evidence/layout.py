"""The layout of a folder of evidence: what its files are called, how long they may be, and what its own texts say."""
import os
import re
from typing import Dict, Iterable, List, Mapping, Tuple

from ..runner import ToolError
from . import audit

UNREAD, SUMS, BANKS, JOURNAL, TABLES, PROGRAM = 3, 4, 5, 6, 7, 8

# The texts that each folder has beside the inputs and what is printed.
TEXTS = ("README.txt", "SHA256SUMS", "commands.tsv", "versions.txt")
# What was changed before, in words, in the folders that say so.
CHANGES = "inputs/changes.txt"
# What banks are called, and the description of the case, in the folders of a case: nothing is computed of them.
LABELS, DESCRIPTION = "inputs/labels.csv", "inputs/datapackage.json"
# What a file of a folder may be called, and how long it may be at most.
FILE = re.compile(
    r"inputs/(banks\.csv|debts\.csv|scenarios\.toml|changes\.txt|labels\.csv|datapackage\.json)"
    r"|README\.txt|SHA256SUMS|commands\.tsv|versions\.txt"
    r"|stress\.csv|rescue/rescue\.csv|source/(command\.tsv|summary\.csv|[0-9]+-[^/\0\t\n]{1,200})"
    r"|(as-is|scenario-[1-9][0-9]{0,2}|rescue|unit-less)/(banks|journal|payments|defaults)\.csv"
)
MOST_OF_OTHERS, MOST_OF_SHEETS, MOST_OF_COMMAND = 8_388_608, 400_000_000, 100_000
NETWORK = audit.LIMITS[audit.WIDE]
MOST = {
    "banks.csv": NETWORK.size, "debts.csv": NETWORK.size, "payments.csv": NETWORK.size, "rescue.csv": NETWORK.size,
    "journal.csv": NETWORK.journal, "stress.csv": 400_000_000, "command.tsv": MOST_OF_COMMAND, "SHA256SUMS": 1_000_000,
}
WIDELY = ["--limits", audit.WIDE]
VERSIONS = re.compile(rb"repository [ -~]{1,200}\nprogram [0-9a-f]{64}\ntoolchain [ -~]{1,200}\npython [ -~]{1,100}\n")

CommandOf = Tuple[str, List[str]]
"""A file that the program prints, and the words that make it."""

README_BEGIN = """Evidence for what `clearing` says of a network.

source/        the sheets that the two files were made of, with the command and its summary, where it began there
inputs/        the files as they were given, or made of the source; changes.txt says what was changed before, where \
something was
as-is/         the network as it is: a journal of raises, the payments, the defaults
scenario-1/ .. what each scenario leaves: the banks file, and the same three
rescue/        the banks file with the least sum that saves a bank, and the same three
unit-less/     with a unit less
commands.tsv   the words and the status of each run of the program, from this folder, with the limits where wide
versions.txt   of the repository, the program and the toolchain
SHA256SUMS     checksums of all files: `sha256sum --check SHA256SUMS`

"""
README = README_BEGIN + """\
`clearing-evidence check FOLDER` checks all this with Python alone. The command comes with each file of a release: with
the wheel (pip install FILE.whl), the Debian package and the archive. From the repository it takes bin/clearing-evidence
and python/src in one folder. The document FORMATS of the package and the archive has the files, and clearing-audit
--help tells what a journal is checked for.
"""
REPOSITORY_README = README_BEGIN + """\
`clearing-evidence check FOLDER` of the repository checks all this with Python alone; on another machine it needs
bin/clearing-evidence and python/src of the repository, in one folder. docs/FORMATS.md there has the files, and
clearing-audit says in its first lines what they mean.
"""
OLDER_README = README_BEGIN + """\
`tools/evidence.sh check FOLDER` of the repository checks all this with Python alone; on another machine it needs \
tools/evidence.sh,
tools/evidence.py and python/src of the repository, in one folder. docs/FORMATS.md there has the files, and \
tools/audit.py says in its
first lines what they mean.
"""
"""What folders say that were made before, and before the commands stood in bin/. Both go with the next release."""
READMES = (README, REPOSITORY_README, OLDER_README)


def most_of(name: str) -> int:
    """How many bytes a file of an evidence has at most."""
    is_sheet = re.match(r"source/[0-9]", name)
    return MOST_OF_SHEETS if is_sheet else MOST.get(os.path.basename(name), MOST_OF_OTHERS)


def most_of_journal(network: audit.Network) -> int:
    """How many bytes a journal of a network has at most: each raise that is lawful pays a unit at least of what is
    owed."""
    longest = max((len(bank.name) for bank in network.banks), default=0)
    line = len("4294967295,,,9,1000000\n") + 2 * longest
    ends = len(b",".join(audit.JOURNAL)) + 1 + len("rounds,\n") + 20
    return min(NETWORK.journal, ends + sum(debt.claim for debt in network.debts) * line)


def limits_words(by: str) -> List[str]:
    """The words of a command for some limits: none for the standard ones."""
    return WIDELY if by == audit.WIDE else []


def limits_of(commands: bytes) -> str:
    """The limits that the commands of a folder were run by, as commands.tsv has them."""
    return audit.WIDE if "\t".join(["", *WIDELY]).encode() in commands.partition(b"\n")[2] else audit.STANDARD


def commands_text(commands: Iterable[CommandOf]) -> bytes:
    """A line for each command: the file, the status, and the words, with tabs between. No word has a tab."""
    lines = [["file", "status", "words"]] + [[file, "0", *words] for file, words in commands]
    return "".join("\t".join(line) + "\n" for line in lines).encode()


def sums_text(sums: Mapping[str, str]) -> bytes:
    """SHA256SUMS of the checksums of some files by their names."""
    return b"".join(b"%s  %s\n" % (sums[name].encode(), os.fsencode(name)) for name in sorted(sums))


def sums_listed(text: bytes) -> Dict[str, str]:
    """The checksums that SHA256SUMS lists, by the names of the files."""
    listed: Dict[str, str] = {}
    for line in text.decode("utf-8", "surrogateescape").removesuffix("\n").split("\n"):
        sum_of, _, name = line.partition("  ")
        if not name or name in listed or len(sum_of) != 64:
            raise ToolError("SHA256SUMS is not a list of checksums", UNREAD)
        listed[name] = sum_of
    return listed
