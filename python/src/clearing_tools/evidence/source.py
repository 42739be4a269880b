"""Where a network comes from: the sheets and the command that made its two files, kept in the folder of an evidence,
and run anew.

source/command.tsv has the tool in its first line, and then a line for each word: `word` and the word, or `file`, what
stands before the name (nothing, or an option or a column with its sign `=`, such as `--rate=currency=`), and the name
of a sheet in source/. The tool runs in a folder of its own, confined to it by `confined.py`, with limits of memory and
time.
"""
import os
import pathlib
import re
import shlex
import subprocess
import sys
from typing import Callable, Dict, List, Mapping, NamedTuple, Optional, Sequence, Tuple

from .. import runner
from ..runner import ToolError
from . import confined
from .layout import MOST_OF_COMMAND, MOST_OF_SHEETS

TOOLS = {"from_matrix.py": "matrix", "from_list.py": "list", "from_totals.py": "totals"}
"""The tools that make two files of sheets, by the names that are kept of them, and their modules."""
COMMANDS = {f"clearing-{name[:-3].replace('_', '-')}": name for name in TOOLS}
"""Their commands."""
# What makes more than one network.
MANY = "--samples"
# What says where to write, with a value behind it, and without; it is left out of a command that is kept.
PLACES = ("--banks", "--debts", "--label", "--summary", "--out", "--case")
FLAGS = ("--replace", "--keep-sources")
# What is not for the command, as it says where to write, or asks for help.
NOT_ITS_OWN = (*PLACES, *FLAGS, "--help", MANY)
# What may name a file beside those that are kept.
OUTSIDE = re.compile(r"(^|=)[/~]|(^|[=/])\.\.(/|$)")
# What may stand before the name of a sheet: nothing, an option, a column, or both, each with its sign.
BEFORE = re.compile(r"(--[a-z-]+=)?([^/~=][^/=]*=)?")
NAME = re.compile(r"[0-9]+-[^/\0\t\n]{1,200}")
MADE = ("banks.csv", "debts.csv", "summary.csv")
NAMED = "labels.csv"
"""What banks are called, which a tool makes where the sheets say it."""
MOST_WORDS, MOST_SECONDS = 1000, 600


class Word(NamedTuple):
    """A word of a command: the text, or what stands before the name of a sheet, and then that name."""

    text: str
    sheet: Optional[str] = None


def parsed(command: str) -> Tuple[str, List[Word]]:
    """The tool of a command of the shell, and its words, whose sheets are the files that they name."""
    try:
        tool, *words = shlex.split(command)
    except ValueError as fault:
        raise ToolError(f"--source is no command: {fault}", 2) from fault
    tool = os.path.basename(tool)
    tool = checked_tool(COMMANDS.get(tool, tool), words)
    return tool, list(map(word_in, without_places(words)))


def of_case(command: Sequence[str], sheets: Mapping[str, str]) -> Tuple[str, List[Word]]:
    """The tool of the command that made a case, and its words. Files are the sheets of the case alone, which are given
    by their paths in it; no other word names a file, whatever stands there."""
    tool = checked_tool(command[0], command[1:])
    return tool, [word_of_case(word, sheets) for word in without_places(command[1:])]


def word_of_case(word: str, sheets: Mapping[str, str]) -> Word:
    """A word of the command of a case, with the file of a sheet where it names one."""
    before, sign, name = word.rpartition("=")
    if word in sheets:
        return Word("", sheets[word])
    return Word(before + sign, sheets[name]) if sign and name in sheets else Word(word)


def checked_tool(tool: str, words: Sequence[str]) -> str:
    """The tool of a command. Fails where it is none of those for sheets, or makes more than one network."""
    if tool not in TOOLS:
        raise ToolError(f"--source begins with one of {', '.join(COMMANDS)}", 2)
    if any(word.split("=")[0] == MANY for word in words):
        raise ToolError(f"--source is of one network, and {MANY} makes several", 2)
    return tool


def without_places(words: Sequence[str]) -> List[str]:
    """The words of a command without those that say where to write."""
    own, is_value = [], False
    for word in words:
        option, sign, _ = word.partition("=")
        if not is_value and option not in (*PLACES, *FLAGS):
            own.append(word)
        is_value = not is_value and option in PLACES and not sign
    return own


def word_in(word: str) -> Word:
    """A word of the shell, with its file apart where it names one."""
    before, sign, name = word.rpartition("=")
    if os.path.isfile(word):
        return Word("", word)
    return Word(before + sign, name) if sign and os.path.isfile(name) else Word(word)


def sheets_of(command: str) -> List[str]:
    """The files that a command names."""
    return [word.sheet for word in parsed(command)[1] if word.sheet is not None]


def keep(
    folder: pathlib.Path, tool: str, words: Sequence[Word], put: Callable[[pathlib.Path, str, bytes], None]
) -> None:
    """Keeps the sheets and the command of a network in a folder, and makes its two files and the summary."""
    lines = [tool]
    for word in words:
        if word.sheet is None:
            lines.append(f"word\t{word.text}")
            continue
        place = f"{len(lines)}-{os.path.basename(word.sheet)}"
        put(folder, f"source/{place}", sheet_in(word.sheet))
        lines.append(f"file\t{word.text}\t{place}")
    if any(re.search("[\n\r\0]", line) or line.count("\t") > 2 for line in lines):
        raise ToolError("a word of --source has a tab or the end of a line", 2)
    text = "".join(line + "\n" for line in lines).encode()
    try:
        words_in(text)
    except ValueError as fault:
        raise ToolError(f"--source: {fault} cannot be kept", 2) from fault
    put(folder, "source/command.tsv", text)
    contents = made_of(text, lambda name: (folder / "source" / name).read_bytes())
    for name, content in contents.items():
        put(folder, place_of(name), content)


def place_of(name: str) -> str:
    """The place in an evidence of a file that a tool makes."""
    return f"source/{name}" if name == "summary.csv" else f"inputs/{name}"


def sheet_in(name: str) -> bytes:
    """The bytes of a sheet."""
    try:
        with open(name, "rb") as sheet:
            content = sheet.read(MOST_OF_SHEETS + 1)
        if len(content) > MOST_OF_SHEETS:
            raise OSError(0, f"it is longer than {MOST_OF_SHEETS:,} bytes")
        return content
    except OSError as fault:
        raise ToolError(f"cannot read {name}: {fault.strerror}", 3) from fault


def words_in(text: bytes) -> Tuple[str, List[Word]]:
    """The tool and the words of a command.tsv. Fails where it is none that may be run: another tool, a word that says
    where to write, a file that is not a sheet of the folder, or more words than a command has."""
    if len(text) > MOST_OF_COMMAND:
        raise ValueError(f"of more than {MOST_OF_COMMAND:,} bytes")
    tool, *lines = text.decode("utf-8", "strict").removesuffix("\n").split("\n")
    if tool not in TOOLS:
        raise ValueError(f"the tool {tool[:100]!r}")
    if len(lines) > MOST_WORDS:
        raise ValueError(f"of more than {MOST_WORDS:,} words")
    return tool, list(map(word_of, lines))


def word_of(line: str) -> Word:
    """The word of a line."""
    kind, *fields = line.split("\t")
    text = fields[0] if fields else ""
    if any(is_option(text, option) for option in (*NOT_ITS_OWN, "-h")) or re.search("[\0-\x08\x0a-\x1f\x7f]", line):
        raise ValueError(f"the word {line[:100]!r}")
    if kind == "word" and len(fields) == 1 and not OUTSIDE.search(text):
        return Word(text)
    if kind == "file" and len(fields) == 2 and BEFORE.fullmatch(text) and NAME.fullmatch(fields[1]):
        return Word(text, fields[1])
    raise ValueError(f"the line {line[:100]!r}")


def is_option(word: str, option: str) -> bool:
    """Whether a word is an option, with or without a value; a short one has its value, or others, behind it."""
    return word.split("=")[0] == option or (len(option) == 2 and word.startswith(option))


def known_words(text: bytes) -> Tuple[str, List[Word]]:
    """The tool and the words of the command of an evidence."""
    try:
        return words_in(text)
    except ValueError as fault:
        raise ToolError(f"source/command.tsv is not a command that is run: {fault}", 3) from fault


def names_of(text: bytes) -> List[str]:
    """The sheets of the command of an evidence, by their names in its folder."""
    return [f"source/{word.sheet}" for word in known_words(text)[1] if word.sheet is not None]


def made_of(text: bytes, read: Callable[[str], bytes]) -> Dict[str, bytes]:
    """What the tool makes of the sheets, by the names of `MADE`, and what banks are called, where the sheets say it.
    Fails with 4 where it refuses them, and with 3 where the command is none that makes the files."""
    tool, words = known_words(text)
    with runner.work_folder() as name:
        folder = pathlib.Path(name)
        (folder / "source").mkdir()
        for word in words:
            if word.sheet is not None:
                (folder / "source" / word.sheet).write_bytes(read(word.sheet))
        run_tool(tool, list(map(in_folder, words)), folder)
        try:
            there = [*MADE, *([NAMED] if (folder / "made" / NAMED).exists() else [])]
            return {file: (folder / "made" / file).read_bytes() for file in there}
        except OSError as fault:
            raise ToolError("source/command.tsv is not a command that is run: it makes no files", 3) from fault


def in_folder(word: Word) -> str:
    """A word as the tool takes it in its folder."""
    return word.text if word.sheet is None else f"{word.text}source/{word.sheet}"


def run_tool(tool: str, words: List[str], folder: pathlib.Path) -> None:
    """Runs a tool in a folder, to which it is confined; what it makes stands in made/ there, a case."""
    out = ["--case", "made", "--summary", "made/summary.csv"]
    command = [sys.executable, "-IB", confined.__file__, TOOLS[tool], *out, *words]
    try:
        nothing, pipe = subprocess.DEVNULL, subprocess.PIPE
        done = subprocess.run(command, cwd=folder, stdin=nothing, stdout=nothing, stderr=pipe, timeout=MOST_SECONDS)
    except subprocess.TimeoutExpired as fault:
        raise ToolError(f"{tool} takes longer than {MOST_SECONDS} seconds", 4) from fault
    except (OSError, ValueError) as fault:
        raise ToolError(f"source/command.tsv is not a command that is run: {fault}", 3) from fault
    if done.returncode:
        message = done.stderr[:MOST_OF_COMMAND].decode("utf-8", "replace").strip()
        raise ToolError(message or f"{tool} ended with {done.returncode}", 4 if done.returncode == 1 else 2)
