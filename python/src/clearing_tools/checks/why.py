"""Says which word of a command line `clearing` does not understand, and why.

In:  WORDS.., the words of a command line of `clearing`, as they were typed; the name of the program may stand before
     them: clearing-why clearing stress --banks b.csv --debts d.csv --scenario s.toml. Nothing is run, and no file is
     read. `clearing-why --help` alone prints this; the words --help among others are looked at as the others are.
Out: on standard output a line for each fault: the number of the word, the word, what is wrong, and, where one is known,
     what to do; and last what the words ask for, or how many faults they have. `clearing` ends with status 2 exactly
     where there is a fault.

Ends with 0 where the words are understood, with 1 where they are not, with 2 where there are no words, and with 5 where
the output cannot be written.
"""
from __future__ import annotations

import difflib
import io
import os
import re
import sys
from typing import Dict, List, Optional, Sequence, Tuple

from clearing_client.format import is_name

from .. import runner
from ..runner import command, tool_name
from .command_line import OPTIONS, TASKS, Value


class Reader:
    """Reads the words one after another, and gathers faults: the number of a word, 0 for the whole, and what is
    wrong."""

    def __init__(self, words: Sequence[str]) -> None:
        self.words = words
        self.faults: List[Tuple[int, str]] = []
        self.task: Optional[str] = None
        self.options: Dict[str, int] = {}  # the number of the word in which each stands
        self.read()

    def add(self, at: int, what: str, hint: str = "") -> None:
        """Adds a fault of a word."""
        self.faults.append((at, what + (f"; {hint}" if hint else "")))

    def read(self) -> None:
        """Reads all words."""
        at, is_over = 0, False
        while at < len(self.words):
            word = self.words[at]
            at += 1
            if not is_utf8(word):
                self.add(at, "it is not UTF-8")
            elif word == "--" and not is_over:
                is_over = True
            elif word.startswith("--") and not is_over:
                at = self.read_option(at, word)
            elif word.startswith("-") and word != "-" and not is_over:
                self.add(at, "there are no options of one dash", f"is it -{word}?" if word[1:] in OPTIONS else "")
            elif self.task is None:
                self.task = word
                self.check_task(at, word)
            else:
                what = f"the task is {shown(self.task)} already, and it is the only word that is no option"
                self.add(at, what, self.stray_hint(at, word))
        self.check_uses()

    def read_option(self, at: int, word: str) -> int:
        """Takes an option and its value, and gives the place behind them."""
        name, sign, value = word[2:].partition("=")
        place = at
        if not sign and at < len(self.words) and not (self.words[at].startswith("-") and self.words[at] != "-"):
            value, at, sign = self.words[at], at + 1, " "
        if name not in OPTIONS:
            self.add(place, f"there is no option --{name}", option_hint(name))
            return at
        if name in self.options:
            self.add(place, f"--{name} stands in word {self.options[name]} already; an option is given once")
            return at
        self.options[name] = place
        if not sign:
            hint = "a value does not begin with a dash" if at < len(self.words) else ""
            self.add(place, f"--{name} has no value", hint)
        elif not is_utf8(value):
            self.add(at, f"the value of --{name} is not UTF-8")
        else:
            wrong = value_fault(OPTIONS[name].value, value)
            if wrong:
                self.add(at if sign == " " else place, f"{shown(value)} is no value of --{name}: {wrong}")
        return at

    def check_task(self, at: int, word: str) -> None:
        """Whether the task is one."""
        if word not in TASKS:
            close = difflib.get_close_matches(word.casefold(), TASKS, 1)
            hint = f"is it {close[0]}?" if close else f"the tasks are {', '.join(TASKS)}"
            self.add(at, f"there is no task {shown(word)}", hint)

    def stray_hint(self, at: int, word: str) -> str:
        """What may be meant with a word that is neither a task nor an option."""
        if word in OPTIONS:
            return f"is it --{word}?"
        follows_a_value = at > 1 and not self.words[at - 2].startswith("-")
        return "a value with a blank in it stands between quotes" if follows_a_value else ""

    def check_uses(self) -> None:
        """What the task does not take, and what it requires."""
        if self.task is None:
            self.add(0, "there is no task", f"the tasks are {', '.join(TASKS)}")
        if self.task is None or self.task not in TASKS:
            return
        task = TASKS[self.task]
        for name, at in self.options.items():
            if name not in task.options:
                others = [other for other, uses in TASKS.items() if name in uses.options]
                self.add(at, f"{self.task} has no option --{name}", f"it is of {', '.join(others)}")
        for name in task.required:
            if name not in self.options:
                self.add(0, f"{self.task} requires --{name}")


def is_utf8(word: str) -> bool:
    """Whether a word was UTF-8 on the command line."""
    return not any(0xD800 <= ord(c) <= 0xDFFF for c in word)


def shown(text: str) -> str:
    """A word between quotes, as it can be read."""
    return runner.shown(repr(text))


def option_hint(name: str) -> str:
    """Which option may be meant."""
    if name in ("help", "h", "version"):
        return "docs/FORMATS.md and the manual page say what there is"
    close = difflib.get_close_matches(name.casefold().lstrip("-"), OPTIONS, 1)
    return f"is it --{close[0]}?" if close else f"the options are {', '.join(f'--{option}' for option in OPTIONS)}"


def value_fault(kind: Value, value: str) -> Optional[str]:
    """What is wrong with a value of an option, or nothing."""
    if kind == "file":
        is_wrong = value == "" or value.startswith("-")
        return "the name of a file is not empty, and does not begin with a dash" if is_wrong else None
    if isinstance(kind, str):
        return bank_fault(value)
    if isinstance(kind, list):
        return None if value in kind else f"it is one of {', '.join(kind)}"
    least, most = kind
    if not re.fullmatch("[0-9]{1,20}", value):
        return "a number is 1 to 20 digits 0 to 9, and nothing else"
    return None if least <= int(value) <= most else f"it is a number from {least:,} to {most:,}"


def bank_fault(value: str) -> Optional[str]:
    """What is wrong with the name of a bank, or nothing."""
    if value.startswith("-"):
        return "a bank whose name begins with a dash cannot be named"
    if not 1 <= len(value.encode()) <= 64:
        return "a name has 1 to 64 bytes"
    return None if is_name(value) else "a name has no comma, double quote or control character"


def faults_of(words: Sequence[str]) -> List[Tuple[int, str]]:
    """The faults of the words after the program's name, each with the number of its word, in the order of the words."""
    return sorted(Reader(words).faults, key=lambda fault: fault[0] or len(words) + 1)


@command("why.py")
def main() -> int:
    """The command."""
    words = sys.argv[1:]
    if words in (["--help"], ["-h"]):
        print(f"usage: {tool_name()} WORDS..\n\n{__doc__.strip()}")
        return 0
    if not words:
        print("why: error: there are no words; --help says more", file=sys.stderr)
        return 2
    before = 1 if os.path.basename(words[0]) == "clearing" else 0
    words = words[before:]
    reader = Reader(words)
    faults = faults_of(words)
    if isinstance(sys.stdout, io.TextIOWrapper):
        sys.stdout.reconfigure(encoding="utf-8", errors="backslashreplace")
    for at, what in faults:
        print(f"word {at + before} {shown(words[at - 1])}: {what}" if at else what)
    if faults:
        print("1 fault" if len(faults) == 1 else f"{len(faults)} faults")
    else:
        print(f"understood: the task {reader.task}")
    return 1 if faults else 0
