"""The words of a command line that several tools take."""
import argparse
import contextlib
import os
from contextvars import ContextVar
from typing import Callable, Iterator, List, NoReturn, Optional, Sequence

from clearing_client import limits

from . import cases, files
from .runner import ToolError, same_file, shown


ARE_RAISED: ContextVar[bool] = ContextVar("ARE_RAISED", default=False)
"""Whether faults of words are raised: standard error is one for all threads of whoever calls a tool in its process."""


@contextlib.contextmanager
def faults_raised() -> Iterator[None]:
    """Has faults of words raised within the block, and nothing printed."""
    before = ARE_RAISED.set(True)
    try:
        yield
    finally:
        ARE_RAISED.reset(before)


class Parser(argparse.ArgumentParser):
    """A parser whose messages can be read, whatever the words are that it does not understand."""

    def error(self, message: str) -> NoReturn:
        """Tells the fault and ends with 2."""
        if ARE_RAISED.get():
            raise ToolError(shown(message), 2)
        super().error(shown(message))

    def format_help(self) -> str:
        """The help, which is for the command line alone."""
        if ARE_RAISED.get():
            self.error("--help is a word of the command line alone")
        return super().format_help()


def parser_of(doc: Optional[str]) -> Parser:
    """A parser of words whose help is a text: its first paragraph before the words, the rest behind them."""
    summary, _, rest = (doc or "").partition("\n\n")
    layout = argparse.RawDescriptionHelpFormatter
    return Parser(description=summary, epilog=rest, formatter_class=layout, allow_abbrev=False)


def parser_with(doc: Optional[str]) -> argparse.ArgumentParser:
    """A parser of words whose help begins with a whole text, and which takes the beginning of a word for the word."""
    return Parser(description=doc, formatter_class=argparse.RawDescriptionHelpFormatter)


def case_parser(doc: Optional[str]) -> argparse.ArgumentParser:
    """A parser of words that takes a case: a folder, or the two files of a network. `cases.take_case` reads it."""
    parser = parser_of(doc)
    cases.add_case(parser)
    return parser


def words_of(taken: cases.Taken) -> List[str]:
    """The two files, and the limits by which they are read, as words of the program."""
    return [f"--banks={taken.banks}", f"--debts={taken.debts}", *limits.words_of(taken.limits)]


def number_in(least: int, most: int) -> Callable[[str], int]:
    """A reader of a number of 1 to 20 digits within limits, as the program takes it."""

    def read(word: str) -> int:
        if not (word.isascii() and word.isdigit() and len(word) <= 20 and least <= int(word) <= most):
            raise argparse.ArgumentTypeError(f"{word!r} is not a number from {least:,} to {most:,}")
        return int(word)

    return read


def parse_most(parser: argparse.ArgumentParser, what: str, most: int) -> argparse.Namespace:
    """The words, with --most among them: how many of something are shown at most, at least 1."""
    parser.add_argument("--most", metavar="N", type=int, default=most, help=f"how many {what} at most ({most})")
    args = parser.parse_args()
    if args.most < 1:
        parser.error("--most is at least 1")
    return args


def keep_inputs(inputs: Sequence[Optional[str]], outputs: Sequence[Optional[str]]) -> None:
    """Fails where an output is one of the inputs, or another output. Who may not read the inputs may not read the
    outputs."""
    files.READ.extend(name for name in inputs if name is not None)
    names = [name for name in inputs if name is not None]
    for name in outputs:
        if name is None:
            continue
        for other in names:
            if os.path.realpath(name) == os.path.realpath(other) or same_file(name, other):
                raise ToolError(f"{name} would be written over", 2)
        names.append(name)
