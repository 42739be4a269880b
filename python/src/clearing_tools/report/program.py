"""The program, as the report asks it: tasks one after another, with what each printed kept in a file of its own."""
import os
import pathlib
from typing import Callable, List, NamedTuple, Optional, Sequence, Type, TypeVar

from clearing_client.results import Result

from .. import labels, runner, texts
from ..runner import StrPath, ToolError, digest_of, program_file

T = TypeVar("T")
R = TypeVar("R", bound=Result)


class Command(NamedTuple):
    """A command as it was run: its words, its status, the file of what it printed, and what it said on standard
    error."""

    words: str
    status: int
    output: pathlib.Path
    message: str


def as_given(word: str) -> str:
    """A word as it was given, but of the name of a file from the root its last part alone: a page says nothing of
    who made it where."""
    option, sign, value = word.partition("=") if word.startswith("--") else ("", "", word)
    return option + sign + (os.path.basename(value) if os.path.isabs(value) and value != "/dev/stdin" else value)


def line_of(words: Sequence[str]) -> str:
    """Words as a line of a shell."""
    return " ".join(map(labels.word_shown, map(as_given, words)))


class Program:
    """The program, its runs so far, the folder of what they printed, and the files that were made for some of them."""

    def __init__(self, folder: StrPath) -> None:
        self.name = runner.program()
        self.folder = pathlib.Path(folder)
        self.runs = runner.ProgramRuns()
        self.commands: List[Command] = []
        self.made: List[pathlib.Path] = []

    def put(self, name: str, content: bytes) -> pathlib.Path:
        """Writes a file that a task is to be asked of, and names it."""
        path = self.folder / name
        path.write_bytes(content)
        self.made.append(path)
        return path

    def ask(
        self, output: str, *words: str, source: Optional[pathlib.Path] = None, may_end: Sequence[int] = (0,)
    ) -> pathlib.Path:
        """Runs a task on a file for its standard input, where one is given. What it prints is kept in a file, which
        is named; none of it is held in memory."""
        path = self.folder / output
        status, _, messages = self.runs.run_on(source, [self.name, *words], into=path)
        message, line = messages.decode(errors="replace").strip(), line_of(["clearing", *words])
        if status not in may_end:
            raise ToolError(f"`{line}` ended with {status}: {message}")
        redirect = f" < {source.name}" if source else ""
        self.commands.append(Command(f"{line}{redirect} > {output}", status, path, message))
        return path

    def read(self, task: str, work: Callable[[pathlib.Path], T], path: pathlib.Path) -> T:
        """What is read of a text that a task printed."""
        try:
            return work(path)
        except (ToolError, ValueError) as fault:
            raise ToolError(f"{self.name} did not print what `clearing {task}` does") from fault

    def result(self, task: str, kind: Type[R], path: pathlib.Path) -> R:
        """The result of this kind that a text of a task says."""
        result = self.read(task, texts.read_result, path)
        if not isinstance(result, kind):
            raise ToolError(f"{self.name} did not print what `clearing {task}` does")
        return result

    def executable(self) -> pathlib.Path:
        """The file that is the program itself, where it is known."""
        return pathlib.Path(program_file(self.name))


def sum_of(path: StrPath) -> str:
    """The SHA-256 of a file."""
    with open(path, "rb") as file:
        return digest_of(file)
