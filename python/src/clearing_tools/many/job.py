"""A job of many: its words, with the files of its case, what its result depends on, and its result."""
import contextlib
import errno
import os
import pathlib
import re
import signal
import subprocess
import sys
from typing import BinaryIO, Iterator, List, NamedTuple, Optional, Sequence, Set, Tuple

from clearing_client import limits

from .. import cases, files
from ..runner import ToolError, digest_of, program_file, shown, tool_name

FILES = ("--banks", "--debts", "--scenarios", "--journal")
"""The options whose values are files that a job reads."""
WITH_SCENARIOS = ("stress", "outcomes")
# What moves a terminal, or turns its letters round.
MOVES = re.compile(rb"[\x00-\x1f\x7f]|\xc2[\x80-\x9f]|\xe2\x80[\x8b-\x8f\xa8-\xae]|\xe2\x81[\xa0-\xaf]")
NAME = re.compile(r"[A-Za-z0-9._-]+", re.ASCII)
HAS_RESULT = (0, 7)
"""The statuses of the program with a result; 7 is that of a journal that is not lawful and complete."""


def tell(text: str, by: Optional[str] = None) -> None:
    """Says something in one line on standard error."""
    line = MOVES.sub(b"?", os.fsencode(text))
    with contextlib.suppress(OSError):
        sys.stderr.buffer.write(f"{tool_name() if by is None else by}: ".encode() + line + b"\n")
        sys.stderr.flush()


def jobs_in(data: bytes) -> List[str]:
    """The lines of a file of jobs that have a byte. They end with LF or CR LF. A mark may stand before the first."""
    lines = data.replace(b"\0", b"").replace(b"\r", b"\n").removeprefix(b"\xef\xbb\xbf").split(b"\n")
    return [os.fsdecode(line) for line in lines if line]


def wrong_job(lines: Sequence[str]) -> Optional[int]:
    """The number of the first line that has no name of its own and words."""
    names: Set[str] = set()
    for number, line in enumerate(lines, 1):
        name, tab, _ = line.partition("\t")
        if not tab or not NAME.fullmatch(name) or name in names:
            return number
        names.add(name)
    return None


class Words(NamedTuple):
    """The words of a job as the program takes them, and what its network has that passes the standard limits, where
    nobody said by which it is read."""

    words: List[str]
    passed: Optional[str]


def words_in(line: str) -> Words:
    """The words of a line behind its name: the files of a case stand behind the others. Fails where the folder is no
    case, or cannot be read; what is to be told of it is told."""
    words, folder = without_case([word for word in line.partition("\t")[2].split("\t") if word])
    named = {word.partition("=")[0] for word in words if word.startswith("--")}
    case = cases.read_case(folder) if folder else None
    if case is not None:
        for note in case.notes:
            tell(f"{folder}: {note}", "case")
        kinds = ("banks", "debts", "scenarios") if task_of(words) in WITH_SCENARIOS else ("banks", "debts")
        words += [f"--{kind}={case.paths[kind]}" for kind in kinds if kind in case.paths and f"--{kind}" not in named]
    if "--limits" in named:
        return Words(words, None)
    by = case.said_limits if case is not None else None
    passed = None if by else cases.passed_by(value_of("--banks", words), value_of("--debts", words))
    return Words([*words, f"--limits={limits.WIDE}"] if by == limits.WIDE or passed else words, passed)


def without_case(given: Sequence[str]) -> Tuple[List[str], str]:
    """Some words without --case, and the folder that it names."""
    words: List[str] = []
    folder, is_next = "", False
    for word in given:
        if is_next or word.startswith("--case="):
            folder, is_next = word if is_next else word.partition("=")[2], False
        elif word == "--case":
            is_next = True
        else:
            words.append(word)
    return words, folder


def task_of(words: Sequence[str]) -> str:
    """The first word that is neither an option nor the value of one, or nothing."""
    for before, word in zip(["", *words], words):
        if not word.startswith("--") and not (before.startswith("--") and "=" not in before):
            return word
    return ""


def value_of(option: str, words: Sequence[str]) -> str:
    """The last value of an option, or nothing."""
    found = ""
    for before, word in zip(["", *words], words):
        if before == option:
            found = word
        elif word.startswith(f"{option}="):
            found = word.partition("=")[2]
    return found


# What a result depends on.


def sum_of(name: str) -> str:
    """The checksum of a file, or why there is none."""
    if not (os.path.isfile(name) and os.access(name, os.R_OK)):
        return "no regular file that can be read"
    with open(name, "rb") as file:
        return digest_of(file)


def program_sum(program: str) -> str:
    """The checksum of the program; where that is the repository's script, of what it runs."""
    return sum_of(program_file(program))


def key_of(digest: str, words: Sequence[str]) -> str:
    """What a result depends on: the program, by its checksum, the words, and the files that the words name."""
    lines = [f"program {digest}"]
    for before, word in zip(["", *words], words):
        lines.append(f"word {word}")
        option, sign, value = word.partition("=")
        if before in FILES:
            lines.append(f"file {sum_of(word)} {word}")
        if sign and option in FILES:
            lines.append(f"file {sum_of(value)} {value}")
    return "\n".join(lines) + "\n"


def names_in(words: Sequence[str]) -> Iterator[str]:
    """What words name where they name files: those who may not read these may not read what is made of them."""
    for before, word in zip(["", *words], words):
        is_option = word.startswith("--") and "=" in word and before not in FILES
        yield word.partition("=")[2] if is_option else word


# Its result.


class Runs(NamedTuple):
    """What jobs are run by, and where: the program, its checksum where it was taken for all of them, and the folder."""

    program: str
    folder: str
    digest: Optional[str] = None

    def run(self, line: str) -> int:
        """Runs a job, where its result is not there yet: 0, or 1 where it failed."""
        name = line.partition("\t")[0]
        place = f"{self.folder}/{name}"
        for path in (f"{place}.out", f"{place}.failed", f"{place}.job"):
            if os.path.isdir(path):
                tell(f"{path} is a folder")
                return 1
        begin = f"{name}.part+{os.uname().nodename}."
        clean(self.folder, begin)
        part = f"{self.folder}/{begin}{os.getpid()}"
        try:
            words, passed = words_in(line)
        except ToolError as fault:
            return refuse(place, part, fault)
        key = key_of(self.digest or program_sum(self.program), words)
        os.umask(files.mask_of(names_in(words)))
        if stands(place, key):
            return 0
        if passed:
            tell(f"{name}: {cases.read_widely(passed)}")
        remove(f"{place}.out", f"{place}.job")
        status = self.status_of(words, part)
        is_same = key_of(program_sum(self.program), words) == key
        return keep(place, part, key) if is_same and status in HAS_RESULT else fail(place, part, status, is_same)

    def status_of(self, words: Sequence[str], part: str) -> int:
        """The status of the program, as a shell has it. What it prints goes into two files."""
        with new_file(part) as out, new_file(f"{part}.err") as err:
            try:
                done = subprocess.run([self.program, *words], stdin=subprocess.DEVNULL, stdout=out, stderr=err)
            except OSError as fault:
                err.write(os.fsencode(f"{tool_name()}: {self.program}: {fault.strerror}\n"))
                return 127 if fault.errno == errno.ENOENT else 126
            err.write(end_of(done.returncode).encode())
        return done.returncode if done.returncode >= 0 else 128 - done.returncode


def end_of(status: int) -> str:
    """The line that says which signal ended a process, as a shell has it: nothing where it ended by itself, or by a
    signal that somebody sent who knows."""
    if status >= 0 or -status in (signal.SIGINT, signal.SIGPIPE):
        return ""
    return f"{signal.strsignal(-status)}\n"


def clean(folder: str, begin: str) -> None:
    """Removes what runs of a job left that were killed. One that goes on keeps its files, and so does one of another
    machine. No name of a job has a `+`."""
    for name in [name for name in os.listdir(folder) if name.startswith(begin)]:
        if not is_run(name[len(begin):].partition(".")[0]) and os.path.isfile(f"{folder}/{name}"):
            remove(f"{folder}/{name}")


def is_run(process: str) -> bool:
    """Whether a number is that of a process that runs jobs."""
    try:
        return b"many" in pathlib.Path("/proc", process, "cmdline").read_bytes()
    except OSError:
        return False


def remove(*names: str) -> None:
    """Removes files, where they are there."""
    for name in names:
        pathlib.Path(name).unlink(missing_ok=True)


def new_file(name: str) -> BinaryIO:
    """A file that was not there. What is there already is no place to write to."""
    return open(name, "xb", buffering=0)


def stands(place: str, key: str) -> bool:
    """Whether the result of a job is there, and of what it depends on today."""
    if not (os.path.isfile(f"{place}.out") and os.path.isfile(f"{place}.job")):
        return False
    return pathlib.Path(f"{place}.job").read_bytes().rstrip(b"\n") == os.fsencode(key).rstrip(b"\n")


def keep(place: str, part: str, key: str) -> int:
    """Moves a result into its place, with what it depends on beside it."""
    remove(f"{place}.failed", f"{part}.err")
    with new_file(f"{part}.job") as file:
        file.write(os.fsencode(key))
    os.replace(part, f"{place}.out")
    os.replace(f"{part}.job", f"{place}.job")
    return 0


def fail(place: str, part: str, status: int, is_same: bool) -> int:
    """Leaves the status and the message of a job in the place of its result."""
    remove(f"{place}.out", f"{place}.job")
    changed = "" if is_same else ", but a file or the program changed while the job ran"
    with new_file(f"{part}.failed") as file:
        file.write(f"status {status}{changed}\n".encode() + pathlib.Path(f"{part}.err").read_bytes())
    os.replace(f"{part}.failed", f"{place}.failed")
    remove(part, f"{part}.err")
    return 1


def refuse(place: str, part: str, fault: ToolError) -> int:
    """The same for a job whose case is refused, or cannot be read: the program is not run."""
    with new_file(f"{part}.err") as file:
        file.write(os.fsencode("".join(f"{tool_name()}: {shown(line)}\n" for line in fault.lines)))
    return fail(place, part, fault.status, is_same=True)
