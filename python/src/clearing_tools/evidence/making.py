"""Makes the folder of an evidence. It reads a case as all tools read it; what checks an evidence imports nothing of
this."""
import argparse
import contextlib
import os
import pathlib
import secrets
import shutil
import sys
import tempfile
from typing import Dict, Iterator, List, Optional

from clearing_client import errors
from clearing_client.case import Case

from .. import cases, files, runner
from ..runner import ToolError
from ..way import Way
from . import audit, shock, source
from .layout import (
    CHANGES, DESCRIPTION, LABELS, MOST_OF_OTHERS, NETWORK, README, commands_text, limits_words, sums_text,
)
from .parts import commands_of, parts_of, read_inputs, rescue_holds, stress_of
from .plain_files import checksum, contents
from .versions import versions


def take_case(args: argparse.Namespace) -> None:
    """Sets the files that were not said to those of the case. One whose files are not those that were described is
    refused."""
    args.labels = args.description = args.case_with_sheets = None
    if args.case is None:
        return
    case = cases.read_case(args.case)
    if case.notes:
        raise ToolError(f"{args.case}: {case.notes[0]}", cases.REFUSED)
    for name in ("banks", "debts", "scenarios", "labels"):
        if vars(args)[name] is None:
            setattr(args, name, case.paths.get(name))
    args.description = os.path.join(args.case, "datapackage.json") if case.is_described else None
    args.case_with_sheets = case if args.source is None and keeps_sheets(case) else None
    args.limits = args.limits or case.said_limits


def keeps_sheets(case: Case) -> bool:
    """Whether a case has copies of all the sheets that it was made of, and the command that did it."""
    copied = [source.path for source in case.sources if source.path]
    has_all = len(copied) == len(case.sources) and {f"sources/{name}" for name in case.sheet_names}.issuperset(copied)
    return bool(copied and has_all and case.summary is not None and case.summary.command)


def sheets_of_case(case: Case, folder: pathlib.Path) -> Dict[str, str]:
    """The sheets of a case by their paths in it, each in a file of its own in a folder. They are read by the case,
    which opens nothing outside."""
    files_of_sheets: Dict[str, str] = {}
    try:
        for name, data in case.sheets().items():
            files_of_sheets[f"sources/{name}"] = str(folder / name)
            (folder / name).write_bytes(data)
    except errors.UnreadableError as fault:
        raise ToolError(str(fault), cases.UNREADABLE) from fault
    except errors.CaseError as fault:
        raise ToolError(str(fault), cases.REFUSED) from fault
    return files_of_sheets


def keep_source(folder: pathlib.Path, case: Case) -> None:
    """Keeps the sheets of a case, unless its files are not what they make any more."""
    with tempfile.TemporaryDirectory() as name:
        sheets, anew = pathlib.Path(name, "sheets"), pathlib.Path(name, "made")
        for path in (sheets, anew):
            path.mkdir()
        assert case.summary is not None  # as `keeps_sheets` has it
        source.keep(anew, *source.of_case(case.summary.command, sheets_of_case(case, sheets)), put)
        for path in anew.glob("inputs/*"):
            there = folder / "inputs" / path.name
            if not there.exists() or there.read_bytes() != path.read_bytes():
                runner.say(f"the sheets of the case do not make its {path.name} any more; they are left out")
                return
        for path in anew.glob("source/*"):
            put(folder, f"source/{path.name}", path.read_bytes())


def whole(name: str) -> bytes:
    """The bytes of a file that the program does not read; one that is too long for a check is refused."""
    content = contents(name)
    if len(content) > MOST_OF_OTHERS:
        raise ToolError(f"{audit.shown(name)} is longer than {MOST_OF_OTHERS:,} bytes", 4)
    return content


def put_inputs(folder: pathlib.Path, args: argparse.Namespace) -> None:
    """Puts the inputs into a folder."""
    if args.source is not None:
        source.keep(folder, *source.parsed(args.source), put)
    for name, place in ((args.labels, LABELS), (args.description, DESCRIPTION)):
        if name is not None:
            put(folder, place, whole(name))
    for name in ("banks", "debts", "scenarios"):
        if vars(args)[name] is not None:
            ending = "toml" if name == "scenarios" else "csv"
            content = contents(vars(args)[name]) if name == "scenarios" else contents(vars(args)[name], NETWORK.size)
            put(folder, f"inputs/{name}.{ending}", content)
    if args.changes is not None:
        put(folder, CHANGES, whole(args.changes))
    if args.case_with_sheets is not None:
        keep_source(folder, args.case_with_sheets)


class Making:
    """A folder that is filled: the inputs, then what the program makes of them, then what says how."""

    def __init__(self, folder: pathlib.Path, args: argparse.Namespace) -> None:
        self.folder, self.args, self.runs = folder, args, runner.ProgramRuns()
        put_inputs(folder, args)
        self.limits = limits_for(args.limits, self.read("inputs/banks.csv"), self.read("inputs/debts.csv"))
        rescue = self.refused_first()
        scenarios_data = self.read("inputs/scenarios.toml") if args.scenarios is not None else None
        banks, debts = self.read("inputs/banks.csv"), self.read("inputs/debts.csv")
        self.network, self.scenarios = read_inputs(banks, debts, scenarios_data, self.limits)
        self.parts = parts_of(self.network.banks, self.scenarios, rescue)
        self.run_all()
        self.check_apart(rescue)
        put(folder, "versions.txt", versions())
        put(folder, "README.txt", README.encode())
        self.names = files_of(folder)
        self.sums = sums_text({name: checksum(self.read(name)) for name in self.names})
        put(folder, "SHA256SUMS", self.sums)

    def read(self, name: str) -> bytes:
        """The content of a file of the folder."""
        return (self.folder / name).read_bytes()

    def refused_first(self) -> Optional[bytes]:
        """Has the program read the inputs, whose own refusal comes first; what it prints of a rescue, if one is asked
        for."""
        args = self.args
        inputs = ["--banks", "inputs/banks.csv", "--debts", "inputs/debts.csv", *limits_words(self.limits)]
        self.runs.answer(["check", *inputs], self.folder)
        rescue = None
        if args.bank is not None:
            rescue = self.runs.answer(["rescue", *inputs, "--bank", args.bank], self.folder)
        if args.scenarios is not None:
            self.runs.answer(["stress", *inputs, "--scenarios", "inputs/scenarios.toml"], self.folder)
        return rescue

    def run_all(self) -> None:
        """Puts the banks files of the networks, and what each command prints."""
        for part in self.parts:
            if part.banks is not None:
                put(self.folder, f"{part.folder}/banks.csv", part.banks)
        commands = commands_of(self.parts, self.args.scenarios is not None, self.args.bank, self.limits)
        answers = self.runs.all(lambda command: self.runs.answer(command[1], self.folder), commands, "run")
        for (file, _), answer in zip(commands, answers):
            put(self.folder, file, answer)
        put(self.folder, "commands.tsv", commands_text(commands))

    def check_apart(self, rescue: Optional[bytes]) -> None:
        """Fails where two answers of the program do not agree."""
        apart = "is not what `clear` and `defaults` print"
        if self.args.scenarios is not None:
            if self.read("stress.csv") != stress_of(self.scenarios, self.parts, self.read):
                raise ToolError(f"what `clearing stress` prints {apart} of the banks that each scenario leaves")
        if rescue is not None and not rescue_holds(self.network, rescue, self.read):
            raise ToolError(f"what `clearing rescue` prints {apart} with the sum and with a unit less")

    @property
    def summary(self) -> str:
        """What was made, in a line."""
        count = f"{len(self.parts)} network{'' if len(self.parts) == 1 else 's'}, {len(self.names)} files"
        return f"{count}; SHA256SUMS itself has the checksum {checksum(self.sums)}"


def limits_for(named: Optional[str], banks: bytes, debts: bytes) -> str:
    """The limits that were named, else those that the two files need; that they are wide is told."""
    by, why = (named, "") if named else audit.limits_needed(banks, debts)
    if why:
        what = f"the network is read by the wide limits, as it passes the standard ones ({why})"
        runner.say(f"{what}; --limits wide says so")
    return by


def put(folder: pathlib.Path, name: str, content: bytes) -> None:
    """Puts a file into a folder."""
    path = folder / name
    path.parent.mkdir(exist_ok=True)
    path.write_bytes(content)


def files_of(folder: pathlib.Path) -> List[str]:
    """The names of all that is in a folder but folders, from that folder."""
    there = []
    for place, folders, names in os.walk(folder):
        links = [name for name in folders if os.path.islink(os.path.join(place, name))]
        there += [os.path.relpath(os.path.join(place, name), folder).replace(os.sep, "/") for name in names + links]
    return there


@contextlib.contextmanager
def new_folder(way: Way, mode: int) -> Iterator[pathlib.Path]:
    """A folder of one's own beside the place at the end of a way, which is moved there in the end, or goes again. It
    is named by its descriptor, so that whoever can change the folder above cannot have another written to."""
    part = f".part-{secrets.token_hex(8)}"
    os.mkdir(part, 0o700, dir_fd=way.folder)
    number = os.open(part, os.O_RDONLY | os.O_DIRECTORY | os.O_NOFOLLOW, dir_fd=way.folder)
    here = pathlib.Path(f"/proc/self/fd/{number}")
    try:
        if os.fstat(number).st_uid != os.geteuid():
            raise PermissionError(1, "another user put a folder in the place of the new one")
        yield here
        os.fchmod(number, mode)
        if way.about() is not None:
            raise FileExistsError(17, "it is there already")
        os.rename(part, way.last, src_dir_fd=way.folder, dst_dir_fd=way.folder)
    except BaseException:
        for name in os.listdir(number):
            is_folder = os.path.isdir(here / name) and not os.path.islink(here / name)
            shutil.rmtree(here / name) if is_folder else os.unlink(here / name)
        with contextlib.suppress(OSError):
            os.rmdir(part, dir_fd=way.folder)
        raise
    finally:
        os.close(number)


def make(args: argparse.Namespace) -> int:
    """Makes a new folder: the status."""
    if os.path.lexists(args.folder):
        raise ToolError(f"{args.folder} is there already", 2)
    take_case(args)
    # Who may not read the inputs may not read the evidence.
    sheets = source.sheets_of(args.source) if args.source is not None else []
    inputs = [args.banks, args.debts, args.scenarios, args.labels, args.changes, *sheets]
    mask = files.mask_of(name for name in inputs if name is not None)
    os.umask(mask)
    try:
        with contextlib.closing(Way(args.folder)) as way, new_folder(way, 0o777 & ~mask) as folder:
            summary = Making(folder, args).summary
    except OSError as fault:
        raise ToolError(f"cannot write {args.folder}: {fault.strerror}", 5) from fault
    except audit.RefusedError as fault:
        raise ToolError(str(fault), 4) from fault
    except shock.ScenarioError as fault:
        raise ToolError(str(fault), fault.status) from fault
    sys.stdout.buffer.write(f"{audit.shown(args.folder)}: {summary}\n".encode())
    return 0
