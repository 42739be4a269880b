"""Checks a folder of evidence: what `clearing-evidence check` does.

Each file of the folder is read once, and all that follows is told of a copy that nobody else can write. The inputs are
read first: they say which files belong to the folder and how long each may be, and only these are read and copied. A
folder that is another at the end is not the one that was checked, and is refused.
"""
import argparse
import contextlib
import json
import os
import pathlib
import shutil
import sys
from typing import Dict, Iterable, Iterator, List, NamedTuple, Optional, Sequence, Set, Tuple

from .. import runner
from ..runner import ToolError
from . import audit, shock, source
from .layout import (
    BANKS, CHANGES, DESCRIPTION, FILE, JOURNAL, LABELS, PROGRAM, READMES, SUMS, TABLES, TEXTS, UNREAD,
    VERSIONS, CommandOf, commands_text, limits_of, limits_words, most_of, most_of_journal, sums_listed, sums_text,
)
from .parts import Part, commands_of, is_stress, names_of, parts_of, read_inputs, read_rescue, rescue_holds, words_of
from .plain_files import NoRoomError, checksum_of, opened_in
from .versions import at_hand, program_sum

# No folder of these commands has as many names.
MOST_NAMES = 1000
# What says which files belong to a folder, and what each has.
FIRST = {
    *TEXTS, "inputs/banks.csv", "inputs/debts.csv", "inputs/scenarios.toml", "rescue/rescue.csv", "source/command.tsv",
}
# How many bytes of memory the check takes itself; and what a run of audit.py, and one of the program, may take.
MEMORY = 4 << 30
LIMITS, PROGRAM_LIMITS = runner.Limits(seconds=3600, memory=8 << 30), runner.Limits(seconds=3600)


class Inputs(NamedTuple):
    """What the inputs of a folder say: the limits by which they were read, the network, the scenarios, what is printed
    of a rescue, and what these commands make of them."""

    by: str
    network: audit.Network
    scenarios: Sequence[shock.Scenario]
    rescue: Optional[bytes]
    parts: List[Part]
    commands: List[CommandOf]


class Folder:
    """A folder of evidence as it was read: the names that are in it, the checksums of the files that belong to it, why
    some could not be read, and a copy of the others."""

    def __init__(self, path: str, copy: str) -> None:
        self.path, self.copy = path, pathlib.Path(copy)
        self.sums: Dict[str, str] = {}
        self.unread: Dict[str, str] = {}
        self.most: Dict[str, int] = {}
        try:
            self.number = os.open(path, os.O_RDONLY | os.O_DIRECTORY)
            self.names = names_in(self.number)
        except OSError as fault:
            raise ToolError(f"{audit.shown(path)} cannot be read: {fault.strerror}", UNREAD) from fault

    def close(self) -> None:
        """Lets go of the folder."""
        os.close(self.number)

    def has(self, name: str) -> bool:
        """Whether a file is there, or a folder, whose name ends with a `/`."""
        return name in self.names

    def take(self, name: str, most: int) -> None:
        """Reads a file as far as its limit, for its checksum, and copies it."""
        path = self.copy / name
        try:
            path.parent.mkdir(exist_ok=True)
            copy = open(path, "wb", buffering=0)
        except OSError as fault:
            raise NoRoomError(fault.strerror) from fault
        self.most[name] = most
        with copy:
            try:
                self.sums[name] = checksum_of(opened_in(self.number, name), most, copy)
            except OSError as fault:
                self.unread[name] = fault.strerror or str(fault)
                path.unlink()

    def size(self, name: str) -> int:
        """How many bytes a file has, 0 where that is not to be known."""
        try:
            number = opened_in(self.number, name)
        except OSError:
            return 0
        size = os.fstat(number).st_size
        os.close(number)
        return size

    def must_be_there(self, name: str) -> pathlib.Path:
        """What is no plain file within the folder is none."""
        if name not in self.sums:
            raise ToolError(f"{name} is not there", UNREAD)
        return self.copy / name

    def read(self, name: str) -> bytes:
        """The content of a file of the folder."""
        try:
            return self.must_be_there(name).read_bytes()
        except OSError as fault:
            raise ToolError(f"{name} cannot be read: {fault.strerror}", UNREAD) from fault

    def changed(self) -> Optional[str]:
        """What of the folder is not now as it was read, if anything."""
        try:
            for name, known in self.sums.items():
                if checksum_of(opened_in(self.number, name), self.most[name]) != known:
                    return name
            return None if sorted(names_in(self.number)) == sorted(self.names) else "the folder"
        except (OSError, ToolError):
            return "the folder"


def names_in(folder: int) -> List[str]:
    """What is in a folder: each name from it, with a `/` behind that of a folder, and how deep a folder of these
    commands is."""
    names = entries_in(folder)
    for below in [name for name in names if name.endswith("/")]:
        number = os.open(below[:-1], os.O_RDONLY | os.O_DIRECTORY | os.O_NOFOLLOW, dir_fd=folder)
        try:
            names += [below + name for name in entries_in(number)]
        finally:
            os.close(number)
        check_count(names)
    return names


def entries_in(folder: int) -> List[str]:
    """What stands in a folder, which is given by its descriptor, with a `/` behind the name of a folder."""
    names: List[str] = []
    with os.scandir(folder) as entries:
        for entry in entries:
            names.append(entry.name + ("/" if entry.is_dir(follow_symlinks=False) else ""))
            check_count(names)
    return names


def check_count(names: Sequence[object]) -> None:
    """Fails at more names than a folder of these commands has."""
    if len(names) > MOST_NAMES:
        raise ToolError(f"the folder has more than {MOST_NAMES} names, and none of these commands has so many", UNREAD)


def inputs_of(folder: Folder) -> Inputs:
    """What the inputs of a folder say."""
    scenarios_data = folder.read("inputs/scenarios.toml") if folder.has("inputs/scenarios.toml") else None
    rescue = folder.read("rescue/rescue.csv") if folder.has("rescue/") else None
    try:
        banks, debts = folder.read("inputs/banks.csv"), folder.read("inputs/debts.csv")
        by = limits_of(folder.read("commands.tsv"))
        network, scenarios = read_inputs(banks, debts, scenarios_data, by)
    except audit.RefusedError as fault:
        raise ToolError(f"inputs: {fault}", UNREAD) from fault
    except shock.ScenarioError as fault:
        raise ToolError(f"inputs: {fault}", fault.status if fault.status == 2 else UNREAD) from fault
    parts = parts_of(network.banks, scenarios, rescue)
    rescued = read_rescue(rescue)[0].decode() if rescue is not None else None
    commands = commands_of(parts, scenarios_data is not None, rescued, by)
    return Inputs(by, network, scenarios, rescue, parts, commands)


def files_of(folder: Folder, inputs: Inputs) -> Set[str]:
    """The names of the files that these commands make of these inputs."""
    files = names_of(inputs.parts, inputs.commands, folder.has("inputs/scenarios.toml"))
    files |= {name for name in (CHANGES, LABELS, DESCRIPTION) if folder.has(name)}
    if folder.has("source/"):
        files |= {"source/command.tsv", "source/summary.csv", *source.names_of(folder.read("source/command.tsv"))}
    return files


def described_otherwise(folder: Folder) -> List[str]:
    """The files of the inputs that have another checksum than the description of the case says."""
    try:
        resources = json.loads(folder.read(DESCRIPTION).decode("utf-8"))["resources"]
        known = {resource.get("path"): resource.get("hash") for resource in resources}
    except (ValueError, KeyError, TypeError, AttributeError, RecursionError) as fault:
        raise ToolError(f"{DESCRIPTION} is not the description of a case", UNREAD) from fault
    differing = []
    for name, digest in known.items():
        has = folder.sums.get(f"inputs/{name}")
        if isinstance(name, str) and digest is not None and has is not None and digest != f"sha256:{has}":
            differing.append(name)
    return differing


def most_in(name: str, network: audit.Network) -> int:
    """How many bytes a file of a folder with this network has at most."""
    if name == "stress.csv":
        return max(most_of(name), 100 * most_of_tables(network))
    return most_of_journal(network) if name.endswith("/journal.csv") else most_of(name)


def most_of_tables(network: audit.Network) -> int:
    """How many bytes the payments and the defaults of a network have at most, with the name of a scenario."""
    longest = max((len(bank.name) for bank in network.banks), default=0)
    debt, bank = len(",,9,1000000,1000000\n") + 2 * longest, longest + 6 * 17 + len("fundamental\n")
    return 1_000 + len(network.debts) * debt + len(network.banks) * bank


class Checking:
    """A folder under check: what was read of it, what is told of it, and what fails. It takes so much memory itself,
    and what it runs has limits of its own."""

    def __init__(self, path: str, copy: str) -> None:
        with runner.limited_memory(MEMORY):
            self.folder = Folder(path, copy)
            self.take()

    def take(self) -> None:
        """Reads the inputs, and then the files that belong to the folder."""
        self.failed: Set[int] = set()
        self.audit_runs, self.program_runs = runner.ProgramRuns(LIMITS), runner.ProgramRuns(PROGRAM_LIMITS)
        self.fault: Optional[ToolError] = None
        # No file belongs to inputs that are none.
        self.files: Set[str] = set()
        named = [name for name in self.folder.names if FILE.fullmatch(name)]
        for name in FIRST.intersection(named):
            self.folder.take(name, most_of(name))
        try:
            self.known = inputs_of(self.folder)
            self.files = files_of(self.folder, self.known)
        except ToolError as fault:
            # It is told when the inputs are looked at.
            self.fault = fault
            return
        most = {name: most_in(name, self.known.network) for name in self.files.intersection(named) - FIRST}
        self.check_room(most)
        for name in sorted(most):
            self.folder.take(name, most[name])

    def check_room(self, most: Dict[str, int]) -> None:
        """Fails where a copy of these files would take more than half of the room that there is."""
        size = sum(min(self.folder.size(name), most[name]) for name in most)
        room = shutil.disk_usage(self.folder.copy).free // 2
        if size > room:
            shown = audit.shown(self.folder.path)
            raise NoRoomError(f"a copy of {shown} takes {size:,} bytes, and there is room for {room:,}")

    def tell(self, line: str, failing: Optional[int] = None) -> None:
        """A line, in which whatever stands in the folder is shown as it can be read."""
        if failing is not None:
            self.failed.add(failing)
        sys.stdout.buffer.write((audit.shown(line) + "\n").encode("utf-8", "backslashreplace"))
        sys.stdout.flush()

    def status(self) -> int:
        """Looks at all, and tells what was checked and what was not: the status."""
        with contextlib.closing(self.folder):
            with runner.limited_memory(MEMORY):
                self.look()
            # The program has its own limits.
            here = self.program()
            if here is not None:
                self.replay()
            self.end(here)
        return min(self.failed, default=0)

    def look(self) -> None:
        """Looks at all but what the program here says, in turn, and tells of each."""
        for name, why in sorted(self.folder.unread.items()):
            self.tell(f"{name}: {why}", UNREAD)
        self.sums()
        if self.fault is not None:
            raise self.fault
        self.names()
        self.texts()
        self.is_described()
        self.source_holds()
        self.banks_hold()
        self.audit()

    # Checksums and names.

    def sums(self) -> None:
        """The checksums, in the form in which `make` writes them."""
        text = self.folder.read("SHA256SUMS")
        listed = sums_listed(text)
        there = {name for name in self.folder.names if not name.endswith("/")} - {"SHA256SUMS"}
        same = {name for name in listed if name in there and self.folder.sums.get(name) == listed[name]}
        all_same = len(same) == len(listed) and there == set(listed)
        self.tell(f"checksums: {len(same)} of {len(listed)}", None if all_same else SUMS)
        for name in sorted(set(listed) - same):
            how = "differs" if name in self.folder.sums else "is not read" if name in there else "is not there"
            self.tell(f"checksums: {name} {how}")
        for name in sorted(there - set(listed)):
            self.tell(f"checksums: {name} is not listed")
        if text != sums_text(listed):
            self.tell("SHA256SUMS: not as these commands write it", UNREAD)

    def names(self) -> None:
        """Whether the folder has the files that these commands make of these inputs, and nothing else."""
        for name in sorted(self.files):
            self.folder.must_be_there(name)
        for name in sorted(set(self.folder.names) - self.files - {os.path.dirname(file) + "/" for file in self.files}):
            self.tell(f"{name}: none of these commands makes it here", UNREAD)

    def texts(self) -> None:
        """The texts that say the same in each folder, or have a form."""
        if self.folder.read("commands.tsv") != commands_text(self.known.commands):
            self.tell("commands.tsv: not the commands that make these files", UNREAD)
        if self.folder.read("README.txt") not in [text.encode() for text in READMES]:
            self.tell("README.txt: not the text of these tools", UNREAD)
        if not VERSIONS.fullmatch(self.folder.read("versions.txt")):
            self.tell("versions.txt: not of its form", UNREAD)

    # The networks.

    def source_holds(self) -> None:
        """The two files are what the command makes of the sheets, where these are there."""
        if not self.folder.has("source/"):
            return
        text = self.folder.read("source/command.tsv")
        try:
            contents = source.made_of(text, lambda name: self.folder.read(f"source/{name}"))
        except ToolError as fault:
            self.tell(f"source: {str(fault).partition(chr(10))[0]}", BANKS if fault.status == 4 else UNREAD)
            return
        for name, content in contents.items():
            place = source.place_of(name)
            same = self.folder.has(place) and self.folder.read(place) == content
            self.tell(f"source: {place} {'same' if same else 'differs'}", None if same else BANKS)
        if self.folder.has(LABELS) and source.NAMED not in contents and not self.folder.has(DESCRIPTION):
            self.tell(f"source: {LABELS} differs", BANKS)

    def is_described(self) -> None:
        """The files of the inputs are those that the description of the case says, where it is there."""
        if not self.folder.has(DESCRIPTION):
            return
        for name in described_otherwise(self.folder):
            self.tell(f"{DESCRIPTION}: {name} is not the file that was described", SUMS)

    def banks_hold(self) -> None:
        """The banks files are what the scenarios leave, or have the sum that saves."""
        for part in self.known.parts:
            if part.banks is not None:
                same = self.folder.read(f"{part.folder}/banks.csv") == part.banks
                self.tell(f"{part.label}: banks {'same' if same else 'differ'}", None if same else BANKS)

    def files_words(self, part: Part) -> List[str]:
        """The files of a network, as words of the tool and of the program."""
        words = words_of(part)
        journal = self.name(f"{part.folder}/journal.csv")
        by = limits_words(self.known.by)
        return [words[0], self.name(words[1]), words[2], self.name(words[3]), "--journal", journal, *by]

    def name(self, name: str) -> str:
        """The name of a file as a word that no tool takes for an option."""
        return os.path.abspath(self.folder.copy / name)

    def audited(self, part: Part) -> Tuple[int, List[str], str]:
        """What audit.py says of the journal and the tables of a network."""
        words = self.files_words(part)
        for table in ("payments", "defaults"):
            words += [f"--{table}", self.name(f"{part.folder}/{table}.csv")]
        status, output, messages = self.audit_runs.run([sys.executable, "-I", audit.__file__, *words])
        return status, output.decode("utf-8", "replace").splitlines(), messages.decode("utf-8", "replace").strip()

    def audit(self) -> None:
        """Each journal by clearing-audit, the rescue and the stress."""
        parts = self.known.parts
        for part, (status, lines, messages) in zip(parts, self.audit_runs.all(self.audited, parts, "journal")):
            if status in (0, 1) and lines:
                verdict = "lawful," + lines[0].split()[0]
                self.tell(f"{part.label}: " + "; ".join([verdict, *lines[2:4]]), None if status == 0 else TABLES)
            else:
                first, *_ = lines or messages.splitlines() or [f"audit.py ended with {status}"]
                self.tell(f"{part.label}: {first}", JOURNAL)
        if self.known.rescue is not None:
            self.rescue_holds(self.known.rescue)
        if self.folder.has("inputs/scenarios.toml"):
            with open(self.folder.must_be_there("stress.csv"), "rb") as stress:
                same = is_stress(stress, self.known.scenarios, parts, self.folder.read)
            self.tell(f"stress.csv: {'same' if same else 'differs'}", None if same else TABLES)

    def rescue_holds(self, rescue: bytes) -> None:
        """Whether the bank is sound with the sum, and not with a unit less."""
        try:
            holds = rescue_holds(self.known.network, rescue, self.folder.read)
        except (ValueError, IndexError):
            holds = False
        bank, added, _, _ = read_rescue(rescue)
        verdict = "sound with it, and not with a unit less" if added else "sound as it is"
        verdict = verdict if holds else "not what the tables say"
        self.tell(f"rescue of {bank.decode()} with {added}: {verdict}", None if holds else TABLES)

    # The program.

    def program(self) -> Optional[str]:
        """The checksum of the program by which all is replayed and run again, where there is one. Nothing is built."""
        if not os.environ.get("CLEARING"):
            here = at_hand()
            if here is None:
                return None
            os.environ["CLEARING"] = here
        return program_sum()

    def replayed(self, part: Part) -> Tuple[int, bytes, bytes]:
        """What the program says of a journal."""
        return self.program_runs.run([runner.program(), "replay", *self.files_words(part)])

    def is_same_again(self, command: CommandOf) -> bool:
        """Whether the program prints for a command what the folder has."""
        status, output, _ = self.program_runs.run([runner.program(), *command[1]], self.folder.copy)
        return status == 0 and output == self.folder.read(command[0])

    def replay(self) -> None:
        """Replays the journals by the program, and runs each command again."""
        parts, commands = self.known.parts, self.known.commands
        for part, (status, output, messages) in zip(parts, self.program_runs.all(self.replayed, parts, "replay")):
            verdict, _, payments = output.partition(b"\n\n")
            same = status == 0 and payments == self.folder.read(f"{part.folder}/payments.csv")
            line = (verdict if status in (0, 7) else messages).decode("utf-8", "replace").strip()
            tail = f"; payments {'same' if same else 'differ'}" if status == 0 else ""
            self.tell(f"{part.label}, replayed by the program: {line}{tail}", None if same else PROGRAM)
        again = self.program_runs.all(self.is_same_again, commands, "run")
        differ = [file for (file, _), is_same in zip(commands, again) if not is_same]
        count = f"{len(commands) - len(differ)} of {len(commands)} the same"
        self.tell(f"commands run again: {count}", PROGRAM if differ else None)
        for file in differ:
            self.tell(f"commands run again: {file} differs")

    def end(self, here: Optional[str]) -> None:
        """What was checked and what was not."""
        changed = self.folder.changed()
        if changed is not None:
            self.tell(f"{changed}: changed while it was checked", SUMS)
        for failing, words in self.looked_at(here):
            self.tell(f"{'not so' if failing in self.failed else 'checked'}: {words}")
        for words in self.not_looked_at(here):
            self.tell(f"not checked: {words}")

    def looked_at(self, here: Optional[str]) -> Iterator[Tuple[int, str]]:
        """What holds unless something failed: of what was looked at alone."""
        yield UNREAD, "the folder has the files of these commands and no others; commands.tsv and README.txt are theirs"
        yield SUMS, "the files are those that SHA256SUMS lists"
        has_rescue = self.known.rescue is not None
        left = ["is what its scenario leaves"] if self.known.scenarios or not has_rescue else []
        if self.folder.has("source/"):
            yield BANKS, "the two files are what the command in source/ makes of the sheets"
        if len(self.known.parts) > 1:
            yield BANKS, "each banks file " + ", or ".join([*left, *(["has the sum that saves"] if has_rescue else [])])
        yield JOURNAL, (
            "each journal is lawful, and at its end nobody can pay more: so it ends in the least payments that clear"
            " (raise_journal::laws::lawful_journals_pay_the_least)"
        )
        stress = ["stress"] if self.folder.has("stress.csv") else []
        tables = ["payments", "defaults", *(["rescue"] if has_rescue else []), *stress]
        yield TABLES, f"{', '.join(tables[:-1])} and {tables[-1]} are those of the journals"
        if here is not None:
            yield PROGRAM, "the program here replays the journals, and prints the same again"

    def not_looked_at(self, here: Optional[str]) -> Iterator[str]:
        """What no check of a folder can say, with the files that nothing is computed of."""
        not_given = {"inputs/banks.csv", "inputs/debts.csv", "source/command.tsv", "source/summary.csv"}
        from_sheets = self.folder.has("source/")
        inputs = ", ".join(given_names(self.folder.sums, not_given if from_sheets else set()))
        what = "sheets and inputs" if from_sheets else "inputs"
        yield (
            f"that the {what} are true ({inputs}), and that SHA256SUMS is the one that was handed over: it has the"
            f" checksum {self.folder.sums['SHA256SUMS']}"
        )
        lines = self.folder.read("versions.txt").decode("utf-8", "replace").splitlines()
        named = next((line.split(" ", 1)[1] for line in lines if line.startswith("program ")), "")
        which = "the checksum that it names" if here == named else "another checksum than it names"
        yield f"that versions.txt is true{'' if here is None else f'; the program here has {which}'}"
        yield "the numbers of rounds, and who made the journals and when"
        yield "the proofs (`rt ci` in the repository checks them)"
        if here is None:
            yield "the same by the program: none is here, and CLEARING names none"


def given_names(names: Iterable[str], made: Set[str]) -> List[str]:
    """The names of the files that somebody gave, and no command made."""
    return [name for name in sorted(names) if name.startswith(("inputs/", "source/")) and name not in made]


def check(args: argparse.Namespace) -> int:
    """Checks the folder that was asked for: the status."""
    if not os.path.isdir(args.folder):
        raise ToolError(f"{audit.shown(args.folder)} is no folder", UNREAD)
    try:
        with runner.work_folder() as copy:
            return Checking(args.folder, copy).status()
    except NoRoomError as fault:
        raise ToolError(f"no copy can be made in the folder of temporary files: {fault}", 1) from fault
