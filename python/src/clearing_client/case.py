"""A case: one folder for a network and what belongs to it."""
from __future__ import annotations

import csv
import datetime
import errno
import hashlib
import io
import os
import pathlib
import stat
import tempfile
from decimal import Decimal, InvalidOperation, localcontext
from typing import IO, Any, Dict, Iterable, List, Mapping, NamedTuple, Optional, Tuple, Union

from . import description as described
from .decimals import exact
from .description import (
    LABEL_COLUMNS, NAME, Document, ImportLine, ImportSummary, Origin, object_in, objects_in, text_in,
    text_or_none,
)
from .errors import CaseError, UnreadableError
from .fields import long_fields
from .inputs import File, ScenariosLike, third_of
from .limits import MOST, STANDARD, WIDE
from .network import Network

__all__ = ["Case", "ImportLine", "ImportSummary", "Label", "Origin", "Source"]

FILES = {"banks": "banks.csv", "debts": "debts.csv", "scenarios": "scenarios.toml", "labels": "labels.csv"}
"""The files of a case by what they are."""
WIDE_BYTES = MOST.bytes["banks"]
"""No banks file or debts file is longer by either limits."""
SHEETS = "sources"
"""The folder of a case with copies of the sheets that it was made of."""
MOST_OF_A_SHEET = 400_000_000
"""No sheet that is read is longer."""


class Label(NamedTuple):
    """What a bank is called beside its name in the files, and what it belongs to; empty where nothing is known."""

    bank: str
    short: str = ""
    full: str = ""
    group: str = ""
    country: str = ""


class Source(NamedTuple):
    """A sheet that the files were made of: its title, its path in the folder, or empty, and the checksum of what it
    had."""

    title: str
    path: str = ""
    hash: str = ""


class Case:
    """A network, and what belongs to it: what a unit is worth in which currency, the date, the names, where it comes
    from.

    network       the `Network`
    labels        a `Label` for each bank that has one, by the name of the bank
    scenarios     the scenarios file as bytes, None where there is none
    title         a line; `description` is the analyst's text, in Markdown
    as_of         the date of the amounts, or None
    test          `liquidity` or `solvency`, or None
    currency      three letters, or None
    unit          how much of the currency one unit of account is, an exact decimal
    limits        the limits by which the network is read, `standard` or `wide`; where it is not said, those it needs
    keep          what default keeps, per mille, or None
    contributors  dicts with `title` and others of the Data Package standard
    sources       the sheets that it was made of
    summary       what the import of sheets did, or None; `origin` is the case that it was made of, or None
    notes         what is to be told of a folder that was read, a line each

    >>> case = Case(Network({"A": 7, "B": 1}, {("A", "B"): 10}), title="Two banks", unit="0.01", currency="EUR")
    >>> case.amount(10)
    Decimal('0.10')
    """

    def __init__(
        self,
        network: Optional[Network] = None,
        *,
        title: str = "",
        description: str = "",
        as_of: Union[datetime.date, str, None] = None,
        test: Optional[str] = None,
        currency: Optional[str] = None,
        unit: Union[Decimal, int, str] = 1,
        limits: Optional[str] = None,
        keep: Optional[int] = None,
        labels: Union[Mapping[str, Label], Iterable[Label]] = (),
        scenarios: Optional[ScenariosLike] = None,
        contributors: Iterable[Mapping[str, object]] = (),
        sources: Iterable[Source] = (),
        summary: Optional[ImportSummary] = None,
        origin: Optional[Origin] = None,
        version: Optional[str] = None,
        created: Optional[str] = None,
    ) -> None:
        self._network = network
        self.title, self.description = title, description
        self.as_of = described.date_of(as_of) if isinstance(as_of, str) else as_of
        self.test, self.currency, self.unit = test, currency, exact_unit(unit)
        self.said_limits, self.keep = limits, keep
        rows = labels.values() if isinstance(labels, Mapping) else labels
        self.labels: Dict[str, Label] = {label.bank: label for label in rows}
        self.scenarios = scenarios_bytes(scenarios)
        self.contributors = tuple(dict(one) for one in contributors)
        self.sources = tuple(sources)
        self.summary, self.origin = summary, origin
        self.version, self.created = version, created
        self.notes: Tuple[str, ...] = ()
        self.others: Document = {}
        """What others have put into the description, which is kept as it is."""
        self.folder: Optional[pathlib.Path] = None
        self.sheet_names: Tuple[str, ...] = ()
        """The names of the copies of sheets that the folder has in `sources/`, in the order of the description."""
        self.paths: Dict[str, str] = {}
        """The names of the files that the case was read from: `banks`, `debts`, `scenarios` and `labels`, as far as
        they are there."""
        self.is_described = False
        described.check(self.document(), "")

    def __repr__(self) -> str:
        called = repr(self.title) if self.title else os.fspath(self.folder or "")
        return f"<Case {called}>".replace(" >", ">")

    @property
    def network(self) -> Network:
        """The network. The two files are read once, when it is first asked for."""
        if self._network is None:
            self._network = Network(self.paths["banks"], self.paths["debts"])
        if self.said_limits is not None and self._network.limits != self.said_limits:
            self._network = self._network._by_limits(self.said_limits)
        return self._network

    @property
    def limits(self) -> str:
        """The limits by which the network is read: those that were said, else those that it needs."""
        is_there = self._network is not None or "debts" in self.paths
        return self.said_limits or (self.network.limits if is_there else STANDARD)

    @limits.setter
    def limits(self, limits: Optional[str]) -> None:
        self.said_limits = limits

    @property
    def author(self) -> str:
        """The title of the first contributor, or nothing."""
        return str(self.contributors[0].get("title", "")) if self.contributors else ""

    def amount(self, units: int) -> Decimal:
        """What some units are worth in the currency, exactly. Fails where it has more digits than are kept."""
        with localcontext(exact()):
            return units * self.unit

    def label(self, bank: str) -> Label:
        """The label of a bank; one with its name alone where it has none."""
        return self.labels.get(bank) or Label(bank)

    # Reading

    @classmethod
    def read(cls, folder: File) -> "Case":
        """The case of a folder: with its description, or with the two files alone.

        Fails with `CaseError` where the folder is none, and at links, paths that lead out of it, and a description that
        does not meet its schema; with `UnreadableError` where a file cannot be read. The two files are judged by the
        program alone."""
        place = pathlib.Path(folder)
        data = content_in(place, NAME, described.MOST_BYTES)
        document = None if data is None else described.parse(data, os.fspath(folder))
        case = cls._of_document(document or {})
        case.folder, case.is_described = place, document is not None
        places = {one.get("path"): at for at, one in enumerate(objects_in(document or {}, "resources"))}
        names = sheets_in(place)
        case.sheet_names = tuple(sorted(names, key=lambda name: places.get(f"{SHEETS}/{name}", len(places))))
        for what, name in FILES.items():
            if is_file_in(place, name):
                case.paths[what] = os.fspath(place / name)
            elif what in ("banks", "debts"):
                raise CaseError(os.fspath(folder), "", f"it has no {name}, and is no case")
        labels = content_in(place, FILES["labels"], WIDE_BYTES)
        case.labels = {} if labels is None else labels_in(labels, case.paths["labels"])
        case.scenarios = content_in(place, FILES["scenarios"], MOST.bytes["scenarios"] + 1)
        case.notes = () if document is None else tuple(case._notes_on(document, place))
        return case

    @classmethod
    def of_files(cls, banks: File, debts: File, **more: Any) -> "Case":
        """A case of the two files alone. They are read when the network is asked for. The others are the words of
        `Case`, which no type of Python 3.9 can repeat."""
        case = cls(None, **more)
        case.paths = {"banks": os.fspath(banks), "debts": os.fspath(debts)}
        return case

    @classmethod
    def _of_document(cls, document: Mapping[str, object]) -> "Case":
        ours = object_in(document, "clearing")
        keep = ours.get("keep")
        case = cls(
            title=text_in(document, "title"),
            description=text_in(document, "description"),
            as_of=text_or_none(ours, "asOf"),
            test=text_or_none(ours, "test"),
            currency=text_or_none(ours, "currency"),
            unit=text_in(ours, "unit") or "1",
            # What says that the standard ones were enough asks for nothing.
            limits=WIDE if ours.get("limits") == WIDE else None,
            keep=keep if isinstance(keep, int) else None,
            contributors=objects_in(document, "contributors"),
            sources=map(source_of, objects_in(document, "sources")),
            summary=described.import_of(object_in(ours, "import")) if "import" in ours else None,
            origin=described.origin_of(object_in(ours, "from")) if "from" in ours else None,
            version=text_or_none(document, "version"),
            created=text_or_none(document, "created"),
        )
        case.others = dict(document)
        return case

    def _notes_on(self, document: Mapping[str, object], place: pathlib.Path) -> List[str]:
        """What is to be told of a folder with a description: files that are others than was said, and keys that nobody
        knows."""
        notes = []
        resources = described.paths_of(document, os.fspath(place))
        for path, resource in resources.items():
            if not is_file_in(place, path):
                notes.append(f"{path} is described, and is not there")
            elif "hash" in resource and hash_in(place, path) != resource["hash"]:
                notes.append(f"{path} is not the file that was described")
        there = [name for what, name in FILES.items() if what in self.paths]
        notes += [f"{name} is not described" for name in there if name not in resources]
        notes += [f"the key {key[:80]} is unknown" for key in described.unknown_keys(document)]
        return notes

    # Writing

    def document(self, files: Optional[Mapping[str, bytes]] = None) -> Document:
        """The description of the case with some files, as it is written: the keys of the standard, and ours under
        `clearing`."""
        values: Document = {
            "asOf": self.as_of.isoformat() if self.as_of else None,
            "test": self.test,
            "currency": self.currency,
            "unit": f"{self.unit:f}",
            "limits": self.limits,
            "keep": self.keep,
            "import": self.summary.as_json() if self.summary else None,
            "from": self.origin.as_json() if self.origin else None,
        }
        before = object_in(self.others, "clearing")
        ours = {**{key: value for key, value in before.items() if key not in values}, **without_none(values)}
        whole: Document = {
            "$schema": described.PROFILE,
            "name": self.others.get("name") or described.name_of(self.title),
            "title": self.title or None,
            "description": self.description or None,
            "created": self.created,
            "version": self.version,
            "contributors": list(self.contributors) or None,
            "sources": [without_empty(source._asdict()) for source in self.sources] or None,
            "resources": self._resources(files or {}),
            "clearing": ours,
        }
        return {**{key: value for key, value in self.others.items() if key not in whole}, **without_none(whole)}

    def _resources(self, files: Mapping[str, bytes]) -> List[Document]:
        """The files as resources; what others have said of them is kept."""
        resources = objects_in(self.others, "resources")
        before = {one.get("path"): one for one in resources}
        anew = [{**before.get(path, {}), **described.resource_of(path, data)} for path, data in files.items()]
        others = [one for one in resources if one.get("path") is None]
        return [*anew, *others] or [{"name": "banks", "path": "banks.csv"}]

    def sheets(self) -> Dict[str, bytes]:
        """The copies of sheets in the folder that the case was read from, by their names. They are read when they are
        asked for; one that is not there any more cannot be read."""
        sheets: Dict[str, bytes] = {}
        for name in self.sheet_names:
            place = self.folder or pathlib.Path()
            data = content_in(place, f"{SHEETS}/{name}", MOST_OF_A_SHEET)
            if data is None or len(data) > MOST_OF_A_SHEET:
                why = "it is not there any more" if data is None else f"it is longer than {MOST_OF_A_SHEET:,} bytes"
                raise UnreadableError(os.fspath(place / SHEETS / name), why)
            sheets[name] = data
        return sheets

    def files(self, sources: Optional[Mapping[str, bytes]] = None) -> Dict[str, bytes]:
        """The files of the case by their paths in its folder, with the description last. `sources` are copies of sheets
        by their names, which stand in `sources/`: those of the folder that it was read from where they are not said."""
        banks, debts = self.network._banks, self.network._debts
        files = {"banks.csv": banks, "debts.csv": debts}
        if self.scenarios is not None:
            files["scenarios.toml"] = self.scenarios
        if self.labels:
            files["labels.csv"] = labels_text(self.labels.values()).encode()
        copies = self.sheets() if sources is None else sources
        files.update({f"{SHEETS}/{name}": data for name, data in copies.items()})
        return {**files, NAME: self.description_of(files).encode()}

    def description_of(self, files: Mapping[str, bytes]) -> str:
        """The description of the case with some files, by their paths in its folder. Fails with `CaseError` where it
        would not meet its schema."""
        self.created = self.created or described.now()
        document = self.document(files)
        described.check(document, "")
        return described.text_of(document)

    def write(self, folder: File, *, replace: bool = False, sources: Optional[Mapping[str, bytes]] = None) -> None:
        """Writes the case as a folder, whole or not at all, with the copies of sheets that `files` says. A folder that
        is there is written over where `replace` says so, and has nothing that is no part of a case; it comes back where
        a step fails."""
        place = pathlib.Path(os.path.abspath(folder))
        if os.path.lexists(place):
            check_replaceable(place, os.fspath(folder), replace)
        with tempfile.TemporaryDirectory(prefix=".part-", dir=place.parent) as name:
            part = pathlib.Path(name, "case")
            for path, data in self.files(sources).items():
                (part / path).parent.mkdir(parents=True, exist_ok=True)
                (part / path).write_bytes(data)
            if os.path.lexists(place):
                os.rename(place, pathlib.Path(name, "before"))
            try:
                os.rename(part, place)
            except OSError:
                if os.path.lexists(pathlib.Path(name, "before")):
                    os.rename(pathlib.Path(name, "before"), place)
                raise


def network_of(banks: bytes, debts: bytes) -> Network:
    """The network of two files, byte by byte as they are."""
    net = Network.__new__(Network)
    net._banks, net._debts = banks, debts
    return net


# What a folder has


def check_replaceable(place: pathlib.Path, folder: str, replace: bool) -> None:
    """Fails where a folder may not be written over: nobody said so, or it has what is no part of a case."""
    if place.is_dir() and not place.is_symlink() and not any(place.iterdir()):
        return
    if not replace:
        raise CaseError(folder, "", "it is there; nothing is written over it")
    if place.is_symlink() or not place.is_dir():
        raise CaseError(folder, "", "it is no folder; nothing is written over it")
    for one in sorted(place.iterdir()):
        if one.name not in (*FILES.values(), NAME, SHEETS):
            what = f"it has {one.name[:80]}, which is no part of a case; nothing is written over it"
            raise CaseError(folder, "", what)
    sheets_in(place)


def check_own(place: pathlib.Path, path: str) -> Optional[os.stat_result]:
    """What stands at a path below a folder, or nothing. Fails at a link, and at what is neither a file nor a folder."""
    here, about = place, None
    for part in path.split("/"):
        here = here / part
        try:
            about = os.lstat(here)
        except (FileNotFoundError, NotADirectoryError):
            if not os.path.lexists(place):
                raise UnreadableError(os.fspath(place), "there is no such folder") from None
            if not place.is_dir():
                raise CaseError(os.fspath(place), "", "it is no folder") from None
            return None
        except (OSError, ValueError) as fault:
            raise UnreadableError(os.fspath(here), str(fault)) from fault
        if stat.S_ISLNK(about.st_mode):
            what = f"{path[:80]} is a link, or stands behind one; a case has files alone"
            raise CaseError(os.fspath(place), "", what)
    if about is None or not (stat.S_ISREG(about.st_mode) or stat.S_ISDIR(about.st_mode)):
        raise CaseError(os.fspath(place), "", f"{path[:80]} is no file")
    return about


def is_file_in(place: pathlib.Path, path: str) -> bool:
    """Whether a folder has a file at a path."""
    about = check_own(place, path)
    return about is not None and stat.S_ISREG(about.st_mode)


def opened_in(place: pathlib.Path, path: str) -> Optional[IO[bytes]]:
    """A file of a folder, open; None where it is not there. Each step below the folder is opened from the one before,
    and none is a link, whatever is put there meanwhile."""
    if not is_file_in(place, path):
        return None
    here = -1
    try:
        here = os.open(place, os.O_RDONLY | os.O_DIRECTORY)
        for part in path.split("/")[:-1]:
            below = os.open(part, os.O_RDONLY | os.O_DIRECTORY | os.O_NOFOLLOW, dir_fd=here)
            os.close(here)
            here = below
        flags = os.O_RDONLY | os.O_NOFOLLOW | os.O_NONBLOCK
        return open(os.open(path.rpartition("/")[2], flags, dir_fd=here), "rb")
    except OSError as fault:
        if fault.errno in (errno.ELOOP, errno.ENOTDIR):
            raise CaseError(os.fspath(place), "", f"{path} is a link; a case has files alone") from fault
        raise UnreadableError(os.fspath(place / path), fault.strerror or str(fault)) from fault
    finally:
        if here >= 0:
            os.close(here)


def content_in(place: pathlib.Path, path: str, most: int) -> Optional[bytes]:
    """The bytes of a file of a folder, no more than one beyond the most; None where it is not there."""
    file = opened_in(place, path)
    if file is None:
        return None
    with file:
        return file.read(most + 1)


def hash_in(place: pathlib.Path, path: str) -> str:
    """The checksum of a file of a folder, which is read block by block. What is longer than any file of its kind has
    none."""
    file = opened_in(place, path)
    if file is None:
        return ""
    left = MOST_OF_A_SHEET if path.startswith(f"{SHEETS}/") else WIDE_BYTES
    digest = hashlib.sha256()
    with file:
        while block := file.read(1 << 20):
            left -= len(block)
            if left < 0:
                return ""
            digest.update(block)
    return f"sha256:{digest.hexdigest()}"


def sheets_in(place: pathlib.Path) -> Tuple[str, ...]:
    """The names of the copies of sheets that a folder has. Fails at links, and at what is no file."""
    about = check_own(place, SHEETS)
    if about is None:
        return ()
    if not stat.S_ISDIR(about.st_mode):
        raise CaseError(os.fspath(place), "", f"{SHEETS} is no folder")
    try:
        names = sorted(os.listdir(place / SHEETS))
    except OSError as fault:
        raise UnreadableError(os.fspath(place / SHEETS), fault.strerror or str(fault)) from fault
    for name in names:
        if not is_file_in(place, f"{SHEETS}/{name}"):
            raise CaseError(os.fspath(place), "", f"{SHEETS}/{name[:80]} is no file; a case has files alone")
    return tuple(names)


# Labels


def labels_in(data: bytes, name: str) -> Dict[str, Label]:
    """The labels of a file `bank,short,full,group,country`, by the names of the banks."""
    try:
        with long_fields(len(data)):
            rows = list(csv.reader(io.StringIO(data.decode("utf-8-sig"), newline=""), strict=True))
    except (ValueError, csv.Error) as fault:
        raise CaseError(name, "", f"it is not CSV in UTF-8: {fault}") from fault
    rows = [[field.strip(" \t") for field in row] for row in rows if row]
    if not rows or tuple(rows[0]) != LABEL_COLUMNS:
        raise CaseError(name, "", f"the first row is not {','.join(LABEL_COLUMNS)}")
    labels: Dict[str, Label] = {}
    for at, row in enumerate(rows[1:], 1):
        if len(row) != len(LABEL_COLUMNS):
            raise CaseError(name, f"row {at}", f"{len(row)} fields in place of {len(LABEL_COLUMNS)}")
        if row[0] in labels:
            raise CaseError(name, f"row {at}", f"{row[0][:80]!r} has a label already")
        labels[row[0]] = Label(*row)
    return labels


def labels_text(labels: Iterable[Label]) -> str:
    """The file of some labels."""
    text = io.StringIO()
    csv.writer(text, lineterminator="\n").writerows([LABEL_COLUMNS, *labels])
    return text.getvalue()


# Small parts


def source_of(part: Mapping[str, object]) -> Source:
    """A source from what stands in a description that meets the schema."""
    return Source(text_in(part, "title"), text_in(part, "path"), text_in(part, "hash"))


def exact_unit(unit: Union[Decimal, int, str]) -> Decimal:
    """A unit as an exact decimal, above 0 and finite. A float is refused, as it is none."""
    if isinstance(unit, (float, bool)):
        raise CaseError("", "clearing.unit", f"{unit!r} is no exact decimal; write it as a text, such as '0.01'")
    try:
        value = Decimal(unit)
    except (InvalidOperation, TypeError, ValueError):
        value = Decimal(0)
    if not value.is_finite() or value <= 0 or value.adjusted() > 39 or -int(value.as_tuple().exponent) > 40:
        raise CaseError("", "clearing.unit", f"{str(unit)[:80]!r} is not a decimal number above 0")
    return value


def scenarios_bytes(scenarios: Optional[ScenariosLike]) -> Optional[bytes]:
    """The scenarios file of some scenarios."""
    return None if scenarios is None else third_of(scenarios)[0][-1]


def without_none(values: Mapping[str, object]) -> Document:
    """What is there."""
    return {key: value for key, value in values.items() if value is not None}


def without_empty(values: Mapping[str, object]) -> Document:
    """What is there and not empty."""
    return {key: value for key, value in values.items() if value not in (None, "")}
