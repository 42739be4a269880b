"""Networks of sheets: matrices, lists, totals and workbooks, read as the commands `clearing-from-matrix`,
`clearing-from-list` and `clearing-from-totals` read them. They stand in the package `clearing_tools`, which comes with
this one, and is looked for when it is needed."""
from __future__ import annotations

import importlib
import os
import pathlib
import tempfile
from fractions import Fraction
from typing import Dict, List, Mapping, NamedTuple, Optional, Protocol, Tuple, Union, cast

from .errors import SheetError


MODULES = {"matrix": "matrix", "list": "exposure_list", "totals": "totals"}
"""The module that reads each kind of sheet."""


SummaryLine = Tuple[str, Optional[int], Union[int, Fraction, None], str]
"""What was done: what it is, a count, an amount in the sheet's currency, and a detail."""


class Frame(Protocol):
    """A DataFrame, as far as it is written as a file."""

    @property
    def index(self) -> "Index":
        """The names of its rows."""

    def to_csv(self, path: pathlib.Path, index: bool) -> None:
        """Writes it as comma-separated records."""


class Index(Protocol):
    """The names of rows of a DataFrame."""

    @property
    def dtype(self) -> object:
        """What they are."""


class Made(NamedTuple):
    """What a sheet makes: the banks and debts files of each network, and what was done, each a record of what it is, a
    count or None, an amount in the sheet's currency as a fraction or None, and a detail."""

    files: List[Tuple[bytes, bytes]]
    summary: Tuple[SummaryLine, ...]


def made_of(kind: str, sheet: object, options: Mapping[str, object]) -> Made:
    """What the tool of a kind (`matrix`, `list`, `totals`) makes of a sheet: the name of a file, or a DataFrame. The
    options are the tool's words with `_` for `-`."""
    try:
        tool = importlib.import_module(f"clearing_tools.imports.{MODULES[kind]}")
        cli, runner = map(importlib.import_module, ("clearing_tools.cli", "clearing_tools.runner"))
    except ImportError as fault:
        missing = "sheets are read by the package clearing_tools, which is not there; it comes with clearing_client"
        raise SheetError([missing]) from fault
    with tempfile.TemporaryDirectory(prefix="clearing-") as name:
        folder = pathlib.Path(name)
        words = words_of(kind, file_of(sheet, folder, "sheet", kind), named_files(options, folder), folder)
        if has_frame([sheet, *options.values()]) and not {"decimal", "thousands"} & set(options):
            words.insert(0, "--decimal=.")
        try:
            with cli.faults_raised():
                args = tool.parse_args(words)
            outputs, _, summary = tool.convert(args)
        except runner.ToolError as fault:
            raise SheetError(fault.lines) from fault
    texts = [text.encode() for path, text in outputs if os.path.basename(path) in ("banks.csv", "debts.csv")]
    return Made(list(zip(texts[::2], texts[1::2])), tuple(summary.lines))


def words_of(kind: str, sheet: str, options: Mapping[str, object], folder: pathlib.Path) -> List[str]:
    """The options as words of the tool."""
    words: List[str] = []
    for option, value in options.items():
        name = "--" + option.rstrip("_").replace("_", "-")
        values = value if isinstance(value, (list, tuple, set)) else [value]
        if isinstance(value, Mapping):
            values = [f"{column}={one}" for column, one in value.items()]
        for one in values:
            if one is True:
                words.append(name)
            elif one is not None and one is not False:
                words.append(f"{name}={os.fspath(one) if isinstance(one, os.PathLike) else one}")
    files = [f"--banks={folder}/banks.csv", f"--debts={folder}/debts.csv"]
    return [*words, *([f"--out={folder}/out"] if kind == "totals" else files), "--", sheet]


def is_frame(value: object) -> bool:
    """Whether it is a DataFrame."""
    return hasattr(value, "to_csv")


def has_frame(values: List[object]) -> bool:
    """Whether one of some values is a DataFrame."""
    return any(map(is_frame, values))


def named_files(options: Mapping[str, object], folder: pathlib.Path) -> Dict[str, object]:
    """The options, with a file in the place of each DataFrame."""
    return {
        option: file_of(value, folder, option, option) if is_frame(value) else value
        for option, value in options.items()
    }


def file_of(sheet: object, folder: pathlib.Path, name: str, kind: str) -> str:
    """The name of a file with a sheet. A DataFrame is written with its index, but for a list."""
    if isinstance(sheet, (str, os.PathLike)):
        return os.fspath(sheet)
    if not is_frame(sheet):
        raise TypeError(f"a sheet is the name of a file or a DataFrame, and not {type(sheet).__name__}")
    path, frame = folder / f"{name}.csv", cast(Frame, sheet)
    has_index = kind == "matrix" or frame.index.dtype == object
    frame.to_csv(path, index=has_index and kind not in ("list", "known"))
    return str(path)
