"""What was changed at the desk against the files, in words: for the report, and for the folder of evidence."""
import hashlib
import pathlib
from typing import Iterator, List, Mapping, NamedTuple, Optional

from .. import labels
from . import state as states
from .state import Base, State


class Original(NamedTuple):
    """A file as it was given: its name and the checksum of what it had."""

    path: str
    digest: str


def original_of(path: str) -> Original:
    """A file with the checksum of what it has now."""
    return Original(path, hashlib.sha256(pathlib.Path(path).read_bytes()).hexdigest())


def content_of(original: Optional[Original]) -> Optional[bytes]:
    """What a file had when it was given; None where it has something else by now."""
    try:
        content = pathlib.Path(original.path).read_bytes() if original else b""
    except OSError:
        return None
    return content if original and hashlib.sha256(content).hexdigest() == original.digest else None


def number(text: str) -> str:
    """A field as a number with its digits in groups; else as it was typed."""
    units = states.number_of(text)
    return text if units is None else f"{units:,}"


def of_all(base: Base, state: State) -> Iterator[str]:
    """The shock, and what default keeps."""
    if state.scenario:
        yield f"The scenario “{labels.apart(base.scenarios[state.scenario - 1].name)}” is chosen."
    if state.cut != "0":
        yield f"All cash is cut by {number(state.cut)} per mille."
    for place, amount in state.losses:
        yield f"{labels.apart(base.banks[place].name)} loses {amount:,} units of its cash beside the cut."
    if state.keep != states.AS_IT_IS.keep:
        yield f"A bank in default keeps {number(state.keep)} per mille of its estate."


def of_banks(base: Base, state: State) -> Iterator[str]:
    """The fields of banks, each with what it was. The cash is that before a cut."""
    for place in sorted(state.banks):
        now, was = state.banks[place], states.row_of(base, states.AS_IT_IS, place)
        for word, before, after in zip(("cash", "rule", "owed outside"), was, now):
            if before != after:
                yield f"{labels.apart(base.banks[place].name)}: {word} {number(after)} in place of {number(before)}."


def of_debts(base: Base, state: State) -> Iterator[str]:
    """The debts that were changed, struck or added."""
    for key, claim in sorted(state.claims.items()):
        debt = base.debts[key]
        what = f"{labels.apart(debt.debtor)} to {labels.apart(debt.creditor)}, class {debt.class_}"
        if claim is None:
            yield f"{what}: the debt of {debt.claim:,} is struck."
        else:
            yield f"{what}: the debt is {number(claim)} in place of {debt.claim:,}."
    for record in state.added:
        if record is not None:
            debtor, creditor, rank, claim = record
            what = f"{labels.apart(debtor)} to {labels.apart(creditor)}, class {rank}"
            yield f"{what}: a debt of {number(claim)} is added."


def in_words(base: Base, state: State) -> List[str]:
    """What was changed, a sentence each; none where nothing was."""
    return [*of_all(base, state), *of_banks(base, state), *of_debts(base, state)]


def text_of(base: Base, state: State, originals: Mapping[str, Original]) -> str:
    """What was changed, a line each, and against which files."""
    files = [f"Before the changes {what}.csv has the SHA-256 {one.digest}." for what, one in originals.items()]
    return "".join(line + "\n" for line in [*in_words(base, state), *files])
