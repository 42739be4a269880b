"""What all questions to cases share: the cases are read, and what the program refuses ends the tool."""
from typing import Callable, List, Optional, Sequence, TypeVar

from clearing_client.case import Case
from clearing_client.errors import ClearingError

from .. import cases, cli
from ..fullnames import FullNames
from ..runner import ToolError

T = TypeVar("T")


def answer_or_end(work: Callable[[], T]) -> T:
    """What the program answers; what it refuses ends the tool with its status."""
    try:
        return work()
    except ClearingError as fault:
        raise ToolError(str(fault), fault.status if fault.status in (3, 4) else 1) from fault


def read_all(folders: Sequence[str]) -> List[Case]:
    """The cases of some folders; what is to be told of them is told."""
    several = [cases.read_case(folder) for folder in folders]
    for case in several:
        cases.tell(case)
        cases.settle_limits(case)
    return several


def keep_apart(several: Sequence[Case], outputs: Sequence[Optional[str]]) -> None:
    """Fails where an output would be written over a file of a case."""
    cli.keep_inputs([name for case in several for name in cases.inputs_of(case)], outputs)


def full_of(bank: str, names: FullNames) -> List[str]:
    """The full name of a bank as a field, where there are full names."""
    return [names.of(bank)] if names.full else []
