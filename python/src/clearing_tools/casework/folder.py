"""The files of the folder of a case."""
import pathlib
from typing import Dict

from clearing_client.case import FILES, SHEETS, Case, content_in
from clearing_client.errors import CaseError, UnreadableError

from .. import cases, files
from ..runner import ToolError


def files_in(case: Case, place: pathlib.Path) -> Dict[str, bytes]:
    """The files of a folder that belong to a case, by their paths. None is behind a link."""
    try:
        there = {name: content_in(place, name, files.MOST_BYTES) for what, name in FILES.items() if what in case.paths}
        contents = {name: data for name, data in there.items() if data is not None}
        return {**contents, **{f"{SHEETS}/{name}": data for name, data in case.sheets().items()}}
    except UnreadableError as fault:
        raise ToolError(str(fault), cases.UNREADABLE) from fault
    except CaseError as fault:
        raise ToolError(str(fault), cases.REFUSED) from fault
