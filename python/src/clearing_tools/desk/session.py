"""A session as one file: the case, the scenarios that were built, and the states that are kept, with names and notes;
nothing else.

It is a ZIP archive with the folder of the case, `case/`, and `session.json`. What is read of it is a handful of files
of known names, none longer than the program takes, and each kept state is judged by the program when it is opened."""
import io
import json
import pathlib
import zipfile
from typing import Dict, List, Mapping, Sequence, Tuple

from clearing_client.case import FILES
from clearing_client.description import NAME
from clearing_client.errors import ClearingError
from clearing_client.limits import MOST

from .. import runner
from . import state as states
from .built import scenario_of
from .runs import Desk, RefusedChangeError
from .saved import as_json, from_json
from .state import Base
from .steps import MOST_KEPT, MOST_NOTE, Shelf, Steps

VERSION = 1
STATES = "session.json"
MOST_STATES_BYTES = 67_108_864
EPOCH = (1980, 1, 1, 0, 0, 0)
MEMBERS = {f"case/{name}": MOST.bytes["banks"] for name in (*FILES.values(), NAME)}


def archive_of(files: Mapping[str, bytes]) -> bytes:
    """Files as a ZIP archive, with one date for all, so that the same is the same."""
    content = io.BytesIO()
    with zipfile.ZipFile(content, "w", zipfile.ZIP_DEFLATED) as archive:
        for name, data in files.items():
            entry = zipfile.ZipInfo(name, EPOCH)
            entry.compress_type, entry.external_attr = zipfile.ZIP_DEFLATED, 0o644 << 16
            archive.writestr(entry, data)
    return content.getvalue()


def saved(desk: Desk, files: Mapping[str, bytes], steps: Steps, shelf: Shelf, at_hand: int) -> bytes:
    """A session as a file. `files` are those of the case, and `at_hand` is the state that is shown."""
    document = {
        "session": VERSION,
        "scenarios": [[one.name, one.cut, sorted(one.losses.items())] for one in desk.base.scenarios[desk.given:]],
        "states": [
            {"name": one.name, "note": one.note, "state": as_json(steps.state(desk.base, one.state))}
            for one in shelf.kept[1:]
        ],
        "atHand": as_json(steps.state(desk.base, at_hand)),
    }
    text = json.dumps(document, ensure_ascii=False, indent=1).encode("utf-8", "surrogatepass")
    return archive_of({**{f"case/{name}": data for name, data in files.items()}, STATES: text + b"\n"})


def unpacked(path: str, folder: pathlib.Path) -> Dict[str, object]:
    """Puts the case of a session into a folder, and gives what the session says of states. Fails with 3 where it cannot
    be read, and with 4 where it is no session."""
    try:
        with zipfile.ZipFile(path) as archive:
            names = archive.namelist()
            for member in names:
                if member in MEMBERS:
                    (folder / member.removeprefix("case/")).write_bytes(part_of(archive, member, MEMBERS[member], path))
            text = part_of(archive, STATES, MOST_STATES_BYTES, path) if STATES in names else b""
        document = json.loads(text)
    except OSError as fault:
        raise runner.ToolError(f"cannot read {path}: {fault.strerror or fault}", 3) from fault
    except (zipfile.BadZipFile, ValueError, RecursionError, NotImplementedError, RuntimeError) as fault:
        raise runner.ToolError(f"{path} is no session of a desk", 4) from fault
    if not isinstance(document, dict) or document.get("session") != VERSION:
        raise runner.ToolError(f"{path} is no session of a desk that this one can open", 4)
    return document


def part_of(archive: zipfile.ZipFile, member: str, most: int, path: str) -> bytes:
    """A file of an archive, which is not longer than such a file may be, whatever the archive says of it."""
    with archive.open(member) as file:
        data = file.read(most + 1)
    if len(data) > most:
        raise runner.ToolError(f"{path}: {member} is longer than it may be", 4)
    return data


def opened(desk: Desk, document: Mapping[str, object], steps: Steps, shelf: Shelf, path: str) -> int:
    """Takes the scenarios and the kept states of a session, each cleared by the program, and gives the number of the
    state that was at hand. Fails with 4 where one of them is none."""
    try:
        desk.base = with_scenarios(desk.base, document.get("scenarios", []))
        for one in listed(document, "states", MOST_KEPT):
            name, note = text_in(one, "name", 200), text_in(one, "note", MOST_NOTE)
            shelf.keep(name, taken(desk, one.get("state"), steps), note)
        return taken(desk, document.get("atHand", {}), steps)
    except (states.MalformedChangeError, states.InvalidFieldError, RefusedChangeError, ClearingError) as fault:
        raise runner.ToolError(f"{path}: {fault}", 4) from fault


def taken(desk: Desk, value: object, steps: Steps) -> int:
    """The number of a state of a session, once the program has cleared it."""
    state = from_json(desk.base, value)
    desk.cleared(state)
    return steps.put(state)


def listed(document: Mapping[str, object], key: str, most: int) -> List[Dict[str, object]]:
    """A list of objects of a document."""
    objects = document.get(key, [])
    if not isinstance(objects, list) or len(objects) > most or not all(isinstance(one, dict) for one in objects):
        raise states.MalformedChangeError(f"{key} is no list of states")
    return objects


def text_in(one: Mapping[str, object], key: str, most: int) -> str:
    """A text of an object."""
    text = one.get(key, "")
    if not isinstance(text, str) or len(text) > most:
        raise states.MalformedChangeError(f"{key} is no text of at most {most} letters")
    return text


def with_scenarios(base: Base, scenarios: object) -> Base:
    """The network with the scenarios of a session behind those of the file."""
    if not isinstance(scenarios, list):
        raise states.MalformedChangeError("scenarios is no list")
    for one in scenarios:
        name, cut, losses = one if isinstance(one, list) and len(one) == 3 else ("", "", None)
        form = {"name": name, "cut": str(cut), "losses": [[pair[0], str(pair[1])] for pair in pairs_of(losses)]}
        base = base._replace(scenarios=(*base.scenarios, scenario_of(base, form)))
    return base


def pairs_of(losses: object) -> Sequence[Tuple[object, object]]:
    """Losses as pairs."""
    if not isinstance(losses, list) or not all(isinstance(pair, list) and len(pair) == 2 for pair in losses):
        raise states.MalformedChangeError("losses are pairs of a bank and an amount")
    return [(pair[0], pair[1]) for pair in losses]
