"""What one takes away from the desk: the two files of a state, the changes as a scenario, the scenarios file, the state
as a case, the session, the report, and the folder of evidence."""
import pathlib
import sys
import tempfile
from typing import Callable, Dict, List, Optional

from clearing_client.case import Case
from clearing_client.description import Origin
from clearing_client.errors import ClearingError
from clearing_client.format import is_name
from clearing_client.network import Network
from clearing_client.scenarios import Scenarios

from .. import runner
from ..fullnames import text_of
from . import changes, session, view
from . import state as states
from .built import scenarios_toml
from .runs import AT_ONCE, Desk, Place
from .state import State
from .steps import Shelf, Steps

SOURCES = str(pathlib.Path(__file__).resolve().parents[2])
ZIP, CSV, TOML = "application/zip", "text/csv; charset=utf-8", "application/toml; charset=utf-8"
KINDS = {
    "banks": ("banks.csv", CSV),
    "debts": ("debts.csv", CSV),
    "scenario": ("changes.toml", TOML),
    "scenarios": ("scenarios.toml", TOML),
    "case": ("case.zip", ZIP),
    "session": ("session.zip", ZIP),
    "report": ("report.html", "text/html; charset=utf-8"),
    "evidence": ("evidence.zip", ZIP),
}


class Takeaway:
    """What is taken away from a session."""

    def __init__(self, desk: Desk, steps: Steps, shelf: Shelf) -> None:
        self.desk, self.steps, self.shelf = desk, steps, shelf

    def content(self, number: int, state: State, what: str) -> bytes:
        """A download of a state."""
        if what == "session":
            return session.saved(self.desk, self.desk.files_given, self.steps, self.shelf, number)
        if what == "scenario":
            return self.changes_toml(state)
        if what == "scenarios":
            return self.source(None) + scenarios_toml(self.desk.base, self.desk.base.scenarios)
        with Place(self.desk.runs) as place:
            self.desk.files(place, state)
            make: Dict[str, Callable[[Place, State], bytes]] = {
                "case": self.case, "report": self.report, "evidence": self.evidence,
            }
            return make[what](place, state) if what in make else (place.path / f"{what}.csv").read_bytes()

    def name_of(self, state: State) -> str:
        """The name under which a state is kept, or words for one that is not."""
        named = (one.name for one in self.shelf.kept[1:] if self.steps.state(self.desk.base, one.state) == state)
        return next(named, "") or ("As it is" if state == states.AS_IT_IS else "Tried at the desk")

    def source(self, state: Optional[State]) -> bytes:
        """Comments at the head of a file of scenarios: of which program, case and files it is, and of which state where
        it is of one."""
        what = [self.desk.case.title or "A network"]
        if self.desk.case.as_of is not None:
            what.append(f"as of {self.desk.case.as_of.isoformat()}")
        if state is not None:
            what.append(f"the state “{self.name_of(state)}”")
        lines = [f"Source: {view.program_called()}, the desk. {', '.join(what)}."]
        lines += [f"{name}.csv has the SHA-256 {one.digest}." for name, one in self.desk.originals.items()]
        # A title may have lines: here it is in one.
        head = "".join(f"# {runner.shown(' '.join(line.split()))}\n" for line in lines)
        return head.encode("utf-8", "backslashreplace")

    def changes_toml(self, state: State) -> bytes:
        """The changes as a scenario. Fails where they are none."""
        name = self.name_of(state)
        scenario = states.as_scenario(self.desk.base, state, states.left_of(self.desk.base, state),
                                      name if is_name(name) else "tried at the desk")
        if scenario is None:
            raise runner.ToolError("the changes are no scenario: a scenario takes cash, and nothing else")
        return self.source(state) + Scenarios([scenario]).to_toml(plain=True).encode()

    def case(self, place: Place, state: State) -> bytes:
        """The state as a case, in an archive: the files with what the shock leaves, and what was changed."""
        before = self.desk.case
        title = f"{before.title or 'A network'}: {self.name_of(state)}"
        hashes = {f"{what}.csv": f"sha256:{original.digest}" for what, original in self.desk.originals.items()}
        case = Case(
            Network(str(place.path / "banks.csv"), str(place.path / "debts.csv")),
            title=title,
            description=before.description,
            as_of=before.as_of,
            test=before.test,
            currency=before.currency,
            unit=before.unit,
            limits=before.said_limits,
            keep=int(state.keep) if state.keep != states.AS_IT_IS.keep else before.keep,
            labels=before.labels,
            contributors=before.contributors,
            sources=before.sources,
            origin=Origin(before.title, hashes, tuple(changes.in_words(self.desk.base, state))),
        )
        try:
            files = case.files(before.sheets())
        except ClearingError as fault:
            raise runner.ToolError(str(fault)) from fault
        return session.archive_of({f"case/{name}": data for name, data in files.items()})

    def report(self, place: Place, state: State) -> bytes:
        """The report on the state."""
        desk, words = self.desk, ["--banks", "banks.csv", "--debts", "debts.csv"]
        if desk.full.full:
            (place.path / "labels.csv").write_text(text_of(desk.full), encoding="utf-8")
            words += ["--labels", "labels.csv"]
        if state.keep != states.AS_IT_IS.keep:
            words += ["--default-keeps", state.keep]
        if desk.money.unit is not None:
            words += ["--unit", f"{desk.money.unit:f}"]
        if desk.money.currency is not None:
            words += ["--currency", desk.money.currency]
        title = self.name_of(state)
        words += ["--title", f"{desk.case.title}: {title}" if desk.case.title else title, "--out", "report.html"]
        self.run_tool(place, "report.command", [*words, *self.changes_words(place, state)])
        return (place.path / "report.html").read_bytes()

    def evidence(self, place: Place, state: State) -> bytes:
        """The folder of evidence of the state, in an archive."""
        words = ["make", "evidence", *self.evidence_words(place, state), *self.changes_words(place, state)]
        self.run_tool(place, "evidence.evidence", words)
        top = place.path
        paths = [path for path in sorted((top / "evidence").rglob("*")) if path.is_file()]
        return session.archive_of({path.relative_to(top).as_posix(): path.read_bytes() for path in paths})

    def changes_words(self, place: Place, state: State) -> List[str]:
        """The changes in words, as words of a tool; none where nothing was changed."""
        if not changes.in_words(self.desk.base, state):
            return []
        text = changes.text_of(self.desk.base, state, self.desk.originals)
        place.put("changes.txt", text.encode("utf-8", "backslashreplace"))
        return ["--changes", "changes.txt"]

    def evidence_words(self, place: Place, state: State) -> List[str]:
        """The files of the evidence, as words: the files as they were given with the changes as a scenario, where they
        are one, or where nothing was changed; else those of the state."""
        desk, files = self.desk, ["--banks", "banks.csv", "--debts", "debts.csv"]
        scenario = states.as_scenario(desk.base, state, states.left_of(desk.base, state))
        if scenario is None and changes.in_words(desk.base, state):
            return files
        desk.files(place, states.AS_IT_IS)
        for what, original in desk.originals.items():
            content = changes.content_of(original)
            if content is not None:
                place.put(f"{what}.csv", content)
        if scenario is None:
            return files
        place.put("changes.toml", self.changes_toml(state))
        return [*files, "--scenarios", "changes.toml"]

    def run_tool(self, place: Place, module: str, words: List[str]) -> None:
        """Runs one of the tools in the folder of the files, on as many processors as the desk has runs at once."""
        script = (f"import os; os.sched_setaffinity(0, sorted(os.sched_getaffinity(0))[:{AT_ONCE}]); "
                  f"from clearing_tools.{module} import main; main()")
        command = ["env", f"PYTHONPATH={SOURCES}", sys.executable, "-B", "-c", script, *words]
        status, _, messages = self.desk.runs.alone(command, str(place.path))
        if status:
            raise runner.ToolError(messages.decode("utf-8", "replace").strip() or f"a tool ended with {status}")


def printed_file(desk: Desk, what: str, folder: str) -> str:
    """The name of a file with the banks or the debts, as the program has read them."""
    base, path = desk.base, pathlib.Path(tempfile.mkdtemp(dir=folder)) / f"{what}.csv"
    rows = [states.row_of(base, states.AS_IT_IS, place) for place in range(len(base.banks))]
    debts = list(states.debts_of(base, states.AS_IT_IS))
    path.write_bytes(states.banks_csv(base, rows) if what == "banks" else states.debts_csv(debts))
    return str(path)


def bytes_of(path: Optional[str]) -> Optional[bytes]:
    """What a file has, where there is one; None of what can be read but once."""
    if path is None or not pathlib.Path(path).is_file():
        return None
    return pathlib.Path(path).read_bytes()


def given_files(case: Case) -> Dict[str, bytes]:
    """The files of a case by their names, as they are now."""
    names = {"banks": "banks.csv", "debts": "debts.csv", "scenarios": "scenarios.toml"}
    contents = {name: bytes_of(case.paths.get(what)) for what, name in names.items()}
    return {name: data for name, data in contents.items() if data is not None}
