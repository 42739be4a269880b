"""The pages of the desk. Each state has a number; none is altered, so that two tabs do not disturb one another."""
import json
import pathlib
import string
from types import ModuleType
from typing import TYPE_CHECKING, Callable, Dict, Iterable, List, Mapping, Optional, Sequence

from .. import runner
from ..drawing import web
from ..drawing.tokens import LIGHT
from . import state as states
from . import takeaway, view
from .questions import KINDS, Questions
from .runs import Cleared, Desk, RefusedChangeError
from .state import State
from .steps import MOST_NOTE, Shelf, Steps

if TYPE_CHECKING:
    from _typeshed.wsgi import StartResponse, WSGIEnvironment
    from bottle import HTTPResponse

HERE = pathlib.Path(__file__).resolve().parent
SCRIPTS = sorted(path.name for path in (HERE / "script").glob("*.mjs"))
SHARED = {  # modules that the report has too
    name: text for one in ("amounts.mjs", "files.mjs", "player.mjs") for name, text in web.needed(one).items()
}
NUMBER = "re:[0-9]{1,7}"
MOST_NAME = 64
D3 = '<script src="script/d3.js" defer></script>\n'
ICON = (
    '<svg xmlns="http://www.w3.org/2000/svg" viewBox="0 0 20 20"><rect x="2" y="2" width="16" height="16"'
    f' fill="{LIGHT["unpaid"]}" stroke="{LIGHT["fundamental"]}" stroke-width="3"/></svg>'
)

Route = Callable[..., object]


def page_text(has_d3: bool) -> str:
    """The page, with the player of the report in it; without d3 the journal is not played."""
    template = string.Template((HERE / "page/page.html").read_text(encoding="utf-8"))
    return template.substitute(player=web.player_markup(), d3=D3 if has_d3 else "")


def style_text() -> str:
    """The style: the tokens, charts and the player of all pages, and what the desk has of its own."""
    own = (HERE / "style/desk.css").read_text(encoding="utf-8")
    return web.tokens() + web.charts() + web.player_style() + own


class Application:
    """The WSGI application of a session: its states, those kept under names, and the questions that go on."""

    def __init__(self, bottle: ModuleType, desk: Desk, d3: Optional[bytes], others: Sequence[Desk] = ()) -> None:
        self.bottle, self.desk, self.others = bottle, desk, others
        self.steps, self.shelf, self.questions = Steps(), Shelf(), Questions(desk)
        self.at_first = 0  # the state that is shown first
        self.app = bottle.Bottle()
        self.app.default_error_handler = lambda error: error.body if isinstance(error.body, str) else "Not to be had.\n"
        self.fix_pages(d3)
        self.route_answers()

    def __call__(self, environ: "WSGIEnvironment", respond: "StartResponse") -> Iterable[bytes]:
        answer: Iterable[bytes] = self.app(environ, respond)
        return answer

    # What never changes: the page, its style and its scripts, each by a name that is known.

    def fix_pages(self, d3: Optional[bytes]) -> None:
        """The pages that are as they are."""
        self.fix("/", "text/html", page_text(d3 is not None).encode())
        self.fix("/style/desk.css", "text/css", style_text().encode())
        for name in SCRIPTS:
            self.fix(f"/script/{name}", "text/javascript", (HERE / "script" / name).read_bytes())
        for name, text in SHARED.items():
            self.fix(f"/script/{name}", "text/javascript", text.encode())
        self.fix("/favicon.svg", "image/svg+xml", ICON.encode())
        if d3 is not None:
            self.fix("/script/d3.js", "text/javascript", d3)

    def fix(self, path: str, kind: str, content: bytes) -> None:
        """A page of a path."""

        def give() -> bytes:
            self.bottle.response.content_type = f"{kind}; charset=utf-8"
            return content

        self.app.route(path, callback=give)

    # What is asked of a state, and the ways to another.

    def route_answers(self) -> None:
        """The paths that are answered anew each time."""
        get: Dict[str, Route] = {
            "/network": self.network,
            "/kept": self.kept,
            f"/state/<number:{NUMBER}>": self.one_state,
            f"/bank/<number:{NUMBER}>/<bank:{NUMBER}>": self.one_bank,
            f"/other/<case:{NUMBER}>": self.other_state,
            f"/other/<case:{NUMBER}>/<bank:{NUMBER}>": self.other_bank,
            f"/question/<number:{NUMBER}>/<after:{NUMBER}>": self.one_question,
            f"/journal/<number:{NUMBER}>": self.journal,
            f"/take/<number:{NUMBER}>/<what:re:[a-z]+>": self.download,
        }
        post: Dict[str, Route] = {
            "/change": self.change,
            "/keep": self.keep,
            "/drop": self.drop,
            "/scenario": self.add_scenario,
            "/ask": self.ask,
            "/stop": self.stop,
        }
        for path, work in get.items():
            self.app.route(path, callback=self.guarded(work))
        for path, work in post.items():
            self.app.route(path, method="POST", callback=self.guarded(work))

    def guarded(self, work: Route) -> Route:
        """A route that tells faults: what the program refuses is 422 with the field, a change that is none 400, and
        what fails 502."""

        def answer(**words: str) -> "HTTPResponse":
            try:
                value = work(**words)
                return value if isinstance(value, self.bottle.HTTPResponse) else self.sent(value)
            except RefusedChangeError as fault:
                return self.fault(422, fault.message, fault.meaning, fault.field)
            except states.InvalidFieldError as fault:
                return self.fault(422, runner.shown(fault.message), field=fault.field)
            except states.MalformedChangeError as fault:
                return self.fault(400, str(fault))
            except (runner.ToolError, OSError) as fault:
                return self.fault(502, str(fault))

        return answer

    def fault(self, status: int, message: str, meaning: str = "", field: str = "") -> "HTTPResponse":
        """What is wrong with a request, in words, and at which field of the page."""
        return self.sent({"said": message, "meaning": meaning, "field": field}, status)

    def sent(self, value: object, status: int = 200) -> "HTTPResponse":
        """A value as JSON."""
        body = json.dumps(value, ensure_ascii=False, separators=(",", ":")).encode("utf-8", "replace")
        return self.bottle.HTTPResponse(body, status, {"Content-Type": "application/json; charset=utf-8"})

    # States.

    def state_of(self, number: str) -> State:
        """The state of a number that there is."""
        if int(number) >= len(self.steps):
            raise self.bottle.HTTPError(404, "There is no such state.\n")
        return self.steps.state(self.desk.base, int(number))

    def place_of(self, bank: str, desk: Desk) -> int:
        """The place of a bank that there is."""
        if int(bank) >= len(desk.base.banks):
            raise self.bottle.HTTPError(404, "There is no such bank.\n")
        return int(bank)

    def view_of(self, number: int, state: State, cleared: Cleared) -> Dict[str, object]:
        """A state for the page."""
        return {"id": number, "line": self.steps.line(number), **view.state_view(self.desk, state, cleared)}

    def network(self) -> Dict[str, object]:
        """The network, with the cases beside it."""
        return {**view.network_view(self.desk, self.others), "atFirst": self.at_first}

    def one_state(self, number: str) -> Dict[str, object]:
        """A state by its number."""
        state = self.state_of(number)
        return self.view_of(int(number), state, self.desk.cleared(state))

    def one_bank(self, number: str, bank: str) -> Dict[str, object]:
        """A bank in a state."""
        state, place = self.state_of(number), self.place_of(bank, self.desk)
        return view.bank_view(self.desk.base, self.desk.cleared(state), place)

    def other(self, case: str) -> Desk:
        """Another case that there is, by its place from 1."""
        if not 1 <= int(case) <= len(self.others):
            raise self.bottle.HTTPError(404, "There is no such case.\n")
        return self.others[int(case) - 1]

    def other_state(self, case: str) -> Dict[str, object]:
        """The state of another case."""
        desk = self.other(case)
        cleared = desk.cleared(states.AS_IT_IS)
        return {"id": -int(case), "line": [-int(case)], **view.state_view(desk, states.AS_IT_IS, cleared)}

    def other_bank(self, case: str, bank: str) -> Dict[str, object]:
        """A bank of another case."""
        desk = self.other(case)
        return view.bank_view(desk.base, desk.cleared(states.AS_IT_IS), self.place_of(bank, desk))

    def change(self) -> Dict[str, object]:
        """The state that a change leads to."""
        change = self.json_body()
        start = states.placed(change, "from", len(self.steps))
        before = self.steps.state(self.desk.base, start)
        state = states.changed(self.desk.base, before, change)
        cleared = self.desk.cleared(state, change)
        return self.view_of(self.steps.add(state, start, change, state == before), state, cleared)

    # States under names, and scenarios.

    def kept(self) -> List[Dict[str, object]]:
        """The states that are kept."""
        return view.kept_view(self.shelf.kept)

    def keep(self) -> List[Dict[str, object]]:
        """Keeps a state under a name."""
        body = self.json_body()
        number = states.placed(body, "state", len(self.steps))
        name, note = text_of(body, "name", MOST_NAME).strip(), text_of(body, "note", MOST_NOTE)
        if not name:
            raise states.InvalidFieldError("a state that is kept has a name", "keep-name")
        self.shelf.keep(name, number, note)
        return view.kept_view(self.shelf.kept)

    def drop(self) -> List[Dict[str, object]]:
        """Keeps a state no more."""
        self.shelf.drop(text_of(self.json_body(), "name", MOST_NAME))
        return view.kept_view(self.shelf.kept)

    def add_scenario(self) -> Dict[str, object]:
        """Takes a scenario that was built into the list."""
        number = self.desk.add_scenario(self.json_body())
        return {"number": number, "scenarios": view.scenarios_view(self.desk)}

    # Questions that take time.

    def ask(self) -> Dict[str, object]:
        """Asks a question."""
        body = self.json_body()
        if body.get("what") not in KINDS:
            raise states.MalformedChangeError("there is no such question")
        what, case = str(body["what"]), states.placed({"case": body.get("case", 0)}, "case", len(self.others) + 1)
        if case:
            return {"question": self.questions.ask(what, states.AS_IT_IS, None, self.others[case - 1])}
        state = self.steps.state(self.desk.base, states.placed(body, "state", len(self.steps)))
        bank = None if body.get("bank") is None else states.placed(body, "bank", len(self.desk.base.banks))
        return {"question": self.questions.ask(what, state, bank)}

    def one_question(self, number: str, after: str) -> Dict[str, object]:
        """How far a question is, and its pieces behind so many."""
        question = self.questions.question(int(number))
        if question is None:
            raise self.bottle.HTTPError(404, "There is no such question.\n")
        return question.view(int(after))

    def stop(self) -> Dict[str, object]:
        """Ends a question."""
        question = self.questions.question(states.placed(self.json_body(), "question", 10**9))
        if question is not None:
            question.stop()
        return {}

    # What is taken away.

    def journal(self, number: str) -> Dict[str, object]:
        """The journal of a state for the player."""
        return view.journal_view(self.desk, self.state_of(number))

    def download(self, number: str, what: str) -> "HTTPResponse":
        """A file of a state."""
        state = self.state_of(number)
        if what not in takeaway.KINDS:
            raise self.bottle.HTTPError(404, "There is no such download.\n")
        name, kind = takeaway.KINDS[what]
        content = takeaway.Takeaway(self.desk, self.steps, self.shelf).content(int(number), state, what)
        headers = {"Content-Type": kind, "Content-Disposition": f'attachment; filename="{name}"'}
        return self.bottle.HTTPResponse(content, 200, headers)

    def json_body(self) -> Dict[str, object]:
        """The object that a request has as JSON."""
        environ = self.bottle.request.environ
        if environ.get("CONTENT_TYPE", "").partition(";")[0].strip() != "application/json":
            raise states.MalformedChangeError("a change is JSON")
        try:
            body = json.loads(environ["wsgi.input"].read(int(environ.get("CONTENT_LENGTH") or 0)))
        except (ValueError, RecursionError) as fault:
            raise states.MalformedChangeError("a change is JSON") from fault
        if not isinstance(body, dict):
            raise states.MalformedChangeError("a change is an object")
        return body


def text_of(body: Mapping[str, object], key: str, most: int) -> str:
    """A text of a request."""
    text = body.get(key, "")
    if not isinstance(text, str) or len(text) > most or set(text) & {"\x00"}:
        raise states.MalformedChangeError(f"{key} is no text of at most {most} letters")
    return text
