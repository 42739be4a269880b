"""What the tests of the desk share: a desk that runs for a test, how it is asked, and what the program prints of the
same network. It wants bottle, Debian's package python3-bottle."""
import contextlib
import http.client
import importlib
import itertools
import json
import os
import pathlib
import re
import shlex
import signal
import subprocess
import sys
import time
import unittest
from typing import Any, Callable, Dict, Iterable, List, Optional, Tuple

from common import PROGRAM, ROOT, TWELVE, Case, Word, clearing, files_of
from pythons import python_with

PYTHON = python_with("bottle")
REASON = "" if PYTHON else "no Python here has bottle (Debian's package python3-bottle)"
LINK = re.compile(r"http://127\.0\.0\.1:([0-9]+)/([A-Za-z0-9_-]{22})/")
SCENARIOS = TWELVE / "scenarios.toml"
Headers = Dict[str, Optional[str]]
"""The headers of a request; one without a value is not sent."""


class Running:
    """A desk on some files, with a folder for what it leaves in temporary folders."""

    def __init__(self, case: Case, files: Iterable[Word], *more: Word, program: Optional[Word] = None) -> None:
        self.place = case.folder / f"tmp-{time.monotonic_ns()}"
        self.place.mkdir()
        environment = {**os.environ, "TMPDIR": str(self.place), "PYTHONDONTWRITEBYTECODE": "1"}
        if program:
            environment["CLEARING"] = str(program)
        words = [PYTHON or sys.executable, ROOT / "bin/clearing-desk", *files, "--no-browser", *more]
        self.process = subprocess.Popen(
            list(map(str, words)),
            env=environment,
            stdin=subprocess.DEVNULL,
            stdout=subprocess.PIPE,
            stderr=subprocess.PIPE,
            encoding="utf-8",
            preexec_fn=lambda: signal.signal(signal.SIGINT, signal.default_int_handler),
        )
        case.addCleanup(self.end)
        assert self.process.stdout
        line = self.process.stdout.readline()
        found = LINK.search(line)
        if not found:
            raise AssertionError(f"no link: {line!r} {self.process.communicate()}")
        self.link, self.port, self.ticket = found[0], int(found[1]), found[2]
        self.host = f"127.0.0.1:{self.port}"

    def end(self, number: int = signal.SIGTERM) -> Tuple[int, str]:
        """The status and messages of the end; it is asked to end where it still runs."""
        if self.process.poll() is None:
            self.process.send_signal(number)
        try:
            _, messages = self.process.communicate(timeout=60)
        except subprocess.TimeoutExpired:
            self.process.kill()
            raise
        except ValueError:
            messages = ""
        return self.process.returncode, messages

    def ask(
        self,
        method: str,
        path: str,
        headers: Optional[Headers] = None,
        body: Optional[bytes] = None,
        host: Optional[str] = None,
    ) -> Tuple[int, Dict[str, str], bytes]:
        """The status, headers and body of an answer to these headers alone."""
        connection = http.client.HTTPConnection("127.0.0.1", self.port, timeout=60)
        try:
            connection.putrequest(method, path, skip_host=True, skip_accept_encoding=True)
            first: Headers = {"Host": self.host if host is None else host}
            for name, value in {**first, **(headers or {})}.items():
                if value is not None:
                    connection.putheader(name, value)
            if body is not None and "Content-Length" not in (headers or {}):
                connection.putheader("Content-Length", str(len(body)))
            connection.endheaders(body)
            answer = connection.getresponse()
            return answer.status, dict(answer.getheaders()), answer.read()
        finally:
            connection.close()

    def at(self, path: str) -> str:
        """A path of the page as it is asked for: behind the ticket."""
        return f"/{self.ticket}{path}"

    def own(self) -> Headers:
        """The headers that the page's own script sends."""
        return {"Origin": f"http://{self.host}", "Content-Type": "application/json", "Sec-Fetch-Site": "same-origin"}

    def see(self, path: str, status: int = 200) -> Any:
        """What is there at a path: what a document of JSON has, and of all else the bytes."""
        got, headers, body = self.ask("GET", self.at(path))
        if got != status:
            raise AssertionError(f"{path}: {got} {body[:300]!r}")
        return json.loads(body) if headers["Content-Type"].startswith("application/json") else body

    def post(self, path: str, status: int = 200, **what: Any) -> Any:
        """What a request with an object answers."""
        got, _, body = self.ask("POST", self.at(path), self.own(), json.dumps(what).encode())
        if got != status:
            raise AssertionError(f"{path} {what}: {got} {body[:300]!r}")
        return json.loads(body)

    def change(self, start: Any, status: int = 200, **what: Any) -> Any:
        """The state that a change of another leads to, or the fault."""
        return self.post("/change", status, **{"from": start, **what})

    def answer(self, state: int, what: str, bank: Optional[int] = None, case: int = 0) -> Any:
        """The pieces of a question, once all of them have come."""
        number = self.post("/ask", state=state, what=what, bank=bank, case=case)["question"]
        while True:
            found = self.see(f"/question/{number}/0")
            if found["ended"]:
                if found["fault"]:
                    raise AssertionError(found["fault"])
                return found["pieces"]
            time.sleep(0.02)


@unittest.skipIf(REASON, REASON)
class DeskCase(Case):
    """A case that starts desks, by default on the twelve banks of the examples."""

    def desk(self, files: Optional[Iterable[Word]] = None, *more: Word, program: Optional[Word] = None) -> Running:
        """A desk on some files."""
        return Running(self, files_of(TWELVE) if files is None else files, *more, program=program)

    def net(self, banks: str, debts: str, header: str = "name,cash,rule") -> List[Word]:
        """The words for a network of these lines."""
        self.file("banks.csv", f"{header}\n{banks}")
        self.file("debts.csv", f"debtor,creditor,class,claim\n{debts}")
        return files_of(self.folder)

    def held(self, view: Dict[str, List[Any]]) -> List[List[str]]:
        """What a state says of the banks, as the program prints it."""
        columns = ("estate", "paid", "owed", "equity", "state")
        states = [state if state != "gridlock" else "contagion" for state in view["state"]]
        return [[str(part) for part in row] for row in zip(*(view[key] for key in columns[:-1]), states)]


def wrapped(case: Case, lines: str) -> pathlib.Path:
    """A program in the case's folder that does what some lines of the shell say, and then what the program does."""
    return case.executable("wrapped", f'{lines}\nexec {shlex.quote(PROGRAM)} "$@"\n')


def swallow(work: Callable[[], object]) -> None:
    """Does something at a desk that may end meanwhile, which then has no answer."""
    with contextlib.suppress(OSError, AssertionError, http.client.HTTPException):
        work()


def account_of(base: Any, cleared: Any, bank: int, made: Any = None) -> Any:
    """The account of a bank in a state that was cleared, by the desk's module of accounts or by another one."""
    made = made or importlib.import_module("clearing_tools.desk.account")
    _, owed = made.debts_by(base, cleared)
    return made.account_by(base, cleared, bank, owed.get(bank, []))


def standings(task: str, *words: Word) -> List[List[str]]:
    """The records of the banks that the program prints, without the sums."""
    lines = clearing(task, *words).stdout.decode().split("\n")
    start = next(at for at, line in enumerate(lines) if line.startswith("bank,"))
    return [line.split(",") for line in lines[start + 1 :] if line and not line.startswith(("total,", "cash,"))]


def payments_of(*words: Word) -> List[List[str]]:
    """The records of the payments that `clear` prints of a network, or `stress` of its first scenario."""
    task = "stress" if "--scenarios" in words else "clear"
    table = clearing(task, *words).stdout.decode().partition("debtor,creditor,class,claim,paid\n")[2]
    records = [line.split(",") for line in table.splitlines()]
    return list(itertools.takewhile(lambda record: len(record) == 5, records))
