"""A desk to try things at: the network in a browser, cleared anew at every change by the program.

In:   FOLDER             the case; or --banks and --debts, the two files of the network; they are never written
      --scenarios        the scenarios file, whose scenarios can be chosen
      --labels           a CSV file `code,name`: the full names of banks, behind which those of the files stand
      --unit, --currency what a unit of account is worth, and in which currency, where the case does not say it
      --title            the title of the case
      --against          another case, such as that of another date, with which states are compared; may be said again
      --session          a session that was saved at a desk, in place of a case
      --no-browser       opens no browser: the link is printed alone
      --idle             ends after so many minutes without a request (60)
Out:  on standard output a line with the link to the page, which this machine alone can open

In the page all cash is cut, the cash, the rule and the debts of banks are changed, a scenario is chosen or built, and
what default keeps is set, which shows both ends of what clears; at each change the program clears the network again.
States are kept under names and compared with one another. The page adds and subtracts what the program says, and
computes nothing else. The session, a state as a case, files, the changes as a scenario, a report and a folder of
evidence are downloads.

The link has a ticket of 128 bits; who does not have it is refused. The server ends at an interrupt, and leaves nothing
behind. It wants the library bottle, Debian's package python3-bottle; the journal is played by d3, Debian's package
node-d3.

The environment variable CLEARING names the program, the repository's where it is not set.

Ends with 0 at an interrupt (Ctrl-C), a request to end, and after an idle hour; 1 where the program fails; 2 where the
words are not understood, or bottle is missing; 3 where a file cannot be read; 4 where one is refused.

Example:
    clearing-desk --banks examples/twelve-banks/banks.csv --debts examples/twelve-banks/debts.csv \\
        --scenarios examples/twelve-banks/scenarios.toml
"""
import argparse
import contextlib
import importlib
import io
import os
import pathlib
import signal
import socket
import socketserver
import threading
import time
import webbrowser
from types import ModuleType
from typing import TYPE_CHECKING, Dict, Optional, Tuple, Union
from wsgiref.simple_server import WSGIRequestHandler, WSGIServer

from clearing_client.case import Case
from clearing_client.errors import ClearingError

from .. import cases, cli, runner
from ..drawing import web
from ..fullnames import add_labels, read_labels
from ..money import add_money
from ..runner import ToolError, command, lacking, work_folder
from . import session, takeaway
from .app import Application
from .changes import original_of
from .guard import Guard
from .runs import Desk, Runs, base_of

if TYPE_CHECKING:
    from _typeshed import WriteableBuffer
    from _typeshed.wsgi import WSGIEnvironment

Request = Union[socket.socket, Tuple[bytes, socket.socket]]
"""What a request comes by: a connection, as a server of streams has it."""
MOST_CONNECTIONS = 64
SECONDS_OF_A_REQUEST = 10.0  # until the whole of it is there
SECONDS_OF_A_WRITE = 20.0  # without a byte that is taken


class Until(io.RawIOBase):
    """What comes by a connection until a moment, however slowly it comes; then it fails."""

    def __init__(self, connection: socket.socket, seconds: float) -> None:
        self.connection, self.ends = connection, time.monotonic() + seconds

    def readable(self) -> bool:
        """It is read from."""
        return True

    def readinto(self, buffer: "WriteableBuffer") -> int:
        """Reads what has come, as much as a buffer takes."""
        left = self.ends - time.monotonic()
        if left <= 0:
            raise socket.timeout("the request is not there in time")
        self.connection.settimeout(left)
        try:
            return self.connection.recv_into(buffer)
        finally:
            self.connection.settimeout(SECONDS_OF_A_WRITE)


class Handler(WSGIRequestHandler):
    """A request. Nothing is said of it, and one that is not there in time ends."""

    timeout = SECONDS_OF_A_WRITE

    def setup(self) -> None:
        """Has what comes read within its time."""
        super().setup()
        self.rfile = io.BufferedReader(Until(self.connection, SECONDS_OF_A_REQUEST))

    def get_environ(self) -> "WSGIEnvironment":
        """What is known of the request. Its head is there: it does not wait any more."""
        assert isinstance(self.server, Server)
        self.server.is_read(self.connection)
        return super().get_environ()

    def log_message(self, *_: object) -> None:
        """Nothing is said of a request."""

    def address_string(self) -> str:
        """Who asks, without looking a name up."""
        return "127.0.0.1"


class Server(socketserver.ThreadingMixIn, WSGIServer):
    """A server for this machine alone, with room for some requests at once. Where it is full, the one that has waited
    longest for the rest of its head makes room, so that slow ones keep nobody out."""

    daemon_threads = True
    block_on_close = False
    request_queue_size = 128

    def __init__(self) -> None:
        self.lock = threading.Lock()
        self.waiting: Dict[socket.socket, None] = {}  # whose head is not there yet, the oldest first
        self.open = 0
        super().__init__(("127.0.0.1", 0), Handler)

    def server_bind(self) -> None:
        """Takes a port of this machine. No name is looked up."""
        socketserver.TCPServer.server_bind(self)
        self.server_name, self.server_port = "127.0.0.1", self.server_address[1]
        self.setup_environ()

    def is_read(self, connection: socket.socket) -> None:
        """The head of a request is there."""
        with self.lock:
            self.waiting.pop(connection, None)

    def has_room(self, connection: socket.socket) -> bool:
        """Whether there is room for one more, which then waits. The oldest that waits may have to end for it."""
        with self.lock:
            if self.open >= MOST_CONNECTIONS:
                if not self.waiting:
                    return False
                oldest = next(iter(self.waiting))
                del self.waiting[oldest]
                with contextlib.suppress(OSError):
                    oldest.shutdown(socket.SHUT_RDWR)
            self.open += 1
            self.waiting[connection] = None
            return True

    def process_request(self, request: Request, client_address: object) -> None:
        """Answers a request, where there is room."""
        if self.has_room(connection_of(request)):
            super().process_request(request, client_address)
        else:
            self.shutdown_request(request)

    def process_request_thread(self, request: Request, client_address: object) -> None:
        """Answers a request in its own thread."""
        try:
            super().process_request_thread(request, client_address)
        finally:
            with self.lock:
                self.waiting.pop(connection_of(request), None)
                self.open -= 1

    def handle_error(self, request: Request, client_address: object) -> None:
        """One that goes away is no fault of the desk."""


def connection_of(request: Request) -> socket.socket:
    """The connection of a request."""
    return request if isinstance(request, socket.socket) else request[1]


def bottle_of() -> ModuleType:
    """The library bottle. Where it is missing the tool fails with 2 and says for which Python."""
    try:
        return importlib.import_module("bottle")
    except ImportError as fault:
        raise lacking("bottle", "desk", ", which serves the desk") from fault


def library() -> Optional[bytes]:
    """The library d3, nothing where it is not there."""
    for name in web.D3:
        with contextlib.suppress(OSError):
            return pathlib.Path(name).read_bytes()
    return None


def minutes(word: str) -> float:
    """A number of minutes above 0."""
    with contextlib.suppress(ValueError):
        if 0 < float(word) < 1e6:
            return float(word)
    raise argparse.ArgumentTypeError(f"{word!r} is no number of minutes above 0")


def parse_args() -> Tuple[argparse.ArgumentParser, argparse.Namespace]:
    """The parser, and the words of the command line."""
    parser = cli.case_parser(__doc__)
    parser.add_argument("--scenarios", metavar="FILE", help="the scenarios file")
    add_labels(parser)
    add_money(parser)
    parser.add_argument("--title", metavar="TEXT", help="the title of the case")
    parser.add_argument("--against", metavar="FOLDER", action="append", default=[],
                        help="another case, such as of another date, to compare with")
    parser.add_argument("--session", metavar="FILE", help="a session that was saved, in place of a case")
    parser.add_argument("--no-browser", action="store_true", help="open no browser")
    parser.add_argument("--idle", metavar="MINUTES", type=minutes, default=60.0,
                        help="end after so many minutes without a request (60)")
    return parser, parser.parse_args()


def open_browser(link: str, folder: str) -> None:
    """Opens the browser by a file that leads on to the link, so that the link is among no process's words."""
    path = pathlib.Path(folder) / "open.html"
    with open(os.open(path, os.O_WRONLY | os.O_CREAT | os.O_EXCL, 0o600), "w", encoding="utf-8") as file:
        file.write('<!DOCTYPE html><meta charset="utf-8"><title>The desk</title>'
                   f'<meta http-equiv="refresh" content="0;url={link}">')
    threading.Thread(target=webbrowser.open, args=(path.as_uri(),), daemon=True).start()


class Clock:
    """When the last request came."""

    def __init__(self) -> None:
        self.last = time.monotonic()

    def restart(self) -> None:
        """One comes now."""
        self.last = time.monotonic()


def desk_of(runs: Runs, case: Case) -> Desk:
    """The desk of a case: its network as the program reads it."""
    banks, debts = case.paths["banks"], case.paths["debts"]
    base = base_of(runs, banks, debts, case.paths.get("scenarios"), cases.settle_limits(case))
    originals = {what: original_of(path) for what, path in (("banks", banks), ("debts", debts)) if os.path.isfile(path)}
    desk = Desk(runs, base, case, originals)
    desk.full.check((bank.name for bank in base.banks), 4)
    for what in {"banks", "debts"} - set(originals):
        # What can be read but once stands in the session as the program has printed it.
        case.paths[what] = takeaway.printed_file(desk, what, runs.folder)
    desk.files_given = {**described_files(case), **takeaway.given_files(case)}
    return desk


def described_files(case: Case) -> Dict[str, bytes]:
    """The files of a case beside the network's: what it says of itself, and what its banks are called; no sheets."""
    if case.paths.get("scenarios") is not None:
        case.scenarios = takeaway.bytes_of(case.paths["scenarios"])
    try:
        files = case.files({})
    except ClearingError:
        return {}
    return {name: data for name, data in files.items() if name not in ("banks.csv", "debts.csv")}


def application_of(
    bottle: ModuleType, runs: Runs, parser: argparse.ArgumentParser, args: argparse.Namespace, folder: str
) -> Application:
    """The application of the case or the session that was asked for, and of the cases beside it."""
    document = None
    if args.session is not None:
        if args.case is not None or args.banks is not None or args.debts is not None:
            parser.error("a session has its case: --session stands without FOLDER, --banks and --debts")
        place = pathlib.Path(folder) / "session"
        place.mkdir()
        document = session.unpacked(args.session, place)
        args.case = str(place)
    read_labels(args.labels, 4)  # its faults have the status of a refusal
    desk = desk_of(runs, cases.take_case(parser, args).case)
    others = [desk_of(runs, cases.read_case(name)) for name in args.against]
    for name, other in zip(args.against, others):
        if (other.case.unit, other.case.currency) != (desk.case.unit, desk.case.currency):
            raise ToolError(f"{name}: its amounts are in another unit or currency than those of the case", 4)
    application = Application(bottle, desk, library(), others)
    if document is not None:
        application.at_first = session.opened(desk, document, application.steps, application.shelf, args.session)
    return application


@command("desk.py")
def main() -> int:
    parser, args = parse_args()
    cases.check_moment()
    bottle = bottle_of()
    # Runs go on in folders of their own.
    os.environ["CLEARING"] = runner.program()
    with work_folder() as folder:
        runs = Runs(folder)
        application = application_of(bottle, runs, parser, args, folder)
        server, clock = Server(), Clock()
        guard = Guard(application, server.server_port, clock.restart)
        server.set_app(guard)
        serving = threading.Thread(target=server.serve_forever, args=(0.1,), daemon=True)
        try:
            serving.start()
            print(f"The desk is at {guard.link}\nCtrl-C ends it.", flush=True)
            if not args.no_browser:
                open_browser(guard.link, folder)
            while time.monotonic() - clock.last < 60 * args.idle:
                time.sleep(0.1)
        except KeyboardInterrupt:
            pass
        finally:
            # What is asked now is on its way already.
            for number in (signal.SIGINT, signal.SIGTERM):
                signal.signal(number, signal.SIG_IGN)
            application.questions.stop()
            runs.stop()
            server.shutdown()
            server.server_close()
    return 0
