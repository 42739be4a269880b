"""Who may ask the desk: the browser that came by its link, and nobody else. What is not so is answered here, before any
page.

The ticket is the first part of each path. A cookie would go to every port of this machine, and other programs could set
theirs."""
import hmac
import secrets
from typing import IO, TYPE_CHECKING, Callable, Iterable, List, Optional, Tuple

if TYPE_CHECKING:
    from _typeshed import OptExcInfo
    from _typeshed.wsgi import StartResponse, WSGIApplication, WSGIEnvironment

MOST_BYTES = 65_536  # of the body of a change
MOST_READ = 1_048_576  # of a body that is refused, so that the answer is read at all
POLICY = "; ".join([
    "default-src 'none'",
    "script-src 'self'",
    "style-src 'self'",
    "connect-src 'self'",
    "img-src 'self' blob:",  # a drawing of the page's own, on the way to a PNG
    "base-uri 'none'",
    "form-action 'none'",
    "frame-ancestors 'none'",
])
HEADERS = [
    ("Content-Security-Policy", POLICY),
    ("X-Content-Type-Options", "nosniff"),
    ("X-Frame-Options", "DENY"),
    ("Referrer-Policy", "no-referrer"),
    ("Cross-Origin-Opener-Policy", "same-origin"),
    ("Cross-Origin-Resource-Policy", "same-origin"),
    ("Cache-Control", "no-store"),
]
Answer = Tuple[str, bytes]


class Guard:
    """A WSGI application in front of another, which sees paths without the ticket. `on_request` is called at
    each request that passes."""

    def __init__(self, inner: "WSGIApplication", port: int, on_request: Callable[[], None]) -> None:
        self.inner, self.on_request = inner, on_request
        self.host = f"127.0.0.1:{port}"
        self.ticket = secrets.token_urlsafe(16)  # 128 bits

    @property
    def link(self) -> str:
        """The address of the page."""
        return f"http://{self.host}/{self.ticket}/"

    def __call__(self, environ: "WSGIEnvironment", respond: "StartResponse") -> Iterable[bytes]:
        refusal = self.refusal(environ)
        if refusal is not None:
            return answered(respond, *refusal)
        # The page's own names are relative to where the ticket ends.
        path = environ.get("PATH_INFO", "")
        environ = {**environ, "SCRIPT_NAME": f"/{self.ticket}", "PATH_INFO": path[1 + len(self.ticket):]}
        self.on_request()

        def with_headers(
            status: str, headers: List[Tuple[str, str]], exc_info: "Optional[OptExcInfo]" = None
        ) -> Callable[[bytes], object]:
            own = {name for name, _ in HEADERS}
            others = [pair for pair in headers if pair[0] not in own]
            return respond(status, others + HEADERS, *([exc_info] if exc_info else []))

        return self.inner(environ, with_headers)

    def refusal(self, environ: "WSGIEnvironment") -> Optional[Answer]:
        """What is wrong with a request, whoever it is from."""
        # Another name for this machine may be one that a page from elsewhere has turned to it.
        if environ.get("HTTP_HOST") != self.host:
            return "421 Misdirected Request", b"This desk has another name.\n"
        method, origin = environ["REQUEST_METHOD"], environ.get("HTTP_ORIGIN")
        if method not in ("GET", "POST"):
            return "405 Method Not Allowed", b"There are GET and POST alone.\n"
        site = environ.get("HTTP_SEC_FETCH_SITE", "same-origin")
        is_ours = origin == f"http://{self.host}" or origin is None and method == "GET"
        if not is_ours or method == "POST" and site != "same-origin":
            return "403 Forbidden", b"Another page asks for this.\n"
        # What a stranger sends is not read.
        return body_fault(environ) if self.has_ticket(environ) else (
            "403 Forbidden", b"This desk is opened by the link that it has printed.\n")

    def has_ticket(self, environ: "WSGIEnvironment") -> bool:
        """Whether the first part of the path is the ticket, and there is a rest."""
        parts = environ.get("PATH_INFO", "").split("/", 2)
        ticket = parts[1].encode("latin-1", "replace") if len(parts) == 3 and not parts[0] else b""
        return hmac.compare_digest(ticket, self.ticket.encode())


def body_fault(environ: "WSGIEnvironment") -> Optional[Answer]:
    """What is wrong with the body of a request: too long, of no told length, or there where none belongs."""
    length = environ.get("CONTENT_LENGTH") or "0"
    if not (length.isascii() and length.isdigit() and len(length) <= 15) or environ.get("HTTP_TRANSFER_ENCODING"):
        return "411 Length Required", b"A body has a length.\n"
    if int(length) > (MOST_BYTES if environ["REQUEST_METHOD"] == "POST" else 0):
        pass_over(environ["wsgi.input"], min(int(length), MOST_READ))
        return "413 Content Too Large", b"The body is too long.\n"
    return None


def pass_over(stream: IO[bytes], left: int) -> None:
    """Reads what is not wanted, so that the answer reaches who sends it."""
    try:
        while left > 0 and (block := stream.read(min(left, 65_536))):
            left -= len(block)
    except OSError:
        pass


def answered(respond: "StartResponse", status: str, body: bytes) -> Iterable[bytes]:
    """An answer of the guard itself."""
    respond(status, [("Content-Type", "text/plain; charset=utf-8"), ("Content-Length", str(len(body))), *HEADERS])
    return [body]
