"""Nobody but the page gets into the desk, and nobody keeps the page out."""
import json
import os
import pathlib
import re
import shlex
import socket
import threading
import time
import unittest
from typing import Any, Iterable, Optional, Tuple

from common import PROGRAM
from desk import DeskCase, Headers, swallow

SCRIPT = "<script>alert(1)</script>"


# A request: its method, path, headers and body, and the status that it ends with. Words between braces stand for
# those of the desk that is asked.
Way = Tuple[str, str, Headers, Optional[bytes], int]
STATE, CHANGE = "/{ticket}/state/0", "/{ticket}/change"
BODY = json.dumps({"from": 0, "set": "cut", "value": "5"}).encode()
OTHER_HOSTS = [
    "localhost:{port}",
    "evil.example:{port}",
    "127.0.0.1",
    "127.0.0.1:80",
    "127.0.0.1.nip.io:{port}",
    "[::1]:{port}",
    "0.0.0.0:{port}",
    "127.1:{port}",
    "127.0.0.1:{port}, evil.example",
    "",
]
OTHER_ORIGINS = [
    "http://evil.example",
    "null",
    "https://{host}",
    "http://{host}.evil.example",
    "http://localhost:{port}",
    "http://127.0.0.1:{next}",
    None,
    "",
]
PATHS_WITHOUT_TICKET = [
    "/",
    "/state/0",
    "/network",
    "/script/desk.mjs",
    "/style/desk.css",
    "/take/0/banks",
    "/journal/0",
    "/none",
    "//",
    "//state/0",
    "/{ticket}",
    "/{short}/state/0",
    "/{ticket}x/state/0",
    "/x{ticket}/state/0",
    "/{swapped}/state/0",
    "/{before}/state/0",
    "/?token={ticket}",
    "/state/0?{ticket}",
    "/state/0/{ticket}/",
    "/%ff/state/0",
    "/./{ticket}/state/0",
    "/x/../{ticket}/state/0",
    "/favicon.ico",
]
COOKIES = ["{ticket}", "clearing_desk_{port}={ticket}", "=;;\x01", "é"]
OTHER_METHODS = ["PUT", "DELETE", "OPTIONS", "HEAD", "TRACE", "PATCH", "CONNECT"]
PATHS_OF_NOTHING = [
    "/script/../state.py",
    "/script/%2e%2e/state.py",
    "/script/..%2fstate.py",
    "/script/none.mjs",
    "/style/../../../../etc/passwd",
    "//etc/passwd",
    "/take/0/../../etc/passwd",
    "/take/0/passwd",
    "/take/0/%2e%2e",
    "/state/1",
    "/state/-1",
    "/state/99999999",
    "/state/0x0",
    "/bank/0/12",
    "/question/0/0",
    "/other/0",
    "/other/1",
    "/other/1/0",
    "/bank/0",
    "/etc/passwd",
    "/state/" + "9" * 5000,
    "/%00",
    "/network/",
    "/{ticket}/state/0",
]


class Ways(DeskCase):
    def setUp(self) -> None:
        super().setUp()
        self.running = self.desk()

    def refused_ways(self, ways: Iterable[Way], before: str = "") -> None:
        """Each of these requests is refused with its status and tells nothing to another page; none makes a state."""
        desk = self.running
        words = {
            "host": desk.host,
            "port": desk.port,
            "next": desk.port + 1,
            "ticket": desk.ticket,
            "short": desk.ticket[:-1],
            "swapped": desk.ticket.swapcase(),
            "before": before,
        }
        for method, path, headers, sent, status in ways:
            # The page's own headers, but for those that are put in their place.
            own = desk.own() if method == "POST" else {}
            asked = {**own, **{name: value and value.format(**words) for name, value in headers.items()}}
            host = asked.pop("Host", None)
            path = path.format(**words)
            got, told, text = desk.ask(method, path, asked, sent, host)
            self.assertEqual(got, status, (method, path, headers, text[:80]))
            self.assertFalse([name for name in told if name.lower().startswith("access-control")], path)
            self.assertNotIn("Set-Cookie", told)
            self.assertIn("default-src 'none'", told["Content-Security-Policy"])
        self.assertEqual(desk.change(0, set="cut", value="5")["id"], 1)

    def test_another_name_for_this_machine_is_refused(self) -> None:
        """A page elsewhere may turn one to it."""
        self.refused_ways(
            [
                *(("GET", STATE, {"Host": host}, None, 421) for host in OTHER_HOSTS),
                ("GET", "/{ticket}/", {"Host": "evil.example:{port}"}, None, 421),
                ("POST", CHANGE, {"Host": "evil.example:{port}"}, BODY, 421),
            ]
        )

    def test_another_page_is_refused(self) -> None:
        self.refused_ways(
            [
                *(("POST", CHANGE, {"Origin": origin}, BODY, 403) for origin in OTHER_ORIGINS),
                ("GET", STATE, {"Origin": "http://evil.example"}, None, 403),
                ("POST", CHANGE, {"Sec-Fetch-Site": "cross-site"}, BODY, 403),
                ("POST", CHANGE, {"Sec-Fetch-Site": "same-site"}, BODY, 403),
            ]
        )

    def test_nobody_without_the_ticket_gets_in(self) -> None:
        """Without one, with a wrong one, and with that of a desk that was before; a cookie says nothing."""
        old = self.desk()
        before = old.ticket
        old.end()
        self.refused_ways(
            [
                *(("GET", path, {}, None, 403) for path in PATHS_WITHOUT_TICKET),
                *(("GET", "/state/0", {"Cookie": value}, None, 403) for value in COOKIES),
                ("POST", "/change", {}, BODY, 403),
                ("POST", "/change", {"Content-Length": str(10**9)}, b"", 403),
            ],
            before,
        )

    def test_a_method_that_a_path_has_not_is_refused(self) -> None:
        self.refused_ways(
            [
                *((method, STATE, {}, None, 405) for method in OTHER_METHODS),
                ("GET", CHANGE, {}, None, 405),
                ("POST", STATE, {}, b"", 405),
            ]
        )

    def test_a_path_that_leads_nowhere_is_refused(self) -> None:
        self.refused_ways(("GET", "/{ticket}" + path, {}, None, 404) for path in PATHS_OF_NOTHING)


class Attacks(DeskCase):
    def test_a_cookie_of_another_program_of_this_machine_keeps_nobody_out(self):
        desk = self.desk()
        for cookie in ('prefs={"a":1}', "a=b; c", "=", '"', "clearing_desk=1;;;", "\x01=\x02", "a=" + "x" * 8000):
            self.assertEqual(desk.ask("GET", desk.at("/state/0"), {"Cookie": cookie})[0], 200, cookie)
            status, told, _ = desk.ask(
                "POST", desk.at("/change"), {**desk.own(), "Cookie": cookie}, b'{"from":0,"set":"cut","value":"5"}'
            )
            self.assertEqual((status, "Set-Cookie" in told), (200, False))
        # Nothing of the desk is in a cookie, which would go to every port of this machine.
        for path in ("/", "/state/0", "/network"):
            self.assertNotIn("Set-Cookie", desk.ask("GET", desk.at(path))[1])

    def test_slow_ones_keep_nobody_out(self):
        desk = self.desk()
        held = [socket.create_connection(("127.0.0.1", desk.port), timeout=60) for _ in range(200)]
        ended = threading.Event()

        def trickle() -> None:
            while not ended.wait(0.5):
                for stream in held:
                    swallow(lambda: stream.sendall(b"x"))

        for stream in held:
            stream.sendall(b"GET / HTTP/1.1\r\nX: ")
        threading.Thread(target=trickle, daemon=True).start()
        try:
            for _ in range(5):
                begun = time.monotonic()
                desk.see("/state/0")
                self.assertLess(time.monotonic() - begun, 10)
                time.sleep(0.3)
            # Whoever sends a byte now and then has the same time for the whole of it as all others.
            begun = time.monotonic()
            for stream in held:
                stream.settimeout(max(0.1, begun + 40 - time.monotonic()))
                swallow(lambda: stream.recv(1000))
            self.assertLess(time.monotonic() - begun, 40)
        finally:
            ended.set()
            for stream in held:
                stream.close()

    def test_what_is_answered_has_its_headers(self):
        desk = self.desk()
        for path in (
            *map(desk.at, ("/", "/state/0", "/script/desk.mjs", "/style/desk.css", "/take/0/report", "/none")),
            "/none",
        ):
            status, headers, text = desk.ask("GET", path)
            policy = dict(part.split(" ", 1) for part in headers["Content-Security-Policy"].split("; "))
            self.assertEqual(
                (policy["default-src"], policy["script-src"], policy["style-src"]), ("'none'", "'self'", "'self'")
            )
            self.assertEqual((policy["frame-ancestors"], policy["form-action"], policy["base-uri"]), ("'none'",) * 3)
            for name, value in (
                ("X-Content-Type-Options", "nosniff"),
                ("Referrer-Policy", "no-referrer"),
                ("Cache-Control", "no-store"),
                ("Cross-Origin-Resource-Policy", "same-origin"),
                ("X-Frame-Options", "DENY"),
            ):
                self.assertEqual(headers[name], value, path)
        page = desk.see("/").decode()
        self.assertFalse(re.search(r"<script(?! (?:src|type=\"module\" src)=)", page))
        self.assertFalse(re.search(r"\son\w+=|style=|javascript:", page))

    def test_it_listens_on_this_machine_alone(self):
        desk = self.desk()
        listening = []
        for name in ("/proc/net/tcp", "/proc/net/tcp6"):
            for line in pathlib.Path(name).read_text().splitlines()[1:] if os.path.exists(name) else []:
                local, state = line.split()[1], line.split()[3]
                if state == "0A" and int(local.rpartition(":")[2], 16) == desk.port:
                    listening.append(local.partition(":")[0])
        self.assertEqual(listening, ["0100007F"])

    def test_long_bodies_are_refused(self):
        desk = self.desk()
        for length, body, status in (
            ("65537", b"x" * 65_537, 413),
            (str(10**9), b"", 413),
            (str(10**14), b"", 413),
            ("-1", b"", 411),
            ("1e3", b"", 411),
            ("9" * 30, b"", 411),
        ):
            with socket.create_connection(("127.0.0.1", desk.port), timeout=60) as stream:
                head = "".join(
                    f"{name}: {value}\r\n"
                    for name, value in {"Host": desk.host, **desk.own(), "Content-Length": length}.items()
                )
                stream.sendall(f"POST {desk.at('/change')} HTTP/1.1\r\n{head}\r\n".encode() + body)
                stream.shutdown(socket.SHUT_WR)
                self.assertIn(f" {status} ".encode(), stream.recv(100), length)
        self.assertEqual(desk.ask("GET", desk.at("/state/0"), {"Content-Length": "5"}, b"12345")[0], 413)
        self.assertEqual(
            desk.ask(
                "POST",
                desk.at("/change"),
                {**desk.own(), "Transfer-Encoding": "chunked", "Content-Length": None},
                b"0\r\n\r\n",
            )[0],
            411,
        )
        with socket.create_connection(("127.0.0.1", desk.port), timeout=60) as stream:
            stream.sendall(b"GET /" + b"x" * 70_000 + b" HTTP/1.1\r\n\r\n")
            self.assertIn(b" 414 ", stream.recv(100))
        # Half a request stands in nobody's way.
        held = [socket.create_connection(("127.0.0.1", desk.port), timeout=60) for _ in range(10)]
        for stream in held:
            stream.sendall(b"GET / HTTP/1.1\r\nHost: ")
        self.assertEqual(desk.see("/state/0")["id"], 0)
        for stream in held:
            stream.close()

    def test_a_thousand_requests_have_four_runs_at_once(self):
        told = self.file("told", "")
        lines = f'echo + >>{told}\nsleep 0.05\n{shlex.quote(PROGRAM)} "$@"\nstatus=$?\necho - >>{told}\nexit $status\n'
        program = self.executable("program", lines)
        desk = self.desk(program=program)
        statuses, lock = [], threading.Lock()

        def work(first: Any) -> None:
            for number in range(first, 1000, 25):
                if number < 25:
                    got = desk.ask(
                        "POST",
                        desk.at("/change"),
                        desk.own(),
                        json.dumps({"from": 0, "set": "cut", "value": str(number)}).encode(),
                    )[0]
                else:
                    path = ("/state/0", "/network", "/bank/0/3", "/")[number % 4]
                    got = desk.ask("GET", desk.at(path) if number % 3 else path)[0]
                with lock:
                    statuses.append(got)

        threads = [threading.Thread(target=work, args=(first,)) for first in range(25)]
        for thread in threads:
            thread.start()
        for thread in threads:
            thread.join()
        self.assertEqual((len(statuses), set(statuses)), (1000, {200, 403}))
        now = most = 0
        for line in told.read_text().splitlines():
            now += 1 if line == "+" else -1
            most = max(most, now)
        self.assertEqual(now, 0)
        self.assertLessEqual(most, 4)
        self.assertGreater(most, 1)
        self.assertEqual(desk.see("/state/0")["id"], 0)
        self.assertEqual(desk.end(), (0, ""))

    def test_names_with_a_script_stay_names(self):
        files = self.net(
            f"{SCRIPT},1,order\n<img src=x onerror=alert(1)>,0,order\n", f"{SCRIPT},<img src=x onerror=alert(1)>,1,5\n"
        )
        desk = self.desk(files)
        for part in ("<script", "<img"):
            self.assertNotIn(part, desk.see("/journal/0")["picture"]["body"])
        status, headers, _ = desk.ask("GET", desk.at("/state/0"))
        self.assertEqual(headers["Content-Type"], "application/json; charset=utf-8")
        fault = desk.change(0, 422, set="add", debtor=SCRIPT, creditor=SCRIPT + "x", **{"class": "1"}, claim="1")
        self.assertEqual(fault["said"], "debts row 2: unknown bank (8)")


if __name__ == "__main__":
    unittest.main()
