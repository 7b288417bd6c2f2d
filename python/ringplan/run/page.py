"""A page that shows how far a plan is: the picture of `ringplan draw` with the history so far, and
the steps that run or wait; also as JSON, and for Prometheus.

The page needs nothing from outside. A script asks for it again each second; without scripts the
browser loads it again.
"""

from __future__ import annotations

import base64
import contextlib
import hashlib
import html
import http.server
import json
import os
import secrets
import sys
import threading
import time
from collections.abc import Callable
from typing import Any, Generic, TypeVar

from ringplan import programs
from ringplan.run import report
from ringplan.run.board import Board, Record, State, Status, Stop
from ringplan.run.runner import Runner

T = TypeVar("T")
# How many clients the page answers at once, and how long it waits for one, in seconds.
CLIENTS, PATIENCE = 16, 5.0
SCRIPT = """
const now = document.getElementById("now"), gone = document.getElementById("gone");
async function look() {
  try {
    const answer = await fetch("now");
    if (!answer.ok) throw answer.status;
    const text = await answer.text();
    if (text !== now.innerHTML) now.innerHTML = text;
    gone.hidden = true;
  } catch { gone.hidden = false; }
  setTimeout(look, 1000);
}
setTimeout(look, 1000);
"""
STYLE = """
body { font: 15px/1.4 "DejaVu Sans", Verdana, sans-serif; margin: 1.5em; color-scheme: light dark }
h1 { font-size: 1.2em } table { border-collapse: collapse }
th, td { padding: .2em 1em .2em 0; text-align: left; vertical-align: top }
td:nth-child(-n+3) { white-space: nowrap } .bad { color: light-dark(#b3380c, #ff9d6e) }
pre { margin: 0 } svg { max-width: 100%; height: auto }
"""
HEAD = f"""<!DOCTYPE html>
<html lang="en">
<head>
<meta charset="utf-8">
<title>ringplan-run</title>
<noscript><meta http-equiv="refresh" content="2"></noscript>
<style>{STYLE}</style>
</head>
<body>
<main id="now">"""
TAIL = f"""</main>
<p id="gone" hidden>The runner does not answer.</p>
<script>{SCRIPT}</script>
</body>
</html>
"""
POLICY = (
    "default-src 'none'; style-src 'unsafe-inline'; connect-src 'self'; base-uri 'none';"
    " form-action 'none'; frame-ancestors 'none'; script-src 'sha256-%s'"
)
HEADERS = {
    "Content-Security-Policy": POLICY
    % base64.b64encode(hashlib.sha256(SCRIPT.encode()).digest()).decode(),
    "X-Content-Type-Options": "nosniff",
    "Cache-Control": "no-store",
}


class Seldom(Generic[T]):
    """What a call returns.

    It is made by one thread at a time, and so seldom that it takes at most a tenth of the time.
    """

    def __init__(self, call: Callable[[], T]) -> None:
        self.call, self.lock, self.until, self.last = call, threading.Lock(), 0.0, list[T]()

    def __call__(self) -> T:
        with self.lock:
            began = time.monotonic()
            if began >= self.until:
                self.last = [self.call()]
                now = time.monotonic()
                self.until = now + 9 * (now - began)
            return self.last[0]


class Picture:
    """What the page shows, by a connection to the board of its own."""

    def __init__(self, board: Board, runner: Runner) -> None:
        self.board, self.runner, self.drawn, self.svg = board, runner, "", ""
        self.states, self.now = Seldom(lambda: board.states()[1]), Seldom(
            lambda: self.write(*board.look())
        )

    def draw(self, text: str) -> str:
        if text != self.drawn:
            answer = programs.ask("draw", text)
            self.svg = (
                answer.text if answer.status == 0 else f"<pre>{html.escape(answer.errors)}</pre>"
            )
            self.drawn = text
        return self.svg

    def write(self, record: Record, states: list[State]) -> str:
        """The part of the page that changes."""
        rows = "".join(
            f"<tr{' class=bad' * state.tries.is_given_up}><td>{state.number}"
            f"<td>{html.escape(str(state.name))}<td>{html.escape(report.told(state, True))}"
            f"<td><pre>{html.escape(state.tries.lines)}</pre>{html.escape(report.advice(state))}"
            for state in report.begun(states)
        )
        table = (
            f"<table><tr><th>step<th>what it does<th>how it is<th>it printed last{rows}</table>"
            if rows
            else "<p>No step runs."
        )
        pace = f"<p>{html.escape(self.runner.pace.words(time.time()))}"
        return (
            f"<h1>{sum(state.is_done for state in states)} of {len(states)} steps are"
            f" done</h1>\n{pace}\n{table}\n{self.draw(record.text())}"
        )

    def status(self) -> str:
        return json.dumps(report.members(self.states(), self.runner.pace, True))

    def metrics(self) -> str:
        it = self.runner
        return report.metrics(
            self.states(), it.pace, it.judge.watched(), it.ends, it.board.lease_left()
        )


def token_of(folder: str) -> str:
    """The token in the page's address, kept in a file that only its owner may read, so that a
    restart changes no address.
    """
    path = os.path.join(folder, "token")
    os.makedirs(folder, exist_ok=True)
    with contextlib.suppress(FileExistsError), open(
        os.open(path, os.O_WRONLY | os.O_CREAT | os.O_EXCL, 0o600), "w", encoding="ascii"
    ) as file:
        file.write(secrets.token_urlsafe(24))
    with open(path, encoding="ascii") as file:
        return file.read()


class Request(http.server.BaseHTTPRequestHandler):
    timeout = PATIENCE

    def do_GET(self) -> None:
        page = self.server
        assert isinstance(page, Page)
        host = self.headers.get("Host", "").partition(":")[0]  # a port of 80 is not named
        if page.hosts is not None and host not in page.hosts or self.path not in page.answers:
            self.send_error(404)
            return
        kind, text = page.answers[self.path]
        try:
            data = text().encode()
        except (Stop, programs.NoProgram) as fault:
            self.send_error(503, explain=str(fault))
            return
        self.send_response(200)
        for name, value in {
            **HEADERS,
            "Content-Type": f"{kind}; charset=utf-8",
            "Content-Length": str(len(data)),
        }.items():
            self.send_header(name, value)
        self.end_headers()
        self.wfile.write(data)

    def log_message(self, format: str, *words: object) -> None:
        """Requests are not told to the operator."""


class Page(http.server.ThreadingHTTPServer):
    """The page's server.

    On loopback it answers only names of this machine, so that no page from elsewhere can read it by
    a name of its own.

    Elsewhere each address has a token.
    """

    daemon_threads = True
    # How many are answered at once. Others are turned away, so that the runner has descriptors
    # left.
    places = threading.BoundedSemaphore(CLIENTS)

    def __init__(self, board: Board, runner: Runner, host: str, port: int) -> None:
        picture, is_near = Picture(board, runner), host == "127.0.0.1"
        texts: dict[str, tuple[str, Callable[[], str]]] = {
            "": ("text/html", lambda: HEAD + picture.now() + TAIL),
            "now": ("text/html", picture.now),
            "status.json": ("application/json", picture.status),
            "metrics": ("text/plain; version=0.0.4", picture.metrics),
        }
        try:
            root = "/" if is_near else f"/{token_of(board.locks)}/"
            self.answers = {root + name: text for name, text in texts.items()}
            self.hosts = {"127.0.0.1", "localhost"} if is_near else None
            super().__init__((host, port), Request)
        except (OSError, OverflowError) as error:
            raise Stop(
                Status.FAULT,
                f"there is no page at port {port}{'' if is_near else f' of {host}'}: {error}",
            ) from error
        self.address = f"http://{host}:{self.server_address[1]}{root}"
        threading.Thread(target=self.serve_forever, daemon=True).start()

    def process_request(self, request: Any, client: Any) -> None:
        if self.places.acquire(blocking=False):
            super().process_request(request, client)
        else:
            self.shutdown_request(request)

    def process_request_thread(self, request: Any, client: Any) -> None:
        try:
            super().process_request_thread(request, client)
        finally:
            self.places.release()

    def handle_error(self, request: Any, client: Any) -> None:
        """A browser that goes away, or that says nothing, is not a fault."""
        if not isinstance(sys.exc_info()[1], (ConnectionError, TimeoutError)):
            super().handle_error(request, client)
