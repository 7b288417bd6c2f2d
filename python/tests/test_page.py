"""The page of `--serve`: by a client of its own, and in headless Chromium, over a runner that
works.
"""

from __future__ import annotations

import http.client
import json
import os
import pathlib
import re
import shutil
import signal
import socket
import subprocess
import time
from collections.abc import Iterator
from typing import Any

import pytest
from bench import LONG, Bench

from test_runner import wait_until

from ringplan import programs
from ringplan.run.board import Status


class Browser:
    """Headless Chromium, spoken to by its protocol over two pipes."""

    def __init__(self, folder: pathlib.Path) -> None:
        to_browser, self.to = os.pipe()
        self.come, from_browser = os.pipe()
        words = [
            "chromium",
            "--headless",
            "--no-sandbox",
            "--disable-gpu",
            "--disable-dev-shm-usage",
            "--remote-debugging-pipe",
            f"--user-data-dir={folder}",
            "about:blank",
        ]

        def arrange() -> None:
            # Moved out of the way first: either may be 3 or 4 already.
            one, two = os.dup(to_browser), os.dup(from_browser)
            os.dup2(one, 3)
            os.dup2(two, 4)

        self.process = subprocess.Popen(
            words,
            stdout=subprocess.DEVNULL,
            stderr=subprocess.DEVNULL,
            close_fds=False,
            preexec_fn=arrange,
            start_new_session=True,
        )
        os.close(to_browser)
        os.close(from_browser)
        self.rest, self.count, self.asked = b"", 0, list[str]()
        page = [it for it in self.call("Target.getTargets")["targetInfos"] if it["type"] == "page"][
            0
        ]
        self.session = self.call("Target.attachToTarget", targetId=page["targetId"], flatten=True)[
            "sessionId"
        ]
        for domain in ("Page", "Network", "Runtime"):
            self.ask(f"{domain}.enable")

    def call(self, method: str, session: str = "", **values: Any) -> dict[str, Any]:
        self.count += 1
        message = {
            "id": self.count,
            "method": method,
            "params": values,
            **({"sessionId": session} if session else {}),
        }
        os.write(self.to, json.dumps(message).encode() + b"\0")
        while True:
            while b"\0" not in self.rest:
                data = os.read(self.come, 1 << 20)
                assert data, "the browser is gone"
                self.rest += data
            line, self.rest = self.rest.split(b"\0", 1)
            found = json.loads(line)
            if found.get("method") == "Network.requestWillBeSent":
                self.asked.append(found["params"]["request"]["url"])
            if found.get("id") == self.count:
                if "result" not in found:
                    raise LookupError(found)
                result: dict[str, Any] = found["result"]
                return result

    def ask(self, method: str, **values: Any) -> dict[str, Any]:
        return self.call(method, self.session, **values)

    def see(self, expression: str) -> Any:
        """What a script's expression is in the page."""
        return self.ask("Runtime.evaluate", expression=expression, returnByValue=True)[
            "result"
        ].get("value")

    def wait(self, expression: str) -> Any:
        """The first value of the expression that is true."""
        until = time.monotonic() + LONG
        while not (value := self.see(expression)):
            assert time.monotonic() < until, (
                expression,
                self.see("document.documentElement.outerHTML"),
            )
            time.sleep(0.05)
        return value

    def source(self) -> str:
        """The page's text; the empty text where the page is loaded anew meanwhile."""
        try:
            root = self.ask("DOM.getDocument")["root"]["nodeId"]
            return str(self.ask("DOM.getOuterHTML", nodeId=root)["outerHTML"])
        except LookupError:
            return ""

    def end(self) -> None:
        os.killpg(self.process.pid, signal.SIGKILL)
        self.process.wait()
        os.close(self.to)
        os.close(self.come)


@pytest.fixture
def browser(tmp_path: pathlib.Path) -> Iterator[Browser]:
    if shutil.which("chromium") is None:
        pytest.skip("chromium is not installed")
    one = Browser(tmp_path / "browser")
    yield one
    one.end()


@pytest.fixture
def bench(tmp_path: pathlib.Path) -> Bench:
    try:
        programs.find()
    except programs.NoProgram as error:
        pytest.skip(str(error))
    return Bench(tmp_path, str(tmp_path / "board"))


def address_of(process: "subprocess.Popen[str]") -> str:
    assert process.stderr is not None
    line = process.stderr.readline()
    found = re.fullmatch(r"the page is at (http://127\.0\.0\.1:\d+/)\n", line)
    assert found, line
    return found[1]


def test_the_page_follows_a_runner(bench: Bench, browser: Browser) -> None:
    bench.hold(0, 1)
    process = bench.start("apply", "--serve", "0")
    address = address_of(process)
    browser.ask("Page.navigate", url=address)
    browser.wait(
        "document.readyState === 'complete' && document.querySelector('main svg') !== null &&"
        " (window.mark = 1)"
    )
    assert browser.wait("document.querySelector('h1').textContent") == "0 of 18 steps are done"
    browser.wait("document.querySelector('main table')?.textContent.includes('worker 0 does it')")
    # The text changes while the page stays: its mark is still there.
    bench.let_go(0)
    browser.wait("document.querySelector('h1').textContent === '1 of 18 steps are done'")
    assert browser.see("window.mark") == 1
    assert browser.see("document.getElementById('gone').hidden") is True
    # Without scripts the page is plain, and shows the same.
    browser.ask("Emulation.setScriptExecutionDisabled", value=True)
    browser.ask("Page.reload")
    until = time.monotonic() + LONG
    while not all(
        words in (source := browser.source())
        for words in ("<svg", "1 of 18 steps are done</h1>", "worker 0 does it")
    ):
        assert time.monotonic() < until, source
        time.sleep(0.1)
    browser.ask("Emulation.setScriptExecutionDisabled", value=False)
    browser.ask("Page.navigate", url=address)
    browser.wait("document.querySelector('main svg') !== null")
    bench.let_go(1)
    assert process.communicate(timeout=LONG)[0].endswith(
        "18 of 18 steps are done, and the judge says yes\n"
    )
    browser.wait("!document.getElementById('gone').hidden")
    asked = {url for url in browser.asked if url != "about:blank"}
    assert (
        {address, f"{address}now"} <= asked <= {address, f"{address}now", f"{address}favicon.ico"}
    )


def reply(
    address: str, path: str = "/", method: str = "GET", host: str = ""
) -> tuple[int, dict[str, str], str]:
    place = address.split("/")[2]
    connection = http.client.HTTPConnection(place, timeout=LONG)
    connection.request(method, path, headers={"Host": host or place})
    answer = connection.getresponse()
    text = answer.read().decode()
    connection.close()
    return answer.status, dict(answer.headers), text


def test_the_page_has_the_picture_of_draw_and_nothing_from_outside(bench: Bench) -> None:
    bench.answer(2, 1)
    process = bench.start("apply", "--serve", "0", "--pause", "6000", "--longest-pause", "6000")
    address = address_of(process)
    bench.wait_for("fail", 2)
    wait_until(lambda: "2 copy 0 1 d: 1 failure" in bench.run("status")[1])
    picture = programs.ask("draw", bench.bundle.read_text() + bench.run("history")[1]).text
    until = time.monotonic() + LONG
    while (
        "<td>2<td>copy 0 1 d<td>1 failure" not in (text := reply(address, "/now")[2])
        or picture not in text
    ):
        assert time.monotonic() < until, text
        time.sleep(0.05)
    assert "2 of 18 steps are done" in text
    status, headers, whole = reply(address)
    assert (
        status == 200
        and headers["Content-Security-Policy"].startswith("default-src 'none'")
        and whole.startswith("<!DOCTYPE html>")
    )
    # No link and no address but that of SVG's names.
    assert set(re.findall(r"\w+://[^\"' ]*", whole)) == {"http://www.w3.org/2000/svg"}
    for path, method, host, wanted in (
        ("/", "GET", "example.org", 404),
        ("/now", "GET", "example.org:80", 404),
        ("/other", "GET", "", 404),
        ("/", "POST", "", 501),
    ):
        assert reply(address, path, method, host)[0] == wanted
    for host in (f"localhost:{address.split(':')[2][:-1]}", "127.0.0.1"):
        assert reply(address, host=host)[0] == 200
    process.send_signal(signal.SIGINT)
    assert process.wait(timeout=LONG) == Status.STOPPED
    with socket.create_server(("127.0.0.1", 0)) as taken:
        for port in (taken.getsockname()[1], 65536):
            code, _, err = bench.run("apply", "--serve", str(port))
            assert code == Status.FAULT and f"there is no page at port {port}: " in err
