"""The reference store: versions, lines of histories, nodes over each kind of server, right runs and
a broken store, judged.
"""

from __future__ import annotations

import os
import pathlib
import random
import subprocess
import sys
import tempfile
import time
from collections.abc import Iterator
from concurrent.futures import ThreadPoolExecutor
from typing import Any

import pytest
from bench import LONG

from ringplan import programs
from ringplan.store.__main__ import main, run
from ringplan.store.history import Get, Put, Recorder
from ringplan.store.nodes import KINDS, Gone, ServerNode, choose
from ringplan.store.traffic import Load
from ringplan.store.versions import Version, latest, merged

TOP = pathlib.Path(__file__).parents[2]


def version(put: int, **clock: int) -> Version:
    return Version(put, clock, "")


def test_a_merge_keeps_what_no_other_version_succeeds() -> None:
    first, second, third = version(0, a=1), version(1, a=1, b=1), version(2, c=1)
    assert merged([first], [second]) == [second]
    assert merged([second], [first]) == [second]
    assert merged([second], [third]) == [second, third]
    assert merged(merged([first], [third]), [second]) == [third, second]
    assert merged([second], [second]) == [second]


def test_the_latest_version_alone_loses_a_put() -> None:
    assert latest([version(0, a=1)], [version(1, b=1)]) == [version(1, b=1)]


def test_puts_and_gets_are_numbered_in_the_order_of_the_history() -> None:
    history = Recorder()
    get, put, other = Get(7, "k"), Put(9, "w", "k", {}, "", []), Put(4, "v", "k", {}, "", [])
    put.seen.append(get)
    history.note(("get", get))
    history.note(("endget", get), ("reply",))
    history.note(("put", put))
    history.note(("put", other))
    history.note(("write", other, 2), ("ticket", 0, 2, 1))
    history.note(("read", get, 2), ("found", 4, 9))
    history.note(("down", "n1"))
    assert list(history.lines()) == [
        "history 1",
        "get k = get 0",
        "endget 0 = reply",
        "put w k x seen 0 = put 0",
        "put v k x = put 1",
        "write 1 2 = ticket 0 2 1",
        "read 0 2 = found 0 1",
        "down n1 = ok",
        "end",
    ]


@pytest.fixture(params=KINDS)
def servers(request: pytest.FixtureRequest) -> str:
    """A kind of servers that is installed."""
    try:
        choose(request.param)
    except programs.NoProgram as error:
        pytest.skip(str(error))
    return str(request.param)


@pytest.fixture
def folder() -> Iterator[str]:
    """A folder that the user of PostgreSQL can enter, unlike those of pytest."""
    with tempfile.TemporaryDirectory() as path:
        yield path


@pytest.fixture
def node(servers: str, folder: str) -> Iterator[ServerNode[Any]]:
    one = choose(servers)(folder, "n")
    one.start()
    yield one
    one.kill()


def test_a_server_merges_as_merged_does(node: ServerNode[Any]) -> None:
    draw = random.Random(1)
    stored: dict[str, list[Version]] = {}
    for put in range(300):
        contents: dict[str, list[Version]] = {}
        for key in draw.sample(["k", "l", '\u00e9 /"', ""], draw.randrange(3)):
            clocks = [
                {writer: draw.randrange(1, 4) for writer in draw.sample("abc", draw.randrange(4))}
                for _ in range(draw.randrange(3))
            ]
            contents[key] = [
                Version(draw.randrange(10**9), clock, f'\u00e9 /" {put}') for clock in clocks
            ]
            stored[key] = merged(stored.get(key, []), contents[key])
        node.merge("0.1.2", contents)
        assert node.scan("0.1.2") == stored
        assert node.fetch("0.1.2", "k") == stored.get("k", [])
    assert max(map(len, stored.values())) > 1
    assert node.fetch("0.1.3", "k") == node.fetch("0.1.2", "none") == []
    node.merge("0.1.3", {"k": [version(1, a=1)]})
    node.clear([])
    node.clear(["0.1.2", "0.1.4"])
    assert node.scan("0.1.2") == {} and node.scan("0.1.3") == {"k": [version(1, a=1)]}


def test_a_server_whose_latest_version_wins(servers: str, folder: str) -> None:
    node = choose(servers)(folder, "n", True)
    node.start()
    for put in (3, 1, 4, 2):
        node.merge("0.0.0", {"k": [version(put, **{f"w{put}": 1})]})
    kept = node.fetch("0.0.0", "k")
    node.kill()
    assert kept == [version(4, w4=1)]


def test_what_was_merged_outlives_a_kill_and_no_wipe(node: ServerNode[Any]) -> None:
    for put in range(20):
        node.merge("0.0.0", {f"k{put}": [version(put, a=put + 1)]})
        if put % 10 == 9:
            node.kill()
            with pytest.raises(Gone):
                node.fetch("0.0.0", "k0")
            node.start()
            assert node.scan("0.0.0") == {
                f"k{known}": [version(known, a=known + 1)] for known in range(put + 1)
            }
    node.kill()
    node.kill()
    node.wipe()
    assert os.listdir(node.folder) == []
    node.start()
    assert node.scan("0.0.0") == {}


def test_a_kill_in_the_middle_of_merges_loses_none_that_was_answered(node: ServerNode[Any]) -> None:
    answered = list[str]()

    def write(writer: int) -> None:
        for put in range(100000):
            try:
                node.merge("0.0.0", {f"{writer}.{put}": [version(put, a=1)]})
            except Gone:
                return
            answered.append(f"{writer}.{put}")

    with ThreadPoolExecutor() as pool:
        writing = [pool.submit(write, writer) for writer in range(4)]
        until = time.monotonic() + LONG
        while len(answered) <= 20:
            assert time.monotonic() < until
            time.sleep(0.01)
        node.kill()
        for one in writing:
            one.result()
    node.start()
    assert set(answered) <= set(node.scan("0.0.0"))


def test_writers_of_one_key_lose_nothing(node: ServerNode[Any]) -> None:
    def write(writer: int) -> None:
        for put in range(25):
            node.merge(
                "0.0.0",
                {
                    key: [version(put, **{f"w{writer}.{put}": 1})]
                    for key in ("k", "l")[:: 1 if writer % 2 else -1]
                },
            )

    with ThreadPoolExecutor(4) as pool:
        for one in [pool.submit(write, writer) for writer in range(4)]:
            one.result()
    for key in ("k", "l"):
        assert sorted(next(iter(kept.clock)) for kept in node.fetch("0.0.0", key)) == sorted(
            f"w{writer}.{put}" for writer in range(4) for put in range(25)
        )


def test_a_server_ends_with_its_store(servers: str, folder: str) -> None:
    words = (
        "import sys; from ringplan.store.nodes import *; n = choose(sys.argv[1])(sys.argv[2], 'n');"
        " n.start(); print(n.process.pid, flush=True); input()"
    )
    with subprocess.Popen(
        [sys.executable, "-c", words, servers, folder],
        stdin=subprocess.PIPE,
        stdout=subprocess.PIPE,
        cwd=TOP / "python",
    ) as store:
        assert store.stdout is not None
        server = int(store.stdout.readline())
        store.kill()
    until = time.monotonic() + LONG
    while (
        pathlib.Path(f"/proc/{server}").exists()
        and ") Z " not in pathlib.Path(f"/proc/{server}/stat").read_text()
    ):
        assert time.monotonic() < until
        time.sleep(0.01)


def test_what_is_not_installed_is_named(
    monkeypatch: pytest.MonkeyPatch, tmp_path: pathlib.Path, capsys: pytest.CaptureFixture[str]
) -> None:
    plan = TOP / "examples/planned_grow.bundle"
    monkeypatch.setenv("PATH", str(tmp_path))
    monkeypatch.setitem(sys.modules, "psycopg2", None)  # type: ignore[misc]
    monkeypatch.delitem(sys.modules, "ringplan.store.postgres_node", raising=False)
    for kind, package in (("redis", "redis"), ("postgres", "python3-psycopg2")):
        monkeypatch.setattr(
            sys, "argv", ["store", str(plan), str(plan), str(tmp_path / "out"), "--servers", kind]
        )
        with pytest.raises(SystemExit) as ended:
            main()
        assert ended.value.code == 2
        assert package in capsys.readouterr().err


@pytest.fixture
def bundle() -> tuple[str, str]:
    """A bundle and its lines of steps."""
    text = (TOP / "examples/planned_grow.bundle").read_text()
    try:
        programs.find()
        return text, programs.ask("steps", text).text
    except programs.NoProgram as error:
        pytest.skip(str(error))


def test_a_run_is_judged_yes(bundle: tuple[str, str], servers: str) -> None:
    kills = 0
    while not kills:
        text, counts = run(
            *bundle, Load(operations=30, faults=0.2, outage=0.1, limit=600), servers=servers
        )
        assert programs.ask("replay", text).first() == "yes"
        assert counts["steps"] == counts["of"]
        assert counts["held at too few slots"] == 0
        kills = counts["kills"]


def test_a_broken_store_is_refused(bundle: tuple[str, str]) -> None:
    said = (
        programs.ask(
            "replay", run(*bundle, Load(seed, operations=10, faults=0.2, limit=30), "ack_early")[0]
        ).first()
        for seed in range(10)
    )
    assert any(answer.startswith("no 70 ") for answer in said)
