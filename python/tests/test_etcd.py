"""An etcd as people run it: three members over TLS with certificates on both sides, a user with a
password, and members that die.
"""

from __future__ import annotations

import pathlib
import time
from collections.abc import Iterator

import pytest
from bench import LONG, Bench, Server

from ringplan import programs
from ringplan.run import gateway
from ringplan.run.board import Status

PASSWORD = 'a word with spaces, and "quotes"'


@pytest.fixture(scope="module")
def cluster(tmp_path_factory: pytest.TempPathFactory) -> Iterator[Server]:
    """Three members, and a user `runner` who may use the keys of one board only."""
    try:
        programs.find()
    except programs.NoProgram as error:
        pytest.skip(str(error))
    it = Server(tmp_path_factory.mktemp("etcd"), "--bcrypt-cost", "4", members=3, is_tls=True)
    client = gateway.Etcd(it.access)
    bodies: list[tuple[str, gateway.Json]] = [
        ("user/add", {"name": "root", "password": "root"}),
        ("role/add", {"name": "root"}),
        ("user/grant", {"user": "root", "role": "root"}),
        ("user/add", {"name": "runner", "password": PASSWORD}),
        ("role/add", {"name": "runner"}),
        (
            "role/grant",
            {
                "name": "runner",
                "perm": {
                    "permType": "READWRITE",
                    "key": gateway.coded("plan/"),
                    "range_end": gateway.coded("plan0"),
                },
            },
        ),
        ("user/grant", {"user": "runner", "role": "runner"}),
        ("enable", {}),
    ]
    for path, body in bodies:
        client.ask(f"/v3/auth/{path}", body, LONG)
    yield it
    it.kill()


@pytest.fixture
def bench(cluster: Server, tmp_path: pathlib.Path) -> Bench:
    it = Bench(tmp_path, cluster.address("plan"))
    (tmp_path / "password").write_text(f"{PASSWORD}\n")
    files = [
        word
        for name in ("ca", "cert", "key")
        for word in (f"--{name}", str(cluster.folder / f"{name}.pem"))
    ]
    it.options = [*files, "--user", "runner", "--password-file", str(tmp_path / "password")]
    return it


def test_a_plan_ends_while_members_die(cluster: Server, bench: Bench) -> None:
    bench.hooks(0.3)
    bench.lease = "30"
    both = [bench.start("apply", "--workers", "2", machine=machine) for machine in ("one", "two")]
    for number, step in enumerate((1, 6, 11)):
        bench.wait_for("begin", step)
        cluster.kill(number)
        time.sleep(2.0)
        cluster.start(is_awaited=False)
        time.sleep(2.0)
    outs = [process.communicate(timeout=LONG) for process in both]
    assert [process.returncode for process in both] == [Status.DONE, Status.DONE], outs
    assert bench.steps("twice") == [] and set(bench.steps("end")) == set(range(18))
    assert bench.run("judge")[0] == 0 and bench.run("status")[1].startswith("18 of 18")
    assert bench.run("forget")[0] == Status.DONE
    assert bench.run("status")[::2] == (
        Status.FAULT,
        f"ringplan-run: there is no board {bench.board}\n",
    )


def test_without_the_right_words_it_is_refused_in_one_line(
    bench: Bench, tmp_path: pathlib.Path
) -> None:
    (tmp_path / "wrong").write_text("wrong")
    (tmp_path / "binary").write_bytes(b"\xff\xfe")
    known = bench.options
    for options, what in (
        ([*known[:-1], str(tmp_path / "wrong")], "authentication failed"),
        (known[:6], "user name is empty"),
        (known[2:], "certificate"),
        ([*known[:2], *known[6:]], ""),
        (["--ca", str(tmp_path / "none"), *known[2:]], "No such file"),
        (["--ca", str(tmp_path / "wrong"), *known[2:]], ""),
        ([*known[:-1], str(tmp_path / "binary")], "decode"),
    ):
        bench.options = options
        for words in (["status"], ["apply"]):
            code, out, err = bench.run(*words)
            assert (
                (code, out, len(err.splitlines())) == (Status.FAULT, "", 1)
                and err.startswith("ringplan-run: ")
                and what in err
            ), err
    bench.options, bench.board = known, bench.board.replace("/plan", "/other")
    code, _, err = bench.run("status")
    assert (code, err) == (
        Status.FAULT,
        "ringplan-run: etcd refuses a request: etcdserver: permission denied\n",
    )
