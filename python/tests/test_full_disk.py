"""A full disk, and an etcd without room: the runner says so and loses nothing, and goes on once
there is room. A small file system takes root.
"""

from __future__ import annotations

import os
import pathlib
import subprocess
from collections.abc import Iterator

import pytest
from bench import LONG, Bench, Server

from ringplan import programs
from ringplan.run import gateway
from ringplan.run.board import Status


@pytest.fixture
def disk(tmp_path: pathlib.Path) -> Iterator[pathlib.Path]:
    """A file system of 1 MiB."""
    if os.geteuid() != 0:
        pytest.skip("a file system takes root")
    try:
        programs.find()
    except programs.NoProgram as error:
        pytest.skip(str(error))
    place = tmp_path / "disk"
    place.mkdir()
    subprocess.run(["mount", "-t", "tmpfs", "-o", "size=1m", "tmpfs", place], check=True)
    yield place
    subprocess.run(["umount", place], check=True)


def fill(disk: pathlib.Path, left: int = 0) -> None:
    """Leaves so many bytes of the disk."""
    with open(disk / "other", "wb", buffering=0) as file:
        room = os.statvfs(disk)
        os.posix_fallocate(file.fileno(), 0, room.f_bavail * room.f_bsize - left)


def test_a_disk_that_is_full_from_the_start(disk: pathlib.Path, tmp_path: pathlib.Path) -> None:
    bench = Bench(tmp_path, str(disk / "board"))
    fill(disk)
    code, _, err = bench.run("apply")
    assert (
        code == Status.FAULT
        and err.startswith("ringplan-run: ")
        and "full" in err
        and len(err.splitlines()) == 1
    ), err
    assert bench.log() == []
    (disk / "other").unlink()
    assert bench.run("apply")[0] == Status.DONE


@pytest.mark.parametrize("left", [4096, 16384, 65536])
def test_a_disk_that_becomes_full(disk: pathlib.Path, tmp_path: pathlib.Path, left: int) -> None:
    bench = Bench(tmp_path, str(disk / "board"))
    bench.hold(0)
    process = bench.start("apply", "--workers", "2")
    bench.wait_for("begin", 0)
    fill(disk, left)
    bench.let_go(0)
    _, err = process.communicate(timeout=LONG)
    assert (
        process.returncode == Status.FAULT
        and err.startswith("ringplan-run: ")
        and len(err.splitlines()) == 1
    ), err
    assert "full" in err or "No space left" in err
    # What hooks have done, but for those of the two workers that could not note it, is known.
    (disk / "other").unlink()
    known = int(bench.run("status")[1].split()[0])
    assert len(set(bench.steps("end"))) - 2 <= known <= len(set(bench.steps("end")))
    assert bench.run("judge")[1].startswith("yes\n")
    assert bench.run("apply")[0] == Status.DONE
    assert set(bench.steps("end")) == set(range(18)) and bench.steps("twice") == []
    assert bench.run("judge")[1].startswith("yes\n")
    again = {line["step"] for word, line in bench.log() if word == "begin" and line.get("again")}
    assert len(bench.steps("begin")) <= 18 + len(again)


def test_an_etcd_without_room(tmp_path: pathlib.Path) -> None:
    try:
        programs.find()
    except programs.NoProgram as error:
        pytest.skip(str(error))
    server = Server(tmp_path, "--quota-backend-bytes", "36000")
    try:
        bench = Bench(tmp_path, server.address("plan"))
        code, _, err = bench.run("apply")
        assert (code, err) == (
            Status.FAULT,
            "ringplan-run: etcd refuses a request: etcdserver: mvcc: database space exceeded\n",
        )
        assert 0 < len(bench.steps("end")) < 18
        assert bench.run("judge")[1].startswith("yes\n")
        server.kill()
        server.words[0][-1] = "100000000"
        server.start()
        client = gateway.Etcd(gateway.Access((f"127.0.0.1:{server.ports[0]}",)))
        (alarm,) = client.ask("/v3/maintenance/alarm", {"action": "GET"})["alarms"]
        client.ask("/v3/maintenance/alarm", {"action": "DEACTIVATE", **alarm})
        assert bench.run("apply")[0] == Status.DONE
        assert set(bench.steps("end")) == set(range(18)) and bench.steps("twice") == []
        assert bench.run("judge")[1].startswith("yes\n")
    finally:
        server.kill()
