#!/usr/bin/env python3
"""Measures the reference store and the runner: trials/rates.py [--servers KIND] [--space COUNT].

It needs the built program, and for the last figure `etcd`.

It prints the events a second of a store over five servers, with five clients and no faults; and
what the runner adds to a step, with a board in a file and with one in etcd: the time of `apply`
with one worker and hooks that do nothing, without its start, less the time of these hooks alone;
and what the disk takes of that.
"""
import argparse
import contextlib
import json
import os
import pathlib
import socket
import subprocess
import sys
import tempfile
import time
from collections.abc import Iterator

TOP = pathlib.Path(__file__).resolve().parent.parent
sys.path.insert(0, str(TOP / "python"))
from ringplan import programs, texts
from ringplan.run import gateway
from ringplan.run.board import Board, names_of
from ringplan.run.etcd import EtcdBoard
from ringplan.run.hooks import Hooks
from ringplan.run.runner import Options, Runner
from ringplan.run.sqlite import SqliteBoard
from ringplan.store.nodes import KINDS

ENVIRONMENT = {**os.environ, "PYTHONPATH": str(TOP / "python")}


def bundle_of(members: int, joiners: int, space: int) -> str:
    """A plan by which nodes join."""
    names = [f"n{number}" for number in range(members + joiners)]
    rows = [[names[(p + i) % members] for i in range(3)] for p in range(space)]
    ring = texts.Ring.of(names, set(names[:members]), rows, (3, 2, 2), 2)
    change = texts.Change(tuple(names[members:]), ())
    return programs.ask("goal", texts.write_texts([ring, change])).text


def see_store(folder: pathlib.Path, servers: str) -> None:
    bundle, files = bundle_of(4, 1, 16), [folder / name for name in ("bundle", "steps", "out")]
    for path, text in zip(files, (bundle, programs.ask("steps", bundle).text)):
        path.write_text(text)
    options = [
        "--faults",
        "0",
        "--deaths",
        "0",
        "--operations",
        "2000",
        "--pace",
        "0.2",
        "--servers",
        servers,
    ]
    ran = subprocess.run(
        [sys.executable, "-m", "ringplan.store", *map(str, files), *options],
        stdout=subprocess.PIPE,
        check=True,
        env=ENVIRONMENT,
    )
    counts = json.loads(ran.stdout)
    judged = programs.ask("replay", files[2].read_text()).first()
    print(
        (
            f"store over five servers of {servers}:"
            f" {counts['entries'] / counts['seconds']:,.0f} events a second ({counts['entries']} in"
            f" {counts['seconds']} s; the judge says {judged})"
        ),
        flush=True,
    )


@contextlib.contextmanager
def etcd_of(folder: pathlib.Path) -> Iterator[str]:
    """The address of a board in an etcd that ends with the block."""
    with socket.socket() as one, socket.socket() as two:
        one.bind(("127.0.0.1", 0))
        two.bind(("127.0.0.1", 0))
        port, peer = one.getsockname()[1], f"http://127.0.0.1:{two.getsockname()[1]}"
    client = f"http://127.0.0.1:{port}"
    words = [
        "etcd",
        "--data-dir",
        str(folder / "data"),
        "--listen-client-urls",
        client,
        "--advertise-client-urls",
        client,
        "--listen-peer-urls",
        peer,
    ]
    with subprocess.Popen(
        [*words, "--initial-advertise-peer-urls", peer, "--initial-cluster", f"default={peer}"],
        stdout=subprocess.DEVNULL,
        stderr=subprocess.DEVNULL,
    ) as process:
        try:
            ready = gateway.Etcd(gateway.Access((f"127.0.0.1:{port}",)))
            ready.patience = 30.0
            ready.read_each("ready")
            yield f"etcd://127.0.0.1:{port}/plan"
        finally:
            process.kill()


def hook_time(hook: pathlib.Path, count: int) -> float:
    """Seconds of one hook."""
    begun = time.perf_counter()
    for _ in range(count):
        subprocess.run([hook], stdin=subprocess.DEVNULL, stdout=2, start_new_session=True)
    return (time.perf_counter() - begun) / count


def sync_time(folder: pathlib.Path, count: int = 200) -> float:
    """Seconds in which a file that grows reaches the disk."""
    with open(folder / "synced", "wb", buffering=0) as file:
        begun = time.perf_counter()
        for _ in range(count):
            file.write(bytes(4096))
            os.fsync(file.fileno())
        return (time.perf_counter() - begun) / count


def see_runner(
    folder: pathlib.Path, kind: str, board: Board, bundle: str, hook: pathlib.Path
) -> None:
    steps = texts.read_steps(programs.ask("steps", bundle).text)
    board.begin(bundle, names_of(steps))
    runner = Runner(board, Hooks(str(hook.parent), str(folder / f"{kind}.hooks")), Options())
    with open(os.devnull, "w") as nowhere, contextlib.redirect_stdout(nowhere):
        begun = time.perf_counter()
        runner.run()
        took = (time.perf_counter() - begun) / len(steps)
    board.end()
    alone = hook_time(hook, len(steps))
    print(
        (
            f"runner with a board in {kind}: {1000 * (took - alone):.2f} ms added to a step"
            f" ({len(steps)} steps, {1000 * took:.2f} ms each, of which {1000 * alone:.2f} ms are"
            " the hook's)"
        ),
        flush=True,
    )


def main() -> None:
    parser = argparse.ArgumentParser(prog="trials/rates.py")
    parser.add_argument(
        "--servers",
        choices=KINDS,
        action="append",
        help="the servers of the store (default: each kind)",
    )
    parser.add_argument(
        "--space",
        type=int,
        default=256,
        help="the partitions of the runner's plan (default: %(default)s)",
    )
    words = parser.parse_args()
    with tempfile.TemporaryDirectory() as name:
        folder = pathlib.Path(name)
        for servers in words.servers or KINDS:
            see_store(folder, servers)
        bundle, hook = bundle_of(6, 2, words.space), folder / "hooks/join"
        hook.parent.mkdir()
        hook.write_text("#!/bin/sh\n")
        hook.chmod(0o755)
        for kind in ("mirror", "copy", "switch", "drop", "retire"):
            (hook.parent / kind).symlink_to("join")
        see_runner(folder, "a file", SqliteBoard(str(folder / "board"), is_new=True), bundle, hook)
        # Beside a board in etcd the runner's folder has the locks of hooks.
        os.chdir(folder)
        with etcd_of(folder) as address:
            see_runner(folder, "etcd", EtcdBoard(address, is_new=True), bundle, hook)
        print(
            f"a write that waits for the disk: {1000 * sync_time(folder):.2f} ms; a step waits for"
            " one with a board in a file"
        )


if __name__ == "__main__":
    main()
