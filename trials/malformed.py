#!/usr/bin/env python3
"""Gives malformed inputs to what people give files to: trials/malformed.py [SEED] [COUNT].

It needs the built program.

Texts for `ringplan-import`, boards of `ringplan-run`, and hooks that cannot be run, end by any
status or print any bytes. Each is a right one with bytes cut, doubled, changed or put in. Owed: no
traceback; a refusal is status 2 and one line; what `ringplan-import` prints is a ring that
`ringplan` reads. 10,000 inputs take about two minutes.
"""
import contextlib
import io
import os
import pathlib
import random
import subprocess
import sys
import tempfile
import traceback
from collections import Counter
from collections.abc import Callable

TOP = pathlib.Path(__file__).resolve().parent.parent
sys.path.insert(0, str(TOP / "python"))
from ringplan import importing, programs
from ringplan.run import __main__ as running
from ringplan.run.board import Name
from ringplan.run.hooks import Hooks, Outcome
from ringplan.run.supervisor import now

ENDPOINTS = ", ".join(
    f"EndpointDetails(host:10.0.0.{k}, datacenter:dc1, rack:r{k})" for k in (1, 2, 3)
)
SOURCES = {
    "describering": "".join(
        f"\tTokenRange(start_token:{token - 5}, end_token:{token}, endpoints:[10.0.0.1, 10.0.0.2,"
        f" 10.0.0.3], endpoint_details:[{ENDPOINTS}])\n"
        for token in (-5, 0, 5)
    ),
    "ring": "Datacenter: dc1\n==========\n"
    + "".join(f"10.0.0.{k}  r{k}  Up  Normal  1.5 KiB  50.0%  {10 * k}\n" for k in (1, 2, 3, 4)),
    "tablets": "".join(
        f'{{"table_id": "t", "last_token": "{token}", "replicas": [["a", 0], ["b", 1], ["c",'
        " 2]]}\n"
        for token in (-3, 4, 9)
    ),
    "riak": "".join(
        f'{{"index": {index}, "node": "riak@10.0.0.{index % 5}"}}\n' for index in range(8)
    ),
    "csv": "partition,node,rack\n"
    + "".join(f"{p},n{k},r{k}\n" for p in range(4) for k in range(3)),
}
PIECES = [
    b"\xff",
    b"\0",
    b"9" * 5000,
    b"1e400",
    b"-",
    b"\n",
    b" ",
    b'"',
    b",",
    b"[{",
    b"]}",
    b"null",
    b"[" * 3000,
    b"a" * 200000,
    b"NaN",
    b"\r",
    b"\xc3\xa9",
    b":",
    b"datacenter:",
    b"(",
    b"Up ",
]


def malformed(draw: random.Random, data: bytes) -> bytes:
    for _ in range(draw.choice([1, 1, 2, 4])):
        at, length = draw.randrange(len(data) + 1), draw.choice([0, 1, 1, 4, 30, 300])
        part = data[at : at + length]
        put = draw.choice(
            [b"", draw.choice(PIECES), part + part, draw.randbytes(length), part[::-1]]
        )
        data = data[:at] + put + data[at + length :]
    return data if draw.random() < 0.9 else data[: draw.randrange(len(data) + 1)]


def called(main: Callable[[], object], words: list[str]) -> tuple[object, str, str]:
    """How a command of this process ends, and what it prints."""
    out, err, sys.argv = io.StringIO(), io.StringIO(), words
    with contextlib.redirect_stdout(out), contextlib.redirect_stderr(err):
        try:
            status: object = main()
        except SystemExit as end:
            status = end.code
        except BaseException:
            status, _ = "a traceback", err.write(traceback.format_exc())
    return status, out.getvalue(), err.getvalue()


def imported(draw: random.Random, folder: pathlib.Path, counts: Counter[str]) -> str:
    source = draw.choice([*SOURCES])
    path, layout = folder / "source", folder / "layout"
    path.write_bytes(malformed(draw, SOURCES[source].encode()))
    words = [
        "ringplan-import",
        source,
        str(path),
        "--read",
        "2",
        "--write",
        "2",
        "--layout",
        str(layout),
    ]
    status, out, err = called(
        importing.main,
        words + draw.choice([[], ["--slots", "2"], ["--datacenter", "dc1"], ["--join", "x"]]),
    )
    counts[f"imports with status {status}"] += 1
    lines = [
        line
        for line in err.splitlines()
        if " are filled up to " not in line and " names are cut" not in line
    ]
    if status == 0 and not lines:
        # The layout says only what `ringplan` reads, of this ring.
        answer = programs.ask("show", out, f"--layout={layout}")
        return "" if answer.status == 0 else f"{source}: the layout is refused: {answer.errors}"
    return (
        ""
        if status == 2 and len(lines) == 1 and not out
        else f"{source} ends with {status}: {err[-1500:]}"
    )


def boarded(draw: random.Random, folder: pathlib.Path, counts: Counter[str], board: bytes) -> str:
    path = folder / "board"
    for ending in ("-wal", "-shm"):
        pathlib.Path(f"{path}{ending}").unlink(missing_ok=True)
    # With its head SQLite reads on.
    path.write_bytes(
        draw.choice([malformed(draw, board), board[:100] + malformed(draw, board[100:])])
    )
    words = draw.choice(
        [
            ["status"],
            ["status", "--format", "json"],
            ["history"],
            ["bundle"],
            ["judge"],
            ["retry", "3"],
            ["limit", "2"],
            ["around", "--rest"],
        ]
    )
    status, out, err = called(running.main, ["ringplan-run", *words, "--board", str(path)])
    counts[f"boards with status {status}"] += 1
    # What the judge and `around` refuse is told in more lines.
    is_short = len(err.splitlines()) <= 1 or words[0] in ("around", "judge")
    return (
        ""
        if status in (0, 1, 2, 6, 7) and is_short and "Traceback" not in err
        else f"{words} ends with {status}: {err[-1500:]}"
    )


def hooked(draw: random.Random, folder: pathlib.Path, counts: Counter[str]) -> str:
    path, code = folder / "hooks/join", draw.randrange(256)
    path.unlink(missing_ok=True)
    data = draw.choice(
        [
            b"",
            draw.randbytes(100),
            b"#!/nowhere\n",
            b"#!\n",
            b"\x7fELF" + draw.randbytes(60),
            b"#!/bin/sh\nhead -c %d /dev/urandom\nexit %d\n" % (draw.randrange(9000), code),
        ]
    )
    path.write_bytes(data)
    path.chmod(draw.choice([0o755, 0o755, 0o644]))
    hooks = Hooks(str(path.parent), str(folder / "locks"))
    one = hooks.hold(Name("join", -1, -1, "d", 0))
    if one is None:
        return "a lock is not free"
    result = hooks.run("join", "0 join d", {"step": 0}, one, lambda: now() + 60, lambda _: None)
    hooks.free(one)
    hooks.close()
    counts[f"hooks that are {result.outcome.value}"] += 1
    is_right = (
        result.outcome is not Outcome.DONE
        or data == b""
        or code == 0
        and data.startswith(b"#!/bin/sh")
    )
    return "" if is_right else f"the hook {data!r} is {result}"


def board_of(folder: pathlib.Path) -> bytes:
    """The board of a plan that is done, by hooks that do nothing."""
    hooks, board = folder / "hooks", folder / "board"
    hooks.mkdir()
    for kind in ("join", "mirror", "copy", "switch", "drop", "retire"):
        (hooks / kind).symlink_to("/bin/true")
    bundle = TOP / "examples/planned_replace.bundle"
    subprocess.run(
        [
            *(sys.executable, "-m", "ringplan.run", "apply"),
            *(bundle, "--do", hooks, "--new", "--board", board),
        ],
        check=True,
        capture_output=True,
        env={**os.environ, "PYTHONPATH": str(TOP / "python")},
    )
    return board.read_bytes()


def main() -> int:
    seed, count = (int(word) for word in (sys.argv[1:] + ["1", "10000"][len(sys.argv) - 1 :])[:2])
    draw, counts, faults = random.Random(seed), Counter[str](), 0
    with tempfile.TemporaryDirectory() as name:
        folder = pathlib.Path(name)
        board = board_of(folder)
        with open(os.devnull, "w") as null:
            os.dup2(null.fileno(), 2)  # What hooks print.
        for number in range(count):
            part = draw.random()
            fault = (
                imported(draw, folder, counts)
                if part < 0.7
                else boarded(draw, folder, counts, board)
                if part < 0.97
                else hooked(draw, folder, counts)
            )
            if fault:
                faults += 1
                print(f"input {number}: {fault}", flush=True)
    print(", ".join(f"{many} {what}" for what, many in sorted(counts.items())))
    print(f"{count} inputs, {faults} faults")
    return int(bool(faults))


if __name__ == "__main__":
    sys.exit(main())
