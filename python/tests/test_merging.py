"""Logs merged to one history: histories that are split over logs and come back, names, faults with
their words, and where the history is written.
"""

from __future__ import annotations

import itertools
import os
import pathlib
import random
import stat
import subprocess
import sys
import threading
import time
from collections.abc import Callable

import pytest

from ringplan import merging, programs, texts
from ringplan.merging import LONGEST, BadLine, Counter, Growing, Names, Status, Stop, merge
from ringplan.store.__main__ import run
from ringplan.store.coordinator import Store
from ringplan.store.executor import Executor
from ringplan.store.history import Logs
from ringplan.store.nodes import choose
from ringplan.store.traffic import Load, Run
from ringplan.watching import Watch

TOP = pathlib.Path(__file__).parents[2]
# How a put or a get of some number is called.
Naming = Callable[[str, int], str]


def by_counters(kind: str, number: int) -> str:
    """Five coordinators, each with one counter for puts and gets that counts up a little out of
    order.
    """
    return f"c{number % 5}.{(number // 5 ^ 3) * 2 + (kind == 'get')}"


def padded(kind: str, number: int) -> str:
    return f"{number:06}"


def descending(kind: str, number: int) -> str:
    return f"{kind}{10**30 - number}"


def odd(kind: str, number: int) -> str:
    return (
        ("=", "seen", "put", "0", "00", '\u00e9/"', "x" * 255)[number]
        if number < 7
        else f"{random.Random(number).getrandbits(80):x}"
    )


NAMINGS = [by_counters, padded, descending, odd]


def numbers(draw: random.Random, count: int) -> str:
    return "".join(
        f" {number}" for number in sorted(draw.sample(range(count), min(count, draw.randrange(4))))
    )


def random_history(draw: random.Random) -> list[str]:
    """Entries of each kind, as a history has them, with numbers of puts and gets that are there."""
    entries, puts, gets = list[str](), 0, 0
    for _ in range(draw.randrange(400)):
        kind = draw.choice(list(texts.EVENTS))
        others = {
            "chunk": "chunk 5 15",
            "down": "down n1",
            "up": "up n1",
            "lose": "lose n1",
            "handoff": "handoff n2 3 1",
        }
        event = others.get(kind, f"{kind} {draw.randrange(20)}")
        reply = draw.choice(
            ["ok", "ticket 3 1 10", "found" + numbers(draw, puts), "reply" + numbers(draw, puts)]
        )
        if kind == "put":
            known = numbers(draw, gets)
            event, reply, puts = (
                f"put w.1 k:{draw.randrange(9)} x0a" + (" seen" + known if known else ""),
                f"put {puts}",
                puts + 1,
            )
        elif kind == "get":
            event, reply, gets = "get k:1", f"get {gets}", gets + 1
        elif kind in ("write", "hint", "ack", "read", "endget"):
            count = gets if kind in ("read", "endget") else puts
            if not count:
                continue
            event = f"{kind} {draw.randrange(count)}" + {
                "write": " 2",
                "hint": " 0 n4",
                "read": " 1",
            }.get(kind, "")
        entries.append(f"{event} = {reply}")
    return entries


def named(entry: str, naming: Naming) -> str:
    """An entry with names in the place of numbers."""
    event, reply = (half.split(" ") for half in entry.split(" = "))
    kind = {"write": "put", "hint": "put", "ack": "put", "read": "get", "endget": "get"}.get(
        event[0]
    )
    if kind:
        event[1] = naming(kind, int(event[1]))
    if event[0] == "put":
        event[5:] = [naming("get", int(number)) for number in event[5:]]
    if reply[0] in ("put", "get", "found", "reply"):
        reply[1:] = [
            naming("get" if reply[0] == "get" else "put", int(number)) for number in reply[1:]
        ]
    return " ".join(event) + " = " + " ".join(reply)


def split(
    entries: list[str], count: int, naming: Naming, draw: random.Random, folder: pathlib.Path
) -> list[str]:
    """The logs over which entries are split at random, some with equal places.

    Names after `found`, `reply` and `seen` are in any order.
    """
    logs, place, last = [list[str]() for _ in range(count)], draw.randrange(3), 0
    for entry in entries:
        log = draw.randrange(count)
        # Of equal places those of an earlier log come first.
        if log < last or draw.random() < 0.5:
            place += draw.choice([1, 1, 10**20])
        event, reply = (
            named(entry, naming).split(" = ", 1)
            if naming is not odd
            else named(entry, naming).rsplit(" = ", 1)
        )
        first, *rest = reply.split(" ")
        if first in ("found", "reply"):
            draw.shuffle(rest)
        logs[log].append(f"{place} {event} = {' '.join([first, *rest])}\n")
        last = log
    paths = [str(folder / f"log{number}") for number in range(count)]
    for path, lines in zip(paths, logs):
        pathlib.Path(path).write_text("".join(lines))
    return paths


def text_of(entries: list[str]) -> str:
    return "".join(f"{line}\n" for line in ["history 1", *entries, "end"])


@pytest.mark.parametrize("naming", NAMINGS)
def test_a_history_split_over_logs_comes_back(naming: Naming, tmp_path: pathlib.Path) -> None:
    for seed in range(60):
        draw = random.Random(seed)
        entries = random_history(draw)
        paths = split(entries, draw.randrange(1, 9), naming, draw, tmp_path)
        assert b"".join(merge(paths)).decode() == text_of(entries)


def test_an_example_comes_back(tmp_path: pathlib.Path) -> None:
    text = (TOP / "examples/replay_a_move.bundle").read_text()
    entries = text[text.index("history 1\n") :].splitlines()[1:-1]
    assert b"".join(
        merge(split(entries, 3, by_counters, random.Random(1), tmp_path))
    ).decode() == text_of(entries)


def test_the_history_of_a_store_comes_back_and_is_judged_yes(tmp_path: pathlib.Path) -> None:
    bundle = (TOP / "examples/planned_grow.bundle").read_text()
    try:
        steps = programs.ask("steps", bundle).text
    except programs.NoProgram as error:
        pytest.skip(str(error))
    text, _ = run(bundle, steps, Load(operations=60, faults=0.2, outage=0.1, limit=600))
    entries = text[text.index("history 1\n") :].splitlines()[1:-1]
    for number, naming in enumerate(NAMINGS):
        merged = b"".join(
            merge(split(entries, 2 + number, naming, random.Random(number), tmp_path))
        ).decode()
        assert bundle + merged == text
        assert programs.ask("replay", bundle + merged).first() == "yes"


def test_writers_are_numbered_by_key(tmp_path: pathlib.Path) -> None:
    log = tmp_path / "log"
    puts = [f"{key} {writer}" for key in range(3) for writer in range(1500)] * 2
    random.Random(1).shuffle(puts)
    log.write_text(
        "".join(
            f"{place} put c{put.split()[1]} k{put.split()[0]} x = put p{place}\n"
            for place, put in enumerate(puts)
        )
    )
    entries, seen = list(merge([str(log)], numbers_writers=True))[1:-1], dict[str, dict[str, str]]()
    for put, entry in zip(puts, entries):
        _, writer, named, *_ = entry.decode().split()
        key, own = put.split()
        assert named == f"k{key}" and seen.setdefault(key, {}).setdefault(own, writer) == writer
    assert all(
        list(names.values()) == [f"w{number}" for number in range(1500)] for names in seen.values()
    )


def grow(path: str, text: bytes, draw: random.Random) -> None:
    """Writes a log in random pieces, some of them with a pause after them."""
    with open(path, "ab", buffering=0) as file:
        while text:
            size = draw.choice((1, 7, 50, 400))
            file.write(text[:size])
            text = text[size:]
            time.sleep(draw.choice((0, 0, 0, 0.002)))


@pytest.mark.parametrize("naming", NAMINGS)
def test_logs_that_grow_are_merged_as_whole_ones(
    naming: Naming, tmp_path: pathlib.Path, monkeypatch: pytest.MonkeyPatch
) -> None:
    """With marks between the lines, and without any."""
    monkeypatch.setattr(merging, "PAUSE", 0.001)
    for seed in range(8):
        draw = random.Random(seed)
        entries = random_history(draw)
        paths = split(entries, draw.randrange(1, 9), naming, draw, tmp_path)
        texts = [pathlib.Path(path).read_bytes() for path in paths]
        for number, path in enumerate(paths):
            lines = [line + b"\n" for line in texts[number].split(b"\n")[:-1]]
            marked = [
                line + line.split(b" ")[0] + b"\n" if seed % 2 and draw.random() < 0.3 else line
                for line in lines
            ]
            texts[number] = b"".join(marked) + b"end\n"
            pathlib.Path(path).write_bytes(b"")
        threads = [
            threading.Thread(target=grow, args=[path, text, random.Random(seed)])
            for path, text in zip(paths, texts)
        ]
        for thread in threads:
            thread.start()
        assert b"".join(merge(paths, Growing())).decode() == text_of(entries)
        for thread in threads:
            thread.join()
        # As a whole a log with marks and its `end` is a log too.
        assert b"".join(merge(paths)).decode() == text_of(entries)


def follow(*logs: str, into: pathlib.Path) -> subprocess.Popen[bytes]:
    words = [sys.executable, "-m", "ringplan.merging", "--follow", *logs]
    return subprocess.Popen(
        words,
        stdout=subprocess.PIPE,
        stderr=subprocess.PIPE,
        cwd=into,
        env={**os.environ, "PYTHONPATH": str(TOP / "python")},
    )


def add(path: pathlib.Path, text: str) -> None:
    with open(path, "a", encoding="ascii") as file:
        file.write(text)


def test_an_entry_goes_out_once_no_log_can_have_one_before_it(tmp_path: pathlib.Path) -> None:
    first, second = tmp_path / "a", tmp_path / "b"
    for path in (first, second):
        path.touch()
    process = follow("a", "b", into=tmp_path)
    assert process.stdout is not None and process.stderr is not None
    assert process.stdout.readline() == b"history 1\n"
    os.set_blocking(process.stdout.fileno(), False)

    def come(wanted: bytes, least: float = 0.0) -> None:
        """What comes, and in how many seconds nothing more does."""
        assert process.stdout is not None
        found, until, quiet = b"", time.monotonic() + 60, time.monotonic() + least
        while found != wanted or time.monotonic() < quiet:
            assert time.monotonic() < until, found
            found += process.stdout.read() or b""
            time.sleep(0.005)

    add(first, "1 put w k x = put p\n4 ack p = ok\n")
    come(b"", 0.3)
    # The second log's line may be at the same place: it comes later.
    add(second, "1\n")
    come(b"put w k x = put 0\n", 0.3)
    add(second, "2 write p 0 = ticket 2 0 0\n4 wri")
    come(b"write 0 0 = ticket 2 0 0\n", 0.3)
    # Half a line is kept back, until its end is there.
    add(second, "te p 1 = ticket 2 1 0\n")
    come(b"ack 0 = ok\n", 0.3)
    assert process.stderr.readline() == b"ringplan-merge: waits for a\n"
    add(first, "9\n")
    come(b"write 0 1 = ticket 2 1 0\n")
    add(first, "end\nno line\n")
    add(second, "10 do 0 = ok\nend\n")
    come(b"do 0 = ok\nend\n")
    assert (process.wait(timeout=60), process.stderr.read()) in (
        (0, b""),
        (0, b"ringplan-merge: waits for b\n"),
    )


def test_pipes_are_followed(tmp_path: pathlib.Path) -> None:
    os.mkfifo(tmp_path / "pipe")
    process = follow("pipe", into=tmp_path)
    # A process writes half a line and ends. The next one goes on.
    for text in ("1 do 0 = ok\n2 do", " 1 = ok\nend\n"):
        with open(tmp_path / "pipe", "w", encoding="ascii") as pipe:
            pipe.write(text)
        time.sleep(0.2)
    assert process.communicate(timeout=60) == (b"history 1\ndo 0 = ok\ndo 1 = ok\nend\n", b"")
    assert command("--follow", "-", given=b"1 do 0 = ok\nend\n") == (
        b"history 1\ndo 0 = ok\nend\n",
        "",
        0,
    )


def test_a_fault_in_a_log_that_grows(tmp_path: pathlib.Path) -> None:
    (tmp_path / "log").write_text("1 do 0 = ok\n0\n")
    assert command("--follow", tmp_path / "log") == (
        b"history 1\ndo 0 = ok\n",
        f"ringplan-merge: {tmp_path}/log:2: place 0 comes after place 1\n",
        2,
    )
    assert command("--follow", tmp_path) == (
        b"history 1\n",
        f"ringplan-merge: {tmp_path}: Is a directory\n",
        3,
    )
    (tmp_path / "log").write_text("1 do 0 = found" + " x" * LONGEST)
    assert command("--follow", tmp_path / "log")[1:] == (
        f"ringplan-merge: {tmp_path}/log:1: a line of more than {LONGEST} bytes\n",
        2,
    )


def test_the_logs_of_a_store_are_judged_while_it_runs(tmp_path: pathlib.Path) -> None:
    """Over four servers of SQLite that are killed, with marks ten times a second."""
    bundle = (TOP / "examples/planned_grow.bundle").read_text()
    try:
        steps, watch = texts.read_steps(programs.ask("steps", bundle).text), Watch(bundle)
    except programs.NoProgram as error:
        pytest.skip(str(error))
    paths = [str(tmp_path / f"log{number}") for number in range(3)]
    node = choose("sqlite")
    store = Store(texts.read_plan(bundle)[0], lambda name: node(str(tmp_path), name))
    store.history = logs = Logs(paths, pause=0.1)
    one = Run(
        store,
        Executor(store, steps),
        Load(clients=3, operations=60, faults=0.3, outage=0.2, limit=600),
    )

    def follow_logs() -> None:
        for line in itertools.islice(merge(paths, Growing()), 1, None):
            if line != b"end\n":
                watch.give([line.decode().rstrip("\n")])

    merging = threading.Thread(target=follow_logs)
    merging.start()
    try:
        one.run()
        count, before = len(store.history.entries()), watch.count
        logs.end()
        merging.join()
    finally:
        for member in store.members:
            member.node.kill()
    assert watch.end().first() == "yes" and watch.count == count
    # The judge reads while the store runs.
    assert before > count / 2


def test_equal_places_come_in_the_order_of_the_logs(tmp_path: pathlib.Path) -> None:
    first, second = tmp_path / "first", tmp_path / "second"
    first.write_text("1 put w k x = put a\n2 write a 0 = ticket 0 0 0\n")
    second.write_text("1 put v l x = put a.1\n2 write a.1 0 = ticket 1 0 0\n")
    in_order = [
        "put w k x = put 0",
        "put v l x = put 1",
        "write 0 0 = ticket 0 0 0",
        "write 1 0 = ticket 1 0 0",
    ]
    assert b"".join(merge([str(first), str(second)])).decode() == text_of(in_order)
    turned = [
        "put v l x = put 0",
        "put w k x = put 1",
        "write 0 0 = ticket 1 0 0",
        "write 1 0 = ticket 0 0 0",
    ]
    assert b"".join(merge([str(second), str(first)])).decode() == text_of(turned)


def test_a_put_and_a_get_may_have_one_name(tmp_path: pathlib.Path) -> None:
    log = tmp_path / "log"
    log.write_text(
        "1 get k = get 7\n2 get k = get 8\n3 endget 8 = reply\n4 put w k x seen 8 = put 8\n5 put w"
        " k x seen 8 7 = put 7\n6 ack 7 = ok\n"
    )
    merged = [
        "get k = get 0",
        "get k = get 1",
        "endget 1 = reply",
        "put w k x seen 1 = put 0",
        "put w k x seen 0 1 = put 1",
        "ack 1 = ok",
    ]
    assert b"".join(merge([str(log)])).decode() == text_of(merged)


PUT = "1 put w k x = put p1\n"
NO_ENTRY = [
    "put w k x = put p1\n",
    "01 put w k x = put p1\n",
    "-1 put w k x = put p1\n",
    "1_0 put w k x = put p1\n",
    "9" * 256 + " do 1 = ok\n",
    "1  put w k x = put p1\n",
    "1 put w k x = put p1",
    "1 put w k x = put p1 \n",
    "1 put w k x = put p1\r\n",
    "1 put w k x seen = put p1\n",
    "1 put w k x = ok\n",
    "1 put w k x = get p1\n",
    "1 put w k 31 = put p1\n",
    "1 put w K x = put p1\n",
    "1 put w k x = put " + "p" * 256 + "\n",
    "1 put w k x = put p\x7f\n",
    "1 get k = put p1\n",
    "1 do 01 = ok\n",
    "1 do x = ok\n",
    "1 do 1 = put p1\n",
    "1 do 1 = ok ok\n",
    "1 do 1 = ticket 0 0\n",
    "1 chunk 1 = ok\n",
    "1 down N = ok\n",
    "1 jump 1 = ok\n",
    "1 do 1\n",
    "1",
    "1 ",
    "01\n",
    "ended\n",
    "\n",
]
FAULTS = [
    *[([line], "0:1: no entry") for line in NO_ENTRY],
    ([PUT + "2 do 3 = ok\n1 do 4 = ok\n"], "0:3: place 1 comes after place 2"),
    ([PUT + "2 ack p2 = ok\n"], "0:2: no put p2 comes before it"),
    ([PUT + "2 ack p01 = ok\n"], "0:2: no put p01 comes before it"),
    ([PUT + "2 endget p1 = reply\n"], "0:2: no get p1 comes before it"),
    ([PUT + "2 do 1 = found p1 p3\n"], "0:2: no put p3 comes before it"),
    ([PUT + "2 put w k x seen p1 = put p2\n"], "0:2: no get p1 comes before it"),
    (["2 put w k x = put p1\n", "1 ack p1 = ok\n"], "1:1: no put p1 comes before it"),
    (["1 ack p1 = ok\n", PUT], "0:1: no put p1 comes before it"),
    ([PUT, "3 put w k x = put p1\n", "2 do 1 = ok\n"], "1:1: a second put p1"),
    (["1 get k = get \xff\n2 get k = get \xff\n"], "0:2: a second get \\xff"),
    (["1 get k = get a\n2 put w k x seen a a = put p\n"], "0:2: a get twice after `seen`"),
    ([PUT + "3\n2 do 1 = ok\n"], "0:3: place 2 comes after place 3"),
    ([PUT + "end\n2 do 1 = ok\n"], "0:3: a line after `end`"),
]


@pytest.mark.parametrize(("logs", "words"), FAULTS)
def test_a_fault_in_a_log(logs: list[str], words: str, tmp_path: pathlib.Path) -> None:
    paths = [tmp_path / str(number) for number in range(len(logs))]
    for path, text in zip(paths, logs):
        path.write_bytes(text.encode("latin-1"))
    with pytest.raises(Stop) as stopped:
        list(merge([str(path) for path in paths]))
    assert (stopped.value.status, str(stopped.value)) == (Status.BAD_LOG, f"{tmp_path}/{words}")


def test_the_longest_line_is_read(tmp_path: pathlib.Path) -> None:
    """A reply that has a put of each of 1,024 writers, with the longest names and the longest
    place.
    """
    log, names = tmp_path / "log", [f"{number:0255}" for number in range(1024)]
    puts = [f"1 put w{number} k x = put {name}\n" for number, name in enumerate(names)]
    longest = f"{'9' * 255} endget {'g' * 255} = reply {' '.join(names)}\n"
    log.write_text("".join([*puts, f"2 get k = get {'g' * 255}\n", longest]))
    assert (
        list(merge([str(log)]))[-2]
        == b"endget 0 = reply " + b" ".join(b"%d" % number for number in range(1024)) + b"\n"
    )
    assert LONGEST - 1024 < len(longest) < LONGEST


@pytest.mark.parametrize(
    ("more", "words"), [(0, "no entry"), (1, f"a line of more than {LONGEST} bytes")]
)
def test_a_line_that_is_too_long(more: int, words: str, tmp_path: pathlib.Path) -> None:
    log = tmp_path / "log"
    log.write_text(PUT + "2 do 1 = found" + " x" * (LONGEST // 2) + "\n")
    whole = log.read_bytes()[: len(PUT) + LONGEST - 1 + more]
    log.write_bytes(whole + b"\n")
    with pytest.raises(Stop) as stopped:
        list(merge([str(log)]))
    assert (stopped.value.status, str(stopped.value)) == (Status.BAD_LOG, f"{log}:2: {words}")


def test_a_line_without_an_end_is_not_kept(tmp_path: pathlib.Path) -> None:
    """An endless line, in 256 MB."""
    bounded = (
        "import resource, runpy, sys; resource.setrlimit(resource.RLIMIT_AS, (2**28, 2**28));"
        " runpy.run_module('ringplan.merging', run_name='__main__')"
    )
    ran = subprocess.run(
        [sys.executable, "-c", bounded, "/dev/zero"],
        capture_output=True,
        cwd=TOP / "python",
        timeout=60,
    )
    assert (ran.stdout, ran.stderr.decode(), ran.returncode) == (
        b"history 1\n",
        f"ringplan-merge: /dev/zero:1: a line of more than {LONGEST} bytes\n",
        2,
    )


def command(*words: object, given: bytes = b"", into: pathlib.Path = TOP) -> tuple[bytes, str, int]:
    environment = {**os.environ, "PYTHONPATH": str(TOP / "python")}
    ran = subprocess.run(
        [sys.executable, "-m", "ringplan.merging", *map(str, words)],
        input=given,
        capture_output=True,
        cwd=into,
        env=environment,
    )
    return ran.stdout, ran.stderr.decode(), ran.returncode


def test_standard_input_is_a_log(tmp_path: pathlib.Path) -> None:
    (tmp_path / "b").write_text("2 write p1 0 = ticket 0 0 0\n")
    whole = b"history 1\nput w k x = put 0\nwrite 0 0 = ticket 0 0 0\nend\n"
    assert command("-", "b", given=PUT.encode(), into=tmp_path) == (whole, "", 0)
    assert command("b", "-", given=PUT.encode(), into=tmp_path) == (whole, "", 0)
    assert command("b", "-", given=PUT.encode() * 2, into=tmp_path) == (
        whole[:28],
        "ringplan-merge: -:2: a second put p1\n",
        2,
    )
    assert command("-", "-")[2] == 2
    assert command()[2] == 2
    assert command(os.devnull) == (b"history 1\nend\n", "", 0)


def test_an_output_has_all_or_nothing(tmp_path: pathlib.Path) -> None:
    out, good, bad = tmp_path / "out", tmp_path / "good", tmp_path / "bad"
    good.write_text(PUT)
    bad.write_text("1 put w k x = put p1\n2 ack p2 = ok\n")
    assert command("-o", out, bad) == (
        b"",
        f"ringplan-merge: {bad}:2: no put p2 comes before it\n",
        2,
    )
    assert sorted(os.listdir(tmp_path)) == ["bad", "good"]
    assert command("-o", out, good) == (b"", "", 0)
    assert out.read_text() == "history 1\nput w k x = put 0\nend\n"
    assert command(f"--output={out}", bad)[2] == 2
    assert out.read_text() == "history 1\nput w k x = put 0\nend\n"
    out.unlink()
    out.symlink_to("target")
    assert command(good, "-o", out)[2] == 0
    assert (
        out.is_symlink()
        and (tmp_path / "target").read_text() == "history 1\nput w k x = put 0\nend\n"
    )
    assert sorted(os.listdir(tmp_path)) == ["bad", "good", "out", "target"]
    assert command(good, "-o", "-", os.devnull)[0] == b"history 1\nput w k x = put 0\nend\n"


def test_a_file_that_cannot_be_read_or_written(tmp_path: pathlib.Path) -> None:
    log = tmp_path / "log"
    log.write_text(PUT)
    assert command(tmp_path / "none") == (
        b"history 1\n",
        f"ringplan-merge: {tmp_path}/none: No such file or directory\n",
        3,
    )
    assert command(tmp_path)[1:] == (f"ringplan-merge: {tmp_path}: Is a directory\n", 3)
    assert command("-o", tmp_path / "none/out", log) == (
        b"",
        f"ringplan-merge: {tmp_path}/none/out: No such file or directory\n",
        3,
    )
    assert command("-o", tmp_path, log) == (b"", f"ringplan-merge: {tmp_path}: Is a directory\n", 3)
    assert command("-o", "/dev/full", log) == (
        b"",
        "ringplan-merge: /dev/full: No space left on device\n",
        3,
    )
    assert stat.S_ISCHR(os.stat("/dev/full").st_mode)
    with open("/dev/full", "wb") as full:
        ran = subprocess.run(
            [sys.executable, "-m", "ringplan.merging", log],
            stdout=full,
            stderr=subprocess.PIPE,
            cwd=TOP / "python",
        )
    assert (ran.stderr, ran.returncode) == (
        b"ringplan-merge: standard output: No space left on device\n",
        3,
    )


def test_names_that_count_up_take_little_memory() -> None:
    names = Names("put")
    for number in range(100_000):
        names.add(by_counters("put", number).encode())
    # The three names of each counter that come after its first one, and are less.
    assert len(names.others) == 15
    assert (
        sum(sys.getsizeof(counter.numbers) for counter in names.counters.values()) < 9 * names.count
    )
    assert all(
        names.find(by_counters("put", number).encode()) == number for number in range(100_000)
    )
    assert names.find(b"c0.1") == names.find(b"c0.1000000") == names.find(b"d0.6") == -1


def test_other_names_take_no_array(monkeypatch: pytest.MonkeyPatch) -> None:
    monkeypatch.setattr(Names, "PREFIXES", 5)
    names, given = Names("get"), [
        f"{random.Random(number).getrandbits(60):x}.{number % 7 * 10**9}".encode()
        for number in range(500)
    ]
    assert [names.add(name) for name in given] == [b"%d" % number for number in range(500)]
    assert [names.find(name) for name in given] == list(range(500))
    assert len(names.counters) == 5 and len(names.others) == 495


def test_a_counter_that_jumps_is_no_array_of_holes() -> None:
    counter = Counter(10)
    assert (
        counter.add(0, 0)
        and counter.add(80, 1)
        and not counter.add(97, 2)
        and not counter.add(-1, 2)
    )
    assert list(counter.numbers) == [1, *[0] * 79, 2]


def test_there_are_so_many_numbers(monkeypatch: pytest.MonkeyPatch) -> None:
    monkeypatch.setattr(Names, "MOST", 1)
    names = Names("put")
    names.add(b"a")
    with pytest.raises(BadLine, match="more than 1 puts"):
        names.add(b"b")
