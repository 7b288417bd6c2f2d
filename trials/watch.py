#!/usr/bin/env python3
"""Tries `ringplan watch` from outside; it wants the program as it is built.

`trials/watch.py [COUNT]` tries so many random histories, else 300.

Histories: those of trials/parts.py, each as it is and with one entry changed. Each is given whole,
with `end` and more bytes after it, without `end`, cut in the middle, or with a line spoiled. It
goes through a pipe, in pieces of random lengths. Owed: the answer and the status of `replay`. A bad
line is counted from the history's first line; and if an entry before it is wrong, that entry is the
answer, since `replay` reads all lines before it judges any. With `--every K` a line for each K
entries to which the answer is yes.

Pipes that stay open: the answer to a wrong entry, the one to `end` and each line of `--every` are
there within 100 ms, in the middle of TRIES tries.

Wrong programs: each of WRONG changes what the program does in one way. Owed: it is noticed.

    trials/watch.py --long [ENTRIES]    processor time and memory of `watch` beside `replay` over so
                                        many entries, else 1,000,000
"""
import os
import pathlib
import random
import select
import statistics
import subprocess
import sys
import tempfile
import time
from collections import Counter
from typing import NamedTuple

from changes import Wrong
from long import MOST_ENTRIES, make
from measured import RUN, Measured
from parts import edited, first_fault, history_of

TRIES, PROMPT = 20, 0.1
# How long an answer may take that must come, in seconds; and that of a wrong program.
PATIENCE, IMPATIENCE = 60.0, 2.0

# Scripts around the program RUN, each wrong in one way.
KEPT = 'answer=$(RUN "$@"); status=$?'
WRONG = {
    "reads all before it judges": (
        'given=$(mktemp); cat > $given; RUN "$@" < $given; status=$?; rm $given; exit $status'
    ),
    "says all at the end": f'{KEPT}; echo "$answer"; exit $status',
    "says yes": f'{KEPT}; echo "$answer" | sed "s/^no 70.*/yes/"; [ $status != 1 ]; exit $status',
    "ends with 0": 'RUN "$@"; exit 0',
    "names the entry after it": (
        f'{KEPT}; set -- $answer; [ "$1$2" = no70 ] && answer="no 70 $(($3 + 1)) $4"; echo'
        ' "$answer"; exit $status'
    ),
    "names another number": (
        f'{KEPT}; echo "$answer" | sed "s/^\\(no 70 [0-9]*\\) 0$/\\1 40/"; exit $status'
    ),
    "counts lines from 0": (
        f'{KEPT}; set -- $answer; [ "$1$2" = no1 ] && answer="no 1 $(($3 - 1))"; echo "$answer";'
        " exit $status"
    ),
    "takes half a line": (
        f'{KEPT}; [ $status = 2 ] && answer=yes && status=0; echo "$answer"; exit $status'
    ),
    "forgets owners": f'{KEPT}; echo "$answer" | grep -v "^slots 0"; exit $status',
    "has no --every": f'{KEPT}; echo "$answer" | grep -v "^so far"; exit $status',
    "has each second --every": (
        f'{KEPT}; echo "$answer" | sed "/^so far/{{n;/^so far/d}}"; exit $status'
    ),
}


class Case(NamedTuple):
    """A bundle without a history, and the bytes of one; where the whole lines of entries end that
    read well, and what `replay` is asked about them: with `end`.
    """

    bundle: str
    given: bytes
    entries: list[str]
    # The number of the bad line after these entries, or None.
    bad: int | None


def replay(bundle: str, entries: list[str]) -> tuple[str, int]:
    text = "".join(f"{line}\n" for line in ("history 1", *entries, "end"))
    ran = subprocess.run(
        [RUN, "replay"], input=(bundle + text).encode(), stdout=subprocess.PIPE, timeout=300
    )
    return ran.stdout.decode(), ran.returncode


def cases(bundle: str, entries: list[str], draw: random.Random) -> list[Case]:
    """Ways to give a history."""
    lines = [line.encode() + b"\n" for line in ("history 1", *entries)]
    whole, cut = b"".join(lines), draw.randrange(len(entries) + 1)
    half = lines[cut][: draw.randrange(1, len(lines[cut]))]
    spoiled = lines[cut][:-1] + draw.choice([b" x\n", b" \n", b"\r\n"])
    return [
        Case(bundle, whole + b"end\n", entries, None),
        Case(
            bundle, whole + b"end\n" + draw.choice([b"end\n", b"x", b"history 1\n"]), entries, None
        ),
        Case(bundle, whole, entries, None),
        Case(bundle, b"".join(lines[: cut + 1]), entries[:cut], None),
        Case(bundle, b"".join(lines[:cut]) + half, entries[: max(0, cut - 1)], cut + 1),
        Case(
            bundle,
            b"".join(lines[:cut]) + spoiled + b"".join(lines[cut + 1 :]) + b"end\n",
            entries[: max(0, cut - 1)],
            cut + 1,
        ),
        Case(bundle, whole + b"en", entries, len(entries) + 2),
    ]


def owed(case: Case, every: int) -> tuple[str, int]:
    """What `watch` prints, and its status."""
    answer, status = replay(case.bundle, case.entries)
    fault = first_fault(answer)
    if fault is None and case.bad is not None:
        answer, status = f"no 1 {case.bad}\n", 2
    count = len(case.entries) if fault is None else fault[0]
    return (
        "".join(
            f"so far {number} entries\n"
            for number in range(1, count + 1)
            if every and number % every == 0
        )
        + answer,
        status,
    )


class Watched:
    """A `ringplan watch` over a bundle, with a pipe that stays open until it is closed."""

    def __init__(self, program: str, bundle: str, every: int) -> None:
        with tempfile.TemporaryFile() as file:
            file.write(bundle.encode())
            file.flush()
            words = [
                program,
                "watch",
                f"/proc/self/fd/{file.fileno()}",
                *(["--every", str(every)] if every else []),
            ]
            self.process = subprocess.Popen(
                words,
                stdin=subprocess.PIPE,
                stdout=subprocess.PIPE,
                stderr=subprocess.DEVNULL,
                pass_fds=[file.fileno()],
            )
        assert self.process.stdin is not None and self.process.stdout is not None
        self.input, self.output, self.printed = self.process.stdin, self.process.stdout, b""

    def give(self, text: bytes) -> None:
        try:
            self.input.write(text)
            self.input.flush()
        except BrokenPipeError:
            pass

    def wait(self, wanted: bytes, patience: float) -> None:
        """Waits until this has been printed."""
        until = time.monotonic() + patience
        while wanted not in self.printed:
            left = until - time.monotonic()
            if left < 0 or not select.select([self.output], [], [], left)[0]:
                raise Wrong(f"{wanted!r} does not come while the pipe is open")
            if not (piece := os.read(self.output.fileno(), 1 << 16)):
                raise Wrong(f"{wanted!r} does not come, but {self.printed!r}")
            self.printed += piece

    def end(self) -> tuple[str, int]:
        """What it has printed, and its status."""
        try:
            self.input.close()
        except BrokenPipeError:
            pass
        while piece := os.read(self.output.fileno(), 1 << 16):
            self.printed += piece
        self.output.close()
        return self.printed.decode(), self.process.wait()


def see(program: str, case: Case, draw: random.Random) -> None:
    """Gives a history in pieces."""
    every = draw.choice([0, 1, 2, 7, 50])
    watched, left, most = (
        Watched(program, case.bundle, every),
        case.given,
        draw.choice([10, 300, 100_000]),
    )
    while left:
        length = draw.randrange(1, most)
        watched.give(left[:length])
        left = left[length:]
        time.sleep(draw.choice([0] * 20 + [0.001]))
    found, wanted = watched.end(), owed(case, every)
    if found != wanted:
        raise Wrong(
            f"--every {every}, {len(case.entries)} entries, bad line {case.bad}: {found}, not"
            f" {wanted}"
        )


def attempt(program: str, number: int, tally: Counter[str]) -> None:
    made = history_of(number)
    if not made:
        tally["without a copy"] += 1
        return
    store, bundle, entries = made
    for some in (entries, edited(entries, store.machine.ring.names, store.draw) if entries else []):
        answer = replay(bundle, some)[0]
        if not answer.startswith(("yes", "no 70")):
            tally["with a line at fault"] += 1
            continue
        tally[answer.split("\n")[0].split()[0]] += 1
        for case in cases(bundle, some, store.draw):
            see(program, case, store.draw)
            tally["ways to give one"] += 1


def example() -> tuple[str, list[str]]:
    """A bundle and its history, which is right."""
    text = (
        pathlib.Path(__file__).parent.parent.joinpath("examples/replay_a_move.bundle").read_text()
    )
    return text[: text.index("history 1\n")], text[text.index("history 1\n") :].splitlines()[1:-1]


def see_open_pipes(program: str, tries: int, patience: float = PATIENCE) -> str:
    """The answers while the pipe is open: to a wrong entry, to `end`, and by `--every`."""
    bundle, entries = example()
    text, answer = (
        "".join(f"{line}\n" for line in ("history 1", *entries)).encode(),
        replay(bundle, entries)[0].encode(),
    )
    figures = list[str]()
    for what, last, wanted in (
        ("a wrong entry", b"do 99 = ok\n", b"no 70 %d 47\n" % len(entries)),
        ("`end`", b"end\n", answer),
        (
            "a line of --every",
            b"get k = get %d\n" % sum(line.startswith("get ") for line in entries),
            b"so far %d entries\n" % (len(entries) + 1),
        ),
    ):
        took = list[float]()
        for _ in range(tries):
            watched = Watched(program, bundle, 1)
            watched.give(text)
            watched.wait(b"so far %d entries\n" % len(entries), patience)
            began = time.monotonic()
            watched.give(last)
            watched.wait(wanted, patience)
            took.append(time.monotonic() - began)
            watched.end()
        figures.append(f"{what} {1000 * statistics.median(took):.2f} ms")
        if statistics.median(took) > PROMPT:
            raise Wrong(f"{figures[-1]} while the pipe is open")
    return f"while the pipe is open: {', '.join(figures)}"


def see_wrong(folder: str) -> int:
    """How many of the wrong programs are not noticed."""
    missed = 0
    for number, (what, script) in enumerate(WRONG.items()):
        program = f"{folder}/wrong{number}"
        pathlib.Path(program).write_text("#!/bin/sh\n" + script.replace("RUN", RUN) + "\n")
        os.chmod(program, 0o755)
        try:
            if "all" in what:
                see_open_pipes(program, 1, IMPATIENCE)
            else:
                for seed in range(20):
                    attempt(program, seed, Counter())
            print(f"WRONG: a program that {what} is not noticed")
            missed += 1
        except Wrong:
            pass
    return missed


def see_long(count: int) -> None:
    """Measures a long history beside `replay`."""
    with tempfile.TemporaryDirectory() as folder:
        path = pathlib.Path(folder, "long.bundle")
        maker = make(str(path), count)
        text = path.read_bytes()
        start = text.index(b"history 1\n")
        path.write_bytes(text[:start])
        watch = Measured(["watch", str(path)], text[start:], 3600)
        print(
            (
                f"watch: {count} entries of {len(maker.keys)} keys, {len(text) - start} bytes:"
                f" {watch.front[:3]!r} in {watch.seconds:.2f} s of processor time,"
                f" {watch.memory >> 20} MB"
            ),
            flush=True,
        )
        if count <= MOST_ENTRIES:
            replayed = Measured(["replay"], text, 3600)
            print(
                f"replay: {replayed.front[:3]!r} in {replayed.seconds:.2f} s of processor time,"
                f" {replayed.memory >> 20} MB"
            )


def main(words: list[str]) -> int:
    if words[:1] == ["--long"]:
        see_long(int(words[1]) if words[1:] else 1_000_000)
        return 0
    count, wrong, tally = int(words[0]) if words else 300, 0, Counter[str]()
    for number in range(count // 2):
        try:
            attempt(RUN, number, tally)
        except Wrong as fault:
            print(f"WRONG: seed {number}: {fault}")
            wrong += 1
    print(", ".join(f"{n} {what}" for what, n in tally.most_common()))
    try:
        print(see_open_pipes(RUN, TRIES))
    except Wrong as fault:
        print(f"WRONG: {fault}")
        wrong += 1
    with tempfile.TemporaryDirectory() as folder:
        wrong += see_wrong(folder)
    print(f"{len(WRONG)} wrong programs", f"{wrong} wrong", sep="\n")
    return 1 if wrong else 0


if __name__ == "__main__":
    sys.exit(main(sys.argv[1:]))
