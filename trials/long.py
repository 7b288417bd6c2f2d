#!/usr/bin/env python3
"""Judges a long history in parts by GNU parallel: trials/long.py [COUNT [WORKERS]].

It wants the program as it is built, and Debian's package `parallel`.

It makes a history of COUNT entries, else 20,000, over 64 partitions: two nodes join a ring of
twelve in the first half, one event of the plan after the other, while clients put and get. Each key
is put about 16 times, by four writers, each of whom has read the last put. Now and then a node is
down: what its slots miss is hinted, and handed off when it is back. Owed: `replay` says yes to the
history of 200,000 entries, or of COUNT if that is less; the 64 parts of the whole are judged yes,
by one worker and by WORKERS, else 4; each part is within the limits of `replay`. Then one entry in
the middle is changed. Owed: of the entries at which parts are refused, counted in the whole by
`part --map`, the first is the changed one, with 0.

Memory is what all processes have at once, sampled ten times a second: the sum of their resident
pages, so what they share is counted for each.
"""
import contextlib
import hashlib
import os
import pathlib
import subprocess
import sys
import tempfile
import threading
import time
from collections.abc import Iterator

from changes import Wrong, ask, read_steps, sections
from measured import RUN, TOP
from parts import map_back, parallel

PARTS, ALONE = 64, 200_000
MOST_ENTRIES, MOST_BYTES = 1_000_000, 67_108_864
# A put of three slots and a get of two, and how often a key is put.
ROUND, LIVES = 9, 16
# How many entries come between two outages, and how many rounds one takes.
CALM, OUTAGE = 10_000, 40
READS = ((0, 1), (1, 2), (2, 0))


def bundle_of() -> str:
    given = pathlib.Path(TOP, "crates/tests_program/data/ring64_grow.bundle").read_text()
    return ask(["goal"], given)[0]


class Maker:
    """A store of whose history each piece of text is some whole entries."""

    def __init__(self, bundle: str, count: int) -> None:
        ring = [line.split() for line in sections(bundle)[0].splitlines()]
        self.rows = [line[2:] for line in ring if line[0] == "slots"]
        self.members = [line[1] for line in ring if line[0] == "node" and line[-1] == "in"]
        self.mirrors: list[dict[int, str]] = [{} for _ in self.rows]
        self.generations = [[0] * 3 for _ in self.rows]
        self.steps = read_steps(sections(bundle)[1])
        self.count, self.entries, self.rounds = count, 0, 0
        # The node that is down, which stand-ins keep hints for which slots since, and after which
        # entry the next outage comes.
        self.down, self.hints, self.calm = "", set[tuple[str, int, int]](), CALM // 2
        # How many entries each partition has of its own, and how many are of all.
        self.own, self.common = [0] * len(self.rows), 0
        bits = len(self.rows).bit_length() - 1
        self.keys = [
            (name, int(hashlib.md5(name.encode()).hexdigest(), 16) >> (128 - bits))
            for name in (f"k{number}" for number in range(max(64, count // ROUND // LIVES)))
        ]
        self.last = [-1] * len(self.keys)
        self.texts = [self.texts_of(partition) for partition in range(len(self.rows))]

    def texts_of(self, partition: int) -> list[str]:
        """What a round in the partition looks like, one for each choice of slots to read: its
        numbers are the writer's, the key, what is seen, the put's and the get's.
        """
        writes = "".join(
            f"write %(v)d {i} = ticket {partition} {i} {generation}\n"
            for i, generation in enumerate(self.generations[partition])
        )
        reads = ("".join(f"read %(g)d {i} = found %(v)d\n" for i in slots) for slots in READS)
        return [
            f"put w%(w)d %(k)s x%(s)s = put %(v)d\n{writes}ack %(v)d = ok\nget %(k)s = get"
            f" %(g)d\n{read}endget %(g)d = reply %(v)d\n"
            for read in reads
        ]

    def common_text(self, text: str) -> str:
        self.entries += 1
        self.common += 1
        return text + " = ok\n"

    def step_texts(self) -> Iterator[str]:
        """The events of the plan, one by one."""
        for number, ((kind, *words), _) in enumerate(self.steps):
            if kind == "copy":
                for event in (
                    f"open {number}",
                    *(f"chunk {number} {chunk}" for chunk in range(16)),
                    f"close {number}",
                ):
                    yield self.common_text(event)
                continue
            if kind == "join":
                self.members.append(words[0])
            elif kind in ("mirror", "switch"):
                partition, slot = int(words[0]), int(words[1])
                if kind == "mirror":
                    self.mirrors[partition][slot] = words[2]
                    self.generations[partition][slot] += 1
                else:
                    self.rows[partition][slot] = self.mirrors[partition].pop(slot)
                self.texts[partition] = self.texts_of(partition)
            yield self.common_text(f"do {number}")

    def missed(self, partition: int) -> list[int]:
        """The slots that the node that is down owns or mirrors."""
        mirrors, owners = self.mirrors[partition], enumerate(self.rows[partition])
        return [i for i, owner in owners if self.down in (owner, mirrors.get(i))]

    def keeper(self, partition: int) -> str:
        """A node that is up and serves no slot of the partition."""
        serving = {*self.rows[partition], *self.mirrors[partition].values(), self.down}
        return next(x for x in self.members if x not in serving)

    def round_text(self) -> str:
        """A put and a get of the next key. What a node that is down misses is hinted."""
        number = self.rounds % len(self.keys)
        key, partition = self.keys[number]
        seen, turn = self.last[number], self.rounds // len(self.keys)
        words = {
            "w": (4 * number + turn % 4) % 1024,
            "k": key,
            "s": f" seen {seen}" if seen >= 0 else "",
            "v": self.rounds,
            "g": self.rounds,
        }
        missed = self.missed(partition) if self.down else []
        choices = (turn % 3 for turn in range(self.rounds % 3, self.rounds % 3 + 3))
        reads = next(it for it in choices if not set(missed) & set(READS[it]))
        text = self.texts[partition][reads] % words
        for i in missed:
            keeper = self.keeper(partition)
            text = text.replace(f"write {self.rounds} {i} =", f"hint {self.rounds} {i} {keeper} =")
            self.hints.add((keeper, partition, i))
        self.last[number] = self.rounds
        self.rounds += 1
        self.entries += ROUND
        self.own[partition] += ROUND
        return text

    def outage_texts(self) -> Iterator[str]:
        self.down = self.members[self.entries // CALM % len(self.members)]
        yield self.common_text(f"down {self.down}")
        for _ in range(OUTAGE):
            yield self.round_text()
        yield self.common_text(f"up {self.down}")
        for keeper, partition, i in sorted(self.hints):
            self.entries += 1
            self.own[partition] += 1
            yield f"handoff {keeper} {partition} {i} = ok\n"
        self.hints.clear()
        self.down, self.calm = "", self.entries + CALM

    def traffic(self, until: int) -> Iterator[str]:
        while self.entries < until:
            yield self.round_text()
            if self.entries > self.calm:
                yield from self.outage_texts()

    def all_texts(self) -> Iterator[str]:
        """COUNT entries: at their end gets that only start."""
        events = sum(18 if fields[0] == "copy" else 1 for fields, _ in self.steps)
        room = max(0, self.count // 2 // events - ROUND)
        for text in self.step_texts():
            yield text
            yield from self.traffic(self.entries + room)
        # The last outage has room, with its handoffs.
        yield from self.traffic(self.count - ROUND * OUTAGE * 2)
        while self.entries + ROUND <= self.count:
            yield self.round_text()
        key, partition = self.keys[0]
        for number in range(self.count - self.entries):
            self.entries += 1
            self.own[partition] += 1
            yield f"get {key} = get {self.rounds + number}\n"


def make(path: str, count: int) -> Maker:
    bundle = bundle_of()
    maker = Maker(bundle, count)
    with open(path, "w", buffering=1 << 20) as file:
        file.write(bundle + "history 1\n")
        file.writelines(maker.all_texts())
        file.write("end\n")
    if maker.entries != count:
        raise Wrong(f"{maker.entries} entries are made")
    return maker


def memory_of(session: int) -> int:
    """The resident bytes of the processes of a session."""
    total = 0
    for name in os.listdir("/proc"):
        with contextlib.suppress(OSError, IndexError):
            if (
                name.isdigit()
                and int(
                    pathlib.Path("/proc", name, "stat").read_text().rpartition(")")[2].split()[3]
                )
                == session
            ):
                total += int(
                    pathlib.Path("/proc", name, "statm").read_text().split()[1]
                ) * os.sysconf("SC_PAGESIZE")
    return total


def judge(path: str, workers: int) -> list[str]:
    """The first line of each part's answer."""
    began, most, is_over = time.monotonic(), 0, threading.Event()
    with subprocess.Popen(
        parallel(path, PARTS, "-j", str(workers)),
        stdout=subprocess.PIPE,
        text=True,
        start_new_session=True,
    ) as ran:

        def sample() -> None:
            nonlocal most
            while not is_over.wait(0.1):
                most = max(most, memory_of(ran.pid))

        sampler = threading.Thread(target=sample)
        sampler.start()
        answers = ran.communicate()[0].splitlines()
        is_over.set()
        sampler.join()
    print(
        (
            f"{PARTS} parts by {workers}: {answers.count('yes')} yes,"
            f" {time.monotonic() - began:.1f} s, {most >> 20} MB at most"
        ),
        flush=True,
    )
    return answers


def see_limits(path: str, maker: Maker) -> None:
    """The largest part is within the limits of a replay, and has as many entries as were made."""
    entries, part = max((own, part) for part, own in enumerate(maker.own))
    text = subprocess.run(
        [RUN, "part", "--of", str(PARTS), "--part", str(part), path],
        stdout=subprocess.PIPE,
        check=True,
    ).stdout
    found = text[text.index(b"history 1\n") :].count(b"\n") - 2
    print(f"the largest part has {found} entries and {len(text)} bytes", flush=True)
    if found != entries + maker.common or found > MOST_ENTRIES or len(text) > MOST_BYTES:
        raise Wrong(f"{entries + maker.common} entries were made for it")


def change(path: str) -> int:
    """Changes the put that a read found, in the middle of the file. The place of that entry."""
    with open(path, "r+b") as file:
        middle, begun = os.path.getsize(path) // 2, 0
        while not (line := file.readline()).startswith(b"history"):
            pass
        while file.tell() < middle:
            begun += file.read(min(1 << 20, middle - file.tell())).count(b"\n")
        # What is left of a line is counted as that line.
        file.readline()
        begun += 1
        while not (line := file.readline()).startswith(b"read") or len(line.split()) < 5:
            begun += 1
        file.seek(-2, os.SEEK_CUR)
        file.write(b"%d" % ((line[-2] - 48 + 1) % 10))
    return begun


def attempt(folder: str, count: int, workers: int) -> None:
    path = f"{folder}/long.bundle"
    make(path, min(count, ALONE))
    answer = subprocess.run([RUN, "replay", path], stdout=subprocess.PIPE, text=True).stdout.split(
        "\n"
    )[0]
    print(f"{min(count, ALONE)} entries at once: {answer}", flush=True)
    if answer != "yes":
        raise Wrong("the history is no run")
    began = time.monotonic()
    maker = make(path, count)
    print(
        (
            f"{count} entries made in {time.monotonic() - began:.1f} s,"
            f" {os.path.getsize(path)} bytes, {maker.rounds} puts of {len(maker.keys)} keys,"
            f" {maker.common} entries in each part"
        ),
        flush=True,
    )
    see_limits(path, maker)
    for some in (1, workers):
        if judge(path, some) != ["yes"] * PARTS:
            raise Wrong("a part is no run")
    changed = change(path)
    found = map_back(path, judge(path, workers))
    print(f"entry {changed} is changed, the parts say {found}")
    if found != (changed, 0):
        raise Wrong("another entry")


def main(words: list[str]) -> int:
    with tempfile.TemporaryDirectory() as folder:
        try:
            attempt(folder, int(words[0]) if words else 20_000, int(words[1]) if words[1:] else 4)
        except Wrong as fault:
            print(f"WRONG: {fault}")
            return 1
    return 0


if __name__ == "__main__":
    sys.exit(main(sys.argv[1:]))
