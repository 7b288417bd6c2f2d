"""Random rings with changes, drawn from fixed seeds, and questions to the program as it is built.
"""

import functools
import hashlib
import pathlib
import random
import subprocess
import sys
from collections.abc import Collection, Iterable, Sequence
from typing import NamedTuple

from measured import RUN, TOP

sys.path.insert(0, str(pathlib.Path(TOP, "python")))
from ringplan import texts

Step = tuple[list[str], list[int]]
Slot = tuple[int, int]


class Wrong(Exception):
    """An answer that is wrong."""


def ask(words: list[str], text: str) -> tuple[str, str, int]:
    ran = subprocess.run([RUN, *words], input=text.encode(), capture_output=True, timeout=300)
    return ran.stdout.decode(), ran.stderr.decode(), ran.returncode


def answer(words: list[str], text: str) -> tuple[str, int]:
    """What is printed, and the status. The words of a refusal come last."""
    out, errors, status = ask(words, text)
    return out + (errors if status else ""), status


def made(words: list[str], text: str) -> str:
    """What a command makes. A refusal ends the trial."""
    out, errors, status = ask(words, text)
    if status:
        raise SystemExit("%s: %s" % (" ".join(words), (out + errors)[:300]))
    return out


@functools.cache
def place(key: str, bits: int) -> int:
    """The first bits of the key's MD5: for log2 Q bits its partition, and for four more its chunk
    in it.
    """
    return int(hashlib.md5(key.encode()).hexdigest(), 16) >> (128 - bits) if bits else 0


def sections(text: str) -> list[str]:
    return [part + "end\n" for part in text.split("end\n")[:-1]]


class Ring(NamedTuple):
    form: int
    names: list[str]
    allow: dict[str, tuple[int, ...]]
    quorum: tuple[int, ...]
    members: set[str]
    rows: list[list[str]]

    def text(self, members: set[str], rows: list[list[str]]) -> str:
        ring = texts.Ring.of(self.names, members, rows, self.quorum, self.allow, self.form)
        return texts.write_texts([ring])


def read_steps(text: str) -> list[Step]:
    steps = []
    for line in text.splitlines()[1:-1]:
        fields = line.split()
        cut = fields.index("after") if "after" in fields else len(fields)
        steps.append((fields[:cut], [int(x) for x in fields[cut + 1 :]]))
    return steps


def steps_of(bundle: str) -> list[Step]:
    """The steps of a bundle's plan, which follows its ring."""
    return read_steps(sections(bundle)[1])


def owners(text: str) -> list[list[str]]:
    """The owners of each partition, by the `slots` lines of a text."""
    rows = [line.split()[1:] for line in text.splitlines() if line.startswith("slots ")]
    if [row[0] for row in rows] != [str(p) for p in range(len(rows))]:
        raise Wrong("the lines of slots are not in order")
    return [row[1:] for row in rows]


def rows_after(
    rows: list[list[str]], bundle: str, done: Collection[int] | None = None
) -> tuple[list[list[str]], dict[Slot, str]]:
    """The rows and the mirrors at the end of a bundle's plan, or after the steps that are done."""
    after, mirrors = [list(row) for row in rows], dict[Slot, str]()
    for number, (fields, _) in enumerate(steps_of(bundle)):
        if done is not None and number not in done:
            continue
        if fields[0] == "mirror":
            mirrors[int(fields[1]), int(fields[2])] = fields[3]
        elif fields[0] == "switch":
            slot = int(fields[1]), int(fields[2])
            after[slot[0]][slot[1]] = mirrors.pop(slot)
    return after, mirrors


def with_history(front: str, entries: Iterable[str]) -> str:
    """The bundle with the history that these entries make."""
    return front + "\n".join(["history 1", *entries, "end"]) + "\n"


def played(front: str, events: Sequence[str]) -> list[tuple[str, str]]:
    """Each event with the reply that `play` gives. What is refused is left out."""
    lines = ask(["play"], front + "\n".join(["script 1", *events, "end", ""]))[0].split("\n")
    replies = [line.partition(" ")[2] for line in lines[1 : len(events) + 1]]
    return [it for it in zip(events, replies) if not it[1].startswith("no ")]


def to_a_ring(draw: random.Random, lossy: bool) -> tuple[Ring, str]:
    """A ring, and the text of it and of a goal ring."""
    bearing = [(3, 2, 3, 1), (4, 3, 3, 1), (5, 3, 4, 1), (5, 3, 5, 2)]
    plain = [
        (1, 1, 1),
        (2, 1, 2),
        (2, 2, 1),
        (3, 2, 2),
        (3, 2, 2),
        (3, 1, 3),
        (4, 2, 3),
        (5, 2, 4),
        (5, 3, 3),
        (7, 3, 5),
    ]
    quorum: tuple[int, ...] = draw.choice(bearing) if lossy else draw.choice(plain)
    n, q = quorum[0], draw.choice([2, 4, 8, 16])
    count = draw.randrange(n + 2, n + 7)
    names = ["n%d" % k for k in range(count)]
    split = draw.random() < 0.3
    allow: dict[str, tuple[int, ...]] = {
        x: (draw.randrange(1, 4), draw.randrange(1, 4))
        if split and draw.random() < 0.6
        else (draw.randrange(1, 5),)
        for x in names
    }
    before, after = draw.sample(names, draw.randrange(n, count + 1)), draw.sample(
        names, draw.randrange(n, count + 1)
    )
    rows, wished = [draw.sample(before, n) for _ in range(q)], []
    for row in rows:
        keeps = [x for x in row if x in after and draw.random() < 0.6]
        new = keeps + draw.sample([x for x in after if x not in keeps], n - len(keeps))
        draw.shuffle(new)
        wished.append(new)
    ring = Ring(3 if lossy else 2 if split else 1, names, allow, quorum, set(before), rows)
    return ring, ring.text(ring.members, rows) + ring.text(set(after), wished)


def to_members(draw: random.Random) -> tuple[Ring, str]:
    """A ring, and the text of it and of a change."""
    quorum = draw.choice([(2, 1, 2), (3, 2, 2), (3, 2, 2), (5, 3, 3), (3, 1, 3)])
    n, q = quorum[0], draw.choice([4, 8, 16])
    count, out = draw.randrange(n + 3, n + 8), draw.randrange(3)
    names = ["n%d" % k for k in range(count)]
    members = names[: count - out]
    ring = Ring(
        1,
        names,
        {x: (draw.randrange(1, 4),) for x in names},
        quorum,
        set(members),
        [draw.sample(members, n) for _ in range(q)],
    )
    leaves = draw.sample(members, draw.randrange(max(1, min(3, count - n))))
    return ring, ring.text(ring.members, ring.rows) + "\n".join(
        [
            "change 1",
            *["join " + x for x in names[count - out :]],
            *["leave " + x for x in leaves],
            "end",
            "",
        ]
    )


class Moves:
    """Moves of the slots of a partition."""

    def __init__(self, draw: random.Random, ring: Ring, p: int) -> None:
        self.draw, self.ring, self.p, self.owner = draw, ring, p, list(ring.rows[p])
        self.mirror: dict[int, str] = {}
        self.copied = set[int]()
        # Slots, with nodes that have not dropped what they had of them.
        self.full = set[tuple[int, str]]()

    def go_on(self, i: int) -> list[str]:
        """The next steps of slot i: its mirror, a copy to it, or the switch and most often the
        drop.
        """
        n, r = self.ring.quorum[:2]
        if i not in self.mirror:
            serving = {*self.owner, *self.mirror.values()}
            free = [x for x in self.ring.names if x not in serving and (i, x) not in self.full]
            if not free:
                return []
            self.mirror[i] = self.draw.choice(free)
            return ["mirror %d %d %s" % (self.p, i, self.mirror[i])]
        if i not in self.copied:
            self.copied.add(i)
            listed = ["slots", *map(str, self.draw.sample(range(n), self.draw.randrange(r, n + 1)))]
            return ["copy %d %d %s" % (self.p, i, self.draw.choice(["owner", " ".join(listed)]))]
        old, self.owner[i] = self.owner[i], self.mirror.pop(i)
        self.copied.discard(i)
        if self.draw.random() < 0.8:
            return ["switch %d %d" % (self.p, i), "drop %d %d %s" % (self.p, i, old)]
        self.full.add((i, old))
        return ["switch %d %d" % (self.p, i)]


class ByHand:
    """A plan as a person may write it: slots move more than once, and moves overlap."""

    def __init__(self, draw: random.Random) -> None:
        quorum = draw.choice([(2, 1, 2), (3, 2, 2), (3, 2, 2), (4, 2, 3)])
        names = ["n%d" % k for k in range(quorum[0] + draw.randrange(2, 5))]
        rows = [draw.sample(names, quorum[0]) for _ in range(draw.choice([2, 4]))]
        self.draw, self.ring = draw, Ring(
            1, names, {x: (64,) for x in names}, quorum, set(names), rows
        )
        self.steps: list[str] = []
        # By step, the steps that it waits for.
        self.after: list[list[int]] = []

    def move_slots(self, p: int) -> None:
        """Moves of a partition's slots, each step after the one before it.

        In the end each move is done.
        """
        moves = Moves(self.draw, self.ring, p)
        slots = [self.draw.randrange(self.ring.quorum[0]) for _ in range(self.draw.randrange(16))]
        lines = [line for i in slots for line in moves.go_on(i)]
        while moves.mirror:
            lines += moves.go_on(self.draw.choice(sorted(moves.mirror)))
        for number, line in enumerate(lines):
            self.after.append([len(self.steps) - 1] if number else [])
            self.steps.append(line)

    def bundle(self) -> str:
        lines = [
            " ".join([line, *(["after", *map(str, after)] if after else [])])
            for line, after in zip(self.steps, self.after)
        ]
        ring = self.ring.text(self.ring.members, self.ring.rows)
        return ask(["cert"], ring + "\n".join(["plan 1", *lines, "end", ""]))[0]

    def loosen(self) -> None:
        """Some steps wait for what the step before them waits for, and not for that step, if a
        certificate allows it.
        """
        for k in self.draw.sample(range(len(self.steps)), min(len(self.steps), 8)):
            before, told = self.after[k], [
                it for other in self.after[k] for it in self.after[other]
            ]
            self.after[k] = sorted(set(told))
            if not self.bundle():
                self.after[k] = before


def write_by_hand(draw: random.Random) -> tuple[Ring, str]:
    """A ring, and the bundle of a plan that is written by hand."""
    plan = ByHand(draw)
    for p in range(len(plan.ring.rows)):
        plan.move_slots(p)
    plan.loosen()
    return plan.ring, plan.bundle()
