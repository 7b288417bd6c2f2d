#!/usr/bin/env python3
"""Tries `ringplan goal` from outside; it wants the program as it is built.

`trials/goals.py COUNT` tries so many random goals, else 200.

Goals: rings of 1 to 16 partitions, joint and split allowances, nodes that join, leave and are dead
for good, drawn from a fixed seed; any placement of the slots. Of each plan: the checker says yes;
it moves each slot that must move once, and no other; its rounds of copies are at most 1.2 times the
fewest that allowances permit, rounded up to a whole round; no step names a dead node, and no copy
reads from one; the lines of its moves are those that its text tells. Each plan is played with the
dead nodes down from its first step on: puts that were acknowledged before are read behind it, and
the owners in the end are those of the goal. Where a partition has too few slots that can be read,
or a dead node should be given a slot, the answer is `no 28`. `goal --partial` plans the rest: the
slots of partitions that cannot be read stay, and these are named.

Windows: each of those plans that has no dead node is cut into windows of one round. The checker
says yes to each; each begins with the ring that the one before leaves; the last leaves the goal's
owners.

Large rings: 4,096 partitions of 7 slots over 1,024 nodes, by a change with racks and weights,
around a dead node, and as a goal, and the windows of these: seconds and MB are printed; 10 seconds
and 300 MB are a fault.
"""
import json
import os
import random
import re
import subprocess
import sys
import tempfile
import time
from collections import Counter
from collections.abc import Sequence
from typing import Any, NamedTuple

from changes import Ring, Step, answer, ask, owners, read_steps, sections, steps_of
from measured import RUN

COUNT = int(sys.argv[1]) if len(sys.argv) > 1 else 200
# The owners of each partition.
Rows = list[list[str]]


class Goal(NamedTuple):
    """A ring, the members and the rows that are wished for, and the dead."""

    ring: Ring
    after: list[str]
    wished: Rows
    dead: list[str]

    def text(self) -> str:
        ring = self.ring
        return ring.text(ring.members, ring.rows) + ring.text(set(self.after), self.wished)

    def words(self) -> list[str]:
        """The options that name the dead."""
        return [it for x in self.dead for it in ("--dead", x)]


# N, R and W of the rings.
QUORUMS = (
    *((1, 1, 1), (2, 1, 2), (2, 2, 1), (3, 2, 2), (3, 1, 3)),
    *((4, 2, 3), (5, 2, 4), (5, 3, 3), (7, 3, 5)),
)


def drawn(draw: random.Random) -> Goal:
    quorum = draw.choice(QUORUMS)
    n = quorum[0]
    q, count = draw.choice([1, 2, 4, 8, 16]), draw.randrange(n + 1, n + 6)
    names = [f"n{k}" for k in range(count)]
    split = draw.random() < 0.3
    allow: list[tuple[int, ...]] = [
        (draw.randrange(1, 4), draw.randrange(1, 4))
        if split and draw.random() < 0.6
        else (draw.randrange(1, 5),)
        for _ in names
    ]
    before = draw.sample(names, draw.randrange(n, count + 1))
    after = draw.sample(names, draw.randrange(n, count + 1))
    dead = (
        [x for x in before if draw.random() < 0.3][: draw.randrange(3)]
        if draw.random() < 0.5
        else []
    )
    rows = [draw.sample(before, n) for _ in range(q)]
    wished = [wish(draw, row, after, dead) for row in rows]
    form = 2 if any(len(it) == 2 for it in allow) else 1
    ring = Ring(form, names, dict(zip(names, allow)), quorum, set(before), rows)
    return Goal(ring, after, wished, dead)


def wish(draw: random.Random, row: list[str], after: list[str], dead: list[str]) -> list[str]:
    """The owners that are wished for in a row's place. Few are dead ones that it has not."""
    keeps = [x for x in row if x in after and draw.random() < 0.6]
    others = [
        x
        for x in after
        if x not in keeps and not (x in dead and x not in row and draw.random() < 0.95)
    ]
    if len(others) < len(row) - len(keeps):
        others = [x for x in after if x not in keeps]
    new = keeps + draw.sample(others, len(row) - len(keeps))
    draw.shuffle(new)
    return new


def script_of(plan: str) -> list[str]:
    """The events of a plan's steps, in their order."""
    return [it for number, step in enumerate(read_steps(plan)) for it in events_of(number, step)]


def events_of(number: int, step: Step) -> list[str]:
    if step[0][0] != "copy":
        return [f"do {number}"]
    return [f"open {number}", *(f"chunk {number} {c}" for c in range(16)), f"close {number}"]


def unread(goal: Goal) -> list[int]:
    """The partitions in which a dead node should lose a slot, and fewer owners live than a read
    asks.
    """
    return [
        p
        for p, (row, new) in enumerate(zip(goal.ring.rows, goal.wished))
        if sum(x not in goal.dead for x in row) < goal.ring.quorum[1]
        and any(x in goal.dead and x not in new for x in row)
    ]


def gives_to_dead(goal: Goal, but: Sequence[int] = ()) -> bool:
    """Whether a dead node should get a slot outside these partitions."""
    pairs = enumerate(zip(goal.ring.rows, goal.wished))
    return any(
        x in goal.dead and x not in row for p, (row, new) in pairs if p not in but for x in new
    )


def partly(draw: random.Random, goal: Goal) -> str:
    """What is wrong with the plan for the rest, if partitions cannot be read."""
    stays = unread(goal)
    kept = [goal.ring.rows[p] if p in stays else new for p, new in enumerate(goal.wished)]
    words = ["goal", "--partial", *(f"--dead={x}" for x in goal.dead)]
    out, errors, status = ask(words, goal.text())
    if gives_to_dead(goal, stays):
        return "" if status == 1 else "a part of a plan that cannot be"
    if status:
        return "no part of a plan: " + errors.splitlines()[0]
    named = [int(x) for x in re.findall(r"\d+", errors.split(" cannot be read")[0])]
    if named != stays:
        return f"partitions {named} are said to stay for {stays}"
    rest = goal._replace(wished=kept)
    why = judge(rest, out)
    if not why and answer(["check"], out) != ("yes\n", 0):
        why = "the checker refuses the part of a plan"
    return why or play(draw, rest, out)


# How many keys are put and got.
KEYS = 4
# Of each plan its rounds by the fewest that allowances permit.
wide: list[float] = []


class Followed:
    """What a plan does, step by step: its moves, its rounds, and the copies of each node."""

    def __init__(self, goal: Goal) -> None:
        self.goal, self.moves = goal, 0
        self.owners = [list(row) for row in goal.ring.rows]
        self.depth, self.used = list[int](), Counter[tuple[str, str]]()
        self.mirrors: dict[tuple[int, int], str] = {}

    def side(self, x: str, side: str) -> tuple[str, str]:
        return (x, "both") if len(self.goal.ring.allow[x]) == 1 else (x, side)

    def take(self, step: Step) -> str:
        """Takes a step in. Returns what is wrong with it; '' where nothing is."""
        fields, waits = step
        self.depth.append(max([self.depth[d] for d in waits], default=0) + (fields[0] == "copy"))
        if fields[0] in ("mirror", "drop", "retire") and fields[-1] in self.goal.dead:
            return "a step of a dead node"
        if fields[0] == "mirror":
            self.mirrors[int(fields[1]), int(fields[2])] = fields[3]
            self.moves += 1
        elif fields[0] == "switch":
            p, i = int(fields[1]), int(fields[2])
            self.owners[p][i] = self.mirrors.pop((p, i))
        return self.copy(fields) if fields[0] == "copy" else ""

    def copy(self, fields: list[str]) -> str:
        p, i, listed = int(fields[1]), int(fields[2]), fields[3] == "slots"
        reads = [self.owners[p][j] for j in (map(int, fields[4:]) if listed else [i])]
        if any(x in self.goal.dead for x in reads):
            return "a copy reads from a dead node"
        self.used.update(self.side(x, "give") for x in reads)
        self.used[self.side(self.mirrors[p, i], "take")] += 1
        return ""

    def bound(self) -> int:
        """The fewest rounds that allowances permit."""
        allow = self.goal.ring.allow
        most = {it: allow[it[0]][1 if it[1] == "give" else 0] for it in self.used}
        return max([-(-count // most[it]) for it, count in self.used.items()], default=0)


def judge(goal: Goal, out: str) -> str:
    """What is wrong with a plan; '' where nothing is."""
    rows, wished = goal.ring.rows, goal.wished
    if sections(out)[0] != goal.ring.text(goal.ring.members, rows):
        return "another ring"
    plan = Followed(goal)
    for step in steps_of(out):
        if why := plan.take(step):
            return why
    if [set(x) for x in plan.owners] != [set(x) for x in wished]:
        return "other owners in the end"
    least = sum(len(set(row) - set(new)) for row, new in zip(rows, wished))
    if plan.moves != least:
        return f"{plan.moves} moves for {least}"
    bound, rounds = plan.bound(), max(plan.depth, default=0)
    if rounds > -(-6 * bound // 5):
        return f"{rounds} rounds for {bound}"
    wide.append(rounds / max(bound, 1))
    return ""


def told_moves(rows: Rows, steps: list[Step]) -> str:
    """The lines of the moves, as the plan's text tells them."""
    owners = [list(row) for row in rows]
    mirrors: dict[tuple[int, int], str] = {}
    moves: list[dict[str, Any]] = []
    own: dict[tuple[int, int], int] = {}
    for number, (fields, _) in enumerate(steps):
        if fields[0] in ("join", "retire"):
            continue
        p, i = int(fields[1]), int(fields[2])
        if fields[0] == "mirror":
            mirrors[p, i] = fields[3]
            own[p, i] = len(moves)
            moves.append(
                {
                    "move": len(moves),
                    "partition": p,
                    "slot": i,
                    "from": owners[p][i],
                    "to": fields[3],
                    "steps": [],
                }
            )
        elif fields[0] == "switch":
            owners[p][i] = mirrors.pop((p, i))
        moves[own[p, i]]["steps"].append(number)
    for move in moves:
        waits = {d for number in move["steps"] for d in steps[number][1]}
        move["after"] = sorted(waits - set(move["steps"]))
    return "".join(json.dumps(move, sort_keys=True, separators=(",", ":")) + "\n" for move in moves)


def script_of_run(draw: random.Random, goal: Goal, steps: list[Step]) -> tuple[list[str], int]:
    """A run's script with the dead nodes down, and where gets begin."""
    slots, puts = range(goal.ring.quorum[0]), range(KEYS)
    script: list[str] = []
    for k in puts:
        script += [f"put w k{k} x0{k}", *(f"write {k} {i}" for i in slots), f"ack {k}"]
    script += [f"down {x}" for x in goal.dead]
    done: set[int] = set()
    left = list(range(len(steps)))
    while left:
        step = draw.choice([s for s in left if all(d in done for d in steps[s][1])][:5])
        left.remove(step)
        done.add(step)
        script += events_of(step, steps[step])
    at = len(script)
    for k in puts:
        script += [f"get k{k}", *(f"read {k} {i}" for i in slots), f"endget {k}"]
    return script, at


def play(draw: random.Random, goal: Goal, out: str) -> str:
    """Plays the plan with the dead nodes down, and compares what is read and who owns what."""
    script, at = script_of_run(draw, goal, steps_of(out))
    played, status = answer(["play"], out + "\n".join(["script 1", *script, "end"]) + "\n")
    lines = played.splitlines()
    if status or lines[0] != "yes":
        return "the play was refused: " + lines[0]
    events = lines[1 : 1 + len(script)]
    bad = [it for it in events[:at] if " no " in it and not it.endswith(" no 41")]
    if bad:
        return f"refused in the play: {bad[0]} ({script[int(bad[0].split()[0])]})"
    told = list(zip(events, script))
    for k in range(KEYS):
        end = next(it for it, event in told if event == f"endget {k}")
        reads = [it for it, event in told if event.startswith(f"read {k} ")]
        alive = sum(" no " not in it for it in reads)
        if alive >= goal.ring.quorum[1] and end.split()[1:] != ["reply", str(k)]:
            return f"a get was answered {end}"
    last = [set(line.split()[2:]) for line in lines[1 + len(script) : -1]]
    if last != [set(row) for row in goal.wished]:
        return "other owners behind the play"
    return ""


def cut(text: str, wished: Rows) -> str:
    """What is wrong with the windows of a plan."""
    out, status = answer(["windows", "--rounds", "1"], text)
    if status:
        return "no windows: " + " / ".join(out.splitlines()[:2])
    parts = out.split("end\n")[:-1]
    if len(parts) % 3:
        return "windows with a part too few"
    before = text[: text.index("end\n") + 4]
    for k in range(0, len(parts), 3):
        window = "end\n".join(parts[k : k + 3]) + "end\n"
        if parts[k] + "end\n" != before:
            return f"window {k // 3} begins with another ring"
        if answer(["check"], window) != ("yes\n", 0):
            return f"the checker refuses window {k // 3}"
        if answer(["windows", "--rounds", "1", "--only", str(k // 3 + 1)], text) != (window, 0):
            return f"window {k // 3} alone is another"
        before = answer(["after"], window)[0]
        script = "\n".join(["script 1", *script_of(parts[k + 1] + "end\n"), "end", ""])
        if owners(answer(["play"], window + script)[0]) != owners(before):
            return f"window {k // 3} is played to other owners"
    last = owners(before)
    return (
        ""
        if [set(x) for x in last] == [set(x) for x in wished]
        else "other owners behind the windows"
    )


def timed(what: str, words: list[str], text: str) -> tuple[str, int]:
    """One command on a large ring: its output, with its seconds and its memory printed."""
    path = "/tmp/ringplan_goals_%d" % os.getpid()
    with open(path, "w") as it:
        it.write(text)
    with open(path) as it:
        child = subprocess.Popen([RUN, *words], stdin=it, stdout=subprocess.PIPE)
        assert child.stdout
        out = child.stdout.read().decode()
        _, status, used = os.wait4(child.pid, 0)
    os.remove(path)
    seconds, memory = used.ru_utime + used.ru_stime, used.ru_maxrss / 1024
    print(f"{what}: {seconds:.2f} s, {memory:.0f} MB, {len(out) / 1e6:.1f} MB of output")
    if status or seconds > 10 or memory > 300:
        print(f"{what}: a fault: {out.splitlines()[:2]}")
        return out, 1
    return out, 0


def large() -> int:
    """The largest ring, by each command."""
    draw = random.Random(7)
    names = [f"n{k:04}.r{k % 16}" for k in range(1024)]
    members = names[:924]
    rows = [[members[(p * 7 + i * 131 + p // 132) % 924] for i in range(7)] for p in range(4096)]
    ring = Ring(1, names, dict.fromkeys(names, (4,)), (7, 4, 4), set(members), rows)
    first = ring.text(ring.members, rows)
    change = (
        "change 1\n"
        + "".join(f"join {x}\n" for x in names[924:])
        + "".join(f"leave {x}\n" for x in members[:100])
        + "end\n"
    )
    faults = 0
    with tempfile.NamedTemporaryFile("w", suffix=".layout") as file:
        file.write(f"layout 1\nweight {names[200]} 3\nend\n")
        file.flush()
        words = ["goal", "--racks-behind", ".", "--layout", file.name]
        out, bad = timed(
            "100 of 924 nodes leave and 100 join, racks and weights", words, first + change
        )
    faults += bad
    for what, words in (
        ("its windows of 4 rounds", ["windows", "--rounds", "4"]),
        ("its steps", ["steps"]),
        ("its moves", ["steps", "--moves"]),
    ):
        faults += timed(what, words, out)[1]
    dead = [it for x in members[:8] for it in ("--dead", x)]
    leave = "change 1\n" + "".join(f"leave {x}\n" for x in members[:8]) + "end\n"
    faults += timed("8 dead nodes of 924 leave", ["goal", *dead], first + leave)[1]
    new = [draw.sample(members, 7) for _ in range(4096)]
    faults += timed(
        "a goal that moves nearly all slots", ["goal"], first + ring.text(ring.members, new)
    )[1]
    return faults + many_windows(first, rows[0][0], next(x for x in members if x not in rows[0]))


def many_windows(ring: str, old: str, new: str) -> int:
    """A slot of the largest ring that goes to and fro between two nodes, 500 times: windows of one
    round have more bytes than a bundle may, those of 50 have not.
    """
    steps = []
    for move in range(500):
        here, there = (old, new) if move % 2 == 0 else (new, old)
        at, waits = 4 * move, f" after {4 * move - 1}" if move else ""
        steps += [
            f"mirror 0 0 {there}{waits}",
            f"copy 0 0 owner after {at}",
            f"switch 0 0 after {at + 1}",
            f"drop 0 0 {here} after {at + 2}",
        ]
    plan, faults = timed(
        "a certificate for 500 moves of one slot",
        ["cert"],
        ring + "\n".join(["plan 1", *steps, "end", ""]),
    )
    faults += timed("their windows of 50 rounds", ["windows", "--rounds", "50"], plan)[1]
    began = time.monotonic()
    said = [answer(["windows", "--rounds", "1", *only], plan) for only in ((), ("--only", "7"))]
    print(
        f"their windows of one round, all and the seventh: {time.monotonic() - began:.2f} s,"
        f" {said[0][0].splitlines()[0]}"
    )
    return faults + sum(
        status != 2 or not out.startswith("no 2 0\nrefused: the windows") for out, status in said
    )


def wrong(draw: random.Random, goal: Goal, tally: Counter[str]) -> str:
    """What is wrong with what the commands make of a goal; '' where nothing is."""
    text, rows = goal.text(), goal.ring.rows
    out, status = answer(["goal", *goal.words()], text)
    stays = unread(goal)
    if stays or gives_to_dead(goal):
        tally["none"] += 1
        if (out.splitlines()[0], status) != ("no 28", 1):
            return "a plan that cannot be"
        tally["parts"] += bool(stays)
        return partly(draw, goal) if stays else ""
    if status:
        return "no plan: " + " / ".join(out.splitlines()[:2])
    tally["found"] += 1
    tally["around"] += bool(goal.dead)
    if why := judge(goal, out):
        return why
    if answer(["check"], out) != ("yes\n", 0):
        return "the checker refuses it"
    if answer(["steps", "--moves"], out) != (told_moves(rows, steps_of(out)), 0):
        return "other lines of its moves"
    stated = answer(["goal", "--format", "json", *goal.words()], text)[0]
    if json.loads(stated)["bundle"] != out:
        return "another bundle as JSON"
    return play(draw, goal, out) or ("" if goal.dead else cut(out, goal.wished))


draw, lost, tally = random.Random(5), large(), Counter[str]()
for trial in range(COUNT):
    goal = drawn(draw)
    if why := wrong(draw, goal, tally):
        lost += 1
        print(f"goal {trial}: {why}; --dead {' '.join(goal.dead) or 'nobody'}")
        if lost == 1:
            print(goal.text(), end="")
print(
    f"rounds by the fewest: {sum(wide) / max(len(wide), 1):.3f} times on average,"
    f" {max(wide, default=1):.2f} at most, above 1.2 times of {sum(it > 1.2 for it in wide)}"
)
print(
    f"{COUNT} goals: {tally['found']} reached, {tally['around']} of them around dead nodes,"
    f" {tally['none']} that no plan reaches, of {tally['parts']} the rest is planned; {lost} lost"
)
sys.exit(1 if lost else 0)
