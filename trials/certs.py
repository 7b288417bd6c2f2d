#!/usr/bin/env python3
"""Tries `ringplan cert` from outside; it wants the program as it is built.

`trials/certs.py PLANS SEED` draws so many plans, else 1,000, from that seed.

Each plan is drawn over a small ring (2 or 4 partitions of 2 or 3 slots, 4 to 7 nodes with one
number or two, sources that are listed or not), with dependencies of which some are left out, some
go by way of other steps and some are of no use. Whether there is a certificate is decided here by
other means than the program's: by the whole order that the dependencies make, pair by pair, and by
the greatest set of a node's copies of which none comes before another. Where there is one, `cert`
prints the ring and the plan as they were, and a certificate to which `ringplan check` says yes;
else it refuses, and of too many copies at once it says how many.
"""
import random
import re
import sys
from dataclasses import dataclass
from typing import NamedTuple

from changes import answer
from ringplan import texts

PLANS = int(sys.argv[1]) if len(sys.argv) > 1 else 1000
SEED = int(sys.argv[2]) if len(sys.argv) > 2 else 20261126


# A partition, slot or node that a step does not name.
NONE = -1


class Step(NamedTuple):
    """The kind of a step, its partition, its slot, its node, and the slots that it lists."""

    kind: str
    p: int = NONE
    i: int = NONE
    x: int = NONE
    listed: list[int] | None = None


@dataclass
class Move:
    """A move of a slot that is under way, with its next step and the owner that it had."""

    p: int
    i: int
    x: int
    next_step: str = "copy"
    old: int = NONE


class Drawn:
    """A ring and a plan of it, with dependencies by step."""

    def __init__(self, draw: random.Random) -> None:
        self.q, self.n = draw.choice([2, 2, 4]), draw.choice([2, 3])
        self.r = draw.randint(1, 2)
        self.w = self.n - self.r + 1
        count = draw.randint(self.n + 1, self.n + 4)
        self.names = [f"n{x}" for x in range(count)]
        kind = draw.randrange(3)
        self.allowances = [
            tuple(
                draw.randint(1, 2)
                for _ in range(2 if kind == 2 or kind == 1 and draw.random() < 0.5 else 1)
            )
            for _ in range(count)
        ]
        self.member = [x < self.n or draw.random() < 0.7 for x in range(count)]
        inside = [x for x in range(count) if self.member[x]]
        self.owners = [draw.sample(inside, self.n) for _ in range(self.q)]
        self.steps: list[Step] = []
        self.deps: list[list[int]] = []
        Acts(self, draw).run()
        self.wait(draw)

    def wait(self, draw: random.Random) -> None:
        """Dependencies: most of what is needed, some of it by way of other steps, and some more."""
        before: list[set[int]] = []
        sure = draw.choice([1, 1, 0.97, 0.85])
        for n, (kind, p, i, x, listed) in enumerate(self.steps):
            wanted = [m for m in range(n) if self.is_wanted(m, n)]
            chosen = {m for m in wanted if draw.random() < sure}
            if draw.random() < 0.2 and n:
                chosen.add(draw.randrange(n))
            for m in list(chosen):
                ways = [k for k in range(m + 1, n) if m in before[k]]
                if ways and draw.random() < 0.5:
                    chosen.discard(m)
                    chosen.add(draw.choice(ways))
            self.deps.append(sorted(chosen))
            before.append(chosen.union(*(before[m] for m in chosen)) if chosen else set())

    def is_wanted(self, m: int, n: int) -> bool:
        """Whether the later step may have to come behind the other one."""
        (kind, p, i, x, listed), (first, q, j, y, others) = self.steps[n], self.steps[m]
        if p != NONE and (p, i) == (q, j):
            return all(it[1:3] != (p, i) for it in self.steps[m + 1 : n])
        if kind in ("mirror", "retire") and first == "join":
            return x == y
        if kind == "mirror" and first == "switch":
            return p == q
        if kind == "retire" and first == "drop":
            return x == y
        if kind == "copy" and first == "switch" or kind == "switch" and first == "copy":
            return p == q and bool(listed if kind == "copy" else others)
        return (
            kind == "copy"
            and first == "copy"
            and bool(self.nodes(m) & self.nodes(n))
            and (m * 7 + n * 3) % 3 > 0
        )

    def nodes(self, n: int) -> set[int]:
        """Who takes part in a copy."""
        return {x for side in self.parties(n) for x in side}

    def parties(self, n: int) -> tuple[set[int], set[int]]:
        """Who takes part in a copy: the mirror of its slot, and the owners of the slots that it
        reads.
        """
        kind, p, i, x, listed = self.steps[n]
        owners = list(self.owners[p])
        mirrors: dict[int, int] = {}
        for first, q, j, y, others in self.steps[:n]:
            if q == p and first == "mirror":
                mirrors[j] = y
            if q == p and first == "switch" and j in mirrors:
                owners[j] = mirrors.pop(j)
        return ({mirrors[i]} if i in mirrors else set(), {owners[j] for j in listed or [i]})

    def text(self) -> str:
        """The texts of the ring and the plan."""
        names, members = self.names, {x for x, it in zip(self.names, self.member) if it}
        form = 2 if any(len(it) > 1 for it in self.allowances) else 1
        rows = [[names[x] for x in row] for row in self.owners]
        quorum, allowances = (self.n, self.r, self.w), dict(zip(names, self.allowances))
        ring = texts.Ring.of(names, members, rows, quorum, allowances, form)
        steps = zip(self.steps, self.deps)
        plan = texts.Plan(tuple(self.written(step, deps) for step, deps in steps))
        return texts.write_texts([ring, plan])

    def written(self, step: Step, deps: list[int]) -> texts.Step:
        kind, p, i, x, listed = step
        slot = (None, None) if p == NONE else (p, i)
        node = None if x == NONE else self.names[x]
        return texts.Step(kind, *slot, node, tuple(listed) if listed else None, tuple(deps))


class Acts:
    """The steps of a plan as they are drawn.

    Several moves are under way at once, with joins and retirements between.
    """

    def __init__(self, plan: Drawn, draw: random.Random) -> None:
        self.plan, self.draw, self.steps = plan, draw, plan.steps
        self.owners = [list(row) for row in plan.owners]
        self.held = {(p, i): {x} for p, row in enumerate(self.owners) for i, x in enumerate(row)}
        self.joins = [x for x, it in enumerate(plan.member) if not it]
        draw.shuffle(self.joins)
        self.moves_left, self.moves = draw.randint(1, 6), list[Move]()

    def run(self) -> None:
        for _ in range(120):
            if not self.moves_left and not self.moves:
                break
            turn = self.draw.random()
            if self.joins and turn < 0.3:
                self.steps.append(Step("join", x=self.joins.pop()))
            elif self.moves_left and (not self.moves or turn < 0.5):
                self.begin_move()
            elif self.moves:
                self.go_on(self.draw.choice(self.moves))
        self.retire()

    def begin_move(self) -> None:
        p, i = self.draw.randrange(self.plan.q), self.draw.randrange(self.plan.n)
        busy = [it for it in self.moves if it.p == p]
        ready = [x for x in range(len(self.plan.names)) if x not in self.joins]
        taken = {*self.owners[p], *self.held[p, i], *(it.x for it in busy)}
        free = [x for x in ready if x not in taken]
        if self.draw.random() < 0.05:
            free = ready
        if free and all(it.i != i for it in busy):
            self.moves_left -= 1
            x = self.draw.choice(free)
            self.steps.append(Step("mirror", p, i, x))
            self.moves.append(Move(p, i, x))

    def go_on(self, move: Move) -> None:
        p, i = move.p, move.i
        if move.next_step == "copy":
            self.steps.append(Step("copy", p, i, listed=self.sources()))
            move.next_step = "switch"
        elif move.next_step == "switch":
            self.steps.append(Step("switch", p, i))
            move.next_step, move.old, self.owners[p][i] = "drop", self.owners[p][i], move.x
            self.held[p, i].add(move.x)
            if self.draw.random() < 0.2:
                self.moves.remove(move)
        else:
            self.steps.append(Step("drop", p, i, move.old))
            self.held[p, i].discard(move.old)
            self.moves.remove(move)

    def sources(self) -> list[int] | None:
        """The slots that a copy lists, seldom one twice or too few of them."""
        n, draw = self.plan.n, self.draw
        listed = None
        if draw.random() < 0.3:
            count = draw.randint(self.plan.r, n)
            listed = draw.sample(range(n), count)
        if listed and draw.random() < 0.05:
            return listed[:-1] or listed * 2
        return listed

    def retire(self) -> None:
        """Nodes that serve nothing retire, and seldom a step is left out."""
        serving = {x for row in self.owners for x in row}
        for x in range(len(self.plan.names)):
            if x not in serving and x not in self.joins and self.draw.random() < 0.5:
                self.steps.append(Step("retire", x=x))
        if self.steps and self.draw.random() < 0.03:
            del self.steps[self.draw.randrange(len(self.steps))]


class Ordered:
    """A plan with the whole order that its dependencies make."""

    def __init__(self, plan: Drawn) -> None:
        self.plan, self.steps, self.before = plan, plan.steps, list[set[int]]()
        for deps in plan.deps:
            self.before.append(set(deps).union(*(self.before[m] for m in deps)))
        # By slot the nodes that serve it in turn, each with the step by which it begins.
        self.stays: dict[tuple[int, int], list[tuple[int | None, int]]] = {}
        # The steps by which a stay ends, and by which what the node has there is dropped.
        self.left: dict[tuple[int, int, int | None, int], int] = {}
        self.dropped: dict[tuple[int, int, int | None, int], int] = {}

    def is_behind(self, m: int | None, n: int) -> bool:
        return m is not None and m in self.before[n]

    def is_in_turn(self, p: int, i: int) -> bool:
        """Whether each step of the slot fits, and waits for the one before it. Notes the stays."""
        numbers = [n for n, step in enumerate(self.steps) if (step.p, step.i) == (p, i)]
        owner, mirror, copied = self.plan.owners[p][i], NONE, False
        leftovers, begun = set[int](), dict[int, int | None]({owner: None})
        self.stays[p, i] = [(None, owner)]
        for k, n in enumerate(numbers):
            kind, _, _, x, _ = self.steps[n]
            fits = {
                "mirror": mirror == NONE and x != owner and x not in leftovers,
                "copy": mirror != NONE and not copied,
                "switch": copied,
                "drop": x in leftovers,
            }[kind]
            if not fits or (k and not self.is_behind(numbers[k - 1], n)):
                return False
            if kind == "mirror":
                mirror, copied, begun[x] = x, False, n
                self.stays[p, i].append((n, x))
            elif kind == "copy":
                copied = True
            elif kind == "switch":
                self.left[p, i, begun[owner], owner] = n
                leftovers.add(owner)
                owner, mirror, copied = mirror, NONE, False
            else:
                leftovers.discard(x)
                self.dropped[p, i, begun[x], x] = n
        return True

    def is_joined(self, n: int) -> bool:
        """Whether the step's node is a member by then."""
        x = self.steps[n].x
        joins = (m for m, it in enumerate(self.steps) if it.kind == "join" and it.x == x)
        return x == NONE or self.plan.member[x] or any(self.is_behind(m, n) for m in joins)

    def is_apart(self, n: int) -> bool:
        """Whether the node of a mirror has left each other slot of the partition before it."""
        _, p, i, x, _ = self.steps[n]
        return all(
            self.is_behind(self.left.get((p, j, begin, x)), n)
            for j in range(self.plan.n)
            for begin, y in self.stays[p, j]
            if j != i and y == x and (begin is None or begin < n)
        )

    def reads_enough(self, n: int) -> bool:
        """Whether a copy lists R slots, each once, that do not switch meanwhile."""
        _, p, _, _, listed = self.steps[n]
        return not listed or (
            len(set(listed)) == len(listed) >= self.plan.r
            and all(
                self.is_behind(m, n) or self.is_behind(n, m)
                for m, it in enumerate(self.steps)
                if it.kind == "switch" and it.p == p and it.i in listed
            )
        )

    def has_dropped_all(self, n: int) -> bool:
        """Whether a node that retires has dropped what it had of each slot."""
        x = self.steps[n].x
        return all(
            self.is_behind(self.dropped.get((p, i, begin, x)), n)
            for (p, i), stays in self.stays.items()
            for begin, y in stays
            if y == x
        )

    def is_right(self, n: int) -> bool:
        """Whether nothing is wrong with the step, but for the join of one that retires."""
        kind = self.steps[n].kind
        if kind == "mirror":
            return self.is_joined(n) and self.is_apart(n)
        if kind == "copy":
            return self.reads_enough(n)
        return kind != "retire" or self.has_dropped_all(n)


def verdict(plan: Drawn) -> str | tuple[str, int, int] | None:
    """None if there is a certificate, otherwise why there is none: "plan", or the node that has too
    many copies at once with the two numbers.
    """
    order = Ordered(plan)
    slots = [(p, i) for p in range(plan.q) for i in range(plan.n)]
    numbers = range(len(plan.steps))
    if not all(order.is_in_turn(p, i) for p, i in slots) or not all(map(order.is_right, numbers)):
        return "plan"
    retire = [n for n in numbers if plan.steps[n].kind == "retire"]
    unjoined = {plan.steps[n].x for n in retire if not order.is_joined(n)}
    copies = [(n, *plan.parties(n)) for n in numbers if plan.steps[n].kind == "copy"]
    for x, allowance in enumerate(plan.allowances):
        if x in unjoined:
            return "plan"
        takes = [n for n, take, _ in copies if x in take]
        gives = [n for n, _, give in copies if x in give]
        sides = [takes, gives] if len(allowance) > 1 else [sorted({*takes, *gives})]
        for side, most in zip(sides, allowance):
            if (widest := antichain(side, order.before)) > most:
                return plan.names[x], widest, most
    return None


def antichain(numbers: list[int], before: list[set[int]]) -> int:
    """The size of the greatest set of these steps of which none comes before another: all sets are
    tried.
    """
    if not numbers:
        return 0
    n, rest = numbers[-1], numbers[:-1]
    return max(
        antichain(rest, before),
        1 + antichain([m for m in rest if m not in before[n] and n not in before[m]], before),
    )


def judge(number: int, plan: Drawn, counts: dict[str, int], faults: list[str]) -> None:
    text, wanted = plan.text(), verdict(plan)
    out, status = answer(["cert"], text)
    if wanted is None:
        counts["with a certificate"] += 1
        counts["facts"] += out.count("\nfact ")
        line, ends = answer(["check"], out)
        if status or not out.startswith(text + "cert ") or (line, ends) != ("yes\n", 0):
            faults.append(
                f"plan {number}: there is a certificate, and cert ends with {status}, check says"
                f" {line.strip()!r} of {out[:60]!r}:\n{text}"
            )
    elif isinstance(wanted, str):
        counts["at fault"] += 1
        if status != 1 or not re.match(r"no 2[1-7] \d+\nrefused: ", out):
            faults.append(
                f"plan {number}: it is at fault, and cert ends with {status} and"
                f" {out[:60]!r}:\n{text}"
            )
    else:
        counts["with too many copies at once"] += 1
        name, widest, most = wanted
        told = re.search(
            (
                r"^  (\S+): (\d+) copies (?:to it |from it )?may run at once, by the plan's order,"
                r" and it bears (\d+); no certificate can do with fewer chains\.$"
            ),
            out,
            re.M,
        )
        if (
            status != 1
            or not out.startswith(f"no 34 {plan.names.index(name)}\nrefused: ")
            or not told
            or told.groups() != (name, str(widest), str(most))
        ):
            faults.append(
                f"plan {number}: {wanted}, and cert ends with {status} and {out[-200:]!r}:\n{text}"
            )


def main() -> int:
    draw = random.Random(SEED)
    faults: list[str] = []
    counts = dict.fromkeys(
        ("with a certificate", "at fault", "with too many copies at once", "facts"), 0
    )
    for number in range(PLANS):
        judge(number, Drawn(draw), counts, faults)
        if len(faults) > 4:
            break
    print(f"certs: {PLANS} plans, {', '.join(f'{it} {word}' for word, it in counts.items())}")
    for fault in faults:
        print(fault)
    return 1 if faults or min(counts.values()) < PLANS // 20 else 0


if __name__ == "__main__":
    sys.exit(main())
