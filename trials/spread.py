#!/usr/bin/env python3
"""How well `ringplan goal` spreads what moves, against oracles.

It wants the program as it is built. `trials/spread.py COUNT` tries so many random changes, else
300: rings of up to 8 partitions, and one in five of 16 to 256.

A plan is wrong where another one has fewer pairs of slots in one rack, lacks fewer slots of
joiners' parts, moves fewer, or is more even: on small rings a minimum cost flow says so, on others
a negative cycle in what the flow leaves free. On small rings a search through all rows, partition
by partition, finds the fewest joiners beyond the first of a partition of all plans that are as good
in these. A plan is wrong too where it has two more, and the trial where more than one of 20 has one
more.
"""
import os
import random
import sys
from collections import Counter
from collections.abc import Iterator
from itertools import combinations, product

from changes import made
from measured import TOP
from wishes import Change, Known, Rows, Vertex, answered, asked, judge

STATES = 30000  # at most so many of one search


def small(pick: random.Random) -> Change:
    """A ring of 2 to 8 partitions, 2 or 3 slots and 4 to 8 nodes, and a change with joiners."""
    q, n = pick.choice([2, 4, 4, 8]), pick.choice([2, 2, 3, 3, 3])
    count = pick.randint(n + 2, 8)
    fresh = min(pick.randint(1, 3), count - n)
    members = list(range(count - fresh))
    rows = [
        [(p * n + i) % len(members) for i in range(n)]
        if pick.random() < 0.5
        else pick.sample(members, n)
        for p in range(q)
    ]
    racks = [pick.randrange(pick.randint(2, 4)) for _ in range(count)]
    return change(pick, n, rows, len(members), fresh, racks, 0.4)


def middle(pick: random.Random) -> Change:
    """A ring of 16 to 256 partitions, 2 to 5 slots and up to 23 nodes, with slots apart by racks
    mostly.
    """
    q, n = pick.choice([16, 32, 64, 256]), pick.choice([2, 3, 3, 3, 5])
    members, fresh, racks = (
        pick.randint(n + 3, n + 14),
        pick.randint(1, 4),
        pick.choice([n, n + 2, 64]),
    )
    rows: Rows = [[] for _ in range(q)]
    for p, i in product(range(q), range(n)):
        free = [v for v in range(members) if v not in rows[p]]
        free = [v for v in free if v % racks not in [u % racks for u in rows[p]]] or free
        rows[p].append(free[(p * (n + 1) + i) % len(free)])
    return change(pick, n, rows, members, fresh, [v % racks for v in range(members + fresh)], 0.3)


def change(
    pick: random.Random,
    n: int,
    rows: Rows,
    members: int,
    fresh: int,
    racks: list[int],
    weighed: float,
) -> Change:
    """The change that the fresh nodes join, and up to two members leave."""
    count = members + fresh
    joins = [v for v in range(members, count) if pick.random() < 0.9] or [members]
    leaves = pick.sample(range(members), min(pick.choice([0, 0, 1, 2]), members + len(joins) - n))
    weights = [pick.randint(1, 3) for _ in range(count)] if pick.random() < weighed else []
    return (
        n,
        [v < members for v in range(count)],
        ["%d" % pick.randint(1, 4) for _ in range(count)],
        rows,
        joins,
        leaves,
        weights,
        racks,
    )


def beyond(rows: Rows, joins: list[int]) -> int:
    """How many joiners partitions have beyond the first."""
    return sum(max(len(set(row) & set(joins)) - 1, 0) for row in rows)


def fewest(known: Known, rows: Rows, joins: list[int]) -> int | None:
    """The fewest joiners beyond the first of all plans that cost no more than this one; None where
    there are too many states.
    """
    order, most, squares = known.after, known.cost(rows)[0], known.cost(rows)[1]
    pairs = {
        c: sum(known.rack[a] == known.rack[b] for a, b in combinations(c, 2))
        for c in combinations(order, known.n)
    }
    apart = [c for c in pairs if pairs[c] == min(pairs.values())]
    fixed = [
        [(sum(v not in old for v in c), beyond([list(c)], joins), c) for c in apart]
        for old in known.rows
    ]
    moves = sum(v not in old for row, old in zip(rows, known.rows) for v in row)
    spare = moves - sum(min(some)[0] for some in fixed)
    states: dict[tuple[tuple[int, ...], int], int] = {(tuple([0] * len(known.rack)), 0): 0}
    for some in fixed:
        after: dict[tuple[tuple[int, ...], int], int] = {}
        least = min(some)[0]
        for (load, over), d in states.items():
            for m, more, c in some:
                if over + m - least <= spare:
                    new = tuple(k + (v in c) for v, k in enumerate(load))
                    if sum(new[v] ** 2 * known.unit // known.weight[v] for v in order) <= squares:
                        after[new, over + m - least] = min(
                            after.get((new, over + m - least), d + more), d + more
                        )
        states = after
        if len(states) > STATES:
            return None
    return min(
        d
        for (load, over), d in states.items()
        if known.price(load, min(pairs.values()) * len(rows), moves - spare + over)[0] <= most
    )


def is_beaten(known: Known, rows: Rows) -> bool:
    """Whether other owners cost less: then a cycle of negative cost is in what the flow of these
    leaves free (Klein 1967), which Bellman and Ford's walk shows.
    """
    flow: dict[tuple[Vertex, Vertex], int] = {}
    arcs: list[tuple[Vertex, Vertex, int]] = []
    for p, row in enumerate(rows):
        flow["from", ("p", p)] = known.n
        for v in row:
            flow[("r", p, known.rack[v]), ("v", v)] = 1
            ways: tuple[tuple[Vertex, Vertex], ...] = (("p", p), ("r", p, known.rack[v])), (
                ("v", v),
                "to",
            )
            for way in ways:
                flow[way] = flow.get(way, 0) + 1
    for a, b, room, cost in known.edges():
        used = min(room, flow.get((a, b), 0))
        flow[a, b] = flow.get((a, b), 0) - used
        arcs += [(a, b, cost)] * (used < room) + [(b, a, -cost)] * (used > 0)
    far = {arc[0]: 0 for arc in arcs}
    for _ in range(len(far) + 1):
        is_done = True
        for a, b, cost in arcs:
            if far[a] + cost < far.get(b, 0):
                far[b], is_done = far[a] + cost, False
        if is_done:
            return False
    return True


def named() -> Iterator[str]:
    """What is wrong with plans of two growing rings of 64 partitions, by the words of `show`."""
    rows = [[((p // 4**i + p) % 4) * 3 + (p + i) % 3 for i in range(3)] for p in range(64)]
    three = asked(
        (
            3,
            [v < 12 for v in range(15)],
            ["2"] * 15,
            rows,
            [12, 13, 14],
            [],
            [],
            [v % 3 for v in range(15)],
        )
    )[2]
    with open(os.path.join(TOP, "crates", "tests_program", "data", "ring64_grow.bundle")) as it:
        two = it.read()
    for text, moves, rounds in ((three, 36, 6), (two, 26, 4)):
        words = made(["show"], made(["goal"], text))
        for part in (
            "  moves     %d of " % moves,
            "  rounds    %d of " % rounds,
            "  joiners   no partition has more than one slot on them\n",
        ):
            if part not in words:
                yield "show of %d moves does not say %r" % (moves, part)


def fault_of(known: Known, rows: Rows | None, is_small: bool) -> str | None:
    """What is wrong with the owners besides how joiners are spread, if something is."""
    if rows is None:
        return "refused wrongly"
    if not is_small:
        return "other owners are better" if is_beaten(known, rows) else None
    fault, ratio = judge(known, rows)
    return fault or ("not as even as the best" if ratio > 1 else None)


def main(count: int) -> int:
    wrong = list(named())
    faults, sums = len(wrong), [0, 0]
    over: Counter[int | None] = Counter()
    for number in range(count):
        pick, is_small = random.Random(number), number % 5 != 4
        one = small(pick) if is_small else middle(pick)
        known, rows = Known(one), answered(one)
        fault = fault_of(known, rows, is_small)
        joiners = beyond(rows, one[4]) if rows and not fault else 0
        sums[is_small] += joiners
        if is_small and rows and not fault:
            best = fewest(known, rows, one[4])
            more = None if best is None else joiners - best
            over[more] += 1
            fault = (
                "%d joiners beyond the first more than must be" % more
                if more and more > 1
                else None
            )
        if fault:
            faults += 1
            print("case %d: %s" % (number, fault))
    print(*wrong, sep="\n", end="\n" * bool(wrong))
    print(
        "%d changes: %d faults; joiners beyond the first: %d on small rings, %d on others; as few"
        " as can be on %d small rings, one more on %d, not known on %d"
        % (count, faults, sums[1], sums[0], over[0], over[1], over[None])
    )
    return 1 if faults or over[1] * 20 > over[0] + over[1] else 0


if __name__ == "__main__":
    sys.exit(main(int(sys.argv[1]) if len(sys.argv) > 1 else 300))
