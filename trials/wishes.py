#!/usr/bin/env python3
"""How good the rings are that `ringplan goal` makes of a change, with weights and racks: the owners
behind its plan, against the exact best of small rings, which a minimum cost flow finds. It wants
the program as it is built. `trials/wishes.py COUNT` tries so many random changes, else 300.

It says how many share racks, or lack slots of joiners' parts, or move more than the best, and ends
with 0 only where none does; and how many are as even as the best, and the worst ratio.
"""
import random
import sys
import tempfile
from collections.abc import Iterator
from math import lcm

from changes import answer, owners, rows_after
from ringplan import texts

# The owners of each partition, by their numbers.
Rows = list[list[int]]
# The quorum's N, who is a member, what each node bears, the owners, who joins, who leaves, the
# weights and the racks.
Change = tuple[int, list[bool], list[str], Rows, list[int], list[int], list[int], list[int]]
# A vertex of the network: one of its two ends, or a word with numbers.
Vertex = str | tuple[str, int] | tuple[str, int, int]


def case(number: int) -> Change:
    """A ring of 2 to 8 partitions, 2 to 4 slots and 4 to 11 nodes, and a wish."""
    pick = random.Random(number)
    q, n = pick.choice([2, 4, 4, 8]), pick.choice([2, 2, 2, 2, 3, 3, 3, 3, 4])
    count = pick.randint(max(4, n + 1), 7) + pick.randint(0, 4) * (number % 2)
    out = min(pick.randint(0, 2), count - n)
    member = [True] * (count - out) + [False] * out
    pick.shuffle(member)
    members = [v for v in range(count) if member[v]]
    joins = [v for v in range(count) if not member[v] and pick.random() < 0.9]
    leaves = pick.sample(members, min(len(members), pick.randint(0, 2)))
    racks = [pick.randrange(pick.randint(2, 4)) for _ in range(count)]
    if pick.random() < 0.1:
        racks = racks[: pick.randint(0, count)]
    weights = [pick.randint(1, 3) for _ in range(count)] if pick.random() < 0.6 else []
    if pick.random() < 0.5:
        rows = [[members[(p * n + i) % len(members)] for i in range(n)] for p in range(q)]
    else:
        rows = [pick.sample(members, n) for _ in range(q)]
    bears = [
        "%d" % pick.randint(1, 4)
        if pick.random() < 0.5
        else "%d %d" % (pick.randint(1, 4), pick.randint(1, 4))
        for _ in range(count)
    ]
    return n, member, bears, rows, joins, leaves, weights, racks


def asked(change: Change) -> tuple[list[str], str, str]:
    """The names of the nodes, the lines of the layout and the bundle."""
    n, member, bears, rows, joins, leaves, weights, racks = change
    names = [
        "n%d.%s" % (v, "k%d" % racks[v] if v < len(racks) else "own%d" % v)
        for v in range(len(member))
    ]
    members = {name for name, is_in in zip(names, member) if is_in}
    named = [[names[v] for v in row] for row in rows]
    allowances = {name: tuple(map(int, it.split())) for name, it in zip(names, bears)}
    ring = texts.Ring.of(names, members, named, (n, 1, n), allowances, form=2)
    moved = texts.Change(tuple(names[v] for v in joins), tuple(names[v] for v in leaves))
    layout = "".join("weight %s %d\n" % (names[v], weight) for v, weight in enumerate(weights))
    return names, layout, texts.write_texts([ring, moved])


def answered(change: Change) -> Rows | None:
    """The owners by number after the plan, and None where there is none."""
    names, layout, text = asked(change)
    with tempfile.NamedTemporaryFile("w", suffix=".layout") as file:
        file.write("layout 1\n" + layout + "end\n")
        file.flush()
        options = ["--racks-behind", ".", "--layout", file.name]
        out, status = answer(["goal", *options], text)
    if out.startswith("no 28\n") and status == 1:
        return None
    if status:
        raise SystemExit("%s: %s" % (" ".join(options), out.splitlines()[:2]))
    return [[names.index(x) for x in row] for row in rows_after(owners(text), out)[0]]


class Known:
    """What the rules say of a case: the members in the end, with weight, rack and part."""

    def __init__(self, change: Change) -> None:
        self.n, member, _, self.rows, joins, leaves, weights, racks = change
        count = len(member)
        self.after = [v for v in range(count) if (member[v] or v in joins) and v not in leaves]
        self.has_plan = not leaves or len(self.after) >= self.n
        self.weight = [weights[v] if v < len(weights) else 1 for v in range(count)]
        self.rack = [racks[v] if v < len(racks) else -1 - v for v in range(count)]
        total = sum(self.weight[v] for v in self.after)
        q = len(self.rows)
        self.part = [
            min(q, q * self.n * self.weight[v] // total) if v in joins else 0 for v in range(count)
        ]
        self.unit = lcm(*(self.weight[v] for v in self.after))
        self.move = self.unit * (q * self.n + 1) ** 2 * 4
        self.lack = self.move * (q * self.n + 1)
        self.pair = self.lack * (q * self.n + 1) * 2

    def cost(self, rows: Rows) -> tuple[int, int]:
        """The cost of owners, and the sum of their squares by weight alone."""
        load = [sum(v in row for row in rows) for v in range(len(self.rack))]
        pairs = sum(
            self.rack[a] == self.rack[b] for row in rows for k, a in enumerate(row) for b in row[:k]
        )
        moves = sum(v not in old for row, old in zip(rows, self.rows) for v in row)
        return self.price(load, pairs, moves)

    def price(self, load: list[int] | tuple[int, ...], pairs: int, moves: int) -> tuple[int, int]:
        """The cost of owners with these loads, pairs of slots in one rack and moves, and the sum of
        the squares.
        """
        met = sum(min(load[v], self.part[v]) for v in self.after)
        squares = sum(load[v] ** 2 * self.unit // self.weight[v] for v in self.after)
        return pairs * self.pair - met * self.lack + moves * self.move + squares, squares

    def edges(self) -> Iterator[tuple[Vertex, Vertex, int, int]]:
        """A network whose flows are the choices of owners: partitions, their racks, members; each
        unit of a rack and of a member has its own cost.
        """
        for p, row in enumerate(self.rows):
            yield "from", ("p", p), self.n, 0
            for rack in set(self.rack[v] for v in self.after):
                for k in range(self.n):
                    yield ("p", p), ("r", p, rack), 1, k * self.pair
            for v in self.after:
                yield ("r", p, self.rack[v]), ("v", v), 1, 0 if v in row else self.move
        for v in self.after:
            for k in range(1, len(self.rows) + 1):
                yield ("v", v), "to", 1, (2 * k - 1) * self.unit // self.weight[v] - (
                    self.lack if k <= self.part[v] else 0
                )


def least(known: Known) -> int:
    """The least cost of all choices, by shortest augmenting paths (Bellman 1958, Ford 1956)."""
    edges: list[tuple[Vertex, int]] = []
    rooms: list[int] = []
    at: dict[Vertex, list[int]] = {}
    for a, b, room, cost in known.edges():
        for one, other, r, c in ((a, b, room, cost), (b, a, 0, -cost)):
            at.setdefault(one, []).append(len(edges))
            edges.append((other, c))
            rooms.append(r)
    total = 0
    for _ in range(len(known.rows) * known.n):
        far: dict[Vertex, int] = {"from": 0}
        way: dict[Vertex, int] = {}
        queue: list[Vertex] = ["from"]
        while queue:
            one = queue.pop(0)
            for k in at[one]:
                other, cost = edges[k]
                if rooms[k] and far[one] + cost < far.get(other, far[one] + cost + 1):
                    far[other], way[other] = far[one] + cost, k
                    if other not in queue:
                        queue.append(other)
        total += far["to"]
        one = "to"
        while one != "from":
            rooms[way[one]] -= 1
            rooms[way[one] ^ 1] += 1
            one = edges[way[one] ^ 1][0]
    return total


def judge(known: Known, answer: Rows | None) -> tuple[str | None, float]:
    """What is wrong with an answer, if something is, and how far from even it is."""
    if not known.has_plan or answer is None:
        return None if not known.has_plan and answer is None else "refused wrongly or not at all", 1
    rows = answer
    if len(rows) != len(known.rows) or any(
        len(set(row) & set(known.after)) != known.n or len(row) != known.n for row in rows
    ):
        return "no owners of the members", 1
    if any(
        v in row and row[k] != v for row, old in zip(rows, known.rows) for k, v in enumerate(old)
    ):
        return "an owner that stays has another index", 1
    cost, squares = known.cost(rows)
    over = cost - least(known)
    return (None if over < known.move else "not the best"), squares / (
        squares - over
    ) if over < known.move else 1


def main(count: int) -> int:
    faults, ratios = 0, []
    for number in range(count):
        fault, ratio = judge(Known(case(number)), answered(case(number)))
        ratios.append(ratio)
        if fault:
            faults += 1
            print("case %d: %s" % (number, fault))
    print(
        "%d wishes: %d faults; %d as even as the best, the worst %.3f times it"
        % (count, faults, ratios.count(1), max(ratios, default=1))
    )
    return 1 if faults else 0


if __name__ == "__main__":
    sys.exit(main(int(sys.argv[1]) if len(sys.argv) > 1 else 300))
