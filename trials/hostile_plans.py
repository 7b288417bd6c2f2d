#!/usr/bin/env python3
"""Bundles that a text's author could make to cost the checker much, for measuring.

    hostile_plans.py moves N    > bundle    one slot moved to and fro, N steps in all, each move's
                                copy in a fact and in two chains
    hostile_plans.py facts N    > bundle    the same 4,000 steps, and N facts, long ones first
    hostile_plans.py chains N   > bundle    N chains of each of two nodes, each with all copies of
                                180 moves
    hostile_plans.py names N    > bundle    1,024 names that differ in their last bytes, looked up N
                                times
    hostile_plans.py rows N     > bundle    N steps that wait for 4,096 others, with wide numbers
    hostile_plans.py retires N  > bundle    many slots moved to one node, N steps, which then
                                retires

Plans that the checker refuses, whose reasons cost much to find:

    hostile_plans.py fields N   > bundle    a line `drop` of N fields
    hostile_plans.py twice N    > bundle    a step that waits for N others, for the last one twice
    hostile_plans.py repeats N  > bundle    1,024 nodes, N partitions and N steps, and a node that
                                joins twice
    hostile_plans.py swapped N  > bundle    N partitions of seven slots, the last two in the wrong
                                order
    hostile_plans.py last N     > bundle    one slot moved to and fro, N steps in all; the last link
                                of a chain has no fact
    hostile_plans.py gaps N     > bundle    the same with N/2 steps, and N facts before those of the
                                links
    hostile_plans.py sources N  > bundle    a copy that reads a slot, which then moves N/8 times,
                                with N facts before those of the moves
    hostile_plans.py leaves N   > bundle    one slot moved to and fro, N steps in all, and the node
                                retires without waiting

Each prints one bundle of ring, plan and certificate. Limits: 131,072 steps, 262,144 facts, 65,536
chains, 524,288 dependencies and 64 MiB.
"""
import sys
from collections.abc import Callable, Sequence

# The lines of a ring, of a plan and of a certificate.
Parts = tuple[list[str], list[str], list[str]]


def ring_of(
    nodes: Sequence[str],
    slots: Sequence[Sequence[str]],
    quorum: str = "3 2 2",
    form: str = "ring 1",
    allowance: str = "64",
) -> list[str]:
    """A ring of these nodes, all of them members, and of these rows of owners."""
    out = [form, "space %d" % len(slots), "quorum " + quorum]
    out += ["node %s %s in" % (name, allowance) for name in nodes]
    return out + ["slots %d %s" % (p, " ".join(row)) for p, row in enumerate(slots)] + ["end"]


def ring(
    nodes: Sequence[str],
    partitions: int,
    rows: Callable[[int], Sequence[str]],
    quorum: str = "3 2 2",
) -> list[str]:
    return ring_of(nodes, [rows(p) for p in range(partitions)], quorum)


def to_and_fro(steps: int, after: Sequence[Sequence[int]] = ()) -> list[str]:
    """The lines of so many steps in which slot 0 of partition 0 moves between a and d.

    Each waits for the one before it, and for those in `after`. Copies are steps 1, 5, 9 and so on.
    """
    lines = []
    for n in range(steps):
        old, new = ("a", "d") if n // 4 % 2 == 0 else ("d", "a")
        line = ["mirror 0 0 " + new, "copy 0 0 owner", "switch 0 0", "drop 0 0 " + old][n % 4]
        waits = sorted({*([n - 1] if n else []), *(after[n] if n < len(after) else ())})
        lines.append(line + (" after " + " ".join(map(str, waits)) if waits else ""))
    return lines


def path(copy: int) -> str:
    """From one copy of these moves to the next."""
    return "fact " + " ".join(str(s) for s in range(copy, copy + 5))


def small() -> list[str]:
    return ring("abcd", 1, lambda p: "abc")


def moves(n: int) -> Parts:
    plan = to_and_fro(n // 4 * 4)
    copies = range(1, len(plan), 4)
    cert = [path(c) for c in copies[:-1]]
    cert += ["chain %s %s" % (x, " ".join(map(str, copies))) for x in "ad"]
    return small(), plan, cert


def facts(n: int) -> Parts:
    plan = to_and_fro(4000)
    cert = []
    for k in range(n):
        first = (k * 7) % 2900
        length = 1024 if k < 6000 else 2 + k % 7
        cert.append("fact " + " ".join(map(str, range(first, first + length))))
    return small(), plan, cert


def chains(n: int) -> Parts:
    plan = to_and_fro(720)
    copies = range(1, len(plan), 4)
    row = " ".join(map(str, copies))
    cert = [path(c) for c in copies[:-1]]
    cert += ["chain %s %s" % (x, row) for k in range(n) for x in "ad"]
    return small(), plan, cert


def names(n: int) -> Parts:
    nodes = ["n" * 28 + "%04d" % k for k in range(1024)]
    plan = ["drop %d 1 %s" % (k % 4096, nodes[(k * 37) % 1024]) for k in range(n)]
    return ring(nodes, 4096, lambda p: nodes[p % 1000 : p % 1000 + 3]), plan, []


def rows(n: int) -> Parts:
    plan = ["switch 0 0" for _ in range(4096)]
    plan += ["switch 0 0 after " + " ".join(map(str, range(4096))) for _ in range(n)]
    return small(), plan, []


def retires(n: int) -> Parts:
    nodes = ["a", "b", "c", "d"]
    plan: list[str] = []
    for k in range((n - 1) // 4):
        p, first = k % 4096, 4 * k
        if k < 4096:
            plan += [
                "mirror %d 0 d" % p,
                "copy %d 0 owner after %d" % (p, first),
                "switch %d 0 after %d" % (p, first + 1),
                "drop %d 0 a after %d" % (p, first + 2),
            ]
    plan.append("retire d")
    return ring(nodes, 4096, lambda p: "abc"), plan, []


def fields(n: int) -> Parts:
    return small(), ["drop 0 0 n0000 " + " ".join("1" for _ in range(n - 4))], []


def twice(n: int) -> Parts:
    return small(), ["drop 0 0 a after " + " ".join(map(str, [*range(n), n - 1]))], []


def large(partitions: int) -> list[str]:
    """A ring of 1,024 nodes with long names and seven slots a partition."""
    nodes = ["n" * 28 + "%04d" % k for k in range(1024)]
    out = ring(nodes, partitions, lambda p: nodes[p % 1000 : p % 1000 + 7])
    return ["quorum 7 4 4" if line.startswith("quorum") else line for line in out]


def repeats(n: int) -> Parts:
    front = [line.replace("1023 64 in", "1023 64 out") for line in large(n)]
    join = "join " + "n" * 28 + "1023"
    return (
        front,
        ["switch 0 0"] * min(n, 4000) + [join] + ["switch 0 0"] * max(0, n - 4000) + [join],
        [],
    )


def swapped(n: int) -> Parts:
    front = large(n)
    front[-3:-1] = front[-2], front[-3]
    return front, [], []


def last(n: int) -> Parts:
    front, plan, cert = moves(n)
    return front, plan, cert[: len(plan) // 4 - 2] + cert[-2:]


def gaps(n: int) -> Parts:
    front, plan, cert = last(n // 2)
    return front, plan, ["fact 0 1"] * n + cert


def sources(n: int) -> Parts:
    plan = ["mirror 0 1 e", "copy 0 1 slots 0 2 after 0"]
    cert = ["fact 0 1"] * n
    for move in range(n // 8):
        old, new = ("a", "d") if move % 2 == 0 else ("d", "a")
        first = len(plan)
        plan += [
            "mirror 0 0 %s after 1%s" % (new, " %d" % (first - 1) if move else ""),
            "copy 0 0 owner after %d" % first,
            "switch 0 0 after %d" % (first + 1),
            "drop 0 0 %s after %d" % (old, first + 2),
        ]
        cert.append("fact 1 %d %d %d" % (first, first + 1, first + 2))
    return ring("abcde", 1, lambda p: "abc"), plan, cert[:-1]


def leaves(n: int) -> Parts:
    return small(), to_and_fro((n - 1) // 4 * 4) + ["retire d"], []


KINDS = {
    f.__name__: f
    for f in (
        moves,
        facts,
        chains,
        names,
        rows,
        retires,
        fields,
        twice,
        repeats,
        swapped,
        last,
        gaps,
        sources,
        leaves,
    )
}


def bundle(name: str, number: int) -> str:
    front, plan, cert = KINDS[name](number)
    return "\n".join(front + ["plan 1"] + plan + ["end", "cert 1"] + cert + ["end"]) + "\n"


if __name__ == "__main__":
    if len(sys.argv) != 3 or sys.argv[1] not in KINDS:
        sys.exit(__doc__)
    sys.stdout.write(bundle(sys.argv[1], int(sys.argv[2])))
