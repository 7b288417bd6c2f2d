#!/usr/bin/env python3
"""How even by sizes the rings are that `ringplan goal --layout` makes.

It wants the program as it is built. `trials/sizes.py` tries 40 random changes, and with `--all`
500: of 8 to 128 partitions, whose sizes are all 1, or 0 for a quarter, or 50 to 150, or log-normal,
or as 1/k; and 192 ranges that are filled up to 256 by rows without keys.

Of 200 of the plans, or all of fewer, `show --layout` is compared with a count of its own: what
moves in all, by node and by round, the most that copies have of which each waits for the one
before, and when the plan ends at the earliest.

A ring is wrong where a slot has a new owner that is no leaver's and does not go, with keys, to a
joiner that stores no more than its share; where a partition has more pairs of slots in one rack
than before; and where the checker refuses the plan. The trial is wrong where more than one change
of 500 has a joiner farther from its share than the largest size.
"""
import json
import random
import re
import sys
import tempfile
from collections import Counter
from dataclasses import dataclass
from itertools import combinations

from changes import made, owners, steps_of
from ringplan import texts

# How many plans are shown at most.
SHOWN = 200
KINDS = ["ones", "keyless", "even", "wide", "zipf"]


@dataclass
class Case:
    """A ring, a change of it, and the sizes of its partitions."""

    names: list[str]
    members: set[str]
    rows: list[list[str]]
    joins: list[str]
    leaves: list[str]
    sizes: list[int]
    weights: dict[str, int]

    def after(self) -> list[str]:
        """Who is a member in the end."""
        return [v for v in self.names if v in self.members and v not in self.leaves] + self.joins

    def share(self, node: str) -> float:
        """The node's part by weight of all that is stored: at most one slot of each partition."""
        whole = sum(self.weights.get(v, 1) for v in self.after())
        return min(
            sum(self.sizes) * len(self.rows[0]) * self.weights.get(node, 1) / whole, sum(self.sizes)
        )

    def bundle(self) -> str:
        n = len(self.rows[0])
        quorum = (n, n // 2 + 1, n // 2 + 1)
        ring = texts.Ring.of(self.names, self.members, self.rows, quorum, 2, form=2)
        return texts.write_texts([ring, texts.Change(tuple(self.joins), tuple(self.leaves))])


def rack(node: str) -> str:
    return node.split(".")[1]


def sizes_of(kind: str, count: int, pick: random.Random) -> list[int]:
    if kind == "ones":
        return [1] * count
    if kind == "keyless":
        return [int(p < count * 3 // 4) for p in range(count)]
    if kind == "even":
        return [pick.randrange(50, 151) for _ in range(count)]
    if kind == "wide":
        return [int(100 * pick.lognormvariate(0, 1)) + 1 for _ in range(count)]
    return [10000 // (p + 1) for p in range(count)]


def drawn(number: int) -> Case:
    """The random change of that number."""
    pick = random.Random(number)
    q, n, racks = (
        pick.choice([8, 16, 32, 64, 128]),
        pick.choice([2, 3, 3, 5]),
        pick.choice([0, 0, 3, 5]),
    )
    racks = max(racks, n) if racks else 0
    count, fresh = pick.randrange(max(n, racks) + 2, 18), pick.randrange(1, 4)
    names = ["n%02d.r%d" % (v, v % racks if racks else v) for v in range(count + fresh)]
    members, load = names[:count], Counter[str]()
    rows: list[list[str]] = []
    for _ in range(q):
        row: list[str] = []
        for _ in range(n):
            free = [v for v in members if v not in row and rack(v) not in map(rack, row)]
            row.append(
                pick.choice(free)
                if pick.random() < 0.3
                else min(free, key=lambda v: (load[v], pick.random()))
            )
            load[row[-1]] += 1
        rows.append(row)
    leaves = pick.sample(members, pick.choice([0, 0, 1]) if count > n + 1 else 0)
    weights = {v: pick.randrange(1, 4) for v in names} if pick.random() < 0.3 else {}
    return Case(
        names,
        set(members),
        rows,
        names[count:],
        leaves,
        sizes_of(KINDS[number % 5], q, pick),
        weights,
    )


def by_sizes(case: Case, words: list[str], text: str) -> str:
    """What a command prints that is given the sizes and the weights."""
    with tempfile.NamedTemporaryFile("w", suffix=".layout") as file:
        file.write("layout 1\n")
        file.writelines("size %d %d\n" % (p, size) for p, size in enumerate(case.sizes))
        file.writelines("weight %s %d\n" % (v, weight) for v, weight in case.weights.items())
        file.write("end\n")
        file.flush()
        return made([*words, "--layout", file.name], text)


def planned(case: Case) -> tuple[str, list[list[str]]]:
    """The plan by sizes, which the checker accepts, and the owners after it."""
    plan = by_sizes(case, ["goal", "--racks-behind", "."], case.bundle())
    if made(["check"], plan) != "yes\n":
        raise SystemExit("the checker refuses a plan by sizes")
    return plan, owners(made(["after"], plan))


@dataclass
class Moved:
    """What a plan moves, in sizes."""

    whole: int
    gives: Counter[str]
    takes: Counter[str]
    rounds: list[int]
    longest: int


def moved(case: Case, plan: str) -> Moved:
    """What the plan moves, counted step by step."""
    owner = {(p, i): v for p, row in enumerate(case.rows) for i, v in enumerate(row)}
    mirror: dict[tuple[int, int], str] = {}
    it = Moved(0, Counter(), Counter(), [], 0)
    rounds: list[int] = []
    sums: list[int] = []
    for fields, waits in steps_of(plan):
        rounds.append(max((rounds[k] for k in waits), default=0))
        sums.append(max((sums[k] for k in waits), default=0))
        if fields[0] not in ("mirror", "copy", "switch"):
            continue
        slot = int(fields[1]), int(fields[2])
        size = case.sizes[slot[0]]
        if fields[0] == "mirror":
            mirror[slot] = fields[3]
            it.whole += size
            it.takes[fields[3]] += size
        elif fields[0] == "switch":
            owner[slot] = mirror.pop(slot)
        else:
            rounds[-1] += 1
            sums[-1] += size
            it.rounds += [0] * (rounds[-1] - len(it.rounds))
            it.rounds[rounds[-1] - 1] += size
            for v in (
                {owner[slot[0], int(i)] for i in fields[4:]}
                if fields[3] == "slots"
                else {owner[slot]}
            ):
                it.gives[v] += size
    it.longest = max(sums, default=0)
    return it


def time_words(seconds: int) -> str:
    """The seconds as they are said."""
    if seconds < 120:
        return "%d s" % seconds
    if seconds < 3600:
        return "%d min %02d s" % divmod(seconds, 60)
    return "%d h %02d min" % (seconds // 3600, seconds % 3600 // 60)


def shown_wrong(case: Case, plan: str, rate: int) -> str:
    """What `show --layout` says otherwise than the count, if something is."""
    it = moved(case, plan)
    words = ["--all", "--rate", str(rate)]
    found = json.loads(by_sizes(case, ["show", "--format", "json", *words], plan))
    end = -(-it.longest // rate)
    owed = {
        "moves_size": it.whole,
        "rounds_size": it.rounds,
        "longest_size": it.longest,
        "earliest_end": end,
    }
    stated = {key: found[key] for key in owed}
    if stated != owed:
        return "show states %s in place of %s" % (stated, owed)
    for node in found["nodes"]:
        counted = (it.gives[node["name"]], it.takes[node["name"]])
        if (node["gives_size"], node["takes_size"]) != counted:
            return "show states %s" % node
    text = by_sizes(case, ["show", *words], plan)
    line = (
        "sizes %d in all; copies that wait for one another have up to %d, so at %d a second the"
        " plan ends in %s at the earliest" % (it.whole, it.longest, rate, time_words(end))
    )
    if line not in re.sub(r"\s+", " ", text):
        return "show says otherwise than: " + line
    moves = [fields for fields in map(str.split, text.splitlines()) if "->" in fields]
    rows = {it[1]: it[it.index("->") - 3 : it.index("->") - 1] for it in moves}
    for v, sizes in rows.items():
        if [int(size.replace(".", "0")) for size in sizes] != [it.gives[v], it.takes[v]]:
            return "show says that %s gives and takes %s" % (v, sizes)
    if {v for v in case.names if it.gives[v] or it.takes[v]} - set(rows):
        return "show leaves out a node that gives or takes"
    lines = [size for size in re.findall(r"^ +\d+  +\d+ +(\d+|\.)   \S", text, re.MULTILINE)]
    if [int(size.replace(".", "0")) for size in lines] != it.rounds:
        return "show says that rounds move %s" % lines
    return ""


def loads_of(case: Case, rows: list[list[str]]) -> Counter[str]:
    loads = Counter[str]()
    for size, row in zip(case.sizes, rows):
        for v in row:
            loads[v] += size
    return loads


def pairs(row: list[str]) -> int:
    return sum(rack(a) == rack(b) for a, b in combinations(row, 2))


def fault(case: Case, rows: list[list[str]]) -> str:
    """What is wrong with the owners, if something is."""
    loads, after = loads_of(case, rows), case.after()
    # Where the last node of a rack leaves, fewer racks than slots may be left.
    has_racks = len(set(map(rack, after))) >= len(case.rows[0])
    total, whole = sum(case.sizes) * len(case.rows[0]), sum(case.weights.get(v, 1) for v in after)
    for p, (old, new) in enumerate(zip(case.rows, rows)):
        if len(set(new)) < len(new) or not set(new) <= set(after):
            return "partition %d has an owner twice, or one that is no member" % p
        if has_racks and case.sizes[p] and pairs(new) > pairs(old):
            return "partition %d has more slots in one rack" % p
        for x, y in zip(old, new):
            is_fair = (
                y in case.joins
                and case.sizes[p] > 0
                and loads[y] * whole <= total * case.weights.get(y, 1)
            )
            if x != y and x not in case.leaves and not is_fair:
                return "a slot of partition %d goes from %s to %s" % (p, x, y)
    return ""


def distance(case: Case, rows: list[list[str]]) -> float:
    """How far the worst joiner is from its share, in largest sizes."""
    loads = loads_of(case, rows)
    return max(abs(loads[v] - case.share(v)) for v in case.joins) / max(case.sizes)


def is_forced(case: Case) -> bool:
    """Whether racks decide a joiner's load: there are as many as slots, and a leaver's slots stay
    in its rack.
    """
    has_few = len(set(map(rack, case.names))) == len(case.rows[0])
    return has_few and any(rack(v) in map(rack, case.joins) for v in case.leaves)


def table() -> Case:
    """192 ranges of 12 nodes with 16 tokens in three racks, filled up to 256 by rows without keys;
    three nodes join.
    """
    pick = random.Random(3)
    names = ["n%02d.r%d" % (v + 1, v % 3 + 1) for v in range(15)]
    tokens = [v for v in names[:12] for _ in range(16)]
    pick.shuffle(tokens)
    rows: list[list[str]] = []
    for t in range(192):
        row: list[str] = []
        for step in range(192):
            v = tokens[(t + step) % 192]
            if len(row) < 3 and rack(v) not in map(rack, row):
                row.append(v)
        rows.append(row)
    return Case(
        names, set(names[:12]), rows + [rows[0]] * 64, names[12:], [], [1] * 192 + [0] * 64, {}
    )


def tell_table() -> bool:
    case = table()
    _, rows = planned(case)
    before, after = loads_of(case, case.rows), loads_of(case, rows)
    print(
        "192 ranges filled up to 256, ranges before and after: "
        + ", ".join("%s %d %d" % (v[:3], before[v], after[v]) for v in case.names)
    )
    wrong = fault(case, rows)
    if not wrong and distance(case, rows) > 1:
        wrong = "a joiner is farther than one range from its share"
    if not wrong and any(sum(v in case.joins for v in row) > 1 for row in rows):
        wrong = "a partition has two joiners"
    print(wrong or "each joiner has its share, and no row without keys moves")
    return not wrong


def main() -> int:
    count = 500 if "--all" in sys.argv else 40
    good, forced, far, worst = tell_table(), 0, 0, 0.0
    for number in range(count):
        case = drawn(number)
        plan, rows = planned(case)
        wrong = fault(case, rows)
        if number < SHOWN and not wrong:
            wrong = shown_wrong(case, plan, random.Random(number).choice([1, 7, 100, 4294967295]))
        if wrong:
            print("change %d (%s): %s" % (number, KINDS[number % 5], wrong))
            good = False
        if is_forced(case):
            forced += 1
            continue
        far += distance(case, rows) > 1
        worst = max(worst, distance(case, rows))
    print("%d plans shown" % min(count, SHOWN))
    print(
        "%d random changes: %d with a joiner farther than the largest size from its share, the"
        " worst %.2f; %d not counted, whose racks decide" % (count, far, worst, forced)
    )
    return 0 if good and far <= 1 else 1


if __name__ == "__main__":
    sys.exit(main())
