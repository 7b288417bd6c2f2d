#!/usr/bin/env python3
"""Racks that nobody names. It wants the program as it is built.

`trials/racks.py` tries 1,000 random rings, and `trials/racks.py COUNT [--first SEED] [--keep
FOLDER]` so many; FOLDER gets the bundle of each fault.

The names of a ring's nodes show their racks in one of four styles, and the ring keeps the slots of
its partitions apart by racks as far as it can. Nodes join, leave and die, before the change or in
its middle. No command is told of racks. Owed:
- `goal` and `around` end with no more partitions that share a rack than the ring began with, and no
  more pairs of slots in one rack. The exception: a search through all rows that a partition could
  have finds none that does better.
- `steps`, `show`, `draw` and `windows` print the same of the change and of the plan that `goal`
  prints for it, byte for byte, and `show` says the racks that the rows have.
- Standard error says which racks were found. It says that none are known if the names show none, or
  show them in two ways, or if the ring does not spread its slots over them.
- `goal` finds no plan only if a partition has fewer than R live owners, or too few members are
  left.
"""
import argparse
import json
import os
import random
import re
import sys
from collections import Counter
from collections.abc import Iterator
from concurrent.futures import ThreadPoolExecutor
from dataclasses import dataclass, field
from itertools import combinations, product

from changes import ask, rows_after
from ringplan import texts

# How names show racks, and what stands before the rack.
STYLES = (
    ("kv{node:02}.r{rack}", "."),
    ("kv-{node:02}-az{rack}", "-"),
    ("node{node}:rack{rack}", ":"),
    ("n_{node}_{rack}", "_"),
)
# Names that show no racks, or show them in two ways.
OTHERS = (("rack{rack}-n{node}", ""), ("n{node}r{rack}", ""), ("kv{node}.r{rack}-z{rack}", ""))
Rows = list[list[str]]


def rack_of(name: str, separator: str) -> str:
    """The rack that a name shows. Without a separator each node is in its own."""
    return name.rpartition(separator)[2] if separator else name


@dataclass
class Case:
    """A ring, and a change of it. The separator is empty if the names show no racks."""

    names: list[str]
    separator: str
    members: list[str]
    rows: Rows
    joins: list[str]
    leaves: list[str]
    dead: list[str]
    allowance: int
    read: int = field(init=False)

    def __post_init__(self) -> None:
        self.read = (len(self.rows[0]) + 2) // 2

    def text(self) -> str:
        """The ring and the change."""
        quorum = (len(self.rows[0]), self.read, self.read)
        ring = texts.Ring.of(self.names, self.members, self.rows, quorum, self.allowance)
        return texts.write_texts([ring, texts.Change(tuple(self.joins), tuple(self.leaves))])

    def rack(self, name: str) -> str:
        return rack_of(name, self.separator)

    def ends(self) -> list[str]:
        """The members in the end."""
        return [
            x for x in self.names if x in {*self.members, *self.joins} - {*self.leaves, *self.dead}
        ]

    def pairs(self, row: list[str]) -> int:
        """How many pairs of a partition's slots are in one rack."""
        return sum(self.rack(one) == self.rack(other) for one, other in combinations(row, 2))

    def is_known(self) -> bool:
        """Whether the names show racks: some are of two nodes, and no partition has more slots in
        one than an even spread gives it.
        """
        counts = Counter(self.rack(x) for x in {*self.members, *self.joins})
        most = -(-len(self.rows[0]) // max(1, len(counts)))
        return (
            bool(self.separator)
            and 2 <= len(counts) <= counts.total() // 2
            and all(max(Counter(map(self.rack, row)).values()) <= most for row in self.rows)
        )


class Fault(Exception):
    """What is wrong, and the bundle that shows it."""

    def __init__(self, words: str, bundle: str) -> None:
        super().__init__(words)
        self.bundle = bundle


def row_of(pick: random.Random, members: list[str], slots: int, separator: str) -> list[str]:
    """Owners of a partition's slots, over the racks as evenly as can be."""
    row: list[str] = []
    for _ in range(slots):
        used = Counter(rack_of(x, separator) for x in row)
        free = [x for x in members if x not in row]
        least = min(used[rack_of(x, separator)] for x in free)
        row.append(pick.choice([x for x in free if used[rack_of(x, separator)] == least]))
    return row


def case_of(seed: int) -> Case:
    pick = random.Random(seed)
    slots, kinds = pick.choice((2, 3, 3, 3, 4, 5)), pick.randint(2, 6)
    style, separator = pick.choice(OTHERS if pick.random() < 0.1 else STYLES)
    # Racks of several sizes; a fifth of the rings are as small as can be. Joiners are in any of
    # them, or in a new one.
    small = pick.random() < 0.2
    racks = [rack for rack in range(kinds) for _ in range(2 if small else pick.randint(1, 4))]
    racks += [pick.randrange(kinds) for _ in range(slots + 1 - len(racks))]
    pick.shuffle(racks)
    count = len(racks)
    racks += [pick.randrange(kinds + (pick.random() < 0.1)) for _ in range(pick.randint(1, 3))]
    names = [style.format(node=node, rack=rack) for node, rack in enumerate(racks)]
    members, out = names[:count], names[count:]
    rows = [
        row_of(pick, members, slots, separator)
        for _ in range(pick.choice((1, 2, 4, 8) if small else (8, 16, 32)))
    ]
    if pick.random() < 0.05:
        # A ring that does not keep its slots apart.
        rows[-1] = pick.sample(members, slots)
    joins = pick.sample(out, pick.randint(0, len(out)))
    leaves = pick.sample(members, min(max(0, count + len(joins) - slots - 1), pick.randint(0, 2)))
    dead = pick.sample(members, 1) if pick.random() < 0.3 else []
    return Case(names, separator, members, rows, joins, leaves, dead, pick.randint(1, 4))


def see_racks(
    case: Case, before: Rows, after: Rows, best: list[list[str]], what: str, bundle: str
) -> None:
    """Compares the racks that the rows share.

    `best` has for each partition the best row that it could have.
    """
    shared = [sum(case.pairs(row) > 0 for row in rows) for rows in (before, after, best)]
    pairs = [sum(map(case.pairs, rows)) for rows in (before, after, best)]
    for word, (first, last, least) in (
        ("partitions that share a rack", shared),
        ("pairs of slots in one rack", pairs),
    ):
        if last > max(first, least):
            raise Fault(
                f"{what} ends with {last} {word}, from {first}; {least} are possible", bundle
            )


def see_shown(case: Case, before: Rows, after: Rows, shown: str, bundle: str) -> None:
    """Compares what `show` says of the racks with the rows."""
    now, end = (sum(case.pairs(row) > 0 for row in rows) for rows in (before, after))
    line = (
        f"racks {now} {'partition has' if now == 1 else 'partitions have'} two slots in one rack"
        f" now, {end} in the end"
    )
    if line not in re.sub(r"\s+", " ", shown):
        raise Fault(f"`show` does not say {line!r}", bundle)


def see_goal(case: Case) -> str:
    """Asks for the plan of the change, and for what other commands say of both.

    Returns the plan, or an empty text if there rightly is none.
    """
    text, dead = case.text(), [word for name in case.dead for word in ("--dead", name)]
    plan, said, status = ask(["goal", *dead], text)
    if status:
        lost = [row for row in case.rows if len(set(row) - set(case.dead)) < case.read]
        if not said.startswith("no 28\n") or not lost and len(case.ends()) >= len(case.rows[0]):
            raise Fault(f"`goal` finds no plan: {said[:300]}", text)
        return ""
    found = re.search(r"racks: what follows the last (.) of a name \((.*)\)", said)
    if (
        (found is not None) != case.is_known()
        or found
        and found[1] != case.separator
        or not found
        and "no racks are known" not in said
    ):
        raise Fault(
            (
                f"the racks of {case.separator!r} are {'' if case.is_known() else 'not '}known, and"
                f" standard error says {said[:300]!r}"
            ),
            text,
        )
    for words in (["steps"], ["show"], ["draw"], ["windows", "--rounds", "1"]):
        if ask([*words, *dead], text)[0] != ask([*words, *dead], plan)[0]:
            raise Fault(f"`{words[0]}` prints something else of the change than of its plan", text)
    if found:
        after, _ = rows_after(case.rows, plan)
        best = min(
            combinations(case.ends(), len(case.rows[0])), key=lambda row: case.pairs(list(row))
        )
        see_racks(case, case.rows, after, [list(best)] * len(case.rows), "goal", text)
        see_shown(case, case.rows, after, ask(["show"], plan)[0], plan)
    return plan


def begun(pick: random.Random, plan: str) -> tuple[str, set[int]]:
    """A history of the plan that stops in its middle, and the steps that it has done: in any order
    that they allow. Some copies are open.
    """
    steps = [json.loads(line) for line in ask(["steps"], plan)[0].splitlines()]
    lines, done, opened, share = ["history 1"], set[int](), set[int](), pick.random()
    for _ in range(int(share * len(steps))):
        ready = [
            step
            for step in steps
            if step["step"] not in done | opened and done.issuperset(step["after"])
        ]
        if not ready:
            break
        step = pick.choice(ready)
        number = step["step"]
        if step["do"] != "copy":
            lines.append(f"do {number} = ok")
            done.add(number)
            continue
        is_whole = pick.random() < 0.8
        lines.append(f"open {number} = ok")
        lines += [
            f"chunk {number} {chunk} = ok"
            for chunk in range(16 if is_whole else pick.randrange(16))
        ]
        if is_whole:
            lines.append(f"close {number} = ok")
        (done if is_whole else opened).add(number)
    return "\n".join([*lines, "end", ""]), done


def rows_possible(
    case: Case,
    dead: set[str],
    present: list[str],
    planned: list[str],
    given: list[str],
    mirrors: dict[int, str],
    can_undo: bool,
) -> Iterator[list[str]]:
    """Each row that a partition could have in the end, if a dead node is in it: a move that has
    begun ends, and one to a dead node stays as it was given, or is undone.
    """
    others, choices = [x for x in case.ends() if x not in dead], []
    for index, (owner, last, now) in enumerate(zip(present, planned, given)):
        is_stuck = mirrors.get(index) in dead and (not can_undo or now in dead)
        choices.append(
            [now]
            if is_stuck
            else [last]
            if mirrors.get(index, last) not in dead and (index in mirrors or owner == last)
            else others
        )
    return (list(row) for row in product(*choices) if len(set(row)) == len(row))


def see_around(case: Case, plan: str, seed: int) -> str:
    """Lets a node die in the middle of the plan. Returns what came of it."""
    pick = random.Random(f"around {seed}")
    history, done = begun(pick, plan)
    (now, mirrors), (whole, _) = rows_after(case.rows, plan, done), rows_after(case.rows, plan)
    alive = [x for x in (*case.members, *case.joins) if x not in case.dead]
    dead, can_undo = {
        *case.dead,
        *pick.sample(alive, 2 if pick.random() < 0.15 else 1),
    }, pick.random() < 0.5
    words = [word for name in sorted(dead) for word in ("--dead", name)] + ["--back"] * can_undo
    rest, said, status = ask(["around", *words], plan + history)
    if status:
        if not said.startswith("no 28"):
            raise Fault(f"around {' '.join(words)}: {said[:300]}", plan + history)
        return "no plan"
    if ask(["replay"], rest)[0].split("\n")[0] != "yes":
        raise Fault(f"around {' '.join(words)}: the judge refuses the history", plan + history)
    after, _ = rows_after(case.rows, rest)
    best = []
    for number, (present, planned, given) in enumerate(zip(now, whole, after)):
        mine = {index: name for (partition, index), name in mirrors.items() if partition == number}
        # Slots of a partition with fewer than R live owners cannot be read.
        can_move = (
            dead.intersection([*present, *planned, *mine.values()])
            and len(set(present) - dead) >= case.read
        )
        rows = (
            rows_possible(case, dead, present, planned, given, mine, can_undo)
            if can_move
            else iter([given])
        )
        best.append(min(rows, key=case.pairs, default=given))
    see_racks(case, case.rows, after, best, f"around {' '.join(words)}", plan + history)
    # The new plan may leave out a join, and the names that are left may show too many racks.
    see_shown(case, now, after, ask(["show", "--racks-behind", case.separator], rest)[0], rest)
    return "around"


def tried(seed: int) -> tuple[str, Fault | None]:
    """What was tried, and what is wrong."""
    case = case_of(seed)
    try:
        plan = see_goal(case)
        return (
            see_around(case, plan, seed)
            if plan and case.is_known()
            else "goal"
            if plan
            else "refused"
        ), None
    except Fault as fault:
        return "fault", fault


def main() -> int:
    lines = argparse.ArgumentParser(
        description=__doc__, formatter_class=argparse.RawDescriptionHelpFormatter
    )
    lines.add_argument("count", nargs="?", type=int, default=1000)
    lines.add_argument("--first", type=int, default=1, metavar="SEED")
    lines.add_argument("--keep", metavar="FOLDER")
    asked = lines.parse_args()
    seeds, counts = range(asked.first, asked.first + asked.count), Counter[str]()
    with ThreadPoolExecutor(4) as threads:
        for seed, (kind, fault) in zip(seeds, threads.map(tried, seeds)):
            counts[kind] += 1
            if fault is not None:
                print(f"seed {seed}: {fault}", flush=True)
                if asked.keep:
                    os.makedirs(asked.keep, exist_ok=True)
                    with open(f"{asked.keep}/{seed}.bundle", "w") as file:
                        file.write(fault.bundle)
    print(
        f"{asked.count} changes whose racks nobody names: {dict(counts)}; {counts['fault']} faults"
    )
    return 1 if counts["fault"] else 0


if __name__ == "__main__":
    sys.exit(main())
