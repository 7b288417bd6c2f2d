#!/usr/bin/env python3
"""Tries `ringplan part` from outside; it wants the program as it is built, and Debian's package
`parallel`. `trials/parts.py COUNT` tries so many random histories, else 100.

Histories: plays of random changes of rings of 2 to 16 partitions, drawn from fixed seeds, with puts
that know gets, hints, handoffs, aborted copies and lost stores. Each is judged as it is, and with
one entry lost, doubled, moved, exchanged with another, or with another number, node or reply, or
with a node down.

Owed: a cut of this trial's own makes the histories of three parts: the first entry that `replay`
refuses in any of them, counted in the whole, and the greatest number of those that are refused
there, is what it refuses of the whole. `part` prints the bundles of that cut, byte for byte, for
parts modulo a number and for ranges of partitions, and `part --map` the places. So it is where GNU
parallel judges the parts of a history on two machines, as it thinks: a script in the place of `ssh`
runs the commands here.

Samples of keys: all of the puts and gets of some keys; and, of each partition that has one of these
keys, all hints and handoffs. A put of another key comes right before its first hint, without what
it knows. Owed: a sample of a run is a run. No sample is refused before the whole is. Where the
sample has the entry at which the whole is refused, it is refused there by the same number, but for
a `do` (48) or a `chunk` (42) that is refused for hints in partitions without a chosen key.
"""
import os
import random
import subprocess
import sys
import tempfile
from collections import Counter
from collections.abc import Callable

from changes import Wrong, ask, place, to_a_ring, to_members, with_history
from machine import Machine
from measured import RUN
from ringplan import texts
from traffic import Traffic

SHARES = 3
# How many entries, at least, a history has that is judged on two machines, and in how many parts.
LENGTH, PARTS = 300, 4
MANY = 4294967295
CLIENTS = ("put", "write", "hint", "ack", "get", "read", "endget", "handoff")


class Numbers(dict[int, int]):
    """The puts, or the gets, of the part: by their numbers in the whole those in the part."""

    started = 0

    def start(self, is_mine: bool) -> None:
        if is_mine:
            self[self.started] = len(self)
        self.started += 1

    def is_seen(self, number: int) -> bool:
        return number in self or number >= self.started

    def new(self, number: int) -> int:
        return self.get(number, len(self))

    def all(self, numbers: list[int]) -> list[int]:
        return [self[it] for it in numbers] if all(it in self for it in numbers) else [len(self)]


class Cut:
    """A part of a history: of some partitions, and perhaps of some keys."""

    def __init__(self, bits: int, is_in: Callable[[int], bool], keys: set[str] | None) -> None:
        self.bits, self.is_in, self.keys = bits, is_in, keys
        self.puts, self.gets, self.out = Numbers(), Numbers(), list[tuple[int, str]]()
        # Puts of no chosen key: those that were not hinted so far, and those that were.
        self.others, self.hinted = dict[int, str](), set[int]()
        self.tables = dict.fromkeys(texts.OF_PUTS, self.puts)
        self.tables |= dict.fromkeys(texts.OF_GETS, self.gets)

    def take(self, number: int, line: str) -> None:
        event, reply = (half.split() for half in line.split(" = "))
        is_kept = self.keeps(number, event)
        if event[0] == "put" and event[5:]:
            event[5:] = map(str, self.gets.all([int(it) for it in event[5:]]))
        if event[0] in ("put", "get"):
            (self.puts if event[0] == "put" else self.gets).start(is_kept)
        if not is_kept:
            return
        if reply[0] in ("put", "get"):
            reply[1] = str((self.puts if reply[0] == "put" else self.gets).new(int(reply[1])))
        elif reply[0] in ("found", "reply"):
            reply[1:] = map(str, self.puts.all([int(it) for it in reply[1:]]))
        self.out.append((number, " ".join(event) + " = " + " ".join(reply)))

    def keeps(self, number: int, event: list[str]) -> bool:
        """Whether the part has the entry. A put or a get of the event gets its new number."""
        if event[0] in ("put", "get"):
            return self.keeps_key(event)
        if event[0] == "handoff":
            return int(event[2]) >= 1 << self.bits or self.is_in(int(event[2]))
        if event[0] not in self.tables:
            return True
        table, of = self.tables[event[0]], int(event[1])
        if event[0] == "hint" and of in self.others:
            self.out.append((number, self.others.pop(of) + " = put %d" % len(self.puts)))
            self.puts[of] = len(self.puts)
            self.hinted.add(of)
        is_hinted = event[0] in ("write", "ack") and of in self.hinted
        is_kept = table.is_seen(of) and not is_hinted
        event[1] = str(table.new(of))
        return is_kept

    def keeps_key(self, event: list[str]) -> bool:
        key = event[2 if event[0] == "put" else 1]
        is_in = self.is_in(place(key, self.bits))
        is_kept = is_in and (self.keys is None or key in self.keys)
        if event[0] == "put" and is_in and not is_kept:
            self.others[self.puts.started] = " ".join(event[:4])
        return is_kept


def cut(
    entries: list[str], bits: int, is_in: Callable[[int], bool], keys: set[str] | None = None
) -> list[tuple[int, str]]:
    """The entries of the part, each with its place in the whole.

    With keys they are the part's sample.
    """
    part = Cut(bits, is_in, keys)
    for number, line in enumerate(entries):
        part.take(number, line)
    return part.out


def edited(entries: list[str], names: list[str], draw: random.Random) -> list[str]:
    """The entries with one of them changed, of nodes of these names."""
    entries, at, other, kind = (
        list(entries),
        draw.randrange(len(entries)),
        draw.randrange(len(entries)),
        draw.randrange(8),
    )
    few = [
        i for i, line in enumerate(entries) if line.startswith(("hint", "handoff", "lose", "do"))
    ]
    if few and draw.random() < 0.4:
        at = draw.choice(few)
    if kind == 0:
        del entries[at]
    elif kind == 1:
        entries.insert(other, entries[at])
    elif kind == 2:
        entries.insert(other, entries.pop(at))
    elif kind == 3:
        entries[at], entries[other] = entries[other], entries[at]
    elif kind == 4:
        entries.insert(at, "down %s = ok" % draw.choice(names))
    else:
        fields, others = entries[at].split(), entries[other].split()
        numbers, nodes = [i for i, it in enumerate(fields) if it.isdigit()], [
            i for i, it in enumerate(fields) if it in names
        ]
        if kind == 5 and numbers:
            fields[draw.choice(numbers)] = str(draw.choice([0, 1, 2, 3, 40, len(entries), MANY]))
        elif kind == 6 and nodes:
            fields[draw.choice(nodes)] = draw.choice(names)
        else:
            fields[fields.index("=") :] = others[others.index("=") :]
        entries[at] = " ".join(fields)
    return entries


def first_fault(answer: str) -> tuple[int, int] | None:
    """The entry at which a history is refused, and the number."""
    fields = answer.split("\n")[0].split()
    if fields[:2] == ["no", "70"]:
        return int(fields[2]), int(fields[3])
    if fields != ["yes"]:
        raise Wrong("replay: " + answer[:100])
    return None


def earliest(faults: list[tuple[int, int]]) -> tuple[int, int] | None:
    """The first entry of the whole at which a part is refused, and the greatest number of those
    there.
    """
    return min(faults, key=lambda it: (it[0], -it[1])) if faults else None


def see_part(
    words: list[str], text: str, bundle: str, mine: list[tuple[int, str]], draw: random.Random
) -> str:
    """A part as the program cuts it, which is that of this trial."""
    part = with_history(bundle, [line for _, line in mine])
    found = ask(["part", *words], text)
    if found != (part, "", 0):
        raise Wrong("part %s: %s" % (words, found))
    for number in {0, len(mine) - 1, draw.randrange(len(mine))} if mine else ():
        found = ask(["part", *words, "--map", str(number)], text)
        if found != ("%d\n" % mine[number][0], "", 0):
            raise Wrong("part %s --map %d: %s, not %d" % (words, number, found, mine[number][0]))
    return part


def replay_parts(store: Traffic, bundle: str, entries: list[str]) -> tuple[int, int] | None:
    text, space = with_history(bundle, entries), 1 << store.machine.bits
    faults = list[tuple[int, int]]()
    for share in range(SHARES):
        mine = cut(entries, store.machine.bits, lambda partition: partition % SHARES == share)
        part = see_part(["--of", str(SHARES), "--part", str(share)], text, bundle, mine, store.draw)
        fault = first_fault(ask(["replay"], part)[0])
        if fault:
            faults.append((mine[fault[0]][0], fault[1]))
    first = store.draw.randrange(space)
    last = store.draw.randrange(first, space)
    see_part(
        ["--partitions", "%d-%d" % (first, last)],
        text,
        bundle,
        cut(entries, store.machine.bits, lambda partition: first <= partition <= last),
        store.draw,
    )
    return earliest(faults)


def parallel(path: str, parts: int, *words: str) -> list[str]:
    """The command that prints the first line of each part's answer."""
    line = f"{RUN} part --of {parts} --part {{}} {path} | {RUN} replay | sed -n 1p"
    return ["parallel", "--will-cite", "--keep-order", *words, line, ":::", *map(str, range(parts))]


def map_back(path: str, answers: list[str]) -> tuple[int, int] | None:
    """What the answers of all parts say of the whole."""
    faults = list[tuple[int, int]]()
    for part, answer in enumerate(answers):
        fault = first_fault(answer)
        if fault:
            ran = subprocess.run(
                [
                    RUN,
                    "part",
                    "--of",
                    str(len(answers)),
                    "--part",
                    str(part),
                    "--map",
                    str(fault[0]),
                    path,
                ],
                stdout=subprocess.PIPE,
                text=True,
                check=True,
            )
            faults.append((int(ran.stdout), fault[1]))
    return earliest(faults)


def judge_on_machines(folder: str, text: str) -> tuple[int, int] | None:
    path, ssh, called = folder + "/bundle", folder + "/ssh", folder + "/called"
    with open(path, "w") as file:
        file.write(text)
    with open(ssh, "w") as file:
        # As `sshd` does, it names a shell: without one the command, which GNU parallel wraps, does
        # nothing.
        file.write(
            '#!/bin/sh\necho "$1" >> %s\nshift 2\nexport SHELL=/bin/sh\nexec sh -c "$*"\n' % called
        )
    os.chmod(ssh, 0o755)
    ran = subprocess.run(
        parallel(path, PARTS, "--ssh", ssh, "-S", "2/one.example,2/two.example"),
        stdout=subprocess.PIPE,
        text=True,
        check=True,
    )
    with open(called) as file:
        if set(file.read().split()) != {"one.example", "two.example"}:
            raise Wrong("a machine had nothing to do")
    answers = ran.stdout.splitlines()
    if len(answers) != PARTS:
        raise Wrong("%d parts are judged: %s" % (PARTS, answers))
    return map_back(path, answers)


def machines() -> str:
    """A history, judged on two machines as it is, and with one entry changed and refused."""
    made = (history_of(number) for number in range(100))
    store, bundle, entries = next(it for it in made if it and len(it[2]) >= LENGTH)
    texts, answers = [with_history(bundle, entries)], list[str]()
    while len(texts) < 4:
        text = with_history(bundle, edited(entries, store.machine.ring.names, store.draw))
        if ask(["replay"], text)[0].startswith("no 70"):
            texts.append(text)
    for text in texts:
        fault = first_fault(ask(["replay"], text)[0])
        with tempfile.TemporaryDirectory() as folder:
            found = judge_on_machines(folder, text)
        if found != fault:
            raise Wrong("two machines say %s, the whole %s" % (found, fault))
        answers.append("refused at entry %d by %d" % fault if fault else "right")
    return "on two machines, of %d entries: %s" % (len(entries), ", ".join(answers))


def may_pass(store: Traffic, line: str, code: int, partitions: set[int]) -> bool:
    """Whether an entry may be refused in the whole for hints that a sample leaves out."""
    word, number = line.split()[:2]
    if (word, code) not in (("do", 48), ("chunk", 42)):
        return False
    step = store.machine.steps[int(number)]
    return step.kind == "retire" or step.partition not in partitions


def judge_samples(
    store: Traffic,
    bundle: str,
    entries: list[str],
    fault: tuple[int, int] | None,
    tally: Counter[str],
) -> None:
    known = sorted(
        {
            line.split()[1 + line.startswith("put ")]
            for line in entries
            if line.startswith(("put ", "get "))
        }
    )
    for keys in (set(store.draw.sample(known, min(len(known), count))) for count in (1, 3)):
        partitions = {place(key, store.machine.bits) for key in keys}
        mine = cut(entries, store.machine.bits, partitions.__contains__, keys)
        found = first_fault(ask(["replay"], with_history(bundle, [line for _, line in mine]))[0])
        of_sample = (mine[found[0]][0], found[1]) if found else None
        has_it = fault is not None and any(number == fault[0] for number, _ in mine)
        if fault and has_it and not may_pass(store, entries[fault[0]], fault[1], partitions):
            is_right, what = of_sample == fault, "samples refused where the whole is"
        elif fault:
            is_right = of_sample is None or of_sample[0] > fault[0] - has_it
            what = "samples %s where the whole is refused %s" % (
                "refused later" if of_sample else "right",
                "for hints that they have not" if has_it else "at an entry that they have not",
            )
        else:
            is_right, what = of_sample is None, "samples of right ones right"
        if not is_right:
            raise Wrong("the sample of %s says %s, the whole %s" % (sorted(keys), of_sample, fault))
        tally[what] += 1


def judge(store: Traffic, bundle: str, entries: list[str], tally: Counter[str]) -> None:
    whole = ask(["replay"], with_history(bundle, entries))
    if not whole[0].startswith(("yes", "no 70")):
        tally["with a line at fault"] += 1
        return
    fault, of_parts = first_fault(whole[0]), replay_parts(store, bundle, entries)
    if of_parts != fault:
        raise Wrong("the parts say %s, the whole %s" % (of_parts, fault))
    tally["refused by %d" % fault[1] if fault else "right"] += 1
    judge_samples(store, bundle, entries, fault, tally)


def history_of(number: int) -> tuple[Traffic, str, list[str]] | None:
    """A store with its traffic, its bundle without the history, and the entries of that."""
    draw = random.Random(number)
    lossy = draw.random() < 0.3
    ring, text = to_a_ring(draw, lossy) if lossy or draw.random() < 0.5 else to_members(draw)
    bundle, _, status = ask(["goal"], text)
    steps = texts.read_plan(bundle)[1].steps if not status else ()
    if not any(step.kind == "copy" for step in steps):
        return None
    traffic = Traffic(Machine(ring, steps), draw, draw.choice([0, 0.5, 0.9]))
    traffic.run(draw.randrange(1, 6 * len(steps) + 3))
    return traffic, bundle, traffic.machine.entries


def attempt(number: int, tally: Counter[str]) -> None:
    made = history_of(number)
    if not made:
        tally["without a copy"] += 1
        return
    store, bundle, entries = made
    tally["clients' entries"] += sum(it.split()[0] in CLIENTS for it in entries)
    judge(store, bundle, entries, tally)
    if entries:
        judge(store, bundle, edited(entries, store.machine.ring.names, store.draw), tally)


def main(words: list[str]) -> int:
    count, wrong, tally = int(words[0]) if words else 100, 0, Counter[str]()
    for number in range(count // 2):
        try:
            attempt(number, tally)
        except Wrong as fault:
            print("WRONG: seed %d: %s" % (number, fault))
            wrong += 1
    print(", ".join("%d %s" % (n, what) for what, n in tally.most_common()))
    try:
        print(machines())
    except Wrong as fault:
        print("WRONG: %s" % fault)
        wrong += 1
    print("%d wrong" % wrong)
    return 1 if wrong else 0


if __name__ == "__main__":
    sys.exit(main(sys.argv[1:]))
