#!/usr/bin/env python3
"""What `show` and `draw` say of rings, plans and runs in which nodes are dead or down, beside
counts of its own. It wants the program as it is built. `trials/shown.py` tries 60 random changes,
and `trials/shown.py COUNT [--first SEED]` so many.

The changes are those of `trials/sizes.py`. Of each: the ring alone by a layout with racks, aliases,
sizes and dead nodes, as a table and as JSON; the plan with a dead node; and the first steps of a
run, in which nodes go down and come up again. Counted are slots and sizes by node, the balance of
nodes that answer, the partitions that still answer if any node fails more, what is left to move and
when that can end at the earliest, and the moves that are open after a run, of which `after` names
all. In a picture the names of silent nodes are crossed out and say why. With aliases the words and
labels of a plan are the same but for the names, columns are aligned by characters, and pictures are
well-formed.
"""
import argparse
import json
import random
import re
import sys
import tempfile
import xml.dom.minidom
from concurrent.futures import ThreadPoolExecutor
from dataclasses import dataclass
from typing import Any

from changes import ask, made, owners, played, rows_after, steps_of, with_history
from sizes import Case, drawn, rack, time_words

# The options for each kind of picture.
PICTURES: tuple[list[str], ...] = ([], ["--map"])


def flat(text: str) -> str:
    return re.sub(r"\s+", " ", text)


def ring_of(case: Case) -> str:
    return case.bundle().split("change 1\n")[0]


def span(counts: list[int]) -> str:
    least, most = min(counts, default=0), max(counts, default=0)
    words = "%d" % most if least == most else "%d to %d" % (least, most)
    return words + (" slot" if most == 1 and least == 1 else " slots")


def answering(case: Case, rows: list[list[str]], silent: set[str]) -> int:
    """How many partitions answer reads and writes without these nodes."""
    needed = len(case.rows[0]) // 2 + 1
    return sum(sum(v not in silent for v in row) >= needed for row in rows)


def one_more(case: Case, rows: list[list[str]], silent: set[str]) -> int:
    """How many still answer, whichever node fails more."""
    return min(
        (answering(case, rows, silent | {v}) for v in case.names if v not in silent),
        default=answering(case, rows, silent),
    )


def owned(case: Case, rows: list[list[str]]) -> dict[str, int]:
    return {v: sum(v in row for row in rows) for v in case.names}


def stored(case: Case, rows: list[list[str]]) -> dict[str, int]:
    return {v: sum(size for size, row in zip(case.sizes, rows) if v in row) for v in case.names}


def silent_words(dead: list[str], down: list[str]) -> list[str]:
    """What the line of nodes that do not answer names, as far as all are named."""
    parts = [("dead", dead), ("down", down)]
    return [
        "%s %s" % (word, " and ".join(", ".join(nodes).rsplit(", ", 1)))
        for word, nodes in parts
        if 0 < len(nodes) <= 6
    ]


class Judge:
    """Collects what is wrong with what is said of a case."""

    def __init__(self, number: int) -> None:
        self.number, self.faults = number, list[str]()

    def owes(self, what: str, found: object, wanted: object) -> None:
        if found != wanted:
            self.faults.append(
                "case %d, %s: %r in place of %r" % (self.number, what, found, wanted)
            )

    def says(self, what: str, text: str, words: str) -> None:
        if words not in flat(text):
            self.faults.append("case %d, %s does not say %r" % (self.number, what, words))


def written(case: Case, dead: list[str], aliases: dict[str, str], folder: str) -> str:
    """The name of a layout that says all this."""
    lines = ["rack %s %s" % (v, rack(v)) for v in case.names] + [
        "size %d %d" % (p, size) for p, size in enumerate(case.sizes)
    ]
    lines += ["alias %s %s" % it for it in aliases.items()] + ["dead " + v for v in dead]
    with open(folder + "/layout", "w", encoding="utf-8") as it:
        it.write("\n".join(["layout 1", *lines, "end", ""]))
    return folder + "/layout"


def ring_wrong(judge: Judge, case: Case, dead: list[str], folder: str) -> None:
    """A ring alone, by a layout."""
    aliases = {v: "riak@10.0.0.%d" % at for at, v in enumerate(case.names) if at % 3 == 0}
    words = ["--layout", written(case, dead, aliases, folder)]
    text = made(["show", *words], ring_of(case))
    stated = json.loads(made(["show", "--format", "json", *words], ring_of(case)))
    slots, sizes = owned(case, case.rows), stored(case, case.rows)
    for v, node in zip(case.names, stated["nodes"]):
        wanted = {
            "name": v,
            "rack": rack(v),
            "is_member": v in case.members,
            "is_dead": v in dead,
            "slots": slots[v],
            "stored_size": sizes[v],
            "bears": 2,
        } | ({"alias": aliases[v]} if v in aliases else {})
        judge.owes("a node of the ring", node, wanted)
    head, *rows = [line.split() for line in text.splitlines()[-len(case.names) - 1 :]]
    judge.owes("the head", head, ["node", "alias", "rack", "state", "slots", "size", "bears"])
    for v, row in zip(case.names, rows):
        state = ["in" if v in case.members else "out"]
        if v in dead:
            state = [state[0] + ",", "dead"]
        named = [v, aliases[v]] if v in aliases else [v]
        counts = [str(slots[v]), str(sizes[v] or "."), "2"]
        judge.owes("a row of the ring", row, [*named, rack(v), *state, *counts])
    ring_words_wrong(judge, case, dead, text)


def ring_words_wrong(judge: Judge, case: Case, dead: list[str], text: str) -> None:
    """The words about the ring's nodes that answer."""
    owns = span([owned(case, case.rows)[v] for v in case.members if v not in dead])
    answers = "that answers " if dead else ""
    judge.says("the ring", text, f"balance a member {answers}owns {owns}; even would be")
    if len(dead) < 2:
        more = f"beside {dead[0]}: " if dead else ""
        left = one_more(case, case.rows, set(dead))
        judge.says("the ring", text, f"if one fails {more}{left} of {len(case.rows)} partition")
    for line in silent_words(dead, []):
        judge.says("the ring", text, line + "; without ")


def begun(plan: str, pick: random.Random) -> tuple[list[str], set[int], dict[int, int]]:
    """The events of a run's first steps in a random order, those that are done, and the chunks of
    copies that are not.
    """
    steps, events = steps_of(plan), list[str]()
    done: set[int] = set()
    chunks: dict[int, int] = {}
    for _ in range(pick.randrange(len(steps) + 1)):
        ready = [
            k
            for k in range(len(steps))
            if k not in done and k not in chunks and done.issuperset(steps[k][1])
        ]
        if not ready:
            break
        number = pick.choice(ready)
        if steps[number][0][0] != "copy":
            events.append("do %d" % number)
            done.add(number)
            continue
        given = 16 if pick.random() < 0.9 else pick.randrange(17)
        events += ["open %d" % number, *("chunk %d %d" % (number, c) for c in range(given))]
        if given == 16 and pick.random() < 0.95:
            events.append("close %d" % number)
            done.add(number)
        else:
            chunks[number] = given
            # The chunks of a copy that is broken off stay given.
            events += ["abort %d" % number] * (pick.random() < 0.3)
    return events, done, chunks


def open_moves(plan: str, done: set[int]) -> list[str]:
    """The lines of moves that are begun and not switched, in the order of their slots."""
    steps, found = [fields for fields, _ in steps_of(plan)], []
    for number, fields in enumerate(steps):
        if fields[0] != "mirror" or number not in done:
            continue
        later = [
            k
            for k in range(number + 1, len(steps))
            if steps[k][1:3] == fields[1:3] and steps[k][0] in ("copy", "switch")
        ]
        ends = next((k for k in later if steps[k][0] == "switch"), len(steps))
        if ends not in done:
            left = ", ".join(str(k) for k in later if k <= ends and k not in done)
            line = "slot %s.%s, to %s: begun by step %d; to do: %s" % (
                fields[1],
                fields[2],
                fields[3],
                number,
                left,
            )
            found.append((int(fields[1]), int(fields[2]), number, line))
    return [line for *_, line in sorted(found)]


def after_wrong(
    judge: Judge, plan: str, history: str, done: set[int], rows: list[list[str]]
) -> None:
    """What `after` says of a run, or the owners that it prints."""
    out, errors, status = ask(["after"], plan + history)
    lines, found = open_moves(plan, done), errors.splitlines()
    if not lines:
        judge.owes("the owners after a run", owners(out), rows)
        return
    first = min(int(line.split("begun by step ")[1].split(";")[0]) for line in lines)
    many = "1 move is" if len(lines) == 1 else "%d moves are" % len(lines)
    judge.owes(
        "the refusal of `after`",
        (out, status, found[:2]),
        ("", 1, ["no 21 %d" % first, "refused: %s open, and a ring cannot say that" % many]),
    )
    judge.owes("the open moves", [line.strip() for line in found[2:-1]], lines)
    judge.says("`after`", errors, "`ringplan around --rest FILE`")


def history_of(plan: str, events: list[str]) -> str:
    """The events with the replies that the program gives: what is refused is left out."""
    entries = played(plan, events)
    if len(entries) < len(events):
        raise SystemExit("an event of a run is refused, of %s" % events)
    return with_history("", (f"{event} = {reply}" for event, reply in entries))


def left_of(case: Case, plan: str, done: set[int], chunks: dict[int, int]) -> tuple[int, int]:
    """What copies that are not done have to move, and the most that some have of which each waits
    for the one before.
    """
    sums: list[int] = []
    whole = 0
    for number, (fields, waits) in enumerate(steps_of(plan)):
        sums.append(max((sums[k] for k in waits), default=0))
        if fields[0] == "copy" and number not in done:
            rest = -(-case.sizes[int(fields[1])] * (16 - chunks.get(number, 0)) // 16)
            sums[-1], whole = sums[-1] + rest, whole + rest
    return whole, max(sums, default=0)


def picture_wrong(
    judge: Judge, drawn_picture: str, names: list[str], silent: dict[str, str]
) -> None:
    """Whether the names of silent nodes are crossed out, and no others are; each says why."""
    shapes = xml.dom.minidom.parseString(drawn_picture).getElementsByTagName("text")
    marked = {it.firstChild.data for it in shapes if "down" in it.getAttribute("class").split()}
    bare = {name.removeprefix("x ").split(" ")[0] for name in marked}
    judge.owes("crossed out", bare & set(names), set(silent))
    words = " ".join(it.firstChild.data for it in shapes if it.firstChild)
    for v, why in silent.items():
        is_said = any(v in name and why in name for name in marked) or re.search(
            r"\b%s\b" % why, words
        )
        judge.owes("a picture says why of " + v, bool(is_said), True)


# Aliases as people have them: of a store, in letters of two and three bytes, with marks of XML, and
# longer than a name.
ALIASES = (
    "riak@10.0.0.%d",
    "K\u00f6ln-%d",
    "\u6771\u4eac-%d",
    'a<b>&"%d"',
    "cassandra-production-%d-eu-central-1.compute.internal",
    "\ufffe%d",
)
NAME = re.compile(r"n\d\d\.r\d+")


def cut(alias: str) -> str:
    """The alias as words of a plan have it."""
    alias = alias.replace("\ufffe", "?")
    return alias if len(alias) <= 32 else alias[:15] + ".." + alias[-15:]


def words_of(text: str) -> list[str]:
    """The words from the second paragraph on, without bars."""
    return [it for it in text.split("\n\n", 1)[1].split() if it.strip("=+-")]


def labels_of(drawn_picture: str) -> set[str]:
    """The names of nodes that a picture writes, without what stands beside them."""
    shapes = xml.dom.minidom.parseString(drawn_picture).getElementsByTagName("text")
    labels = [
        it.firstChild.data
        for it in shapes
        if "n" in it.getAttribute("class").split() and it.firstChild
    ]
    return {re.sub("^[x+~-] ", "", it).split(" ")[0] for it in labels}


def aliases_wrong(
    judge: Judge, case: Case, pick: random.Random, given: tuple[str, list[str], str]
) -> None:
    """Whether words and pictures of a plan have aliases in place of names."""
    text, words, folder = given
    plain, pictures = made(["show", "--all", *words], text), [
        made(["draw", *kind, *words], text) for kind in PICTURES
    ]
    aliases = {
        v: pick.choice(ALIASES) % at for at, v in enumerate(case.names) if pick.random() < 0.7
    }
    written(case, [], aliases, folder)
    found = made(["show", "--all", *words], text)

    def named(it: str) -> str:
        return NAME.sub(lambda name: cut(aliases.get(name[0], name[0])), it)

    judge.owes(
        "words with aliases",
        [it for it in zip(words_of(found), words_of(named(plain))) if it[0] != it[1]][:3],
        [],
    )
    judge.owes("names beside aliases", [v for v in aliases if v in found], [])
    rows = found.split("never more than")[0].splitlines()[-1] + "never more than", re.findall(
        r"^  [x+~-] .*$", found, re.MULTILINE
    )
    at = len(rows[0]) - len("never more than")
    judge.owes(
        "rows that are not aligned",
        [row for row in rows[1] if row[at - 2 : at] != "  " or row[at : at + 1] == " "],
        [],
    )
    for kind, before in zip(PICTURES, pictures):
        after = made(["draw", *kind, *words], text)
        judge.owes("labels with aliases", labels_of(after), set(map(named, labels_of(before))))
        judge.owes("names in a picture", [v for v in aliases if v in after], [])


@dataclass
class Stopped:
    """A run that has come so far, and the nodes that are silent then."""

    case: Case
    now: list[list[str]]
    last: list[list[str]]
    members: list[str]
    dead: list[str]
    down: list[str]

    def __post_init__(self) -> None:
        self.silent = set(self.dead) | set(self.down)


def members_after(case: Case, plan: str, done: set[int]) -> list[str]:
    """Who is a member after these steps."""
    steps = [fields for number, (fields, _) in enumerate(steps_of(plan)) if number in done]
    joined = {fields[1] for fields in steps if fields[0] == "join"}
    gone = {fields[1] for fields in steps if fields[0] == "retire"}
    return [v for v in case.names if v in (case.members | joined) - gone]


def plan_wrong(judge: Judge, case: Case, pick: random.Random, folder: str) -> None:
    """A plan with a dead node, and a run of it."""
    layout = ["--layout", written(case, [], {}, folder)]
    plan = made(["goal", *layout], case.bundle())
    events, done, chunks = begun(plan, pick)
    dead = pick.sample(case.names, pick.randrange(3))
    members = members_after(case, plan, done)
    down = [v for v in pick.sample(members, pick.randrange(3)) if v not in dead]
    # One that comes up again is not down.
    back = [v for v in down if pick.random() < 0.3]
    down = [v for v in case.names if v in down and v not in back]
    events += ["down " + v for v in down + back] + ["up " + v for v in back]
    bundle = plan + history_of(plan, events)
    dead = [v for v in case.names if v in dead]
    words = [*layout, *(word for v in dead for word in ("--dead", v))]
    now, last = rows_after(case.rows, plan, done)[0], rows_after(case.rows, plan)[0]
    after_wrong(judge, plan, bundle.removeprefix(plan), done, now)
    rate = pick.choice([1, 7, 100])
    text = made(["show", "--all", "--rate", str(rate), *words], bundle)
    stated = json.loads(made(["show", "--format", "json", "--rate", str(rate), *words], bundle))
    left = left_of(case, plan, done, chunks)
    stopped = Stopped(case, now, last, members, dead, down)
    nodes_wrong(judge, stopped, stated)
    left_wrong(judge, text, stated, left, rate)
    silence_wrong(judge, stopped, text)
    for kind in PICTURES:
        shown = set(case.members) | set(case.joins)
        silent = {v for v in stopped.silent if not kind or v in shown}
        names = {v: "dead" if v in dead else "down" for v in silent}
        picture_wrong(judge, made(["draw", *kind, *words], bundle), case.names, names)
    aliases_wrong(judge, case, pick, (bundle, words, folder))


def nodes_wrong(judge: Judge, stopped: Stopped, stated: dict[str, Any]) -> None:
    """What the object says of each node."""
    slots, sizes = owned(stopped.case, stopped.now), stored(stopped.case, stopped.now)
    for v, node in zip(stopped.case.names, stated["nodes"]):
        wanted = (v, v in stopped.dead, v in stopped.down, slots[v], sizes[v])
        keys = ("name", "is_dead", "is_down", "slots", "stored_size")
        judge.owes("a node of the run", tuple(node[key] for key in keys), wanted)


def left_wrong(
    judge: Judge, text: str, stated: dict[str, Any], due: tuple[int, int], rate: int
) -> None:
    """What is left to copy, and when that ends at the earliest."""
    left, longest = due
    end = -(-longest // rate)
    keys = ("left_size", "longest_left_size", "earliest_end")
    judge.owes("what is left", tuple(stated[key] for key in keys), (left, longest, end))
    judge.says(
        "the run",
        text,
        "sizes %d of %d left; copies that wait for one another have up to %d of it, so at %d a"
        " second the rest ends in %s at the earliest"
        % (left, stated["moves_size"], longest, rate, time_words(end)),
    )


def silence_wrong(judge: Judge, stopped: Stopped, text: str) -> None:
    """What the words say of nodes that do not answer, and of those that do."""
    case, now, last, silent = stopped.case, stopped.now, stopped.last, stopped.silent
    slots, then = owned(case, now), owned(case, last)
    answers = "that answers " if silent else ""
    first = span([slots[v] for v in stopped.members if v not in silent])
    ends = span([then[v] for v in case.after() if v not in silent])
    balance = f"balance a member {answers}owns {first} now and {ends} in the end"
    judge.says("the run", text, balance)
    if len(silent) < 2:
        beside = "beside %s: " % [*silent][0] if silent else ""
        fails = f"if one fails {beside}{one_more(case, now, silent)} of {len(now)} partition"
        judge.says("the run", text, fails)
        ends = f"reads and writes now, {one_more(case, last, silent)} in the end"
        judge.says("the run", text, ends)
    for line in silent_words(stopped.dead, stopped.down):
        judge.says("the run", text, line)
    if silent:
        judge.says("the run", text, f"{answering(case, now, silent)} of {len(now)} partition")
    for v in silent:
        word = "dead" if v in stopped.dead else "down"
        judge.says("the row of a node", text, f"x {v} {word} ")


def wrong(number: int) -> list[str]:
    """What is wrong with what is said of the change of that number."""
    case, judge, pick = drawn(number), Judge(number), random.Random(-number - 1)
    with tempfile.TemporaryDirectory() as folder:
        dead = pick.sample(case.names, pick.randrange(3))
        ring_wrong(judge, case, [v for v in case.names if v in dead], folder)
        plan_wrong(judge, case, pick, folder)
    return judge.faults


def main() -> int:
    lines = argparse.ArgumentParser(description=__doc__)
    lines.add_argument("count", nargs="?", type=int, default=60)
    lines.add_argument("--first", type=int, default=0)
    asked = lines.parse_args()
    with ThreadPoolExecutor(2) as threads:
        faults = [
            fault
            for found in threads.map(wrong, range(asked.first, asked.first + asked.count))
            for fault in found
        ]
    print(
        *faults[:20],
        f"{asked.count} changes shown with nodes that are dead or down, {len(faults)} faults",
        sep="\n",
    )
    return 1 if faults else 0


if __name__ == "__main__":
    sys.exit(main())
