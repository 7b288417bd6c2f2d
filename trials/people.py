#!/usr/bin/env python3
"""Tries the commands for people from outside; it wants the program as it is built.

`trials/people.py EDITS` gives each bundle so many edits, else 40.

Mends: each example, and each with edits as people make them (a typo, a line that is lost, doubled
or exchanged, a number that is changed, a dependency that is lost), drawn from a fixed seed. The
first line and the status of `why` are those of `ringplan check`, and each mend that it shows is
applied and asked of it. Walks: mends alone, one behind the other, from a refused example to an
accepted one. Large plans: 131,072 steps over 1,024 nodes, and 32,768 rounds, by each command: the
seconds are printed (10 are a fault), at most 200 MB, a picture of at most 1 MB, and the bytes that
people.sums names. Pictures: each is well-formed, 900 wide and titled, and each bar has words that
are no wider than it; so are maps. Trails: of random plays with one reply spoiled at a read or at
the end of a get, `why` shows the line of each put that differs, no line that the bundle has not,
and at most twelve beside the entry and the one before it.
"""
import glob
import hashlib
import os
import random
import re
import resource
import subprocess
import sys
import tempfile
import time
import xml.dom.minidom
from collections import defaultdict
from typing import Any

from changes import answer, played, with_history
from measured import RUN, TOP
from ringplan import texts

EDITS = int(sys.argv[1]) if len(sys.argv) > 1 else 40


def edited(lines: list[str], draw: random.Random) -> list[str]:
    """The lines with one edit."""
    lines, k, kind = list(lines), draw.randrange(len(lines)), draw.randrange(9)
    fields = lines[k].split(" ")
    if kind == 0 and lines[k]:
        at = draw.randrange(len(lines[k]))
        lines[k] = lines[k][:at] + draw.choice("abxz0 19") + lines[k][at + 1 :]
    elif kind == 1:
        del lines[k]
    elif kind == 2:
        lines.insert(k, lines[k])
    elif kind == 3:
        other = draw.randrange(len(lines))
        lines[k], lines[other] = lines[other], lines[k]
    elif kind == 4:
        numbers = [j for j, it in enumerate(fields) if it.isdigit()]
        if numbers:
            fields[draw.choice(numbers)] = str(draw.randrange(12))
            lines[k] = " ".join(fields)
    elif kind == 5 and "after" in fields:
        del fields[draw.randrange(fields.index("after"), len(fields))]
        lines[k] = " ".join(fields)
    elif kind == 6 and len(fields) > 1:
        del fields[draw.randrange(len(fields))]
        lines[k] = " ".join(fields)
    elif kind == 7 and len(lines[k]) > 2:
        at = draw.randrange(len(lines[k]) - 1)
        lines[k] = lines[k][:at] + lines[k][at + 1] + lines[k][at] + lines[k][at + 2 :]
    else:
        lines[k] = draw.choice(
            [
                lines[k] + " ",
                " " + lines[k],
                lines[k] + "\r",
                lines[k].replace(" ", "\t", 1),
                "# " + lines[k],
                "",
            ]
        )
    return lines


def mended(text: str, told: str) -> tuple[str, str] | None:
    """The text with the mend that the words show, and what they say of it; None where they show
    none. A mend that is a command is run.
    """
    found = re.search(
        (
            r"\n  mend: ([^\n]*)\n((?: *\d+ \+ [^\n]*\n)*)  then the checker (says yes|goes on, to"
            r" `([^`]*)`)[.,]"
        ),
        told,
    )
    if not found:
        return None
    command = re.search(r"`([^`]* > MENDED)` mends", told)
    if command and "by that command" in found[1]:
        return run_command(command[1], text), found[4] or "yes"
    new: dict[int, list[str]] = {}
    for number, words in re.findall(r"^ *(\d+) \+ (.*)$", found[2], re.M):
        new.setdefault(int(number), []).append(words)
    gone = re.search(r"line (\d+) goes", found[1])
    if gone:
        new[int(gone[1])] = []
    out: list[str] = []
    for number, line in enumerate(text.split("\n"), 1):
        out += new.get(number, [line])
    if "with a newline at its end" in found[1]:
        out.append("")
    return "\n".join(out), found[4] or "yes"


def run_command(command: str, text: str) -> str:
    """What the command makes of the text in the file that it calls FILE."""
    with tempfile.TemporaryDirectory() as folder:
        with open(f"{folder}/FILE", "w", newline="") as it:
            it.write(text)
        subprocess.run(command, shell=True, cwd=folder, check=False)
        with open(f"{folder}/MENDED", newline="") as it:
            return it.read()


def mends() -> tuple[list[int], dict[str, int]]:
    """Bundles, mends shown, mends accepted, and how often each number was answered."""
    draw, counts = random.Random(20261126), [0, 0, 0]
    numbers: dict[str, int] = {}
    for path in sorted(glob.glob(f"{TOP}/examples/*.bundle")):
        with open(path) as it:
            whole = it.read()
        if "\ncert " not in whole or "\nscript " in whole or "\nhistory " in whole:
            continue
        for turn in range(EDITS + 1):
            text = whole if turn == 0 else "\n".join(edited(whole.split("\n"), draw))
            (line, status), (told, ends) = answer(["check"], text), answer(["why"], text)
            counts[0] += 1
            if told.split("\n")[0] + "\n" != line or status != ends:
                faults.append(
                    f"{path}, edit {turn}: check says {line.strip()!r} ({status}), why"
                    f" {told[:60]!r} ({ends})"
                )
            if status and len(told.split("\n")) < 3:
                faults.append(f"{path}, edit {turn}: no word about {line.strip()!r}")
            if status:
                numbers[line.split()[1]] = numbers.get(line.split()[1], 0) + 1
            mend = mended(text, told)
            if mend:
                said = answer(["check"], mend[0])[0].strip()
                counts[1], counts[2] = counts[1] + 1, counts[2] + (said == "yes")
                if said != mend[1]:
                    faults.append(
                        f"{path}, edit {turn}: the mend is said to lead to {mend[1]!r}, and leads"
                        f" to {said!r}"
                    )
    return counts, numbers


def walks() -> tuple[int, int]:
    """How many refused examples have a mend, and how many become accepted by mends only."""
    begun, ended = 0, 0
    for path in sorted(glob.glob(f"{TOP}/examples/*.bundle")):
        with open(path) as it:
            text = it.read()
        mend, turns = mended(text, answer(["why"], text)[0]), 0
        begun += mend is not None
        while mend and mend[1] != "yes" and turns < 20:
            text, turns = mend[0], turns + 1
            mend = mended(text, answer(["why"], text)[0])
        if mend:
            line, status = answer(["check"], mend[0])
            ended += not status
            if status:
                faults.append(f"{path}: mends lead to {line.strip()!r}")
    return begun, ended


def take_seat(lanes: list[list[int]], copy: int) -> list[int]:
    """Adds a copy to a node's shortest chain. Returns the copy before it."""
    lane = min(lanes, key=len)
    lane.append(copy)
    return lane[-2:-1]


def steps(count: int) -> str:
    """A sound plan of so many steps, a multiple of four: eight slots of each of 4,096 partitions go
    to nodes of their own.
    """
    nodes, q, n = 1024, 4096, 3
    names = [f"n{x}" for x in range(nodes)]
    owners = [[(p * 7 + i * 131) % nodes for i in range(n)] for p in range(q)]
    rows = [[names[x] for x in row] for row in owners]
    ring = texts.Ring.of(names, set(names), rows, (n, 2, 2), 64)
    chains = defaultdict[int, list[list[int]]](lambda: [[] for _ in range(32)])
    plan, last = list[str](), dict[tuple[int, int], int]()
    for k in range(0, count, 4):
        move = k // 4
        p, i = move % q, move // q % n
        old, new = owners[p][i], (p * 7 + 401 + 17 * (move // q)) % nodes
        waits = {k, *(it for x in (old, new) for it in take_seat(chains[x], k + 1))}
        after = f" after {last[p, i]}" if (p, i) in last else ""
        plan += [
            f"mirror {p} {i} n{new}{after}",
            f"copy {p} {i} owner after " + " ".join(map(str, sorted(waits))),
            f"switch {p} {i} after {k + 1}",
            f"drop {p} {i} n{old} after {k + 2}",
        ]
        owners[p][i], last[p, i] = new, k + 3
    lanes = [(x, lane) for x in sorted(chains) for lane in chains[x] if lane]
    cert = [f"chain n{x} " + " ".join(map(str, lane)) for x, lane in lanes]
    lines = ["plan 1", *plan, "end", "cert 1", *cert, "end", ""]
    return texts.write_texts([ring]) + "\n".join(lines)


def rounds(moves: int) -> str:
    """A slot that goes to and fro between two nodes."""
    out = [
        "ring 1",
        "space 1",
        "quorum 3 2 2",
        "node 1na 4 in",
        "node 2na 4 in",
        "node 3na 4 in",
        "node 4na 4 in",
        "slots 0 1na 2na 3na",
        "end",
        "plan 1",
    ]
    copies: list[int] = []
    owner, other, last = "1na", "4na", 0
    for k in range(0, 4 * moves, 4):
        out.append(f"mirror 0 0 {other}" + (f" after {last}" if last else ""))
        out.append("copy 0 0 owner after " + " ".join(map(str, copies[-1:] + [k])))
        out += [f"switch 0 0 after {k + 1}", f"drop 0 0 {owner} after {k + 2}"]
        copies.append(k + 1)
        last, owner, other = k + 3, other, owner
    chain = " ".join(map(str, copies))
    return (
        "\n".join(out + ["end", "cert 1", f"chain 1na {chain}", f"chain 4na {chain}", "end"]) + "\n"
    )


# The width of a character in hundredths of the font's size, rounded up: DejaVu Sans.
WIDTHS = {
    **dict.fromkeys("0123456789bdghnpqu", 64),
    **dict.fromkeys("aeo", 62),
    **dict.fromkeys("sz", 53),
    **dict.fromkeys("ijl", 28),
    **dict.fromkeys(" ,.", 32),
    **dict.fromkeys("vxy", 60),
}
WIDTHS |= {
    "c": 55,
    "k": 58,
    "f": 36,
    "t": 40,
    "r": 42,
    "w": 82,
    "m": 98,
    "-": 37,
    "_": 50,
    ":": 34,
    "\u2190": 84,
    "\u2192": 84,
}


def look(name: str, picture: str | bytes) -> int:
    """Whether the picture is well-formed, 900 wide and titled, and how many bars it has: each
    copy's has words, none wider than the bar or less than 10 pixels high.
    """
    # The types of minidom do not know what a child node is.
    root: Any = xml.dom.minidom.parseString(picture).documentElement
    bar, count, bare = 0, 0, 0
    if root.getAttribute("width") != "900" or [
        it.nodeName for it in root.childNodes if it.nodeType == it.ELEMENT_NODE
    ][:2] != ["title", "desc"]:
        faults.append(f"{name}: not 900 wide, or without title and description")
    for shape in root.childNodes:
        if shape.nodeName == "rect" and shape.getElementsByTagName("title"):
            bar = int(shape.getAttribute("width"))
            bare += shape.getElementsByTagName("title")[0].firstChild.data.startswith("step ")
        elif (
            shape.nodeName == "text"
            and "b" in shape.getAttribute("class").split()
            and shape.getAttribute("text-anchor") == "middle"
        ):
            words, style = shape.firstChild.data, re.search(
                r"font-size:(\d+)px", shape.getAttribute("style")
            )
            size = int(style[1]) if style else 11
            wide = float(
                shape.getAttribute("textLength")
                or sum(WIDTHS.get(it, 100) for it in words) * size / 100
            )
            count, bare = count + 1, bare - 1
            if wide > bar or size < 10:
                faults.append(
                    f"{name}: {words!r} of size {size} is wider than its bar of {bar}, or too small"
                )
    if bare:
        faults.append(f"{name}: {bare} bars without words")
    return count


def run(words: str, text: bytes) -> tuple[bytes, int, float, int]:
    """What the program writes, its seconds, and the most memory that any run has taken, in MB."""
    begun = time.time()
    ran = subprocess.run([RUN, *words.split()], input=text, stdout=subprocess.PIPE, timeout=60)
    return (
        ran.stdout,
        ran.returncode,
        time.time() - begun,
        resource.getrusage(resource.RUSAGE_CHILDREN).ru_maxrss // 1024,
    )


def large() -> tuple[float, int]:
    """Each command on the large plans: sums of what it writes, most seconds and memory."""
    wanted: dict[str, str] = {}
    found: list[str] = []
    most, memory = 0.0, 0
    sums = f"{TOP}/trials/people.sums"
    if os.path.isfile(sums):
        with open(sums) as it:
            wanted = {
                label: total
                for total, label in (line.split("  ") for line in it.read().splitlines())
            }
    for name, text in (("steps", steps(131072)), ("rounds", rounds(32768))):
        for words in (
            "why",
            "show --racks-behind n",
            "show --all",
            "draw",
            "draw --map",
            "steps",
            "cert",
            "after",
        ):
            out, status, seconds, megabytes = run(words, text.encode())
            label = f"{name} {words}"
            found.append(f"{hashlib.md5(out).hexdigest()}  {label}")
            most, memory = max(most, seconds), max(memory, megabytes)
            if status or seconds > 10 or (words.startswith("draw") and len(out) > 1_000_000):
                faults.append(f"{label}: status {status}, {seconds:.2f} s, {len(out)} bytes")
            if wanted.get(label) != found[-1].split("  ")[0]:
                faults.append(f"{label}: writes other bytes than people.sums names: {found[-1]}")
            if words.startswith("draw"):
                look(label, out)
    if memory > 200:
        faults.append(f"{memory} MB")
    return most, memory


def draw_event(draw: random.Random, puts: int, gets: int, steps: list[str]) -> str:
    """An event of clients, of nodes or of the steps that are left. Empty if there is none."""
    kind = draw.randrange(9)
    if kind == 0:
        put = f"put w{draw.randrange(3)} {draw.choice('ab')} x31"
        return put + (f" seen {draw.randrange(gets)}" if gets and draw.random() < 0.5 else "")
    if kind == 1:
        return f"get {draw.choice('ab')}"
    if kind == 2:
        return f"{draw.choice(['down', 'up'])} {draw.choice('abcd')}"
    if kind == 3 and puts:
        return f"hint {draw.randrange(puts)} {draw.randrange(3)} {draw.choice('abcd')}"
    if kind in (4, 5) and gets:
        get = draw.randrange(max(0, gets - 3), gets)
        reads = [f"read {get} {draw.randrange(3)}" for _ in range(2)]
        return draw.choice([*reads, f"endget {get}"])
    if kind == 6 and steps:
        return steps.pop(0)
    if kind == 7:
        return f"handoff {draw.choice('abcd')} 0 {draw.randrange(3)}"
    if puts:
        return f"write {draw.randrange(max(0, puts - 4), puts)} {draw.randrange(3)}"
    return ""


def traffic(draw: random.Random) -> tuple[str, list[tuple[str, str]]]:
    """A bundle of a move under random traffic, and its entries: what `play` refuses is left out."""
    with open(f"{TOP}/examples/move_one_slot.bundle") as it:
        front = it.read()
    chunks = [f"chunk 2 {c}" for c in range(16)]
    steps = ["do 0", "do 1", "open 2", *chunks, "close 2", "do 3", "do 4"]
    events, puts, gets = list[str](), 0, 0
    for _ in range(120):
        if event := draw_event(draw, puts, gets, steps):
            events.append(event)
            puts, gets = puts + event.startswith("put "), gets + event.startswith("get ")
    return front, played(front, events)


def trails(runs: int) -> tuple[int, int]:
    """How many spoiled replies were asked of `why`, and the most lines of a trail."""
    asked, most = 0, 0
    for seed in range(runs):
        draw = random.Random(seed)
        front, entries = traffic(draw)
        replies = [reply.split(" ")[0] for _, reply in entries]
        places = [k for k, word in enumerate(replies) if word in ("found", "reply")]
        starts = [k for k, (event, _) in enumerate(entries) if event.startswith("put ")]
        if places and starts:
            place, other = draw.choice(places), draw.randrange(len(starts))
            lines = trail(seed, front, entries, (place, other, starts[other]))
            asked, most = asked + 1, max(most, lines)
    return asked, most


def trail(
    seed: int, front: str, entries: list[tuple[str, str]], fault: tuple[int, int, int]
) -> int:
    """Spoils a reply by a put. Returns how many lines of a trail `why` shows."""
    place, other, start = fault
    word, *due = entries[place][1].split(" ")
    spoiled = " ".join([word, *map(str, sorted(set(map(int, due)) ^ {other}))])
    said = [spoiled if k == place else reply for k, (_, reply) in enumerate(entries)]
    bundle = with_history(front, (f"{event} = {it}" for (event, _), it in zip(entries, said)))
    shown, status = answer(["why"], bundle)
    lines, first = bundle.split("\n"), front.count("\n") + 2
    seen = {int(number): words for number, words in re.findall(r"^ *(\d+) \| (.*)$", shown, re.M)}
    if shown.split("\n")[0] != f"no 70 {place} 0" or status != 1:
        faults.append(f"trail {seed}: {shown[:60]!r}")
    if any(lines[number - 1] != words for number, words in seen.items()) or len(seen) > 14:
        faults.append(f"trail {seed}: lines that the bundle has not, or too many: {sorted(seen)}")
    if start < place and first + start not in seen:
        faults.append(f"trail {seed}: put {other} is not shown")
    return len(seen) - 2


faults: list[str] = []
(bundles, shown, accepted), numbers = mends()
print(
    f"mends: {bundles} bundles, {shown} mends shown, {accepted} of them accepted; refusals by"
    " number: " + ", ".join(f"{k}: {numbers[k]}" for k in sorted(numbers, key=int))
)
begun, ended = walks()
print(
    f"walks: {begun} refused examples have a mend, and {ended} of them become accepted by mends"
    " alone"
)
most, memory = large()
print(f"large plans: 18 runs of at most {most:.2f} s and {memory} MB")
bars, pictures = 0, 0
for path in sorted(
    glob.glob(f"{TOP}/examples/*.bundle")
    + glob.glob(f"{TOP}/crates/tests_program/data/*64*.bundle")
):
    with open(path) as it:
        text = it.read()
    for words in ("draw", "draw --map"):
        drawn, status = answer(words.split(), text)
        if not status:
            pictures, bars = pictures + 1, bars + look(path, drawn)
print(f"pictures: {pictures} well-formed, {bars} bars with words")
print("trails: {} spoiled replies, at most {} lines each".format(*trails(300)))
for fault in faults:
    print(fault)
print(f"{len(faults)} faults")
sys.exit(bool(faults))
