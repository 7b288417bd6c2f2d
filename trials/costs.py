#!/usr/bin/env python3
"""What bundles that were made to cost much cost, at each doubling: trials/costs.py [--instructions]
[WORD..], once `rt ci` or `rt run` has built crates/ringplan. With words, the families alone whose
command or name is one of them.

For each family of `hostile_plans.py` and `hostile_scripts.py`, and for rings whose members change,
a line for each size: the bundle's and the output's megabytes, the seconds of processor time (of
seven runs the least, where these are below two), how many times those of half the size, and the
most memory. It says of which line a bound is passed, and ends with 0 only where none is: from a
megabyte and a tenth of a second on 2.3 times at a doubling; a second for ten megabytes of bundle
and of output; memory of 8 times the bundle and the output, of `play`, `replay` and `drive` 16
times, and 16 MB beside.

With --instructions a line has what valgrind's callgrind counts in place of seconds and memory, of
bundles from a megabyte on (or the last two doublings), and the bound is 2.3 times at a doubling:
that is the same on each machine, whatever else it does, and takes some fifty times as long.
"""
import os
import random
import re
import subprocess
import sys
import tempfile
from collections.abc import Callable, Iterator
from concurrent.futures import ThreadPoolExecutor
from functools import partial

sys.dont_write_bytecode = True
import hostile_plans
import hostile_scripts
from changes import ask, played, steps_of, with_history
from ringplan import texts
from measured import RUN, Measured


# What makes a family's bundles, each twice as large as the one before.
Makers = list[Callable[[], str]]


def members(leave: int, partitions: int) -> str:
    """A ring of 1,024 nodes, 7 slots a partition, of whose nodes some leave and as many join."""
    names = ["n%04d" % n for n in range(1024)]
    stay = names[: 1024 - leave]
    rows = [[stay[(7 * p + i) % len(stay)] for i in range(7)] for p in range(partitions)]
    ring = texts.Ring.of(names, set(stay), rows, (7, 4, 4), 4)
    change = texts.Change(tuple(names[len(stay) :]), tuple(stay[:leave]))
    return texts.write_texts([ring, change])


def shifted(partitions: int) -> str:
    """The ring of 1,024 nodes, and behind it the same ring with each slot at the next node."""
    first = members(0, partitions).split("change 1\n")[0]
    rows: list[str] = []
    for line in first.splitlines():
        fields = line.split()
        if fields[0] == "slots":
            line = " ".join(fields[:2] + ["n%04d" % ((int(x[1:]) + 7) % 1024) for x in fields[2:]])
        rows.append(line)
    return first + "\n".join(rows) + "\n"


def dead_names(dead: int) -> list[str]:
    """Every ninth node of a ring, so many in all."""
    return ["n%04d" % (9 * k) for k in range(dead)]


def around_words(dead: int) -> list[str]:
    """The command's words for a change around these dead nodes."""
    return ["goal", *[it for x in dead_names(dead) for it in ("--dead", x)]]


def around(dead: int, partitions: int) -> str:
    """The ring of 1,024 nodes, of which every ninth leaves and is dead, so many in all, and as many
    join.
    """
    front = members(dead, partitions).split("change 1\n")[0]
    joins = tuple("n%04d" % k for k in range(1024 - dead, 1024))
    return front + texts.write_texts([texts.Change(joins, tuple(dead_names(dead)))])


def joined(partitions: int) -> tuple[str, list[list[str]], list[list[int]]]:
    """The ring of 1,024 nodes, half of which join: of the plan its bundle, and its steps with what
    they wait for.
    """
    given = members(512, partitions).split("leave ", 1)[0] + "end\n"
    bundle = ask(["goal"], given)[0]
    steps = steps_of(bundle)
    return bundle, [fields for fields, _ in steps], [waits for _, waits in steps]


def begun(partitions: int, entries: int = 0) -> str:
    """The first half of a plan's steps is done.

    With puts between them, so many entries in all, mirrors are set too, and 500 copies are open,
    with half of their chunks.
    """
    bundle, steps, after = joined(partitions)
    half, draw, puts, due = len(steps) // 2, random.Random(1), 0, 0.0
    events: list[str] = []
    copies = sum(step[0] == "copy" for step in steps[:half])
    each = (entries - half - 17 * copies - 4500) // 6 / half if entries else 0
    for k, step in enumerate(steps[:half]):
        events += (
            ["open %d" % k, *("chunk %d %d" % (k, c) for c in range(16)), "close %d" % k]
            if step[0] == "copy"
            else ["do %d" % k]
        )
        due += each
        while due >= 1:
            key = draw.randrange(30000)
            events += [
                "put w%d key%d x%08x" % (key % 64, key, puts),
                *("write %d %d" % (puts, i) for i in draw.sample(range(7), 4)),
                "ack %d" % puts,
            ]
            due, puts = due - 1, puts + 1
    ready = [
        k
        for k in range(half, len(steps))
        if entries and steps[k][0] == "mirror" and max(after[k], default=0) < half
    ]
    events += ["do %d" % k for k in ready]
    done = {*range(half), *ready}
    for k in [
        k
        for k, step in enumerate(steps)
        if entries and k not in done and step[0] == "copy" and done.issuperset(after[k])
    ][:500]:
        events += ["open %d" % k, *("chunk %d %d" % (k, c) for c in range(8))]
    return replay_of(bundle + "script 1\n" + "\n".join(events) + "\nend\n")


def replay_of(bundle: str) -> str:
    """The bundle of a replay of what a play of this one answers."""
    front, _, script = bundle.rpartition("script 1\n")
    entries = played(front, script.split("\n")[:-2])
    return with_history(front, (f"{event} = {reply}" for event, reply in entries))


def plan_of(bundle: str) -> str:
    """The same ring with a plan for its change."""
    return bundle.split("change 1\n")[0] + ask(["plan"], bundle)[0]


def planned(leave: int, partitions: int) -> str:
    """A ring of 1,024 nodes with a plan by which some leave and as many join."""
    return plan_of(members(leave, partitions))


def replayed(make: Callable[[], str]) -> str:
    """The bundle of a replay of what is played."""
    return replay_of(make())


def clients(writers: int, lines: int) -> str:
    """Eight scripts of a drive with so many lines in all: puts of one key by so many writers, each
    of which knows a get.
    """
    out = hostile_plans.small() + ["plan 1", "end", "cert 1", "end"]
    for client in range(8):
        out.append("script 1")
        for n in range(lines // 16):
            out += [
                "get k",
                "put w%d k x%s seen %d"
                % (writers // 8 * client + n % (writers // 8), "ab" * 16, n),
            ]
        out.append("end")
    return "\n".join(out) + "\n"


def plans(name: str, first: int, last: int) -> Makers:
    return [partial(hostile_plans.bundle, name, n) for n in doubled(first, last)]


def scripts(name: str, first: int, last: int, *front: int, behind: tuple[int, ...] = ()) -> Makers:
    return [partial(hostile_scripts.bundle, name, *front, n, *behind) for n in doubled(first, last)]


def doubled(first: int, last: int) -> list[int]:
    out = [first]
    while out[-1] * 2 <= last:
        out.append(out[-1] * 2)
    return out


def refused() -> dict[str, Makers]:
    """Plans and rings that are refused, for reasons that cost much to find."""
    return {
        "fields": plans("fields", 131072, 4194304),
        "twice": plans("twice", 65536, 1048576),
        "repeats": plans("repeats", 512, 4096),
        "swapped": plans("swapped", 512, 4096),
        "last": plans("last", 16384, 131072),
        "gaps": plans("gaps", 25600, 204800),
        "sources": plans("sources", 25600, 204800),
        "leaves": plans("leaves", 16384, 131072),
    }


def accepted_plans() -> dict[str, Makers]:
    """Plans that the checker accepts."""
    return {
        "moves": plans("moves", 16384, 131072),
        "facts": plans("facts", 200, 6400),
        "chains": plans("chains", 800, 32768),
        "names": plans("names", 16384, 131072),
        "rows": plans("rows", 31, 124),
        "retires": plans("retires", 2048, 16384),
    }


def accepted_scripts() -> dict[str, Makers]:
    """Scripts that a play accepts."""
    bundle = hostile_scripts.bundle
    return {
        "reads, versions": [partial(bundle, "reads", m, 500) for m in doubled(128, 1024)],
        "reads, gets": scripts("reads", 500, 32000, 1024),
        "writes": scripts("writes", 62500, 500000, 1024),
        "seen": scripts("seen", 8000, 256000, 1024),
        "chained": scripts("chained", 10000, 160000, 1024),
        "joins": scripts("joins", 37500, 300000, 1024),
        "values": scripts("values", 500, 16000, 1024),
        "hints": scripts("hints", 62500, 500000),
        "scattered": scripts("scattered", 62500, 500000),
        "keepers": scripts("keepers", 31250, 250000, 1000),
        "down": scripts("down", 62500, 500000, 1000),
        "keys, moves and keys": [partial(bundle, "keys", m, 20 * m) for m in doubled(125, 2000)],
        "keys, moves": [partial(bundle, "keys", m, 1000) for m in doubled(1000, 8000)],
        "touched": [partial(bundle, "touched", m, 10 * m) for m in doubled(500, 8000)],
        "left": scripts("left", 25000, 400000, 999, behind=(1,)),
        "kept, versions": [partial(bundle, "kept", 100, m, 20) for m in doubled(128, 1024)],
        "kept, gets": [partial(bundle, "kept", 100, 256, n) for n in doubled(500, 4000)],
        "long_clocks": scripts("long_clocks", 62500, 500000, 1024),
        "long_keys": scripts("long_keys", 20000, 160000),
        "names": scripts("names", 31250, 1000000),
        "waits": scripts("waits", 62500, 500000),
    }


# The command's words, the family's name, and what makes its bundles, each twice as large as the
# one before.
Family = tuple[list[str], str, Makers]


def families() -> Iterator[Family]:
    """Each family."""
    yield from families_of_plans()
    yield from families_of_changes()
    for name, made in accepted_scripts().items():
        yield ["play"], name, made
    for name, made in accepted_scripts().items():
        yield ["replay"], name, [partial(replayed, make) for make in made]
    yield ["drive"], "one writer a client", [partial(clients, 8, n) for n in doubled(12500, 100000)]
    yield ["drive"], "1,024 writers", [partial(clients, 1024, n) for n in doubled(12500, 100000)]


def families_of_plans() -> Iterator[Family]:
    for line in ("check", "check --workers 4", "migrate"):
        for name, made in accepted_plans().items():
            yield line.split(), name, made
    yield ["plan"], "a tenth of the nodes", [partial(members, 102, q) for q in doubled(512, 4096)]
    yield ["plan"], "half of the nodes", [partial(members, 512, q) for q in doubled(512, 4096)]
    lines = "why,show,draw,steps,steps --moves,cert,after,windows --rounds 1,windows --rounds 64"
    for line in lines.split(","):
        for name, made in accepted_plans().items():
            yield line.split(), name, made
    for name, made in refused().items():
        yield ["why"], name, made


def families_of_changes() -> Iterator[Family]:
    windows: Makers = [partial(planned, 102, q) for q in doubled(512, 4096)]
    yield ["windows", "--rounds", "1"], "a tenth of the nodes", windows
    yield ["goal"], "a tenth of the nodes", [partial(members, 102, q) for q in doubled(512, 4096)]
    yield ["goal"], "each slot to another node", [partial(shifted, q) for q in doubled(512, 4096)]
    yield around_words(100), "100 dead nodes", [partial(around, 100, q) for q in doubled(512, 4096)]
    half: Makers = [partial(begun, q) for q in doubled(1024, 4096)]
    yield ["around", "--dead", "n0003"], "half done", half
    puts: Makers = [partial(begun, 4096, n) for n in (247500, 495000, 990000)]
    yield ["around", "--dead", "n0066"], "puts, half done", puts


def least(words: list[str], bundle: bytes) -> Measured:
    """The run that took the least time: of seven where one takes less than two seconds, since what
    else the machine does may double a short one.
    """
    made = Measured(words, bundle)
    return (
        min([made, *[Measured(words, bundle) for _ in range(6)]], key=lambda it: it.seconds)
        if made.seconds < 2
        else made
    )


def counted(words: list[str], bundle: bytes) -> tuple[int, int]:
    """The size of the bundle, and the instructions of a run over it."""
    with tempfile.NamedTemporaryFile() as given:
        given.write(bundle)
        given.flush()
        run = [RUN, *words]
        with open(given.name, "rb") as text:
            made = subprocess.run(
                ["valgrind", "--tool=callgrind", "--callgrind-out-file=/dev/null", *run],
                stdin=text,
                stdout=subprocess.DEVNULL,
                stderr=subprocess.PIPE,
            )
    refs = re.findall(rb"refs: +([\d,]+)", made.stderr)
    return len(bundle), int(refs[0].replace(b",", b""))


def counts(wanted: list[str]) -> int:
    passed = 0
    with ThreadPoolExecutor(os.cpu_count()) as pool:
        for words, name, made in [it for it in families() if is_wanted(it[0], it[1], wanted)]:
            print("%s, %s" % (" ".join(words[:5]), name), flush=True)
            sizes = [it for it in (make().encode() for make in made) if len(it) <= 67108864]
            sizes = [it for it in sizes if len(it) >= min(1e6, len(sizes[-1]) / 4)]
            before: int | None = None
            for size, count in pool.map(lambda it: counted(words, it), sizes):
                over = before is not None and count > 2.3 * before
                passed += bool(over)
                print(
                    "  %6.2f MB: %8.1f million instructions, %s times%s"
                    % (
                        size / 1e6,
                        count / 1e6,
                        "%5.2f" % (count / before) if before else "    -",
                        "  <-" if over else "",
                    ),
                    flush=True,
                )
                before = count
    print("costs: %d bounds passed" % passed)
    return 1 if passed else 0


def is_wanted(words: list[str], name: str, wanted: list[str]) -> bool:
    return not wanted or bool({words[0], words[-1], name.split(",")[0]} & {*wanted})


def bounds_passed(
    ran: Measured, words: list[str], bundle: bytes, before: Measured | None
) -> list[str]:
    """The bounds that a run passes, beside the run of half the size."""
    size, both = len(bundle) / 1e6, (len(bundle) + ran.size) / 1e6
    over = []
    if before and size >= 1 and ran.seconds >= 0.1 and ran.seconds > 2.3 * before.seconds:
        if ran.size < 2.3 * before.size:
            over.append("time grows")
    if ran.seconds > max(1, both / 10):
        over.append("time")
    if ran.memory / 1e6 > (16 if words[0] in ("play", "replay", "drive") else 8) * both + 16:
        over.append("memory")
    return over


def measure(words: list[str], made: Makers) -> int:
    """Prints a line for each size of a family. Returns how many bounds are passed."""
    passed = 0
    before: Measured | None = None
    for make in made:
        bundle = make().encode()
        if len(bundle) > 67108864:
            break
        ran = least(words, bundle)
        over = bounds_passed(ran, words, bundle, before)
        half = before.seconds if before else 0
        grows = "%5.1f" % (ran.seconds / half) if half >= 0.02 else "    -"
        size, out, memory = (it / 1e6 for it in (len(bundle), ran.size, ran.memory))
        print(
            "  %6.2f MB, output %6.2f MB, status %d: %6.2f s, %s times; %5.0f MB, %4.1f times%s"
            % (
                *(size, out, ran.status, ran.seconds, grows, memory, memory / size),
                "  <- " + ", ".join(over) if over else "",
            ),
            flush=True,
        )
        passed += len(over)
        before = ran
        if ran.seconds > 60:
            break
    return passed


def main() -> int:
    wanted, passed = [it for it in sys.argv[1:] if it != "--instructions"], 0
    if len(wanted) < len(sys.argv) - 1:
        return counts(wanted)
    for words, name, made in families():
        if is_wanted(words, name, wanted):
            print("%s, %s" % (" ".join(words[:5]), name), flush=True)
            passed += measure(words, made)
    print("costs: %d bounds passed" % passed)
    return 1 if passed else 0


if __name__ == "__main__":
    sys.exit(main())
