#!/usr/bin/env python3
"""Meets each limit of the texts, of the command line and of a bundle exactly, and passes each by
one: trials/limits.py, once `rt ci` or `rt run` has built crates/ringplan. Prints a line for each
limit, and ends with 0 only where every answer is the one that is owed: at the limit the answer of a
bundle without a fault, and past it the refusal with its line. Bundles of one byte more than the
greatest are refused by each subcommand within a second, and in 140 MB. Each subcommand answers
alike with a stack of 96 KiB.
"""
import pathlib
import resource
import subprocess
import sys
from collections.abc import Iterator, Sequence

sys.dont_write_bytecode = True
from hostile_plans import ring_of, small, to_and_fro
from measured import RUN, TOP, Measured

RING = [
    "ring 1",
    "space 4",
    "quorum 3 2 2",
    "node a 4 in",
    "node b 4 in",
    "node c 4 in",
    "node d 4 out",
    "slots 0 a b c",
    "slots 1 a b c",
    "slots 2 a b c",
    "slots 3 a b c",
    "end",
]
MEMBERS = [line.replace("d 4 out", "d 4 in") for line in RING]
NOTHING = ["plan 1", "end", "cert 1", "end"]
NOTHING_OF_FORM_2 = ["plan 1", "end", "cert 2", "end"]
SMALL = small()
ABC, SEVEN = list("abc"), [list("abcdefg")]
# One name more than a ring may have, the longest name, and the greatest number with the next one.
MANY, NAME, GREATEST = ["n%d" % n for n in range(1025)], "n" * 32, (4294967295, 4294967296)
# A run: the words, the bundle, and how the output begins, or what it is.
Run = tuple[list[str], bytes, str]


def text(lines: list[str]) -> bytes:
    return "".join(line + "\n" for line in lines).encode()


def cert_of(steps: int, facts: list[str] | None = None) -> list[str]:
    """The certificate of that plan: each copy comes before the next by a fact, and a and d have one
    chain each.
    """
    copies = list(range(1, steps, 4))
    facts = (
        ["fact " + " ".join(map(str, range(c, c + 5))) for c in copies[:-1]]
        if facts is None
        else facts
    )
    return (
        ["cert 1"]
        + facts
        + ["chain %s %s" % (x, " ".join(map(str, copies))) for x in "ad" if copies]
        + ["end"]
    )


def plan_of(steps: int, after: Sequence[Sequence[int]] = ()) -> list[str]:
    return ["plan 1"] + to_and_fro(steps, after) + ["end"]


def script_of(events: list[str]) -> list[str]:
    return ["script 1"] + events + ["end"]


def spread(total: int, most: int, steps: int) -> list[range]:
    """For each step the steps that it waits for: so many in all, at most so many a step, each step
    at least for the one before it.
    """
    counts = [min(n, 1) for n in range(steps)]
    left = total - sum(counts)
    for n in reversed(range(steps)):
        more = min(left, min(n, most) - counts[n])
        counts[n] += more
        left -= more
    assert left == 0
    return [range(n - counts[n], n) for n in range(steps)]


def of_bytes(size: int) -> bytes:
    """A check's bundle of exactly so many bytes: facts about 4,000 steps, and short ones to fill it
    up.
    """
    front = SMALL + plan_of(4000)
    must = cert_of(4000)
    lines = [*front, *must[:-3]]
    left = size - len(text(front + must))
    at = 0
    while left > 20000:
        line = "fact " + " ".join(map(str, range(at % 2900, at % 2900 + 1024)))
        lines.append(line)
        left -= len(line) + 1
        at += 7
    while left > 24:
        lines.append("fact 1 2")
        left -= 9
    # (one fact of 9 to 24 bytes: from 1 on where they are odd, and else up to 10)
    steps = (left - 5) // 2
    lines.append(
        "fact "
        + " ".join(
            map(
                str,
                range(1, steps + 1)
                if left % 2
                else range(11 - steps, 11)
                if steps > 1
                else (9, 10),
            )
        )
    )
    lines += must[-3:]
    made = text(lines)
    assert len(made) == size, (len(made), size)
    return made


def chains(count: int) -> list[str]:
    """A ring of 1,024 nodes and 512 partitions of one slot, each of which moves, and so many
    chains: at each node 64, and the rest at the last.
    """
    nodes = ["n%d" % n for n in range(1024)]
    lines = ring_of(nodes, [[nodes[p]] for p in range(512)], "1 1 1") + ["plan 1"]
    for p in range(512):
        lines += [
            "mirror %d 0 %s" % (p, nodes[512 + p]),
            "copy %d 0 owner after %d" % (p, 3 * p),
            "switch %d 0 after %d" % (p, 3 * p + 1),
        ]
    lines += ["end", "cert 1"]
    at = [(nodes[n], 3 * (n % 512) + 1) for n in range(1024) for _ in range(64)] + [
        (nodes[1023], 3 * 511 + 1)
    ]
    return lines + ["chain %s %d" % it for it in at[:count]] + ["end"]


def history_of(count: int) -> list[str]:
    """A history of so many entries, in which d goes down and comes up."""
    return ["history 1"] + ["%s d = ok" % ("down", "up")[n % 2] for n in range(count)] + ["end"]


def downs(count: int) -> list[str]:
    return ["%s d" % ("down", "up")[n % 2] for n in range(count)]


CHECK, PLAY, REPLAY, DRIVE = ["check"], ["play"], ["replay"], ["drive"]
BUNDLE = 67108864


# A limit: what it is, the run that meets it, and the run that passes it by 1.
Limit = tuple[str, Run, Run]


def both(
    name: str, words: list[str], good: list[str], bad: list[str], refusal: str, answer: str = "yes"
) -> Limit:
    """A limit's two runs. The refusal is a number, and how the last line at fault begins."""
    number, start = refusal.split()
    line = max(n + 1 for n, line in enumerate(bad) if line.startswith(start))
    return name, (words, text(good), answer), (words, text(bad), f"no {number} {line}")


def limits() -> Iterator[Limit]:
    """Each limit."""
    yield from limits_of_rings()
    yield from limits_of_plans()
    yield from limits_of_certificates()
    yield from limits_of_numbers()
    yield from limits_of_puts()
    yield from limits_of_numbers_in_scripts()
    yield from limits_of_lengths()
    yield from limits_of_workers()
    good, bad = of_bytes(BUNDLE), of_bytes(BUNDLE + 1)
    yield "bytes of a bundle, 67,108,864", (CHECK, good, "yes"), (CHECK, bad, "no 2 0")


def limits_of_rings() -> Iterator[Limit]:
    four, eight = (text(ring_of("abcd", [ABC] * count) + NOTHING) for count in (4096, 8192))
    yield "partitions, 4,096", (CHECK, four, "yes"), (CHECK, eight, "no 2 2")
    good = ring_of("abcdefg", SEVEN, "7 4 4") + NOTHING
    bad = ring_of("abcdefgh", [list("abcdefgh")], "8 5 5") + NOTHING
    yield both("slots of a partition, 7", CHECK, good, bad, "2 quorum")
    good = ring_of("abcdefg", SEVEN, "7 7 7 6", "ring 3") + NOTHING_OF_FORM_2
    bad = ring_of("abcdefg", SEVEN, "7 7 7 7", "ring 3") + NOTHING_OF_FORM_2
    yield both("stores that may be lost, 6", CHECK, good, bad, "2 quorum")
    good, bad = (ring_of(MANY[:count], [MANY[:3]]) + NOTHING for count in (1024, 1025))
    yield both("declared nodes, 1,024", CHECK, good, bad, "2 node")
    good = ring_of(ABC, [ABC]) + NOTHING
    bad = [*good[:5], "node c 65 in", *good[6:]]
    yield both("an allowance, 64", CHECK, good, bad, "2 node")
    good = ring_of(ABC, [ABC], form="ring 2", allowance="64 64") + NOTHING_OF_FORM_2
    bad = [*good[:5], "node c 64 65 in", *ring_of(ABC, [ABC])[6:], *NOTHING_OF_FORM_2]
    yield both("the side of an allowance, 64", CHECK, good, bad, "2 node")
    good, bad = (ring_of(["a", "b", x], [["a", "b", x]]) + NOTHING for x in (NAME, NAME + "n"))
    yield both("bytes of a node's name, 32", CHECK, good, bad, "1 node")


def limits_of_plans() -> Iterator[Limit]:
    most = 131072
    good, bad = (SMALL + plan_of(count) + cert_of(most) for count in (most, most + 1))
    yield both("steps of a plan, 131,072", CHECK, good, bad, "2 mirror")
    front: list[Sequence[int]] = [()] * 4099
    good, bad = (
        SMALL + plan_of(4100, [*front, range(first, 4099)]) + cert_of(4100) for first in (3, 2)
    )
    yield both("dependencies of a step, 4,096", CHECK, good, bad, "2 drop")
    full, past = (SMALL + plan_of(8192, spread(it, 128, 8192)) for it in (524288, 524289))
    # (those of the last steps are the most)
    yield (
        "dependencies of a plan, 524,288",
        (CHECK, text(full + cert_of(8192)), "yes"),
        (CHECK, text(past + cert_of(8192)), "no 2 %d" % (len(past) - 1)),
    )
    good, bad = (copy_of(it) for it in ("0 1 2 3 4 5 6", "0 1 2 3 4 5 6 0"))
    yield both("slots that a copy reads, 7", CHECK, good, bad, "2 copy")


def copy_of(indexes: str) -> list[str]:
    """A ring of seven slots, and a move whose copy reads these."""
    copy = f"copy 0 0 slots {indexes} after 0"
    plan = ["plan 1", "mirror 0 0 h", copy, "switch 0 0 after 1", "end", "cert 1"]
    return [
        *ring_of("abcdefgh", SEVEN, "7 4 4"),
        *plan,
        *(f"chain {x} 1" for x in "abcdefgh"),
        "end",
    ]


def limits_of_certificates() -> Iterator[Limit]:
    must = cert_of(4000)[1:-3]

    def certified(facts: list[str]) -> list[str]:
        return SMALL + plan_of(4000) + cert_of(4000, must + facts)

    pairs = ["fact %d %d" % (n % 3999, n % 3999 + 1) for n in range(262145)]
    good, bad = (certified(pairs[: count - len(must)]) for count in (262144, 262145))
    yield both("order facts, 262,144", CHECK, good, bad, "2 fact")
    good, bad = (certified(["fact " + " ".join(map(str, range(it)))]) for it in (1024, 1025))
    yield both("steps of a fact, 1,024", CHECK, good, bad, "2 fact")
    good, bad = chains(65536), chains(65537)
    yield both("chains of a certificate, 65,536", CHECK, good, bad, "2 chain")


def limits_of_numbers() -> Iterator[Limit]:
    """The numbers of steps in a certificate and in a plan."""
    name = "the number of a step in a fact, 4,294,967,295"
    good, bad = (RING + ["plan 1", "end", "cert 1", "fact 0 %d" % it, "end"] for it in GREATEST)
    yield both(name, CHECK, good, bad, "2 fact", "no 30 0")
    name = "the number of a dependency, 4,294,967,295"
    good, bad = (
        RING + ["plan 1", "join d after %d" % it, "end", "cert 1", "end"] for it in GREATEST
    )
    yield both(name, CHECK, good, bad, "2 join", "no 20 14")


def played(name: str, good: list[str], bad: list[str], refusal: str, answer: str = "yes") -> Limit:
    """The limit of a script: of these events."""
    play = RING + NOTHING
    return both(name, PLAY, play + script_of(good), play + script_of(bad), refusal, answer)


def limits_of_puts() -> Iterator[Limit]:
    puts = ["put %s k x" % name for name in MANY]
    yield played("writers of a bundle, 1,024", puts[:1024], puts, "2 put")
    good, bad = (["put %s k x" % it] for it in (NAME, NAME + "n"))
    yield played("bytes of a writer's name, 32", good, bad, "1 put")
    good, bad = (["get " + "k" * count] for count in (64, 65))
    yield played("bytes of a key, 64", good, bad, "1 get")
    good, bad = (["put w k x" + "ab" * count] for count in (1024, 1025))
    yield played("bytes of a value, 1,024", good, bad, "1 put")
    events = ("get k", "read %d 0", "read %d 1", "endget %d")
    gets = [it % n if "%" in it else it for n in range(17) for it in events]
    good, bad = (
        [*gets, "put w k x seen " + " ".join(map(str, range(count)))] for count in (16, 17)
    )
    yield played("gets that a put names, 16", good, bad, "2 put")
    name = "the number of a get behind seen, 4,294,967,295"
    good, bad = (["put w k x seen %d" % it] for it in GREATEST)
    yield played(name, good, bad, "2 put", "yes\n0 no 47\n")


def limits_of_numbers_in_scripts() -> Iterator[Limit]:
    for word, event in (
        ("step", "do %d"),
        ("put", "ack %d"),
        ("get", "endget %d"),
        ("chunk", "chunk 0 %d"),
        ("slot", "handoff d 0 %d"),
        ("partition", "handoff d %d 0"),
    ):
        name = f"the number of a {word} in a script, 4,294,967,295"
        good, bad = ([event % it] for it in GREATEST)
        yield played(name, good, bad, f"2 {event.split()[0]}", "yes\n0 no 47\n")


def limits_of_lengths() -> Iterator[Limit]:
    """Scripts, histories, and how many scripts a drive has."""
    good, bad = downs(1000000), downs(1000001)
    yield played("events of a script, 1,000,000", good, bad, "2 down")
    good, bad = (MEMBERS + NOTHING + history_of(count) for count in (1000000, 1000001))
    yield both("entries of a history, 1,000,000", REPLAY, good, bad, "2 down")
    eight = SMALL + NOTHING + 8 * script_of(["get k"])
    bad, line = eight + script_of([]), len(eight) + 1
    yield "scripts of a drive, 8", (DRIVE, text(eight), "yes"), (DRIVE, text(bad), f"no 1 {line}")


def limits_of_workers() -> Iterator[Limit]:
    for name, word, lines, good, bad in (
        ("workers of a check, 64", "check", SMALL + NOTHING, 64, 65),
        ("workers of a check, 1 at least", "check", SMALL + NOTHING, 1, 0),
        ("workers of a drive, 64", "drive", SMALL + NOTHING + script_of([]), 64, 65),
    ):
        said = "error: invalid value '%d' for '--workers <K>'" % bad
        given = text(lines)
        met, passed = ([word, "--workers", str(count)] for count in (good, bad))
        yield name, (met, given, "yes"), (passed, given, said)


def told(words: list[str], bundle: bytes, starts: str, fault: bool) -> bool:
    made = Measured(words, bundle)
    said, status = made.front.decode(errors="replace"), made.status
    if starts.startswith("error"):
        # The words that refuse a command line are on standard error.
        said = f"on standard output {said!r}" if said else made.errors.decode()
    owed = 0 if starts.startswith("yes") else 1 if starts.startswith(("no 30",)) else 2
    if (
        said.startswith(starts)
        if not fault
        else said == starts + "\n" or starts.startswith("error") and said.startswith(starts)
    ) and status == owed:
        return True
    print(
        "FAILED: %s, %d bytes: %r was to come with %d, and %r came with %d"
        % (" ".join(words), len(bundle), starts, owed, said[:200], status)
    )
    return False


# What the stack must have room for, with what the system puts there.
STACK = 98_304


# What is asked on that stack, by the example that is given.
ASKED = {
    "": ("--version", "--help", "man", "completions bash", "check --workers"),
    "plan_replace": (
        "goal",
        "goal --dead b",
        "goal --format json",
        "plan",
        "show --all",
        "draw",
        "why",
    ),
    "move_one_slot": (
        "check",
        "check --workers 4",
        "check --format json",
        "show --format json",
        "draw",
        "steps",
        "steps --moves",
        "windows --rounds 1",
        "cert",
        "why",
        "migrate",
    ),
    "replay_a_move": (
        "replay",
        "part --of 2 --part 0",
        "after",
        "around --dead b --back",
        "why --format json",
    ),
    "drive_a_move_by_three": ("drive --workers 1",),
}


def ask_on_a_stack(
    words: list[str], bundle: bytes, size: int
) -> subprocess.CompletedProcess[bytes]:
    bare: dict[str, str] = {}
    return subprocess.run(
        [RUN, *words],
        input=bundle,
        capture_output=True,
        env=bare,
        timeout=60,
        preexec_fn=lambda: resource.setrlimit(resource.RLIMIT_STACK, (size, size)),
    )


def on_a_small_stack() -> Iterator[tuple[str, bool]]:
    """For each subcommand whether it answers on that stack as it does on a large one."""
    for name, lines in ASKED.items():
        bundle = pathlib.Path(TOP, "examples", f"{name}.bundle").read_bytes() if name else b""
        for words in map(str.split, lines):
            # Two drives of one bundle are alike in their first line only.
            told = [
                (it.returncode, it.stdout[:4] if "drive" in words else it.stdout, it.stderr)
                for it in (ask_on_a_stack(words, bundle, size) for size in (STACK, 1 << 23))
            ]
            yield " ".join(words), told[0] == told[1]


def meets(limit: Limit) -> bool:
    """Whether both runs of a limit answer as is owed. Prints a line."""
    name, (words, good, yes), (other, bad, no) = limit
    well = told(words, good, yes, False) and told(other, bad, no, True)
    answer = yes.split("\n")[-2 if "\n" in yes else -1]
    line = "%-52s %s: %-18r past it: %r" % (name, words[0], answer, no)
    print(line if well else "%s FAILED" % name, flush=True)
    return well


def refuses_a_byte_too_many(words: list[str], bundle: bytes) -> bool:
    """Whether the command refuses a bundle of a byte too many, soon. Prints a line."""
    made = Measured(words, bundle)
    line = "FAILED: a byte too many for %s: %r with %d" % (
        " ".join(words),
        made.front[:100],
        made.status,
    )
    is_said = made.front == b"no 2 0\n"
    well = is_said and made.status == 2 and made.wall <= 1 and made.memory <= 140e6
    if is_said:
        line = "a byte too many for %-17s %sno 2 0 in %.2f s and %d MB" % (
            " ".join(words) + ":",
            "" if well else "FAILED: ",
            made.wall,
            made.memory / 1e6,
        )
    print(line, flush=True)
    return well


def main() -> int:
    wells = list[bool]()
    for line, well in on_a_small_stack():
        wells.append(well)
        if not well:
            print("FAILED: %s on a stack of %d bytes" % (line, STACK), flush=True)
    wells += map(meets, limits())
    bundle = of_bytes(BUNDLE + 1)
    for line in ("plan", "check", "check --workers 3", "play", "replay", "drive", "migrate"):
        wells.append(refuses_a_byte_too_many(line.split(), bundle))
    print("limits: %d passed, %d failed" % (wells.count(True), wells.count(False)))
    return 0 if all(wells) else 1


if __name__ == "__main__":
    sys.exit(main())
