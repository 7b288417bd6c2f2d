#!/usr/bin/env python3
"""Refuses each growth of memory in turn, one to a run, and each start of a thread:
trials/growths.py, once `rt ci` or `rt run` has built crates/ringplan and crates/tests_growths. It
needs a C compiler, for what it preloads. Without one it says so and ends with 0.

Of each case of `tests_program` the program prints what it prints with memory and all threads, or
`no 60` with status 3; the checks are also done by three workers. Of a drive by several workers, in
which the threads' turns are not the same in two runs, the first line alone is compared. The stores
of `tests_growths`, which run through all kinds of event, print the same, for an event that was
refused memory is applied again; or they end with status 1 and print nothing, where the growth
was not an event's.
"""
import collections
import concurrent.futures
import os
import shutil
import subprocess
import sys
import tempfile
import time
from collections.abc import Iterator

HERE = os.path.dirname(os.path.abspath(__file__))
CRATES = os.path.join(os.path.dirname(HERE), "crates")
RUN = os.path.join(CRATES, "ringplan", "out", "ringplan")
STORES = os.path.join(CRATES, "tests_growths", "out", "tests_growths")
CASES = os.path.join(CRATES, "tests_program")
# An exit status, and what is on standard output.
Ended = tuple[int, bytes]
# A name, the program with its words, its input, what is owed if memory is refused, and whether only
# the first line counts.
Case = tuple[str, list[str], str, list[Ended], bool]
# How many runs of a kind ended, with the same output or with another one.
Counts = collections.Counter[tuple[str, bool]]

# Of a word in the cases' list, the words of the command line.
COMMANDS = {
    "check": [["check"], ["check", "--workers", "3"]],
    "migrate": [["migrate"]],
    "play": [["play"]],
    "plan": [["plan"]],
    "drive": [["drive"]],
    "report": [["drive", "--format", "json"]],
    "race": [["drive", "--workers", "3"]],
    "replay": [["replay"]],
}


# Where memory is refused to a command for people, standard output has nothing; but it has the
# refusal where memory is refused before the command is known.
NOTHING = [(3, b""), (3, b"no 60\n")]

# What is asked for people: each command of some bundles, and of others why they are refused.
MADE = ["plan_replace", "replay_a_move", "node_enters_before_it_left"]
REFUSED = [
    "broken_fact",
    "more_chains_than_allowance",
    "retired_in_use",
    "copy_in_no_chain",
    "chain_out_of_order",
    "moving_source",
    "switch_without_copy",
    "no_certificate",
    "node_that_has_not_joined",
    "quorums_need_not_meet",
    "owner_twice_apart",
    "plan_the_last_member",
    "replay_an_early_ack",
    "replay_another_reply",
]

# Rings that are wished for, windows, and texts about the program.
WISHED = [
    ("goal_around_a_dead_node", "goal --dead b"),
    ("goal_around_a_dead_node", "goal --dead a --dead b"),
    ("plan_replace", "goal --dead b --racks-behind none"),
    ("plan_replace", "windows --rounds 2"),
    ("plan_replace", "goal --exit-code"),
    ("plan_replace", "man"),
    ("copy_out_of_order", "check --format json"),
    ("replay_a_move", "replay --format json"),
    ("plan_replace", "completions zsh"),
    ("plan_replace", "steps --moves"),
    ("copy_out_of_order", "windows --rounds 1 --only 1"),
    ("replay_an_early_ack", "part --of 4 --part 0"),
    ("replay_an_early_ack", "part --partitions 0-1 --map 3"),
    ("replay_an_early_ack", "part --of 4 --part 0 --map 99"),
]

# Of these also a certificate, which is found for the one and not for the other.
SOUGHT = ["no_certificate", "more_chains_than_allowance"]


def people() -> Iterator[Case]:
    """Runs of the commands for people."""
    for name in MADE + REFUSED:
        for words in (
            ("why", "show --all", "draw", "steps", "cert", "after")
            if name in MADE
            else ("why", "cert")
            if name in SOUGHT
            else ("why",)
        ):
            given = os.path.join(CRATES, "tests_program", "data", name + ".bundle")
            yield "%s %s" % (name, words), [RUN, *words.split()], given, NOTHING, False
    for name, words in WISHED:
        given = os.path.join(CRATES, "tests_program", "data", name + ".bundle")
        yield "%s %s" % (name, words), [RUN, *words.split()], given, NOTHING, False


def cases() -> Iterator[Case]:
    """The runs: a name, the program with its words, its input, what is owed where memory is
    refused, and whether the first line alone counts.
    """
    yield "stores", [STORES], os.path.join(CRATES, "tests_growths", "stdin"), [(1, b"")], False
    with open(os.path.join(CASES, "args")) as file:
        names = file.read().split()
    kinds = ["check"]
    for name in names[: names.index("why")]:
        if name in COMMANDS:
            kinds = [name]
            continue
        for words in COMMANDS[kinds[0]]:
            label = " ".join([name, *words])
            yield label, [RUN, *words], os.path.join(CASES, "data", name + ".bundle"), [
                (3, b"no 60\n")
            ], kinds[0] == "race"
    yield from people()


def run(words: list[str], given: str, first: bool, preload: str, **environment: str) -> Ended:
    with open(given, "rb") as bundle:
        made = subprocess.run(
            words,
            stdin=bundle,
            stdout=subprocess.PIPE,
            stderr=subprocess.DEVNULL,
            env={"LD_PRELOAD": preload, **environment},
        )
    return made.returncode, made.stdout[: made.stdout.find(b"\n") + 1] if first else made.stdout


def refuse_each(case: Case, preload: str, scratch: str) -> tuple[str, int, Counts, int, str | None]:
    """Returns the case's name, its growths, how they ended, its starts of threads, and what went
    wrong, if anything.
    """
    name, words, given, owed, first = case
    counted = os.path.join(scratch, name.replace("/", " "))
    whole = run(words, given, first, preload, COUNTED=counted)
    with open(counted) as file:
        growths, starts = map(int, file.read().split())
    ended: Counts = collections.Counter()
    for what, setting, count in (
        ("growth", "REFUSED", growths),
        ("start", "REFUSED_START", starts),
    ):
        for number in range(1, count + 1):
            found = run(words, given, first, preload, **{setting: str(number)})
            if found not in [whole, *owed]:
                return (
                    name,
                    growths,
                    ended,
                    starts,
                    "%s %d ends with %d and prints %r" % (what, number, found[0], found[1][:200]),
                )
            ended[what, found == whole] += 1
    return name, growths, ended, starts, None


def told(ended: Counts) -> str:
    """How the growths and the starts that were refused ended."""

    def count(what: str) -> int:
        return ended[what, True] + ended[what, False]

    return (
        "%d growths refused, %d with the same output, %d with the refusal; %d starts of threads, %d"
        " and %d"
        % (
            count("growth"),
            ended["growth", True],
            ended["growth", False],
            count("start"),
            ended["start", True],
            ended["start", False],
        )
    )


def main() -> int:
    compiler = shutil.which("cc")
    if not compiler:
        print("growths.py: there is no C compiler cc, so no growth of memory is refused")
        return 0
    began, runs, failed = time.monotonic(), 0, 0
    sums: Counts = collections.Counter()
    with tempfile.TemporaryDirectory() as scratch:
        preload = os.path.join(scratch, "refuse.so")
        subprocess.run(
            [
                compiler,
                "-shared",
                "-fPIC",
                "-O1",
                "-o",
                preload,
                os.path.join(HERE, "refuse.c"),
                "-ldl",
            ],
            check=True,
        )
        with concurrent.futures.ThreadPoolExecutor(len(os.sched_getaffinity(0))) as pool:
            for name, growths, ended, starts, wrong in pool.map(
                lambda case: refuse_each(case, preload, scratch), cases()
            ):
                sums.update(ended)
                runs, failed = runs + 1, failed + (wrong is not None)
                print("%s: %s" % (name, wrong or told(ended)), flush=True)
    print("growths of %d cases: %s; %d s" % (runs, told(sums), time.monotonic() - began))
    print("growths: %d passed, %d failed" % (runs - failed, failed))
    return 1 if failed else 0


if __name__ == "__main__":
    sys.exit(main())
