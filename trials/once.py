#!/usr/bin/env python3
"""Counts how often each command reads a ring and a plan, checks a plan and replays a history:
trials/once.py. It wants the program as it is built, and gdb.

gdb counts how often the program comes to the readers of the two sections, to the checker and to the
replay. ROWS says how often that is owed, by command and example. What is more than once has its
reason: two rings or plans are judged."""
import pathlib
import re
import subprocess
import sys
from concurrent.futures import ThreadPoolExecutor
from typing import NamedTuple

from measured import RUN

EXAMPLES = pathlib.Path(__file__).resolve().parent.parent / "examples"
PLACES = (
    "ring_table::reading::read_ring_section",
    "plan_text::reading::read_plan_section",
    "plan_check::checker::check",
    "ring_core::replaying::replay",
)


class Row(NamedTuple):
    """How often a command reads a ring and a plan, checks a plan and replays a history."""

    command: str
    example: str
    counts: tuple[int, int, int, int]


ROWS = (
    Row("check", "move_one_slot", (1, 1, 1, 0)),
    Row("migrate", "move_one_slot", (1, 1, 0, 0)),
    Row("play", "play_a_move_under_traffic", (1, 1, 1, 0)),
    Row("drive", "drive_a_move_by_three", (1, 1, 1, 0)),
    Row("replay", "replay_a_move", (1, 1, 1, 0)),
    Row("part --of 2 --part 0", "replay_a_move", (1, 1, 0, 0)),
    Row("plan", "plan_replace", (1, 0, 1, 0)),
    Row("show", "move_one_slot", (1, 1, 1, 0)),
    Row("show", "plan_replace", (1, 0, 1, 0)),
    Row("show", "replay_a_move", (1, 1, 1, 1)),
    Row("show --format json", "plan_replace", (1, 0, 1, 0)),
    Row("draw", "move_one_slot", (1, 1, 1, 0)),
    Row("draw", "plan_replace", (1, 0, 1, 0)),
    Row("steps", "move_one_slot", (1, 1, 1, 0)),
    Row("steps", "plan_replace", (1, 0, 1, 0)),
    Row("steps --moves", "replay_a_move", (1, 1, 1, 1)),
    Row("cert", "move_one_slot", (1, 1, 1, 0)),
    Row("why", "move_one_slot", (1, 1, 1, 0)),
    # A mend is a text of its own.
    Row("why", "copy_out_of_order", (2, 2, 2, 0)),
    Row("after", "move_one_slot", (1, 1, 1, 0)),
    Row("after", "plan_replace", (1, 0, 1, 0)),
    Row("after", "replay_a_move", (1, 1, 1, 1)),
    Row("goal", "plan_replace", (1, 0, 1, 0)),
    Row("goal --format json", "plan_replace", (1, 0, 1, 0)),
    # Two rings.
    Row("goal --dead c", "goal_around_a_dead_node", (2, 0, 1, 0)),
    # The plan, and each window of it.
    Row("windows --rounds 1", "move_one_slot", (1, 1, 2, 0)),
    Row("windows --rounds 1", "plan_replace", (1, 0, 5, 0)),
    # Two plans, and the history by the old one: that by the new one is made by a run of it.
    Row("around --dead c", "replay_a_move", (1, 1, 2, 1)),
)


def counted(row: Row) -> tuple[int, ...]:
    """How often the program comes to each place."""
    words = ["gdb", "-q", "-batch"]
    for place in PLACES:
        words += ["-ex", f"break {place}"]
    for number, _ in enumerate(PLACES, 1):
        words += ["-ex", f"ignore {number} 1000000"]
    run = f"run {row.command} {row.example}.bundle > /dev/null 2>&1"
    words += ["-ex", run, "-ex", "info breakpoints", RUN]
    said = subprocess.run(words, capture_output=True, text=True, cwd=EXAMPLES, check=True).stdout
    listed = re.split(r"\n\d+ +breakpoint ", said[said.index("\nNum ") :])[1:]
    if len(listed) != len(PLACES):
        sys.exit(f"the program has no symbol of one of {', '.join(PLACES)}")
    hits = (re.search(r"already hit (\d+) time", each) for each in listed)
    return tuple(int(hit.group(1)) if hit else 0 for hit in hits)


def main() -> int:
    """Compares each row, and prints those that differ."""
    with ThreadPoolExecutor(4) as pool:
        found = list(pool.map(counted, ROWS))
    faults = [(row, counts) for row, counts in zip(ROWS, found) if counts != row.counts]
    for row, counts in faults:
        print(f"{row.command} {row.example}: {counts}, and {row.counts} owed")
    print(f"{len(ROWS)} commands, {len(faults)} faults")
    return 1 if faults else 0


if __name__ == "__main__":
    sys.exit(main())
