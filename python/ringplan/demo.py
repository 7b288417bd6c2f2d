"""A store over seven real servers changes its ring under traffic, while two of them are killed and
come back.

    python3 -m ringplan.demo [--into FOLDER] [--servers sqlite|redis|postgres] [--break NAME]

One node joins and one leaves. `ringplan` makes the plan and checks it, four workers go through it,
clients put and get all the while, and `ringplan watch` judges the history while it happens. The
folder gets the bundles and a picture. With --break a store that is broken on purpose runs. It stops
at the first wrong entry, its servers' data is left as it was, and `ringplan why` says what was
wrong.
"""

from __future__ import annotations

import argparse
import pathlib
import shutil
import sys
import tempfile
import threading
import time
from collections.abc import Iterator
from contextlib import contextmanager
from typing import Any

from ringplan import programs
from ringplan.store.broken import EXECUTORS, STORES
from ringplan.store.coordinator import Store
from ringplan.store.executor import Executor
from ringplan.store.history import Judged
from ringplan.store.nodes import KINDS, ServerNode, choose
from ringplan.store.traffic import Load, Run
from ringplan.texts import Change, Ring, read_plan, read_steps, write_texts

SPACE, SLOTS, MEMBERS = 16, 3, 6
BAR = 30
# What these stores do wrong wants an outage at the right moment, a lost store, or a plan around a
# dead node.
SELDOM = ("keeper_of_two", "retire_with_hints", "loss_keeps_generation", "copy_without_hints")


def ring(writes: int = 2) -> str:
    """Six members, each with its part of 16 partitions of three slots, and one node more; and the
    change: that one joins, and n1 leaves. `writes` slots take a write.
    """
    names = [f"n{number}" for number in range(MEMBERS + 1)]
    rows = [[names[(p + i) % MEMBERS] for i in range(SLOTS)] for p in range(SPACE)]
    one = Ring.of(names, set(names[:MEMBERS]), rows, (SLOTS, 2, writes), 2)
    return write_texts([one, Change((names[-1],), ("n1",))])


class Shown(Run):
    """A run that shows how far it is, and in which two servers are killed, one after the other."""

    def part(self) -> float:
        return len(self.executor.done) / len(self.executor.steps)

    def kill_servers(self) -> None:
        draw = self.draw("faults")
        for part in (0.25, 0.55):
            while self.part() < part and not self.finished.wait(0.02):
                pass
            alive = [member for member in self.store.members if member.is_member and member.is_up]
            if self.finished.is_set() or not alive:
                return
            member = draw.choice(alive)
            member.node.kill()
            self.kills += 1
            self.say(f"killed {member.name} by signal 9")
            self.finished.wait(self.load.outage)
            member.node.start()
            self.store.back(member)
            self.say(f"{member.name} is back")

    def line(self) -> str:
        filled = int(BAR * self.part())
        acknowledged = sum(put.is_acknowledged for put in self.store.puts)
        down = [
            member.name for member in self.store.members if member.is_member and not member.is_up
        ]
        counts = (
            f"{len(self.executor.done):3} of {len(self.executor.steps)} steps, {acknowledged} puts"
            f" acknowledged, {len(self.store.gets)} gets"
        )
        judged = (
            f", the judge has said yes to {self.judged.watch.count:,} entries"
            if self.judged
            else ""
        )
        return (
            f"[{'#' * filled}{'.' * (BAR - filled)}]"
            f" {counts}{', down: ' + ' '.join(down) if down else ''}{judged}"
        )

    def say(self, words: str) -> None:
        print(f"{self.line()}   {words}", flush=True)

    @contextmanager
    def watched(self) -> Iterator[None]:
        """Prints a line each second."""
        over = threading.Event()

        def watch() -> None:
            while not over.wait(1):
                print(self.line(), flush=True)

        watcher = threading.Thread(target=watch)
        watcher.start()
        try:
            yield
        finally:
            over.set()
            watcher.join()


def history_of(
    bundle: str, broken: str, folder: str, node: type[ServerNode[Any]]
) -> tuple[str, str]:
    """The lines of the history of one run, and what the judge said of them while it happened."""
    store = STORES.get(broken, Store)(
        read_plan(bundle)[0], lambda name: node(folder, name, broken == "latest_timestamp_wins")
    )
    executor = EXECUTORS.get(broken, Executor)(
        store, read_steps(programs.ask("steps", bundle).text)
    )
    shown = Shown(
        store,
        executor,
        Load(workers=4, clients=4, operations=200, keys=400, pace=0.1, outage=1.0, limit=600.0),
    )
    shown.judged = Judged(store.history, bundle)
    try:
        with shown.watched():
            shown.run()
        answer = shown.judged.end()
        shown.say(
            "the plan has ended"
            if answer == "yes"
            else f"the judge says {answer}: the store has stopped"
        )
        if answer == "yes":
            count, least = (
                sum(put.is_acknowledged for put in store.puts),
                SLOTS - store.read_quorum + 1,
            )
            print(
                f"{count - store.short()} of {count} acknowledged puts are held by {least} slots or"
                " more, so each read finds them"
            )
    finally:
        for member in store.members:
            member.node.kill()
    return "\n".join(store.history.lines()) + "\n", answer


def demonstrate(into: pathlib.Path, broken: str, servers: str = KINDS[0]) -> int:
    """Runs the demonstration, and returns the exit status: 0 where the judge says yes."""
    begun, node = time.monotonic(), choose(servers)
    into.mkdir(parents=True, exist_ok=True)
    # If two of three tickets are enough, a mirror makes a ticket of a put stale, and the put does
    # not need it.
    goal = programs.ask("goal", ring(3 if broken == "stale_tickets" else 2))
    if goal.status:
        print(goal.errors, file=sys.stderr)
        return 1
    print(
        f"the plan has {len(read_plan(goal.text)[1].steps)} steps; the checker says"
        f" {programs.ask('check', goal.text).first()}"
    )
    (into / "planned.bundle").write_text(goal.text)
    folder = tempfile.mkdtemp(prefix="ringplan-demo-")
    answer = ""
    try:
        history, answer = history_of(goal.text, broken, folder, node)
    finally:
        if not answer.startswith("no"):
            shutil.rmtree(folder)
    bundle = goal.text + history
    (into / "history.bundle").write_text(bundle)
    print(f"the judge says {answer}")
    if answer != "yes":
        print(
            f"the servers' data is as it was then, in {folder}\n{programs.ask('why', bundle).text}"
        )
        return 1
    (into / "picture.svg").write_text(programs.ask("draw", bundle).text)
    print(
        f"{into}/picture.svg shows the plan, {into}/history.bundle is what was judged;"
        f" {time.monotonic() - begun:.0f} s in all"
    )
    return 0


def main() -> int:
    parser = argparse.ArgumentParser(
        prog="python3 -m ringplan.demo", description=(__doc__ or "").split("\n\n")[0]
    )
    parser.add_argument(
        "--into",
        type=pathlib.Path,
        default=pathlib.Path("demo"),
        metavar="FOLDER",
        help="where the bundles and the picture go",
    )
    breaks = ["latest_timestamp_wins", *STORES, *EXECUTORS]
    named = (
        f"runs a store that is broken on purpose: {', '.join(breaks)}. This run seldom shows"
        f" {', '.join(SELDOM)}: `trials/store.py --break` has rings and loads that do"
    )
    parser.add_argument(
        "--break", dest="broken", default="", choices=breaks, metavar="NAME", help=named
    )
    parser.add_argument(
        "--servers", choices=KINDS, default=KINDS[0], help="the database server of each node"
    )
    words = parser.parse_args()
    sys.setswitchinterval(0.0005)
    try:
        return demonstrate(words.into, words.broken, words.servers)
    except programs.NoProgram as error:
        print(error, file=sys.stderr)
        return 2


if __name__ == "__main__":
    sys.exit(main())
