#!/usr/bin/env python3
"""Runs the reference store of python/ringplan/store under traffic and faults.

`ringplan replay` judges its histories, and `ringplan watch` does so while they happen.

    trials/store.py [COUNT] [--first SEED] [--servers KIND] [--jobs J]
        COUNT right runs, or 4 without a number, and then each broken store
    trials/store.py --break [NAME..] [--servers KIND] [--jobs J]
        only these broken stores, or all of them

Right runs: a seed gives 5 to 12 servers, 16 to 64 partitions, and a change: nodes join, leave or
are replaced, also around nodes that are dead before the plan or die in its middle, and with lost
stores. Servers are killed by signal 9. Workers of every other run are threads that die in the
middle of copies; in the others `ringplan-run` goes through the plan by hooks, and is killed by
signal 9 and started again. Owed: the judge says yes to the store's history and to the runner's; all
steps are done; the judge's `slots` lines are the store's owners; each acknowledged put is held at
more slots than a read may miss, and a get replies it or a successor. Broken stores: the judge must
refuse each within ten seeds, but for those of UNSURE. A seed does not fix a run, since threads run
freely. It needs the built program, and for COUNT from 3 on redis and PostgreSQL.
"""
import argparse
import concurrent.futures
import contextlib
import dataclasses
import faulthandler
import json
import os
import pathlib
import random
import shutil
import signal
import socketserver
import subprocess
import sys
import tempfile
import threading
import time
from collections import Counter
from collections.abc import Callable
from functools import partial
from typing import Any, NamedTuple

TOP = pathlib.Path(__file__).resolve().parent.parent
sys.path.insert(0, str(TOP / "python"))
from ringplan import programs, texts
from ringplan.store.coordinator import Store
from ringplan.store.executor import Died, Executor
from ringplan.store.history import Judged
from ringplan.store.nodes import KINDS, choose
from ringplan.store.traffic import Load, Run
from ringplan.store.versions import Contents, is_at_most

ENVIRONMENT = {**os.environ, "PYTHONPATH": str(TOP / "python")}
NOT_NOW, LATE = 75, 76
# How long a right run may take, and how long its plan, in seconds: far more than they take on two
# slow processors.
ENDS, LIMIT = 900, 600.0
# Asks the store for a step, and ends with the status that it answers.
HOOK = """#!/usr/bin/python3 -ISE
import socket, sys
link = socket.socket(socket.AF_UNIX)
link.connect({path!r})
link.sendall(sys.stdin.buffer.read())
sys.exit(int(link.makefile().readline() or 1))
"""


def ring_text(
    name: str,
    members: int,
    joiners: int,
    space: int,
    change: list[str],
    allowance: int = 2,
    quorum: str = "3 2 2",
    form: int = 1,
) -> str:
    """A ring with even owners, and a change of it."""
    draw, slots = random.Random(name), int(quorum.split()[0])
    names = [f"n{number}" for number in range(members + joiners)]
    owned = dict.fromkeys(names[:members], 0)
    rows = list[list[str]]()
    for _ in range(space):
        row = sorted(owned, key=lambda node: (owned[node], draw.random()))[:slots]
        owned.update((node, owned[node] + 1) for node in row)
        draw.shuffle(row)
        rows.append(row)
    numbers = map(int, quorum.split())
    ring = texts.Ring.of(names, set(names[:members]), rows, numbers, allowance, form)
    return texts.write_texts([ring]) + "\n".join(["change 1", *change, "end"]) + "\n"


class Case(NamedTuple):
    """A right run: its ring with a change, the load, the nodes that are dead for good, the kind of
    servers, the hooks by which the runner does copies; empty where threads do the plan; and whether
    a node dies for good in the middle.
    """

    what: str
    ring: str
    load: Load
    dead: tuple[str, ...]
    servers: str
    hooks: str
    dies: bool


def case_of(seed: int, servers: str) -> Case:
    kind = ("join", "replace", "leave", "dead", "losses", "many")[seed % 6]
    draw = random.Random(f"case {seed}")
    joiners = {"join": draw.randrange(1, 3), "leave": 0, "many": 3}.get(kind, 1)
    leavers = {"join": 0, "losses": 0, "many": draw.randrange(1, 3)}.get(kind, 1)
    dies = kind in ("join", "leave", "losses") and seed % 12 >= 6
    members = draw.randrange(max(5, 4 + leavers), 13 - joiners)
    # A node that dies needs chunks with keys, so few partitions.
    space = 16 if seed % 4 == 3 else draw.choice((8, 16) if dies else (16, 32, 64))
    left = draw.sample([f"n{number}" for number in range(members)], leavers)
    change = [f"join n{members + number}" for number in range(joiners)]
    change += [f"leave {node}" for node in left]
    quorum, form = ("3 2 3 1", 3) if kind == "losses" else ("3 2 2", 1)
    allowance = draw.randrange(2, 5)
    ring = ring_text(f"case {seed}", members, joiners, space, change, allowance, quorum, form)
    chosen, hooks = servers or KINDS[seed // 2 % 3], ("", "copy", "", "chunk")[seed % 4]
    load = load_of(seed, draw, kind == "losses", bool(hooks))
    load.halves = 0.2 if dies else 0.0
    what = (
        f"{kind}{', a node dies' if dies else ''}, {members + joiners} servers of {chosen},"
        f" {space} partitions, by {'ringplan-run' if hooks else 'threads'}"
    )
    return Case(what, ring, load, tuple(left if kind == "dead" else ()), chosen, hooks, dies)


def load_of(seed: int, draw: random.Random, loses: bool, has_hooks: bool) -> Load:
    load = Load(
        seed,
        draw.randrange(3, 6),
        draw.randrange(30, 80),
        draw.randrange(40, 120),
        draw.randrange(2, 5),
        limit=LIMIT,
        loses=loses,
    )
    load.faults, load.outage = draw.uniform(0.2, 0.6), draw.uniform(0.1, 0.5)
    load.pace, load.handoffs = draw.uniform(0.01, 0.05), draw.choice((0.1, 0.5))
    if has_hooks:
        # A copy by hooks takes longer, and must find its nodes up.
        load.faults *= 2
    else:
        load.faults, load.pace = load.faults / 2, 4 * load.pace
    return load


class Desk(socketserver.ThreadingMixIn, socketserver.UnixStreamServer):
    """Does a step for each hook that asks."""

    daemon_threads = True
    request_queue_size = 64

    def __init__(self, path: str, do: Callable[[dict[str, Any]], int]) -> None:
        class Request(socketserver.StreamRequestHandler):
            def handle(self) -> None:
                if line := self.rfile.readline():
                    self.wfile.write(b"%d\n" % do(json.loads(line)))

        super().__init__(path, Request)


def children(process: int) -> list[int]:
    """The processes that a process has started, by any of its threads."""
    with contextlib.suppress(OSError):
        return [
            int(word)
            for path in pathlib.Path(f"/proc/{process}/task").glob("*/children")
            for word in path.read_text().split()
        ]
    return []


class ByRunner(Executor):
    """A plan that `ringplan-run` goes through by hooks, which ask the store.

    The runner is killed by signal 9, and every other time its hooks too, and is started again.
    """

    def prepare(self, folder: pathlib.Path, bundle: str, hooks: str, workers: int) -> None:
        self.folder, self.workers, self.killed, self.problem, self.draw = (
            folder,
            workers,
            0,
            "",
            random.Random(bundle),
        )
        (folder / "hooks").mkdir()
        (folder / "plan.bundle").write_text(bundle)
        for kind in ("join", "mirror", hooks, "switch", "drop", "retire"):
            path = folder / "hooks" / kind
            path.write_text(HOOK.format(path=str(folder / "desk")))
            path.chmod(0o755)

    def chunk(self, step: texts.StepLine, number: int) -> None:
        """Gives one chunk. The first opens the copy, and the last closes it."""
        if step.step not in self.opened:
            self.open(step)
        if number not in self.marks[step.step]:
            self.copy_chunk(step, number)
        self.store.settle(self.slot(step))
        if self.is_whole(step):
            self.opened.remove(step.step)
            self.finish(step, "close")

    def serve(self, line: dict[str, Any]) -> int:
        step = self.steps[line["step"]]
        if not self.tokens.admit(step, line["token"]):
            return LATE
        with self.lock:
            if step.step in self.done:
                return 0
            if step.step in self.taken:
                return NOT_NOW
            self.taken.add(step.step)
        try:
            call = (
                partial(self.chunk, step, line["chunk"])
                if "chunk" in line
                else partial(self.do, step, self.draw)
            )
            return 0 if self.store.attempt(call) else NOT_NOW
        except Died:
            self.died += 1
            return 1
        finally:
            with self.lock:
                self.taken.discard(step.step)

    def command(self, *words: str) -> list[str]:
        return [sys.executable, "-m", "ringplan.run", *words, "--board", str(self.folder / "board")]

    def kill(self, process: "subprocess.Popen[bytes]", with_hooks: bool) -> None:
        hooks = (
            [hook for one in children(process.pid) for hook in children(one)] if with_hooks else []
        )
        process.kill()
        for hook in hooks:
            with contextlib.suppress(ProcessLookupError):
                os.kill(hook, signal.SIGKILL)
        process.wait()
        self.killed += 1

    def work(self, draw: random.Random, until: float, pace: float = 0.0) -> None:
        words = self.command(
            "apply", str(self.folder / "plan.bundle"), "--do", str(self.folder / "hooks"), "--new"
        )
        words += ["--workers", str(self.workers), "--pause", "0.05", "--longest-pause", "0.4"]
        with Desk(str(self.folder / "desk"), self.serve) as desk, open(
            self.folder / "said", "ab"
        ) as said:
            threading.Thread(target=desk.serve_forever, daemon=True).start()
            left = draw.randrange(1, 5)
            while True:
                process = subprocess.Popen(words, stdout=said, stderr=said, env=ENVIRONMENT)
                try:
                    status = process.wait(draw.uniform(0.4, 1.5) if left else until - time.time())
                    break
                except subprocess.TimeoutExpired:
                    self.kill(process, left % 2 == 0)
                    left -= 1
                    if time.time() > until:
                        status = -9
                        break
            desk.shutdown()
        judged = (
            subprocess.run(self.command("judge"), stdout=subprocess.PIPE, env=ENVIRONMENT)
            .stdout.decode()
            .split("\n")[0]
        )
        if status or judged != "yes":
            self.problem = (
                f"the runner ended with {status}, its judge says {judged}:"
                f" {(self.folder / 'said').read_text()[-300:]}"
            )


class Around(Executor):
    """A plan in whose middle a node dies for good.

    The workers die in the middle of copies, or meet; `ringplan around` makes another plan of the
    store's history, and they go on by that. It happens twice: the second time no other node dies.
    """

    def prepare(self, one: Run, bundle: str) -> None:
        self.run, self.bundle, self.problem, self.draw = one, bundle, "", random.Random(bundle)
        self.part, self.left, self.is_meeting, self.is_over = (
            self.draw.uniform(0.1, 0.5),
            2,
            False,
            False,
        )
        # The owners of the slots whose copies broke off in the middle of a chunk, and how many
        # mirrors were undone.
        self.torn, self.undone = list[str](), 0
        self.meeting, self.worker = (
            threading.Barrier(one.load.workers, self.meet),
            threading.local(),
        )

    def is_done(self) -> bool:
        return self.is_meeting or super().is_done()

    def is_time(self, later: float) -> bool:
        return self.left > 0 and len(self.done) >= (self.part + later) * len(self.steps)

    def claim(self, draw: random.Random) -> texts.StepLine | None:
        if self.is_time(0.2):
            self.is_meeting = True
            return None
        return super().claim(draw)

    def copy_chunk(self, step: texts.StepLine, chunk: int) -> None:
        """Some workers die before a chunk, as the meeting begins."""
        if self.is_time(0.0) and self.draw.random() < 0.2:
            self.is_meeting = True
        if self.is_meeting and self.draw.random() < 0.3:
            raise Died
        self.worker.copies = True
        try:
            super().copy_chunk(step, chunk)
        finally:
            self.worker.copies = False

    def give(self, step: texts.StepLine, chunk: int, contents: Contents) -> None:
        """Some workers die in the middle of a chunk: the mirror has a part of it."""
        if self.is_meeting and getattr(self.worker, "copies", False) and self.draw.random() < 0.5:
            self.torn.append(self.slot(step).owner.name)
            super().give(
                step, chunk, dict(self.draw.sample(list(contents.items()), len(contents) // 2))
            )
            raise Died
        super().give(step, chunk, contents)

    def work(self, draw: random.Random, until: float, pace: float = 0.0) -> None:
        while not self.is_over:
            super().work(draw, until, pace)
            self.meeting.wait(LIMIT)

    def meet(self) -> None:
        """All workers are here: in the middle of the plan, or at its end."""
        self.is_over, self.is_meeting = super().is_done() or not self.is_meeting, False
        if not self.is_over:
            self.left, self.part = self.left - 1, self.part + 0.2
            self.go_around()

    def victim(self) -> str:
        """A node that steps to come would read, or that mirrors a slot, or from which a copy was
        read that broke off.
        """
        sources = {
            name for step in self.steps if step.step not in self.done for name in step.sources or ()
        }
        mirrors = {slot.mirror.name for slot in self.store.all_slots() if slot.mirror is not None}
        others = {member.name for member in self.store.members if member.is_member}
        return self.draw.choice(
            sorted(self.draw.choice([sources, mirrors, set(self.torn)]) or sources or others)
        )

    def go_around(self) -> None:
        """Buries a node, and goes over to the other plan.

        No worker does a step meanwhile; clients run on.
        """
        with self.run.killing:
            self.run.dead = self.run.dead or (self.victim(),)
            self.run.bury()
            with contextlib.ExitStack() as stack:
                for partition in self.store.partitions:
                    stack.enter_context(partition.lock)
                stack.enter_context(self.store.counting)
                past = self.store.history.past()
            # A mirror that is dead can be filled by no one: without `--back` its slot would wait
            # for ever.
            is_back = (
                any(slot.mirror in self.store.dead for slot in self.store.all_slots())
                or self.draw.random() < 0.5
            )
            words = [word for name in self.run.dead for word in ("--dead", name)] + [
                "--back"
            ] * is_back
            answer = programs.ask(
                "around",
                "".join(
                    f"{line}\n"
                    for line in [*self.bundle.splitlines(), *self.store.history.lines(past.entries)]
                ),
                *words,
            )
            if answer.status:
                self.problem = f"around says {answer.text}{answer.errors}"
                return
            *bundle, history = texts.read_texts(answer.text)
            assert isinstance(history, texts.History)
            self.bundle = texts.write_texts(bundle)
            mirrors = sum(slot.mirror is not None for slot in self.store.all_slots())
            self.go_over(texts.read_steps(programs.ask("steps", self.bundle).text), history, past)
            self.undone += mirrors - sum(slot.mirror is not None for slot in self.store.all_slots())


def read_back(one: Run, draw: random.Random) -> int:
    """How many acknowledged puts no get replies, themselves or by a successor."""
    lost, store = 0, one.store
    for key in sorted({put.key for put in store.puts}):
        get = store.get(key, draw)
        for _ in range(100):
            if get is None:
                # A server that was too slow to answer is taken back.
                one.heal()
                get = store.get(key, draw)
        for put in store.puts:
            if (
                put.key == key
                and put.is_acknowledged
                and not any(
                    is_at_most(put.clock, version.clock) for version in (get.reply if get else [])
                )
            ):
                lost += 1
    return lost


def faults_of(store: Store, executor: Executor, bundle: str) -> list[str]:
    """What is wrong with a run that has ended."""
    judged = programs.ask("replay", bundle + "\n".join(store.history.lines()) + "\n")
    owners = [
        f"slots {partition} " + " ".join(slot.owner.name for slot in it.slots)
        for partition, it in enumerate(store.partitions)
    ]
    short = store.short()
    found = {
        f"the judge says {judged.first()}": judged.first() != "yes",
        "the store's owners are not the judge's": judged.text.splitlines()[1:] != [*owners, "end"],
        f"{len(executor.done)} of {len(executor.steps)} steps are done": not executor.is_done(),
        f"{short} acknowledged puts are at too few slots": bool(short),
        getattr(executor, "problem", ""): bool(getattr(executor, "problem", "")),
    }
    return [fault for fault, is_one in found.items() if is_one]


def run_right(seed: int, servers: str) -> dict[str, Any]:
    """One right run, in this process: what there is to count of it, and its faults."""
    case = case_of(seed, servers)
    goal = programs.ask(
        "goal", case.ring, *(word for node in case.dead for word in ("--dead", node))
    )
    if goal.status:
        return {"what": case.what, "faults": [goal.errors]}
    folder, node = pathlib.Path(tempfile.mkdtemp(prefix="ringplan-trial-")), choose(case.servers)
    folder.chmod(0o755)
    steps = texts.read_steps(programs.ask("steps", goal.text).text)
    store = Store(texts.read_plan(goal.text)[0], lambda name: node(str(folder), name))
    executor, load = (Around if case.dies else Executor)(store, steps, case.load.deaths), case.load
    if case.hooks:
        executor = ByRunner(store, steps, case.load.deaths)
        (folder / "runner").mkdir()
        executor.prepare(folder / "runner", goal.text, case.hooks, case.load.workers)
        load = dataclasses.replace(load, workers=1)
    one = Run(store, executor, load, case.dead)
    if isinstance(executor, Around):
        executor.prepare(one, goal.text)
    else:
        one.judged = Judged(store.history, goal.text)
    try:
        took = one.run()
        lost = read_back(one, random.Random(seed))
        faults = faults_of(store, executor, getattr(executor, "bundle", goal.text)) + (
            [f"{lost} acknowledged puts are lost"] if lost else []
        )
        if one.judged and (answer := one.judged.end()) != "yes":
            faults.append(f"the judge beside it says {answer}")
    finally:
        for member in store.members:
            member.node.kill()
        shutil.rmtree(folder)
    return {"what": case.what, **counts_of(one), "seconds": round(took, 1), "faults": faults}


def counts_of(one: Run) -> dict[str, int]:
    """What there is to count of a run."""
    store, executor = one.store, one.executor
    return {
        "entries": len(store.history.entries()),
        "acknowledged": sum(put.is_acknowledged for put in store.puts),
        "gets": len(store.gets),
        "steps": len(executor.done),
        "servers killed": one.kills,
        "in doubt": store.in_doubt,
        "workers died": executor.died,
        "runners killed": getattr(executor, "killed", 0),
        "chunks torn": len(getattr(executor, "torn", [])),
        "mirrors undone": getattr(executor, "undone", 0),
    }


def right(seed: int, servers: str) -> dict[str, Any]:
    """One right run, in a process of its own."""
    words = [sys.executable, __file__, "--one", str(seed), "--servers", servers]
    try:
        ran = subprocess.run(words, capture_output=True, text=True, timeout=ENDS + 60)
        result: dict[str, Any] = (
            json.loads(ran.stdout)
            if not ran.returncode
            else {"faults": [ran.stderr.strip()[-3000:]]}
        )
    except subprocess.TimeoutExpired:
        result = {"faults": ["it does not end"]}
    print(f"right {seed}: {json.dumps(result)}", flush=True)
    return result


RINGS = {
    "grow": ring_text("grow", 5, 2, 16, ["join n5", "join n6"]),
    "replace": ring_text("replace", 6, 1, 32, ["join n6", "leave n1"], 3),
    "losses": ring_text("losses", 6, 2, 16, ["join n6", "join n7"], quorum="3 2 3 1", form=3),
    "dead": ring_text("dead", 7, 1, 32, ["join n7", "leave n2"]),
}

# The ring and the load by which each broken store is shown.
BROKEN = {
    "no_mirror": "grow",
    "mirror_later": "grow",
    "same_generation": "grow --pace 0.1",
    "stale_tickets": "losses --faults 0.2",
    "ack_early": "grow --faults 0.2",
    "two_owners": "grow",
    "keeper_serves": "grow --faults 0.2",
    "keeper_of_two": "grow --faults 0.1 --outage 1 --handoffs 1",
    "read_mirror": "grow",
    "read_without_hints": "grow --faults 0.1 --outage 0.5 --handoffs 0.5",
    "read_too_few": "grow",
    "last_slot_alone": "grow",
    "handoff_to_owner_alone": "grow --pace 0.1 --faults 0.2",
    "hint_for_a_node": "grow --handoffs 0.6 --faults 0.1 --pace 0.1",
    "hint_lost": "grow --handoffs 0.2 --faults 0.1",
    "retire_with_hints": "replace --handoffs 3 --faults 0.1",
    "mirror_keeps_hints": "replace --handoffs 1 --faults 0.1",
    "drop_too_much": "grow",
    "chunk_skipped": "grow --keys 200",
    "closed_early": "grow",
    "drop_early": "grow",
    "switch_early": "grow",
    "latest_timestamp_wins": "grow",
    "empty_and_not_told": "grow",
    "loss_keeps_generation": "losses --loses",
    "half_written_forgotten": "grow --faults 0 --pace 0.1",
    "copy_without_hints": "dead --dead n2 --handoffs 1 --faults 0.05 --outage 1 --pace 0.1",
}


# Broken stores that some tries do not show, and what must happen for that. A run that meets it in
# none of its tries says so, and that is no fault.
UNSURE = {
    "mirror_later": "the slot must be switched before the late write",
    "stale_tickets": "a mirror must begin between a write and its acknowledgement",
    "keeper_of_two": "one stand-in must be asked for two slots of a partition",
    "read_mirror": "a get must need a slot whose copy has just begun",
    "read_without_hints": "the newest put must be with a stand-in alone",
    "empty_and_not_told": "a get must need what the empty server had",
    "loss_keeps_generation": "a put must be acknowledged by a ticket that is older than a loss",
    "half_written_forgotten": "a mirror must die in the middle of a write that is read later",
    "mirror_keeps_hints": "a mirror must begin at a node that keeps a hint of the partition",
    "copy_without_hints": "an acknowledged put must be with a stand-in while its slot is copied",
}
TRIES = 10


def wrong_once(folder: str, name: str, seed: int, servers: str) -> str:
    """The judge's first line for one run of a broken store, and the entry that it names."""
    ring, *options = BROKEN[name].split()
    bundle = programs.ask(
        "goal", RINGS[ring], *(["--dead", "n2"] if "--dead" in options else [])
    ).text
    files = [os.path.join(folder, file) for file in ("bundle", "steps", "out")]
    for path, text in zip(files, (bundle, programs.ask("steps", bundle).text)):
        pathlib.Path(path).write_text(text)
    words = [
        sys.executable,
        "-m",
        "ringplan.store",
        *files,
        "--seed",
        str(seed),
        *options,
        "--break",
        name,
        "--watch",
        "--limit",
        "60",
        "--clients",
        "3",
        *(["--servers", servers] if servers else []),
    ]
    ran = subprocess.run(words, capture_output=True, timeout=ENDS, env=ENVIRONMENT)
    if ran.returncode:
        return f"status {ran.returncode}: {ran.stderr.decode()[-300:]}"
    text = pathlib.Path(files[2]).read_text()
    answer, watched = programs.ask("replay", text).first(), json.loads(ran.stdout)["watched"]
    if watched != answer:
        return f"the judge beside it says {watched}, and afterwards {answer}"
    return answer + (
        " " + text.split("history 1\n")[1].split("\n")[int(answer.split()[2])]
        if answer.startswith("no 70")
        else ""
    )


def wrong(name: str, servers: str) -> dict[str, Any]:
    """Runs a broken store until it is refused, by the seeds from 1."""
    said = list[str]()
    while len(said) < TRIES and not (said and said[-1].startswith("no 70")):
        with tempfile.TemporaryDirectory() as folder:
            said.append(wrong_once(folder, name, len(said) + 1, servers))
    print(f"{name}, seed {len(said)}: {said[-1]}", flush=True)
    is_shown, is_unsure = said[-1].startswith("no 70"), name in UNSURE and all(
        one == "yes" for one in said
    )
    if not is_shown and is_unsure:
        print(f"{name} is broken, and {TRIES} tries did not show it: {UNSURE[name]}", flush=True)
    return {"faults": [] if is_shown or is_unsure else [f"{name} is not refused"]}


def command_line() -> argparse.ArgumentParser:
    parser = argparse.ArgumentParser(
        prog="trials/store.py",
        description="Runs the reference store, and has its histories judged.",
    )
    parser.add_argument(
        "count", nargs="?", type=int, default=4, help="how many right runs (default: %(default)s)"
    )
    parser.add_argument(
        "--first", type=int, default=1, metavar="SEED", help="the seed of the first"
    )
    parser.add_argument(
        "--servers",
        choices=["", *KINDS],
        default="",
        help=(
            "the servers of all runs; else right runs have each kind in turn, and broken ones the"
            " first"
        ),
    )
    parser.add_argument(
        "--jobs",
        type=int,
        default=len(os.sched_getaffinity(0)),
        help="how many runs at once (default: %(default)s)",
    )
    parser.add_argument(
        "--break",
        dest="broken",
        nargs="*",
        choices=list(BROKEN),
        metavar="NAME",
        help="broken stores alone",
    )
    parser.add_argument("--one", type=int, metavar="SEED", help="one right run, in this process")
    return parser


def main() -> int:
    words = command_line().parse_args()
    if words.one is not None:
        os.environ.update(ENVIRONMENT)
        # What does not end says where its threads are.
        faulthandler.dump_traceback_later(ENDS, exit=True)
        # Threads change often, so that more orders of events are met.
        sys.setswitchinterval(0.0005)
        print(json.dumps(run_right(words.one, words.servers)))
        return 0
    seeds = range(words.first, words.first + words.count) if words.broken is None else range(0)
    with concurrent.futures.ThreadPoolExecutor(words.jobs) as pool:
        runs = [pool.submit(right, seed, words.servers) for seed in seeds]
        others = [pool.submit(wrong, name, words.servers) for name in words.broken or BROKEN]
        results = [one.result() for one in runs]
        every = results + [one.result() for one in others]
    faults, totals = [fault for one in every for fault in one["faults"]], Counter[str]()
    for one in results:
        counted = (name for name in one if name not in ("what", "faults"))
        totals += Counter({name: one[name] for name in counted})
    print(
        f"{len(results)} right runs: {json.dumps(totals)}",
        *faults,
        f"{len(others)} broken stores; {len(faults)} faults",
        sep="\n",
    )
    return int(bool(faults))


if __name__ == "__main__":
    sys.exit(main())
