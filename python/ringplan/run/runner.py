"""Workers that go through a plan by hooks and write down its history, which a judge reads on the
way.
"""

from __future__ import annotations

import bisect
import contextlib
import functools
import json
import math
import signal
import subprocess
import sys
import threading
import time
from collections import Counter, deque
from collections.abc import Iterator, Sequence
from dataclasses import dataclass, replace

from ringplan import programs, texts
from ringplan.run.board import (
    CHUNKS,
    LOOK,
    Board,
    Claim,
    ClaimEnded,
    Name,
    Note,
    Status,
    Stop,
    names_of,
)
from ringplan.run.hooks import Hooks, NoLock, Outcome, Result, Supervisor
from ringplan.run.judge import Judge
from ringplan.run.report import Pace, counted
from ringplan.texts import StepLine

# In a plan of so many steps, those whose kind's last hook took less than so many seconds are
# claimed together, and wait for the disk together. Mirrors only if copies are brief as well: a slot
# whose mirror waits for its copy takes each write twice. A smaller plan is done in its order.
LARGE, BRIEF = 10_000, 0.02
# The signals that stop a runner.
SIGNALS = {signal.SIGINT, signal.SIGTERM}
# How long a worker that finds steps goes on before it looks what other runners have done, in
# seconds.
LEARN = 5.0


@dataclass(frozen=True)
class Options:
    """How a plan is run. Pauses are seconds: the first one, and the longest to which they grow."""

    workers: int = 1
    give_up: int | None = None
    pause: float = 1.0
    longest: float = 300.0
    # The minutes of a day from which and up to which copies may begin.
    between: tuple[int, int] | None = None
    # A program that is told of events by a line of JSON.
    on_event: str | None = None


@functools.lru_cache(maxsize=1)
def read_steps(bundle: str) -> tuple[list[StepLine], list[Name]]:
    """The steps of an approved plan, and their names. A plan that is refused is a `Stop`."""
    answer = programs.ask("steps", bundle)
    if answer.status:
        raise Stop(
            Status.REFUSED if answer.status == 1 else Status.FAULT,
            f"the plan is refused:\n{answer.errors}".rstrip(),
        )
    steps = texts.read_steps(answer.text)
    return steps, names_of(steps)


class Runner:
    """The workers of one run, and what they know of the plan.

    The board knows all of it after a crash.
    """

    def __init__(self, board: Board, hooks: Hooks, options: Options) -> None:
        self.board, self.hooks, self.options = board, hooks, options
        self.lock = threading.RLock()
        self.changed = threading.Condition(self.lock)
        self.is_stopping, self.learnt = False, -math.inf
        # Claims that no worker does yet, and how long the last hook of each kind took.
        self.claims, self.took = deque[Claim](), dict[str, float]()
        # The steps that workers do; what `limit` has set; whether that, or the time of day, lets a
        # step wait.
        self.doing, self.limits, self.is_barred, self.limited = (
            list[Name](),
            dict[str, int](),
            False,
            -math.inf,
        )
        self.fault: Stop | None = None
        self.said: dict[Name, str] = {}
        # Whether the history may have entries that the judge has not seen; how often hooks of a
        # kind ended in one way; how fast copies are.
        self.is_unseen, self.ends, self.pace = True, Counter[tuple[str, str]](), Pace([], {})
        self.judge = Judge(board)
        self.load()

    def load(self) -> None:
        """Reads the plan that the board has now, and which of its steps are done."""
        self.edition, bundle, done = self.board.plan()
        self.judge.begin(self.edition, bundle)
        self.is_unseen = True
        self.steps, self.names = read_steps(bundle)
        self.numbers = {name: number for number, name in enumerate(self.names)}
        self.pace.load(self.names, self.board.settings("sizes"))
        # Of each step how many of its dependencies are not done, and the steps that wait for it.
        self.left = [len(step.after) for step in self.steps]
        self.waiting: list[list[int]] = [[] for _ in self.steps]
        for step in self.steps:
            for number in step.after:
                self.waiting[number].append(step.step)
        # The steps that can be done, in order. Those that somebody does are among them.
        self.done, self.ready = set[int](), [
            number for number, left in enumerate(self.left) if not left
        ]
        for number in done:
            self.mark(number, is_seen=False)

    def mark(self, number: int, is_seen: bool = True) -> None:
        """Counts a step as done, once."""
        if number in self.done:
            return
        self.done.add(number)
        self.pace.give(self.names[number], CHUNKS, is_seen)
        place = bisect.bisect_left(self.ready, number)
        if place < len(self.ready) and self.ready[place] == number:
            del self.ready[place]
        for other in self.waiting[number]:
            self.left[other] -= 1
            if not self.left[other] and other not in self.done:
                bisect.insort(self.ready, other)

    def say(self, claim: Claim, what: str) -> None:
        """Tells the operator of a step, once in a row."""
        line = f"{self.numbers.get(claim.name, '-')} {claim.name}: {what}"
        with self.lock:
            if self.said.get(claim.name) != line:
                self.said[claim.name] = line
                print(line, file=sys.stderr, flush=True)

    def stop(self, fault: Stop | None = None) -> None:
        """Lets no further step begin. It waits for nothing, so a signal's handler may call it."""
        self.fault = self.fault or fault
        self.is_stopping = True

    def tell(self, event: str, **members: object) -> None:
        """Tells the operator's program of an event, and does not wait for it."""
        if self.options.on_event is None:
            return
        line = (
            json.dumps(
                {"event": event, "done": len(self.done), "steps": len(self.steps), **members}
            )
            + "\n"
        )
        try:
            process = subprocess.Popen(
                [self.options.on_event], stdin=subprocess.PIPE, stdout=2, start_new_session=True
            )
            threading.Thread(target=process.communicate, args=[line.encode()], daemon=True).start()
        except OSError as error:
            print(
                f"{self.options.on_event} cannot be run: {error.strerror}",
                file=sys.stderr,
                flush=True,
            )

    # The judge.
    def see_judge(self, is_end: bool = False) -> None:
        """Has the history so far judged. A `no` is a `Stop`."""
        self.is_unseen = False
        answer = self.judge.see(is_end)
        if answer != "yes":
            self.tell("the judge says no", answer=answer)
            raise Stop(Status.REFUSED, f"the judge says {answer}")

    def note(self, claim: Claim, notes: Sequence[Note], is_done: bool = False) -> None:
        with self.lock:
            self.board.note(claim, notes, is_done)
            self.is_unseen = True
            if is_done:
                if claim.name not in self.numbers:
                    self.load()
                self.mark(self.numbers[claim.name])
                print("done", self.numbers[claim.name], claim.name, flush=True)

    # Steps.
    def call(self, kind: str, claim: Claim, one: Supervisor, chunk: int | None = None) -> Result:
        """Runs a hook of the step, or of a chunk of it."""
        with self.lock:
            if claim.name not in self.numbers:
                return Result(Outcome.ENDED)
            number = self.numbers[claim.name]
        members = (
            self.steps[number].members()
            | {"token": claim.token}
            | ({"again": True} if claim.is_again else {})
            | ({} if chunk is None else {"chunk": chunk})
        )
        began = time.monotonic()
        try:
            result = self.hooks.run(
                kind,
                f"{number} {claim.name}",
                members,
                one,
                lambda: self.board.until(claim),
                lambda is_resting: self.beat(claim, is_resting),
            )
        finally:
            self.took[claim.name.kind] = time.monotonic() - began
        with self.lock:
            self.ends[kind, result.outcome.value] += 1
        return result

    def beat(self, claim: Claim, is_resting: bool) -> None:
        """Called while a hook takes long: leaves to others what was claimed with its step."""
        if is_resting:
            self.say(claim, "its hook has failed, and is over once no process of it is left")
        with self.lock:
            left, self.claims = self.claims, deque()
        for other in left:
            with contextlib.suppress(ClaimEnded):
                self.board.give_back(other, other.tries)

    def give_chunks(self, claim: Claim, one: Supervisor, chunks: Sequence[int]) -> Result:
        """Gives chunks by one hook each, as far as that goes."""
        for chunk in chunks:
            result = (
                Result(Outcome.ENDED) if self.is_stopping else self.call("chunk", claim, one, chunk)
            )
            if result.outcome is not Outcome.DONE:
                return result
            self.note(claim, [Note("chunk", chunk)])
            with self.lock:
                self.pace.give(claim.name, self.pace.parts.get(claim.name, 0) + 1)
        return Result(Outcome.DONE)

    def copy(self, claim: Claim, one: Supervisor) -> Result:
        """Copies the chunks that are left, by one hook or by one for each chunk.

        An `open` of a worker that died gets its `abort` first.
        """
        with self.lock:
            self.pace.give(claim.name, len(claim.marks), is_seen=False)
        self.note(claim, [*([Note("abort")] if claim.is_open else []), Note("open")])
        left = [chunk for chunk in range(CHUNKS) if chunk not in claim.marks]
        if self.hooks.has("chunk"):
            result, given = self.give_chunks(claim, one, left), list[int]()
        else:
            result, given = self.call("copy", claim, one), left
        if result.outcome is Outcome.DONE:
            self.note(
                claim, [*(Note("chunk", chunk) for chunk in given), Note("close")], is_done=True
            )
        else:
            self.note(claim, [Note("abort")])
        return result

    def do(self, claim: Claim) -> None:
        try:
            one = self.hooks.hold(claim.name)
        except NoLock as error:
            self.give_back(claim, Result(Outcome.FAILED, f"its lock cannot be taken: {error}"))
            return
        if one is None:
            self.board.give_back(claim, claim.tries.later(LOOK))
            self.say(claim, "a process of an earlier hook still does it")
            return
        with self.lock:
            self.pace.begin(time.time())
        try:
            if claim.name.kind == "copy":
                result = self.copy(claim, one)
            elif (result := self.call(claim.name.kind, claim, one)).outcome is Outcome.DONE:
                self.note(claim, [Note("do")], is_done=True)
        finally:
            self.hooks.free(one)
            with self.lock:
                self.pace.end(time.time())
        if result.outcome is not Outcome.DONE:
            self.give_back(claim, result)

    def pause_after(self, outcome: Outcome, tries: int) -> float:
        """How many seconds a step pauses: twice as long each time, none if its hook was ended."""
        if outcome is Outcome.ENDED:
            return 0.0
        return min(self.options.longest, self.options.pause * 2.0 ** min(tries - 1, 30))

    def gives_up(self, outcome: Outcome, failures: int) -> bool:
        most = self.options.give_up
        return outcome is Outcome.DEAD or (
            outcome is Outcome.FAILED and most is not None and failures >= most
        )

    def give_back(self, claim: Claim, result: Result) -> None:
        """Gives a step back that is not done, to be tried again after a pause that doubles each
        time.
        """
        outcome = result.outcome
        failures = claim.tries.failures + (outcome in (Outcome.FAILED, Outcome.DEAD))
        waits = claim.tries.waits + (outcome is Outcome.NOT_NOW)
        pause = self.pause_after(outcome, failures + waits)
        is_given_up = self.gives_up(outcome, failures)
        self.board.give_back(
            claim,
            replace(
                claim.tries.later(pause),
                failures=failures,
                waits=waits,
                is_given_up=is_given_up,
                why=result.why,
                lines="\n".join(result.lines),
            ),
        )
        if is_given_up:
            self.tell(
                "a node is dead" if outcome is Outcome.DEAD else "given up",
                step=self.numbers.get(claim.name),
                name=str(claim.name),
                nodes=sorted(self.nodes(claim.name) - {""}),
                why=result.why,
                lines=result.lines,
            )
        after = "given up" if is_given_up else f"again in {pause:g} s"
        self.say(
            claim,
            (
                f"{outcome.value}{f' ({result.why})' if result.why else ''},"
                f" {counted(failures, 'failure')}, {after}"
            ),
        )

    # Workers.
    def learn(self) -> bool:
        """Marks what other runners of the board have done. Whether there was anything."""
        edition, names = self.board.news()
        self.learnt = time.monotonic()
        if edition != self.edition:
            self.load()
            print(
                f"the board has another plan: {len(self.done)} of {len(self.steps)} steps are done",
                flush=True,
            )
            return True
        count = len(self.done)
        for name in names:
            self.mark(self.numbers[name])
        self.is_unseen = self.is_unseen or bool(names)
        return len(self.done) > count

    def candidates(self) -> Iterator[Name]:
        """The steps that may begin now, in order.

        Fewer at once than the plan allows is a run of it too.
        """
        limits, busy = self.limits, Counter[str]()
        for name in self.doing:
            busy.update(["", *(self.nodes(name) if name.kind == "copy" else [])])
        if busy[""] >= limits.get("", math.inf):
            self.is_barred = True
            return
        for number in self.ready:
            name = self.names[number]
            is_full = name.kind == "copy" and any(
                busy[node] >= limits.get(node, math.inf) for node in self.nodes(name)
            )
            if is_full or name.kind == "copy" and not self.is_time():
                self.is_barred = True
            else:
                yield name

    def nodes(self, name: Name) -> set[str]:
        """The nodes that a step is about, such as those that a copy fills and reads."""
        number = self.numbers.get(name)
        return (
            set()
            if number is None
            else {self.steps[number].who(), *(self.steps[number].sources or ())}
        )

    def is_time(self) -> bool:
        """Whether copies may begin at this time of day."""
        if self.options.between is None:
            return True
        (first, last), clock = self.options.between, time.localtime()
        now = 60 * clock.tm_hour + clock.tm_min
        return first <= now < last if first <= last else now >= first or now < last

    def take(self, worker: str) -> Claim | float:
        """Claims a step that can be done now, once the judge has said yes to the history.

        If there is none, in how many seconds to look again: infinity if there never will be.
        """
        if self.is_unseen:
            self.see_judge()
        if self.is_stopping:
            return math.inf
        if self.claims:
            return self.claims.popleft()
        if time.monotonic() > self.learnt + LEARN:
            self.learn()
        if time.monotonic() > self.limited + LOOK:
            self.limits, self.limited = self.board.settings("limits"), time.monotonic()
        self.is_barred = False
        brief = {kind for kind, took in self.took.items() if took < BRIEF}
        brief -= set() if "copy" in brief else {"mirror"}
        # Of steps that are claimed together none is counted before it begins.
        brief = set() if self.limits or len(self.steps) < LARGE else brief
        found = self.board.claim(worker, self.edition, self.candidates(), brief)
        if isinstance(found, list):
            self.claims.extend(found)
            return self.claims.popleft()
        if self.learn() or found is None:
            return LOOK / 5
        return LOOK if self.is_barred else found

    def wait(self, worker: str) -> Claim | None:
        """Waits for a step that can be done, and claims it.

        None if none ever can be, or if the runner stops.
        """
        with self.changed:
            while (claim := self.take(worker)) != math.inf:
                if isinstance(claim, Claim):
                    self.doing.append(claim.name)
                    return claim
                self.changed.wait(min(LOOK, claim))
        return None

    def work(self, worker: str) -> None:
        try:
            while (claim := self.wait(worker)) is not None:
                try:
                    self.do(claim)
                except ClaimEnded as fault:
                    self.say(claim, str(fault))
                finally:
                    with self.changed:
                        self.doing.remove(claim.name)
                        self.changed.notify_all()
        except Stop as fault:
            self.stop(fault)
        except Exception as error:
            self.stop(Stop(Status.FAULT, f"{type(error).__name__}: {error}"))

    def take_signal(self) -> None:
        """Stops; at a second signal, ends the hooks that run."""
        if self.is_stopping:
            self.hooks.end()
        else:
            running = len(self.hooks.running)
            print(
                f"stops: lets {running} hooks end, and a second signal ends them",
                file=sys.stderr,
                flush=True,
            )
        self.stop()

    def run(self) -> Status:
        """Goes through the plan.

        How that ended. The caller blocks SIGINT and SIGTERM, which are taken here one by one: no
        handler can come in between.
        """
        threads = [
            threading.Thread(target=self.work, args=[f"worker {number}"])
            for number in range(self.options.workers)
        ]
        for thread in threads:
            thread.start()
        for thread in threads:
            while thread.is_alive():
                thread.join(LOOK / 5)
                # After SIGCONT, `sigtimedwait` would return a signal that never came.
                if signal.sigpending() & SIGNALS:
                    signal.sigwait(SIGNALS)
                    self.take_signal()
        self.hooks.close()
        try:
            if self.fault is not None:
                raise self.fault
            self.see_judge(is_end=True)
        finally:
            self.judge.close()
        if len(self.done) == len(self.steps):
            self.tell("done")
            return Status.DONE
        return Status.STOPPED if self.is_stopping else Status.GIVEN_UP
