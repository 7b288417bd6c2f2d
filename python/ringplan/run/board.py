"""What a runner remembers of a plan: which steps are done, who does which one, and the history, all
in one place that outlives the runner.
"""

from __future__ import annotations

import contextlib
import enum
import os
import time
from collections.abc import Container, Iterable, Sequence
from contextlib import AbstractContextManager
from dataclasses import dataclass, replace
from typing import NamedTuple, Protocol

from ringplan.texts import Entry, StepLine

CHUNKS = 16
# How long a step that another worker does is not looked at again, in seconds.
LOOK = 0.5
# Claims of brief steps that are made together.
TOGETHER = 32


class Status(enum.IntEnum):
    """How a command ends."""

    DONE = 0
    # The plan is refused, no other one is found, or the judge says no.
    REFUSED = 1
    # The command line, a file or a program is at fault.
    FAULT = 2
    # The board is of another plan, or has come back older than it was.
    OTHER_PLAN = 3
    # The board is of this plan with another ring or certificate.
    CHANGED_BUNDLE = 4
    # Another runner works with the board.
    OTHER_RUNNER = 5
    # Steps were given up, and all others that did not wait for them are done.
    GIVEN_UP = 6
    # Not all steps are done: a signal stopped the runner, or no runner works with the board.
    STOPPED = 7


class Stop(Exception):
    """A fault that ends a command, with its status."""

    def __init__(self, status: Status, what: str) -> None:
        super().__init__(what)
        self.status = status


class NoBoard(Stop):
    """There is no board of this name."""

    def __init__(self, board: str) -> None:
        super().__init__(Status.FAULT, f"there is no board {board}")


class ClaimEnded(Stop):
    """A claim that is no longer its worker's.

    Nothing is noted by it; another worker may do the step.
    """

    def __init__(self, name: Name) -> None:
        super().__init__(Status.OTHER_RUNNER, f"the claim of {name} has ended")


class Name(NamedTuple):
    """A step by what it does.

    Its number may change when a plan is changed half way; its name stays.
    """

    kind: str
    # Both are -1 for a step of no slot.
    partition: int
    slot: int
    # Empty for a switch.
    node: str
    # How many steps before it, in the plan, are of the same kind, slot and node.
    turn: int

    def __str__(self) -> str:
        slot = [] if self.partition < 0 else [str(self.partition), str(self.slot)]
        return " ".join([self.kind, *slot, *([self.node] if self.node else [])])

    def file(self) -> str:
        """A file name that no other step of the plan has."""
        return f"{str(self).replace(' ', ',')},{self.turn}"


def names_of(steps: Sequence[StepLine]) -> list[Name]:
    """The name of each step, in order."""
    seen, names = dict[tuple[str, int, int, str], int](), list[Name]()
    for step in steps:
        partition, slot = (-1, -1) if step.partition is None else step.place()
        short = (step.do, partition, slot, step.who())
        turn = seen[short] = seen.get(short, -1) + 1
        names.append(Name(*short, turn))
    return names


class Note(NamedTuple):
    """An entry of the history of a step: `do`, `open`, `chunk`, `close` or `abort`, and the number
    of the chunk. Or `down` with a node, which is of no step.
    """

    word: str
    chunk: int | None = None

    def line(self, number: int) -> str:
        """The entry, for the number that the step has."""
        if self.is_down():
            return f"{self.word} = ok"
        return (
            f"{self.word} {number} = ok"
            if self.chunk is None
            else f"{self.word} {number} {self.chunk} = ok"
        )

    def is_down(self) -> bool:
        return self.word.startswith("down ")


class Progress(NamedTuple):
    """How far a step is by its entries in the history: of a copy whether it is open, and its
    chunks.
    """

    is_done: bool = False
    is_open: bool = False
    marks: frozenset[int] = frozenset()

    def after(self, note: Note) -> Progress:
        """How far the step is after one entry more."""
        marks = self.marks if note.chunk is None else self.marks | {note.chunk}
        return Progress(note.word in ("do", "close"), note.word in ("open", "chunk"), marks)


class Record(NamedTuple):
    """A board's bundle and its history without the first and the last line, at one moment."""

    # Another one for each plan that the board has had.
    edition: str
    bundle: str
    entries: list[str]

    def text(self) -> str:
        """The bundle with its history."""
        return self.bundle + "".join(f"{line}\n" for line in ("history 1", *self.entries, "end"))


@dataclass(frozen=True)
class Change:
    """Another plan for a board, and the history that goes on by it."""

    bundle: str
    names: list[Name]
    # An entry of no step stands with any one.
    notes: list[tuple[Name, Note]]

    @staticmethod
    def of(bundle: str, names: list[Name], entries: Iterable[Entry]) -> Change:
        notes = list[tuple[Name, Note]]()
        for word, what, *chunk in (entry.event for entry in entries):
            if word != "down":
                notes.append((names[int(what)], Note(word, *map(int, chunk))))
            elif names:
                notes.append((names[0], Note(f"down {what}")))
        return Change(bundle, names, notes)

    def progress(self) -> dict[Name, Progress]:
        """How far each step is that has an entry."""
        found = dict[Name, Progress]()
        for name, note in self.notes:
            if note.is_down():
                continue
            found[name] = found.get(name, Progress()).after(note)
        return found


@dataclass(frozen=True)
class Tries:
    """How a step was tried in vain: how often its hook failed, how often it said `not now`, and how
    long it pauses, up to when in seconds since 1970.

    Then how its last hook ended, and what that printed last.
    """

    failures: int = 0
    waits: int = 0
    pause: float = 0.0
    until: float = 0.0
    is_given_up: bool = False
    why: str = ""
    lines: str = ""

    def left(self) -> float:
        """How long it still pauses.

        An end that is further away than the pause is long means that the clock went back: the pause
        is over.
        """
        left = self.until - time.time()
        return left if 0 < left <= self.pause else 0.0

    def later(self, pause: float) -> Tries:
        """The same tries with another pause from now on."""
        return replace(self, pause=pause, until=time.time() + pause)


@dataclass(frozen=True)
class Claim:
    """A step that one worker does, and what is known of it."""

    name: Name
    worker: str
    # Greater than that of each claim before it, on this board and its former plans.
    token: int
    # Whether its hook may have run before.
    is_again: bool
    # Whether the history has an `open` of it without an end: the worker that opened it died.
    is_open: bool
    # The chunks that the history has of it.
    marks: frozenset[int]
    tries: Tries


@dataclass(frozen=True)
class State:
    """A step as the board has it.

    The worker is empty if no one does it; `since` is when it began, and `ended` when it was done,
    in seconds since 1970.
    """

    number: int
    name: Name
    worker: str
    since: float
    tries: Tries
    is_begun: bool
    is_done: bool
    ended: float
    # How many chunks of a copy are given.
    chunks: int


def plan_of(bundle: str) -> str:
    """The plan's text in a bundle."""
    begin = bundle.index("plan 1\n")
    return bundle[begin : bundle.index("\nend\n", begin)]


def demand_same(board: str, known: str, bundle: str) -> None:
    """A `Stop` where the bundle that a board knows is not the runner's."""
    if plan_of(known) != plan_of(bundle):
        raise Stop(Status.OTHER_PLAN, f"the board {board} is of another plan")
    if known != bundle:
        raise Stop(
            Status.CHANGED_BUNDLE,
            f"the board {board} is of this plan, with another ring or certificate",
        )


def demand_left(number: int, is_done: bool | None) -> None:
    """A `Stop` where a step is done, or is not there: then `is_done` is None."""
    if is_done is None or is_done:
        raise Stop(
            Status.FAULT,
            f"there is no step {number}" if is_done is None else f"step {number} is done",
        )


class Seen:
    """What a folder of locks knows of its board, in a file beside them: the board's identity, and a
    number that only grows there. So a board that comes back older is noticed.
    """

    def __init__(self, locks: str) -> None:
        self.path, self.known = os.path.join(locks, "board"), ("", 0)

    def demand(self, board: str, identity: str, number: int) -> None:
        """A `Stop` if the board is not the one that was seen here, or is older."""
        with contextlib.suppress(FileNotFoundError, ValueError), open(
            self.path, encoding="utf-8"
        ) as file:
            known, least = file.read().split()
            self.known = known, int(least)
            if known != identity or number < int(least):
                raise Stop(
                    Status.OTHER_PLAN,
                    (
                        f"the board {board} is older than {self.path} knows it, or was made again:"
                        " its plan must not begin again"
                    ),
                )

    def keep(self, identity: str, number: int) -> None:
        if number > self.known[1]:
            self.known = identity, number
            os.makedirs(os.path.dirname(self.path) or ".", exist_ok=True)
            with open(
                os.open(self.path, os.O_WRONLY | os.O_CREAT, 0o666), "wb", buffering=0
            ) as file:
                file.write(f"{identity} {number:020d}\n".encode())


class Board(Protocol):
    """The memory of a runner.

    Each call is one transaction: after a crash it has happened or not.
    """

    # A folder of this machine for the locks of hooks that run.
    locks: str

    def begin(self, bundle: str, names: Sequence[Name]) -> None:
        """Makes the board this plan's.

        Claims of a runner that died end. A board of another plan is a `Stop`; one that had this
        plan before a `swap` is not.

        On a board for one runner at a time, another runner is a `Stop` too.
        """

    def claim(
        self, worker: str, edition: str, candidates: Iterable[Name], brief: Container[str] = ()
    ) -> list[Claim] | float | None:
        """Claims the first of the candidates that no one has, that is not given up and whose pause
        is over; and if its kind is brief, more of such kinds.

        If there is none, returns in how many seconds to look again: infinity if none of them can
        ever be claimed. None if no step is given out: the board pauses, or has another edition of
        the plan.
        """

    def until(self, claim: Claim) -> float:
        """The moment up to which the claim is surely the worker's, as a supervisor counts moments.

        Its hook must end before.
        """

    def note(self, claim: Claim, notes: Iterable[Note], is_done: bool = False) -> None:
        """Adds entries to the history, in order.

        A step that is done is nobody's any more. A claim that has ended is a `ClaimEnded`.
        """

    def give_back(self, claim: Claim, tries: Tries) -> None:
        """Ends a claim of a step that is not done. A claim that has ended is a `ClaimEnded`."""

    def retry(self, number: int) -> None:
        """Forgets in how many tries the step failed.

        A step that is not there, or done, is a `Stop`.
        """

    def set(self, kind: str, values: dict[str, int]) -> None:
        """Sets `limits`: how many steps each runner may do at once, under the empty name, and how
        many copies that read or fill a node, under its name.

        Or `sizes`: how much each partition stores, under its number.
        """

    def settings(self, kind: str) -> dict[str, int]:
        """What `set` has set last."""

    def lease_left(self) -> float:
        """How long the runner's claims last if it dies now, in seconds: infinity if that is not
        bounded.
        """

    def remove(self) -> None:
        """Deletes the board, and what stands beside it. A runner that works with it is a `Stop`."""

    def is_held(self) -> bool:
        """Whether a runner works with the board."""

    def end(self, is_quiet: bool = True) -> None:
        """Ends the runner's work with the board.

        If a hook may still run, claims in etcd last until the lease ends.
        """

    def plan(self) -> tuple[str, str, list[int]]:
        """The edition of the plan, its bundle, and the numbers of the steps that are done."""

    def news(self) -> tuple[str, list[Name]]:
        """The edition of the plan, and steps that other runners have done since the last call, or
        since `plan`.
        """

    def states(self) -> tuple[str, list[State]]:
        """The edition of the plan, and all its steps in the order of their numbers."""

    def record(self) -> Record:
        """The bundle and the history. Its lines have the numbers that the steps have now."""

    def later(self, edition: str, mark: int) -> tuple[int, list[str]] | None:
        """The lines of the history after a mark, and the mark after them; 0 is the mark before all.

        None if the plan is not of this edition.
        """

    def look(self) -> tuple[Record, list[State]]:
        """The history and all steps at one moment."""

    def pausing(self) -> AbstractContextManager[None]:
        """Lets no runner claim a step while the block runs and this process lives.

        Two such blocks at once are a `Stop`.
        """

    def swap(self, known: Record, change: Change) -> bool:
        """Puts another plan in the place of the known one, within `pausing`.

        False where the history has grown since it was known, and then nothing is changed.

        Who holds a copy that the new history has open goes on with it. All other claims end. No
        step has failed by the new plan.
        """
