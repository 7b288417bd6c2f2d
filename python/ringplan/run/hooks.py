"""Hooks: executables that do steps. Each gets one JSON object on its standard input.

A hook is told by its file's name which kind of step it does. It ends with 0 if the step is done,
with 75 if it cannot be done now, and with 69 if a node that it needs is dead for good. Any other
end is a failure. Between the runner and its hooks stand supervisors, one for each step that is
being done.
"""

from __future__ import annotations

import contextlib
import enum
import fcntl
import hashlib
import json
import math
import os
import select
import socket
import struct
import subprocess
import sys
import threading
from collections.abc import Callable, Iterable, Mapping, Sequence
from typing import Any, NamedTuple

from ringplan.run import supervisor
from ringplan.run.board import Name, Status, Stop
from ringplan.run.supervisor import now

DEAD, NOT_NOW = 69, 75
GRACE = 5.0
# A lock, as the system's `struct flock`: its kind, from where its place counts, its place and
# length, and a process.
FLOCK = "hhqqi4x"
# How often a claim is looked at while its hook runs, in seconds.
BEAT = 0.25
# Writes and reads JSON in few bytes. An encoder and a decoder that are kept take a third of the
# time.
WRITE, READ = (
    json.JSONEncoder(separators=(",", ":"), sort_keys=True).encode,
    json.JSONDecoder().decode,
)


class Outcome(enum.Enum):
    DONE = "done"
    NOT_NOW = "not now"
    FAILED = "failed"
    # A failure for ever, by this plan.
    DEAD = "found a node dead"
    # The runner ended the hook, or did not start it.
    ENDED = "ended by a signal"


class Result(NamedTuple):
    """How a hook ended, and the last lines that it printed if it did not do its step."""

    outcome: Outcome
    why: str = ""
    lines: tuple[str, ...] = ()


class NoLock(Exception):
    """A lock that cannot be taken, such as for want of descriptors."""


class Supervisor:
    """A supervisor as its runner sees it."""

    def __init__(self) -> None:
        words, (self.link, other) = [
            sys.executable,
            "-I",
            "-S",
            supervisor.__file__,
        ], socket.socketpair()
        with other:
            self.process = subprocess.Popen(
                words, stdin=other.fileno(), stdout=other.fileno(), start_new_session=True
            )
        # The descriptor that holds the lock of the step that it serves.
        self.rest, self.lock, self.held = b"", threading.Lock(), -1
        self.is_left, self.answered = False, select.poll()
        self.answered.register(self.link, select.POLLIN)

    def send(self, handles: Sequence[int] = (), **command: object) -> None:
        data = WRITE(command).encode() + b"\n"
        # Without its reader there is no answer either.
        with self.lock, contextlib.suppress(ConnectionError):
            sent = socket.send_fds(self.link, [data], handles) if handles else 0
            self.link.sendall(data[sent:])

    def answer(self, seconds: float) -> dict[str, Any] | None:
        """Its next answer. None if there is none in time. A supervisor that is gone is a `Stop`."""
        while b"\n" not in self.rest:
            if not self.answered.poll(1000 * seconds):
                return None
            data = b""
            with contextlib.suppress(ConnectionError):
                data = self.link.recv(1 << 16)
            if not data:
                raise Stop(
                    Status.FAULT,
                    "the supervisor of a hook was killed, so it is not known whether the hook runs",
                )
            self.rest += data
        line, self.rest = self.rest.split(b"\n", 1)
        found: dict[str, Any] = READ(line.decode())
        return found

    def free(self) -> None:
        """Frees the lock of its step."""
        os.close(self.held)
        if self.is_left:
            self.send(free=True)

    def close(self) -> None:
        """Lets it end once it has nothing to wait for."""
        self.link.close()


class Hooks:
    """The hooks of a folder, and the supervisors of those that run."""

    def __init__(self, folder: str, locks: str, limits: Mapping[str, float] = {}) -> None:
        # How many seconds a hook of a kind may take.
        self.folder, self.locks, self.limits, self.lock = folder, locks, limits, threading.Lock()
        self.file = os.path.abspath(os.path.join(locks, "steps"))
        self.idle, self.running, self.left = (
            list[Supervisor](),
            set[Supervisor](),
            list[Supervisor](),
        )
        # Whether the hooks are to end, and whether a supervisor died and left a hook.
        self.is_ending = self.is_lost = False

    def path(self, kind: str) -> str:
        return os.path.abspath(os.path.join(self.folder, kind))

    def has(self, kind: str) -> bool:
        return os.path.isfile(self.path(kind)) and os.access(self.path(kind), os.X_OK)

    def demand(self, kinds: Iterable[str]) -> None:
        """Stops if a kind of step has no hook. The hook `chunk` does for `copy`."""
        missing = [
            kind
            for kind in kinds
            if not self.has(kind) and not (kind == "copy" and self.has("chunk"))
        ]
        if missing:
            raise Stop(Status.FAULT, f"no executable in {self.folder} for: {' '.join(missing)}")

    # The locks of steps: each is a byte of one file, so no step makes a file of its own. A
    # descriptor holds a lock, and with it all processes that have a copy.
    def lock_of(self, handle: int, how: int, kind: int, name: Name) -> int:
        """Takes a step's lock, or looks for one that stands against it. Returns its kind."""
        place = int.from_bytes(hashlib.sha256(name.file().encode()).digest()[:7])
        found: tuple[int, ...] = struct.unpack(
            FLOCK, fcntl.fcntl(handle, how, struct.pack(FLOCK, kind, os.SEEK_SET, place, 1, 0))
        )
        return found[0]

    def open(self) -> int:
        """A descriptor of its own of the file of all locks."""
        with contextlib.suppress(FileNotFoundError):
            return os.open(self.file, os.O_RDWR | os.O_CREAT, 0o666)
        os.makedirs(self.locks, exist_ok=True)
        return os.open(self.file, os.O_RDWR | os.O_CREAT, 0o666)

    def hold(self, name: Name) -> Supervisor | None:
        """A supervisor for the step, whose lock is held.

        None while a process of an earlier hook of the step is left.
        """
        handle = -1
        try:
            handle = self.open()
            self.lock_of(handle, fcntl.F_OFD_SETLK, fcntl.F_WRLCK, name)
            with self.lock:
                one = self.idle.pop() if self.idle else None
            one = one or Supervisor()
        except OSError as error:
            if handle >= 0:
                os.close(handle)
            if isinstance(error, BlockingIOError):
                return None
            raise NoLock(error.strerror) from error
        one.held = handle
        return one

    def free(self, one: Supervisor) -> None:
        """Frees its lock. A supervisor that has processes left does not serve another step."""
        one.free()
        with self.lock:
            (self.left if one.is_left else self.idle).append(one)

    def is_running(self, name: Name) -> bool:
        """Whether a hook of the step runs on this machine, also one that outlived its runner."""
        try:
            handle = os.open(self.file, os.O_RDONLY)
        except FileNotFoundError:
            return False
        try:
            return self.lock_of(handle, fcntl.F_OFD_GETLK, fcntl.F_RDLCK, name) != fcntl.F_UNLCK
        finally:
            os.close(handle)

    # Hooks that run.
    def send(
        self, kind: str, title: str, members: dict[str, object], one: Supervisor, until: float
    ) -> None:
        """Has the supervisor start the hook, with the members as its line of input."""
        one.send(
            [one.held],
            run=self.path(kind),
            name=title,
            input=WRITE(members) + "\n",
            until=until,
            limit=self.limits.get(kind, math.inf),
            grace=GRACE,
        )

    def run(
        self,
        kind: str,
        title: str,
        members: dict[str, object],
        one: Supervisor,
        until: Callable[[], float],
        beat: Callable[[bool], None],
    ) -> Result:
        """Runs a hook to its end.

        `until` is the moment up to which the step is the worker's: its processes are killed then,
        also if this runner is stopped or dead.

        `beat` is called while the hook runs on, with whether it has failed and waits for processes
        that it left.
        """
        with self.lock:
            moment = until()
            if self.is_ending or moment <= now():
                return Result(Outcome.ENDED)
            self.running.add(one)
            self.send(kind, title, members, one, moment)
        try:
            while (answer := one.answer(BEAT)) is None or "rest" in answer:
                beat(answer is not None)
                if (later := until()) != moment:
                    moment = later
                    one.send(until=moment)
        except Stop:
            self.is_lost = True
            raise
        finally:
            with self.lock:
                self.running.discard(one)
        one.is_left = answer.get("is_left", False)
        return self.result(kind, answer)

    def result(self, kind: str, answer: dict[str, Any]) -> Result:
        if "error" in answer:
            return Result(Outcome.FAILED, f"{self.path(kind)} cannot be run: {answer['error']}")
        status: int = answer["status"]
        if status == 0:
            return Result(Outcome.DONE)
        if answer["is_late"]:
            return Result(
                Outcome.FAILED, f"not after {self.limits[kind]:g} s", tuple(answer["lines"])
            )
        if answer["is_killed"]:
            return Result(Outcome.ENDED)
        why = f"ended with {status}" if status > 0 else f"killed by signal {-status}"
        outcome = {DEAD: Outcome.DEAD, NOT_NOW: Outcome.NOT_NOW}.get(status, Outcome.FAILED)
        return Result(outcome, why, tuple(answer["lines"]))

    def end(self) -> None:
        """Ends the hooks that run, with all their processes: at once by SIGTERM, and after a while
        by SIGKILL.
        """
        with self.lock:
            self.is_ending = True
            for one in self.running:
                one.send(end=GRACE)

    def close(self) -> None:
        """Lets the supervisors end."""
        with self.lock:
            for one in (*self.idle, *self.left):
                one.close()
            for one in self.idle:
                one.process.wait()
            self.idle.clear()
            self.left.clear()
