"""Stands between a runner and the hooks of one step.

It holds the step's lock until no process of a hook is left, whatever becomes of the runner. Orphans
become its children (it is a subreaper), so it sees a process that closes descriptors or begins a
session of its own. Commands are lines of JSON on a socket:

    {"run": PATH, "name": TEXT, "input": TEXT,
     "until": MOMENT, "limit": SECONDS, "grace": SECONDS}
        runs a hook, and ends it if it takes longer than its limit; the descriptor that holds the
        lock comes with it: {"status": N, "is_killed": BOOL, "is_late": BOOL, "is_left": BOOL,
        "lines": [..]} or {"error": TEXT}
    {"until": MOMENT}   moves the moment at which all processes are killed
    {"end": SECONDS}    ends them: by SIGTERM now, and by SIGKILL so much later
    {"free": true}      frees the lock, although processes are left

A moment is a second of CLOCK_BOOTTIME, which counts while the machine sleeps. A hook that ended
with 0 may leave processes. Any other is over once none is left; `{"rest": true}` says that it waits
for them.
"""

from __future__ import annotations

import ctypes
import json
import math
import os
import select
import signal
import socket
import time
from collections import deque
from typing import Any

PR_SET_CHILD_SUBREAPER = 36
# What terminals and service managers send to all processes: the runner decides what becomes of its
# hooks. Hooks start with the usual answers to signals.
IGNORED = (
    signal.SIGINT,
    signal.SIGTERM,
    signal.SIGHUP,
    signal.SIGQUIT,
    signal.SIGPIPE,
    signal.SIGXFSZ,
)
# How often a process that does not die is killed again, in seconds.
AGAIN = 0.05
# Of what a hook prints: the bytes of a line, the bytes that wait to be written, and how many lines
# its answer has.
LINE, ROOM, LINES = 2000, 1 << 16, 20


def now() -> float:
    """The present moment, as commands name it."""
    return time.clock_gettime(time.CLOCK_BOOTTIME)


class Supervisor:
    def __init__(self) -> None:
        # Commands come by it. The descriptors that came with commands, and the one that holds the
        # lock.
        self.link, self.handles, self.lock = socket.socket(fileno=0), deque[int](), -1
        # The hook's process while it lives, its status, and whether an answer is owed.
        self.hook, self.status, self.is_owed = 0, 0, False
        # Whether a process is left; whether the hook was killed at its moment; whether `rest` was
        # said; whether the runner is gone.
        self.is_left = self.is_killed = self.is_resting = self.is_over = False
        # When all processes are killed; when the hook is late, whether it is, and how long it has
        # then to end.
        self.until, self.limit, self.is_late, self.grace = math.inf, math.inf, False, 0.0
        self.name, self.rest, self.waiting, self.last = b"", b"", b"", deque[bytes](maxlen=LINES)
        self.printed, self.printing = os.pipe2(os.O_CLOEXEC)
        os.set_blocking(self.printed, False)
        self.woken, waking = os.pipe2(os.O_NONBLOCK | os.O_CLOEXEC)
        signal.set_wakeup_fd(waking, warn_on_full_buffer=False)
        signal.signal(signal.SIGCHLD, lambda *_: None)

    def answer(self, **members: Any) -> None:
        try:
            self.link.sendall(json.dumps(members).encode() + b"\n")
        except OSError:
            self.is_over = True

    # Commands.
    def obey(self, command: dict[str, Any]) -> None:
        try:
            match command:
                case {
                    "run": path,
                    "name": name,
                    "input": line,
                    "until": until,
                    "limit": limit,
                    "grace": grace,
                }:
                    self.until, self.limit, self.grace, self.name = (
                        until,
                        now() + limit,
                        grace,
                        name.encode(),
                    )
                    self.run(path, line.encode())
                case {"until": until}:
                    self.until = min(until, self.until) if self.is_killed else until
                case {"end": grace}:
                    self.end(grace)
                case _:
                    self.free()
        except OSError as error:
            self.free()
            self.answer(error=error.strerror)

    def free(self) -> None:
        if self.lock >= 0:
            os.close(self.lock)
        self.lock = -1

    def run(self, path: str, line: bytes) -> None:
        """Starts a hook.

        Its input is whole before it starts, so that it reads all or nothing of it.
        """
        self.free()
        self.lock = self.handles.popleft()
        # Hooks inherit it: so most of them keep it if somebody kills this process.
        os.set_inheritable(self.lock, True)
        self.status, self.is_killed, self.is_late, self.is_resting = 0, False, False, False
        self.last.clear()
        given = os.memfd_create("input")
        try:
            os.write(given, line)
            os.lseek(given, 0, os.SEEK_SET)
            files = [
                (os.POSIX_SPAWN_DUP2, given, 0),
                (os.POSIX_SPAWN_DUP2, self.printing, 1),
                (os.POSIX_SPAWN_DUP2, self.printing, 2),
            ]
            self.hook = os.posix_spawn(
                path,
                [path],
                os.environ,
                file_actions=files,
                setsid=True,
                setsigdef=IGNORED,
                setsigmask=(),
            )
        finally:
            os.close(given)
        self.is_left = self.is_owed = True

    def end(self, grace: float) -> None:
        """Ends all processes of a hook that runs.

        Its number is its group's too, and no other process has that before the hook is reaped.
        """
        if self.hook:
            os.killpg(self.hook, signal.SIGTERM)
        if self.is_owed:
            self.is_killed, self.until = True, min(self.until, now() + grace)

    # Processes.
    def kill(self) -> None:
        """Kills all children.

        Those of a child that died are children next. No other process has a child's number before
        it is reaped.
        """
        self.is_killed = True
        with open("/proc/thread-self/children", encoding="ascii") as file:
            for child in file.read().split():
                os.kill(int(child), signal.SIGKILL)

    def reap(self) -> None:
        self.is_left = True
        while self.is_left:
            try:
                process, status = os.waitpid(-1, os.WNOHANG)
            except ChildProcessError:
                self.is_left = False
                break
            if not process:
                break
            if process == self.hook:
                self.hook, self.status = 0, os.waitstatus_to_exitcode(status)
        if self.is_owed and not self.hook:
            self.tell()
        elif not self.is_left:
            self.free()

    def tell(self) -> None:
        """Answers for a hook that has ended, once what it printed is read."""
        if self.status and self.is_left:
            if not self.is_resting:
                self.is_resting = True
                self.answer(rest=True)
            return
        self.read()
        if self.rest:
            self.keep([self.rest])
            self.rest = b""
        self.write()
        self.is_owed, self.until, self.limit = False, math.inf, math.inf
        if not self.is_left:
            self.free()
        lines = [line.decode(errors="replace") for line in self.last] if self.status else []
        self.answer(
            status=self.status,
            is_killed=self.is_killed,
            is_late=self.is_late,
            is_left=self.is_left,
            lines=lines,
        )

    # What hooks print.
    def keep(self, lines: list[bytes]) -> None:
        cut = [
            line[start : start + LINE]
            for line in lines
            for start in range(0, max(1, len(line)), LINE)
        ]
        self.last.extend(cut)
        self.waiting += b"".join(self.name + b" | " + line + b"\n" for line in cut)

    def read(self) -> None:
        """Reads what hooks printed: at most what a pipe has room for."""
        try:
            data = os.read(self.printed, ROOM)
        except BlockingIOError:
            return
        *lines, self.rest = (self.rest + data).split(b"\n")
        self.keep(lines)
        if len(self.rest) >= LINE:
            self.keep([self.rest])
            self.rest = b""

    def write(self) -> None:
        """Writes lines as long as that does not block: a pipe or a terminal that is ready takes a
        few thousand bytes.
        """
        while self.waiting and select.select([], [2], [], 0)[1]:
            some = self.waiting[: self.waiting.rfind(b"\n", 0, 4096) + 1]
            try:
                os.write(2, some)
            except OSError:
                self.waiting = b""  # Its reader is gone.
            self.waiting = self.waiting[len(some) :]

    # The loop.
    def wait(self) -> bool:
        """Waits for something to do. Whether commands came."""
        if now() >= self.limit and not self.is_late:
            self.is_late = True
            self.end(self.grace)
        left = (
            min(self.until, math.inf if self.is_late else self.limit) - now()
            if self.is_left
            else math.inf
        )
        if left <= 0:
            self.kill()
        reads = [
            self.woken,
            *([] if self.is_over else [0]),
            *([self.printed] if len(self.waiting) < ROOM else []),
        ]
        ready, writable, _ = select.select(
            reads, [2] if self.waiting else [], [], None if left == math.inf else max(left, AGAIN)
        )
        if self.printed in ready:
            self.read()
        if writable:
            self.write()
        if self.woken in ready:
            os.read(self.woken, 1 << 12)
            self.reap()
        return 0 in ready

    def receive(self) -> bytes:
        """What the runner sent: nothing once it is gone.

        If it died before it read all answers, the socket says so by an error.
        """
        try:
            data, handles, _, _ = socket.recv_fds(self.link, 1 << 16, 1)
        except ConnectionError:
            return b""
        self.handles.extend(handles)
        return data

    def serve(self) -> None:
        rest = b""
        while not self.is_over or self.is_left:
            if self.wait():
                data = self.receive()
                self.is_over = self.is_over or not data
                *lines, rest = (rest + data).split(b"\n")
                for line in lines:
                    self.obey(json.loads(line))


def main() -> None:
    for number in IGNORED:
        signal.signal(number, signal.SIG_IGN)
    ctypes.CDLL(None).prctl(PR_SET_CHILD_SUBREAPER, 1, 0, 0, 0)
    Supervisor().serve()


if __name__ == "__main__":
    main()
