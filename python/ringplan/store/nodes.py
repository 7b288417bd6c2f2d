"""Nodes: what a store wants of a database server is four calls on areas of keys.

`merge` must merge at the server, in one step, and what it has answered must be there after a crash
of the process. `ServerNode` has what all kinds share. `SqliteNode` is one process over one file.
`redis_node` and `postgres_node` have the others.
"""

from __future__ import annotations

import abc
import glob
import json
import os
import shutil
import socket
import subprocess
import sys
import threading
import time
from collections.abc import Callable, Iterable, Sequence
from functools import partial
from typing import Any, Generic, Protocol, TypeVar

from ringplan.programs import NoProgram
from ringplan.store.versions import Contents, Version

KINDS = ("sqlite", "redis", "postgres")
# How long a server that lives may take to answer, and to start, in seconds.
PATIENCE, STARTS = 60, 300
Link = TypeVar("Link")
Answer = TypeVar("Answer")


class Gone(Exception):
    """The node did not answer: what was asked of it may or may not have happened."""

    def __init__(self, node: str) -> None:
        super().__init__(f"{node} did not answer")
        self.node = node


class Node(Protocol):
    """A database server with the versions of one node."""

    def fetch(self, area: str, key: str) -> list[Version]:
        ...

    def scan(self, area: str) -> Contents:
        ...

    def merge(self, area: str, contents: Contents) -> None:
        ...

    def clear(self, areas: Iterable[str]) -> None:
        ...

    def start(self) -> None:
        ...

    def kill(self) -> None:
        ...

    def wipe(self) -> None:
        ...


class ServerNode(Node, abc.ABC, Generic[Link]):
    """A server process in a folder of its own, killed by signal 9 and started again at will.

    Each thread has one connection for each life of the process.
    """

    # The server's program, and the Debian package that has it.
    program, package = "", ""
    # What a connection raises where its server does not answer.
    broken: tuple[type[Exception], ...] = (OSError,)

    def __init__(self, folder: str, name: str, latest_wins: bool = False) -> None:
        self.folder, self.name, self.latest_wins = os.path.join(folder, name), name, latest_wins
        self.path = os.path.join(self.folder, "socket")
        self.process: subprocess.Popen[bytes] | None = None
        self.guard: subprocess.Popen[bytes] | None = None
        self.life, self.local = 0, threading.local()
        os.makedirs(self.folder)

    @classmethod
    def find(cls) -> str:
        """The path of the server's program.

        Debian keeps those of PostgreSQL off the search path.
        """
        path = shutil.which(
            cls.program,
            path=os.pathsep.join(
                [
                    os.environ.get("PATH", ""),
                    *sorted(glob.glob("/usr/lib/postgresql/*/bin"), reverse=True),
                ]
            ),
        )
        if path is None:
            raise NoProgram(
                f"there is no program {cls.program}: install the Debian package {cls.package}"
            )
        return path

    @abc.abstractmethod
    def launch(self) -> subprocess.Popen[bytes]:
        """Starts the process, in a session of its own: a signal from the terminal does not reach
        it.
        """

    @abc.abstractmethod
    def connect(self) -> Link:
        """A new connection. Raises one of `broken` until the server answers."""

    def start(self) -> None:
        self.process = self.launch()
        # The guard's input ends when this process does, however it dies. Then the server ends too.
        self.guard = subprocess.Popen(
            ["/bin/sh", "-c", "read line; kill $0 2>&-", str(self.process.pid)],
            stdin=subprocess.PIPE,
            start_new_session=True,
        )
        self.life += 1
        until = time.monotonic() + STARTS
        while True:
            try:
                return self.ask(lambda _: None)
            except Gone as gone:
                if self.process.poll() is not None or time.monotonic() > until:
                    raise TimeoutError(
                        f"the server of {self.name} does not start: {gone.__cause__}"
                    ) from gone
                time.sleep(0.005)

    def kill(self) -> None:
        if self.process is not None and self.guard is not None:
            self.process.kill()
            self.guard.communicate()
            self.process.wait()

    def wipe(self) -> None:
        """What a lost disk leaves: nothing. Called while the process is dead."""
        shutil.rmtree(self.folder)
        os.makedirs(self.folder)

    def ask(self, call: Callable[[Link], Answer]) -> Answer:
        """What the call returns.

        A connection to a process that is dead by now is made again once; a broken one is `Gone`.
        """
        known: tuple[int, Link] | None = getattr(self.local, "connection", None)
        try:
            if known is None or known[0] != self.life:
                known = self.local.connection = (self.life, self.connect())
            return call(known[1])
        except self.broken as error:
            self.local.connection = None
            raise Gone(self.name) from error


def versions_of(text: str | bytes | None) -> list[Version]:
    """The versions that a server stores as JSON."""
    return [Version(*version) for version in json.loads(text or "[]")]


class Connection:
    """One thread's connection to a server."""

    def __init__(self, path: str) -> None:
        self.socket = socket.socket(socket.AF_UNIX)
        self.socket.settimeout(PATIENCE)
        self.socket.connect(path)
        self.file = self.socket.makefile("rb")

    def ask(self, words: Sequence[Any]) -> Any:
        self.socket.sendall(json.dumps(words, separators=(",", ":")).encode() + b"\n")
        line = self.file.readline()
        if not line.endswith(b"\n"):
            raise ConnectionError("the server is gone")
        return json.loads(line)


class SqliteNode(ServerNode[Connection]):
    """A process of its own over an SQLite file."""

    program = sys.executable

    def launch(self) -> subprocess.Popen[bytes]:
        words = [
            self.find(),
            "-m",
            "ringplan.store.server",
            os.path.join(self.folder, "versions.db"),
            self.path,
        ]
        return subprocess.Popen(words + ["latest"] * self.latest_wins, start_new_session=True)

    def connect(self) -> Connection:
        return Connection(self.path)

    def call(self, *words: Any) -> Any:
        return self.ask(partial(Connection.ask, words=words))

    def fetch(self, area: str, key: str) -> list[Version]:
        return [Version(*version) for version in self.call("fetch", area, key)]

    def scan(self, area: str) -> Contents:
        return {
            key: [Version(*version) for version in versions]
            for key, versions in self.call("scan", area).items()
        }

    def merge(self, area: str, contents: Contents) -> None:
        if contents:
            self.call("merge", area, contents)

    def clear(self, areas: Iterable[str]) -> None:
        self.call("clear", list(areas))


def choose(word: str) -> type[ServerNode[Any]]:
    """The class of nodes that the word names.

    `NoProgram` names the Debian package that is not installed.
    """
    kind: type[ServerNode[Any]] = SqliteNode
    try:
        if word == "redis":
            from ringplan.store.redis_node import RedisNode as kind
        elif word == "postgres":
            from ringplan.store.postgres_node import PostgresNode as kind
    except ModuleNotFoundError as error:
        raise NoProgram(
            f"there is no Python package {error.name}: install the Debian package"
            f" python3-{error.name}"
        ) from error
    kind.find()
    return kind
