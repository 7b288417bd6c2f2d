"""One node's database: a process of its own that keeps versions in an SQLite file and answers on a
local socket.

    python3 -m ringplan.store.server FILE SOCKET [latest]

A request is a line of JSON, `[call, ...]`, and so is its answer. Four calls are all that a node
offers: `fetch(area, key)`, `scan(area)`, `merge(area, contents)` and `clear(areas)`. A merge is one
transaction: versions are merged where they are stored, so two writers of a key lose nothing.
"""

from __future__ import annotations

import json
import os
import socketserver
import sqlite3
import sys
import threading
from collections.abc import Callable, Iterable, Sequence
from typing import Any

from ringplan.store.versions import Version, latest, merged

Merge = Callable[[Sequence[Version], Iterable[Version]], list[Version]]


class Database:
    """The versions of a node, by area and key."""

    def __init__(self, path: str, merge: Merge) -> None:
        self.path, self.merge_versions, self.local = path, merge, threading.local()
        self.open().execute(
            "create table if not exists versions (area text, key text, list text, primary key"
            " (area, key)) without rowid"
        )

    def open(self) -> sqlite3.Connection:
        """The calling thread's connection.

        What is committed outlives the process; it need not outlive the machine.
        """
        found: sqlite3.Connection | None = getattr(self.local, "connection", None)
        if found is None:
            found = self.local.connection = sqlite3.connect(
                self.path, timeout=30, isolation_level=None
            )
            found.execute("pragma journal_mode=wal")
            found.execute("pragma synchronous=off")
        return found

    def fetch(self, area: str, key: str) -> list[Any]:
        row = (
            self.open()
            .execute("select list from versions where area=? and key=?", (area, key))
            .fetchone()
        )
        return list(json.loads(row[0])) if row else []

    def scan(self, area: str) -> dict[str, Any]:
        rows = self.open().execute("select key, list from versions where area=?", (area,))
        return {key: json.loads(text) for key, text in rows}

    def merge(self, area: str, contents: dict[str, list[list[Any]]]) -> None:
        connection = self.open()
        connection.execute("begin immediate")
        for key, new in contents.items():
            old = [Version(*version) for version in self.fetch(area, key)]
            text = json.dumps(
                self.merge_versions(old, (Version(*version) for version in new)),
                separators=(",", ":"),
            )
            connection.execute(
                "insert or replace into versions values (?, ?, ?)", (area, key, text)
            )
        connection.execute("commit")

    def clear(self, areas: list[str]) -> None:
        connection = self.open()
        connection.execute("begin immediate")
        connection.executemany("delete from versions where area=?", [(area,) for area in areas])
        connection.execute("commit")

    def answer(self, call: str, *arguments: Any) -> Any:
        calls: dict[str, Callable[..., Any]] = {
            "fetch": self.fetch,
            "scan": self.scan,
            "merge": self.merge,
            "clear": self.clear,
        }
        return calls[call](*arguments)


class Requests(socketserver.StreamRequestHandler):
    """The requests of one connection, one after the other."""

    def handle(self) -> None:
        for line in self.rfile:
            answer = self.server.database.answer(*json.loads(line))  # type: ignore[attr-defined]
            self.wfile.write(json.dumps(answer, separators=(",", ":")).encode() + b"\n")


class Server(socketserver.ThreadingMixIn, socketserver.UnixStreamServer):
    daemon_threads = True
    request_queue_size = 64

    def __init__(self, path: str, database: Database) -> None:
        self.database = database
        super().__init__(path, Requests)


def main() -> None:
    file, path = sys.argv[1:3]
    server = Server(f"{path}.new", Database(file, latest if "latest" in sys.argv[3:] else merged))
    # The socket is there once it answers.
    os.rename(f"{path}.new", path)
    server.serve_forever()


if __name__ == "__main__":
    main()
