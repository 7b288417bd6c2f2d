"""Nodes over PostgreSQL: a row has the versions of one key, and a merge is one transaction that
locks its rows.

What PostgreSQL has answered outlives its processes, not the machine: a commit is written before it
is answered (`synchronous_commit`), and `fsync` is off.
"""

from __future__ import annotations

import contextlib
import json
import os
import pathlib
import shutil
import signal
import subprocess
from collections.abc import Iterable
from typing import Any

import psycopg2
from psycopg2.extensions import connection

from ringplan.store.nodes import PATIENCE, ServerNode, versions_of
from ringplan.store.versions import Contents, Version, latest, merged

TABLE = b"create table versions (area text, key text, list text, primary key (area, key))\n"
# Makes the row or locks it, and returns its versions.
LOCK = (
    "insert into versions values (%s, %s, '[]') on conflict (area, key) do update set list ="
    " versions.list returning list"
)
CLEAR = (
    "delete from versions where (area, key) in (select area, key from versions where area = any(%s)"
    " order by area, key for update)"
)
INITDB = [
    "-D",
    "data",
    "--no-sync",
    "--wal-segsize=1",
    "-A",
    "trust",
    "-U",
    "postgres",
    "-E",
    "UTF8",
    "--locale=C",
]
SERVER = [
    "-D",
    "data",
    "--listen_addresses=",
    "--synchronous_commit=on",
    "--fsync=off",
    "--shared_buffers=8MB",
    "--dynamic_shared_memory_type=mmap",
]
# PostgreSQL refuses to run as root.
USER: dict[str, Any] = (
    {"user": "nobody", "group": "nogroup", "extra_groups": []} if os.geteuid() == 0 else {}
)


class PostgresNode(ServerNode[connection]):
    """A cluster of its own on a Unix socket.

    Rows are locked in the order of their keys, so no two transactions wait for each other.
    """

    program, package = "postgres", "postgresql"
    broken = (psycopg2.OperationalError, psycopg2.InterfaceError)

    def launch(self) -> subprocess.Popen[bytes]:
        program = self.find()
        if not os.path.exists(os.path.join(self.folder, "data")):
            for path in (os.path.dirname(self.folder), self.folder) if USER else ():
                shutil.chown(path, USER["user"], USER["group"])
            initdb, single = [os.path.join(os.path.dirname(program), "initdb"), *INITDB], [
                program,
                "--single",
                "-D",
                "data",
                "postgres",
            ]
            for words, text in ((initdb, b""), (single, TABLE)):
                subprocess.run(
                    words,
                    input=text,
                    check=True,
                    capture_output=True,
                    cwd=self.folder,
                    start_new_session=True,
                    **USER,
                )
        with open(os.path.join(self.folder, "log"), "ab") as log:
            return subprocess.Popen(
                [program, "-k", self.folder, *SERVER],
                stdout=subprocess.PIPE,
                stderr=log,
                cwd=self.folder,
                start_new_session=True,
                **USER,
            )

    def kill(self) -> None:
        """Kills the postmaster and its backends.

        A backend has a session of its own, so no group has them all. A stopped postmaster starts no
        other.
        """
        process = self.process
        if process is not None and process.poll() is None and process.stdout is not None:
            process.send_signal(signal.SIGSTOP)
            os.waitid(os.P_PID, process.pid, os.WSTOPPED | os.WEXITED | os.WNOWAIT)
            for backend in (
                pathlib.Path(f"/proc/{process.pid}/task/{process.pid}/children").read_text().split()
            ):
                os.kill(int(backend), signal.SIGKILL)
            super().kill()
            # The output ends when all that share it are dead. A small segment of shared memory
            # outlives them: line 7 of the file names it.
            with process.stdout, contextlib.suppress(FileNotFoundError, IndexError), open(
                os.path.join(self.folder, "data/postmaster.pid")
            ) as it:
                process.stdout.read()
                subprocess.run(["ipcrm", "-m", it.read().split("\n")[6].split()[1]], check=False)

    def connect(self) -> connection:
        link = psycopg2.connect(
            host=self.folder,
            user="postgres",
            dbname="postgres",
            connect_timeout=PATIENCE,
            options=f"-c statement_timeout={PATIENCE}s",
        )
        # A statement alone is a transaction, in one request.
        link.autocommit = True
        return link

    def rows(self, statement: str, *values: Any) -> list[tuple[str, ...]]:
        def call(link: connection) -> list[tuple[str, ...]]:
            with link.cursor() as at:
                at.execute(statement, values)
                return at.fetchall() if at.description else []

        return self.ask(call)

    def fetch(self, area: str, key: str) -> list[Version]:
        return [
            version
            for row in self.rows("select list from versions where area=%s and key=%s", area, key)
            for version in versions_of(row[0])
        ]

    def scan(self, area: str) -> Contents:
        return {
            key: versions_of(text)
            for key, text in self.rows("select key, list from versions where area=%s", area)
        }

    def merge(self, area: str, contents: Contents) -> None:
        def call(link: connection) -> None:
            # One request a key, and one more: each has what is to be done before it.
            with link.cursor() as at:
                before, values = "begin; ", tuple[str, ...]()
                for key, new in sorted(contents.items()):
                    at.execute(before + LOCK, (*values, area, key))
                    kept = (latest if self.latest_wins else merged)(
                        versions_of(at.fetchall()[0][0]), new
                    )
                    before, values = "update versions set list=%s where area=%s and key=%s; ", (
                        json.dumps(kept),
                        area,
                        key,
                    )
                at.execute(before + "commit", values)

        self.ask(call)

    def clear(self, areas: Iterable[str]) -> None:
        self.rows(CLEAR, list(areas))
