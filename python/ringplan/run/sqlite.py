"""A board in an SQLite file, for one runner at a time."""

from __future__ import annotations

import contextlib
import errno
import fcntl
import json
import math
import os
import shutil
import sqlite3
import stat
import threading
import time
import urllib.parse
import uuid
from collections.abc import Container, Iterable, Iterator, Sequence
from typing import Any

from ringplan.run.board import (
    LOOK,
    TOGETHER,
    Change,
    Claim,
    ClaimEnded,
    Name,
    NoBoard,
    Note,
    Progress,
    Record,
    Seen,
    State,
    Status,
    Stop,
    Tries,
    demand_left,
)
from ringplan.run.board import demand_same

# By this number a database says whose it is.
APPLICATION = 0x52696E67
# Of the rows of `plan` the last one counts; the others are plans that it took the place of. `token`
# is that of the last claim.
SCHEMA = f"""
begin immediate;
pragma application_id={APPLICATION};
create table if not exists board (identity text not null, token integer not null) strict;
create table if not exists settings (kind text primary key, value text not null) strict;
create table if not exists plan (bundle text not null) strict;
create table if not exists steps (
    id integer primary key, number integer not null unique, kind text not null,
    partition integer not null, slot integer not null, node text not null, turn integer not null,
    worker text not null default '', is_begun integer not null default 0,
    is_open integer not null default 0, is_done integer not null default 0,
    failures integer not null default 0, waits integer not null default 0,
    pause real not null default 0, until real not null default 0,
    is_given_up integer not null default 0, why text not null default '',
    lines text not null default '', since real not null default 0, ended real not null default 0,
    unique (kind, partition, slot, node, turn)) strict;
create table if not exists entries (
    place integer primary key autoincrement, step integer not null references steps (id),
    word text not null, chunk integer) strict;
create index if not exists entries_of_step on entries (step);
commit;
"""
# How many candidates are looked at for more steps than one.
LOOKED = 200
NAMED = "kind=? and partition=? and slot=? and node=? and turn=?"
STEP_OF = (
    "select id, is_done, worker, is_begun, is_open, failures, waits, pause, until,"
    f" is_given_up, why, lines from steps where {NAMED}"
)


def begin_step(it: sqlite3.Connection, step: int, worker: str) -> frozenset[int]:
    """Notes that the worker begins the step. The chunks that are copied already."""
    it.execute(
        "update steps set worker=?, is_begun=1, since=? where id=?", (worker, time.time(), step)
    )
    rows = it.execute("select chunk from entries where step=? and word='chunk'", (step,))
    return frozenset(chunk for (chunk,) in rows)


class SqliteBoard:
    """A board in a file.

    Beside it stand locks that the system frees when a process dies: `FILE.lock` is the runner's,
    and `FILE.pause` lets none claim a step.

    A claim waits for the disk, and with it all that was noted before. A note does not: if the
    machine itself crashes, steps that were noted after the last claim are done again, and their
    hooks are told so. No hook of a step that waits for them has begun then.
    """

    def __init__(self, path: str, is_new: bool = False, is_read: bool = False) -> None:
        # Two names of a file are one board, with the same locks.
        self.path = os.path.realpath(path)
        self.lock, self.held, self.locks, self.token = threading.Lock(), -1, f"{self.path}.hooks", 0
        self.seen = Seen(self.locks)
        if not self.demand_board() and not is_new:
            raise NoBoard(path)
        with self.reaching():
            self.connection = self.connect(is_read)
            if is_new:
                self.connection.executescript(SCHEMA)
                self.connection.execute("pragma journal_mode=wal")
            self.connection.execute(
                "select bundle, token, ended from plan, board, settings, steps, entries limit 0"
            )
            # Damage that SQLite would read over, such as a number in the place of a text.
            ((found,),) = self.connection.execute("pragma quick_check(1)")
            if found != "ok":
                raise sqlite3.DatabaseError(found)
        self.file = self.found()

    def found(self) -> tuple[int, int]:
        """Which file has the board's name now."""
        try:
            now = os.stat(self.path)
        except OSError as error:
            raise Stop(
                Status.FAULT, f"the board {self.path} cannot be reached: {error.strerror}"
            ) from error
        return now.st_dev, now.st_ino

    def demand_board(self) -> bool:
        """Whether the file is there. One that is not a board is a `Stop`, and is not changed."""
        try:
            known = os.stat(self.path)
        except FileNotFoundError:
            return False
        except OSError as error:
            raise Stop(
                Status.FAULT, f"the board {self.path} cannot be read: {error.strerror}"
            ) from error
        if not os.access(self.path, os.R_OK):
            raise Stop(
                Status.FAULT, f"the board {self.path} cannot be read: {os.strerror(errno.EACCES)}"
            )
        is_there = known.st_size > 0 or not stat.S_ISREG(known.st_mode)
        if is_there and not (stat.S_ISREG(known.st_mode) and self.application() == APPLICATION):
            raise Stop(Status.FAULT, f"{self.path} is not a board of ringplan-run")
        if known.st_nlink > 1:
            raise Stop(
                Status.FAULT,
                (
                    f"the board {self.path} has {known.st_nlink} hard links: by another name it"
                    " would have other locks"
                ),
            )
        return is_there

    def application(self) -> int:
        """Whose database the file is, by SQLite itself: a process that closes a file of its own
        loses the locks that its other connections have on it.
        """
        place = f"file:{urllib.parse.quote(self.path)}?mode=ro&immutable=1"
        with contextlib.suppress(sqlite3.Error), contextlib.closing(
            sqlite3.connect(place, uri=True)
        ) as it:
            return int(it.execute("pragma application_id").fetchone()[0])
        return 0

    def connect(self, is_read: bool) -> sqlite3.Connection:
        """A connection for all threads. One that only reads works without the right to write."""
        place = f"file:{urllib.parse.quote(self.path)}?mode={'ro' if is_read else 'rwc'}"
        # Without the log of changes beside it, which only one who may write makes, the file has
        # all.
        place += "&immutable=1" if is_read and not os.path.exists(f"{self.path}-wal") else ""
        return sqlite3.connect(
            place, timeout=30, isolation_level=None, check_same_thread=False, uri=True
        )

    @contextlib.contextmanager
    def reaching(self) -> Iterator[None]:
        """The file, for one thread. What SQLite refuses, as on a full disk, is a `Stop`."""
        with self.lock:
            try:
                yield
            except (sqlite3.Error, OverflowError, UnicodeError) as error:
                # Some messages of SQLite cite what they cannot read.
                raise Stop(
                    Status.FAULT,
                    (
                        f"the board {self.path} cannot be read or written:"
                        f" {str(error).splitlines()[0][:200]}"
                    ),
                ) from error

    @contextlib.contextmanager
    def change(self, is_synced: bool = True) -> Iterator[sqlite3.Connection]:
        """One transaction, which waits for the disk or leaves that to the next one."""
        with self.reaching():
            if self.found() != self.file:
                raise Stop(Status.FAULT, f"the board {self.path} was replaced by another file")
            it = self.connection
            it.execute(f"pragma synchronous={'full' if is_synced else 'normal'}")
            it.execute("begin immediate")
            try:
                yield it
                it.execute("commit")
            except BaseException:
                # SQLite may have rolled it back already.
                if it.in_transaction:
                    it.execute("rollback")
                raise

    def rows(self, query: str, *values: Any) -> list[tuple[Any, ...]]:
        with self.reaching():
            return self.connection.execute(query, values).fetchall()

    def take(self, ending: str, holder: str) -> int:
        """Takes the lock beside the file that has this ending.

        It lasts until it is closed, or the process ends.
        """
        try:
            handle = os.open(f"{self.path}.{ending}", os.O_RDWR | os.O_CREAT, 0o666)
        except OSError as error:
            raise Stop(
                Status.FAULT, f"the lock {self.path}.{ending} cannot be taken: {error.strerror}"
            ) from error
        # Who asks whether the lock is held holds it for a moment.
        for _ in range(20):
            with contextlib.suppress(BlockingIOError):
                fcntl.flock(handle, fcntl.LOCK_EX | fcntl.LOCK_NB)
                return handle
            time.sleep(0.02)
        os.close(handle)
        raise Stop(Status.OTHER_RUNNER, f"another {holder} works with the board {self.path}")

    def is_taken(self, ending: str) -> bool:
        try:
            handle = os.open(f"{self.path}.{ending}", os.O_RDONLY)
        except FileNotFoundError:
            return False
        except OSError as error:
            raise Stop(
                Status.FAULT, f"the lock {self.path}.{ending} cannot be read: {error.strerror}"
            ) from error
        try:
            fcntl.flock(handle, fcntl.LOCK_SH | fcntl.LOCK_NB)
            return False
        except BlockingIOError:
            return True
        finally:
            os.close(handle)

    def is_held(self) -> bool:
        return self.is_taken("lock")

    def end(self, is_quiet: bool = True) -> None:
        if self.held >= 0:
            with contextlib.suppress(sqlite3.Error), self.lock:
                self.connection.execute("pragma synchronous=full")
                self.connection.execute("pragma wal_checkpoint")
            os.close(self.held)
            self.held = -1

    def begin(self, bundle: str, names: Sequence[Name]) -> None:
        self.held = self.take("lock", "runner")
        with self.change() as it:
            known = [row[0] for row in it.execute("select bundle from plan order by rowid desc")]
            if not known:
                # So the tokens of the next plan's board are greater than those of this one.
                it.execute(
                    "insert into board (identity, token) values (?, ?)",
                    (uuid.uuid4().hex, int(1000 * time.time())),
                )
                it.execute("insert into plan values (?)", (bundle,))
                columns = "number, kind, partition, slot, node, turn"
                it.executemany(
                    f"insert into steps ({columns}) values (?, ?, ?, ?, ?, ?)",
                    [(number, *name) for number, name in enumerate(names)],
                )
            elif bundle not in known:
                demand_same(self.path, known[0], bundle)
            it.execute("update steps set worker=''")
            identity, self.token = it.execute("select identity, token from board").fetchone()
            self.seen.demand(self.path, identity, self.token)

    def has(self, bundle: str) -> bool:
        """Whether the board is of this bundle, or was before a `swap`."""
        return bool(self.rows("select 1 from plan where bundle=?", bundle))

    def edition(self, it: sqlite3.Connection) -> str:
        return str(it.execute("select max(rowid) from plan").fetchone()[0])

    def known(self, it: sqlite3.Connection) -> tuple[str, int]:
        """The board's identity and token, which is the one that this runner left."""
        identity, token = it.execute("select identity, token from board").fetchone()
        if token != self.token:
            raise Stop(
                Status.OTHER_PLAN,
                f"the board {self.path} is not as this runner left it: a copy of it came back",
            )
        return identity, token

    def claim(
        self, worker: str, edition: str, candidates: Iterable[Name], brief: Container[str] = ()
    ) -> list[Claim] | float | None:
        soonest, claims = math.inf, list[Claim]()
        with self.change() as it:
            if self.is_taken("pause") or self.edition(it) != edition:
                return None
            identity, token = self.known(it)
            for place, name in enumerate(candidates):
                if claims and place >= LOOKED:
                    break
                if claims and name.kind not in brief:
                    continue
                step, is_done, other, is_begun, is_open, *tried = it.execute(
                    STEP_OF, name
                ).fetchone()
                tries = Tries(*tried)
                if is_done or other or tries.is_given_up or tries.left():
                    soonest = min(soonest, LOOK if other else tries.left() or math.inf)
                    continue
                token += 1
                marks = begin_step(it, step, worker)
                claims.append(
                    Claim(name, worker, token, bool(is_begun), bool(is_open), marks, tries)
                )
                if name.kind not in brief or len(claims) == TOGETHER:
                    break
            it.execute("update board set token=?", (token,))
        self.token = token
        self.seen.keep(identity, token)
        return claims or soonest

    def own(self, it: sqlite3.Connection, claim: Claim) -> int:
        """The step's place in its table. A claim that has ended is a `ClaimEnded`."""
        row = it.execute(
            f"select id from steps where {NAMED} and worker=? and not is_done",
            (*claim.name, claim.worker),
        ).fetchone()
        if row is None:
            raise ClaimEnded(claim.name)
        return int(row[0])

    def until(self, claim: Claim) -> float:
        """A claim in a file ends with its runner, or with the plan."""
        return (
            math.inf
            if self.rows(
                f"select 1 from steps where {NAMED} and worker=?", *claim.name, claim.worker
            )
            else -math.inf
        )

    def note(self, claim: Claim, notes: Iterable[Note], is_done: bool = False) -> None:
        with self.change(is_synced=False) as it:
            step = self.own(it, claim)
            for word, chunk in notes:
                it.execute(
                    "insert into entries (step, word, chunk) values (?, ?, ?)", (step, word, chunk)
                )
                if word in ("open", "close", "abort"):
                    it.execute("update steps set is_open=? where id=?", (word == "open", step))
            if is_done:
                it.execute(
                    "update steps set is_done=1, worker='', ended=? where id=?", (time.time(), step)
                )

    def give_back(self, claim: Claim, tries: Tries) -> None:
        with self.change() as it:
            values = (*vars(tries).values(), self.own(it, claim))
            it.execute(
                (
                    "update steps set worker='', failures=?, waits=?, pause=?, until=?,"
                    " is_given_up=?, why=?, lines=? where id=?"
                ),
                values,
            )

    def retry(self, number: int) -> None:
        with self.change() as it:
            row = it.execute("select is_done from steps where number=?", (number,)).fetchone()
            demand_left(number, bool(row[0]) if row else None)
            it.execute(
                (
                    "update steps set failures=0, waits=0, pause=0, until=0, is_given_up=0 where"
                    " number=?"
                ),
                (number,),
            )

    def set(self, kind: str, values: dict[str, int]) -> None:
        with self.change() as it:
            it.execute("insert or replace into settings values (?, ?)", (kind, json.dumps(values)))

    def settings(self, kind: str) -> dict[str, int]:
        rows = self.rows("select value from settings where kind=?", kind)
        found: dict[str, int] = json.loads(rows[0][0]) if rows else {}
        return found

    def lease_left(self) -> float:
        return math.inf

    def remove(self) -> None:
        self.held = self.take("lock", "runner")
        self.connection.close()
        shutil.rmtree(self.locks, ignore_errors=True)
        for ending in ("", "-wal", "-shm", ".pause", ".lock"):
            with contextlib.suppress(FileNotFoundError):
                os.unlink(self.path + ending)

    @contextlib.contextmanager
    def moment(self) -> Iterator[sqlite3.Connection]:
        """Reads of one moment."""
        with self.reaching():
            it = self.connection
            it.execute("begin")
            try:
                yield it
            finally:
                it.execute("rollback")

    def plan(self) -> tuple[str, str, list[int]]:
        with self.moment() as it:
            return *self.bundle(it), [
                number for (number,) in it.execute("select number from steps where is_done")
            ]

    def bundle(self, it: sqlite3.Connection) -> tuple[str, str]:
        """The edition of the plan, and its bundle."""
        found = it.execute("select rowid, bundle from plan order by rowid desc limit 1").fetchone()
        if found is None:
            raise Stop(Status.FAULT, f"the board {self.path} has no plan yet")
        return str(found[0]), found[1]

    def news(self) -> tuple[str, list[Name]]:
        """No other runner works with the board."""
        with self.moment() as it:
            return self.edition(it), []

    def states(self) -> tuple[str, list[State]]:
        with self.moment() as it:
            return self.edition(it), self.listed(it)

    def listed(self, it: sqlite3.Connection) -> list[State]:
        columns = (
            "number, kind, partition, slot, node, turn, worker, since, is_begun, is_done, ended,"
            " id, failures, waits, pause, until, is_given_up, why, lines"
        )
        marks = (
            "select step, count(distinct chunk) from entries join steps on steps.id = step where"
            " not is_done and is_begun and word='chunk' group by step"
        )
        rows, chunks = it.execute(f"select {columns} from steps order by number"), dict(
            it.execute(marks)
        )
        return [
            State(
                row[0],
                Name(*row[1:6]),
                row[6],
                row[7],
                Tries(*row[12:]),
                bool(row[8]),
                bool(row[9]),
                row[10],
                chunks.get(row[11], 0),
            )
            for row in rows
        ]

    def record(self) -> Record:
        with self.moment() as it:
            return self.recorded(it)

    def recorded(self, it: sqlite3.Connection) -> Record:
        rows = it.execute(
            "select word, number, chunk from entries join steps on steps.id = entries.step order by"
            " place"
        )
        return Record(
            *self.bundle(it), [Note(word, chunk).line(number) for word, number, chunk in rows]
        )

    def later(self, edition: str, mark: int) -> tuple[int, list[str]] | None:
        with self.moment() as it:
            if self.edition(it) != edition:
                return None
            rows = it.execute(
                (
                    "select place, word, number, chunk from entries join steps on steps.id ="
                    " entries.step where place > ? order by place"
                ),
                (mark,),
            ).fetchall()
        return rows[-1][0] if rows else mark, [
            Note(word, chunk).line(number) for _, word, number, chunk in rows
        ]

    def look(self) -> tuple[Record, list[State]]:
        with self.moment() as it:
            return self.recorded(it), self.listed(it)

    @contextlib.contextmanager
    def pausing(self) -> Iterator[None]:
        handle = self.take("pause", "`around`")
        try:
            # Who looked at the lock before has claimed its step once this ends.
            with self.change():
                pass
            yield
        finally:
            os.close(handle)

    def swap(self, known: Record, change: Change) -> bool:
        progress, columns = (
            change.progress(),
            "kind, partition, slot, node, turn, worker, is_begun, since, ended",
        )
        with self.change() as it:
            (count,) = it.execute("select count(*) from entries").fetchone()
            if (self.edition(it), count) != (known.edition, len(known.entries)):
                return False
            old = {Name(*row[:5]): row[5:] for row in it.execute(f"select {columns} from steps")}
            it.execute("delete from entries")
            it.execute("delete from steps")
            it.execute("insert into plan values (?)", (change.bundle,))
            for number, name in enumerate(change.names):
                worker, *times = old.get(name, ("", 0, 0.0, 0.0))
                is_done, is_open, _ = progress.get(name, Progress())
                row = (number, number, is_done, is_open, *name, worker if is_open else "", *times)
                it.execute(
                    (
                        f"insert into steps (id, number, is_done, is_open, {columns}) values"
                        f" ({','.join('?' * len(row))})"
                    ),
                    row,
                )
            numbers = {name: number for number, name in enumerate(change.names)}
            it.executemany(
                "insert into entries (step, word, chunk) values (?, ?, ?)",
                [(numbers[name], *note) for name, note in change.notes],
            )
        return True
