"""Merges the logs of a store's nodes or threads to one history: `ringplan-merge LOG..`.

A log's line is `PLACE EVENT = REPLY`. PLACE is a decimal number. Within a log places never go back.
Entries of equal places touch nothing in common; they come in the order of the logs on the command
line. EVENT and REPLY are spelled as in a history, with any name where a history has the number of a
put or a get: 1 to 255 bytes without spaces and control bytes. The reply of `put` and of `get` gives
the name. Names of puts and of gets are two tables. A line has at most 263,168 bytes.

A line `PLACE` is a mark: no later line of the log has a lesser place. A line `end` closes the log,
and no line follows it. With `--follow` logs may grow: at the end of one the next line is waited
for, up to its `end`. An entry is written once no log can have one that comes before it. Only that
log is read for which all others wait.

Puts and gets are numbered in the merged order, so no coordinator has to count those of the whole
store. Whether the history is right is for `ringplan replay`. The logs are read as streams, and no
entry is kept. `--number-writers` names the writers of each key `w0`, `w1` and so on: a bundle has
at most 1,024 names.
"""

from __future__ import annotations

import argparse
import contextlib
import heapq
import math
import os
import re
import select
import sys
import time
from array import array
from collections.abc import Callable, Iterable, Iterator
from dataclasses import dataclass, field
from enum import IntEnum

from ringplan import texts
from ringplan.options import complete

# The most bytes of a line, its end included. A reply lists puts of which none succeeds another, so
# at most one of each writer, and a bundle has at most 1,024 writers.
# Each has a name of at most 255 bytes and a space before it. As much as four names is left for the
# place and the event.
LONGEST = (1024 + 4) * 256
# How long a log that has not grown is left before it is read again, and how long it may hold up the
# others before standard error says so, in seconds.
PAUSE, PATIENCE = 0.02, 3.0
# How many bytes of a log that grows are read at once.
PIECE = 1 << 18


class Status(IntEnum):
    BAD_LOG = 2
    NO_FILE = 3
    # By Ctrl-C, as a shell says it.
    ENDED = 130


class Stop(Exception):
    """What is wrong with a file, and the status with which the command ends."""

    def __init__(self, status: Status, what: str) -> None:
        super().__init__(what)
        self.status = status


class BadLine(Exception):
    """What is wrong with a line of a log."""


# A place, the log's number, the line's number, and the line without its place: the empty line for a
# mark.
Placed = tuple[int, int, int, bytes]

NUMBER, NODE = f"(?:{texts.NUMBER.pattern})", texts.NAME.pattern
KEY, VALUE, NAME = "[a-z0-9_.:-]{1,64}", "x(?:[0-9a-f]{2}){0,1024}", r"[^\x00-\x20\x7f]{1,255}"
REPLY = f" = (?:(ok|ticket {NUMBER} {NUMBER} {NUMBER})|(found|reply)((?: {NAME})*))\n"
PLACE, MARK = re.compile(b"0|[1-9][0-9]{0,254}"), re.compile(b"(?:0|[1-9][0-9]{0,254})\n")
PUT = re.compile(f"(put {NODE} {KEY} {VALUE})(?: seen((?: {NAME})+))? = put ({NAME})\n".encode())
GET = re.compile(f"(get {KEY}) = get ({NAME})\n".encode())
FIELDS = {"node": NODE, "put": NAME, "get": NAME}


def shape_of(event: str) -> re.Pattern[bytes]:
    """The line of an event: what precedes its name, the name, the rest."""
    first, *rest = (FIELDS.get(field, NUMBER) for field in texts.EVENTS[event].split())
    tail = "".join(f" {field}" for field in rest)
    is_named = event in (*texts.OF_PUTS, *texts.OF_GETS)
    words = f"({event} )({first})({tail})" if is_named else f"({event} {first}{tail})()()"
    return re.compile(f"{words}{REPLY}".encode())


# The lines of all other events.
OTHERS = {it.encode(): shape_of(it) for it in texts.EVENTS if it not in ("put", "get")}


@dataclass(slots=True)
class Counter:
    """The names of one prefix whose digits count up: by the digits less `base` the name's number
    plus one, or 0 without such a name.
    """

    base: int
    filled: int = 0
    numbers: array[int] = field(default_factory=lambda: array("I"))

    def add(self, place: int, number: int) -> bool:
        """Whether the name is kept here.

        A place takes 4 bytes, and a name in a dictionary more than 16 times as many.
        """
        gap = place - len(self.numbers)
        if place < 0 or place > 16 * self.filled + 64:
            return False
        if gap >= 0:
            self.numbers.frombytes(bytes(self.numbers.itemsize * (gap + 1)))
        self.numbers[place] = number + 1
        self.filled += 1
        return True


class Names:
    """The puts, or the gets, by name.

    A name that is a prefix with a counter's digits is kept in an array, any other in a dictionary.
    """

    # An array has numbers below this one.
    MOST = 2**32 - 1
    # So many prefixes have an array. Of random names each would have its own.
    PREFIXES = 65536

    def __init__(self, kind: str) -> None:
        self.kind, self.count, self.counters, self.others = (
            kind,
            0,
            dict[bytes, Counter](),
            dict[bytes, int](),
        )

    @staticmethod
    def split(name: bytes) -> tuple[bytes, int]:
        """A prefix, and the digits after it without leading zeros; -1 where there are none."""
        digits = name[len(name.rstrip(b"0123456789")) :].lstrip(b"0")
        return (name[: -len(digits)], int(digits)) if digits else (name, -1)

    def find(self, name: bytes) -> int:
        """The number of a name, or -1."""
        prefix, digits = self.split(name)
        counter = self.counters.get(prefix)
        if (
            counter is not None
            and 0 <= digits - counter.base < len(counter.numbers)
            and (found := counter.numbers[digits - counter.base])
        ):
            return found - 1
        return self.others.get(name, -1)

    def add(self, name: bytes) -> bytes:
        """Gives a name the next number."""
        if self.find(name) >= 0:
            raise BadLine(f"a second {self.kind} {shown(name)}")
        if self.count == self.MOST:
            raise BadLine(f"more than {self.MOST} {self.kind}s")
        prefix, digits = self.split(name)
        if digits >= 0 and prefix not in self.counters and len(self.counters) < self.PREFIXES:
            self.counters[prefix] = Counter(digits)
        counter = self.counters.get(prefix)
        if digits < 0 or counter is None or not counter.add(digits - counter.base, self.count):
            self.others[name] = self.count
        self.count += 1
        return b"%d" % (self.count - 1)

    def number(self, name: bytes) -> int:
        found = self.find(name)
        if found < 0:
            raise BadLine(f"no {self.kind} {shown(name)} comes before it")
        return found

    def ascending(self, names: bytes) -> bytes:
        """The numbers of a list of names, each name after a space."""
        return b"".join(
            b" %d" % number for number in sorted(map(self.number, names.split(b" ")[1:]))
        )


def shown(name: bytes) -> str:
    return name.decode(errors="backslashreplace")


class Merger:
    """The puts and gets of the merged order so far."""

    def __init__(self, numbers_writers: bool = False) -> None:
        self.puts, self.gets = Names("put"), Names("get")
        # By key the number of each writer, where writers are numbered.
        self.writers: dict[bytes, dict[bytes, int]] | None = {} if numbers_writers else None
        self.tables = {
            **dict.fromkeys(map(str.encode, texts.OF_PUTS), self.puts),
            **dict.fromkeys(map(str.encode, texts.OF_GETS), self.gets),
        }

    def entry(self, line: bytes) -> bytes:
        """The history's line of an entry."""
        kind = line[: line.find(b" ")]
        if kind == b"put" and (match := PUT.fullmatch(line)):
            event, seen, name = match.groups()
            if seen and len(names := seen.split(b" ")) != len(set(names)):
                raise BadLine("a get twice after `seen`")
            known = b" seen" + self.gets.ascending(seen) if seen else b""
            return b"%b%b = put %b\n" % (self.written(event), known, self.puts.add(name))
        if kind == b"get" and (match := GET.fullmatch(line)):
            return b"%b = get %b\n" % (match[1], self.gets.add(match[2]))
        if (shape := OTHERS.get(kind)) and (match := shape.fullmatch(line)):
            head, name, tail, reply, word, names = match.groups()
            event = b"%b%d%b" % (head, self.tables[kind].number(name), tail) if name else head
            return b"%b = %b\n" % (event, reply or word + self.puts.ascending(names))
        raise BadLine("no entry")

    def written(self, event: bytes) -> bytes:
        """The event of a put, with its writer's number among those of its key."""
        if self.writers is None:
            return event
        _, writer, key, value = event.split(b" ")
        numbers = self.writers.setdefault(key, {})
        return b"put w%d %b %b" % (numbers.setdefault(writer, len(numbers)), key, value)


class Growing:
    """Reads logs that grow.

    `flush` is called before a log is waited for, so that all that can be written has been written.
    """

    def __init__(self) -> None:
        self.flush: Callable[[], object] = lambda: None

    def piece(self, path: str, handle: int) -> bytes:
        """The next bytes of a log."""
        late = time.monotonic() + PATIENCE
        # A pipe without bytes is not readable. At the end of a file, or of a pipe that no process
        # writes to, nothing is read.
        while not (
            piece := os.read(handle, PIECE) if select.select([handle], [], [], 0)[0] else b""
        ):
            self.flush()
            if time.monotonic() > late:
                print(f"ringplan-merge: waits for {path}", file=sys.stderr, flush=True)
                late = math.inf
            time.sleep(PAUSE)
        return piece

    def lines(self, path: str) -> Iterator[bytes]:
        """The lines of a log, without end.

        A line that has no end yet is kept back, up to one that is too long.
        """
        handle, kept = 0 if path == "-" else os.open(path, os.O_RDONLY | os.O_NONBLOCK), b""
        try:
            while len(kept) <= LONGEST:
                *lines, kept = (kept + self.piece(path, handle)).split(b"\n")
                yield from (line + b"\n" for line in lines)
            yield kept
        finally:
            if path != "-":
                os.close(handle)


def lines_of(path: str) -> Iterator[bytes]:
    """The lines of a log up to its end. Of one that is too long so much that this is seen."""
    with open(0, "rb", closefd=False) if path == "-" else open(path, "rb") as file:
        yield from iter(lambda: file.readline(LONGEST + 1), b"")


def read_log(number: int, path: str, growing: Growing | None) -> Iterator[Placed]:
    last = 0
    lines = lines_of(path) if growing is None else growing.lines(path)
    try:
        for at, line in enumerate(lines, 1):
            if len(line) > LONGEST:
                raise Stop(Status.BAD_LOG, f"{path}:{at}: a line of more than {LONGEST} bytes")
            if line == b"end\n":
                break
            digits, _, entry = line.partition(b" ")
            if not (PLACE if entry else MARK).fullmatch(digits):
                raise Stop(Status.BAD_LOG, f"{path}:{at}: no entry")
            place = int(digits)
            if place < last:
                raise Stop(Status.BAD_LOG, f"{path}:{at}: place {place} comes after place {last}")
            last = place
            yield place, number, at, entry
        if growing is None and next(lines, None) is not None:
            raise Stop(Status.BAD_LOG, f"{path}:{at + 1}: a line after `end`")
    except OSError as error:
        raise Stop(Status.NO_FILE, f"{path}: {error.strerror}") from error


def merge(
    paths: list[str], growing: Growing | None = None, numbers_writers: bool = False
) -> Iterator[bytes]:
    """The lines of the history's text."""
    merger = Merger(numbers_writers)
    yield b"history 1\n"
    for _, number, at, line in heapq.merge(
        *(read_log(number, path, growing) for number, path in enumerate(paths))
    ):
        try:
            if line:
                yield merger.entry(line)
        except BadLine as fault:
            raise Stop(Status.BAD_LOG, f"{paths[number]}:{at}: {fault}") from fault
    yield b"end\n"


def write(path: str, lines: Iterable[bytes], growing: Growing | None = None) -> None:
    """Writes lines to a file: all of them, or where one cannot be had or written none.

    To a device or standard output they are written as they come.
    """
    target, is_stream = os.path.realpath(path), path == "-" or os.path.exists(
        path
    ) and not os.path.isfile(path)
    part = f"{target}.{os.getpid()}.part"
    try:
        with open(1, "wb", closefd=False) if path == "-" else open(
            path if is_stream else part, "wb" if is_stream else "xb"
        ) as file:
            if growing is not None:
                growing.flush = file.flush
            file.writelines(lines)
        if not is_stream:
            os.replace(part, target)
    except OSError as error:
        raise Stop(
            Status.NO_FILE, f"{'standard output' if path == '-' else path}: {error.strerror}"
        ) from error
    finally:
        if not is_stream:
            with contextlib.suppress(OSError):
                os.unlink(part)


def command_line() -> argparse.ArgumentParser:
    parser = argparse.ArgumentParser(
        prog="ringplan-merge", description=(__doc__ or "").split("\n")[0]
    )
    parser.epilog = (
        "Exit status: 0 the history is written, 2 the command line or a log is refused, 3 a file"
        " cannot be read or written"
    )
    lines = (
        f"lines `PLACE EVENT = REPLY` of at most {LONGEST} bytes; a put or a get has a name of 1 to"
        " 255 bytes without spaces and control bytes; `-` is standard input"
    )
    written = (
        "writes to FILE all of the history, or at a fault nothing; standard output may have lines"
        " already when a fault is found"
    )
    parser.add_argument("logs", nargs="+", metavar="LOG", help=lines)
    parser.add_argument(
        "--follow",
        action="store_true",
        help=(
            "waits for further lines of each log, up to its line `end`; a line `PLACE` says that no"
            " lesser place comes"
        ),
    )
    parser.add_argument(
        "--number-writers",
        action="store_true",
        help=(
            "names the writers of each key w0, w1 and so on, for stores with more than 1,024"
            " writers"
        ),
    )
    parser.add_argument("-o", "--output", default="-", metavar="FILE", help=written)
    return parser


def main() -> int:
    parser = command_line()
    complete(parser)
    words = parser.parse_intermixed_args()
    if words.logs.count("-") > 1:
        parser.error("standard input is one log")
    growing = Growing() if words.follow else None
    try:
        write(words.output, merge(words.logs, growing, words.number_writers), growing)
    except Stop as stop:
        print(f"ringplan-merge: {stop}", file=sys.stderr)
        return stop.status
    except KeyboardInterrupt:
        return Status.ENDED
    return 0


if __name__ == "__main__":
    sys.exit(main())
