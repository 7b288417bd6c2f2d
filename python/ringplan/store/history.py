"""The history of a store: what it did, in an order that `ringplan replay` judges, and `ringplan
watch` while it happens.

An entry takes its place from one counter while its event holds what it touches, so the order of
places is the order in which events took effect. Puts and gets are numbered when the history is
written out, in that order: no coordinator can number those of the whole store.
"""

from __future__ import annotations

import heapq
import itertools
import queue
import threading
from collections.abc import Callable, Iterable, Iterator, Sequence
from dataclasses import dataclass, field
from typing import TextIO

from ringplan.store.versions import Clock, Version
from ringplan.texts import OF_GETS, OF_PUTS, History
from ringplan.watching import Watch


@dataclass(eq=False)
class Put:
    """A put, and its tickets: by index, the generation of each slot when it was stored there."""

    id: int
    writer: str
    key: str
    clock: Clock
    value: str
    seen: list[Get]
    tickets: dict[int, int] = field(default_factory=dict)
    is_acknowledged: bool = False

    def version(self) -> Version:
        return Version(self.id, self.clock, self.value)


@dataclass(eq=False)
class Get:
    """A get: the slots that it has read, what it found there, and its reply once it has ended."""

    id: int
    key: str
    read: list[int] = field(default_factory=list)
    found: list[Version] = field(default_factory=list)
    reply: list[Version] = field(default_factory=list)


Word = str | int | Put | Get
Recorded = tuple[tuple[Word, ...], tuple[str | int, ...]]
Placed = tuple[int, Recorded]


@dataclass(frozen=True)
class Past:
    """What was noted so far: how many entries of each thread's list, and all of them in order."""

    cuts: list[tuple[list[Placed], int]]
    entries: list[Recorded]


def recorded(history: History, past: Past) -> list[Recorded]:
    """The entries of a text whose puts and gets are those of the past."""
    puts = [
        put
        for event, _ in past.entries
        for put in event[1:]
        if event[0] == "put" and isinstance(put, Put)
    ]
    gets = [
        get
        for event, _ in past.entries
        for get in event[1:]
        if event[0] == "get" and isinstance(get, Get)
    ]
    found, begun = list[Recorded](), {
        "put": iter(list[Put | Get](puts)),
        "get": iter(list[Put | Get](gets)),
    }
    for (kind, *words), (word, *told) in ((entry.event, entry.reply) for entry in history.entries):
        event: list[Word] = [kind, *words]
        if kind in begun:
            event[1:] = [next(begun[kind])]
        elif kind in OF_PUTS or kind in OF_GETS:
            event[1] = puts[int(words[0])] if kind in OF_PUTS else gets[int(words[0])]
        reply: list[str | int] = (
            [puts[int(number)].id for number in told]
            if word in ("found", "reply")
            else [*map(int, told)]
        )
        found.append((tuple(event), ("ok",) if kind in begun else (word, *reply)))
    return found


class Spelling:
    """The lines of entries, by the numbers of the puts and gets so far."""

    def __init__(self) -> None:
        self.puts, self.gets = dict[int, int](), dict[int, int]()

    def begin(self, numbers: dict[int, int], id: int) -> None:
        numbers[id] = len(numbers)

    def number(self, word: Word) -> str:
        if isinstance(word, Put):
            return str(self.puts[word.id])
        return str(self.gets[word.id]) if isinstance(word, Get) else str(word)

    def line(self, entry: Recorded) -> str:
        """The line of the next entry."""
        (kind, *words), reply = entry
        if kind == "put" and isinstance(put := words[0], Put):
            self.begin(self.puts, put.id)
            seen = "".join(f" {known}" for known in sorted(self.gets[get.id] for get in put.seen))
            return (
                f"put {put.writer} {put.key} x"
                + (f" seen{seen}" if seen else "")
                + f" = put {self.puts[put.id]}"
            )
        if kind == "get" and isinstance(get := words[0], Get):
            self.begin(self.gets, get.id)
            return f"get {get.key} = get {self.gets[get.id]}"
        told = (
            [str(known) for known in sorted(self.puts[int(id)] for id in reply[1:])]
            if reply[0] in ("found", "reply")
            else map(str, reply[1:])
        )
        return " ".join([str(kind), *map(self.number, words), "=", str(reply[0]), *told])


class Refused(Exception):
    """The judge has refused an entry: the store stops, and all is left as it is."""


class Recorder:
    """Entries by thread, each with its place. `tell` is called with each entry."""

    def __init__(self) -> None:
        self.places, self.lists, self.local = (
            itertools.count(),
            list[list[Placed]](),
            threading.local(),
        )
        self.tell: Callable[[Placed], None] = lambda _: None

    def note(self, event: tuple[Word, ...], reply: tuple[str | int, ...] = ("ok",)) -> None:
        """Keeps an event and its reply. Called while what the event touches is held."""
        mine: list[Placed] | None = getattr(self.local, "list", None)
        if mine is None:
            mine = self.local.list = []
            self.lists.append(mine)
        placed = (next(self.places), (event, reply))
        mine.append(placed)
        self.tell(placed)

    def past(self) -> Past:
        """What was noted so far.

        Called while no event takes effect that another thread's event may need.
        """
        cuts = [(mine, len(mine)) for mine in list(self.lists)]
        placed = sorted(
            (one for mine, length in cuts for one in mine[:length]), key=lambda one: one[0]
        )
        return Past(cuts, [entry for _, entry in placed])

    def replace(
        self, past: Past, entries: list[Recorded], fallen: dict[tuple[int, int], int]
    ) -> None:
        """Puts other entries in the place of the past: they are the first list, and each thread's
        own list keeps what it noted since. The generations of some slots have fallen.
        """
        for mine, length in past.cuts:
            del mine[:length]
        for mine in self.lists:
            for at, (place, (event, reply)) in enumerate(mine):
                if reply[0] == "ticket" and reply[1:3] in fallen:
                    *slot, generation = map(int, reply[1:])
                    mine[at] = (
                        place,
                        (event, ("ticket", *slot, generation - fallen[slot[0], slot[1]])),
                    )
        self.lists.insert(0, [(place - len(entries), entry) for place, entry in enumerate(entries)])

    def entries(self) -> list[Recorded]:
        return self.past().entries

    def lines(self, entries: Iterable[Recorded] | None = None) -> Iterator[str]:
        """The lines of the text of all entries, or of these."""
        spelling = Spelling()
        yield "history 1"
        yield from map(spelling.line, self.entries() if entries is None else entries)
        yield "end"


class Naming(Spelling):
    """The lines of logs: a put or a get has the name that its coordinator gave it."""

    def begin(self, numbers: dict[int, int], id: int) -> None:
        numbers[id] = id


class Logs(Recorder):
    """Writes each entry to one of several logs too, as `ringplan-merge --follow` reads them.

    Each log gets a mark each `pause` seconds.
    """

    def __init__(self, paths: Sequence[str], pause: float = 1.0) -> None:
        super().__init__()
        self.naming, self.pause, self.over = Naming(), pause, threading.Event()
        self.logs = [
            (open(path, "w", encoding="ascii", buffering=1), threading.Lock()) for path in paths
        ]
        self.tell = self.write
        threading.Thread(target=self.mark, daemon=True).start()

    def mine(self) -> tuple[TextIO, threading.Lock]:
        """The log of this thread."""
        return self.logs[threading.get_native_id() % len(self.logs)]

    def note(self, event: tuple[Word, ...], reply: tuple[str | int, ...] = ("ok",)) -> None:
        """While a log's lock is free, all places that were taken for it are written."""
        with self.mine()[1]:
            super().note(event, reply)

    def write(self, placed: Placed) -> None:
        place, entry = placed
        self.mine()[0].write(f"{place} {self.naming.line(entry)}\n")

    def mark(self) -> None:
        while not self.over.wait(self.pause):
            for file, lock in self.logs:
                with lock:
                    file.write(f"{next(self.places)}\n")

    def end(self) -> None:
        """Closes each log. Called once nothing is noted any more."""
        self.over.set()
        for file, lock in self.logs:
            with lock:
                file.write("end\n")
                file.close()


class Judged:
    """A history that the judge reads while it happens.

    It cannot be replaced by another one meanwhile.
    """

    def __init__(self, history: Recorder, bundle: str) -> None:
        self.watch, self.queue = Watch(bundle), queue.SimpleQueue[Placed | None]()
        self.feeder = threading.Thread(target=self.feed, daemon=True)
        self.feeder.start()
        history.tell = self.tell

    def tell(self, placed: Placed) -> None:
        self.queue.put(placed)
        if self.watch.no():
            raise Refused

    def feed(self) -> None:
        """Gives the judge each entry once all before it are there: places have no gaps."""
        spelling, left, due = Spelling(), list[Placed](), 0
        while (placed := self.queue.get()) is not None:
            heapq.heappush(left, placed)
            while left and left[0][0] == due:
                self.watch.give([spelling.line(heapq.heappop(left)[1])])
                due += 1

    def end(self) -> str:
        """The answer to the whole history, or to the part of it before the first wrong entry."""
        self.queue.put(None)
        self.feeder.join()
        return self.watch.end().first()
