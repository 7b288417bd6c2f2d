#!/usr/bin/env python3
"""Tries what docs/JUDGING.md says that each entry holds: trials/judging.py [COUNT] runs COUNT right
stores, else 120. It wants the program as it is built.

The trial reads the table of the page. A store of its own, in memory, takes random puts and gets,
outages, hints, handoffs, lost stores and the steps of a plan, each at one moment. Its clients and
workers are coroutines under a random scheduler. Each entry gets a stamp from what its row says that
it holds, and goes to one of several logs. `ringplan-merge` makes one history of them.

Owed: `replay` says yes to each such history, and to the entries in their true order. With one thing
left out of the table, some right store is refused within a fixed number of seeds."""
import itertools
import pathlib
import random
import re
import sys
import tempfile
from collections import defaultdict
from collections.abc import Callable, Iterable, Iterator
from dataclasses import dataclass, field

from changes import Ring, Slot, Step, ask, place, read_steps, sections, to_a_ring, to_members

TOP = pathlib.Path(__file__).resolve().parent.parent
from ringplan.merging import Stop, merge

PAGE = TOP / "docs/JUDGING.md"
# What the page says beside its table, and what the timestamps below do.
RULES = (
    "An event that needs a node to be up also takes a shared lock on the node.",
    (
        "An entry's timestamp is 1 more than the greatest timestamp of the locks held, and of the"
        " puts and gets named."
    ),
    "Equal timestamps may come in any order.",
)
STEPS = ("join", "mirror", "switch", "drop", "retire")
OTHERS = "put write hint ack get read endget down up handoff lose open chunk close abort".split()
# Stores that are tried until one is refused, with something left out of the table.
MOST = 400
LOGS = 3

# What a lock is of: a slot, a node, a step, a put, a get, or a writer with a key.
Thing = tuple[str | int, ...]
Table = dict[str, tuple[str, ...]]


@dataclass
class Put:
    name: str
    writer: str
    key: str
    # The puts that it succeeds.
    before: set[str]
    tickets: dict[int, int] = field(default_factory=dict)
    is_acked: bool = False

    def thing(self) -> Thing:
        return ("put", self.name)


@dataclass
class Get:
    name: str
    key: str
    found: dict[int, list[str]] = field(default_factory=dict)
    reply: list[str] | None = None

    def thing(self) -> Thing:
        return ("get", self.name)


@dataclass
class Event:
    """What an event is about: its own things, the nodes that it needs up, and what it names."""

    kind: str
    put: Put | None = None
    get: Get | None = None
    slot: Slot = (0, 0)
    node: str = ""
    old: str = ""
    step: int = -1
    slots: list[Slot] = field(default_factory=list)
    up: Iterable[str] = ()
    named: list[Thing] = field(default_factory=list)
    after: list[int] = field(default_factory=list)


def slot_thing(slot: Slot) -> Thing:
    return ("slot", slot[0], slot[1])


def own_put(event: Event) -> Put:
    assert event.put is not None
    return event.put


def own_get(event: Event) -> Get:
    assert event.get is not None
    return event.get


def partition(event: Event, slots: int) -> list[Thing]:
    return [slot_thing((event.slot[0], i)) for i in range(slots)]


# By the words of the page, what an event holds.
HELD: dict[str, Callable[[Event, int], list[Thing]]] = {
    "the put": lambda event, _: [own_put(event).thing()],
    "its writer with its key": lambda event, _: [
        ("writer", own_put(event).writer, own_put(event).key)
    ],
    "the get": lambda event, _: [own_get(event).thing()],
    "the slot": lambda event, _: [slot_thing(event.slot)],
    "its slot": lambda event, _: [slot_thing(event.slot)],
    "all listed slots": lambda event, _: list(map(slot_thing, event.slots)),
    "each slot whose ticket it counts": lambda event, _: list(map(slot_thing, event.slots)),
    "every slot that it owns, mirrors or keeps hints for": lambda event, _: list(
        map(slot_thing, event.slots)
    ),
    "the copy": lambda event, _: [("step", event.step)],
    "the partition": partition,
    "the old owner": lambda event, _: [("node", event.old)],
    "the stand-in": lambda event, _: [("node", event.node)],
    "the node": lambda event, _: [("node", event.node)],
    "the steps that it waits for": lambda event, _: [("step", it) for it in event.after],
}


def read_table() -> Table:
    """By the kind of an event what it holds, in the words of the page."""
    page = PAGE.read_text()
    lacking = [rule for rule in RULES if rule not in " ".join(page.split())]
    if lacking:
        sys.exit(f"{PAGE} does not say: {lacking}")
    rows = page.split("| Event | Holds |\n|---|---|\n")[1].split("\n\n")[0].splitlines()
    found: dict[str, list[str]] = defaultdict(list)
    for row in rows:
        events, rest = row.strip("| ").split(" | ")
        phrases = []
        for phrase in sorted(HELD, key=len, reverse=True):
            if phrase in rest:
                phrases.append(phrase)
                rest = rest.replace(phrase, "")
        if re.sub(r",|\band\b|\balso\b", "", rest).strip() or not phrases:
            sys.exit(f"the trial does not know what this row says: {row}")
        for kind in re.findall(r"`(\w+)`", events):
            for each in STEPS if kind == "do" else (kind,):
                found[each] += phrases
    if set(found) != {*STEPS, *OTHERS}:
        sys.exit(f"in no row, or unknown: {set(found) ^ {*STEPS, *OTHERS}}")
    return {kind: tuple(phrases) for kind, phrases in found.items()}


class Stamps:
    """The stamps of locks: of the last entry that held each, and of the last that did not share."""

    def __init__(self, table: Table, slots: int, holds_up: bool) -> None:
        self.table, self.slots, self.holds_up = table, slots, holds_up
        self.last: dict[Thing, int] = defaultdict(int)
        self.sole: dict[Thing, int] = defaultdict(int)

    def take(self, event: Event) -> int:
        held = [it for words in self.table[event.kind] for it in HELD[words](event, self.slots)]
        waited: set[Thing] = {("step", it) for it in event.after}
        shared: list[Thing] = [("node", node) for node in event.up] if self.holds_up else []
        stamps = [self.last[it] for it in (*held, *event.named)]
        stamp = 1 + max([*stamps, *(self.sole[it] for it in shared)], default=0)
        for thing in held:
            if thing not in waited:
                self.sole[thing] = stamp
        # An entry of a step is the step's last one, whether or not it held it.
        own: Thing = ("step", event.step)
        for thing in (*held, *shared, own):
            if thing not in waited:
                self.last[thing] = max(self.last[thing], stamp)
        return stamp


class Machine:
    """A right store: each event takes effect at one moment, if its guards hold."""

    def __init__(self, ring: Ring, steps: list[Step], stamps: Stamps, draw: random.Random) -> None:
        self.ring, self.steps, self.stamps, self.draw = ring, steps, stamps, draw
        self.n, self.r, self.w = ring.quorum[:3]
        self.losses_left = ring.quorum[3] if len(ring.quorum) > 3 else 0
        self.bits = len(ring.rows).bit_length() - 1
        self.entries: list[tuple[int, str]] = []
        self.puts: dict[str, Put] = {}
        self.gets: list[Get] = []
        self.members, self.up = set(ring.members), set(ring.members)
        self.owner = {(p, i): x for p, row in enumerate(ring.rows) for i, x in enumerate(row)}
        self.mirror: dict[Slot, str] = {}
        self.generation: dict[Slot, int] = defaultdict(int)
        self.stored: dict[tuple[str, Slot], set[str]] = defaultdict(set)
        self.hints: dict[tuple[str, Slot], set[str]] = defaultdict(set)
        self.done: set[int] = set()
        self.open: set[int] = set()
        self.marks: dict[int, set[int]] = defaultdict(set)
        # Nodes that were owners until a switch, and have not dropped the slot.
        self.left: list[str] = []

    def note(self, event: Event, words: str, reply: str = "ok") -> bool:
        self.entries.append((self.stamps.take(event), f"{words} = {reply}"))
        return True

    # What is where.
    def slot(self, key: str, i: int) -> Slot:
        return place(key, self.bits), i

    def serve(self, slot: Slot) -> list[str]:
        return [self.owner[slot], *([self.mirror[slot]] if slot in self.mirror else [])]

    def kept(self, node: str) -> list[Slot]:
        return [slot for (x, slot), names in self.hints.items() if x == node and names]

    def keepers(self, slot: Slot, is_wanted: Callable[[Put], bool]) -> list[str]:
        kept = [(x, names) for (x, of), names in self.hints.items() if of == slot]
        return [x for x, names in kept if any(is_wanted(self.puts[it]) for it in names)]

    def latest(self, names: Iterable[str]) -> list[str]:
        every = set(names)
        old = {it for name in every for it in self.puts[name].before}
        return sorted(every - old)

    def may_keep(self, node: str, slot: Slot) -> bool:
        row = [(slot[0], i) for i in range(self.n)]
        if node not in self.members or any(node in self.serve(it) for it in row):
            return False
        return not any(it in row and it != slot for it in self.kept(node))

    # Puts and gets.
    def start_put(self, writer: str, key: str, seen: list[Get]) -> Put:
        known = [it.name for it in self.puts.values() if (it.writer, it.key) == (writer, key)]
        known += [name for get in seen for name in get.reply or ()]
        before = {it for name in known for it in (name, *self.puts[name].before)}
        put = Put(f"v{len(self.puts)}", writer, key, before)
        self.puts[put.name] = put
        words = " ".join(
            ["put", writer, key, "x", *["seen"][: len(seen)], *(it.name for it in seen)]
        )
        self.note(
            Event("put", put=put, named=[it.thing() for it in seen]), words, f"put {put.name}"
        )
        return put

    def ticket(self, put: Put, i: int) -> str:
        slot = self.slot(put.key, i)
        put.tickets[i] = self.generation[slot]
        return f"ticket {slot[0]} {i} {put.tickets[i]}"

    def write(self, put: Put, i: int) -> bool:
        slot = self.slot(put.key, i)
        nodes = self.serve(slot)
        if not self.up.issuperset(nodes):
            return False
        for node in nodes:
            self.stored[node, slot].add(put.name)
        event = Event("write", slot=slot, up=nodes, named=[put.thing()])
        return self.note(event, f"write {put.name} {i}", self.ticket(put, i))

    def hint(self, put: Put, i: int, node: str) -> bool:
        slot = self.slot(put.key, i)
        if node not in self.up or not self.may_keep(node, slot):
            return False
        self.hints[node, slot].add(put.name)
        event = Event("hint", slot=slot, node=node, up=[node], named=[put.thing()])
        return self.note(event, f"hint {put.name} {i} {node}", self.ticket(put, i))

    def ack(self, put: Put) -> bool:
        counted = [
            i for i, it in put.tickets.items() if it == self.generation[self.slot(put.key, i)]
        ]
        if put.is_acked or len(counted) < self.w:
            return False
        put.is_acked = True
        slots = [self.slot(put.key, i) for i in self.draw.sample(counted, self.w)]
        return self.note(Event("ack", put=put, slots=slots), f"ack {put.name}")

    def start_get(self, key: str) -> Get:
        get = Get(f"g{len(self.gets)}", key)
        self.gets.append(get)
        self.note(Event("get", get=get), f"get {key}", f"get {get.name}")
        return get

    def read(self, get: Get, i: int) -> bool:
        slot = self.slot(get.key, i)
        keepers = self.keepers(slot, lambda put: put.key == get.key)
        nodes = [self.owner[slot], *keepers]
        if get.reply is not None or i in get.found or not self.up.issuperset(nodes):
            return False
        has = self.stored[nodes[0], slot].union(*(self.hints[x, slot] for x in keepers))
        get.found[i] = self.latest(it for it in has if self.puts[it].key == get.key)
        named = [get.thing(), *(self.puts[it].thing() for it in get.found[i])]
        event = Event("read", get=get, slot=slot, up=nodes, named=named)
        return self.note(event, f"read {get.name} {i}", " ".join(["found", *get.found[i]]))

    def end_get(self, get: Get) -> bool:
        if get.reply is not None or len(get.found) < self.r:
            return False
        get.reply = self.latest(itertools.chain(*get.found.values()))
        event = Event("endget", get=get, named=[self.puts[it].thing() for it in get.reply])
        return self.note(event, f"endget {get.name}", " ".join(["reply", *get.reply]))

    # Nodes.
    def turn(self, node: str) -> bool:
        if node not in self.members:
            return False
        kind = "down" if node in self.up else "up"
        self.up ^= {node}
        return self.note(Event(kind, node=node), f"{kind} {node}")

    def handoff(self, node: str, slot: Slot) -> bool:
        nodes = [node, *self.serve(slot)]
        if not self.hints[node, slot] or not self.up.issuperset(nodes):
            return False
        for it in nodes[1:]:
            self.stored[it, slot] |= self.hints[node, slot]
        self.hints[node, slot] = set()
        event = Event("handoff", slot=slot, node=node, up=nodes)
        return self.note(event, f"handoff {node} {slot[0]} {slot[1]}")

    def lose(self, node: str) -> bool:
        if node not in self.members or not self.losses_left:
            return False
        slots = [it for it in self.owner if node in self.serve(it) or self.hints[node, it]]
        self.losses_left -= 1
        for slot in self.owner:
            self.stored[node, slot], self.hints[node, slot] = set(), set()
        for slot in slots:
            self.generation[slot] += 1
        return self.note(Event("lose", node=node, slots=slots), f"lose {node}")

    # Steps.
    def is_ready(self, step: int) -> bool:
        return step not in self.done and self.done.issuperset(self.steps[step][1])

    def do(self, step: int) -> bool:
        """Does a step other than a copy, if it may be done now."""
        (kind, *fields), after = self.steps[step]
        if not self.is_ready(step):
            return False
        if kind in ("join", "retire"):
            node = fields[0]
            if kind == "retire" and self.kept(node):
                return False
            (self.members.discard if kind == "retire" else self.members.add)(node)
            if kind == "join":
                self.up.add(node)
            event = Event(kind, node=node)
        else:
            slot = (int(fields[0]), int(fields[1]))
            event = Event(kind, slot=slot, up=fields[2:])
            if not self.up.issuperset(fields[2:]):
                return False
            if kind == "mirror":
                if any(it[0] == slot[0] and it != slot for it in self.kept(fields[2])):
                    return False
                self.mirror[slot] = fields[2]
                self.generation[slot] += 1
            elif kind == "switch":
                event.old = self.owner[slot]
                self.left.append(event.old)
                self.owner[slot] = self.mirror.pop(slot)
            else:
                self.stored[fields[2], slot] = set()
                if fields[2] in self.left:
                    self.left.remove(fields[2])
        self.done.add(step)
        event.step, event.after = step, after
        return self.note(event, f"do {step}")

    def sources(self, step: int) -> list[Slot]:
        """The listed slots of a copy; none if it reads its own slot's owner."""
        fields = self.steps[step][0]
        return [(int(fields[1]), int(i)) for i in fields[4:]] if fields[3] == "slots" else []

    def copying(self, kind: str, step: int) -> Event:
        fields, after = self.steps[step]
        slot = (int(fields[1]), int(fields[2]))
        nodes = [self.mirror[slot], *(self.owner[it] for it in self.sources(step) or [slot])]
        up = nodes if kind in ("open", "chunk") else []
        return Event(
            kind,
            slot=slot,
            slots=self.sources(step),
            step=step,
            up=up,
            after=after if kind == "open" else [],
        )

    def begin(self, step: int) -> bool:
        if not self.is_ready(step) or step in self.open:
            return False
        event = self.copying("open", step)
        if not self.up.issuperset(event.up):
            return False
        self.open.add(step)
        return self.note(event, f"open {step}")

    def chunk(self, step: int, part: int) -> bool:
        def is_of(put: Put) -> bool:
            return place(put.key, self.bits + 4) & 15 == part

        # Before the copy is open its slot may have no mirror.
        if step not in self.open or part in self.marks[step]:
            return False
        event = self.copying("chunk", step)
        keepers = [x for slot in event.slots for x in self.keepers(slot, is_of)]
        event.up = {*event.up, *keepers}
        if not self.up.issuperset(event.up):
            return False
        given: set[str] = set()
        for slot in event.slots or [event.slot]:
            given |= self.stored[self.owner[slot], slot]
            for node in keepers:
                given |= self.hints[node, slot]
        self.stored[self.mirror[event.slot], event.slot] |= {
            it for it in given if is_of(self.puts[it])
        }
        self.marks[step].add(part)
        return self.note(event, f"chunk {step} {part}")

    def end(self, step: int, kind: str) -> bool:
        if step not in self.open or kind == "close" and len(self.marks[step]) < 16:
            return False
        event = self.copying(kind, step)
        self.open.discard(step)
        if kind == "close":
            self.done.add(step)
        return self.note(event, f"{kind} {step}")


Moves = Iterator[None]


def client(store: Machine, keys: list[str], count: int) -> Moves:
    """Puts and gets, one after the other. Writers are shared by all clients."""
    draw = store.draw
    for _ in range(count):
        key, slots = draw.choice(keys), draw.sample(range(store.n), store.n)
        if draw.random() < 0.5:
            ended = [it for it in store.gets if it.key == key and it.reply is not None][-4:]
            # `ringplan-merge` sorts them.
            seen = draw.sample(ended, min(len(ended), draw.randrange(3)))
            put = store.start_put(draw.choice(["w0", "w1", "w2"]), key, seen)
            yield
            for _ in range(3):
                for i in slots:
                    if put.tickets.get(i) == store.generation[store.slot(key, i)]:
                        continue
                    if draw.random() < 0.15 or not store.write(put, i):
                        any(
                            store.hint(put, i, x)
                            for x in draw.sample(store.ring.names, len(store.ring.names))
                        )
                    yield
                if store.ack(put):
                    yield
                    break
        else:
            get = store.start_get(key)
            yield
            for i in slots:
                store.read(get, i)
                yield
                if len(get.found) >= store.r and draw.random() < 0.5:
                    break
            store.end_get(get)
            yield


def worker(store: Machine, claimed: set[int]) -> Moves:
    """Does steps until none is left."""
    while len(store.done) < len(store.steps):
        ready = [it for it in range(len(store.steps)) if store.is_ready(it) and it not in claimed]
        if not ready:
            yield
            continue
        step = store.draw.choice(ready)
        claimed.add(step)
        is_copy = store.steps[step][0][0] == "copy"
        for _ in range(200):
            if not is_copy and store.do(step):
                break
            if is_copy:
                store.begin(step)
                yield
                for part in store.draw.sample(range(16), 16):
                    store.chunk(step, part)
                    yield
                    if store.draw.random() < 0.01:
                        break
                if (
                    store.end(step, "close" if len(store.marks[step]) == 16 else "abort")
                    and step in store.done
                ):
                    break
            yield
        claimed.discard(step)
        yield


def faults(store: Machine) -> Moves:
    """Nodes go down and come back, hand hints off, and lose what they store: mostly old owners,
    right after a switch."""
    draw = store.draw
    while True:
        kept = [(x, slot) for (x, slot), names in store.hints.items() if names]
        if kept:
            store.handoff(*draw.choice(kept))
            yield
        down = sorted(store.members - store.up)
        if down and draw.random() < 0.5:
            store.turn(draw.choice(down))
        elif draw.random() < 0.2:
            store.turn(draw.choice(sorted(store.members)))
        yield
        if store.left and draw.random() < 0.5:
            store.lose(store.left[-1])
            yield
        elif draw.random() < 0.02:
            store.lose(draw.choice(sorted(store.members)))
            yield
        for _ in range(draw.randrange(6)):
            yield


def run(store: Machine, keys: list[str]) -> None:
    claimed: set[int] = set()
    chosen = [client(store, keys, 14) for _ in range(4)] + [
        worker(store, claimed) for _ in range(2)
    ]
    live, other = {id(it): it for it in chosen}, faults(store)
    weights = {name: store.draw.choice([1, 1, 4]) for name in live}
    for _ in range(4000):
        if not live:
            break
        name = store.draw.choices(list(live), [weights[it] for it in live])[0]
        if next(live[name], 0) == 0:
            del live[name]
        if store.draw.random() < 0.2:
            next(other)
    # At the end all is read.
    for node in sorted(store.members - store.up):
        store.turn(node)
    for key in keys:
        get = store.start_get(key)
        for i in range(store.n):
            store.read(get, i)
        store.end_get(get)


def cases(draw: random.Random) -> Iterator[tuple[Ring, str, list[str]]]:
    """Rings, with the texts of a plan that moves slots, and keys of partitions that change."""
    while True:
        is_lossy = draw.random() < 0.5
        ring, text = (
            to_members(draw) if not is_lossy and draw.random() < 0.5 else to_a_ring(draw, is_lossy)
        )
        dead = ["--dead", draw.choice(sorted(ring.members))] if draw.random() < 0.3 else []
        bundle, _, status = ask(["goal", *dead], text)
        moved = (
            sorted({int(it[0][1]) for it in read_steps(sections(bundle)[1]) if it[0][0] == "copy"})
            if not status
            else []
        )
        if not moved:
            continue
        wanted, bits = draw.sample(moved, min(2, len(moved))), len(ring.rows).bit_length() - 1
        named = (f"k{number}" for number in itertools.count(draw.randrange(1000)))
        keys = [
            next(key for key in named if place(key, bits) == p) for p in wanted for _ in range(2)
        ]
        yield ring, bundle, keys


def history_of(entries: list[tuple[int, str]], logs: int, draw: random.Random) -> str:
    """What `ringplan-merge` makes of the entries, each in some log, with its stamp as its place."""
    shuffled = draw.sample(entries, len(entries)) if logs > 1 else entries
    lines: list[list[tuple[int, str]]] = [[] for _ in range(logs)]
    for entry in shuffled:
        draw.choice(lines).append(entry)
    with tempfile.TemporaryDirectory() as folder:
        paths = [f"{folder}/{number}" for number in range(logs)]
        for path, mine in zip(paths, lines):
            # Equal stamps stay in random order.
            text = "".join(
                f"{stamp} {line}\n" for stamp, line in sorted(mine, key=lambda it: it[0])
            )
            pathlib.Path(path).write_text(text)
        return b"".join(merge(paths)).decode()


def verdict(
    table: Table, seed: int, holds_up: bool = True, is_first: bool = False
) -> tuple[str, int]:
    """What the judge says of a right store, and how many entries it has. With `is_first` the true
    order is judged too."""
    draw = random.Random(seed)
    ring, bundle, keys = next(cases(draw))
    steps = read_steps(sections(bundle)[1])
    store = Machine(ring, steps, Stamps(table, ring.quorum[0], holds_up), draw)
    run(store, keys)
    if is_first:
        order = [(number, line) for number, (_, line) in enumerate(store.entries)]
        plain = ask(["replay"], bundle + history_of(order, 1, draw))[0].split("\n")[0]
        if plain != "yes":
            return f"in the true order {plain}", len(order)
    try:
        history = history_of(store.entries, LOGS, draw)
    except Stop as stop:
        return f"no history: {stop}".replace("\n", " "), len(store.entries)
    return ask(["replay"], bundle + history)[0].split("\n")[0], len(store.entries)


def without(table: Table, kinds: Iterable[str], words: str) -> Table:
    return {
        kind: tuple(it for it in held if kind not in kinds or it != words)
        for kind, held in table.items()
    }


COPY = ("open", "chunk", "close", "abort")
# What is left out of the table in turn: by what it is called, the events and the thing.
LEFT_OUT = {
    "a read does not hold its get": (("read",), "the get"),
    "a put does not hold its writer with its key": (("put",), "its writer with its key"),
    "a copy's events do not hold the copy": (COPY, "the copy"),
    "a switch does not hold the old owner": (("switch",), "the old owner"),
    "a join and a retirement do not hold the node": (("join", "retire"), "the node"),
}


def main() -> int:
    table, wrong, entries = read_table(), list[str](), 0
    count = int(sys.argv[1]) if len(sys.argv) > 1 else 120
    for seed in range(count):
        said, length = verdict(table, seed, is_first=True)
        entries += length
        if said != "yes":
            wrong.append(f"seed {seed}: a right store is refused: {said}")
    print(f"{count} right stores, {entries} entries")
    tables = {what: (without(table, *those), True) for what, those in LEFT_OUT.items()}
    tables["a node that must be up is not held"] = (table, False)
    wrong += [
        f"on the page {it}" for it, (less, is_up) in tables.items() if is_up and less == table
    ]
    for what, (less, holds_up) in tables.items():
        verdicts = ((seed, verdict(less, seed, holds_up)[0]) for seed in range(MOST))
        refused = next((it for it in verdicts if it[1] != "yes"), None)
        print(f"{what}: " + ("refused, seed %d: %s" % refused if refused else "never refused"))
        if refused is None:
            wrong.append(f"{what}, and no right store of {MOST} is refused")
    print(*wrong, f"{len(wrong)} wrong", sep="\n")
    return 1 if wrong or not count else 0


if __name__ == "__main__":
    sys.exit(main())
