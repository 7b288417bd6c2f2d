"""A right store in memory: it does what docs/STORES.md asks, one event at a time, and keeps its
history.

Each event's call does the event and writes its entry. If a guard of docs/FORMATS.md does not hold,
the call returns False and nothing changes. Replies come from what the store has: no reply is asked
of the program.
"""

import itertools
from collections import defaultdict
from collections.abc import Iterable, Sequence
from dataclasses import dataclass, field

from changes import Ring, Slot, Wrong, place
from ringplan import texts

CHUNKS = 16


@dataclass
class Put:
    writer: str
    key: str
    # The puts that it succeeds.
    before: frozenset[int]
    # For each slot that it was written to, by index, the slot's generation at that moment.
    tickets: dict[int, int] = field(default_factory=dict)
    is_acked: bool = False


@dataclass
class Get:
    key: str
    found: dict[int, list[int]] = field(default_factory=dict)
    reply: list[int] | None = None


@dataclass
class Progress:
    """How far a plan is: the numbers of its done steps and open copies, and the marked chunks of
    each copy.
    """

    done: set[int] = field(default_factory=set)
    open: set[int] = field(default_factory=set)
    marks: defaultdict[int, set[int]] = field(default_factory=lambda: defaultdict(set))

    def note(self, event: Sequence[str]) -> None:
        """Takes in an event of a step. Other events change nothing."""
        word = event[0]
        if word in ("do", "close"):
            self.done.add(int(event[1]))
        if word == "open":
            self.open.add(int(event[1]))
        if word in ("close", "abort"):
            self.open.discard(int(event[1]))
        if word == "chunk":
            self.marks[int(event[1])].add(int(event[2]))

    def is_whole(self, step: int) -> bool:
        """Whether the copy is open, and has all its chunks."""
        return step in self.open and len(self.marks[step]) == CHUNKS


class Table:
    """Who is a member, owns each slot and mirrors it."""

    def __init__(self, ring: Ring) -> None:
        self.members = set(ring.members)
        self.owner = {(p, i): x for p, row in enumerate(ring.rows) for i, x in enumerate(row)}
        self.mirror: dict[Slot, str] = {}

    def take(self, step: texts.Step) -> None:
        """Does a step that is not a copy."""
        if step.kind == "join":
            self.members.add(node_of(step))
        elif step.kind == "retire":
            self.members.discard(node_of(step))
        elif step.kind == "mirror":
            self.mirror[slot_of(step)] = node_of(step)
        elif step.kind == "switch":
            # A switch without a mirror changes nothing.
            self.owner[slot_of(step)] = self.mirror.pop(slot_of(step), self.owner[slot_of(step)])

    def nodes(self, slot: Slot) -> list[str]:
        """The slot's owner, and its mirror if it has one."""
        return [self.owner[slot], *([self.mirror[slot]] if slot in self.mirror else [])]


def slot_of(step: texts.Step) -> Slot:
    assert step.partition is not None and step.slot is not None
    return step.partition, step.slot


def node_of(step: texts.Step) -> str:
    assert step.node is not None
    return step.node


class Machine:
    """The store. Its nodes keep what they have through outages."""

    def __init__(self, ring: Ring, steps: Sequence[texts.Step]) -> None:
        self.ring, self.steps, self.table, self.progress = ring, steps, Table(ring), Progress()
        self.n, self.r, self.w = ring.quorum[:3]
        self.losses_left = ring.quorum[3] if len(ring.quorum) > 3 else 0
        self.bits = len(ring.rows).bit_length() - 1
        self.entries = list[str]()
        self.puts, self.gets = list[Put](), list[Get]()
        self.reached = set(ring.members)
        self.generation: dict[Slot, int] = defaultdict(int)
        # For each slot with a mirror: what its generation has risen by because of that mirror.
        self.by_mirror: dict[Slot, int] = defaultdict(int)
        self.stored: dict[tuple[str, Slot], set[int]] = defaultdict(set)
        self.hinted: dict[tuple[str, Slot], set[int]] = defaultdict(set)
        # Slots that a node must be cleared of when it is seen again.
        self.stale = set[tuple[str, Slot]]()

    def note(self, *words: object, reply: str = "ok") -> bool:
        self.entries.append(" ".join(map(str, words)) + " = " + reply)
        return True

    # What is where.
    def slot(self, key: str, i: int) -> Slot:
        return place(key, self.bits), i

    def row(self, partition: int) -> list[Slot]:
        return [(partition, i) for i in range(self.n)]

    def hints(self) -> list[tuple[str, Slot]]:
        """The keepers of hints, each with a slot that it keeps some for."""
        return [it for it, puts in self.hinted.items() if puts]

    def keeps_other(self, node: str, slot: Slot) -> bool:
        return any(x == node and it[0] == slot[0] and it != slot for x, it in self.hints())

    def keepers(self, slot: Slot, puts: Iterable[int]) -> list[str]:
        """The nodes that keep one of these puts for the slot."""
        wanted = set(puts)
        return [x for x, it in self.hints() if it == slot and self.hinted[x, it] & wanted]

    def of_key(self, key: str) -> set[int]:
        return {v for v, put in enumerate(self.puts) if put.key == key}

    def latest(self, puts: Iterable[int]) -> list[int]:
        every = set(puts)
        return sorted(every - {u for v in every for u in self.puts[v].before})

    def holds(self, slot: Slot, v: int) -> bool:
        """Whether the slot's owner or a keeper of its hints has the put or a successor."""
        hints = [self.hinted[it] for it in self.hints() if it[1] == slot]
        has = self.stored[self.table.owner[slot], slot].union(*hints)
        return any(u == v or v in self.puts[u].before for u in has)

    def lost(self) -> list[int]:
        """The acknowledged puts that some R slots of their partition do not have."""
        rows = {
            v: [self.slot(put.key, i) for i in range(self.n)]
            for v, put in enumerate(self.puts)
            if put.is_acked
        }
        return [
            v for v, row in rows.items() if sum(not self.holds(slot, v) for slot in row) >= self.r
        ]

    # Puts.
    def start_put(self, writer: str, key: str, seen: Sequence[int] = ()) -> int:
        """Starts a put that knows what these gets replied, all ended and of its key."""
        known = {v for v in self.of_key(key) if self.puts[v].writer == writer}
        known |= {v for g in seen for v in self.gets[g].reply or ()}
        self.puts.append(
            Put(writer, key, frozenset(known.union(*(self.puts[v].before for v in known))))
        )
        v = len(self.puts) - 1
        self.note(
            "put",
            writer,
            key,
            "x%02x" % (v % 256),
            *(["seen", *seen] if seen else []),
            reply="put %d" % v,
        )
        return v

    def ticket(self, v: int, i: int) -> str:
        slot = self.slot(self.puts[v].key, i)
        self.puts[v].tickets[i] = self.generation[slot]
        return "ticket %d %d %d" % (*slot, self.generation[slot])

    def write(self, v: int, i: int) -> bool:
        slot = self.slot(self.puts[v].key, i)
        nodes = self.table.nodes(slot)
        if not self.reached.issuperset(nodes):
            return False
        for x in nodes:
            self.stored[x, slot].add(v)
        return self.note("write", v, i, reply=self.ticket(v, i))

    def hint(self, v: int, i: int, node: str) -> bool:
        slot = self.slot(self.puts[v].key, i)
        serves = any(node in self.table.nodes(it) for it in self.row(slot[0]))
        if node not in self.table.members & self.reached or serves or self.keeps_other(node, slot):
            return False
        self.hinted[node, slot].add(v)
        return self.note("hint", v, i, node, reply=self.ticket(v, i))

    def ack(self, v: int) -> bool:
        put = self.puts[v]
        current = sum(g == self.generation[self.slot(put.key, i)] for i, g in put.tickets.items())
        if put.is_acked or current < self.w:
            return False
        put.is_acked = True
        return self.note("ack", v)

    # Gets.
    def start_get(self, key: str) -> int:
        self.gets.append(Get(key))
        self.note("get", key, reply="get %d" % (len(self.gets) - 1))
        return len(self.gets) - 1

    def read(self, g: int, i: int) -> bool:
        get, every = self.gets[g], self.of_key(self.gets[g].key)
        slot = self.slot(get.key, i)
        owner, keepers = self.table.owner[slot], self.keepers(slot, every)
        if (
            get.reply is not None
            or i in get.found
            or not self.reached.issuperset([owner, *keepers])
        ):
            return False
        has = self.stored[owner, slot].union(*(self.hinted[x, slot] for x in keepers))
        get.found[i] = self.latest(has & every)
        return self.note("read", g, i, reply=" ".join(["found", *map(str, get.found[i])]))

    def end_get(self, g: int) -> bool:
        get = self.gets[g]
        if get.reply is not None or len(get.found) < self.r:
            return False
        get.reply = self.latest(itertools.chain(*get.found.values()))
        return self.note("endget", g, reply=" ".join(["reply", *map(str, get.reply)]))

    # Nodes.
    def go_down(self, node: str) -> bool:
        if node not in self.table.members & self.reached:
            return False
        self.reached.discard(node)
        return self.note("down", node)

    def come_up(self, node: str) -> bool:
        if node not in self.table.members - self.reached:
            return False
        self.reached.add(node)
        self.clear_stale()
        return self.note("up", node)

    def hand_off(self, node: str, slot: Slot) -> bool:
        nodes = self.table.nodes(slot)
        if not self.hinted[node, slot] or not self.reached.issuperset([node, *nodes]):
            return False
        for x in nodes:
            self.stored[x, slot] |= self.hinted[node, slot]
        self.hinted[node, slot] = set()
        return self.note("handoff", node, *slot)

    def lose(self, node: str) -> bool:
        if node not in self.table.members or not self.losses_left:
            return False
        self.losses_left -= 1
        for slot in self.table.owner:
            if node in self.table.nodes(slot) or self.hinted[node, slot]:
                self.generation[slot] += 1
                if node != self.table.owner[slot] and not self.hinted[node, slot]:
                    self.by_mirror[slot] += 1
            self.stored[node, slot], self.hinted[node, slot] = set(), set()
        return self.note("lose", node)

    # Steps.
    def steps_left(self, kind: str) -> list[texts.Step]:
        """The steps of this kind that are not done."""
        return [
            step
            for k, step in enumerate(self.steps)
            if step.kind == kind and k not in self.progress.done
        ]

    def is_ready(self, step: int) -> bool:
        return step not in self.progress.done and self.progress.done.issuperset(
            self.steps[step].after
        )

    def may_do(self, step: texts.Step) -> bool:
        if step.kind in ("mirror", "drop") and step.node not in self.reached:
            return False
        if step.kind == "mirror":
            return not self.keeps_other(node_of(step), slot_of(step))
        return step.kind != "retire" or not any(x == step.node for x, _ in self.hints())

    def do(self, number: int) -> bool:
        """Does a step that is not a copy."""
        step = self.steps[number]
        if step.kind == "copy" or not self.is_ready(number) or not self.may_do(step):
            return False
        if step.kind == "join":
            self.reached.add(node_of(step))
        elif step.kind == "mirror":
            self.generation[slot_of(step)] += 1
            self.by_mirror[slot_of(step)] = 1
        elif step.kind == "switch":
            self.by_mirror.pop(slot_of(step), None)
        elif step.kind == "drop":
            self.stored[node_of(step), slot_of(step)] = set()
        self.table.take(step)
        self.progress.done.add(number)
        return self.note("do", number)

    def sources(self, step: texts.Step) -> list[Slot]:
        return (
            [slot_of(step)] if step.slots is None else [(slot_of(step)[0], i) for i in step.slots]
        )

    def parties(self, step: texts.Step) -> list[str]:
        return [
            *self.table.nodes(slot_of(step))[1:],
            *(self.table.owner[it] for it in self.sources(step)),
        ]

    def open_copy(self, number: int) -> bool:
        step = self.steps[number]
        if step.kind != "copy" or not self.is_ready(number) or number in self.progress.open:
            return False
        if not self.reached.issuperset(self.parties(step)):
            return False
        self.progress.open.add(number)
        return self.note("open", number)

    def chunk(self, number: int, c: int) -> bool:
        step = self.steps[number]
        if number not in self.progress.open or c in self.progress.marks[number]:
            return False
        of_chunk = {
            v for v, put in enumerate(self.puts) if place(put.key, self.bits + 4) % CHUNKS == c
        }
        listed = [] if step.slots is None else self.sources(step)
        keepers = [(x, it) for it in listed for x in self.keepers(it, of_chunk)]
        if not self.reached.issuperset([*self.parties(step), *(x for x, _ in keepers)]):
            return False
        given = [self.stored[self.table.owner[it], it] for it in self.sources(step)]
        given += [self.hinted[it] for it in keepers]
        slot = slot_of(step)
        for mirror in self.table.nodes(slot)[1:]:
            self.stored[mirror, slot] |= set[int]().union(*given) & of_chunk
        self.progress.marks[number].add(c)
        return self.note("chunk", number, c)

    def close(self, number: int) -> bool:
        if not self.progress.is_whole(number):
            return False
        self.progress.open.discard(number)
        self.progress.done.add(number)
        return self.note("close", number)

    def abort(self, number: int) -> bool:
        if number not in self.progress.open:
            return False
        self.progress.open.discard(number)
        return self.note("abort", number)

    # Another plan.
    def go_over(self, steps: Sequence[texts.Step], entries: Sequence[str]) -> list[Slot]:
        """Goes on by another plan.

        Of the history by that plan it heeds the steps; what the nodes have stays as it is.

        Returns the slots whose mirrors are taken back.
        """
        table, progress = Table(self.ring), Progress()
        for entry in entries:
            event = entry.split(" = ")[0].split()
            progress.note(event)
            if event[0] == "do":
                table.take(steps[int(event[1])])
        gone = sorted(slot for slot in self.table.mirror if slot not in table.mirror)
        for slot in gone:
            self.take_back(slot)
        if vars(table) != vars(self.table):
            raise Wrong(
                "by the new history other nodes are members, owners or mirrors than in the store"
            )
        self.steps, self.progress, self.entries = steps, progress, list(entries)
        return gone

    def take_back(self, slot: Slot) -> None:
        """From now on the slot's writes go to its owner only.

        Its tickets are void, and its mirror forgets it.
        """
        self.stale.add((self.table.mirror.pop(slot), slot))
        self.generation[slot] -= self.by_mirror.pop(slot)
        for put in self.puts:
            if not put.is_acked and self.slot(put.key, slot[1]) == slot:
                put.tickets.pop(slot[1], None)
        self.clear_stale()

    def clear_stale(self) -> None:
        for node, slot in [it for it in self.stale if it[0] in self.reached]:
            self.stored[node, slot] = set()
            self.stale.discard((node, slot))
