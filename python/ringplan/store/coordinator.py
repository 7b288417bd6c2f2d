"""Puts, gets, hints and handoffs over real servers, each written down at the moment at which it
takes effect.

What each event must hold and look at is the table of duties of docs/STORES.md and docs/JUDGING.md;
the sections of DeCandia et al. 2007 stand at each part. A broken store of `broken.py` overrides one
of the small methods here.
"""

from __future__ import annotations

import contextlib
import itertools
import random
import threading
import time
from collections.abc import Callable, Iterable, Iterator, Sequence
from functools import partial

from ringplan.store.history import Get, Put, Recorder
from ringplan.store.members import Blocked, Doubt, Member, Partition, Slot, using
from ringplan.store.nodes import Gone, Node
from ringplan.store.versions import Clock, Contents, Version, is_at_most, merged
from ringplan.texts import Ring, place

CHUNKS = 16
ROUNDS = 64


class Store:
    """A ring of members, and what its coordinators share."""

    def __init__(self, ring: Ring, make_node: Callable[[str], Node]) -> None:
        self.history = Recorder()
        self.members = [
            Member(node.name, number, make_node(node.name), node.is_in)
            for number, node in enumerate(ring.nodes)
        ]
        self.by_name = {member.name: member for member in self.members}
        self.partitions = [
            Partition(number, (self.by_name[name] for name in row))
            for number, row in enumerate(ring.rows)
        ]
        self.slots, self.read_quorum, self.write_quorum, *losses = ring.quorum
        self.losses = sum(losses)
        self.clocks: dict[tuple[str, str], Clock] = {}
        self.counting, self.ids = threading.Lock(), itertools.count()
        self.puts, self.gets, self.dead = list[Put](), list[Get](), set[Member]()
        # Members and partitions: a hint there could not be handed off if its slot's owner is dead,
        # and a step to come would wait for that.
        self.barred = set[tuple[Member, int]]()
        self.outages = self.in_doubt = 0

    def all_slots(self) -> Iterator[Slot]:
        return (slot for partition in self.partitions for slot in partition.slots)

    def place(self, key: str) -> tuple[int, int]:
        return place(key, len(self.partitions))

    def slots_of(self, key: str) -> list[Slot]:
        return self.partitions[self.place(key)[0]].slots

    @contextlib.contextmanager
    def holding(self, slot: Slot) -> Iterator[Partition]:
        """Holds the slot's partition, with nothing in doubt at the slot."""
        partition = self.partitions[slot.partition]
        with partition.lock:
            self.resolve(slot)
            yield partition

    # Operations in doubt.
    def resolve(self, slot: Slot) -> None:
        """Does for certain what may have happened at the slot.

        Where a node that it needs is down, the slot has to wait.
        """
        while slot.doubts:
            doubt = slot.doubts[0]
            if doubt.only not in self.dead:
                doubt.again()
            slot.doubts.pop(0)

    def settle(self, slot: Slot) -> None:
        """Ends what is in doubt at the slot."""
        with self.holding(slot):
            pass

    def doubt(self, slot: Slot, doubt: Doubt) -> None:
        self.in_doubt += 1
        slot.doubts.append(doubt)

    # Outages (section 4.6): a node that did not answer is not asked until it is back.
    def note_down(self, member: Member) -> None:
        """Writes down that the member is out of reach. Called while the member is held alone."""
        if member.is_up and member.is_member:
            member.is_up = False
            self.outages += 1
            self.history.note(("down", member.name))

    def suspect(self, member: Member) -> None:
        with member.alone():
            self.note_down(member)

    def back(self, member: Member) -> None:
        with member.alone():
            if not member.is_up and member.is_member:
                member.is_up = True
                self.history.note(("up", member.name))

    def attempt(self, call: Callable[[], None]) -> bool:
        """Whether it was done. It may be blocked, or a node may be found dead on the way."""
        try:
            call()
            return True
        except Blocked:
            return False
        except Gone as gone:
            self.suspect(self.by_name[gone.node])
            return False

    # Puts (sections 4.4 to 4.6).
    def start_put(self, writer: str, key: str, value: str, seen: Sequence[Get]) -> Put:
        """A put whose clock knows of the replies of the gets `seen` and of the writer's last put of
        the key.
        """
        with self.counting:
            clock = dict(self.clocks.get((writer, key), {}))
            for version in (version for get in seen for version in get.reply):
                for other, count in version.clock.items():
                    clock[other] = max(clock.get(other, 0), count)
            clock[writer] = clock.get(writer, 0) + 1
            self.clocks[writer, key] = clock
            put = Put(next(self.ids), writer, key, clock, value, list(seen))
            self.puts.append(put)
            self.history.note(("put", put))
        return put

    def writers(self, slot: Slot) -> list[Member]:
        return slot.writers()

    def store_version(self, slot: Slot, put: Put) -> None:
        chunk = self.place(put.key)[1]
        for member in self.writers(slot):
            member.node.merge(slot.area(chunk), {put.key: [put.version()]})

    def write_now(self, put: Put, slot: Slot) -> None:
        with using(self.writers(slot)):
            self.store_version(slot, put)
            self.note_ticket(put, slot, ("write", put, slot.index))

    def note_ticket(self, put: Put, slot: Slot, event: tuple[str | int | Put, ...]) -> None:
        put.tickets[slot.index] = slot.generation
        self.history.note(event, ("ticket", slot.partition, slot.index, slot.generation))

    def write(self, put: Put, slot: Slot) -> None:
        with self.holding(slot):
            only = slot.owner if slot.mirror is None else None
            try:
                self.write_now(put, slot)
            except Gone:
                self.doubt(slot, Doubt(lambda: self.write_now(put, slot), only))
                raise

    def may_keep(self, partition: Partition, slot: Slot, member: Member) -> bool:
        """Whether the member may keep a hint for the slot: it serves no slot of the partition, and
        keeps none for another one.
        """
        is_barred = slot.owner in self.dead and (member, slot.partition) in self.barred
        return (
            member.is_member
            and member not in partition.serving()
            and not partition.keeps_other(member, slot)
            and not is_barred
        )

    def hint_now(self, put: Put, slot: Slot, keeper: Member) -> None:
        with using([keeper]):
            if not self.may_keep(self.partitions[slot.partition], slot, keeper):
                raise Blocked("it may not keep a hint")
            keeper.node.merge(slot.hints(), {put.key: [put.version()]})
            slot.keepers.setdefault(keeper, {}).setdefault(put.key, slot.owner)
            self.note_ticket(put, slot, ("hint", put, slot.index, keeper.name))

    def hint(self, put: Put, slot: Slot, keeper: Member) -> None:
        with self.holding(slot):
            try:
                self.hint_now(put, slot, keeper)
            except Gone:
                self.doubt(slot, Doubt(lambda: self.hint_now(put, slot, keeper)))
                raise

    def is_current(self, put: Put, slot: Slot) -> bool:
        """Whether the put has a ticket of the slot's present generation."""
        return put.tickets.get(slot.index) == slot.generation

    def tickets_wanted(self) -> int:
        return self.write_quorum

    def acknowledge(self, put: Put) -> bool:
        partition = self.partitions[self.place(put.key)[0]]
        with partition.lock:
            if sum(self.is_current(put, slot) for slot in partition.slots) < self.tickets_wanted():
                return False
            if not put.is_acknowledged:
                put.is_acknowledged = True
                self.history.note(("ack", put))
            return True

    def send(self, put: Put, slot: Slot, draw: random.Random) -> None:
        """Writes the put to the slot, or leaves it with a stand-in where the slot cannot be
        written.
        """
        if self.is_current(put, slot) or self.attempt(partial(self.write, put, slot)):
            return
        for keeper in draw.sample(self.members, len(self.members)):
            if (
                keeper.is_up
                and keeper.is_member
                and self.attempt(partial(self.hint, put, slot, keeper))
            ):
                return

    def put(
        self, writer: str, key: str, value: str, seen: Sequence[Get], draw: random.Random
    ) -> Put:
        put = self.start_put(writer, key, value, seen)
        for _ in range(ROUNDS):
            for slot in self.slots_of(key):
                self.send(put, slot, draw)
            if self.acknowledge(put):
                break
            time.sleep(0.004)
        return put

    # Gets (section 4.5).
    def reader(self, slot: Slot) -> Member:
        return slot.owner

    def keepers(self, slot: Slot, key: str) -> list[Member]:
        return [member for member, keys in slot.keepers.items() if key in keys]

    def read(self, get: Get, slot: Slot) -> None:
        chunk = self.place(get.key)[1]
        with self.holding(slot):
            owner, keepers = self.reader(slot), self.keepers(slot, get.key)
            with using([owner, *keepers]):
                found = owner.node.fetch(slot.area(chunk), get.key)
                for keeper in keepers:
                    found = merged(found, keeper.node.fetch(slot.hints(), get.key))
                get.read.append(slot.index)
                get.found += found
                self.history.note(
                    ("read", get, slot.index),
                    ("found", *sorted({version.put for version in found})),
                )

    def reads_wanted(self) -> int:
        return self.read_quorum

    def reply(self, get: Get) -> list[Version]:
        return merged([], get.found)

    def start_get(self, key: str) -> Get:
        with self.counting:
            get = Get(next(self.ids), key)
            self.gets.append(get)
            self.history.note(("get", get))
        return get

    def get(self, key: str, draw: random.Random, slots: int = 0) -> Get | None:
        """Reads that many slots, or as many as a read wants, in any order.

        None where too few answer.
        """
        get, wanted = self.start_get(key), slots or self.reads_wanted()
        for _ in range(ROUNDS):
            for slot in draw.sample(self.slots_of(key), self.slots):
                if len(get.read) < wanted and slot.index not in get.read:
                    self.attempt(partial(self.read, get, slot))
            if len(get.read) >= wanted:
                get.reply = self.reply(get)
                self.history.note(
                    ("endget", get), ("reply", *sorted({version.put for version in get.reply}))
                )
                return get
            time.sleep(0.004)
        return None

    # Handoffs (section 4.6).
    def receivers(self, slot: Slot, keeper: Member) -> list[Member]:
        return slot.writers()

    def kept(self, slot: Slot, keeper: Member) -> Contents:
        return keeper.node.scan(slot.hints())

    def by_chunk(self, contents: Contents) -> dict[int, Contents]:
        chunks: dict[int, Contents] = {}
        for key, versions in contents.items():
            chunks.setdefault(self.place(key)[1], {})[key] = versions
        return chunks

    def handoff_now(
        self, slot: Slot, keeper: Member, doubting: Callable[[], None] = lambda: None
    ) -> None:
        """Gives what the keeper has for the slot to owner and mirror, and deletes it there.

        It is in doubt once it deletes.
        """
        receivers = self.receivers(slot, keeper)
        with using([keeper, *receivers]):
            contents = self.kept(slot, keeper)
            slot.handing.add(keeper)
            for chunk, some in self.by_chunk(contents).items():
                for member in receivers:
                    member.node.merge(slot.area(chunk), some)
            try:
                keeper.node.clear([slot.hints()])
            except Gone:
                doubting()
                raise
            del slot.keepers[keeper]
            slot.handing.remove(keeper)
            self.history.note(("handoff", keeper.name, slot.partition, slot.index))

    def handoff(self, slot: Slot, keeper: Member) -> None:
        with self.holding(slot):
            if keeper in slot.keepers:
                again = Doubt(lambda: self.handoff_now(slot, keeper))
                self.handoff_now(slot, keeper, lambda: self.doubt(slot, again))

    def hints_left(self) -> list[tuple[Slot, Member]]:
        return [(slot, keeper) for slot in self.all_slots() for keeper in list(slot.keepers)]

    # Losses: a store that is lost is written down, and the generations of all slots that it served
    # end.
    def may_lose(self, member: Member) -> bool:
        """Whether a loss of the member's store can be written down: not while a handoff by it has
        broken off, since the owner may have a hint of it already.
        """
        return self.losses > 0 and not any(member in slot.handing for slot in self.all_slots())

    def generation_after_loss(self, slot: Slot) -> int:
        return slot.generation + 1

    def lose(self, member: Member) -> None:
        with contextlib.ExitStack() as stack:
            for partition in self.partitions:
                stack.enter_context(partition.lock)
            stack.enter_context(member.alone())
            self.losses -= 1
            for slot in self.all_slots():
                if member in slot.writers() or member in slot.keepers:
                    slot.generation = self.generation_after_loss(slot)
                    slot.keepers.pop(member, None)
                    slot.forget_doubts(member)
            self.history.note(("lose", member.name))

    # Another history, by which the store goes on.
    def take_back(self, slot: Slot, mirror: Member, count: int) -> None:
        """Undoes a mirror: the slot's writes go to its owner only, and its generation falls."""
        slot.forget_doubts(mirror)
        slot.undone.add(mirror)
        slot.mirror, slot.generation = None, slot.generation - count

    def recount(self) -> None:
        """Gives each put the tickets that the history has."""
        for event, reply in self.history.entries():
            if reply[0] == "ticket" and isinstance(put := event[1], Put):
                put.tickets[int(reply[2])] = int(reply[3])

    def held(self, put: Put) -> Iterable[bool]:
        """Of each slot of an acknowledged put, whether its owner's server or a keeper's has it or a
        successor.
        """
        chunk = self.place(put.key)[1]
        for slot in self.slots_of(put.key):
            versions = slot.owner.node.fetch(slot.area(chunk), put.key)
            for keeper in self.keepers(slot, put.key):
                versions = versions + keeper.node.fetch(slot.hints(), put.key)
            yield any(is_at_most(put.clock, version.clock) for version in versions)

    def short(self) -> int:
        """How many acknowledged puts are at so few slots that a get may miss them.

        The disks of servers that are dead for good count: these run again for it.
        """
        for member in self.dead:
            member.node.start()
        return sum(
            put.is_acknowledged and sum(self.held(put)) < self.slots - self.read_quorum + 1
            for put in self.puts
        )
