"""Workers that go through an approved plan on a store, as docs/STORES.md says ("Going through a
plan").

The steps are the lines of `ringplan steps`. A worker takes any step that waits for nothing and that
no one holds. If it dies in the middle of a copy, the copy stays open: the next worker writes its
`abort`, and goes on at the chunks that are not marked. A chunk is marked once its sources are read,
and is in doubt until the mirror has all of it.
"""

from __future__ import annotations

import contextlib
import random
import threading
import time
from collections import defaultdict
from collections.abc import Container, Iterator, Sequence
from functools import partial

from ringplan.store.coordinator import CHUNKS, Store
from ringplan.store.history import Past, recorded
from ringplan.store.members import Blocked, Doubt, Member, Partition, Slot, Tokens, using
from ringplan.store.nodes import Gone
from ringplan.store.versions import Contents, merged
from ringplan.texts import History, StepLine


# The events of steps.
STEPPED = ("do", "open", "chunk", "close", "abort")


class Died(Exception):
    """The worker is gone, and what it opened stays open."""


class Executor:
    """The plan of a store: which steps are done, which copies are open and which of their chunks
    are given, by the steps' numbers.
    """

    def __init__(self, store: Store, steps: Sequence[StepLine], deaths: float = 0.0) -> None:
        self.store, self.steps, self.deaths = store, steps, deaths
        self.done, self.taken, self.lock, self.tokens = (
            set[int](),
            set[int](),
            threading.Lock(),
            Tokens(),
        )
        self.opened, self.marks = set[int](), defaultdict[int, set[int]](set)
        self.died = 0

    def is_done(self) -> bool:
        return len(self.done) == len(self.steps)

    def is_ready(self, step: StepLine) -> bool:
        return all(number in self.done for number in step.after)

    def finish(self, step: StepLine, word: str = "do") -> None:
        """Notes that the step is done, while what it changes is held."""
        with self.lock:
            self.store.history.note((word, step.step))
            self.done.add(step.step)

    def slot(self, step: StepLine) -> Slot:
        partition, index = step.place()
        return self.store.partitions[partition].slots[index]

    def member(self, step: StepLine) -> Member:
        return self.store.by_name[step.who()]

    # Members come and go (section 4.8.1).
    def join(self, step: StepLine) -> None:
        member = self.member(step)
        with member.alone():
            member.is_member = member.is_up = True
            self.finish(step)

    def has_hints(self, member: Member) -> bool:
        return any(keeper is member for _, keeper in self.store.hints_left())

    def retire(self, step: StepLine) -> None:
        member = self.member(step)
        with contextlib.ExitStack() as stack:
            for partition in self.store.partitions:
                stack.enter_context(partition.lock)
            for slot in self.store.all_slots():
                self.store.resolve(slot)
            stack.enter_context(member.alone())
            if self.has_hints(member):
                raise Blocked("it keeps hints")
            member.is_member = False
            self.finish(step)

    # A slot moves (section 4.9): writes go to the mirror too, it is given what the sources have, it
    # becomes the owner, the old owner drops what it had.
    def may_mirror(self, partition: Partition, slot: Slot, member: Member) -> bool:
        return not partition.keeps_other(member, slot)

    def next_generation(self, slot: Slot) -> int:
        return slot.generation + 1

    def mirror(self, step: StepLine) -> None:
        slot, member = self.slot(step), self.member(step)
        with self.store.holding(slot) as partition:
            for other in partition.slots:
                self.store.resolve(other)
            with using([member]):
                if not self.may_mirror(partition, slot, member):
                    raise Blocked("it keeps hints for another slot")
                if member in slot.undone:
                    member.node.clear(self.dropped(slot))
                    slot.undone.remove(member)
                slot.mirror, slot.generation = member, self.next_generation(slot)
                self.finish(step)

    def switch(self, step: StepLine) -> None:
        slot = self.slot(step)
        with self.store.holding(slot):
            if slot.mirror is not None:
                slot.owner, slot.mirror = slot.mirror, None
            self.finish(step)

    def dropped(self, slot: Slot) -> list[str]:
        """The areas that a drop deletes."""
        return [slot.area(chunk) for chunk in range(CHUNKS)]

    def drop(self, step: StepLine) -> None:
        slot, member = self.slot(step), self.member(step)
        with self.store.holding(slot), using([member]):
            member.node.clear(self.dropped(slot))
            self.finish(step)

    # Copies.
    def sources(self, step: StepLine) -> list[Slot]:
        slots = self.store.partitions[step.place()[0]].slots
        return [self.slot(step)] if step.slots is None else [slots[index] for index in step.slots]

    def parties(self, step: StepLine) -> list[Member]:
        mirror = self.slot(step).mirror
        return ([] if mirror is None else [mirror]) + [
            source.owner for source in self.sources(step)
        ]

    @contextlib.contextmanager
    def holding_all(self, step: StepLine) -> Iterator[Partition]:
        with self.store.holding(self.slot(step)) as partition:
            for source in self.sources(step):
                self.store.resolve(source)
            yield partition

    def open(self, step: StepLine) -> None:
        with self.holding_all(step), using(self.parties(step)):
            if step.step in self.opened:
                self.store.history.note(("abort", step.step))
            self.opened.add(step.step)
            self.store.history.note(("open", step.step))

    def hint_keepers(self, step: StepLine, chunk: int) -> list[tuple[Slot, Member]]:
        """Who keeps hints of the chunk for slots that the copy lists: what was acknowledged with a
        hint may be nowhere else.
        """
        if step.slots is None:
            return []
        kept = [
            (source, keeper, keys)
            for source in self.sources(step)
            for keeper, keys in source.keepers.items()
        ]
        return [
            (source, keeper)
            for source, keeper, keys in kept
            if any(self.store.place(key)[1] == chunk for key in keys)
        ]

    def gather(self, step: StepLine, chunk: int) -> Contents:
        """All that the sources have of the chunk."""
        found: Contents = {}
        parts = [source.owner.node.scan(source.area(chunk)) for source in self.sources(step)]
        parts += [
            self.store.by_chunk(keeper.node.scan(source.hints())).get(chunk, {})
            for source, keeper in self.hint_keepers(step, chunk)
        ]
        for contents in parts:
            for key, versions in contents.items():
                found[key] = merged(found.get(key, []), versions)
        return found

    def give(self, step: StepLine, chunk: int, contents: Contents) -> None:
        mirror = self.slot(step).mirror
        if mirror is not None:
            mirror.node.merge(self.slot(step).area(chunk), contents)

    def give_again(self, step: StepLine, chunk: int, contents: Contents) -> None:
        with using(member for member in [self.slot(step).mirror] if member is not None):
            self.give(step, chunk, contents)

    def copy_chunk(self, step: StepLine, chunk: int) -> None:
        """Reads the chunk, notes it, and gives it to the mirror.

        What was read is kept until the mirror has all of it: it may have some of it, and no other
        read finds the same.
        """
        with self.holding_all(step):
            with using(
                [*self.parties(step), *(keeper for _, keeper in self.hint_keepers(step, chunk))]
            ):
                contents = self.gather(step, chunk)
                self.marks[step.step].add(chunk)
                self.store.history.note(("chunk", step.step, chunk))
                try:
                    self.give(step, chunk, contents)
                except (Gone, Died):
                    self.store.doubt(
                        self.slot(step),
                        Doubt(
                            lambda: self.give_again(step, chunk, contents), self.slot(step).mirror
                        ),
                    )
                    raise

    def is_whole(self, step: StepLine) -> bool:
        """Whether the copy may be closed."""
        return len(self.marks[step.step]) == CHUNKS

    def copy(self, step: StepLine, draw: random.Random) -> None:
        # An open copy with all its chunks needs no node to be closed: its mirror may be dead.
        if step.step in self.opened and self.is_whole(step):
            self.store.settle(self.slot(step))
        else:
            self.open(step)
        for chunk in draw.sample(range(CHUNKS), CHUNKS):
            if chunk in self.marks[step.step] or self.is_whole(step):
                continue
            if draw.random() < self.deaths:
                raise Died
            try:
                self.copy_chunk(step, chunk)
            except (Blocked, Gone):
                self.opened.remove(step.step)
                self.store.history.note(("abort", step.step))
                raise
        self.opened.remove(step.step)
        self.finish(step, "close")

    # Another plan, as `ringplan around` prints it.
    def lowered(self, slot: Slot, mirror: Member, past: Past) -> int:
        """By how much the slot's generation falls if its mirror is undone: by one, and by one for
        each loss of the mirror's store while it kept no hint for the slot.
        """
        begun, keeps, count = False, False, 1
        for event, reply in past.entries:
            kind, *words = map(str, event)
            if kind == "do":
                step = self.steps[int(words[0])]
                begun = begun or (
                    step.do == "mirror" and self.slot(step) is slot and self.member(step) is mirror
                )
            elif (
                kind == "hint"
                and words[2] == mirror.name
                and reply[1:3] == (slot.partition, slot.index)
            ):
                keeps = True
            elif kind == "handoff" and words == [mirror.name, str(slot.partition), str(slot.index)]:
                keeps = False
            elif kind == "lose" and words == [mirror.name]:
                count, keeps = count + (begun and not keeps), False
        return count

    def go_over(self, steps: Sequence[StepLine], history: History, past: Past) -> None:
        """Goes on by another plan and the history by it, which takes the place of the past.

        Called while no step is under way and no store can be lost; clients may run on.
        """
        done, opened, marks, mirrored = (
            set[int](),
            set[int](),
            defaultdict[int, set[int]](set),
            set[Slot](),
        )
        for kind, *words in (entry.event for entry in history.entries if entry.event[0] in STEPPED):
            number, step = int(words[0]), steps[int(words[0])]
            (done if kind in ("do", "close") else opened).add(number)
            opened -= {number} if kind in ("close", "abort") else set()
            marks[number].update(map(int, words[1:]))
            if step.do in ("mirror", "switch"):
                (mirrored.add if step.do == "mirror" else mirrored.discard)(self.slot(step))
        with contextlib.ExitStack() as stack:
            for partition in self.store.partitions:
                stack.enter_context(partition.lock)
            stack.enter_context(self.store.counting)
            fallen = self.take_back(mirrored, past)
            self.store.history.replace(past, recorded(history, past), fallen)
            self.store.recount()
            self.steps, self.done, self.opened, self.marks = steps, done, opened, marks
            self.bar([step for step in steps if step.step not in done])

    def take_back(self, mirrored: Container[Slot], past: Past) -> dict[tuple[int, int], int]:
        """Takes back each mirror that the new plan has not set: by slot, from which entry on."""
        fallen = dict[tuple[int, int], int]()
        for slot in self.store.all_slots():
            if slot.mirror is not None and slot not in mirrored:
                fallen[slot.partition, slot.index] = count = self.lowered(slot, slot.mirror, past)
                self.store.take_back(slot, slot.mirror, count)
        return fallen

    def bar(self, left: Sequence[StepLine]) -> None:
        """Keeps hints from the nodes that a step will mirror or retire."""
        self.store.barred = {
            (self.member(step), step.place()[0]) for step in left if step.do == "mirror"
        }
        self.store.barred |= {
            (self.member(step), partition)
            for step in left
            if step.do == "retire"
            for partition in range(len(self.store.partitions))
        }

    # Workers.
    def do(self, step: StepLine, draw: random.Random) -> None:
        if step.do == "copy":
            self.copy(step, draw)
            return
        {
            "join": self.join,
            "retire": self.retire,
            "mirror": self.mirror,
            "switch": self.switch,
            "drop": self.drop,
        }[step.do](step)

    def claim(self, draw: random.Random) -> StepLine | None:
        with self.lock:
            ready = [
                step
                for step in self.steps
                if step.step not in self.done
                and step.step not in self.taken
                and self.is_ready(step)
            ]
            if not ready:
                return None
            step = draw.choice(ready[:8])
            self.taken.add(step.step)
            return step

    def work(self, draw: random.Random, until: float, pace: float = 0.0) -> None:
        """Does steps until all are done or the time is over.

        `pace` is the longest pause before a step, in seconds.
        """
        while not self.is_done() and time.time() < until:
            step = self.claim(draw)
            if step is None:
                time.sleep(0.005)
                continue
            time.sleep(pace * draw.random())
            try:
                self.store.attempt(partial(self.do, step, draw))
            except Died:
                self.died += 1
            finally:
                with self.lock:
                    self.taken.discard(step.step)
