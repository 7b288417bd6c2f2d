"""A search for a run in which an acknowledged put is lost: breadth first over what is done of some
slots of a partition, with one put.

The put is written and acknowledged at once, at exactly W slots. A copy is two moves: it gives the
put's chunk, and it ends. Other steps are done when they are waited for.
"""

from __future__ import annotations

import itertools
from collections import deque
from collections.abc import Iterable, Iterator
from typing import NamedTuple

from ringplan.breaks.harms import Event, Lost
from ringplan.breaks.order import Order
from ringplan.texts import Step, place


class View(NamedTuple):
    """The partition's slots by one reading: owners, mirrors, and the nodes that have the put, each
    with its slot.
    """

    owners: tuple[str, ...]
    mirrors: tuple[str | None, ...]
    has: frozenset[tuple[str | None, int]] = frozenset()

    def after(self, step: Step, i: int) -> View:
        """After a step of slot i that is not a copy."""
        owner, mirror = self.owners[i], self.mirrors[i]
        if step.kind == "mirror":
            mirror = step.node
        elif step.kind == "switch":
            owner, mirror = mirror or owner, None
        return View(
            (*self.owners[:i], owner, *self.owners[i + 1 :]),
            (*self.mirrors[:i], mirror, *self.mirrors[i + 1 :]),
            self.has,
        )

    def copied(self, slots: Iterable[int], i: int) -> View:
        return (
            self._replace(has=self.has | {(self.mirrors[i], i)})
            if self.mirrors[i] and any((self.owners[j], j) in self.has for j in slots)
            else self
        )


class World(NamedTuple):
    """The steps that are done and the copies that gave the put's chunk, as bits; whether there is a
    put; the losses; and the slots by each reading.
    """

    done: int
    given: int
    has_put: bool
    losses: int
    views: tuple[View, ...]


class Search:
    """The worlds to which the steps of some slots of a partition lead."""

    def __init__(self, order: Order, partition: int, slots: Iterable[int]) -> None:
        self.order, self.partition = order, partition
        self.n, self.r, self.w, *losses = order.ring.quorum
        self.losses = sum(losses)
        # The steps of these slots that can be done, with all that they wait for in the partition.
        every = [
            order.closure([number]) or set()
            for i in slots
            for number in order.steps_of.get((partition, i), ())
        ]
        self.steps = sorted(
            (it for it in set[int]().union(*every) if order.steps[it].partition == partition),
            key=order.rank.__getitem__,
        )
        self.index = {number: k for k, number in enumerate(self.steps)}
        self.needs = [
            sum(
                1 << self.index[it]
                for it in (order.closure([number]) or set()) - {number}
                if it in self.index
            )
            for number in self.steps
        ]
        is_ordered = not any(True for i in range(self.n) for _ in order.gaps((partition, i)))
        self.key = next(
            key
            for key in map("k{}".format, itertools.count())
            if place(key, len(order.ring.rows))[0] == partition
        )
        first = World(
            0,
            0,
            False,
            0,
            (View(order.ring.rows[partition], (None,) * self.n),) * (1 if is_ordered else 2),
        )
        # The worlds that were found, each with the world and the move that led to it first.
        # A move is `do` or `chunk` and a step, `put` and slots, or `lose` and a node.
        self.came: dict[World, tuple[World, Event] | None] = {first: None}
        self.queue, self.seen = deque([first]), 0

    def find(self, limit: int) -> Iterator[tuple[Lost, list[Event]]]:
        """Lost puts with their scripts, those of few moves first.

        At most so many worlds are looked at; the queue keeps what is left.
        """
        while self.queue and self.seen < limit:
            world = self.queue.popleft()
            self.seen += 1
            # The slots that lack the put by each reading.
            lacking = [
                i
                for i in range(self.n)
                if world.has_put
                and all((view.owners[i], i) not in view.has for view in world.views)
            ]
            if len(lacking) >= self.r:
                yield Lost(self.key, self.partition, tuple(lacking[-self.r :])), list(
                    self.script(world)
                )
            for move, then in self.next(world):
                if then not in self.came:
                    self.came[then] = (world, move)
                    self.queue.append(then)

    def next(self, world: World) -> Iterator[tuple[Event, World]]:
        for k, number in enumerate(self.steps):
            if not world.done >> k & 1 and world.done & self.needs[k] == self.needs[k]:
                yield self.go_on(world, k, number)
        if not world.has_put:
            for slots in itertools.combinations(range(self.n), self.w):
                views = [
                    view._replace(
                        has=frozenset(
                            (node, i) for i in slots for node in (view.owners[i], view.mirrors[i])
                        )
                    )
                    for view in world.views
                ]
                yield ("put", *map(str, slots)), world._replace(has_put=True, views=tuple(views))
        elif world.losses < self.losses:
            for node in sorted({node for view in world.views for node, _ in view.has if node}):
                views = [
                    view._replace(has=frozenset(it for it in view.has if it[0] != node))
                    for view in world.views
                ]
                yield ("lose", node), world._replace(losses=world.losses + 1, views=tuple(views))

    def go_on(self, world: World, k: int, number: int) -> tuple[Event, World]:
        """A step is done, or of a copy that did not give the put's chunk this is given."""
        step, bit = self.order.steps[number], 1 << k
        i = step.place()[1]
        if step.kind == "copy" and not world.given & bit:
            slots = [j for _, j in step.reads()]
            return ("chunk", str(number)), world._replace(
                given=world.given | bit, views=tuple(view.copied(slots, i) for view in world.views)
            )
        # By the definitions a slot has the stage after as many of its steps as are done.
        numbers = self.order.steps_of[self.partition, i]
        counted = self.order.steps[
            numbers[sum(world.done >> self.index[it] & 1 for it in numbers if it in self.index)]
        ]
        views = [view.after(it, i) for view, it in zip(world.views, (step, counted))]
        if step.kind == "drop":
            views = [view._replace(has=view.has - {(step.node, i)}) for view in views]
        return ("do", str(number)), World(
            world.done | bit, world.given & ~bit, world.has_put, world.losses, tuple(views)
        )

    def script(self, world: World) -> Iterator[Event]:
        """The events of the moves that lead to a world, each after the steps that it waits for."""
        moves, done, chunk = (
            list[Event](),
            set[int](),
            str(place(self.key, len(self.order.ring.rows))[1]),
        )
        while (came := self.came[world]) is not None:
            world, move = came
            moves.insert(0, move)
        for word, *fields in moves:
            if word == "put":
                yield from (
                    ("put", "w1", self.key, "x31"),
                    *(("write", "0", i) for i in fields),
                    ("ack", "0"),
                )
            elif word == "lose":
                yield ("lose", *fields)
            else:
                number, begin = int(fields[0]), [("open", *fields), ("chunk", *fields, chunk)]
                needed = (self.order.closure([number]) or set()) - done - {number}
                yield from self.order.events(needed)
                yield from begin if word == "chunk" else (
                    it for it in self.order.events([number]) if it not in begin
                )
                done |= needed | ({number} if word == "do" else set())
