"""Which steps of a plan wait for which, and who serves a slot when, if each slot's steps are done
in the plan's order.
"""

import contextlib
import graphlib
from collections import defaultdict
from collections.abc import Iterable, Iterator
from typing import NamedTuple

from ringplan.breaks.harms import Event, Slot
from ringplan.texts import Plan, Ring, Step

# The step that comes before all, the one that comes after all, and how many steps are looked at in
# all to find what steps wait for.
START, NEVER, VISITS = -1, 2**32, 5_000_000


class Stay(NamedTuple):
    """A node serves a slot from the step `begin` on, owns it from the step `owns` on, and leaves it
    at the step `end`.
    """

    node: str
    slot: Slot
    begin: int = START
    owns: int = START
    end: int = NEVER


class Transfer(NamedTuple):
    """A copy in which a node takes part, if the steps `needs` are done, and none of `until`."""

    copy: int
    needs: tuple[int, ...]
    until: tuple[int, ...]
    takes: bool


class Order:
    """A plan, and what each step waits for: its `after`, and the joins of the nodes that must be up
    for it.
    """

    def __init__(self, ring: Ring, plan: Plan) -> None:
        self.ring, self.steps, self.visits = ring, plan.steps, 0
        self.steps_of: dict[Slot, list[int]] = defaultdict(list)
        for number, step in enumerate(self.steps):
            if step.partition is not None:
                self.steps_of[step.place()].append(number)
        joins = {step.node: number for number, step in enumerate(self.steps) if step.kind == "join"}
        self.joins = {
            node.name: joins.get(node.name, NEVER) for node in ring.nodes if not node.is_in
        }
        self.stays = {
            (p, i): list(self.stays_of((p, i), owner))
            for p, row in enumerate(ring.rows)
            for i, owner in enumerate(row)
        }
        self.waits = [self.waits_of(number, step) for number, step in enumerate(self.steps)]
        # The places of steps in an order in which they can be done. A step that can never be done
        # has none.
        self.rank = self.ranks()

    def stays_of(self, slot: Slot, first: str) -> Iterator[Stay]:
        # The owner, and the mirror if there is one.
        stays = [Stay(first, slot)]
        for number in self.steps_of.get(slot, ()):
            step = self.steps[number]
            if step.kind == "switch" and len(stays) > 1:
                yield stays.pop(0)._replace(end=number)
                stays[0] = stays[0]._replace(owns=number)
            elif step.kind == "mirror":
                yield from (it._replace(end=number) for it in stays[1:])
                stays[1:] = [Stay(step.node or "", slot, number, NEVER)]
        yield from stays

    def waits_of(self, number: int, step: Step) -> set[int]:
        nodes = {step.node} if step.kind in ("mirror", "drop") else set()
        if step.kind == "copy" and self.joins:
            nodes |= {
                it.node
                for it in self.stays[step.place()]
                if it.begin < number < min(it.owns, it.end)
            }
            nodes |= {
                it.node
                for slot in step.reads()
                for it in self.stays[slot]
                if it.owns < number < it.end
            }
        return {*step.after, *(self.joins[node] for node in nodes if node in self.joins)}

    def ranks(self) -> dict[int, int]:
        # What waits for a node that never joins is in a circle.
        sorter, rank = (
            graphlib.TopologicalSorter({**dict(enumerate(self.waits)), NEVER: {NEVER}}),
            dict[int, int](),
        )
        with contextlib.suppress(graphlib.CycleError):
            sorter.prepare()
        while ready := sorter.get_ready():
            rank |= {number: len(rank) + place for place, number in enumerate(ready)}
            sorter.done(*ready)
        # The plan's own order will do if no step waits for a later one.
        return (
            {number: number for number in sorted(rank)}
            if all(other < number for number in rank for other in self.waits[number])
            else rank
        )

    def transfers(self) -> dict[str, list[Transfer]]:
        """By node, the copies in which it may take part.

        A copy comes once for each stay of the node at a slot that is copied or read.
        """
        found: dict[str, list[Transfer]] = defaultdict(list)
        for number in self.rank:
            if (step := self.steps[number]).kind == "copy":
                for stay in (
                    it for it in self.stays[step.place()] if it.begin != START and it.owns > number
                ):
                    found[stay.node].append(
                        Transfer(
                            number,
                            (*self.waits[number], stay.begin),
                            (number, stay.owns, stay.end),
                            True,
                        )
                    )
                for stay in (
                    it for slot in step.reads() for it in self.stays[slot] if it.owns != NEVER
                ):
                    found[stay.node].append(
                        Transfer(
                            number, (*self.waits[number], stay.owns), (number, stay.end), False
                        )
                    )
        return found

    def closure(self, steps: Iterable[int]) -> set[int] | None:
        """These steps and all that they wait for.

        None if one of them can never be done, or too many steps were looked at.
        """
        found = set(steps) - {START}
        todo = list(found)
        if not found <= self.rank.keys() or self.visits > VISITS:
            return None
        while todo:
            new = self.waits[todo.pop()] - found
            found |= new
            todo += new
        self.visits += len(found)
        return found

    def gaps(self, slot: Slot) -> Iterator[tuple[int, int]]:
        """The slot's steps that may be done before the slot's step before them, each after that
        one.
        """
        for first, then in zip(self.steps_of.get(slot, [])[:-1], self.steps_of.get(slot, [])[1:]):
            if (
                first not in self.waits[then]
                and (closure := self.closure([then]))
                and first not in closure
            ):
                yield first, then

    def ends(self, *stays: Stay) -> list[int]:
        """The ends of stays at slots whose steps are in order.

        Of others the judge says who serves them.
        """
        return [stay.end for stay in stays if not any(True for _ in self.gaps(stay.slot))]

    def events(self, steps: Iterable[int]) -> Iterator[Event]:
        """The events that do these steps, in an order in which they can be done."""
        for number in sorted(steps, key=self.rank.__getitem__):
            chunks = [("chunk", str(number), str(chunk)) for chunk in range(16)]
            yield from [("open", str(number)), *chunks, ("close", str(number))] if self.steps[
                number
            ].kind == "copy" else [("do", str(number))]
