"""The search for a run of a plan in which something is broken.

It yields scripts and promises nothing: `machine.py` judges each.

Nodes do not go down, and nothing is hinted: an outage only refuses events, and a hint only adds to
what a slot has.
"""

import itertools
from collections import defaultdict
from collections.abc import Iterable, Iterator
from functools import reduce
from operator import or_

from ringplan.breaks.harms import Event, Harm, OutOfTurn, Shared, Stranger, TooMany
from ringplan.breaks.order import START, VISITS, Order, Stay, Transfer
from ringplan.breaks.worlds import Search

Found = tuple[Harm, list[Event]]
# The worlds that are looked at in all, the tries for the transfers of one side of a node, and how
# many of these are compared.
WORLDS, TRIES, TRANSFERS = 100_000, 20_000, 1_000


class Hunt:
    """Scripts that may break something, those first that a refusal points to: its number, and its
    step or node.
    """

    def __init__(self, order: Order, number: int, value: int = 0) -> None:
        self.order, self.worlds, self.is_whole = order, 0, True
        self.node, self.step = (
            (order.ring.nodes[value].name, START - 1)
            if number == 34
            else ("", value if number < 28 else START - 1)
        )
        kinds = {
            "lost": self.lost,
            "shared": self.shared,
            "strangers": self.strangers,
            "transfers": self.transfers,
        }
        first = {
            24: "transfers",
            25: "shared",
            26: "strangers",
            27: "strangers",
            34: "transfers",
        }.get(number, "lost")
        self.found = itertools.chain.from_iterable(
            kind() for kind in [kinds.pop(first), *kinds.values(), self.out_of_turn]
        )

    def searched(self) -> str:
        """What was looked at, in words."""
        cut = (
            ""
            if self.is_whole and self.order.visits <= VISITS
            else ". The plan is large, so some of it was left out"
        )
        return (
            "searched: who serves which slot when, the transfers of each node, and"
            f" {self.worlds} worlds of puts{cut}"
        )

    def after(
        self, harm: Harm, steps: Iterable[int], without: Iterable[int], then: Iterable[Event] = ()
    ) -> Iterator[Found]:
        """The script that does these steps with what they wait for, and then more, if that needs no
        step of the others.
        """
        closure = self.order.closure(steps)
        if closure is not None and closure.isdisjoint(without):
            yield harm, [*self.order.events(closure), *then]

    def shared(self) -> Iterator[Found]:
        """A node that serves two slots of a partition."""
        pairs, by_node = list[tuple[Stay, Stay]](), defaultdict[tuple[str, int], list[Stay]](list)
        for stay in (it for stays in self.order.stays.values() for it in stays):
            before = by_node[stay.node, stay.slot[0]]
            pairs += ((other, stay) for other in before if other.slot != stay.slot)
            before.append(stay)
        for one, other in sorted(
            pairs, key=lambda pair: self.step not in (pair[0].begin, pair[1].begin)
        ):
            yield from self.after(
                Shared(one.node, one.slot[0], (one.slot[1], other.slot[1])),
                [one.begin, other.begin],
                self.order.ends(one, other),
            )

    def strangers(self) -> Iterator[Found]:
        """A node that serves a slot, and has retired."""
        retirements = {
            step.node: number
            for number, step in enumerate(self.order.steps)
            if step.kind == "retire"
        }
        pairs = [
            (retirements[stay.node], stay)
            for stays in self.order.stays.values()
            for stay in stays
            if stay.node in retirements
        ]
        for retirement, stay in sorted(
            pairs, key=lambda pair: self.step not in (pair[0], pair[1].begin)
        ):
            yield from self.after(
                Stranger(stay.node, stay.slot), [retirement, stay.begin], self.order.ends(stay)
            )

    def transfers(self) -> Iterator[Found]:
        """More copies of a node than it bears, which may be open at once."""
        by_node = self.order.transfers()
        for node in sorted(self.order.ring.nodes, key=lambda node: node.name != self.node):
            every = by_node.get(node.name, [])
            sides = (
                {"both": every}
                if len(node.allowances) == 1
                else {
                    "take": [it for it in every if it.takes],
                    "give": [it for it in every if not it.takes],
                }
            )
            for (side, transfers), allowance in zip(sides.items(), node.allowances):
                if len({it.copy for it in transfers}) > allowance:
                    self.is_whole &= len(transfers) <= TRANSFERS
                    yield from self.crowded(
                        TooMany(node.name, side, allowance + 1, allowance), transfers[:TRANSFERS]
                    )

    def crowded(self, harm: TooMany, transfers: list[Transfer]) -> Iterator[Found]:
        self.order.visits += len(self.order.steps)
        if self.order.visits > VISITS and harm.node != self.node:
            return
        marks = {
            number: 1 << k
            for k, number in enumerate({number for it in transfers for number in it.until})
        }
        # For each step the marks of all that it waits for, and its own, as bits.
        masks = {START: 0}
        for number in self.order.rank:
            masks[number] = reduce(
                or_, map(masks.__getitem__, self.order.waits[number]), marks.get(number, 0)
            )
        done = [reduce(or_, (masks.get(number, 0) for number in it.needs), 0) for it in transfers]
        until = [reduce(or_, map(marks.__getitem__, it.until)) for it in transfers]
        possible = [k for k in range(len(transfers)) if not done[k] & until[k]]
        # More and more transfers of which each two go together. Those come first that wait for few
        # steps.
        stack, tries = [(list[int](), possible)], 0
        while stack and tries < TRIES:
            chosen, left = stack.pop()
            tries += 1
            if len(chosen) == harm.open:
                copies, needs = [transfers[k].copy for k in chosen], [
                    number for k in chosen for number in transfers[k].needs
                ]
                yield from self.after(
                    harm, needs, copies, [("open", str(number)) for number in copies]
                )
            elif len(chosen) + len(left) >= harm.open:
                a, *rest = left
                beside = [
                    b
                    for b in rest
                    if transfers[a].copy != transfers[b].copy
                    and not (done[a] & until[b] or done[b] & until[a])
                ]
                stack += [(chosen, rest), ([*chosen, a], beside)]

    def lost(self) -> Iterator[Found]:
        """An acknowledged put that R slots do not have.

        First come slots whose steps may be done too early, with what they read; then whole
        partitions.
        """
        order = self.order
        early = [then for slot in order.steps_of for _, then in order.gaps(slot)]
        named = (
            [self.step] if self.step >= 0 and order.steps[self.step].partition is not None else []
        )
        for p, i in dict.fromkeys(order.steps[number].place() for number in named + early):
            yield from self.by(
                Search(
                    order,
                    p,
                    {i}.union(
                        j
                        for it in order.steps_of[p, i]
                        if order.steps[it].slots
                        for _, j in order.steps[it].reads()
                    ),
                )
            )
        for p in dict.fromkeys(
            order.steps[number].place()[0]
            for number in [*named, *early, *itertools.chain(*order.steps_of.values())]
        ):
            if self.worlds < WORLDS and order.visits <= VISITS:
                yield from self.by(Search(order, p, range(len(order.ring.rows[p]))))

    def by(self, search: Search) -> Iterator[Found]:
        yield from search.find(WORLDS - self.worlds)
        self.worlds += search.seen
        self.is_whole &= not search.queue and self.worlds < WORLDS

    def out_of_turn(self) -> Iterator[Found]:
        gaps = [gap for slot in self.order.steps_of for gap in self.order.gaps(slot)]
        for first, then in sorted(gaps, key=lambda gap: gap[1] != self.step):
            yield from self.after(OutOfTurn(first, then), [then], [first])
