"""A full search of a small plan: whether some run breaks a promise, by both readings of a slot's
stage. It shares only the texts with the package's search.

It looks at all worlds to which events lead: steps, the chunks and ends of copies, the writes of one
put to slots one by one, its acknowledgement, and losses. Nodes do not go down, and nothing is
hinted.
"""

import pathlib
import sys
from collections import deque
from collections.abc import Callable, Iterator
from dataclasses import dataclass, replace

sys.path.insert(0, str(pathlib.Path(__file__).resolve().parent.parent / "python"))
from ringplan.texts import Plan, Ring, Step

Slot = tuple[int, int]
# Owner and mirror of each slot of the plan's partitions.
Table = tuple[tuple[str, str], ...]
Stored = frozenset[tuple[str, Slot]]


class TooLarge(Exception):
    """More worlds than are looked at."""


@dataclass(frozen=True)
class State:
    done: frozenset[int]
    # Copies that gave the put's chunk and are not done.
    given: frozenset[int]
    # What the steps did, in their order, and what the definitions count; and where the put is by
    # each.
    tables: tuple[Table, Table]
    stored: tuple[Stored, Stored]
    # The slots written, each with its generation then; what each slot's generation is now; whether
    # the put is acknowledged.
    tickets: frozenset[tuple[int, int]]
    generations: tuple[int, ...]
    is_acked: bool
    losses: int


def stepped(table: Table, at: int, step: Step) -> Table:
    owner, mirror = table[at]
    if step.kind == "mirror":
        mirror = step.node or ""
    elif step.kind == "switch":
        owner, mirror = mirror or owner, ""
    return (*table[:at], (owner, mirror), *table[at + 1 :])


class Full:
    def __init__(self, ring: Ring, plan: Plan, limit: int) -> None:
        self.ring, self.steps, self.limit = ring, plan.steps, limit
        self.n, self.r, self.w = ring.quorum[:3]
        self.losses = sum(ring.quorum[3:])
        touched = sorted({step.partition for step in plan.steps if step.partition is not None})
        self.slots = [(p, i) for p in touched for i in range(self.n)]
        self.at = {slot: k for k, slot in enumerate(self.slots)}
        self.of_slot = [
            [k for k, step in enumerate(plan.steps) if (step.partition, step.slot) == slot]
            for slot in self.slots
        ]
        self.members = {node.name for node in ring.nodes if node.is_in}
        self.first: Table = tuple((ring.rows[p][i], "") for p, i in self.slots)
        self.parties = {
            k: self.parties_of(k) for k, step in enumerate(plan.steps) if step.kind == "copy"
        }

    def slot(self, step: Step) -> int:
        assert step.partition is not None and step.slot is not None
        return self.at[step.partition, step.slot]

    def read(self, step: Step) -> list[int]:
        assert step.partition is not None
        return (
            [self.slot(step)]
            if step.slots is None
            else [self.at[step.partition, j] for j in step.slots]
        )

    def parties_of(self, number: int) -> set[str]:
        """Who takes part in a copy by the steps before it."""
        table = self.first
        for step in self.steps[:number]:
            table = stepped(table, self.slot(step), step) if step.partition is not None else table
        step = self.steps[number]
        return {table[it][0] for it in self.read(step)} | {table[self.slot(step)][1]} - {""}

    def up(self, state: State) -> set[str]:
        return self.members | {
            self.steps[k].node or "" for k in state.done if self.steps[k].kind == "join"
        }

    def is_member(self, state: State, node: str) -> bool:
        return node in self.up(state) and not any(
            self.steps[k].kind == "retire" and self.steps[k].node == node for k in state.done
        )

    def may_begin(self, state: State, number: int) -> bool:
        step = self.steps[number]
        needed = {step.node or ""} if step.kind in ("mirror", "drop") else set()
        if step.kind == "copy":
            needed = self.parties[number] | self.parties_now(state, step)
        return (
            number not in state.done
            and state.done.issuperset(step.after)
            and needed <= self.up(state)
        )

    def parties_now(self, state: State, step: Step) -> set[str]:
        table = state.tables[0]
        return {table[it][0] for it in self.read(step)} | ({table[self.slot(step)][1]} - {""})

    def finished(self, state: State, number: int) -> State:
        step, done = self.steps[number], state.done | {number}
        if step.partition is None:
            return replace(state, done=done)
        at = self.slot(step)
        counted = self.first
        for number_of, count in enumerate(
            sum(k in done for k in numbers) for numbers in self.of_slot
        ):
            for k in self.of_slot[number_of][:count]:
                counted = stepped(counted, number_of, self.steps[k])
        gone = {(step.node or "", self.slots[at])} if step.kind == "drop" else set()
        generations = list(state.generations)
        generations[at] += step.kind == "mirror"
        tables = (stepped(state.tables[0], at, step), counted)
        stored = (state.stored[0] - gone, state.stored[1] - gone)
        return replace(
            state,
            done=done,
            given=state.given - {number},
            tables=tables,
            stored=stored,
            generations=tuple(generations),
        )

    def gives(self, state: State, number: int) -> State:
        step = self.steps[number]
        at, stored = self.slot(step), list(state.stored)
        for k, table in enumerate(state.tables):
            if table[at][1] and any(
                (table[it][0], self.slots[it]) in stored[k] for it in self.read(step)
            ):
                stored[k] |= {(table[at][1], self.slots[at])}
        return replace(state, given=state.given | {number}, stored=(stored[0], stored[1]))

    def steps_on(self, state: State, with_chunks: bool) -> Iterator[State]:
        for number, step in enumerate(self.steps):
            if self.may_begin(state, number):
                is_chunk = step.kind == "copy" and with_chunks and number not in state.given
                yield self.gives(state, number) if is_chunk else self.finished(state, number)

    def puts_on(self, state: State, partition: int) -> Iterator[State]:
        if not state.is_acked:
            for i in range(self.n):
                at = self.at[partition, i]
                if all(slot != at for slot, _ in state.tickets):
                    stored = [
                        old | {(node, self.slots[at]) for node in table[at] if node}
                        for old, table in zip(state.stored, state.tables)
                    ]
                    yield replace(
                        state,
                        stored=(stored[0], stored[1]),
                        tickets=state.tickets | {(at, state.generations[at])},
                    )
            if sum(state.generations[slot] == ticket for slot, ticket in state.tickets) >= self.w:
                yield replace(state, is_acked=True, tickets=frozenset())
        elif state.losses < self.losses:
            for node in sorted({node for stored in state.stored for node, _ in stored}):
                if self.is_member(state, node):
                    left = [
                        frozenset(it for it in stored if it[0] != node) for stored in state.stored
                    ]
                    yield replace(state, stored=(left[0], left[1]), losses=state.losses + 1)

    def worlds(self, following: Callable[[State], Iterator[State]]) -> Iterator[State]:
        first = State(
            frozenset(),
            frozenset(),
            (self.first, self.first),
            (frozenset(), frozenset()),
            frozenset(),
            (0,) * len(self.slots),
            False,
            0,
        )
        seen, queue = {first}, deque([first])
        while queue:
            state = queue.popleft()
            yield state
            new = set(following(state)) - seen
            seen |= new
            queue.extend(new)
            if len(seen) > self.limit:
                raise TooLarge

    def harms(self) -> set[str]:
        """The kinds of harm that some run does."""
        found = set[str]()
        for state in self.worlds(lambda it: self.steps_on(it, False)):
            found |= self.at_once(state)
        for p in sorted({p for p, _ in self.slots}):
            if "lost" not in found:
                found |= {
                    "lost"
                    for state in self.worlds(
                        lambda it: [*self.steps_on(it, True), *self.puts_on(it, p)].__iter__()
                    )
                    if self.is_lost(state, p)
                }
        return found

    def at_once(self, state: State) -> set[str]:
        """The harms of a world without a put, each by both readings."""
        found = [set[str](), set[str]()]
        for kinds, table in zip(found, state.tables):
            for k, (p, _) in enumerate(self.slots):
                others = {
                    node
                    for (q, _), nodes in zip(self.slots[:k], table[:k])
                    if q == p
                    for node in nodes
                }
                kinds |= {"shared" for node in table[k] if node and node in others}
            kinds |= {
                "stranger"
                for nodes in table
                for node in nodes
                if node and not self.is_member(state, node)
            }
            kinds |= {
                "transfers"
                for node in self.ring.nodes
                if self.has_too_many(state, table, node.name, node.allowances)
            }
        early = any(
            k in state.done
            for numbers in self.of_slot
            for j, k in enumerate(numbers)
            if not state.done.issuperset(numbers[:j])
        )
        return found[0] & found[1] | ({"turn"} if early else set())

    def has_too_many(
        self, state: State, table: Table, node: str, allowances: tuple[int, ...]
    ) -> bool:
        """Whether the copies that may be open now are too many.

        Copies stay open, so all of them may be open at once.
        """
        copies = [
            step
            for k, step in enumerate(self.steps)
            if step.kind == "copy" and self.may_begin(state, k)
        ]
        takes = [table[self.slot(step)][1] == node for step in copies]
        gives = [any(table[it][0] == node for it in self.read(step)) for step in copies]
        counts = (
            [sum(a or b for a, b in zip(takes, gives))]
            if len(allowances) == 1
            else [sum(takes), sum(gives)]
        )
        return any(count > allowance for count, allowance in zip(counts, allowances))

    def is_lost(self, state: State, p: int) -> bool:
        slots = [self.at[p, i] for i in range(self.n)]
        lacking = [
            {at for at in slots if (table[at][0], self.slots[at]) not in stored}
            for table, stored in zip(state.tables, state.stored)
        ]
        return state.is_acked and all(len(it) >= self.r for it in lacking)
