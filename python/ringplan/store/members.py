"""Who stores what: members, slots, and what is held while something happens to them."""

from __future__ import annotations

import contextlib
import threading
from collections.abc import Callable, Iterable, Iterator
from dataclasses import dataclass, field

from ringplan.store.nodes import Node
from ringplan.texts import StepLine


class Blocked(Exception):
    """It cannot be done now: a node is down, or a guard of the event does not hold."""


class Member:
    """A node as the coordinators know it.

    Events that need it up hold it shared; who says that it is down or up holds it alone.
    """

    def __init__(self, name: str, number: int, node: Node, is_in: bool) -> None:
        self.name, self.number, self.node = name, number, node
        self.is_member = self.is_up = is_in
        self.condition, self.users, self.is_alone = threading.Condition(), 0, False

    @contextlib.contextmanager
    def shared(self) -> Iterator[None]:
        with self.condition:
            self.condition.wait_for(lambda: not self.is_alone)
            self.users += 1
        try:
            yield
        finally:
            with self.condition:
                self.users -= 1
                self.condition.notify_all()

    @contextlib.contextmanager
    def alone(self) -> Iterator[None]:
        with self.condition:
            self.condition.wait_for(lambda: not self.is_alone)
            self.is_alone = True
            self.condition.wait_for(lambda: self.users == 0)
        try:
            yield
        finally:
            with self.condition:
                self.is_alone = False
                self.condition.notify_all()


@contextlib.contextmanager
def using(members: Iterable[Member]) -> Iterator[None]:
    """Holds members shared, in the order of their numbers. All must be up."""
    held = sorted(set(members), key=lambda member: member.number)
    with contextlib.ExitStack() as stack:
        for member in held:
            stack.enter_context(member.shared())
        if not all(member.is_up for member in held):
            raise Blocked("a node is down")
        yield


@dataclass(eq=False)
class Doubt:
    """What may or may not have happened at a slot, since a node died before it answered.

    `again` does it for certain.
    """

    again: Callable[[], None]
    # The only node that was asked, if it was one: once that is dead for good, or has lost its
    # store, nothing has happened that anybody could see.
    only: Member | None = None


@dataclass(eq=False)
class Slot:
    """A slot: its owner, its mirror while it moves, its generation, and the hints that stand-ins
    keep for it, by key with the owner they were meant for.
    """

    partition: int
    index: int
    owner: Member
    mirror: Member | None = None
    generation: int = 0
    keepers: dict[Member, dict[str, Member]] = field(default_factory=dict)
    # Keepers whose handoff began and has not ended: the owner may have what the history says is
    # with the keeper alone.
    handing: set[Member] = field(default_factory=set)
    doubts: list[Doubt] = field(default_factory=list)
    # Nodes whose mirror of the slot was undone: each must forget what it has of the slot before it
    # mirrors the slot again.
    undone: set[Member] = field(default_factory=set)

    def writers(self) -> list[Member]:
        """Who stores a write: the mirror first, so that half a write stands where no read looks."""
        return [self.owner] if self.mirror is None else [self.mirror, self.owner]

    def forget_doubts(self, member: Member) -> None:
        """Forgets what only the member was asked."""
        self.doubts = [doubt for doubt in self.doubts if doubt.only is not member]

    def area(self, chunk: int) -> str:
        return f"{self.partition}.{self.index}.{chunk}"

    def hints(self) -> str:
        return f"hints.{self.partition}.{self.index}"


class Tokens:
    """The greatest token that the store has seen for each slot, and for each node that joins or
    retires. A hook with a smaller one comes too late: its step was given out again.
    """

    def __init__(self) -> None:
        self.seen, self.lock = dict[tuple[int, int] | str, int](), threading.Lock()

    def admit(self, step: StepLine, token: int) -> bool:
        """Whether the store may do what a hook with this token asks.

        Asked before each effect, while nothing else happens to the step.
        """
        about: tuple[int, int] | str = step.who() if step.partition is None else step.place()
        with self.lock:
            self.seen[about] = max(token, self.seen.get(about, 0))
            return token == self.seen[about]


class Partition:
    """The slots of a partition, which an event holds together."""

    def __init__(self, number: int, owners: Iterable[Member]) -> None:
        self.lock = threading.RLock()
        self.slots = [Slot(number, index, owner) for index, owner in enumerate(owners)]

    def serving(self) -> set[Member]:
        return {member for slot in self.slots for member in slot.writers()}

    def keeps_other(self, member: Member, slot: Slot) -> bool:
        """Whether the member keeps a hint for another slot of the partition."""
        return any(member in other.keepers for other in self.slots if other is not slot)
