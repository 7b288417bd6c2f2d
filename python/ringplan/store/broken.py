"""Stores that are broken on purpose, each by one method of the right one.

The judge refuses their histories, mostly long before data is lost.
"""

from __future__ import annotations

import contextlib
import random
import re
import threading
import time
from collections.abc import Callable
from typing import Any

from ringplan.store.coordinator import Store
from ringplan.store.executor import Executor
from ringplan.store.history import Get, Put, Refused
from ringplan.store.members import Doubt, Member, Partition, Slot
from ringplan.store.versions import Contents, Version
from ringplan.texts import StepLine


def later(seconds: float, call: Callable[[], object]) -> None:
    def do() -> None:
        with contextlib.suppress(Refused):
            call()

    timer = threading.Timer(seconds, do)
    timer.daemon = True
    timer.start()


def die_now(store: Store, member: Member | None) -> None:
    """Kills a server that is up, which is told, and brings it back after a while."""
    if member is not None and member.is_up:
        member.node.kill()
        store.suspect(member)
        later(0.2, member.node.start)


class NoMirror(Store):
    """Writes skip the mirror."""

    def writers(self, slot: Slot) -> list[Member]:
        return [slot.owner]


class MirrorLater(Store):
    """The mirror is written after the write was counted."""

    def store_version(self, slot: Slot, put: Put) -> None:
        area, contents = slot.area(self.place(put.key)[1]), {put.key: [put.version()]}
        slot.owner.node.merge(area, contents)
        if slot.mirror is not None:
            mirror = slot.mirror
            later(0.3, lambda: self.attempt(lambda: mirror.node.merge(area, contents)))


class StaleTickets(Store):
    """Tickets of old generations count. A pause before they are counted lets mirrors begin."""

    def is_current(self, put: Put, slot: Slot) -> bool:
        return slot.index in put.tickets

    def acknowledge(self, put: Put) -> bool:
        time.sleep(0.02)
        return super().acknowledge(put)


class AckEarly(Store):
    """A put is acknowledged with a ticket too few."""

    def tickets_wanted(self) -> int:
        return self.write_quorum - 1

    def send(self, put: Put, slot: Slot, draw: random.Random) -> None:
        super().send(put, slot, draw)
        self.acknowledge(put)


class KeeperServes(Store):
    """A node that serves a slot of the partition keeps hints for another."""

    def may_keep(self, partition: Partition, slot: Slot, member: Member) -> bool:
        return member.is_member and not partition.keeps_other(member, slot)


class KeeperOfTwo(Store):
    """A stand-in keeps hints for two slots of a partition."""

    def may_keep(self, partition: Partition, slot: Slot, member: Member) -> bool:
        return member.is_member and member not in partition.serving()


class ReadMirror(Store):
    """Reads go to the mirror before it owns the slot."""

    def reader(self, slot: Slot) -> Member:
        return slot.owner if slot.mirror is None else slot.mirror


class ReadWithoutHints(Store):
    """Reads leave out what stand-ins keep."""

    def keepers(self, slot: Slot, key: str) -> list[Member]:
        return []


class ReadTooFew(Store):
    """A get reads a slot too few."""

    def reads_wanted(self) -> int:
        return self.read_quorum - 1


class LastSlotAlone(Store):
    """A get replies what its last slot had."""

    def reply(self, get: Get) -> list[Version]:
        return get.found[-1:]


class HandoffToOwnerAlone(Store):
    """A handoff skips the mirror, and does not need it up.

    It dies just then. Most handoffs wait for a mirror.
    """

    def handoff(self, slot: Slot, keeper: Member) -> None:
        if slot.mirror is not None or random.random() < 0.1:
            super().handoff(slot, keeper)

    def receivers(self, slot: Slot, keeper: Member) -> list[Member]:
        if slot.mirror not in (None, keeper):
            die_now(self, slot.mirror)
        return [slot.owner]


class HintForANode(Store):
    """A hint goes to the node that it was meant for, which may own the slot no longer."""

    def receivers(self, slot: Slot, keeper: Member) -> list[Member]:
        return list(slot.keepers[keeper].values())


class HintLost(Store):
    """One key of a handoff is forgotten."""

    def kept(self, slot: Slot, keeper: Member) -> Contents:
        contents = super().kept(slot, keeper)
        contents.pop(next(iter(contents), ""), None)
        return contents


class LossKeepsGeneration(Store):
    """A lost store is told, but tickets for it go on to count."""

    def generation_after_loss(self, slot: Slot) -> int:
        return slot.generation


class HalfWrittenForgotten(Store):
    """The owner is written first, and what broke off in the middle is forgotten.

    Some mirrors die just then. No stand-in takes the put: that would hide it.
    """

    mirrored = 0

    def store_version(self, slot: Slot, put: Put) -> None:
        area, contents = slot.area(self.place(put.key)[1]), {put.key: [put.version()]}
        slot.owner.node.merge(area, contents)
        if slot.mirror is not None:
            self.mirrored += 1
            if self.mirrored % 20 == 1:
                slot.mirror.node.kill()
                later(0.2, slot.mirror.node.start)
            slot.mirror.node.merge(area, contents)

    def may_keep(self, partition: Partition, slot: Slot, member: Member) -> bool:
        return False

    def doubt(self, slot: Slot, doubt: Doubt) -> None:
        self.in_doubt += 1


class TwoOwners(Store):
    """For a while after a switch reads go by the old table."""

    def __init__(self, *arguments: Any) -> None:
        self.seen: dict[Slot, tuple[Member, Member | None, float]] = {}
        super().__init__(*arguments)

    def reader(self, slot: Slot) -> Member:
        owner, before, since = self.seen.get(slot, (slot.owner, None, 0.0))
        if owner is not slot.owner:
            before, since = owner, time.time()
        self.seen[slot] = (slot.owner, before, since)
        return before if before is not None and time.time() - since < 0.3 else slot.owner


class SameGeneration(Executor):
    """A mirror raises no generation."""

    def next_generation(self, slot: Slot) -> int:
        return slot.generation


class RetireWithHints(Executor):
    """A node retires while it keeps hints."""

    def has_hints(self, member: Member) -> bool:
        return False


class MirrorKeepsHints(Executor):
    """A mirror is set at a node that keeps hints for another slot of the partition.

    Each mirror waits a while for such a hint.
    """

    def mirror(self, step: StepLine) -> None:
        slot, member = self.slot(step), self.member(step)
        for _ in range(20):
            if self.store.partitions[slot.partition].keeps_other(member, slot):
                break
            time.sleep(0.02)
        super().mirror(step)

    def may_mirror(self, partition: Partition, slot: Slot, member: Member) -> bool:
        return True


class DropTooMuch(Executor):
    """A drop deletes a chunk of all partitions."""

    def dropped(self, slot: Slot) -> list[str]:
        return super().dropped(slot) + [other.area(3) for other in self.store.all_slots()]


class ChunkSkipped(Executor):
    """Chunk 7 is marked and not given."""

    def give(self, step: StepLine, chunk: int, contents: Contents) -> None:
        if chunk != 7:
            super().give(step, chunk, contents)


class ClosedEarly(Executor):
    """A copy is closed with four chunks left."""

    def is_whole(self, step: StepLine) -> bool:
        return len(self.marks[step.step]) >= 12


class DropEarly(Executor):
    """A drop does not wait for its switch."""

    def is_ready(self, step: StepLine) -> bool:
        return super().is_ready(step) or (
            step.do == "drop"
            and self.slot(step).mirror is not None
            and self.slot(step).owner.name == step.node
        )


class SwitchEarly(Executor):
    """A switch does not wait for its copy."""

    def is_ready(self, step: StepLine) -> bool:
        return super().is_ready(step) or (
            step.do == "switch" and self.slot(step).mirror is not None
        )


class CopyWithoutHints(Executor):
    """A copy from listed slots leaves out what stand-ins keep for them, and does not need them up.

    Each of them dies just then.
    """

    def hint_keepers(self, step: StepLine, chunk: int) -> list[tuple[Slot, Member]]:
        for _, keeper in super().hint_keepers(step, chunk):
            die_now(self.store, keeper)
        return []


def name_of(kind: type) -> str:
    """`ack_early` for `AckEarly`."""
    return re.sub("(?<!^)([A-Z])", r"_\1", kind.__name__).lower()


STORES: dict[str, type[Store]] = {name_of(kind): kind for kind in Store.__subclasses__()}
EXECUTORS: dict[str, type[Executor]] = {name_of(kind): kind for kind in Executor.__subclasses__()}
