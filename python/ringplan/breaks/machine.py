"""A plain machine that judges a script: whether each event is allowed, and whether a harm is there
at its end.

It knows the events `do`, `open`, `chunk`, `close`, `put`, `write`, `ack` and `lose`, as
docs/DEFINITIONS.md has them, and one put. There are no hints, and no node is down. It shares no
code with the search.

A slot's stage has two readings. By the definitions it is the stage after as many of the slot's
steps as are done. By the order it is what the done steps made of the slot, in the order in which
they were done, as in a real store. Both are one if the slot's steps are done in the plan's order. A
script has to show a harm by both.
"""

from collections import Counter, defaultdict
from collections.abc import Sequence

from ringplan.breaks.harms import Event, Harm, Lost, OutOfTurn, Shared, Slot, Stranger, TooMany
from ringplan.texts import Plan, Ring, Step, place

CHUNKS = 16
# The owner of a slot, and its mirror if it has one.
Stage = tuple[str, str | None]


def stage_after(step: Step, owner: str, mirror: str | None) -> Stage:
    if step.kind == "mirror":
        return owner, step.node
    return (mirror or owner, None) if step.kind == "switch" else (owner, mirror)


def parties(step: Step, stages: dict[Slot, Stage]) -> set[str]:
    """The nodes that take part in a copy."""
    mirror = stages[step.place()][1]
    return {stages[slot][0] for slot in step.reads()} | ({mirror} if mirror else set())


class Frame:
    """What stays the same in all runs of a plan."""

    def __init__(self, ring: Ring, plan: Plan) -> None:
        self.steps, self.partitions = plan.steps, len(ring.rows)
        self.n, self.r, self.w, *losses = ring.quorum
        self.losses = sum(losses)
        self.members = {node.name for node in ring.nodes if node.is_in}
        sides = {1: ["both"], 2: ["take", "give"]}
        self.bears = {
            (node.name, side): it
            for node in ring.nodes
            for side, it in zip(sides[len(node.allowances)], node.allowances)
        }
        self.stages: dict[Slot, Stage] = {
            (p, i): (owner, None) for p, row in enumerate(ring.rows) for i, owner in enumerate(row)
        }
        self.steps_of: dict[Slot, list[int]] = defaultdict(list)
        # By copy, the nodes that take part in it by the order of the plan's lines.
        self.parties: dict[int, set[str]] = {}
        stages = dict(self.stages)
        for number, step in enumerate(self.steps):
            if step.kind == "copy":
                self.parties[number] = parties(step, stages)
            if step.partition is not None:
                self.steps_of[step.place()].append(number)
                stages[step.place()] = stage_after(step, *stages[step.place()])


class World:
    """A store at one moment, by one reading of a slot's stage.

    The call of an event does it, and returns whether it is allowed.
    """

    def __init__(self, frame: Frame, by_count: bool) -> None:
        self.frame, self.by_count, self.losses = frame, by_count, 0
        self.done, self.open, self.marks = set[int](), set[int](), set[tuple[int, int]]()
        self.up, self.members, self.stages = (
            set(frame.members),
            set(frame.members),
            dict(frame.stages),
        )
        self.counts, self.generations = Counter[Slot](), Counter[Slot]()
        # The partition and the chunk of the put, who has it, the generations of slots when they
        # were written, and whether it is acknowledged.
        self.put, self.stored, self.tickets, self.is_acked = (
            (-1, -1),
            set[tuple[str, Slot]](),
            dict[Slot, int](),
            False,
        )

    def happens(self, event: Event) -> bool:
        match event:
            case ("do", number):
                return self.do(int(number))
            case ("open", number):
                return self.open_copy(int(number))
            case ("chunk", number, chunk):
                return self.give_chunk(int(number), int(chunk))
            case ("close", number):
                return self.close_copy(int(number))
            case ("put", _, key, _) if self.put == (-1, -1):
                self.put = place(key, self.frame.partitions)
                return True
            case ("write", "0", i) if self.put != (-1, -1):
                slot = (self.put[0], int(i))
                self.stored |= {(node, slot) for node in self.nodes(slot)}
                self.tickets[slot] = self.generations[slot]
                return self.up >= self.nodes(slot)
            case ("ack", "0") if not self.is_acked:
                self.is_acked = (
                    sum(self.generations[slot] == ticket for slot, ticket in self.tickets.items())
                    >= self.frame.w
                )
                return self.is_acked
            case ("lose", node):
                return self.lose(node)
        return False

    def nodes(self, slot: Slot) -> set[str]:
        return {node for node in self.stages[slot] if node}

    def is_ready(self, number: int, is_copy: bool) -> bool:
        step = self.frame.steps[number]
        return (
            (step.kind == "copy") == is_copy
            and number not in self.done
            and self.done.issuperset(step.after)
        )

    def do(self, number: int) -> bool:
        step, node = self.frame.steps[number], self.frame.steps[number].node or ""
        if (
            not self.is_ready(number, False)
            or step.kind in ("mirror", "drop")
            and node not in self.up
        ):
            return False
        if step.kind == "join":
            self.up.add(node)
            self.members.add(node)
        elif step.kind == "retire":
            self.members.discard(node)
        elif step.kind == "drop":
            self.stored.discard((node, step.place()))
        self.finish(number, step)
        return True

    def finish(self, number: int, step: Step) -> None:
        self.done.add(number)
        if step.partition is not None:
            slot = step.place()
            self.generations[slot] += step.kind == "mirror"
            self.counts[slot] += 1
            counted = self.frame.steps[self.frame.steps_of[slot][self.counts[slot] - 1]]
            self.stages[slot] = stage_after(counted if self.by_count else step, *self.stages[slot])

    def are_up(self, number: int) -> bool:
        """Whether a copy's nodes are up: those by the plan, or those that have its slots now."""
        return self.up >= (
            self.frame.parties[number]
            if self.by_count
            else parties(self.frame.steps[number], self.stages)
        )

    def open_copy(self, number: int) -> bool:
        is_allowed = self.is_ready(number, True) and number not in self.open and self.are_up(number)
        self.open |= {number} if is_allowed else set()
        return is_allowed

    def give_chunk(self, number: int, chunk: int) -> bool:
        if number not in self.open or (number, chunk) in self.marks or not self.are_up(number):
            return False
        self.marks.add((number, chunk))
        step = self.frame.steps[number]
        slot, mirror = step.place(), self.stages[step.place()][1]
        if (
            mirror
            and self.put == (slot[0], chunk)
            and any((self.stages[it][0], it) in self.stored for it in step.reads())
        ):
            self.stored.add((mirror, slot))
        return True

    def close_copy(self, number: int) -> bool:
        if number not in self.open or any(
            (number, chunk) not in self.marks for chunk in range(CHUNKS)
        ):
            return False
        self.open.discard(number)
        self.finish(number, self.frame.steps[number])
        return True

    def lose(self, node: str) -> bool:
        if node not in self.members or self.losses == self.frame.losses:
            return False
        self.losses += 1
        self.stored = {it for it in self.stored if it[0] != node}
        self.generations.update(slot for slot, stage in self.stages.items() if node in stage)
        return True

    def has(self, harm: Harm) -> bool:
        """Whether the harm is there now."""
        match harm:
            case Lost(_, p, lacking):
                # A get reads owners that are up.
                owners = (
                    [(self.stages[p, i][0], (p, i)) for i in set(lacking)]
                    if self.is_acked and self.put[0] == p
                    else []
                )
                return (
                    len(owners) == self.frame.r
                    and all(owner in self.up for owner, _ in owners)
                    and self.stored.isdisjoint(owners)
                )
            case Shared(node, p, served):
                return len(set(served)) == 2 and all(node in self.nodes((p, i)) for i in served)
            case TooMany(node, side, count, allowance):
                return (
                    self.transfers(node, side)
                    == count
                    > allowance
                    == self.frame.bears.get((node, side))
                )
            case Stranger(node, slot):
                return node in self.nodes(slot) and node not in self.members
            case OutOfTurn(earlier, later):
                numbers = self.frame.steps_of[self.frame.steps[later].place()]
                return (
                    later in self.done
                    and earlier in numbers
                    and earlier < later
                    and earlier not in self.done
                )

    def transfers(self, node: str, side: str) -> int:
        """The open copies in which the node takes part."""
        steps = [self.frame.steps[number] for number in self.open]
        takes = [side != "give" and self.stages[step.place()][1] == node for step in steps]
        gives = [
            side != "take" and any(self.stages[slot][0] == node for slot in step.reads())
            for step in steps
        ]
        return sum(a or b for a, b in zip(takes, gives))


def shows(frame: Frame, script: Sequence[Event], harm: Harm) -> bool:
    """Whether each event of the script is allowed, and the harm is there at its end, by both
    readings.
    """
    worlds = [World(frame, by_count) for by_count in (True, False)]
    return all(all(map(world.happens, script)) and world.has(harm) for world in worlds)
