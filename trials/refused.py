"""Random plans of random rings, most of them with a fault.

A plan is written with all dependencies that it needs. Then some of them are left out, or its
sources, joins, nodes, steps or chains are changed.
"""

import random
from dataclasses import dataclass, replace

from changes import ask
from ringplan.texts import (
    Certificate,
    CertificateLine,
    Plan,
    Ring,
    RingNode,
    Step,
    read_texts,
    write_texts,
)

PLAIN: list[tuple[int, ...]] = [
    (1, 1, 1),
    (2, 1, 2),
    (2, 2, 1),
    (3, 2, 2),
    (3, 2, 2),
    (3, 2, 2),
    (3, 1, 3),
    (3, 3, 2),
    (4, 2, 3),
    (5, 3, 3),
    (7, 3, 5),
]
LOSSY: list[tuple[int, ...]] = [(3, 2, 3, 1), (4, 3, 3, 1), (5, 3, 4, 1), (5, 3, 5, 2)]
BEARS = 64


def draw_ring(draw: random.Random, is_small: bool) -> Ring:
    quorum = draw.choice(
        [it for it in (LOSSY if draw.random() < 0.2 else PLAIN) if it[0] < 4 or not is_small]
    )
    n, q = quorum[0], draw.choice([1, 2] if is_small else [1, 2, 4, 8])
    count, is_split = n + draw.choice([1, 1, 2, 3]), draw.random() < 0.3
    names = [f"n{k}" for k in range(count)]
    inside = set(draw.sample(names, draw.randrange(n, count + 1)))
    form = 3 if len(quorum) > 3 else 2 if is_split else 1
    nodes = [
        RingNode(
            it,
            tuple(
                draw.randrange(1, 4) for _ in range(2 if is_split and draw.random() < 0.6 else 1)
            ),
            it in inside,
        )
        for it in names
    ]
    return Ring(
        form, quorum, tuple(nodes), tuple(tuple(draw.sample(sorted(inside), n)) for _ in range(q))
    )


@dataclass
class Held:
    """Since which step a node serves or has a slot, until which it does, and at which it drops what
    it has.
    """

    node: str
    since: int | None
    left: int | None = None
    dropped: int | None = None


class Writer:
    """Writes a plan move by move, with the dependencies that each step needs."""

    def __init__(self, draw: random.Random, ring: Ring) -> None:
        self.draw, self.ring, self.steps = draw, ring, list[Step]()
        self.joined: dict[str, int | None] = {node.name: None for node in ring.nodes if node.is_in}
        self.held = {
            (p, i): [Held(node, None)]
            for p, row in enumerate(ring.rows)
            for i, node in enumerate(row)
        }
        self.last: dict[tuple[int, int], int] = {}
        # Copies, by node that takes part in them.
        self.copies: dict[str, list[int]] = {}

    def add(
        self,
        kind: str,
        slot: tuple[int, int] | None,
        node: str | None,
        slots: tuple[int, ...] | None,
        after: list[int | None],
    ) -> int:
        known = [] if slot is None else [self.last.get(slot)]
        waits = sorted({it for it in [*after, *known] if it is not None})
        self.steps.append(
            Step(
                kind,
                None if slot is None else slot[0],
                None if slot is None else slot[1],
                node,
                slots,
                tuple(waits),
            )
        )
        if slot is not None:
            self.last[slot] = len(self.steps) - 1
        return len(self.steps) - 1

    def owner(self, slot: tuple[int, int]) -> str:
        return [it for it in self.held[slot] if it.left is None][0].node

    def move(self) -> None:
        """A slot goes to a node that serves none of its partition."""
        p, i = slot = self.draw.choice(sorted(self.held))
        row = [(p, j) for j in range(len(self.ring.rows[p]))]
        stays = {it.node for it in self.held[slot] if it.dropped is None}
        serving = {self.owner(it) for it in row} | stays
        free = [node.name for node in self.ring.nodes if node.name not in serving]
        if not free:
            return
        node = self.draw.choice(free)
        if node not in self.joined:
            self.joined[node] = self.add("join", None, node, None, [])
        left = [it.left for j in row if j != slot for it in self.held[j] if it.node == node]
        mirror = self.add("mirror", slot, node, None, [self.joined[node], *left])
        self.copy(slot, node)
        copies = ((k, it) for k, it in enumerate(self.steps) if it.kind == "copy" and it.slots)
        reading = [k for k, it in copies if it.partition == p and i in (it.slots or ())]
        switch = self.add("switch", slot, None, None, list(reading))
        old = [it for it in self.held[slot] if it.left is None][0]
        old.left = switch
        self.held[slot].append(Held(node, mirror))
        if self.draw.random() < 0.8:
            old.dropped = self.add("drop", slot, old.node, None, [])

    def copy(self, slot: tuple[int, int], node: str) -> None:
        """A move's copy, after some copies of the nodes that take part."""
        p, draw, listed = slot[0], self.draw, None
        if draw.random() < 0.4:
            slots = len(self.ring.rows[p])
            count = draw.randint(self.ring.quorum[1], slots)
            listed = tuple(draw.sample(range(slots), count))
        read = [slot] if listed is None else [(p, j) for j in listed]
        parties = {node, *(self.owner(it) for it in read)}
        begun = [it for it in sorted(parties) if it in self.copies]
        before = [self.copies[it][-1] for it in begun if draw.random() < 0.8]
        left = [it.left for other in read for it in self.held[other]]
        copy = self.add("copy", slot, None, listed, [*before, *left])
        for it in parties:
            self.copies.setdefault(it, []).append(copy)

    def retire(self) -> None:
        """Nodes that have nothing any more retire."""
        every = [it for holdings in self.held.values() for it in holdings]
        for node in sorted(self.joined):
            mine = [it for it in every if it.node == node]
            if all(it.dropped is not None for it in mine) and self.draw.random() < 0.7:
                self.add(
                    "retire", None, node, None, [self.joined[node], *(it.dropped for it in mine)]
                )


def without_step(steps: list[Step], gone: int) -> list[Step]:
    """What waited for the step waits for what it waited for, or for nothing."""

    def others(after: tuple[int, ...]) -> tuple[int, ...]:
        return tuple(it - (it > gone) for it in after if it != gone)

    return [
        replace(step, after=others(step.after))
        for number, step in enumerate(steps)
        if number != gone
    ]


def without_detours(steps: list[Step]) -> list[Step]:
    """A step does not wait directly for what others that it waits for wait for: certificates then
    have facts.
    """
    before = list[set[int]]()
    for step in steps:
        before.append({*step.after}.union(*(before[m] for m in step.after)))
    return [
        replace(
            step, after=tuple(m for m in step.after if not any(m in before[k] for k in step.after))
        )
        for step in steps
    ]


# The kinds of faults of a plan.
KINDS = "after after others others others sources node step join all".split()


def damage_plan(draw: random.Random, ring: Ring, steps: list[Step]) -> list[Step]:
    """One fault, as a person or a planner may make it."""
    kind, number = draw.choice(KINDS), draw.randrange(len(steps))
    step = steps[number]
    if kind == "after" and step.after:
        gone = draw.choice(step.after)
        ahead = steps[gone].after if draw.random() < 0.5 else ()
        steps[number] = replace(step, after=tuple(sorted({*step.after, *ahead} - {gone})))
    elif kind == "others":
        forget_others(draw, steps)
    elif kind == "all":
        steps[number] = replace(step, after=())
    elif kind == "sources":
        list_others(draw, ring, steps)
    elif kind == "node" and step.kind in ("mirror", "drop"):
        steps[number] = replace(step, node=draw.choice(ring.nodes).name)
    elif kind == "step":
        return without_step(steps, number)
    elif kind == "join":
        joins = [k for k, it in enumerate(steps) if it.kind == "join"]
        return without_step(steps, draw.choice(joins)) if joins else steps
    return steps


def forget_others(draw: random.Random, steps: list[Step]) -> None:
    """A step no longer waits for steps of other slots."""
    slots = [(it.partition, it.slot) for it in steps]
    far = [k for k, it in enumerate(steps) if any(slots[m] != slots[k] for m in it.after)]
    if far:
        number = draw.choice(far)
        near = tuple(m for m in steps[number].after if slots[m] == slots[number])
        steps[number] = replace(steps[number], after=near)


def list_others(draw: random.Random, ring: Ring, steps: list[Step]) -> None:
    """A copy lists other slots, perhaps too few, or one twice."""
    copies = [k for k, it in enumerate(steps) if it.kind == "copy"]
    if copies:
        number, (n, r) = draw.choice(copies), ring.quorum[:2]
        listed = draw.choices(range(n), k=draw.randint(1, r + 1))
        steps[number] = replace(steps[number], slots=tuple(listed)[:7])


def damage_certificate(draw: random.Random, certificate: Certificate) -> Certificate:
    """A line less, a chain in two, an entry of a line less, or two in each other's place."""
    body = list(certificate.body)
    if not body:
        return certificate
    number = draw.randrange(len(body))
    line, kind = body[number], draw.randrange(4)
    if kind == 0:
        del body[number]
    elif kind == 1 and line.kind != "fact" and len(line.steps) > 1:
        cut = draw.randrange(1, len(line.steps))
        body[number : number + 1] = [
            CertificateLine(line.kind, line.node, part)
            for part in (line.steps[:cut], line.steps[cut:])
        ]
    elif kind == 2 and len(line.steps) > 1:
        body[number] = CertificateLine(
            line.kind, line.node, (line.steps[1], line.steps[0], *line.steps[2:])
        )
    elif len(line.steps) > 2:
        gone = draw.randrange(len(line.steps))
        body[number] = CertificateLine(
            line.kind, line.node, line.steps[:gone] + line.steps[gone + 1 :]
        )
    return Certificate(certificate.form, tuple(body))


def certify(ring: Ring, plan: Plan) -> Certificate:
    """A certificate that `ringplan cert` makes; for a plan that has none one for nodes that bear
    more; or else an empty one.
    """
    bearing = replace(
        ring,
        nodes=tuple(
            replace(node, allowances=tuple(BEARS for _ in node.allowances)) for node in ring.nodes
        ),
    )
    for it in (ring, bearing):
        text = ask(["cert"], write_texts([it, plan]))[0]
        if text:
            found = read_texts(text)[2]
            assert isinstance(found, Certificate)
            return found
    return Certificate(1 if ring.form == 1 else 2, ())


def draw_bundle(draw: random.Random, is_small: bool) -> tuple[Ring, Plan, str]:
    """A ring, a plan, and the bundle of both with a certificate."""
    steps = list[Step]()
    while not steps:
        ring = draw_ring(draw, is_small)
        writer = Writer(draw, ring)
        for _ in range(draw.randint(1, 2) if is_small else draw.randint(1, 12)):
            writer.move()
        writer.retire()
        steps = without_detours(writer.steps) if draw.random() < 0.5 else writer.steps
    is_early = draw.random() < 0.5
    certificate = certify(ring, Plan(tuple(steps)))
    for _ in range(draw.choice([0, 1, 1, 1, 2, 3])):
        steps = damage_plan(draw, ring, steps) if steps else steps
    plan = Plan(tuple(steps))
    certificate = certificate if is_early else certify(ring, plan)
    if draw.random() < 0.2:
        certificate = damage_certificate(draw, certificate)
    return ring, plan, write_texts([ring, plan, certificate])
