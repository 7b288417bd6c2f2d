#!/usr/bin/env python3
"""Tries `ringplan around` from outside; it wants the program as it is built.

    trials/around.py [COUNT] [--first SEED] [--use NAME..]    COUNT changes for each use, else 10
    trials/around.py --all                                    600 changes for each use

Changes: rings of 2 to 16 partitions and 1 to 7 slots, joint and split allowances, drawn from fixed
seeds. Half of them lead to another ring, half are joins and leaves; some plans avoid a dead member
from the start, and some are written by hand. The store is that of `machine.py`, which takes no
reply from the program. It goes through a part of the plan under random traffic, with puts that only
one owner has, hints, outages, and copies that have some of their chunks. Then nodes die: a party of
a copy, a target, a keeper of hints, or another one. Or none dies, and the change is to come to
rest, or slots are to stay. `around` prints another plan and history, and the store goes on by that
plan with the contents that it has. In some uses this happens up to three times.

Of each answer: there is one. The checker says yes to the plan, and `replay` to the history. No step
to come asks anything of the dead, by a scan of this trial. What clients did is in the history as it
was. Only tickets of a slot whose mirror is taken back may have lower generations, and in the place
of a chunk that is left out there may be writes of its slot. The plan has the steps that this trial
finds by one walk over the old plan, and no others, as far as no dead node has to do with them.
Standard error says at most one line of a slot, and that is true; its sums are those of the lines. A
history that is not a run is refused as `replay` refuses it.

Of each change: it comes to its end, or waits for hints that the dead keep or whose slots they
serve. `replay` says yes to the history that `around` printed with all that the store did next; at
the end each slot of each key is read. It says the store's owners. No acknowledged put is lost. If
no node is dead, `after` prints a ring from which `goal` finds a plan back to the first ring, and
one on to the ring to which the first plan was to lead.
"""

import argparse
import random
import re
import sys
from collections import Counter
from collections.abc import Callable, Iterator, Sequence
from typing import NamedTuple

from changes import (
    Ring,
    Slot,
    Wrong,
    ask,
    place,
    sections,
    to_a_ring,
    to_members,
    write_by_hand,
    with_history,
)
from machine import CHUNKS, Machine, Table, node_of, slot_of
from ringplan import texts
from traffic import Traffic

STEPPED = ("do", "open", "chunk", "close", "abort")


class Use(NamedTuple):
    """How the program is asked: how often in turn, and how many nodes die each time."""

    name: str
    times: int = 1
    deaths: int = 1
    back: bool = False
    rest: bool = False
    # How many slots are to stay with their owners.
    leaves: int = 0
    is_lossy: bool = False
    # Whether each plan avoids a member that is dead from the start, so that copies list slots. Else
    # one of four does.
    avoids: bool = False
    # Whether plans are written by hand.
    by_hand: bool = False

    def words(self, dead: set[str], left: Sequence[Slot]) -> list[str]:
        named = [word for x in sorted(dead) for word in ("--dead", x)]
        named += [word for slot in left for word in ("--leave", "%d.%d" % slot)]
        return [
            "around",
            *named,
            *(["--rest"] if self.rest else []),
            *(["--back"] if self.back else []),
        ]


USES = [
    Use("one-dies"),
    Use("one-dies-back", back=True),
    Use("two-die-back", deaths=2, back=True),
    Use("losses-back", back=True, is_lossy=True),
    Use("three-times", times=3),
    Use("three-times-back", times=3, back=True),
    Use("three-losses-back", times=3, back=True, is_lossy=True),
    Use("avoids-back", times=2, back=True, avoids=True),
    Use("rest", deaths=0, rest=True),
    Use("rest-back", deaths=0, rest=True, back=True),
    Use("rest-dies-back", times=2, rest=True, back=True),
    Use("rest-dies", times=2, rest=True),
    Use("leave-one", deaths=0, leaves=1),
    Use("leave-three", times=2, deaths=0, leaves=3),
    Use("leave-dies", times=2, leaves=1),
    Use("leave-dies-back", times=2, leaves=1, back=True),
    Use("leave-rest-back", deaths=0, leaves=1, rest=True, back=True),
    Use("by-hand", by_hand=True),
    Use("by-hand-back", times=2, back=True, by_hand=True),
    Use("by-hand-rest", deaths=0, rest=True, by_hand=True),
    Use("by-hand-rest-dies-back", rest=True, back=True, by_hand=True),
    Use("by-hand-leave", times=2, deaths=0, leaves=2, by_hand=True),
    Use("by-hand-leave-dies-back", times=2, leaves=1, back=True, by_hand=True),
]


def make_change(draw: random.Random, use: Use) -> tuple[Ring, str]:
    """A ring, and the text of it and of a change.

    If a dead member is avoided, a read misses two slots or more.
    """
    while True:
        ring, text = (
            to_a_ring(draw, use.is_lossy)
            if use.is_lossy or draw.random() < 0.5
            else to_members(draw)
        )
        if not use.avoids or ring.quorum[0] - ring.quorum[1] > 1:
            return ring, text


def make_plan(draw: random.Random, use: Use) -> tuple[Ring, str, set[str]] | None:
    """A ring, the bundle of a plan with copies, and the nodes that are dead from the start."""
    dead = set[str]()
    if use.by_hand:
        ring, bundle = write_by_hand(draw)
    else:
        ring, text = make_change(draw, use)
        if use.avoids or draw.random() < 0.25:
            dead = {draw.choice(sorted(ring.members))}
        bundle = ask(["goal", *(word for x in dead for word in ("--dead", x))], text)[0]
    return (ring, bundle, dead) if "\ncopy " in bundle else None


def last_table(ring: Ring, steps: Sequence[texts.Step]) -> Table:
    """The table after all steps."""
    table = Table(ring)
    for step in steps:
        if step.kind != "copy":
            table.take(step)
    return table


class Story:
    """A change that goes on by other plans."""

    def __init__(
        self, ring: Ring, bundle: str, dead: set[str], use: Use, draw: random.Random
    ) -> None:
        self.ring, self.bundle, self.use, self.draw = ring, bundle, use, draw
        self.machine = Machine(ring, texts.read_plan(bundle)[1].steps)
        self.traffic = Traffic(self.machine, draw, draw.choice([0, 0, 0.5, 0.9]))
        self.ends = Counter[str]()
        # The table to which the first plan was to lead.
        self.wished = last_table(ring, self.machine.steps)
        self.die(dead)

    def history(self) -> str:
        return with_history("", self.machine.entries)

    def judge(self) -> None:
        """What the store did is a run, and it leads to the store's owners."""
        first, *rest = ask(["replay"], self.bundle + self.history())[0].splitlines()
        if first != "yes":
            entry = self.machine.entries[int(first.split()[2])] if first.startswith("no 70") else ""
            raise Wrong("a right store is refused: %s: %s" % (first, entry))
        rows = [
            map(self.machine.table.owner.__getitem__, self.machine.row(p))
            for p in range(len(self.ring.rows))
        ]
        if rest[:-1] != ["slots %d %s" % (p, " ".join(row)) for p, row in enumerate(rows)]:
            raise Wrong("owners: replay says others than the store's")
        if self.machine.lost():
            raise Wrong("puts are lost: %s" % self.machine.lost())

    # What happens before the program is asked.
    def die(self, dead: set[str]) -> None:
        self.traffic.dead |= dead
        for x in sorted(dead):
            self.machine.go_down(x)

    def go_on(self) -> None:
        """A part of the plan is done; most often a copy is left in its middle."""
        for _ in range(self.draw.randrange(8)):
            self.traffic.put()
        total = sum(CHUNKS // 2 if step.kind == "copy" else 1 for step in self.machine.steps)
        self.traffic.run(self.draw.randrange(1, total // 2 + 3))
        for _ in range(40 if self.draw.random() < 0.7 else 0):
            if self.begun():
                break
            self.traffic.run(1)
        for k in self.begun():
            for c in self.draw.sample(range(CHUNKS), self.draw.randrange(CHUNKS)):
                self.machine.chunk(k, c)

    def begun(self) -> list[int]:
        """The copies that have a chunk and are not done."""
        progress = self.machine.progress
        return [k for k in progress.marks if progress.marks[k] and k not in progress.done]

    def strike(self) -> None:
        """Nodes die. Copies that need them are broken off, or stay open."""
        machine, draw = self.machine, self.draw
        copies = [machine.steps[k] for k in self.begun()] or machine.steps_left("copy")
        sources = {machine.table.owner[it] for step in copies for it in machine.sources(step)}
        targets = {*map(node_of, machine.steps_left("mirror")), *machine.table.mirror.values()}
        groups = [
            sources,
            sources,
            sources,
            targets,
            {x for x, _ in machine.hints()},
            machine.table.members,
        ]
        for _ in range(self.use.deaths):
            some = (
                draw.choice(groups) - self.traffic.dead or set(self.ring.names) - self.traffic.dead
            )
            self.die({draw.choice(sorted(some))})
        for k in sorted(machine.progress.open):
            if (
                self.traffic.dead.intersection(machine.parties(machine.steps[k]))
                and draw.random() < 0.6
            ):
                machine.abort(k)

    def choose_left(self) -> list[Slot]:
        """Slots that a step to come moves, or that stay mirrored; of several at least one whose
        move has begun, if there is one.
        """
        machine = self.machine
        left = sorted(
            {slot_of(step) for step in machine.steps_left("switch")} | set(machine.table.mirror)
        )
        begun = [slot for slot in left if slot in machine.table.mirror]
        chosen = set(self.draw.sample(left, min(len(left), self.use.leaves)))
        if begun and chosen and not chosen.intersection(begun):
            chosen = {*sorted(chosen)[1:], self.draw.choice(begun)}
        return sorted(chosen)

    # The question.
    def ask_around(self) -> bool:
        """Asks for another plan, and goes on by it.

        Returns whether there was anything to ask for.
        """
        left, machine = self.choose_left(), self.machine
        words = self.use.words(self.traffic.dead, left)
        if len(words) == 1 or self.use.leaves and not left:
            return False
        text = self.bundle + self.history()
        out, said, status = ask([*words, "--all"], text)
        if status:
            raise Wrong("no plan: %s" % " ".join([*words, said.strip()]))
        see_refused(words, text)
        bundle, history = "".join(sections(out)[:3]), sections(out)[3]
        if ask(["check"], bundle)[0] != "yes\n":
            raise Wrong("the checker refuses the plan")
        if ask(["replay"], out)[2]:
            raise Wrong("replay refuses the new history")
        plan = Answer(
            self, texts.read_plan(bundle)[1].steps, left, history.splitlines()[1:-1], said
        )
        plan.see_steps()
        plan.see_ends()
        plan.see_dead_keepers()
        heed(said, self.ring, plan.steps)
        self.choose_again(words, text, bundle, out)
        earlier = machine.steps, machine.entries
        taken = machine.go_over(plan.steps, plan.entries)
        compare(earlier, (plan.steps, plan.entries), set(taken))
        see_spared(machine, self.traffic.dead)
        self.ends[ending(said, sections(bundle)[1] == sections(self.bundle)[1])] += 1
        if (
            "copies have all chunks; plan" not in said
            and self.use.back
            and any(machine.table.mirror[slot] in self.traffic.dead for slot in stuck(machine))
        ):
            raise Wrong("a slot stays mirrored to a dead node: " + said)
        self.bundle = bundle
        return True

    def choose_again(self, words: list[str], text: str, bundle: str, answer: str) -> None:
        """By the plan that was printed, and is chosen now, the history goes on in the same way.

        By the old plan too, or there is no such history.
        """
        out, said, status = ask(words, text + bundle)
        if status or out != answer:
            raise Wrong("not the history by the chosen plan: " + said)
        out, said, status = ask(words, text + self.bundle)
        if status == 0 and "".join(sections(out)[:3]) != self.bundle or status not in (0, 1):
            raise Wrong("not the old plan, which was chosen: " + said)
        self.ends[
            "old plans that were chosen again and %s" % ("do" if status == 0 else "do not do")
        ] += 1

    # The end.
    def finish(self) -> None:
        has_ended = self.traffic.finish()
        self.traffic.read_all()
        self.judge()
        if has_ended:
            self.ends["changes that come to their end"] += 1
            if not self.traffic.dead:
                self.go_back()
            return
        for k in filter(self.machine.is_ready, range(len(self.machine.steps))):
            if not self.waits_for_dead(k):
                raise Wrong("a step is left: %d, %s" % (k, self.machine.steps[k].line()))
        self.ends["changes that wait for hints of the dead"] += 1

    def go_back(self) -> None:
        """The ring after the change has a plan back to the ring before it, and one to the ring to
        which the change was to lead.
        """
        after, said, status = ask(["after"], self.bundle + self.history())
        if status:
            raise Wrong("after: " + said)
        rows = [
            [self.wished.owner[slot] for slot in self.machine.row(p)]
            for p in range(len(self.ring.rows))
        ]
        for what, goal in (
            ("back", self.ring.text(self.ring.members, self.ring.rows)),
            ("on", self.ring.text(self.wished.members, rows)),
        ):
            out, said, status = ask(["goal"], after + goal)
            if status:
                raise Wrong("no way %s: %s" % (what, said))
            self.ends["ways " + what] += 1
            if ask(["check"], out)[0] != "yes\n":
                raise Wrong("the checker refuses the way " + what)

    def waits_for_dead(self, number: int) -> bool:
        """Whether the step waits for hints that a dead node keeps, or whose slots it serves."""
        machine, step, dead = self.machine, self.machine.steps[number], self.traffic.dead
        hints = [
            (x, slot)
            for x, slot in machine.hints()
            if dead.intersection([x, *machine.table.nodes(slot)])
        ]
        if step.kind == "copy":
            return any(slot in machine.sources(step) and x in dead for x, slot in hints)
        if step.kind == "mirror":
            return any(
                x == step.node and slot[0] == step.partition and slot != slot_of(step)
                for x, slot in hints
            )
        return step.kind == "retire" and any(x == step.node for x, _ in hints)


def stuck(machine: Machine) -> list[Slot]:
    """The slots whose mirrors no step to come makes their owners."""
    return sorted(
        set(machine.table.mirror) - {slot_of(step) for step in machine.steps_left("switch")}
    )


class Answer(NamedTuple):
    """What was printed, before the store goes on by it."""

    story: Story
    steps: Sequence[texts.Step]
    left: Sequence[Slot]
    entries: list[str]
    said: str

    def copy_of(self, slot: Slot) -> int:
        """The old plan's copy to the slot's mirror; -1 if the mirror stays without one."""
        machine = self.story.machine
        moves = [k for k, step in enumerate(machine.steps) if (step.partition, step.slot) == slot]
        mirror = max(
            k for k in moves if machine.steps[k].kind == "mirror" and k in machine.progress.done
        )
        return min((k for k in moves if machine.steps[k].kind == "copy" and k > mirror), default=-1)

    def may_cancel(self, slot: Slot) -> bool:
        """Whether the slot's mirror, which is set, is to be taken back though no node is dead."""
        machine, use, copy = self.story.machine, self.story.use, self.copy_of(slot)
        if (
            slot in self.left
            and copy not in machine.progress.done
            and not machine.progress.is_whole(copy)
        ):
            return True
        return (
            use.rest
            and use.back
            and copy not in machine.progress.done
            and not machine.progress.marks[copy]
        )

    def dead_partitions(self) -> set[int]:
        """The partitions with which a dead node has to do."""
        machine, dead = self.story.machine, self.story.traffic.dead
        found = {slot[0] for x, slot in machine.hints() if x in dead}
        found |= {
            slot[0] for slot in machine.table.owner if dead.intersection(machine.table.nodes(slot))
        }
        return found | {
            slot_of(step)[0]
            for kind in ("mirror", "drop")
            for step in machine.steps_left(kind)
            if step.node in dead
        }

    def see_steps(self) -> None:
        """The plan has the steps that are to stay, and no others, as far as no dead node has to do
        with them.
        """
        if "copies have all chunks; plan" in self.said:
            return
        dead, is_near = self.story.traffic.dead, "no better plan" in self.said
        if is_near and not dead:
            raise Wrong("no better plan, and no node is dead: " + self.said)
        but = self.dead_partitions() | ({p for p, _ in self.left} if is_near else set())
        ours, theirs = Stayers(self).steps(), self.steps
        kept, found = (
            Counter(named(step) for step in steps if step.partition not in but)
            for steps in (ours, theirs)
        )
        for step in (kept - found) | (found - kept):
            if step[1] is not None or not dead:
                raise Wrong(
                    "a step is %s: %s"
                    % ("missing" if kept[step] > found[step] else "too much", step)
                )

    def see_ends(self) -> None:
        """Members end as they were to end."""
        machine, use, dead = self.story.machine, self.story.use, self.story.traffic.dead
        first, last = (last_table(self.story.ring, steps) for steps in (machine.steps, self.steps))
        stay = (
            dead
            | set(last.owner.values())
            | set(last.mirror.values())
            | {x for x, _ in machine.hints()}
        )
        if (
            not use.rest
            and "copies have all chunks; plan" not in self.said
            and (first.members ^ last.members) - stay
        ):
            raise Wrong("members end otherwise: %s" % sorted((first.members ^ last.members) - stay))

    def see_dead_keepers(self) -> None:
        """Each slot that ends with a dead node is spoken of."""
        owners = last_table(self.story.ring, self.steps).owner
        for slot in sorted(
            slot for slot, owner in owners.items() if owner in self.story.traffic.dead
        ):
            if "slot %d.%d " % slot not in self.said:
                raise Wrong("a dead node keeps a slot, and nothing is said of slot %d.%d" % slot)


def named(step: texts.Step) -> tuple[object, ...]:
    """The step without its number, and without the steps that it waits for."""
    return step.kind, step.partition, step.slot, step.node, step.slots


class Stayers:
    """The steps of the old plan that stay if no dead node has to do with them: all that is done,
    and what `--rest` and `--leave` let.
    """

    def __init__(self, answer: Answer) -> None:
        self.answer, self.machine, self.use = answer, answer.story.machine, answer.story.use
        self.table = Table(self.machine.ring)
        # Slots that do not move on, and what nodes have of slots.
        self.cut, self.full = set[Slot](), {(slot, x) for slot, x in self.table.owner.items()}

    def steps(self) -> list[texts.Step]:
        stay = [
            (k, step)
            for k, step in enumerate(self.machine.steps)
            if step.kind != "retire" and self.stays(k, step)
        ]
        for k, step in enumerate(self.machine.steps):
            if step.kind == "retire" and (
                k in self.machine.progress.done or self.retires(node_of(step))
            ):
                stay.append((k, step))
        return [step for _, step in stay]

    def retires(self, node: str) -> bool:
        return node in self.table.members and all(x != node for _, x in self.full)

    def stays(self, k: int, step: texts.Step) -> bool:
        """Takes in a step, in the order of the plan."""
        if step.kind == "join":
            stays = k in self.machine.progress.done or not self.use.rest
        elif step.kind == "mirror":
            stays = self.mirrors(k, step)
        elif step.kind == "drop":
            stays = (slot_of(step), step.node) in self.full and self.table.owner[
                slot_of(step)
            ] != step.node
        else:
            stays = slot_of(step) not in self.cut
        if stays and step.kind != "copy":
            self.take(step)
        return stays

    def take(self, step: texts.Step) -> None:
        self.table.take(step)
        if step.kind == "mirror":
            self.full.add((slot_of(step), node_of(step)))
        if step.kind == "drop":
            self.full.discard((slot_of(step), node_of(step)))

    def mirrors(self, k: int, step: texts.Step) -> bool:
        slot, node, done = slot_of(step), node_of(step), self.machine.progress.done
        is_set = (
            k in done and self.machine.table.mirror.get(slot) == node and not self.is_over(k, slot)
        )
        others = {x for it in self.machine.row(slot[0]) if it != slot for x in self.table.nodes(it)}
        if (
            k not in done
            and (self.use.rest or slot in self.answer.left or node in others)
            or is_set
            and self.answer.may_cancel(slot)
        ):
            self.cut.add(slot)
        return slot not in self.cut

    def is_over(self, k: int, slot: Slot) -> bool:
        """Whether a later switch of the slot is done."""
        return any(
            self.machine.steps[d].kind == "switch"
            and slot_of(self.machine.steps[d]) == slot
            and d > k
            for d in self.machine.progress.done
        )


def see_refused(words: list[str], text: str) -> None:
    """A history that is not a run is refused as `replay` refuses it."""
    wrong = text[: -len("end\n")] + "ack 99999 = ok\nend\n"
    line, _, owed = ask(["replay"], wrong)
    out, said, status = ask(words, wrong)
    if (out, said[: len(line)], status) != ("", line, owed):
        raise Wrong("a history that is not a run: %s, replay: %s" % (said, line))


def chunks_of(steps: Sequence[texts.Step], entries: Sequence[str]) -> Iterator[tuple[Slot, str]]:
    """The slot and the chunk of each entry of a chunk."""
    for entry in entries:
        word, *fields = entry.split()
        if word == "chunk":
            yield slot_of(steps[int(fields[0])]), fields[1]


def is_same(one: str, other: str, taken: set[Slot]) -> bool:
    """Whether an entry of a client is as it was; of these slots the generation may be lower."""
    ours, theirs = one.split(), other.split()
    if one == other or "ticket" not in ours or ours[:-1] != theirs[:-1]:
        return one == other
    return (int(ours[-3]), int(ours[-2])) in taken and int(theirs[-1]) < int(ours[-1])


Told = tuple[Sequence[texts.Step], Sequence[str]]


def compare(earlier: Told, later: Told, taken: set[Slot]) -> None:
    """The later history has what clients did, but for what this file's head says."""
    gone = Counter(chunks_of(*earlier)) - Counter(chunks_of(*later))
    chunks, others = chunks_of(*earlier), [
        entry for entry in later[1] if entry.split()[0] not in STEPPED
    ]
    # How many entries of the later history may be compared already.
    counts = {0}
    for entry in earlier[1]:
        word = entry.split()[0]
        if word == "chunk":
            slot, chunk = next(chunks)
            ticket = "= ticket %d %d " % slot
            for count in sorted(counts) if (slot, chunk) in gone else ():
                while (
                    count < len(others)
                    and others[count].startswith("write ")
                    and ticket in others[count]
                ):
                    count += 1
                    counts.add(count)
        elif word not in STEPPED:
            counts = {
                it + 1 for it in counts if it < len(others) and is_same(entry, others[it], taken)
            }
            if not counts:
                raise Wrong("an entry of clients is gone, or another one: %s" % entry)
    if len(others) not in counts:
        raise Wrong("entries of clients are added")


def see_spared(machine: Machine, dead: set[str]) -> None:
    """No step to come asks anything of the dead, if all are done in the order of the plan."""
    table = Table(machine.ring)
    for k, step in enumerate(machine.steps):
        asked = {step.node}
        if step.kind == "copy":
            asked = {
                table.mirror[slot_of(step)],
                *(table.owner[it] for it in machine.sources(step)),
            }
        else:
            table.take(step)
        if asked & dead and k not in machine.progress.done and not machine.progress.is_whole(k):
            raise Wrong("the dead are asked: step %d, %s" % (k, step.line()))


# What a line of a slot says, and what a sum of such lines says.
SAID = [
    (
        r"is mirrored to ([a-z0-9]+) no longer",
        r"slots? (?:is|are) no longer mirrored to (.*?)(?:: |$)",
    ),
    (r"goes to ([a-z0-9]+)", r"slots? goe?s? to (.*?)(?:: | in place of | all the same|$)"),
    (r"stays at ([a-z0-9]+)", r"slots? stays? at (.*?)(?:: |, since |, as |, which |$)"),
    (
        r"stays mirrored to ([a-z0-9]+)",
        r"slots? stays? mirrored to (.*?)(?:: |, since |, which |; |$)",
    ),
    (
        r"is to be mirrored to ([a-z0-9]+) again",
        r"slots? (?:is|are) to be mirrored again to (.*?)(?:: |$)",
    ),
]


def see_sums(words: str) -> None:
    """The sums by node are those of the lines."""
    lines = [line for line in words.splitlines() if re.match(r"slot \d", line)]
    sums = [line for line in words.splitlines() if re.match(r"\d+ slots? ", line)]
    for one, many in SAID:
        counts = Counter(found[1] for line in lines for found in [re.search(one, line)] if found)
        told = Counter[str]()
        for line in sums:
            found = re.match(r"(\d+) " + many, line)
            if found:
                parts = {
                    x: int(count) for x, count in re.findall(r"([a-z0-9]+) \((\d+)\)", found[2])
                }
                if sum(parts.values()) != int(found[1]):
                    raise Wrong("a sum is not that of its nodes: " + line)
                told.update(parts)
        if told != counts:
            raise Wrong("sums are not those of the lines: " + words)


def heed(words: str, ring: Ring, steps: Sequence[texts.Step]) -> None:
    """Each slot is spoken of in one line at most. It stays where that says, or goes there.

    A plan by hand may move it on from there."""
    table = Table(ring)
    owners = {slot: [owner] for slot, owner in table.owner.items()}
    for step in steps:
        if step.kind != "copy":
            table.take(step)
        if step.kind == "switch":
            owners[slot_of(step)].append(table.owner[slot_of(step)])
    spoken = re.findall(r"^slot (\d+)\.(\d+) (.*)$", words, re.MULTILINE)
    if len({(p, i) for p, i, _ in spoken}) < len(spoken):
        raise Wrong("two lines of one slot: " + words)
    for p, i, text in spoken:
        end, of_slot = re.search(r"(goes to|stays at) ([a-z0-9]+)", text), owners[int(p), int(i)]
        if end and end[2] not in (of_slot if end[1] == "goes to" else of_slot[-1:]):
            raise Wrong(
                "false words: slot %s.%s has the owners %s: %s" % (p, i, ", ".join(of_slot), text)
            )
        mirrored = re.search(r"stays mirrored to ([a-z0-9]+)", text)
        if mirrored and table.mirror.get((int(p), int(i))) != mirrored[1]:
            raise Wrong("false words: slot %s.%s: %s" % (p, i, text))
    see_sums(words)


def ending(words: str, is_same_plan: bool) -> str:
    if "copies have all chunks; plan" in words:
        return "no better plan than the moves whose copies have all chunks"
    if "no better plan" in words:
        return "no better plan than the moves that have begun"
    if "stays mirrored" in words:
        return "a slot stays mirrored"
    if "no longer" in words:
        return "a mirror is taken back"
    if "in place of" in words:
        return "other targets"
    if "cannot take it" in words or "can be read" in words:
        return "slots stay at their owners"
    return "the same plan" if is_same_plan else "another plan, each slot goes where it was to go"


def attempt(seed: int, use: Use, tally: Counter[str]) -> None:
    draw = random.Random(seed)
    made = make_plan(draw, use)
    if made is None:
        tally["changes without a plan or a copy"] += 1
        return
    story = Story(*made, use, draw)
    try:
        for _ in range(use.times):
            story.go_on()
            story.strike()
            story.judge()
            is_begun = bool(story.begun())
            tally["uses"] += story.ask_around()
            tally["in the middle of a copy"] += is_begun
        story.finish()
    finally:
        tally.update(story.ends)


def take_back_many(count: int) -> None:
    """So many slots are mirrored to a node that dies, with tickets of puts: all mirrors are taken
    back.
    """
    space = 1 << (count - 1).bit_length()
    ring = Ring(
        1, ["a", "b", "c"], {x: (4,) for x in "abc"}, (1, 1, 1), set("abc"), [["a"]] * space
    )
    plan = ["plan 1"]
    for p in range(count):
        plan += [
            "mirror %d 0 b" % p,
            "copy %d 0 owner after %s" % (p, "%d %d" % (4 * p - 3, 4 * p) if p else "0"),
        ]
        plan += ["switch %d 0 after %d" % (p, 4 * p + 1), "drop %d 0 a after %d" % (p, 4 * p + 2)]
    bundle, said, status = ask(
        ["cert"], ring.text(ring.members, ring.rows) + "\n".join([*plan, "end", ""])
    )
    if status:
        raise Wrong("cert: " + said)
    machine = Machine(ring, texts.read_plan(bundle)[1].steps)
    for p in range(count):
        machine.do(4 * p)
    for number in range(64):
        v = machine.start_put("w", "k%d" % number)
        machine.write(v, 0)
        machine.ack(v)
    history = with_history("", machine.entries)
    words = ["around", "--dead", "b", "--back"]
    out, said, status = ask([*words, "--all"], bundle + history)
    if status or ask(["replay"], out)[2] or said.count("is mirrored to b no longer") != count:
        raise Wrong("%d mirrors are taken back: %s" % (count, said[:200]))
    again, said, status = ask(words, bundle + history)
    if (
        again != out
        or "%d slots are no longer mirrored to b (%d): " % (count, count) not in said
        or len(said.splitlines()) > 5
    ):
        raise Wrong("%d mirrors are taken back, without --all: %s" % (count, said[:500]))


def keep_what_the_dead_had() -> None:
    """The least case: a put that only the dead owner has, and its mirror by the one chunk that was
    given.
    """
    ring = Ring(
        1, list("abcd"), {x: (4,) for x in "abcd"}, (3, 2, 2), set("abc"), [list("abc")] * 4
    )
    text = ring.text(ring.members, ring.rows) + "change 1\njoin d\nleave b\nend\n"
    story = Story(ring, ask(["goal"], text)[0], set(), USES[0], random.Random(0))
    machine, story.traffic.keys = story.machine, ["k54"]
    machine.do(0)
    machine.write(machine.start_put("w", "k54"), 1)
    machine.do(1)
    machine.open_copy(2)
    machine.chunk(2, place("k54", 6) % CHUNKS)
    story.die({"b"})
    story.ask_around()
    story.finish()


# A node keeps a hint for the very slot that is to go to it.
HINT = """ring 1
space 1
quorum 3 2 2
node a 4 in
node b 4 in
node c 4 in
node d 4 out
slots 0 a b c
end
plan 1
join d
mirror 0 1 d after 0
copy 0 1 slots 0 2 after 1
switch 0 1 after 2
end
cert 1
chain a 2
chain c 2
chain d 2
end
history 1
do 0 = ok
down b = ok
put w k x = put 0
write 0 0 = ticket 0 0 0
hint 0 1 d = ticket 0 1 0
end
"""
# A copy reads a slot after its switch, whose target dies with a full copy. It can read the slot
# before the switch.
CIRCLE = """ring 1
space 1
quorum 3 2 2
node a 4 in
node b 4 in
node c 4 in
node d 4 in
node e 4 in
slots 0 a b c
end
plan 1
mirror 0 2 d
copy 0 2 owner after 0
switch 0 2 after 1
mirror 0 0 e
copy 0 0 slots 1 2 after 2 3
switch 0 0 after 4
end
cert 1
fact 1 2 4
chain b 4
chain c 1
chain d 1 4
chain e 4
end
history 1
do 0 = ok
open 1 = ok
%sclose 1 = ok
end
""" % "".join(
    "chunk 1 %d = ok\n" % c for c in range(CHUNKS)
)


# Two targets die with full copies. Slot 0 is to be read by way of both, and the one switch comes
# after the other.
STUCK = """plan 1
mirror 0 2 d
copy 0 2 owner after 0
switch 0 2 after 1
mirror 0 1 f
copy 0 1 owner after 3
switch 0 1 after 2 4
mirror 0 0 e
copy 0 0 slots 1 2 after 2 5 6
switch 0 0 after 7
end
"""


def see_last_ways() -> None:
    """If no plan does all, moves that have begun are ended, or at least those whose copies have all
    chunks.
    """
    ring = Ring(
        1, list("abcdef"), {x: (4,) for x in "abcdef"}, (3, 2, 2), set("abcdef"), [list("abc")]
    )
    bundle = ask(["cert"], ring.text(ring.members, ring.rows) + STUCK)[0]
    for is_begun, back, needed in (
        (False, False, "as by --rest"),
        (True, False, "copies have all chunks"),
        (True, True, "copies have all chunks"),
    ):
        machine = Machine(ring, texts.read_plan(bundle)[1].steps)
        for k in (0, 3, *([6] if is_begun else [])):
            machine.do(k)
        for k in (1, 4):
            machine.open_copy(k)
            for c in range(CHUNKS):
                machine.chunk(k, c)
            machine.close(k)
        history = with_history("", machine.entries)
        out, said, status = ask(
            ["around", "--dead", "b", "--dead", "d", *(["--back"] if back else []), "--all"],
            bundle + history,
        )
        if status or needed not in said or ask(["replay"], out)[2] or out.count("\nswitch ") != 2:
            raise Wrong("around with no good plan: %s%s" % (out, said))
        heed(said, ring, texts.read_plan("".join(sections(out)[:3]))[1].steps)
        if is_begun and not back:
            out, said, status = ask(["around", "--leave", "0.0"], out)
        if status or ask(["replay"], out)[2] or out.count("\nmirror ") != 2:
            raise Wrong("the last mirror stays: %s%s" % (out, said))


def see_small_cases() -> None:
    """Two bundles with a plan that is easily missed."""
    for dead, text, needed in (("b", HINT, "mirror 0 1 d"), ("d", CIRCLE, "copy 0 0 slots 1 2")):
        out, said, status = ask(["around", "--dead", dead], text)
        if status or needed not in out or "no better plan" in said or ask(["replay"], out)[2]:
            raise Wrong("around --dead %s: %s %s" % (dead, out, said))


def see_words_refused() -> None:
    """Lines that ask for nothing, or for a slot that stays anyway."""
    for words, owed, needed in (
        (["around"], 2, "--rest"),
        (["around", "--back", "--all"], 2, "--leave"),
        (["around", "--leave", "0"], 2, "--leave <P.I>"),
        (["around", "--leave", "0.-1"], 2, "--leave <P.I>"),
        (
            ["around", "--leave", "0.0"],
            1,
            "no 28\nrefused: --leave 0.0: no step that is to come moves this slot\n",
        ),
        (
            ["around", "--rest", "--leave", "0.7", "--leave", "1.0"],
            1,
            "refused: --leave 1.0: no step",
        ),
    ):
        out, said, status = ask(words, HINT)
        if out or status != owed or needed not in said:
            raise Wrong("%s: status %d: %s" % (" ".join(words), status, said))


def is_right(call: Callable[[], None], what: str, tally: Counter[str]) -> bool:
    try:
        call()
    except Wrong as fault:
        print("WRONG: %s: %s" % (what, fault), flush=True)
        tally["WRONG, " + str(fault).split(":")[0]] += 1
        return False
    return True


def main() -> int:
    parser = argparse.ArgumentParser(
        prog="trials/around.py", description="Tries `ringplan around` from outside."
    )
    parser.add_argument(
        "count", nargs="?", type=int, default=10, help="changes for each use (default: %(default)s)"
    )
    parser.add_argument("--all", action="store_true", help="600 changes for each use")
    parser.add_argument(
        "--first", type=int, default=0, metavar="SEED", help="the seed of the first change"
    )
    names = [use.name for use in USES]
    parser.add_argument("--use", nargs="+", choices=names, help="these uses only")
    words = parser.parse_args()
    total = Counter[str]()
    wrong = int(not is_right(keep_what_the_dead_had, "one put, one chunk", total))
    wrong += not is_right(lambda: take_back_many(4_000), "4,000 mirrors", total)
    wrong += not is_right(see_small_cases, "small cases", total)
    wrong += not is_right(see_last_ways, "last ways", total)
    wrong += not is_right(see_words_refused, "command lines", total)
    for use in USES:
        if words.use and use.name not in words.use:
            continue
        tally = Counter[str]()
        for seed in range(words.first, words.first + (600 if words.all else words.count)):
            wrong += not is_right(
                lambda: attempt(seed, use, tally), "%s, seed %d" % (use.name, seed), tally
            )
        print(
            "%s: %s"
            % (use.name, ", ".join("%d %s" % (n, what) for what, n in sorted(tally.items()))),
            flush=True,
        )
        total += tally
    print("all uses: " + ", ".join("%d %s" % (n, what) for what, n in sorted(total.items())))
    print("%d wrong" % wrong)
    return 1 if wrong else 0


if __name__ == "__main__":
    sys.exit(main())
