"""What happens to the store of `machine.py`, at random: puts, gets, hints, outages, losses, and the
steps of a plan.
"""

import itertools
import random

from changes import place
from machine import CHUNKS, Machine, slot_of

# How many writers there are: enough that most puts of a key do not succeed one another.
WRITERS = 12
# How many of the steps that may be done next are looked at.
AHEAD = 8


def choose_keys(machine: Machine, draw: random.Random) -> list[str]:
    """Keys: three in each of some partitions whose slots move, and three more."""
    moved = sorted({slot_of(step)[0] for step in machine.steps if step.kind == "copy"})
    names = ("k%d" % number for number in itertools.count(draw.randrange(1000)))
    chosen = [p for p in draw.sample(moved, min(len(moved), 4)) for _ in range(3)]
    there = [next(key for key in names if place(key, machine.bits) == p) for p in chosen]
    return there + list(itertools.islice(names, 3))


class Traffic:
    """Clients that put and get these keys, and one worker.

    Nodes that are dead do not come up again.
    """

    def __init__(self, machine: Machine, draw: random.Random, hints: float) -> None:
        self.machine, self.draw, self.hints = machine, draw, hints
        self.keys = choose_keys(machine, draw)
        self.dead = set[str]()

    # Clients.
    def put(self) -> None:
        """A put that is written to one slot only, or to some or most; with hints for some of the
        others.
        """
        machine, draw, key = self.machine, self.draw, self.draw.choice(self.keys)
        ended = [
            g for g, get in enumerate(machine.gets) if get.key == key and get.reply is not None
        ][-4:]
        seen = sorted(draw.sample(ended, min(len(ended), draw.choice([0, 0, 1, 2]))))
        v, share = machine.start_put("w%d" % draw.randrange(WRITERS), key, seen), draw.choice(
            [0, 0, 0.5, 0.9]
        )
        for i in draw.sample(range(machine.n), machine.n) if share else [self.choose_slot(key)]:
            if share and draw.random() >= share or not machine.write(v, i):
                if draw.random() < self.hints:
                    self.hint(v, i)
        machine.ack(v)

    def choose_slot(self, key: str) -> int:
        """A slot of the key's partition: most often one that a copy to come reads."""
        machine, draw, partition = self.machine, self.draw, place(key, self.machine.bits)
        coming = sorted(
            {
                i
                for step in machine.steps_left("copy")
                for p, i in machine.sources(step)
                if p == partition
            }
        )
        return draw.choice(coming) if coming and draw.random() < 0.8 else draw.randrange(machine.n)

    def hint(self, v: int, i: int) -> None:
        names = self.machine.ring.names
        any(self.machine.hint(v, i, x) for x in self.draw.sample(names, len(names)))

    def put_again(self) -> None:
        """A put without an acknowledgement is written to one slot more, or asks for it."""
        machine, draw = self.machine, self.draw
        left = [v for v, put in enumerate(machine.puts) if not put.is_acked][-6:]
        if left:
            v = draw.choice(left)
            if draw.random() < 0.7:
                machine.write(v, draw.randrange(machine.n))
            machine.ack(v)

    def get(self, key: str, slots: int) -> None:
        self.go_on_reading(self.machine.start_get(key), slots)

    def go_on_reading(self, g: int, slots: int) -> None:
        for i in self.draw.sample(range(self.machine.n), slots):
            self.machine.read(g, i)
        self.machine.end_get(g)

    def get_some(self) -> None:
        """A get that reads some slots, or goes on with what it began before."""
        machine, draw = self.machine, self.draw
        begun = [g for g, get in enumerate(machine.gets) if get.reply is None][-4:]
        if begun and draw.random() < 0.5:
            self.go_on_reading(draw.choice(begun), machine.n)
        else:
            self.get(draw.choice(self.keys), draw.randrange(machine.n + 1))

    def read_all(self) -> None:
        for key in self.keys:
            self.get(key, self.machine.n)

    # Nodes.
    def hand_off(self) -> bool:
        hints = sorted(self.machine.hints())
        return any(self.machine.hand_off(*it) for it in self.draw.sample(hints, len(hints)))

    def turn(self) -> None:
        """A node goes down, or all that may come up do."""
        if self.machine.table.members - self.machine.reached - self.dead:
            self.come_up()
        else:
            self.machine.go_down(self.draw.choice(self.machine.ring.names))

    def come_up(self) -> bool:
        return any(
            [self.machine.come_up(x) for x in sorted(self.machine.table.members - self.dead)]
        )

    def lose(self) -> None:
        table = self.machine.table
        self.machine.lose(
            self.draw.choice(sorted(set(table.mirror.values()) & table.members or table.members))
        )

    def happen(self, outages: float = 0.1, losses: float = 0.05) -> None:
        """One thing that is not the worker's."""
        draw = self.draw
        if draw.random() < losses:
            self.lose()
        elif draw.random() < outages:
            self.turn()
        elif draw.random() < 0.1:
            self.hand_off()
        elif draw.random() < 0.3:
            self.get_some()
        else:
            (self.put if draw.random() < 0.7 else self.put_again)()

    # The worker.
    def work(self, aborts: float = 0.02) -> bool:
        """Does something of a step, if anything may be done."""
        ready = [k for k in range(len(self.machine.steps)) if self.machine.is_ready(k)][:AHEAD]
        return any(self.go_on(k, aborts) for k in self.draw.sample(ready, len(ready)))

    def go_on(self, step: int, aborts: float) -> bool:
        machine, draw = self.machine, self.draw
        if machine.steps[step].kind != "copy":
            return machine.do(step)
        if step not in machine.progress.open:
            return machine.open_copy(step)
        left = [c for c in range(CHUNKS) if c not in machine.progress.marks[step]]
        if not left:
            return machine.close(step)
        if draw.random() < aborts:
            return machine.abort(step)
        count = min(len(left), draw.choice([1, 4, CHUNKS]))
        return any([machine.chunk(step, c) for c in draw.sample(left, count)])

    def run(self, count: int) -> None:
        """So many things happen, most of them the worker's."""
        for _ in range(count):
            if self.draw.random() < 0.25 or not self.work():
                self.happen()

    def finish(self) -> bool:
        """Goes on until the plan has ended, or nothing more can be done.

        Returns whether it has ended.
        """
        machine = self.machine
        while len(machine.progress.done) < len(machine.steps):
            if self.draw.random() < 0.15:
                self.happen()
            elif not self.work() and not self.come_up() and not self.hand_off():
                return False
        self.come_up()
        return True
