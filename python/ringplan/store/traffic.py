"""Clients, faults and handoffs beside a plan: what a store lives with while its ring changes."""

from __future__ import annotations

import contextlib
import random
import threading
import time
from collections.abc import Callable
from concurrent.futures import ThreadPoolExecutor
from dataclasses import dataclass
from functools import partial

from ringplan.store.coordinator import Store
from ringplan.store.executor import Executor
from ringplan.store.history import Get, Judged, Refused
from ringplan.store.members import Member
from ringplan.store.nodes import Gone


@dataclass
class Load:
    """How much traffic there is, and how often servers die.

    Times are seconds. `halves` is the part of puts whose client ends after the first slot.
    """

    seed: int = 1
    clients: int = 5
    operations: int = 80
    keys: int = 60
    workers: int = 2
    pace: float = 0.02
    faults: float = 0.5
    outage: float = 0.5
    handoffs: float = 0.1
    deaths: float = 0.01
    limit: float = 60.0
    halves: float = 0.0
    loses: bool = False
    wipes: bool = False


class Run:
    """One run of a plan under a load."""

    def __init__(
        self, store: Store, executor: Executor, load: Load, dead: tuple[str, ...] = ()
    ) -> None:
        self.store, self.executor, self.load, self.dead = store, executor, load, dead
        self.finished, self.kills = threading.Event(), 0
        # Held while a server is dead that comes back.
        self.killing = threading.Lock()
        self.until = time.time() + load.limit
        # The judge beside the run, if there is one.
        self.judged: Judged | None = None

    def guard(self, call: Callable[..., object], *words: object) -> None:
        """Calls something that ends once the judge refuses an entry."""
        try:
            call(*words)
        except Refused:
            self.until = 0.0

    def draw(self, who: str) -> random.Random:
        return random.Random(f"{self.load.seed} {who}")

    def client(self, number: int) -> None:
        """Gets and puts of random keys; most puts know the client's last get of their key."""
        draw, last, count = self.draw(f"client {number}"), dict[str, Get](), 0
        while (
            (count < self.load.operations or not self.executor.is_done())
            and count < 20 * self.load.operations
            and time.time() < self.until
        ):
            key = f"k{min(draw.randrange(self.load.keys), draw.randrange(self.load.keys))}"
            if draw.random() < 0.5:
                get = self.store.get(key, draw)
                if get is not None:
                    last[key] = get
            else:
                seen = [last[key]] if key in last and draw.random() < 0.7 else []
                value = f"{draw.randrange(2**32):08x}"
                if self.load.halves and draw.random() < self.load.halves:
                    # Another writer: this one's next put would succeed it.
                    self.store.send(
                        self.store.start_put(f"h{number}", key, value, seen),
                        draw.choice(self.store.slots_of(key)),
                        draw,
                    )
                else:
                    self.store.put(f"w{number}", key, value, seen, draw)
            count += 1

    def kill_servers(self) -> None:
        """Kills a random server by signal 9, and brings it back after a while."""
        draw = self.draw("faults")
        while self.load.faults and not self.finished.wait(draw.expovariate(1 / self.load.faults)):
            with self.killing:
                alive = [
                    member for member in self.store.members if member.is_member and member.is_up
                ]
                if alive:
                    self.kill_for_a_while(draw.choice(alive), draw)

    def kill_for_a_while(self, member: Member, draw: random.Random) -> None:
        member.node.kill()
        self.kills += 1
        self.finished.wait(draw.random() * self.load.outage)
        if self.load.loses and self.store.may_lose(member) and draw.random() < 0.5:
            member.node.wipe()
            self.store.lose(member)
        elif self.load.wipes and draw.random() < 0.5:
            member.node.wipe()
        member.node.start()
        self.store.back(member)

    def heal(self) -> None:
        """Asks the members that are down, and takes back those that answer.

        A thread that notices a crash late marks a server that is back already.
        """
        for member in self.store.members:
            if member.is_member and not member.is_up and member not in self.store.dead:
                with contextlib.suppress(Gone):
                    member.node.fetch("", "")
                    self.store.back(member)

    def hand_off(self) -> None:
        """Hands hints off until none is left after the traffic has ended.

        Those for the slots of dead servers stay.
        """
        while True:
            self.heal()
            left = [
                (slot, keeper)
                for slot, keeper in self.store.hints_left()
                if not self.store.dead.intersection(slot.writers())
            ]
            if self.finished.is_set() and (not left or time.time() > self.until):
                return
            for slot, keeper in left:
                self.store.attempt(partial(self.store.handoff, slot, keeper))
            time.sleep(self.load.handoffs)

    def settle(self) -> None:
        """Ends what is in doubt at each slot whose nodes answer."""
        for slot in self.store.all_slots():
            self.store.attempt(partial(self.store.settle, slot))

    def bury(self) -> None:
        """Kills the servers that are dead for good, each while it keeps no hint, and while nothing
        is in doubt that others were asked too: who asks the dead would wait for ever.
        """
        for member in (self.store.by_name[name] for name in self.dead):
            while member not in self.store.dead:
                for slot in self.store.all_slots():
                    if any(doubt.only is not member for doubt in slot.doubts):
                        self.store.attempt(partial(self.store.settle, slot))
                with member.alone():
                    if not any(
                        member in slot.keepers
                        or any(doubt.only is not member for doubt in slot.doubts)
                        for slot in self.store.all_slots()
                    ):
                        member.node.kill()
                        self.store.dead.add(member)
                        self.store.note_down(member)
                time.sleep(0.005)

    def sweep(self) -> None:
        """Ends what is in doubt, and reads each key at all its slots once: what was lost unseen is
        seen now.
        """
        self.heal()
        self.settle()
        draw = self.draw("sweep")
        for key in sorted({put.key for put in self.store.puts}):
            if not self.store.dead:
                self.store.get(key, draw, self.store.slots)

    def thread(self, call: Callable[..., object], *what: object) -> threading.Thread:
        return threading.Thread(target=self.guard, args=[call, *what])

    def run(self) -> float:
        """Runs clients, workers, faults and handoffs to their end. How many seconds that took."""
        with ThreadPoolExecutor() as pool:
            for started in [pool.submit(member.node.start) for member in self.store.members]:
                started.result()
        begun, self.until = time.time(), time.time() + self.load.limit
        clients = [self.thread(self.client, number) for number in range(self.load.clients)]
        others = [self.thread(call) for call in (self.kill_servers, self.hand_off)]
        workers = [
            self.thread(
                self.executor.work, self.draw(f"worker {number}"), self.until, self.load.pace
            )
            for number in range(self.load.workers)
        ]
        for thread in clients:
            thread.start()
        time.sleep(0.3)
        self.guard(self.bury)
        for thread in others + workers:
            thread.start()
        for thread in clients + workers:
            thread.join()
        took = time.time() - begun
        self.finished.set()
        for thread in others:
            thread.join()
        # After a refusal all is left as it is.
        if self.until:
            self.guard(self.sweep)
        return took
