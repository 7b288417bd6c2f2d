#!/usr/bin/env python3
"""Tries `ringplan-break` on random plans, most of them with a fault; it wants the program as it is
built. `trials/harm.py SEEDS` draws so many refused plans, else 300.

Owed: the first line and the status are those of `check`. Each script is a run by the machine of
trials/machine.py, and by one that reads a slot's stage as the definitions do. What the words say is
broken is so at the run's end by both. Of some scripts each event is left out in turn: the rest does
not do the harm. There is no script for an accepted plan, nor for one for which `cert` makes a
certificate to which `check` says yes. No run that is found breaks a promise of which `why` says
that the plan keeps it. Small plans are searched in full by trials/full.py: a script
is found for 98 of 100 that it finds harmful, and for no other.

It prints a table: by the number that `check` answers, what the plans break. With --missed it prints
small plans for which it finds more harm than the command.
"""
import json
import os
import pathlib
import random
import re
import subprocess
import sys
from collections import Counter
from collections.abc import Sequence

from changes import Ring, ask
from full import Full, TooLarge
from machine import Machine, slot_of
from measured import RUN
from refused import draw_bundle

from ringplan import texts
from ringplan.breaks.__main__ import answer

os.environ["ringplan"] = RUN
PYTHON = str(pathlib.Path(__file__).resolve().parent.parent / "python")
# The worlds of a small plan's full search, and the longest scripts from which each event is left
# out.
WORLDS, LONGEST = 20_000, 300
# What the words of each kind of harm say.
KINDS = {
    "lost": "an acknowledged put",
    "shared": "serves .* at once",
    "transfers": "transfers .*open",
}
KINDS |= {"stranger": "is not a member", "turn": "is done before step"}
# The promise that each kind of harm breaks: its name in the JSON of `why`, and what `why` says.
PROMISES = {
    "lost": ("puts", "no acknowledged put is lost"),
    "shared": ("slots", "no two slots of a partition share a node"),
    "transfers": ("transfers", "no node has more transfers open than its allowance"),
    "stranger": ("members", "each slot's owner and mirror are members"),
}


class ByCount(Machine):
    """The machine, if a slot's stage is that after as many of its steps as are done."""

    def __init__(self, ring: Ring, steps: Sequence[texts.Step]) -> None:
        super().__init__(ring, steps)
        self.fixed = {
            number: self.parties_before(number)
            for number, step in enumerate(steps)
            if step.kind == "copy"
        }

    def parties_before(self, number: int) -> list[str]:
        """Who takes part in a copy after the steps before it."""
        before = Machine(self.ring, self.steps)
        for step in self.steps[:number]:
            before.table.take(step)
        return before.parties(self.steps[number])

    def parties(self, step: texts.Step) -> list[str]:
        return next(parties for number, parties in self.fixed.items() if self.steps[number] is step)

    def count_again(self) -> None:
        done = self.progress.done
        table = Machine(self.ring, self.steps).table
        for slot in {slot_of(step) for step in self.steps if step.partition is not None}:
            numbers = [
                number
                for number, step in enumerate(self.steps)
                if (step.partition, step.slot) == slot
            ]
            for number in numbers[: sum(it in done for it in numbers)]:
                table.take(self.steps[number])
        self.table.owner, self.table.mirror = table.owner, table.mirror

    def do(self, number: int) -> bool:
        is_done = super().do(number)
        self.count_again()
        return is_done

    def close(self, number: int) -> bool:
        is_done = super().close(number)
        self.count_again()
        return is_done


def happens(machine: Machine, event: Sequence[str]) -> bool:
    """Does an event of a script."""
    word, *fields = event
    if word == "put":
        return machine.start_put(fields[0], fields[1]) >= 0
    if word == "get":
        return machine.start_get(fields[0]) >= 0
    if word == "lose":
        return machine.lose(fields[0])
    if word in ("write", "ack") and not machine.puts:
        return False
    call = {
        "do": machine.do,
        "open": machine.open_copy,
        "chunk": machine.chunk,
        "close": machine.close,
    }
    call |= {
        "write": machine.write,
        "ack": machine.ack,
        "read": machine.read,
        "endget": machine.end_get,
    }
    return bool(call[word](*map(int, fields)))  # type: ignore[operator]


def is_done_early(machine: Machine, first: int, then: int) -> bool:
    done, steps = machine.progress.done, machine.steps
    return (
        first < then
        and slot_of(steps[first]) == slot_of(steps[then])
        and then in done
        and first not in done
    )


def has(machine: Machine, words: str, allowances: dict[str, tuple[int, ...]]) -> bool:
    """Whether what the words say is so in the machine."""
    numbers = list(map(int, re.findall(r"(?<![\w.:-])\d+(?![\w.:-])", words)))
    node, table = words.split(" ")[0], machine.table
    if re.search(KINDS["lost"], words):
        *slots, p = numbers
        return (
            machine.puts[0].is_acked
            and len(set(slots)) == machine.r
            and not any(machine.holds((p, i), 0) for i in slots)
        )
    if re.search(KINDS["shared"], words):
        i, j, p = numbers
        return i != j and all(node in table.nodes((p, it)) for it in (i, j))
    if re.search(KINDS["stranger"], words):
        i, p = numbers
        return node in table.nodes((p, i)) and node not in table.members
    if re.search(KINDS["turn"], words):
        return is_done_early(machine, numbers[1], numbers[0])
    count, allowance = numbers
    steps = [machine.steps[number] for number in machine.progress.open]
    takes = [table.mirror.get(slot_of(step)) == node for step in steps]
    gives = [any(table.owner[it] == node for it in machine.sources(step)) for step in steps]
    side = (
        0 if " to it " not in words and " from it " not in words else 1 if " to it " in words else 2
    )
    bears = allowances[node][max(0, side - 1)]
    found = sum(((a or b), a, b)[side] for a, b in zip(takes, gives))
    return len(allowances[node]) == (1 if side == 0 else 2) and found == count > allowance == bears


def is_shown(
    ring: texts.Ring, plan: texts.Plan, events: Sequence[Sequence[str]], words: str
) -> bool:
    """Whether the events are a run at whose end it is so as the words say, by both readings."""
    allowances = {node.name: node.allowances for node in ring.nodes}
    members = {node.name for node in ring.nodes if node.is_in}
    given = Ring(
        ring.form,
        list(allowances),
        allowances,
        ring.quorum,
        members,
        [list(row) for row in ring.rows],
    )
    machines = [kind(given, plan.steps) for kind in (Machine, ByCount)]
    are_runs = all(happens(machine, event) for machine in machines for event in events)
    # The get at the end of a script finds nothing.
    return are_runs and all(
        has(machine, words, allowances) and all(get.reply == [] for get in machine.gets)
        for machine in machines
    )


class Trial:
    def __init__(self) -> None:
        self.faults = list[str]()
        # By the number that check answers: how many plans, by what is found.
        self.table: dict[int, Counter[str]] = {}
        self.counts = Counter[str]()

    def fault(self, seed: int, what: str, bundle: str) -> None:
        self.faults.append(f"seed {seed}: {what}\n{bundle}")

    def judge(self, seed: int, ring: texts.Ring, plan: texts.Plan, bundle: str) -> str:
        """What kind of harm the command shows."""
        line, _, status = ask(["check"], bundle)
        out, script, ended = answer(bundle.encode())
        if not out.startswith(line) or ended != status:
            self.fault(
                seed,
                f"check says {line!r} and {status}, and the command {out!r} and {ended}",
                bundle,
            )
        words = out.split("\n")[1]
        if bool(script) != words.startswith("broken: "):
            self.fault(seed, f"{words}, and the script {script[:200]!r}", bundle)
        if words.startswith("unbroken: the plan keeps"):
            self.counts["certified"] += 1
            if status and ask(["check"], ask(["cert"], bundle)[0])[0] != "yes\n":
                self.fault(seed, "the certificate that cert makes is refused", bundle)
            return "certificate"
        if not words.startswith("broken: "):
            self.counts["cut short"] += "left out" in out
            return "nothing"
        if not script.startswith(bundle):
            self.fault(seed, f"the script's bundle begins otherwise: {script[:200]}", bundle)
        self.judge_script(seed, ring, plan, words.removeprefix("broken: "), script)
        return next(kind for kind, pattern in KINDS.items() if re.search(pattern, words))

    def judge_script(
        self, seed: int, ring: texts.Ring, plan: texts.Plan, words: str, script: str
    ) -> None:
        events = texts.read_texts(script)[3]
        assert isinstance(events, texts.Script)
        whole = list(events.events)
        if not is_shown(ring, plan, whole, words):
            self.fault(seed, f"by this script it is not so: {words}", script)
        short = [it for it in whole if it[0] not in ("get", "read", "endget")]
        self.counts["scripts"] += 1
        self.counts["events"] += len(short)
        if len(short) <= LONGEST and seed % 5 == 0:
            self.counts["scripts of which each event is needed"] += 1
            for place in range(len(short)):
                if is_shown(ring, plan, short[:place] + short[place + 1 :], words):
                    self.fault(
                        seed, f"event {place} of the script could be left out: {words}", script
                    )

    def judge_kept(self, seed: int, bundle: str, harms: set[str]) -> None:
        """Compares the promises that `why` says are kept with the harms that were found."""
        kept = json.loads(ask(["why", "--format", "json"], bundle)[0]).get("kept")
        said = ask(["why"], bundle)[0].split("\n\n")[0].splitlines()[1:]
        texts_kept = [text for name, text in PROMISES.values() if name in (kept or [])]
        lines = [f"  {text}" for text in texts_kept] or ["  no promise is shown to be kept"]
        if kept is not None and said != ["kept in every run:", *lines]:
            self.fault(seed, f"why says {said}, and its JSON {kept}", bundle)
        for kind, (name, _) in PROMISES.items():
            if name in (kept or []):
                self.counts["promises that why says are kept"] += 1
                if kind in harms:
                    self.fault(seed, f"why says that it keeps {name}, and a run breaks it", bundle)

    def search(self, seed: int, ring: texts.Ring, plan: texts.Plan, bundle: str, kind: str) -> None:
        """Compares with a full search."""
        try:
            harms = Full(ring, plan, WORLDS).harms()
        except TooLarge:
            self.counts["small, not searched in full"] += 1
            return
        self.judge_kept(seed, bundle, set(harms))
        is_harmful = bool(harms)
        self.counts["small and harmful"] += is_harmful
        self.counts["small and harmless"] += not is_harmful
        if kind in KINDS and kind not in harms:
            self.fault(
                seed, f"the full search finds {sorted(harms)}, and the command {kind}", bundle
            )
        self.counts["small and found"] += kind in KINDS
        self.counts["small and only found out of turn"] += kind == "turn" and harms != {"turn"}
        if is_harmful and (kind not in KINDS or kind == "turn" and harms != {"turn"}):
            if "--missed" in sys.argv:
                print(f"seed {seed}: missed {sorted(harms)}\n{bundle}")

    def run(self, seed: int) -> bool:
        """Tries the plan of a seed, and says whether it is refused."""
        draw = random.Random(seed)
        is_small = draw.random() < 0.5
        ring, plan, bundle = draw_bundle(draw, is_small)
        line, _, status = ask(["check"], bundle)
        if status != 1:
            self.counts["accepted" if status == 0 else "with a fault of form"] += 1
            kind = (
                self.judge(seed, ring, plan, bundle)
                if seed % 10 == 0 and status == 0
                else "certificate"
            )
            if kind != "certificate":
                self.fault(seed, f"the plan is accepted, and the command finds {kind}", bundle)
            return False
        kind = self.judge(seed, ring, plan, bundle)
        row = self.table.setdefault(int(line.split()[1]), Counter())
        row[kind] += 1
        self.judge_kept(seed, bundle, {kind})
        if is_small:
            self.search(seed, ring, plan, bundle, kind)
        return True

    def rows(self) -> list[str]:
        promises = ("lost", "shared", "transfers", "stranger")
        names = ("plans", *promises, "turn", "certificate", "nothing")
        total = sum((row for row in self.table.values()), Counter[str]())
        lines = [f"{'no':>4}" + "".join(f"{name:>13}" for name in names)]
        for number, row in [*sorted(self.table.items()), ("all", total)]:
            lines.append(
                f"{number:>4}"
                + "".join(
                    f"{sum(row.values()) if name == 'plans' else row[name]:>13}" for name in names
                )
            )
        return lines


def try_command(bundle: str) -> bool:
    """Whether the command prints, as a process, what its call returns."""
    ran = subprocess.run(
        [sys.executable, "-m", "ringplan.breaks", "-"],
        input=bundle,
        capture_output=True,
        text=True,
        env={**os.environ, "PYTHONPATH": PYTHON},
    )
    words, _, status = answer(bundle.encode())
    return (ran.stdout, ran.stderr, ran.returncode) == (words, "", status)


def main() -> int:
    wanted = int(sys.argv[1]) if len(sys.argv) > 1 else 300
    trial, seed, refused = Trial(), 0, 0
    while refused < wanted and len(trial.faults) < 5:
        refused += trial.run(seed)
        seed += 1
    if not try_command(draw_bundle(random.Random(3), True)[2]):
        trial.faults.append("the command prints something else than its call returns")
    counts = trial.counts
    print(
        *trial.rows(),
        f"{refused} refused plans of {seed}: "
        + ", ".join(f"{count} {what}" for what, count in counts.items()),
        sep="\n",
    )
    if counts["small and found"] < 0.98 * counts["small and harmful"]:
        trial.faults.append("a script is found for too few small plans")
    print(*trial.faults, f"{len(trial.faults)} faults", sep="\n")
    is_idle = (
        not counts["small and harmful"]
        or not counts["small and harmless"]
        or not counts["accepted"]
        or not counts["certified"]
        or not counts["promises that why says are kept"]
    )
    return 1 if trial.faults or is_idle else 0


if __name__ == "__main__":
    sys.exit(main())
