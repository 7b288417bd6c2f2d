"""What there is to say of a plan that is being done: which steps run or wait, and how long its
copies will take; in words, as JSON, and for Prometheus.
"""

from __future__ import annotations

import math
import time
from collections import Counter
from collections.abc import Iterable, Iterator, Mapping, Sequence
from typing import Any, NamedTuple

from ringplan.run.board import CHUNKS, Name, State


# A shorter time in which no step runs, such as a pause after a failure, counts as one in which
# steps run, in seconds. In a longer one they rest.
REST = 60.0


class Pace:
    """How much copies have given, and how much a second while any steps ran: in the unit of the
    sizes, or in copies if no partition has a size.
    """

    def __init__(self, names: Iterable[Name], sizes: Mapping[str, int]) -> None:
        # How much was given while steps were seen to run, and for how many seconds; how many run,
        # and since when; when the last one ended.
        self.seen, self.busy, self.count, self.since, self.last = 0.0, 0.0, 0, 0.0, -math.inf
        self.load(names, sizes)

    def load(self, names: Iterable[Name], sizes: Mapping[str, int]) -> None:
        """Begins with the copies of a plan. What was measured stays."""
        self.is_sized, self.parts, self.done = bool(sizes), dict[Name, int](), 0.0
        self.sizes = {
            name: sizes.get(str(name.partition), 1) for name in names if name.kind == "copy"
        }
        self.whole = sum(self.sizes.values())

    def give(self, name: Name, parts: int, is_seen: bool = True) -> None:
        """Of a copy so many chunks are given by now. A step of another kind has none."""
        amount = self.sizes.get(name, 0) * (parts - self.parts.get(name, 0)) / CHUNKS
        self.parts[name] = parts
        self.done += amount
        self.seen += amount * is_seen

    def begin(self, moment: float) -> None:
        if not self.count:
            self.since = self.last if moment - self.last < REST else moment
        self.count += 1

    def end(self, moment: float) -> None:
        self.count -= 1
        if not self.count:
            self.busy += moment - self.since
            self.last = moment

    def rate(self, moment: float) -> float:
        busy = self.busy + (moment - self.since if self.count else 0.0)
        return self.seen / busy if busy > 0 else 0.0

    def left(self, moment: float) -> float | None:
        """How many seconds copies still take. None as long as no rate is known."""
        if self.done >= self.whole:
            return 0.0
        return (self.whole - self.done) / rate if (rate := self.rate(moment)) else None

    def words(self, moment: float) -> str:
        """Empty for a plan without copies."""
        if not self.sizes:
            return ""
        rate, left = self.rate(moment), self.left(moment)
        done = (
            f"{amount(self.done)} of {amount(self.whole)} are copied"
            if self.is_sized
            else f"{self.done:.0f} of {self.whole} copies are done"
        )
        speed = f", {amount(rate)} a second" if rate and self.is_sized else ""
        return f"{done}{speed}{f', {span(left)} left' if left else ''}"


def pace_of(states: Sequence[State], sizes: Mapping[str, int], now: float) -> Pace:
    """The pace by when each step began and ended."""
    pace, spans = Pace((state.name for state in states), sizes), list[tuple[float, float]]()
    for state in states:
        is_seen = bool(state.since and (state.is_done or state.worker))
        spans += [(state.since, state.ended if state.is_done else now)] if is_seen else []
        if state.name.kind == "copy":
            pace.give(state.name, CHUNKS if state.is_done else state.chunks, is_seen)
    for begin, end in sorted(spans):
        pace.begin(begin)
        pace.end(max(begin, end, pace.last))
    return pace


def amount(number: float) -> str:
    for unit in ("", " k", " M", " G", " T"):
        if number < 1000:
            break
        number /= 1000
    return f"{number:.3g}{unit}"


def span(seconds: float) -> str:
    if seconds < 120:
        return f"{seconds:.0f} s"
    minutes = round(seconds / 60)
    return f"{minutes} min" if minutes < 120 else f"{minutes // 60} h {minutes % 60:02} min"


def counted(number: int, what: str) -> str:
    return f"{number} {what}{'s' * (number != 1)}"


def told(state: State, is_held: bool) -> str:
    """What there is to say of a step that was begun and is not done."""
    tries = state.tries
    why = f" ({tries.why})" if tries.why else ""
    if tries.is_given_up:
        return f"given up after {counted(tries.failures, 'failure')}{why}"
    if state.worker:
        return (
            f"{state.worker} does it, since"
            f" {time.strftime('%H:%M:%S', time.localtime(state.since))}"
            if is_held
            else "a runner that ended was doing it"
        )
    waits = [f"{counted(tries.waits, 'time')} not now"] if tries.waits else []
    return (
        ", ".join([*([counted(tries.failures, "failure")] if tries.failures else []), *waits])
        + f"{why}, again in {tries.left():.0f} s"
    )


def advice(state: State) -> str:
    """What an operator can do about a step that was given up. Empty for others."""
    if not state.tries.is_given_up:
        return ""
    leave = (
        f", `ringplan-run leave {state.name.partition}.{state.name.slot}` leaves its slot with its"
        " owner"
        if state.name.kind in ("mirror", "copy")
        else ""
    )
    return (
        f"`ringplan-run retry {state.number}` tries it again{leave}, `ringplan-run around --dead"
        " NODE` goes on without a dead node"
    )


def begun(states: Iterable[State]) -> list[State]:
    """The steps that somebody does, or tried in vain; first those that were given up, then those
    that failed.
    """
    found = [
        state
        for state in states
        if not state.is_done and (state.worker or state.tries.failures or state.tries.waits)
    ]
    return sorted(found, key=lambda state: (not state.tries.is_given_up, not state.tries.failures))


def members(states: Sequence[State], pace: Pace, is_held: bool) -> dict[str, Any]:
    """The whole of it as members of a JSON object.

    Times are in seconds, since 1970 if they are moments.
    """
    now = time.time()
    left = [
        {
            "step": state.number,
            "name": str(state.name),
            "worker": state.worker,
            "since": state.since,
            "advice": advice(state),
            **vars(state.tries),
        }
        for state in begun(states)
    ]
    copies = {
        "unit": "size" if pace.is_sized else "copies",
        "copied": pace.done,
        "to_copy": pace.whole,
        "rate": pace.rate(now),
        "left": pace.left(now),
    }
    return {
        "steps": len(states),
        "done": sum(state.is_done for state in states),
        "is_held": is_held,
        **copies,
        "begun": left,
    }


def state_of(state: State) -> str:
    if state.is_done or state.tries.is_given_up:
        return "done" if state.is_done else "given_up"
    return "running" if state.worker else "pausing" if state.tries.left() else "left"


class Watched(NamedTuple):
    """Whether the judge says yes to the history so far, to how many entries, and when the history
    grew last, in seconds since 1970.
    """

    is_yes: bool
    entries: int
    grew: float


def metric(name: str, what: str, rows: Mapping[str, float], kind: str = "gauge") -> Iterator[str]:
    """The lines of one metric. The rows are by their labels."""
    yield f"# HELP ringplan_{name} {what}\n"
    yield f"# TYPE ringplan_{name} {kind}\n"
    for labels, value in rows.items():
        yield f"ringplan_{name}{labels} {value:.15g}\n"


def metrics_of_steps(states: Sequence[State], now: float) -> Iterator[str]:
    """How many steps there are by state, how often they failed, and how long the oldest runs."""
    counts = Counter(map(state_of, states))
    yield from metric(
        "steps",
        "Steps of the plan by state.",
        {
            f'{{state="{name}"}}': counts[name]
            for name in ("done", "running", "pausing", "given_up", "left")
        },
    )
    open_ones = [state for state in states if not state.is_done]
    yield from metric(
        "failures",
        "How often hooks of steps failed that are not done.",
        {"": sum(state.tries.failures for state in open_ones)},
    )
    yield from metric(
        "oldest_step_seconds",
        "How long the oldest step runs.",
        {"": max((now - state.since for state in open_ones if state.worker), default=0.0)},
    )


def metrics_of_copies(pace: Pace, now: float) -> Iterator[str]:
    """How much is copied, how much there is to copy, and how long that still takes."""
    unit = "size" if pace.is_sized else "copies"
    yield from metric(
        "copied",
        "What copies have given, in the unit of the sizes or in copies.",
        {f'{{unit="{unit}"}}': pace.done},
    )
    yield from metric("to_copy", "What copies give in all.", {f'{{unit="{unit}"}}': pace.whole})
    if (left := pace.left(now)) is not None:
        yield from metric("left_seconds", "How long copies still take.", {"": left})


def metrics_of_judge(watched: Watched, now: float) -> Iterator[str]:
    """What the judge says of the history so far."""
    yield from metric(
        "watch_ok", "Whether the judge says yes to the history so far.", {"": watched.is_yes}
    )
    yield from metric(
        "watched_entries", "The entries to which the judge has said yes.", {"": watched.entries}
    )
    yield from metric(
        "last_entry_seconds", "How long ago the history grew.", {"": now - watched.grew}
    )


def metrics(
    states: Sequence[State],
    pace: Pace,
    watched: Watched,
    hooks: Mapping[tuple[str, str], int],
    lease: float,
) -> str:
    """The whole of it for Prometheus. `hooks` counts hooks by their kind and end."""
    now = time.time()
    return "".join(
        [
            *metrics_of_steps(states, now),
            *metrics_of_copies(pace, now),
            *metric(
                "hooks_total",
                "Hooks of this runner by kind and end.",
                {
                    f'{{kind="{kind}",end="{end}"}}': count
                    for (kind, end), count in sorted(hooks.items())
                },
                "counter",
            ),
            *(
                metric(
                    "lease_left_seconds", "How long the lease of this runner lasts.", {"": lease}
                )
                if lease < math.inf
                else []
            ),
            *metrics_of_judge(watched, now),
        ]
    )
