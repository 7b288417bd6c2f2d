"""What a run of a refused plan may break: statements that hold at every moment of every run of an
accepted one. And the words for a script.
"""

from collections.abc import Sequence
from itertools import groupby
from typing import NamedTuple

from ringplan.texts import Ring, Step

Slot = tuple[int, int]
Event = tuple[str, ...]
CLIENTS = {"put": "put", "write": "put", "ack": "put", "get": "get", "read": "get", "endget": "get"}
# So many lines stand at the beginning and at the end of a long script.
FIRST, LAST = 10, 30


class Lost(NamedTuple):
    """R slots of a partition do not have the run's put, which is acknowledged."""

    key: str
    partition: int
    slots: tuple[int, ...]


class Shared(NamedTuple):
    """A node owns or mirrors two slots of a partition."""

    node: str
    partition: int
    slots: tuple[int, int]


class TooMany(NamedTuple):
    """A node has more transfers open than its allowance: of all transfers (`both`), or of those
    that it takes or gives.
    """

    node: str
    side: str
    open: int
    allowance: int


class Stranger(NamedTuple):
    """The owner or the mirror of a slot is not a member."""

    node: str
    slot: Slot


class OutOfTurn(NamedTuple):
    """A step of a slot is done, and an earlier step of the slot is not."""

    earlier: int
    later: int


Harm = Lost | Shared | TooMany | Stranger | OutOfTurn


def slots(numbers: Sequence[object], partition: int | None = None) -> str:
    """`slot 1`, `slots 0, 1 and 2 of partition 3`."""
    *first, last = map(str, numbers)
    where = "" if partition is None else f" of partition {partition}"
    return f"slot{'s' * bool(first)} {', '.join(first)}{' and ' * bool(first)}{last}{where}"


def harm_words(harm: Harm) -> str:
    match harm:
        case Lost(key, partition, lacking):
            return (
                f"an acknowledged put of {key} is not at {slots(lacking, partition)}, and a get may"
                f" read only {'these' if len(lacking) > 1 else 'this'}"
            )
        case Shared(node, partition, served):
            return f"{node} serves {slots(served, partition)} at once"
        case TooMany(node, side, count, allowance):
            way = {"both": "", "take": " to it", "give": " from it"}[side]
            return f"{node} has {count} transfers{way} open, and it bears {allowance}"
        case Stranger(node, slot):
            return f"{node} serves {slots([slot[1]], slot[0])}, and is not a member"
        case OutOfTurn(earlier, later):
            return f"step {later} is done before step {earlier}, which the slot needs first"


def step_words(ring: Ring, steps: Sequence[Step], number: int) -> str:
    step = steps[number]
    if step.partition is None:
        return f"{step.node} {'joins' if step.kind == 'join' else 'retires'}"
    at, (partition, slot) = slots([step.slot], step.partition), step.place()
    before = [it for it in steps[:number] if (it.partition, it.slot) == (partition, slot)]
    # Who owns the slot at first, and who is mirrored later.
    nodes = [ring.rows[partition][slot], *(it.node for it in before if it.kind == "mirror")]
    owner = nodes[min(len(nodes) - 1, sum(it.kind == "switch" for it in before))]
    read = (
        f"{owner} has"
        if step.slots is None
        else f"{slots(step.slots)} {'have' if len(step.slots) > 1 else 'has'}"
    )
    kinds = {
        "mirror": f"writes to {at} go to {step.node} too",
        "copy": f"{nodes[-1]} is given what {read}",
    }
    return (
        kinds
        | {"switch": f"{nodes[-1]} owns {at}", "drop": f"{step.node} drops what it has of {at}"}
    )[step.kind]


def words_of(ring: Ring, events: list[Event], steps: Sequence[Step]) -> str:
    """The words of a put, a get, a loss, or the events of one step."""
    word, *fields = events[0]
    taken = [it[2] for it in events if it[0] in ("write", "read")]
    if word == "put":
        return (
            f"a client puts {fields[1]}; {slots(taken)} take{'s' * (len(taken) < 2)} it, and it is"
            " acknowledged"
        )
    if word in ("get", "lose"):
        return (
            f"a get of {fields[0]} reads {slots(taken)}, and replies nothing"
            if word == "get"
            else f"{fields[0]} loses what it stores"
        )
    begins, ends = word in ("do", "open"), events[-1][0] in ("do", "close")
    told = "" if begins and ends else " ends" if ends else " begins"
    what = f": {step_words(ring, steps, int(fields[0]))}" if begins else ""
    return f"step {fields[0]}{told}{what}"


def in_words(ring: Ring, steps: Sequence[Step], script: Sequence[Event]) -> list[str]:
    """A line for each put, step and loss, with the number of its first event."""
    groups = [
        list(group)
        for _, group in groupby(
            enumerate(script, 1), key=lambda it: CLIENTS.get(it[1][0], it[1][1])
        )
    ]
    more = max(0, len(groups) - FIRST - LAST)
    lines = [
        f"{group[0][0]:4}  {words_of(ring, [event for _, event in group], steps)}"
        for group in groups[:FIRST] + groups[FIRST + more :]
    ]
    return (
        lines[:FIRST]
        + [f"  ..  {more} lines more; --script prints all events"] * bool(more)
        + lines[FIRST:]
    )
