"""The texts of docs/FORMATS.md as values: rings, plans, certificates, changes, scripts, histories,
and the lines of steps.

A reader takes a text and returns a value. The value's `lines` are the lines that were read, byte
for byte. A text that does not read is a `BadText` with the number of its line. Limits and meanings
are not looked at here: `ringplan` decides whether a ring, a plan or a history is right.
"""

from __future__ import annotations

import dataclasses
import hashlib
import json
import re
from collections.abc import Callable, Container, Iterable, Iterator, Mapping
from dataclasses import dataclass
from typing import Any, Protocol

NUMBER = re.compile("0|[1-9][0-9]*")
NAME = re.compile("[a-z0-9_.:-]{1,32}")


class BadText(Exception):
    """A text that does not read: the number of its line, from 1, and what is wrong there."""

    def __init__(self, line: int, what: str) -> None:
        super().__init__(f"line {line}: {what}")
        self.line = line


class Text(Protocol):
    """One text of a bundle."""

    def lines(self) -> Iterator[str]:
        ...


class Reader:
    """The lines of a bundle, read one by one."""

    def __init__(self, bundle: str) -> None:
        if not bundle.endswith("\n"):
            raise BadText(bundle.count("\n") + 1, "the last line has no end")
        self.rows, self.at = bundle[:-1].split("\n"), 0

    def is_over(self) -> bool:
        return self.at == len(self.rows)

    def bad(self, what: str) -> BadText:
        return BadText(self.at + 1, what)

    def fields(self) -> list[str]:
        """The fields of the next line, which stays the next one."""
        if self.is_over():
            raise self.bad("a line is missing")
        return self.rows[self.at].split(" ")

    def until_end(self) -> Iterator[list[str]]:
        """The fields of each line before `end`.

        The line is passed once the caller asks for the next one.
        """
        while (fields := self.fields()) != ["end"]:
            yield fields
            self.at += 1
        self.at += 1

    def number(self, field: str) -> int:
        if not NUMBER.fullmatch(field):
            raise self.bad(f"{field!r} is no number")
        return int(field)

    def numbers(self, fields: list[str]) -> tuple[int, ...]:
        return tuple(self.number(field) for field in fields)

    def name(self, field: str) -> str:
        if not NAME.fullmatch(field):
            raise self.bad(f"{field!r} is no name")
        return field

    def names(self, fields: list[str]) -> tuple[str, ...]:
        return tuple(self.name(field) for field in fields)


def joined(*words: object) -> str:
    return " ".join(map(str, words))


def place(key: str, partitions: int) -> tuple[int, int]:
    """The partition of a key, and its chunk: the first bits of the key's MD5 are the partition, the
    next four the chunk (section 6.2, strategy 3).
    """
    digest = int(hashlib.md5(key.encode()).hexdigest(), 16) >> (125 - partitions.bit_length())
    return digest >> 4, digest & 15


@dataclass(frozen=True)
class RingNode:
    """A node of a ring.

    Its allowances are one number for all its transfers, or two: for those that it takes and for
    those that it gives.
    """

    name: str
    allowances: tuple[int, ...]
    is_in: bool


@dataclass(frozen=True)
class Ring:
    """A ring: its format, the quorum's numbers, the nodes, and the names of the owners of each
    partition's slots.
    """

    form: int
    quorum: tuple[int, ...]
    nodes: tuple[RingNode, ...]
    rows: tuple[tuple[str, ...], ...]

    @staticmethod
    def of(
        names: Iterable[str],
        members: Container[str],
        rows: Iterable[Iterable[str]],
        quorum: Iterable[int],
        allowances: int | Mapping[str, tuple[int, ...]],
        form: int = 1,
    ) -> Ring:
        """The ring of these nodes and rows. Each node has the same allowance, or its own."""
        nodes = tuple(
            RingNode(
                name,
                (allowances,) if isinstance(allowances, int) else allowances[name],
                name in members,
            )
            for name in names
        )
        return Ring(form, tuple(quorum), nodes, tuple(map(tuple, rows)))

    @staticmethod
    def read(reader: Reader, form: int) -> Ring:
        space, quorum, nodes, rows = 0, tuple[int, ...](), list[RingNode](), list[tuple[str, ...]]()
        for place, (word, *fields) in enumerate(reader.until_end()):
            if place == 0 and word == "space" and len(fields) == 1:
                space = reader.number(fields[0])
            elif place == 1 and word == "quorum" and len(fields) in (3, 4):
                quorum = reader.numbers(fields)
            elif (
                place > 1
                and word == "node"
                and len(fields) in (3, 4)
                and fields[-1] in ("in", "out")
                and not rows
            ):
                nodes.append(
                    RingNode(
                        reader.name(fields[0]), reader.numbers(fields[1:-1]), fields[-1] == "in"
                    )
                )
            elif (
                place > 1
                and word == "slots"
                and fields
                and fields[0] == str(len(rows))
                and len(fields) == 1 + quorum[0]
            ):
                rows.append(reader.names(fields[1:]))
            else:
                raise reader.bad("no such line of a ring")
        if not rows or len(rows) != space:
            raise reader.bad("a ring with too few or too many rows")
        return Ring(form, quorum, tuple(nodes), tuple(rows))

    def lines(self) -> Iterator[str]:
        yield f"ring {self.form}"
        yield f"space {len(self.rows)}"
        yield joined("quorum", *self.quorum)
        for node in self.nodes:
            yield joined("node", node.name, *node.allowances, "in" if node.is_in else "out")
        for partition, row in enumerate(self.rows):
            yield joined("slots", partition, *row)
        yield "end"


@dataclass(frozen=True)
class Step:
    """A line of a plan. A field that the kind of step does not have is None."""

    kind: str
    partition: int | None
    slot: int | None
    node: str | None
    # The slots that a copy lists; None where it reads its own slot's owner.
    slots: tuple[int, ...] | None
    after: tuple[int, ...]

    @staticmethod
    def read(reader: Reader, line: list[str]) -> Step:
        cut = line.index("after") if "after" in line else len(line)
        (kind, *fields), after = line[:cut], reader.numbers(line[cut + 1 :])
        if len(line) == cut + 1:
            raise reader.bad("`after` without a number")
        if kind in ("join", "retire") and len(fields) == 1:
            return Step(kind, None, None, reader.name(fields[0]), None, after)
        if kind == "switch" and len(fields) == 2:
            return Step(kind, reader.number(fields[0]), reader.number(fields[1]), None, None, after)
        if kind in ("mirror", "drop") and len(fields) == 3:
            return Step(
                kind,
                reader.number(fields[0]),
                reader.number(fields[1]),
                reader.name(fields[2]),
                None,
                after,
            )
        if (
            kind == "copy"
            and len(fields) >= 3
            and (fields[2:] == ["owner"] or (fields[2] == "slots" and len(fields) > 3))
        ):
            slots = None if fields[2] == "owner" else reader.numbers(fields[3:])
            return Step(
                kind, reader.number(fields[0]), reader.number(fields[1]), None, slots, after
            )
        raise reader.bad("no such step")

    def place(self) -> tuple[int, int]:
        """The partition and the index of the step's slot."""
        if self.partition is None or self.slot is None:
            raise ValueError(f"a {self.kind} is of no slot")
        return self.partition, self.slot

    def reads(self) -> list[tuple[int, int]]:
        """The slots that a copy reads, each once."""
        partition, slot = self.place()
        return [
            (partition, it) for it in dict.fromkeys((slot,) if self.slots is None else self.slots)
        ]

    def line(self) -> str:
        words: list[object] = [
            word for word in (self.kind, self.partition, self.slot, self.node) if word is not None
        ]
        if self.kind == "copy":
            words += ["owner"] if self.slots is None else ["slots", *self.slots]
        return joined(*words, *(["after", *self.after] if self.after else []))


@dataclass(frozen=True)
class Plan:
    """A plan's steps, numbered from 0."""

    steps: tuple[Step, ...]

    @staticmethod
    def read(reader: Reader, form: int) -> Plan:
        if form != 1:
            raise reader.bad("a plan has format 1")
        return Plan(tuple(Step.read(reader, line) for line in reader.until_end()))

    def lines(self) -> Iterator[str]:
        yield "plan 1"
        yield from (step.line() for step in self.steps)
        yield "end"


@dataclass(frozen=True)
class CertificateLine:
    """A line of a certificate: a fact, or the chain of a node (`chain`, `take` or `give`), with the
    numbers of its steps.
    """

    kind: str
    node: str | None
    steps: tuple[int, ...]

    @staticmethod
    def read(reader: Reader, line: list[str]) -> CertificateLine:
        kind, *fields = line
        if kind == "fact" and len(fields) >= 2:
            return CertificateLine(kind, None, reader.numbers(fields))
        if kind in ("chain", "take", "give") and len(fields) >= 2:
            return CertificateLine(kind, reader.name(fields[0]), reader.numbers(fields[1:]))
        raise reader.bad("no such line of a certificate")

    def line(self) -> str:
        return joined(self.kind, *([] if self.node is None else [self.node]), *self.steps)


@dataclass(frozen=True)
class Certificate:
    """What a planner claims of a plan, for the checker to verify."""

    form: int
    body: tuple[CertificateLine, ...]

    @staticmethod
    def read(reader: Reader, form: int) -> Certificate:
        return Certificate(
            form, tuple(CertificateLine.read(reader, line) for line in reader.until_end())
        )

    def lines(self) -> Iterator[str]:
        yield f"cert {self.form}"
        yield from (line.line() for line in self.body)
        yield "end"


@dataclass(frozen=True)
class Change:
    """The nodes that shall join and those that shall leave."""

    joins: tuple[str, ...]
    leaves: tuple[str, ...]

    @staticmethod
    def read(reader: Reader, form: int) -> Change:
        joins, leaves = list[str](), list[str]()
        for word, *fields in reader.until_end():
            if (
                form != 1
                or len(fields) != 1
                or word not in ("join", "leave")
                or (word == "join" and leaves)
            ):
                raise reader.bad("no such line of a change")
            (joins if word == "join" else leaves).append(reader.name(fields[0]))
        return Change(tuple(joins), tuple(leaves))

    def lines(self) -> Iterator[str]:
        yield "change 1"
        yield from (f"join {node}" for node in self.joins)
        yield from (f"leave {node}" for node in self.leaves)
        yield "end"


# The fields of each event, after its word.
EVENTS = {
    "do": "step",
    "open": "step",
    "chunk": "step chunk",
    "close": "step",
    "abort": "step",
    "put": "node key value",
    "write": "put slot",
    "hint": "put slot node",
    "ack": "put",
    "get": "key",
    "read": "get slot",
    "endget": "get",
    "down": "node",
    "up": "node",
    "handoff": "node partition slot",
    "lose": "node",
}
# The events that name a put first, and those that name a get.
OF_PUTS, OF_GETS = (
    [event for event, fields in EVENTS.items() if fields.split()[0] == kind]
    for kind in ("put", "get")
)
REPLIES = "ok put ticket get found reply".split()


@dataclass(frozen=True)
class Script:
    """Events that are to happen, each as its words."""

    events: tuple[tuple[str, ...], ...]

    @staticmethod
    def read(reader: Reader, form: int) -> Script:
        events = list[tuple[str, ...]]()
        for words in reader.until_end():
            if form != 1 or words[0] not in EVENTS or "" in words:
                raise reader.bad("no such event")
            events.append(tuple(words))
        return Script(tuple(events))

    def lines(self) -> Iterator[str]:
        yield "script 1"
        yield from (joined(*words) for words in self.events)
        yield "end"


@dataclass(frozen=True)
class Entry:
    """An event that happened, and its reply, each as its words."""

    event: tuple[str, ...]
    reply: tuple[str, ...] = ("ok",)

    @staticmethod
    def read(reader: Reader, words: list[str]) -> Entry:
        cut = words.index("=") if "=" in words else 0
        event, reply = tuple(words[:cut]), tuple(words[cut + 1 :])
        if (
            not event
            or event[0] not in EVENTS
            or not reply
            or reply[0] not in REPLIES
            or "" in words
        ):
            raise reader.bad("no such entry of a history")
        return Entry(event, reply)

    def line(self) -> str:
        return joined(*self.event, "=", *self.reply)


@dataclass(frozen=True)
class History:
    """What a store or a runner did, in an order that `ringplan replay` judges."""

    entries: tuple[Entry, ...]

    @staticmethod
    def read(reader: Reader, form: int) -> History:
        if form != 1:
            raise reader.bad("a history has format 1")
        return History(tuple(Entry.read(reader, words) for words in reader.until_end()))

    def lines(self) -> Iterator[str]:
        yield "history 1"
        yield from (entry.line() for entry in self.entries)
        yield "end"


READERS: dict[str, Callable[[Reader, int], Text]] = {
    "ring": Ring.read,
    "plan": Plan.read,
    "cert": Certificate.read,
    "change": Change.read,
    "script": Script.read,
    "history": History.read,
}


def read_texts(bundle: str) -> list[Text]:
    """The texts of a bundle, in order."""
    reader, texts = Reader(bundle), list[Text]()
    while not reader.is_over():
        word, *fields = reader.fields()
        if word not in READERS or len(fields) != 1:
            raise reader.bad("no text begins so")
        form = reader.number(fields[0])
        reader.at += 1
        texts.append(READERS[word](reader, form))
    return texts


def write_texts(texts: Iterable[Text]) -> str:
    """The bundle of these texts."""
    return "".join(f"{line}\n" for text in texts for line in text.lines())


def read_plan(bundle: str) -> tuple[Ring, Plan]:
    """The ring and the plan with which a bundle begins."""
    match read_texts(bundle)[:2]:
        case [Ring() as ring, Plan() as plan]:
            return ring, plan
    raise BadText(1, "the bundle does not begin with a ring and a plan")


@dataclass(frozen=True, slots=True)
class StepLine:
    """A line of `ringplan steps`. A member that the line does not have is None."""

    step: int
    do: str
    after: tuple[int, ...]
    partition: int | None = None
    slot: int | None = None
    # The node that joins, retires or drops.
    node: str | None = None
    # The node that mirrors the slot, and owns it once it is switched.
    to: str | None = None
    # The owners that a copy reads, and the slots where it lists them.
    sources: tuple[str, ...] | None = None
    slots: tuple[int, ...] | None = None

    @staticmethod
    def of(members: dict[str, Any]) -> StepLine:
        found = members.get
        sources, slots = found("from"), found("slots")
        lists = (
            None if sources is None else tuple(sources),
            None if slots is None else tuple(slots),
        )
        return StepLine(
            members["step"],
            members["do"],
            tuple(members["after"]),
            found("partition"),
            found("slot"),
            found("node"),
            found("to"),
            *lists,
        )

    def members(self) -> dict[str, object]:
        """The line's members by their names."""
        found = {
            field.name: value
            for field in dataclasses.fields(self)
            if (value := getattr(self, field.name)) is not None
        }
        if "sources" in found:
            found["from"] = found.pop("sources")
        return found

    def line(self) -> str:
        return json.dumps(self.members(), separators=(",", ":"), sort_keys=True)

    def place(self) -> tuple[int, int]:
        """The partition and the index of the step's slot."""
        if self.partition is None or self.slot is None:
            raise ValueError(f"a {self.do} is of no slot")
        return self.partition, self.slot

    def who(self) -> str:
        """The node that the step is about; of a switch the empty text."""
        return self.node or self.to or ""


def read_steps(lines: str) -> list[StepLine]:
    """The lines of steps, in order. The number of each is its place."""
    # All in one piece: a plan may have a hundred thousand.
    steps = [StepLine.of(members) for members in json.loads(f"[{','.join(lines.splitlines())}]")]
    for place, step in enumerate(steps):
        if step.step != place:
            raise BadText(place + 1, f"step {step.step} at the place of step {place}")
    return steps
