"""A board in etcd, for runners on several machines.

The keys of a board begin with its name. `plan` names the pieces of the bundle, and the edition. A
step has a `claim` while a worker does it, a `step` once it was begun, and its `tries`. A `note` has
the entries of one call, and a nonce. The key `next` counts the notes; the counter is a note's place
in the history. `step`, `tries`, `note` and `next` have the edition in their keys, so one change of
`plan` puts a plan and a history in the place of others, however long they are.
"""

from __future__ import annotations

import contextlib
import functools
import hashlib
import itertools
import json
import math
import operator
import os
import re
import shutil
import socket
import threading
import time
import uuid
import zlib
from collections.abc import Callable, Container, Iterable, Iterator, Sequence
from dataclasses import dataclass, replace
from typing import NamedTuple

from ringplan.run.board import (
    LOOK,
    TOGETHER,
    Change,
    Claim,
    ClaimEnded,
    Name,
    NoBoard,
    Note,
    Progress,
    Record,
    Seen,
    State,
    Status,
    Stop,
    Tries,
    demand_left,
)
from ringplan.run.board import demand_same
from ringplan.run.gateway import (
    NO_ANSWER,
    NOT_FOUND,
    Access,
    Etcd,
    Json,
    Refused,
    Value,
    delete,
    get,
    is_changed,
    is_created,
    put,
)
from ringplan.run.supervisor import now

MEMBER = r"(?:\[[0-9a-fA-F:]+\]|[A-Za-z0-9._-]+):([0-9]{1,5})"
ADDRESS = re.compile(rf"etcd(s?)://({MEMBER}(?:,{MEMBER})*)/([A-Za-z0-9._-]+)")
# How long an etcd that went away is asked again, in seconds.
PATIENCE = 60.0
# The part of a lease after which a runner that cannot renew it ends its hooks.
SAFE = 0.75
# How often a runner looks whether claims of its own have ended, in seconds.
RENEW = 1.0
# Steps looked at in one transaction: each is three reads, and etcd takes 128 operations.
LOOKED = 40
# Changes written in one transaction.
WRITTEN = 100
# Bytes of one piece of the bundle: etcd takes 1.5 MiB in a request.
PIECE = 500_000
# Keys read in one request.
PAGE = 2000


@dataclass
class Held:
    """A claim of this runner: its revision and lease, the plan under which it holds, the step as it
    was noted last, and whether another plan has ended the claim.
    """

    revision: int
    lease: int
    edition: str
    step: Json
    is_ended: bool = False


@dataclass(frozen=True)
class Plan:
    """A plan as a board has it: its edition, the revision at which the board got it, and the
    digests of the bundles whose place it took.
    """

    board: str
    edition: str
    changed: int
    bundle: str
    names: list[Name]
    former: list[str]

    @functools.cached_property
    def numbers(self) -> dict[Name, int]:
        return {name: number for number, name in enumerate(self.names)}

    def key(self, kind: str, rest: str | Name = "") -> str:
        """A key of this edition."""
        return (
            f"{self.board}/{kind}/{self.edition}/{rest.file() if isinstance(rest, Name) else rest}"
        )


def all_of(first: str, limit: int = 0, start: str = "", revision: int = 0) -> Json:
    """Reads the keys below one that ends with a slash, or so many of them from one on."""
    return get(start or first, f"{first[:-1]}0", limit, revision)


def digest(bundle: str) -> str:
    return hashlib.sha256(bundle.encode()).hexdigest()


class Found(NamedTuple):
    """A step as three keys of a board say."""

    name: Name
    claim: Value
    step: Value
    tries: Value

    def progress(self) -> Progress:
        return progress_of(self.step.members()) if self.step.created else Progress()

    def wait(self) -> float:
        """In how many seconds to look again: 0 if it can be claimed, and infinity if it never can
        be.
        """
        tries = self.tries.tries()
        if self.progress().is_done or tries.is_given_up:
            return math.inf
        return LOOK if self.claim.created else tries.left()


def parts_of(address: str) -> tuple[bool, tuple[str, ...], str]:
    """Whether etcd is reached by TLS, its members, and the board's name."""
    parts = ADDRESS.fullmatch(address)
    members = parts[2].split(",") if parts else []
    if parts is None or not all(0 < int(member.rsplit(":", 1)[1]) < 65536 for member in members):
        raise Stop(
            Status.FAULT,
            f"{address} is not an address etcd://HOST:PORT,../NAME; the name has letters, digits,"
            " '.', '_' and '-'",
        )
    return bool(parts[1]), tuple(members), parts[5]


def begun(one: Found, since: float) -> Json:
    """What the board keeps of a step that is claimed at that time."""
    return step_of(one.progress()) | {"since": since}


def claimed(one: Found, worker: str, revision: int) -> Claim:
    """The worker's claim of the step as it was found."""
    progress = one.progress()
    return Claim(
        one.name,
        worker,
        revision,
        bool(one.step.created),
        progress.is_open,
        progress.marks,
        one.tries.tries(),
    )


def step_of(progress: Progress) -> Json:
    return {**progress._asdict(), "marks": sorted(progress.marks)}


def progress_of(step: Json) -> Progress:
    return Progress(step["is_done"], step["is_open"], frozenset(step["marks"]))


class EtcdBoard:
    """A board in etcd.

    Unlike a file, it is shared by any number of runners: `begin` refuses none. A runner's claims
    end with its lease.

    A request whose answer was lost may have happened. A claim, a note and a claim's end each write
    a nonce, which is looked for when a request is sent again. So nothing is noted twice. A note
    compares its claim's revision, so a worker whose lease ended notes nothing.
    """

    def __init__(
        self, address: str, is_new: bool = False, lease: int = 60, access: Access = Access(())
    ) -> None:
        is_tls, members, self.name = parts_of(address)
        self.address, self.locks, self.ttl = address, f"{self.name}.hooks", lease
        self.seen = Seen(self.locks)
        self.etcd = Etcd(replace(access, members=members, is_tls=is_tls))
        self.lock, self.over, self.loading = threading.Lock(), threading.Event(), threading.Lock()
        self.lease, self.ending, self.held = 0, -math.inf, dict[tuple[Name, str], Held]()
        self.who = f"{socket.gethostname()}:{os.getpid()}"
        # The key that is there while the lease lasts; and of `pausing` the revision at which it
        # came.
        self.present, self.paused = self.key("runner", self.who), 0
        # The counter of notes as it was seen last; an edition, and how many of its notes were
        # looked at.
        self.counter, self.noted = Value(), ("", 0)
        self.plan_now: Plan | None = None
        self.load()
        self.etcd.patience = PATIENCE
        if self.plan_now is None and not is_new:
            raise NoBoard(address)

    def key(self, kind: str, rest: str | Name = "") -> str:
        """A key that outlives a change of the plan."""
        return f"{self.name}/{kind}/{rest.file() if isinstance(rest, Name) else rest}"

    def load(self) -> None:
        """Reads the plan that the board has now."""
        with self.loading:
            value = self.etcd.read_each(self.key("plan"))[0]
            plan = value.members()
            if plan and (self.plan_now is None or self.plan_now.changed != value.changed):
                pieces = [
                    self.etcd.read_each(self.key("piece", piece))[0].data
                    for piece in plan["pieces"]
                ]
                bundle, names = json.loads(zlib.decompress(b"".join(pieces)))
                self.plan_now = Plan(
                    self.name,
                    plan["edition"],
                    value.changed,
                    bundle,
                    [Name(*name) for name in names],
                    plan["former"],
                )

    def write_plan(
        self,
        bundle: str,
        names: Sequence[Name],
        former: Sequence[str],
        changes: Callable[[Plan], Iterable[Json]],
        compares: Sequence[Json],
    ) -> bool:
        """Writes a plan, with changes of its own, in pieces that nobody reads before the key `plan`
        names them. Whether the board has that plan now.
        """
        known, data = self.plan_now, zlib.compress(json.dumps([bundle, names]).encode())
        plan = Plan(self.name, uuid.uuid4().hex, 0, bundle, list(names), list(former))
        pieces = {
            f"{plan.edition},{start}": data[start : start + PIECE]
            for start in range(0, len(data), PIECE)
        }
        for piece, part in pieces.items():
            self.etcd.transact([], [put(self.key("piece", piece), part)])
        left = iter(changes(plan))
        while some := list(itertools.islice(left, WRITTEN)):
            self.etcd.transact([], some)
        # Of two that write a plan at the same moment the first one has written it.
        is_known = is_changed(self.key("plan"), known.changed if known else 0)
        value = {"edition": plan.edition, "pieces": list(pieces), "former": plan.former}
        self.etcd.transact([is_known, *compares], [put(self.key("plan"), value)])
        self.load()
        return self.plan_now is not None and self.plan_now.edition == plan.edition

    def begin(self, bundle: str, names: Sequence[Name]) -> None:
        self.seen.demand(self.address, self.etcd.cluster, self.etcd.revision)
        if self.plan_now is None:
            self.write_plan(bundle, names, [], lambda _: [], [])
        if digest(bundle) not in self.known().former:
            demand_same(self.address, self.known().bundle, bundle)
        self.leased()
        threading.Thread(target=self.keep, daemon=True).start()

    def known(self) -> Plan:
        """The plan as it was read last."""
        if self.plan_now is None:
            raise Stop(Status.FAULT, f"the board {self.address} has no plan yet")
        return self.plan_now

    # The lease.
    def leased(self, compares: Sequence[Json] = ()) -> int:
        """This runner's lease; a new one where that has ended."""
        with self.lock:
            if now() >= self.ending:
                sent = now()
                reply = self.etcd.call("/v3/lease/grant", {"TTL": self.ttl})
                self.lease, self.ending = int(reply["ID"]), sent + SAFE * int(reply["TTL"])
                self.etcd.transact(compares, [put(self.present, {"lease": self.lease}, self.lease)])
            return self.lease

    def keep(self) -> None:
        """Renews the lease, and looks which claims another plan ended, until the runner ends."""
        once = Etcd(self.etcd.access)
        while not self.over.wait(min(RENEW, self.ttl / 5)):
            sent, lease = now(), self.lease
            # An error in the stream of answers has no `result`.
            with contextlib.suppress(*NO_ANSWER, Stop, LookupError):
                left = int(
                    once.ask("/v3/lease/keepalive", {"ID": lease}, self.ttl / 5)["result"].get(
                        "TTL", 0
                    )
                )
                with self.lock:
                    if lease == self.lease:
                        self.ending = sent + SAFE * left if left else -math.inf
                if once.read_each(self.key("plan"))[0].changed != self.known().changed:
                    self.load()
                for (name, _), held in list(self.held.items()):
                    self.see(name, held)

    def until(self, claim: Claim) -> float:
        """As long as the claim's lease has time left, and no new plan has ended it.

        A thread looks; by the runner's own clock a lease ends before etcd ends it.
        """
        held = self.held.get((claim.name, claim.worker))
        return (
            self.ending
            if held is not None and not held.is_ended and held.lease == self.lease
            else -math.inf
        )

    def is_held(self) -> bool:
        return bool(self.etcd.read(all_of(self.key("runner"), 1))[0])

    def end(self, is_quiet: bool = True) -> None:
        self.over.set()
        if is_quiet:
            with contextlib.suppress(*NO_ANSWER, Stop):
                self.etcd.ask("/v3/lease/revoke", {"ID": self.lease})

    # Claims.
    def claim(
        self, worker: str, edition: str, candidates: Iterable[Name], brief: Container[str] = ()
    ) -> list[Claim] | float | None:
        soonest, left, plan = math.inf, iter(candidates), self.known()
        while names := list(itertools.islice(left, LOOKED)):
            keys = [
                (self.key("claim", name), plan.key("step", name), plan.key("tries", name))
                for name in names
            ]
            pause, changed, *found = self.etcd.read_each(*self.bars(), *itertools.chain(*keys))
            if changed.changed != plan.changed:
                self.load()
                return None
            if pause.created or plan.edition != edition:
                return None
            looked = [
                Found(name, *found[3 * number : 3 * number + 3])
                for number, name in enumerate(names)
            ]
            free = [one for one in looked if one.wait() == 0]
            if free:
                free = [
                    free[0],
                    *(
                        one
                        for one in free[1:TOGETHER]
                        if free[0].name.kind in brief and one.name.kind in brief
                    ),
                ]
            claims = self.take(worker, plan, free) if free else []
            if claims or claims is None:
                return claims
            # Another runner was faster with one of them.
            soonest = min([soonest, *(one.wait() or 0.0 for one in looked)])
        return soonest

    def bars(self) -> tuple[str, str]:
        """The keys that keep a step from being claimed: the one of `pausing`, and the plan's."""
        return self.key("pause"), self.key("plan")

    def take(self, worker: str, plan: Plan, free: Sequence[Found]) -> list[Claim] | None:
        """Claims all these steps as they were found, or none of them.

        None if no step is given out.
        """
        lease, nonce = self.leased(), uuid.uuid4().hex
        value, since = {"worker": f"{worker} of {self.who}", "nonce": nonce}, time.time()
        compares = [is_created(self.key("pause"), 0), is_changed(self.key("plan"), plan.changed)]
        changes = list[Json]()
        for one in free:
            compares += self.as_found(plan, one)
            changes += [
                put(self.key("claim", one.name), value, lease),
                put(plan.key("step", one.name), begun(one, since)),
            ]
        try:
            revision, found = self.etcd.transact(
                compares,
                changes,
                [*map(get, (*self.bars(), *(self.key("claim", one.name) for one in free)))],
            )
        except Refused as refused:
            if refused.code != NOT_FOUND:
                raise
            self.ending = -math.inf
            return []
        if not revision:
            pause, changed, *claims = (values[0] if values else Value() for values in found)
            if not all(there.members().get("nonce") == nonce for there in claims):
                return None if pause.created or changed.changed != plan.changed else []
            revision = claims[0].created
        self.seen.keep(self.etcd.cluster, revision)
        for one in free:
            self.held[one.name, worker] = Held(revision, lease, plan.edition, begun(one, since))
        return [claimed(one, worker, revision) for one in free]

    def as_found(self, plan: Plan, one: Found) -> list[Json]:
        """Compares that hold while nobody has claimed or changed the step since it was found."""
        return [
            is_created(self.key("claim", one.name), 0),
            is_changed(plan.key("step", one.name), one.step.changed),
            is_changed(plan.key("tries", one.name), one.tries.changed),
        ]

    def see(self, name: Name, held: Held) -> None:
        """Ends a claim for which the board has another plan by now, but for a copy that the new
        history has open.
        """
        plan = self.known()
        if held.edition != plan.edition:
            held.is_ended = (
                not self.etcd.read_each(plan.key("step", name))[0].members().get("is_open", False)
            )
            held.edition = plan.edition

    def own(self, claim: Claim) -> Held:
        """The claim as it is held.

        One that has ended is let go, for others to claim the step, and is a `ClaimEnded`.
        """
        held = self.held.get((claim.name, claim.worker))
        if held is not None:
            self.see(claim.name, held)
            if not held.is_ended:
                return held
            del self.held[claim.name, claim.worker]
            mine = self.key("claim", claim.name)
            self.etcd.transact([is_created(mine, held.revision)], [delete(mine)])
        raise ClaimEnded(claim.name)

    def change(
        self, claim: Claim, nonce: str, makes: Callable[[Plan, int], tuple[str, list[Json]]]
    ) -> int:
        """Changes what the board has of a claimed step, once, however often an answer is lost.

        Returns at which revision; 0 if that answer was lost.

        `makes` has the key that gets the nonce, and the changes, under a plan with so many notes.
        """
        mine, plan = self.key("claim", claim.name), self.known()
        held, last = self.own(claim), self.count(plan)
        while True:
            here, changes = makes(plan, int(last.data or b"0"))
            compares = [
                is_created(mine, held.revision),
                is_changed(plan.key("next"), last.changed),
                is_changed(self.key("plan"), plan.changed),
            ]
            revision, found = self.etcd.transact(
                compares, changes, [*map(get, (here, mine, self.key("plan"), plan.key("next")))]
            )
            if revision:
                self.counter = last._replace(key=plan.key("next"))
                return revision
            there, owner, changed, last = (values[0] if values else Value() for values in found)
            if there.members().get("nonce") == nonce:
                self.counter = Value()
                return 0
            if owner.created != held.revision:
                del self.held[claim.name, claim.worker]
                raise ClaimEnded(claim.name)
            if changed.changed != plan.changed:
                self.load()
                plan = self.known()
                held, last = self.own(claim), self.count(plan)

    def count(self, plan: Plan) -> Value:
        """The counter of the plan's notes, as it was seen last."""
        if self.counter.key != plan.key("next"):
            self.counter = self.etcd.read_each(plan.key("next"))[0]
        return self.counter

    def note(self, claim: Claim, notes: Iterable[Note], is_done: bool = False) -> None:
        held, notes, nonce = self.own(claim), list(notes), uuid.uuid4().hex
        step = (
            held.step
            | step_of(functools.reduce(Progress.after, notes, progress_of(held.step)))
            | ({"ended": time.time()} if is_done else {})
        )
        ends = [delete(self.key("claim", claim.name))] if is_done else []

        def makes(plan: Plan, place: int) -> tuple[str, list[Json]]:
            here, value = plan.key("note", f"{place:012d}"), {
                "nonce": nonce,
                "step": claim.name,
                "notes": notes,
            }
            return here, [
                put(here, value),
                put(plan.key("next"), b"%d" % (place + 1)),
                put(plan.key("step", claim.name), step),
                *ends,
            ]

        revision = self.change(claim, nonce, makes)
        if revision:
            self.counter = self.counter._replace(
                data=b"%d" % (int(self.counter.data or b"0") + 1), changed=revision
            )
        held.step = step
        if is_done:
            del self.held[claim.name, claim.worker]

    def give_back(self, claim: Claim, tries: Tries) -> None:
        nonce = uuid.uuid4().hex

        def makes(plan: Plan, place: int) -> tuple[str, list[Json]]:
            here = plan.key("tries", claim.name)
            return here, [
                put(here, {**vars(tries), "nonce": nonce}),
                delete(self.key("claim", claim.name)),
            ]

        self.change(claim, nonce, makes)
        del self.held[claim.name, claim.worker]

    # What is known of the steps.
    def retry(self, number: int) -> None:
        revision = 0
        while not revision:
            self.load()
            plan = self.known()
            if number not in range(len(plan.names)):
                demand_left(number, None)
            mine, here = plan.key("step", plan.names[number]), plan.key("tries", plan.names[number])
            step = self.etcd.read_each(mine)[0]
            demand_left(number, step.members().get("is_done", False))
            revision = self.etcd.transact(
                [is_changed(mine, step.changed), is_changed(self.key("plan"), plan.changed)],
                [put(here, vars(Tries()))],
            )[0]

    def plan(self) -> tuple[str, str, list[int]]:
        self.load()
        plan = self.known()
        self.noted = plan.edition, int(self.etcd.read_each(plan.key("next"))[0].data or b"0")
        done = {
            value.key.rsplit("/", 1)[1]
            for value in self.pages(plan.key("step"))
            if value.members()["is_done"]
        }
        return (
            plan.edition,
            plan.bundle,
            [number for number, name in enumerate(plan.names) if name.file() in done],
        )

    def news(self) -> tuple[str, list[Name]]:
        self.load()
        plan, names = self.known(), dict[Name, None]()
        edition, known = self.noted
        count = int(self.etcd.read_each(plan.key("next"))[0].data or b"0")
        if edition != plan.edition:
            known = count
        if count < known:
            raise Stop(
                Status.OTHER_PLAN,
                (
                    f"the board {self.address} has come back older: it has {count} notes, and had"
                    f" {known}"
                ),
            )
        for _, name, note in self.notes(plan, known):
            if note.word in ("do", "close"):
                names[name] = None
        self.noted = plan.edition, count
        return plan.edition, list(names)

    def set(self, kind: str, values: dict[str, int]) -> None:
        self.etcd.transact([], [put(self.key(kind), values)])

    def settings(self, kind: str) -> dict[str, int]:
        return self.etcd.read_each(self.key(kind))[0].members()

    def lease_left(self) -> float:
        return max(0.0, self.ending - now())

    def remove(self) -> None:
        if self.is_held():
            raise Stop(Status.OTHER_RUNNER, f"another runner works with the board {self.address}")
        self.etcd.transact([], [delete(f"{self.name}/", f"{self.name}0")])
        shutil.rmtree(self.locks, ignore_errors=True)

    def states(self) -> tuple[str, list[State]]:
        plan, revision = self.moment()
        return plan.edition, self.listed(plan, revision)

    def moment(self) -> tuple[Plan, int]:
        """The plan, and a revision at which it was the board's."""
        self.load()
        plan = self.known()
        self.etcd.read_each(plan.key("next"))
        return plan, self.etcd.revision

    def listed(self, plan: Plan, revision: int) -> list[State]:
        kinds = (self.key("claim"), plan.key("step"), plan.key("tries"))
        claims, steps, tries = (
            {value.key.rsplit("/", 1)[1]: value for value in self.pages(kind, revision=revision)}
            for kind in kinds
        )
        states = list[State]()
        for number, name in enumerate(plan.names):
            claim, step, tried = (
                values.get(name.file(), Value()) for values in (claims, steps, tries)
            )
            what: Json = {
                "is_done": False,
                "since": 0.0,
                "ended": 0.0,
                "marks": [],
            } | step.members()
            worker, chunks = claim.members().get("worker", ""), len(what["marks"])
            states.append(
                State(
                    number,
                    name,
                    worker,
                    what["since"],
                    tried.tries(),
                    bool(step.created),
                    what["is_done"],
                    what["ended"],
                    chunks,
                )
            )
        return states

    def pages(self, first: str, start: str = "", revision: int = 0) -> Iterator[Value]:
        """The keys below one, or from one of them on."""
        while values := self.etcd.read(all_of(first, PAGE, start, revision))[0]:
            yield from values
            if len(values) < PAGE:
                break
            start = values[-1].key + "\0"

    def notes(
        self, plan: Plan, first: int = 0, revision: int = 0
    ) -> Iterator[tuple[int, Name, Note]]:
        """The entries from a place on, each with its place."""
        for value in self.pages(plan.key("note"), plan.key("note", f"{first:012d}"), revision):
            members = value.members()
            for word, chunk in members["notes"]:
                yield int(value.key.rsplit("/", 1)[1]), Name(*members["step"]), Note(word, chunk)

    def record(self) -> Record:
        return self.recorded(*self.moment())

    def recorded(self, plan: Plan, revision: int) -> Record:
        return Record(
            plan.edition,
            plan.bundle,
            [
                note.line(plan.numbers[name])
                for _, name, note in self.notes(plan, revision=revision)
            ],
        )

    def later(self, edition: str, mark: int) -> tuple[int, list[str]] | None:
        plan = self.known()
        if plan.edition != edition:
            return None
        found = list(self.notes(plan, mark))
        return found[-1][0] + 1 if found else mark, [
            note.line(plan.numbers[name]) for _, name, note in found
        ]

    def look(self) -> tuple[Record, list[State]]:
        plan, revision = self.moment()
        return self.recorded(plan, revision), self.listed(plan, revision)

    # Another plan.
    @contextlib.contextmanager
    def pausing(self) -> Iterator[None]:
        self.present = self.key("pause")
        lease = self.leased([is_created(self.present, 0)])
        found = self.etcd.read_each(self.present)[0]
        if found.members().get("lease") != lease:
            raise Stop(Status.OTHER_RUNNER, f"another `around` works with the board {self.address}")
        self.paused = found.created
        threading.Thread(target=self.keep, daemon=True).start()
        try:
            yield
        finally:
            with contextlib.suppress(Stop):
                self.etcd.transact([is_created(self.present, self.paused)], [delete(self.present)])
            self.end()

    def swap(self, known: Record, change: Change) -> bool:
        plan = self.known()
        counter = self.etcd.read_each(plan.key("next"))[0]
        if self.record() != known:
            return False
        begun = {
            value.key.rsplit("/", 1)[1]: value.members() for value in self.pages(plan.key("step"))
        }

        def changes(new: Plan) -> Iterator[Json]:
            """What the new edition begins with."""
            progress, place = change.progress(), 0
            for name in new.names:
                if name in progress or name.file() in begun:
                    yield put(
                        new.key("step", name),
                        begun.get(name.file(), {}) | step_of(progress.get(name, Progress())),
                    )
            for name, some in itertools.groupby(change.notes, key=operator.itemgetter(0)):
                yield put(
                    new.key("note", f"{place:012d}"),
                    {"nonce": "", "step": name, "notes": [note for _, note in some]},
                )
                place += 1
            yield put(new.key("next"), b"%d" % place)

        compares = [
            is_changed(plan.key("next"), counter.changed),
            is_created(self.key("pause"), self.paused),
        ]
        return self.write_plan(
            change.bundle, change.names, [*plan.former, digest(plan.bundle)], changes, compares
        )
