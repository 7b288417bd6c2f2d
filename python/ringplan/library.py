"""ringplan's commands as functions: the bytes of a bundle in, what the program prints and its exit
status out.

    >>> from ringplan import library
    >>> library.check(open("examples/move_one_slot.bundle", "rb").read())
    Answer(status=<Status.DONE: 0>, text=b'yes\\n', errors='')

Each is a call of the C library in this process, where it is there: the file that the environment's
RINGPLAN_LIBRARY names, else what the tree has built or `make install` has installed. Else, and
where an option names a file, the program `ringplan` runs. Both give the same bytes. Calls may run
in any number of threads: ctypes lets go of the interpreter's lock while one runs. A refusal is an
`Answer` too; `Answer.demand` makes an exception of it. A `Watch` judges a history while it grows.
"""

from __future__ import annotations

import ctypes
import enum
import functools
import os
import pathlib
import threading
import weakref
from collections.abc import Sequence
from types import TracebackType
from typing import NamedTuple

from ringplan import programs

# The version of the C library's calls, and the name of its file.
VERSION = 2
FILE = f"libringplan.so.{VERSION}"
# The calls that take no options.
JOBS = ("check", "plan", "play", "replay", "migrate")
# Room for every refusal of these, and for every answer to a check.
LINE = 32
# How a call for people refuses options that name a file.
NO_FILES = "error: a call reads and writes no files\n\nFor more information, try '--help'.\n"


class NoLibrary(Exception):
    """A C library that is named and cannot be used."""


class Status(enum.IntEnum):
    """The exit status of the program."""

    # It is printed, or yes.
    DONE = 0
    # The plan is refused, there is none, or the history is not a run of it.
    PLAN_REFUSED = 1
    # A text is refused, or the command line.
    TEXT_REFUSED = 2
    # Memory ran out, or an input or output failed.
    OUT_OF_MEMORY = 3
    # `goal` with --exit-code: the plan has steps.
    HAS_STEPS = 4


class Refused(Exception):
    """An answer that is a refusal. Its text is the refusal's line, or the words of the program."""

    def __init__(self, answer: Answer) -> None:
        super().__init__(
            (answer.text.decode(errors="replace") if answer.text else answer.errors).strip()
        )
        self.answer = answer


class Answer(NamedTuple):
    """What the program prints on standard output and on standard error, and its exit status."""

    status: Status
    text: bytes
    errors: str = ""

    def demand(self) -> bytes:
        """The text. A refusal is a `Refused`."""
        if self.status not in (Status.DONE, Status.HAS_STEPS):
            raise Refused(self)
        return self.text


def places() -> list[pathlib.Path]:
    """Where the C library may be: in the tree, or beside the installed package."""
    here = pathlib.Path(__file__).resolve().parents
    return [
        programs.TOP / "crates/ringplan_c/out" / FILE,
        *([here[3] / FILE] if here[2].name == "python3" else []),
    ]


@functools.cache
def load(named: str | None) -> ctypes.CDLL | None:
    """The C library that is named; None for the empty name, and where none is named and there is
    none.
    """
    there = [str(place) for place in places() if place.exists()] if named is None else [named]
    if not there or not there[0]:
        return None
    try:
        found = ctypes.CDLL(there[0])
        found.ringplan_version.restype, found.ringplan_version.argtypes = ctypes.c_uint32, []
        version = found.ringplan_version()
    except (OSError, AttributeError) as error:
        raise NoLibrary(f"{there[0]} is no library of ringplan: {error}") from error
    if version != VERSION:
        raise NoLibrary(f"{there[0]} has version {version} of the calls, and not {VERSION}")
    return found


def by_library(
    library: ctypes.CDLL, command: str, bundle: bytes, options: Sequence[str] = ()
) -> Answer:
    call = getattr(library, f"ringplan_{command}" if command in JOBS else "ringplan_call")
    call.restype, call.argtypes = ctypes.c_uint8, None
    length, errors, size = ctypes.c_size_t(), ctypes.c_size_t(), ctypes.c_size_t
    given: list[object] = [bundle, size(len(bundle))]
    told, room = [ctypes.byref(length)], LINE
    if command not in JOBS:
        word, words = os.fsencode(command), b"".join(
            os.fsencode(option) + b"\0" for option in options
        )
        given = [word, size(len(word)), words, size(len(words)), *given]
        told, room = [*told, ctypes.byref(errors)], max(1 << 16, 4 * len(bundle))
    while True:
        output = ctypes.create_string_buffer(room)
        status = call(*given, output, size(room), *told)
        if length.value <= room:
            said, end = output.raw[: length.value], length.value - errors.value
            return Answer(Status(status), said[:end], said[end:].decode(errors="replace"))
        room = length.value


def by_program(command: str, bundle: bytes, options: Sequence[str] = ()) -> Answer:
    ran = programs.run(command, bundle, *options)
    return Answer(Status(ran.returncode), ran.stdout, ran.stderr.decode(errors="replace"))


def call_or_run(command: str, bundle: bytes, options: Sequence[str] = ()) -> Answer:
    # Bytes alone: nobody can write them while the call runs.
    if not isinstance(bundle, bytes):
        raise TypeError(f"a bundle is bytes, and not {type(bundle).__name__}")
    if any("\0" in option for option in options):
        raise ValueError("an option has a NUL")
    library = load(os.environ.get("RINGPLAN_LIBRARY"))
    if library is not None:
        answer = by_library(library, command, bundle, options)
        if answer.errors != NO_FILES:
            return answer
    return by_program(command, bundle, options)


def check(bundle: bytes) -> Answer:
    """Of a ring, a plan and its certificate: `yes`, and then the plan keeps its promises, or the
    first refusal.
    """
    return call_or_run("check", bundle)


def plan(bundle: bytes) -> Answer:
    """Of a ring and a change: a plan that the checker accepts and its certificate, or a refusal."""
    return call_or_run("plan", bundle)


def play(bundle: bytes) -> Answer:
    """Of a ring, a plan, its certificate and a script: what each event is answered and the owners
    at the end, or a refusal.
    """
    return call_or_run("play", bundle)


def replay(bundle: bytes) -> Answer:
    """Of a ring, a plan, its certificate and a history: `yes` and the owners at the end, or the
    first fault.
    """
    return call_or_run("replay", bundle)


def migrate(bundle: bytes) -> Answer:
    """Of a ring, a plan and its certificate: the same in the ring's next format, with nothing
    checked, or a refusal.
    """
    return call_or_run("migrate", bundle)


def goal(bundle: bytes, *options: str) -> Answer:
    """Of a ring and a change or a goal ring: the ring, a plan and its certificate.

    Options as `--dead`, `b` or `--racks-behind`, `none`.
    """
    return call_or_run("goal", bundle, options)


def around(bundle: bytes, *options: str) -> Answer:
    """Another plan around nodes that died in the middle of a change, and the history that goes on
    by it. Options: `--dead`, `b`, and `--back`.
    """
    return call_or_run("around", bundle, options)


def why(bundle: bytes, *options: str) -> Answer:
    """Why a bundle is refused, in words, with lines that may mend it.

    Options: `--color`, `--format`.
    """
    return call_or_run("why", bundle, options)


def show(bundle: bytes, *options: str) -> Answer:
    """What the plan does, and with a history how far it has come.

    Options: `--all`, `--racks-behind`.
    """
    return call_or_run("show", bundle, options)


def draw(bundle: bytes, *options: str) -> Answer:
    """A picture of the plan as SVG. Options: `--map`, `--racks-behind`."""
    return call_or_run("draw", bundle, options)


def steps(bundle: bytes, *options: str) -> Answer:
    """The plan's steps as lines of JSON, which `ringplan.texts.read_steps` reads.

    Option: `--moves`.
    """
    return call_or_run("steps", bundle, options)


def cert(bundle: bytes, *options: str) -> Answer:
    """Ring and plan with a certificate that is found, whether or not the bundle has one."""
    return call_or_run("cert", bundle, options)


def windows(bundle: bytes, *options: str) -> Answer:
    """The plan cut into bundles that are done one after the other.

    Options: `--rounds`, `--only`.
    """
    return call_or_run("windows", bundle, options)


def after(bundle: bytes, *options: str) -> Answer:
    """The ring that the plan leaves, or what a history has done of it."""
    return call_or_run("after", bundle, options)


class Held(ctypes.Structure):
    """The C library's `struct ringplan_watch`: a judge that only the library looks into."""

    _fields_ = [("judge", ctypes.c_void_p), ("is_held", ctypes.c_bool)]


class Watch:
    """Judges a history while it grows, as `ringplan watch` does. Needs the C library.

    >>> with Watch(bundle) as watch:
    ...     watch.take(b"history 1\\nput w1 k x31 = put 0\\n")
    ...     print(watch.count)
    1

    A bundle that is refused is a `Refused`, and so is an entry that cannot have happened. From
    then on each call raises the same. One call runs at a time.
    """

    def __init__(self, bundle: bytes) -> None:
        library = load(os.environ.get("RINGPLAN_LIBRARY"))
        if library is None:
            raise NoLibrary("a watch needs the C library")
        self._library, self._lock, self._held = library, threading.Lock(), Held()
        library.ringplan_watch_count.restype = ctypes.c_uint32
        library.ringplan_watch_free.restype = None
        self._call("new", bundle).demand()
        self._free = weakref.finalize(self, library.ringplan_watch_free, ctypes.byref(self._held))

    def _call(self, name: str, *given: bytes) -> Answer:
        for each in given:
            if not isinstance(each, bytes):
                raise TypeError(f"a watch takes bytes, and not {type(each).__name__}")
        call = getattr(self._library, f"ringplan_watch_{name}")
        call.restype = ctypes.c_uint8
        length, size, room = ctypes.c_size_t(), ctypes.c_size_t, LINE
        with self._lock:
            if name != "new" and not self._held.is_held:
                raise ValueError("the watch is closed")
            while True:
                output = ctypes.create_string_buffer(room)
                words = [word for each in given for word in (each, size(len(each)))]
                told = ctypes.byref(length)
                status = call(ctypes.byref(self._held), *words, output, size(room), told)
                if length.value <= room:
                    return Answer(Status(status), output.raw[: length.value])
                room = length.value

    def take(self, data: bytes) -> None:
        """Takes the next bytes of the history, which may end anywhere."""
        self._call("take", data).demand()

    @property
    def count(self) -> int:
        """How many entries the judge has followed."""
        with self._lock:
            if not self._held.is_held:
                raise ValueError("the watch is closed")
            return int(self._library.ringplan_watch_count(ctypes.byref(self._held)))

    def end(self) -> Answer:
        """What a replay of the history prints if no more bytes come. The watch may take more."""
        return self._call("end")

    def close(self) -> None:
        """Frees the judge. Does nothing if it was freed before."""
        with self._lock:
            self._free()

    def __enter__(self) -> Watch:
        return self

    def __exit__(
        self,
        kind: type[BaseException] | None,
        error: BaseException | None,
        trace: TracebackType | None,
    ) -> None:
        self.close()
