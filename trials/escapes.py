#!/usr/bin/env python3
"""Feeds control bytes to every command, and looks at what it prints: trials/escapes.py [SEED]. It
wants the program as it is built.

Bundles of each kind get such bytes in the place of a name, a number, a word, a line, or beside one:
sequences that set a terminal's title, clear its screen or colour it, bytes 00, 7F and 9B, and bytes
above 127 that are UTF-8 and that are not. So does the file of `--layout`.

Owed, on standard output and standard error: no byte below 20 but the line feed, and none from 7F to
9F, as it is or as a character of UTF-8. With `--color always` the same words, but for colours. What
is printed as JSON is UTF-8, and a mend there leads to what it says when it is put in place."""
import json
import pathlib
import random
import re
import subprocess
import sys
import tempfile
from collections.abc import Iterator
from concurrent.futures import ThreadPoolExecutor
from typing import NamedTuple

from measured import RUN

TOP = pathlib.Path(__file__).resolve().parent.parent
POISONS = (
    b"\x1b]0;x\x07",
    b"\x1b[2J",
    b"\x1b[31md",
    b"\x9b31m",
    b"\x00",
    b"\x7f",
    b"\r",
    b"\x0c",
    b"\xc2\x9b31m",
    b"\xc2\x85",
    b"\xff\xfe",
    b"\xe9",
    "d\u00e9".encode(),
    "\u00e9\u00e8\u00ea".encode(),
)
EXAMPLES = (
    "move_one_slot",
    "plan_replace",
    "planned_drain",
    "copy_out_of_order",
    "one_store_may_be_lost",
    "goal_around_a_dead_node",
    "play_a_move_under_traffic",
    "drive_a_move_by_three",
    "replay_a_move",
)
# A mend that puts an `end` before a line shows that line again.
ENDLESS = b"ring 1\nspace 1\nquorum 1 1 1\nnode c 3 in\nslots 0 c\n%s\nplan 1\nend\ncert 1\nend\n"
PLAIN = (
    "check",
    "why",
    "show",
    "show --all --racks-behind .",
    "draw",
    "draw --map",
    "goal",
    "goal --dead d",
    "around --dead b",
    "around --dead d --back",
    "steps",
    "steps --moves",
    "windows --rounds 1",
    "after",
    "cert",
    "plan",
    "migrate",
    "play",
    "drive",
    "drive --format json",
    "replay",
    "part --of 2 --part 0",
    "part --of 2 --part 1 --map 0",
)
COLOURED = ("why", "show --all")
STATED = ("check", "why", "show", "goal", "replay")
COLOUR = re.compile(rb"\x1b\[[0-9;]*m")


class Printed(NamedTuple):
    out: bytes
    errors: bytes
    status: int


def ask(words: str, given: bytes) -> Printed:
    ran = subprocess.run([RUN, *words.split()], input=given, capture_output=True, timeout=60)
    return Printed(ran.stdout, ran.stderr, ran.returncode)


def control(printed: bytes) -> str:
    """The first control byte or character in its surroundings, or nothing."""
    text = printed.decode(errors="surrogateescape")
    found = re.search("[\x00-\x09\x0b-\x1f\x7f-\x9f\udc80-\udc9f]", text)
    return repr(text[max(0, found.start() - 30) : found.start() + 20]) if found else ""


def bundles(draw: random.Random) -> Iterator[tuple[str, bytes]]:
    """Bundles with control bytes: of each example, for each word with which lines begin, a field, a
    part of one, a line, and a line with more after it."""
    turn = draw.randrange(len(POISONS))
    for poison in POISONS:
        for line in (b"e" + poison + b"d", b"more " + poison + b" than one 7"):
            yield f"{line!r} in the place of `end`", ENDLESS % line
    for name in EXAMPLES:
        lines = (TOP / f"examples/{name}.bundle").read_bytes().split(b"\n")
        for word in sorted({line.split(b" ")[0] for line in lines if line}):
            places = [at for at, line in enumerate(lines) if line.split(b" ")[0] == word]
            for kind in ("field", "part", "line", "after"):
                at, poison, turn = draw.choice(places), POISONS[turn % len(POISONS)], turn + 1
                new = lines[at].split(b" ")
                field = draw.randrange(len(new))
                cut = draw.randrange(len(new[field]) + 1)
                if kind == "field":
                    new[field] = poison
                elif kind == "part":
                    new[field] = new[field][:cut] + poison + new[field][cut:]
                else:
                    new = [poison] if kind == "line" else [*new, poison]
                text = [*lines[:at], b" ".join(new), *lines[at + 1 :]]
                yield f"{name}, line {at + 1}: {text[at]!r}", b"\n".join(text)


def mended(given: bytes, mend: dict[str, list[dict[str, object]]]) -> bytes:
    """The bundle with the mend's lines in the place of its own."""
    new = {it["line"]: str(it["text"]).encode() for it in mend["lines"]}
    lines = given.split(b"\n")
    whole = [line + b"\n" for line in lines[:-1]] + ([lines[-1]] if lines[-1] else [])
    # A line after the last one is added.
    whole += [b""] * (max([*map(int, map(str, new)), 0]) - len(whole))
    return b"".join(new.get(at, line) for at, line in enumerate(whole, 1))


def unmet(what: str, given: bytes) -> Iterator[str]:
    """What is wrong with what the commands print of a bundle."""
    for words in PLAIN:
        printed = ask(words, given)
        for stream, text in (("output", printed.out), ("error", printed.errors)):
            if seen := control(text):
                yield f"{words} of {what}: on standard {stream} {seen}"
    for words in COLOURED:
        plain, coloured = (ask(f"{words} --color {it}", given) for it in ("never", "always"))
        if (plain.out, plain.errors) != (
            COLOUR.sub(b"", coloured.out),
            COLOUR.sub(b"", coloured.errors),
        ):
            yield f"{words} of {what}: with colours other words"
    for words in STATED:
        yield from wrongly_stated(f"{words} --format json of {what}", words, given)


def wrongly_stated(what: str, words: str, given: bytes) -> Iterator[str]:
    """What is wrong with an object that a command prints of a bundle."""
    printed = ask(f"{words} --format json", given)
    if seen := control(printed.out) or control(printed.errors):
        yield f"{what}: {seen}"
    try:
        stated = json.loads(printed.out.decode())
    except ValueError as error:
        yield f"{what}: {error}: {printed.out[:200]!r}"
        return
    mend = stated.get("mend")
    if mend and mend["lines"]:
        new = mended(given, mend).split(b"\n")
        # A line that the mend leaves as it was, after an `end`.
        if any(it.startswith(b"more ") and it not in given.split(b"\n") for it in new):
            yield f"{what}: another line in {mend}"
        line = ask("why", mended(given, mend)).out.split(b"\n")[0].decode()
        then = {"accepted": "yes", "planned": "yes", "replayed": "yes"}
        if line != then.get(mend["then"], mend["then"]):
            yield f"{what}: {mend} leads to {line}"


def layouts(draw: random.Random) -> Iterator[str]:
    """What is wrong with what is printed of a layout."""
    bundle = (TOP / "examples/plan_replace.bundle").read_bytes()
    for poison in POISONS:
        with tempfile.NamedTemporaryFile() as file:
            line = draw.choice(
                [
                    poison,
                    b"size 1 " + poison,
                    b"rack a " + poison,
                    b"alias a " + poison,
                    b"alias a x" + poison,
                    b"dead " + poison,
                ]
            )
            file.write(b"layout 1\nsize 0 5\n" + line + b"\nend\n")
            file.flush()
            for words in (
                "goal",
                "goal --format json",
                "show",
                "show --format json",
                "draw",
                "draw --map",
            ):
                printed = ask(f"{words} --layout {file.name}", bundle)
                if seen := control(printed.out) or control(printed.errors):
                    yield f"{words} --layout with {poison!r}: {seen}"


def main() -> int:
    draw = random.Random(int(sys.argv[1]) if len(sys.argv) > 1 else 20261129)
    faults, tried = list(layouts(draw)), list(bundles(draw))
    with ThreadPoolExecutor(4) as threads:
        for found in threads.map(lambda it: list(unmet(*it)), tried):
            faults += found
    print(*faults, f"{len(tried)} bundles with control bytes, {len(faults)} faults", sep="\n")
    return 1 if faults or not tried else 0


if __name__ == "__main__":
    sys.exit(main())
