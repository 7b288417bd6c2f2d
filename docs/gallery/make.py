#!/usr/bin/env python3
"""Makes the pictures of docs/GALLERY.md by `ringplan draw`, from examples and from two larger rings
that it writes. It wants the program as it is built. With `--compare` it writes nothing, and ends
with 1 where a picture is not what `ringplan draw` makes of its bundle. With a folder it writes the
bundles of the two rings there, and a PNG of each picture by Chromium.
"""
import os
import subprocess
import sys

here = os.path.dirname(os.path.abspath(__file__))
top = os.path.dirname(os.path.dirname(here))
PROGRAM = f"{top}/crates/ringplan/out/ringplan"


def large() -> str:
    """1,024 nodes, 4,096 partitions of 3 slots; 60 nodes leave and 24 join."""
    old, new = [f"s{k:04}" for k in range(1000)], [f"t{k:02}" for k in range(24)]
    out = (
        ["ring 1", "space 4096", "quorum 3 2 2"]
        + [f"node {x} 2 in" for x in old]
        + [f"node {x} 2 out" for x in new]
    )
    out += [
        f"slots {p} " + " ".join(old[(p * 7 + i * 131 + p // 143) % 1000] for i in range(3))
        for p in range(4096)
    ]
    out += (
        ["end", "change 1"]
        + [f"join {x}" for x in new]
        + [f"leave {x}" for x in old[40:100]]
        + ["end"]
    )
    return "\n".join(out) + "\n"


def rounds(moves: int) -> str:
    """A slot that goes to and fro between two nodes."""
    out = [
        "ring 1",
        "space 1",
        "quorum 3 2 2",
        "node a 4 in",
        "node b 4 in",
        "node c 4 in",
        "node d 4 out",
        "slots 0 a b c",
        "end",
        "plan 1",
        "join d",
    ]
    owner, other, last = "a", "d", 0
    copies: list[int] = []
    for k in range(1, 4 * moves, 4):
        mirror = f"mirror 0 0 {other} after 0" + (f" {last}" if last else "")
        out += [
            mirror,
            "copy 0 0 owner after " + " ".join(map(str, copies[-1:] + [k])),
            f"switch 0 0 after {k + 1}",
            f"drop 0 0 {owner} after {k + 2}",
        ]
        copies.append(k + 1)
        last, owner, other = k + 3, other, owner
    chain = " ".join(map(str, copies))
    return "\n".join(out + ["end", "cert 1", f"chain a {chain}", f"chain d {chain}", "end"]) + "\n"


def read(path: str) -> str:
    with open(f"{top}/{path}") as it:
        return it.read()


PICTURES = {
    "replace": read("examples/plan_replace.bundle"),
    "drain": read("examples/plan_drain.bundle"),
    "listed": read("examples/copy_from_listed_slots.bundle"),
    "grow64": read("crates/tests_program/data/ring64_grow.bundle"),
    "swap64": read("crates/tests_program/data/ring64_swap.bundle"),
    "progress64": read("crates/tests_program/data/progress64.bundle"),
    "down64": read("crates/tests_program/data/down64.bundle"),
    "died": read("examples/growth_with_a_dead_source.bundle"),
    "around": read("examples/growth_around_a_dead_source.bundle"),
    "map64": read("crates/tests_program/data/ring64_grow.bundle"),
    "large": large(),
    "rounds": rounds(1000),
}

# Pictures of another kind than the plan's rounds.
OPTIONS = {"map64": ["--map"]}

only_compares = sys.argv[1:] == ["--compare"]
old = []
for name, bundle in PICTURES.items():
    drawn = subprocess.run(
        [PROGRAM, "draw", *OPTIONS.get(name, [])], input=bundle.encode(), capture_output=True
    )
    if drawn.returncode:
        sys.exit(f"{name}: {drawn.stdout.decode()}{drawn.stderr.decode()}")
    if only_compares:
        with open(f"{here}/{name}.svg", "rb") as it:
            if it.read() != drawn.stdout:
                old.append(name)
        continue
    with open(f"{here}/{name}.svg", "wb") as picture:
        picture.write(drawn.stdout)
    if len(sys.argv) > 1:
        with open(f"{sys.argv[1]}/{name}.bundle", "w") as text:
            text.write(bundle)
        size = drawn.stdout.split(b'width="', 1)[1]
        wide, high = int(size.split(b'"')[0]), int(size.split(b'height="', 1)[1].split(b'"')[0])
        words = [
            "chromium",
            "--headless",
            "--no-sandbox",
            "--disable-gpu",
            f"--window-size={wide},{high}",
            f"--screenshot={sys.argv[1]}/{name}.png",
            f"file://{here}/{name}.svg",
        ]
        subprocess.run(words, stderr=subprocess.DEVNULL, timeout=120)
if only_compares:
    print(f"pictures: {len(PICTURES)}, {len(old)} are old {' '.join(old)}")
    sys.exit(1 if old else 0)
