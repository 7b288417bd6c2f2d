#!/usr/bin/env python3
"""Bundles with scripts that could be made to cost a play much, for measuring.

    hostile_scripts.py reads M G      > bundle    M writers leave M/2 versions in conflict, each
                                      with M/2 entries; G gets read them
    hostile_scripts.py writes M N     > bundle    the same versions, written once more by N lines
    hostile_scripts.py seen M N       > bundle    the same versions, and N puts that know 16 gets
                                      which found them
    hostile_scripts.py chained M N    > bundle    N puts by M writers, each of which knows all
                                      before it, by a get of its own
    hostile_scripts.py joins M G      > bundle    two versions in conflict, each with M/2 entries; G
                                      gets read both, and no put names these
    hostile_scripts.py values M G     > bundle    M versions in conflict of 1,024 bytes each, and G
                                      gets that read and end
    hostile_scripts.py hints N        > bundle    N hints, at 1,017 nodes and seven slots of a
                                      partition for each key
    hostile_scripts.py scattered N    > bundle    N hints, each at a node and for a slot that has no
                                      other
    hostile_scripts.py keepers K N    > bundle    K nodes keep another key for a slot, which N gets
                                      read
    hostile_scripts.py down K N       > bundle    the same where a keeper of the key is down, and N
                                      reads are refused
    hostile_scripts.py keys M K       > bundle    a slot with K keys moves M times
    hostile_scripts.py touched M K    > bundle    the same, with a put to a key of each chunk in
                                      front of each move's copies
    hostile_scripts.py left M K T     > bundle    the same from node to node, each of which keeps
                                      what it has, with T keys of each chunk put again
    hostile_scripts.py kept K M N     > bundle    K nodes keep the same M/2 versions for a slot,
                                      which N gets read
    hostile_scripts.py long_clocks M N > bundle   N hints of versions whose clocks have M/2 entries
    hostile_scripts.py long_keys N    > bundle    N keys of 64 bytes, each taken by two slots
    hostile_scripts.py names N        > bundle    1,024 names that differ in their last bytes, named
                                      by N lines
    hostile_scripts.py waits N        > bundle    a chunk that 1,016 keepers have something for, one
                                      of them down, asked for N times

Each prints one bundle of ring, plan, certificate and script. Limits: 1,000,000 events, 1,024
writers and 64 MiB.
"""
import hashlib
import sys
from collections.abc import Callable

from hostile_plans import ring, small

# The lines of a ring, of a plan, of a certificate and of a script.
Parts = tuple[list[str], list[str], list[str], list[str]]


def in_conflict(m: int, value: str = "x") -> tuple[list[str], int, int]:
    """The script that leaves m/2 versions in conflict at slot 0, and its puts and gets."""
    half = m // 2
    out = []
    for n in range(half):
        out += ["put w%d k x" % n, "write %d 0" % n]
    out += ["get k", "read 0 0", "read 0 1", "endget 0"]
    for n in range(half, m):
        out += ["put w%d k %s seen 0" % (n, value), "write %d 0" % n]
    return out, m, 1


def reads(m: int, g: int) -> Parts:
    out, _, gets = in_conflict(m)
    for n in range(gets, gets + g):
        out += ["get k", "read %d 0" % n]
    return small(), [], [], out


def writes(m: int, n: int) -> Parts:
    out, puts, _ = in_conflict(m)
    half = m // 2
    return small(), [], [], out + ["write %d 0" % (half + k % half) for k in range(n)]


def seen(m: int, n: int) -> Parts:
    out, _, gets = in_conflict(m)
    for g in range(gets, gets + 16):
        out += ["get k", "read %d 0" % g, "read %d 1" % g, "endget %d" % g]
    row = " ".join(str(g) for g in range(gets, gets + 16))
    return small(), [], [], out + ["put w0 k x seen " + row for _ in range(n)]


def chained(m: int, n: int) -> Parts:
    out = []
    for k in range(n):
        knows = " seen %d" % (k - 1) if k else ""
        out += [
            "put w%d k x%s" % (k % m, knows),
            "write %d 0" % k,
            "get k",
            "read %d 0" % k,
            "read %d 1" % k,
            "endget %d" % k,
        ]
    return small(), [], [], out


def joins(m: int, g: int) -> Parts:
    out = []
    for k in range(m):
        slot, knows = k // (m // 2), " seen %d" % (k - 1) if k % (m // 2) else ""
        out += [
            "put w%d k x%s" % (k, knows),
            "write %d %d" % (k, slot),
            "get k",
            "read %d %d" % (k, slot),
            "read %d 2" % k,
            "endget %d" % k,
        ]
    for n in range(m, m + g):
        out += ["get k", "read %d 0" % n, "read %d 1" % n]
    return small(), [], [], out


def values(m: int, g: int) -> Parts:
    out = []
    for n in range(m):
        out += ["put w%d k x%s" % (n, "ab" * 1024), "write %d 0" % n]
    for n in range(g):
        out += ["get k", "read %d 0" % n, "read %d 1" % n, "endget %d" % n]
    return small(), [], [], out


def wide(partitions: int) -> tuple[list[str], list[str]]:
    names = ["n%04d" % n for n in range(1024)]
    return names, ring(
        names, partitions, lambda p: [names[(7 * p + i) % 1024] for i in range(7)], "7 4 4"
    )


def hints(n: int) -> Parts:
    """One partition at a time cannot be chosen by a key without its digest, so there is one."""
    names, text = wide(1)
    out: list[str] = []
    k = 0
    while len(out) < n:
        put = k
        out.append("put w0 key%d x" % k)
        out += ["hint %d %d %s" % (put, m % 7, names[m]) for m in range(7, 1024)][: n - len(out)]
        k += 1
    return text, [], [], out


def scattered(n: int) -> Parts:
    """A key of each partition in turn, kept by all nodes that own no slot of it, for each of its
    slots.
    """
    names, text = wide(256)
    out: list[str] = []
    put, k = 0, 0
    seen: set[int] = set()
    while len(out) < n:
        partition = hashlib.md5(b"key%d" % k).digest()[0]
        k += 1
        if partition in seen:
            continue
        seen.add(partition)
        owners = {(7 * partition + i) % 1024 for i in range(7)}
        out.append("put w0 key%d x" % (k - 1))
        out += [
            "hint %d %d %s" % (put, i, names[m])
            for m in range(1024)
            if m not in owners
            for i in range(7)
        ][: n - len(out)]
        put += 1
    return text, [], [], out


def keepers(k: int, n: int) -> Parts:
    names, text = wide(1)
    out = ["put w0 other x"] + ["hint 0 0 %s" % names[m] for m in range(7, 7 + k)]
    for g in range(n):
        out += ["get k", "read %d 0" % g]
    return text, [], [], out


def down(k: int, n: int) -> Parts:
    names, text = wide(1)
    out = ["put w0 other x", "put w0 k x"] + ["hint 0 0 %s" % names[m] for m in range(7, 7 + k)]
    out += ["hint 1 0 %s" % names[6 + k], "down %s" % names[6 + k], "get k"]
    return text, [], [], out + ["read 0 0"] * n


def moving(
    names: list[str], m: int, k: int, touch: list[str], drops: bool
) -> tuple[list[str], list[str], list[str]]:
    """K keys of a slot that moves M times along the names, with what a move's `touch` adds between
    its mirror and its copies.
    """
    plan: list[str] = []
    steps = 4 if drops else 3
    for move in range(m):
        old, new = names[move % len(names)], names[(move + 1) % len(names)]
        first = steps * move
        after = " after %d" % (first - 1) if move else ""
        plan += [
            "mirror 0 0 %s%s" % (new, after),
            "copy 0 0 owner after %d" % first,
            "switch 0 0 after %d" % (first + 1),
        ]
        plan += ["drop 0 0 %s after %d" % (old, first + 2)] * drops
    copies = range(1, len(plan), steps)
    cert = ["fact " + " ".join(map(str, range(c, c + steps + 1))) for c in list(copies)[:-1]]
    chains: dict[str, list[int]] = {}
    for move, copy in enumerate(copies):
        for x in {names[move % len(names)], names[(move + 1) % len(names)]}:
            chains.setdefault(x, []).append(copy)
    cert += ["chain %s %s" % (x, " ".join(map(str, chains[x]))) for x in sorted(chains)]
    out = []
    for n in range(k):
        out += ["put w0 key%d x" % n, "write %d 0" % n]
    puts = k
    for move in range(m):
        first = steps * move
        out.append("do %d" % first)
        for key in touch:
            out += ["put w0 %s x" % key, "write %d 0" % puts]
            puts += 1
        out += ["open %d" % (first + 1)] + ["chunk %d %d" % (first + 1, c) for c in range(16)]
        out += ["close %d" % (first + 1)] + ["do %d" % (first + n) for n in range(2, steps)]
    return plan, cert, out


def of_each_chunk(t: int) -> list[str]:
    """The first T keys of each chunk."""
    found: list[list[str]] = [[] for _ in range(16)]
    for n in range(100 * t + 1000):
        found[hashlib.md5(b"key%d" % n).digest()[0] >> 4].append("key%d" % n)
    return [key for keys in found for key in keys[:t]]


def keys(m: int, k: int) -> Parts:
    return small(), *moving(["a", "d"], m, k, [], True)


def touched(m: int, k: int) -> Parts:
    return small(), *moving(["a", "d"], m, k, of_each_chunk(1), True)


def left(m: int, k: int, t: int) -> Parts:
    names = ["n%04d" % n for n in range(1024)]
    text = ring(names, 1, lambda p: [names[0], names[1022], names[1023]])
    return text, *moving(names[:1000], m, k, of_each_chunk(t), False)


def kept(k: int, m: int, n: int) -> Parts:
    """K nodes keep the same M/2 versions for a slot, which N gets read."""
    names, text = wide(1)
    half = m // 2
    out = ["put w%d k x" % p for p in range(m)]
    out += ["hint %d 0 %s" % (p, names[at]) for at in range(7, 7 + k) for p in range(half, m)]
    for g in range(n):
        out += ["get k", "read %d 0" % g]
    return text, [], [], out


def long_clocks(m: int, n: int) -> Parts:
    """The versions of `reads` are kept as hints, n of them."""
    names, text = wide(1)
    out, puts, _ = in_conflict(m)
    out = [line for line in out if not line.startswith(("read", "endget"))]
    at = out.index("get k")
    out[at + 1 : at + 1] = ["read 0 %d" % i for i in range(4)] + ["endget 0"]
    out += [
        "hint %d %d %s" % (m // 2 + (k // 1017) % (m - m // 2), k % 1017 % 7, names[7 + k % 1017])
        for k in range(n)
    ]
    return text, [], [], out


def long_keys(n: int) -> Parts:
    """N keys of 64 bytes, each with a put that two slots take."""
    out = []
    for k in range(n):
        out += ["put w0 %s%08d x" % ("k" * 56, k), "write %d 0" % k, "write %d 1" % k]
    return small(), [], [], out


def names(n: int) -> Parts:
    """1,024 nodes whose names differ in their last bytes alone, named N times."""
    nodes = ["n" * 28 + "%04d" % k for k in range(1024)]
    out = ["up %s" % nodes[(37 * k) % 1024] for k in range(n)]
    return ring(nodes, 1, lambda p: nodes[:3]), [], [], out


def waits(n: int) -> Parts:
    """A chunk that is refused since one of 1,017 keepers is down, tried N times."""
    names, text = wide(1)
    text = text[:-2] + ["slots 0 " + " ".join(names[:7]), "end"]
    plan = ["mirror 0 0 %s" % names[1023], "copy 0 0 slots 0 1 2 3 after 0", "switch 0 0 after 1"]
    cert = ["chain %s 1" % names[k] for k in (0, 1, 2, 3, 1023)]
    out = (
        ["put w0 k x"]
        + ["hint 0 1 %s" % names[m] for m in range(7, 1023)]
        + ["do 0", "down %s" % names[1022], "open 1"]
    )
    return text, plan, cert, out + ["chunk 1 %d" % (k % 16) for k in range(n)]


ALL: tuple[Callable[..., Parts], ...] = (
    reads,
    writes,
    seen,
    chained,
    joins,
    values,
    hints,
    scattered,
    keepers,
    down,
    keys,
    touched,
    left,
    kept,
    long_clocks,
    long_keys,
    names,
    waits,
)
FAMILIES = {family.__name__: family for family in ALL}


def bundle(name: str, *numbers: int) -> str:
    text, plan, cert, script = FAMILIES[name](*numbers)
    lines = (
        text + ["plan 1"] + plan + ["end", "cert 1"] + cert + ["end", "script 1"] + script + ["end"]
    )
    return "\n".join(lines) + "\n"


def main() -> None:
    family, numbers = FAMILIES.get(sys.argv[1] if len(sys.argv) > 1 else ""), sys.argv[2:]
    if not family or len(numbers) != family.__code__.co_argcount:
        sys.exit(__doc__)
    sys.stdout.write(bundle(sys.argv[1], *map(int, numbers)))


if __name__ == "__main__":
    main()
