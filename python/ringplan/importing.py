"""Makes a ring text of what a store prints of its own ring: `ringplan-import SOURCE [FILE]`.

    describering   what `nodetool describering KEYSPACE` of Cassandra prints: ranges between tokens,
                   each with its endpoints
    ring           what `nodetool ring` of Cassandra prints; replicas are as NetworkTopologyStrategy
                   places them in one datacentre (--slots, --datacenter)
    tablets        rows of `system.tablets` of ScyllaDB as JSON, one a line or in a list, or as
                   `cqlsh` prints them: `last_token` and `replicas`, pairs of a host and a shard
    riak           what `riak_core_ring:all_owners` of Riak lists as JSON: `index` and `node` of
                   each virtual node; slots are the owners from an index on (--slots)
    csv            lines `partition,node,rack`, a line for each slot, in the order of its slots

A node's name in the ring is its name in the source, in lower case and without the dashes of a UUID,
with `.rack` after it if the source names the rack. A name that does not fit is cut, with a part of
its digest after it. If the number of ranges is not a power of two, the first rows are repeated; the
repeats have no keys. Standard error says what was made up. `ringplan` reads the ring before it is
printed. `--layout FILE` writes a layout for `ringplan`: racks, the names of the source as aliases,
and size 0 for each repeat. The samples of the tests are written by hand from the public
documentation.
"""

from __future__ import annotations

import argparse
import csv
import hashlib
import json
import os
import pathlib
import re
import sys
from collections.abc import Callable, Iterable, Iterator
from typing import Any

from ringplan import programs
from ringplan.options import complete
from ringplan.texts import NAME, Ring, RingNode


class BadSource(Exception):
    """A source that does not read, and where."""


# The slots of each partition in order, each a node and perhaps its rack.
Rows = list[list[tuple[str, str]]]

RANGE = re.compile(r"TokenRange\(start_token:(-?\d+), end_token:(-?\d+), endpoints:\[([^\]]*)\]")
DETAILS = re.compile(r"EndpointDetails\(host:([^,]+), datacenter:([^,]*), rack:([^)]*)\)")


def in_order(found: Iterable[tuple[int, list[tuple[str, str]]]]) -> Rows:
    """Ranges in the order of their last tokens, of which no two are equal."""
    rows = dict[int, list[tuple[str, str]]]()
    for token, row in found:
        if token in rows:
            raise BadSource(f"two ranges end with the token {token}: give the ranges of one table")
        rows[token] = row
    return [rows[token] for token in sorted(rows)]


def describering(lines: Iterable[str], _: int = 0, datacenter: str = "") -> Rows:
    found = list[tuple[int, list[tuple[str, str]]]]()
    for number, line in enumerate(lines, 1):
        if "TokenRange(" not in line:
            continue
        match = RANGE.search(line)
        if match is None:
            raise BadSource(f"line {number}: a range without tokens and endpoints")
        places = {
            host.strip(): (where.strip(), rack.strip())
            for host, where, rack in DETAILS.findall(line)
        }
        racks = {host: rack for host, (where, rack) in places.items()}
        hosts = [
            host
            for host in map(str.strip, match[3].split(","))
            if host and datacenter in ("", places.get(host, ("", ""))[0])
        ]
        found.append((int(match[2]), [(host, racks.get(host, "")) for host in hosts]))
    return in_order(found)


def token_ring(lines: Iterable[str], slots: int = 3, datacenter: str = "") -> Rows:
    owners, where = dict[str, list[tuple[int, str, str]]](), ""
    for number, line in enumerate(lines, 1):
        fields = line.split()
        if fields[:1] == ["Datacenter:"]:
            where = " ".join(fields[1:])
        # Address, rack, status, state, load, owns, token; a load is one word or two.
        if len(fields) not in (7, 8) or fields[2] not in ("Up", "Down", "?"):
            continue
        if fields[3] != "Normal":
            raise BadSource(
                f"line {number}: {fields[0]} is {fields[3]}: wait until the ring is at rest"
            )
        owners.setdefault(where, []).append((int(fields[-1]), fields[0], fields[1]))
    if not datacenter and len(owners) > 1:
        raise BadSource(
            f"there are {len(owners)} datacentres: give --datacenter {' or '.join(sorted(owners))}"
        )
    walk = sorted(
        owners.get(datacenter, [])
        if datacenter
        else [owner for each in owners.values() for owner in each]
    )
    return in_order(
        (token, replicas(walk, start, slots)) for start, (token, _, _) in enumerate(walk)
    )


def replicas(walk: list[tuple[int, str, str]], start: int, slots: int) -> list[tuple[str, str]]:
    """The owners of the range that ends with a token: the next nodes, of as many racks as there
    are. As many nodes of a rack that came already as racks are lacking.
    """
    found, seen = dict[str, str](), set[str]()
    repeats = slots - len({rack for _, _, rack in walk})
    for _, node, rack in walk[start:] + walk[:start]:
        if len(found) == slots:
            break
        if node not in found and (rack not in seen or repeats > 0):
            repeats -= rack in seen
            seen.add(rack)
            found[node] = rack
    return [*found.items()]


def rows_of(lines: Iterable[str]) -> list[dict[str, Any]]:
    """Objects of JSON: a list of them, or one a line, among other lines as `cqlsh` prints them."""
    text = "".join(lines)
    rows: list[dict[str, Any]] = (
        json.loads(text)
        if text.lstrip().startswith("[{")
        else [json.loads(line) for line in text.splitlines() if line.lstrip().startswith("{")]
    )
    if not all(isinstance(row, dict) for row in rows):
        raise BadSource("a row is not an object of JSON")
    return rows


def tablets(lines: Iterable[str], _: int = 0, __: str = "") -> Rows:
    rows = rows_of(lines)
    if len(tables := {str(row.get("table_id", "")) for row in rows}) > 1:
        raise BadSource(f"rows of {len(tables)} tables: give those of one table_id")
    found = list[tuple[int, list[tuple[str, str]]]]()
    for row in rows:
        if not all(
            isinstance(pair, list) and len(pair) == 2 and isinstance(pair[0], str)
            for pair in row["replicas"]
        ):
            raise BadSource("replicas are pairs of a host and a shard")
        found.append((int(str(row["last_token"])), [(host, "") for host, _ in row["replicas"]]))
    return in_order(found)


def riak(lines: Iterable[str], slots: int = 3, _: str = "") -> Rows:
    """Partition p belongs to the virtual nodes from p on, as many as a key has replicas."""
    owners = in_order((int(str(row["index"])), [(str(row["node"]), "")]) for row in rows_of(lines))
    return [
        [owners[(start + slot) % len(owners)][0] for slot in range(slots)]
        for start in range(len(owners))
    ]


def from_csv(lines: Iterable[str], _: int = 0, __: str = "") -> Rows:
    """Partitions in ascending order."""
    found = dict[int, list[tuple[str, str]]]()
    for number, fields in enumerate(csv.reader(lines), 1):
        if not fields or fields[0] == "partition":
            continue
        if len(fields) not in (2, 3) or not fields[0].strip().isdecimal():
            raise BadSource(f"line {number}: a line is `partition,node,rack`")
        found.setdefault(int(fields[0]), []).append(
            (fields[1].strip(), fields[2].strip() if len(fields) == 3 else "")
        )
    if missing := sorted(set(range(len(found))) - set(found)):
        raise BadSource(f"partition {missing[0]} is missing")
    return [found[partition] for partition in sorted(found)]


SOURCES: dict[str, Callable[[Iterable[str], int, str], Rows]] = {
    "describering": describering,
    "ring": token_ring,
    "tablets": tablets,
    "riak": riak,
    "csv": from_csv,
}


def whole_name(node: str, rack: str) -> str:
    """The node's name in the ring, if that fits."""
    name = node.lower()
    if re.fullmatch(r"[0-9a-f]{8}(-[0-9a-f]{4}){3}-[0-9a-f]{12}", name):
        name = name.replace("-", "")
    # Riak's nodes are `riak@HOST`.
    return name.lstrip("/").replace("@", ":") + (f".{rack.lower()}" if rack else "")


def name_of(node: str, rack: str) -> str:
    """The node's name in the ring.

    One that does not fit is cut, with a part of its digest after it: so it is always the same one.
    """
    name = whole_name(node, rack)
    if not node or len(node.encode()) > 255 or re.search(r"[\s\x00-\x1f\x7f-\x9f]", node + rack):
        raise BadSource(f"{node[:300]!r} has no name: a name has no spaces, and at most 255 bytes")
    if NAME.fullmatch(name):
        return name
    return (
        f"{re.sub('[^a-z0-9_.:-]', '-', name)[:23]}-{hashlib.sha256(name.encode()).hexdigest()[:8]}"
    )


def ring_of(rows: Rows, quorum: tuple[int, int], allowance: int, joining: list[str]) -> Ring:
    """The ring, filled up to a power of two."""
    named = [tuple(name_of(*slot) for slot in row) for row in rows]
    sizes = {len(row) for row in named}
    if len(sizes) != 1:
        raise BadSource(
            "each range must have as many nodes as the others" if named else "there are no ranges"
        )
    for number, row in enumerate(named):
        if len(set(row)) < len(row):
            raise BadSource(f"range {number} has a node twice: {' '.join(row)}")
    nodes_of = dict[str, tuple[str, str]]()
    for slot in (slot for slots in rows for slot in slots):
        if nodes_of.setdefault(name_of(*slot), slot) != slot:
            raise BadSource(
                f"{slot[0]!r} and {nodes_of[name_of(*slot)][0]!r} have the same name"
                f" {name_of(*slot)}"
            )
    whole = 1 << (len(named) - 1).bit_length()
    nodes = sorted({node for row in named for node in row})
    declared = [RingNode(node, (allowance,), True) for node in nodes] + [
        RingNode(node, (allowance,), False) for node in joining
    ]
    return Ring(
        1,
        (sizes.pop(), *quorum),
        tuple(declared),
        tuple(named[number % len(named)] for number in range(whole)),
    )


def racks_of(rows: Rows, joining: list[str]) -> dict[str, str]:
    """The rack of each node, if the source names racks.

    A joining node's rack is what follows the last `.` of its name.
    """
    racks = {name_of(node, rack): rack.lower() for row in rows for node, rack in row}
    if not any(racks.values()):
        return {}
    racks |= {name: name.rpartition(".")[2] if "." in name else "" for name in joining}
    if bad := [rack for rack in racks.values() if rack and not NAME.fullmatch(rack)]:
        raise BadSource(f"the rack {bad[0][:300]!r} has no name of at most 32 bytes of a-z0-9_.:-")
    lacking = [name for name, rack in sorted(racks.items()) if not rack]
    if lacking:
        raise BadSource(
            f"the rack of {lacking[0]} is not known, and a layout needs that of each node (`--join"
            " NAME.RACK`)"
        )
    return racks


def layout_lines(rows: Rows, ring: Ring, joining: list[str]) -> Iterator[str]:
    """The layout: the nodes' racks in the order of the ring, and size 0 for each partition that
    repeats a row.
    """
    racks, slots = racks_of(rows, joining), {name_of(*slot): slot for row in rows for slot in row}
    yield "layout 1"
    yield from (f"rack {node.name} {racks[node.name]}" for node in ring.nodes if racks)
    yield from (
        f"alias {name} {node}"
        for name, (node, rack) in sorted(slots.items())
        if name != node + (f".{rack.lower()}" if rack else "")
    )
    yield from (f"size {partition} 0" for partition in range(len(rows), len(ring.rows)))
    yield "end"


def note(words: str) -> None:
    print(f"ringplan-import: {words}", file=sys.stderr)


def lines_of(path: str) -> Iterator[str]:
    if path == "-":
        yield from sys.stdin
        return
    with open(path) as it:
        yield from it


def demand_right(ring: Ring) -> None:
    """Lets `ringplan` read the ring, which says in words what is wrong with it."""
    answer = programs.ask("show", "".join(f"{line}\n" for line in ring.lines()))
    if answer.status:
        said = [line for line in answer.errors.splitlines() if line.startswith("refused: ")]
        raise BadSource(
            f"the ring is refused: {(said or [answer.first()])[0].removeprefix('refused: ')}"
        )


def say_what_was_made(rows: Rows, ring: Ring, words: argparse.Namespace) -> None:
    """Names on standard error what the source does not say."""
    (slots, read, write), advice = (
        ring.quorum,
        "" if words.layout is not None else "; --layout FILE writes their",
    )
    if words.read is None or words.write is None:
        note(
            f"any {read} of {slots} slots answer a read, any {write} take a write: --read and"
            " --write say otherwise"
        )
    if cut := sum(
        not NAME.fullmatch(whole_name(*slot)) for slot in {slot for row in rows for slot in row}
    ):
        note(f"{cut} names are cut{advice and f'{advice} aliases'}")
    if (filled := len(ring.rows) - len(rows)) > 0:
        note(
            f"{len(rows)} ranges are filled up to {len(ring.rows)} partitions by {filled} without"
            f" keys{advice and f'{advice} sizes'}"
        )


def command_line() -> argparse.ArgumentParser:
    parser = argparse.ArgumentParser(
        prog="ringplan-import", description=(__doc__ or "").split("\n")[0]
    )
    parser.epilog = (
        "Exit status: 0 a ring is printed, 2 the command line, a file or what it has is refused"
    )
    parser.add_argument("source", choices=SOURCES, help="what the file is")
    parser.add_argument("file", nargs="?", default="-", help="the file; standard input without it")
    add_numbers(parser)
    parser.add_argument(
        "--join",
        action="append",
        default=[],
        metavar="NAME",
        help="a node that is declared out, so that a change can let it join",
    )
    parser.add_argument(
        "--layout",
        metavar="FILE",
        help=(
            "write a layout too: racks, the source's names as aliases, and size 0 for each range"
            " that only fills up"
        ),
    )
    parser.add_argument(
        "--datacenter",
        default="",
        metavar="NAME",
        help="of describering and ring: only the nodes of this datacentre",
    )
    return parser


def add_numbers(parser: argparse.ArgumentParser) -> None:
    """The quorums, the slots and the allowance, which no source has."""
    parser.add_argument(
        "--read", type=int, metavar="R", help="slots that answer a read (default: 2)"
    )
    parser.add_argument(
        "--write", type=int, metavar="W", help="slots that take a write (default: 2)"
    )
    parser.add_argument(
        "--slots",
        type=int,
        default=3,
        metavar="N",
        help="of riak and ring: the replicas of a key (default: %(default)s)",
    )
    parser.add_argument(
        "--allowance",
        type=int,
        default=2,
        metavar="K",
        help="transfers that each node may have open at once",
    )


def main() -> int:
    parser = command_line()
    complete(parser)
    words = parser.parse_intermixed_args()
    try:
        rows = SOURCES[words.source](lines_of(words.file), words.slots, words.datacenter)
        ring = ring_of(
            rows,
            (2 if words.read is None else words.read, 2 if words.write is None else words.write),
            words.allowance,
            words.join,
        )
        demand_right(ring)
        if words.layout is not None:
            pathlib.Path(words.layout).write_text(
                "".join(f"{line}\n" for line in layout_lines(rows, ring, words.join))
            )
    except (BadSource, OSError, programs.NoProgram) as error:
        note(str(error))
        return 2
    except (ValueError, KeyError, TypeError, OverflowError, RecursionError, csv.Error) as error:
        note(
            f"not what {words.source} is: {str(error).splitlines()[0][:200]}"
            if str(error)
            else f"not what {words.source} is"
        )
        return 2
    say_what_was_made(rows, ring, words)
    try:
        print(*ring.lines(), sep="\n", flush=True)
    except BrokenPipeError:
        os.dup2(os.open(os.devnull, os.O_WRONLY), 1)
        return 2
    return 0


if __name__ == "__main__":
    sys.exit(main())
