"""Runs a plan on a reference store under traffic and faults, and writes the bundle with its
history.

    python3 -m ringplan.store BUNDLE STEPS OUT [--servers sqlite|redis|postgres] [--seed S]
        [--break NAME] ..
"""

from __future__ import annotations

import argparse
import dataclasses
import json
import pathlib
import shutil
import sys
import tempfile
from typing import Any

from ringplan.programs import NoProgram
from ringplan.store.broken import EXECUTORS, STORES
from ringplan.store.coordinator import Store
from ringplan.store.executor import Executor
from ringplan.store.history import Judged
from ringplan.store.nodes import KINDS, choose
from ringplan.store.traffic import Load, Run
from ringplan.texts import read_plan, read_steps


def counts_of(one: Run) -> dict[str, Any]:
    """What there is to count of a run that has ended."""
    store, executor = one.store, one.executor
    counts: dict[str, Any] = {
        "puts": len(store.puts),
        "acknowledged": sum(put.is_acknowledged for put in store.puts),
        "gets": len(store.gets),
        "steps": len(executor.done),
        "of": len(executor.steps),
        "kills": one.kills,
        "outages": store.outages,
        "in doubt": store.in_doubt,
    }
    counts |= {"watched": one.judged.end()} if one.judged else {}
    return counts | {"dead workers": executor.died}


def run(
    bundle: str,
    steps: str,
    load: Load,
    broken: str = "",
    dead: tuple[str, ...] = (),
    servers: str = KINDS[0],
    is_watched: bool = False,
) -> tuple[str, dict[str, Any]]:
    """The bundle with the history of one run, and what there is to count of it.

    A watched run ends once the judge refuses an entry.
    """
    ring, _ = read_plan(bundle)
    node = choose(servers)
    folder = tempfile.mkdtemp(prefix="ringplan-store-")
    store = STORES.get(broken, Store)(
        ring, lambda name: node(folder, name, broken == "latest_timestamp_wins")
    )
    executor = EXECUTORS.get(broken, Executor)(store, read_steps(steps), load.deaths)
    if broken == "empty_and_not_told":
        load = dataclasses.replace(load, wipes=True)
    one = Run(store, executor, load, dead)
    one.judged = Judged(store.history, bundle) if is_watched else None
    try:
        took = one.run()
        short = store.short()
    finally:
        for member in store.members:
            member.node.kill()
        shutil.rmtree(folder)
    lines = list(store.history.lines())
    counts = {"entries": len(lines) - 2, "seconds": round(took, 2)} | counts_of(one)
    return bundle + "\n".join(lines) + "\n", counts | {"held at too few slots": short}


def command_line() -> argparse.ArgumentParser:
    parser = argparse.ArgumentParser(
        prog="python3 -m ringplan.store", description=(__doc__ or "").split("\n\n")[0]
    )
    parser.add_argument("bundle", help="a ring, a plan and its certificate")
    parser.add_argument("steps", help="the lines of `ringplan steps` of that bundle")
    parser.add_argument("out", help="the bundle with the history, for `ringplan replay`")
    parser.add_argument(
        "--break",
        dest="broken",
        default="",
        choices=["", "latest_timestamp_wins", "empty_and_not_told", *STORES, *EXECUTORS],
        metavar="NAME",
    )
    parser.add_argument(
        "--servers", choices=KINDS, default=KINDS[0], help="the database server of each node"
    )
    parser.add_argument(
        "--watch",
        action="store_true",
        help="has the history judged while it happens, and stops at the first wrong entry",
    )
    parser.add_argument(
        "--dead",
        nargs="*",
        default=[],
        metavar="NODE",
        help="servers that are killed for good before the plan begins",
    )
    for field in dataclasses.fields(Load):
        kind = type(field.default)
        if kind is bool:
            parser.add_argument(f"--{field.name}", action="store_true")
        else:
            parser.add_argument(f"--{field.name}", type=kind, default=field.default)
    return parser


def main() -> None:
    parser = command_line()
    words = parser.parse_args()
    load = Load(**{field.name: getattr(words, field.name) for field in dataclasses.fields(Load)})
    bundle, steps, out = (pathlib.Path(path) for path in (words.bundle, words.steps, words.out))
    # Threads change often, so that more orders of events are met.
    sys.setswitchinterval(0.0005)
    try:
        text, counts = run(
            bundle.read_text(),
            steps.read_text(),
            load,
            words.broken,
            tuple(words.dead),
            words.servers,
            words.watch,
        )
    except NoProgram as error:
        parser.exit(2, f"{error}\n")
    out.write_text(text)
    print(json.dumps(counts))


if __name__ == "__main__":
    main()
