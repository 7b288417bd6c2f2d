#!/usr/bin/env python3
"""Looks up what pages claim.

Each call of the last table of docs/DEFINITIONS.md is a public function with a contract, each clause
that the row names stands in the contract of one of its calls, and each call has one of them. Each
method that docs/STORES.md names is one of the reference store. Each sentence of README.md and
docs/RUNNING.md that says that something is proved names what proves it: a clause, a definition that
a clause names, or a public function with a contract. Ends with 0 only where all are there.
"""
import pathlib
import re
import sys

TOP = pathlib.Path(__file__).resolve().parent.parent


def contracts(call: str) -> list[str]:
    """The signatures and clauses of the public functions that a `crate::function` names."""
    crate, function = call.split("::")
    found = []
    for file in sorted((TOP / "crates" / crate / "src").rglob("*.rt")):
        text = file.read_text()
        for start in re.finditer(r'^( *)pub (?:extern "C" )?fn %s\b' % function, text, re.M):
            end = re.search(r"^%s\{|\{\s*\}\s*$" % start[1], text[start.start() :], re.M)
            found.append(text[start.start() :][: end.start() if end else None])
    return [it for it in found if re.search(r"\bensures\b", it)]


def faults(row: str) -> list[str]:
    calls, clauses = row.split("|")[1:3]
    named = {call: contracts(call) for call in re.findall(r"`(\w+::\w+)`", calls)}
    missing = [f"{call} has no contract" for call, found in named.items() if not found]
    for clause in re.findall(r"`(\w+)`", clauses):
        lacking = [
            call
            for call, found in named.items()
            if not any(re.search(r"\b%s\b" % clause, it) for it in found)
        ]
        # A row that names several calls may name clauses of some of them.
        missing += (
            [f"{clause} is in no contract of {', '.join(named)}"]
            if len(lacking) == len(named)
            else []
        )
    return missing


def unmet() -> list[str]:
    """What is wrong with the last column of the table of what a store owes."""
    duties = (
        (TOP / "docs/STORES.md")
        .read_text()
        .split("| A store must ")[1]
        .split("\n\n")[0]
        .splitlines()[2:]
    )
    store = "".join(
        path.read_text() for path in sorted((TOP / "python/ringplan/store").glob("*.py"))
    )
    named = {row: re.findall(r"`(?:\w+\.)?(\w+)`", row.split("|")[-2]) for row in duties}
    lacking = [
        name
        for names in named.values()
        for name in names
        if not re.search(r"\bdef %s\(" % name, store)
    ]
    return [f"the store has no {name}" for name in lacking] + [
        f"no method is named: {row}" for row, names in named.items() if not names
    ]


def sentences(page: str) -> list[str]:
    """The sentences of a page: neither code nor headings.

    A row of a table, and an item of a list, is one or more.
    """
    lines = [
        re.sub(r"^- |^\|", "\n\n", line)
        for line in page.splitlines()
        if not line.startswith(("    ", "#", "!"))
    ]
    parts = re.split(r"\n\s*\n", "\n".join(lines))
    return [" ".join(it.split()) for part in parts for it in re.split(r"(?<=[.!?:;])\s", part)]


def unproved() -> tuple[int, list[str]]:
    """How many sentences say that something is proved, and those without what proves it."""
    sources = [path.read_text() for path in (TOP / "crates").glob("*/src/**/*.rt")]
    clauses = [
        it for text in sources for it in re.findall(r"^\s*ensures (?:(\w+) )?\{(.*)$", text, re.M)
    ]
    known = {name for name, _ in clauses}
    # A definition counts if a clause names it.
    known |= {word for _, clause in clauses for word in re.findall(r"\b[A-Z]\w+\b", clause)}
    calls = {
        (path.parts[-3], call)
        for path in (TOP / "crates").glob("*/src/**/*.rt")
        for call in re.findall(r"^ *pub fn (\w+)", path.read_text(), re.M)
    }
    said = [
        (page, it)
        for page in ("README.md", "docs/RUNNING.md")
        for it in sentences((TOP / page).read_text())
    ]
    said = [
        (page, it)
        for page, it in said
        if re.search(r"\b(?:is|are) proved\b|\bproved[:,]? \(?`", it)
    ]
    missing = []
    for page, sentence in said:
        names = re.findall(r"`(\w+)`", sentence)
        lacking = [
            name
            for name in names
            if name not in known
            and not any(contracts(f"{crate}::{call}") for crate, call in calls if call == name)
        ]
        missing += [f"{page}: no contract has {name}: {sentence}" for name in lacking]
        missing += [] if names else [f"{page}: it does not name what proves it: {sentence}"]
    return len(said), missing


def main() -> int:
    rows = [
        line
        for line in (TOP / "docs/DEFINITIONS.md").read_text().splitlines()
        if re.match(r"\| `\w+::\w+`", line)
    ]
    count, lacking = unproved()
    missing = [fault for row in rows for fault in faults(row)] + unmet() + lacking
    print(
        *missing,
        f"{len(rows)} rows, {count} sentences that say proved, {len(missing)} faults",
        sep="\n",
    )
    return 1 if missing or not rows or not count else 0


if __name__ == "__main__":
    sys.exit(main())
