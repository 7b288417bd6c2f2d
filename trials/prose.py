#!/usr/bin/env python3
"""Measures the prose of README.md and docs/, of comments, and of the words that programs print.

For each page: its words, their budget, the mean words of a sentence, and how often each rule of
plain English is broken. For comments and printed words: the same rules, and how long doc comments
are. Ends with 0 only if each page keeps its budget, a mean of 20 words, its bounds, and lines of at
most 120 columns but in tables and code; if README has 150 lines; and if comments and printed words
keep their bounds. With --list it also prints what breaks a rule.
"""
import pathlib
import re
import sys

TOP = pathlib.Path(__file__).resolve().parent.parent
BUDGETS = {
    "README.md": 1300,
    "CHANGELOG.md": 350,
    "EVIDENCE.md": 3200,
    "DEFINITIONS.md": 4900,
    "DECISIONS.md": 3250,
    "ARCHITECTURE.md": 3400,
    "CHANGE.md": 1450,
    "RUNNING.md": 1500,
}
OTHERS = 14400
# What no sentence has, and what it says instead.
PHRASES = {
    # X is not a Y
    "is no X": r"(?<!here )\b(?:is|are|was|were|be) no\b(?! longer| more)",
    # if, when; "where" is for places
    "where": (
        r"\bWhere (?!to\b)\w|\b(?:exactly|only|just|except) where\b|\bwhere (?:it is|there"
        r" (?:is|are)|an?|one|no|memory)\b"
    ),
    # only; otherwise; should, will; again; no node, no one
    "old words": (
        r"\balone\b|(?<!ing )(?<!all )(?<![Ww]hat )\b[Ee]lse\b|\bshall\b|\banew\b|\bonce"
        r" more\b|\b[Ww]hoever\b|\b[Nn]obody\b"
    ),
    # if it is refused, nothing changes
    "refused, it": r"\bRefused, (?:it|all|nothing|the)\b|; refused, ",
    # concurrent, last write wins, tombstone, Lamport timestamp, node that lost its data, undoes,
    # checks
    "own words": (
        r"know nothing of|latest timestamp wins|means so|\bstamps?\b|\blost"
        r" stores?\b|\b(?:takes?|taken) back\b|\bhas judged\b"
    ),
}
RULES = [*PHRASES, "three of", "over 25 words", "three it", "cells"]
# How often a page breaks each rule at most: the counts of pages that are still to be written so can
# only fall, and every other page breaks none.
BOUNDS = {
    "EVIDENCE.md": [0, 0, 0, 0, 0, 0, 0, 0, 0],
}
# How often comments of .rt files, comments of definitions and proofs, and printed words break each
# rule at most; how many words the comments of .rt files have; and how many doc comments have over
# LONG. These counts can only fall.
TEXTS = {
    "comments of .rt": [0, 0, 0, 0, 0, 0, 3, 1, 0],
    "comments of .antt": [0, 0, 0, 0, 0, 0, 0, 0, 0],
    "printed words": [0, 0, 3, 0, 0, 0, 5, 1, 0],
}
COMMENTS, LONG, MOST_LONG = 41350, 30, 10
# One clause a sentence: how often all pages together may have these.
CLAUSES, MOST_CLAUSES = r"\b(?:of|by) which\b|\basks? nothing of\b|\bsays of\b", 20


def prose(text: str) -> list[str]:
    """The lines that are neither code nor tables nor headings."""
    return [line for line in text.splitlines() if not line.startswith(("    ", "|", "#", "<", "!"))]


def mean(lines: list[str]) -> float:
    """The mean words of a sentence.

    A list's item ends one, as a colon before a list or code does.
    """
    text = "\n".join(re.sub(r"^\s*(-|\d+\.) ", ". ", line) for line in lines).replace("\n\n", ". ")
    lengths = [len(it.split()) for it in re.split(r"[.?!](?=[\s*)])|:\n", text)]
    full = [it for it in lengths if it]
    return sum(full) / max(1, len(full))


def split(part: str) -> list[str]:
    """The sentences of a paragraph, an item or a cell. A colon that ends a line ends one too."""
    return [
        " ".join(it.split()) for it in re.split(r"(?<=[.?!])[*)]*\s|:\n", part) if it.strip("|- \n")
    ]


def parts_of(text: str) -> tuple[list[str], list[str]]:
    """A page's paragraphs and items of lists, and the cells of its tables, with `x` for code.

    The table of crates.txt is not the page's.
    """
    own = re.sub(r"<!-- crates -->.*<!-- end of crates -->", "", text, flags=re.S)
    plain = re.sub(
        r"`[^`\n]*`",
        "`x`",
        "\n".join(
            line for line in own.splitlines() if not line.startswith(("    ", "#", "<", "!"))
        ),
    )
    rows = [line for line in plain.splitlines() if line.startswith("|") and "---" not in line]
    lines = [
        re.sub(r"^\s*(-|\d+\.) ", "\n\n", line)
        for line in plain.splitlines()
        if not line.startswith("|")
    ]
    return re.split(r"\n\s*\n", "\n".join(lines)), [
        cell for row in rows for cell in re.split(r" (?:\| )+", row.strip("| "))
    ]


def has_three_of(sentence: str) -> bool:
    """Whether some 12 words have three "of"."""
    words = sentence.lower().split()
    return any(words[i : i + 12].count("of") > 2 for i in range(len(words)))


def broken(sentence: str) -> list[int]:
    """How often a sentence breaks each rule but that of cells."""
    phrases = [len(re.findall(rule, sentence)) for rule in PHRASES.values()]
    pronouns = re.findall(r"\b(?:it|its|one|those)\b", sentence, re.I)
    return [
        *phrases,
        int(has_three_of(sentence)),
        int(len(sentence.split()) > 25),
        int(len(pronouns) > 2),
    ]


def counts_of(name: str, text: str) -> list[int]:
    """How often a page breaks each rule. A cell has no semicolon, and at most two sentences."""
    parts, cells = parts_of(text)
    sentences = [it for part in [*parts, *cells] for it in split(part)]
    rows = [broken(it) for it in sentences]
    crowded = [it for it in cells if ";" in it or len(split(it)) > 2]
    if "--list" in sys.argv:
        found = [
            (rule, it)
            for row, it in zip(rows, sentences)
            for rule, count in zip(RULES, row)
            if count
        ]
        print(
            *(f"{name}: {rule}: {it}" for rule, it in [*found, *(("cells", it) for it in crowded)]),
            sep="\n",
        )
    return [*(sum(column) for column in zip(*rows)), len(crowded)]


def comments(text: str, mark: str) -> list[str]:
    """The comments of a file, each as one line. `mark` is how a comment begins."""
    found, last = list[str](), ""
    for line in text.splitlines():
        begin = re.match(rf"\s*({mark}) ?(.*)", line)
        if begin is None or not begin[2].strip():
            last = ""
        elif begin[1] == last:
            found[-1] += " " + begin[2]
        else:
            last = begin[1]
            found.append(f"{last} {begin[2]}")
    return found


def printed(text: str) -> list[str]:
    """The words that a file's literals print: those of at least four words."""
    literals = re.findall(r'"((?:[^"\\]|\\.)*)"', text)
    return [it.replace("\\n", " ") for it in literals if len(re.findall(r"[a-z]+", it)) > 3]


def counts_in(name: str, blocks: list[str]) -> list[int]:
    """How often these comments or words break each rule, but that of cells."""
    plain = (re.sub(r"`[^`]*`", "`x`", block) for block in blocks)
    sentences = [it for block in plain for it in split(block)]
    rows = [broken(it) for it in sentences]
    if "--list" in sys.argv:
        for row, it in zip(rows, sentences):
            for rule, count in zip(RULES, row):
                if count:
                    print(f"{name}: {rule}: {it}")
    return [*(sum(column) for column in zip(*rows)), 0]


def see_crates() -> list[str]:
    """Measures the comments and literals of all crates. Which bounds are not kept."""
    codes = [path.read_text() for path in sorted((TOP / "crates").glob("*/src/**/*.rt"))]
    programs = [
        path.read_text()
        for path in sorted((TOP / "crates").glob("*/src/**/*.rt"))
        if not path.parts[-3].startswith("tests_")
    ]
    logic = [
        path.read_text()
        for part in ("specs", "proofs")
        for path in sorted((TOP / "crates").glob(f"*/{part}/**/*.antt"))
    ]
    said = [it for text in codes for it in comments(text, "//[/!]?")]
    words = sum(len(it.split()) - 1 for it in said)  # but for the marks
    long = sum(len(it.split()) > LONG + 1 for it in said if it.startswith("/// "))
    found = {
        "comments of .rt": said,
        "comments of .antt": [it for text in logic for it in comments(text, "--")],
        "printed words": [it for text in programs for it in printed(text)],
    }
    faults = []
    for name, blocks in found.items():
        counts = counts_in(name, blocks)
        print(f"{name:18} breaks {counts}")
        faults += [
            f"{name}: {rule}: {count} of {bound}"
            for rule, count, bound in zip(RULES, counts, TEXTS[name])
            if count > bound
        ]
    print(
        f"comments of .rt    {words:6} words of {COMMENTS}, {long} over {LONG} words of {MOST_LONG}"
    )
    if words > COMMENTS or long > MOST_LONG:
        faults.append("comments of .rt")
    return faults


def main() -> int:
    faults, others, clauses = see_crates(), 0, 0
    for path in [TOP / "README.md", TOP / "CHANGELOG.md", *sorted((TOP / "docs").glob("*.md"))]:
        text = path.read_text()
        words, length, counts = len(text.split()), mean(prose(text)), counts_of(path.name, text)
        others += 0 if path.name in BUDGETS else words
        clauses += len(re.findall(CLAUSES, text))
        wide = sum(len(line) > 120 for line in prose(text))
        print(
            f"{path.name:18} {words:6} words of {BUDGETS.get(path.name, '-'):>5}, {length:4.1f} a"
            f" sentence, {wide} wide lines, breaks {counts}"
        )
        if (
            words > BUDGETS.get(path.name, words)
            or length > 20
            or wide
            or path.name == "README.md"
            and text.count("\n") > 150
        ):
            faults.append(path.name)
        bounds = BOUNDS.get(path.name, [0] * len(RULES))
        faults += [
            f"{path.name}: {rule}: {count} of {bound}"
            for rule, count, bound in zip(RULES, counts, bounds)
            if count > bound
        ]
    print(
        f"{'the other pages':18} {others:6} words of {OTHERS:5}",
        f"the rules: {', '.join(RULES)}",
        f"clauses with of which or the like: {clauses} of {MOST_CLAUSES}",
        sep="\n",
    )
    if faults or others > OTHERS or clauses > MOST_CLAUSES:
        print("above a bound:", *faults, sep="\n")
    return int(bool(faults) or others > OTHERS or clauses > MOST_CLAUSES)


if __name__ == "__main__":
    sys.exit(main())
