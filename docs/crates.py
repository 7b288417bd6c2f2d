#!/usr/bin/env python3
"""Writes the table of crates in docs/ARCHITECTURE.md from the comments of crates.txt:
docs/crates.py [--compare]. With --compare it writes nothing, and ends with 0 only where the table
is that of crates.txt.
"""
import pathlib
import sys

TOP = pathlib.Path(__file__).resolve().parent.parent
PAGE = TOP / "docs/ARCHITECTURE.md"
BEGIN, END = "<!-- crates -->\n", "<!-- end of crates -->\n"


def table() -> str:
    """A row for each crate, with the comment above its line."""
    rows, comment = ["", "| Crate | What it is for |", "|---|---|"], ""
    for line in (TOP / "crates.txt").read_text().splitlines():
        if line.startswith("#"):
            comment = line[1:].strip()
        elif line.strip():
            rows.append(f"| `{line.split(':')[0].split()[0]}` | {comment} |")
    return "\n".join([*rows, "", ""])


def main() -> int:
    page = PAGE.read_text()
    front, rest = page.split(BEGIN)
    made = front + BEGIN + table() + END + rest.split(END)[1]
    if sys.argv[1:] == ["--compare"]:
        if made != page:
            print("docs/ARCHITECTURE.md has another table than crates.txt: run docs/crates.py")
        return int(made != page)
    PAGE.write_text(made)
    return 0


if __name__ == "__main__":
    sys.exit(main())
