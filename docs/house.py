#!/usr/bin/env python3
"""Measures the house: how large it is, and what stands in it twice. docs/house.py [--twins].

Prints, from the tree alone: crates; lines of code, definitions and proofs; bodies of over 30 lines
and functions of over 5 parameters; types of one name in two files; twins, which are runs of at
least 9 lines that differ only in names, numbers and strings; and words of comments and pages. With
--twins it lists the twins, the longest first. Tests and tables of help do not count.
"""
import pathlib
import re
import sys
from collections import Counter, defaultdict
from collections.abc import Iterator, Sequence
from typing import NamedTuple

from crates import TOP

SHORTEST, BODY, PARAMETERS = 9, 30, 5
WORD = re.compile(r'"(?:[^"\\]|\\.)*"|[A-Za-z_]\w*|\d+')
KEPT = set(
    "fn pub let match if else for while return impl struct enum record where data elim rw in"
    " requires ensures".split()
)
# Lines that every file has.
LEFT_OUT = ("//", "--", "use ", "pub use ", "ghost use ", "mod ", "pub mod ")
FUNCTION = re.compile(r"^( *)(?:pub(?:\(crate\))? )?(?:extern \"C\" )?fn \w+", re.M)


class Place(NamedTuple):
    """A run of lines: the lines of one file that have a shape, and the first of them."""

    path: pathlib.Path
    first: int


class Twins(NamedTuple):
    count: int
    one: str
    other: str


def files(part: str) -> list[pathlib.Path]:
    """The files of a part of all crates but tests: of `src`, `specs` or `proofs`."""
    found = (TOP / "crates").glob(f"*/{part}/**/*")
    kept = (path for path in found if path.suffix in (".rt", ".antt") and path.name != "tests.rt")
    return sorted(it for it in kept if not it.relative_to(TOP).parts[1].startswith("tests_"))


def shape(line: str) -> str:
    """A line with numbers in place of its names, numbers and strings."""
    seen = dict[str, int]()
    return WORD.sub(
        lambda it: it[0] if it[0] in KEPT else f"#{seen.setdefault(it[0], len(seen))}", line
    )


def shapes(path: pathlib.Path) -> list[tuple[int, str]]:
    """The numbers and shapes of a file's lines.

    Imports, comments, and lines of one brace or one name do not count.
    """
    lines = ((number, it.strip()) for number, it in enumerate(path.read_text().splitlines(), 1))
    return [
        (number, shape(it))
        for number, it in lines
        if not re.fullmatch(r"(?:[{})]|},|\w+,)?", it) and not it.startswith(LEFT_OUT)
    ]


def same(one: Sequence[tuple[int, str]], other: Sequence[tuple[int, str]]) -> int:
    """How many lines have the same shapes from the first on."""
    count = 0
    for a, b in zip(one, other):
        if a[1] != b[1]:
            break
        count += 1
    return count


def twins() -> Iterator[Twins]:
    """Each pair of runs of lines that have the same shapes, as long as it goes."""
    text = {path: shapes(path) for part in ("src", "specs", "proofs") for path in files(part)}
    there = defaultdict[tuple[str, ...], list[Place]](list)
    for path, lines in text.items():
        for first in range(len(lines) - SHORTEST + 1):
            key = tuple(it for _, it in lines[first : first + SHORTEST])
            there[key].append(Place(path, first))
    used = set[tuple[Place, Place]]()
    for places in there.values():
        for i, one in enumerate(places):
            for other in places[i + 1 :]:
                if (one, other) in used:
                    continue
                lines, others = text[one.path][one.first :], text[other.path][other.first :]
                count = same(lines, others)
                used |= {
                    (Place(one.path, one.first + k), Place(other.path, other.first + k))
                    for k in range(count)
                }
                if one.path != other.path or one.first + count <= other.first:
                    yield Twins(count, named(one, lines[:count]), named(other, others[:count]))


def named(place: Place, lines: Sequence[tuple[int, str]]) -> str:
    return f"{place.path.relative_to(TOP)}:{lines[0][0]}-{lines[-1][0]}"


def body_of(text: str, start: int, margin: str) -> int:
    """How many lines the body of the function has that begins here."""
    found = re.compile(rf"^{margin}\{{\n(.*?)^{margin}\}}", re.M | re.S).search(text, start)
    opened = re.compile(rf"\{{\n(.*?)^{margin}\}}", re.M | re.S).search(text, start)
    body = found if found and opened and found.start() <= opened.start() + 1 else opened
    return body[1].count("\n") if body else 0


def functions() -> Iterator[tuple[int, int]]:
    """Of each function the lines of its body and the number of its parameters."""
    for path in files("src"):
        text = path.read_text()
        for it in FUNCTION.finditer(text):
            after = text[it.end() :]
            plain = re.sub(r"<[^<>()]*>", "", re.sub(r"<[^<>()]*>", "", after))
            words = plain[plain.index("(") + 1 : plain.index(")")]
            parameters = [word for word in words.split(",") if ":" in word or "self" in word]
            yield body_of(text, it.end(), it[1]), len(parameters)


def comment_words(paths: Sequence[pathlib.Path], mark: str) -> int:
    """How many words the comments of these files have."""
    lines = (line.strip() for path in paths for line in path.read_text().splitlines())
    return sum(len(line.lstrip("/!-").split()) for line in lines if line.startswith(mark))


def main() -> None:
    found = sorted((it for it in twins() if "help.rt" not in it.one + it.other), reverse=True)
    if sys.argv[1:] == ["--twins"]:
        print(*(f"{it.count:3} lines  {it.one}  ~  {it.other}" for it in found), sep="\n")
        return
    sizes = [sum(it.read_text().count("\n") for it in files(part)) for part in PARTS]
    measures = list(functions())
    types = Counter(
        name
        for path in files("src")
        for name in re.findall(
            r"^(?:pub(?:\(crate\))? )?(?:struct|enum) (\w+)", path.read_text(), re.M
        )
    )
    pages = [TOP / "README.md", TOP / "CHANGELOG.md", *sorted((TOP / "docs").glob("*.md"))]
    tests = sorted((TOP / "crates").glob("*/src/**/*.rt"))
    rows = {
        "crates": sum(1 for it in (TOP / "crates").iterdir() if (it / "src").is_dir()),
        "code, definitions, proofs": " / ".join(f"{it:,}" for it in sizes),
        "twins of 9 lines": len(found),
        "bodies of over 30 lines": sum(lines > BODY for lines, _ in measures),
        "functions of over 5 parameters": sum(count > PARAMETERS for _, count in measures),
        "types of one name in two places": sum(count > 1 for count in types.values()),
        "words of comments in .rt": f"{comment_words(tests, '//'):,}",
        "words of pages": f"{sum(len(it.read_text().split()) for it in pages):,}",
    }
    for name, value in rows.items():
        print(f"{name:34} {value}")


PARTS = ("src", "specs", "proofs")

if __name__ == "__main__":
    main()
