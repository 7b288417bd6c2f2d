#!/usr/bin/env python3
"""Runs the commands of README.md and of the pages of docs/, and compares what they print with what
the pages show: trials/pages.py [PAGE..]. Ends with 0 only where all agree. docs/EMBEDDING.md is run
where it is named, with the path of libringplan.so in RINGPLAN_LIBRARY: c/same.sh does so.

A command is a line of an indented block that begins with `$ `; the lines after it, up to the next
command or the block's end, are its output on both streams. A line `..` stands for any lines, and
what follows three spaces in a line may be a remark. The commands of a page run one after the other
in one shell, in a folder that has the repository's files.
"""
import os
import pathlib
import re
import subprocess
import sys
import tempfile

TOP = pathlib.Path(__file__).resolve().parent.parent
MARK = "\x01%d\x01\n"
EMBEDDING = "EMBEDDING.md"


def commands(page: str) -> list[tuple[str, list[str]]]:
    """Each command of a page, with the lines that it prints."""
    found: list[tuple[str, list[str]]] = []
    inside, blank = False, 0
    for line in page.splitlines():
        if line.startswith("    $ "):
            found.append((line[6:], []))
            inside, blank = True, 0
        elif inside and line.startswith("    "):
            found[-1][1].extend([""] * blank + [line[4:].rstrip()])
            blank = 0
        elif inside and not line:
            # A blank line is one of the output where more of it follows.
            blank += 1
        else:
            inside = False
    return found


def printed(folder: str, lines: list[str]) -> list[list[str]]:
    """What each command prints, where they run one after the other."""
    script = "shopt -s expand_aliases\n" + "".join(
        f"printf '{MARK[:-1] % number}\\n'\n{line}\n" for number, line in enumerate(lines)
    )
    ran = subprocess.run(
        ["bash", "--norc"],
        input=script,
        cwd=folder,
        stdout=subprocess.PIPE,
        stderr=subprocess.STDOUT,
        text=True,
        errors="replace",
        timeout=600,
    )
    parts = re.split(r"\x01\d+\x01\n", ran.stdout)[1:]
    return [[line.rstrip() for line in part.splitlines()] for part in parts] + [[]] * (
        len(lines) - len(parts)
    )


def pattern_of(line: str) -> str:
    """What a line of a page stands for: any lines, or itself, without the remark that may stand
    after it.
    """
    plain = line.split("   ")[0]
    return r"(?:.*\n)*" if plain == ".." else f"(?:{re.escape(line)}|{re.escape(plain)})\n"


def agrees(wanted: list[str], found: list[str]) -> bool:
    pattern = "".join(map(pattern_of, wanted))
    return re.fullmatch(pattern, "".join(line + "\n" for line in found)) is not None


def page_faults(path: pathlib.Path) -> tuple[int, list[str]]:
    shown = commands(path.read_text())
    with tempfile.TemporaryDirectory() as folder:
        for name in os.listdir(TOP):
            os.symlink(TOP / name, f"{folder}/{name}")
        if path.name == EMBEDDING:
            os.symlink(os.environ["RINGPLAN_LIBRARY"], f"{folder}/libringplan.so")
        found = printed(folder, [line for line, _ in shown])
    faults = [
        f"{path.name}: $ {line}\nwanted:\n"
        + "\n".join(wanted)
        + "\nprinted:\n"
        + "\n".join(given[:20])
        for (line, wanted), given in zip(shown, found)
        if not agrees(wanted, given)
    ]
    return len(shown), faults


def main() -> int:
    runs, faults = 0, []
    pages = [
        TOP / "README.md",
        *(it for it in sorted((TOP / "docs").glob("*.md")) if it.name != EMBEDDING),
    ]
    for path in [TOP / it for it in sys.argv[1:]] or pages:
        count, missed = page_faults(path)
        runs += count
        faults += missed
    print(*faults, f"{runs} commands, {len(faults)} faults", sep="\n")
    return 1 if faults or not runs else 0


if __name__ == "__main__":
    sys.exit(main())
