#!/usr/bin/env python3
"""Tries what the program reads and writes, from outside: files that are named, standard input,
output and error, and a terminal. It wants the program as it is built.
"""
import bz2
import gzip
import json
import lzma
import os
import pty
import random
import re
import stat
import subprocess
import sys
import tempfile
from collections.abc import Callable, Mapping
from typing import Any

from measured import RUN, TOP

EXAMPLES = f"{TOP}/examples"
MOST = 67_108_864
faults: list[str] = []
tried = 0


# What standard error says of a goal whose nodes have no racks.
NO_RACKS = (
    b"ringplan: no racks are known. Name them in a layout (--layout), or give the byte before them"
    b" (--racks-behind C)\n"
)

# What a run prints on standard output and on standard error, and its status.
Found = tuple[Any, Any, Any]
# Whether what is found is right.
Test = Callable[[bytes], bool]


def run(*words: str, given: bytes = b"", folder: str | None = None) -> tuple[bytes, bytes, int]:
    ran = subprocess.run(
        [RUN, *words],
        input=given,
        stdout=subprocess.PIPE,
        stderr=subprocess.PIPE,
        timeout=60,
        cwd=folder,
    )
    return ran.stdout, ran.stderr, ran.returncode


def owes(what: str, found: Found, output: object, errors: object, status: object) -> None:
    """Each of the three is a value that must be met, or a test of it."""
    global tried
    tried += 1
    for part, wanted in zip(found, (output, errors, status)):
        if not (wanted(part) if callable(wanted) else part == wanted):
            faults.append(f"{what}: {found[0][:80]!r}, {found[1][:200]!r}, {found[2]}")
            return


def prints(what: str, found: Found, output: object) -> None:
    """The run succeeds with that output, and standard error has nothing."""
    owes(what, found, output, b"", 0)


def refuses(what: str, found: Found, words: bytes | Test, status: int = 2) -> None:
    """The run prints nothing, and standard error has these words, or meets the test."""
    owes(what, found, b"", contains(words) if isinstance(words, bytes) else words, status)


def contains(text: bytes) -> Test:
    return lambda found: text in found


def read(name: str) -> bytes:
    with open(f"{EXAMPLES}/{name}.bundle", "rb") as it:
        return it.read()


def write(path: str, text: bytes) -> None:
    with open(path, "wb") as it:
        it.write(text)


def files(folder: str) -> None:
    good, plan = f"{EXAMPLES}/move_one_slot.bundle", f"{EXAMPLES}/plan_replace.bundle"
    text = read("move_one_slot")
    prints("a file", run("check", good), b"yes\n")
    prints("a dash", run("check", "-", given=text), b"yes\n")
    prints("no file", run("check", given=text), b"yes\n")
    prints("a file before options", run("show", good, "--all"), contains(b"d joins"))
    owes(
        "a file that is missing",
        run("check", "none.bundle", folder=folder),
        b"",
        b"ringplan: none.bundle: No such file or directory (os error 2)\n",
        3,
    )
    owes("a folder", run("check", folder), b"", f"ringplan: {folder}: is a directory\n".encode(), 3)
    large = f"{folder}/large"
    with open(large, "wb") as it:
        it.truncate(MOST + 1)
    for word in ("check", "show"):
        owes(
            "a file that is too large",
            run(word, large),
            b"",
            f"ringplan: {large}: has more than {MOST} bytes\n".encode(),
            2,
        )
    with open(large, "wb") as it:
        it.truncate(MOST)
    owes("a file of the most bytes", run("check", large), contains(b"no "), b"", 2)
    together(folder)
    prints("a file that is only there", run("plan", plan), contains(b"plan 1\n"))


def together(folder: str) -> None:
    """Several files are read as one text, in the order of the line; `-` is standard input."""
    text = read("plan_replace")
    whole = run("goal", given=text)[0]
    # Also where a line is cut in two, and where a part is empty.
    for cuts in ([text.index(b"change 1")], [0], [len(text)], [3, 100], [7, 7, 50, 120]):
        ends = [0, *cuts, len(text)]
        parts, names = [text[a:b] for a, b in zip(ends, ends[1:])], []
        for number, part in enumerate(parts):
            names.append(f"{folder}/part{number}")
            write(names[-1], part)
        owes(f"{len(parts)} files", run("goal", *names), whole, NO_RACKS, 0)
        for place in range(len(parts)):
            dashed = [*names[:place], "-", *names[place + 1 :]]
            owes(
                f"{len(parts)} files and standard input",
                run("goal", *dashed, given=parts[place]),
                whole,
                NO_RACKS,
                0,
            )
        refuses(
            "a part that is missing",
            run("goal", *names, f"{folder}/none"),
            b"none: No such file or directory",
            3,
        )
    owes(
        "a text twice",
        run("check", f"{EXAMPLES}/move_one_slot.bundle", f"{EXAMPLES}/move_one_slot.bundle"),
        lambda it: it.startswith(b"no 1 "),
        b"",
        2,
    )
    prints("dashes", run("check", "-", "-", given=read("move_one_slot")), b"yes\n")
    parted(folder, text, whole)
    half = f"{folder}/half"
    with open(half, "wb") as it:
        it.truncate(MOST // 2 + 1)
    owes("files that are too large together", run("check", half, half), b"no 2 0\n", b"", 2)


def parted(folder: str, text: bytes, whole: bytes) -> None:
    """The ring and the change are files of their own."""
    ring, change = text[: text.index(b"change 1")], text[text.index(b"change 1") :]
    for name, part in (("ring.txt", ring), ("change.txt", change)):
        write(f"{folder}/{name}", part)
    owes(
        "options between files",
        run("goal", f"{folder}/ring.txt", "--exit-code", f"{folder}/change.txt"),
        whole,
        NO_RACKS,
        4,
    )
    refuses(
        "the change first",
        run("goal", f"{folder}/change.txt", f"{folder}/ring.txt"),
        b"the ring comes first",
    )


def dead() -> None:
    """A member that is named dead leaves, whether or not the change says so."""
    said = read("plan_replace")
    unsaid = said.replace(b"leave b\n", b"")
    plan = run("goal", "--dead", "b", given=said)[0]
    owes(
        "a dead member that leaves",
        run("goal", "--dead", "b", given=said),
        contains(b"copy 0 1 slots 0 2"),
        NO_RACKS,
        0,
    )
    owes(
        "a dead member that stays",
        run("goal", "--dead", "b", given=unsaid),
        plan,
        NO_RACKS + b"ringplan: b is dead, so it leaves, though the change does not say so\n",
        0,
    )
    for form in (["--format", "text"], ["--format", "json"]):
        out, errors, status = run("goal", *form, "--dead", "zz", given=said)
        owes(
            f"a dead node that the ring does not declare, {form[1]}",
            (out + errors, b"", status),
            contains(b"the command line names zz,"),
            b"",
            2,
        )
    owes(
        "a dead member, twice",
        run("goal", "--dead", "b", "--dead", "b", given=unsaid),
        plan,
        contains(b"b is dead"),
        0,
    )


def layouts_at_fault(plan: str) -> tuple[tuple[bytes, bytes], ...]:
    """Texts of a layout, and how the words about each begin. A right one has none."""
    partition = b"refused: line 4 of the layout names partition 7, and the ring has 4 partitions\n"
    node = b"refused: line 3 of the layout names bb, and the ring declares no such node\n"

    def faulty(line: int, fault: str) -> bytes:
        return f"ringplan: line {line} of the layout {plan}: {fault}\n".encode()

    return (
        (b"layout 1\nsize 0 5\nsize 2 0\nend\n", b""),
        (b"layout 1\nend\n", b""),
        (b"layout 1\n\n# a comment\n#another\nend\n", b""),
        (b"layout 1\nsize 0 5\nsize 1 5\nsize 7 5\nend\n", b"no 2 4\n" + partition),
        (b"layout 1\nsize 0 5\nweight bb 2\nend\n", b"no 3 0\n" + node),
        (b"layout 1\nsize 0 5\nsize 1", faulty(3, "the text ends in line 3, which has no newline")),
        (b"", faulty(1, "it is empty")),
        (b"layout 1\nsize 0 x\nend\n", faulty(2, "a size is a whole number")),
        (
            b"layout 1\nsize 0 281474976710656\nend\n",
            faulty(2, "a size is at most 281,474,976,710,655"),
        ),
        (b"layout 1\nsize 0 281474976710655\nend\n", b""),
        (
            b"layout 1\nsize 1 5\nsize 0 5\nsize 1 5\nend\n",
            faulty(4, "`size 1` stands a second time"),
        ),
        (b"layout 1\nrack a x\nend\n", b"no 3 0\nrefused: the rack of "),
    )


def layouts(folder: str) -> None:
    """What a layout is refused for, and where."""
    given, plan = read("plan_replace"), f"{folder}/layout"
    for text, errors in layouts_at_fault(plan):
        write(plan, text)
        for word in ("goal", "show", "draw", "steps", "windows --rounds 1"):
            found = run(*word.split(), "--layout", plan, given=given)
            begins = errors or b"ringplan: no racks are known. "
            owes(
                f"{word} by layout {text!r}",
                found,
                lambda it: bool(it) == (not errors),
                lambda it: it.startswith(begins),
                2 if errors else 0,
            )
    ring_by_a_layout(plan, given)
    rates(plan, given)
    for word in ("after", "why", "cert"):
        refuses(f"{word} by a layout", run(*word.split(), "--layout", plan), b"unexpected argument")
    refuses(
        "goal by no layout",
        run("goal", "--layout", f"{folder}/none", given=given),
        b"No such file or directory",
        3,
    )


def ring_by_a_layout(plan: str, given: bytes) -> None:
    ring = given.split(b"change 1\n")[0]
    write(plan, b"layout 1\nalias a riak@10.0.0.1\nrack a x\nrack b y\nrack c x\nend\n")
    for part in (b"riak@10.0.0.1", b"  racks     "):
        prints(
            "a ring alone by a layout", run("show", "--layout", plan, given=ring), contains(part)
        )
    refuses(
        "a fault before the layout's",
        run("show", "--layout", plan, given=read("copy_out_of_order")),
        b"no 2",
        1,
    )


def rates(plan: str, given: bytes) -> None:
    """How long a plan takes at least, by sizes and a rate."""
    write(plan, b"layout 1\nsize 1 5\nend\n")
    owes(
        "a rate",
        run("show", "--layout", plan, "--rate", "2", given=given),
        lambda it: b"at 2 a second the plan ends in 4 s at the earliest" in b" ".join(it.split()),
        contains(b"no racks are known"),
        0,
    )
    for form in ("text", "json"):
        refuses(
            "a rate without a layout",
            run("show", "--rate", "2", "--format", form),
            b"'--rate <N>' wants '--layout <FILE>'",
        )
    for rate in ("0", "4294967296", "x", ""):
        refuses(f"a rate of {rate}", run("show", "--layout", plan, "--rate", rate), b"--rate <N>")


# Lines of a layout as people write them: what is said of the line, a part of the words about it,
# and whether a mend makes a layout of the text.
HABITS = (
    (b"size 0 0,5", "a size is a whole number", b"a fraction", False),
    (b"size 0 1.5", "a size is a whole number", b"a fraction", False),
    (b"size 0 15GiB", "a size is a whole number", b"this is 16106127360.", True),
    (b"size 0 1.5KB", "a size is a whole number", b"this is 1500.", True),
    (b"size 0 15 GiB", "a size has no unit", b"this is 16106127360.", False),
    (b"size 0 1,048,576", "a size is a whole number", b"`1048576` was meant?", True),
    (b"size 0 -5", "a size is a whole number", b"no number", False),
    (b"size 0 007", "a size is a whole number", b"no zero in front", True),
    (b"size 0", "it has too few fields", b"`size <partition> <size>`", False),
    (b"size 0 5 6", "it has too many fields", b"more than the line has", False),
    (b"size 4096 5", "partitions are 0 to 4,095", b"too large", False),
    (b"size x 5", "a partition is a whole number", b"no number", False),
    (b"weight a 0", "a weight is 1 to 1,000", b"too small", False),
    (b"weight a 1001", "a weight is 1 to 1,000", b"too large", False),
    (b"weight a 1.5", "a weight is a whole number", b"a fraction", False),
    (b"wieght a 2", "no line of a layout begins so", b"`weight` was meant?", True),
    (b"node a 2", "no line of a layout begins so", b"Here may stand: `rack <node> <name>`", False),
    (b"rack a R1", "the name has a letter that names do not have", b"1 to 32 of a-z 0-9", False),
    (b"rack a " + b"r" * 33, "the name has 33 bytes, and may have 32", b"too long", False),
    (
        b"alias riak@10.0.0.1 a",
        "the name has a letter that names do not have",
        b"is its alias",
        False,
    ),
    (b"alias a two words", "an alias has no spaces", b"after the space", False),
    (b"alias a " + b"x" * 256, "the alias has 256 bytes, and may have 255", b"too long", False),
    (b"alias a \xe9", "the alias is not UTF-8", b"iconv -f LATIN1", False),
    (b"alias a x\x07", "the alias has a control character", b"", False),
    (b" size 0 5", "its blanks are wrong", b"it begins with a blank", True),
    (b"size  0 5", "its blanks are wrong", b"more than one space", True),
    (b"size\t0 5", "its blanks are wrong", b"it has a tab", True),
    (b"size,0,5", "its blanks are wrong", b"it has a comma", True),
    (b"size 0 5\r", "its line end is that of Windows", b"carriage return", True),
    (b"end now", "it has too many fields", b"`end`", False),
)
WHOLE = b"layout 1\nsize 1 5\nend\n"
# The same of whole texts, with the number of the line.
TEXTS = (
    (
        b"layout 2\nend\n",
        1,
        "the layout has format 2, and this program reads 1",
        b"newer ringplan",
        False,
    ),
    (b"size 1 5\nend\n", 1, "a layout begins with `layout 1`", b"comes first", True),
    (b"# mine\nlayout 1\nend\n", 1, "a layout begins with `layout 1`", b"comes first", False),
    (b"Layout 1\nend\n", 1, "a layout begins with `layout 1`", b"no first line", True),
    (read("plan_replace"), 1, "a layout begins with `layout 1`", b"right file?", False),
    (b"layout 1\nsize 1 5\n", 3, "its line `end` is missing", b"after the last line", True),
    (
        b"layout 1\nsize 1 5\nend",
        3,
        "the text ends without a newline after `end`",
        b"no newline",
        True,
    ),
    (
        WHOLE + b"size 0 5\n",
        4,
        "it stands after the line `end`, which is the last",
        b"more than a layout",
        False,
    ),
    (
        WHOLE.replace(b"\n", b"\r\n"),
        1,
        "its line end is that of Windows",
        b"All 3 lines are so: `tr -d",
        True,
    ),
    (
        b"\xef\xbb\xbf" + WHOLE,
        1,
        "the text begins with a byte order mark",
        b"three bytes",
        True,
    ),
    (
        WHOLE.decode().encode("utf-16"),
        1,
        "it is UTF-16, and a text here has one byte a letter",
        b"iconv -f UTF-16",
        False,
    ),
    (gzip.compress(WHOLE), 1, "it is compressed by gzip", b"gunzip", False),
    (bytes(range(128, 256)) * 4, 1, "it is not a text", b"", False),
    (
        b"layout 1\n" + b"".join(b"alias n%d x\n" % it for it in range(8193)) + b"end\n",
        8194,
        "a layout says at most 8,192 things",
        b"",
        False,
    ),
)


def habits(folder: str) -> None:
    """What is said of a layout's line that is written as a text may not be, and whether the mend
    that is shown makes a layout.
    """
    given, name = read("plan_replace"), f"{folder}/layout"
    for line, said, part, is_mended in HABITS:
        judge_layout(
            name, given, b"layout 1\nsize 1 5\n" + line + b"\nend\n", (3, said, part, is_mended)
        )
    for text, number, said, part, is_mended in TEXTS:
        judge_layout(name, given, text, (number, said, part, is_mended))


def judge_layout(name: str, given: bytes, text: bytes, due: tuple[int, str, bytes, bool]) -> None:
    """The words about a layout that is refused, and the layout that its mend makes."""
    number, said, part, is_mended = due
    write(name, text)
    found = run("goal", "--layout", name, given=given)
    first = f"ringplan: line {number} of the layout {name}: {said}\n".encode()
    refuses(
        f"a layout with {text[:60]!r}",
        found,
        lambda it: it.startswith(first)
        and part in it
        and (b"then it can be read." in it) == is_mended,
    )
    if is_mended:
        write(name, mended_layout(text, found[1].decode()))
        owes(
            f"a layout that is mended, from {text[:60]!r}",
            run("goal", "--layout", name, given=given),
            lambda it: it != b"",
            lambda it: it.startswith(NO_RACKS),
            0,
        )


def mended_layout(text: bytes, told: str) -> bytes:
    """The text with the mend that the words show."""
    if "all of them, by that command" in told:
        return text.replace(b"\r", b"")
    lines = text.split(b"\n")
    new: dict[int, list[bytes]] = {}
    for number, words in re.findall(r"^ *(\d+) \+ (.*)$", told, re.MULTILINE):
        new.setdefault(int(number), []).append(words.encode())
    ends = b"" if text.endswith(b"\n") else b"\n"
    return b"\n".join(b"\n".join(new.get(at, [line])) for at, line in enumerate(lines, 1)) + ends


def strangers(folder: str) -> None:
    """Names that a ring lacks, racks that names lack, and too few nodes that live."""
    given, name = read("plan_replace"), f"{folder}/layout"
    ring = given.split(b"change 1\n")[0]
    names_that_lack(given, ring, name)
    separators_that_lack(given)
    few = b"no 28\nrefused: there is no plan: 2 members would be left, and a partition needs 3\n"
    goal = ring.replace(b"node d 4 out", b"node d 4 in").replace(b"slots 0 a b c", b"slots 0 a d c")
    for text in (ring + b"change 1\njoin d\nend\n", ring + goal):
        refuses(
            "too few nodes that live",
            run("goal", "--dead", "b", "--dead", "c", given=text),
            lambda it: it.startswith(few) and it.count(b"\n") == 3,
            1,
        )


def names_that_lack(given: bytes, ring: bytes, name: str) -> None:
    """Undeclared names: far from each name of the ring, or near one."""
    nodes = [line.split()[1].decode() for line in ring.splitlines() if line.startswith(b"node ")]
    far = "  It declares " + ", ".join(f"`{node}`" for node in nodes) + "."
    for line in (b"dead zzzz", b"rack zzzz x", b"weight zzzz 2", b"alias zzzz x"):
        write(name, b"layout 1\n" + line + b"\nend\n")
        refuses(
            f"{line!r} in a layout",
            run("goal", "--layout", name, given=given),
            lambda it: it.decode().endswith(
                f"names zzzz, and the ring declares no such node\n{far}\n"
            ),
        )
    refuses(
        "a dead node that is far from each",
        run("goal", "--dead", "zzzz", given=given),
        lambda it: it.decode().endswith(far + "\n"),
    )
    long = given.replace(b" b", b" birch")
    for words in (["--dead", "brich"], ["--layout", name]):
        write(name, b"layout 1\ndead brich\nend\n")
        refuses(
            f"a name that is near, {words[0]}",
            run("goal", *words, given=long),
            lambda it: it.endswith(
                b"names brich, and the ring declares no such node\n  `birch` was meant?\n"
            ),
        )


def separators_that_lack(given: bytes) -> None:
    """The names of nodes have no rack behind the separator."""
    for command in ("goal", "show", "draw", "steps", "windows --rounds 1"):
        found = run(*command.split(), "--racks-behind", ",", given=given)
        refuses(
            f"{command} with a separator that names lack",
            found,
            lambda it: it.startswith(b"no 3 0\nrefused: there is no `,` in the name of the node "),
        )
    ends = given.replace(b" a", b" a.")
    refuses(
        "a name that ends in the separator",
        run("goal", "--racks-behind", ".", given=ends),
        b"refused: nothing follows the last `.` in the name of the node a.,",
    )


def outputs(folder: str) -> None:
    plan = f"{EXAMPLES}/plan_replace.bundle"
    target = f"{folder}/out"
    whole = run("goal", plan)[0]
    for option in (["-o", target], [f"--output={target}"], [f"-o{target}"]):
        owes("an output", run("goal", *option, plan), b"", NO_RACKS, 0)
        with open(target, "rb") as it:
            if it.read() != whole:
                faults.append(f"{option}: another text")
        os.remove(target)
    refused_outputs(folder, target, plan)
    owes("a device", run("goal", "-o", "/dev/null", plan), b"", NO_RACKS, 0)
    if not os.path.exists("/dev/null") or os.path.isfile("/dev/null"):
        faults.append("/dev/null is no device any more")
    refuses("a full device", run("goal", "-o", "/dev/full", plan), b"No space left on device", 3)
    owes("a dash", run("goal", "-o", "-", plan), whole, NO_RACKS, 0)
    owes(
        "an output with an exit code",
        run("goal", "--exit-code", "-o", target, plan),
        b"",
        NO_RACKS,
        4,
    )
    with open(target, "rb") as it:
        if it.read() != whole:
            faults.append("an exit code: another text")
    refuses(
        "a full device with an exit code",
        run("goal", "--exit-code", "-o", "/dev/full", plan),
        b"No space left on device",
        3,
    )
    left = [name for name in os.listdir(folder) if name.endswith(".part")]
    if left:
        faults.append(f"parts are left: {left}")
    with tempfile.TemporaryDirectory() as room:
        beside(room, plan, whole)


def refused_outputs(folder: str, target: str, plan: str) -> None:
    """A refusal leaves the output's file as it is. Some outputs cannot be written."""
    write(target, b"old")
    refuses(
        "an output that is refused",
        run("goal", "-o", target, f"{EXAMPLES}/copy_out_of_order.bundle"),
        b"refused",
    )
    owes(
        "a check that says no",
        run("check", "-o", target, f"{EXAMPLES}/copy_out_of_order.bundle"),
        contains(b"no "),
        b"",
        1,
    )
    with open(target, "rb") as it:
        if it.read() != b"old":
            faults.append("a refusal changes the output's file")
    refuses(
        "an output in no folder",
        run("goal", "-o", f"{folder}/none/out", plan),
        b"No such file or directory",
        3,
    )
    refuses("an output that is a folder", run("goal", "-o", folder, plan), b"Is a directory", 3)


def has(what: str, path: str, text: bytes) -> None:
    """The file has that text."""
    with open(path, "rb") as it:
        prints(what, (it.read(), b"", 0), text)


def beside(folder: str, plan: str, whole: bytes) -> None:
    """What lies beside an output stays as it is, and so do the output's links and permissions."""
    target, victim = f"{folder}/out", f"{folder}/victim"
    write(victim, b"mine")
    write(f"{target}.part", b"mine")
    os.symlink(victim, f"{target}.1.part")
    os.mkfifo(f"{target}.2.part")
    owes("an output beside other parts", run("goal", "-o", target, plan), b"", NO_RACKS, 0)
    has("that output", target, whole)
    has("a part that was there", f"{target}.part", b"mine")
    has("what a part leads to", victim, b"mine")
    owes(
        "a part that leads elsewhere, and one that is a pipe",
        (
            b"",
            b"",
            os.path.islink(f"{target}.1.part")
            and stat.S_ISFIFO(os.stat(f"{target}.2.part").st_mode),
        ),
        b"",
        b"",
        True,
    )
    for part in ("part", "1.part", "2.part"):
        os.remove(f"{target}.{part}")
    links(folder, plan, whole)
    together = [
        subprocess.Popen(
            [RUN, "goal", "-o", target, plan], stdout=subprocess.PIPE, stderr=subprocess.PIPE
        )
        for _ in range(20)
    ]
    for ran in together:
        output, errors = ran.communicate(timeout=60)
        owes("one of 20 runs for one output", (output, errors, ran.returncode), b"", NO_RACKS, 0)
    has("the output of 20 runs", target, whole)
    owes("what is left of 20 runs", (b"", b"", os.listdir(folder)), b"", b"", ["out"])


def links(folder: str, plan: str, whole: bytes) -> None:
    """Outputs that are links: to a file, to nothing and to themselves."""
    victim = f"{folder}/victim"
    for mode in (0o600, 0o640, 0o444):
        os.chmod(victim, mode)
        os.symlink("victim", f"{folder}/near")
        os.symlink("../" + os.path.basename(folder) + "/near", f"{folder}/far")
        owes("an output that is a link", run("goal", "-o", f"{folder}/far", plan), b"", NO_RACKS, 0)
        has("what the link leads to", victim, whole)
        owes(
            "that link, and its permissions",
            (b"", b"", [os.readlink(f"{folder}/near"), stat.S_IMODE(os.stat(victim).st_mode)]),
            b"",
            b"",
            ["victim", mode],
        )
        os.remove(f"{folder}/near")
        os.remove(f"{folder}/far")
    os.symlink("none", f"{folder}/near")
    owes(
        "an output that is a link to nothing",
        run("goal", "-o", f"{folder}/near", plan),
        b"",
        NO_RACKS,
        0,
    )
    has("what it leads to then", f"{folder}/none", whole)
    os.symlink("ring", f"{folder}/ring")
    refuses(
        "an output that is a link to itself",
        run("goal", "-o", f"{folder}/ring", plan),
        b"symbolic links",
        3,
    )
    for name in ("near", "none", "ring", "victim"):
        os.remove(f"{folder}/{name}")


def is_printed(found: bytes) -> bool:
    """Whether a terminal prints each byte as it is."""
    return all(byte == 10 or 32 <= byte < 127 for byte in found)


def escapes() -> None:
    """Bytes of the input or of a word that steer a terminal are nowhere printed."""
    ring = b"ring 1\nspace 1\nquorum 1 1 1\nnode c 3 in\nslots 0 c\n"
    steer = b"\x1b]0;owned\x07\x1b[2;31md\xc3\xa9\x9b"
    rest = b"plan 1\nend\ncert 1\nend\n"
    for given in (
        ring + steer + b"\n" + rest,
        ring + b"en" + steer + b"\n" + rest,
        ring.replace(b"node c", b"Node " + steer) + b"end\n" + rest,
        ring + b"end\nplan 1\nJoin " + steer + b"\nend\n",
    ):
        for words in (
            ["why"],
            ["why", "--color", "never"],
            ["show"],
            ["draw"],
            ["goal"],
            ["cert"],
            ["windows", "--rounds", "1"],
            ["around", "--dead", "c"],
        ):
            found = run(*words, given=given)
            owes(
                f"{words} of bytes that steer a terminal",
                found,
                is_printed,
                lambda it: is_printed(it) and (it != b"" or words[0] == "why"),
                lambda it: it in (1, 2),
            )
        stated = json.loads(run("why", "--format", "json", given=given)[0])
        lines = [line["text"].encode() for line in stated.get("mend", {"lines": []})["lines"]]
        owes(
            "a mend with bytes that steer a terminal",
            (b"".join(lines), stated["words"].encode(), 0),
            is_printed,
            is_printed,
            0,
        )
    escapes_in_words()


def escapes_in_words() -> None:
    word = "\x1b[2;31mx\x9b"
    for words in (
        ["check", word],
        ["check", f"--{word}"],
        ["goal", f"--{word}"],
        [word],
        ["goal", "--dead", word],
        ["goal", "-o", f"{word}/x"],
        ["goal", "--layout", word],
        ["show", "--format", word],
    ):
        found = run(*words, given=read("plan_replace"))
        owes(
            f"the words {words!r}",
            (found[0] + found[1], b"", found[2]),
            lambda it: is_printed(it) and it != b"",
            b"",
            lambda it: it in (2, 3),
        )


def streams() -> None:
    refused = read("copy_out_of_order")
    for word in ("show", "draw", "steps", "after", "windows --rounds 2"):
        refuses(
            f"{word} of a refused plan",
            run(*word.split(), given=refused),
            lambda text: text.startswith(b"no 2"),
            1,
        )
    owes(
        "check of a refused plan",
        run("check", given=refused),
        lambda text: text.startswith(b"no 2"),
        b"",
        1,
    )
    owes("why of a refused plan", run("why", given=refused), contains(b"refused:"), b"", 1)
    wrong_commands()
    exit_codes(refused)
    refuses("no command", run(), b"Usage")
    logic = subprocess.run(["rt", "version"], stdout=subprocess.PIPE).stdout.decode().split()[-1]
    for word in ("--version", "-V"):
        prints("the version", run(word), f"ringplan 1.0.0 (Rattle logic {logic})\n".encode())
    short, long = run("check", "-h")[0], run("check", "--help")[0]
    if not (len(short) < len(long) and b"Exit status" in long and b"Exit status" not in short):
        faults.append("-h is no shorter than --help")


# Commands and options of earlier versions, and what is said of each.
GONE = (
    (
        "judge --workers 2",
        (
            "there is no `judge`: use `replay`, or `part` for histories of more than 1,000,000"
            " entries"
        ),
    ),
    ("bundle", "there is no `bundle`: use `goal` for a change, and `cert` for a plan"),
    ("goal --even", "there is no `goal --even`: use `show`, which says how even a ring is"),
    ("drive --json", "there is no `drive --json`: use `drive --format json`"),
    ("goal --sizes x", "there is no `--sizes`: use `--layout`, with `size` lines"),
    ("goal --weight a=2", "there is no `--weight`: use `--layout`, with `weight` lines"),
)


def wrong_commands() -> None:
    """Commands and options that there are not, and what to type instead of some."""
    refuses("a wrong option of goal", run("goal", "--ded", "b"), b"unexpected argument")
    commands = re.findall(
        r"^  (\w+) ", run("help")[0].decode().split("Commands:\n")[1].split("\n\n")[0], re.MULTILINE
    )
    for word in commands:
        refuses(
            f"a wrong option of {word}",
            run(word, "--ded"),
            b"unrecognized subcommand" if word == "help" else b"unexpected argument",
        )
    owes("commands", (b"", b"", len(commands)), b"", b"", 20)
    refuses(
        "a wrong command",
        run("gaol"),
        lambda it: b"unrecognized subcommand" in it and b"there is no" not in it,
    )
    for gone, instead in GONE:
        refuses(
            f"what to type instead of {gone}",
            run(*gone.split()),
            lambda it: it.startswith(b"error: ")
            and it.endswith(f"\nringplan: {instead}\n".encode()),
        )
    refuses("a wrong option before the command", run("--ded", "check"), b"unexpected argument")
    refuses(
        "a dead node whose name begins with -",
        run("goal", "--dead=-x", given=read("plan_replace")),
        b"names -x,",
    )
    refuses(
        "a wrong character before racks", run("goal", "--racks-behind", "ab"), b"--racks-behind <C>"
    )
    refuses("a wrong number of rounds", run("windows", "--rounds", "0"), b"1..=1000000")


def exit_codes(refused: bytes) -> None:
    ring = read("plan_replace").split(b"change 1\n")[0]
    owes(
        "a goal that is reached",
        run("goal", given=ring + b"change 1\nend\n"),
        ring + b"plan 1\nend\ncert 1\nend\n",
        contains(b"the plan has no steps"),
        0,
    )
    for given, status in ((ring + b"change 1\nend\n", 0), (read("plan_replace"), 4), (refused, 2)):
        plain = run("goal", given=given)
        owes(
            f"a goal with its exit code, {status}",
            run("goal", "--exit-code", given=given),
            plain[0],
            plain[1],
            status,
        )


def formats() -> None:
    """An answer as JSON says what its line says, by the names of docs/REFUSALS.md."""
    with open(f"{TOP}/docs/REFUSALS.md", encoding="utf-8") as it:
        rows = re.findall(r"^\| (\d+) \| (\w+) \| ([^|]+) \|", it.read(), re.MULTILINE)
    # 70 is of a history with two values, and of a drive with none.
    names = {(int(number), values == "none"): name for number, name, values in rows}
    with open(f"{TOP}/crates/tests_program/args") as it:
        words = it.read().split()
    kinds = {
        word: words.index(word)
        for word in ("migrate", "play", "plan", "drive", "report", "race", "replay", "why")
    }
    after = min(place for place in kinds.values() if place > kinds["replay"])
    for word, cases in (
        ("check", words[: min(kinds.values())]),
        ("replay", words[kinds["replay"] + 1 : after]),
    ):
        for case in cases:
            as_json(word, case, names)
    for words in (
        ["check"],
        ["replay"],
        ["drive"],
        ["check", "--workers", "2"],
        ["drive", "--workers", "2"],
    ):
        wrong = (
            b"error: invalid value for '--format <FORMAT>': not text or json\n\nFor more"
            b" information, try '--help'.\n"
        )
        for form in ("xml", "JSON", ""):
            owes(f"{words} in no form", run(*words, "--format", form), b"", wrong, 2)
    refuses("a form of plan", run("plan", "--format", "json"), b"unexpected argument")


def as_json(word: str, case: str, names: Mapping[tuple[int, bool], str]) -> None:
    """The answer on a case as an object, beside its line."""
    given = f"{TOP}/crates/tests_program/data/{case}.bundle"
    text, errors, status = run(word, given)
    number, *values = [int(field) for field in text.split(b"\n")[0].split()[1:]] or [0]
    owed = (
        {
            "answer": "no",
            "name": names[number, not values],
            "number": number,
            "values": values,
        }
        if number
        else {"answer": "yes"}
    )
    line = json.dumps(owed, separators=(",", ":")).encode() + b"\n"
    owes(
        f"{word} of {case} as JSON",
        run(word, "--format", "json", given),
        line,
        errors,
        status,
    )
    owes(f"{word} of {case} as text", run(word, "--format=text", given), text, errors, status)
    if word == "check":
        owes(
            f"{case} as JSON by workers",
            run(word, "--workers", "3", "--format", "json", given),
            line,
            errors,
            status,
        )


def parts(folder: str) -> None:
    """Where a part is printed, and why none is."""
    given = f"{EXAMPLES}/replay_a_move.bundle"
    share, text = ["part", "--of", "4", "--part", "1"], read("replay_a_move")
    part = run(*share, given)[0]
    prints("a part", run(*share, given=text), part)
    prints("the whole", run("part", "--of", "1", "--part", "0", given), text)
    prints("all partitions", run("part", "--partitions", "0-3", given), text)
    prints("a part as a file", run(*share, given, "-o", f"{folder}/part"), b"")
    with open(f"{folder}/part", "rb") as it:
        prints("what the file has", (it.read(), b"", 0), part)
    entries_of_a_part(share, given, part)
    front = text[: text.index(b"history 1")]
    owes(
        "a part of no history",
        run(*share, given=front),
        b"",
        b"no 1 %d\n" % (front.count(b"\n") + 1),
        2,
    )
    unnamed_parts(share)
    for named, last in (("3-4", 4), ("4-5", 5), ("7-4294967295", 4294967295)):
        owes(
            f"the partitions {named} of 4",
            run("part", "--partitions", named, given),
            contains(b"\nhistory 1\n"),
            f"ringplan: the ring has 4 partitions, and none of number {last}\n".encode(),
            0,
        )
    many_entries(folder, share, front)
    large_history(folder, share, front)


def entries_of_a_part(share: list[str], given: str, part: bytes) -> None:
    entries = part[part.index(b"history 1") :].count(b"\n") - 2
    prints(
        "the last entry of a part",
        run(*share, "--map", str(entries - 1), given),
        lambda it: re.fullmatch(rb"\d+\n", it) and int(it) >= entries - 1,
    )
    owes(
        "no entry of a part",
        run(*share, "--map", str(entries), given),
        b"",
        f"ringplan: the part has {entries} entries\n".encode(),
        2,
    )


def unnamed_parts(share: list[str]) -> None:
    """Command lines that name no part."""
    unnamed = contains(b"error: a part is named by")
    lines: tuple[list[str], ...] = (
        [],
        ["--of", "4"],
        ["--part", "1"],
        ["--of", "4", "--part", "4"],
        ["--partitions", "2-1"],
        ["--partitions", "2"],
        ["--partitions", "-"],
        ["--partitions", "0-4294967296"],
        ["--of", "4", "--part", "1", "--partitions", "0-1"],
    )
    for line in lines:
        owes(f"part {line}", run("part", *line), b"", unnamed, 2)
    for option, numbers in (
        ("--of <K>", ("0", "4097", "x")),
        ("--part <I>", ("4096", "x")),
        ("--map <N>", ("1000000", "x")),
    ):
        for number in numbers:
            refuses(
                f"part by {option} of {number}",
                run(*share, option.split()[0], number),
                f"'{option}'".encode(),
            )


def many_entries(folder: str, share: list[str], front: bytes) -> None:
    """A part of more entries than are judged at once, all of one partition."""
    downs = [b"down d = ok\n", b"up d = ok\n"] * 500_000
    with open(f"{folder}/long", "wb") as long:
        long.writelines([front, b"history 1\n", *downs, b"up a = ok\n", b"end\n"])
    size = len(front) + 14 + sum(map(len, downs)) + 10
    words = (
        f"ringplan: the part has 1000001 entries and {size} bytes, and 1000000 and {MOST} are"
        " judged at once: "
    )
    unless = ", unless one partition or what each part has, steps and outages, is too much"
    owes(
        "a part of too many entries",
        run(*share, f"{folder}/long"),
        b"",
        f"{words}--of 8 may do{unless}\n".encode(),
        2,
    )
    for of, advice in ((3_000, f"--of 4096 may do{unless}"), (4_096, "no more parts are possible")):
        owes(
            f"a part of {of}",
            run("part", "--of", str(of), "--part", "1", f"{folder}/long"),
            b"",
            f"{words}{advice}\n".encode(),
            2,
        )
    for named, advice in (
        ("0-1", f"2 times fewer partitions may do{unless}"),
        ("1-1", "no smaller parts are possible"),
    ):
        owes(
            f"the partitions {named} with too many entries",
            run("part", "--partitions", named, f"{folder}/long"),
            b"",
            f"{words}{advice}\n".encode(),
            2,
        )


def large_history(folder: str, share: list[str], front: bytes) -> None:
    """A history of more bytes than are judged at once."""
    others = [b"get k%d = get %d\n" % (number % 1000, number) for number in range(3_500_000)]
    with open(f"{folder}/long", "wb") as long:
        long.writelines([front, b"history 1\n", *others, b"end\n"])
    owes(
        "a history above the limit of a file",
        (b"", b"", os.path.getsize(f"{folder}/long") > MOST),
        b"",
        b"",
        1,
    )
    found = run(*share, f"{folder}/long")
    prints("its part", found, contains(b"\nhistory 1\nget k"))
    prints("its part, judged", run("replay", given=found[0]), contains(b"yes\n"))


def cases_of(word: str) -> list[str]:
    """The bundles of the cases of a command, as they stand in the words of tests_program."""
    with open(f"{TOP}/crates/tests_program/args") as it:
        words = it.read().split()
    start = words.index(word) + 1
    bundles = {
        name[: -len(".bundle")]
        for name in os.listdir(f"{TOP}/crates/tests_program/data")
        if name.endswith(".bundle")
    }
    end = next((at for at in range(start, len(words)) if words[at] not in bundles), len(words))
    return [f"{TOP}/crates/tests_program/data/{case}.bundle" for case in words[start:end]]


def said_as_json(what: str, found: bytes, line: bytes) -> dict[str, Any]:
    """The object that was printed, where it begins with what a check's object of that line has."""
    number, *values = [int(field) for field in line.split()[1:]] or [0]
    try:
        stated: dict[str, Any] = json.loads(found)
    except ValueError:
        faults.append(f"{what}: no object: {found[:80]!r}")
        return {}
    if (
        not number
        and stated.get("answer") != "yes"
        or number
        and [stated.get(key) for key in ("answer", "number", "values")] != ["no", number, values]
    ):
        faults.append(f"{what}: {found[:80]!r} of {line!r}")
    if (
        found
        != json.dumps(stated, separators=(",", ":"), sort_keys=True, ensure_ascii=False).encode()
        + b"\n"
    ):
        faults.append(f"{what}: not one compact line with its members by name")
    return stated


def mended(text: bytes, mend: Mapping[str, Any]) -> bytes:
    """A bundle in which lines have others in their place."""
    new = {change["line"]: change["text"] for change in mend["lines"]}
    return "".join(
        new.get(at + 1, line)
        for at, line in enumerate(text.decode(errors="surrogateescape").splitlines(keepends=True))
    ).encode(errors="surrogateescape")


# What `why` begins and ends with of a plan that the checker refuses.
KEPT = b"kept in every run:\n"
BREAKS = b"  `ringplan-break FILE` looks for a run in which this plan does harm.\n"


def state_why(given: str) -> None:
    text, errors, status = run("why", given)
    found = run("why", "--format", "json", given)
    owes(f"why of {given} as JSON", found, lambda it: it.endswith(b"\n"), errors, status)
    line, _, words = text.partition(b"\n")
    stated = said_as_json(f"why of {given}", found[0], line)
    if words.startswith(KEPT) != ("kept" in stated):
        faults.append(f"why of {given}: the promises that are kept are in one of text and JSON")
    # The object has these promises by name, and does not name the other command.
    words = words.partition(b"\n\n")[2] if words.startswith(KEPT) else words
    if stated.get("words", "").encode() != words.removesuffix(BREAKS):
        faults.append(f"why of {given}: other words as JSON")
    shown = {int(n) for n in re.findall(rb"^ *(\d+) \| .*\n *\| *\^", words, re.MULTILINE)}
    if not shown <= set(stated.get("lines", [])):
        faults.append(f"why of {given}: lines {stated.get('lines')} in place of {shown}")
    mend = stated.get("mend")
    if (mend is None) != (b"  mend: " not in words):
        faults.append(f"why of {given}: a mend in one of both")
    if mend and mend["lines"]:
        with open(given, "rb") as it:
            answer = run("why", given=mended(it.read(), mend))[0].split(b"\n")[0].decode()
        if answer != {"accepted": "yes", "planned": "yes", "replayed": "yes"}.get(
            mend["then"], mend["then"]
        ):
            faults.append(f"why of {given}: after its mend {answer}, not {mend['then']}")


def state_show(given: str) -> None:
    text, errors, status = run("show", "--all", given)
    found = run("show", "--format=json", given)
    owes(f"show of {given} as JSON", found, lambda it: it.endswith(b"\n"), b"", status)
    stated = said_as_json(
        f"show of {given}", found[0], errors.split(b"\n")[0] if status else b"yes"
    )
    total = re.search(
        rb"Plan: (\d+) to join, (\d+) to leave, (\d+) slots? to move in (\d+) rounds?", text
    )
    if total and [int(n) for n in total.groups()] != [
        len(stated["joins"]),
        len(stated["leaves"]),
        stated["moves"],
        stated["rounds"],
    ]:
        if b"moves of" not in text:
            faults.append(f"show of {given}: {total.group().decode()} is not what the object has")
    if not status and "begin" in stated["nodes"][0]:
        owned = [sum(node[key] for node in stated["nodes"]) for key in ("begin", "slots", "end")]
        if len(set(owned)) != 1:
            faults.append(f"show of {given}: nodes own {owned} slots")


def state_goal(name: str) -> None:
    given = f"{TOP}/crates/tests_program/data/{name}.bundle"
    text, errors, status = run("goal", "--exit-code", given)
    found = run("goal", "--exit-code", "--format", "json", given)
    owes(f"goal of {name} as JSON", found, lambda it: it.endswith(b"\n"), b"", status)
    stated = said_as_json(
        f"goal of {name}", found[0], errors.split(b"\n")[0] if status not in (0, 4) else b"yes"
    )
    if (
        stated.get("bundle", "").encode() != text
        or status == 4
        and stated["steps"] != len(text.split(b"\nplan 1\n")[1].split(b"\nend\n")[0].split(b"\n"))
    ):
        faults.append(f"goal of {name}: another bundle or count of steps as JSON")
    if status not in (0, 4) and stated["words"].encode() != errors.partition(b"\n")[2]:
        faults.append(f"goal of {name}: other words as JSON")


def statements() -> None:
    """What `why`, `show` and `goal` state as JSON, beside their words."""
    for given in cases_of("why"):
        state_why(given)
    for given in cases_of("show"):
        state_show(given)
    for name in (
        "plan_grow",
        "plan_replace",
        "plan_drain",
        "copy_out_of_order",
        "plan_too_few_members_left",
    ):
        state_goal(name)
    for word in ("why", "show", "goal"):
        refuses(f"{word} in no form", run(word, "--format", "xml"), b"not text or json")


def at_terminal(*words: str, errors: int | None = subprocess.PIPE, **environment: str) -> bytes:
    """What the words print on a terminal; with `errors=None` also what standard error has."""
    ours, theirs = pty.openpty()
    known = {key: value for key, value in os.environ.items() if key != "NO_COLOR"} | environment
    with subprocess.Popen([RUN, *words], stdout=theirs, stderr=errors or theirs, env=known) as ran:
        os.close(theirs)
        found = b""
        try:
            while part := os.read(ours, 65536):
                found += part
        except OSError:  # the terminal has no writer any more
            pass
        ran.wait(timeout=60)
    os.close(ours)
    return found.replace(b"\r\n", b"\n")


def colors() -> None:
    """Words in colours are the same words."""
    for word, name in (
        ("why", "copy_out_of_order"),
        ("why", "move_one_slot"),
        ("show", "plan_replace"),
        ("show", "down64"),
    ):
        given = f"{TOP}/crates/tests_program/data/{name}.bundle"
        plain, errors, status = run(word, given)
        owes(
            f"{word} of {name} without colours",
            run(word, "--color", "never", given),
            plain,
            errors,
            status,
        )
        painted = run(word, "--color", "always", given)
        owes(
            f"{word} of {name} in colours",
            painted,
            lambda it: b"\x1b[" in it and re.sub(rb"\x1b\[\d*m", b"", it) == plain,
            errors,
            status,
        )
        for what, found, owed in (
            ("a terminal", at_terminal(word, given), painted[0]),
            ("a terminal without colours", at_terminal(word, given, NO_COLOR="1"), plain),
            ("an empty NO_COLOR", at_terminal(word, given, NO_COLOR=""), painted[0]),
            ("a terminal, never", at_terminal(word, "--color", "never", given), plain),
        ):
            prints(f"{word} of {name} at {what}", (found, b"", 0), owed)
    refuses("a wrong word of colours", run("why", "--color", "blue"), b"not auto, always or never")
    refuses("colours of a check", run("check", "--color", "never"), b"unexpected argument")


def unpacked(said: bytes, text: bytes, folder: str) -> bytes:
    """What the command that is said makes of the text in the file that it calls FILE."""
    command = re.search(rb"`([^`]* > MENDED)`", said)
    if not command:
        return b""
    write(f"{folder}/FILE", text)
    subprocess.run(command[1], shell=True, cwd=folder, check=False)
    with open(f"{folder}/MENDED", "rb") as it:
        return it.read()


def kinds(folder: str) -> None:
    """Inputs of other kinds: what they are is said, with a command that makes a text."""
    text = read("plan_replace")
    plain = text.decode()
    for what, given in (
        (b"gzip", gzip.compress(text)),
        (b"xz", lzma.compress(text)),
        (b"bzip2", bz2.compress(text)),
        (b"UTF-16", plain.encode("utf-16")),
        (b"UTF-16LE", plain.encode("utf-16-le")),
        (b"UTF-16BE", plain.encode("utf-16-be")),
    ):
        for word in ("goal", "why"):
            output, errors, status = run(word, given=given)
            owes(
                f"{word} of {what!r}",
                (output + errors, b"", status),
                lambda it: it.startswith(b"no 1 1\nrefused: the input is ")
                and what in it
                and b"mend:" not in it,
                b"",
                2,
            )
            has_text = unpacked(output + errors, given, folder)
            prints(f"what the command of {word} makes of {what!r}", (has_text, b"", 0), text)
    for seed in range(20):
        given = random.Random(seed).randbytes(2000)
        refuses(
            f"random bytes {seed}",
            run("goal", given=given),
            lambda it: it.startswith(b"no 1 1\nrefused: the input is"),
        )
    for number in (4, 17):
        later = text.replace(b"ring 1", b"ring %d" % number)
        refuses(
            f"a ring of format {number}",
            run("goal", given=later),
            lambda it: b"format %d, and this program reads 1 to 3" % number in it
            and b"mend" not in it,
        )


def faulty_lines(words: list[str], given: bytes) -> tuple[list[int], bytes]:
    """The lines at fault that are stated, and the text with the mend that is stated."""
    stated = json.loads(run(*words, "--format", "json", given=given)[0])
    return stated["lines"], mended(given, stated["mend"]) if "mend" in stated else given


def first() -> None:
    """What people type first, and what they get wrong in a ring."""
    text = read("plan_replace")
    ring = text[: text.index(b"change 1")]
    count = ring.count(b"\n")
    change = text[len(ring) :]
    plan = run("goal", given=text)[0]
    refuses(
        "a ring alone",
        run("goal", given=ring),
        lambda it: it.startswith(
            b"no 1 %d\nrefused: a change is missing after the ring\n" % (count + 1)
        ),
    )
    refuses(
        "a plan for a goal", run("goal", given=plan), b"refused: the bundle has a plan already\n"
    )
    refuses(
        "the change first",
        run("goal", given=change + ring),
        b"the ring comes first, and begins in line %d\n" % (change.count(b"\n") + 1),
    )
    around_without_a_history(text, ring, plan)
    few_are_left(ring)
    windows = run("windows", "--rounds", "1", given=text)[0].count(b"ring 1\n")
    refuses(
        "a window that is not there",
        run("windows", "--rounds", "1", "--only", "99", given=text),
        b"there %s %d window" % (b"is" if windows == 1 else b"are", windows),
        1,
    )
    quorums(text)
    partitions(text)
    names_of_others(text)
    times()


def around_without_a_history(text: bytes, ring: bytes, plan: bytes) -> None:
    for given, words in (
        (plan, b"the bundle has no history"),
        (text, b"and the bundle has a change"),
        (ring, b"and the bundle has a ring only"),
    ):
        refuses(
            "around without a history",
            run("around", "--dead", "b", given=given),
            lambda it: words in it and b"`ringplan goal --dead NODE`" in it and b"mend" not in it,
        )
    refuses(
        "around with a fault in its plan",
        run("around", "--dead", "b", given=plan.replace(b"mirror", b"mirorr")),
        lambda it: b"mend: `mirror` was meant?" in it and b"goal --dead" not in it,
    )


def few_are_left(ring: bytes) -> None:
    """The ring has members a, b and c, and d joins."""
    for names, left in (("ab", 2), ("abc", 1), ("abcd", 0)):
        dead = [f"--dead={name}" for name in names]
        stays = ring + b"change 1\n" + (b"join d\n" if "d" not in names else b"") + b"end\n"
        refuses(
            f"{names} dead",
            run("goal", *dead, given=stays),
            b"there is no plan: %d member" % left,
            1,
        )


def quorums(text: bytes) -> None:
    """Quorums that the rows do not have."""
    five = text.replace(b"quorum 3 2 2", b"quorum 5 3 3")
    lines, mend = faulty_lines(["why"], five)
    owes("a quorum of five over rows of three", (lines, mend, 0), [3], text, 0)
    wide = text.replace(b"quorum 3 2 2", b"quorum 5 3 4")
    owes("another quorum of five", (*faulty_lines(["why"], wide), 0), [3], text, 0)
    high = text.replace(b"quorum 3 2 2", b"quorum 4 2 3")
    owes(
        "a quorum of four that also serves three",
        (*faulty_lines(["why"], high), 0),
        [3],
        text.replace(b"quorum 3 2 2", b"quorum 3 2 3"),
        0,
    )


def partitions(text: bytes) -> None:
    """A partition twice, or by another's number."""
    rows = [line for line in text.split(b"\n") if line.startswith(b"slots ")]
    twice = text.replace(rows[1], rows[1] + b"\n" + rows[1])
    place = twice.split(b"\n").index(rows[1]) + 2
    owes("a partition twice", (*faulty_lines(["why"], twice), 0), [place], text, 0)
    misnamed = text.replace(b"slots 1 ", b"slots 0 ")
    owes("a partition misnamed", (*faulty_lines(["why"], misnamed), 0), [place - 1], text, 0)


def names_of_others(text: bytes) -> None:
    """Nodes by the names that other stores give them."""
    for name in (
        b"riak@10.0.0.1",
        b"Kv01",
        b"ip-10-0-12-133.eu-central-1.compute.internal",
        b"3F2504E0-4F89-11D3-9A0C-0305E82C3301",
    ):
        named = text.replace(b"node a ", b"node " + name + b" ")
        refuses(
            f"a node named {name!r}",
            run("goal", given=named),
            lambda it: b"1 to 32 of a-z 0-9 _ . : -" in it and b"`alias NAME " + name + b"`" in it,
        )


def times() -> None:
    """Times before the entries of a history."""
    told = read("replay_a_move")
    front, history = told.split(b"history 1\n")
    entries = history.split(b"\n")
    place = front.count(b"\n") + 2
    timed = (
        front + b"history 1\n" + b"\n".join([b"2026-11-30T05:00:00Z " + entries[0], *entries[1:]])
    )
    owes("a time before an entry", (*faulty_lines(["why"], timed), 0), [place], told, 0)
    refuses(
        "times before all entries",
        run(
            "show",
            given=front
            + b"history 1\n"
            + b"".join(b"17:05 " + it + b"\n" for it in entries[:-2])
            + b"end\n",
        ),
        b"an entry begins with its event",
    )


def advice() -> None:
    """At a terminal a refusal in one line has a second one, which names the command with words for
    it.
    """
    refused, good = f"{EXAMPLES}/copy_out_of_order.bundle", f"{EXAMPLES}/move_one_slot.bundle"
    plain: dict[str, str] = {}
    for line, environment in (
        ("check", plain),
        ("check --workers 2", plain),
        ("check", {"NO_COLOR": "1"}),
    ):
        shown = at_terminal(*line.split(), refused, errors=None, **environment)
        prints(
            f"{line} at a terminal",
            (shown, b"", 0),
            lambda it: it.startswith(b"no 22 ") and it.count(b"`ringplan why FILE` says why") == 1,
        )
    prints(
        "a replay without a history at a terminal",
        (at_terminal("replay", good, errors=None), b"", 0),
        contains(b"also wants a history"),
    )
    for words in (
        ["check", good],
        ["check", "--format", "json", refused],
        ["why", refused],
        ["goal", refused],
        ["check", "--ded"],
    ):
        prints(
            f"{words} at a terminal",
            (at_terminal(*words, errors=None), b"", 0),
            lambda it: b"says why" not in it and it != b"",
        )
    owes("a check elsewhere", run("check", refused), lambda it: it.startswith(b"no 22 "), b"", 1)


def terminal() -> None:
    """At a terminal with nothing to read the program says that it waits, and its first end of input
    is the last.
    """
    for words, name, owed in (
        ("check", "move_one_slot", b"yes\n"),
        ("part --of 1 --part 0", "replay_a_move", read("replay_a_move")),
    ):
        ours, theirs = pty.openpty()
        with subprocess.Popen(
            [RUN, *words.split()], stdin=theirs, stdout=subprocess.PIPE, stderr=subprocess.PIPE
        ) as ran:
            os.close(theirs)
            os.write(ours, read(name) + b"\x04")
            output, errors = ran.communicate(timeout=60)
            owes(
                f"{words} at a terminal",
                (output, errors, ran.returncode),
                owed,
                contains(b"reads a bundle from the terminal"),
                0,
            )
        os.close(ours)


with tempfile.TemporaryDirectory() as scratch:
    files(scratch)
    outputs(scratch)
    layouts(scratch)
    habits(scratch)
    strangers(scratch)
    parts(scratch)
    kinds(scratch)
dead()
streams()
escapes()
formats()
statements()
colors()
first()
advice()
terminal()
for fault in faults:
    print(fault)
print(f"streams: {tried} runs, {len(faults)} faults")
sys.exit(bool(faults))
