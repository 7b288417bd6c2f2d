"""Looks for a run in which a refused plan does harm: `ringplan-break FILE [--script]`.

The proved program judges the plan and looks for a certificate. If there is none, a search looks for
a script at whose end a promise is broken, and a plain machine judges the script. What is printed
can be followed by hand. If nothing is found, that proves nothing.
"""

import argparse
import os
import pathlib
import sys

from ringplan import programs
from ringplan.breaks.harms import Event, Harm, Lost, harm_words, in_words
from ringplan.breaks.machine import Frame, shows
from ringplan.breaks.order import Order
from ringplan.breaks.search import Hunt
from ringplan.options import complete
from ringplan.texts import Plan, Ring, Script, read_plan, read_texts, write_texts

NO_FILE = 3
ENDS = (
    "Exit status: 0 the plan is accepted, 1 it is refused, 2 there is no plan to run, 3 a file or"
    " the program is missing"
)
# A longer script is not made shorter.
LONGEST = 2_000
NO_PLAN = "ringplan-break: there is no plan to run; `ringplan why` says what is wrong\n"
CERTIFIED = "; `ringplan cert` makes a certificate to which the checker says yes"


def shorten(frame: Frame, harm: Harm, script: list[Event]) -> list[Event]:
    """Leaves out what the harm does not need: whole steps, then events, the last ones first."""
    kept, steps = dict(enumerate(script)), dict[str, list[int]]()
    for at, event in kept.items():
        if event[0] in ("do", "open", "chunk", "close"):
            steps.setdefault(event[1], []).append(at)
    for places in (
        [*reversed(steps.values()), *([at] for at in reversed(kept))]
        if len(script) <= LONGEST
        else []
    ):
        less = {at: event for at, event in kept.items() if at not in places}
        if len(less) < len(kept) and shows(frame, list(less.values()), harm):
            kept = less
    return list(kept.values())


def find_break(ring: Ring, plan: Plan, refusal: list[int]) -> tuple[Harm, list[Event]] | str:
    """What breaks, with a script; or what was searched in vain."""
    frame, hunt = Frame(ring, plan), Hunt(Order(ring, plan), *refusal[:2])
    for harm, script in hunt.found:
        if shows(frame, script, harm):
            script = shorten(frame, harm, script)
            if isinstance(harm, Lost):
                script += [
                    ("get", harm.key),
                    *(("read", "0", str(i)) for i in harm.slots),
                    ("endget", "0"),
                ]
            return harm, script
    return hunt.searched()


def answer(data: bytes) -> tuple[str, str, int]:
    """The words for a bundle, the bundle with a script if one is found, and the status."""
    checked = programs.run("check", data)
    line, status = checked.stdout.decode(), checked.returncode
    if status > 1:
        return line, "", status
    certified = programs.run("cert", data) if status else checked
    if certified.returncode == 0:
        return f"{line}unbroken: the plan keeps its promises{CERTIFIED * status}\n", "", status
    ring, plan = read_plan(data.decode())
    refusal = [
        int(word) for word in certified.stderr.decode().split("\n")[0].split(" ") if word.isdigit()
    ]
    found = find_break(ring, plan, refusal or [0])
    if isinstance(found, str):
        return f"{line}unbroken: no run was found in which a promise breaks\n{found}\n", "", status
    harm, script = found
    words = f"{line}broken: {harm_words(harm)}\n\n" + "".join(
        f"{it}\n" for it in in_words(ring, plan.steps, script)
    )
    return words, write_texts([*read_texts(data.decode())[:3], Script(tuple(script))]), status


def command_line() -> argparse.ArgumentParser:
    parser = argparse.ArgumentParser(
        prog="ringplan-break",
        description="Looks for a run in which a refused plan does harm.",
        epilog=ENDS,
    )
    parser.add_argument(
        "file", metavar="FILE", help="a ring, a plan and its certificate; `-` is standard input"
    )
    parser.add_argument(
        "--script",
        action="store_true",
        help="print the bundle with the run as a script that `ringplan play` reads",
    )
    return parser


def main() -> int:
    parser = command_line()
    complete(parser)
    words = parser.parse_args()
    try:
        text, bundle, status = answer(
            sys.stdin.buffer.read() if words.file == "-" else pathlib.Path(words.file).read_bytes()
        )
        # Without a script its reader gets nothing, and the words go to standard error.
        print(bundle if words.script else text, end="", flush=True)
        print(
            text if words.script and not bundle else "",
            NO_PLAN if status == 2 else "",
            sep="",
            end="",
            file=sys.stderr,
        )
    except BrokenPipeError:
        os.dup2(os.open(os.devnull, os.O_WRONLY), 1)
        return NO_FILE
    except (OSError, programs.NoProgram) as error:
        print(f"ringplan-break: {error}", file=sys.stderr)
        return NO_FILE
    return status


if __name__ == "__main__":
    sys.exit(main())
