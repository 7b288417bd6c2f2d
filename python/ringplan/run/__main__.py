"""The command line of the runner.

    ringplan-run apply BUNDLE --do FOLDER [--board FILE|etcd://HOST:PORT/NAME] [--new] [--workers K]
                 [--give-up N] [--layout FILE] [--serve PORT]
    ringplan-run around [--dead NODE].. [--leave P.I].. [--rest] [--back] [--layout FILE]
                 | rest | leave P.I  [--board BOARD]
    ringplan-run status | history | judge | bundle | retry STEP | limit K [--node NODE=K]
                 | forget  [--board BOARD]
    ringplan-run boards
"""

from __future__ import annotations

import argparse
import contextlib
import hashlib
import json
import math
import os
import pathlib
import re
import signal
import sys
import time
from collections.abc import Callable, Sequence

from ringplan import __version__, programs, texts
from ringplan.options import complete
from ringplan.run import report
from ringplan.run.bar import shown
from ringplan.run.board import LOOK, Board, Change, Name, NoBoard, Record, State, Status, Stop
from ringplan.run.etcd import EtcdBoard
from ringplan.run.gateway import Access
from ringplan.run.hooks import Hooks
from ringplan.run.judge import judge
from ringplan.run.page import Page
from ringplan.run.runner import SIGNALS, Options, Runner, read_steps
from ringplan.run.sqlite import SqliteBoard


def read_bundle(path: str) -> str:
    """A bundle that is a ring, a plan and its certificate.

    `ringplan steps` reads more of it than its first words.
    """
    try:
        with open(path, encoding="ascii", newline="") as file:
            bundle = file.read()
    except (OSError, UnicodeError) as error:
        raise Stop(Status.FAULT, f"{path}: {error}") from error
    if re.findall(rf"^({'|'.join(texts.READERS)}) [0-9]+$", bundle, re.M) != [
        "ring",
        "plan",
        "cert",
    ]:
        raise Stop(Status.FAULT, f"{path}: a bundle to apply is a ring, a plan and its certificate")
    return bundle


def sum_of(bundle: str) -> str:
    return hashlib.sha256(bundle.encode()).hexdigest()


def boards_here() -> list[str]:
    """The boards of this folder that have names of their own plans."""
    return [str(path) for path in sorted(pathlib.Path().glob("ringplan-*.board"))]


def place(words: argparse.Namespace) -> str:
    """The board of a command that names none: the only one of this folder."""
    if words.board is None:
        found = boards_here()
        if len(found) != 1:
            raise Stop(
                Status.FAULT,
                f"--board must name one of these: {' '.join(found)}"
                if found
                else "there is no board in this folder",
            )
        words.board = found[0]
    return str(words.board)


def open_board(words: argparse.Namespace, is_new: bool = False, is_read: bool = False) -> Board:
    """The board of the command line."""
    name = place(words)
    if not name.startswith(("etcd:", "etcds:")):
        return SqliteBoard(name, is_new, is_read)
    try:
        password = (
            pathlib.Path(words.password_file).read_text().rstrip("\n")
            if words.password_file
            else ""
        )
        for path in (words.ca, words.cert, words.key):
            open(path or os.devnull).close()
    except (OSError, UnicodeError) as error:
        raise Stop(Status.FAULT, str(error)) from error
    access = Access((), False, words.ca, words.cert, words.key, words.user, password)
    return EtcdBoard(name, is_new, getattr(words, "lease", 0), access)


def make_board(words: argparse.Namespace, bundle: str) -> Board:
    """The board of a plan. One that is not there is made only if the operator wants that."""
    if words.board is None:
        known = [path for path in boards_here() if SqliteBoard(path, is_read=True).has(bundle)]
        words.board = known[0] if known else f"ringplan-{sum_of(bundle)[:12]}.board"
    try:
        return open_board(words)
    except NoBoard as missing:
        if not words.new and not is_wanted(words.board, bundle):
            raise Stop(
                Status.OTHER_PLAN,
                f"{missing}: `apply --new` makes it, and the plan begins from its start",
            ) from missing
    return open_board(words, is_new=True)


def is_wanted(board: str, bundle: str) -> bool:
    """Shows the plan at a terminal, and asks."""
    if not (sys.stdin.isatty() and sys.stderr.isatty()):
        return False
    print(
        *programs.ask("show", bundle).text.splitlines()[:5],
        f"There is no board {board}. Make it, and begin? [y/N] ",
        sep="\n",
        end="",
        file=sys.stderr,
        flush=True,
    )
    return sys.stdin.readline().strip().lower() in ("y", "yes")


def options_of(words: argparse.Namespace) -> Options:
    return Options(
        words.workers,
        words.give_up,
        words.pause,
        words.longest_pause,
        words.only_between,
        words.on_event,
    )


def apply(words: argparse.Namespace) -> Status:
    bundle = read_bundle(words.bundle)
    if words.plan_sum not in (None, sum_of(bundle)):
        raise Stop(
            Status.OTHER_PLAN,
            f"{words.bundle} has the sum {sum_of(bundle)}, and {words.plan_sum} was approved",
        )
    programs.find()
    steps, names = read_steps(bundle)
    Hooks(words.do, "").demand(sorted({step.do for step in steps}))
    # Before any thread begins: one that does not block a signal could take it.
    signal.pthread_sigmask(signal.SIG_BLOCK, SIGNALS)
    sizes = sizes_of(words.layout, bundle)
    board = make_board(words, bundle)
    board.begin(bundle, names)
    if sizes:
        board.set("sizes", sizes)
    hooks = Hooks(words.do, board.locks, dict(words.timeout))
    runner = Runner(board, hooks, options_of(words))
    try:
        if words.serve is not None:
            page = Page(open_board(words, is_read=True), runner, words.listen, words.serve)
            print(f"the page is at {page.address}", file=sys.stderr, flush=True)
        with shown(runner):
            status = runner.run()
    finally:
        board.end(not hooks.is_lost)
    print(f"{len(runner.done)} of {len(runner.steps)} steps are done, and the judge says yes")
    return status


def sizes_of(layout: str | None, bundle: str) -> dict[str, int]:
    """How much each partition stores, by a layout that `ringplan` reads."""
    if layout is None:
        return {}
    answer = programs.ask("show", bundle, f"--layout={layout}")
    if answer.status:
        raise Stop(Status.FAULT, answer.errors.rstrip())
    lines = pathlib.Path(layout).read_text(encoding="utf-8")
    return {
        partition: int(size)
        for partition, size in re.findall(r"^ *size +([0-9]+) +([0-9]+) *$", lines, re.M)
    }


def other_plan(marked: Record, options: Sequence[str]) -> tuple[Change, str]:
    """The plan by which `ringplan around` goes on, and what it prints on standard error."""
    answer = programs.ask("around", marked.text(), *options)
    if answer.status:
        raise Stop(
            Status.REFUSED if answer.status == 1 else Status.FAULT,
            f"the board is as it was:\n{answer.text}{answer.errors}".rstrip(),
        )
    *bundle, history = texts.read_texts(answer.text)
    if not isinstance(history, texts.History):
        raise Stop(Status.FAULT, "`ringplan around` printed no history")
    _, names = read_steps(text := texts.write_texts(bundle))
    return Change.of(text, names, history.entries), answer.errors


def around(words: argparse.Namespace) -> Status:
    programs.find()
    board = open_board(words)
    options = (
        [f"--dead={node}" for node in words.dead]
        + [f"--leave={slot}" for slot in words.leave]
        + ["--rest"] * words.rest
        + ["--back"] * words.back
    )
    options += [f"--layout={words.layout}"] if words.layout is not None else []
    with board.pausing():
        wait_for_steps(board)
        is_swapped = False
        while not is_swapped:
            known = board.record()
            marked = known._replace(entries=[*known.entries, *downs(known, words.dead)])
            change, errors = other_plan(marked, options)
            left = [
                state
                for state in board.states()[1]
                if state.is_begun and not state.is_done and state.name not in change.names
            ]
            is_swapped = board.swap(known, change)
    print(errors, end="", file=sys.stderr)
    for state in left:
        print(
            f"{state.name}: its hook has begun, and no step of the new plan does this",
            file=sys.stderr,
        )
    states = board.states()[1]
    print(
        f"{sum(state.is_done for state in states)} of {len(states)} steps of the new plan are done"
    )
    return Status.DONE


def downs(known: Record, dead: Sequence[str]) -> list[str]:
    """The entries that say in a history which nodes are dead.

    A node that is not a member, such as one that has not joined yet, or that is down already, has
    none.
    """
    (ring, plan), entries = texts.read_plan(known.bundle), set(known.entries)
    members = {node.name for node in ring.nodes if node.is_in}
    done = [step for number, step in enumerate(plan.steps) if f"do {number} = ok" in entries]
    members |= {str(step.node) for step in done if step.kind == "join"}
    members -= {str(step.node) for step in done if step.kind == "retire"}
    wanted = [f"down {node} = ok" for node in dict.fromkeys(dead) if node in members]
    return [entry for entry in wanted if entry not in entries]


def wait_for_steps(board: Board) -> None:
    """Waits until nobody does a step but copies.

    A plan that takes the place of another must know whether such a step is done.
    """
    hooks, said = Hooks("", board.locks), set[Name]()
    while busy := [
        state
        for state in board.states()[1]
        if not state.is_done and state.name.kind != "copy" and is_busy(board, hooks, state)
    ]:
        for state in busy:
            if state.name not in said:
                print(
                    f"waits until {state.number} {state.name} is done, or failed",
                    file=sys.stderr,
                    flush=True,
                )
        said.update(state.name for state in busy)
        time.sleep(LOOK)


def is_busy(board: Board, hooks: Hooks, state: State) -> bool:
    return bool(state.worker) and board.is_held() or hooks.is_running(state.name)


def status(words: argparse.Namespace) -> Status:
    board = open_board(words, is_read=True)
    (_, states), is_held = board.states(), board.is_held()
    done, now = sum(state.is_done for state in states), time.time()
    pace = report.pace_of(states, board.settings("sizes"), now)
    if words.format == "json":
        print(json.dumps(report.members(states, pace, is_held)))
    else:
        lines = [
            f"{done} of {len(states)} steps are done; {'a' if is_held else 'no'} runner works with"
            " the board"
        ]
        lines += [pace.words(now)] if done < len(states) and pace.sizes else []
        for state in report.begun(states):
            lines += [
                f"{state.number} {state.name}: {report.told(state, is_held)}",
                *(f"    | {line}" for line in state.tries.lines.splitlines()),
            ]
            lines += [f"    {report.advice(state)}"] if state.tries.is_given_up else []
        print(*lines, sep="\n")
    if any(state.tries.is_given_up and not state.is_done for state in states):
        return Status.GIVEN_UP
    return Status.STOPPED if done < len(states) and not is_held else Status.DONE


def history(words: argparse.Namespace) -> Status:
    record = open_board(words, is_read=True).record()
    print(record.text() if words.bundle else record.text().removeprefix(record.bundle), end="")
    return Status.DONE


def print_bundle(words: argparse.Namespace) -> Status:
    print(open_board(words, is_read=True).record().bundle, end="")
    return Status.DONE


def limit(words: argparse.Namespace) -> Status:
    limits = dict(words.node) | ({} if words.count is None else {"": words.count})
    open_board(words).set("limits", limits)
    return Status.DONE


def boards(words: argparse.Namespace) -> Status:
    for path in boards_here():
        board = SqliteBoard(path, is_read=True)
        _, states = board.states()
        print(
            f"{path}: {sum(state.is_done for state in states)} of {len(states)} steps are done;"
            f" {'a' if board.is_held() else 'no'} runner works with it"
        )
    return Status.DONE


def forget(words: argparse.Namespace) -> Status:
    open_board(words).remove()
    return Status.DONE


def retry(words: argparse.Namespace) -> Status:
    open_board(words).retry(words.step)
    return Status.DONE


def see_judge(words: argparse.Namespace) -> Status:
    answer = judge(open_board(words, is_read=True))
    print(answer.text, end="")
    return Status.DONE if answer.first() == "yes" else Status.REFUSED


def count(word: str) -> int:
    if not word.isdecimal() or not 1 <= int(word) < 1 << 31:
        raise argparse.ArgumentTypeError(f"{word} is not a number from 1")
    return int(word)


def seconds(word: str) -> float:
    found = float(word)
    if not 0 <= found < math.inf:
        raise argparse.ArgumentTypeError(f"{word} is not a number of seconds")
    return found


def most(word: str) -> tuple[str, int]:
    node, _, number = word.rpartition("=")
    if not texts.NAME.fullmatch(node):
        raise argparse.ArgumentTypeError(f"{word} is not a node, = and a number")
    return node, count(number)


def times(word: str) -> tuple[int, int]:
    found = re.fullmatch(r"([01]\d|2[0-3]):([0-5]\d)-([01]\d|2[0-3]):([0-5]\d)", word)
    if found is None:
        raise argparse.ArgumentTypeError(f"{word} is not two times of day, such as 22:00-06:00")
    first, first_minute, last, last_minute = map(int, found.groups())
    return 60 * first + first_minute, 60 * last + last_minute


def timeout(word: str) -> tuple[str, float]:
    kind, is_one, time = word.partition("=")
    if kind not in ("join", "mirror", "copy", "chunk", "switch", "drop", "retire") or not is_one:
        raise argparse.ArgumentTypeError(f"{word} is not a hook's name, = and seconds")
    return kind, seconds(time)


STATUSES = """Exit status: 0 all is done, 1 the plan is refused, no other is found, or the judge
says no, 2 the command line, a file or a program is at fault, 3 the board is of another plan, older
than it was, or not there, 4 the board is of this plan, with another ring or certificate, 5 another
runner works with the board, 6 steps were given up, 7 not all steps are done: a signal stopped the
runner, or none works"""


def add_board(command: argparse.ArgumentParser) -> None:
    """Which board, and how etcd is reached."""
    command.add_argument(
        "--board",
        metavar="BOARD",
        help=(
            "a file, or etcd://HOST:PORT/NAME, or etcds:// for TLS (default: ringplan-SUM.board, by"
            " the plan's sum)"
        ),
    )
    for option, what in (
        ("--ca", "the certificate of the authority of etcd's"),
        ("--cert", "the runner's certificate"),
        ("--key", "its key"),
    ):
        command.add_argument(option, metavar="FILE", help=what)
    command.add_argument("--user", metavar="NAME", help="the runner's user in etcd")
    command.add_argument("--password-file", metavar="FILE", help="the file of the user's password")


def add_lease(command: argparse.ArgumentParser) -> None:
    command.add_argument(
        "--lease",
        type=count,
        default=60,
        metavar="SECONDS",
        help="how long etcd waits for a dead runner (default: %(default)s)",
    )


def add_rest(command: argparse.ArgumentParser) -> None:
    add_lease(command)
    command.add_argument(
        "--now",
        dest="back",
        action="store_true",
        help="takes mirrors back whose copies have no chunk",
    )
    command.set_defaults(rest=True, leave=[], dead=[], layout=None)


def add_leave(command: argparse.ArgumentParser) -> None:
    add_lease(command)
    command.add_argument(
        "leave", nargs="+", metavar="P.I", help="a slot, by its partition and its index"
    )
    command.set_defaults(rest=False, back=False, dead=[], layout=None)


def add_around(command: argparse.ArgumentParser) -> None:
    add_lease(command)
    command.add_argument(
        "--dead",
        action="append",
        default=[],
        metavar="NODE",
        help="a node that is dead for good; give each of them",
    )
    command.add_argument(
        "--leave",
        action="append",
        default=[],
        metavar="P.I",
        help="a slot that stays with its owner, by its partition and its index",
    )
    command.add_argument(
        "--rest", action="store_true", help="ends the moves that have begun, and begins no others"
    )
    command.add_argument(
        "--back", action="store_true", help="takes mirrors back that cannot be filled"
    )
    command.add_argument(
        "--layout",
        metavar="FILE",
        help="what is known of nodes and partitions, as `ringplan around` reads it",
    )


def add_apply(command: argparse.ArgumentParser) -> None:
    add_lease(command)
    command.add_argument("bundle", help="a ring, a plan and its certificate")
    command.add_argument("--do", required=True, metavar="FOLDER", help="the folder of the hooks")
    command.add_argument(
        "--workers",
        type=count,
        default=1,
        metavar="K",
        help="how many steps may be done at once (default: %(default)s)",
    )
    command.add_argument(
        "--give-up",
        type=count,
        metavar="N",
        help="gives a step up that failed so often (default: never)",
    )
    command.add_argument(
        "--pause",
        type=seconds,
        default=1.0,
        metavar="SECONDS",
        help="the pause before a second try; it doubles (default: %(default)s)",
    )
    command.add_argument(
        "--longest-pause",
        type=seconds,
        default=300.0,
        metavar="SECONDS",
        help="the longest pause (default: %(default)s)",
    )
    add_watching(command)


def add_page(command: argparse.ArgumentParser) -> None:
    """The page that `apply` shows."""
    command.add_argument(
        "--serve", type=int, metavar="PORT", help="shows a page at this port; 0 takes a free one"
    )
    command.add_argument(
        "--listen",
        default="127.0.0.1",
        metavar="ADDRESS",
        help=(
            "the address of the page; elsewhere than on loopback it has a token (default:"
            " %(default)s)"
        ),
    )
    command.add_argument(
        "--layout",
        metavar="FILE",
        help="a layout with the sizes of partitions, for the time that is left",
    )


def add_watching(command: argparse.ArgumentParser) -> None:
    """What `apply` asks for before it begins, when it begins copies, and what it says."""
    command.add_argument(
        "--new", action="store_true", help="makes the board if it is not there, without asking"
    )
    command.add_argument(
        "--plan-sum", metavar="SHA256", help="refuses a bundle with another SHA-256 sum"
    )
    command.add_argument(
        "--only-between",
        type=times,
        metavar="HH:MM-HH:MM",
        help="lets copies begin only at this time of day",
    )
    command.add_argument(
        "--on-event",
        metavar="COMMAND",
        help=(
            "a program that gets a line of JSON if a step is given up, a node is dead, the judge"
            " says no, or all is done"
        ),
    )
    command.add_argument(
        "--timeout",
        type=timeout,
        action="append",
        default=[],
        metavar="KIND=SECONDS",
        help="ends a hook that takes longer, and counts a failure",
    )
    add_page(command)


def add_limit(command: argparse.ArgumentParser) -> None:
    command.add_argument("count", type=count, nargs="?", metavar="K", help="how many steps at once")
    command.add_argument(
        "--node",
        type=most,
        action="append",
        default=[],
        metavar="NODE=K",
        help="how many copies at once read or fill a node",
    )


def add_status(command: argparse.ArgumentParser) -> None:
    command.add_argument(
        "--format",
        choices=["text", "json"],
        default="text",
        help="how it is printed (default: %(default)s)",
    )


def add_retry(command: argparse.ArgumentParser) -> None:
    command.add_argument("step", type=int, help="the step's number")


def add_history(command: argparse.ArgumentParser) -> None:
    command.add_argument("--bundle", action="store_true", help="the bundle too")


Call = Callable[[argparse.Namespace], Status]
# Each command: what it calls, what its help says, and what adds its own options.
COMMANDS: dict[str, tuple[Call, str, Callable[[argparse.ArgumentParser], None] | None]] = {
    "apply": (apply, "goes through the plan of a bundle, or goes on where it was left", add_apply),
    "status": (status, "says which steps are done, and which wait", add_status),
    "history": (history, "prints the history so far", add_history),
    "retry": (retry, "has a step tried again that was given up, or that pauses", add_retry),
    "judge": (see_judge, "has the history so far judged", None),
    "bundle": (print_bundle, "prints the bundle that the board has now", None),
    "limit": (
        limit,
        "sets how many steps each runner may do at once, or without a number ends the limits",
        add_limit,
    ),
    "boards": (boards, "lists the boards of this folder", None),
    "forget": (forget, "deletes a board, with what it knows", None),
    "rest": (around, "ends the moves that have begun, and begins no others", add_rest),
    "leave": (around, "leaves a slot with its owner, and ends its move", add_leave),
    "around": (
        around,
        "puts another plan in the place of the board's: around nodes that died, at rest, or with"
        " slots left out",
        add_around,
    ),
}


def command_line() -> argparse.ArgumentParser:
    parser = argparse.ArgumentParser(
        prog="ringplan-run", description="Goes through an approved plan by hooks.", epilog=STATUSES
    )
    parser.add_argument("--version", action="version", version=f"ringplan-run {__version__}")
    commands = parser.add_subparsers(dest="command", required=True, metavar="COMMAND")
    for name, (call, what, add) in COMMANDS.items():
        command = commands.add_parser(name, help=what, description=what)
        command.set_defaults(call=call)
        if name != "boards":
            add_board(command)
        if add is not None:
            add(command)
    return parser


def main() -> None:
    parser = command_line()
    complete(parser)
    words = parser.parse_args()
    try:
        try:
            code = words.call(words)
        except (Stop, programs.NoProgram) as fault:
            print(f"ringplan-run: {fault}", file=sys.stderr)
            code = fault.status if isinstance(fault, Stop) else Status.FAULT
        except KeyboardInterrupt:
            code = Status.STOPPED
    except BrokenPipeError:
        code = Status.FAULT
    # Whoever read the output may be gone.
    for stream in (sys.stdout, sys.stderr):
        with contextlib.suppress(BrokenPipeError):
            stream.flush()
            continue
        os.dup2(os.open(os.devnull, os.O_WRONLY), stream.fileno())
        code = Status.FAULT
    sys.exit(int(code))


if __name__ == "__main__":
    main()
