"""What goes wrong at night: hooks that leave processes, runners that are stopped or killed, boards
that are linked, damaged or come back older.
"""

from __future__ import annotations

import contextlib
import json
import math
import os
import pathlib
import random
import resource
import shutil
import signal
import socket
import sqlite3
import subprocess
import sys
import time
from collections.abc import Iterator

import pytest
from bench import LONG, TOP, Bench, Server
from test_runner import claim_of, open_board, over_both, over_etcd
from test_runner import address, bench, own_server, server

from ringplan import programs
from ringplan.run.board import Claim, Name, Status, Tries
from ringplan.run.hooks import Hooks, NoLock

__all__ = ["address", "bench", "own_server", "server"]

# A hook that becomes a program with no descriptor but the three first ones, as `ssh` does.
CLOSER = """#!/bin/sh
exec {python} -c '
import os, sys
os.closerange(3, 1 << 16)
os.execv(sys.argv[1], sys.argv[1:])' {hook}
"""
# A hook that has another process do the step, in a session of its own and with no other descriptor,
# and waits for it.
LEAVER = """#!{python}
import subprocess, sys
sys.exit(subprocess.run(["{hook}"], start_new_session=True).returncode)
"""
NAMES = [Name("join", -1, -1, "d", 0), Name("mirror", 0, 1, "d", 0)]


def hide(bench: Bench, form: str, kind: str = "join") -> None:
    """Lets a hook be done by way of another program."""
    path = bench.folder / "hooks" / kind
    real = bench.folder / f"real-{kind}"
    path.rename(real)
    path.write_text(form.format(python=sys.executable, hook=real))
    path.chmod(0o755)


def gone(process: int) -> bool:
    return not pathlib.Path(f"/proc/{process}").exists()


@pytest.mark.parametrize("form", ["", CLOSER, LEAVER])
def test_a_step_waits_for_all_processes_of_its_hook(bench: Bench, form: str) -> None:
    if form:
        hide(bench, form)
    bench.hold(0)
    process = bench.start("apply")
    bench.wait_for("begin", 0)
    hooks = bench.hooks_of(process)
    process.kill()
    for hook in hooks if form == LEAVER else []:
        os.kill(hook, signal.SIGKILL)
    process.wait()
    assert "a runner that ended was doing it" in bench.run("status")[1]
    process = bench.start("apply")
    assert (
        process.stderr is not None
        and process.stderr.readline() == "0 join d: a process of an earlier hook still does it\n"
    )
    bench.let_go(0)
    process.communicate(timeout=LONG)
    assert process.returncode == Status.DONE
    assert bench.steps("twice") == []
    assert [
        line.get("again") for word, line in bench.log() if word == "begin" and line["step"] == 0
    ] == [None, True]


@over_both
def test_a_hook_that_failed_is_over_once_its_processes_are(bench: Bench) -> None:
    hide(bench, LEAVER)
    bench.hold(0)
    process = bench.start("apply")
    bench.wait_for("begin", 0)
    (hook,) = bench.hooks_of(process)
    os.kill(hook, signal.SIGKILL)
    assert (
        process.stderr is not None
        and process.stderr.readline()
        == "0 join d: its hook has failed, and is over once no process of it is left\n"
    )
    time.sleep(1.0)
    assert bench.steps("begin") == [0]
    bench.let_go(0)
    assert (
        process.stderr.readline()
        == "0 join d: failed (killed by signal 9), 1 failure, again in 0.05 s\n"
    )
    process.communicate(timeout=LONG)
    assert process.returncode == Status.DONE and bench.steps("twice") == []


def test_a_lock_outlives_a_runner_that_died_before_it_read_an_answer(
    tmp_path: pathlib.Path,
) -> None:
    hook = tmp_path / "join"
    hook.write_text(
        f"#!{sys.executable}\nimport subprocess, sys\nsubprocess.Popen(['sleep', '3'],"
        " start_new_session=True)\nsys.exit(1)\n"
    )
    hook.chmod(0o755)
    hooks = Hooks(str(tmp_path), str(tmp_path / "locks"))
    one = hooks.hold(NAMES[0])
    assert one is not None
    one.send(
        [one.held],
        run=str(hook),
        name="join",
        input="{}\n",
        until=math.inf,
        limit=math.inf,
        grace=1.0,
    )
    assert one.answered.poll(1000 * LONG)
    # With an answer that was not read the socket ends by an error.
    os.close(one.held)
    one.close()
    time.sleep(1.0)
    assert hooks.is_running(NAMES[0]) and hooks.hold(NAMES[0]) is None
    one.process.wait(timeout=LONG)
    assert not hooks.is_running(NAMES[0])


def test_a_second_signal_ends_processes_in_other_sessions(bench: Bench) -> None:
    hide(bench, LEAVER)
    bench.hooks(1000.0, "copy")
    hide(bench, LEAVER, "copy")
    process = bench.start("apply")
    bench.wait_for("begin", 2)
    (hook,) = bench.hooks_of(process)
    (child,) = bench.children(hook)
    process.send_signal(signal.SIGINT)
    process.send_signal(signal.SIGTERM)
    assert process.wait(timeout=LONG) == Status.STOPPED
    assert gone(hook) and gone(child)
    assert (
        process.stderr is not None
        and "stops: lets 1 hooks end, and a second signal ends them\n" in process.stderr.read()
    )


@over_etcd
@pytest.mark.parametrize("how", [signal.SIGSTOP, signal.SIGKILL])
def test_a_hook_ends_before_the_lease_of_a_runner_that_is_stopped_or_dead(
    bench: Bench, how: signal.Signals
) -> None:
    hide(bench, LEAVER)
    bench.hold(0)
    process = bench.start("apply", machine="one")
    bench.wait_for("begin", 0)
    (hook,) = bench.hooks_of(process)
    (child,) = bench.children(hook)
    process.send_signal(how)
    other = bench.start("apply", machine="two")
    bench.wait_for("begin", 0, 2)
    assert gone(hook) and gone(child)
    bench.let_go(0)
    outs = other.communicate(timeout=LONG)
    assert other.returncode == Status.DONE, outs
    process.send_signal(signal.SIGCONT)
    out, err = process.communicate(timeout=LONG)
    assert how == signal.SIGKILL or process.returncode == Status.DONE, (out, err)
    assert bench.steps("twice") == [] and set(bench.steps("end")) == set(range(18))
    first, second = [line for word, line in bench.log() if word == "begin" and line["step"] == 0]
    assert int(str(first["token"])) < int(str(second["token"])) and second["again"] is True
    assert bench.run("judge")[0] == 0


@over_both
def test_tokens_grow_from_claim_to_claim(bench: Bench) -> None:
    bench.answer(2, 1)
    assert bench.run("apply", "--give-up", "3")[0] == Status.GIVEN_UP
    bench.answer(2, 0)
    assert bench.run("around", "--leave", "3.1")[0] in (Status.DONE, Status.REFUSED)
    bench.run("retry", "2")
    assert bench.run("apply")[0] == Status.DONE
    tokens = [int(str(line["token"])) for word, line in bench.log() if word == "begin"]
    assert tokens == sorted(set(tokens)) and len(tokens) > 12


def test_a_supervisor_that_is_killed_ends_the_runner(bench: Bench) -> None:
    bench.hold(0)
    process = bench.start("apply")
    bench.wait_for("begin", 0)
    (one,) = bench.supervisors(process)
    os.kill(one, signal.SIGKILL)
    _, err = process.communicate(timeout=LONG)
    assert (process.returncode, err) == (
        Status.FAULT,
        (
            "ringplan-run: the supervisor of a hook was killed, so it is not known whether the hook"
            " runs\n"
        ),
    )
    process = bench.start("apply")
    assert (
        process.stderr is not None
        and process.stderr.readline() == "0 join d: a process of an earlier hook still does it\n"
    )
    bench.let_go(0)
    process.communicate(timeout=LONG)
    assert process.returncode == Status.DONE and bench.steps("twice") == []


@over_both
def test_a_storm_of_signals(bench: Bench) -> None:
    bench.hooks(1000.0, "join")
    process = bench.start("apply", "--workers", "4")
    bench.wait_for("begin", 0)
    for _ in range(3000):
        with contextlib.suppress(ProcessLookupError):
            os.kill(process.pid, random.choice([signal.SIGINT, signal.SIGTERM]))
    _, err = process.communicate(timeout=LONG)
    assert (
        process.returncode == Status.STOPPED and "Traceback" not in err and "Error" not in err
    ), err
    bench.hooks(0.0, "join")
    assert bench.run("apply")[0] == Status.DONE


@over_both
def test_a_hook_that_takes_too_long_is_a_failure(bench: Bench) -> None:
    hide(bench, LEAVER, "copy")
    bench.hold(2)
    process = bench.start("apply", "--timeout", "copy=3", "--give-up", "1", "--workers", "2")
    bench.wait_for("begin", 2)
    (child,) = [child for hook in bench.hooks_of(process) for child in bench.children(hook)] or [0]
    assert '"worker": "worker' in bench.run("status", "--format", "json")[1]
    _, err = process.communicate(timeout=LONG)
    assert (
        process.returncode == Status.GIVEN_UP
        and "2 copy 0 1 d: failed (not after 3 s), 1 failure, given up\n" in err
    )
    assert not child or gone(child)
    code, out, _ = bench.run("status")
    assert (
        code == Status.GIVEN_UP
        and "2 copy 0 1 d: given up after 1 failure (not after 3 s)\n" in out
    )


@over_both
def test_status_says_why(bench: Bench) -> None:
    bench.answer(2, 12)
    assert bench.run("apply", "--give-up", "1")[0] == Status.GIVEN_UP
    code, out, _ = bench.run("status")
    assert (
        code == Status.GIVEN_UP
        and "2 copy 0 1 d: given up after 1 failure (ended with 12)\n    | copy 2 is not done\n"
        in out
    )
    assert bench.run("retry", "2")[0] == Status.DONE and bench.run("status")[0] == Status.STOPPED
    found = json.loads(bench.run("status", "--format", "json")[1])
    assert (found["steps"], found["is_held"]) == (18, False) and 0 < found["done"] < 18


# Boards.
def test_a_board_by_two_names(bench: Bench, tmp_path: pathlib.Path) -> None:
    bench.hold(0)
    process = bench.start("apply")
    bench.wait_for("begin", 0)
    real, link, hard = bench.board, tmp_path / "link", tmp_path / "hard"
    link.symlink_to(real)
    bench.board = str(link)
    assert bench.run("apply")[::2] == (
        Status.OTHER_RUNNER,
        f"ringplan-run: another runner works with the board {real}\n",
    )
    hard.hardlink_to(real)
    for bench.board in (str(hard), real):
        expected = (
            f"ringplan-run: the board {bench.board} has 2 hard links: by another name it would have"
            " other locks\n"
        )
        assert bench.run("apply")[::2] == (Status.FAULT, expected)
    hard.unlink()
    bench.let_go(0)
    assert process.wait(timeout=LONG) == Status.DONE and bench.steps("twice") == []


@pytest.mark.parametrize("what", ["removed", "replaced", "older"])
def test_a_board_that_changes_under_its_runner(bench: Bench, what: str) -> None:
    board = pathlib.Path(bench.board)
    bench.hold(2)
    process = bench.start("apply")
    bench.wait_for("begin", 2)
    if what == "removed":
        board.unlink()
    elif what == "replaced":
        copy = bench.folder / "copy"
        copy.write_bytes(board.read_bytes())
        copy.replace(board)
    else:
        # As a tool does that restores in place: the file is the same one.
        with contextlib.closing(sqlite3.connect(board)) as it:
            it.execute("update board set token = token - 1")
            it.commit()
    bench.let_go(2)
    _, err = process.communicate(timeout=LONG)
    assert err.startswith(f"ringplan-run: the board {board} ") and len(err.splitlines()) == 1, err
    assert process.returncode == (Status.OTHER_PLAN if what == "older" else Status.FAULT)
    assert set(bench.steps("begin")) == {0, 1, 2}


def test_damaged_boards_are_told_in_one_line(bench: Bench) -> None:
    assert bench.run("apply")[0] == Status.DONE
    board, draw = pathlib.Path(bench.board), random.Random(1)
    known = board.read_bytes()
    for _ in range(12):
        place = draw.randrange(100, len(known))
        board.write_bytes(
            known[:place] + draw.randbytes(draw.randrange(1, 5000)) + known[place + 5000 :]
        )
        for words in (
            ["status"],
            ["history"],
            ["judge"],
            ["apply"],
            ["retry", "3"],
            ["around", "--rest"],
        ):
            code, out, err = bench.run(*words)
            assert "Traceback" not in err and len(err.splitlines()) < 3, err
            assert code != Status.FAULT or not out, (words, out)


def test_a_board_that_was_copied_back(bench: Bench) -> None:
    bench.answer(4, 1)
    assert bench.run("apply", "--give-up", "1")[0] == Status.GIVEN_UP
    kept = pathlib.Path(bench.board).read_bytes()
    bench.answer(4, 0)
    assert bench.run("retry", "4")[0] == Status.DONE
    assert bench.run("apply")[0] == Status.DONE
    begun = bench.log()
    for is_there in (True, False):
        for ending in ("", "-wal", "-shm"):
            pathlib.Path(bench.board + ending).unlink(missing_ok=True)
        if is_there:
            pathlib.Path(bench.board).write_bytes(kept)
        code, _, err = bench.run("apply")
        expected = (
            f"ringplan-run: the board {bench.board} is older than {bench.board}.hooks/board knows"
            " it, or was made again: its plan must not begin again\n"
        )
        assert (code, err) == (Status.OTHER_PLAN, expected)
    assert bench.log() == begun


@pytest.mark.parametrize("is_empty", [False, True])
def test_an_etcd_that_comes_back_older_or_empty(
    own_server: Server, tmp_path: pathlib.Path, is_empty: bool
) -> None:
    bench = Bench(tmp_path, own_server.address("plan"))
    bench.lease = "100"
    bench.hold(2)
    process = bench.start("apply", machine="one")
    bench.wait_for("begin", 2)
    kept = tmp_path / "kept"
    own_server.kill()
    if not is_empty:
        shutil.copytree(own_server.folder / "data", kept)
    own_server.start()
    bench.hold(8)
    bench.let_go(2)
    bench.wait_for("begin", 8)
    own_server.kill()
    shutil.rmtree(own_server.folder / "data")
    if not is_empty:
        kept.rename(own_server.folder / "data")
    own_server.start()
    bench.let_go(8)
    _, err = process.communicate(timeout=LONG)
    assert process.returncode == Status.OTHER_PLAN and err.splitlines()[-1].startswith(
        "ringplan-run: etcd at 127.0.0.1:"
    ), err
    begun = bench.steps("begin")
    again = bench.start("apply", machine="one")
    _, err = again.communicate(timeout=LONG)
    assert (
        again.returncode == Status.OTHER_PLAN
        and "must not begin again" in err
        and len(err.splitlines()) == 1
    ), err
    assert bench.steps("begin") == begun


def test_what_is_not_a_board_is_not_changed(bench: Bench, tmp_path: pathlib.Path) -> None:
    other = tmp_path / "other"
    with contextlib.closing(sqlite3.connect(other)) as it:
        it.execute("create table steps (bundle)")
        it.commit()
    known = other.read_bytes()
    os.mkfifo(tmp_path / "pipe")
    (tmp_path / "text").write_text("no board" * 20)
    for name in ("other", "text", "pipe", "hooks"):
        bench.board = str(tmp_path / name)
        for words in (
            ["apply"],
            ["status"],
            ["history"],
            ["judge"],
            ["retry", "0"],
            ["around", "--rest"],
        ):
            assert bench.run(*words)[::2] == (
                Status.FAULT,
                f"ringplan-run: {bench.board} is not a board of ringplan-run\n",
            ), words
    assert other.read_bytes() == known and sorted(
        path.name for path in tmp_path.iterdir() if path.name.startswith("other")
    ) == ["other"]


def test_bad_words_are_told_in_one_line(bench: Bench) -> None:
    assert bench.run("apply")[0] == Status.DONE
    for words in (
        ["--pause", "nan"],
        ["--pause", "-5"],
        ["--longest-pause", "inf"],
        ["--longest-pause", "nan"],
        ["--workers", "0"],
        ["--workers", "9" * 5000],
    ):
        code, _, err = bench.run("apply", *words)
        assert (
            code == Status.FAULT
            and "Traceback" not in err
            and err.splitlines()[-1].startswith("ringplan-run apply: error: ")
        ), err
    for number in ("-1", "9" * 20, "9" * 5000, "x", "1.5"):
        code, _, err = bench.run("retry", number)
        assert code == Status.FAULT and "Traceback" not in err and err, err


def as_nobody(bench: Bench, *words: str) -> tuple[int, str, str]:
    """Runs a command as a user who may do nothing special."""
    place = {**os.environ, "PYTHONPATH": str(TOP / "python"), "HOME": "/"}
    ran = subprocess.run(
        bench.command(*words),
        env=place,
        cwd=bench.folder,
        capture_output=True,
        text=True,
        user="nobody",
        group="nogroup",
        extra_groups=[],
    )
    return ran.returncode, ran.stdout, ran.stderr


@pytest.fixture
def open_folder(bench: Bench) -> Iterator[Bench]:
    """A bench that another user may look into."""
    if os.geteuid() != 0:
        pytest.skip("another user takes root")
    folder = pathlib.Path("/tmp") / f"ringplan-night-{os.getpid()}"
    shutil.copytree(bench.folder, folder)
    folder.chmod(0o755)
    it = Bench(folder, str(folder / "board"))
    yield it
    shutil.rmtree(folder)


def test_another_user_may_read_a_board_and_no_more(open_folder: Bench) -> None:
    bench = open_folder
    assert bench.run("apply")[0] == Status.DONE
    for words in (["status"], ["history"], ["judge"]):
        assert as_nobody(bench, *words) == bench.run(*words), words
    for words in (["apply"], ["retry", "0"], ["around", "--rest"]):
        code, _, err = as_nobody(bench, *words)
        assert (
            code == Status.FAULT
            and err.startswith("ringplan-run: the ")
            and len(err.splitlines()) == 1
        ), err
    pathlib.Path(bench.board).chmod(0o600)
    assert as_nobody(bench, "status")[::2] == (
        Status.FAULT,
        f"ringplan-run: the board {bench.board} cannot be read: Permission denied\n",
    )


# Pauses, locks, the judge.
def test_a_pause_is_over_if_the_clock_went_back(
    address: str, monkeypatch: pytest.MonkeyPatch
) -> None:
    board = open_board(address)
    board.begin("plan", NAMES)
    claim = claim_of(board, "w", NAMES)
    assert isinstance(claim, Claim)
    board.give_back(claim, Tries(1).later(20.0))
    found = claim_of(board, "w", NAMES[:1])
    assert isinstance(found, float) and 10 < found <= 20
    now = time.time
    monkeypatch.setattr(time, "time", lambda: now() - 3600)
    assert isinstance(claim_of(board, "w", NAMES[:1]), Claim)
    board.end()


def test_a_lock_without_a_descriptor_is_a_failed_try(bench: Bench) -> None:
    hooks, handles = Hooks("hooks", str(bench.folder / "locks")), list[int]()
    limit = resource.getrlimit(resource.RLIMIT_NOFILE)
    resource.setrlimit(resource.RLIMIT_NOFILE, (len(os.listdir("/proc/self/fd")) + 20, limit[1]))
    try:
        with contextlib.suppress(OSError):
            while True:
                handles.append(os.open(os.devnull, os.O_RDONLY))
        with pytest.raises(NoLock, match="Too many open files"):
            hooks.hold(NAMES[0])
    finally:
        resource.setrlimit(resource.RLIMIT_NOFILE, limit)
        for handle in handles:
            os.close(handle)
    one = hooks.hold(NAMES[0])
    assert one is not None
    hooks.free(one)
    hooks.close()


def test_idle_connections_to_the_page_cost_nothing(bench: Bench) -> None:
    bench.prefix = ["prlimit", "--nofile=80"]
    bench.hold(0)
    process = bench.start("apply", "--serve", "0")
    assert process.stderr is not None
    port = int(process.stderr.readline().rsplit(":", 1)[1].strip("/\n"))
    with contextlib.ExitStack() as stack:
        for _ in range(300):
            stack.enter_context(
                contextlib.closing(socket.create_connection(("127.0.0.1", port), timeout=LONG))
            )
        bench.let_go(0)
        _, err = process.communicate(timeout=LONG)
        assert (process.returncode, err) == (Status.DONE, "")


@pytest.mark.parametrize(
    ("program", "words"),
    [
        ("echo no 60; exit 3", "the judge cannot answer: no 60 (out of memory)"),
        ("exit 0", "judge watch ended with 0, without an answer"),
    ],
)
def test_a_judge_that_cannot_answer_is_a_fault(
    bench: Bench, program: str, words: str, monkeypatch: pytest.MonkeyPatch
) -> None:
    judge = bench.folder / "judge"
    judge.write_text(f'#!/bin/sh\n[ "$1" = watch ] || exec {programs.find()} "$@"\n{program}\n')
    judge.chmod(0o755)
    monkeypatch.setenv("ringplan", str(judge))
    code, _, err = bench.run("apply")
    assert code == Status.FAULT and err.endswith(f"{words}\n")


def test_without_a_reader_the_runner_stops(bench: Bench) -> None:
    bench.answer(0, 1)
    process = bench.start("apply")
    assert process.stderr is not None
    process.stderr.close()
    assert process.wait(timeout=LONG) == Status.FAULT
    bench.answer(0, 0)
    assert bench.run("apply")[0] == Status.DONE


def test_hooks_that_print_much_keep_their_lines_apart(bench: Bench) -> None:
    path = bench.folder / "hooks/copy"
    path.write_text("#!/bin/sh\nseq 100000\nprintf '\\377%05000d' 7\nprintf 'last'\nexit 3\n")
    code, _, err = bench.run("apply", "--give-up", "1", "--workers", "4")
    assert code == Status.GIVEN_UP
    copies = [
        line.split(" | ", 1)[1] for line in err.splitlines() if line.startswith("2 copy 0 1 d | ")
    ]
    assert copies[:100000] == [*map(str, range(1, 100001))] and "".join(copies[100000:]).endswith(
        "00007last"
    )
    assert "2 copy 0 1 d: failed (ended with 3), 1 failure, given up\n" in err
