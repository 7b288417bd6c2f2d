"""The runner over real processes: its hooks are scripts that write down what they do, and it is
killed by signal 9 at random moments.
"""

from __future__ import annotations

import concurrent.futures
import contextlib
import functools
import itertools
import json
import os
import pathlib
import pty
import random
import re
import signal
import subprocess
import time
from collections import Counter
from collections.abc import Callable, Iterator, Sequence

import pytest
from bench import LONG, REPLACE, TOP, Bench, Server

from ringplan import programs, texts
from ringplan.run import etcd, gateway, runner
from ringplan.run.board import (
    LOOK,
    Board,
    Claim,
    ClaimEnded,
    Name,
    Note,
    Status,
    Stop,
    Tries,
    names_of,
)
from ringplan.run.etcd import EtcdBoard
from ringplan.run.hooks import Hooks
from ringplan.run.sqlite import SqliteBoard
from ringplan.run.supervisor import now


@pytest.fixture(scope="module")
def server(tmp_path_factory: pytest.TempPathFactory) -> Iterator[Server]:
    it = Server(tmp_path_factory.mktemp("etcd"))
    yield it
    it.kill()


@pytest.fixture
def address(
    request: pytest.FixtureRequest, tmp_path: pathlib.Path, monkeypatch: pytest.MonkeyPatch
) -> str:
    """A board that is not there yet: a file, or a name in etcd."""
    # Beside a board in etcd the runner's folder has the locks of hooks.
    monkeypatch.chdir(tmp_path)
    if getattr(request, "param", "file") == "file":
        return str(tmp_path / "board")
    server: Server = request.getfixturevalue("server")
    return server.address(tmp_path.name)


@pytest.fixture
def bench(address: str, tmp_path: pathlib.Path) -> Bench:
    try:
        programs.find()
    except programs.NoProgram as error:
        pytest.skip(str(error))
    return Bench(tmp_path, address)


def open_board(address: str) -> Board:
    if address.startswith("etcd:"):
        return EtcdBoard(address, is_new=True, lease=30)
    return SqliteBoard(address, is_new=True)


def claim_of(board: Board, worker: str, names: Sequence[Name]) -> Claim | float:
    """Claims by the plan that the board has."""
    claims = board.claim(worker, board.record().edition, names)
    assert claims is not None
    return claims[0] if isinstance(claims, list) else claims


def wait_until(is_so: Callable[[], bool]) -> None:
    until = time.monotonic() + LONG
    while not is_so():
        assert time.monotonic() < until
        time.sleep(0.05)


def at_random(seed: int) -> Callable[[], str]:
    """A third of all requests to etcd have no answer, and half of these have happened."""
    draw = random.Random(seed)
    return lambda: draw.choice(["before", "after", "", "", "", ""])


def lose_answers(monkeypatch: pytest.MonkeyPatch, choose: Callable[[], str]) -> Counter[str]:
    """Lets requests to etcd have no answer: `before` they happen, or `after` it. Counts them."""
    ask, lost = gateway.Etcd.ask, Counter[str]()

    def lossy(
        self: gateway.Etcd, path: str, body: gateway.Json, timeout: float = 5.0
    ) -> gateway.Json:
        what = choose() if self.patience else ""
        reply = {} if what == "before" else ask(self, path, body, timeout)
        if what:
            lost[what] += 1
            raise ConnectionResetError("an answer is lost")
        return reply

    monkeypatch.setattr(gateway.Etcd, "ask", lossy)
    monkeypatch.setattr(gateway, "PAUSE", 0.001)
    return lost


over_both = pytest.mark.parametrize("address", ["file", "etcd"], indirect=True)
over_etcd = pytest.mark.parametrize("address", ["etcd"], indirect=True)


@over_both
def test_a_plan_is_done_in_its_order(bench: Bench) -> None:
    code, out, _ = bench.run("apply", "--workers", "3")
    steps = texts.read_steps(programs.ask("steps", REPLACE).text)
    assert code == Status.DONE
    assert (
        out.splitlines()[-1]
        == f"{len(steps)} of {len(steps)} steps are done, and the judge says yes"
    )
    ended = set[object]()
    for word, line in bench.log():
        if word == "begin":
            assert ended.issuperset(steps[int(str(line["step"]))].after)
            assert line.pop("token")
            assert (
                json.dumps(line, separators=(",", ":"), sort_keys=True)
                == steps[int(str(line["step"]))].line()
            )
        ended |= {line["step"]} if word == "end" else set()
    assert sorted(map(str, ended)) == sorted(str(step.step) for step in steps)
    assert bench.run("judge")[:2] == (
        0,
        programs.ask("replay", REPLACE + bench.run("history")[1]).text,
    )
    assert (
        bench.run("status")[1]
        == f"{len(steps)} of {len(steps)} steps are done; no runner works with the board\n"
    )
    assert bench.run("apply")[0] == Status.DONE


def test_a_terminal_gets_a_bar(bench: Bench) -> None:
    pytest.importorskip("rich")
    bench.hooks(0.05)
    for is_both in (False, True):
        mine, its = pty.openpty()
        place = {**os.environ, "PYTHONPATH": str(TOP / "python"), "TERM": "xterm", "COLUMNS": "100"}
        process = subprocess.Popen(
            bench.command("apply"),
            stdout=its if is_both else subprocess.PIPE,
            stderr=its,
            env=place,
            cwd=bench.folder,
        )
        os.close(its)
        shown = b""
        with contextlib.suppress(OSError):
            while data := os.read(mine, 1 << 16):
                shown += data
        os.close(mine)
        out = shown if is_both else process.communicate()[0]
        assert process.wait(timeout=LONG) == Status.DONE
        assert (
            "\u2501".encode() in shown
            and b"18/18" in shown
            and b"18 of 18 steps are done, and the judge says yes" in out
        )
        assert is_both or re.search(b"[1-9]/18", shown) and out.count(b"done ") == 18
        bench.board += "2"


@over_both
def test_a_runner_that_is_killed_goes_on(bench: Bench) -> None:
    draw = random.Random(1)
    bench.hooks(0.15)
    for _ in range(10):
        process = bench.start("apply", "--workers", "2")
        time.sleep(0.25 + 0.25 * draw.random())
        process.kill()
        process.communicate()
    code, _, err = bench.run("apply", "--workers", "2")
    assert code == Status.DONE, err
    assert not bench.steps("twice")
    assert set(bench.steps("end")) == set(range(18))
    assert {
        line["step"] for word, line in bench.log() if word == "begin" and "again" in line
    } <= set(bench.steps("end"))
    assert bench.run("judge")[0] == 0


@over_both
def test_a_failing_hook_holds_back_what_waits_for_it_alone(bench: Bench) -> None:
    steps = texts.read_steps(programs.ask("steps", REPLACE).text)
    held = {3}
    for step in steps:
        held |= {step.step} if held.intersection(step.after) else set()
    bench.answer(3, 1)
    code, out, err = bench.run("apply", "--give-up", "3", "--workers", "2")
    assert code == Status.GIVEN_UP
    assert bench.steps("fail") == [3, 3, 3]
    assert sorted(map(str, bench.steps("end"))) == sorted(
        str(step.step) for step in steps if step.step not in held
    )
    assert (
        err.count("switch 3 is not done\n") == 3
        and "switch 0 1: failed (ended with 1), 3 failures, given up" in err
    )
    assert "3 switch 0 1: given up after 3 failures" in bench.run("status")[1]
    assert out.splitlines()[-1].endswith("the judge says yes")
    bench.answer(3, 0)
    assert bench.run("apply")[0] == Status.GIVEN_UP
    assert bench.run("retry", "3")[0] == 0
    assert bench.run("apply")[0] == Status.DONE


@over_both
def test_a_step_that_cannot_be_done_now_is_not_given_up(bench: Bench) -> None:
    bench.answer(2, 75)
    process = bench.start("apply", "--give-up", "1", "--workers", "2")
    bench.wait_for("fail", 2)
    bench.answer(2, 0)
    assert process.wait(timeout=LONG) == Status.DONE
    history = bench.run("history")[1]
    assert "open 2 = ok\nabort 2 = ok\n" in history.replace("do 5 = ok\n", "")


@over_both
def test_a_pausing_step_is_tried_again_on_demand(bench: Bench) -> None:
    bench.answer(0, 1)
    process = bench.start("apply", "--pause", "600", "--longest-pause", "600")
    bench.wait_for("fail", 0)
    bench.answer(0, 0)
    wait_until(lambda: "0 join d: 1 failure" in bench.run("status")[1])
    assert bench.run("retry", "0")[0] == 0
    assert process.wait(timeout=LONG) == Status.DONE


@over_both
def test_the_first_signal_lets_hooks_end(bench: Bench) -> None:
    bench.hold(0)
    process = bench.start("apply")
    bench.wait_for("begin", 0)
    process.send_signal(signal.SIGTERM)
    # The hook runs on meanwhile.
    time.sleep(1.0)
    bench.let_go(0)
    assert process.wait(timeout=LONG) == Status.STOPPED
    assert bench.steps("end") == [0]
    assert bench.run("history")[1] == "history 1\ndo 0 = ok\nend\n"


@over_both
def test_the_second_signal_ends_hooks(bench: Bench) -> None:
    bench.hooks(60.0, "copy")
    process = bench.start("apply")
    bench.wait_for("begin", 2)
    # Two of one kind might arrive as one.
    process.send_signal(signal.SIGINT)
    process.send_signal(signal.SIGTERM)
    assert process.wait(timeout=LONG) == Status.STOPPED
    assert bench.run("history")[1].endswith("open 2 = ok\nabort 2 = ok\nend\n")
    bench.hooks(0.0, "copy")
    assert bench.run("apply")[0] == Status.DONE


@over_both
def test_chunks_can_be_given_one_by_one(bench: Bench) -> None:
    (bench.folder / "hooks/copy").rename(bench.folder / "hooks/chunk")
    assert bench.run("apply")[0] == Status.DONE
    assert [
        line["chunk"] for word, line in bench.log() if word == "end" and line["step"] == 2
    ] == list(range(16))


def test_a_second_runner_is_refused(bench: Bench) -> None:
    bench.hold(0)
    process = bench.start("apply")
    bench.wait_for("begin", 0)
    code, _, err = bench.run("apply")
    assert (code, err) == (
        Status.OTHER_RUNNER,
        f"ringplan-run: another runner works with the board {bench.board}\n",
    )
    assert "a runner works with the board" in bench.run("status")[1]
    process.kill()
    bench.let_go(0)
    process.communicate()


@over_both
def test_another_plan_and_a_changed_bundle_are_refused(bench: Bench) -> None:
    assert bench.run("apply")[0] == Status.DONE
    bench.bundle.write_text(REPLACE.replace("node a 4 in", "node a 5 in"))
    code, _, err = bench.run("apply")
    assert (code, err) == (
        Status.CHANGED_BUNDLE,
        (
            f"ringplan-run: the board {bench.board} is of this plan, with another ring or"
            " certificate\n"
        ),
    )
    bench.bundle.write_text((TOP / "examples/planned_grow.bundle").read_text())
    code, _, err = bench.run("apply")
    assert (code, err) == (
        Status.OTHER_PLAN,
        f"ringplan-run: the board {bench.board} is of another plan\n",
    )


@over_both
def test_faults_have_their_statuses(bench: Bench) -> None:
    assert bench.run("status")[::2] == (
        Status.FAULT,
        f"ringplan-run: there is no board {bench.board}\n",
    )
    (bench.folder / "hooks/drop").unlink()
    assert bench.run("apply")[::2] == (
        Status.FAULT,
        f"ringplan-run: no executable in {bench.folder}/hooks for: drop\n",
    )
    bench.bundle.write_text((TOP / "examples/switch_without_copy.bundle").read_text())
    code, _, err = bench.run("apply")
    assert code == Status.REFUSED
    assert err.startswith("ringplan-run: the plan is refused:\nno 21 2\n")
    bench.bundle.write_text((TOP / "examples/replay_a_move.bundle").read_text())
    assert bench.run("apply")[0] == Status.FAULT


def test_what_is_no_board_is_a_fault(bench: Bench) -> None:
    pathlib.Path(bench.board).write_text("no board")
    assert bench.run("status")[0] == Status.FAULT
    for address in (
        "etcd://localhost/plan",
        "etcd://localhost:0/plan",
        "etcd://localhost:2379/",
        "etcd://localhost:2379/a/b",
        "etcd:localhost:2379/a",
        "etcd://a:1,b/c",
    ):
        bench.board = address
        for words in (["status"], ["apply"]):
            code, _, err = bench.run(*words)
            assert code == Status.FAULT and err.startswith(
                f"ringplan-run: {address} is not an address etcd://HOST:PORT,../NAME; "
            ), err


def change_entry(bench: Bench, entry: int, changed: str, monkeypatch: pytest.MonkeyPatch) -> None:
    """Lets the judge read another entry at a place of the history."""
    judge = bench.folder / "judge"
    real = programs.find()
    judge.write_text(
        f'#!/bin/sh\n[ "$1" = watch ] || exec {real} "$@"\nsed -u \'{entry + 2}s/.*/{changed}/\' |'
        f' {real} "$@"\n'
    )
    judge.chmod(0o755)
    monkeypatch.setenv("ringplan", str(judge))


@over_both
def test_a_no_of_the_judge_stops_the_runner(bench: Bench, monkeypatch: pytest.MonkeyPatch) -> None:
    change_entry(bench, 0, "do 17 = ok", monkeypatch)
    code, _, err = bench.run("apply")
    assert (code, err) == (Status.REFUSED, "ringplan-run: the judge says no 70 0 40\n")
    assert bench.steps("begin") == [0]
    assert bench.run("judge")[:2] == (1, "no 70 0 40\n")


@over_both
def test_a_board_keeps_claims_apart(address: str) -> None:
    see_claims_apart(open_board(address))


@over_etcd
@pytest.mark.parametrize("what", ["before", "after"])
def test_a_board_keeps_claims_apart_whichever_answer_is_lost(
    address: str, what: str, monkeypatch: pytest.MonkeyPatch
) -> None:
    for number in itertools.count():
        rest = itertools.chain(itertools.repeat("", number), [what], itertools.repeat(""))
        with monkeypatch.context() as patch:
            lost = lose_answers(patch, rest.__next__)
            see_claims_apart(open_board(f"{address}-{number}"))
        if not lost:
            break
    assert number > 20


@over_etcd
def test_of_two_runners_that_change_a_board_at_once_one_looks_again(
    address: str, monkeypatch: pytest.MonkeyPatch
) -> None:
    names = [Name("join", -1, -1, node, 0) for node in "de"]
    boards = [EtcdBoard(address, is_new=True, lease=30) for _ in range(2)]
    for board in boards:
        board.begin(REPLACE, names)
    transact = gateway.Etcd.transact
    between: list[Callable[[], object]] = []

    def late(
        self: gateway.Etcd,
        compares: Sequence[gateway.Json],
        changes: Sequence[gateway.Json],
        reads: Sequence[gateway.Json] = (),
    ) -> object:
        if self is boards[0].etcd and changes and between:
            between.pop()()
        return transact(self, compares, changes, reads)

    monkeypatch.setattr(gateway.Etcd, "transact", late)
    other = list[Claim | float]()
    between.append(lambda: other.append(claim_of(boards[1], "w", names)))
    assert claim_of(boards[0], "w", names[:1]) == 0.0
    one, (two,) = claim_of(boards[0], "w", names), other
    assert not isinstance(one, float) and not isinstance(two, float)
    assert (one.name, two.name) == (names[1], names[0])
    between.append(functools.partial(boards[1].note, two, [Note("do")], is_done=True))
    boards[0].note(one, [Note("do")], is_done=True)
    assert boards[0].record().entries == ["do 0 = ok", "do 1 = ok"]
    for board in boards:
        board.end()


def see_claims_apart(board: Board) -> None:
    steps = [
        texts.StepLine(0, "copy", (), 0, 1, to="d", sources=("b",)),
        texts.StepLine(1, "copy", (), 0, 1, to="d", sources=("c",)),
    ]
    first, second = names_of(steps)
    assert (first, second) == (Name("copy", 0, 1, "d", 0), Name("copy", 0, 1, "d", 1))
    board.begin(REPLACE, [first, second])
    one = claim_of(board, "w1", [first, second])
    two = claim_of(board, "w2", [first, second])
    assert not isinstance(one, float) and not isinstance(two, float)
    assert (one.name, two.name) == (first, second)
    assert not one.is_again and board.until(one) > now()
    assert claim_of(board, "w3", [first, second]) == LOOK
    board.note(one, [Note("open"), Note("chunk", 3)])
    board.give_back(one, Tries(1).later(600))
    with pytest.raises(Stop):
        board.note(one, [Note("close")], is_done=True)
    soonest = claim_of(board, "w3", [first])
    assert isinstance(soonest, float) and LOOK < soonest < 601
    board.retry(0)
    again = claim_of(board, "w3", [first, second])
    assert not isinstance(again, float)
    assert (again.is_again, again.is_open, again.marks, again.tries) == (
        True,
        True,
        frozenset({3}),
        Tries(),
    )
    board.note(again, [Note("close")], is_done=True)
    assert board.record().entries == ["open 0 = ok", "chunk 0 3 = ok", "close 0 = ok"]
    with contextlib.suppress(Stop):
        board.retry(0)
        pytest.fail("a step that is done is not tried again")
    with pytest.raises(Stop, match="there is no step 2"):
        board.retry(2)
    board.end()


@over_etcd
def test_a_no_on_the_way_is_seen_where_answers_are_lost(
    bench: Bench, monkeypatch: pytest.MonkeyPatch
) -> None:
    lost = lose_answers(monkeypatch, at_random(1))
    test_a_no_on_the_way_lets_no_further_step_begin(bench, monkeypatch)
    assert lost["before"] > 9 and lost["after"] > 9


@over_both
def test_a_no_on_the_way_lets_no_further_step_begin(
    bench: Bench, monkeypatch: pytest.MonkeyPatch
) -> None:
    change_entry(bench, 49, "do 0 = ok", monkeypatch)
    steps = texts.read_steps(programs.ask("steps", REPLACE).text)
    board = open_board(bench.board)
    board.begin(REPLACE, names_of(steps))
    with pytest.raises(Stop, match="the judge says no 70 49 41") as stop:
        runner.Runner(
            board, Hooks(str(bench.folder / "hooks"), str(bench.folder / "locks")), runner.Options()
        ).run()
    assert stop.value.status == Status.REFUSED
    # The last step is the one whose entries the judge refused.
    ends = [
        place
        for place, entry in enumerate(board.record().entries)
        if entry.startswith(("do", "close"))
    ]
    assert ends[-2] < 49 <= ends[-1]
    assert len(bench.steps("begin")) == len(bench.steps("end")) == len(ends)
    board.end()


@over_etcd
@pytest.mark.parametrize("seed", range(3))
def test_two_runners_share_a_plan_and_one_is_killed(bench: Bench, seed: int) -> None:
    draw = random.Random(seed)
    bench.hooks(0.3)
    both = [bench.start("apply", machine=machine) for machine in ("one", "two")]
    bench.wait_for("begin", draw.randrange(18))
    time.sleep(0.3 * draw.random())
    killed = both.pop(draw.randrange(2))
    killed.kill()
    outs = [process.communicate(timeout=LONG) for process in (killed, *both)]
    assert both[0].returncode == Status.DONE, outs
    assert outs[1][0].splitlines()[-1] == "18 of 18 steps are done, and the judge says yes"
    assert bench.steps("twice") == []
    assert set(bench.steps("end")) == set(range(18))
    done = [
        line.split()[1] for out, _ in outs for line in out.splitlines() if line.startswith("done ")
    ]
    # The runner that was killed may have noted a step, and not have printed it.
    assert len(done) == len(set(done)) >= 17
    assert bench.run("judge")[0] == 0


@over_etcd
def test_two_runners_end_a_plan_together(bench: Bench) -> None:
    bench.hooks(0.3)
    bench.lease = "60"
    both = [bench.start("apply", machine=machine) for machine in ("one", "two")]
    outs = [process.communicate(timeout=LONG)[0] for process in both]
    assert [process.returncode for process in both] == [Status.DONE, Status.DONE]
    assert all(
        out.endswith("18 of 18 steps are done, and the judge says yes\n") for out in outs
    ), outs
    assert sorted(map(str, bench.steps("begin"))) == sorted(map(str, range(18)))
    assert bench.run("status")[1] == "18 of 18 steps are done; no runner works with the board\n"


@over_etcd
@pytest.mark.parametrize("seed", range(3))
def test_two_runners_do_each_step_once_where_answers_are_lost(
    bench: Bench, seed: int, monkeypatch: pytest.MonkeyPatch
) -> None:
    steps = texts.read_steps(programs.ask("steps", REPLACE).text)
    lost = lose_answers(monkeypatch, at_random(seed))
    # Bounds so low that each is reached.
    for bound, value in (("PIECE", 100), ("LOOKED", 1), ("PAGE", 7)):
        monkeypatch.setattr(etcd, bound, value)
    runners = []
    for machine in ("one", "two"):
        board = open_board(bench.board)
        board.begin(REPLACE, names_of(steps))
        runners.append(
            runner.Runner(
                board,
                Hooks(str(bench.folder / "hooks"), str(bench.folder / machine)),
                runner.Options(workers=2),
            )
        )
    with concurrent.futures.ThreadPoolExecutor() as pool:
        assert [*pool.map(runner.Runner.run, runners)] == [Status.DONE, Status.DONE]
    assert sorted(map(str, bench.steps("begin"))) == sorted(map(str, range(18)))
    assert Counter(line.split()[0] for line in board.record().entries) == Counter(
        do=14, open=4, chunk=64, close=4
    )
    assert lost["before"] > 9 and lost["after"] > 9
    for one in runners:
        one.board.end()


@pytest.fixture
def own_server(tmp_path: pathlib.Path, monkeypatch: pytest.MonkeyPatch) -> Iterator[Server]:
    monkeypatch.chdir(tmp_path)
    it = Server(tmp_path)
    yield it
    it.kill()


def test_an_etcd_that_is_killed_and_comes_back_loses_nothing(
    own_server: Server, tmp_path: pathlib.Path
) -> None:
    bench = Bench(tmp_path, own_server.address("plan"))
    bench.hooks(0.3)
    bench.lease = "100"
    process = bench.start("apply", "--workers", "2")
    for step in (2, 8):
        bench.wait_for("begin", step)
        own_server.kill()
        time.sleep(1.0)
        own_server.start()
    _, err = process.communicate(timeout=LONG)
    assert process.returncode == Status.DONE, err
    assert sorted(map(str, bench.steps("begin"))) == sorted(map(str, range(18)))
    assert bench.run("judge")[0] == 0


def test_a_runner_that_cannot_renew_its_lease_ends_its_hooks(
    own_server: Server, tmp_path: pathlib.Path
) -> None:
    bench = Bench(tmp_path, own_server.address("plan"))
    bench.hooks(1000.0, "join")
    bench.lease = "20"
    process = bench.start("apply")
    bench.wait_for("begin", 0)
    own_server.processes[0].send_signal(signal.SIGSTOP)
    (hook,) = bench.hooks_of(process)
    begun = time.monotonic()
    while hook in bench.hooks_of(process):
        assert time.monotonic() < begun + float(bench.lease)
        time.sleep(0.02)
    bench.hooks(0.0, "join")
    own_server.processes[0].send_signal(signal.SIGCONT)
    _, err = process.communicate(timeout=LONG)
    assert process.returncode == Status.DONE, err
    assert [
        line.get("again") for word, line in bench.log() if word == "begin" and line["step"] == 0
    ] == [None, True]


def test_an_etcd_that_does_not_come_back_is_told(
    own_server: Server, tmp_path: pathlib.Path
) -> None:
    board = EtcdBoard(own_server.address("plan"), is_new=True, lease=12)
    name = Name("join", -1, -1, "d", 0)
    board.begin(REPLACE, [name])
    claim = claim_of(board, "w", [name])
    assert not isinstance(claim, float) and board.until(claim) > now()
    own_server.kill()
    board.etcd.patience = 0.5
    with pytest.raises(Stop, match="does not answer") as stop:
        board.note(claim, [Note("do")], is_done=True)
    assert stop.value.status == Status.FAULT
    until = functools.partial(board.until, claim)
    wait_until(lambda: until() < now())


@over_etcd
def test_a_claim_whose_lease_ended_notes_nothing(address: str) -> None:
    name = Name("join", -1, -1, "d", 0)
    boards = [EtcdBoard(address, is_new=True, lease=10) for _ in range(2)]
    for board in boards:
        board.begin(REPLACE, [name])
    old = claim_of(boards[0], "w", [name])
    assert not isinstance(old, float)
    assert claim_of(boards[1], "w", [name]) == LOOK
    # The first runner's lease is no longer renewed.
    boards[0].over.set()
    until = time.monotonic() + LONG
    while isinstance(new := claim_of(boards[1], "w", [name]), float):
        assert time.monotonic() < until
        time.sleep(0.1)
    assert new.is_again and boards[1].until(new) > now() > boards[0].until(old)
    with pytest.raises(ClaimEnded):
        boards[0].note(old, [Note("do")], is_done=True)
    boards[1].note(new, [Note("do")], is_done=True)
    assert boards[0].record().entries == ["do 0 = ok"]
    boards[1].end()
