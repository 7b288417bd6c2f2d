"""Another plan on a board, around nodes that died: while copies run, with a runner that goes on,
and where the command is killed by signal 9.
"""

from __future__ import annotations

import contextlib
import itertools
import pathlib
import random
import subprocess
import time
from collections.abc import Iterator

import pytest
from bench import GROW, LONG, Bench, Server
from test_runner import at_random, claim_of, lose_answers, open_board, over_both, over_etcd

from ringplan import programs, texts
from ringplan.run import etcd
from ringplan.run.board import (
    Board,
    Change,
    Claim,
    ClaimEnded,
    Name,
    Note,
    Record,
    Status,
    Stop,
    Tries,
)
from ringplan.run.runner import read_steps
from ringplan.run.supervisor import now

# The copies of these steps read amber and birch, and neither waits for the other.
OTHER, DEAD = 2, 6
COPIES = {f"open {step} = ok" for step in (OTHER, DEAD)}


@pytest.fixture(scope="module")
def server(tmp_path_factory: pytest.TempPathFactory) -> Iterator[Server]:
    it = Server(tmp_path_factory.mktemp("etcd"))
    yield it
    it.kill()


@pytest.fixture
def address(
    request: pytest.FixtureRequest, tmp_path: pathlib.Path, monkeypatch: pytest.MonkeyPatch
) -> str:
    monkeypatch.chdir(tmp_path)
    if request.param == "file":
        return str(tmp_path / "board")
    server: Server = request.getfixturevalue("server")
    return server.address(tmp_path.name)


@pytest.fixture
def bench(address: str, tmp_path: pathlib.Path) -> Bench:
    try:
        programs.find()
    except programs.NoProgram as error:
        pytest.skip(str(error))
    it = Bench(tmp_path, address)
    it.bundle.write_text(GROW)
    return it


def record_of(bench: Bench) -> Record:
    return open_board(bench.board).record()


def begin_copies(bench: Bench, lease: str = "100") -> "subprocess.Popen[str]":
    """A runner whose two workers have a copy open each.

    Its lease is longer than that of other commands.
    """
    bench.hold(OTHER, DEAD)
    short, bench.lease = bench.lease, lease
    process = bench.start("apply", "--workers", "2")
    bench.lease = short
    for step in (OTHER, DEAD):
        bench.wait_for("begin", step)
    until = time.monotonic() + LONG
    while not COPIES <= set(record_of(bench).entries):
        assert time.monotonic() < until
    return process


def program_that(bench: Bench, monkeypatch: pytest.MonkeyPatch, lines: str) -> None:
    """Lets the commands of the bench run a program that does `around` by these lines of the shell,
    and all else as the right one does.
    """
    path = bench.folder / "program"
    path.write_text(
        f'#!/bin/sh\nreal={programs.find()}\n[ "$1" = around ] || exec $real "$@"\n{lines}\n'
    )
    path.chmod(0o755)
    monkeypatch.setenv("ringplan", str(path))


def see_the_end(bench: Bench) -> None:
    """The plan is done, its history is a run of it, and no step was done by two at once."""
    assert bench.run("apply", "--workers", "2")[0] == Status.DONE
    assert bench.steps("twice") == []
    record = record_of(bench)
    assert programs.ask("replay", record.text()).first() == "yes"
    assert sum(line.split()[0] in ("do", "close") for line in record.entries) == len(
        read_steps(record.bundle)[0]
    )
    assert bench.run("history")[1].splitlines()[1:-1] == record.entries


def see_copies(bench: Bench) -> None:
    """Each copy began once, but for the one that read birch: it began again from two others."""
    begun = [
        (line["step"], line.get("from"), line.get("slots"), line.get("again"))
        for word, line in bench.log()
        if word == "begin" and line["do"] == "copy"
    ]
    assert begun.count((OTHER, ["amber"], None, None)) == 1
    assert begun.count((DEAD, ["birch"], None, None)) == 1
    assert begun.count((DEAD, ["cedar", "dune"], [1, 2], True)) == 1 and len(begun) == 5


@over_both
def test_a_runner_goes_on_by_another_plan(bench: Bench) -> None:
    process = begin_copies(bench)
    before = record_of(bench)
    marked = before._replace(entries=[*before.entries, "down birch = ok"])
    asked = programs.ask("around", marked.text(), "--dead", "birch")
    assert bench.run("around", "--dead", "birch") == (
        Status.DONE,
        "3 of 16 steps of the new plan are done\n",
        asked.errors,
    )
    after = record_of(bench)
    # The runner may have begun the copy anew by now.
    kept = [line for line in marked.entries if line != f"open {DEAD} = ok"]
    assert (
        after.text().startswith(asked.text.removesuffix("end\n"))
        and after.entries[: len(kept)] == kept
    )
    # The copy that read birch is told to stop. The other one goes on.
    bench.wait_for("begin", DEAD, 2)
    bench.let_go(DEAD)
    bench.let_go(OTHER)
    out, err = process.communicate(timeout=LONG)
    assert process.returncode == Status.DONE, err
    assert "the board has another plan: " in out and out.endswith(
        "16 of 16 steps are done, and the judge says yes\n"
    )
    see_copies(bench)
    assert len(bench.steps("end")) == 16
    # The bundle with which it began has become the other one; a third one has not.
    see_the_end(bench)
    bench.bundle.write_text(
        (bench.bundle.read_text()).replace("node amber 2 in", "node amber 3 in")
    )
    assert bench.run("apply")[0] == Status.OTHER_PLAN


@over_both
def test_without_a_runner_the_next_one_goes_on(bench: Bench) -> None:
    process = begin_copies(bench, bench.lease)
    process.kill()
    process.wait()
    code, out, err = bench.run("around", "--dead", "birch", "--dead", "elm", "--back")
    assert (code, out) == (Status.DONE, "1 of 4 steps of the new plan are done\n"), err
    assert "2 slots are no longer mirrored to elm (2)" in err
    for step in (OTHER, DEAD):
        bench.let_go(step)
    see_the_end(bench)


@over_both
def test_a_dead_node_is_down_in_the_history_once_it_is_a_member(bench: Bench) -> None:
    # elm has not joined: by the rules it cannot be down, and its moves go elsewhere.
    bench.answer(0, 1)
    assert bench.run("apply", "--give-up", "1")[0] == Status.GIVEN_UP
    code, _, err = bench.run("around", "--dead", "elm", "--dead", "birch")
    assert code == Status.DONE, err
    assert [line for line in record_of(bench).entries if line.startswith("down")] == [
        "down birch = ok"
    ]
    # A second plan finds it down already.
    code, _, err = bench.run("around", "--dead", "birch", "--dead", "elm")
    assert code == Status.DONE, err
    assert record_of(bench).entries.count("down birch = ok") == 1
    bench.answer(0, 0)
    see_the_end(bench)


@over_both
def test_a_change_comes_to_rest(bench: Bench) -> None:
    process = begin_copies(bench, bench.lease)
    process.kill()
    process.wait()
    before = record_of(bench)
    code, _, err = bench.run("around")
    assert code == Status.FAULT and err.startswith("ringplan-run: the board is as it was:\nerror: ")
    assert record_of(bench) == before
    code, _, err = bench.run("around", "--rest")
    assert code == Status.DONE, err
    for step in (OTHER, DEAD):
        bench.let_go(step)
    see_the_end(bench)
    steps, _ = read_steps(record_of(bench).bundle)
    assert [step.do for step in steps].count("copy") == 2 and len(steps) < len(
        read_steps(before.bundle)[0]
    )
    assert programs.ask("after", record_of(bench).text()).status == 0


@over_both
def test_a_step_that_is_no_copy_is_waited_for(bench: Bench) -> None:
    bench.hold(1)
    bench.lease = "100"
    process = bench.start("apply")
    bench.wait_for("begin", 1)
    around = bench.start("around", "--dead", "birch")
    assert (
        around.stderr is not None
        and around.stderr.readline() == "waits until 1 mirror 0 0 elm is done, or failed\n"
    )
    code, _, err = bench.run("around", "--dead", "birch")
    assert (code, err) == (
        Status.OTHER_RUNNER,
        f"ringplan-run: another `around` works with the board {bench.board}\n",
    )
    bench.let_go(1)
    out, err = around.communicate(timeout=LONG)
    assert (around.returncode, out.split(" steps")[0][-5:]) == (Status.DONE, "of 16"), err
    assert process.wait(timeout=LONG) == Status.DONE
    see_the_end(bench)


@over_both
def test_a_step_that_the_new_plan_has_no_more_is_named(bench: Bench) -> None:
    bench.answer(1, 75)
    bench.lease = "100"
    process = bench.start("apply", "--pause", "600", "--longest-pause", "600")
    bench.wait_for("fail", 1)
    code, _, err = bench.run("around", "--dead", "elm")
    assert code == Status.DONE
    # The runner may have begun other steps since.
    assert (
        "mirror 0 0 elm: its hook has begun, and no step of the new plan does this"
        in err.splitlines()
    ), err
    assert process.wait(timeout=LONG) == Status.DONE
    see_the_end(bench)


@over_both
def test_where_there_is_no_plan_the_board_stays(
    bench: Bench, monkeypatch: pytest.MonkeyPatch
) -> None:
    assert bench.run("around", "--dead", "birch")[::2] == (
        Status.FAULT,
        f"ringplan-run: there is no board {bench.board}\n",
    )
    process = begin_copies(bench)
    before = record_of(bench)
    code, _, err = bench.run("around", "--dead", "nobody")
    assert (
        code == Status.FAULT
        and err.startswith("ringplan-run: the board is as it was:\nno 3 0\n")
        and "no such node" in err
    ), err
    program_that(
        bench, monkeypatch, "echo no 28\necho refused: no other plan was found >&2\nexit 1"
    )
    code, _, err = bench.run("around", "--dead", "birch")
    assert (code, err) == (
        Status.REFUSED,
        "ringplan-run: the board is as it was:\nno 28\nrefused: no other plan was found\n",
    )
    assert record_of(bench) == before
    for step in (OTHER, DEAD):
        bench.let_go(step)
    assert process.wait(timeout=LONG) == Status.DONE
    see_the_end(bench)


@over_both
def test_killed_after_it_asked_nothing_is_changed(
    bench: Bench, monkeypatch: pytest.MonkeyPatch
) -> None:
    process = begin_copies(bench)
    before = record_of(bench)
    with monkeypatch.context() as patch:
        program_that(bench, patch, f'$real "$@"\ntouch {bench.folder}/asked\nexec sleep 1000')
        around = bench.start("around", "--dead", "birch")
        until = time.monotonic() + LONG
        while not (bench.folder / "asked").exists():
            assert time.monotonic() < until
            time.sleep(0.02)
        # No step is handed out meanwhile, and the copies run on.
        bench.let_go(OTHER)
        bench.wait_for("end", OTHER)
        time.sleep(0.5)
        assert sorted(map(str, bench.steps("begin"))) == ["0", "1", "2", "5", "6"]
        (asking,) = (
            pathlib.Path(f"/proc/{around.pid}/task/{around.pid}/children").read_text().split()
        )
        around.kill()
        subprocess.run(["kill", "-9", asking], check=True)
        around.communicate()
    assert record_of(bench).bundle == before.bundle
    bench.let_go(DEAD)
    assert process.wait(timeout=LONG) == Status.DONE
    assert len(bench.steps("end")) == 17
    see_the_end(bench)


@over_both
@pytest.mark.parametrize("seed", range(4))
def test_killed_at_any_moment_there_is_one_plan_or_the_other(bench: Bench, seed: int) -> None:
    draw, process = random.Random(seed), begin_copies(bench)
    for _ in range(4):
        around = bench.start("around", "--dead", "birch")
        with contextlib.suppress(subprocess.TimeoutExpired):
            around.wait(timeout=draw.uniform(0.1, 1.0))
        around.kill()
        around.communicate()
        assert programs.ask("replay", record_of(bench).text()).first() == "yes"
    for step in (OTHER, DEAD):
        bench.let_go(step)
    assert process.wait(timeout=LONG) == Status.DONE
    see_the_end(bench)


def swap(board: Board, *dead: str) -> bool:
    """Asks for another plan, and puts it on the board."""
    known = board.record()
    *bundle, history = texts.read_texts(programs.ask("around", known.text(), *dead).text)
    assert isinstance(history, texts.History)
    text = texts.write_texts(bundle)
    return board.swap(known, Change.of(text, read_steps(text)[1], history.entries))


def see_swap(address: str) -> None:
    names, board = read_steps(GROW)[1], open_board(address)
    board.begin(GROW, names)
    for number in (0, 1, 5):
        claim = claim_of(board, "w", [names[number]])
        assert isinstance(claim, Claim)
        board.note(claim, [Note("do")], is_done=True)
    one, two = claim_of(board, "w1", [names[OTHER]]), claim_of(board, "w2", [names[DEAD]])
    assert isinstance(one, Claim) and isinstance(two, Claim)
    for claim in (one, two):
        board.note(claim, [Note("open"), Note("chunk", 3)])
    failed = claim_of(board, "w", [names[3]])
    assert isinstance(failed, Claim)
    board.give_back(failed, Tries(2, 1).later(1000))
    edition, known = see_pause(board, address, names, one)
    record = board.record()
    assert record.entries == [
        "do 0 = ok",
        "do 1 = ok",
        "do 5 = ok",
        "open 2 = ok",
        "chunk 2 3 = ok",
        "chunk 2 4 = ok",
    ]
    assert (
        programs.ask("replay", record.text()).first() == "yes"
        and "copy 1 0 slots 1 2" in record.bundle
    )
    see_claims(board, names, one, two)
    edition, states = board.states()
    assert edition != known.edition and [state.number for state in states] == list(range(16))
    assert {
        state.number: state.tries.failures
        for state in states
        if state.is_begun and not state.is_done
    } == {3: 0, 6: 0}
    assert isinstance(claim_of(board, "w", [names[3]]), Claim)
    board.end()
    see_both_plans(address, names, record.bundle)


def see_both_plans(address: str, names: list[Name], bundle: str) -> None:
    """A runner may begin with the plan that the board has, or with the one that it had."""
    for known in (GROW, bundle):
        board = open_board(address)
        board.begin(known, names)
        assert board.record().bundle == bundle
        board.end()


def see_pause(board: Board, address: str, names: list[Name], one: Claim) -> tuple[str, Record]:
    """While another plan is sought, no step is given out, and a note makes it sought again."""
    edition, other, third = board.record().edition, open_board(address), open_board(address)
    with other.pausing():
        assert board.claim("w", edition, names) is None
        with pytest.raises(Stop, match="another `around` works with"), third.pausing():
            pass
        known = other.record()
        board.note(one, [Note("chunk", 4)])
        assert not other.swap(known, Change(GROW, names, []))
        assert swap(other, "--dead", "birch")
    assert board.claim("w", edition, names) is None
    return edition, known


def see_claims(board: Board, names: list[Name], one: Claim, two: Claim) -> None:
    """A claim of the copy that is open goes on, and the one of the copy that begins again ends."""
    until = time.monotonic() + LONG
    while board.until(two) > now():
        assert time.monotonic() < until
        time.sleep(0.05)
    with pytest.raises(ClaimEnded):
        board.note(two, [Note("abort")])
    assert board.until(one) > now()
    board.note(
        one,
        [*(Note("chunk", chunk) for chunk in range(16) if chunk not in (3, 4)), Note("close")],
        is_done=True,
    )
    again = claim_of(board, "w3", [names[DEAD]])
    assert isinstance(again, Claim) and (again.is_again, again.is_open, again.marks) == (
        True,
        False,
        frozenset(),
    )


@over_both
def test_a_plan_takes_the_place_of_another(bench: Bench) -> None:
    see_swap(bench.board)


@over_etcd
@pytest.mark.parametrize("what", ["before", "after"])
def test_a_plan_takes_the_place_of_another_whichever_answer_is_lost(
    bench: Bench, what: str, monkeypatch: pytest.MonkeyPatch
) -> None:
    for bound, value in (("PIECE", 200), ("WRITTEN", 2), ("PAGE", 3)):
        monkeypatch.setattr(etcd, bound, value)
    for number in itertools.count():
        rest = itertools.chain(itertools.repeat("", 9 * number), [what], itertools.repeat(""))
        with monkeypatch.context() as patch:
            lost = lose_answers(patch, rest.__next__)
            see_swap(f"{bench.board}-{number}")
        if not lost:
            break
    assert number > 5


@over_etcd
def test_a_plan_takes_the_place_of_another_where_answers_are_lost(
    bench: Bench, monkeypatch: pytest.MonkeyPatch
) -> None:
    lost = lose_answers(monkeypatch, at_random(3))
    see_swap(bench.board)
    assert lost["before"] > 9 and lost["after"] > 9
