"""What a runner says of its plan: time left, JSON, metrics that Prometheus reads, and pages that
ask for a token; then limits, times of day, events, and lists of boards.
"""

from __future__ import annotations

import json
import os
import pathlib
import shutil
import subprocess
import time

import pytest
from bench import GROW, LONG, Bench
from test_page import reply
from test_runner import address, bench, over_both, server, wait_until

from ringplan.run.board import Name, State, Status, Tries
from ringplan.run.report import Pace, pace_of, span

__all__ = ["address", "bench", "server"]

COPIES = [Name("copy", 0, 1, "d", 0), Name("copy", 1, 1, "d", 0), Name("copy", 2, 1, "d", 0)]


def state(number: int, since: float, ended: float, chunks: int = 0, worker: str = "") -> State:
    return State(number, COPIES[number], worker, since, Tries(), True, bool(ended), ended, chunks)


def test_time_left_by_sizes_and_spans() -> None:
    # Two copies ran together for 10 of 30 seconds, and a third one has run for 20 with half its
    # chunks.
    states = [state(0, 100.0, 120.0), state(1, 110.0, 130.0), state(2, 280.0, 0.0, 8, "worker 0")]
    pace = pace_of(states, {"0": 1000, "1": 2000, "2": 8000}, 300.0)
    assert (pace.done, pace.whole, pace.busy) == (7000.0, 11000, 50.0)
    assert pace.rate(300.0) == 140.0 and pace.left(300.0) == pytest.approx(4000 / 140)
    assert pace.words(300.0) == "7 k of 11 k are copied, 140 a second, 29 s left"
    # Without sizes each copy counts as one.
    assert pace_of(states, {}, 300.0).words(300.0) == "2 of 3 copies are done, 10 s left"
    # A short time between steps counts.
    states[2] = state(2, 180.0, 0.0, 8, "worker 0")
    assert pace_of(states, {}, 200.0).busy == 100.0
    assert (span(119), span(600), span(7500)) == ("119 s", "10 min", "2 h 05 min")


def test_time_left_of_a_runner() -> None:
    pace = Pace(COPIES, {"0": 10, "1": 10, "2": 20})
    pace.give(COPIES[0], 16, is_seen=False)
    assert pace.left(0.0) is None
    pace.begin(100.0)
    pace.begin(105.0)
    pace.give(COPIES[2], 4)
    pace.give(COPIES[2], 8)
    pace.end(107.0)
    assert (pace.done, pace.rate(110.0), pace.left(110.0)) == (20.0, 1.0, 20.0)
    pace.end(110.0)
    # Nothing runs for a while.
    assert pace.left(900.0) == 20.0
    # Another plan has other copies; what was measured stays.
    pace.load(COPIES[:2], {"0": 10, "1": 30})
    assert (pace.whole, pace.done, pace.rate(900.0)) == (40, 0.0, 1.0)


@over_both
def test_status_says_how_long_copies_take(bench: Bench) -> None:
    layout = bench.folder / "layout"
    layout.write_text("layout 1\n# sizes\nsize 0 3000000\nsize 3 500\nend\n")
    bench.hooks(0.3, "copy")
    bench.answer(6, 1)
    assert (
        bench.run("apply", "--layout", str(layout), "--give-up", "1", "--workers", "4")[0]
        == Status.GIVEN_UP
    )
    code, out, _ = bench.run("status")
    assert (
        code == Status.GIVEN_UP
        and " of 3 M are copied, " in out.splitlines()[1]
        and out.splitlines()[1].endswith(" left")
    )
    assert (
        "    `ringplan-run retry 6` tries it again, `ringplan-run leave 1.1` leaves its slot with"
        " its owner, `ringplan-run around --dead NODE` goes on" in out
    )
    found = json.loads(bench.run("status", "--format", "json")[1])
    assert (
        found["unit"] == "size"
        and found["to_copy"] == 3000502
        and 0 < found["copied"] < found["to_copy"]
        and found["rate"] > 0
        and found["left"] > 0
    )
    layout.write_text("layout 1\nsize 77 5\nend\n")
    code, out, err = bench.run("apply", "--layout", str(layout))
    assert code == Status.FAULT and out == "" and "77" in err and "Traceback" not in err


@over_both
def test_metrics_and_status_of_the_page(bench: Bench) -> None:
    if shutil.which("promtool") is None:
        pytest.skip("prometheus is not installed")
    bench.hold(2)
    bench.answer(6, 1)
    process = bench.start("apply", "--serve", "0", "--workers", "2", "--give-up", "1")
    assert process.stderr is not None
    page = process.stderr.readline().split()[-1]
    bench.wait_for("begin", 2)
    wait_until(lambda: bool(json.loads(reply(page, "/status.json")[2])["begun"]))
    status, headers, text = reply(page, "/metrics")
    assert status == 200 and headers["Content-Type"].startswith("text/plain; version=0.0.4")
    ran = subprocess.run(
        ["promtool", "check", "metrics"], input=text, capture_output=True, text=True
    )
    assert (ran.returncode, ran.stdout, ran.stderr) == (0, "", "")
    values = dict(line.rsplit(" ", 1) for line in text.splitlines() if not line.startswith("#"))
    assert (
        values['ringplan_steps{state="running"}'] == "1"
        and float(values["ringplan_oldest_step_seconds"]) > 0
    )
    # Two joins or mirrors are done, and the copy is open.
    assert (
        values["ringplan_watch_ok"] == "1"
        and int(values["ringplan_watched_entries"]) > 1
        and 0 <= float(values["ringplan_last_entry_seconds"]) < LONG
    )
    assert values['ringplan_hooks_total{kind="join",end="done"}'] == "1"
    assert ("ringplan_lease_left_seconds" in values) == bench.board.startswith("etcd")
    bench.let_go(2)
    process.communicate(timeout=LONG)
    assert process.returncode == Status.GIVEN_UP


def test_a_page_elsewhere_has_a_token(bench: Bench) -> None:
    bench.hold(0)
    pages = list[str]()
    for turn in range(2):
        process = bench.start("apply", "--serve", "0", "--listen", "0.0.0.0")
        assert process.stderr is not None
        pages.append(process.stderr.readline().split()[-1])
        token = pages[-1].split("/")[3]
        assert len(token) >= 32
        for path, wanted in (
            (f"/{token}/", 200),
            (f"/{token}/now", 200),
            (f"/{token}/status.json", 200),
            ("/", 404),
            ("/now", 404),
            (f"/{token[:-1]}x/", 404),
        ):
            assert reply(pages[-1], path, host="example.org")[0] == wanted
        if turn:
            bench.let_go(0)
        else:
            process.kill()
            for hook in bench.hooks_of(process):
                os.kill(hook, 9)
        process.communicate(timeout=LONG)
    # A restart keeps the token, and nobody else may read it.
    assert pages[0].split("/")[3] == pages[1].split("/")[3]
    assert pathlib.Path(f"{bench.board}.hooks/token").stat().st_mode & 0o777 == 0o600


@over_both
def test_limits_hold_while_a_runner_works(bench: Bench) -> None:
    bench.bundle.write_text(GROW)
    bench.answer(0, 1)
    assert bench.run("apply", "--give-up", "1")[0] == Status.GIVEN_UP
    bench.answer(0, 0)
    assert bench.run("retry", "0")[0] == bench.run("limit", "1")[0] == Status.DONE
    bench.hold(2, 6)
    process = bench.start("apply", "--workers", "4")
    bench.wait_for("begin", 2)
    time.sleep(2.0)
    assert (
        6 not in bench.steps("begin")
        and len(bench.steps("begin")) == len(bench.steps("end")) + len(bench.steps("fail")) + 1
    )
    # Both copies fill one node.
    assert bench.run("limit", "--node", "elm=1")[0] == Status.DONE
    bench.wait_for("begin", 5)
    time.sleep(2.0)
    assert 6 not in bench.steps("begin")
    assert bench.run("limit")[0] == Status.DONE
    bench.wait_for("begin", 6)
    bench.let_go(2)
    bench.let_go(6)
    process.communicate(timeout=LONG)
    assert process.returncode == Status.DONE
    assert bench.run("limit", "0")[0] == bench.run("limit", "--node", "elm")[0] == Status.FAULT


def test_copies_wait_for_their_time_of_day(bench: Bench) -> None:
    clock = time.localtime(time.time() + 7200)
    process = bench.start("apply", "--only-between", f"{clock.tm_hour:02}:00-{clock.tm_hour:02}:59")
    bench.wait_for("end", 1)
    time.sleep(2.0)
    assert set(bench.steps("begin")) == {0, 1}
    process.send_signal(2)
    assert process.wait(timeout=LONG) == Status.STOPPED
    assert bench.run("apply", "--only-between", "25:00-26:00")[0] == Status.FAULT


def test_events_go_to_a_command(bench: Bench) -> None:
    events, command = bench.folder / "events", bench.folder / "command"
    command.write_text(f"#!/bin/sh\ncat >> {events}\n")
    command.chmod(0o755)
    bench.answer(2, 7)
    assert bench.run("apply", "--give-up", "1", "--on-event", str(command))[0] == Status.GIVEN_UP
    bench.answer(2, 0)
    assert bench.run("retry", "2")[0] == Status.DONE
    assert bench.run("apply", "--on-event", str(command))[0] == Status.DONE
    wait_until(lambda: len(events.read_text().splitlines()) == 2)
    first, last = map(json.loads, events.read_text().splitlines())
    assert (first["event"], first["step"], first["why"], first["lines"]) == (
        "given up",
        2,
        "ended with 7",
        ["copy 2 is not done"],
    )
    assert (last["event"], last["done"], last["steps"]) == ("done", 18, 18)


def test_a_hook_that_finds_a_node_dead_is_given_up_at_once(bench: Bench) -> None:
    events, command = bench.folder / "events", bench.folder / "command"
    command.write_text(f"#!/bin/sh\ncat >> {events}\n")
    command.chmod(0o755)
    bench.answer(2, 69)
    code, _, err = bench.run("apply", "--on-event", str(command))
    assert (
        code == Status.GIVEN_UP
        and "2 copy 0 1 d: found a node dead (ended with 69), 1 failure, given up\n" in err
    )
    wait_until(lambda: events.exists() and events.read_text().endswith("\n"))
    (event,) = map(json.loads, events.read_text().splitlines())
    assert (event["event"], event["step"], event["nodes"], event["lines"]) == (
        "a node is dead",
        2,
        ["b", "d"],
        ["copy 2 is not done"],
    )
    assert bench.run("around", "--dead", "b")[0] == Status.DONE
    assert "down b = ok" in bench.run("history")[1].splitlines()
    bench.answer(2, 0)
    assert bench.run("apply")[0] == Status.DONE


@over_both
def test_the_bundle_of_a_board(bench: Bench) -> None:
    assert bench.run("apply")[0] == Status.DONE
    bundle, history = bench.bundle.read_text(), bench.run("history")[1]
    assert (
        bench.run("bundle")[1] == bundle and bench.run("history", "--bundle")[1] == bundle + history
    )
    assert bench.run("forget")[0] == Status.DONE
    code, _, err = bench.run("status")
    assert code == Status.FAULT and err == f"ringplan-run: there is no board {bench.board}\n"


def test_boards_of_a_folder(bench: Bench) -> None:
    place, folder = {
        **os.environ,
        "PYTHONPATH": str(pathlib.Path(__file__).parents[1]),
    }, bench.folder / "machine"
    folder.mkdir()

    def run(*words: str) -> tuple[int, str, str]:
        command = bench.command(*words)
        at = command.index("--board")
        ran = subprocess.run(
            command[:at] + command[at + 2 :], env=place, cwd=folder, capture_output=True, text=True
        )
        return ran.returncode, ran.stdout, ran.stderr

    # Without --new and without a terminal no board is made.
    words = bench.command("apply")
    words.remove("--new")
    ran = subprocess.run(words, env=place, cwd=folder, capture_output=True, text=True)
    assert (
        ran.returncode == Status.OTHER_PLAN
        and "`apply --new` makes it" in ran.stderr
        and bench.log() == []
    )
    assert run("status")[0] == Status.FAULT
    assert run("apply", "--plan-sum", "0" * 64)[0] == Status.OTHER_PLAN and not list(
        folder.iterdir()
    )
    assert run("apply")[0] == Status.DONE
    (board,) = [path.name for path in folder.glob("ringplan-*.board")]
    listed = subprocess.run(
        [*bench.command("boards")[:4]], env=place, cwd=folder, capture_output=True, text=True
    )
    assert listed.stdout == f"{board}: 18 of 18 steps are done; no runner works with it\n"
    assert run("status")[1].startswith("18 of 18 steps are done")
    assert run("forget")[0] == Status.DONE and not list(folder.iterdir())
