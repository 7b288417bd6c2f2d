"""A history given to the judge while it grows: yes so far, the first wrong entry, and more entries
than `replay` reads.
"""

from __future__ import annotations

import pathlib
import signal
import time
from collections.abc import Callable, Iterator

import pytest

from ringplan import programs
from ringplan.watching import Watch

TOP = pathlib.Path(__file__).parents[2]
MOVE = (TOP / "examples/replay_a_move.bundle").read_text()
FRONT, HISTORY = (
    MOVE[: MOVE.index("history 1\n")],
    MOVE[MOVE.index("history 1\n") :].splitlines()[1:-1],
)


@pytest.fixture
def watch() -> Iterator[Watch]:
    try:
        one = Watch(FRONT)
    except programs.NoProgram as error:
        pytest.skip(str(error))
    yield one
    one.close()


def test_the_judge_says_yes_to_each_entry(watch: Watch) -> None:
    for place, entry in enumerate(HISTORY, 1):
        watch.give([entry])
        assert (watch.wait(), watch.count) == ("", place)
    assert watch.end() == programs.Answer(programs.ask("replay", MOVE).text, "", 0)
    assert watch.no() == ""


@pytest.mark.parametrize("place", [0, 3, len(HISTORY) - 1])
def test_the_first_wrong_entry_is_named(watch: Watch, place: int) -> None:
    watch.give([*HISTORY[:place], "do 99 = ok", *HISTORY[place:]])
    assert (watch.wait(), watch.count) == (f"no 70 {place} 47", place)
    watch.give(HISTORY)
    assert watch.end() == programs.Answer(f"no 70 {place} 47\n", "", 1)


def test_a_plan_that_is_refused() -> None:
    bundle = (TOP / "examples/copy_in_no_chain.bundle").read_text()
    try:
        one = Watch(bundle)
    except programs.NoProgram as error:
        pytest.skip(str(error))
    one.give(["do 0 = ok"])
    assert one.end() == programs.ask("check", bundle)._replace(errors="") and one.no().startswith(
        "no "
    )


def test_past_a_million_entries_the_judge_goes_on(watch: Watch) -> None:
    for _ in range(101):
        watch.give(["down a = ok", "up a = ok"] * 5000)
    assert (watch.wait(), watch.count) == ("", 1_010_000)
    watch.give(["up a = ok"])
    assert watch.wait() == "no 70 1010000 41"


def test_a_program_that_cannot_be_run(
    tmp_path: pathlib.Path, monkeypatch: pytest.MonkeyPatch
) -> None:
    monkeypatch.setenv("ringplan", str(tmp_path))
    with pytest.raises(programs.NoProgram, match="cannot be run: Permission denied"):
        Watch(FRONT)
    monkeypatch.setenv("ringplan", "/bin/true")
    silent = Watch(FRONT)
    with pytest.raises(programs.NoProgram, match="/bin/true watch ended with 0, without an answer"):
        silent.give(HISTORY)
        silent.wait()


@pytest.mark.parametrize("first", ["", "echo so far 1; "])
def test_a_judge_that_hangs_is_killed(
    tmp_path: pathlib.Path, monkeypatch: pytest.MonkeyPatch, first: str
) -> None:
    program = tmp_path / "ringplan"
    # The shell waits for a process that has its standard output too.
    program.write_text(f"#!/bin/sh\n{first}sleep 1000\nexit 0\n")
    program.chmod(0o755)
    monkeypatch.setenv("ringplan", str(program))
    calls: list[tuple[Callable[[Watch], object], str]]
    calls = [(Watch.wait, "said"), (Watch.end, "said"), (fill, "read")]
    for call, word in calls:
        one = Watch(FRONT, silence=0.5)
        one.give(HISTORY)
        began = time.monotonic()
        with pytest.raises(
            programs.NoProgram, match=f"{program} watch has {word} nothing for 0.5 seconds"
        ):
            call(one)
        one.close()
        assert one.process.returncode == -signal.SIGKILL and time.monotonic() - began < 30


def fill(watch: Watch) -> None:
    """Gives more than a pipe holds."""
    watch.give(["down a = ok", "up a = ok"] * 100_000)


def test_a_judge_that_hangs_ends_with_the_watch(
    tmp_path: pathlib.Path, monkeypatch: pytest.MonkeyPatch
) -> None:
    program = tmp_path / "ringplan"
    program.write_text("#!/bin/sh\nexec sleep 1000\n")
    program.chmod(0o755)
    monkeypatch.setenv("ringplan", str(program))
    one = Watch(FRONT, silence=0.5)
    one.close()
    assert one.process.returncode == -signal.SIGKILL
