"""The demonstration: a right store is judged yes, and a broken one is refused."""

from __future__ import annotations

import pathlib
import re
import shutil
import sys

import pytest

from ringplan import demo, programs
from ringplan.store.broken import EXECUTORS, STORES


@pytest.fixture(autouse=True)
def program() -> None:
    try:
        programs.find()
    except programs.NoProgram as error:
        pytest.skip(str(error))


def entries_of(folder: pathlib.Path) -> list[str]:
    """The history's entries as the demonstration has written them."""
    text = (folder / "history.bundle").read_text()
    return text[text.index("history 1\n") :].splitlines()[1:-1]


def test_a_right_store_is_judged_yes(
    tmp_path: pathlib.Path, capsys: pytest.CaptureFixture[str]
) -> None:
    assert demo.demonstrate(tmp_path, "") == 0
    said = capsys.readouterr().out
    assert "34 of 34 steps" in said and "the judge says yes" in said
    counts = [
        int(count.replace(",", ""))
        for count in re.findall(r"the judge has said yes to ([0-9,]+) entries", said)
    ]
    assert counts == sorted(counts) and counts[0] < counts[-1] == len(entries_of(tmp_path))
    assert programs.ask("replay", (tmp_path / "history.bundle").read_text()).first() == "yes"
    assert (tmp_path / "picture.svg").read_text().startswith("<svg")


def test_a_broken_store_is_stopped_at_the_wrong_entry(
    tmp_path: pathlib.Path, capsys: pytest.CaptureFixture[str]
) -> None:
    assert any(demo.demonstrate(tmp_path, "ack_early") == 1 for _ in range(5))
    said = capsys.readouterr().out
    answer = re.findall(r"^the judge says (no 70 (\d+) \d+)$", said, re.M)
    assert len(answer) == 1
    # Some threads note an entry each before the answer is there.
    assert int(answer[0][1]) < len(entries_of(tmp_path)) < int(answer[0][1]) + 100
    assert programs.ask("replay", (tmp_path / "history.bundle").read_text()).first() == answer[0][0]
    data = re.findall(r"^the servers' data is as it was then, in (.*)$", said, re.M)[0]
    assert sorted(path.name for path in pathlib.Path(data).iterdir())[:7] == [
        f"n{number}" for number in range(7)
    ]
    shutil.rmtree(data)


def test_the_help_names_each_broken_store(
    monkeypatch: pytest.MonkeyPatch, capsys: pytest.CaptureFixture[str]
) -> None:
    monkeypatch.setattr(sys, "argv", ["demo", "--help"])
    with pytest.raises(SystemExit):
        demo.main()
    said = capsys.readouterr().out
    assert [
        name for name in ("latest_timestamp_wins", *STORES, *EXECUTORS) if name not in said
    ] == []
